/* Sockets: each function is the machine's call of its name. */
#include "call.h"

#include <errno.h>
#include <fcntl.h>
#include <signal.h>
#include <sys/socket.h>
#include <unistd.h>

int socket(int family, int type, int protocol)
{
    return CALL(CALL_SOCKET, family, type, protocol);
}

int bind(int fd, const struct sockaddr *at, socklen_t size)
{
    return CALL(CALL_BIND, fd, at, size);
}

int listen(int fd, int backlog)
{
    return CALL(CALL_LISTEN, fd, backlog);
}

int accept(int fd, struct sockaddr *peer, socklen_t *size)
{
    return CALL(CALL_ACCEPT, fd, peer, size);
}

/* the machine's call has no flags */
int accept4(int fd, struct sockaddr *peer, socklen_t *size, int flags)
{
    int accepted;

    if (flags & ~(SOCK_NONBLOCK | SOCK_CLOEXEC)) {
        errno = EINVAL;
        return -1;
    }
    accepted = accept(fd, peer, size);
    if (accepted >= 0 && flags & SOCK_NONBLOCK)
        fcntl(accepted, F_SETFL, O_NONBLOCK);
    return accepted;
}

int connect(int fd, const struct sockaddr *to, socklen_t size)
{
    return CALL(CALL_CONNECT, fd, to, size);
}

int getsockname(int fd, struct sockaddr *restrict at, socklen_t *restrict size)
{
    return CALL(CALL_GETSOCKNAME, fd, at, size);
}

int getpeername(int fd, struct sockaddr *restrict peer, socklen_t *restrict size)
{
    return CALL(CALL_GETPEERNAME, fd, peer, size);
}

static ssize_t send_some(int fd, const void *bytes, size_t size, int flags, const struct sockaddr *to, socklen_t to_size)
{
    int told = !(flags & MSG_NOSIGNAL) && handles_broken_pipes();
    ssize_t sent = CALL(CALL_SENDTO, fd, bytes, size, told ? flags | MSG_NOSIGNAL : flags, to, to_size);

    if (sent < 0 && errno == EPIPE && told) {
        raise(SIGPIPE);
        errno = EPIPE;
    }
    return sent;
}

/* goes on until all is sent or would block, as `write` does */
ssize_t sendto(int fd, const void *bytes, size_t size, int flags, const struct sockaddr *to, socklen_t to_size)
{
    const char *from = bytes;
    size_t done = 0;

    do {
        ssize_t some = send_some(fd, from + done, size - done, flags, to, to_size);

        if (some <= 0)
            return done ? (ssize_t)done : some;
        done += (size_t)some;
    } while (done < size);
    return (ssize_t)done;
}

ssize_t send(int fd, const void *bytes, size_t size, int flags)
{
    return sendto(fd, bytes, size, flags, 0, 0);
}

ssize_t recvfrom(int fd, void *restrict into, size_t size, int flags, struct sockaddr *restrict from,
                 socklen_t *restrict from_size)
{
    return CALL(CALL_RECVFROM, fd, into, size, flags, from, from_size);
}

ssize_t recv(int fd, void *into, size_t size, int flags)
{
    return recvfrom(fd, into, size, flags, 0, 0);
}

int setsockopt(int fd, int level, int option, const void *value, socklen_t size)
{
    return CALL(CALL_SETSOCKOPT, fd, level, option, value, size);
}

int getsockopt(int fd, int level, int option, void *restrict value, socklen_t *restrict size)
{
    return CALL(CALL_GETSOCKOPT, fd, level, option, value, size);
}

int shutdown(int fd, int how)
{
    return CALL(CALL_SHUTDOWN, fd, how);
}

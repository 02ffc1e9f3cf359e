/* Descriptors: files, pipes, counters and what stands for them. */
#include "call.h"

#include <errno.h>
#include <fcntl.h>
#include <poll.h>
#include <signal.h>
#include <stdarg.h>
#include <sys/eventfd.h>
#include <sys/ioctl.h>
#include <sys/socket.h>
#include <unistd.h>

/* which of the machine's 256 descriptors are eventfds */
static char is_eventfd[256];

int openat(int directory, const char *path, int flags, ...)
{
    return CALL(CALL_OPENAT, directory, path, flags);
}

int open(const char *path, int flags, ...)
{
    return openat(AT_FDCWD, path, flags);
}

int creat(const char *path, mode_t mode)
{
    return open(path, O_WRONLY | O_CREAT | O_TRUNC, mode);
}

int close(int fd)
{
    int closed = CALL(CALL_CLOSE, fd);

    if (closed == 0)
        is_eventfd[fd] = 0;
    return closed;
}

int pipe2(int ends[2], int flags)
{
    return CALL(CALL_PIPE2, ends, flags);
}

int pipe(int ends[2])
{
    return pipe2(ends, 0);
}

ssize_t read(int fd, void *into, size_t size)
{
    return CALL(CALL_READ, fd, into, size);
}

/* a write to a pipe or a socket that may be broken, without the end by SIGPIPE */
static ssize_t write_or_epipe(int fd, const void *bytes, size_t size)
{
    struct pollfd end = {.fd = fd};
    ssize_t sent = send(fd, bytes, size, 0);

    if (sent >= 0 || errno != ENOTSOCK)
        return sent;
    if (poll(&end, 1, 0) == 1 && end.revents & POLLERR) {
        errno = EPIPE;
        raise(SIGPIPE);
        return -1;
    }
    return CALL(CALL_WRITE, fd, bytes, size);
}

static ssize_t write_some(int fd, const void *bytes, size_t size)
{
    if (fd > STDERR_FILENO && handles_broken_pipes())
        return write_or_epipe(fd, bytes, size);
    return CALL(CALL_WRITE, fd, bytes, size);
}

/* The machine's call writes what there is room for; this one goes on until all is written or the descriptor would block,
 * as Linux does. Of an eventfd that is one number, also where more bytes are given. */
ssize_t write(int fd, const void *bytes, size_t size)
{
    const char *from = bytes;
    size_t done = 0;

    do {
        ssize_t some = write_some(fd, from + done, size - done);

        if (some <= 0)
            return done ? (ssize_t)done : some;
        done += (size_t)some;
    } while (done < size && !is_eventfd[fd]);
    return (ssize_t)done;
}

int eventfd(unsigned count, int flags)
{
    int fd = CALL(CALL_EVENTFD2, count, flags);

    if (fd >= 0)
        is_eventfd[fd] = 1;
    return fd;
}

int eventfd_read(int fd, eventfd_t *count)
{
    return read(fd, count, sizeof *count) == sizeof *count ? 0 : -1;
}

int eventfd_write(int fd, eventfd_t number)
{
    return write(fd, &number, sizeof number) == sizeof number ? 0 : -1;
}

int fcntl(int fd, int command, ...)
{
    va_list rest;
    long argument;

    va_start(rest, command);
    argument = va_arg(rest, long);
    va_end(rest);
    return CALL(CALL_FCNTL, fd, command, argument);
}

/* There is no such call; what programs most ask of it is what fcntl does. */
int ioctl(int fd, unsigned long request, ...)
{
    va_list rest;
    int *value;

    if (request != FIONBIO) {
        errno = ENOSYS;
        return -1;
    }
    va_start(rest, request);
    value = va_arg(rest, int *);
    va_end(rest);
    return fcntl(fd, F_SETFL, *value ? O_NONBLOCK : 0);
}

/* nothing here is a terminal */
int isatty(int fd)
{
    if (fcntl(fd, F_GETFD) == 0)
        errno = ENOTTY;
    return 0;
}

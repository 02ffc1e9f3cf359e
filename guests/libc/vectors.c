/* Reads and writes of several parts. The machine has calls of one part: what goes out is gathered, and what comes in is
 * spread, so that a datagram stays one and a read is one call. A call moves at most 65,536 bytes. */
#include "call.h"

#include <errno.h>
#include <string.h>
#include <sys/socket.h>
#include <sys/uio.h>
#include <unistd.h>

#define MOST 65536
#define LONGEST_DATAGRAM 1472

static char gathered[MOST];

/* how many bytes the parts have, at most as many as a call moves; -1 where there are too many parts */
static long size_of(const struct iovec *parts, int count)
{
    size_t size = 0;

    if (count < 0 || count > IOV_MAX) {
        errno = EINVAL;
        return -1;
    }
    for (int at = 0; at < count && size < MOST; at++)
        size += parts[at].iov_len < MOST - size ? parts[at].iov_len : MOST - size;
    return (long)size;
}

static long gather(const struct iovec *parts, int count)
{
    long size = size_of(parts, count);
    size_t filled = 0;

    for (int at = 0; size > 0 && filled < (size_t)size; at++) {
        size_t left = (size_t)size - filled, some = parts[at].iov_len < left ? parts[at].iov_len : left;

        memcpy(gathered + filled, parts[at].iov_base, some);
        filled += some;
    }
    return size;
}

static void spread(const struct iovec *parts, size_t size)
{
    size_t taken = 0;

    for (int at = 0; taken < size; at++) {
        size_t left = size - taken, some = parts[at].iov_len < left ? parts[at].iov_len : left;

        memcpy(parts[at].iov_base, gathered + taken, some);
        taken += some;
    }
}

ssize_t writev(int fd, const struct iovec *parts, int count)
{
    long size = gather(parts, count);

    return size < 0 ? size : write(fd, gathered, (size_t)size);
}

ssize_t readv(int fd, const struct iovec *parts, int count)
{
    long size = size_of(parts, count);
    ssize_t got;

    if (size < 0)
        return size;
    got = read(fd, gathered, (size_t)size);
    if (got > 0)
        spread(parts, (size_t)got);
    return got;
}

ssize_t sendmsg(int fd, const struct msghdr *message, int flags)
{
    long size = gather(message->msg_iov, (int)message->msg_iovlen);

    return size < 0 ? size : sendto(fd, gathered, (size_t)size, flags, message->msg_name, message->msg_namelen);
}

static int is_datagram_socket(int fd)
{
    int type;
    socklen_t size = sizeof type;

    return getsockopt(fd, SOL_SOCKET, SO_TYPE, &type, &size) == 0 && type == SOCK_DGRAM;
}

/* A datagram is taken whole, so that MSG_TRUNC tells where the parts have less room than it. */
ssize_t recvmsg(int fd, struct msghdr *message, int flags)
{
    long size = size_of(message->msg_iov, (int)message->msg_iovlen);
    socklen_t *name_size = message->msg_name ? &message->msg_namelen : 0;
    size_t wanted;
    ssize_t got;

    if (size < 0)
        return size;
    wanted = size < LONGEST_DATAGRAM && is_datagram_socket(fd) ? LONGEST_DATAGRAM : (size_t)size;
    got = recvfrom(fd, gathered, wanted, flags, message->msg_name, name_size);
    if (got < 0)
        return got;
    message->msg_flags = got > size ? MSG_TRUNC : 0;
    message->msg_controllen = 0;
    if (got > size)
        got = size;
    spread(message->msg_iov, (size_t)got);
    return got;
}

/* Waiting for several descriptors. */
#include "call.h"

#include <errno.h>
#include <poll.h>
#include <sys/select.h>

#define DESCRIPTORS 256

int ppoll(struct pollfd *entries, nfds_t count, const struct timespec *limit, const sigset_t *mask)
{
    struct machine_time time;

    (void)mask;
    if (limit)
        time = to_machine(*limit);
    return CALL(CALL_PPOLL, entries, count, limit ? &time : 0);
}

int poll(struct pollfd *entries, nfds_t count, int milliseconds)
{
    struct timespec limit = {.tv_sec = milliseconds / 1000, .tv_nsec = milliseconds % 1000 * 1000000};

    return ppoll(entries, count, milliseconds < 0 ? 0 : &limit, 0);
}

static int is_in(const fd_set *set, int fd)
{
    return set && FD_ISSET(fd, set);
}

/* the entries that three sets ask for, in the order of their descriptors; EXCEPT has nothing to tell on this machine */
static nfds_t to_entries(struct pollfd *entries, int count, const fd_set *reads, const fd_set *writes, const fd_set *except)
{
    nfds_t used = 0;

    for (int fd = 0; fd < count; fd++) {
        short events = (is_in(reads, fd) ? POLLIN : 0) | (is_in(writes, fd) ? POLLOUT : 0);

        if (events || is_in(except, fd))
            entries[used++] = (struct pollfd){.fd = fd, .events = events};
    }
    return used;
}

static int mark(fd_set *set, struct pollfd entry, short asked, short told)
{
    if (!(entry.events & asked) || !(entry.revents & told))
        return 0;
    FD_SET(entry.fd, set);
    return 1;
}

/* What is over or has an error counts as to be read and to be written, since neither would wait. */
int pselect(int count, fd_set *reads, fd_set *writes, fd_set *except, const struct timespec *limit, const sigset_t *mask)
{
    struct pollfd entries[DESCRIPTORS];
    nfds_t used;
    int marked = 0;

    if (count < 0 || count > FD_SETSIZE) {
        errno = EINVAL;
        return -1;
    }
    used = to_entries(entries, count < DESCRIPTORS ? count : DESCRIPTORS, reads, writes, except);
    if (ppoll(entries, used, limit, mask) < 0)
        return -1;
    for (nfds_t at = 0; at < used; at++)
        if (entries[at].revents & POLLNVAL) {
            errno = EBADF;
            return -1;
        }
    if (reads)
        FD_ZERO(reads);
    if (writes)
        FD_ZERO(writes);
    if (except)
        FD_ZERO(except);
    for (nfds_t at = 0; at < used; at++) {
        marked += mark(reads, entries[at], POLLIN, POLLIN | POLLHUP | POLLERR);
        marked += mark(writes, entries[at], POLLOUT, POLLOUT | POLLERR);
    }
    return marked;
}

/* the limit stays as it was given, as POSIX allows */
int select(int count, fd_set *reads, fd_set *writes, fd_set *except, struct timeval *limit)
{
    struct timespec time;

    if (!limit)
        return pselect(count, reads, writes, except, 0, 0);
    time = (struct timespec){.tv_sec = limit->tv_sec, .tv_nsec = limit->tv_usec * 1000};
    return pselect(count, reads, writes, except, &time, 0);
}

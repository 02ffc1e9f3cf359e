/* Waiting for many descriptors, which are named once. */
#include "call.h"

#include <errno.h>
#include <sys/epoll.h>

/* Linux's size means nothing, and is tested all the same */
int epoll_create(int size)
{
    if (size <= 0) {
        errno = EINVAL;
        return -1;
    }
    return epoll_create1(0);
}

int epoll_create1(int flags)
{
    return CALL(CALL_EPOLL_CREATE1, flags);
}

int epoll_ctl(int epoll, int operation, int fd, struct epoll_event *event)
{
    return CALL(CALL_EPOLL_CTL, epoll, operation, fd, event);
}

int epoll_pwait(int epoll, struct epoll_event *events, int count, int milliseconds, const sigset_t *mask)
{
    (void)mask;
    return CALL(CALL_EPOLL_PWAIT, epoll, events, count, milliseconds);
}

int epoll_wait(int epoll, struct epoll_event *events, int count, int milliseconds)
{
    return epoll_pwait(epoll, events, count, milliseconds, 0);
}

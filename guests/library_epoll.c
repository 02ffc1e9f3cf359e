/* Epoll over a C library: what is refused, level and edge, once, and a wait with a limit. */
#include <errno.h>
#include <fcntl.h>
#include <stdio.h>
#include <string.h>
#include <sys/epoll.h>
#include <sys/eventfd.h>
#include <time.h>
#include <unistd.h>

static void tell(const char *what, long answer)
{
    if (answer < 0)
        printf("%s: %s\n", what, strerror(errno));
    else
        printf("%s: %ld\n", what, answer);
}

static void set(int epoll, int operation, int fd, uint32_t events)
{
    tell("epoll_ctl", epoll_ctl(epoll, operation, fd, &(struct epoll_event){.events = events, .data.fd = fd}));
}

/* waits, and writes of each event what holds and whose it is */
static void wait(int epoll, int milliseconds)
{
    struct epoll_event events[8];
    int count = epoll_wait(epoll, events, 8, milliseconds);

    tell("epoll_wait", count);
    for (int at = 0; at < count; at++)
        printf("%d: %#x\n", events[at].data.fd, (unsigned)events[at].events);
}

static void refusals(int epoll, int fd)
{
    struct epoll_event event;

    tell("epoll_create", epoll_create(0));
    tell("epoll_create1", epoll_create1(EPOLL_CLOEXEC | 1));
    set(epoll, EPOLL_CTL_ADD, 99, EPOLLIN);
    set(epoll, EPOLL_CTL_ADD, 1, EPOLLIN);
    set(epoll, EPOLL_CTL_ADD, epoll, EPOLLIN);
    set(epoll, EPOLL_CTL_MOD, fd, EPOLLIN);
    tell("epoll_wait", epoll_wait(epoll, &event, 0, 0));
    tell("epoll_wait", epoll_wait(fd, &event, 1, 0));
    tell("read", read(epoll, &event, sizeof event));
}

int main(void)
{
    int epoll = epoll_create1(EPOLL_CLOEXEC), ends[2], count = eventfd(0, EFD_NONBLOCK);
    struct timespec now;

    tell("epoll_create1", epoll);
    pipe(ends);
    refusals(epoll, ends[0]);
    /* the pipe by its level, the count by its rises */
    set(epoll, EPOLL_CTL_ADD, ends[0], EPOLLIN);
    set(epoll, EPOLL_CTL_ADD, count, EPOLLIN | EPOLLET);
    set(epoll, EPOLL_CTL_ADD, count, EPOLLIN);
    wait(epoll, 0);
    write(ends[1], "text", 4);
    eventfd_write(count, 1);
    wait(epoll, -1);
    wait(epoll, -1);
    eventfd_write(count, 1);
    wait(epoll, -1);
    /* once, until it is asked for anew */
    set(epoll, EPOLL_CTL_MOD, ends[0], EPOLLIN | EPOLLONESHOT);
    wait(epoll, 0);
    wait(epoll, 0);
    set(epoll, EPOLL_CTL_MOD, ends[0], EPOLLIN);
    set(epoll, EPOLL_CTL_DEL, count, 0);
    wait(epoll, 0);
    close(ends[1]);
    wait(epoll, 0);
    close(ends[0]);
    wait(epoll, 5);
    clock_gettime(CLOCK_MONOTONIC, &now);
    printf("%ld\n", now.tv_nsec);
    return 0;
}

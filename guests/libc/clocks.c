/* Clocks, sleeps and timers. */
#include "call.h"

#include <errno.h>
#include <sys/time.h>
#include <sys/timerfd.h>
#include <sys/times.h>
#include <unistd.h>

int clock_gettime(clockid_t clock, struct timespec *now)
{
    struct machine_time time;

    if (CALL(CALL_CLOCK_GETTIME, clock, &time) < 0)
        return -1;
    *now = from_machine(time);
    return 0;
}

int clock_getres(clockid_t clock, struct timespec *step)
{
    struct timespec now;

    if (clock_gettime(clock, &now) < 0)
        return -1;
    if (step)
        *step = (struct timespec){.tv_nsec = 1};
    return 0;
}

int gettimeofday(struct timeval *restrict now, void *restrict zone)
{
    struct timespec time;

    (void)zone;
    if (clock_gettime(CLOCK_REALTIME, &time) < 0)
        return -1;
    *now = (struct timeval){.tv_sec = time.tv_sec, .tv_usec = time.tv_nsec / 1000};
    return 0;
}

/* Instructions take no simulated time. What `clock` tells by this call is the time that has passed, so that a loop until
 * some time is over has an end. */
clock_t times(struct tms *spent)
{
    struct timespec now;

    if (clock_gettime(CLOCK_MONOTONIC, &now) < 0)
        return (clock_t)-1;
    *spent = (struct tms){0};
    spent->tms_utime = (clock_t)(now.tv_sec * CLOCKS_PER_SEC + now.tv_nsec / (1000000000 / CLOCKS_PER_SEC));
    return spent->tms_utime;
}

/* gives the error itself, as POSIX has it */
int clock_nanosleep(clockid_t clock, int flags, const struct timespec *time, struct timespec *rest)
{
    struct machine_time wanted = to_machine(*time);

    (void)rest;
    return (int)-RAW_CALL(CALL_CLOCK_NANOSLEEP, clock, flags, &wanted);
}

int nanosleep(const struct timespec *time, struct timespec *rest)
{
    return (int)with_errno(-clock_nanosleep(CLOCK_MONOTONIC, 0, time, rest));
}

unsigned sleep(unsigned seconds)
{
    return nanosleep(&(struct timespec){.tv_sec = seconds}, 0) < 0 ? seconds : 0;
}

int usleep(useconds_t microseconds)
{
    return nanosleep(&(struct timespec){.tv_sec = microseconds / 1000000, .tv_nsec = microseconds % 1000000 * 1000}, 0);
}

int timerfd_create(clockid_t clock, int flags)
{
    return CALL(CALL_TIMERFD_CREATE, clock, flags);
}

int timerfd_settime(int fd, int flags, const struct itimerspec *wanted, struct itimerspec *old)
{
    struct machine_time set[2] = {to_machine(wanted->it_interval), to_machine(wanted->it_value)}, was[2];

    if (CALL(CALL_TIMERFD_SETTIME, fd, flags, set, old ? was : 0) < 0)
        return -1;
    if (old)
        *old = (struct itimerspec){from_machine(was[0]), from_machine(was[1])};
    return 0;
}

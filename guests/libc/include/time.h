/* picolibc's, with the numbers of clocks that Linux has, and the calls that picolibc doesn't declare. */
#include_next <time.h>

#ifndef LIBC_TIME_H
#define LIBC_TIME_H

#undef CLOCK_REALTIME
#undef CLOCK_MONOTONIC
#undef CLOCK_PROCESS_CPUTIME_ID
#undef CLOCK_THREAD_CPUTIME_ID
#undef CLOCK_MONOTONIC_RAW
#undef CLOCK_REALTIME_COARSE
#undef CLOCK_MONOTONIC_COARSE
#undef CLOCK_BOOTTIME
#undef CLOCK_REALTIME_ALARM
#undef CLOCK_BOOTTIME_ALARM
#undef TIMER_ABSTIME

#define CLOCK_REALTIME 0
#define CLOCK_MONOTONIC 1
#define TIMER_ABSTIME 1

int clock_gettime(clockid_t clock, struct timespec *now);
int clock_getres(clockid_t clock, struct timespec *step);
int clock_nanosleep(clockid_t clock, int flags, const struct timespec *time, struct timespec *rest);
int nanosleep(const struct timespec *time, struct timespec *rest);

#endif

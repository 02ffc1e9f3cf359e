/* The machine's calls for the library's functions: CALL(CALL_READ, fd, into, size). What a call refuses stands in errno,
 * and the answer is then -1. docs/GUIDE.md, 'Guests', has the table of calls; the numbers are those of Linux for 32-bit
 * RISC-V. */
#ifndef LIBC_CALL_H
#define LIBC_CALL_H

#include <stdint.h>
#include <time.h>

enum {
    CALL_EVENTFD2 = 19,
    CALL_EPOLL_CREATE1 = 20,
    CALL_EPOLL_CTL = 21,
    CALL_EPOLL_PWAIT = 22,
    CALL_FCNTL = 25,
    CALL_OPENAT = 56,
    CALL_CLOSE = 57,
    CALL_PIPE2 = 59,
    CALL_READ = 63,
    CALL_WRITE = 64,
    CALL_TIMERFD_CREATE = 85,
    CALL_EXIT_GROUP = 94,
    CALL_GETPID = 172,
    CALL_SOCKET = 198,
    CALL_BIND = 200,
    CALL_LISTEN = 201,
    CALL_ACCEPT = 202,
    CALL_CONNECT = 203,
    CALL_GETSOCKNAME = 204,
    CALL_GETPEERNAME = 205,
    CALL_SENDTO = 206,
    CALL_RECVFROM = 207,
    CALL_SETSOCKOPT = 208,
    CALL_GETSOCKOPT = 209,
    CALL_SHUTDOWN = 210,
    CALL_BRK = 214,
    CALL_GETRANDOM = 278,
    CALL_CLOCK_GETTIME = 403,
    CALL_CLOCK_NANOSLEEP = 407,
    CALL_TIMERFD_SETTIME = 411,
    CALL_PPOLL = 414,
};

/* the call as the machine answers it: a refusal is the negative error number */
long machine_call(long number, long a, long b, long c, long d, long e, long f);

/* an answer of the machine as C has it: a refusal becomes -1, with its number in errno */
long with_errno(long answer);

#define CALL(...) with_errno(RAW_CALL(__VA_ARGS__))
#define RAW_CALL(...) CALL_OF_SIX(__VA_ARGS__, 0, 0, 0, 0, 0, 0, 0)
#define CALL_OF_SIX(number, a, b, c, d, e, f, ...) \
    machine_call(number, (long)(a), (long)(b), (long)(c), (long)(d), (long)(e), (long)(f))

/* The machine's time has 64 bits for the nanoseconds; picolibc's has 32, and behind them four bytes that nobody sets. */
struct machine_time {
    int64_t seconds;
    int64_t nanoseconds;
};

static inline struct machine_time to_machine(struct timespec time)
{
    return (struct machine_time){time.tv_sec, time.tv_nsec};
}

static inline struct timespec from_machine(struct machine_time time)
{
    return (struct timespec){.tv_sec = time.seconds, .tv_nsec = (long)time.nanoseconds};
}

/* a write and a send that tell a broken pipe by EPIPE, where the program handles or ignores SIGPIPE (signals.c) */
int handles_broken_pipes(void);

#endif

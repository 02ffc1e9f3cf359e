/* The system calls of shadow's guests, with the names, numbers and structures of Linux for 32-bit RISC-V (64-bit time).
 *
 * The number of a call is in a7, its arguments are in a0 to a5, its answer comes in a0. There is no errno: a call that
 * is refused answers the negative error number, so `if (fd < 0)` is the test and `fd == -EMFILE` the cause.
 * Above each call stand its refusals in the order in which they are tried; docs/GUIDE.md says when each applies. EFAULT
 * is an argument in memory that may not be read or written. A call that isn't here answers -ENOSYS. */
#ifndef SHADOW_H
#define SHADOW_H

#include <stddef.h>
#include <stdint.h>

typedef int32_t ssize_t;
typedef uint32_t socklen_t;

/* ---- errors */
#define EPERM 1
#define ENOENT 2
#define EBADF 9
#define EAGAIN 11
#define EACCES 13
#define EFAULT 14
#define EEXIST 17
#define EINVAL 22
#define EMFILE 24
#define EPIPE 32
#define ENOSYS 38
#define ENOTSOCK 88
#define EDESTADDRREQ 89
#define EMSGSIZE 90
#define ENOPROTOOPT 92
#define EPROTONOSUPPORT 93
#define EOPNOTSUPP 95
#define EAFNOSUPPORT 97
#define EADDRINUSE 98
#define EADDRNOTAVAIL 99
#define ENETUNREACH 101
#define ECONNRESET 104
#define EISCONN 106
#define ENOTCONN 107
#define ETIMEDOUT 110
#define ECONNREFUSED 111
#define EALREADY 114
#define EINPROGRESS 115

/* ---- the memory functions that a compiler may call by itself, and strlen (string.c) */
void *memset(void *to, int byte, size_t size);
void *memcpy(void *to, const void *from, size_t size);
void *memmove(void *to, const void *from, size_t size);
int memcmp(const void *a, const void *b, size_t size);
size_t strlen(const char *text);

/* ---- the call itself */
static inline long shadow_call6(long number, long a, long b, long c, long d, long e, long f)
{
    register long a0 __asm__("a0") = a;
    register long a1 __asm__("a1") = b;
    register long a2 __asm__("a2") = c;
    register long a3 __asm__("a3") = d;
    register long a4 __asm__("a4") = e;
    register long a5 __asm__("a5") = f;
    register long a7 __asm__("a7") = number;
    __asm__ volatile("ecall"
                     : "+r"(a0)
                     : "r"(a1), "r"(a2), "r"(a3), "r"(a4), "r"(a5), "r"(a7)
                     : "memory");
    return a0;
}

static inline long shadow_call(long number, long a, long b, long c)
{
    register long a0 __asm__("a0") = a;
    register long a1 __asm__("a1") = b;
    register long a2 __asm__("a2") = c;
    register long a7 __asm__("a7") = number;
    __asm__ volatile("ecall" : "+r"(a0) : "r"(a1), "r"(a2), "r"(a7) : "memory");
    return a0;
}

/* ---- files, pipes and descriptors */
#define AT_FDCWD (-100)
#define O_RDONLY 0
#define O_NONBLOCK 2048
#define O_CLOEXEC 0x80000
#define F_GETFD 1
#define F_SETFD 2
#define F_GETFL 3
#define F_SETFL 4

/* EBADF; EINVAL: another command. */
static inline int fcntl(int fd, int command, long argument)
{
    return shadow_call(25, fd, command, argument);
}

/* Opens "/etc/hosts", the one file that there is, to be read. EFAULT; EINVAL: no end within 4,096 bytes; ENOENT: another
 * path; EACCES: not to be read alone; EMFILE. */
static inline int openat(int directory, const char *path, int flags)
{
    return shadow_call6(56, directory, (long)path, flags, 0, 0, 0);
}

/* EBADF. */
static inline int close(int fd)
{
    return shadow_call(57, fd, 0, 0);
}

/* Makes a pipe: ends[0] is read from, ends[1] is written to. EINVAL: flags; EFAULT; EMFILE. */
static inline int pipe2(int ends[2], int flags)
{
    return shadow_call(59, (long)ends, flags, 0);
}

/* EBADF; EINVAL: an epoll, or a timer or an eventfd and a size below 8; EFAULT; EAGAIN. Of a socket: as recvfrom. */
static inline ssize_t read(int fd, void *into, size_t size)
{
    return shadow_call(63, fd, (long)into, (long)size);
}

/* EBADF; EINVAL: a timer or an epoll, or an eventfd and a size below 8; EFAULT; EINVAL: an eventfd and 2^64 - 1; EAGAIN. A pipe
 * without a reader ends the process by SIGPIPE. To a socket: as sendto. */
static inline ssize_t write(int fd, const void *bytes, size_t size)
{
    return shadow_call(64, fd, (long)bytes, (long)size);
}

/* ---- the process */
__attribute__((noreturn)) static inline void exit(int status)
{
    shadow_call(93, status, 0, 0);
    __builtin_unreachable();
}

__attribute__((noreturn)) static inline void exit_group(int status)
{
    shadow_call(94, status, 0, 0);
    __builtin_unreachable();
}

static inline int getpid(void)
{
    return shadow_call(172, 0, 0, 0);
}

/* Moves the end of the data segment and gives where it then is, as the system call does; brk(0) asks. */
static inline void *brk(void *to)
{
    return (void *)shadow_call(214, (long)to, 0, 0);
}

/* At most 256 bytes. EINVAL: flags above 3; EFAULT. */
static inline ssize_t getrandom(void *into, size_t size, unsigned flags)
{
    return shadow_call(278, (long)into, (long)size, (long)flags);
}

/* ---- time */
struct timespec {
    int64_t tv_sec;
    int64_t tv_nsec;
};

struct itimerspec {
    struct timespec it_interval;
    struct timespec it_value;
};

#define CLOCK_REALTIME 0
#define CLOCK_MONOTONIC 1
#define TIMER_ABSTIME 1
#define TFD_TIMER_ABSTIME 1
#define TFD_NONBLOCK O_NONBLOCK
#define TFD_CLOEXEC O_CLOEXEC

/* EINVAL; EFAULT. */
static inline int clock_gettime(int clock, struct timespec *now)
{
    return shadow_call(403, clock, (long)now, 0);
}

/* EINVAL: clock, flags; EFAULT; EINVAL: the time. */
static inline int clock_nanosleep(int clock, int flags, const struct timespec *time, struct timespec *rest)
{
    return shadow_call6(407, clock, flags, (long)time, (long)rest, 0, 0);
}

/* EINVAL: clock, flags; EMFILE. */
static inline int timerfd_create(int clock, int flags)
{
    return shadow_call(85, clock, flags, 0);
}

/* EBADF; EINVAL: no timer, flags; EFAULT; EINVAL: a time. */
static inline int timerfd_settime(int fd, int flags, const struct itimerspec *time, struct itimerspec *old)
{
    return shadow_call6(411, fd, flags, (long)time, (long)old, 0, 0);
}

/* ---- waiting for several descriptors */
#define POLLIN 1
#define POLLOUT 4
#define POLLERR 8
#define POLLHUP 16
#define POLLNVAL 32

struct pollfd {
    int fd;
    short events;
    short revents;
};

/* A null time waits without limit. EINVAL: more than 256 entries; EFAULT; EINVAL: the time. */
static inline int ppoll(struct pollfd *entries, unsigned count, const struct timespec *time)
{
    return shadow_call6(414, (long)entries, (long)count, (long)time, 0, 0, 0);
}

/* ---- counters that can be waited for */
#define EFD_SEMAPHORE 1
#define EFD_NONBLOCK O_NONBLOCK
#define EFD_CLOEXEC O_CLOEXEC

/* A read gives the count as 8 bytes, and it is 0 then; of a semaphore 1, which is taken off. A write adds 8 bytes' number. EINVAL:
 * flags; EMFILE. */
static inline int eventfd2(unsigned count, int flags)
{
    return shadow_call(19, (long)count, flags, 0);
}

/* ---- waiting for many descriptors, which are named once */
#define EPOLLIN POLLIN
#define EPOLLOUT POLLOUT
#define EPOLLERR POLLERR
#define EPOLLHUP POLLHUP
#define EPOLLRDHUP 0x2000
#define EPOLLONESHOT 0x40000000u
#define EPOLLET 0x80000000u
#define EPOLL_CTL_ADD 1
#define EPOLL_CTL_DEL 2
#define EPOLL_CTL_MOD 3
#define EPOLL_CLOEXEC O_CLOEXEC

typedef union epoll_data {
    void *ptr;
    int fd;
    uint32_t u32;
    uint64_t u64;
} epoll_data_t;

/* 16 bytes: the data stands at the eighth */
struct epoll_event {
    uint32_t events;
    epoll_data_t data;
};

/* EINVAL: flags; EMFILE. */
static inline int epoll_create1(int flags)
{
    return shadow_call(20, flags, 0, 0);
}

/* EBADF: either one; EINVAL: no epoll, the epoll itself, the operation; EPERM: 0, 1, 2, /etc/hosts or an epoll; but for
 * EPOLL_CTL_DEL: EFAULT, EINVAL: the events; EEXIST; ENOENT. */
static inline int epoll_ctl(int epoll, int operation, int fd, const struct epoll_event *event)
{
    return shadow_call6(21, epoll, operation, fd, (long)event, 0, 0);
}

/* The number of events, at most `count`. It waits so many milliseconds, and without limit where they are negative. EBADF;
 * EINVAL: no epoll, a count below 1; EFAULT. */
static inline int epoll_pwait(int epoll, struct epoll_event *events, int count, int milliseconds)
{
    return shadow_call6(22, epoll, (long)events, count, milliseconds, 0, 0);
}

/* ---- sockets */
#define AF_INET 2
#define SOCK_STREAM 1
#define SOCK_DGRAM 2
#define SOCK_NONBLOCK O_NONBLOCK
#define SOCK_CLOEXEC O_CLOEXEC
#define IPPROTO_TCP 6
#define IPPROTO_UDP 17
#define MSG_DONTWAIT 0x40
#define MSG_NOSIGNAL 0x4000
#define SHUT_RD 0
#define SHUT_WR 1
#define SHUT_RDWR 2
#define SOL_SOCKET 1
#define SO_REUSEADDR 2
#define SO_TYPE 3
#define SO_ERROR 4
#define SO_KEEPALIVE 9
#define TCP_NODELAY 1
#define INADDR_ANY 0u
#define INADDR_LOOPBACK 0x7f000001u

struct in_addr {
    uint32_t s_addr; /* in network order: htonl */
};

struct sockaddr_in {
    uint16_t sin_family;
    uint16_t sin_port; /* in network order: htons */
    struct in_addr sin_addr;
    uint8_t sin_zero[8];
};

static inline uint16_t htons(uint16_t n)
{
    return (uint16_t)(n << 8 | n >> 8);
}

static inline uint32_t htonl(uint32_t n)
{
    return n << 24 | (n & 0xff00) << 8 | (n >> 8 & 0xff00) | n >> 24;
}

#define ntohs htons
#define ntohl htonl

/* EAFNOSUPPORT; EINVAL: the type; EPROTONOSUPPORT; EMFILE. */
static inline int socket(int family, int type, int protocol)
{
    return shadow_call(198, family, type, protocol);
}

/* EBADF; ENOTSOCK; EFAULT; EINVAL: the size, or it is bound; EAFNOSUPPORT; EADDRNOTAVAIL; EADDRINUSE. */
static inline int bind(int fd, const struct sockaddr_in *at, socklen_t size)
{
    return shadow_call(200, fd, (long)at, (long)size);
}

/* EBADF; ENOTSOCK; EOPNOTSUPP: UDP; EINVAL: connected or connecting; EADDRNOTAVAIL. */
static inline int listen(int fd, int backlog)
{
    return shadow_call(201, fd, backlog, 0);
}

/* EBADF; ENOTSOCK; EOPNOTSUPP: UDP; EINVAL: it doesn't listen; EFAULT; EMFILE; EAGAIN. */
static inline int accept(int fd, struct sockaddr_in *peer, socklen_t *size)
{
    return shadow_call(202, fd, (long)peer, (long)size);
}

/* EBADF; ENOTSOCK; EFAULT; EINVAL: the size; EAFNOSUPPORT; TCP: EALREADY, the error of an earlier connect, EISCONN,
 * EOPNOTSUPP: it listens; ENETUNREACH; EINVAL: bound to 127.0.0.1, another destination; EADDRNOTAVAIL. A TCP socket that
 * is nonblocking answers EINPROGRESS; else ECONNREFUSED or ETIMEDOUT where it fails. */
static inline int connect(int fd, const struct sockaddr_in *to, socklen_t size)
{
    return shadow_call(203, fd, (long)to, (long)size);
}

/* EBADF; ENOTSOCK; EFAULT. */
static inline int getsockname(int fd, struct sockaddr_in *at, socklen_t *size)
{
    return shadow_call(204, fd, (long)at, (long)size);
}

/* EBADF; ENOTSOCK; ENOTCONN; EFAULT. */
static inline int getpeername(int fd, struct sockaddr_in *peer, socklen_t *size)
{
    return shadow_call(205, fd, (long)peer, (long)size);
}

/* EBADF; ENOTSOCK; EINVAL: flags; UDP: EMSGSIZE: above 1,472, EDESTADDRREQ; EFAULT; of the address: EINVAL, EAFNOSUPPORT,
 * ENETUNREACH, EINVAL: bound to 127.0.0.1, another destination; EADDRNOTAVAIL: no free port; TCP: the kept error, as
 * ECONNRESET; ENOTCONN; EPIPE after the end of writing with MSG_NOSIGNAL, and SIGPIPE without; EAGAIN. */
static inline ssize_t sendto(int fd, const void *bytes, size_t size, int flags, const struct sockaddr_in *to,
                             socklen_t to_size)
{
    return shadow_call6(206, fd, (long)bytes, (long)size, flags, (long)to, (long)to_size);
}

static inline ssize_t send(int fd, const void *bytes, size_t size, int flags)
{
    return sendto(fd, bytes, size, flags, 0, 0);
}

/* EBADF; ENOTSOCK; EINVAL: flags; EFAULT; TCP: the kept error, as ECONNRESET; ENOTCONN; EAGAIN. */
static inline ssize_t recvfrom(int fd, void *into, size_t size, int flags, struct sockaddr_in *from,
                               socklen_t *from_size)
{
    return shadow_call6(207, fd, (long)into, (long)size, flags, (long)from, (long)from_size);
}

static inline ssize_t recv(int fd, void *into, size_t size, int flags)
{
    return recvfrom(fd, into, size, flags, 0, 0);
}

/* SO_REUSEADDR, SO_KEEPALIVE and TCP_NODELAY, without effect. EBADF; ENOTSOCK; ENOPROTOOPT; EINVAL: a size below 4; EFAULT. */
static inline int setsockopt(int fd, int level, int option, const void *value, socklen_t size)
{
    return shadow_call6(208, fd, level, option, (long)value, (long)size, 0);
}

/* SO_ERROR and SO_TYPE. EBADF; ENOTSOCK; ENOPROTOOPT; EFAULT; EINVAL: a size below 4. */
static inline int getsockopt(int fd, int level, int option, void *value, socklen_t *size)
{
    return shadow_call6(209, fd, level, option, (long)value, (long)size, 0);
}

/* EBADF; ENOTSOCK; EINVAL: how; ENOTCONN. */
static inline int shutdown(int fd, int how)
{
    return shadow_call(210, fd, how, 0);
}

/* An address of this host or another one, `in(11, 0, 0, 2, 7000)` for 11.0.0.2 port 7000. */
static inline struct sockaddr_in in(unsigned a, unsigned b, unsigned c, unsigned d, unsigned port)
{
    struct sockaddr_in address = {0};
    address.sin_family = AF_INET;
    address.sin_port = htons((uint16_t)port);
    address.sin_addr.s_addr = htonl(a << 24 | b << 16 | c << 8 | d);
    return address;
}

#endif

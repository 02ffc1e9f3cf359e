/* Descriptors, clocks and timers: /etc/hosts, pipes, fcntl, poll and select, sleeps, timerfd, eventfd, random bytes. */
#define _GNU_SOURCE
#include <errno.h>
#include <fcntl.h>
#include <poll.h>
#include <stdint.h>
#include <stdio.h>
#include <string.h>
#include <sys/eventfd.h>
#include <sys/ioctl.h>
#include <sys/random.h>
#include <sys/select.h>
#include <sys/time.h>
#include <sys/timerfd.h>
#include <time.h>
#include <unistd.h>

/* what a call answered, and the error where it is one */
static void tell(const char *name, long answer)
{
    if (answer < 0)
        printf("%s: %s\n", name, strerror(errno));
    else
        printf("%s: %ld\n", name, answer);
}

/* nanoseconds since the last question */
static long long passed(void)
{
    static struct timespec before;
    struct timespec now;
    long long nanoseconds;

    clock_gettime(CLOCK_MONOTONIC, &now);
    nanoseconds = (now.tv_sec - before.tv_sec) * 1000000000ll + now.tv_nsec - before.tv_nsec;
    before = now;
    return nanoseconds;
}

static void hosts_file(void)
{
    char text[20] = "";
    int fd = open("/etc/hosts", O_RDONLY);

    tell("open", fd);
    tell("read", read(fd, text, 19));
    printf("%.19s\n", text);
    tell("isatty", isatty(fd));
    printf("%s\n", strerror(errno));
    tell("close", close(fd));
    tell("close", close(fd));
    tell("open to write", open("/etc/hosts", O_WRONLY));
}

static void pipes(void)
{
    int ends[2], on = 1, off = 0;
    char text[8] = "";
    struct pollfd entries[2];
    fd_set reads, writes;

    tell("pipe2", pipe2(ends, O_NONBLOCK));
    tell("read", read(ends[0], text, 8));
    tell("flags", fcntl(ends[0], F_GETFL));
    tell("block", ioctl(ends[0], FIONBIO, &off));
    tell("flags", fcntl(ends[0], F_GETFL) & O_NONBLOCK);
    tell("do not", ioctl(ends[0], FIONBIO, &on));
    tell("flags", fcntl(ends[0], F_GETFL) & O_NONBLOCK);
    entries[0] = (struct pollfd){.fd = ends[0], .events = POLLIN};
    entries[1] = (struct pollfd){.fd = ends[1], .events = POLLOUT};
    tell("poll", poll(entries, 1, 0));
    tell("write", write(ends[1], "bytes", 5));
    tell("poll", poll(entries, 2, -1));
    printf("%d %d\n", entries[0].revents, entries[1].revents);
    FD_ZERO(&reads);
    FD_ZERO(&writes);
    FD_SET(ends[0], &reads);
    FD_SET(ends[1], &writes);
    tell("select", select(ends[1] + 1, &reads, &writes, NULL, NULL));
    printf("%d %d\n", FD_ISSET(ends[0], &reads), FD_ISSET(ends[1], &writes));
    tell("read", read(ends[0], text, 8));
    tell("select", select(ends[1] + 1, &reads, NULL, NULL, &(struct timeval){0}));
    printf("%d\n", FD_ISSET(ends[0], &reads));
    close(ends[1]);
    tell("poll", poll(entries, 1, -1));
    printf("%d\n", entries[0].revents);
    tell("end", read(ends[0], text, 8));
    close(ends[0]);
    FD_SET(ends[0], &reads);
    tell("select", select(ends[0] + 1, &reads, NULL, NULL, NULL));
    tell("poll", poll(entries, 1, -1));
    printf("%d\n", entries[0].revents);
}

/* a write goes on until the pipe is full */
static void full_pipe(void)
{
    static char bytes[70000];
    int ends[2];

    pipe2(ends, O_NONBLOCK);
    tell("write", write(ends[1], bytes, sizeof bytes));
    tell("write", write(ends[1], bytes, 1));
    close(ends[0]);
    close(ends[1]);
}

static void clocks(void)
{
    time_t start = time(NULL);
    struct timeval now;
    char text[32];

    strftime(text, sizeof text, "%Y-%m-%d %H:%M:%S", gmtime(&start));
    printf("%s\n", text);
    printf("%lld\n", passed());
    tell("nanosleep", nanosleep(&(struct timespec){.tv_nsec = 5000000}, NULL));
    printf("%lld\n", passed());
    usleep(1500);
    printf("%lld\n", passed());
    sleep(2);
    printf("%lld\n", passed());
    tell("poll", poll(NULL, 0, 3));
    printf("%lld\n", passed());
    tell("select", select(0, NULL, NULL, NULL, &(struct timeval){.tv_usec = 4}));
    printf("%lld\n", passed());
    printf("%d\n", clock_nanosleep(CLOCK_MONOTONIC, TIMER_ABSTIME, &(struct timespec){.tv_sec = 3}, NULL));
    clock_gettime(CLOCK_MONOTONIC, &(struct timespec){0});
    passed();
    gettimeofday(&now, NULL);
    printf("%lld.%06ld %ld\n", (long long)now.tv_sec, (long)now.tv_usec, (long)clock());
    printf("%s\n", strerror(clock_nanosleep(9, 0, &(struct timespec){0}, NULL)));
    tell("nanosleep", nanosleep(&(struct timespec){.tv_nsec = 1000000000}, NULL));
}

static void timers(void)
{
    int fd = timerfd_create(CLOCK_MONOTONIC, TFD_NONBLOCK);
    struct itimerspec old, wanted = {.it_interval = {.tv_nsec = 1000000}, .it_value = {.tv_nsec = 2500000}};
    uint64_t count = 0;

    tell("timerfd_create", fd);
    tell("timerfd_settime", timerfd_settime(fd, 0, &wanted, NULL));
    tell("read", read(fd, &count, sizeof count));
    tell("poll", poll(&(struct pollfd){.fd = fd, .events = POLLIN}, 1, -1));
    printf("%lld\n", passed());
    usleep(2200);
    tell("read", read(fd, &count, sizeof count));
    printf("%d\n", (int)count);
    wanted.it_value.tv_nsec = 0;
    passed();
    tell("timerfd_settime", timerfd_settime(fd, 0, &wanted, &old));
    printf("%lld %ld %lld %ld\n", (long long)old.it_interval.tv_sec, old.it_interval.tv_nsec, (long long)old.it_value.tv_sec,
           old.it_value.tv_nsec);
    close(fd);
}

static void tell_count(int fd)
{
    eventfd_t count = 0;

    tell("eventfd_read", eventfd_read(fd, &count));
    printf("%llu\n", (unsigned long long)count);
}

static void tell_readiness(int fd)
{
    struct pollfd entry = {.fd = fd, .events = POLLIN | POLLOUT};

    tell("poll", poll(&entry, 1, 3));
    printf("%d\n", entry.revents);
}

/* what writes add a read takes, whole or, of a semaphore, by 1 */
static void counters(void)
{
    int whole = eventfd(5, EFD_NONBLOCK), semaphore = eventfd(2, EFD_SEMAPHORE | EFD_CLOEXEC), ends[2];
    uint64_t numbers[2] = {7, 9};

    tell("eventfd", whole);
    tell("eventfd", semaphore);
    tell("eventfd", eventfd(0, 4));
    tell("flags", fcntl(whole, F_GETFL) & O_NONBLOCK);
    tell("write", write(whole, numbers, sizeof numbers));
    tell_readiness(whole);
    tell_count(whole);
    tell_count(whole);
    tell_readiness(whole);
    tell("eventfd_write", eventfd_write(whole, UINT64_MAX - 1));
    tell_readiness(whole);
    tell("eventfd_write", eventfd_write(whole, 1));
    tell("eventfd_write", eventfd_write(whole, UINT64_MAX));
    tell_count(whole);
    tell("read", read(whole, numbers, 7));
    tell("write", write(whole, numbers, 7));
    tell_count(semaphore);
    tell_count(semaphore);
    passed();
    tell("poll", poll(&(struct pollfd){.fd = semaphore, .events = POLLIN}, 1, 3));
    printf("%lld\n", passed());
    close(whole);
    close(semaphore);
    /* the writing end has the semaphore's number, and takes all */
    tell("pipe", pipe(ends));
    tell("write", write(ends[1], numbers, sizeof numbers));
    close(ends[0]);
    close(ends[1]);
}

static void random_bytes(void)
{
    static unsigned char bytes[1000];
    int different = 0;

    tell("getentropy", getentropy(bytes, 256));
    tell("getentropy", getentropy(bytes, 257));
    memset(bytes, 0, sizeof bytes);
    tell("getrandom", getrandom(bytes, sizeof bytes, 0));
    for (size_t at = 992; at < sizeof bytes; at++)
        different += bytes[at] != 0;
    printf("%d\n", different > 0);
}

int main(void)
{
    clocks();
    hosts_file();
    pipes();
    full_pipe();
    timers();
    counters();
    random_bytes();
    return 0;
}

/* relay PORT END..: joins pairs of TCP connections until it is shut down. For each connection that it accepts at PORT it
 * makes one to the next of the ends in turn, as 11.0.0.3:80, and moves what comes at either to the other, ends of writing
 * too. One process does it for all of them: its sockets never wait, and an epoll tells by edges which have something to
 * do. So what a socket has to give or to take is moved until it would wait, since nothing tells of it again. */
#include "print.h"

#define PAIRS 120
#define EVENTS 64
#define ROOM 8192

/* what goes from one socket of a pair to the other, and is still held */
struct way {
    size_t begin, end;
    int over; /* no more comes, and the other socket was told */
    char bytes[ROOM];
};

struct pair {
    int fds[2]; /* the accepted one, and the one that goes on; -1 in a pair that isn't used */
    int joined; /* the second one is connected */
    struct way ways[2];
};

static struct pair pairs[PAIRS];
static struct pair *unused[PAIRS];
static size_t unused_count;

/* the number of a socket, as an event has it: its pair, and which of the two it is */
static uint64_t number_of(const struct pair *pair, int side)
{
    return (uint64_t)(pair - pairs) * 2 + (uint64_t)side;
}

static int watch(int epoll, int fd, uint32_t events, uint64_t number)
{
    struct epoll_event event = {.events = events, .data.u64 = number};
    return epoll_ctl(epoll, EPOLL_CTL_ADD, fd, &event);
}

/* moves what comes, until either socket would wait; 0 where a connection is broken */
static int move(struct way *way, int from, int to)
{
    while (!way->over) {
        ssize_t count;
        if (way->begin == way->end) {
            count = recv(from, way->bytes, ROOM, 0);
            if (count < 0)
                return count == -EAGAIN;
            if (count == 0) {
                way->over = 1;
                shutdown(to, SHUT_WR);
                break;
            }
            way->begin = 0;
            way->end = (size_t)count;
        }
        count = send(to, way->bytes + way->begin, way->end - way->begin, MSG_NOSIGNAL);
        if (count < 0)
            return count == -EAGAIN;
        way->begin += (size_t)count;
    }
    return 1;
}

/* What is held when a pair breaks is lost. Who is left hears of an end, or of a reset where some of its bytes weren't read. */
static void part(struct pair *pair)
{
    close(pair->fds[0]);
    close(pair->fds[1]);
    pair->fds[0] = -1;
    unused[unused_count++] = pair;
}

static void serve(struct pair *pair, int side, uint32_t events)
{
    const int *fds = pair->fds;
    if (!pair->joined) {
        /* until the second socket is connected there is nowhere to move anything */
        if (side == 0 && !(events & EPOLLERR))
            return;
        if (events & EPOLLERR) {
            part(pair);
            return;
        }
        pair->joined = 1;
    }
    if (!move(&pair->ways[0], fds[0], fds[1]) || !move(&pair->ways[1], fds[1], fds[0])
        || (pair->ways[0].over && pair->ways[1].over))
        part(pair);
}

/* makes the second connection of a pair whose first one is there */
static int joins(int epoll, struct pair *pair, const struct sockaddr_in *to)
{
    int fd = socket(AF_INET, SOCK_STREAM | SOCK_NONBLOCK, 0);
    if (fd < 0)
        return 0;
    pair->fds[1] = fd;
    fcntl(pair->fds[0], F_SETFL, O_NONBLOCK);
    if (connect(fd, to, sizeof *to) == -EINPROGRESS
        && watch(epoll, pair->fds[0], EPOLLIN | EPOLLOUT | EPOLLET, number_of(pair, 0)) == 0
        && watch(epoll, fd, EPOLLIN | EPOLLOUT | EPOLLET, number_of(pair, 1)) == 0)
        return 1;
    close(fd);
    return 0;
}

/* all connections that wait, while there are pairs for them */
static void accept_all(int epoll, int listener, const struct sockaddr_in *ends, size_t count)
{
    static size_t turn;
    int fd;
    while (unused_count > 0 && (fd = accept(listener, 0, 0)) >= 0) {
        struct pair *pair = unused[unused_count - 1];
        pair->fds[0] = fd;
        pair->joined = 0;
        for (int side = 0; side < 2; side++)
            pair->ways[side].begin = pair->ways[side].end = pair->ways[side].over = 0;
        if (joins(epoll, pair, &ends[turn++ % count])) {
            unused_count--;
        } else {
            close(fd);
            pair->fds[0] = -1;
        }
    }
}

/* an end as 11.0.0.3:80 */
static struct sockaddr_in read_end(const char *text)
{
    const char *colon = text;
    uint32_t port = 0;
    while (*colon && *colon != ':')
        colon++;
    if (*colon)
        read_number(colon + 1, &port);
    return read_address(text, port);
}

int main(int argc, char **argv)
{
    static struct epoll_event events[EVENTS];
    static struct sockaddr_in ends[32];
    struct sockaddr_in own = in(0, 0, 0, 0, 0);
    size_t count = 0;
    uint32_t port;
    int listener = socket(AF_INET, SOCK_STREAM | SOCK_NONBLOCK, 0), epoll = epoll_create1(0);

    for (int i = 2; i < argc && count < sizeof ends / sizeof *ends; i++)
        ends[count++] = read_end(argv[i]);
    if (count == 0)
        return 1;
    read_number(argv[1], &port);
    own.sin_port = htons((uint16_t)port);
    if (bind(listener, &own, sizeof own) < 0 || listen(listener, 128) < 0
        || watch(epoll, listener, EPOLLIN | EPOLLET, number_of(pairs + PAIRS, 0)) < 0)
        return 1;
    for (int i = PAIRS; i > 0; i--)
        unused[unused_count++] = &pairs[i - 1];
    for (;;) {
        int told = epoll_pwait(epoll, events, EVENTS, -1);
        if (told < 0)
            return 1;
        for (int i = 0; i < told; i++) {
            struct pair *pair = &pairs[events[i].data.u64 / 2];
            if (pair < pairs + PAIRS && pair->fds[0] >= 0)
                serve(pair, (int)(events[i].data.u64 % 2), events[i].events);
        }
        /* Behind them all, so that none of these events is about a pair that is used anew; and whatever was told, since who
         * found no pair still waits and isn't told of again. */
        accept_all(epoll, listener, ends, count);
    }
}

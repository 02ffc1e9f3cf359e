/* depot PORT: answers each connection at a TCP port, which asks by a decimal number and a line end, with so many bytes; until
 * it is shut down. One process serves all of them at once, by an epoll that tells what is ready. */
#include "print.h"

#define CLIENTS 256 /* as many as there are descriptors */
#define EVENTS 64

struct client {
    uint32_t wanted; /* bytes that aren't sent yet, once the whole number is there */
    int asked;
};

static struct client clients[CLIENTS];

/* reads the number; 0 where the connection is of no use any more */
static int ask(int fd, struct client *client)
{
    char digit;
    ssize_t count;
    while ((count = recv(fd, &digit, 1, 0)) == 1) {
        if (digit == '\n') {
            client->asked = 1;
            return 1;
        }
        client->wanted = client->wanted * 10 + (uint32_t)(digit - '0');
    }
    return count == -EAGAIN;
}

/* sends what there is room for; 0 where the connection is broken */
static int answer(int fd, struct client *client)
{
    static const char bytes[8192];
    while (client->wanted > 0) {
        size_t size = client->wanted < sizeof bytes ? client->wanted : sizeof bytes;
        ssize_t count = send(fd, bytes, size, MSG_NOSIGNAL);
        if (count < 0)
            return count == -EAGAIN;
        client->wanted -= (uint32_t)count;
    }
    return 1;
}

static int watch(int epoll, int operation, int fd, uint32_t events)
{
    struct epoll_event event = {.events = events, .data.fd = fd};
    return epoll_ctl(epoll, operation, fd, &event);
}

/* The client closes first, when it has all: who does keeps the port for a minute, and an asker has many of them. */
static void serve(int epoll, int fd)
{
    struct client *client = &clients[fd];
    if (client->asked && !client->wanted) {
        close(fd);
        return;
    }
    if (!client->asked) {
        if (!ask(fd, client))
            close(fd);
        else if (client->asked)
            /* from now on room is what it waits for */
            watch(epoll, EPOLL_CTL_MOD, fd, EPOLLOUT);
        return;
    }
    if (!answer(fd, client))
        close(fd);
    else if (!client->wanted)
        watch(epoll, EPOLL_CTL_MOD, fd, EPOLLIN);
}

int main(int argc, char **argv)
{
    static struct epoll_event events[EVENTS];
    struct sockaddr_in own = in(0, 0, 0, 0, 0);
    uint32_t port;
    int listener = socket(AF_INET, SOCK_STREAM | SOCK_NONBLOCK, 0), epoll = epoll_create1(0), fd;

    if (argc < 2)
        return 1;
    read_number(argv[1], &port);
    own.sin_port = htons((uint16_t)port);
    if (bind(listener, &own, sizeof own) < 0 || listen(listener, 128) < 0
        || watch(epoll, EPOLL_CTL_ADD, listener, EPOLLIN) < 0)
        return 1;
    for (;;) {
        int told = epoll_pwait(epoll, events, EVENTS, -1);
        for (int i = 0; i < told; i++) {
            if (events[i].data.fd != listener) {
                serve(epoll, events[i].data.fd);
            } else if ((fd = accept(listener, 0, 0)) >= 0) {
                fcntl(fd, F_SETFL, O_NONBLOCK);
                clients[fd] = (struct client){0, 0};
                watch(epoll, EPOLL_CTL_ADD, fd, EPOLLIN);
            }
        }
    }
}

/* Datagrams between two hosts. `library_datagrams serve` sends three of them back, waiting by select; `library_datagrams
 * NAME` sends as many to a host by its name, waiting by poll. */
#include <arpa/inet.h>
#include <errno.h>
#include <netdb.h>
#include <poll.h>
#include <stdio.h>
#include <string.h>
#include <sys/select.h>
#include <sys/socket.h>
#include <time.h>
#include <unistd.h>

#define PORT "7"
#define TURNS 3

static int fail(const char *what)
{
    perror(what);
    return 1;
}

static int serve(void)
{
    struct addrinfo hints = {.ai_flags = AI_PASSIVE, .ai_family = AF_INET, .ai_socktype = SOCK_DGRAM}, *own;
    int fd;

    if (getaddrinfo(NULL, PORT, &hints, &own))
        return 1;
    fd = socket(own->ai_family, own->ai_socktype, own->ai_protocol);
    if (fd < 0 || bind(fd, own->ai_addr, own->ai_addrlen) < 0)
        return fail("bind");
    freeaddrinfo(own);
    for (int turn = 0; turn < TURNS; turn++) {
        struct sockaddr_storage from;
        socklen_t size = sizeof from;
        char text[64], host[NI_MAXHOST], port[NI_MAXSERV];
        fd_set reads;
        ssize_t count;

        FD_ZERO(&reads);
        FD_SET(fd, &reads);
        if (select(fd + 1, &reads, NULL, NULL, NULL) != 1)
            return fail("select");
        count = recvfrom(fd, text, sizeof text, 0, (struct sockaddr *)&from, &size);
        if (count < 0)
            return fail("recvfrom");
        getnameinfo((struct sockaddr *)&from, size, host, sizeof host, port, sizeof port, NI_NUMERICSERV);
        printf("%.*s from %s port %s\n", (int)count, text, host, port);
        if (sendto(fd, text, (size_t)count, 0, (struct sockaddr *)&from, size) != count)
            return fail("sendto");
    }
    close(fd);
    return 0;
}

static int ask(const char *name)
{
    struct addrinfo hints = {.ai_family = AF_INET, .ai_socktype = SOCK_DGRAM}, *peer;
    struct pollfd entry;
    int error = getaddrinfo(name, PORT, &hints, &peer);

    if (error) {
        fprintf(stderr, "%s: %s\n", name, gai_strerror(error));
        return 1;
    }
    entry = (struct pollfd){.fd = socket(AF_INET, SOCK_DGRAM | SOCK_NONBLOCK, 0), .events = POLLIN};
    if (connect(entry.fd, peer->ai_addr, peer->ai_addrlen) < 0)
        return fail("connect");
    freeaddrinfo(peer);
    for (int turn = 0; turn < TURNS; turn++) {
        char text[64];
        struct timespec now;
        int size = snprintf(text, sizeof text, "datagram %d", turn);
        ssize_t count;

        if (send(entry.fd, text, (size_t)size, 0) != size)
            return fail("send");
        if (recv(entry.fd, text, sizeof text, 0) >= 0 || errno != EWOULDBLOCK)
            return fail("recv");
        printf("%d", poll(&entry, 1, 19));
        printf("%d ", poll(&entry, 1, 100));
        count = recv(entry.fd, text, sizeof text, 0);
        clock_gettime(CLOCK_MONOTONIC, &now);
        printf("%.*s after %lld.%09ld s\n", (int)count, text, (long long)now.tv_sec, now.tv_nsec);
    }
    printf("%d\n", poll(&entry, 1, 10));
    return 0;
}

int main(int argc, char **argv)
{
    if (argc != 2)
        return 2;
    return strcmp(argv[1], "serve") == 0 ? serve() : ask(argv[1]);
}

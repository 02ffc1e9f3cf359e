/* Streams between two hosts. `library_streams serve` accepts a connection, sends back what comes until its end, and ends;
 * `library_streams NAME` first connects to a port where nobody listens, then to the server. */
#include <arpa/inet.h>
#include <errno.h>
#include <fcntl.h>
#include <netdb.h>
#include <netinet/tcp.h>
#include <poll.h>
#include <signal.h>
#include <stdio.h>
#include <stdlib.h>
#include <string.h>
#include <sys/socket.h>
#include <unistd.h>

/* what a call answered, or its error */
static void tell(const char *name, long answer)
{
    if (answer < 0)
        printf("%s: %s\n", name, strerror(errno));
    else
        printf("%s: %ld\n", name, answer);
}

static struct sockaddr_in address_of(const char *name, const char *port)
{
    struct addrinfo hints = {.ai_flags = AI_PASSIVE, .ai_family = AF_INET, .ai_socktype = SOCK_STREAM}, *found;
    struct sockaddr_in address;
    int error = getaddrinfo(name, port, &hints, &found);

    if (error) {
        fprintf(stderr, "%s: %s\n", name, gai_strerror(error));
        exit(1);
    }
    memcpy(&address, found->ai_addr, sizeof address);
    freeaddrinfo(found);
    return address;
}

static void serve(void)
{
    struct sockaddr_in at = address_of(NULL, "80"), peer;
    socklen_t size = sizeof peer;
    int on = 1, listener = socket(AF_INET, SOCK_STREAM, 0), fd;
    char text[16];
    ssize_t count;

    tell("setsockopt", setsockopt(listener, SOL_SOCKET, SO_REUSEADDR, &on, sizeof on));
    tell("bind", bind(listener, (struct sockaddr *)&at, sizeof at));
    tell("listen", listen(listener, 5));
    fd = accept4(listener, (struct sockaddr *)&peer, &size, SOCK_NONBLOCK);
    tell("accept4", fd);
    printf("%s:%d %d\n", inet_ntoa(peer.sin_addr), ntohs(peer.sin_port), fcntl(fd, F_GETFL));
    fcntl(fd, F_SETFL, 0);
    while ((count = read(fd, text, sizeof text)) > 0) {
        printf("got '%.*s'\n", (int)count, text);
        tell("write", write(fd, text, (size_t)count));
    }
    tell("read", count);
    close(fd);
    close(listener);
}

/* a connect that doesn't wait, and what came of it */
static int connected(const char *name, const char *port)
{
    struct sockaddr_in to = address_of(name, port);
    int fd = socket(AF_INET, SOCK_STREAM | SOCK_NONBLOCK, 0), error = -1;
    socklen_t size = sizeof error;
    struct pollfd entry = {.fd = fd, .events = POLLOUT};

    tell("connect", connect(fd, (struct sockaddr *)&to, sizeof to));
    tell("poll", poll(&entry, 1, -1));
    tell("getsockopt", getsockopt(fd, SOL_SOCKET, SO_ERROR, &error, &size));
    printf("%s\n", strerror(error));
    if (error == 0)
        return fd;
    close(fd);
    return -1;
}

static void talk(const char *name)
{
    struct sockaddr_in own, peer;
    socklen_t size = sizeof own;
    struct pollfd entry = {.events = POLLIN};
    char text[16];
    int on = 1, fd;

    connected(name, "81");
    entry.fd = fd = connected(name, "80");
    tell("setsockopt", setsockopt(fd, IPPROTO_TCP, TCP_NODELAY, &on, sizeof on));
    getsockname(fd, (struct sockaddr *)&own, &size);
    printf("%s:%d ", inet_ntoa(own.sin_addr), ntohs(own.sin_port));
    getpeername(fd, (struct sockaddr *)&peer, &size);
    printf("%s:%d\n", inet_ntoa(peer.sin_addr), ntohs(peer.sin_port));
    tell("send", send(fd, "hello", 5, 0));
    tell("recv", recv(fd, text, sizeof text, 0));
    poll(&entry, 1, -1);
    tell("recv", recv(fd, text, sizeof text, 0));
    tell("shutdown", shutdown(fd, SHUT_WR));
    /* told by EPIPE, and not by SIGPIPE */
    signal(SIGPIPE, SIG_IGN);
    tell("write", write(fd, "more", 4));
    tell("send", send(fd, "more", 4, 0));
    poll(&entry, 1, -1);
    tell("recv", recv(fd, text, sizeof text, 0));
    close(fd);
    /* and of a pipe too */
    tell("pipe", pipe((int[2]){0}));
    close(3);
    tell("write", write(4, "more", 4));
}

int main(int argc, char **argv)
{
    if (argc != 2)
        return 2;
    if (strcmp(argv[1], "serve") == 0)
        serve();
    else
        talk(argv[1]);
    return 0;
}

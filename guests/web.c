/* web PORT: an HTTP server with one page, at a TCP port. It takes one connection after the other: it reads a request up to
 * its empty line, answers it and closes, until it is shut down. */
#include "print.h"

static const char page[] = "HTTP/1.0 200 OK\r\nContent-Type: text/plain\r\n\r\nhello from a simulated server\n";

/* reads up to an empty line; 0 where the connection ends before it */
static int request_read(int fd)
{
    static const char end[] = "\r\n\r\n";
    size_t matched = 0;
    char byte;
    while (matched < sizeof end - 1) {
        if (recv(fd, &byte, 1, 0) <= 0)
            return 0;
        matched = byte == end[matched] ? matched + 1 : byte == '\r';
    }
    return 1;
}

static void answer(int fd)
{
    size_t sent = 0;
    while (sent < sizeof page - 1) {
        ssize_t count = send(fd, page + sent, sizeof page - 1 - sent, MSG_NOSIGNAL);
        if (count < 0)
            return;
        sent += (size_t)count;
    }
}

int main(int argc, char **argv)
{
    struct sockaddr_in own = in(0, 0, 0, 0, 0);
    uint32_t port;
    int fd, listener = socket(AF_INET, SOCK_STREAM, 0);

    if (argc < 2)
        return 1;
    read_number(argv[1], &port);
    own.sin_port = htons((uint16_t)port);
    if (bind(listener, &own, sizeof own) < 0 || listen(listener, 16) < 0)
        return 1;
    while ((fd = accept(listener, 0, 0)) >= 0) {
        if (request_read(fd))
            answer(fd);
        close(fd);
    }
    return 1;
}

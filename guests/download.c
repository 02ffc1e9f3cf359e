/* download END BYTES TIMES: asks the guest `depot` at an end, as 11.0.0.3:80, so many times for so many bytes, each time over
 * a new connection, and writes for each when it began, and after how long the first and the last byte came. */
#include "print.h"

static int64_t begun;

static void report(int64_t first, int64_t last)
{
    print("begun at ");
    print_number(begun);
    print(" ns: first byte after ");
    print_number(first - begun);
    print(" ns, last after ");
    print_number(last - begun);
    print(" ns\n");
}

/* 0 where not all bytes came */
static int downloaded(const struct sockaddr_in *from, const char *request, uint32_t wanted)
{
    static char bytes[8192];
    int64_t first = 0;
    int fd = socket(AF_INET, SOCK_STREAM, 0);

    begun = now();
    if (connect(fd, from, sizeof *from) < 0 || send(fd, request, strlen(request), MSG_NOSIGNAL) < 0
        || send(fd, "\n", 1, MSG_NOSIGNAL) < 0)
        return 0;
    while (wanted > 0) {
        ssize_t count = recv(fd, bytes, sizeof bytes, 0);
        if (count <= 0)
            return 0;
        if (!first)
            first = now();
        wanted -= (uint32_t)count;
    }
    report(first, now());
    close(fd);
    return 1;
}

int main(int argc, char **argv)
{
    const char *port = argc < 4 ? "" : argv[1];
    struct sockaddr_in from;
    uint32_t wanted, times, number = 0;

    while (*port && *port != ':')
        port++;
    if (!*port)
        return 1;
    read_number(port + 1, &number);
    from = read_address(argv[1], number);
    read_number(argv[2], &wanted);
    read_number(argv[3], &times);
    while (times-- > 0)
        if (!downloaded(&from, argv[2], wanted))
            return 2;
    return 0;
}

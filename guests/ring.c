/* One host of a ring: sends ten datagrams to the next one, ten milliseconds apart, and counts what it gets.
 * Its argument is the next host's address as a decimal number. */
#include "shadow.h"

#define PORT 7000
#define SENDS 10

static unsigned number(const char *text)
{
    unsigned n = 0;
    while (*text)
        n = n * 10 + (unsigned)(*text++ - '0');
    return n;
}

static void write_count(unsigned count)
{
    char text[16] = "got ";
    char digits[10];
    size_t size = 4, left = 0;
    do
        digits[left++] = (char)('0' + count % 10);
    while (count /= 10);
    while (left)
        text[size++] = digits[--left];
    text[size++] = '\n';
    write(1, text, size);
}

int main(int argc, char **argv)
{
    static char bytes[64];
    struct timespec pause = {0, 10000000}, limit = {1, 0};
    struct sockaddr_in own = in(0, 0, 0, 0, PORT), next = own;
    unsigned count = 0;
    int fd = socket(AF_INET, SOCK_DGRAM, 0);

    if (argc < 2 || bind(fd, &own, sizeof own) < 0)
        return 1;
    next.sin_addr.s_addr = htonl(number(argv[1]));
    for (int i = 0; i < SENDS; i++) {
        sendto(fd, bytes, sizeof bytes, 0, &next, sizeof next);
        clock_nanosleep(CLOCK_MONOTONIC, 0, &pause, 0);
    }
    for (;;) {
        struct pollfd entry = {fd, POLLIN, 0};
        if (ppoll(&entry, 1, &limit) <= 0)
            break;
        if (recv(fd, bytes, sizeof bytes, 0) >= 0)
            count++;
    }
    write_count(count);
    return 0;
}

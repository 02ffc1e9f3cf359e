/* ping ADDRESS COUNT: sends so many datagrams to the UDP port 7 of an address, waits up to a second for each answer, and
 * writes how long it took. */
#include "print.h"

int main(int argc, char **argv)
{
    uint32_t words[2] = {0, 0};
    struct sockaddr_in to;
    struct timespec second = {1, 0};
    struct line line;
    uint32_t count, answers = 0;
    int fd = socket(AF_INET, SOCK_DGRAM, 0);

    if (argc < 3)
        return 1;
    to = read_address(argv[1], 7);
    read_number(argv[2], &count);
    if (connect(fd, &to, sizeof to) < 0)
        return 1;
    for (uint32_t i = 0; i < count; i++) {
        int64_t sent = now();
        struct pollfd entry = {fd, POLLIN, 0};
        uint32_t got = count;
        words[0] = i;
        send(fd, words, sizeof words, 0);
        while (got != i && ppoll(&entry, 1, &second) > 0) {
            recv(fd, words, sizeof words, 0);
            got = words[0];
        }
        line.size = 0;
        add_number(&line, i);
        if (got == i) {
            answers++;
            add(&line, ": ");
            add_number(&line, now() - sent);
            add(&line, " ns\n");
        } else {
            add(&line, ": no answer\n");
        }
        write_line(&line);
    }
    print_number(answers);
    print(" of ");
    print_number(count);
    print(" answered\n");
    return 0;
}

/* gossip NUMBER COUNT ROUNDS: the host of this number, from 0 on, among so many that spread a rumour by UDP. Host 0 knows
 * it from its start. A host that knows it writes when it heard it and over how many hops, and then tells it in so many
 * rounds, 100 ms apart, to one other host, drawn anew each time. It runs until it is shut down. */
#include "print.h"

#define PORT 7000

/* the address that the simulator gives to the host of a number, in the order of the hosts' names */
static struct sockaddr_in address_of(uint32_t number)
{
    return in(11, 0, number / 254, number % 254 + 1, PORT);
}

/* one of the others */
static uint32_t draw(uint32_t number, uint32_t count)
{
    uint32_t word, other;
    getrandom(&word, sizeof word, 0);
    other = word % (count - 1);
    return other < number ? other : other + 1;
}

static void report(uint32_t hops)
{
    struct line line;
    line.size = 0;
    add(&line, "heard at ");
    add_number(&line, now());
    add(&line, " ns over ");
    add_number(&line, hops);
    add(&line, " hops\n");
    write_line(&line);
}

static void tell(int fd, uint32_t number, uint32_t count, uint32_t rounds, uint32_t hops)
{
    struct timespec pause = {0, 100000000};
    uint32_t old_news;
    for (uint32_t i = 0; i < rounds; i++) {
        struct sockaddr_in peer = address_of(draw(number, count));
        sendto(fd, &hops, sizeof hops, 0, &peer, sizeof peer);
        clock_nanosleep(CLOCK_MONOTONIC, 0, &pause, 0);
        while (recv(fd, &old_news, sizeof old_news, MSG_DONTWAIT) >= 0)
            ;
    }
}

int main(int argc, char **argv)
{
    struct sockaddr_in own = in(0, 0, 0, 0, PORT);
    uint32_t number, count, rounds, hops = 0, old_news;
    int fd = socket(AF_INET, SOCK_DGRAM, 0);

    if (argc < 4 || bind(fd, &own, sizeof own) < 0)
        return 1;
    read_number(argv[1], &number);
    read_number(argv[2], &count);
    read_number(argv[3], &rounds);
    if (count < 2 || (number > 0 && recv(fd, &hops, sizeof hops, 0) < 0))
        return 1;
    report(hops);
    tell(fd, number, count, rounds, hops + 1);
    for (;;)
        recv(fd, &old_news, sizeof old_news, 0);
}

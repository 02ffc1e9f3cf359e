/* volley OWN PEER FIRST: sends a byte back and forth between two UDP ports of 127.0.0.1. It binds the first of them, sends
 * the other one a byte where FIRST isn't 0, and answers each datagram by one, until it is shut down. */
#include "print.h"

int main(int argc, char **argv)
{
    static char byte[1];
    struct sockaddr_in own, peer;
    uint32_t own_port, peer_port, is_first;
    int fd = socket(AF_INET, SOCK_DGRAM, 0);

    if (argc < 4)
        return 1;
    read_number(argv[1], &own_port);
    read_number(argv[2], &peer_port);
    read_number(argv[3], &is_first);
    own = in(127, 0, 0, 1, own_port);
    peer = in(127, 0, 0, 1, peer_port);
    if (bind(fd, &own, sizeof own) < 0)
        return 1;
    if (is_first)
        sendto(fd, byte, sizeof byte, 0, &peer, sizeof peer);
    while (recv(fd, byte, sizeof byte, 0) >= 0)
        sendto(fd, byte, sizeof byte, 0, &peer, sizeof peer);
    return 1;
}

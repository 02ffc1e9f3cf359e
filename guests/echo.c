/* Sends each datagram that comes to UDP port 7 back to its sender, until it is shut down. */
#include "print.h"

int main(void)
{
    static char bytes[1472];
    struct sockaddr_in own = in(0, 0, 0, 0, 7), peer;
    int fd = socket(AF_INET, SOCK_DGRAM, 0);

    if (bind(fd, &own, sizeof own) < 0)
        return 1;
    for (;;) {
        socklen_t size = sizeof peer;
        ssize_t count = recvfrom(fd, bytes, sizeof bytes, 0, &peer, &size);
        if (count < 0)
            return 1;
        sendto(fd, bytes, (size_t)count, 0, &peer, size);
    }
}

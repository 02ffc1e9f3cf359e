/* serve COUNT: answers one connection on TCP port 80 with so many bytes, and ends. */
#include "print.h"

int main(int argc, char **argv)
{
    static char bytes[4096];
    struct sockaddr_in own = in(0, 0, 0, 0, 80);
    uint32_t left, at = 0;
    int listener = socket(AF_INET, SOCK_STREAM, 0), fd;

    if (argc < 2)
        return 1;
    read_number(argv[1], &left);
    if (bind(listener, &own, sizeof own) < 0 || listen(listener, 8) < 0)
        return 1;
    fd = accept(listener, 0, 0);
    if (fd < 0)
        return 1;
    while (left > 0) {
        size_t size = left < sizeof bytes ? left : sizeof bytes;
        ssize_t sent;
        for (size_t i = 0; i < size; i++)
            bytes[i] = (char)((at + i) % 251);
        sent = send(fd, bytes, size, MSG_NOSIGNAL);
        if (sent < 0)
            return 1;
        left -= (uint32_t)sent;
        at += (uint32_t)sent;
    }
    close(fd);
    print("sent ");
    print_number(at);
    print(" bytes\n");
    return 0;
}

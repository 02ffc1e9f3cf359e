/* drain ADDRESS: reads what comes from TCP port 80 of an address, and throws it away, until it ends or is shut down. */
#include "print.h"

int main(int argc, char **argv)
{
    static char bytes[4096];
    struct sockaddr_in to;
    ssize_t count;
    int fd = socket(AF_INET, SOCK_STREAM, 0);

    if (argc < 2)
        return 1;
    to = read_address(argv[1], 80);
    if (connect(fd, &to, sizeof to) < 0)
        return 1;
    while ((count = recv(fd, bytes, sizeof bytes, 0)) > 0)
        ;
    return count < 0;
}

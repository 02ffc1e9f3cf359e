/* fetch ADDRESS: reads what a server at TCP port 80 of an address sends until it ends, checks the bytes, and writes how
 * many they were and how long it took. */
#include "print.h"

int main(int argc, char **argv)
{
    static unsigned char bytes[4096];
    struct sockaddr_in to;
    uint32_t total = 0;
    int64_t begun;
    int fd = socket(AF_INET, SOCK_STREAM, 0);

    if (argc < 2)
        return 1;
    to = read_address(argv[1], 80);
    begun = now();
    if (connect(fd, &to, sizeof to) < 0) {
        print("no connection\n");
        return 1;
    }
    for (;;) {
        ssize_t count = recv(fd, bytes, sizeof bytes, 0);
        if (count < 0) {
            print("the connection broke\n");
            return 1;
        }
        if (count == 0)
            break;
        for (ssize_t i = 0; i < count; i++)
            if (bytes[i] != (total + (uint32_t)i) % 251) {
                print("a wrong byte\n");
                return 2;
            }
        total += (uint32_t)count;
    }
    print("got ");
    print_number(total);
    print(" bytes in ");
    print_number(now() - begun);
    print(" ns\n");
    return 0;
}

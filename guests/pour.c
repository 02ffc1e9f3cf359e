/* Answers one connection on TCP port 80 with bytes without end, until it is shut down or the connection breaks. */
#include "shadow.h"

int main(void)
{
    static char bytes[4096];
    struct sockaddr_in own = in(0, 0, 0, 0, 80);
    int listener = socket(AF_INET, SOCK_STREAM, 0), fd;

    if (bind(listener, &own, sizeof own) < 0 || listen(listener, 8) < 0)
        return 1;
    fd = accept(listener, 0, 0);
    while (send(fd, bytes, sizeof bytes, MSG_NOSIGNAL) >= 0)
        ;
    return 1;
}

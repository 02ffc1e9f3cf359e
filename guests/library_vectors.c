/* Reads and writes of several parts, over a pipe and over sockets inside the host. */
#include <arpa/inet.h>
#include <errno.h>
#include <netinet/in.h>
#include <stdio.h>
#include <string.h>
#include <sys/socket.h>
#include <sys/uio.h>
#include <unistd.h>

static char one[4], two[3], three[8];
static struct iovec rooms[] = {{one, 3}, {two, 2}, {three, 7}};

static void tell(const char *name, long answer)
{
    if (answer < 0)
        printf("%s: %s\n", name, strerror(errno));
    else
        printf("%s: %ld\n", name, answer);
}

static void tell_rooms(void)
{
    printf("'%s' '%s' '%s'\n", one, two, three);
    memset(one, 0, sizeof one);
    memset(two, 0, sizeof two);
    memset(three, 0, sizeof three);
}

static void over_a_pipe(void)
{
    static char large[40000];
    struct iovec words[] = {{"ab", 2}, {"", 0}, {"cdefg", 5}, {"h", 1}}, pages[] = {{large, 40000}, {large, 40000}};
    int ends[2];

    pipe(ends);
    tell("writev", writev(ends[1], words, 4));
    tell("readv", readv(ends[0], rooms, 3));
    tell_rooms();
    tell("writev", writev(ends[1], words, 0));
    tell("writev", writev(ends[1], words, -1));
    /* a call moves 65,536 bytes, which is what a pipe holds */
    tell("writev", writev(ends[1], pages, 2));
    tell("readv", readv(ends[0], pages, 2));
    tell("readv", readv(99, rooms, 3));
}

static void over_datagrams(void)
{
    struct sockaddr_in at = {.sin_family = AF_INET, .sin_port = htons(7000), .sin_addr = {htonl(INADDR_LOOPBACK)}}, from;
    struct iovec words[] = {{"data", 4}, {"gram", 4}, {" of parts", 9}};
    struct msghdr out = {.msg_name = &at, .msg_namelen = sizeof at, .msg_iov = words, .msg_iovlen = 2};
    struct msghdr in = {.msg_name = &from, .msg_namelen = sizeof from, .msg_iov = rooms, .msg_iovlen = 3};
    int server = socket(AF_INET, SOCK_DGRAM, 0), client = socket(AF_INET, SOCK_DGRAM, 0);

    tell("bind", bind(server, (struct sockaddr *)&at, sizeof at));
    tell("sendmsg", sendmsg(client, &out, 0));
    tell("recvmsg", recvmsg(server, &in, 0));
    printf("%d %s %d %d\n", in.msg_flags, inet_ntoa(from.sin_addr), from.sin_addr.s_addr == at.sin_addr.s_addr,
           (int)in.msg_namelen);
    tell_rooms();
    /* 17 bytes into 12 */
    out.msg_iovlen = 3;
    tell("sendmsg", sendmsg(client, &out, 0));
    tell("recvmsg", recvmsg(server, &in, 0));
    printf("%d\n", in.msg_flags == MSG_TRUNC);
    tell_rooms();
    /* a connected socket: writev sends one datagram */
    tell("connect", connect(client, (struct sockaddr *)&at, sizeof at));
    tell("writev", writev(client, words, 2));
    in.msg_name = NULL;
    tell("recvmsg", recvmsg(server, &in, 0));
    tell_rooms();
    tell("recvmsg", recvmsg(server, &in, MSG_DONTWAIT));
    close(client);
    close(server);
}

int main(void)
{
    over_a_pipe();
    over_datagrams();
    return 0;
}

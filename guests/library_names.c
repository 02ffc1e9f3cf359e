/* Addresses as texts, and names of hosts out of /etc/hosts. */
#include <arpa/inet.h>
#include <errno.h>
#include <netdb.h>
#include <netinet/in.h>
#include <stdio.h>
#include <string.h>
#include <sys/socket.h>

static void texts(void)
{
    static const char *const read[] = {"11.0.0.2",  "255.255.255.255", "0.0.0.0",  "1.2.3", "1.2.3.4.",
                                       "1.2.3.256", "01.2.3.4",        "1.2.3.4 ", "",      "1..2.3"};
    static const char *const older[] = {"11.0.0.2", "11.2",      "0x0b.010.3", "184549378",
                                        "256.1",    "1.2.3.4.5", "1.2.3.x",    "1.2.65536"};
    unsigned char bytes[4] = {11, 0, 0, 255};
    char text[INET_ADDRSTRLEN];
    struct in_addr address;

    for (size_t at = 0; at < sizeof read / sizeof *read; at++)
        printf("%d ", inet_pton(AF_INET, read[at], &address));
    printf("\n");
    for (size_t at = 0; at < sizeof older / sizeof *older; at++)
        printf("%s ", inet_aton(older[at], &address) ? inet_ntoa(address) : "none");
    printf("\n");
    printf("%s %08x\n", inet_ntop(AF_INET, bytes, text, sizeof text), (unsigned)ntohl(inet_addr("11.0.0.2")));
    printf("%d ", inet_ntop(AF_INET, bytes, text, 10) == NULL);
    printf("%s\n", strerror(errno));
    printf("%s\n", inet_ntop(AF_INET, bytes, text, 11));
    printf("%d ", inet_pton(AF_INET6, "::1", bytes));
    printf("%s\n", strerror(errno));
    printf("%d%d%d%d\n", !!IN6_IS_ADDR_UNSPECIFIED(&in6addr_any), !!IN6_IS_ADDR_LOOPBACK(&in6addr_loopback),
           !!IN6_IS_ADDR_LOOPBACK(&in6addr_any), !!IN6_IS_ADDR_V4MAPPED(&in6addr_any));
    printf("%04x %08x\n", ntohs(htons(0x1234)), (unsigned)ntohl(htonl(0x12345678)));
}

static void look_up(const char *node, const char *service, int flags, int family, int type)
{
    struct addrinfo hints = {.ai_flags = flags, .ai_family = family, .ai_socktype = type}, *list;
    int error = getaddrinfo(node, service, &hints, &list);

    printf("%s %s:", node ? node : "-", service ? service : "-");
    if (error) {
        printf(" %s\n", gai_strerror(error));
        return;
    }
    for (struct addrinfo *each = list; each; each = each->ai_next) {
        struct sockaddr_in *at = (struct sockaddr_in *)each->ai_addr;

        printf(" %d/%d %s:%d %s", each->ai_socktype, each->ai_protocol, inet_ntoa(at->sin_addr), ntohs(at->sin_port),
               each->ai_canonname ? each->ai_canonname : "-");
    }
    printf("\n");
    freeaddrinfo(list);
}

static void name_of(const char *text, int flags)
{
    struct sockaddr_in at = {.sin_family = AF_INET, .sin_port = htons(80)};
    char host[NI_MAXHOST], service[NI_MAXSERV];
    int error;

    inet_pton(AF_INET, text, &at.sin_addr);
    error = getnameinfo((struct sockaddr *)&at, sizeof at, host, sizeof host, service, sizeof service, flags);
    if (error)
        printf("%s: %s\n", text, gai_strerror(error));
    else
        printf("%s: %s %s\n", text, host, service);
}

int main(void)
{
    struct hostent *found;
    struct in_addr address;

    texts();
    look_up("server", "80", 0, AF_UNSPEC, 0);
    look_up("SERVER", "7", AI_CANONNAME, AF_INET, SOCK_DGRAM);
    look_up("localhost", NULL, 0, AF_INET, SOCK_STREAM);
    look_up(NULL, "1", 0, AF_INET, SOCK_STREAM);
    look_up(NULL, "65535", AI_PASSIVE, AF_INET, SOCK_STREAM);
    look_up("11.0.0.9", "0", AI_NUMERICHOST, AF_INET, SOCK_STREAM);
    look_up("server", "80", AI_NUMERICHOST, AF_INET, SOCK_STREAM);
    look_up("nobody", "80", 0, AF_INET, SOCK_STREAM);
    look_up("serve", "80", 0, AF_INET, SOCK_STREAM);
    look_up("server", "http", 0, AF_INET, SOCK_STREAM);
    look_up("server", "65536", 0, AF_INET, SOCK_STREAM);
    look_up("server", "80", 0, AF_INET6, SOCK_STREAM);
    look_up("server", "80", 0, AF_INET, SOCK_RAW);
    look_up(NULL, NULL, 0, AF_INET, SOCK_STREAM);
    name_of("11.0.0.2", 0);
    name_of("11.0.0.2", NI_NUMERICHOST);
    name_of("11.0.0.9", 0);
    name_of("11.0.0.9", NI_NAMEREQD);
    found = gethostbyname("client");
    printf("%s %s %d %d\n", found->h_name, inet_ntoa(*(struct in_addr *)found->h_addr), found->h_length,
           found->h_addr_list[1] == NULL);
    printf("%d ", gethostbyname("nobody") == NULL);
    printf("%d\n", h_errno == HOST_NOT_FOUND);
    inet_pton(AF_INET, "11.0.0.2", &address);
    printf("%s\n", gethostbyaddr(&address, sizeof address, AF_INET)->h_name);
    return 0;
}

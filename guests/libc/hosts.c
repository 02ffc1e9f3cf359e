/* Names of hosts, which all stand in /etc/hosts: a line has an address and its names. There are no names of services, and
 * no addresses but those of IPv4. */
#include <arpa/inet.h>
#include <errno.h>
#include <netdb.h>
#include <netinet/in.h>
#include <stdio.h>
#include <stdlib.h>
#include <string.h>
#include <strings.h>
#include <sys/socket.h>

#define LINE 512
#define BLANKS " \t\n"

int h_errno;

/* The first line that has a name, or, without one, an address: its first name and its address. 0 where there is none. */
static int find_host(const char *name, struct in_addr *address, char first[NI_MAXHOST])
{
    FILE *hosts = fopen("/etc/hosts", "r");
    char line[LINE];
    int found = 0;

    if (!hosts)
        return 0;
    while (!found && fgets(line, sizeof line, hosts)) {
        char *place, *word = strtok_r(line, BLANKS, &place), *official;
        struct in_addr there;

        if (!word || inet_pton(AF_INET, word, &there) != 1)
            continue;
        official = word = strtok_r(0, BLANKS, &place);
        for (; word && !found; word = strtok_r(0, BLANKS, &place))
            found = name ? strcasecmp(word, name) == 0 : there.s_addr == address->s_addr;
        if (found) {
            *address = there;
            snprintf(first, NI_MAXHOST, "%s", official);
        }
    }
    fclose(hosts);
    return found;
}

/* ---- getaddrinfo and getnameinfo */

static int port_of(const char *service, unsigned *port)
{
    char *behind;
    unsigned long number;

    *port = 0;
    if (!service)
        return 0;
    number = strtoul(service, &behind, 10);
    if (*service < '0' || *service > '9' || *behind || number > 65535)
        return EAI_SERVICE;
    *port = (unsigned)number;
    return 0;
}

static int address_of(const char *node, int flags, struct in_addr *address, char first[NI_MAXHOST])
{
    first[0] = 0;
    if (!node) {
        address->s_addr = htonl(flags & AI_PASSIVE ? INADDR_ANY : INADDR_LOOPBACK);
        return 0;
    }
    if (inet_aton(node, address)) {
        snprintf(first, NI_MAXHOST, "%s", node);
        return 0;
    }
    return !(flags & AI_NUMERICHOST) && find_host(node, address, first) ? 0 : EAI_NONAME;
}

/* an entry, its address and its name are one piece of memory */
struct entry {
    struct addrinfo info;
    struct sockaddr_in address;
    char name[];
};

static struct addrinfo *entry_of(struct sockaddr_in address, int type, int protocol, const char *name)
{
    struct entry *entry = calloc(1, sizeof *entry + strlen(name) + 1);

    if (!entry)
        return 0;
    entry->address = address;
    entry->info.ai_family = AF_INET;
    entry->info.ai_socktype = type;
    entry->info.ai_protocol = protocol;
    entry->info.ai_addrlen = sizeof entry->address;
    entry->info.ai_addr = (struct sockaddr *)&entry->address;
    if (*name)
        entry->info.ai_canonname = strcpy(entry->name, name);
    return &entry->info;
}

int getaddrinfo(const char *restrict node, const char *restrict service, const struct addrinfo *restrict hints,
                struct addrinfo **restrict list)
{
    static const int kinds[2][2] = {{SOCK_STREAM, IPPROTO_TCP}, {SOCK_DGRAM, IPPROTO_UDP}};
    struct addrinfo none = {0}, **end = list;
    struct sockaddr_in address = {.sin_family = AF_INET};
    char first[NI_MAXHOST];
    unsigned port;
    int error;

    if (!hints)
        hints = &none;
    *list = 0;
    if (!node && !service)
        return EAI_NONAME;
    if (hints->ai_family != AF_UNSPEC && hints->ai_family != AF_INET)
        return EAI_FAMILY;
    error = port_of(service, &port);
    if (!error)
        error = address_of(node, hints->ai_flags, &address.sin_addr, first);
    if (error)
        return error;
    if (!(hints->ai_flags & AI_CANONNAME))
        first[0] = 0;
    address.sin_port = htons((uint16_t)port);
    for (int at = 0; at < 2; at++) {
        if ((hints->ai_socktype && hints->ai_socktype != kinds[at][0]) ||
            (hints->ai_protocol && hints->ai_protocol != kinds[at][1]))
            continue;
        *end = entry_of(address, kinds[at][0], kinds[at][1], end == list ? first : "");
        if (!*end) {
            freeaddrinfo(*list);
            *list = 0;
            return EAI_MEMORY;
        }
        end = &(*end)->ai_next;
    }
    return *list ? 0 : EAI_SOCKTYPE;
}

void freeaddrinfo(struct addrinfo *list)
{
    while (list) {
        struct addrinfo *next = list->ai_next;

        free(list);
        list = next;
    }
}

/* 0 where a text and its end have room */
static int put(char *room, socklen_t size, const char *text)
{
    if (!room || size == 0)
        return 0;
    return snprintf(room, size, "%s", text) < (int)size ? 0 : EAI_OVERFLOW;
}

int getnameinfo(const struct sockaddr *restrict address, socklen_t size, char *restrict host, socklen_t host_size,
                char *restrict service, socklen_t service_size, int flags)
{
    struct sockaddr_in at;
    char name[NI_MAXHOST], port[8];
    int error;

    if (size < sizeof at || address->sa_family != AF_INET)
        return EAI_FAMILY;
    memcpy(&at, address, sizeof at);
    if (flags & NI_NUMERICHOST || !find_host(0, &at.sin_addr, name)) {
        if (flags & NI_NAMEREQD)
            return EAI_NONAME;
        inet_ntop(AF_INET, &at.sin_addr, name, sizeof name);
    }
    snprintf(port, sizeof port, "%u", ntohs(at.sin_port));
    error = put(host, host_size, name);
    return error ? error : put(service, service_size, port);
}

const char *gai_strerror(int error)
{
    switch (error) {
    case 0:
        return "Success";
    case EAI_NONAME:
        return "Name or service not known";
    case EAI_SERVICE:
        return "Servname not supported for ai_socktype";
    case EAI_SOCKTYPE:
        return "ai_socktype not supported";
    case EAI_FAMILY:
        return "ai_family not supported";
    case EAI_MEMORY:
        return "Memory allocation failure";
    case EAI_OVERFLOW:
        return "Argument buffer overflow";
    default:
        return "Unknown error";
    }
}

/* ---- the older calls, whose answer stands until the next one */

static struct hostent *host_entry(const char *name, struct in_addr found)
{
    static char own[NI_MAXHOST];
    static struct in_addr address;
    static char *addresses[2] = {(char *)&address}, *aliases[1];
    static struct hostent entry = {own, aliases, AF_INET, sizeof address, addresses};

    snprintf(own, sizeof own, "%s", name);
    address = found;
    return &entry;
}

struct hostent *gethostbyname(const char *name)
{
    struct in_addr address;
    char first[NI_MAXHOST];

    if (address_of(name, 0, &address, first)) {
        h_errno = HOST_NOT_FOUND;
        return 0;
    }
    return host_entry(first, address);
}

struct hostent *gethostbyaddr(const void *bytes, socklen_t size, int family)
{
    struct in_addr address;
    char first[NI_MAXHOST];

    if (family != AF_INET || size != sizeof address) {
        h_errno = NO_RECOVERY;
        return 0;
    }
    memcpy(&address, bytes, sizeof address);
    if (!find_host(0, &address, first)) {
        h_errno = HOST_NOT_FOUND;
        return 0;
    }
    return host_entry(first, address);
}

/* there is no list of services */
struct servent *getservbyname(const char *name, const char *protocol)
{
    (void)name;
    (void)protocol;
    return 0;
}

struct servent *getservbyport(int port, const char *protocol)
{
    (void)port;
    (void)protocol;
    return 0;
}

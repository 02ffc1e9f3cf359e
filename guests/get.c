/* get HOST: looks a host up by its name in /etc/hosts, asks TCP port 80 there for its page, and writes what stands behind
 * the answer's empty line. */
#include "print.h"

#define ROOM 1000000

static char hosts[ROOM];

/* all of /etc/hosts, with a zero byte behind it */
static int hosts_read(void)
{
    size_t size = 0;
    ssize_t count;
    int fd = openat(AT_FDCWD, "/etc/hosts", O_RDONLY);
    while ((count = read(fd, hosts + size, sizeof hosts - 1 - size)) > 0)
        size += (size_t)count;
    hosts[size] = 0;
    return count == 0;
}

static int begins(const char *text, const char *name)
{
    while (*name && *text == *name)
        text++, name++;
    return !*name && (*text == '\n' || *text == ' ');
}

/* the line of a host, which begins with its address */
static const char *line_of(const char *name)
{
    for (const char *line = hosts; *line;) {
        const char *at = line;
        while (*at && *at != ' ')
            at++;
        if (*at && begins(at + 1, name))
            return line;
        while (*line && *line++ != '\n')
            ;
    }
    return 0;
}

/* writes what comes behind an empty line */
static int body_written(int fd)
{
    static const char end[] = "\r\n\r\n";
    static char bytes[1024];
    size_t matched = 0;
    ssize_t count;
    while ((count = recv(fd, bytes, sizeof bytes, 0)) > 0) {
        size_t at = 0;
        for (; matched < sizeof end - 1 && at < (size_t)count; at++)
            matched = bytes[at] == end[matched] ? matched + 1 : bytes[at] == '\r';
        write(1, bytes + at, (size_t)count - at);
    }
    return count == 0 && matched == sizeof end - 1;
}

int main(int argc, char **argv)
{
    static const char request[] = "GET / HTTP/1.0\r\n\r\n";
    struct sockaddr_in to;
    const char *line;
    int fd = socket(AF_INET, SOCK_STREAM, 0);

    if (argc < 2 || !hosts_read() || !(line = line_of(argv[1])))
        return 6;
    to = read_address(line, 80);
    if (connect(fd, &to, sizeof to) < 0)
        return 7;
    if (send(fd, request, sizeof request - 1, MSG_NOSIGNAL) < 0 || !body_written(fd))
        return 1;
    return 0;
}

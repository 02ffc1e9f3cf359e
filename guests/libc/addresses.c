/* Addresses as texts. */
#include <arpa/inet.h>
#include <errno.h>
#include <netinet/in.h>
#include <stdio.h>
#include <stdlib.h>
#include <string.h>
#include <sys/socket.h>

const struct in6_addr in6addr_any = IN6ADDR_ANY_INIT, in6addr_loopback = IN6ADDR_LOOPBACK_INIT;

/* a decimal number of at most three digits up to 255, without a zero before it, and the place behind it; or null */
static const char *byte_of(const char *text, unsigned char *byte)
{
    unsigned value = 0;
    int digits = 0;

    for (; *text >= '0' && *text <= '9'; text++) {
        if (digits > 0 && value == 0)
            return 0;
        value = value * 10 + (unsigned)(*text - '0');
        if (++digits > 3 || value > 255)
            return 0;
    }
    *byte = (unsigned char)value;
    return digits > 0 ? text : 0;
}

int inet_pton(int family, const char *restrict text, void *restrict address)
{
    unsigned char bytes[4];

    if (family != AF_INET) {
        errno = EAFNOSUPPORT;
        return -1;
    }
    for (int at = 0; at < 4; at++) {
        text = byte_of(text, &bytes[at]);
        if (!text || *text != (at < 3 ? '.' : 0))
            return 0;
        text++;
    }
    memcpy(address, bytes, sizeof bytes);
    return 1;
}

const char *inet_ntop(int family, const void *restrict address, char *restrict text, socklen_t size)
{
    const unsigned char *bytes = address;
    char whole[INET_ADDRSTRLEN];
    int length;

    if (family != AF_INET) {
        errno = EAFNOSUPPORT;
        return 0;
    }
    length = snprintf(whole, sizeof whole, "%d.%d.%d.%d", bytes[0], bytes[1], bytes[2], bytes[3]);
    if (size <= (socklen_t)length) {
        errno = ENOSPC;
        return 0;
    }
    return strcpy(text, whole);
}

char *inet_ntoa(struct in_addr address)
{
    static char text[INET_ADDRSTRLEN];

    inet_ntop(AF_INET, &address, text, sizeof text);
    return text;
}

/* The older forms: one to four numbers, decimal, octal behind a zero or hexadecimal behind 0x; the last one fills the
 * bytes that are left. */
int inet_aton(const char *text, struct in_addr *address)
{
    uint32_t whole = 0;

    for (int left = 4; left > 0; left--) {
        char *behind;
        unsigned long part;

        if (*text < '0' || *text > '9')
            return 0;
        part = strtoul(text, &behind, 0);
        if (*behind == '.' && left > 1 && part <= 255) {
            whole |= (uint32_t)part << 8 * (left - 1);
            text = behind + 1;
            continue;
        }
        if (*behind != 0 || (left < 4 && part >> 8 * left))
            return 0;
        address->s_addr = htonl(whole | (uint32_t)part);
        return 1;
    }
    return 0;
}

in_addr_t inet_addr(const char *text)
{
    struct in_addr address;

    return inet_aton(text, &address) ? address.s_addr : INADDR_NONE;
}

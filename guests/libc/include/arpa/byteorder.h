/* The order of bytes on the network, which is that of the machine the other way round. */
#ifndef _ARPA_BYTEORDER_H
#define _ARPA_BYTEORDER_H

#include <stdint.h>
#include <sys/types.h>

/* the headers of picolibc may have macros of these names */
#undef htons
#undef htonl
#undef ntohs
#undef ntohl

static inline uint16_t htons(uint16_t n)
{
    return __builtin_bswap16(n);
}

static inline uint32_t htonl(uint32_t n)
{
    return __builtin_bswap32(n);
}

#define ntohs(n) htons(n)
#define ntohl(n) htonl(n)

#endif

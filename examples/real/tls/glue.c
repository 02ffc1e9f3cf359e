/* What mbedTLS asks of a platform that it doesn't know. */
#include "config.h"

#include <stddef.h>
#include <sys/random.h>

#define YEARS 24
#define SECONDS_OF_FOUR_YEARS ((4 * 365 + 1) * 86400)

int mbedtls_hardware_poll(void *data, unsigned char *into, size_t size, size_t *filled)
{
    (void)data;
    if (getrandom(into, size, 0) < 0)
        return -1;
    *filled = size;
    return 0;
}

/* Simulated time begins in 2000, and mbedTLS's test certificates are valid from 2019 to 2029: it is told that it is 2024. */
time_t time_of_certificates(time_t *where)
{
    time_t now = time(0) + YEARS / 4 * SECONDS_OF_FOUR_YEARS;

    if (where)
        *where = now;
    return now;
}

/* What mbedTLS's own configuration gets on top, here: where random bytes come from, and what day it is (glue.c). */
#include <time.h>

#define MBEDTLS_NO_PLATFORM_ENTROPY
#define MBEDTLS_ENTROPY_HARDWARE_ALT
#define MBEDTLS_PLATFORM_TIME_MACRO time_of_certificates

time_t time_of_certificates(time_t *where);

/* Random bytes, of which the machine gives at most 256 a call. */
#include "call.h"

#include <errno.h>
#include <sys/random.h>
#include <unistd.h>

#define MOST 256

ssize_t getrandom(void *into, size_t size, unsigned flags)
{
    char *bytes = into;
    size_t filled = 0;

    do {
        size_t left = size - filled;
        long count = CALL(CALL_GETRANDOM, bytes + filled, left < MOST ? left : MOST, flags);

        if (count < 0)
            return filled ? (ssize_t)filled : count;
        filled += (size_t)count;
    } while (filled < size);
    return (ssize_t)filled;
}

int getentropy(void *into, size_t size)
{
    if (size > MOST) {
        errno = EIO;
        return -1;
    }
    return getrandom(into, size, 0) < 0 ? -1 : 0;
}

/* The machine's call, and its refusals as errno. */
#include "call.h"

#include <errno.h>

#define LEAST_REFUSAL (-4095)

long machine_call(long number, long a, long b, long c, long d, long e, long f)
{
    register long a0 __asm__("a0") = a;
    register long a1 __asm__("a1") = b;
    register long a2 __asm__("a2") = c;
    register long a3 __asm__("a3") = d;
    register long a4 __asm__("a4") = e;
    register long a5 __asm__("a5") = f;
    register long a7 __asm__("a7") = number;
    __asm__ volatile("ecall"
                     : "+r"(a0)
                     : "r"(a1), "r"(a2), "r"(a3), "r"(a4), "r"(a5), "r"(a7)
                     : "memory");
    return a0;
}

long with_errno(long answer)
{
    if (answer >= 0 || answer < LEAST_REFUSAL)
        return answer;
    errno = (int)-answer;
    return -1;
}

/* picolibc's, with the flags of sigaction that programs give, by Linux's numbers. None has an effect (signals.c). A handler
 * with three arguments, as SA_SIGINFO asks for, is not there. */
#include_next <signal.h>

#ifndef LIBC_SIGNAL_H
#define LIBC_SIGNAL_H

#define SA_NOCLDWAIT 2
#define SA_ONSTACK 0x08000000
#define SA_RESTART 0x10000000
#define SA_NODEFER 0x40000000
#define SA_RESETHAND ((int)0x80000000)

#endif

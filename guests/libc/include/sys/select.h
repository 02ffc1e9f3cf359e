/* Sets for as many descriptors as Linux's have; picolibc's have 64, and the machine 256. */
#ifndef _SYS_SELECT_H
#define _SYS_SELECT_H

#include <string.h>
#include <sys/_sigset.h>
#include <sys/_timeval.h>
#include <sys/timespec.h>

#ifndef _SIGSET_T_DECLARED
#define _SIGSET_T_DECLARED
typedef __sigset_t sigset_t;
#endif

#define _SYS_TYPES_FD_SET
#define FD_SETSIZE 1024
#define FD_WORD_BITS (8 * sizeof(unsigned long))

typedef struct {
    unsigned long words[FD_SETSIZE / FD_WORD_BITS];
} fd_set;

#define FD_BIT(fd) (1ul << (fd) % FD_WORD_BITS)
#define FD_SET(fd, set) ((void)((set)->words[(fd) / FD_WORD_BITS] |= FD_BIT(fd)))
#define FD_CLR(fd, set) ((void)((set)->words[(fd) / FD_WORD_BITS] &= ~FD_BIT(fd)))
#define FD_ISSET(fd, set) (((set)->words[(fd) / FD_WORD_BITS] & FD_BIT(fd)) != 0)
#define FD_ZERO(set) ((void)memset((set), 0, sizeof(fd_set)))

int select(int count, fd_set *reads, fd_set *writes, fd_set *except, struct timeval *limit);
int pselect(int count, fd_set *reads, fd_set *writes, fd_set *except, const struct timespec *limit, const sigset_t *mask);

#endif

/* A process from its start to its end, and its memory. */
#include "call.h"

#include <errno.h>
#include <stdlib.h>
#include <unistd.h>

void __libc_init_array(void);
int main(int argc, char **argv, char **environment);

/* called by start.S with what the machine put on the stack: argc, argv, 0, the environment, 0 */
void run_program(long *words)
{
    int argc = (int)words[0];
    char **argv = (char **)(words + 1);
    environ = argv + argc + 1;
    __libc_init_array();
    exit(main(argc, argv, environ));
}

void _exit(int status)
{
    for (;;)
        RAW_CALL(CALL_EXIT_GROUP, status);
}

pid_t getpid(void)
{
    return CALL(CALL_GETPID);
}

/* where malloc gets its memory: the machine moves the end of the data segment as asked, or leaves it where it is */
void *sbrk(ptrdiff_t more)
{
    static char *end;
    char *wanted;

    if (!end)
        end = (char *)RAW_CALL(CALL_BRK, 0);
    wanted = end + more;
    if ((char *)RAW_CALL(CALL_BRK, wanted) != wanted) {
        errno = ENOMEM;
        return (void *)-1;
    }
    end = wanted;
    return wanted - more;
}

long sysconf(int name)
{
    switch (name) {
    case _SC_PAGESIZE:
        return 4096;
    case _SC_OPEN_MAX:
        return 256;
    case _SC_NPROCESSORS_CONF:
    case _SC_NPROCESSORS_ONLN:
        return 1;
    case _SC_CLK_TCK:
        return CLOCKS_PER_SEC;
    default:
        errno = EINVAL;
        return -1;
    }
}

int getdtablesize(void)
{
    return 256;
}

/* there are no functions for a quick end */
int at_quick_exit(void (*function)(void))
{
    (void)function;
    return -1;
}

void quick_exit(int status)
{
    _exit(status);
}

char *secure_getenv(const char *name)
{
    return getenv(name);
}

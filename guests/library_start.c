/* What stands around main: constructors and destructors, arguments and environment, thread variables, and ends. With the
 * argument `abort` or `assert` it ends so. */
#include <assert.h>
#include <signal.h>
#include <stdio.h>
#include <stdlib.h>
#include <string.h>
#include <unistd.h>

static __thread int counted = 40;
static __thread char unset[12];
static int told;

__attribute__((constructor(200))) static void first(void)
{
    printf("first constructor\n");
    counted++;
}

__attribute__((constructor)) static void second(void)
{
    printf("second constructor\n");
    counted++;
}

__attribute__((destructor)) static void last(void)
{
    printf("destructor\n");
}

static void at_exit(void)
{
    printf("handler\n");
}

static void at_exit_too(void)
{
    printf("later handler\n");
}

static void on_signal(int number)
{
    told = number;
}

static void environment(void)
{
    int count = 0;

    while (environ[count])
        count++;
    printf("%d texts: %s, %s, %d\n", count, getenv("NAME"), getenv("EMPTY"), getenv("NONE") == NULL);
    setenv("NONE", "some", 1);
    setenv("NAME", "another", 0);
    unsetenv("EMPTY");
    printf("%s, %s, %d\n", getenv("NONE"), getenv("NAME"), getenv("EMPTY") == NULL);
}

int main(int argc, char **argv)
{
    atexit(at_exit);
    atexit(at_exit_too);
    if (argc > 1 && strcmp(argv[1], "abort") == 0) {
        signal(SIGABRT, on_signal);
        raise(SIGABRT);
        signal(SIGABRT, SIG_DFL);
        printf("told of %d\n", told);
        abort();
    }
    if (argc > 1 && strcmp(argv[1], "assert") == 0)
        assert(argc == 1);
    printf("%d arguments", argc - 1);
    for (int at = 1; at < argc; at++)
        printf(" '%s'", argv[at]);
    printf("\n%d %d %d\n", counted, (int)strlen(unset), argv[argc] == NULL);
    environment();
    exit(300);
}

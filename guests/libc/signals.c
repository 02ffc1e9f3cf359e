/* Signals. Nothing ever sends one to a process that goes on: the machine ends it. So what picolibc's `signal` keeps is for
 * `raise` alone, and for SIGPIPE: a program that ignores or handles it is told of a broken pipe by EPIPE, as on Linux. */
#include "call.h"

#include <errno.h>
#include <signal.h>
#include <unistd.h>

/* What `raise` and `abort` come to where no handler is set: the process exits with 128 and the signal's number, as a shell
 * tells it. */
int kill(pid_t process, int signal)
{
    if (process != getpid() || signal < 0 || signal >= NSIG) {
        errno = process == getpid() ? EINVAL : ENOSYS;
        return -1;
    }
    if (signal)
        _exit(128 + signal);
    return 0;
}

/* Masks and flags have no meaning here: no handler is ever interrupted by a signal. */
int sigaction(int number, const struct sigaction *wanted, struct sigaction *old)
{
    _sig_func_ptr was = signal(number, wanted ? wanted->sa_handler : SIG_DFL);

    if (was == SIG_ERR) {
        errno = EINVAL;
        return -1;
    }
    if (!wanted)
        signal(number, was);
    if (old)
        *old = (struct sigaction){.sa_handler = was};
    return 0;
}

/* no signal ever waits, so a mask holds none back; it is kept to be told */
int sigprocmask(int how, const sigset_t *wanted, sigset_t *old)
{
    static sigset_t mask;
    sigset_t was = mask;

    if (wanted)
        switch (how) {
        case SIG_BLOCK:
            mask |= *wanted;
            break;
        case SIG_UNBLOCK:
            mask &= ~*wanted;
            break;
        case SIG_SETMASK:
            mask = *wanted;
            break;
        default:
            errno = EINVAL;
            return -1;
        }
    if (old)
        *old = was;
    return 0;
}

int pthread_sigmask(int how, const sigset_t *wanted, sigset_t *old)
{
    return sigprocmask(how, wanted, old) ? errno : 0;
}

int sigpending(sigset_t *waiting)
{
    sigemptyset(waiting);
    return 0;
}

int handles_broken_pipes(void)
{
    _sig_func_ptr handler = signal(SIGPIPE, SIG_DFL);

    signal(SIGPIPE, handler);
    return handler != SIG_DFL;
}

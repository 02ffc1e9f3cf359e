/* A program's log: there is nobody to send it to, so its lines go to standard error, behind the program's name and id where
 * `openlog` asks for them. The facility says to whom they would go, and has no effect. */
#include <stdarg.h>
#include <stdio.h>
#include <string.h>
#include <syslog.h>
#include <unistd.h>

static const char *log_name;
static int log_options, log_mask = LOG_UPTO(LOG_DEBUG);

void openlog(const char *name, int options, int facility)
{
    (void)facility;
    log_name = name;
    log_options = options;
}

void closelog(void)
{
}

int setlogmask(int mask)
{
    int was = log_mask;

    if (mask)
        log_mask = mask;
    return was;
}

void vsyslog(int priority, const char *format, va_list rest)
{
    size_t size = strlen(format);

    if (!(log_mask & LOG_MASK(LOG_PRI(priority))))
        return;
    if (log_name)
        fputs(log_name, stderr);
    if (log_options & LOG_PID)
        fprintf(stderr, "[%d]", (int)getpid());
    if (log_name || log_options & LOG_PID)
        fputs(": ", stderr);
    vfprintf(stderr, format, rest);
    if (size == 0 || format[size - 1] != '\n')
        putc('\n', stderr);
}

void syslog(int priority, const char *format, ...)
{
    va_list rest;

    va_start(rest, format);
    vsyslog(priority, format, rest);
    va_end(rest);
}

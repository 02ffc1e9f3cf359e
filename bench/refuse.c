/* Refuses memory to the program that it is loaded into (LD_PRELOAD): the request of number REFUSE_AT, from 1 on, gets none, and with
 * REFUSE_FROM no later one does either. At the end it writes how many requests there were to the file that REFUSE_COUNT names. */
#define _GNU_SOURCE
#include <dlfcn.h>
#include <errno.h>
#include <fcntl.h>
#include <stdatomic.h>
#include <stdio.h>
#include <stdlib.h>
#include <string.h>
#include <sys/syscall.h>
#include <unistd.h>

static void *(*real_malloc)(size_t);
static void *(*real_calloc)(size_t, size_t);
static void *(*real_realloc)(void *, size_t);
static void *(*real_aligned_alloc)(size_t, size_t);
static int (*real_posix_memalign)(void **, size_t, size_t);

static atomic_ulong made;
static unsigned long refused_at;
static int from_there_on;
static int ready;

/* what dlsym itself asks for while it finds the others */
static char early[65536];
static atomic_size_t early_used;

static void *take_early(size_t size)
{
    size_t at = atomic_fetch_add(&early_used, (size + 15) & ~(size_t)15);
    return at + size <= sizeof early ? early + at : NULL;
}

__attribute__((constructor)) static void begin(void)
{
    real_malloc = dlsym(RTLD_NEXT, "malloc");
    real_calloc = dlsym(RTLD_NEXT, "calloc");
    real_realloc = dlsym(RTLD_NEXT, "realloc");
    real_aligned_alloc = dlsym(RTLD_NEXT, "aligned_alloc");
    real_posix_memalign = dlsym(RTLD_NEXT, "posix_memalign");
    const char *at = getenv("REFUSE_AT");
    refused_at = at ? strtoul(at, NULL, 10) : 0;
    from_there_on = getenv("REFUSE_FROM") != NULL;
    ready = 1;
}

static void tell(void)
{
    const char *name = getenv("REFUSE_COUNT");
    if (!name || !ready)
        return;
    ready = 0;
    char text[32];
    int length = snprintf(text, sizeof text, "%lu\n", atomic_load(&made));
    int file = open(name, O_WRONLY | O_CREAT | O_TRUNC, 0644);
    if (file >= 0) {
        if (write(file, text, (size_t)length) != length)
            abort();
        close(file);
    }
}

__attribute__((destructor)) static void end(void)
{
    tell();
}

/* a program that ends so runs no destructor */
void _exit(int status)
{
    tell();
    syscall(SYS_exit_group, status);
    __builtin_unreachable();
}

static int is_refused(void)
{
    if (!ready)
        return 0;
    unsigned long number = atomic_fetch_add(&made, 1) + 1;
    int refused = refused_at && (from_there_on ? number >= refused_at : number == refused_at);
    if (refused)
        errno = ENOMEM;
    return refused;
}

void *malloc(size_t size)
{
    if (!real_malloc)
        return take_early(size);
    return is_refused() ? NULL : real_malloc(size);
}

void *calloc(size_t count, size_t size)
{
    if (!real_calloc)
        return take_early(count * size);
    return is_refused() ? NULL : real_calloc(count, size);
}

void *realloc(void *old, size_t size)
{
    if ((char *)old >= early && (char *)old < early + sizeof early) {
        void *fresh = malloc(size);
        if (fresh)
            memcpy(fresh, old, size);
        return fresh;
    }
    return is_refused() ? NULL : real_realloc(old, size);
}

void *aligned_alloc(size_t alignment, size_t size)
{
    return is_refused() ? NULL : real_aligned_alloc(alignment, size);
}

int posix_memalign(void **to, size_t alignment, size_t size)
{
    return is_refused() ? ENOMEM : real_posix_memalign(to, alignment, size);
}

void free(void *old)
{
    static void (*real_free)(void *);
    if (!old || ((char *)old >= early && (char *)old < early + sizeof early))
        return;
    if (!real_free)
        real_free = dlsym(RTLD_NEXT, "free");
    real_free(old);
}

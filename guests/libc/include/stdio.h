/* picolibc's, with what POSIX has besides (stdio.c). */
#include_next <stdio.h>

#ifndef LIBC_STDIO_H
#define LIBC_STDIO_H

#include <sys/types.h>

ssize_t getdelim(char **line, size_t *room, int end, FILE *stream);
ssize_t getline(char **line, size_t *room, FILE *stream);
int dprintf(int fd, const char *format, ...) __attribute__((format(printf, 2, 3)));
int vdprintf(int fd, const char *format, va_list rest) __attribute__((format(printf, 2, 0)));

/* there is one thread */
#define getc_unlocked(stream) getc(stream)
#define putc_unlocked(byte, stream) putc(byte, stream)
#define getchar_unlocked() getchar()
#define putchar_unlocked(byte) putchar(byte)
#define flockfile(stream) ((void)(stream))
#define funlockfile(stream) ((void)(stream))

#endif

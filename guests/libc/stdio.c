/* The three streams that are there at the start. Standard output and errors go out line by line, a call a line, so that
 * what a process wrote is there also where it never ends. */
#include <stdarg.h>
#include <stdio-bufio.h>
#include <stdio.h>
#include <stdlib.h>
#include <unistd.h>

#define ROOM 1024

static char room[3][ROOM];

#define STREAM(fd, way, lines) FDEV_SETUP_BUFIO(fd, room[fd], ROOM, read, write, lseek, close, way, lines)

static struct __file_bufio input = STREAM(STDIN_FILENO, __SRD, 0);
static struct __file_bufio output = STREAM(STDOUT_FILENO, __SWR, __BLBF);
static struct __file_bufio errors = STREAM(STDERR_FILENO, __SWR, __BLBF);

FILE *const stdin = &input.xfile.cfile.file;
FILE *const stdout = &output.xfile.cfile.file;
FILE *const stderr = &errors.xfile.cfile.file;

/* in place of picolibc's, which (in 1.8) loses a last line that has no end */
char *fgets(char *restrict line, int size, FILE *restrict stream)
{
    int used = 0, byte = 0;

    while (used < size - 1 && byte != '\n' && (byte = getc(stream)) != EOF)
        line[used++] = (char)byte;
    if (used == 0 && byte == EOF)
        return NULL;
    line[used] = 0;
    return line;
}

/* a line with its end, in memory that grows with it */
ssize_t getdelim(char **line, size_t *room, int end, FILE *stream)
{
    size_t used = 0;
    int byte = EOF;

    if (!*line)
        *room = 0;
    do {
        if (used + 1 >= *room) {
            size_t wider = *room < 64 ? 128 : *room * 2;
            char *moved = realloc(*line, wider);

            if (!moved)
                return -1;
            *line = moved;
            *room = wider;
        }
        byte = getc(stream);
        if (byte != EOF)
            (*line)[used++] = (char)byte;
    } while (byte != EOF && byte != end);
    (*line)[used] = 0;
    return used > 0 ? (ssize_t)used : -1;
}

ssize_t getline(char **line, size_t *room, FILE *stream)
{
    return getdelim(line, room, '\n', stream);
}

int vdprintf(int fd, const char *format, va_list rest)
{
    char *text;
    int size = vasprintf(&text, format, rest), written;

    if (size < 0)
        return -1;
    written = (int)write(fd, text, (size_t)size);
    free(text);
    return written;
}

int dprintf(int fd, const char *format, ...)
{
    va_list rest;
    int written;

    va_start(rest, format);
    written = vdprintf(fd, format, rest);
    va_end(rest);
    return written;
}

/* the last of all destructors */
__attribute__((destructor(101))) static void write_the_rest(void)
{
    fflush(stdout);
    fflush(stderr);
}

/* Writing numbers, texts and lines to descriptor 1, and reading numbers and addresses from texts. */
#ifndef PRINT_H
#define PRINT_H

#include "shadow.h"

static inline void print(const char *text)
{
    write(1, text, strlen(text));
}

/* a number in decimal digits, at the end of a text that has room for it. A division of 64 bits is a call of libgcc: none is made
 * where 32 bits are enough. */
static inline const char *decimal(char text[21], int64_t value)
{
    size_t at = 20;
    uint64_t n = value < 0 ? -(uint64_t)value : (uint64_t)value;
    uint32_t low;
    text[at] = 0;
    for (; n >> 32; n /= 10)
        text[--at] = (char)('0' + n % 10);
    low = (uint32_t)n;
    do
        text[--at] = (char)('0' + low % 10);
    while (low /= 10);
    if (value < 0)
        text[--at] = '-';
    return text + at;
}

static inline void print_number(int64_t value)
{
    char text[21];
    print(decimal(text, value));
}

/* what is put together to be written at once */
struct line {
    size_t size;
    char text[120];
};

static inline void write_line(struct line *line)
{
    write(1, line->text, line->size);
    line->size = 0;
}

static inline void add(struct line *line, const char *text)
{
    size_t size = line->size;
    for (; *text; text++) {
        if (size == sizeof line->text) {
            write(1, line->text, size);
            size = 0;
        }
        line->text[size++] = *text;
    }
    line->size = size;
}

/* in decimal digits, which are written in their places at once where 32 bits are enough and the line has room for any such number */
static inline void add_number(struct line *line, int64_t value)
{
    char text[21];
    uint32_t n = (uint32_t)value;
    size_t at = line->size + 1;
    if (value >> 32 || at + 9 > sizeof line->text) {
        add(line, decimal(text, value));
        return;
    }
    for (uint32_t rest = n; rest >= 10; rest /= 10)
        at++;
    line->size = at;
    do
        line->text[--at] = (char)('0' + n % 10);
    while (n /= 10);
}

/* a decimal number, and the place behind it */
static inline const char *read_number(const char *text, uint32_t *value)
{
    uint32_t n = 0;
    while (*text >= '0' && *text <= '9')
        n = n * 10 + (uint32_t)(*text++ - '0');
    *value = n;
    return text;
}

/* an address as 11.0.0.2 */
static inline struct sockaddr_in read_address(const char *text, unsigned port)
{
    uint32_t part, ip = 0;
    for (int i = 0; i < 4; i++) {
        text = read_number(text, &part);
        ip = ip << 8 | (part & 255);
        if (*text == '.')
            text++;
    }
    return in(ip >> 24, ip >> 16 & 255, ip >> 8 & 255, ip & 255, port);
}

/* simulated time in nanoseconds */
static inline int64_t now(void)
{
    struct timespec t;
    clock_gettime(CLOCK_MONOTONIC, &t);
    return t.tv_sec * 1000000000 + t.tv_nsec;
}

#endif

/* Plays the system calls that its arguments spell, one argument a step, and writes what they answer.
 *
 *   198 2 2 0        makes call 198 with these arguments, and writes its answer as a decimal number and a line end
 *   *100 172         makes call 172 a hundred times, and writes nothing
 *   =0 02001b58      puts these bytes (hexadecimal) into the scratch memory at offset 0
 *   ?16 8            writes 8 bytes of the scratch memory from offset 16 on, as hexadecimal digits and a line end
 *
 * An argument of a call is a decimal number, perhaps with a sign, or `@N` for the address of the scratch memory's byte
 * N, or `$` for the last answer. Arguments that aren't given are 0. The scratch memory has 80,000 bytes, 0 at first. */

#include "shadow.h"

#define SCRATCH 80000

static unsigned char scratch[SCRATCH];
static long last;

static const char *past_blanks(const char *text)
{
    while (*text == ' ')
        text++;
    return text;
}

static const char *number(const char *text, long *value)
{
    unsigned long n = 0;
    int negative = *text == '-';
    if (negative)
        text++;
    while (*text >= '0' && *text <= '9')
        n = n * 10 + (unsigned long)(*text++ - '0');
    *value = (long)(negative ? -n : n);
    return text;
}

static const char *operand(const char *text, long *value)
{
    long n;
    switch (*text) {
    case '@':
        text = number(text + 1, &n);
        *value = (long)scratch + n;
        return text;
    case '$':
        *value = last;
        return text + 1;
    default:
        return number(text, value);
    }
}

static void write_number(long value)
{
    char text[12];
    size_t at = sizeof text;
    unsigned long n = value < 0 ? -(unsigned long)value : (unsigned long)value;
    text[--at] = '\n';
    do
        text[--at] = (char)('0' + n % 10);
    while (n /= 10);
    if (value < 0)
        text[--at] = '-';
    write(1, text + at, sizeof text - at);
}

static void write_bytes(const char *text)
{
    static const char digits[] = "0123456789abcdef";
    static char line[2 * 1024 + 1];
    long at, size, i;
    text = past_blanks(number(text, &at));
    number(text, &size);
    for (i = 0; i < size && i < 1024; i++) {
        line[2 * i] = digits[scratch[at + i] >> 4];
        line[2 * i + 1] = digits[scratch[at + i] & 15];
    }
    line[2 * i] = '\n';
    write(1, line, (size_t)(2 * i + 1));
}

static int digit(char c)
{
    return c <= '9' ? c - '0' : (c | 32) - 'a' + 10;
}

static void put_bytes(const char *text)
{
    long at;
    text = past_blanks(number(text, &at));
    for (; text[0] && text[1]; text += 2)
        scratch[at++] = (unsigned char)(digit(text[0]) << 4 | digit(text[1]));
}

/* makes the call that a text spells, so many times */
static void call(const char *text, long times)
{
    long words[7] = {0};
    for (int i = 0; i < 7 && *text; i++)
        text = past_blanks(operand(text, &words[i]));
    while (times-- > 0)
        last = shadow_call6(words[0], words[1], words[2], words[3], words[4], words[5], words[6]);
}

static void step(const char *text)
{
    long times;
    switch (*text) {
    case '=':
        put_bytes(text + 1);
        break;
    case '?':
        write_bytes(text + 1);
        break;
    case '*':
        text = past_blanks(number(text + 1, &times));
        call(text, times);
        break;
    default:
        call(text, 1);
        write_number(last);
    }
}

int main(int argc, char **argv)
{
    for (int i = 1; i < argc; i++)
        step(past_blanks(argv[i]));
    return 0;
}

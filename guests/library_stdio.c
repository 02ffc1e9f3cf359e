/* What a C library gives without the machine's help but for memory and descriptors: formats, streams and the heap. */
#include <errno.h>
#include <limits.h>
#include <math.h>
#include <setjmp.h>
#include <stdint.h>
#include <stdio.h>
#include <stdlib.h>
#include <string.h>
#include <unistd.h>

static void formats(void)
{
    static const char *volatile longer = "longer than that";
    char small[5], word[8];
    int whole, hexadecimal, count;
    double broken;

    printf("%d %i %u %x %X %o %c %s %%\n", -7, 7, 7u, 255, 255, 8, 'c', "text");
    printf("%5d|%-5d|%05d|%+d|%.*s|%10.3s|\n", 42, 42, 42, 42, 3, "abcdef", "xyzzy");
    printf("%lld %llu %zu %jd %hhu\n", LLONG_MIN, ULLONG_MAX, sizeof(long), (intmax_t)-1, 257);
    printf("%.3f|%8.2f|%-8.1f|%e|%g|%g\n", 3.14159, 2.5, 0.25, 12345.678, 0.0001, 1e10);
    count = snprintf(small, sizeof small, "%s", longer);
    printf("%d %s\n", count, small);
    count = sscanf("12 0x1f 2.5 word", "%d %x %lf %7s", &whole, (unsigned *)&hexadecimal, &broken, word);
    printf("%d: %d %d %.2f %s\n", count, whole, hexadecimal, broken, word);
    errno = 0;
    printf("%d ", strtol("99999999999", 0, 10) == LONG_MAX);
    printf("%d %.15f\n", errno == ERANGE, sqrt(2));
}

static int by_value(const void *a, const void *b)
{
    return *(const int *)a - *(const int *)b;
}

static void sorting_and_jumps(void)
{
    int numbers[] = {5, 3, 9, 1, 7};
    static jmp_buf place;
    int jumped;

    qsort(numbers, 5, sizeof *numbers, by_value);
    printf("%d %d %d %d %d\n", numbers[0], numbers[1], numbers[2], numbers[3], numbers[4]);
    jumped = setjmp(place);
    if (jumped < 3)
        longjmp(place, jumped + 1);
    printf("jumped %d times\n", jumped);
}

#define LARGE (1 << 18)

static void large_blocks(void)
{
    unsigned char *bytes = malloc(LARGE);
    unsigned long sum = 0;

    for (int at = 0; at < LARGE; at += 1024)
        bytes[at] = (unsigned char)(at / 1024 % 251);
    bytes = realloc(bytes, LARGE + LARGE / 2);
    for (int at = 0; at < LARGE; at += 1024)
        sum += bytes[at];
    printf("%lu\n", sum);
    free(bytes);
    errno = 0;
    printf("%d ", malloc(0x70000000) == NULL);
    printf("%s\n", strerror(errno));
}

#define BLOCKS 200

/* what is freed is used again, and calloc gives zeros */
static void small_blocks(void)
{
    static char *blocks[BLOCKS];
    char *end = 0;
    int zeros = 1;

    for (int turn = 0; turn < 3; turn++) {
        for (int at = 0; at < BLOCKS; at++) {
            size_t size = (size_t)(at * 7 % 300 + 1);

            blocks[at] = turn ? calloc(1, size) : malloc(size);
            for (size_t i = 0; turn && i < size; i++)
                zeros = zeros && blocks[at][i] == 0;
            memset(blocks[at], 'x', size);
        }
        for (int at = 0; at < BLOCKS; at++)
            free(blocks[at]);
        if (turn == 0)
            end = sbrk(0);
    }
    printf("%d %d\n", zeros, sbrk(0) == end);
}

static void streams(void)
{
    int ends[2];
    char line[32], *whole = NULL;
    size_t room;
    FILE *in, *out;

    printf("%d %d\n", getchar() == EOF, feof(stdin) != 0);
    pipe(ends);
    in = fdopen(ends[0], "r");
    out = fdopen(ends[1], "w");
    fprintf(out, "one %d\n%0200d\nlast\ntwo", 1, 7);
    fclose(out);
    printf("%s", fgets(line, sizeof line, in));
    printf("%d ", (int)getline(&whole, &room, in));
    printf("%d %s", (int)getline(&whole, &room, in), whole);
    printf("%s\n", fgets(line, sizeof line, in));
    printf("%d ", fgets(line, sizeof line, in) == NULL);
    printf("%d\n", (int)getline(&whole, &room, in));
    free(whole);
    fclose(in);
    fflush(stdout);
    printf("%d\n", dprintf(1, "%s %d\n", "dprintf", 42));
    printf("%d ", fopen("/there/is/none", "r") == NULL);
    printf("%s\n", strerror(errno));
    fprintf(stderr, "an error ");
    fprintf(stderr, "in one line\n");
}

int main(void)
{
    formats();
    sorting_and_jumps();
    large_blocks();
    small_blocks();
    streams();
    printf("without a line end");
    fprintf(stderr, "without one too");
    return 0;
}

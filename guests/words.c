/* Runs the instruction words that its arguments spell, and writes the registers and the memory that they leave. An
 * argument is a row of these, with blanks between them; all numbers are hexadecimal:
 *
 *   x10=80000000     sets register 10 (1 to 30; register 31 is the guest's own)
 *   *8000=5          stores a word
 *   02b54533         an instruction, at 0x10000 or behind the one before it
 *   x10              runs the instructions so far, if any, and writes register 10 as eight digits
 *   *8000            the same, and writes a word of memory
 *
 * At the row's end the instructions run that didn't yet, and a line ends where something was written. Registers and
 * memory keep what they have from row to row; the registers are 0 at first. A row may jump as far as its last
 * instruction's end. The pages from 0x8000 on are those of words.ld. */

#include "print.h"

static uint32_t *const program = (uint32_t *)0x10000;
static uint32_t count;

/* The registers of the rows. */
uint32_t registers[32];
/* The guest's own stack pointer while a row runs. */
uint32_t own_stack;

void run(void);
void come_back(void);

__asm__(".option push\n"
        ".option norelax\n"
        ".globl run\n"
        "run:\n"
        "    addi sp, sp, -64\n"
        "    sw ra, 0(sp)\n sw gp, 4(sp)\n sw tp, 8(sp)\n"
        "    sw s0, 12(sp)\n sw s1, 16(sp)\n sw s2, 20(sp)\n sw s3, 24(sp)\n sw s4, 28(sp)\n sw s5, 32(sp)\n"
        "    sw s6, 36(sp)\n sw s7, 40(sp)\n sw s8, 44(sp)\n sw s9, 48(sp)\n sw s10, 52(sp)\n sw s11, 56(sp)\n"
        "    lui t6, %hi(own_stack)\n sw sp, %lo(own_stack)(t6)\n"
        "    lui t6, %hi(registers)\n addi t6, t6, %lo(registers)\n"
        "    .irp n, 1, 2, 3, 4, 5, 6, 7, 8, 9, 10, 11, 12, 13, 14, 15, 16, 17, 18, 19, 20, 21, 22, 23, 24, 25, 26, 27, 28, 29, 30\n"
        "    lw x\\n, 4 * \\n(t6)\n"
        "    .endr\n"
        "    lui t6, 0x10\n"
        "    jr t6\n"
        ".globl come_back\n"
        "come_back:\n"
        "    lui t6, %hi(registers)\n addi t6, t6, %lo(registers)\n"
        "    .irp n, 1, 2, 3, 4, 5, 6, 7, 8, 9, 10, 11, 12, 13, 14, 15, 16, 17, 18, 19, 20, 21, 22, 23, 24, 25, 26, 27, 28, 29, 30\n"
        "    sw x\\n, 4 * \\n(t6)\n"
        "    .endr\n"
        "    lui t6, %hi(own_stack)\n lw sp, %lo(own_stack)(t6)\n"
        "    lw ra, 0(sp)\n lw gp, 4(sp)\n lw tp, 8(sp)\n"
        "    lw s0, 12(sp)\n lw s1, 16(sp)\n lw s2, 20(sp)\n lw s3, 24(sp)\n lw s4, 28(sp)\n lw s5, 32(sp)\n"
        "    lw s6, 36(sp)\n lw s7, 40(sp)\n lw s8, 44(sp)\n lw s9, 48(sp)\n lw s10, 52(sp)\n lw s11, 56(sp)\n"
        "    addi sp, sp, 64\n"
        "    ret\n"
        ".option pop\n");

/* JAL x0 from one address to another */
static uint32_t jump(uint32_t from, uint32_t to)
{
    uint32_t by = to - from;
    return (by >> 20 & 1) << 31 | (by >> 1 & 0x3ff) << 21 | (by >> 11 & 1) << 20 | (by >> 12 & 0xff) << 12 | 0x6f;
}

/* runs the instructions so far */
static void flush(void)
{
    if (!count)
        return;
    program[count] = jump((uint32_t)&program[count], (uint32_t)come_back);
    count = 0;
    __asm__ volatile(".word 0x0000100f" ::: "memory"); /* FENCE.I */
    run();
}

static const char *read_hex(const char *text, uint32_t *value)
{
    uint32_t n = 0;
    for (;; text++) {
        if (*text >= '0' && *text <= '9')
            n = n << 4 | (uint32_t)(*text - '0');
        else if (*text >= 'a' && *text <= 'f')
            n = n << 4 | (uint32_t)(*text - 'a' + 10);
        else
            break;
    }
    *value = n;
    return text;
}

static void write_hex(uint32_t value)
{
    char text[9];
    for (int i = 0; i < 8; i++)
        text[i] = "0123456789abcdef"[value >> (28 - 4 * i) & 15];
    text[8] = 0;
    print(text);
}

/* the place that a number names: a register, by its decimal number, or a word of memory */
static const char *place(const char *text, volatile uint32_t **at)
{
    uint32_t n;
    if (*text == 'x') {
        text = read_number(text + 1, &n);
        *at = &registers[n & 31];
    } else {
        text = read_hex(text + 1, &n);
        *at = (volatile uint32_t *)n;
    }
    return text;
}

static void row(const char *text)
{
    int written = 0;
    uint32_t value;
    volatile uint32_t *at;
    for (; *text; text++) {
        if (*text == ' ')
            continue;
        if (*text != 'x' && *text != '*') {
            text = read_hex(text, &program[count]) - 1;
            count++;
            continue;
        }
        text = place(text, &at);
        if (*text == '=') {
            text = read_hex(text + 1, &value) - 1;
            *at = value;
            continue;
        }
        text--;
        flush();
        if (written)
            print(" ");
        write_hex(*at);
        written = 1;
    }
    flush();
    if (written)
        print("\n");
}

int main(int argc, char **argv)
{
    for (int i = 1; i < argc; i++)
        row(argv[i]);
    return 0;
}

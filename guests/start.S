# The start of a guest: sp points to argc, and argv follows it. All other registers are 0. What main returns is the
# status of exit (93); it has no environment to look at.
    .globl _start
_start:
    .option push
    .option norelax
    la gp, __global_pointer$
    .option pop
    lw a0, 0(sp)
    addi a1, sp, 4
    call main
    li a7, 93
    ecall

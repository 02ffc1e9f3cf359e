# The start of a guest with the library: sp points to argc, and argv and the environment follow it. The thread pointer
# gets the one block of thread variables, which the loader has put where libc.ld says.
    .globl _start
_start:
    .option push
    .option norelax
    la gp, __global_pointer$
    .option pop
    la tp, __thread_variables
    mv a0, sp
    andi sp, sp, -16
    call run_program

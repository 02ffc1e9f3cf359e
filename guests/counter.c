/* Counts with the atomic instructions: AMOADD.W, LR.W and SC.W, and AMOSWAP.W by the compiler's atomic operations. Prints
 * what each answers and leaves. */
#include "print.h"

static int32_t counter = 5;

static void print_pair(const char *name, int32_t answer)
{
    print(name);
    print(": answers ");
    print_number(answer);
    print(", leaves ");
    print_number(counter);
    print("\n");
}

int main(void)
{
    int32_t wanted = 12;
    print_pair("add", __atomic_fetch_add(&counter, 7, __ATOMIC_SEQ_CST));
    print_pair("compare and swap", __atomic_compare_exchange_n(&counter, &wanted, -1, 0, __ATOMIC_SEQ_CST, __ATOMIC_SEQ_CST));
    print_pair("exchange", __atomic_exchange_n(&counter, 3, __ATOMIC_SEQ_CST));
    return 0;
}

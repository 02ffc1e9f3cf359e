/* Never calls: it ends by SIGXCPU once its budget of instructions has run. */
int main(void)
{
    for (;;)
        __asm__ volatile("");
}

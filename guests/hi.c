/* Writes a line and ends. */
#include "shadow.h"

int main(void)
{
    write(1, "hi\n", 3);
    return 0;
}

/* Computes the CRC-32 (IEEE 802.3) of the same 4,096 bytes over and over, without a call: it ends by SIGXCPU once its
 * budget of instructions has run. bench/run takes its time. */
#include "shadow.h"

static unsigned char bytes[4096];
static volatile uint32_t sum;

int main(void)
{
    uint32_t word = 1;
    for (size_t i = 0; i < sizeof bytes; i++) {
        word = word * 1664525u + 1013904223u;
        bytes[i] = (unsigned char)(word >> 24);
    }
    for (;;) {
        uint32_t crc = 0xffffffff;
        for (size_t i = 0; i < sizeof bytes; i++) {
            crc ^= bytes[i];
            for (int bit = 0; bit < 8; bit++)
                crc = crc >> 1 ^ (0xedb88320 & -(crc & 1));
        }
        sum = ~crc;
    }
}

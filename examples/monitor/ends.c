/* Adds up what a table has for each byte of its input, writes the sum, and ends by the last byte: 'b' is a breakpoint, 'w' a word
   without meaning, and any other one exits with the sum. */
#include "../calls.h"

static const unsigned short weights[16] = { 3, 1, 4, 1, 5, 9, 2, 6, 5, 3, 5, 8, 9, 7, 9, 3 };

int main(void)
{
    int byte, last = 0;
    unsigned sum = 0;
    while ((byte = next_byte()) >= 0) {
        for (int k = 0; k < 16; k++)
            sum += weights[(byte + k) & 15] * (byte >> (k & 7) & 1);
        last = byte;
    }
    put_number(sum);
    put_byte('\n');
    flush();
    if (last == 'b')
        asm volatile("ebreak");
    if (last == 'w')
        asm volatile(".word 0");
    return sum;
}

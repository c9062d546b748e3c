/* The CRC-32 of 64 KiB, by a table, over and over. */
#include "calls.h"

static unsigned table[256];
static unsigned char bytes[65536];

int main(void)
{
    unsigned crc = ~0u;
    for (unsigned k = 0; k < 256; k++) {
        unsigned entry = k;
        for (int bit = 0; bit < 8; bit++)
            entry = entry & 1 ? entry >> 1 ^ 0xedb88320 : entry >> 1;
        table[k] = entry;
    }
    for (unsigned k = 0; k < sizeof bytes; k++)
        bytes[k] = k * 7 + (k >> 5);
    for (int round = 0; round < 80; round++)
        for (unsigned k = 0; k < sizeof bytes; k++)
            crc = crc >> 8 ^ table[(crc ^ bytes[k]) & 255];
    put_number((int)~crc);
    flush();
    return 0;
}

/* Enciphers its input in rounds and writes a checksum of what that gives: two phases, each with a table of its own. A scratchpad
   that has room for one of the tables has room for both by overlay. phases.toml names the phases. */
#include "calls.h"

enum { ROOM = 4096, ROUNDS = 4 };

static unsigned char text[ROOM];
static unsigned boxes[256], sums[256];

__attribute__((noinline)) static void encipher(int count)
{
    unsigned state = 1;
    for (unsigned k = 0; k < 256; k++)
        boxes[k] = k * 0x9e3779b1 ^ k << 7;
    for (int round = 0; round < ROUNDS; round++)
        for (int k = 0; k < count; k++) {
            state = state >> 5 ^ boxes[(state ^ text[k]) & 255];
            text[k] = state;
        }
}

__attribute__((noinline)) static unsigned checksum(int count)
{
    unsigned sum = -1;
    for (unsigned k = 0; k < 256; k++) {
        unsigned word = k;
        for (int bit = 0; bit < 8; bit++)
            word = word >> 1 ^ (word & 1 ? 0xedb88320 : 0);
        sums[k] = word;
    }
    for (int round = 0; round < ROUNDS; round++)
        for (int k = 0; k < count; k++)
            sum = sum >> 8 ^ sums[(sum ^ text[k]) & 255];
    return ~sum;
}

int main(void)
{
    int got, count = 0;
    while (count < ROOM && (got = read_input(text + count, ROOM - count)) > 0)
        count += got;
    encipher(count);
    put_number(checksum(count) >> 1);
    put_byte('\n');
    flush();
    return 0;
}

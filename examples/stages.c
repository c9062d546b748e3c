/* Three stages over its input, one behind the other, each with a table of its own: loudness by a curve, a filter by a table of
   products, and a checksum. They are called by a list. A scratchpad with room for one of the tables has room for all by overlay. */
#include "calls.h"

enum { ROOM = 4096, PASSES = 3 };

static unsigned char text[ROOM];
static unsigned curve[256], products[256], sums[256];
static unsigned sum;

static unsigned root_of(unsigned square)
{
    unsigned root = 0;
    for (unsigned bit = 1 << 7; bit; bit >>= 1)
        if ((root + bit) * (root + bit) <= square)
            root += bit;
    return root;
}

__attribute__((noinline)) static void loudness(int count)
{
    if (!curve[255])
        for (unsigned k = 0; k < 256; k++)
            curve[k] = root_of(k << 8) ^ k >> 4;
    for (int pass = 0; pass < PASSES; pass++)
        for (int k = 0; k < count; k++)
            text[k] = curve[text[k]] + pass;
}

static unsigned product_of(unsigned k)
{
    unsigned product = 0;
    for (unsigned left = k; left; left >>= 1, k <<= 1)
        product ^= left & 1 ? k : 0;
    return product;
}

__attribute__((noinline)) static void filter(int count)
{
    unsigned state = 0;
    if (!products[255])
        for (unsigned k = 0; k < 256; k++)
            products[k] = product_of(k);
    for (int pass = 0; pass < PASSES; pass++)
        for (int k = 0; k < count; k++) {
            state = state >> 3 ^ products[(state ^ text[k]) & 255];
            text[k] = state;
        }
}

static unsigned sum_of(unsigned word)
{
    for (int bit = 0; bit < 8; bit++)
        word = word >> 1 ^ (word & 1 ? 0xedb88320 : 0);
    return word;
}

__attribute__((noinline)) static void checksum(int count)
{
    if (!sums[255])
        for (unsigned k = 0; k < 256; k++)
            sums[k] = sum_of(k);
    for (int pass = 0; pass < PASSES; pass++)
        for (int k = 0; k < count; k++)
            sum = sum >> 8 ^ sums[(sum ^ text[k]) & 255];
}

static void (*const stages[])(int) = {loudness, filter, checksum};

int main(void)
{
    int got, count = 0;
    while (count < ROOM && (got = read_input(text + count, ROOM - count)) > 0)
        count += got;
    for (unsigned k = 0; k < sizeof stages / sizeof *stages; k++)
        stages[k](count);
    put_number(sum >> 1);
    put_byte('\n');
    flush();
    return 0;
}

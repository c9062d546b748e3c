/* Adds up the numbers of its input: strtol of picolibc tells failure by errno, which is thread-local. */
#include "../../../examples/calls.h"
#include <errno.h>
#include <stdlib.h>

static char word[16];
static const short weights[8] = { 2, 3, 5, 7, 11, 13, 17, 19 };

int main(void)
{
    int byte, used = 0;
    long sum = 0;
    do {
        byte = next_byte();
        if (byte >= '0' && byte <= '9' && used < 15) {
            word[used++] = byte;
        } else if (used) {
            word[used] = 0;
            for (int k = 0; k < 8; k++) sum += strtol(word, 0, 10) * weights[k];
            if (errno) sum++;
            used = 0;
        }
    } while (byte >= 0);
    put_number(sum & 0xffffff);
    put_byte('\n');
    flush();
    return 0;
}

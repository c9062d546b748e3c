/* Copies between buffers as memmove does: the way depends on which lies first. */
#include "../../../examples/calls.h"

static unsigned char front[64], back[64];

__attribute__((noinline)) static void move(unsigned char *to, const unsigned char *from, int count)
{
    if (to < from)
        for (int k = 0; k < count; k++) to[k] = from[k];
    else
        for (int k = count; k > 0; k--) to[k - 1] = from[k - 1];
}

int main(void)
{
    int byte, at = 0, sum = 0;
    while ((byte = next_byte()) >= 0) {
        front[at++ & 63] = byte;
        move(back, front, 64);
        sum += back[at & 31];
    }
    put_number(sum);
    put_byte('\n');
    flush();
    return 0;
}

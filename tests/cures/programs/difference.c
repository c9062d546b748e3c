/* Keeps how far an address lies behind that of another table, and goes back by it. */
#include "../../../examples/calls.h"

static int base[32];
static int other[32] = { 1, 2, 3, 5, 8, 13, 21 };
static long places[4];

__attribute__((noinline)) static void note(int k, int *cell)
{
    places[k] = (char *)cell - (char *)base;
}

__attribute__((noinline)) static int *noted(int k)
{
    return (int *)((char *)base + places[k]);
}

int main(void)
{
    int byte, sum = 0;
    for (int k = 0; k < 4; k++) note(k, k & 1 ? &other[k] : &base[k]);
    while ((byte = next_byte()) >= 0)
        for (int k = 0; k < 4; k++) sum += ++*noted(k) + other[byte & 31];
    put_number(sum);
    put_byte('\n');
    flush();
    return 0;
}

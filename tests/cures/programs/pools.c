/* Asks which of several pools has an address: their bounds are data that is initialised. */
#include "../../../examples/calls.h"

static int small[16], large[32], odd[24];

static struct pool { int *begin, *end; int found; } pools[3] = {
    { small, small + 16, 0 }, { large, large + 32, 0 }, { odd, odd + 24, 0 }
};

__attribute__((noinline)) static struct pool *pool_of(const int *address)
{
    for (int k = 0; k < 3; k++)
        if (address >= pools[k].begin && address < pools[k].end) return &pools[k];
    return 0;
}

int main(void)
{
    int byte, sum = 0;
    int *const firsts[3] = { small, large, odd };
    while ((byte = next_byte()) >= 0) {
        int *cell = firsts[byte % 3] + (byte & 15);
        *cell += byte;
        sum += *cell;
        pool_of(cell)->found++;
    }
    for (int k = 0; k < 3; k++) {
        put_number(pools[k].found);
        put_byte(' ');
    }
    put_number(sum);
    put_byte('\n');
    flush();
    return 0;
}

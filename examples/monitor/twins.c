/* Two phases that take turns and share a table, and then a third one: a scratchpad that has room for one phase's tables keeps
   the shared one for both by twins. twins.toml names the phases. */
#include "../calls.h"

enum { TURNS = 8, STEPS = 600 };

static unsigned shared[160], first[128], second[128], sums[320];

__attribute__((noinline)) static unsigned ahead(unsigned state)
{
    for (int k = 0; k < STEPS; k++) {
        state = state * 5 + shared[state % 160] + k;
        first[state & 127] += state;
        shared[k % 160] ^= first[k & 127];
    }
    return state;
}

__attribute__((noinline)) static unsigned back(unsigned state)
{
    for (int k = 0; k < STEPS; k++) {
        state = (state >> 1) + shared[state % 160] - k;
        second[state & 127] -= state;
        shared[k % 160] += second[k & 127];
    }
    return state;
}

__attribute__((noinline)) static unsigned total(unsigned state)
{
    unsigned sum = 0;
    for (int k = 0; k < 4 * TURNS * STEPS; k++)
        sum += sums[(state + k) % 320] += sums[k % 320] + k;
    return sum;
}

int main(void)
{
    int byte;
    unsigned state = 1;
    while ((byte = next_byte()) >= 0)
        state = state * 31 + byte;
    for (int turn = 0; turn < TURNS; turn++)
        state = back(ahead(state));
    put_number(total(state) >> 1);
    put_byte('\n');
    flush();
    return 0;
}

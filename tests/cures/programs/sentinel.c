/* Takes memory of an arena that answers (void *)-1 where none is left. */
#include "../../../examples/calls.h"

static char arena[512];
static int taken;
static unsigned char weights[16] = { 3, 1, 4, 1, 5, 9, 2, 6, 5, 3, 5, 8, 9, 7, 9, 3 };

__attribute__((noinline)) static void *more(int size)
{
    if (taken + size > (int)sizeof arena) return (void *)-1;
    taken += size;
    return arena + taken - size;
}

int main(void)
{
    int byte, sum = 0;
    int *cells[40];
    int count = 0;
    for (;;) {
        int *cell = more(16);
        if (cell == (void *)-1) break;
        cells[count++] = cell;
    }
    while ((byte = next_byte()) >= 0)
        for (int k = 0; k < count; k++) {
            cells[k][k & 3] += weights[(byte + k) & 15];
            sum += cells[k][0];
        }
    put_number(sum);
    put_byte('\n');
    flush();
    return 0;
}

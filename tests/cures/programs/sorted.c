/* Sorts and prints by picolibc, which is compiled with section anchors. */
#include "../../../examples/calls.h"
#include <stdio.h>
#include <stdlib.h>
#include <string.h>

static unsigned char letters[128];
static const unsigned char ranks[32] = { 9, 3, 7, 1, 8, 2, 6, 4, 5, 0 };
static char line[64];

static int by_rank(const void *a, const void *b)
{
    const unsigned char *x = a, *y = b;
    return ranks[*x & 31] - ranks[*y & 31];
}

int main(void)
{
    int byte, used = 0, sum = 0;
    while ((byte = next_byte()) >= 0 && used < 64) letters[used++] = byte;
    qsort(letters, used, 1, by_rank);
    for (int k = 0; k < used; k++) sum += letters[k] * k;
    sprintf(line, "%d letters, %x\n", used, sum);
    for (unsigned k = 0; k < strlen(line); k++) put_byte(line[k]);
    flush();
    return 0;
}

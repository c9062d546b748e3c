/* Reads its input over a table that had pointers before, and orders buffers by their addresses. */
#include "../../../examples/calls.h"

static unsigned char first[32], second[32], third[32];
static union { unsigned char *buffers[8]; unsigned char bytes[32]; } table;

static int read_bytes(void *to, int count)
{
    int k = 0, byte;
    unsigned char *bytes = to;
    while (k < count && (byte = next_byte()) >= 0) bytes[k++] = byte;
    return k;
}

int main(void)
{
    int sum = 0, count, before = 0;
    unsigned char *low = first;
    table.buffers[0] = first;
    table.buffers[1] = second;
    table.buffers[2] = third;
    for (int k = 1; k < 3; k++)
        if (table.buffers[k] < low) low = table.buffers[k];
    before = low == first;
    while ((count = read_bytes(&table, 32)) > 0) {
        for (int k = 0; k < count; k++) {
            low[k] ^= table.bytes[k];
            for (int j = 0; j < 8; j++) sum += (low[k] >> j) & (third[j] + 1);
        }
    }
    put_number(sum * 2 + before);
    put_byte('\n');
    flush();
    return 0;
}

/* Keeps two thread-local variables, as libraries do. */
#include "../../../examples/calls.h"

static _Thread_local int depth;
_Thread_local int deepest;
static const unsigned char kinds[32] = { 0, 1, 2, 1, 0, 2, 1, 1, 0, 2 };
static int counts[4];

__attribute__((noinline)) static void enter(int kind)
{
    depth += kind == 1;
    depth -= kind == 2 && depth > 0;
    if (depth > deepest) deepest = depth;
    counts[kind]++;
}

int main(void)
{
    int byte;
    while ((byte = next_byte()) >= 0)
        for (int k = 0; k < 8; k++) enter(kinds[(byte + k) & 31]);
    put_number(deepest);
    put_byte(' ');
    put_number(counts[0] + 3 * counts[1] + 7 * counts[2]);
    put_byte('\n');
    flush();
    return 0;
}

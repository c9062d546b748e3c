/* Counts the letters of its input, of which it looks up the kinds in tables. Each of these names makes it fail, or save less:
   KEEP_NULL keeps as a number whether a pointer is null, HASH takes a hash of an address, TWO_POOLS compares pointers into two
   objects, by bounds that are data, THREADS has thread-local variables, CROWD calls a function that reads all registers, INWARD
   one that calls a label inside itself, CALL_MEMSET the memset of ../calls.c. */
#include "../calls.h"

static const unsigned char kinds[32] = {
    0, 1, 0, 0, 0, 1, 0, 0, 0, 1, 0, 0, 0, 0, 0, 1, 0, 0, 0, 0, 0, 1, 0, 0, 0, 0, 0, 0, 0, 0, 0, 0
};
static int weights[4] = { 1, 3, 5, 7 };
static int counts[32];

#if defined CROWD || defined INWARD
int called(int);
#endif
#ifdef KEEP_NULL
static int *volatile kept = counts;
#endif
#ifdef TWO_POOLS
static char small[32], large[64];
static char *volatile bounds[2][2] = { { small, small + 32 }, { large, large + 64 } };
#endif
#ifdef THREADS
static _Thread_local int volatile depth;
_Thread_local int volatile deepest;
#endif

#ifdef CALL_MEMSET
void *memset(void *, int, unsigned);
static volatile unsigned size = sizeof counts;
#endif

/* What the names ask for. */
static int special(void)
{
#ifdef KEEP_NULL
    int is_null = kept == 0;
    return is_null + 1;
#elif defined HASH
    return (unsigned)counts >> 4 & 7;
#elif defined TWO_POOLS
    return bounds[0][0] >= bounds[1][0] && bounds[0][0] < bounds[1][1];
#elif defined THREADS
    depth++;
    if (depth > deepest) deepest = depth;
    return deepest;
#elif defined CROWD || defined INWARD
    return called(3);
#elif defined CALL_MEMSET
    memset(counts, 1, size);
    return counts[0];
#else
    return 0;
#endif
}

int main(void)
{
    int byte, sum = special();
    while ((byte = next_byte()) >= 0) {
        counts[byte & 31]++;
        sum += weights[kinds[byte & 31]]++ + counts[byte & 31];
    }
    put_number(sum);
    put_byte('\n');
    flush();
    return 0;
}

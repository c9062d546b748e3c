/* Counts the primes below 100,000 by Eratosthenes' sieve, over and over. */
#include "calls.h"

enum { LIMIT = 100000 };

static char composite[LIMIT];

static int count_primes(void)
{
    int count = 0;
    for (int k = 0; k < LIMIT; k++)
        composite[k] = 0;
    for (int k = 2; k < LIMIT; k++) {
        if (composite[k])
            continue;
        count++;
        for (int j = 2 * k; j < LIMIT; j += k)
            composite[j] = 1;
    }
    return count;
}

int main(void)
{
    int count = 0;
    for (int round = 0; round < 20; round++)
        count += count_primes();
    put_number(count);
    flush();
    return 0;
}

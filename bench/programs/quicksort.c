/* Sorts 20,000 words that a linear congruence makes, over and over. */
#include "calls.h"

enum { COUNT = 20000 };

static unsigned words[COUNT];
static unsigned seed = 1;

static void sort(unsigned *low, unsigned *high)
{
    while (low < high) {
        unsigned pivot = low[(high - low) / 2];
        unsigned *left = low, *right = high;
        do {
            while (*left < pivot)
                left++;
            while (pivot < *right)
                right--;
            if (left <= right) {
                unsigned word = *left;
                *left++ = *right;
                *right-- = word;
            }
        } while (left <= right);
        sort(low, right);
        low = left;
    }
}

int main(void)
{
    unsigned sum = 0;
    for (int round = 0; round < 12; round++) {
        for (int k = 0; k < COUNT; k++)
            words[k] = seed = seed * 1664525 + 1013904223;
        sort(words, words + COUNT - 1);
        sum += words[COUNT / 2];
    }
    put_number((int)sum);
    flush();
    return 0;
}

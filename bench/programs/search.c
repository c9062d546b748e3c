/* Counts the places of a word in a text of 40,000 letters, over and over. */
#include "calls.h"

enum { LENGTH = 40000 };

static char text[LENGTH + 1];

static int count_word(const char *word)
{
    int count = 0;
    for (const char *at = text; *at; at++) {
        const char *here = at, *letter = word;
        while (*letter && *here == *letter) {
            here++;
            letter++;
        }
        if (!*letter)
            count++;
    }
    return count;
}

int main(void)
{
    unsigned seed = 1;
    int count = 0;
    for (int k = 0; k < LENGTH; k++) {
        seed = seed * 1664525 + 1013904223;
        text[k] = 'a' + (seed >> 30);
    }
    for (int round = 0; round < 40; round++)
        count += count_word(round % 2 ? "abba" : "dacad");
    put_number(count);
    flush();
    return 0;
}

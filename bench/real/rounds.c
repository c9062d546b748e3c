/* A program's main function, ROUNDS times on the same input, where a run of one round is too short to time it. */
#include "layer.h"

static unsigned read_once(void)
{
    static unsigned count;
    return count ? count : (count = read_input());
}

#define read_input read_once
#define main static inline program
#include DRIVER
#undef main

int main(void)
{
    int code = 0;
    for (int round = 0; round < ROUNDS; round++)
        code |= program();
    return code;
}

/* A fixed-point FFT. Its input is a series of readings. For each 64 of them it writes the strongest frequency and its power. */
#include "calls.h"

enum { BITS = 6, POINTS = 1 << BITS };

/* 32,767 times the sine of k / 64 of a turn, for k from 0 to 16. */
static const short quarter[POINTS / 4 + 1] = {
    0, 3212, 6393, 9512, 12539, 15446, 18204, 20787, 23170, 25329, 27245, 28898, 30273, 31356, 32137, 32609, 32767,
};

static short real[POINTS], imaginary[POINTS];
static short sine[POINTS], cosine[POINTS];

static void make_tables(void)
{
    for (int k = 0; k < POINTS; k++) {
        int part = k % (POINTS / 2), value = quarter[part > POINTS / 4 ? POINTS / 2 - part : part];
        sine[k] = k < POINTS / 2 ? value : -value;
    }
    for (int k = 0; k < POINTS; k++)
        cosine[k] = sine[(k + POINTS / 4) % POINTS];
}

static void swap(short *one, short *other)
{
    short value = *one;
    *one = *other;
    *other = value;
}

/* Puts each point where its number with the bits turned round says. */
static void reorder(void)
{
    for (unsigned k = 0; k < POINTS; k++) {
        unsigned turned = 0;
        for (int bit = 0; bit < BITS; bit++)
            turned |= (k >> bit & 1) << (BITS - 1 - bit);
        if (turned > k) {
            swap(&real[k], &real[turned]);
            swap(&imaginary[k], &imaginary[turned]);
        }
    }
}

/* Halves the values in each stage, so that none overflows. */
static void transform(void)
{
    reorder();
    for (int half = 1; half < POINTS; half *= 2)
        for (int first = 0; first < POINTS; first += 2 * half)
            for (int k = 0; k < half; k++) {
                int turn = k * (POINTS / 2 / half), low = first + k, high = low + half;
                int x = (real[high] * cosine[turn] + imaginary[high] * sine[turn]) >> 15;
                int y = (imaginary[high] * cosine[turn] - real[high] * sine[turn]) >> 15;
                real[high] = (real[low] - x) >> 1;
                imaginary[high] = (imaginary[low] - y) >> 1;
                real[low] = (real[low] + x) >> 1;
                imaginary[low] = (imaginary[low] + y) >> 1;
            }
}

static void tell_strongest(void)
{
    int strongest = 1, most = -1;
    for (int k = 1; k < POINTS / 2; k++) {
        int power = real[k] * real[k] + imaginary[k] * imaginary[k];
        if (power > most)
            strongest = k, most = power;
    }
    put_number(strongest);
    put_byte(' ');
    put_number(most);
    put_byte('\n');
}

static void add(int number, int place)
{
    real[place] = (number - 512) * 32;
    imaginary[place] = 0;
}

int main(void)
{
    int byte, number = -1, count = 0;
    make_tables();
    while ((byte = next_byte()) >= 0) {
        if (byte >= '0' && byte <= '9') {
            number = (number < 0 ? 0 : number * 10) + byte - '0';
            continue;
        }
        if (number >= 0)
            add(number, count++);
        number = -1;
        if (count == POINTS) {
            transform();
            tell_strongest();
            count = 0;
        }
    }
    flush();
    return 0;
}

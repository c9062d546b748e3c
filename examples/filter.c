/* Smooths a series of readings. Each is a number from 0 to 1023. For each it writes the level of the smoothed signal. */
#include "calls.h"

enum { TAPS = 16, STEPS = 64 };

/* A low pass. The sum is 1024. */
static const short taps[TAPS] = {
    7, 16, 32, 54, 78, 99, 112, 114, 114, 112, 99, 78, 54, 32, 16, 7,
};

/* Sixteen times the binary logarithm of the middle of each step. */
static const unsigned char levels[STEPS] = {
    48, 73, 85, 93, 99, 103, 107, 111, 113, 116, 118, 120, 122, 124, 126, 127,
    129, 130, 131, 133, 134, 135, 136, 137, 138, 139, 140, 141, 141, 142, 143, 144,
    144, 145, 146, 146, 147, 148, 148, 149, 149, 150, 151, 151, 152, 152, 153, 153,
    154, 154, 155, 155, 155, 156, 156, 157, 157, 158, 158, 158, 159, 159, 159, 160,
};

static short line[TAPS];
static int newest;

/* How many smoothed readings had each level of the upper bits. */
static int histogram[16];

static int smooth(int reading)
{
    int sum = 0;
    newest = (newest + 1) % TAPS;
    line[newest] = reading;
    for (int k = 0; k < TAPS; k++)
        sum += taps[k] * line[(newest - k) & (TAPS - 1)];
    return sum >> 10;
}

static void answer(int reading)
{
    int level = levels[smooth(reading) / 16 % STEPS];
    histogram[level / 16]++;
    put_number(level);
    put_byte('\n');
}

int main(void)
{
    int byte, reading = -1;
    while ((byte = next_byte()) >= 0) {
        if (byte >= '0' && byte <= '9') {
            reading = (reading < 0 ? 0 : reading * 10) + byte - '0';
        } else if (reading >= 0) {
            answer(reading);
            reading = -1;
        }
    }
    for (int k = 0; k < 16; k++) {
        put_number(histogram[k]);
        put_byte(k < 15 ? ' ' : '\n');
    }
    flush();
    return 0;
}

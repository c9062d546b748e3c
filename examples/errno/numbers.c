/* Adds up the numbers of its input, each by a weight. The function that reads one tells by errno why there is none, as
   functions do that were written for a C library. */
#include "../calls.h"
#include <errno.h>
#include <string.h>

static char word[16];
static const short weights[8] = { 2, 3, 5, 7, 11, 13, 17, 19 };
static int kinds[3] = { 0, 0, 0 };

static int number_of(const char *text)
{
    int value = 0;
    errno = strlen(text) > 7 ? ERANGE : 0;
    for (; *text && !errno; text++) {
        if (*text < '0' || *text > '9') errno = EINVAL;
        value = value * 10 + *text - '0';
    }
    return errno ? 0 : value;
}

int main(void)
{
    int byte, used = 0, place = 0, sum = 0;
    do {
        byte = next_byte();
        if (byte > ' ' && used < 15) {
            word[used++] = byte;
        } else if (used) {
            word[used] = 0;
            sum += number_of(word) * weights[place++ & 7];
            kinds[errno == ERANGE ? 2 : errno == EINVAL]++;
            used = 0;
        }
    } while (byte >= 0);
    put_number(sum & 0xffffff);
    for (int k = 0; k < 3; k++) {
        put_byte(' ');
        put_number(kinds[k]);
    }
    put_byte('\n');
    flush();
    return 0;
}

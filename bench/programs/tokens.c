/* Counts the words, numbers and signs of a text by a machine of states, over and over. */
#include "calls.h"

enum state { BLANK, WORD, NUMBER, SIGN, STATES };

static const char line[] = "while (count_12 < 4096) { total += 37 * offset; next->value = total - 5; }\n";
static int counts[STATES];

static enum state next_state(enum state state, char letter)
{
    if (letter >= '0' && letter <= '9')
        return state == WORD ? WORD : NUMBER;
    if ((letter >= 'a' && letter <= 'z') || letter == '_')
        return WORD;
    switch (letter) {
    case ' ':
    case '\n':
        return BLANK;
    default:
        return SIGN;
    }
}

int main(void)
{
    enum state state = BLANK;
    for (int round = 0; round < 40000; round++)
        for (const char *at = line; *at; at++) {
            enum state next = next_state(state, *at);
            if (next != state || next == SIGN)
                counts[next]++;
            state = next;
        }
    for (int k = 0; k < STATES; k++) {
        put_number(counts[k]);
        put_byte(' ');
    }
    flush();
    return 0;
}

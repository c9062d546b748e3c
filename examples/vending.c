/* A machine that sells coffee and tea. Its input is a word an event. It writes each state that it comes to. */
#include "calls.h"

enum state { IDLE, PAID, BREWING, DONE, BROKEN, STATES };
enum event { COIN, COFFEE, TEA, READY, TAKE, KICK, REPAIR, EVENTS };

static const char *const state_names[STATES] = { "idle", "paid", "brewing", "done", "broken" };
static const char *const event_names[EVENTS] = { "coin", "coffee", "tea", "ready", "take", "kick", "repair" };

/* Where each event leads from each state. */
static const unsigned char next_state[STATES][EVENTS] = {
    [IDLE] = { PAID, IDLE, IDLE, IDLE, IDLE, IDLE, IDLE },
    [PAID] = { PAID, BREWING, BREWING, PAID, PAID, IDLE, PAID },
    [BREWING] = { BREWING, BREWING, BREWING, DONE, BREWING, BROKEN, BREWING },
    [DONE] = { DONE, DONE, DONE, DONE, IDLE, DONE, DONE },
    [BROKEN] = { BROKEN, BROKEN, BROKEN, BROKEN, BROKEN, BROKEN, IDLE },
};

static int visits[STATES], sold[EVENTS];
static enum state state;
static char word[16];

static int equal(const char *one, const char *other)
{
    while (*one && *one == *other)
        one++, other++;
    return *one == *other;
}

/* Reads the next word. Answers its length; 0 at the end of the input. */
static int read_word(void)
{
    int byte, length = 0;
    while ((byte = next_byte()) >= 0) {
        if (byte > ' ' && length < (int)sizeof word - 1)
            word[length++] = byte;
        else if (byte <= ' ' && length)
            break;
    }
    word[length] = 0;
    return length;
}

static int find_event(void)
{
    for (int event = 0; event < EVENTS; event++)
        if (equal(word, event_names[event]))
            return event;
    return EVENTS;
}

static void handle(int event)
{
    enum state before = state;
    state = next_state[state][event];
    visits[state]++;
    if (before == PAID && state == BREWING)
        sold[event]++;
    if (before != state) {
        put_text(state_names[state]);
        put_byte('\n');
    }
}

static void tell(const char *name, int count)
{
    put_text(name);
    put_byte(' ');
    put_number(count);
    put_byte('\n');
}

int main(void)
{
    while (read_word()) {
        int event = find_event();
        if (event < EVENTS)
            handle(event);
    }
    for (int k = 0; k < STATES; k++)
        tell(state_names[k], visits[k]);
    tell(event_names[COFFEE], sold[COFFEE]);
    tell(event_names[TEA], sold[TEA]);
    flush();
    return state;
}

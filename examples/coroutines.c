/* Three coroutines, each on a stack of its own. One reads words, one counts them in a table, and one writes each word that comes
   for the second time. They hand over to one another by switching stacks. */
#include "calls.h"
#include "switch.h"

enum { STACK = 512, WORD = 12, SLOTS = 64 };

struct coroutine {
    void *top;              /* of its stack, while it waits */
    char stack[STACK] __attribute__((aligned(16)));
};

static struct coroutine reader, counter, writer;
static void *home;          /* the stack of main */

/* What the coroutines hand over. */
static char word[WORD];
static int word_length, times;

static char seen[SLOTS][WORD];
static unsigned char counts[SLOTS];

/* Reads the next word; its length is 0 at the end of the input. */
static void read_words(void)
{
    for (;;) {
        int byte;
        word_length = 0;
        while ((byte = next_byte()) >= 0) {
            if (byte > ' ' && word_length < WORD)
                word[word_length++] = byte;
            else if (byte <= ' ' && word_length)
                break;
        }
        switch_stack(&reader.top, word_length ? counter.top : home);
    }
}

static int is_word(const char *slot)
{
    for (int k = 0; k < WORD; k++)
        if (slot[k] != (k < word_length ? word[k] : 0))
            return 0;
    return 1;
}

/* The slot of the word, by a hash and the next free place. */
static int find_slot(void)
{
    unsigned hash = 5381;
    for (int k = 0; k < word_length; k++)
        hash = hash * 33 ^ (unsigned char)word[k];
    for (int tries = 0; tries < SLOTS; tries++, hash++) {
        int slot = hash % SLOTS;
        if (counts[slot] == 0 || is_word(seen[slot]))
            return slot;
    }
    return 0;
}

static void count_words(void)
{
    for (;;) {
        int slot = find_slot();
        if (counts[slot] == 0)
            for (int k = 0; k < word_length; k++)
                seen[slot][k] = word[k];
        times = ++counts[slot];
        switch_stack(&counter.top, times == 2 ? writer.top : reader.top);
    }
}

static void write_words(void)
{
    for (;;) {
        for (int k = 0; k < word_length; k++)
            put_byte(word[k]);
        put_byte('\n');
        switch_stack(&writer.top, reader.top);
    }
}

/* A new coroutine looks as if it had just been left at its first instruction. */
static void begin(struct coroutine *one, void (*run)(void))
{
    void **top = (void **)(one->stack + STACK - 64);
    top[0] = (void *)run;
    one->top = top;
}

int main(void)
{
    int most = 0;
    begin(&reader, read_words);
    begin(&counter, count_words);
    begin(&writer, write_words);
    switch_stack(&home, reader.top);
    for (int slot = 0; slot < SLOTS; slot++)
        if (counts[slot] > counts[most])
            most = slot;
    put_number(counts[most]);
    put_byte('\n');
    flush();
    return 0;
}

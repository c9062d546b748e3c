/* Builds a linked list in an order that a linear congruence makes, walks, reverses and merges parts of it, over and over. */
#include "calls.h"

enum { COUNT = 4096, ROUNDS = 60 };

struct node {
    struct node *next;
    unsigned value;
};

static struct node nodes[COUNT];

static struct node *built(unsigned seed)
{
    struct node *first = 0;
    for (int k = 0; k < COUNT; k++) {
        seed = seed * 1664525 + 1013904223;
        struct node *node = &nodes[(k * 1229) % COUNT];
        node->value = seed;
        node->next = first;
        first = node;
    }
    return first;
}

static struct node *reversed(struct node *node)
{
    struct node *first = 0;
    while (node) {
        struct node *next = node->next;
        node->next = first;
        first = node;
        node = next;
    }
    return first;
}

/* The nodes with even values before those with odd ones, each in their order. */
static struct node *parted(struct node *node)
{
    struct node *even = 0, *odd = 0, **last_even = &even, **last_odd = &odd;
    for (; node; node = node->next) {
        struct node ***last = node->value & 1 ? &last_odd : &last_even;
        **last = node;
        *last = &node->next;
    }
    *last_odd = 0;
    *last_even = odd;
    return even;
}

static unsigned walked(const struct node *node)
{
    unsigned sum = 0;
    for (; node; node = node->next)
        sum = sum * 31 + node->value;
    return sum;
}

int main(void)
{
    unsigned sum = 0;
    for (int round = 0; round < ROUNDS; round++) {
        struct node *list = built(round);
        for (int turn = 0; turn < 4; turn++) {
            list = reversed(list);
            sum ^= walked(list);
        }
        list = parted(list);
        sum += walked(list);
    }
    put_number((int)sum);
    flush();
    return 0;
}

/* Counts the nodes at the ends of lists: whether a pointer is null is kept as a number. */
#include "../../../examples/calls.h"

struct node { struct node *next; int value; };

static struct node nodes[64];
static struct node *heads[8];
static int used;

static void add(int list, int value)
{
    struct node *node = &nodes[used++];
    node->value = value;
    node->next = heads[list];
    heads[list] = node;
}

__attribute__((noinline)) static int is_last(const struct node *node)
{
    return node->next == 0;
}

int main(void)
{
    int byte, last = 0, sum = 0;
    while ((byte = next_byte()) >= 0)
        if (used < 64) add(byte & 7, byte);
    for (int round = 0; round < 20; round++)
        for (int k = 0; k < 8; k++)
            for (struct node *node = heads[k]; node; node = node->next) {
                last += is_last(node);
                sum += node->value;
            }
    put_number(last);
    put_byte(' ');
    put_number(sum);
    put_byte('\n');
    flush();
    return 0;
}

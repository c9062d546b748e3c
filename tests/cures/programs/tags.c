/* Keeps a mark in the lowest bit of pointers. */
#include "../../../examples/calls.h"

struct cell { int value; struct cell *next; };

static struct cell cells[32];
static struct cell *list;

static struct cell *marked(struct cell *cell) { return (struct cell *)((unsigned)cell | 1); }
static int is_marked(const struct cell *cell) { return (unsigned)cell & 1; }
static struct cell *plain(struct cell *cell) { return (struct cell *)((unsigned)cell & ~1u); }

int main(void)
{
    int byte, k = 0, sum = 0;
    while ((byte = next_byte()) >= 0 && k < 32) {
        cells[k].value = byte;
        cells[k].next = byte & 1 ? marked(list) : list;
        list = &cells[k++];
    }
    for (int round = 0; round < 20; round++)
        for (struct cell *cell = list; plain(cell); cell = plain(cell)->next)
            sum += is_marked(cell) + plain(cell)->value;
    put_number(sum);
    put_byte('\n');
    flush();
    return 0;
}

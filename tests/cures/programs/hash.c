/* Looks up names in a table by a hash of their addresses. */
#include "../../../examples/calls.h"

struct name { char text[8]; int uses; };

static struct name names[16];
static struct name *slots[32];

static unsigned slot_of(const struct name *name)
{
    return ((unsigned)name >> 4 ^ (unsigned)name >> 9) & 31;
}

static void insert(struct name *name)
{
    unsigned k = slot_of(name);
    while (slots[k]) k = (k + 1) & 31;
    slots[k] = name;
}

static void use(const struct name *name)
{
    unsigned k = slot_of(name);
    while (slots[k] != name) k = (k + 1) & 31;
    slots[k]->uses++;
}

int main(void)
{
    int byte, sum = 0;
    for (int k = 0; k < 16; k++) insert(&names[k]);
    while ((byte = next_byte()) >= 0)
        for (int k = 0; k < 8; k++) use(&names[(byte + k) & 15]);
    for (int k = 0; k < 16; k++) sum += names[k].uses * (k + 1);
    put_number(sum);
    put_byte('\n');
    flush();
    return 0;
}

/* Merges an array of pointers to records into the order of two keys, over and over. */
#include "calls.h"

enum { COUNT = 4000, ROUNDS = 24 };

struct record {
    unsigned group, key, payload[2];
};

static struct record records[COUNT];
static struct record *pointers[COUNT], *room[COUNT];
static unsigned seed = 1;

static unsigned next(void)
{
    return seed = seed * 1664525 + 1013904223;
}

static int is_before(const struct record *one, const struct record *other)
{
    return one->group != other->group ? one->group < other->group : one->key < other->key;
}

static int least(int one, int other)
{
    return one < other ? one : other;
}

/* Merges two runs that follow each other, of at most so many pointers each. */
static void merge(struct record **from, struct record **to, int first, int length)
{
    int left = first, right = least(first + length, COUNT), middle = right, end = least(right + length, COUNT);
    for (int k = first; k < end; k++)
        to[k] = left < middle && (right == end || !is_before(from[right], from[left])) ? from[left++] : from[right++];
}

/* The pointers in their order, in one of both arrays. */
static struct record **sort(struct record **from, struct record **to)
{
    for (int length = 1; length < COUNT; length *= 2) {
        for (int first = 0; first < COUNT; first += 2 * length)
            merge(from, to, first, length);
        struct record **other = from;
        from = to;
        to = other;
    }
    return from;
}

int main(void)
{
    unsigned sum = 0;
    for (int round = 0; round < ROUNDS; round++) {
        for (int k = 0; k < COUNT; k++) {
            records[k] = (struct record){next() >> 24, next(), {k, round}};
            pointers[k] = &records[k];
        }
        struct record **sorted = sort(pointers, room);
        for (int k = 0; k < COUNT; k++)
            sum = sum * 31 + sorted[k]->payload[0];
    }
    put_number((int)sum);
    flush();
    return 0;
}

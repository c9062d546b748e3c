/* Counts words in a hash table with chains of nodes, and takes some out again, over and over. */
#include "calls.h"

enum { BUCKETS = 512, WORDS = 3000, LONGEST = 8, ROUNDS = 20 };

struct entry {
    struct entry *next;
    const char *word;
    unsigned hash, count;
};

static struct entry *buckets[BUCKETS];
static struct entry entries[WORDS];
static struct entry *unused;
static char words[WORDS][LONGEST];
static unsigned seed = 1;

static unsigned next(void)
{
    return (seed = seed * 1664525 + 1013904223) >> 8;
}

static unsigned hash_of(const char *word)
{
    unsigned hash = 5381;
    while (*word)
        hash = hash * 33 ^ *word++;
    return hash;
}

static int is_same(const char *one, const char *other)
{
    while (*one && *one == *other) {
        one++;
        other++;
    }
    return *one == *other;
}

/* The link that leads to the entry of a word, or the end of its chain. */
static struct entry **link_of(const char *word, unsigned hash)
{
    struct entry **link = &buckets[hash % BUCKETS];
    while (*link && ((*link)->hash != hash || !is_same((*link)->word, word)))
        link = &(*link)->next;
    return link;
}

static void count(const char *word)
{
    unsigned hash = hash_of(word);
    struct entry **link = link_of(word, hash);
    if (!*link) {
        struct entry *entry = unused;
        unused = entry->next;
        *entry = (struct entry){0, word, hash, 0};
        *link = entry;
    }
    (*link)->count++;
}

static unsigned taken(const char *word)
{
    struct entry **link = link_of(word, hash_of(word)), *entry = *link;
    if (!entry)
        return 0;
    *link = entry->next;
    entry->next = unused;
    unused = entry;
    return entry->count;
}

int main(void)
{
    unsigned sum = 0;
    for (int k = 0; k < WORDS; k++) {
        entries[k].next = unused;
        unused = &entries[k];
        for (int at = 0; at < LONGEST - 1 - k % 4; at++)
            words[k][at] = 'a' + next() % 6;
    }
    for (int round = 0; round < ROUNDS; round++) {
        for (int k = 0; k < 2 * WORDS; k++)
            count(words[next() % WORDS]);
        for (int k = 0; k < WORDS; k++)
            sum = sum * 31 + (next() % 2 ? taken(words[k]) : 1);
    }
    put_number((int)sum);
    flush();
    return 0;
}

/* Puts keys into a treap, a search tree balanced by priorities, finds and removes some, and walks it, over and over. */
#include "calls.h"

enum { COUNT = 2000, ROUNDS = 12 };

struct node {
    struct node *left, *right;
    unsigned key, priority;
};

static struct node nodes[COUNT];
static unsigned seed = 1;

static unsigned next(void)
{
    return seed = seed * 1664525 + 1013904223;
}

static struct node *turned_right(struct node *node)
{
    struct node *left = node->left;
    node->left = left->right;
    left->right = node;
    return left;
}

static struct node *turned_left(struct node *node)
{
    struct node *right = node->right;
    node->right = right->left;
    right->left = node;
    return right;
}

static struct node *with(struct node *tree, struct node *node)
{
    if (!tree)
        return node;
    if (node->key < tree->key) {
        tree->left = with(tree->left, node);
        return tree->left->priority > tree->priority ? turned_right(tree) : tree;
    }
    tree->right = with(tree->right, node);
    return tree->right->priority > tree->priority ? turned_left(tree) : tree;
}

static struct node *merged(struct node *low, struct node *high)
{
    if (!low || !high)
        return low ? low : high;
    if (low->priority > high->priority) {
        low->right = merged(low->right, high);
        return low;
    }
    high->left = merged(low, high->left);
    return high;
}

static void take(struct node **link, unsigned key)
{
    while (*link && (*link)->key != key)
        link = key < (*link)->key ? &(*link)->left : &(*link)->right;
    if (*link)
        *link = merged((*link)->left, (*link)->right);
}

static int depth_of(const struct node *tree, unsigned key)
{
    int depth = 0;
    for (; tree && tree->key != key; depth++)
        tree = key < tree->key ? tree->left : tree->right;
    return tree ? depth : -1;
}

static unsigned walked(const struct node *tree, unsigned sum)
{
    for (; tree; tree = tree->right) {
        sum = walked(tree->left, sum);
        sum = sum * 31 + tree->key;
    }
    return sum;
}

int main(void)
{
    unsigned sum = 0;
    for (int round = 0; round < ROUNDS; round++) {
        struct node *tree = 0;
        for (int k = 0; k < COUNT; k++) {
            nodes[k] = (struct node){0, 0, next() >> 8, next()};
            tree = with(tree, &nodes[k]);
        }
        for (int k = 0; k < 5 * COUNT; k++)
            sum += depth_of(tree, nodes[next() % COUNT].key);
        for (int k = 0; k < COUNT; k += 2)
            take(&tree, nodes[k].key);
        sum = walked(tree, sum);
    }
    put_number((int)sum);
    flush();
    return 0;
}

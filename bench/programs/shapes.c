/* Objects of four kinds, each with a table of pointers to its functions, in lists that they move between, over and over. */
#include "calls.h"

enum { COUNT = 1500, LISTS = 8, ROUNDS = 700 };

struct shape;

struct kind {
    int (*area)(const struct shape *shape);
    void (*grow)(struct shape *shape, int by);
};

struct shape {
    const struct kind *kind;
    struct shape *next;
    int width, height;
};

static int area_of_box(const struct shape *box) { return box->width * box->height; }
static int area_of_triangle(const struct shape *triangle) { return triangle->width * triangle->height / 2; }
static int area_of_disc(const struct shape *disc) { return disc->width * disc->width * 355 / 113; }
static int area_of_line(const struct shape *line) { return line->width + line->height; }

static void widen(struct shape *shape, int by)
{
    shape->width = (shape->width + by) & 255;
}

static void scale(struct shape *shape, int by)
{
    widen(shape, by);
    shape->height = (shape->height + by) & 255;
}

static const struct kind kinds[] = {
    {area_of_box, scale}, {area_of_triangle, scale}, {area_of_disc, widen}, {area_of_line, widen},
};
static struct shape shapes[COUNT];
static struct shape *lists[LISTS];

static void put(struct shape *shape)
{
    struct shape **list = &lists[shape->kind->area(shape) % LISTS];
    shape->next = *list;
    *list = shape;
}

int main(void)
{
    unsigned sum = 0;
    for (int k = 0; k < COUNT; k++) {
        shapes[k] = (struct shape){&kinds[k * 7 % 4], 0, k % 100, k % 37};
        put(&shapes[k]);
    }
    for (int round = 0; round < ROUNDS; round++) {
        struct shape *list = lists[round % LISTS];
        lists[round % LISTS] = 0;
        while (list) {
            struct shape *next = list->next;
            list->kind->grow(list, round);
            put(list);
            list = next;
        }
        for (int k = 0; k < LISTS; k++)
            for (const struct shape *shape = lists[k]; shape; shape = shape->next)
                sum = sum * 31 + shape->kind->area(shape);
    }
    put_number((int)sum);
    flush();
    return 0;
}

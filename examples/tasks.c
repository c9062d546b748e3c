/* A scheduler of tasks, each on a stack of its own. One samples the input, one smooths the samples, and one writes the least
   and the greatest of each sixteen. They sleep for ticks, and wait for one another at queues. */
#include "calls.h"
#include "switch.h"

enum { TASKS = 3, STACK = 512, LENGTH = 4, TAPS = 8, BLOCK = 16, END = -1 };

struct task {
    void *top;              /* of its stack, while it waits */
    int wakes;              /* the tick at which it goes on */
    char stack[STACK] __attribute__((aligned(16)));
};

struct queue {
    int items[LENGTH], first, count;
};

static struct task tasks[TASKS];
static void *home;          /* the stack of main */
static int running, now, ended;
static struct queue samples, means;

/* Hands over to the next task that is due, round robin, which takes a tick, and more where none is due. */
static void sleep_until(int tick)
{
    int last = running;
    tasks[last].wakes = tick;
    now++;
    do {
        running = (running + 1) % TASKS;
        if (running == last)
            now++;
    } while (tasks[running].wakes > now);
    if (running != last)
        switch_stack(&tasks[last].top, tasks[running].top);
}

static void put(struct queue *queue, int item)
{
    while (queue->count == LENGTH)
        sleep_until(now);
    queue->items[(queue->first + queue->count++) % LENGTH] = item;
}

static int get(struct queue *queue)
{
    while (queue->count == 0)
        sleep_until(now);
    int item = queue->items[queue->first];
    queue->first = (queue->first + 1) % LENGTH;
    queue->count--;
    return item;
}

static void sample(void)
{
    for (;;) {
        put(&samples, next_byte());
        sleep_until(now + 3);
    }
}

static void smooth(void)
{
    static int taps[TAPS];
    int at = 0, sum = 0, item;
    while ((item = get(&samples)) != END) {
        sum += item - taps[at];
        taps[at] = item;
        at = (at + 1) % TAPS;
        put(&means, sum / TAPS);
    }
    put(&means, END);
    for (;;)
        sleep_until(now + 1000);
}

static void write_ranges(void)
{
    int least = 255, greatest = 0, count = 0, item;
    while ((item = get(&means)) != END) {
        least = item < least ? item : least;
        greatest = item > greatest ? item : greatest;
        if (++count % BLOCK == 0) {
            put_number(least);
            put_byte(' ');
            put_number(greatest);
            put_byte('\n');
            least = 255;
            greatest = 0;
        }
    }
    ended = now;
    switch_stack(&tasks[running].top, home);
}

/* A new task looks as if it had just been left at its first instruction. */
static void begin(struct task *one, void (*run)(void))
{
    void **top = (void **)(one->stack + STACK - 64);
    top[0] = (void *)run;
    one->top = top;
}

int main(void)
{
    begin(&tasks[0], sample);
    begin(&tasks[1], smooth);
    begin(&tasks[2], write_ranges);
    switch_stack(&home, tasks[0].top);
    put_number(ended);
    put_byte('\n');
    flush();
    return 0;
}

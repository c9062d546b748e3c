// A queue by a template, with an object that is made before main.
#include "../../../examples/calls.h"

template <class T, int N> class Queue {
    T items[N];
    int first = 0, count = 0;
public:
    bool is_full() const { return count == N; }
    bool is_empty() const { return count == 0; }
    void put(T item) { items[(first + count++) % N] = item; }
    T take() { T item = items[first]; first = (first + 1) % N; count--; return item; }
};

struct Step { int (*act)(int); int weight; };

static int twice(int x) { return 2 * x; }
static int less(int x) { return x - 3; }
static int squared(int x) { return x * x & 1023; }

static const Step steps[4] = { { twice, 1 }, { less, 5 }, { squared, 2 }, { twice, 7 } };
static Queue<const Step *, 16> queue;

int main()
{
    int byte, sum = 0;
    while ((byte = next_byte()) >= 0) {
        for (int k = 0; k < 4 && !queue.is_full(); k++) queue.put(&steps[(byte >> k) & 3]);
        while (!queue.is_empty()) {
            const Step *step = queue.take();
            sum += step->act(byte) * step->weight;
        }
    }
    put_number(sum);
    put_byte('\n');
    flush();
    return 0;
}

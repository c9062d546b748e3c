// Shapes with virtual functions, and templates over them. Its input has a shape a line: c RADIUS, r WIDTH HEIGHT or t BASE HEIGHT.
// It lets them grow in rounds, sorts them by area after each, and writes the areas.
#include "calls.h"

// An array of at most N things.
template <typename T, int N> class List {
    T items[N];
    int count = 0;

public:
    bool add(T item) { return count < N && (items[count++] = item, true); }
    int size() const { return count; }
    T &operator[](int k) { return items[k]; }
};

template <typename T, int N, typename Before> static void sort(List<T, N> &list, Before before)
{
    for (int k = 1; k < list.size(); k++) {
        T item = list[k];
        int j = k;
        for (; j > 0 && before(item, list[j - 1]); j--)
            list[j] = list[j - 1];
        list[j] = item;
    }
}

struct Shape {
    virtual int area() const = 0;
    virtual void grow(int step) = 0;
};

struct Circle : Shape {
    int radius;
    int area() const override { return radius * radius * 355 / 113; }
    void grow(int step) override { radius += step; }
};

struct Rectangle : Shape {
    int width, height;
    int area() const override { return width * height; }
    void grow(int step) override { width += step, height += step / 2; }
};

struct Triangle : Rectangle {
    int area() const override { return Rectangle::area() / 2; }
};

enum { ROOM = 24, ROUNDS = 12 };

// Objects are made in pools, since there is no heap. Constructors put the tables of virtual functions into them.
static Circle circles[ROOM];
static Rectangle rectangles[ROOM];
static Triangle triangles[ROOM];
static List<Shape *, ROOM> shapes;

static int read_number(void)
{
    int byte, number = 0;
    while ((byte = next_byte()) >= 0 && (byte < '0' || byte > '9'))
        continue;
    for (; byte >= '0' && byte <= '9'; byte = next_byte())
        number = number * 10 + byte - '0';
    return number;
}

template <typename T> static void add(T &shape, int width, int height)
{
    shape.width = width, shape.height = height;
    shapes.add(&shape);
}

static void read_shapes(void)
{
    int kind, made = 0;
    while (made < ROOM && (kind = next_byte()) >= 0) {
        if (kind == 'c') {
            circles[made].radius = read_number();
            shapes.add(&circles[made++]);
        } else if (kind == 'r' || kind == 't') {
            int width = read_number(), height = read_number();
            if (kind == 'r')
                add(rectangles[made++], width, height);
            else
                add(triangles[made++], width, height);
        }
    }
}

int main()
{
    read_shapes();
    for (int round = 0; round < ROUNDS; round++) {
        for (int k = 0; k < shapes.size(); k++)
            shapes[k]->grow(1 + (k + round) % 3);
        sort(shapes, [](Shape *one, Shape *other) { return one->area() < other->area(); });
    }
    for (int k = 0; k < shapes.size(); k++) {
        put_number(shapes[k]->area());
        put_byte('\n');
    }
    flush();
    return 0;
}

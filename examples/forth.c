/* A small Forth. It reads words from the input: a number goes onto the stack, a word is run, and `:` compiles a word of
   one's own into threaded code, a list of word numbers that the inner interpreter runs. */
#include "calls.h"

enum { WORDS = 64, NAME = 12, CODE = 512, DEPTH = 32 };

struct word {
    char name[NAME];
    void (*run)(void); /* none: a word of one's own, which begins at `start` of the code */
    int start;
};

static int code[CODE], here;
static int stack[DEPTH], depth;
static int returns[DEPTH], level;
static int at;

static int pop(void) { return stack[--depth]; }
static void push(int number) { stack[depth++] = number; }

static void add(void) { int b = pop(); push(pop() + b); }
static void subtract(void) { int b = pop(); push(pop() - b); }
static void multiply(void) { int b = pop(); push(pop() * b); }
static void divide(void) { int b = pop(); push(pop() / b); }
static void modulo(void) { int b = pop(); push(pop() % b); }
static void less(void) { int b = pop(); push(pop() < b); }
static void equal(void) { int b = pop(); push(pop() == b); }
static void duplicate(void) { push(stack[depth - 1]); }
static void drop(void) { pop(); }
static void swap(void) { int b = pop(), a = pop(); push(b); push(a); }
static void over(void) { push(stack[depth - 2]); }
static void print(void) { put_number(pop()); put_byte(' '); }
static void line(void) { put_byte('\n'); }

static void literal(void) { push(code[at++]); }
static void branch(void) { at = code[at]; }
static void branch_zero(void) { int to = code[at++]; if (pop() == 0) at = to; }
static void leave(void) { at = returns[--level]; }
static void begin_loop(void) { int from = pop(); returns[level++] = pop(); returns[level++] = from; }
static void index_of_loop(void) { push(returns[level - 1]); }
static void end_loop(void)
{
    int to = code[at++];
    if (++returns[level - 1] < returns[level - 2])
        at = to;
    else
        level -= 2;
}

enum { LITERAL, BRANCH, BRANCH_ZERO, LEAVE, BEGIN_LOOP, END_LOOP };

static struct word words[WORDS] = {
    {"", literal}, {"", branch}, {"", branch_zero}, {"", leave}, {"", begin_loop}, {"", end_loop},
    {"i", index_of_loop}, {"+", add}, {"-", subtract}, {"*", multiply}, {"/", divide}, {"mod", modulo},
    {"<", less}, {"=", equal}, {"dup", duplicate}, {"drop", drop}, {"swap", swap}, {"over", over},
    {".", print}, {"cr", line},
};
static int count = 20;

static int is_same(const char *name, const char *other)
{
    int k = 0;
    while (name[k] && name[k] == other[k])
        k++;
    return name[k] == other[k];
}

/* The number of a word, the newest of its name first, or -1. */
static int find(const char *name)
{
    int number = count - 1;
    while (number >= 0 && !is_same(words[number].name, name))
        number--;
    return number;
}

static void run_word(int number)
{
    if (words[number].run) {
        words[number].run();
    } else {
        returns[level++] = at;
        at = words[number].start;
    }
}

/* Runs a word to its end. */
static void execute(int number)
{
    int outside = level;
    run_word(number);
    while (level > outside)
        run_word(code[at++]);
}

/* The next word of the input; empty at its end. */
static const char *next_name(void)
{
    static char name[NAME];
    int byte = next_byte(), length = 0;
    while (byte == ' ' || byte == '\n')
        byte = next_byte();
    for (; byte > ' '; byte = next_byte())
        if (length < NAME - 1)
            name[length++] = byte;
    name[length] = 0;
    return name;
}

static int number_of(const char *name)
{
    int number = 0;
    for (; *name; name++)
        number = number * 10 + *name - '0';
    return number;
}

static void emit(int number) { code[here++] = number; }

/* Compiles one word of a definition. Places of jumps that are still open are on the stack. */
static void compile(const char *name)
{
    int number = find(name), open;
    if (is_same(name, "if")) {
        emit(BRANCH_ZERO); push(here); emit(0);
    } else if (is_same(name, "else")) {
        open = pop(); emit(BRANCH); push(here); emit(0); code[open] = here;
    } else if (is_same(name, "then")) {
        code[pop()] = here;
    } else if (is_same(name, "begin")) {
        push(here);
    } else if (is_same(name, "until")) {
        emit(BRANCH_ZERO); emit(pop());
    } else if (is_same(name, "do")) {
        emit(BEGIN_LOOP); push(here);
    } else if (is_same(name, "loop")) {
        emit(END_LOOP); emit(pop());
    } else if (number >= 0) {
        emit(number);
    } else {
        emit(LITERAL); emit(number_of(name));
    }
}

static void define(void)
{
    struct word *word = &words[count];
    const char *name = next_name();
    for (int k = 0; k < NAME; k++)
        word->name[k] = name[k];
    word->start = here;
    for (name = next_name(); !is_same(name, ";"); name = next_name())
        compile(name);
    emit(LEAVE);
    count++;
}

int main(void)
{
    for (const char *name = next_name(); *name; name = next_name()) {
        int number = find(name);
        if (is_same(name, ":"))
            define();
        else if (number >= 0)
            execute(number);
        else
            push(number_of(name));
    }
    flush();
    return depth;
}

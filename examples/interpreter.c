/* An interpreter of a small language whose operations work on a stack. Its input is a program in that language:
     0 1 2 ..   pushes a number                 + - * / %   takes two numbers and pushes one
     a .. z     pushes the variable             A .. Z      takes a number into the variable
     [ .. ]     takes a number at [ and at ]; goes on inside while it is not 0
     .          takes a number and prints it    #           the rest of the line is a remark */
#include "calls.h"

enum { WORDS = 512, DEPTH = 32, NESTED = 16 };

/* An operation takes the operand of its word, and answers where to go on. */
typedef int operation(int operand, int next);

struct word {
    operation *run;
    int operand;
};

static struct word program[WORDS];
static int stack[DEPTH], variables[26];
static int depth, length;

static void push(int number)
{
    if (depth < DEPTH)
        stack[depth++] = number;
}

static int pop(void)
{
    return depth ? stack[--depth] : 0;
}

static int number(int operand, int next) { push(operand); return next; }
static int get(int operand, int next) { push(variables[operand]); return next; }
static int set(int operand, int next) { variables[operand] = pop(); return next; }
static int open(int operand, int next) { return pop() ? next : operand; }
static int close(int operand, int next) { return pop() ? operand : next; }
static int add(int operand, int next) { int right = pop(); push(pop() + right); return next; }
static int subtract(int operand, int next) { int right = pop(); push(pop() - right); return next; }
static int multiply(int operand, int next) { int right = pop(); push(pop() * right); return next; }
static int divide(int operand, int next) { int right = pop(); push(right ? pop() / right : 0); return next; }
static int remainder(int operand, int next) { int right = pop(); push(right ? pop() % right : 0); return next; }
static int print(int operand, int next) { put_number(pop()); put_byte('\n'); return next; }

/* The operation of each sign from '%' to '/'. */
static operation *const signs['/' - '%' + 1] = {
    ['%' - '%'] = remainder, ['*' - '%'] = multiply, ['+' - '%'] = add,
    ['-' - '%'] = subtract, ['.' - '%'] = print, ['/' - '%'] = divide,
};

static void emit(operation *run, int operand)
{
    if (length < WORDS) {
        program[length].run = run;
        program[length++].operand = operand;
    }
}

/* Reads the program. Words of a loop have the place behind the other end. */
static void compile(void)
{
    int opened[NESTED], nested = 0, byte = next_byte();
    while (byte >= 0) {
        if (byte >= '0' && byte <= '9') {
            int value = 0;
            for (; byte >= '0' && byte <= '9'; byte = next_byte())
                value = value * 10 + byte - '0';
            emit(number, value);
            continue;
        }
        if (byte == '#') {
            while (byte >= 0 && byte != '\n')
                byte = next_byte();
        } else if (byte >= 'a' && byte <= 'z') {
            emit(get, byte - 'a');
        } else if (byte >= 'A' && byte <= 'Z') {
            emit(set, byte - 'A');
        } else if (byte == '[' && nested < NESTED) {
            opened[nested++] = length;
            emit(open, 0);
        } else if (byte == ']' && nested) {
            int begin = opened[--nested];
            emit(close, begin + 1);
            program[begin].operand = length;
        } else if (byte >= '%' && byte <= '/' && signs[byte - '%']) {
            emit(signs[byte - '%'], 0);
        }
        byte = next_byte();
    }
}

int main(void)
{
    int at = 0;
    compile();
    while (at < length)
        at = program[at].run(program[at].operand, at + 1);
    flush();
    return 0;
}

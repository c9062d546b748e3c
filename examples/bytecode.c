/* A machine of bytecode whose instructions jump to one another by a table of labels (computed goto). Its program takes each number
   of the input through the Collatz sequence, and writes how many steps that takes, and the greatest number on the way. */
#include "calls.h"

enum { READ, JUMP_NEGATIVE, PUSH, LOAD, STORE, ADD, MULTIPLY, HALVE, IS_ODD, GREATER, JUMP_ZERO, JUMP, PRINT, SPACE, LINE, STOP };
enum { NUMBER, STEPS, GREATEST, VARIABLES };

static const unsigned char program[] = {
    /*  0 */ READ, STORE, NUMBER,
    /*  3 */ LOAD, NUMBER, JUMP_NEGATIVE, 59,
    /*  7 */ PUSH, 0, STORE, STEPS, LOAD, NUMBER, STORE, GREATEST,
    /* 15 */ LOAD, NUMBER, PUSH, 1, GREATER, JUMP_ZERO, 51,
    /* 22 */ LOAD, STEPS, PUSH, 1, ADD, STORE, STEPS,
    /* 29 */ LOAD, NUMBER, IS_ODD, JUMP_ZERO, 43,
    /* 34 */ LOAD, NUMBER, PUSH, 3, MULTIPLY, PUSH, 1, JUMP, 60,
    /* 43 */ LOAD, NUMBER, HALVE, STORE, NUMBER, JUMP, 15, STOP,
    /* 51 */ LOAD, STEPS, PRINT, SPACE, LOAD, GREATEST, JUMP, 76,
    /* 59 */ STOP,
    /* 60 */ ADD, STORE, NUMBER, LOAD, NUMBER, LOAD, GREATEST, GREATER, JUMP_ZERO, 15,
    /* 70 */ LOAD, NUMBER, STORE, GREATEST, JUMP, 15,
    /* 76 */ PRINT, LINE, JUMP, 0,
};

static int stack[16], variables[VARIABLES];

/* The next number of the input, or -1. */
static int read_number(void)
{
    int byte, number = 0;
    while ((byte = next_byte()) >= 0 && (byte < '0' || byte > '9'))
        continue;
    if (byte < 0)
        return -1;
    for (; byte >= '0' && byte <= '9'; byte = next_byte())
        number = number * 10 + byte - '0';
    return number;
}

#define NEXT goto *labels[*at++]

static void run(void)
{
    static const void *const labels[] = {
        &&read, &&jump_negative, &&push, &&load, &&store, &&add, &&multiply, &&halve,
        &&is_odd, &&greater, &&jump_zero, &&jump, &&print, &&space, &&line, &&stop,
    };
    const unsigned char *at = program;
    int *top = stack;
    NEXT;
read:
    *++top = read_number();
    NEXT;
jump_negative:
    at = *top-- < 0 ? program + *at : at + 1;
    NEXT;
push:
    *++top = *at++;
    NEXT;
load:
    *++top = variables[*at++];
    NEXT;
store:
    variables[*at++] = *top--;
    NEXT;
add:
    top[-1] += *top;
    top--;
    NEXT;
multiply:
    top[-1] *= *top;
    top--;
    NEXT;
halve:
    *top = (unsigned)*top >> 1;
    NEXT;
is_odd:
    *top &= 1;
    NEXT;
greater:
    top[-1] = (unsigned)top[-1] > (unsigned)*top;
    top--;
    NEXT;
jump_zero:
    at = *top-- == 0 ? program + *at : at + 1;
    NEXT;
jump:
    at = program + *at;
    NEXT;
print:
    put_number(*top--);
    NEXT;
space:
    put_byte(' ');
    NEXT;
line:
    put_byte('\n');
    NEXT;
stop:
    flush();
}

int main(void)
{
    run();
    return 0;
}

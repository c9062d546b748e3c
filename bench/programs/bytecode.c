/* Interprets bytecode for a stack by a switch. The bytecode adds up how many steps numbers take to 1 in Collatz's sequence. */
#include "calls.h"

enum operation { PUSH, LOAD, STORE, ADD, MULTIPLY, AND, SHIFT_RIGHT, EQUALS, JUMP, JUMP_IF, CALL, RETURN, END };
enum { NUMBER, VALUE, LENGTH, VARIABLES };
enum { EACH = 4, STEP = 8, ODD = 38, DONE = 46, TRIPLE = 60, DEPTH = 16 };

static const short code[] = {
    PUSH, 1200, STORE, NUMBER,
    [EACH] = LOAD, NUMBER, STORE, VALUE,
    [STEP] = LOAD, VALUE, PUSH, 1, EQUALS, JUMP_IF, DONE,
    LOAD, LENGTH, PUSH, 1, ADD, STORE, LENGTH,
    LOAD, VALUE, PUSH, 1, AND, JUMP_IF, ODD,
    LOAD, VALUE, PUSH, 1, SHIFT_RIGHT, STORE, VALUE, JUMP, STEP,
    [ODD] = LOAD, VALUE, CALL, TRIPLE, STORE, VALUE, JUMP, STEP,
    [DONE] = LOAD, NUMBER, PUSH, -1, ADD, STORE, NUMBER, LOAD, NUMBER, JUMP_IF, EACH, LOAD, LENGTH, END,
    [TRIPLE] = PUSH, 3, MULTIPLY, PUSH, 1, ADD, RETURN,
};
static int variables[VARIABLES], stack[DEPTH];
static const short *returns[DEPTH];

static int interpret(const short *at)
{
    int *top = stack;
    const short **back = returns;
    for (;;)
        switch ((enum operation)*at++) {
        case PUSH: *top++ = *at++; break;
        case LOAD: *top++ = variables[*at++]; break;
        case STORE: variables[*at++] = *--top; break;
        case ADD: top--; top[-1] += *top; break;
        case MULTIPLY: top--; top[-1] *= *top; break;
        case AND: top--; top[-1] &= *top; break;
        case SHIFT_RIGHT: top--; top[-1] >>= *top; break;
        case EQUALS: top--; top[-1] = top[-1] == *top; break;
        case JUMP: at = code + *at; break;
        case JUMP_IF: at = *--top ? code + *at : at + 1; break;
        case CALL: *back++ = at + 1; at = code + *at; break;
        case RETURN: at = *--back; break;
        case END: return *--top;
        }
}

int main(void)
{
    put_number(interpret(code));
    flush();
    return 0;
}

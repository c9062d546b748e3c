/* What the programs stand on: the calls of the flat machine, and a heap in a static array. */
#ifndef LAYER_H
#define LAYER_H
#include <stddef.h>

enum { ROOM = 1 << 16 };

/* The input, at most ROOM bytes of it, and how many there are. A zero stands behind it. */
extern char input[ROOM + 1];
unsigned read_input(void);

void put_bytes(const void *bytes, unsigned count);
void put_line(const char *name, unsigned number);

#endif

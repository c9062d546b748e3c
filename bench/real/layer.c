#include "layer.h"
#include <stdio.h>
#include <string.h>

enum { CLASSES = 24, LEAST = 4, ARENA = 1 << 21 };

char input[ROOM + 1];
static unsigned long long arena[ARENA / 8];
static unsigned used;
static void *freed[CLASSES];

static int call(int number, const void *bytes, unsigned count)
{
    register int a0 asm("a0") = number == 64;
    register const void *a1 asm("a1") = bytes;
    register unsigned a2 asm("a2") = count;
    register int a7 asm("a7") = number;
    asm volatile("ecall" : "+r"(a0) : "r"(a1), "r"(a2), "r"(a7) : "memory");
    return a0;
}

unsigned read_input(void)
{
    unsigned count = 0;
    int got;
    while (count < ROOM && (got = call(63, input + count, ROOM - count)) > 0)
        count += got;
    return count;
}

void put_bytes(const void *bytes, unsigned count)
{
    call(64, bytes, count);
}

void put_line(const char *name, unsigned number)
{
    char line[64];
    int at = 0, digits = 0;
    while (*name)
        line[at++] = *name++;
    line[at++] = ' ';
    char reversed[10];
    do
        reversed[digits++] = '0' + number % 10;
    while (number /= 10);
    while (digits)
        line[at++] = reversed[--digits];
    line[at++] = '\n';
    put_bytes(line, at);
}

/* A block has its class in front. Blocks of a class are powers of two, and freed ones are taken again. */
static void *block_of(size_t size)
{
    int class = LEAST;
    while ((1u << class) < size + 8)
        class++;
    unsigned char *block = freed[class];
    if (block)
        memcpy(&freed[class], block + 8, sizeof(void *));
    else {
        if (used + (1u << class) > ARENA)
            return NULL;
        block = (unsigned char *)arena + used;
        used += 1u << class;
    }
    *(unsigned *)block = class;
    return block + 8;
}

void *malloc(size_t size)
{
    return block_of(size);
}

void free(void *bytes)
{
    if (!bytes)
        return;
    unsigned class = *(unsigned *)((unsigned char *)bytes - 8);
    memcpy(bytes, &freed[class], sizeof(void *));
    freed[class] = (unsigned char *)bytes - 8;
}

void *realloc(void *bytes, size_t size)
{
    if (!bytes)
        return malloc(size);
    unsigned room = (1u << *(unsigned *)((unsigned char *)bytes - 8)) - 8;
    if (size <= room)
        return bytes;
    void *larger = block_of(size);
    if (larger) {
        memcpy(larger, bytes, room);
        free(bytes);
    }
    return larger;
}

/* By block_of, since GCC makes a call of calloc of malloc and memset. */
void *calloc(size_t count, size_t size)
{
    void *bytes = block_of(count * size);
    return bytes ? memset(bytes, 0, count * size) : NULL;
}

/* What libraries ask for, and the programs do not use. Where one gives up, the program ends with 255. */
FILE *const stderr = NULL;

int fprintf(FILE *file, const char *format, ...)
{
    (void)file, (void)format;
    return 0;
}

void abort(void)
{
    register int a0 asm("a0") = 255;
    register int a7 asm("a7") = 93;
    asm volatile("ecall" : : "r"(a0), "r"(a7));
    __builtin_unreachable();
}

int gettimeofday(void *time, void *zone)
{
    (void)zone;
    memset(time, 0, 16);
    return 0;
}

/* Of picolibc it is thread-local, which spmlink refuses. */
int *errno_place(void)
{
    static int place;
    return &place;
}

unsigned long strtoul(const char *text, char **end, int base)
{
    (void)text, (void)end, (void)base;
    return 0;
}

int getpid(void)
{
    return 1;
}

char *getenv(const char *name)
{
    (void)name;
    return NULL;
}

#include "calls.h"

static char input[256], output[128];
static int input_count, input_at, output_count;

/* The flat machine ignores the descriptor. Linux, as qemu-riscv32 has it, reads 0 and prints 1. */
static int call(int number, int descriptor, const void *bytes, int count)
{
    register int a0 asm("a0") = descriptor;
    register const void *a1 asm("a1") = bytes;
    register int a2 asm("a2") = count;
    register int a7 asm("a7") = number;
    asm volatile("ecall" : "+r"(a0) : "r"(a1), "r"(a2), "r"(a7) : "memory");
    return a0;
}

int read_input(void *bytes, int count)
{
    return call(63, 0, bytes, count);
}

int next_byte(void)
{
    if (input_at == input_count) {
        input_count = read_input(input, sizeof input);
        input_at = 0;
        if (input_count == 0)
            return -1;
    }
    return (unsigned char)input[input_at++];
}

void flush(void)
{
    call(64, 1, output, output_count);
    output_count = 0;
}

void put_byte(int byte)
{
    output[output_count++] = byte;
    if (output_count == sizeof output)
        flush();
}

void put_text(const char *text)
{
    while (*text)
        put_byte(*text++);
}

void put_number(int number)
{
    char digits[12];
    unsigned rest = number < 0 ? 0u - number : number;
    int count = 0;
    if (number < 0)
        put_byte('-');
    do
        digits[count++] = '0' + rest % 10;
    while (rest /= 10);
    while (count)
        put_byte(digits[--count]);
}

#ifdef __cplusplus
extern "C" {
#endif

/* Compilers make calls of these two from loops and from assignments of structures. */
void *memcpy(void *to, const void *from, unsigned count)
{
    char *target = (char *)to;
    const char *source = (const char *)from;
    while (count--)
        *target++ = *source++;
    return to;
}

void *memset(void *to, int byte, unsigned count)
{
    char *target = (char *)to;
    while (count--)
        *target++ = byte;
    return to;
}

#ifdef __cplusplus
}
#endif

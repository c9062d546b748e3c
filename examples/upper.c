/* Writes its input in capitals, by the calls of the flat machine and a table. */
static int call(int number, void *bytes, int count)
{
    register int a0 asm("a0") = 0;
    register void *a1 asm("a1") = bytes;
    register int a2 asm("a2") = count;
    register int a7 asm("a7") = number;
    asm volatile("ecall" : "+r"(a0) : "r"(a1), "r"(a2), "r"(a7) : "memory");
    return a0;
}

/* What each small letter becomes. */
static const char capitals[32] __attribute__((aligned(4))) = "ABCDEFGHIJKLMNOPQRSTUVWXYZ";

static int run(void)
{
    char line[64];
    int count;
    while ((count = call(63, line, sizeof line)) > 0) {
        for (int i = 0; i < count; i++)
            if (line[i] >= 'a' && line[i] <= 'z')
                line[i] = capitals[line[i] - 'a'];
        call(64, line, count);
    }
    return count;
}

/* The start code sets the stack pointer: it starts at 0. */
asm(".globl _start\n_start: lui sp, 0x20\n call main\n li a7, 93\n ecall\n");

int main(void)
{
    return run();
}

/* What a program gives itself in place of functions of a C library that set errno: the cure of numbers.c. */
static int own_error;

int *own_errno(void)
{
    return &own_error;
}

long strtol(const char *text, char **end, int base)
{
    long value = 0;
    while (*text >= '0' && *text <= '9') value = value * base + *text++ - '0';
    if (end) *end = (char *)text;
    return value;
}

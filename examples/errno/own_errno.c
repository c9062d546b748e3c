/* What errno is where the program is compiled with -D__PICOLIBC_ERRNO_FUNCTION=own_errno. */
static int own_error;

int *own_errno(void)
{
    return &own_error;
}

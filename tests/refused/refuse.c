/* Makes one call of a program fail. It is loaded by LD_PRELOAD, and told by the environment:

   REFUSE=memory N   the Nth allocation finds no memory
   REFUSE=files N    the Nth open, read or write fails
   REFUSE=short N    the Nth read or write of several bytes moves one byte
   REFUSE_LOG=FILE   gets a line for each open, read and write, with the file's name, and `refused` where the
                     call came that was to fail

   Numbers count from 1, and 0 lets nothing fail. It needs the C library of GNU. */
#define _GNU_SOURCE
#include <errno.h>
#include <fcntl.h>
#include <stdarg.h>
#include <stdlib.h>
#include <string.h>
#include <sys/syscall.h>
#include <unistd.h>

enum kind { NONE, MEMORY, FILES, SHORT };
enum { FIRST_FILES = 64, NAME = 64 };

void *__libc_malloc(size_t size);
void *__libc_calloc(size_t count, size_t size);
void *__libc_realloc(void *old, size_t size);

static enum kind kind = NONE;
static long left = 0;
static int log_file = -1;
static char names[FIRST_FILES][NAME] = {"0", "1", "2"};

static void note(const char *what, const char *name) {
    char line[2 * NAME];
    size_t length = 0;
    if (log_file < 0) return;
    for (; *what && length < NAME; what++) line[length++] = *what;
    if (*name) line[length++] = ' ';
    for (; *name && length < 2 * NAME - 1; name++) line[length++] = *name;
    line[length++] = '\n';
    syscall(SYS_write, log_file, line, length);
}

/* Whether this call of a kind is the one that is to fail. */
static int is_refused(enum kind asked) {
    if (kind != asked || left == 0 || --left > 0) return 0;
    note("refused", "");
    return 1;
}

static const char *name_of(int file) { return 0 <= file && file < FIRST_FILES ? names[file] : ""; }

__attribute__((constructor)) static void begin(void) {
    const char *what = getenv("REFUSE"), *log = getenv("REFUSE_LOG");
    const char *number = what ? strchr(what, ' ') : NULL;
    if (!number) return;
    if (log) log_file = syscall(SYS_openat, AT_FDCWD, log, O_WRONLY | O_CREAT | O_TRUNC | O_CLOEXEC, 0666);
    if (log_file >= 0) {
        int high = syscall(SYS_fcntl, log_file, F_DUPFD_CLOEXEC, FIRST_FILES);
        syscall(SYS_close, log_file);
        log_file = high;
    }
    left = atol(number);
    kind = what[0] == 'm' ? MEMORY : what[0] == 'f' ? FILES : SHORT;
}

void *malloc(size_t size) {
    if (is_refused(MEMORY)) return errno = ENOMEM, NULL;
    return __libc_malloc(size);
}

void *calloc(size_t count, size_t size) {
    if (is_refused(MEMORY)) return errno = ENOMEM, NULL;
    return __libc_calloc(count, size);
}

void *realloc(void *old, size_t size) {
    if (is_refused(MEMORY)) return errno = ENOMEM, NULL;
    return __libc_realloc(old, size);
}

int open(const char *name, int flags, ...) {
    va_list rest;
    va_start(rest, flags);
    int mode = flags & (O_CREAT | O_TMPFILE) ? va_arg(rest, int) : 0;
    va_end(rest);
    note(flags & O_CREAT ? "create" : "open", name);
    if (is_refused(FILES)) return errno = EIO, -1;
    int file = syscall(SYS_openat, AT_FDCWD, name, flags, mode);
    if (0 <= file && file < FIRST_FILES) strncpy(names[file], name, NAME - 1);
    return file;
}

ssize_t read(int file, void *bytes, size_t count) {
    note("read", name_of(file));
    if (is_refused(FILES)) return errno = EIO, -1;
    if (count > 1 && is_refused(SHORT)) count = 1;
    return syscall(SYS_read, file, bytes, count);
}

ssize_t write(int file, const void *bytes, size_t count) {
    note("write", name_of(file));
    if (is_refused(FILES)) return errno = EIO, -1;
    if (count > 1 && is_refused(SHORT)) count = 1;
    return syscall(SYS_write, file, bytes, count);
}

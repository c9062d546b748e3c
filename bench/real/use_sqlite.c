/* Runs SQL on a database in sqlite's own file system in memory, and writes what it answers. Its heap is a static array. */
#include "layer.h"
#include "sqlite3.h"
#include <string.h>

enum { HEAP = 1 << 20 };
static unsigned long long heap[HEAP / 8];

static int told(void *data, int count, char **values, char **names)
{
    (void)data, (void)names;
    for (int k = 0; k < count; k++) {
        const char *value = values[k] ? values[k] : "NULL";
        put_bytes(value, strlen(value));
        put_bytes(k + 1 < count ? "|" : "\n", 1);
    }
    return 0;
}

/* The file system below that in memory: it has no files, and no clock. */
static int cant_open(sqlite3_vfs *vfs, const char *name, sqlite3_file *file, int flags, int *given)
{
    (void)vfs, (void)name, (void)flags, (void)given;
    file->pMethods = 0;
    return SQLITE_CANTOPEN;
}

static int nothing(sqlite3_vfs *vfs, const char *name, int flag)
{
    (void)vfs, (void)name, (void)flag;
    return SQLITE_OK;
}

static int no_access(sqlite3_vfs *vfs, const char *name, int flags, int *given)
{
    (void)vfs, (void)name, (void)flags;
    *given = 0;
    return SQLITE_OK;
}

static int full_name(sqlite3_vfs *vfs, const char *name, int room, char *given)
{
    (void)vfs;
    strncpy(given, name, room);
    return SQLITE_OK;
}

static int randomness(sqlite3_vfs *vfs, int count, char *bytes)
{
    (void)vfs;
    memset(bytes, 7, count);
    return count;
}

static int no_sleep(sqlite3_vfs *vfs, int microseconds)
{
    (void)vfs;
    return microseconds;
}

static int no_time(sqlite3_vfs *vfs, double *given)
{
    (void)vfs;
    *given = 2440587.5;
    return SQLITE_OK;
}

static int no_error(sqlite3_vfs *vfs, int count, char *text)
{
    (void)vfs, (void)count, (void)text;
    return 0;
}

static sqlite3_vfs lower = {
    .iVersion = 1, .szOsFile = sizeof(sqlite3_file), .mxPathname = 100, .zName = "none", .xOpen = cant_open, .xDelete = nothing,
    .xAccess = no_access, .xFullPathname = full_name, .xRandomness = randomness, .xSleep = no_sleep, .xCurrentTime = no_time,
    .xGetLastError = no_error,
};

int sqlite3_os_init(void)
{
    return sqlite3_vfs_register(&lower, 1);
}

int sqlite3_os_end(void)
{
    return SQLITE_OK;
}

int main(void)
{
    sqlite3 *database;
    char *fault = 0;
    read_input();
    sqlite3_config(SQLITE_CONFIG_HEAP, heap, HEAP, 32);
    if (sqlite3_initialize() || sqlite3_open_v2("/base", &database, SQLITE_OPEN_READWRITE | SQLITE_OPEN_CREATE, "memdb"))
        return 2;
    if (sqlite3_exec(database, input, told, 0, &fault)) {
        put_line(fault ? fault : "fault", 0);
        return 1;
    }
    return sqlite3_close(database) ? 3 : 0;
}

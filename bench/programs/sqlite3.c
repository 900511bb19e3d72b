/* Runs the statements that the input holds, one a line, round and round, on a database in memory. */
#include <stdio.h>
#include <string.h>
#include <unistd.h>
#include "sqlite3.h"

/* What clang calls on a machine without atomic instructions; one hart alone runs. */
unsigned load_word(const volatile void *from, int order) __asm__("__atomic_load_4");
unsigned load_word(const volatile void *from, int order) { (void)order; return *(const volatile unsigned *)from; }
void store_word(volatile void *to, unsigned value, int order) __asm__("__atomic_store_4");
void store_word(volatile void *to, unsigned value, int order) { (void)order; *(volatile unsigned *)to = value; }

static int no_file(sqlite3_vfs *vfs, const char *name, sqlite3_file *file, int flags, int *out) {
    (void)vfs, (void)name, (void)flags, (void)out;
    file->pMethods = NULL;
    return SQLITE_CANTOPEN;
}
static int no_delete(sqlite3_vfs *vfs, const char *name, int sync) { (void)vfs, (void)name, (void)sync; return SQLITE_OK; }
static int no_access(sqlite3_vfs *vfs, const char *name, int flags, int *out) {
    (void)vfs, (void)name, (void)flags;
    *out = 0;
    return SQLITE_OK;
}
static int same_path(sqlite3_vfs *vfs, const char *name, int count, char *out) {
    (void)vfs;
    sqlite3_snprintf(count, out, "%s", name);
    return SQLITE_OK;
}
static int zeros(sqlite3_vfs *vfs, int count, char *out) { (void)vfs; memset(out, 0, count); return count; }
static int no_sleep(sqlite3_vfs *vfs, int count) { (void)vfs; return count; }
static int no_time(sqlite3_vfs *vfs, double *out) { (void)vfs; *out = 2460000.5; return SQLITE_OK; }

int sqlite3_os_init(void) {
    static sqlite3_vfs vfs = {
        .iVersion = 1, .szOsFile = sizeof(sqlite3_file), .mxPathname = 64, .zName = "none", .xOpen = no_file,
        .xDelete = no_delete, .xAccess = no_access, .xFullPathname = same_path, .xRandomness = zeros,
        .xSleep = no_sleep, .xCurrentTime = no_time,
    };
    return sqlite3_vfs_register(&vfs, 1);
}
int sqlite3_os_end(void) { return SQLITE_OK; }

static int show(void *unused, int count, char **values, char **names) {
    (void)unused, (void)names;
    for (int i = 0; i < count; i++)
        printf("%s%s", i ? "|" : "", values[i] ? values[i] : "");
    printf("\n");
    return 0;
}

int main(void) {
    static char text[1 << 16];
    size_t length = 0;
    ssize_t count;
    while ((count = read(0, text + length, sizeof text - 1 - length)) > 0)
        length += (size_t)count;
    for (int round = 0; round < 1000; round++) {
        sqlite3 *database;
        char *error = NULL;
        if (sqlite3_open(":memory:", &database) != SQLITE_OK)
            return 1;
        if (sqlite3_exec(database, text, show, NULL, &error) != SQLITE_OK) {
            puts(error);
            return 2;
        }
        sqlite3_close(database);
    }
    return 0;
}

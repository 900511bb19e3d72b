"""Libraries that stand before the C library's functions (LD_PRELOAD), and refuse one call of a program or shorten
some."""
import pathlib
import subprocess

# Refuses the Nth call of malloc or realloc, with N in REFUSED. The line that it writes then is the sign that it did.
ALLOCATIONS = r"""
#define _GNU_SOURCE
#include <dlfcn.h>
#include <stdlib.h>
#include <unistd.h>

static long calls;

static int is_refused(void) {
    const char *nth = getenv("REFUSED");
    if (nth == NULL || __atomic_add_fetch(&calls, 1, __ATOMIC_SEQ_CST) != atol(nth)) return 0;
    return write(2, "refused\n", 8) == 8;
}

void *malloc(size_t size) {
    static void *(*next)(size_t);
    if (next == NULL) next = (void *(*)(size_t))dlsym(RTLD_NEXT, "malloc");
    return is_refused() ? NULL : next(size);
}

void *realloc(void *block, size_t size) {
    static void *(*next)(void *, size_t);
    if (next == NULL) next = (void *(*)(void *, size_t))dlsym(RTLD_NEXT, "realloc");
    return is_refused() ? NULL : next(block, size);
}
"""

# Lets each call of read and write move at most so many bytes as SHORT says.
SHORT_COUNTS = r"""
#define _GNU_SOURCE
#include <dlfcn.h>
#include <stdlib.h>
#include <unistd.h>

static size_t shortened(size_t count) {
    const char *most = getenv("SHORT");
    size_t limit = most == NULL ? count : (size_t)atol(most);
    return count < limit ? count : limit;
}

ssize_t read(int file, void *bytes, size_t count) {
    static ssize_t (*next)(int, void *, size_t);
    if (next == NULL) next = (ssize_t (*)(int, void *, size_t))dlsym(RTLD_NEXT, "read");
    return next(file, bytes, shortened(count));
}

ssize_t write(int file, const void *bytes, size_t count) {
    static ssize_t (*next)(int, const void *, size_t);
    if (next == NULL) next = (ssize_t (*)(int, const void *, size_t))dlsym(RTLD_NEXT, "write");
    return next(file, bytes, shortened(count));
}
"""


def built(text, folder, name):
    """The library of a text, in a folder."""
    source, library = pathlib.Path(folder) / f"{name}.c", pathlib.Path(folder) / f"{name}.so"
    source.write_text(text)
    subprocess.run(["cc", "-O1", "-shared", "-fPIC", "-o", library, source, "-ldl"], check=True)
    return library

"""A library that refuses the program into which it is loaded one growth of its memory: what scripts of tests share. Linux only;
it needs a C compiler. The growth's number, from 1, is in REFUSED_GROWTH; with 0 none is refused."""
import os
import subprocess
from pathlib import Path

# Counts the calls that ask for memory, and refuses one of them.
REFUSER = r"""
#define _GNU_SOURCE
#include <dlfcn.h>
#include <errno.h>
#include <stdlib.h>
#include <string.h>
#include <unistd.h>

extern void *__libc_malloc(size_t), *__libc_calloc(size_t, size_t), *__libc_realloc(void *, size_t),
    *__libc_memalign(size_t, size_t);
static long left = -1;

__attribute__((constructor)) static void begin(void) {
    const char *at = getenv("REFUSED_GROWTH");
    left = at ? atol(at) : 0;
}

static int refused(void) {
    if (left <= 0 || --left > 0) return 0;
    static const char told[] = "a growth was refused\n";
    if (write(2, told, sizeof told - 1) < 0) _exit(3);
    return 1;
}

void *malloc(size_t size) { return refused() ? NULL : __libc_malloc(size); }
void *calloc(size_t count, size_t size) { return refused() ? NULL : __libc_calloc(count, size); }
void *realloc(void *old, size_t size) { return refused() ? NULL : __libc_realloc(old, size); }
void *memalign(size_t align, size_t size) { return refused() ? NULL : __libc_memalign(align, size); }
void *aligned_alloc(size_t align, size_t size) { return memalign(align, size); }
int posix_memalign(void **into, size_t align, size_t size) {
    void *made = memalign(align, size);
    if (made) *into = made;
    return made ? 0 : ENOMEM;
}
"""


def refuser_in(folder):
    """The library, made in a folder."""
    source, library = Path(folder) / "refuser.c", Path(folder) / "refuser.so"
    source.write_text(REFUSER)
    subprocess.run([os.environ.get("CC", "cc"), "-O2", "-shared", "-fPIC", "-o", library, source], check=True)
    return library

"""A library that counts the requests for memory of a program, and refuses one of them.

The command cc builds it, and it is loaded before the C library. It refuses the request whose number is REFUSED in its environment,
and reports at the end how many there were. A program that may start threads ends by `_exit`, so the count is printed there too.
With LEAST in its environment, it counts only requests of at least that many bytes, and refuses the first REFUSED of them.
"""

import os
import subprocess

COUNTING = r"""
#include <stddef.h>
#include <stdio.h>
#include <stdlib.h>
#include <sys/syscall.h>
#include <unistd.h>
extern void *__libc_malloc(size_t), *__libc_realloc(void *, size_t);
static long requests, refused = -1, least;
static int refuses(size_t size) {
    if (refused < 0) {
        if (getenv("LEAST")) least = atol(getenv("LEAST"));
        refused = atol(getenv("REFUSED"));
    }
    if (size < (size_t)least) return 0;
    long request = __atomic_add_fetch(&requests, 1, __ATOMIC_RELAXED);
    return least ? request <= refused : request == refused;
}
void *malloc(size_t size) { return refuses(size) ? NULL : __libc_malloc(size); }
void *realloc(void *old, size_t size) { return refuses(size) ? NULL : __libc_realloc(old, size); }
__attribute__((destructor)) static void tell(void) { dprintf(2, "requests %ld\n", requests); }
void _exit(int status) { tell(); syscall(SYS_exit_group, status); __builtin_unreachable(); }
"""


def build(folder):
    """Builds the library in a folder, and returns its path."""
    library = os.path.join(folder, "counting.so")
    subprocess.run(["cc", "-O2", "-shared", "-fPIC", "-x", "c", "-", "-o", library], input=COUNTING, text=True, check=True)
    return library

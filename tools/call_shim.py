"""A shared object that stands before the C library's reading, writing and allocating: it fails one call of a kind, moves no
more than so many bytes a call, and tells how many calls there were. It is told by variables of the environment:

  FAILED_READ, FAILED_WRITE, REFUSED_ALLOCATION     the number of the call that fails, from 1
  BYTES_A_CALL                                      the most bytes that a read of the input or a write of the output moves
  CALLS_TOLD                                        the file that gets the numbers of reads, writes and allocations
"""
import os
import subprocess

SHIM = r'''
#define _GNU_SOURCE
#include <dlfcn.h>
#include <errno.h>
#include <stddef.h>
#include <stdlib.h>
#include <sys/types.h>

extern void *__libc_malloc(size_t size);
extern void *__libc_calloc(size_t count, size_t size);
extern void *__libc_realloc(void *old, size_t size);
extern void *__libc_memalign(size_t alignment, size_t size);
extern ssize_t __read(int file, void *into, size_t size);
extern ssize_t __write(int file, const void *from, size_t size);

static long made[3];

/* Whether the call that begins is the one to fail. */
static int fails(int kind, const char *variable) {
    const char *number = getenv(variable);
    made[kind] += 1;
    return number != NULL && atol(number) == made[kind];
}

/* Says on a file how many calls of each kind there were. */
__attribute__((destructor)) static void tell(void) {
    const char *path = getenv("CALLS_TOLD");
    if (path == NULL) return;
    extern int open(const char *, int, ...);
    extern int dprintf(int, const char *, ...);
    int file = open(path, 01 | 0100 | 01000, 0600);
    dprintf(file, "%ld %ld %ld\n", made[0], made[1], made[2]);
}

/* No more bytes than a call may move. */
static size_t least(size_t size) {
    const char *number = getenv("BYTES_A_CALL");
    size_t most = number == NULL ? size : (size_t)atol(number);
    return size < most ? size : most;
}

ssize_t read(int file, void *into, size_t size) {
    if (file == 0 && fails(0, "FAILED_READ")) { errno = EIO; return -1; }
    return __read(file, into, file == 0 ? least(size) : size);
}
ssize_t write(int file, const void *from, size_t size) {
    if (file == 1 && fails(1, "FAILED_WRITE")) { errno = EIO; return -1; }
    return __write(file, from, file == 1 ? least(size) : size);
}
static int refused(void) { return fails(2, "REFUSED_ALLOCATION"); }
void *malloc(size_t size) { return refused() ? NULL : __libc_malloc(size); }
void *calloc(size_t count, size_t size) { return refused() ? NULL : __libc_calloc(count, size); }
void *realloc(void *old, size_t size) { return refused() ? NULL : __libc_realloc(old, size); }
void *aligned_alloc(size_t alignment, size_t size) { return refused() ? NULL : __libc_memalign(alignment, size); }
int posix_memalign(void **result, size_t alignment, size_t size) {
    *result = refused() ? NULL : __libc_memalign(alignment, size);
    return *result == NULL ? ENOMEM : 0;
}
'''


def built(folder):
    """The shared object, built in this folder."""
    source, shim = os.path.join(folder, 'shim.c'), os.path.join(folder, 'shim.so')
    with open(source, 'w') as file:
        file.write(SHIM)
    subprocess.run(['cc', '-O1', '-shared', '-fPIC', '-o', shim, source], check=True)
    return shim

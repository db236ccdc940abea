/*
 * Refuses one allocation of a program, so that a test shows what the program
 * answers where memory runs out. Loaded before the C library (glibc):
 *
 *     cc -O2 -shared -fPIC -o refuse_growth.so tools/programs/refuse_growth.c
 *     FAIL_COUNT=1 LD_PRELOAD=./refuse_growth.so PROGRAM ..
 *     FAIL_AT=3    LD_PRELOAD=./refuse_growth.so PROGRAM ..
 *
 * The calls of malloc, calloc and realloc are counted together, from 1.
 * FAIL_AT=N: the N-th of them answers NULL, and no other.
 * FAIL_COUNT=1: at the end a line "growths N" goes to standard error.
 * tools/program compiles and uses this file.
 */
#include <stddef.h>
#include <stdio.h>
#include <stdlib.h>
#include <unistd.h>

/* glibc's own allocator, under the names that it keeps for this. */
extern void *__libc_malloc(size_t size);
extern void *__libc_calloc(size_t count, size_t size);
extern void *__libc_realloc(void *block, size_t size);

static long made;         /* how many calls there were */
static long refused = -1; /* the call to refuse; -1: the words were not read yet */

/* Counts a call, and tells whether it is to be refused. */
static int is_refused(void)
{
    if (refused < 0) {
        const char *at = getenv("FAIL_AT");
        refused = at ? atol(at) : 0;
    }
    return __atomic_add_fetch(&made, 1, __ATOMIC_SEQ_CST) == refused;
}

void *malloc(size_t size)
{
    return is_refused() ? NULL : __libc_malloc(size);
}

void *calloc(size_t count, size_t size)
{
    return is_refused() ? NULL : __libc_calloc(count, size);
}

void *realloc(void *block, size_t size)
{
    return is_refused() ? NULL : __libc_realloc(block, size);
}

__attribute__((destructor)) static void tell_count(void)
{
    char line[40];
    int length;

    if (getenv("FAIL_COUNT")) {
        length = snprintf(line, sizeof line, "growths %ld\n", made);
        if (write(2, line, (size_t)length) != length)
            _exit(2);
    }
}

// Preloaded into a program, makes one of its allocations fail: the one whose number, counted from
// 1 over all threads, is in the environment variable FAIL_ALLOCATION. At the end of the program the
// number of all allocations is written to the file that ALLOCATION_COUNT names. Works with the GNU
// C library.

#define _GNU_SOURCE
#include <errno.h>
#include <stdatomic.h>
#include <stddef.h>
#include <stdio.h>
#include <stdlib.h>
#include <sys/syscall.h>
#include <unistd.h>

void *__libc_malloc(size_t size);
void *__libc_calloc(size_t count, size_t size);
void *__libc_memalign(size_t alignment, size_t size);
void *__libc_realloc(void *old, size_t size);

static atomic_ulong allocations;
// Written before main begins and after it ends.
static unsigned long failing;

__attribute__((constructor)) static void begin(void) {
    const char *number = getenv("FAIL_ALLOCATION");
    failing = number ? strtoul(number, NULL, 10) : 0;
    allocations = 0;
}

__attribute__((destructor)) static void end(void) {
    unsigned long total = allocations;
    const char *name = getenv("ALLOCATION_COUNT");
    failing = 0;
    FILE *file = name ? fopen(name, "w") : NULL;
    if (file) {
        fprintf(file, "%lu\n", total);
        fclose(file);
    }
}

// A program that starts threads ends by this call, which runs no destructor.
void _exit(int status) {
    end();
    syscall(SYS_exit_group, status);
    __builtin_unreachable();
}

static int fails(void) {
    unsigned long number = atomic_fetch_add(&allocations, 1) + 1;
    if (number != failing)
        return 0;
    errno = ENOMEM;
    return 1;
}

void *malloc(size_t size) { return fails() ? NULL : __libc_malloc(size); }

void *calloc(size_t count, size_t size) { return fails() ? NULL : __libc_calloc(count, size); }

void *realloc(void *old, size_t size) { return fails() ? NULL : __libc_realloc(old, size); }

void *aligned_alloc(size_t alignment, size_t size) {
    return fails() ? NULL : __libc_memalign(alignment, size);
}

int posix_memalign(void **result, size_t alignment, size_t size) {
    *result = aligned_alloc(alignment, size);
    return *result ? 0 : ENOMEM;
}

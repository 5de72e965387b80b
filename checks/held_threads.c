// Preloaded into a program, holds the threads that it starts until so many of them are at work:
// each waits at its fourth allocation until HELD_THREADS threads have come to theirs, for at most
// HELD_MOST milliseconds in all, which are 20,000 if it isn't set. A thread that does nothing takes
// no memory and doesn't come to it. At the end of the program, how many came to it, and 1 if a
// thread waited in vain or else 0, are written to the file that THREADS_MET names. Works with the
// GNU C library.

#define _GNU_SOURCE
#include <dlfcn.h>
#include <pthread.h>
#include <stdatomic.h>
#include <stdio.h>
#include <stdlib.h>
#include <sys/syscall.h>
#include <time.h>
#include <unistd.h>

void *__libc_malloc(size_t size);
void *__libc_realloc(void *old, size_t size);

// Which allocation of a thread waits.
#define HELD_AT 4

static atomic_ulong met;
static atomic_ulong waits;
static atomic_int in_vain;
// Written before main begins.
static unsigned long wanted;
static unsigned long most = 20000;

// Whether this thread was started by the program, and how many allocations it has made.
static _Thread_local int started;
static _Thread_local unsigned long allocations;

__attribute__((constructor)) static void begin(void) {
    const char *number = getenv("HELD_THREADS");
    wanted = number ? strtoul(number, NULL, 10) : 0;
    number = getenv("HELD_MOST");
    most = number ? strtoul(number, NULL, 10) : most;
}

__attribute__((destructor)) static void end(void) {
    const char *name = getenv("THREADS_MET");
    FILE *file = name ? fopen(name, "w") : NULL;
    if (file) {
        fprintf(file, "%lu %d\n", met, in_vain);
        fclose(file);
    }
}

// A program that starts threads ends by this call, which runs no destructor.
void _exit(int status) {
    end();
    syscall(SYS_exit_group, status);
    __builtin_unreachable();
}

static void allocate(void) {
    if (!started || ++allocations != HELD_AT)
        return;
    atomic_fetch_add(&met, 1);
    struct timespec millisecond = {0, 1000000};
    while (met < wanted) {
        if (atomic_fetch_add(&waits, 1) >= most) {
            in_vain = 1;
            return;
        }
        nanosleep(&millisecond, NULL);
    }
}

void *malloc(size_t size) {
    allocate();
    return __libc_malloc(size);
}

void *realloc(void *old, size_t size) {
    allocate();
    return __libc_realloc(old, size);
}

struct beginning {
    void *(*begun)(void *);
    void *argument;
};

static void *begin_thread(void *given) {
    struct beginning beginning = *(struct beginning *)given;
    free(given);
    started = 1;
    return beginning.begun(beginning.argument);
}

int pthread_create(pthread_t *thread, const pthread_attr_t *attributes, void *(*begun)(void *),
                   void *argument) {
    int (*create)(pthread_t *, const pthread_attr_t *, void *(*)(void *), void *) =
        (int (*)(pthread_t *, const pthread_attr_t *, void *(*)(void *), void *))dlsym(
            RTLD_NEXT, "pthread_create");
    struct beginning *beginning = __libc_malloc(sizeof *beginning);
    if (!beginning)
        return create(thread, attributes, begun, argument);
    beginning->begun = begun;
    beginning->argument = argument;
    return create(thread, attributes, begin_thread, beginning);
}

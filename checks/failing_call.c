// Preloaded into a program, makes one of its system calls fail, or shortens them:
// - FAIL_CALL (open, read or write), FAIL_NUMBER (from 1, over all threads) and FAIL_WITH (EIO,
//   ENOSPC, EINTR, EMFILE, or none for a count of 0): that call fails. With FAIL_ALWAYS each later
//   one of its kind does too. FAILED_NAME is the file that gets the name of what was opened or
//   read, as it was given to open.
// - CALL_PIECE: reads and writes take at most so many bytes.
// - RUN_COMMAND: before the call that would fail, this is run by the shell, and nothing fails.
// At the end of the program its numbers of opens, reads and writes, and the microseconds that it
// took of the processors, are written to the file that CALL_COUNT names, and how many threads it
// started to the one that THREAD_COUNT names. Works with the GNU C library.

#define _GNU_SOURCE
#include <dlfcn.h>
#include <errno.h>
#include <fcntl.h>
#include <pthread.h>
#include <stdarg.h>
#include <stdatomic.h>
#include <stdio.h>
#include <stdlib.h>
#include <string.h>
#include <sys/resource.h>
#include <sys/syscall.h>
#include <unistd.h>

enum kind { OPEN, READ, WRITE, KINDS };

#define DESCRIPTORS 64

static atomic_ulong calls[KINDS];
static atomic_ulong threads;
// Written before main begins.
static enum kind failing_kind = KINDS;
static unsigned long failing;
static int always;
static int with;
static size_t piece;
static const char *command;
// The name under which each descriptor was opened last.
static char *names[DESCRIPTORS];

__attribute__((constructor)) static void begin(void) {
    const char *kind = getenv("FAIL_CALL");
    const char *number = getenv("FAIL_NUMBER");
    const char *why = getenv("FAIL_WITH");
    const char *most = getenv("CALL_PIECE");
    if (kind)
        failing_kind = strcmp(kind, "open") == 0   ? OPEN
                       : strcmp(kind, "read") == 0 ? READ
                                                   : WRITE;
    failing = number ? strtoul(number, NULL, 10) : 0;
    always = getenv("FAIL_ALWAYS") != NULL;
    with = EIO;
    if (why)
        with = strcmp(why, "ENOSPC") == 0   ? ENOSPC
               : strcmp(why, "EINTR") == 0  ? EINTR
               : strcmp(why, "EMFILE") == 0 ? EMFILE
               : strcmp(why, "none") == 0   ? 0
                                            : EIO;
    piece = most ? strtoul(most, NULL, 10) : 0;
    command = getenv("RUN_COMMAND");
    memset(calls, 0, sizeof calls);
}

__attribute__((destructor)) static void end(void) {
    const char *name = getenv("CALL_COUNT");
    FILE *file = name ? fopen(name, "w") : NULL;
    if (file) {
        struct rusage used;
        getrusage(RUSAGE_SELF, &used);
        long seconds = used.ru_utime.tv_sec + used.ru_stime.tv_sec;
        long microseconds = used.ru_utime.tv_usec + used.ru_stime.tv_usec;
        fprintf(file, "%lu %lu %lu %ld\n", calls[OPEN], calls[READ], calls[WRITE],
                1000000 * seconds + microseconds);
        fclose(file);
    }
    name = getenv("THREAD_COUNT");
    file = name ? fopen(name, "w") : NULL;
    if (file) {
        fprintf(file, "%lu\n", threads);
        fclose(file);
    }
}

int pthread_create(pthread_t *thread, const pthread_attr_t *attributes, void *(*begun)(void *),
                   void *argument) {
    int (*create)(pthread_t *, const pthread_attr_t *, void *(*)(void *), void *) =
        (int (*)(pthread_t *, const pthread_attr_t *, void *(*)(void *), void *))dlsym(
            RTLD_NEXT, "pthread_create");
    atomic_fetch_add(&threads, 1);
    return create(thread, attributes, begun, argument);
}

// A program that starts threads ends by this call, which runs no destructor.
void _exit(int status) {
    end();
    syscall(SYS_exit_group, status);
    __builtin_unreachable();
}

static void note_name(const char *name) {
    const char *noted = getenv("FAILED_NAME");
    FILE *file = noted && name ? fopen(noted, "w") : NULL;
    if (file) {
        fputs(name, file);
        fclose(file);
    }
}

// Whether this call fails: 1 if it does, with errno set, and 2 if it answers 0.
static int fails(enum kind kind, const char *name) {
    unsigned long number = atomic_fetch_add(&calls[kind], 1) + 1;
    if (kind != failing_kind || failing == 0)
        return 0;
    if (number != failing && !(always && number > failing))
        return 0;
    if (command) {
        unsetenv("LD_PRELOAD");
        if (system(command) != 0)
            abort();
        return 0;
    }
    note_name(name);
    if (with == 0)
        return 2;
    errno = with;
    return 1;
}

static const char *name_of(int descriptor) {
    return descriptor >= 0 && descriptor < DESCRIPTORS ? names[descriptor] : NULL;
}

static int opened(const char *name, int descriptor) {
    if (descriptor >= 0 && descriptor < DESCRIPTORS) {
        free(names[descriptor]);
        names[descriptor] = strdup(name);
    }
    return descriptor;
}

static int open_with(int at, const char *name, int flags, mode_t mode) {
    if (fails(OPEN, name))
        return -1;
    return opened(name, (int)syscall(SYS_openat, at, name, flags, mode));
}

#define OPENS(declared, at)                                                                        \
    declared {                                                                                     \
        va_list more;                                                                              \
        va_start(more, flags);                                                                     \
        mode_t mode = flags & (O_CREAT | O_TMPFILE) ? va_arg(more, mode_t) : 0;                    \
        va_end(more);                                                                              \
        return open_with(at, name, flags, mode);                                                   \
    }

OPENS(int open(const char *name, int flags, ...), AT_FDCWD)
OPENS(int open64(const char *name, int flags, ...), AT_FDCWD)
OPENS(int openat(int at, const char *name, int flags, ...), at)
OPENS(int openat64(int at, const char *name, int flags, ...), at)

static size_t most_of(size_t count) { return piece && count > piece ? piece : count; }

ssize_t read(int descriptor, void *into, size_t count) {
    int why = fails(READ, name_of(descriptor));
    if (why)
        return why == 2 ? 0 : -1;
    return syscall(SYS_read, descriptor, into, most_of(count));
}

ssize_t write(int descriptor, const void *bytes, size_t count) {
    int why = fails(WRITE, NULL);
    if (why)
        return why == 2 ? 0 : -1;
    return syscall(SYS_write, descriptor, bytes, most_of(count));
}

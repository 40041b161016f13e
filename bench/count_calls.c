/* Counts the calls of the allocator that a program makes which runs with this library preloaded.
 *
 *   cc -shared -fPIC -O2 -o count_calls.so count_calls.c -ldl
 *   LD_PRELOAD=./count_calls.so PROGRAM     reports on standard error, at the end of the program:
 *                                           count_calls: taken 40 freed 30 bytes 12345
 *
 * Taken are the calls of malloc and realloc, by which alone proved code takes memory, and the bytes are those that they ask for. What the C library asks for
 * on its own behalf isn't among them.
 */
#define _GNU_SOURCE
#include <dlfcn.h>
#include <stdatomic.h>
#include <stdio.h>
#include <stdlib.h>
#include <sys/syscall.h>
#include <unistd.h>

static atomic_long taken, freed, bytes;

typedef void *malloc_call(size_t);
typedef void *realloc_call(void *, size_t);
typedef void free_call(void *);

/* The functions of the C library. They may be wanted before the library's constructor has run. */
static malloc_call *next_malloc(void) {
    static malloc_call *next;
    if (!next) next = (malloc_call *)dlsym(RTLD_NEXT, "malloc");
    return next;
}

static realloc_call *next_realloc(void) {
    static realloc_call *next;
    if (!next) next = (realloc_call *)dlsym(RTLD_NEXT, "realloc");
    return next;
}

static free_call *next_free(void) {
    static free_call *next;
    if (!next) next = (free_call *)dlsym(RTLD_NEXT, "free");
    return next;
}

static void count(size_t size) {
    atomic_fetch_add(&taken, 1);
    atomic_fetch_add(&bytes, (long)size);
}

/* Reports once, however the program ends, by the system call, so that it needs no memory. */
__attribute__((destructor)) static void report(void) {
    static atomic_flag written = ATOMIC_FLAG_INIT;
    if (atomic_flag_test_and_set(&written)) return;
    char line[160];
    int length = snprintf(line, sizeof line, "count_calls: taken %ld freed %ld bytes %ld\n", (long)taken, (long)freed, (long)bytes);
    if (write(STDERR_FILENO, line, length) != length) syscall(SYS_exit_group, 125);
}

/* A program that may start threads ends by this call, which runs no destructor. */
void _exit(int status) {
    report();
    for (;;) syscall(SYS_exit_group, status);
}

void *malloc(size_t size) {
    count(size);
    return next_malloc()(size);
}

void *realloc(void *old, size_t size) {
    count(size);
    return next_realloc()(old, size);
}

void free(void *old) {
    if (old) atomic_fetch_add(&freed, 1);
    next_free()(old);
}

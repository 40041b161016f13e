/* Refuses memory, the start of a thread, a read or a write to a program that runs with this library preloaded.
 *
 *   cc -shared -fPIC -O2 -o refuse.so refuse.c -ldl
 *   REFUSE_ALLOC=17 LD_PRELOAD=./refuse.so PROGRAM     the 17th malloc or realloc answers that there is no memory
 *   REFUSE_ALLOC=17+ ..                                so do all that follow it
 *   REFUSE_THREAD=3 .., REFUSE_THREAD=3+ ..            the same for pthread_create
 *   REFUSE_READ=3 .., REFUSE_WRITE=3 ..                the third read of standard input, or write to standard output, fails
 *   REFUSE_ERROR=28 ..                                 with this number; 5 (EIO) if it is left out
 *   MOST_BYTES=7 ..                                    each read of standard input and each write to standard output moves at most 7 bytes
 *   REFUSE_COUNT=1 ..                                  reports on standard error, at the end of the program:
 *                                                      refuse: allocations 40 refused 1, threads 0 refused 0
 *   REFUSE_CALL=1 ..                                   refuses the growths of one call, one after another. The program says where the
 *                                                      call begins and ends, by asking for 1,234,567 and then for 1,234,568 bytes. A
 *                                                      copy of the process is made there for each growth, until one to which nothing
 *                                                      is refused, and each ends before the next begins
 *   REFUSE_CALL=23 ..                                  every 23rd of them, from the first on
 *   REFUSE_CALL=all ..                                 one copy, to which all growths of the call are refused. Of each copy it is
 *                                                      reported: refuse: growth 3, asked 40, refused 1, status 0
 *   REFUSE_CALL=1 REFUSE_STARTS=1 ..                   the same of the call's starts of threads, in place of its growths
 *
 * Proved code asks the C library for memory by malloc and realloc alone, and for threads by pthread_create, so
 * each of its growths passes here. Calls are counted over all threads, from the program's start on: what the C
 * library asks for on its own behalf is among them.
 */
#define _GNU_SOURCE
#include <dlfcn.h>
#include <errno.h>
#include <pthread.h>
#include <stdatomic.h>
#include <stdio.h>
#include <stdlib.h>
#include <string.h>
#include <sys/mman.h>
#include <sys/syscall.h>
#include <sys/wait.h>
#include <unistd.h>

/* What a program asks for where the call begins, and where it has ended. */
enum { BEGIN = 1234567, END = 1234568 };

/* No call has so many growths. */
enum { MOST = 1000000 };

/* Which calls of one kind are refused, and what came of it so far. */
struct rule {
    long first; /* the number of the first refused call, from 1; 0 for none */
    int onward; /* whether those after it are refused too */
    atomic_long asked;
    atomic_long refused;
};

static struct rule allocations, threads, reads, writes;

/* What of the call is refused: its growths, or its starts of threads. */
static struct rule *refused_of_call = &allocations;

/* What a refused read or write answers, and how many bytes the others move at most; 0 for no limit. */
static int error = EIO;
static size_t most_bytes;

/* Which growths of the call are refused; NULL where the program has no such call. */
static const char *call;

/* Whether the call is under way, and whether it has begun before. */
static int is_under_way, has_begun;

/* What a copy of the process tells: how many growths or starts the call asked for, and how many of them were refused. */
static struct told {
    long asked, refused;
} *told;

typedef void *malloc_call(size_t);
typedef void *realloc_call(void *, size_t);
typedef ssize_t read_call(int, void *, size_t);
typedef ssize_t write_call(int, const void *, size_t);
typedef int thread_call(pthread_t *, const pthread_attr_t *, void *(*)(void *), void *);

/* The functions of the C library. They may be wanted before the library's constructor has run. */
static malloc_call *next_malloc(void) {
    static malloc_call *next;
    if (!next) next = (malloc_call *)dlsym(RTLD_NEXT, "malloc");
    return next;
}

static realloc_call *next_realloc(void) {
    static realloc_call *next;
    if (!next) next = (realloc_call *)dlsym(RTLD_NEXT, "realloc");
    return next;
}

static read_call *next_read(void) {
    static read_call *next;
    if (!next) next = (read_call *)dlsym(RTLD_NEXT, "read");
    return next;
}

static write_call *next_write(void) {
    static write_call *next;
    if (!next) next = (write_call *)dlsym(RTLD_NEXT, "write");
    return next;
}

static thread_call *next_thread(void) {
    static thread_call *next;
    if (!next) next = (thread_call *)dlsym(RTLD_NEXT, "pthread_create");
    return next;
}

/* Counts a call, and says whether it is refused. */
static int is_refused(struct rule *rule) {
    long number = atomic_fetch_add(&rule->asked, 1) + 1;
    if (rule->first == 0 || number < rule->first) return 0;
    if (number > rule->first && !rule->onward) return 0;
    atomic_fetch_add(&rule->refused, 1);
    return 1;
}

/* Reads a rule: N, or N+ for N and all later ones. */
static void read_rule(struct rule *rule, const char *name) {
    const char *text = getenv(name);
    if (!text) return;
    char *end;
    rule->first = strtol(text, &end, 10);
    rule->onward = *end == '+';
}

__attribute__((constructor)) static void begin(void) {
    read_rule(&allocations, "REFUSE_ALLOC");
    read_rule(&threads, "REFUSE_THREAD");
    read_rule(&reads, "REFUSE_READ");
    read_rule(&writes, "REFUSE_WRITE");
    const char *number = getenv("REFUSE_ERROR"), *most = getenv("MOST_BYTES");
    if (number) error = atoi(number);
    if (most) most_bytes = strtoul(most, NULL, 10);
    call = getenv("REFUSE_CALL");
    if (getenv("REFUSE_STARTS")) refused_of_call = &threads;
    if (call) told = mmap(NULL, sizeof *told, PROT_READ | PROT_WRITE, MAP_SHARED | MAP_ANONYMOUS, -1, 0);
}

/* Writes a line on standard error by the system call, so that it needs no memory. */
static void tell(const char *line, int length) {
    if (write(STDERR_FILENO, line, length) != length) syscall(SYS_exit_group, 125);
}

/* Waits for a copy, reports it, and says whether growths were refused to it. */
static int has_refused(long number, pid_t copy) {
    int status = 0;
    if (copy < 0 || waitpid(copy, &status, 0) != copy) syscall(SYS_exit_group, 125);
    char line[160];
    int length = snprintf(line, sizeof line, "refuse: growth %ld, asked %ld, refused %ld, status %d\n", number,
                          told->asked, told->refused, status);
    tell(line, length);
    return told->refused > 0;
}

/* The call begins: makes a copy for each growth, in which alone this returns. */
static void begin_call(void) {
    int is_all = strcmp(call, "all") == 0;
    long stride = is_all ? MOST : atol(call);
    for (long number = 1; number < MOST && stride > 0; number += stride) {
        *told = (struct told){0, 0};
        pid_t copy = fork();
        if (copy == 0) {
            *refused_of_call = (struct rule){.first = number, .onward = is_all};
            is_under_way = 1;
            return;
        }
        if (!has_refused(number, copy)) break;
    }
    syscall(SYS_exit_group, 0);
}

/* The call has ended: nothing is refused any more. */
static void end_call(void) {
    *told = (struct told){refused_of_call->asked, refused_of_call->refused};
    *refused_of_call = (struct rule){.first = 0};
    is_under_way = 0;
}

/* Notes where the call begins and ends. Those requests are never refused. */
static int is_mark(size_t size) {
    if (!call || (size != BEGIN && size != END)) return 0;
    if (size == BEGIN && !has_begun) {
        has_begun = 1;
        begin_call();
    } else if (size == END && is_under_way) {
        end_call();
    }
    return 1;
}

/* Reports once, however the program ends. */
__attribute__((destructor)) static void report(void) {
    static atomic_flag written = ATOMIC_FLAG_INIT;
    if (!getenv("REFUSE_COUNT") || atomic_flag_test_and_set(&written)) return;
    char line[160];
    int length = snprintf(line, sizeof line, "refuse: allocations %ld refused %ld, threads %ld refused %ld\n",
                          (long)allocations.asked, (long)allocations.refused, (long)threads.asked,
                          (long)threads.refused);
    tell(line, length);
}

/* A program that may start threads ends by this call, which runs no destructor. */
void _exit(int status) {
    report();
    for (;;) syscall(SYS_exit_group, status);
}

void *malloc(size_t size) {
    if (!is_mark(size) && is_refused(&allocations)) {
        errno = ENOMEM;
        return NULL;
    }
    return next_malloc()(size);
}

void *realloc(void *old, size_t size) {
    if (is_refused(&allocations)) {
        errno = ENOMEM;
        return NULL;
    }
    return next_realloc()(old, size);
}

int pthread_create(pthread_t *thread, const pthread_attr_t *attributes, void *(*start)(void *), void *argument) {
    if (is_refused(&threads)) return EAGAIN;
    return next_thread()(thread, attributes, start, argument);
}

static size_t at_most(size_t size) {
    return most_bytes && size > most_bytes ? most_bytes : size;
}

ssize_t read(int file, void *bytes, size_t size) {
    if (file != STDIN_FILENO) return next_read()(file, bytes, size);
    if (is_refused(&reads)) {
        errno = error;
        return -1;
    }
    return next_read()(file, bytes, at_most(size));
}

ssize_t write(int file, const void *bytes, size_t size) {
    if (file != STDOUT_FILENO) return next_write()(file, bytes, size);
    if (is_refused(&writes)) {
        errno = error;
        return -1;
    }
    return next_write()(file, bytes, at_most(size));
}

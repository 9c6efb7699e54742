/* Preloaded under the built program by bench/failing and bench/soak: makes a call fail, tells another number of
   processors, or delays calls.

   FAIL=NAME:N     the Nth call of NAME fails: alloc (malloc, realloc), open, read, write, close, thread
   FAIL=NAME:N+    the Nth and all that follow fail
   FAIL=ONE,OTHER  both of these
   SHORT=N         a read or a write takes at most N bytes, so it is asked for again
   PROCESSORS=N    the program sees N processors
   DELAYS=N        about one of N calls of malloc, free, memcpy, sched_yield, pthread_create and of the system's wait on a
                   word (futex) takes up to 0.3 ms longer
   COUNTS=FILE     at the end, how often each was called, and how many allocations weren't freed, go to FILE */
#define _GNU_SOURCE
#include <dlfcn.h>
#include <errno.h>
#include <fcntl.h>
#include <pthread.h>
#include <sched.h>
#include <stdarg.h>
#include <stdio.h>
#include <stdlib.h>
#include <string.h>
#include <time.h>
#include <unistd.h>

enum { ALLOC, OPEN, READ, WRITE, CLOSE, THREAD, KINDS };
static const char *const names[KINDS] = {"alloc", "open", "read", "write", "close", "thread"};
static long calls[KINDS], held;
static int ready;
static unsigned delays;
static size_t longest;
/* What is to fail: from which call on, or 0 for none, and whether all that follow fail too. */
static struct {
    long at;
    int on;
} failing[KINDS];

extern void *__libc_malloc(size_t);
extern void *__libc_calloc(size_t, size_t);
extern void *__libc_realloc(void *, size_t);
extern void __libc_free(void *);

__attribute__((constructor)) static void begin(void) {
    const char *fail = getenv("FAIL");
    for (; fail; fail = strchr(fail, ',') ? strchr(fail, ',') + 1 : NULL)
        for (int kind = 0; kind < KINDS; kind++) {
            size_t length = strlen(names[kind]);
            if (!strncmp(fail, names[kind], length) && fail[length] == ':') {
                char *rest;
                failing[kind].at = strtol(fail + length + 1, &rest, 10);
                failing[kind].on = *rest == '+';
            }
        }
    const char *shorter = getenv("SHORT");
    longest = shorter ? (size_t)atol(shorter) : (size_t)-1;
    const char *delayed = getenv("DELAYS");
    delays = delayed ? (unsigned)atoi(delayed) : 0;
    ready = 1;
}

/* The system's call itself, since `syscall` is one of those that are delayed. */
static long kernel(long number, long a, long b, long c, long d, long e, long f) {
    register long r10 __asm__("r10") = d, r8 __asm__("r8") = e, r9 __asm__("r9") = f;
    long came;
    __asm__ volatile("syscall"
                     : "=a"(came)
                     : "a"(number), "D"(a), "S"(b), "d"(c), "r"(r10), "r"(r8), "r"(r9)
                     : "rcx", "r11", "memory");
    return came;
}

/* One of `delays` calls sleeps, by a row of numbers of the thread's own. */
static void delay(void) {
    static __thread unsigned state;
    if (!ready || !delays) return;
    if (!state) state = (unsigned)(size_t)&state ^ (unsigned)kernel(186, 0, 0, 0, 0, 0, 0);
    state = state * 1664525u + 1013904223u;
    if ((state >> 8) % delays) return;
    struct timespec span = {0, (state >> 4) % 300000};
    kernel(35, (long)&span, 0, 0, 0, 0, 0);
}

static void tell(void) {
    ready = 0;
    const char *file = getenv("COUNTS");
    int to = file ? (int)syscall(257, AT_FDCWD, file, O_WRONLY | O_CREAT | O_TRUNC, 0644) : -1;
    if (to < 0) return;
    char text[256];
    int length = 0;
    for (int kind = 0; kind < KINDS; kind++)
        length += snprintf(text + length, sizeof text - length, "%s %ld\n", names[kind], calls[kind]);
    length += snprintf(text + length, sizeof text - length, "held %ld\n", held);
    syscall(1, to, text, (size_t)length);
}

/* The program ends by this call, so no destructor would run. */
void _exit(int status) {
    tell();
    for (;;) syscall(231, status);
}

static int fails(int kind) {
    if (!ready) return 0;
    long number = __sync_add_and_fetch(&calls[kind], 1);
    long at = failing[kind].at;
    return at && (number == at || (failing[kind].on && number > at));
}

void *malloc(size_t size) {
    delay();
    if (fails(ALLOC)) return errno = ENOMEM, NULL;
    void *made = __libc_malloc(size);
    if (ready && made) __sync_add_and_fetch(&held, 1);
    return made;
}

/* The system's own blocks, which the program never asks for: of a thread, and kept for the next thread or given back.
   So they are told apart and not counted. */
static void *volatile apart[256];

static int exchanged(void *old, void *new) {
    for (int at = 0; at < 256; at++)
        if (apart[at] == old && __sync_bool_compare_and_swap(&apart[at], old, new)) return 1;
    return 0;
}

void *calloc(size_t count, size_t size) {
    void *made = __libc_calloc(count, size);
    if (made) exchanged(NULL, made);
    return made;
}

void *realloc(void *old, size_t size) {
    if (fails(ALLOC)) return errno = ENOMEM, NULL;
    void *made = __libc_realloc(old, size);
    if (ready && made && !old) __sync_add_and_fetch(&held, 1);
    return made;
}

void free(void *old) {
    delay();
    if (old && !exchanged(old, NULL) && ready) __sync_sub_and_fetch(&held, 1);
    __libc_free(old);
}

int open(const char *path, int flags, ...) {
    va_list rest;
    va_start(rest, flags);
    int mode = flags & (O_CREAT | O_TMPFILE) ? va_arg(rest, int) : 0;
    va_end(rest);
    if (fails(OPEN)) return errno = EACCES, -1;
    return (int)syscall(257, AT_FDCWD, path, flags, mode);
}

ssize_t read(int from, void *to, size_t size) {
    if (fails(READ)) return errno = EIO, -1;
    return syscall(0, from, to, size < longest ? size : longest);
}

ssize_t write(int to, const void *from, size_t size) {
    if (fails(WRITE)) return errno = ENOSPC, -1;
    return syscall(1, to, from, size < longest ? size : longest);
}

int close(int which) {
    int is_failing = fails(CLOSE);
    int status = (int)syscall(3, which);
    return is_failing ? (errno = EIO, -1) : status;
}

void *memcpy(void *restrict to, const void *restrict from, size_t size) {
    void *at = to;
    delay();
    __asm__ volatile("rep movsb" : "+D"(at), "+S"(from), "+c"(size) : : "memory");
    return to;
}

int sched_yield(void) {
    delay();
    return (int)kernel(24, 0, 0, 0, 0, 0, 0);
}

/* Of the system's calls by their numbers the program makes the wait on a word alone. */
long syscall(long number, ...) {
    va_list rest;
    va_start(rest, number);
    long a = va_arg(rest, long), b = va_arg(rest, long), c = va_arg(rest, long);
    long d = va_arg(rest, long), e = va_arg(rest, long), f = va_arg(rest, long);
    va_end(rest);
    if (number == 202) delay();
    long came = kernel(number, a, b, c, d, e, f);
    return came < 0 && came > -4096 ? (errno = (int)-came, -1) : came;
}

int pthread_create(pthread_t *made, const pthread_attr_t *how, void *(*work)(void *), void *given) {
    static int (*real)(pthread_t *, const pthread_attr_t *, void *(*)(void *), void *);
    if (!real) real = dlsym(RTLD_NEXT, "pthread_create");
    delay();
    return fails(THREAD) ? EAGAIN : real(made, how, work, given);
}

long sysconf(int name) {
    static long (*real)(int);
    const char *told = getenv("PROCESSORS");
    if (told && name == _SC_NPROCESSORS_ONLN) return atol(told);
    if (!real) real = dlsym(RTLD_NEXT, "sysconf");
    return real(name);
}

int sched_getaffinity(pid_t of, size_t size, cpu_set_t *set) {
    const char *told = getenv("PROCESSORS");
    long found = syscall(204, of, size, set);
    if (found < 0) return -1;
    memset((char *)set + found, 0, size - (size_t)found);
    for (int at = 0; told && at < atoi(told); at++) CPU_SET_S(at, size, set);
    return 0;
}

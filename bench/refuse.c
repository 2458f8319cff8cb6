// Refuses what the program that loads this by LD_PRELOAD asks for, for bench/refuse and bench/hostile.
//
// REFUSE_MEMORY=N refuses the Nth call of malloc, calloc or realloc, counted from 1, and REFUSE_THREAD=N the
// Nth call of pthread_create; REFUSE_OPEN, REFUSE_MAKE, REFUSE_READ and REFUSE_WRITE that of open, mkdir,
// read and write. With REFUSE_ALL set, all later calls are refused as well. If one was refused, the file that
// REFUSE_TOLD names is there when the program ends. With MOST_BYTES=N, a read or a write moves at most N
// bytes. For Linux with glibc.
#define _GNU_SOURCE
#include <dlfcn.h>
#include <errno.h>
#include <fcntl.h>
#include <pthread.h>
#include <stdarg.h>
#include <stdatomic.h>
#include <stdlib.h>
#include <sys/stat.h>
#include <unistd.h>

extern void *__libc_malloc(size_t);
extern void *__libc_calloc(size_t, size_t);
extern void *__libc_realloc(void *, size_t);

static int (*real_start)(pthread_t *, const pthread_attr_t *, void *(*)(void *), void *);
static int (*real_open)(const char *, int, ...);
static int (*real_make)(const char *, mode_t);
static ssize_t (*real_read)(int, void *, size_t);
static ssize_t (*real_write)(int, const void *, size_t);
static const char *told;
static int all;
static size_t most;
// Which call is refused, counted from the next one; none where it is below 1.
static atomic_long memory, thread, opening, making, reading, writing;

static long number(const char *name) {
    const char *text = getenv(name);
    return text ? atol(text) : 0;
}

__attribute__((constructor)) static void begin(void) {
    *(void **)&real_start = dlsym(RTLD_NEXT, "pthread_create");
    *(void **)&real_open = dlsym(RTLD_NEXT, "open");
    *(void **)&real_make = dlsym(RTLD_NEXT, "mkdir");
    *(void **)&real_read = dlsym(RTLD_NEXT, "read");
    *(void **)&real_write = dlsym(RTLD_NEXT, "write");
    told = getenv("REFUSE_TOLD");
    all = getenv("REFUSE_ALL") != NULL;
    most = (size_t)number("MOST_BYTES");
    thread = number("REFUSE_THREAD");
    opening = number("REFUSE_OPEN");
    making = number("REFUSE_MAKE");
    reading = number("REFUSE_READ");
    writing = number("REFUSE_WRITE");
    memory = number("REFUSE_MEMORY");
}

// Whether this call is refused, which then has this error.
static int is_refused(atomic_long *calls, int error) {
    long call = atomic_load(calls);
    do {
        if (call < 1) return 0;
    } while (!atomic_compare_exchange_weak(calls, &call, call == 1 && all ? 1 : call - 1));
    if (call > 1) return 0;
    if (told) close(real_open(told, O_CREAT | O_WRONLY, 0600));
    errno = error;
    return 1;
}

static size_t at_most(size_t count) {
    return most && count > most ? most : count;
}

void *malloc(size_t size) {
    return is_refused(&memory, ENOMEM) ? NULL : __libc_malloc(size);
}

void *calloc(size_t count, size_t size) {
    return is_refused(&memory, ENOMEM) ? NULL : __libc_calloc(count, size);
}

void *realloc(void *block, size_t size) {
    return is_refused(&memory, ENOMEM) ? NULL : __libc_realloc(block, size);
}

int pthread_create(pthread_t *id, const pthread_attr_t *attributes, void *(*body)(void *), void *given) {
    return is_refused(&thread, 0) ? EAGAIN : real_start(id, attributes, body, given);
}

int open(const char *path, int flags, ...) {
    va_list rest;
    va_start(rest, flags);
    mode_t mode = flags & O_CREAT ? va_arg(rest, mode_t) : 0;
    va_end(rest);
    return is_refused(&opening, EACCES) ? -1 : real_open(path, flags, mode);
}

int mkdir(const char *path, mode_t mode) {
    return is_refused(&making, EACCES) ? -1 : real_make(path, mode);
}

ssize_t read(int file, void *bytes, size_t count) {
    return is_refused(&reading, EIO) ? -1 : real_read(file, bytes, at_most(count));
}

ssize_t write(int file, const void *bytes, size_t count) {
    return is_refused(&writing, EIO) ? -1 : real_write(file, bytes, at_most(count));
}

/* Takes memory away from the recorder: after so many calls of malloc, calloc and realloc as the variable NO_MEMORY
 * says those of a module record.so get none. It is preloaded with the recorder. */
#define _GNU_SOURCE
#include <dlfcn.h>
#include <stdbool.h>
#include <stdlib.h>
#include <string.h>

void *__libc_malloc(size_t);
void *__libc_calloc(size_t, size_t);
void *__libc_realloc(void *, size_t);

static bool is_denied(const void *caller) {
    static int count;
    const char *wanted = getenv("NO_MEMORY");
    Dl_info found;
    if (!wanted || !dladdr(caller, &found) || !found.dli_fname || !strstr(found.dli_fname, "/record.so"))
        return false;
    return __atomic_fetch_add(&count, 1, __ATOMIC_RELAXED) >= atoi(wanted);
}

void *malloc(size_t size) { return is_denied(__builtin_return_address(0)) ? NULL : __libc_malloc(size); }

void *calloc(size_t count, size_t size) {
    return is_denied(__builtin_return_address(0)) ? NULL : __libc_calloc(count, size);
}

void *realloc(void *place, size_t size) {
    return is_denied(__builtin_return_address(0)) ? NULL : __libc_realloc(place, size);
}

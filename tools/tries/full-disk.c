/* A disk with no room: of the recorder's requests for room, those beyond the first megabyte of a file are
 * denied. It is preloaded with the recorder. */
#define _GNU_SOURCE
#include <dlfcn.h>
#include <errno.h>
#include <fcntl.h>
#include <string.h>

int posix_fallocate(int file, off_t start, off_t size) {
    int (*next)(int, off_t, off_t) = (int (*)(int, off_t, off_t))dlsym(RTLD_NEXT, "posix_fallocate");
    Dl_info found;
    int is_known = dladdr(__builtin_return_address(0), &found) && found.dli_fname;
    if (is_known && strstr(found.dli_fname, "/record.so") && start + size > 1 << 20)
        return ENOSPC;
    return next ? next(file, start, size) : ENOSYS;
}

/* A signal interrupts each first of two calls by which a module record.so reserves room on the disk. It is preloaded
 * with the recorder. */
#define _GNU_SOURCE
#include <dlfcn.h>
#include <errno.h>
#include <fcntl.h>
#include <string.h>

int posix_fallocate(int file, off_t start, off_t size) {
    static int count;
    Dl_info found;
    int is_known = dladdr(__builtin_return_address(0), &found) && found.dli_fname;
    if (is_known && strstr(found.dli_fname, "/record.so") && count++ % 2 == 0)
        return EINTR;
    return fallocate(file, 0, start, size) == 0 ? 0 : errno;
}

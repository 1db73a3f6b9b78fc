/* Breaks off what a program reads and writes, by LD_PRELOAD of this: with BREAK each second read of its input and each second write to its
   output ends with EINTR before a byte is taken, as by a signal; with NOTHING the write to its output of that number takes nothing. */
#define _GNU_SOURCE
#include <dlfcn.h>
#include <errno.h>
#include <stdatomic.h>
#include <stdlib.h>
#include <unistd.h>

static atomic_ulong reads, writes;

static int is_broken_off(atomic_ulong *calls) {
    return getenv("BREAK") && atomic_fetch_add(calls, 1) % 2 == 0;
}

ssize_t read(int file, void *into, size_t size) {
    if (file == 0 && is_broken_off(&reads)) {
        errno = EINTR;
        return -1;
    }
    return ((ssize_t(*)(int, void *, size_t))dlsym(RTLD_NEXT, "read"))(file, into, size);
}

ssize_t write(int file, const void *from, size_t size) {
    const char *nothing = getenv("NOTHING");
    if (file == 1 && nothing && atomic_fetch_add(&writes, 1) + 1 == strtoul(nothing, NULL, 10))
        return 0;
    if (file == 1 && is_broken_off(&writes)) {
        errno = EINTR;
        return -1;
    }
    return ((ssize_t(*)(int, const void *, size_t))dlsym(RTLD_NEXT, "write"))(file, from, size);
}

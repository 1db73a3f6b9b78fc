/* Refuses one growth of a program's memory: LD_PRELOAD of this, with its number in the environment as REFUSE. A growth is a new block or
   another size of one. What they are in all is written to the file that REFUSE_COUNT names, if there is one. */
#define _GNU_SOURCE
#include <dlfcn.h>
#include <fcntl.h>
#include <stdatomic.h>
#include <stdio.h>
#include <stdlib.h>
#include <unistd.h>

static atomic_ulong asked;
static unsigned long refused;
static void *(*given)(size_t);
static void *(*resized)(void *, size_t);

__attribute__((constructor)) static void begin(void) {
    const char *number = getenv("REFUSE");
    given = (void *(*)(size_t))dlsym(RTLD_NEXT, "malloc");
    resized = (void *(*)(void *, size_t))dlsym(RTLD_NEXT, "realloc");
    refused = number ? strtoul(number, NULL, 10) : 0;
    atomic_store(&asked, 0);
}

static int is_refused(void) {
    return atomic_fetch_add(&asked, 1) + 1 == refused;
}

void *malloc(size_t size) {
    if (!given)
        given = (void *(*)(size_t))dlsym(RTLD_NEXT, "malloc");
    return is_refused() ? NULL : given(size);
}

void *realloc(void *block, size_t size) {
    if (!resized)
        resized = (void *(*)(void *, size_t))dlsym(RTLD_NEXT, "realloc");
    return is_refused() ? NULL : resized(block, size);
}

/* A program that ends by _exit has no other place for this. */
void _exit(int status) {
    const char *path = getenv("REFUSE_COUNT");
    int file = path ? open(path, O_WRONLY | O_CREAT | O_TRUNC, 0600) : -1;
    if (file >= 0) {
        dprintf(file, "%lu\n", (unsigned long)atomic_load(&asked));
        close(file);
    }
    ((void (*)(int))dlsym(RTLD_NEXT, "_exit"))(status);
    __builtin_unreachable();
}

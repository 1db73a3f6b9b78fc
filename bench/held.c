/* Counts what a program holds of the heap: LD_PRELOAD of this, with a file of eight bytes in the environment as HELD, in which the number
   stands at any time. A block counts as much as the allocator takes for it, its own word before it included. */
#include <fcntl.h>
#include <malloc.h>
#include <stdatomic.h>
#include <stddef.h>
#include <stdlib.h>
#include <sys/mman.h>
#include <unistd.h>

void *__libc_malloc(size_t);
void *__libc_calloc(size_t, size_t);
void *__libc_realloc(void *, size_t);
void __libc_free(void *);

static atomic_long before;
static atomic_long *held = &before;

__attribute__((constructor)) static void begin(void) {
    const char *path = getenv("HELD");
    int file = path ? open(path, O_RDWR) : -1;
    void *shared = file < 0 ? MAP_FAILED : mmap(NULL, sizeof(long), PROT_READ | PROT_WRITE, MAP_SHARED, file, 0);
    if (shared != MAP_FAILED) {
        atomic_store((atomic_long *)shared, atomic_load(&before));
        held = shared;
    }
    if (file >= 0)
        close(file);
}

static long size_of(void *block) {
    return block ? (long)(malloc_usable_size(block) + sizeof(size_t)) : 0;
}

static void *noted(void *block) {
    atomic_fetch_add(held, size_of(block));
    return block;
}

void *malloc(size_t size) {
    return noted(__libc_malloc(size));
}

void *calloc(size_t count, size_t size) {
    return noted(__libc_calloc(count, size));
}

void *realloc(void *block, size_t size) {
    long was = size_of(block);
    void *now = __libc_realloc(block, size);
    if (now || size == 0)
        atomic_fetch_sub(held, was);
    return now ? noted(now) : now;
}

void free(void *block) {
    atomic_fetch_sub(held, size_of(block));
    __libc_free(block);
}

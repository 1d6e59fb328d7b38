/* Refuses one request for memory: preloaded into a program, it lets the request fail whose number REFUSED has, counted from 1, and
   keeps count of all in the file that COUNTED names, as eight bytes, since a program may end without a word to it.
   tools/out-of-memory.sh uses it. */
#define _GNU_SOURCE
#include <dlfcn.h>
#include <errno.h>
#include <fcntl.h>
#include <stddef.h>
#include <stdint.h>
#include <stdlib.h>
#include <sys/mman.h>
#include <unistd.h>

static uint64_t *made;
static uint64_t refused;

static int refuses(void) {
    if (!made) {
        return 0;
    }
    *made += 1;
    return *made == refused;
}

__attribute__((constructor)) static void begin(void) {
    const char *number = getenv("REFUSED"), *file = getenv("COUNTED");
    int counted = file ? open(file, O_RDWR | O_CREAT | O_TRUNC, 0600) : -1;
    refused = number ? strtoull(number, NULL, 10) : 0;
    if (counted >= 0 && ftruncate(counted, sizeof *made) == 0) {
        void *at = mmap(NULL, sizeof *made, PROT_READ | PROT_WRITE, MAP_SHARED, counted, 0);
        made = at == MAP_FAILED ? NULL : at;
    }
}

void *malloc(size_t size) {
    static void *(*next)(size_t);
    if (!next) {
        next = (void *(*)(size_t))dlsym(RTLD_NEXT, "malloc");
    }
    if (refuses()) {
        errno = ENOMEM;
        return NULL;
    }
    return next(size);
}

void *realloc(void *old, size_t size) {
    static void *(*next)(void *, size_t);
    if (!next) {
        next = (void *(*)(void *, size_t))dlsym(RTLD_NEXT, "realloc");
    }
    if (refuses()) {
        errno = ENOMEM;
        return NULL;
    }
    return next(old, size);
}

void *aligned_alloc(size_t alignment, size_t size) {
    static void *(*next)(size_t, size_t);
    if (!next) {
        next = (void *(*)(size_t, size_t))dlsym(RTLD_NEXT, "aligned_alloc");
    }
    if (refuses()) {
        errno = ENOMEM;
        return NULL;
    }
    return next(alignment, size);
}

int posix_memalign(void **out, size_t alignment, size_t size) {
    static int (*next)(void **, size_t, size_t);
    if (!next) {
        next = (int (*)(void **, size_t, size_t))dlsym(RTLD_NEXT, "posix_memalign");
    }
    if (refuses()) {
        return ENOMEM;
    }
    return next(out, alignment, size);
}

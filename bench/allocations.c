/* A library to be loaded before a program, as allocations.sh does: it refuses one allocation.
 *
 *     REFUSED=N LD_PRELOAD=./allocations.so COMMAND ..
 *
 * The allocation of that number, counted from 1, is refused; none, where the variable is missing. With COUNTED=FILE the
 * number of allocations is written into a file when the program ends. */
#define _GNU_SOURCE
#include <errno.h>
#include <stdio.h>
#include <stdlib.h>

void *__libc_malloc(size_t);
void *__libc_calloc(size_t, size_t);
void *__libc_realloc(void *, size_t);
void *__libc_memalign(size_t, size_t);

static long count;

static int refused(void) {
    static long number = -1;
    if (number < 0) {
        const char *text = getenv("REFUSED");
        number = text ? atol(text) : 0;
    }
    return ++count == number;
}

void *malloc(size_t size) {
    if (refused()) {
        errno = ENOMEM;
        return NULL;
    }
    return __libc_malloc(size);
}

void *calloc(size_t items, size_t size) {
    if (refused()) {
        errno = ENOMEM;
        return NULL;
    }
    return __libc_calloc(items, size);
}

void *realloc(void *old, size_t size) {
    if (refused()) {
        errno = ENOMEM;
        return NULL;
    }
    return __libc_realloc(old, size);
}

void *aligned_alloc(size_t alignment, size_t size) {
    if (refused()) {
        errno = ENOMEM;
        return NULL;
    }
    return __libc_memalign(alignment, size);
}

int posix_memalign(void **made, size_t alignment, size_t size) {
    if (refused())
        return ENOMEM;
    *made = __libc_memalign(alignment, size);
    return *made ? 0 : ENOMEM;
}

__attribute__((destructor)) static void tell(void) {
    const char *name = getenv("COUNTED");
    long counted = count;
    FILE *file = name ? fopen(name, "w") : NULL;
    if (file) {
        fprintf(file, "%ld\n", counted);
        fclose(file);
    }
}

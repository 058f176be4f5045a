// A library to preload: the call number FAIL_AT, counted from 1 over malloc, calloc, realloc, aligned_alloc and
// posix_memalign, finds no memory. Where that many calls were made, the file FAIL_TOLD is made.
#define _GNU_SOURCE
#include <dlfcn.h>
#include <errno.h>
#include <fcntl.h>
#include <stddef.h>
#include <stdlib.h>
#include <unistd.h>

static unsigned long calls;

static int fails(void) {
    static unsigned long at;
    if (at == 0) {
        const char *text = getenv("FAIL_AT");
        at = text ? strtoul(text, NULL, 10) : (unsigned long)-1;
    }
    if (__atomic_add_fetch(&calls, 1, __ATOMIC_RELAXED) != at) return 0;
    const char *told = getenv("FAIL_TOLD");
    if (told) {
        int file = open(told, O_CREAT | O_WRONLY, 0600);
        if (file >= 0) close(file);
    }
    errno = ENOMEM;
    return 1;
}

extern void *__libc_malloc(size_t);
extern void *__libc_calloc(size_t, size_t);
extern void *__libc_realloc(void *, size_t);
extern void *__libc_memalign(size_t, size_t);

void *malloc(size_t n) { return fails() ? NULL : __libc_malloc(n); }
void *calloc(size_t n, size_t m) { return fails() ? NULL : __libc_calloc(n, m); }
void *realloc(void *p, size_t n) { return fails() ? NULL : __libc_realloc(p, n); }
void *aligned_alloc(size_t a, size_t n) { return fails() ? NULL : __libc_memalign(a, n); }

int posix_memalign(void **p, size_t a, size_t n) {
    if (fails()) return ENOMEM;
    *p = __libc_memalign(a, n);
    return *p ? 0 : ENOMEM;
}

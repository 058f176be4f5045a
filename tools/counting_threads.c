// A library to preload: as many bytes are appended to the file THREADS_TOLD as threads were started.
#define _GNU_SOURCE
#include <dlfcn.h>
#include <fcntl.h>
#include <pthread.h>
#include <stdlib.h>
#include <unistd.h>

typedef int creates(pthread_t *, const pthread_attr_t *, void *(*)(void *), void *);

static void tell(void) {
    const char *told = getenv("THREADS_TOLD");
    int file = told ? open(told, O_CREAT | O_APPEND | O_WRONLY, 0600) : -1;
    if (file < 0) return;
    if (write(file, "t", 1) < 0) _exit(70);
    close(file);
}

int pthread_create(pthread_t *thread, const pthread_attr_t *attributes, void *(*start)(void *), void *given) {
    creates *real = (creates *)dlsym(RTLD_NEXT, "pthread_create");
    tell();
    return real(thread, attributes, start, given);
}

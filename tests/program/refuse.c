// Refuses one allocation, or all from one on: REFUSE=N the Nth, REFUSE=N.. the Nth and all after it. REFUSE=0 refuses none.
// With COUNT=FILE the number of allocations is written to that file at the end.
#define _GNU_SOURCE
#include <dlfcn.h>
#include <errno.h>
#include <stdio.h>
#include <stdlib.h>
#include <string.h>
#include <sys/syscall.h>
#include <unistd.h>

static long count, first, all;

__attribute__((constructor)) static void start(void) {
    const char *text = getenv("REFUSE");
    if (!text) return;
    char *end;
    first = strtol(text, &end, 10);
    all = !strcmp(end, "..");
}

__attribute__((destructor)) static void stop(void) {
    const char *name = getenv("COUNT");
    long counted = count;
    FILE *file = name ? fopen(name, "w") : NULL;
    if (!file) return;
    fprintf(file, "%ld\n", counted);
    fclose(file);
}

// A program that ends so runs no destructors.
void _exit(int status) {
    stop();
    syscall(SYS_exit_group, status);
    __builtin_unreachable();
}

static int refuses(void) {
    count++;
    if (!first) return 0;
    return all ? count >= first : count == first;
}

void *malloc(size_t size) {
    static void *(*real)(size_t);
    if (!real) real = dlsym(RTLD_NEXT, "malloc");
    if (refuses()) { errno = ENOMEM; return NULL; }
    return real(size);
}

void *realloc(void *old, size_t size) {
    static void *(*real)(void *, size_t);
    if (!real) real = dlsym(RTLD_NEXT, "realloc");
    if (refuses()) { errno = ENOMEM; return NULL; }
    return real(old, size);
}

int posix_memalign(void **out, size_t align, size_t size) {
    static int (*real)(void **, size_t, size_t);
    if (!real) real = dlsym(RTLD_NEXT, "posix_memalign");
    if (refuses()) return ENOMEM;
    return real(out, align, size);
}

void *aligned_alloc(size_t align, size_t size) {
    static void *(*real)(size_t, size_t);
    if (!real) real = dlsym(RTLD_NEXT, "aligned_alloc");
    if (refuses()) { errno = ENOMEM; return NULL; }
    return real(align, size);
}

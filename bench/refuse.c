/* Loaded before a program by LD_PRELOAD: refuses the request for memory whose number REFUSE names, counted from 1, and then makes the file that
 * REFUSED names. */
#define _GNU_SOURCE
#include <dlfcn.h>
#include <fcntl.h>
#include <stddef.h>
#include <stdlib.h>
#include <unistd.h>

static unsigned long made;

static int refuses(void) {
    const char *number = getenv("REFUSE"), *path = getenv("REFUSED");
    if (!number || !path || __atomic_add_fetch(&made, 1, __ATOMIC_RELAXED) != strtoul(number, NULL, 10)) return 0;
    int file = open(path, O_CREAT | O_WRONLY, 0600);
    if (file >= 0) close(file);
    return 1;
}

void *malloc(size_t size) {
    static void *(*real)(size_t);
    if (!real) real = (void *(*)(size_t))dlsym(RTLD_NEXT, "malloc");
    return refuses() ? NULL : real(size);
}

void *realloc(void *old, size_t size) {
    static void *(*real)(void *, size_t);
    if (!real) real = (void *(*)(void *, size_t))dlsym(RTLD_NEXT, "realloc");
    return refuses() ? NULL : real(old, size);
}

/* Refuses one allocation of a program that this library is loaded into: REFUSED_ALLOCATION has its number, from 1 on, and the file of the number
   REFUSED_TELLS is told by one octet that it came. With REFUSED_FROM all that come after it are refused too. */
#define _GNU_SOURCE
#include <dlfcn.h>
#include <errno.h>
#include <stdlib.h>
#include <unistd.h>

static unsigned long long number(const char *name) {
    const char *text = getenv(name);
    return text != NULL ? strtoull(text, NULL, 10) : 0;
}

static int is_refused(void) {
    static unsigned long long asked;
    unsigned long long refused = number("REFUSED_ALLOCATION");
    asked += 1;
    if (asked != refused && !(asked > refused && getenv("REFUSED_FROM") != NULL)) {
        return 0;
    }
    if (asked == refused) {
        (void)!write((int)number("REFUSED_TELLS"), "", 1);
    }
    errno = ENOMEM;
    return 1;
}

void *malloc(size_t size) {
    static void *(*next)(size_t);
    if (next == NULL) {
        next = (void *(*)(size_t))dlsym(RTLD_NEXT, "malloc");
    }
    return is_refused() ? NULL : next(size);
}

void *realloc(void *block, size_t size) {
    static void *(*next)(void *, size_t);
    if (next == NULL) {
        next = (void *(*)(void *, size_t))dlsym(RTLD_NEXT, "realloc");
    }
    return is_refused() ? NULL : next(block, size);
}

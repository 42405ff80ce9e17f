// Preloaded into the built program: refuses the growth of memory whose number, from 1 on, stands in REFUSE,
// or from that one on where REFUSE_ALL is 1. The last growth's number goes into the file that GROWTHS names.
#define _GNU_SOURCE
#include <dlfcn.h>
#include <errno.h>
#include <stdio.h>
#include <stdlib.h>
#include <unistd.h>

static long growths;

static int is_refused(void) {
    const char *refused = getenv("REFUSE"), *all = getenv("REFUSE_ALL");
    long growth = __atomic_add_fetch(&growths, 1, __ATOMIC_SEQ_CST);
    if (refused == NULL) {
        return 0;
    }
    long first = atol(refused);
    return growth == first || (growth > first && all != NULL && atol(all) == 1);
}

void *malloc(size_t size) {
    static void *(*next)(size_t);
    if (next == NULL) {
        next = dlsym(RTLD_NEXT, "malloc");
    }
    return is_refused() ? NULL : next(size);
}

void *realloc(void *old, size_t size) {
    static void *(*next)(void *, size_t);
    if (next == NULL) {
        next = dlsym(RTLD_NEXT, "realloc");
    }
    return is_refused() ? NULL : next(old, size);
}

int posix_memalign(void **made, size_t align, size_t size) {
    static int (*next)(void **, size_t, size_t);
    if (next == NULL) {
        next = dlsym(RTLD_NEXT, "posix_memalign");
    }
    return is_refused() ? ENOMEM : next(made, align, size);
}

static void tell(void) {
    const char *name = getenv("GROWTHS");
    long told = growths;
    FILE *file = name == NULL ? NULL : fopen(name, "w");
    if (file != NULL) {
        fprintf(file, "%ld\n", told);
        fclose(file);
    }
}

// A program that may start threads ends by `_exit`, which runs no destructors.
void _exit(int status) {
    void (*next)(int) = dlsym(RTLD_NEXT, "_exit");
    tell();
    next(status);
    __builtin_unreachable();
}

__attribute__((destructor)) static void tell_at_end(void) {
    tell();
}

/* Counts the requests for memory, and refuses the one whose number stands in the environment as REFUSED_REQUEST, counted from 1. At the
   end it writes how many were made to the file REQUESTS_MADE. It is put before the C library by LD_PRELOAD, in a check alone. */
#include <stddef.h>
#include <stdio.h>
#include <stdlib.h>

extern void *__libc_malloc(size_t);
extern void *__libc_calloc(size_t, size_t);
extern void *__libc_realloc(void *, size_t);

static long made;

static int is_refused(void) {
    const char *number = getenv("REFUSED_REQUEST");
    made++;
    return number != NULL && atol(number) == made;
}

void *malloc(size_t size) {
    return is_refused() ? NULL : __libc_malloc(size);
}

void *calloc(size_t count, size_t size) {
    return is_refused() ? NULL : __libc_calloc(count, size);
}

void *realloc(void *block, size_t size) {
    return is_refused() ? NULL : __libc_realloc(block, size);
}

__attribute__((destructor)) static void tell(void) {
    const char *name = getenv("REQUESTS_MADE");
    long all = made;
    FILE *file = name == NULL ? NULL : fopen(name, "w");
    if (file != NULL) {
        fprintf(file, "%ld\n", all);
        fclose(file);
    }
}

/* Loaded before the C library: counts the requests for memory, and refuses the one whose number REFUSED_REQUEST holds.
   The number of requests goes to the file that REQUESTS_FILE names. */
#define _GNU_SOURCE
#include <dlfcn.h>
#include <errno.h>
#include <stdio.h>
#include <stdlib.h>

static unsigned long requests, refused;
static void *(*next_malloc)(size_t);
static void *(*next_realloc)(void *, size_t);
static int is_counting;

__attribute__((constructor)) static void begin(void) {
    const char *number = getenv("REFUSED_REQUEST");
    next_malloc = dlsym(RTLD_NEXT, "malloc");
    next_realloc = dlsym(RTLD_NEXT, "realloc");
    refused = number ? strtoul(number, NULL, 10) : 0;
    is_counting = 1;
}

static int is_refused(void) {
    return is_counting && ++requests == refused;
}

void *malloc(size_t size) {
    if (is_refused()) {
        errno = ENOMEM;
        return NULL;
    }
    if (!next_malloc)
        next_malloc = dlsym(RTLD_NEXT, "malloc");
    return next_malloc(size);
}

void *realloc(void *block, size_t size) {
    if (is_refused()) {
        errno = ENOMEM;
        return NULL;
    }
    if (!next_realloc)
        next_realloc = dlsym(RTLD_NEXT, "realloc");
    return next_realloc(block, size);
}

__attribute__((destructor)) static void end(void) {
    const char *name = getenv("REQUESTS_FILE");
    unsigned long number = requests;
    is_counting = 0;
    FILE *file = name ? fopen(name, "w") : NULL;
    if (file) {
        fprintf(file, "%lu\n", number);
        fclose(file);
    }
}

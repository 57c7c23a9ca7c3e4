/* If it is preloaded, this library counts the calls of malloc, calloc and realloc, or only those that the
   shared library OF_LIBRARY makes. It refuses the call whose number REFUSE_ALLOCATION gives, and with
   REFUSE_LATER all later ones too. At exit it writes the count to the file that COUNT_ALLOCATIONS names. */
#define _GNU_SOURCE
#include <dlfcn.h>
#include <errno.h>
#include <stddef.h>
#include <stdio.h>
#include <stdlib.h>
#include <string.h>

extern void *__libc_malloc(size_t);
extern void *__libc_calloc(size_t, size_t);
extern void *__libc_realloc(void *, size_t);

static unsigned long count;
static unsigned long refused;
static int refuses_later;
static const char *name;
static const void *library;

__attribute__((constructor)) static void begin(void) {
    const char *text = getenv("REFUSE_ALLOCATION");
    refused = text ? strtoul(text, NULL, 10) : 0;
    refuses_later = getenv("REFUSE_LATER") != NULL;
    name = getenv("OF_LIBRARY");
    count = 0;
}

/* Whether calls from this address count. */
static int counts(const void *place) {
    Dl_info found;
    if (name == NULL) return 1;
    if (!dladdr(place, &found) || found.dli_fname == NULL) return 0;
    if (library == NULL && strstr(found.dli_fname, name) != NULL) library = found.dli_fbase;
    return library != NULL && found.dli_fbase == library;
}

static int is_refused(const void *place) {
    if (!counts(place)) return 0;
    count += 1;
    if (refused == 0 || count < refused || (count > refused && !refuses_later)) return 0;
    errno = ENOMEM;
    return 1;
}

void *malloc(size_t size) {
    return is_refused(__builtin_return_address(0)) ? NULL : __libc_malloc(size);
}

void *calloc(size_t number, size_t size) {
    return is_refused(__builtin_return_address(0)) ? NULL : __libc_calloc(number, size);
}

void *realloc(void *block, size_t size) {
    return is_refused(__builtin_return_address(0)) ? NULL : __libc_realloc(block, size);
}

__attribute__((destructor)) static void end(void) {
    unsigned long total = count;
    const char *path = getenv("COUNT_ALLOCATIONS");
    if (path == NULL) return;
    FILE *file = fopen(path, "w");
    if (file != NULL) {
        fprintf(file, "%lu\n", total);
        fclose(file);
    }
}

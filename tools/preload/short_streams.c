/* If it is preloaded, this library limits each read and write to STREAM_STEP bytes. Standard output takes
   OUTPUT_ROOM bytes in all, and then none: a write returns 0. */
#define _GNU_SOURCE
#include <dlfcn.h>
#include <stdlib.h>
#include <unistd.h>

static size_t number(const char *name, size_t otherwise) {
    const char *text = getenv(name);
    return text ? strtoul(text, NULL, 10) : otherwise;
}

static size_t least(size_t a, size_t b) {
    return a < b ? a : b;
}

ssize_t read(int file, void *to, size_t count) {
    ssize_t (*real)(int, void *, size_t) = (ssize_t (*)(int, void *, size_t))dlsym(RTLD_NEXT, "read");
    return real(file, to, least(count, number("STREAM_STEP", count)));
}

ssize_t write(int file, const void *from, size_t count) {
    static size_t taken;
    ssize_t (*real)(int, const void *, size_t) =
        (ssize_t (*)(int, const void *, size_t))dlsym(RTLD_NEXT, "write");
    count = least(count, number("STREAM_STEP", count));
    if (file == 1) {
        count = least(count, number("OUTPUT_ROOM", taken + count) - taken);
        if (count == 0) {
            return 0;
        }
    }
    ssize_t done = real(file, from, count);
    if (file == 1 && done > 0) {
        taken += (size_t)done;
    }
    return done;
}

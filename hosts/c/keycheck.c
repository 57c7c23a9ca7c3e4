/* Runs the program keycheck over files in memory, with the C library.
 *
 *     PREFIX=$(tools/build-library)
 *     cc -std=c11 -I "$PREFIX/include" hosts/c/keycheck.c -L "$PREFIX/lib" -lpafjirn \
 *         -Wl,-rpath,"$PREFIX/lib" -o keycheck-in-memory
 *     ./keycheck-in-memory [FILE].. -- [WORD]..
 *
 * It puts each of these files at its path, and runs keycheck by the words. So `user.json -- check --user
 * user.json` writes what is wrong in user.json. The output and the status are those of keycheck. The status
 * is also 3 if a file can't be read, and 4 if memory is refused.
 */
#include <pafjirn.h>
#include <stdio.h>
#include <stdlib.h>
#include <string.h>

enum { RIGHT = 0, FILES = 3, STOPS = 4 };

/* A text as its bytes and their number. */
#define TEXT(text) (const uint8_t *)(text), strlen(text)

/* The bytes of a regular file, which the caller frees, or null if it can't be read. */
static uint8_t *read_file(const char *path, size_t *length) {
    FILE *file = fopen(path, "rb");
    if (!file) return NULL;
    long size = fseek(file, 0, SEEK_END) == 0 ? ftell(file) : -1;
    uint8_t *bytes = size < 0 ? NULL : malloc((size_t)size + 1);
    rewind(file);
    *length = bytes ? fread(bytes, 1, (size_t)size, file) : 0;
    fclose(file);
    if (bytes && *length == (size_t)size) return bytes;
    free(bytes);
    return NULL;
}

/* Reports an answer that ends the run, and returns the status. */
static int stopped(uint32_t answer) {
    if (answer == PAFJIRN_NO_MEMORY)
        fputs("stopped: out of memory\n", stderr);
    else
        fprintf(stderr, "the answer %u, which include/pafjirn.h explains\n", (unsigned)answer);
    return STOPS;
}

/* Puts a file at its path. Returns the status. */
static int put(pafjirn_handle *engine, const char *path) {
    size_t length;
    uint8_t *bytes = read_file(path, &length);
    if (!bytes) {
        fprintf(stderr, "cannot read %s\n", path);
        return FILES;
    }
    uint32_t answer = pafjirn_put(engine, TEXT(path), bytes, length);
    free(bytes);
    return answer == PAFJIRN_DONE ? RIGHT : stopped(answer);
}

/* Writes what keycheck wrote to one of its streams. */
static void show(pafjirn_handle *engine, uint32_t stream, FILE *to) {
    uint8_t room[4096];
    size_t from = 0, length;
    do {
        length = pafjirn_written(engine, stream, from, room, sizeof room);
        size_t here = length - from < sizeof room ? length - from : sizeof room;
        fwrite(room, 1, here, to);
        from += here;
    } while (from < length);
}

/* Runs keycheck by these words, behind which there is a null pointer. Returns the status. */
static int run(pafjirn_handle *engine, char **words) {
    uint32_t answer = pafjirn_word(engine, TEXT("keycheck"));
    for (; *words && answer == PAFJIRN_DONE; words++) answer = pafjirn_word(engine, TEXT(*words));
    if (answer == PAFJIRN_DONE) answer = pafjirn_keycheck(engine);
    if (answer != PAFJIRN_DONE) return stopped(answer);
    show(engine, PAFJIRN_OUTPUT, stdout);
    show(engine, PAFJIRN_ERRORS, stderr);
    return (int)pafjirn_status(engine);
}

int main(int count, char **words) {
    pafjirn_handle engine = {0};
    uint32_t answer = pafjirn_new(&engine);
    int status = answer == PAFJIRN_DONE ? RIGHT : stopped(answer), at = 1;
    for (; at < count && strcmp(words[at], "--") != 0 && !status; at++) status = put(&engine, words[at]);
    if (!status) status = run(&engine, words + at + (at < count));
    pafjirn_free(&engine);
    return status;
}

/* Runs a script as keyrun does, with the C library: the same arguments and the same output.
 *
 *     PREFIX=$(tools/build-library)
 *     cc -std=c11 -I "$PREFIX/include" hosts/c/play.c -L "$PREFIX/lib" -lpafjirn \
 *         -Wl,-rpath,"$PREFIX/lib" -o play
 *     ./play [--platform P] [--layout F] [--defaults F] [--user F] [--script F] [--calls] [DIR]..
 *     ./play [--platform P] [--layout F] [--defaults F] [--user F] --press N KEY [DIR]..
 *
 * It passes each line of the script to pafjirn_line. With --calls it uses the calls for key presses, the
 * focus and palettes instead. With --press it runs no script: it presses the key N times, at least once, and
 * prints the time of a press and the memory.
 *
 * The status is 0; 2 for wrong arguments; 3 if a file cannot be read or the load is refused; 4 if the session
 * stops, or the script or the output fails; 5 if a handler traps.
 */
#define _POSIX_C_SOURCE 200809L
#include <errno.h>
#include <pafjirn.h>
#include <stdio.h>
#include <stdlib.h>
#include <string.h>
#include <time.h>

enum { RIGHT = 0, WORDS = 2, FILES = 3, STOPS = 4, TRAPS = 5 };

/* A file's bytes. The pointer is never null, so that it can be passed to the library. */
typedef struct {
    uint8_t *bytes;
    size_t length;
} content;

/* The options on the command line. */
typedef struct {
    const char *script;
    const char *key;
    long presses;
    bool by_calls;
} options;

static const uint8_t NO_BYTES[1] = {0};

/* Reads a stream to its end. Returns whether it could be read, and the bytes, which the caller frees. */
static bool read_stream(FILE *stream, content *read) {
    size_t room = 4096;
    *read = (content){malloc(room), 0};
    while (read->bytes) {
        size_t more = fread(read->bytes + read->length, 1, room - read->length, stream);
        if (more == 0) break;
        read->length += more;
        if (read->length < room) continue;
        uint8_t *wider = room <= SIZE_MAX / 2 ? realloc(read->bytes, room *= 2) : NULL;
        if (!wider) free(read->bytes);
        read->bytes = wider;
    }
    if (read->bytes && !ferror(stream)) return true;
    free(read->bytes);
    *read = (content){NULL, 0};
    return false;
}

/* Reads a file, as read_stream does. If it can't be read, errno says why. */
static bool read_file(const char *path, content *read) {
    *read = (content){NULL, 0};
    FILE *file = fopen(path, "rb");
    if (!file) return false;
    bool is_read = read_stream(file, read);
    int why = errno;
    fclose(file);
    errno = why;
    return is_read;
}

/* Writes a text of the engine to a stream. */
static void show(pafjirn_handle *engine, uint32_t part, FILE *to) {
    uint8_t room[4096];
    size_t from = 0, length;
    do {
        length = pafjirn_read(engine, part, from, room, sizeof room);
        size_t here = from < length ? length - from : 0;
        if (here > sizeof room) here = sizeof room;
        fwrite(room, 1, here, to);
        from += here;
    } while (from < length);
}

/* Reports an answer that ends the run, and returns the status. */
static int stopped(uint32_t answer) {
    switch (answer) {
    case PAFJIRN_NO_MEMORY:
        fputs("stopped: out of memory\n", stderr);
        return STOPS;
    case PAFJIRN_STOPPED:
        fputs("stopped: an event before stopped the session\n", stderr);
        return STOPS;
    case PAFJIRN_TRAPPED:
        fputs("trapped\n", stderr);
        return TRAPS;
    default:
        fprintf(stderr, "play: the answer %u, which include/pafjirn.h explains\n", (unsigned)answer);
        return WORDS;
    }
}

static int cannot_read(const char *path) {
    fprintf(stderr, "cannot read %s\n", path);
    return FILES;
}

/* Passes a file to the engine. */
static int give_file(pafjirn_handle *engine, uint32_t file, const char *path) {
    content read;
    if (!read_file(path, &read)) return cannot_read(path);
    uint32_t answer = pafjirn_file(engine, file, read.bytes, read.length);
    free(read.bytes);
    return answer == PAFJIRN_DONE ? RIGHT : stopped(answer);
}

/* The path of a file in a folder, which the caller frees, or null if there is no memory. */
static char *path_in(const char *folder, const char *name) {
    size_t size = strlen(folder) + strlen(name) + 2;
    char *path = malloc(size);
    if (path) snprintf(path, size, "%s/%s", folder, name);
    return path;
}

/* Passes the files of an extension to the engine. An extension without handlers.json has no handlers. */
static int give_files_of(pafjirn_handle *engine, const char *manifest_path, const char *handlers_path) {
    content manifest, handlers;
    if (!read_file(manifest_path, &manifest)) return cannot_read(manifest_path);
    bool has_handlers = read_file(handlers_path, &handlers);
    if (!has_handlers && errno != ENOENT) {
        free(manifest.bytes);
        return cannot_read(handlers_path);
    }
    uint32_t answer = pafjirn_extension(engine, manifest.bytes, manifest.length, has_handlers,
                                        has_handlers ? handlers.bytes : NO_BYTES, handlers.length);
    free(manifest.bytes);
    free(handlers.bytes);
    return answer == PAFJIRN_DONE ? RIGHT : stopped(answer);
}

/* Passes the extension in a folder to the engine. */
static int give_extension(pafjirn_handle *engine, const char *folder) {
    char *manifest = path_in(folder, "package.json"), *handlers = path_in(folder, "handlers.json");
    bool is_whole = manifest && handlers;
    int status = is_whole ? give_files_of(engine, manifest, handlers) : stopped(PAFJIRN_NO_MEMORY);
    free(manifest);
    free(handlers);
    return status;
}

/* The number of the platform with this name, or a number that is no platform. */
static uint32_t platform_named(const char *name) {
    static const char *const NAMES[] = {"linux", "mac", "win"};
    uint32_t number = 0;
    while (number < 3 && strcmp(name, NAMES[number]) != 0) number++;
    return number;
}

/* Reads a number of presses. Returns whether the text is one. */
static bool read_presses(const char *text, long *presses) {
    char *end;
    errno = 0;
    *presses = strtol(text, &end, 10);
    return errno == 0 && end != text && *end == 0 && *presses > 0;
}

/* Handles one option with its values, or a folder. Returns how many arguments it used, and the status. */
static int take_word(pafjirn_handle *engine, char **words, options *asked, int *status) {
    static const char *const FILE_WORDS[] = {"--layout", "--defaults", "--user"};
    const char *word = words[0], *next = words[1];
    *status = RIGHT;
    if (strcmp(word, "--calls") == 0) {
        asked->by_calls = true;
        return 1;
    }
    if (strncmp(word, "--", 2) != 0) {
        *status = give_extension(engine, word);
        return 1;
    }
    for (uint32_t file = PAFJIRN_LAYOUT; next && file <= PAFJIRN_USER; file++) {
        if (strcmp(word, FILE_WORDS[file]) != 0) continue;
        *status = give_file(engine, file, next);
        return 2;
    }
    if (next && strcmp(word, "--script") == 0) {
        asked->script = next;
        return 2;
    }
    if (next && strcmp(word, "--platform") == 0) {
        if (pafjirn_platform(engine, platform_named(next)) != PAFJIRN_DONE) *status = WORDS;
        return 2;
    }
    if (next && words[2] && strcmp(word, "--press") == 0) {
        if (!read_presses(next, &asked->presses)) *status = WORDS;
        asked->key = words[2];
        return 3;
    }
    *status = WORDS;
    return 1;
}

/* Whether a line begins with a word and a space; then `rest` is what follows. */
static bool says(const uint8_t *line, size_t length, const char *word, const uint8_t **rest, size_t *left) {
    size_t size = strlen(word);
    if (length <= size || memcmp(line, word, size) != 0 || line[size] != ' ') return false;
    *rest = line + size + 1;
    *left = length - size - 1;
    return true;
}

/* Sends a line to the engine by the call for its event. If there is none, or the call doesn't accept the
 * text, the line is passed to pafjirn_line, and the trace reports it. */
static uint32_t tell_by_call(pafjirn_handle *engine, const uint8_t *line, size_t length) {
    const uint8_t *rest;
    size_t left;
    uint32_t answer = PAFJIRN_NO_TEXT;
    if (says(line, length, "key", &rest, &left)) answer = pafjirn_key(engine, rest, left);
    if (says(line, length, "palette", &rest, &left)) answer = pafjirn_palette(engine, rest, left);
    bool is_word = says(line, length, "focus", &rest, &left) && left > 0 && !memchr(rest, ' ', left);
    if (is_word) answer = pafjirn_focus(engine, rest, left);
    bool is_told = answer != PAFJIRN_NO_KEY && answer != PAFJIRN_NO_TEXT;
    return is_told ? answer : pafjirn_line(engine, line, length);
}

/* Whether the session goes on after this answer. */
static bool goes_on(uint32_t answer) {
    return answer == PAFJIRN_DONE || answer == PAFJIRN_REFUSED || answer == PAFJIRN_NOT_FOUND ||
           answer == PAFJIRN_BAD_ARGUMENTS;
}

/* Runs a script line by line, and writes what each line adds to the trace. */
static int play(pafjirn_handle *engine, const content *script, bool by_calls) {
    for (size_t at = 0; at <= script->length && !ferror(stdout);) {
        const uint8_t *line = script->bytes + at;
        const uint8_t *end = memchr(line, '\n', script->length - at);
        size_t length = end ? (size_t)(end - line) : script->length - at;
        at += length + 1;
        if (end && length && line[length - 1] == '\r') length--;
        uint32_t answer = by_calls ? tell_by_call(engine, line, length) : pafjirn_line(engine, line, length);
        show(engine, PAFJIRN_TRACE, stdout);
        if (!goes_on(answer)) return stopped(answer);
    }
    return RIGHT;
}

/* The peak memory of this process in kB, or -1 if the system doesn't report it. */
static long most_memory(void) {
    char line[256];
    long most = -1;
    FILE *status = fopen("/proc/self/status", "r");
    while (status && fgets(line, sizeof line, status))
        if (strncmp(line, "VmHWM:", 6) == 0) most = strtol(line + 6, NULL, 10);
    if (status) fclose(status);
    return most;
}

/* Presses a key this many times, and reads the trace of each press. Returns the answer that ended this. */
static uint32_t press_often(pafjirn_handle *engine, const char *key, long presses) {
    uint8_t room[1024];
    size_t length = strlen(key);
    for (long turn = 0; turn < presses; turn++) {
        uint32_t answer = pafjirn_key(engine, (const uint8_t *)key, length);
        if (!goes_on(answer)) return answer;
        (void)pafjirn_read(engine, PAFJIRN_TRACE, 0, room, sizeof room);
    }
    return PAFJIRN_DONE;
}

/* Presses a key this many times. Prints the time of a press, and the memory after a tenth of the presses and
 * after all. */
static int press(pafjirn_handle *engine, const options *asked) {
    struct timespec start, end;
    long tenth = (asked->presses + 9) / 10;
    clock_gettime(CLOCK_MONOTONIC, &start);
    uint32_t answer = press_often(engine, asked->key, tenth);
    long early = most_memory();
    if (answer == PAFJIRN_DONE) answer = press_often(engine, asked->key, asked->presses - tenth);
    clock_gettime(CLOCK_MONOTONIC, &end);
    if (answer == PAFJIRN_NO_KEY) {
        fprintf(stderr, "play: %s is no key: docs/FORMATS.md lists them\n", asked->key);
        return WORDS;
    }
    if (answer != PAFJIRN_DONE) return stopped(answer);
    double seconds = (double)(end.tv_sec - start.tv_sec) + (double)(end.tv_nsec - start.tv_nsec) / 1e9;
    printf("%ld presses, %.3f microseconds each, %ld kB behind a tenth, %ld kB behind all\n", asked->presses,
           seconds * 1e6 / (double)asked->presses, early, most_memory());
    return RIGHT;
}

/* Runs the script that the options name, or standard input. */
static int play_script(pafjirn_handle *engine, const options *asked) {
    content script;
    FILE *file = asked->script ? fopen(asked->script, "rb") : stdin;
    if (!file) return cannot_read(asked->script);
    bool is_read = read_stream(file, &script);
    if (asked->script) fclose(file);
    if (!is_read) {
        fputs("script: read failed\n", stderr);
        return STOPS;
    }
    int status = play(engine, &script, asked->by_calls);
    free(script.bytes);
    return status;
}

/* Loads the files, and runs the script or presses the key. */
static int load_and_play(pafjirn_handle *engine, const options *asked) {
    uint32_t answer = pafjirn_load(engine);
    show(engine, PAFJIRN_NOTICE, stderr);
    if (answer == PAFJIRN_REFUSED) return FILES;
    if (answer != PAFJIRN_DONE) return stopped(answer);
    int status = asked->key ? press(engine, asked) : play_script(engine, asked);
    if (fflush(stdout) == 0 && !ferror(stdout)) return status;
    if (status == RIGHT) fputs("script: write failed\n", stderr);
    return STOPS;
}

static void print_usage(void) {
    fputs("usage: play [--platform linux|mac|win] [--layout F] [--defaults F] [--user F]\n"
          "           [--script F] [--calls] [DIR]..\n"
          "       play [--platform linux|mac|win] [--layout F] [--defaults F] [--user F]\n"
          "           --press N KEY [DIR]..\n",
          stderr);
}

int main(int count, char **words) {
    pafjirn_handle engine = {0};
    options asked = {0};
    uint32_t answer = pafjirn_new(&engine);
    int status = answer == PAFJIRN_DONE ? RIGHT : stopped(answer);
    bool are_wrong = false;
    for (int at = 1; at < count && status == RIGHT;) {
        at += take_word(&engine, words + at, &asked, &status);
        are_wrong = status == WORDS;
    }
    if (are_wrong) print_usage();
    if (status == RIGHT) status = load_and_play(&engine, &asked);
    pafjirn_free(&engine);
    return status;
}

/* Pafjirn for C: a keybinding and command engine. Link libpafjirn.a or libpafjirn.so (tools/build-library).
 *
 * A host makes an engine, hands in the bytes of its files, loads a session of them, and tells it events.
 * After each event it reads the lines that the event added to the trace, and what a key press or a choice
 * took. Before a press it can look up what the press would take, and which keys a command has. Each function
 * does exactly what docs/CALLS.md says.
 *
 *     pafjirn_handle engine = {0};
 *     uint8_t trace[1024];
 *     pafjirn_new(&engine);
 *     pafjirn_file(&engine, PAFJIRN_USER, rules, rules_length);
 *     pafjirn_load(&engine);
 *     pafjirn_key(&engine, (const uint8_t *)"ctrl+s", 6);
 *     size_t length = pafjirn_read(&engine, PAFJIRN_TRACE, 0, trace, sizeof trace);
 *     fwrite(trace, 1, length < sizeof trace ? length : sizeof trace, stdout);
 *     pafjirn_free(&engine);
 *
 * `length` is that of the whole text, which may be longer than `trace`.
 *
 * Nothing checks these duties of the caller:
 * - A handle is all zero before its first use. The caller never copies it, and never reads or writes its
 *   fields. It may be moved to another place, if the old one is never used again.
 * - A handle is used by the thread that made its engine, one call at a time.
 * - That thread has 384 KiB of stack left. The deepest pattern, of 249 nested groups, takes 312 of the proved
 *   library, one of 100 nested branches 176, and files without patterns less than 96. A library without a
 *   proof takes more: leave it 8 MiB.
 * - A pointer with a length leads to that many bytes. No pointer is null, not even for no bytes.
 * - `into` overlaps nothing else that the call is given. It has `room` bytes.
 * A handle without an engine, also one that was freed, is no mistake: a call answers PAFJIRN_UNKNOWN, a read
 * reads nothing, and pafjirn_free does nothing.
 *
 * All texts are bytes in UTF-8 without a zero at their end. All lengths, rooms and places in texts are
 * numbers of bytes.
 *
 * tools/check-header compares this file with crates/kb_c, and with the hosts in Rust and Python. */
#ifndef PAFJIRN_H
#define PAFJIRN_H
#include <stdbool.h>
#include <stddef.h>
#include <stdint.h>

/* No pointer is null. The library can't test a pointer, since its proof takes each as one to memory that is
 * there. So the compiler warns of those that it sees to be null. */
#if defined(__GNUC__) || defined(__clang__)
#define PAFJIRN_NONNULL __attribute__((nonnull))
#else
#define PAFJIRN_NONNULL
#endif

#ifdef __cplusplus
extern "C" {
#endif

/* An engine, or none. */
typedef struct {
    void *at;
    bool live;
} pafjirn_handle;

/* Answers. Each function lists its own below. What stands behind an answer:
 * - PAFJIRN_OUT_OF_ORDER, PAFJIRN_UNKNOWN, PAFJIRN_NO_TEXT, PAFJIRN_NO_KEY: all is as before. The trace and
 *   the record are still those of the event before, so don't print them again.
 * - PAFJIRN_NO_MEMORY from an event: the session is stopped, and the trace is empty. A press or a choice may
 *   have changed the text, context keys and the chord. The record is empty.
 * - PAFJIRN_NO_MEMORY from a call before the load, from the load, or from a look-up (pafjirn_look_up,
 *   pafjirn_keys_of, pafjirn_continuations): all is as before. The call can be repeated.
 * - PAFJIRN_STOPPED: the session stays as it was. Behind an event the trace and the record are empty; a
 *   look-up leaves both as they are.
 * - PAFJIRN_DONE from a look-up: the trace is as before.
 * - Any other: the trace and the record are those of this event. */
enum {
    PAFJIRN_DONE = 0,          /* it did what was asked */
    PAFJIRN_OUT_OF_ORDER = 1,  /* files come before the load, and events behind it */
    PAFJIRN_UNKNOWN = 2,       /* a number stands for nothing, or there is no engine */
    PAFJIRN_REFUSED = 3,       /* the load or the event was refused: the notice or the trace says why */
    PAFJIRN_NO_MEMORY = 5,     /* memory was refused; an event then stops the session */
    PAFJIRN_NO_TEXT = 6,       /* bytes aren't UTF-8 */
    PAFJIRN_NOT_FOUND = 7,     /* a command is none of the engine's: the host runs it */
    PAFJIRN_BAD_ARGUMENTS = 8, /* the arguments don't fit a command, which didn't run */
    PAFJIRN_NO_KEY = 10,       /* a key's text is no key */
    PAFJIRN_STOPPED = 97,      /* the session was stopped before, by PAFJIRN_NO_MEMORY or PAFJIRN_TRAPPED */
    PAFJIRN_TRAPPED = 103      /* a handler couldn't go on, which stopped the session. No verified handler
                                  does this, and pafjirn_load verifies all */
};

/* Platforms. */
enum { PAFJIRN_LINUX = 0, PAFJIRN_MAC = 1, PAFJIRN_WINDOWS = 2 };

/* Files. */
enum { PAFJIRN_LAYOUT = 0, PAFJIRN_DEFAULTS = 1, PAFJIRN_USER = 2 };

/* Texts that pafjirn_read reads.
 *
 * The record of an event is the texts 2 to 5, pafjirn_taken and pafjirn_place. Only a key press and a choice
 * have one; behind any other event it is empty. It doesn't name the event: the host knows it, because it told
 * it. pafjirn_look_up puts what a press would take in the place of the record; the trace stays then, and so
 * do pafjirn_steps and PAFJIRN_STEP. All else stands in the lines of the trace alone: why an event was
 * refused (refused), a chord that ended (left), the calls of a handler (call), the steps of runCommands
 * (run), the ticket of a closure (registered), a line that was no event (unread line), and what a reload and
 * a change of an extension did.
 *
 * Where runCommands names a command of the host's own, the answer is PAFJIRN_NOT_FOUND, and the record has
 * runCommands with the arguments of the rule. PAFJIRN_STEP is the command, and pafjirn_steps its number in
 * the list, from 1. Those above it ran, and those below it didn't. So it is with a command whose arguments
 * don't fit. (Don't look for it in the lines of the trace: a command's name may have a line feed in it.) */
enum {
    PAFJIRN_TRACE = 0,     /* the trace lines of the last event, each with a line feed behind it */
    PAFJIRN_NOTICE = 1,    /* the warnings of the load, or why it was refused, in lines */
    PAFJIRN_CHORD = 2,     /* the keystrokes of the last key press behind those of the open chord */
    PAFJIRN_COMMAND = 3,   /* the command that the last event took, or a press would take */
    PAFJIRN_ARGUMENTS = 4, /* the arguments of its rule as JSON, or nothing */
    PAFJIRN_SOURCE = 5,    /* the file of its rule: defaults, user, or the identifier of an extension */
    PAFJIRN_BEFORE = 6,    /* the text before the caret */
    PAFJIRN_AFTER = 7,     /* the text behind the caret */
    PAFJIRN_STEP = 8,      /* the command of the last step of runCommands that began in the last event */
    PAFJIRN_KEYS = 9       /* what pafjirn_keys_of or pafjirn_continuations found last, whatever events came
                              since: keystrokes, each with a line feed behind it; at first nothing */
};

/* What the last event did, or a press that was looked up would do, for pafjirn_taken. */
enum {
    PAFJIRN_NOTHING = 0,  /* no command starts */
    PAFJIRN_CHORDING = 1, /* the press opened a chord, or went on with one */
    PAFJIRN_STARTED = 2   /* the command of a rule or of an entry starts; the empty command starts nothing */
};

/* Texts of an entry of the palette, for pafjirn_entry. */
enum { PAFJIRN_LABEL = 0, PAFJIRN_ENTRY_COMMAND = 1 };

/* What keycheck writes, for pafjirn_written. */
enum { PAFJIRN_OUTPUT = 0, PAFJIRN_ERRORS = 1 };

/* Makes an engine without files, on Linux, in the place of what the handle holds, which ends. Behind
 * PAFJIRN_NO_MEMORY the handle keeps what it held.
 * Answers: DONE, NO_MEMORY. */
PAFJIRN_NONNULL uint32_t pafjirn_new(pafjirn_handle *engine);

/* Ends the engine that the handle holds, and gives its memory back. The handle then holds none, and can be
 * used for another. Without an engine it does nothing. It has no answer. */
PAFJIRN_NONNULL void pafjirn_free(pafjirn_handle *engine);

/* Names the platform whose keys count in extensions, before the load. The last call counts.
 * Answers: DONE; OUT_OF_ORDER behind the load; UNKNOWN for no platform or no engine. */
PAFJIRN_NONNULL uint32_t pafjirn_platform(pafjirn_handle *engine, uint32_t platform);

/* Takes a copy of a file's bytes, before the load, in the place of those before. Without a layout there is
 * one scope, window. Without rules there are none.
 * Answers: DONE; OUT_OF_ORDER behind the load; UNKNOWN for no file or no engine; NO_MEMORY. */
PAFJIRN_NONNULL uint32_t pafjirn_file(pafjirn_handle *engine, uint32_t file, const uint8_t *bytes,
                                      size_t length);

/* Takes a copy of the bytes of an extension's package.json and, if `has_handlers`, of its handlers.json,
 * before the load and behind those of earlier extensions. Without `has_handlers` the bytes of `handlers`
 * aren't read, but the pointer isn't null. An extension can't be taken back, not even behind a load that it
 * made fail: make a new engine then.
 * Answers: DONE; OUT_OF_ORDER behind the load; UNKNOWN without an engine; NO_MEMORY. */
PAFJIRN_NONNULL uint32_t pafjirn_extension(pafjirn_handle *engine, const uint8_t *manifest,
                                           size_t manifest_length, bool has_handlers, const uint8_t *handlers,
                                           size_t handlers_length);

/* Loads a session of the files. The notice then has its warnings. Behind PAFJIRN_REFUSED the notice says why,
 * and there is no session: the files stay, another file can be handed in, and the load can be repeated.
 * Answers: DONE; OUT_OF_ORDER behind a load; REFUSED; UNKNOWN without an engine; NO_MEMORY. */
PAFJIRN_NONNULL uint32_t pafjirn_load(pafjirn_handle *engine);

/* Has the session do what a line of a script says (docs/FORMATS.md). The line has no line feed at its end. A
 * refused event is answered with PAFJIRN_DONE here, and only the trace says that it was refused; the call of
 * its own answers PAFJIRN_REFUSED. A line that is no event, also one that isn't UTF-8, is answered with
 * PAFJIRN_DONE and traced as an unread line.
 * Answers: DONE, NOT_FOUND, BAD_ARGUMENTS, TRAPPED; OUT_OF_ORDER before the load; UNKNOWN without an engine;
 * NO_MEMORY, STOPPED. */
PAFJIRN_NONNULL uint32_t pafjirn_line(pafjirn_handle *engine, const uint8_t *line, size_t length);

/* Presses a key, by its text: ctrl+s. A press that no rule matches is answered with PAFJIRN_DONE.
 * Answers: DONE, NOT_FOUND, BAD_ARGUMENTS, TRAPPED; NO_KEY; OUT_OF_ORDER before the load; UNKNOWN without an
 * engine; NO_MEMORY, STOPPED. */
PAFJIRN_NONNULL uint32_t pafjirn_key(pafjirn_handle *engine, const uint8_t *key, size_t length);

/* Gives the focus to a scope, which ends an open chord. It is refused for an unknown scope (20).
 * Answers: DONE, REFUSED; NO_TEXT; OUT_OF_ORDER before the load; UNKNOWN without an engine; NO_MEMORY,
 * STOPPED. */
PAFJIRN_NONNULL uint32_t pafjirn_focus(pafjirn_handle *engine, const uint8_t *scope, size_t length);

/* Sets a context key of a scope to true or false. It is refused for an unknown scope (20), and for a new key
 * where there are 10,000 (22). A list and an object are set by a line: set SCOPE KEY JSON.
 * Answers: DONE, REFUSED; NO_TEXT; OUT_OF_ORDER before the load; UNKNOWN without an engine; NO_MEMORY,
 * STOPPED. */
PAFJIRN_NONNULL uint32_t pafjirn_set_truth(pafjirn_handle *engine, const uint8_t *scope, size_t scope_length,
                                           const uint8_t *key, size_t key_length, bool truth);

/* Sets a context key of a scope to a number, and is refused as pafjirn_set_truth is.
 * Answers: DONE, REFUSED; NO_TEXT; OUT_OF_ORDER before the load; UNKNOWN without an engine; NO_MEMORY,
 * STOPPED. */
PAFJIRN_NONNULL uint32_t pafjirn_set_number(pafjirn_handle *engine, const uint8_t *scope, size_t scope_length,
                                            const uint8_t *key, size_t key_length, int64_t number);

/* Sets a context key of a scope to a text, and is refused as pafjirn_set_truth is.
 * Answers: DONE, REFUSED; NO_TEXT; OUT_OF_ORDER before the load; UNKNOWN without an engine; NO_MEMORY,
 * STOPPED. */
PAFJIRN_NONNULL uint32_t pafjirn_set_text(pafjirn_handle *engine, const uint8_t *scope, size_t scope_length,
                                          const uint8_t *key, size_t key_length, const uint8_t *text,
                                          size_t text_length);

/* Removes a context key from a scope. A scope without the key stays as it is. It is refused for an unknown
 * scope (20).
 * Answers: DONE, REFUSED; NO_TEXT; OUT_OF_ORDER before the load; UNKNOWN without an engine; NO_MEMORY,
 * STOPPED. */
PAFJIRN_NONNULL uint32_t pafjirn_unset(pafjirn_handle *engine, const uint8_t *scope, size_t scope_length,
                                       const uint8_t *key, size_t key_length);

/* Lists the commands of the palette that a query finds, for pafjirn_entries and pafjirn_entry. An empty query
 * finds all.
 * Answers: DONE; NO_TEXT; OUT_OF_ORDER before the load; UNKNOWN without an engine; NO_MEMORY, STOPPED. */
PAFJIRN_NONNULL uint32_t pafjirn_palette(pafjirn_handle *engine, const uint8_t *query, size_t length);

/* Chooses the entry with this number, counted from 1, of the last palette, and starts its command. It is
 * refused (96) without such an entry.
 * Answers: DONE, REFUSED, NOT_FOUND, BAD_ARGUMENTS, TRAPPED; OUT_OF_ORDER before the load; UNKNOWN without an
 * engine; NO_MEMORY, STOPPED. */
PAFJIRN_NONNULL uint32_t pafjirn_choose(pafjirn_handle *engine, uint32_t number);

/* Looks up what a press of a key, by its text as in pafjirn_key, would take now, behind the keystrokes of the
 * open chord. Nothing is pressed: the session and the trace stay. pafjirn_taken, PAFJIRN_CHORD,
 * PAFJIRN_COMMAND, PAFJIRN_ARGUMENTS, PAFJIRN_SOURCE and pafjirn_place are then as behind the press.
 * Answers: DONE; NO_KEY; OUT_OF_ORDER before the load; UNKNOWN without an engine; NO_MEMORY, STOPPED. */
PAFJIRN_NONNULL uint32_t pafjirn_look_up(pafjirn_handle *engine, const uint8_t *key, size_t length);

/* Looks up the keystrokes that start a command in the present context, without an open chord: PAFJIRN_KEYS
 * then has a line for each, in canonical form, those of the lowest rule first. The first line is what a menu
 * shows, as VS Code's lookupKeybinding does. Not among them are the keystrokes of a rule whose clause or
 * enablement fails, those that a lower rule of another command takes, and those from which a lower rule goes
 * on. The keystrokes of a list are those of runCommands, and not of the commands in it. The trace and the
 * record stay.
 * Answers: DONE; NO_TEXT; OUT_OF_ORDER before the load; UNKNOWN without an engine; NO_MEMORY, STOPPED. */
PAFJIRN_NONNULL uint32_t pafjirn_keys_of(pafjirn_handle *engine, const uint8_t *command, size_t length);

/* Looks up the keystrokes that go on from those of the open chord, or the first keystrokes of rules if no
 * chord is open: PAFJIRN_KEYS then has a line for each, in canonical form, those of the lowest rule first. No
 * other key finds anything. pafjirn_look_up says what a press of each would take. The trace and the record
 * stay.
 * Answers: DONE; OUT_OF_ORDER before the load; UNKNOWN without an engine; NO_MEMORY, STOPPED. */
PAFJIRN_NONNULL uint32_t pafjirn_continuations(pafjirn_handle *engine);

/* Copies a text from a place on, as much as there is room for, and returns the length of the whole text,
 * which is also that where less was copied. The bytes of `into` behind what was copied stay. A place past the
 * end copies nothing. A `part` that stands for nothing, and a handle without an engine, read the empty text.
 * A read takes no memory and changes nothing. */
PAFJIRN_NONNULL size_t pafjirn_read(pafjirn_handle *engine, uint32_t part, size_t from, uint8_t *into,
                                    size_t room);

/* Returns what the last event did, or what the press that was looked up since would do: PAFJIRN_NOTHING,
 * PAFJIRN_CHORDING or PAFJIRN_STARTED. It is PAFJIRN_NOTHING before an event, behind one that is neither a
 * key press nor a choice, and without an engine. */
PAFJIRN_NONNULL uint32_t pafjirn_taken(pafjirn_handle *engine);

/* Returns the place of the rule that the last event took, or that the press would take which was looked up
 * since: the number of elements above it in its file, or in contributes.keybindings of its package.json. It
 * is also 0 where no rule is taken: then PAFJIRN_SOURCE is empty. */
PAFJIRN_NONNULL size_t pafjirn_place(pafjirn_handle *engine);

/* Returns how many steps of runCommands began in the last event. PAFJIRN_STEP is the command of the last one.
 * It is 0 behind any other event, and without an engine. */
PAFJIRN_NONNULL size_t pafjirn_steps(pafjirn_handle *engine);

/* Returns the number of entries of the last palette, until one of them is chosen. It is 0 without a palette,
 * and without an engine. */
PAFJIRN_NONNULL size_t pafjirn_entries(pafjirn_handle *engine);

/* Copies a text of an entry as pafjirn_read does, and returns its whole length. Entries are counted from 1.
 * Without such an entry or such a `part` the text is empty. */
PAFJIRN_NONNULL size_t pafjirn_entry(pafjirn_handle *engine, uint32_t number, uint32_t part, size_t from,
                                     uint8_t *into, size_t room);

/* The program keycheck over files in memory, beside the engine: nothing of it changes the session, and the
 * files of pafjirn_file aren't among those of pafjirn_put. Put the files, add the words of a command line,
 * run it, and read what it wrote:
 *
 *     pafjirn_put(&engine, "keybindings.json", 16, rules, rules_length);
 *     pafjirn_word(&engine, "keycheck", 8);
 *     pafjirn_word(&engine, "check", 5);
 *     pafjirn_word(&engine, "--user", 6);
 *     pafjirn_word(&engine, "keybindings.json", 16);
 *     pafjirn_keycheck(&engine);
 *     size_t length = pafjirn_written(&engine, PAFJIRN_OUTPUT, 0, text, sizeof text);
 *
 * (with casts to const uint8_t *). docs/KEYCHECK.md has the command lines, the exit statuses, and what is
 * written, which is what the program writes, byte for byte. */

/* Copies a file's bytes to a path, in the place of those before. A path is looked for as it is spelled; the
 * files of an extension in the folder `notes` are at notes/package.json and notes/handlers.json.
 * Answers: DONE; NO_TEXT for a path that isn't UTF-8; UNKNOWN without an engine; NO_MEMORY. Behind NO_TEXT
 * and NO_MEMORY nothing changed. */
PAFJIRN_NONNULL uint32_t pafjirn_put(pafjirn_handle *engine, const uint8_t *path, size_t path_length,
                                     const uint8_t *bytes, size_t bytes_length);

/* Removes the file at a path, if there is one.
 * Answers: DONE; NO_TEXT for a path that isn't UTF-8; UNKNOWN without an engine. */
PAFJIRN_NONNULL uint32_t pafjirn_remove(pafjirn_handle *engine, const uint8_t *path, size_t length);

/* Adds a word to the command line. The first word is the program's name.
 * Answers: DONE; NO_TEXT for a word that isn't UTF-8; UNKNOWN without an engine; NO_MEMORY. Behind NO_TEXT
 * and NO_MEMORY nothing changed. */
PAFJIRN_NONNULL uint32_t pafjirn_word(pafjirn_handle *engine, const uint8_t *word, size_t length);

/* Runs keycheck by the words of the command line, which are gone then, over the files that were put, which
 * stay. Where memory is refused, the answer is DONE and the exit status 4, as that of the program.
 * Answers: DONE; UNKNOWN without an engine. */
PAFJIRN_NONNULL uint32_t pafjirn_keycheck(pafjirn_handle *engine);

/* Returns the exit status of the last run of keycheck. It is 0 before any, and without an engine. */
PAFJIRN_NONNULL uint32_t pafjirn_status(pafjirn_handle *engine);

/* Copies what the last run of keycheck wrote as pafjirn_read does, and returns its whole length. A `stream`
 * that stands for nothing, and a handle without an engine, read the empty text. */
PAFJIRN_NONNULL size_t pafjirn_written(pafjirn_handle *engine, uint32_t stream, size_t from, uint8_t *into,
                                       size_t room);

#ifdef __cplusplus
}
#endif
#endif

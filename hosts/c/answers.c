/* Checks the answers of each call of the C library: in and out of order, with dead handles, with wrong texts,
 * and with two engines in turn. It prints each answer that differs from include/pafjirn.h. The status is 0 if
 * there is none. tools/check-hosts runs it.
 *
 * With the word `refused` it only looks up keys, while something else refuses memory (tools/preload). It then
 * prints `look-up` if a look-up was refused memory, and `event` if an event was, which stops the session. */
#include <pafjirn.h>
#include <stdio.h>
#include <string.h>

static int wrong;

static void expect(const char *what, unsigned long has, unsigned long wants) {
    if (has == wants) return;
    printf("%s: %lu, and not %lu\n", what, has, wants);
    wrong = 1;
}

/* A text as its bytes and their number. */
#define TEXT(text) (const uint8_t *)(text), strlen(text)

/* Compares a text that was read. */
static void expect_bytes(const char *what, const uint8_t *room, size_t size, size_t length,
                         const char *wants) {
    if (length == strlen(wants) && length <= size && memcmp(room, wants, length) == 0) return;
    printf("%s: %.*s, and not %s\n", what, (int)(length < size ? length : size), (const char *)room, wants);
    wrong = 1;
}

/* Reads a text of the engine, and compares it. */
static void expect_text(pafjirn_handle *engine, uint32_t part, const char *wants) {
    uint8_t room[256];
    char what[16];
    snprintf(what, sizeof what, "part %u", (unsigned)part);
    expect_bytes(what, room, sizeof room, pafjirn_read(engine, part, 0, room, sizeof room), wants);
}

/* Reads a text of an entry, and compares it. */
static void expect_entry(pafjirn_handle *engine, uint32_t number, uint32_t part, const char *wants) {
    uint8_t room[256];
    char what[32];
    snprintf(what, sizeof what, "entry %u, part %u", (unsigned)number, (unsigned)part);
    expect_bytes(what, room, sizeof room, pafjirn_entry(engine, number, part, 0, room, sizeof room), wants);
}

/* Reads what the last run of keycheck wrote to a stream, and compares it. */
static void expect_written(pafjirn_handle *engine, uint32_t stream, const char *wants) {
    uint8_t room[512];
    char what[16];
    snprintf(what, sizeof what, "stream %u", (unsigned)stream);
    expect_bytes(what, room, sizeof room, pafjirn_written(engine, stream, 0, room, sizeof room), wants);
}

/* Runs keycheck by the words of a line, and compares its exit status and what it wrote. */
static void expect_keycheck(pafjirn_handle *engine, const char *line, uint32_t status, const char *output,
                            const char *errors) {
    char words[64];
    snprintf(words, sizeof words, "keycheck %s", line);
    for (const char *word = strtok(words, " "); word; word = strtok(NULL, " "))
        expect(word, pafjirn_word(engine, TEXT(word)), PAFJIRN_DONE);
    expect(line, pafjirn_keycheck(engine), PAFJIRN_DONE);
    expect("its status", pafjirn_status(engine), status);
    expect_written(engine, PAFJIRN_OUTPUT, output);
    expect_written(engine, PAFJIRN_ERRORS, errors);
}

/* Compares the record of the last event: what it did, and its texts. */
static void expect_record(pafjirn_handle *engine, uint32_t kind, const char *chord, const char *command,
                          const char *arguments, const char *source) {
    expect("the kind", pafjirn_taken(engine), kind);
    expect_text(engine, PAFJIRN_CHORD, chord);
    expect_text(engine, PAFJIRN_COMMAND, command);
    expect_text(engine, PAFJIRN_ARGUMENTS, arguments);
    expect_text(engine, PAFJIRN_SOURCE, source);
}

/* Makes an engine with these files and loads it. */
static void load(pafjirn_handle *engine, const char *layout, const char *user, const char *manifest) {
    expect("an engine", pafjirn_new(engine), PAFJIRN_DONE);
    expect("a platform", pafjirn_platform(engine, PAFJIRN_MAC), PAFJIRN_DONE);
    expect("a layout", pafjirn_file(engine, PAFJIRN_LAYOUT, TEXT(layout)), PAFJIRN_DONE);
    expect("rules", pafjirn_file(engine, PAFJIRN_USER, TEXT(user)), PAFJIRN_DONE);
    expect("an extension", pafjirn_extension(engine, TEXT(manifest), false, TEXT("")), PAFJIRN_DONE);
    expect("a load", pafjirn_load(engine), PAFJIRN_DONE);
}

static void dead_handles(void) {
    pafjirn_handle dead = {0};
    uint8_t room[4] = "abc";
    expect("a platform without an engine", pafjirn_platform(&dead, PAFJIRN_MAC), PAFJIRN_UNKNOWN);
    expect("a file without an engine", pafjirn_file(&dead, PAFJIRN_USER, TEXT("[]")), PAFJIRN_UNKNOWN);
    expect("an extension without an engine", pafjirn_extension(&dead, TEXT("{}"), true, TEXT("{}")),
           PAFJIRN_UNKNOWN);
    expect("a load without an engine", pafjirn_load(&dead), PAFJIRN_UNKNOWN);
    expect("a line without an engine", pafjirn_line(&dead, TEXT("key a")), PAFJIRN_UNKNOWN);
    expect("a key without an engine", pafjirn_key(&dead, TEXT("a")), PAFJIRN_UNKNOWN);
    expect("a focus without an engine", pafjirn_focus(&dead, TEXT("window")), PAFJIRN_UNKNOWN);
    expect("a truth without an engine", pafjirn_set_truth(&dead, TEXT("window"), TEXT("k"), true),
           PAFJIRN_UNKNOWN);
    expect("a number without an engine", pafjirn_set_number(&dead, TEXT("window"), TEXT("k"), 1),
           PAFJIRN_UNKNOWN);
    expect("a text without an engine", pafjirn_set_text(&dead, TEXT("window"), TEXT("k"), TEXT("t")),
           PAFJIRN_UNKNOWN);
    expect("an unset without an engine", pafjirn_unset(&dead, TEXT("window"), TEXT("k")), PAFJIRN_UNKNOWN);
    expect("a palette without an engine", pafjirn_palette(&dead, TEXT("")), PAFJIRN_UNKNOWN);
    expect("a choice without an engine", pafjirn_choose(&dead, 1), PAFJIRN_UNKNOWN);
    expect("a look-up without an engine", pafjirn_look_up(&dead, TEXT("a")), PAFJIRN_UNKNOWN);
    expect("no key without an engine", pafjirn_look_up(&dead, TEXT("ctrl+")), PAFJIRN_UNKNOWN);
    expect("keys without an engine", pafjirn_keys_of(&dead, TEXT("type")), PAFJIRN_UNKNOWN);
    expect("no text without an engine", pafjirn_keys_of(&dead, TEXT("\xff")), PAFJIRN_UNKNOWN);
    expect("continuations without an engine", pafjirn_continuations(&dead), PAFJIRN_UNKNOWN);
    expect("their text without an engine", pafjirn_read(&dead, PAFJIRN_KEYS, 0, room, sizeof room), 0);
    expect("a read without an engine", pafjirn_read(&dead, PAFJIRN_TRACE, 0, room, sizeof room), 0);
    expect("an entry without an engine", pafjirn_entry(&dead, 1, PAFJIRN_LABEL, 0, room, sizeof room), 0);
    expect("the room after both", (unsigned long)memcmp(room, "abc", 4), 0);
    expect("entries without an engine", pafjirn_entries(&dead), 0);
    expect("the kind without an engine", pafjirn_taken(&dead), PAFJIRN_NOTHING);
    expect("the place without an engine", pafjirn_place(&dead), 0);
    pafjirn_free(&dead);
    expect("an engine", pafjirn_new(&dead), PAFJIRN_DONE);
    expect("an engine in its place", pafjirn_new(&dead), PAFJIRN_DONE);
    pafjirn_free(&dead);
    pafjirn_free(&dead);
    expect("a key after the end", pafjirn_key(&dead, TEXT("a")), PAFJIRN_UNKNOWN);
    expect("a look-up after the end", pafjirn_look_up(&dead, TEXT("a")), PAFJIRN_UNKNOWN);
}

/* keycheck with a handle that never had an engine, and with one whose engine ended. */
static void keycheck_without_an_engine(void) {
    pafjirn_handle dead = {0};
    uint8_t room[4] = "abc";
    for (int time = 0; time < 2; time++) {
        expect("a file without an engine", pafjirn_put(&dead, TEXT("k"), TEXT("[]")), PAFJIRN_UNKNOWN);
        expect("a removal without an engine", pafjirn_remove(&dead, TEXT("k")), PAFJIRN_UNKNOWN);
        expect("a word without an engine", pafjirn_word(&dead, TEXT("keycheck")), PAFJIRN_UNKNOWN);
        expect("keycheck without an engine", pafjirn_keycheck(&dead), PAFJIRN_UNKNOWN);
        expect("a status without an engine", pafjirn_status(&dead), 0);
        expect("a stream without an engine", pafjirn_written(&dead, PAFJIRN_ERRORS, 0, room, sizeof room), 0);
        expect("the room after it", (unsigned long)memcmp(room, "abc", 4), 0);
        if (time) return;
        expect("an engine", pafjirn_new(&dead), PAFJIRN_DONE);
        expect_keycheck(&dead, "list --user k", 3, "", "cannot read k: there is no such file\n");
        pafjirn_free(&dead);
    }
}

static void out_of_order(void) {
    pafjirn_handle engine = {0};
    expect("an engine", pafjirn_new(&engine), PAFJIRN_DONE);
    expect("a key before the load", pafjirn_key(&engine, TEXT("a")), PAFJIRN_OUT_OF_ORDER);
    expect("a line before the load", pafjirn_line(&engine, TEXT("key a")), PAFJIRN_OUT_OF_ORDER);
    expect("a palette before the load", pafjirn_palette(&engine, TEXT("")), PAFJIRN_OUT_OF_ORDER);
    expect("a choice before the load", pafjirn_choose(&engine, 1), PAFJIRN_OUT_OF_ORDER);
    expect("a look-up before the load", pafjirn_look_up(&engine, TEXT("a")), PAFJIRN_OUT_OF_ORDER);
    expect("no key before the load", pafjirn_look_up(&engine, TEXT("ctrl+")), PAFJIRN_NO_KEY);
    expect("keys before the load", pafjirn_keys_of(&engine, TEXT("type")), PAFJIRN_OUT_OF_ORDER);
    expect("no text before the load", pafjirn_keys_of(&engine, TEXT("\xff")), PAFJIRN_NO_TEXT);
    expect("continuations before the load", pafjirn_continuations(&engine), PAFJIRN_OUT_OF_ORDER);
    expect_text(&engine, PAFJIRN_KEYS, "");
    expect("no file", pafjirn_file(&engine, 3, TEXT("[]")), PAFJIRN_UNKNOWN);
    expect("no platform", pafjirn_platform(&engine, 3), PAFJIRN_UNKNOWN);
    expect("a bad file", pafjirn_file(&engine, PAFJIRN_USER, TEXT("{")), PAFJIRN_DONE);
    expect("its load", pafjirn_load(&engine), PAFJIRN_REFUSED);
    expect_text(&engine, PAFJIRN_NOTICE, "load refused: user 4 Syntax\n");
    expect("a good file", pafjirn_file(&engine, PAFJIRN_USER, TEXT("[]")), PAFJIRN_DONE);
    expect("its load", pafjirn_load(&engine), PAFJIRN_DONE);
    expect_text(&engine, PAFJIRN_NOTICE, "");
    expect("a second load", pafjirn_load(&engine), PAFJIRN_OUT_OF_ORDER);
    expect("a platform after the load", pafjirn_platform(&engine, PAFJIRN_MAC), PAFJIRN_OUT_OF_ORDER);
    expect("a file after the load", pafjirn_file(&engine, PAFJIRN_USER, TEXT("[]")), PAFJIRN_OUT_OF_ORDER);
    expect("an extension after the load", pafjirn_extension(&engine, TEXT("{}"), false, TEXT("")),
           PAFJIRN_OUT_OF_ORDER);
    expect("keys without rules", pafjirn_keys_of(&engine, TEXT("type")), PAFJIRN_DONE);
    expect_text(&engine, PAFJIRN_KEYS, "");
    expect("continuations without rules", pafjirn_continuations(&engine), PAFJIRN_DONE);
    expect_text(&engine, PAFJIRN_KEYS, "");
    expect("no part", pafjirn_read(&engine, 10, 0, (uint8_t[1]){0}, 1), 0);
    pafjirn_free(&engine);
}

/* What is refused, what is no text, and what then stands of the event before. */
static void refusals(void) {
    pafjirn_handle engine = {0};
    load(&engine, "{\"scopes\":[{\"name\":\"window\"}]}",
         "[{\"key\":\"a\",\"command\":\"type\",\"args\":\"A\"}]", "{\"name\":\"e\",\"publisher\":\"p\"}");
    expect("a focus on no scope", pafjirn_focus(&engine, TEXT("nowhere")), PAFJIRN_REFUSED);
    expect_text(&engine, PAFJIRN_TRACE, "refused 20 UnknownScope\n");
    expect("the same by a line", pafjirn_line(&engine, TEXT("focus nowhere")), PAFJIRN_DONE);
    expect_text(&engine, PAFJIRN_TRACE, "refused 20 UnknownScope\n");
    expect("a truth of no scope", pafjirn_set_truth(&engine, TEXT("no"), TEXT("k"), true), PAFJIRN_REFUSED);
    expect("a number of no scope", pafjirn_set_number(&engine, TEXT("no"), TEXT("k"), 1), PAFJIRN_REFUSED);
    expect("a text of no scope", pafjirn_set_text(&engine, TEXT("no"), TEXT("k"), TEXT("t")),
           PAFJIRN_REFUSED);
    expect("an unset of no scope", pafjirn_unset(&engine, TEXT("no"), TEXT("k")), PAFJIRN_REFUSED);
    expect("a choice without a palette", pafjirn_choose(&engine, 1), PAFJIRN_REFUSED);
    expect_text(&engine, PAFJIRN_TRACE, "refused 96 NoEntry\n");
    expect("no line", pafjirn_line(&engine, TEXT("\xff")), PAFJIRN_DONE);
    expect("a press", pafjirn_key(&engine, TEXT("a")), PAFJIRN_DONE);
    expect("no key", pafjirn_key(&engine, TEXT("ctrl+")), PAFJIRN_NO_KEY);
    expect("no text of a scope", pafjirn_focus(&engine, TEXT("\xff")), PAFJIRN_NO_TEXT);
    expect("no text of a key", pafjirn_set_truth(&engine, TEXT("window"), TEXT("\xff"), true),
           PAFJIRN_NO_TEXT);
    expect("no text of a value", pafjirn_set_text(&engine, TEXT("window"), TEXT("k"), TEXT("\xff")),
           PAFJIRN_NO_TEXT);
    expect("no text of a query", pafjirn_palette(&engine, TEXT("\xff")), PAFJIRN_NO_TEXT);
    expect_text(&engine, PAFJIRN_TRACE, "key a: start type\ndone \"A\" \"\"\n");
    expect_record(&engine, PAFJIRN_STARTED, "a", "type", "\"A\"", "user");
    pafjirn_free(&engine);
}

/* The focus and the context keys: a rule for each value, which only the right value lets a press take. */
static void context_keys(void) {
    pafjirn_handle engine = {0};
    load(&engine, "{\"scopes\":[{\"name\":\"window\"},{\"name\":\"editor\",\"parent\":\"window\"}]}",
         "[{\"key\":\"x\",\"command\":\"type\",\"args\":\"t\",\"when\":\"truth\"},"
         "{\"key\":\"x\",\"command\":\"type\",\"args\":\"n\",\"when\":\"number == -7\"},"
         "{\"key\":\"x\",\"command\":\"type\",\"args\":\"w\",\"when\":\"word == b\"}]",
         "{\"name\":\"e\",\"publisher\":\"p\"}");
    expect("a focus", pafjirn_focus(&engine, TEXT("editor")), PAFJIRN_DONE);
    expect_text(&engine, PAFJIRN_TRACE, "focus editor\n");
    expect_record(&engine, PAFJIRN_NOTHING, "", "", "", "");
    expect("a press without a rule", pafjirn_key(&engine, TEXT("x")), PAFJIRN_DONE);
    expect_record(&engine, PAFJIRN_NOTHING, "x", "", "", "");
    expect("a truth", pafjirn_set_truth(&engine, TEXT("window"), TEXT("truth"), true), PAFJIRN_DONE);
    expect_text(&engine, PAFJIRN_TRACE, "set window truth\n");
    expect("a press", pafjirn_key(&engine, TEXT("x")), PAFJIRN_DONE);
    expect("the place of its rule", pafjirn_place(&engine), 0);
    expect("a number", pafjirn_set_number(&engine, TEXT("editor"), TEXT("number"), -7), PAFJIRN_DONE);
    expect("a press", pafjirn_key(&engine, TEXT("x")), PAFJIRN_DONE);
    expect("the place of its rule", pafjirn_place(&engine), 1);
    expect("a text", pafjirn_set_text(&engine, TEXT("editor"), TEXT("word"), TEXT("b")), PAFJIRN_DONE);
    expect("a press", pafjirn_key(&engine, TEXT("x")), PAFJIRN_DONE);
    expect("the place of its rule", pafjirn_place(&engine), 2);
    expect("an unset", pafjirn_unset(&engine, TEXT("editor"), TEXT("word")), PAFJIRN_DONE);
    expect_text(&engine, PAFJIRN_TRACE, "unset editor word\n");
    expect("a press", pafjirn_key(&engine, TEXT("x")), PAFJIRN_DONE);
    expect_text(&engine, PAFJIRN_BEFORE, "tnwn");
    expect("a focus outward", pafjirn_focus(&engine, TEXT("window")), PAFJIRN_DONE);
    expect("a press", pafjirn_key(&engine, TEXT("x")), PAFJIRN_DONE);
    expect_text(&engine, PAFJIRN_BEFORE, "tnwnt");
    pafjirn_free(&engine);
}

/* The palette, and its choices. */
static void palettes(void) {
    pafjirn_handle engine = {0};
    load(&engine, "{\"scopes\":[{\"name\":\"window\"}]}", "[]",
         "{\"name\":\"e\",\"publisher\":\"p\",\"contributes\":{\"commands\":["
         "{\"command\":\"buffer.top\",\"title\":\"To the Top\",\"category\":\"Text\"},"
         "{\"command\":\"my.own\",\"title\":\"My Own\"}]}}");
    expect("entries before a palette", pafjirn_entries(&engine), 0);
    expect("a palette", pafjirn_palette(&engine, TEXT("")), PAFJIRN_DONE);
    expect("its entries", pafjirn_entries(&engine), 2);
    expect_entry(&engine, 1, PAFJIRN_LABEL, "My Own");
    expect_entry(&engine, 2, PAFJIRN_LABEL, "Text: To the Top");
    expect_entry(&engine, 2, PAFJIRN_ENTRY_COMMAND, "buffer.top");
    expect_entry(&engine, 0, PAFJIRN_LABEL, "");
    expect_entry(&engine, 3, PAFJIRN_LABEL, "");
    expect_entry(&engine, 1, 2, "");
    expect("a query", pafjirn_palette(&engine, TEXT("te to")), PAFJIRN_DONE);
    expect("its entries", pafjirn_entries(&engine), 1);
    expect("a choice past the end", pafjirn_choose(&engine, 2), PAFJIRN_REFUSED);
    expect("the entries after it", pafjirn_entries(&engine), 1);
    expect("a choice", pafjirn_choose(&engine, 1), PAFJIRN_DONE);
    expect_text(&engine, PAFJIRN_TRACE, "choose 1: start buffer.top\ndone \"\" \"\"\n");
    expect_record(&engine, PAFJIRN_STARTED, "", "buffer.top", "", "");
    expect("the place without a rule", pafjirn_place(&engine), 0);
    expect("the entries after a choice", pafjirn_entries(&engine), 0);
    expect("a query of words in upper case", pafjirn_palette(&engine, TEXT("OWN")), PAFJIRN_DONE);
    expect("a choice of the host's own", pafjirn_choose(&engine, 1), PAFJIRN_NOT_FOUND);
    expect_record(&engine, PAFJIRN_STARTED, "", "my.own", "", "");
    pafjirn_free(&engine);
}

/* A chord, and a step of runCommands that is the host's own. */
static void chords_and_steps(void) {
    pafjirn_handle engine = {0};
    load(&engine, "{\"scopes\":[{\"name\":\"window\"}]}",
         "[{\"key\":\"a b\",\"command\":\"runCommands\",\"args\":{\"commands\":[\"buffer.top\",\"my.own\"]}},"
         "{\"key\":\"c\",\"command\":\"type\",\"args\":[]},"
         "{\"key\":\"d\",\"command\":\"runCommands\","
         "\"args\":{\"commands\":[\"buffer.top\",\"x\\nrun y\"]}}]",
         "{\"name\":\"e\",\"publisher\":\"p\"}");
    expect("a first keystroke", pafjirn_key(&engine, TEXT("a")), PAFJIRN_DONE);
    expect_record(&engine, PAFJIRN_CHORDING, "a", "", "", "");
    expect("a second one", pafjirn_key(&engine, TEXT("b")), PAFJIRN_NOT_FOUND);
    expect_record(&engine, PAFJIRN_STARTED, "a b", "runCommands",
                  "{\"commands\":[\"buffer.top\",\"my.own\"]}", "user");
    expect_text(&engine, PAFJIRN_TRACE,
                "key a b: start runCommands\nrun buffer.top\ndone \"\" \"\"\nrun my.own\nnot found my.own\n");
    expect("the steps that began", pafjirn_steps(&engine), 2);
    expect_text(&engine, PAFJIRN_STEP, "my.own");
    expect("bad arguments", pafjirn_key(&engine, TEXT("c")), PAFJIRN_BAD_ARGUMENTS);
    expect("the steps of another command", pafjirn_steps(&engine), 0);
    expect_text(&engine, PAFJIRN_STEP, "");
    expect("a step with a line feed", pafjirn_key(&engine, TEXT("d")), PAFJIRN_NOT_FOUND);
    expect("its number", pafjirn_steps(&engine), 2);
    expect_text(&engine, PAFJIRN_STEP, "x\nrun y");
    expect("a look-up behind it", pafjirn_look_up(&engine, TEXT("c")), PAFJIRN_DONE);
    expect_record(&engine, PAFJIRN_STARTED, "c", "type", "[]", "user");
    expect("the steps behind the look-up", pafjirn_steps(&engine), 2);
    expect_text(&engine, PAFJIRN_STEP, "x\nrun y");
    expect("keys of a step", pafjirn_keys_of(&engine, TEXT("my.own")), PAFJIRN_DONE);
    expect_text(&engine, PAFJIRN_KEYS, "");
    expect("keys of runCommands", pafjirn_keys_of(&engine, TEXT("runCommands")), PAFJIRN_DONE);
    expect_text(&engine, PAFJIRN_KEYS, "d\na b\n");
    pafjirn_free(&engine);
    expect("the steps without an engine", pafjirn_steps(&engine), 0);
}

/* Rules for look-ups. Rule 0 has the keys and the command of rule 7; rule 3 takes the key of rule 1, and
 * rules 5 and 6 go on from that of rule 4. */
#define LOOKED_UP \
    "[{\"key\":\"ctrl+a\",\"command\":\"type\",\"args\":\"a\"}," \
    "{\"key\":\"ctrl+b\",\"command\":\"type\",\"args\":\"b\"}," \
    "{\"key\":\"shift+Ctrl+c\",\"command\":\"type\",\"args\":\"c\",\"when\":\"k\"}," \
    "{\"key\":\"ctrl+b\",\"command\":\"my.own\"}," \
    "{\"key\":\"ctrl+d\",\"command\":\"other\"}," \
    "{\"key\":\"ctrl+d ctrl+e\",\"command\":\"my.own\",\"args\":[1, \"e\"]}," \
    "{\"key\":\"ctrl+d x\",\"command\":\"\"}," \
    "{\"key\":\"ctrl+a\",\"command\":\"type\",\"args\":\"A\"}]"

/* Looks up the keys of a command, and compares them. */
static void expect_keys(pafjirn_handle *engine, const char *command, const char *wants) {
    expect(command, pafjirn_keys_of(engine, TEXT(command)), PAFJIRN_DONE);
    expect_text(engine, PAFJIRN_KEYS, wants);
}

/* Looks up the keys that go on, and compares them. */
static void expect_continuations(pafjirn_handle *engine, const char *wants) {
    expect("continuations", pafjirn_continuations(engine), PAFJIRN_DONE);
    expect_text(engine, PAFJIRN_KEYS, wants);
}

/* Looks up a key, and compares what its press would take of the user's rules. */
static void expect_found(pafjirn_handle *engine, const char *key, uint32_t kind, const char *chord,
                         const char *command, const char *arguments, unsigned long place) {
    expect(key, pafjirn_look_up(engine, TEXT(key)), PAFJIRN_DONE);
    expect_record(engine, kind, chord, command, arguments, kind == PAFJIRN_STARTED ? "user" : "");
    expect("its place", pafjirn_place(engine), place);
}

/* What a press would take, and which keys start a command: a look-up presses nothing. */
static void look_ups(void) {
    pafjirn_handle engine = {0};
    load(&engine, "{\"scopes\":[{\"name\":\"window\"}]}", LOOKED_UP, "{\"name\":\"e\",\"publisher\":\"p\"}");
    expect_found(&engine, "ctrl+a", PAFJIRN_STARTED, "ctrl+a", "type", "\"A\"", 7);
    expect_text(&engine, PAFJIRN_TRACE, "");
    expect_text(&engine, PAFJIRN_BEFORE, "");
    expect_found(&engine, "Ctrl+B", PAFJIRN_STARTED, "ctrl+b", "my.own", "", 3);
    expect_found(&engine, "ctrl+shift+c", PAFJIRN_NOTHING, "ctrl+shift+c", "", "", 0);
    expect_found(&engine, "ctrl+d", PAFJIRN_CHORDING, "ctrl+d", "", "", 0);
    expect_found(&engine, "ctrl+e", PAFJIRN_NOTHING, "ctrl+e", "", "", 0);
    expect_keys(&engine, "type", "ctrl+a\n");
    expect_keys(&engine, "my.own", "ctrl+d ctrl+e\nctrl+b\n");
    expect_keys(&engine, "other", "");
    expect_keys(&engine, "no.such", "");
    expect_keys(&engine, "", "ctrl+d x\n");
    expect_continuations(&engine, "ctrl+a\nctrl+d\nctrl+b\n");
    expect("a truth", pafjirn_set_truth(&engine, TEXT("window"), TEXT("k"), true), PAFJIRN_DONE);
    expect_text(&engine, PAFJIRN_KEYS, "ctrl+a\nctrl+d\nctrl+b\n");
    expect_found(&engine, "ctrl+shift+c", PAFJIRN_STARTED, "ctrl+shift+c", "type", "\"c\"", 2);
    expect_keys(&engine, "type", "ctrl+a\nctrl+shift+c\n");
    expect_continuations(&engine, "ctrl+a\nctrl+d\nctrl+b\nctrl+shift+c\n");
    expect_text(&engine, PAFJIRN_TRACE, "set window k\n");
    pafjirn_free(&engine);
}

/* The same behind the first keystroke of a chord, and what isn't looked up. */
static void look_ups_in_a_chord(void) {
    pafjirn_handle engine = {0};
    load(&engine, "{\"scopes\":[{\"name\":\"window\"}]}", LOOKED_UP, "{\"name\":\"e\",\"publisher\":\"p\"}");
    expect("a first keystroke", pafjirn_key(&engine, TEXT("ctrl+d")), PAFJIRN_DONE);
    expect_continuations(&engine, "x\nctrl+e\n");
    expect_keys(&engine, "type", "ctrl+a\n");
    expect_record(&engine, PAFJIRN_CHORDING, "ctrl+d", "", "", "");
    expect_found(&engine, "x", PAFJIRN_STARTED, "ctrl+d x", "", "", 6);
    expect_found(&engine, "ctrl+a", PAFJIRN_NOTHING, "ctrl+d ctrl+a", "", "", 0);
    expect_found(&engine, "ctrl+e", PAFJIRN_STARTED, "ctrl+d ctrl+e", "my.own", "[1,\"e\"]", 5);
    expect("no key", pafjirn_look_up(&engine, TEXT("ctrl+")), PAFJIRN_NO_KEY);
    expect("two keys", pafjirn_look_up(&engine, TEXT("ctrl+e x")), PAFJIRN_NO_KEY);
    expect("no text of a key", pafjirn_look_up(&engine, TEXT("\xff")), PAFJIRN_NO_KEY);
    expect("no text of a command", pafjirn_keys_of(&engine, TEXT("\xff")), PAFJIRN_NO_TEXT);
    expect_record(&engine, PAFJIRN_STARTED, "ctrl+d ctrl+e", "my.own", "[1,\"e\"]", "user");
    expect_text(&engine, PAFJIRN_KEYS, "ctrl+a\n");
    expect_text(&engine, PAFJIRN_TRACE, "key ctrl+d: chord\n");
    expect("the press", pafjirn_key(&engine, TEXT("ctrl+e")), PAFJIRN_NOT_FOUND);
    expect_record(&engine, PAFJIRN_STARTED, "ctrl+d ctrl+e", "my.own", "[1,\"e\"]", "user");
    expect("its place", pafjirn_place(&engine), 5);
    expect_text(&engine, PAFJIRN_TRACE, "key ctrl+d ctrl+e: start my.own\nnot found my.own\n");
    expect_continuations(&engine, "ctrl+a\nctrl+d\nctrl+b\n");
    pafjirn_free(&engine);
}

/* Look-ups behind a stop: none is answered, and all texts stay. */
static void stopped_look_ups(pafjirn_handle *engine) {
    puts("event");
    expect("a look-up behind a stop", pafjirn_look_up(engine, TEXT("ctrl+a")), PAFJIRN_STOPPED);
    expect("no key behind a stop", pafjirn_look_up(engine, TEXT("ctrl+")), PAFJIRN_NO_KEY);
    expect("keys behind a stop", pafjirn_keys_of(engine, TEXT("type")), PAFJIRN_STOPPED);
    expect("no text behind a stop", pafjirn_keys_of(engine, TEXT("\xff")), PAFJIRN_NO_TEXT);
    expect("continuations behind a stop", pafjirn_continuations(engine), PAFJIRN_STOPPED);
    expect_record(engine, PAFJIRN_NOTHING, "", "", "", "");
    expect_text(engine, PAFJIRN_KEYS, "x\nctrl+e\n");
    expect_text(engine, PAFJIRN_TRACE, "");
}

/* Look-ups while memory is refused once: the one that is refused it changes nothing, and is done when it is
 * repeated; an event that is refused it stops the session. */
static void refused_look_ups(void) {
    pafjirn_handle engine = {0};
    if (pafjirn_new(&engine) || pafjirn_file(&engine, PAFJIRN_USER, TEXT(LOOKED_UP)) || pafjirn_load(&engine)
        || pafjirn_key(&engine, TEXT("ctrl+d")) || pafjirn_continuations(&engine)) {
        pafjirn_free(&engine);
        return;
    }
    if (pafjirn_look_up(&engine, TEXT("ctrl+e")) == PAFJIRN_NO_MEMORY) {
        puts("look-up");
        expect_record(&engine, PAFJIRN_CHORDING, "ctrl+d", "", "", "");
        expect("a look-up again", pafjirn_look_up(&engine, TEXT("ctrl+e")), PAFJIRN_DONE);
    }
    expect_record(&engine, PAFJIRN_STARTED, "ctrl+d ctrl+e", "my.own", "[1,\"e\"]", "user");
    if (pafjirn_keys_of(&engine, TEXT("my.own")) == PAFJIRN_NO_MEMORY) {
        puts("look-up");
        expect_text(&engine, PAFJIRN_KEYS, "x\nctrl+e\n");
        expect("keys again", pafjirn_keys_of(&engine, TEXT("my.own")), PAFJIRN_DONE);
    }
    expect_text(&engine, PAFJIRN_KEYS, "ctrl+d ctrl+e\nctrl+b\n");
    if (pafjirn_continuations(&engine) == PAFJIRN_NO_MEMORY) {
        puts("look-up");
        expect_text(&engine, PAFJIRN_KEYS, "ctrl+d ctrl+e\nctrl+b\n");
        expect("continuations again", pafjirn_continuations(&engine), PAFJIRN_DONE);
    }
    expect_text(&engine, PAFJIRN_KEYS, "x\nctrl+e\n");
    expect_text(&engine, PAFJIRN_TRACE, "key ctrl+d: chord\n");
    uint32_t pressed = pafjirn_key(&engine, TEXT("ctrl+e"));
    if (pressed == PAFJIRN_NO_MEMORY) stopped_look_ups(&engine);
    else expect("the press", pressed, PAFJIRN_NOT_FOUND);
    pafjirn_free(&engine);
}

/* What keycheck shows of a rule without a command. */
#define SHOWN \
    "k:1:2: error: 40 MissingMember: the rule has no member `command`; the rule is dropped\n" \
    "    [{\"key\":\"a\"}]\n     ^\n1 problem: 1 error\n"

/* keycheck over files that are put, put again and removed. */
static void keychecks(void) {
    pafjirn_handle engine = {0};
    expect("an engine", pafjirn_new(&engine), PAFJIRN_DONE);
    expect("the status before a run", pafjirn_status(&engine), 0);
    expect_written(&engine, PAFJIRN_OUTPUT, "");
    expect_written(&engine, PAFJIRN_ERRORS, "");
    expect("a file", pafjirn_put(&engine, TEXT("k"), TEXT("[{\"key\":\"a\"}]")), PAFJIRN_DONE);
    expect("no text of a path", pafjirn_put(&engine, TEXT("\xff"), TEXT("[]")), PAFJIRN_NO_TEXT);
    expect("no text of a path to remove", pafjirn_remove(&engine, TEXT("\xff")), PAFJIRN_NO_TEXT);
    expect("a path without a file", pafjirn_remove(&engine, TEXT("l")), PAFJIRN_DONE);
    expect_keycheck(&engine, "check --user k", 1, SHOWN, "");
    expect_written(&engine, 2, "");
    expect_keycheck(&engine, "check --user l", 3, "", "cannot read l: there is no such file\n");
    expect_keycheck(&engine, "check --user k", 1, SHOWN, "");
    expect("the word of a run without others", pafjirn_word(&engine, TEXT("keycheck")), PAFJIRN_DONE);
    expect("no text of a word", pafjirn_word(&engine, TEXT("\xff")), PAFJIRN_NO_TEXT);
    expect("its run", pafjirn_keycheck(&engine), PAFJIRN_DONE);
    expect("its status", pafjirn_status(&engine), 2);
    expect_written(&engine, PAFJIRN_OUTPUT, "");
    expect("a file in its place", pafjirn_put(&engine, TEXT("k"), TEXT("[]")), PAFJIRN_DONE);
    expect_keycheck(&engine, "check --user k", 0, "", "");
    expect("a removal", pafjirn_remove(&engine, TEXT("k")), PAFJIRN_DONE);
    expect("a second one", pafjirn_remove(&engine, TEXT("k")), PAFJIRN_DONE);
    expect_keycheck(&engine, "check --user k", 3, "", "cannot read k: there is no such file\n");
    pafjirn_free(&engine);
}

/* keycheck beside a session: both streams of a run, parts of them, and a session that stays as it was. */
static void keycheck_beside_a_session(void) {
    pafjirn_handle engine = {0};
    uint8_t room[8] = "abcdefg";
    load(&engine, "{\"scopes\":[{\"name\":\"window\"}]}",
         "[{\"key\":\"a\",\"command\":\"type\",\"args\":\"A\"}]", "{\"name\":\"e\",\"publisher\":\"p\"}");
    expect("a press", pafjirn_key(&engine, TEXT("a")), PAFJIRN_DONE);
    expect("a script", pafjirn_put(&engine, TEXT("s"), TEXT("set window k 1\nno line\n")), PAFJIRN_DONE);
    expect_keycheck(&engine, "context --script s", 0, "k: 1 (window)\n", "script: unread line 2\n");
    expect("a part", pafjirn_written(&engine, PAFJIRN_OUTPUT, 3, room, 1), 14);
    expect("its byte and the one behind it", (unsigned long)memcmp(room, "1bc", 3), 0);
    expect("a part past the end", pafjirn_written(&engine, PAFJIRN_ERRORS, 100, room, sizeof room), 22);
    expect("the room after it", (unsigned long)memcmp(room, "1bcdefg", 8), 0);
    expect_text(&engine, PAFJIRN_TRACE, "key a: start type\ndone \"A\" \"\"\n");
    expect_record(&engine, PAFJIRN_STARTED, "a", "type", "\"A\"", "user");
    expect("a press after it", pafjirn_key(&engine, TEXT("a")), PAFJIRN_DONE);
    expect_text(&engine, PAFJIRN_BEFORE, "AA");
    expect_written(&engine, PAFJIRN_OUTPUT, "k: 1 (window)\n");
    pafjirn_free(&engine);
}

static void two_engines(void) {
    pafjirn_handle one = {0}, other = {0};
    uint8_t room[8];
    pafjirn_new(&one);
    pafjirn_new(&other);
    pafjirn_file(&one, PAFJIRN_USER, TEXT("[{\"key\":\"a\",\"command\":\"type\",\"args\":\"A\"}]"));
    pafjirn_file(&other, PAFJIRN_USER, TEXT("[{\"key\":\"a\",\"command\":\"own\",\"args\":[1, \"B\"]}]"));
    expect("a load", pafjirn_load(&one), PAFJIRN_DONE);
    expect("another", pafjirn_load(&other), PAFJIRN_DONE);
    expect("a press", pafjirn_key(&one, TEXT("a")), PAFJIRN_DONE);
    expect("another", pafjirn_key(&other, TEXT("a")), PAFJIRN_NOT_FOUND);
    expect("one more", pafjirn_key(&one, TEXT("a")), PAFJIRN_DONE);
    expect_text(&one, PAFJIRN_BEFORE, "AA");
    expect_text(&one, PAFJIRN_AFTER, "");
    expect_text(&one, PAFJIRN_TRACE, "key a: start type\ndone \"AA\" \"\"\n");
    expect_record(&other, PAFJIRN_STARTED, "a", "own", "[1,\"B\"]", "user");
    expect("a part of a text", pafjirn_read(&one, PAFJIRN_TRACE, 4, room, 1), 31);
    expect("its byte", room[0], 'a');
    expect("a read past the end", pafjirn_read(&one, PAFJIRN_TRACE, 1000, room, sizeof room), 31);
    expect("a read without a room", pafjirn_read(&one, PAFJIRN_TRACE, 0, room, 0), 31);
    pafjirn_free(&one);
    expect("a press after the other's end", pafjirn_key(&other, TEXT("b")), PAFJIRN_DONE);
    pafjirn_free(&other);
}

int main(int count, char **words) {
    if (count > 1 && strcmp(words[1], "refused") == 0) {
        refused_look_ups();
        return wrong;
    }
    dead_handles();
    keycheck_without_an_engine();
    out_of_order();
    refusals();
    context_keys();
    palettes();
    chords_and_steps();
    look_ups();
    look_ups_in_a_chord();
    keychecks();
    keycheck_beside_a_session();
    two_engines();
    return wrong;
}

"""What tools/check-wasm tests of those parts of the page which ask keycheck, or look up keys: the problems,
why a press does what it does, how a chord goes on, and the keystrokes of commands."""

import json

# Rules of each kind: some with mistakes, in lines with CR LF behind a byte order mark, and characters of two
# units.
MISTAKEN = "\ufeff[\r\n".join(["", "\r\n".join([
    '  {"key": "a", "command": "type", "args": 5},',
    '  {"key": "b", "command": "😀😀"}, {"key": "esc", "command": "x"},',
    '  {"key": "c", "command": "my.own"},', '  {"key": "d"}', "]"])])
DEFAULTS = json.dumps([
    {"key": "ctrl+k a", "command": "one"}, {"key": "ctrl+k a", "command": "two", "when": "k"},
    {"key": "ctrl+k b c", "command": "three"}, {"key": "ctrl+k d", "command": ""},
    {"key": "a", "command": "x.gone"}, {"key": "a", "command": "x.kept"},
])
USER = json.dumps([
    {"key": "a", "command": "-x.gone"}, {"key": "a", "command": 5},
    {"key": "a", "command": "u", "when": "false"}, {"key": "a", "command": "u", "when": "dirty"},
    {"key": "a", "command": "u", "when": "deep > 5"},
    {"key": "e", "command": "setContext", "args": {"key": "dirty", "value": True}},
    {"key": "f6", "command": "buffer.top"}, {"key": "f5", "command": "buffer.top"},
])
COMMANDS = [{"command": "x.off", "title": "Off", "enablement": "ready"}]
COMMANDS += [{"command": "buffer.top", "title": "Top"}]
RULES = [{"key": key, "command": "x.off"} for key in ("a", "ctrl+k e", "f7")]
CONTRIBUTES = {"commands": COMMANDS, "keybindings": RULES}
MANIFEST = json.dumps({"publisher": "p", "name": "e", "contributes": CONTRIBUTES})
LAYOUT = '{"scopes": [{"name": "w", "keys": {"dirty": false, "deep": -9223372036854775808}}]}'
REASONS = [
    "keybindings.json, line 1: a u when deep > 5: its clause fails: deep > 5 doesn't hold: "
    "deep is -9223372036854775808, in scope w",
    "keybindings.json, line 1: a u when dirty: its clause fails: dirty doesn't hold: "
    "dirty is false, in scope w",
    "keybindings.json, line 1: a u when false: its clause fails: it is false in every context",
    "p.e/package.json, line 1: a x.off: its command's enablement fails: ready doesn't hold: "
    "ready has no value",
    "defaults.json, line 1: a x.kept: is taken",
    "defaults.json, line 1: a x.gone: is removed, by keybindings.json, line 1",
    "keybindings.json, line 1: a: is dropped, for 41 WrongShape",
]
HELPERS = """
var texts = (path) => [...document.querySelectorAll(path)].map((it) => it.textContent);
var isIdle = () => at('reasons').getAttribute('aria-busy') !== 'true';
var selected = () => at('source').value.slice(at('source').selectionStart, at('source').selectionEnd);
var buttons = (path) => [...document.querySelectorAll(path + ' button')];
true"""


def pick(page, said, **texts):
    """Picks files by their names without `.json`."""
    page.run(f"picked({json.dumps([[name + '.json', text] for name, text in texts.items()])})")
    page.wait(said, f"shown('status').startsWith({json.dumps(said)})")


def press(page, keys):
    page.run(f"at('key').value = {json.dumps(keys)}; at('press').requestSubmit()")


def with_problems(page):
    layout, defaults = '{"scopes": [{"name": "w", "keyz": {}}]}', '[{"key": "c", "command": "x"}]'
    pick(page, "3 files loaded, with 4 problems.", keybindings=MISTAKEN, defaults=defaults, layout=layout)
    page.is_("the files with problems", "texts('#problems h4')", ["keybindings.json", "layout.json"])
    severity = "texts('#problems ul:first-of-type li').map((it) => /, (error|warning)/.exec(it)[1])"
    page.is_("errors first", severity, ["error", "error", "warning"])
    page.is_("a problem", "texts('#problems li')[0]",
             "Line 3, column 42, error: there is no key `esc`; write `escape`; the rule is dropped")
    page.run("buttons('#problems')[0].click()")
    page.is_("its line", "selected()", '"esc", "command": "x"},')
    page.is_("the text has the focus", "document.activeElement.id", "source")
    press(page, "b")
    page.run("at('rule').querySelector('button').click()")
    page.is_("the rule of a press", "[shown('rule'), selected()]",
             ["keybindings.json, line 3", '{"key": "b", "command": "😀😀"}'])
    page.run("buttons('#problems')[3].click()")
    page.is_("the line of another file", "[at('file').value, selected()]", ["layout", '"keyz": {}}]}'])
    page.is_("the notes", "texts('#notes-label').join().trim()", "3 notes too")
    page.run("at('notes').click()")
    page.is_("notes are shown", "texts('#problems li').filter((it) => it.includes(', note: ')).length", 3)
    page.is_("their files", "texts('#problems h4')", ["keybindings.json", "layout.json", "defaults.json"])
    page.run("at('notes').click()")
    page.is_("and hidden again", "texts('#problems li').length", 4)
    for system in ["mac", "windows", "linux"]:
        page.run(f"at('status').textContent = ''; at('platform').value = '{system}'")
        page.run("at('platform').onchange()")
        page.is_(f"on {system}", "[shown('status'), texts('#problems li').length]", ["", 4])
    many = json.dumps([{"key": "a"}] * 600)
    pick(page, "2 files loaded, with 600 problems.", keybindings=many, layout=LAYOUT)
    shown = "[texts('#problems li').length, texts('#problems > p')]"
    page.is_("many problems", shown, [500, ["100 problems more."]])
    pick(page, "2 files loaded, with 0 problems.", keybindings="[]", defaults="[]")
    page.is_("no problems", "[at('no-problems').checkVisibility(), texts('#problems *')]", [True, []])


def with_reasons(page):
    """Why a press passes over rules."""
    pick(page, "3 files loaded, with", keybindings=USER, defaults=DEFAULTS, layout=LAYOUT)
    page.run(f"pasted({json.dumps(MANIFEST)})")
    page.wait("an extension", "at('extensions').children.length === 1")
    page.is_("nothing without a press", "at('why').checkVisibility()", False)
    press(page, "a")
    page.run("new Promise((done) => setTimeout(done, 100))")
    page.is_("nothing before it is asked", "texts('#reasons li')", [])
    page.run("at('why-summary').click()")
    page.wait("the reasons", "isIdle() && texts('#reasons li').length")
    page.is_("each rule, in the order of the press", "texts('#reasons li')", REASONS)
    page.run("buttons('#reasons')[3].click()")
    page.is_("the place of a rule", "[at('file').value, selected().slice(0, 29)]",
             ["manifest 0", '{"key": "a", "command": "x.of'])
    page.run("buttons('#reasons')[6].click()")
    page.is_("the place of a removal", "[at('file').value, selected().slice(0, 36)]",
             ["user", '{"key": "a", "command": "-x.gone"}, '])
    press(page, "e")
    page.run("wait(isIdle)")
    press(page, "a")
    page.is_("the list is busy", "isIdle()", False)
    page.run("wait(isIdle)")
    taken = "keybindings.json, line 1: a u when dirty: is taken"
    page.is_("the events before it count", "texts('#reasons li')[1]", taken)
    page.run("control('w', 'dirty').click()")
    page.run("at('why-summary').click(); at('why-summary').click()")
    page.run("wait(isIdle)")
    page.is_("and not those behind it", "texts('#reasons li')[1]", taken)
    press(page, "f12")
    page.run("wait(isIdle)")
    shown = "[at('no-reasons').checkVisibility(), texts('#reasons li').length]"
    page.is_("no rule", shown, [True, 0])
    page.focus("query")
    page.press("Enter", "Enter", text="\r")
    shown = "[shown('command'), at('why').checkVisibility()]"
    page.is_("no reasons for a choice", shown, ["buffer.top", False])


def with_a_chord(page):
    """How a chord goes on."""
    goes_on = "texts('#continuations button')"
    page.is_("no keys without a chord", "at('next').checkVisibility()", False)
    press(page, "ctrl+k")
    page.is_("each next key", goes_on, ["d no command", "b more keys", "a one"])
    said = "ctrl+k: a chord is open. It goes on with 3 keys. "
    page.is_("what is announced", f"shown('status').startsWith({json.dumps(said)})", True)
    page.run("buttons('#continuations')[1].focus()")
    page.press(" ", "Space", text=" ")
    page.is_("a key that is pressed there", f"[shown('open'), ...{goes_on}]", ["ctrl+k b", "c three"])
    page.is_("the focus stays there", "document.activeElement.textContent", "c three")
    page.run("wait(isIdle)")
    page.is_("why it waits", "texts('#reasons li')[0]",
             "defaults.json, line 1: ctrl+k b c three: is taken, and has more keystrokes")
    page.press("Enter", "Enter", text="\r")
    page.is_("the chord ends", "[shown('command'), at('next').checkVisibility()]", ["three", False])
    page.is_("the focus leaves it", "document.activeElement.id", "why-summary")
    press(page, "ctrl+k")
    page.run("at('extensions').querySelector('input').click()")
    page.is_("a chord that ends otherwise", "[shown('open'), at('next').checkVisibility()]", ["–", False])
    press(page, "ctrl+k")
    page.is_("without an extension", goes_on, ["d no command", "b more keys", "a one"])
    press(page, "x")
    page.run("at('extensions').querySelector('input').click()")
    press(page, "ctrl+k")
    for key in ["ready", "k"]:
        page.run(f"at('set-key').value = '{key}'; at('set').requestSubmit()")
    page.is_("in another context", goes_on, ["e x.off", "d no command", "b more keys", "a two"])
    press(page, "x")


def with_keystrokes(page):
    """The palette has the first keystrokes that start each command."""
    page.run("control('w', 'dirty').click(); at('set-key').value = 'ready'; at('set').requestSubmit()")
    page.focus("query")
    page.is_("keystrokes", "texts('#entries li')", ["Topf5buffer.top", "Offf7x.off"])
    page.is_("their elements", "texts('#entries kbd')", ["f5", "f7"])
    pick(page, "1 file loaded, with", keybindings='[{"key": "g", "command": "-x.off"}]')
    page.run("at('set-key').value = 'ready'; at('set').requestSubmit()")
    page.focus("key")
    page.focus("query")
    page.is_("the keystrokes of other files", "texts('#entries li')", ["Offf7x.off", "Topbuffer.top"])
    page.run("at('over').click()")


def check_keycheck(page):
    """All these tests. They begin and end with the files of a first visit."""
    page.open()
    page.run("at('over').click()")
    page.run(HELPERS)
    with_problems(page)
    with_reasons(page)
    with_a_chord(page)
    with_keystrokes(page)

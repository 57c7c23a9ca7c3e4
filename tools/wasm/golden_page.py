"""Uses the page over examples/, and compares what it shows behind each step with golden/wasm/page.txt: its
texts, and which element has the focus."""

import base64
import itertools
import json
import os

from shared.kit import TOP

GOLDEN = os.path.join(TOP, "golden/wasm/page.txt")
EXAMPLES = [os.path.join(TOP, "examples", it) for it in ("layout.json", "defaults.json", "keybindings.json")]
EXAMPLES += [os.path.join(TOP, "examples", it) for it in ("notes", "brackets")]
# The step behind which the picture is taken.
PICTURED = "why ctrl+s typed"
# The script that returns what is compared: the texts of these elements.
SHOWN = """(() => {
  const text = at("text"), caret = text.selectionStart, active = document.activeElement;
  const inputs = [...document.querySelectorAll("#scopes fieldset:first-of-type label")];
  const valueOf = (input) => input.type === "checkbox" ? input.checked : input.value;
  const mark = (it) => it.getAttribute("aria-selected") === "true" ? "> " : "  ";
  const textsOf = (all) => [...all].filter((it) => it.checkVisibility()).map((it) => it.textContent);
  return JSON.stringify({
    text: text.value.slice(0, caret) + "|" + text.value.slice(caret),
    keys: shown("chord"), open: shown("open"), result: shown("result"), command: shown("command"),
    arguments: shown("arguments"), rule: shown("rule"), "rule text": at("rule-text").textContent,
    "goes on": textsOf(at("continuations").children),
    why: textsOf(document.querySelectorAll("#no-reasons, #reasons li")),
    entries: [...at("entries").children].map((it) => mark(it) + textsOf(it.children).join(" | ")),
    list: `${at("query").getAttribute("aria-expanded")} ${at("query").getAttribute("aria-activedescendant")}`,
    window: inputs.map((it) => it.textContent.trim() + "=" + valueOf(it.querySelector("input"))),
    trace: shown("trace").split("\\n").slice(-3).join("\\n").trim(),
    problems: textsOf(document.querySelectorAll("#no-problems, #notes-label, #problems :is(h4, li)")),
    status: shown("status"),
    focus: active.dataset.control || active.id || active.tagName.toLowerCase(),
  });
})()"""
# The first control of this type among the context keys.
CONTROL = "document.querySelector('#scopes fieldset:first-of-type input[type=%s]')"
# The rules of a file that is loaded: a command that the host itself runs, and a list with such a command.
OWN = """[
  {"key": "x", "command": "my.own", "args": [1]},
  {"key": "y", "command": "runCommands", "args": {"commands": [
    {"command": "setContext", "args": {"key": "dirty", "value": true}},
    "my.own",
    {"command": "setContext", "args": {"key": "dirty", "value": "not set"}}]}}
]"""


def steps(page):
    """Does the steps of the test. Behind each step, yields its name."""
    yield "the page is open"
    page.drop(EXAMPLES)
    page.wait("examples/ is loaded", "at('status').textContent.includes(' loaded')")
    yield "examples/ is dropped"
    yield from steps_with_keys(page)
    yield from steps_with_context_keys(page)
    yield from steps_with_the_palette(page)
    yield from steps_with_files(page)


def steps_with_keys(page):
    page.focus("text")
    page.press("Control", "ControlLeft", ["ctrl"])
    page.press("k", "KeyK", ["ctrl"])
    yield "ctrl+k opens a chord, and ctrl alone is no key press"
    page.run(CONTROL % "checkbox" + ".click()")
    yield "dirty is set by a click, which leaves the chord open"
    page.focus("text")
    page.press("t", "KeyT", ["ctrl"])
    yield "ctrl+t ends the chord"
    for letter in "ktktkt":
        page.press(letter, "Key" + letter.upper(), ["ctrl"])
    yield "keys in quick succession keep their order"
    page.press("s", "KeyS", ["ctrl"])
    yield "ctrl+s clears it"
    page.press("s", "KeyS", ["ctrl"])
    yield "ctrl+s, with nothing to save"
    page.run("at('why-summary').click()")
    page.wait("the reasons", "at('reasons').children.length > 0")
    yield "why ctrl+s typed"
    yield from steps_with_a_chord(page)
    page.press("ArrowLeft", "ArrowLeft")
    yield "the caret goes left"
    page.press("j", "KeyJ", ["ctrl", "alt"])
    yield "a key without a rule"
    page.press("1", "Numpad1", text="1")
    yield "a key of the number pad"
    page.press("Home", "Numpad7")
    yield "the same pad without its numbers"
    page.press("+", "NumpadAdd", text="+")
    page.press("Pause", "Pause")
    page.press("CapsLock", "CapsLock")
    yield "other keys that have names"
    page.press("!", "Digit1", ["shift"], text="!")
    yield "a digit with shift"


def steps_with_a_chord(page):
    button = "at('continuations').querySelectorAll('button')[%d]"
    page.press("k", "KeyK", ["ctrl"])
    yield "ctrl+k opens a chord again"
    page.run(button % 3 + ".focus()")
    page.press("Enter", "Enter", text="\r")
    yield "a key that goes on with the chord is pressed, and waits for another one"
    page.press("Enter", "Enter", text="\r")
    yield "that key ends the chord, and the focus leaves the keys"
    page.focus("text")


def steps_with_context_keys(page):
    page.run(CONTROL % "checkbox" + ".focus()")
    page.press(" ", "Space", text=" ")
    yield "the space bar sets dirty, which keeps the focus"
    for name, value in [("a value that no key has", "1.5"), ("no JSON", "markdown or html"),
                        ("a number of more than 53 bits", "9007199254740993")]:
        page.run(CONTROL % "text" + ".focus()")
        page.run(CONTROL % "text" + ".select()")
        page.type(value)
        page.press("Enter", "Enter", text="\r")
        yield name


def steps_with_the_palette(page):
    page.focus("query")
    yield "the palette lists all"
    page.press("ArrowDown", "ArrowDown")
    yield "an arrow selects the next"
    page.run("at('notes').click()")
    yield "notes are shown too"
    page.run("at('notes').click()")
    for letter in "no s":
        page.press(letter, "Space" if letter == " " else "Key" + letter.upper(), text=letter)
    yield "the palette is filtered"
    page.press("Enter", "Enter", text="\r")
    yield "an entry is chosen"
    page.focus("text")
    page.press("Escape", "Escape", ["shift"])
    yield "shift+escape leaves the text"


def steps_with_files(page):
    loaded = "wait(() => at('status').textContent.includes('loaded') || at('status').className === 'wrong')"
    files = [("no file is no load", None), ("a load that is refused", "{"), ("a file is loaded", OWN)]
    for name, text in files:
        page.run("at('status').textContent = ''; at('status').className = ''")
        page.run("picked(%s)" % json.dumps([["keybindings.json", text]] if text else [["a.txt", ""]]))
        page.run(loaded)
        yield name
    page.focus("text")
    page.press("x", "KeyX", text="x")
    yield "a command of the host's own"
    page.press("y", "KeyY", text="y")
    yield "a list with one of the host's own, behind which nothing runs"


def texts(page, picture):
    """What the page shows behind each step. The picture is a path, or None."""
    for name in steps(page):
        page.run("wait(() => at('reasons').getAttribute('aria-busy') !== 'true')")
        if picture and name == PICTURED:
            take_picture(page, picture)
        lines = ["# " + name]
        for key, value in json.loads(page.run(SHOWN)).items():
            for line in value if isinstance(value, list) else value.split("\n"):
                lines.append(("%s: %s" % (key, line)).rstrip())
        yield "\n".join(lines) + "\n"


def take_picture(page, path):
    page.run("wait(() => !document.querySelector('#keyboard .pressed'))")
    with open(path, "wb") as file:
        file.write(base64.b64decode(page.browser.call("Page.captureScreenshot", format="png")["data"]))


def check_golden(page, words, counts):
    """Compares each step with the golden file, or writes that file."""
    page.open()
    has = list(texts(page, words.picture))
    if words.write:
        with open(GOLDEN, "w", encoding="utf-8") as golden:
            golden.write("\n".join(has))
    with open(GOLDEN, encoding="utf-8") as golden:
        wanted = [it.rstrip("\n") + "\n" for it in golden.read().split("\n\n")]
    for one, other in itertools.zip_longest(has, wanted, fillvalue=""):
        counts.add(one == other, f"the page shows\n{one}\nbut the golden file has\n{other}")

"""The times of the module and the page in Chromium, for tools/check-wasm --figures. Those of the page are
over 600 default rules and ten extensions, behind 1,000 events."""

import contextlib
import json
import os
import tempfile

from shared.browser import Browser, chromium
from wasm.counting import Counts
from wasm.on_page import Page, served

HELD, LETTERS = ["ctrl+", "alt+", "ctrl+alt+", "shift+alt+"], "abcdefghijklmnopqrstuvwxyz"
KEYS = [held + letter for held in HELD for letter in LETTERS]
LAYOUT = '{"scopes": [{"name": "window", "keys": {"dirty": false}}]}'
# Each time is the middle of some turns, in milliseconds, and a press ends with the layout of what it shows.
HELPERS = """
var turns = 15;
var middle = (all) => all.sort((one, other) => one - other)[all.length >> 1].toFixed(0) + " ms";
var pressed = (keys) => {
  const begin = performance.now();
  at("key").value = keys;
  at("press").requestSubmit();
  document.body.getBoundingClientRect();
  return performance.now() - begin;
};
var many = (keys, end) => middle(Array.from({ length: turns }, () => {
  const time = pressed(keys);
  if (end) pressed(end);
  return time;
}));
// (the reasons are shown in a task of their own)
var busy = () => new Promise((done) => {
  const look = () => at("reasons").getAttribute("aria-busy") === "true" ? setTimeout(look) : done();
  look();
});
var explained = async (keys) => {
  const times = [];
  for (let turn = 0; turn < turns; turn++) {
    const begin = performance.now(), press = pressed(keys);
    await busy();
    times.push(performance.now() - begin - press);
  }
  return middle(times);
};
true"""
# The module alone: a start without the browser's cache, and presses of which one rule of many is taken.
STARTED = """(async () => {
  const begin = performance.now(), { instantiate } = await import("./pafjirn.js");
  const source = await fetch("pafjirn.wasm", { cache: "no-store" });
  const pafjirn = await instantiate(source);
  pafjirn.load({ user: '[{ "key": "a", "command": "cursorLeft" }]' }).press("a");
  return (performance.now() - begin).toFixed(0) + " ms";
})()"""
EACH = """(async () => {
  const { instantiate } = await import("./pafjirn.js"), pafjirn = await instantiate();
  const engine = pafjirn.load({ user: JSON.stringify(%s) });
  let best = Infinity;
  for (let turn = 0; turn < 6; turn++) {
    const begin = performance.now();
    for (let number = 0; number < 50000; number++) engine.pressQuietly("f6");
    best = Math.min(best, (performance.now() - begin) / 50);
  }
  return best.toFixed(2) + " microseconds";
})()"""
ROWS = [
    ("a press whose rule has a clause", "many('alt+b')"),
    ("a press that opens a chord", "many('ctrl+k', 'f12')"),
    ("the reasons behind a press, with the pause before them",
     "(at('why').open = true, explained('alt+b'))"),
]


def state():
    """The files and the events, as the browser keeps them."""
    rules = []
    for at in range(600):
        key = KEYS[at % len(KEYS)]
        keys = key if at % 6 else "ctrl+k " + key
        rules.append({"key": keys, "command": f"c{at}", "when": f"k{at} && !dirty"})
    extensions = []
    for number in range(10):
        name, places = f"e{number}", range(20)
        commands = [{"command": f"p.{name}.c{at}", "title": f"Do {at} of {number}"} for at in places]
        keybindings = [{"key": KEYS[at], "command": it["command"]} for at, it in enumerate(commands)]
        contributes = {"commands": commands, "keybindings": keybindings}
        manifest = json.dumps({"publisher": "p", "name": name, "contributes": contributes})
        extensions.append({"folder": name, "manifest": manifest, "handlers": ""})
    files = {"user": "[]", "defaults": json.dumps(rules, indent=1), "layout": LAYOUT, "platform": "linux"}
    lines = [f"key {KEYS[at % 60]}" if at % 3 else f"set window k{at % 7} true" for at in range(1000)]
    return {"files": {**files, "extensions": extensions}, "lines": lines}


def rules(count):
    """Rules whose clauses don't hold, and one on another key."""
    rule_of = lambda at: {"key": KEYS[at % len(KEYS)], "command": "cursorLeft", "when": f"k{at}"}
    return json.dumps([*map(rule_of, range(count)), {"key": "f6", "command": "cursorLeft"}])


def page_rows(prefix):
    """The rows of a table, each with what was measured and its time; none without Chromium."""
    program = chromium()
    if program is None:
        return
    with contextlib.ExitStack() as ended:
        url = ended.enter_context(served(os.path.abspath(prefix)))
        room = ended.enter_context(tempfile.TemporaryDirectory(ignore_cleanup_errors=True))
        browser = Browser(program, room)
        ended.callback(browser.close)
        page = Page(browser, url, Counts())
        page.open()
        yield "from the fetch to the first press, in Chromium", page.run(STARTED)
        for count in (1_000, 100_000):
            yield f"a press in Chromium: {count:,} rules, one is taken", page.run(EACH % rules(count))
        page.run(f"localStorage.setItem('pafjirn.state', {json.dumps(json.dumps(state()))})")
        page.open()
        page.run(HELPERS)
        for what, measured in ROWS:
            yield f"the page in Chromium: {what}", page.run(measured)

"""Pages of docs/measured, which have what a tool printed on one machine."""

import contextlib
import datetime
import os
import re
import sys

from shared.kit import TOP


class Both:
    """A stream that also keeps what is written to it."""

    def __init__(self, stream):
        self.stream, self.kept = stream, []

    def write(self, text):
        self.kept.append(text)
        return self.stream.write(text)

    def flush(self):
        self.stream.flush()


def machine():
    """The processor and the number of its threads."""
    with open("/proc/cpuinfo", encoding="utf-8") as text:
        models = re.findall(r"(?m)^model name\s*: (.*)$", text.read())
    return f"{models[0] if models else 'an unknown processor'}, {len(models)} threads"


@contextlib.contextmanager
def written(name, title, command, is_timed=True):
    """Writes what is printed within to the page docs/measured/NAME.md too, with its title and the command,
    and of times with the machine."""
    both = Both(sys.stdout)
    with contextlib.redirect_stdout(both):
        yield
    lines = "".join(both.kept).split("\n")
    # (a line that is no row of a table is shown as it was printed)
    body = "\n".join(it if it.startswith("|") or not it else f"    {it}" for it in lines)
    day = datetime.date.today().isoformat()
    head = f"# {title}\n\nPrinted by `{command}`, {day}.\n"
    head += f"The machine: {machine()}.\n\n" if is_timed else "\n"
    with open(os.path.join(TOP, "docs/measured", f"{name}.md"), "w", encoding="utf-8") as page:
        page.write(head + body.rstrip("\n") + "\n")

"""Finds links between documents that lead nowhere: to a file that doesn't exist, or to a heading that the
page doesn't have.
"""

import glob
import os
import re

from checks.names import DOCUMENTS

LINK = re.compile(r"\]\(([^()\s]+)\)")
HEADING = re.compile(r"(?m)^#+ (.*)$")


def read(path):
    """The text of a document without its code."""
    with open(path, encoding="utf-8") as text:
        return re.sub(r"(?ms)^```.*?^```$", "", text.read())


def anchors(text):
    """The anchors that a page has: its headings in small letters, with `-` for each blank, without signs."""
    plain = (re.sub(r"\[([^]]*)\]\([^)]*\)", r"\1", it) for it in HEADING.findall(text))
    return {re.sub(r"[^\w\- ]", "", it.strip().lower()).replace(" ", "-") for it in plain}


def broken(top):
    """A message for each link that leads nowhere."""
    files = {it for form in DOCUMENTS for it in glob.glob(form, root_dir=top, recursive=True)}
    for file in sorted(files):
        # (a link may go over two lines)
        for target in LINK.findall(re.sub(r"\n\s*", " ", read(os.path.join(top, file)))):
            path, _, anchor = target.partition("#")
            to = os.path.join(top, os.path.dirname(file), path) if path else os.path.join(top, file)
            if "://" in target:
                continue
            if not os.path.exists(to):
                yield f"{file}: {target} leads to no file"
            elif anchor and anchor not in anchors(read(to)):
                yield f"{file}: {target} leads to no heading"

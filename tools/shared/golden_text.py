"""The escapes of golden files: text between ⟨ and ⟩ (docs/TESTING.md)."""

import re


class BadCase(Exception):
    """A case that can't be read."""


def escaped(escape):
    """The bytes that an escape stands for: those of its digits, or a text that is repeated."""
    count, star, piece = escape.partition("*")
    if not star:
        try:
            return bytes(int(word, 16) for word in escape.split())
        except ValueError:
            raise BadCase("not an escape: ⟨%s⟩" % escape)
    if "#" not in piece and "~" not in piece:
        return piece.encode() * int(count)
    repeated = (piece.replace("#", str(at + 1)).replace("~", str(at)) for at in range(int(count)))
    return "".join(repeated).encode()


def bytes_of(text):
    """The bytes that a part of a line stands for."""
    parts = re.split("⟨([^⟩]*)⟩", text)
    return b"".join(escaped(part) if place % 2 else part.encode() for place, part in enumerate(parts))

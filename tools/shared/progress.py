"""A line that shows how far long work is: on a terminal it is rewritten, elsewhere nothing is printed."""

import os
import shutil
import sys

CLEARED = "\r\033[K"


def about(seconds):
    """A time that is only guessed, in words."""
    if seconds >= 90:
        return f"about {round(seconds / 60)} minutes"
    return f"about {max(5, round(seconds / 5) * 5)} seconds"


def far(done, elapsed):
    """How far work is of which this share is done, and how long it takes yet if it goes on like that."""
    done = min(max(done, 0), 0.99)
    left = f", {about(elapsed * (1 - done) / done)} left" if done >= 0.03 else ""
    return f"{done:.0%}{left}"


class Line:
    """The line. At the end of a block with it, it is gone."""

    def __init__(self, stream=None):
        self.stream = stream or sys.stderr
        self.is_shown = self.stream.isatty() and os.environ.get("TERM") != "dumb"

    def __enter__(self):
        return self

    def __exit__(self, *_):
        self.clear()

    def show(self, text):
        if self.is_shown:
            # (a line that is too long for the terminal could not be rewritten)
            text = text[: shutil.get_terminal_size().columns - 1]
            self.stream.write(CLEARED + text)
            self.stream.flush()

    def clear(self):
        if self.is_shown:
            self.stream.write(CLEARED)
            self.stream.flush()

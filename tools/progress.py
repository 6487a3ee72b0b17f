"""What is shown on a terminal while something is made: a line that is written over."""
import sys
import time

from streams import say

BETWEEN = 0.2  # seconds


def clock(milliseconds):
    """Hours, minutes and seconds."""
    seconds = int(milliseconds / 1000)
    return f"{seconds // 3600}:{seconds // 60 % 60:02}:{seconds % 60:02}"


class Progress:
    """A line on standard error, where that is a terminal."""

    def __init__(self):
        self.terminal = sys.stderr is not None and sys.stderr.isatty()
        self.shown, self.length = 0.0, 0

    def show(self, words):
        """Shows what a function says, now and then."""
        if self.terminal and time.monotonic() - self.shown >= BETWEEN:
            self.shown, text = time.monotonic(), words()
            say(f"\r{text:<{self.length}}")
            self.length = len(text)

    def end(self):
        """Takes the line away."""
        if self.length:
            say(f"\r{'':<{self.length}}\r")

"""What a tool says on its standard streams, which may be closed, full, or left by who reads them; and files without a buffer."""
import os
import sys


class NotTold(Exception):
    """Says why standard output can't be written."""


def say(text):
    """To standard error, if anybody hears it."""
    try:
        if sys.stderr is not None:
            sys.stderr.write(text)
            sys.stderr.flush()
    except OSError:
        pass


def tell(text):
    """A line to standard output."""
    if sys.stdout is None:
        raise NotTold("standard output is closed")
    try:
        print(text, flush=True)
    except OSError as fault:
        # What is left in the buffer goes nowhere, so that nothing more is said at the end.
        os.dup2(os.open(os.devnull, os.O_WRONLY), sys.stdout.fileno())
        raise NotTold(f"standard output: {fault.strerror}") from None


def write_whole(file, text):
    """Writes all of a text to a file without a buffer."""
    rest = memoryview(text)
    while rest:
        rest = rest[file.write(rest):]

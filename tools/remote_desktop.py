"""A remote desktop as its updates paint it, and the scripts of its recording: parts that begin with the whole desktop each."""
import contextlib
import os
import select
import time

from parts import MOST_PART
from programs import Fault
from rfb import PATIENCE, Closed, Nonsense
from streams import write_whole

SQUARE = 64  # a blit has at most 4096 pixels
MOST_LINES = 1_000_000
MOST_CUTS = 65_536
MOST_WAITING = 4_000_000  # characters of lines between two cuts; where there are more, the whole desktop is painted


class Desktop:
    """What the desktop shows, three bytes a pixel in rows from the top, and the lines that paint what has changed since a cut."""

    def __init__(self, wide, high):
        self.wide, self.high = wide, high
        self.pixels = bytearray(3 * wide * high)
        self.lines, self.waiting, self.changed = [], 0, False

    def starts(self, left, top, high):
        """Where the rows of a rectangle begin."""
        row = 3 * self.wide
        first = top * row + 3 * left
        return range(first, first + high * row, row)

    def add(self, line):
        """A line that paints; too many are given up, and the next cut paints everything."""
        self.changed = True
        self.waiting += len(line)
        if self.waiting <= MOST_WAITING:
            self.lines.append(line)
        else:
            self.lines.clear()

    def fill(self, left, top, wide, high, colour):
        row = colour * wide
        for start in self.starts(left, top, high):
            self.pixels[start:start + len(row)] = row
        self.add(f"fill {left} {top} {wide} {high} {colour.hex()}\n")

    def copy(self, left, top, wide, high, to_left, to_top):
        rows = [self.pixels[start:start + 3 * wide] for start in self.starts(left, top, high)]
        for start, row in zip(self.starts(to_left, to_top, high), rows):
            self.pixels[start:start + len(row)] = row
        self.add(f"copy {left} {top} {wide} {high} {to_left} {to_top}\n")

    def blit(self, left, top, wide, high, pixels):
        """Paints what isn't shown yet, in squares."""
        for down in range(0, high, SQUARE):
            for right in range(0, wide, SQUARE):
                width, height = min(SQUARE, wide - right), min(SQUARE, high - down)
                begins = range(3 * (down * wide + right), 3 * ((down + height) * wide + right), 3 * wide)
                self.square(left + right, top + down, width, [pixels[at:at + 3 * width] for at in begins])

    def square(self, left, top, wide, rows):
        """Paints a square, but for rows at its top and bottom that are shown already."""
        shown = [self.pixels[start:start + 3 * wide] == row for start, row in zip(self.starts(left, top, len(rows)), rows)]
        if all(shown):
            return
        first, last = shown.index(False), len(rows) - shown[::-1].index(False)
        rows = rows[first:last]
        for start, row in zip(self.starts(left, top + first, len(rows)), rows):
            self.pixels[start:start + len(row)] = row
        self.add(square_line(left, top + first, wide, rows))

    def whole(self):
        """Lines that paint the desktop over a black one."""
        lines = []
        for top in range(0, self.high, SQUARE):
            for left in range(0, self.wide, SQUARE):
                wide, high = min(SQUARE, self.wide - left), min(SQUARE, self.high - top)
                rows = [self.pixels[start:start + 3 * wide] for start in self.starts(left, top, high)]
                if any(map(any, rows)):
                    lines.append(square_line(left, top, wide, rows))
        return lines

    def taken(self):
        """The lines since the last cut, which a cut takes; None where they were given up."""
        lines = self.lines if self.waiting <= MOST_WAITING else None
        self.lines, self.waiting, self.changed = [], 0, False
        return lines


def square_line(left, top, wide, rows):
    """The line that paints rows of pixels."""
    pixels = b"".join(rows)
    if pixels == pixels[:3] * (len(pixels) // 3):
        return f"fill {left} {top} {wide} {len(rows)} {pixels[:3].hex()}\n"
    return f"blit {left} {top} {wide} {len(rows)} {pixels.hex()}\n"


class Scripts:
    """The parts, each a whole script of at most so many bytes."""

    def __init__(self, folder, most=MOST_PART):
        self.folder, self.most = folder, most
        self.file, self.parts, self.frames = None, 0, 0
        self.bytes = self.lines = self.cuts = 0

    def cut(self, desktop):
        """Writes what the desktop has changed by, and a cut; a new part begins where it has to."""
        lines = desktop.taken()
        try:
            if self.file is None or lines is None or not self.add(lines):
                self.begin()
                if not self.add(desktop.whole()):
                    os.remove(self.file.name)
                    raise Fault(f"frame {self.frames + 1} doesn't fit: the desktop takes more than {self.most:,} bytes")
        except OSError as fault:
            self.take_back()
            raise Fault(f"frame {self.frames + 1} can't be written: {fault.strerror}") from None
        self.frames += 1

    def add(self, lines):
        """Whether the lines and a cut fit this part, and stand in it."""
        text = "".join(lines).encode("ascii") + b"cut\n"
        if self.bytes + len(text) > self.most or self.lines + len(lines) + 1 > MOST_LINES or self.cuts == MOST_CUTS:
            return False
        self.write(text)
        self.lines, self.cuts = self.lines + len(lines) + 1, self.cuts + 1
        return True

    def write(self, text):
        write_whole(self.file, text)
        self.bytes += len(text)

    def begin(self):
        self.close()
        self.file = open(os.path.join(self.folder, f"part-{self.parts}.paint"), "wb", buffering=0)
        self.parts += 1
        self.bytes = self.lines = self.cuts = 0
        self.write(b"paint 2\n")

    def take_back(self):
        """The part ends with the last whole frame again."""
        if self.file is not None:
            with contextlib.suppress(OSError):
                self.file.truncate(self.bytes)

    def close(self):
        if self.file is not None:
            self.file.close()
            self.file = None


class Watch:
    """A server's updates, and the cuts of its desktop at a rate, where something changed."""

    def __init__(self, server, rate, seconds):
        self.server, self.step, self.seconds = server, 1 / rate, seconds
        self.stopped = self.updated = False

    def stop(self):
        self.stopped = True
        self.server.close()

    def is_over(self, begun):
        return self.stopped or begun is not None and self.seconds is not None and time.monotonic() - begun >= self.seconds

    def cuts(self, desktop):
        """Yields the time of each cut, in milliseconds from the first one, and None where it looked and nothing changed."""
        self.server.ask(desktop.wide, desktop.high, all_of_it=True)
        begun, due, until = None, 0.0, time.monotonic() + PATIENCE
        try:
            while not self.is_over(begun):
                now = time.monotonic()
                if begun is None and now > until:
                    raise Nonsense("the server sends no picture")
                if desktop.changed and now >= due:
                    begun = now if begun is None else begun
                    due = now + self.step
                    yield (now - begun) * 1000
                elif begun is not None:
                    yield None
                self.listen(desktop, due if desktop.changed else now + self.step)
        except Closed:
            pass
        except (Nonsense, OSError):
            # Whoever stops it ends the connection, maybe in the middle of an update.
            if not self.stopped:
                raise
            return
        if desktop.changed:
            now = time.monotonic()
            yield (now - (begun or now)) * 1000

    def listen(self, desktop, until):
        """Reads a message, or none until a time."""
        ready, _, _ = select.select([self.server.socket], [], [], max(until - time.monotonic(), 0))
        if ready and self.server.message(desktop):
            # The first picture may be black, as the desktop is before it.
            desktop.changed = desktop.changed or not self.updated
            self.updated = True
            self.server.ask(desktop.wide, desktop.high)

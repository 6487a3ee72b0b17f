"""Frames as binary PPM pictures, one after another, as `ffmpeg -i ANYTHING -f image2pipe -vcodec ppm -` writes them."""
from typing import NamedTuple

# The sizes that screenrec records (docs/FORMAT.md).
MOST_SIDE = 4096
MOST_PIXELS = 8_847_360
# A header with its comments. Programs write fewer than a hundred bytes.
MOST_HEADER = 65_536


class BadFrame(Exception):
    """Says which frame can't be read, and why."""


class Frame(NamedTuple):
    """A picture of `wide` by `high` pixels: three bytes each (red, green, blue), in rows from the top."""

    wide: int
    high: int
    pixels: bytes


class Header:
    """The rest of a frame's header, byte by byte. Frames are counted from 1 in what is said of them."""

    def __init__(self, source, number):
        self.source, self.number, self.left = source, number, MOST_HEADER

    def counted(self, read):
        self.left -= len(read)
        if self.left < 0:
            raise BadFrame(f"frame {self.number} has a header of more than {MOST_HEADER:,} bytes")
        return read

    def byte(self):
        """The next byte. A comment, from # to the end of its line, reads as the line's end."""
        byte = self.counted(self.source.read(1))
        if byte == b"#":
            self.counted(self.source.readline(self.left + 1))
            return b"\n"
        return byte

    def value(self, name):
        """A decimal number and the one byte of white space behind it."""
        byte = self.byte()
        while byte.isspace():
            byte = self.byte()
        digits = b""
        while byte.isdigit() and len(digits) < 10:
            digits += byte
            byte = self.byte()
        if not byte:
            raise BadFrame(f"frame {self.number} is cut short: its header ends before the {name} does")
        if not digits or not byte.isspace():
            raise BadFrame(f"frame {self.number} isn't a binary PPM: its {name} isn't a number")
        return int(digits)


def read_frame(source, number):
    """The next frame of a binary file, or None at its end."""
    magic = source.read(2)
    if not magic:
        return None
    if magic != b"P6":
        raise BadFrame(f"frame {number} isn't a binary PPM: it begins with {magic!r} in place of b'P6'")
    header = Header(source, number)
    wide, high, largest = header.value("width"), header.value("height"), header.value("largest sample")
    if largest != 255:
        raise BadFrame(f"frame {number} has samples up to {largest}; only 255, a byte each, can be read")
    if not (0 < wide <= MOST_SIDE and 0 < high <= MOST_SIDE and wide * high <= MOST_PIXELS):
        most = f"sides are 1 to {MOST_SIDE}, and pixels at most {MOST_PIXELS:,}"
        raise BadFrame(f"frame {number} is {wide}x{high}; {most}")
    wanted = 3 * wide * high
    pixels = source.read(wanted)
    if len(pixels) < wanted:
        raise BadFrame(f"frame {number} is cut short: {len(pixels)} of the {wanted} bytes of its pixels are there")
    return Frame(wide, high, pixels)


def read_frames(source):
    """The frames of a binary file. All have the first one's size."""
    number = 1
    first = frame = read_frame(source, number)
    while frame is not None:
        if frame[:2] != first[:2]:
            sizes = f"{frame.wide}x{frame.high}, and the first one is {first.wide}x{first.high}"
            raise BadFrame(f"frame {number} is {sizes}")
        yield frame
        number += 1
        frame = read_frame(source, number)

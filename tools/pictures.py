"""PNG pictures of frames, and of what two frames differ in."""
import struct
import zlib

from ppm_frames import Frame

SIGNATURE = b"\x89PNG\r\n\x1a\n"
BETWEEN = bytes([128]) * 3 * 4  # four grey columns part the pictures
SAME_OR_NOT = bytes(1) + bytes([255]) * 255


def chunk(kind, content):
    """A piece of a PNG file."""
    return struct.pack(">I", len(content)) + kind + content + struct.pack(">I", zlib.crc32(kind + content))


def write_png(file, wide, rows):
    """Writes rows of pixels, three bytes each, as a PNG picture."""
    header = struct.pack(">IIBBBBB", wide, len(rows), 8, 2, 0, 0, 0)
    pixels = zlib.compress(b"".join(b"\0" + row for row in rows), 6)
    file.write(SIGNATURE + chunk(b"IHDR", header) + chunk(b"IDAT", pixels) + chunk(b"IEND", b""))


def rows_of(frame, wide, high):
    """A frame's rows, with black beyond it."""
    row = 3 * frame.wide
    found = [frame.pixels[at:at + row].ljust(3 * wide, b"\0") for at in range(0, len(frame.pixels), row)]
    return found + [bytes(3 * wide)] * (high - frame.high)


def marked(row, other):
    """White where two rows of pixels differ, and black where they don't."""
    mixed = (int.from_bytes(row, "big") ^ int.from_bytes(other, "big")).to_bytes(len(row), "big")
    channels = [int.from_bytes(mixed[channel::3], "big") for channel in range(3)]
    marks = (channels[0] | channels[1] | channels[2]).to_bytes(len(row) // 3, "big").translate(SAME_OR_NOT)
    found = bytearray(len(row))
    for channel in range(3):
        found[channel::3] = marks
    return bytes(found)


def side_by_side(file, one, other):
    """Writes two frames, and white marks where they differ, beside one another. A frame that is missing is None, and black."""
    one, other = (frame or Frame(1, 1, bytes(3)) for frame in (one, other))
    wide, high = max(one.wide, other.wide), max(one.high, other.high)
    pairs = zip(rows_of(one, wide, high), rows_of(other, wide, high))
    rows = [BETWEEN.join([row, twin, marked(row, twin)]) for row, twin in pairs]
    write_png(file, len(rows[0]) // 3, rows)

"""A plain repainting of paint scripts, which recordings and tools are compared with."""


def paint(desktop, wide, high, line):
    """Paints a line's rectangle, as far as it lies on the desktop: a list of bytes, three a pixel in rows from the top."""
    kind, *numbers, digits = line.split(" ")
    left, top, width, height = map(int, numbers)
    shown = min(width, wide - left)
    colours = bytes.fromhex(digits) * (width if kind == "fill" else 1)
    for row in range(min(height, high - top) if shown > 0 else 0):
        first = 0 if kind == "fill" else 3 * row * width
        start = 3 * ((top + row) * wide + left)
        desktop[start:start + 3 * shown] = colours[first:first + 3 * shown]


def copy(desktop, wide, high, line):
    """Copies a rectangle: all of it is read first, and a place is painted where it and its source lie on the desktop."""
    left, top, width, height, to_left, to_top = map(int, line.split(" ")[1:])
    shown = min(width, wide - left, wide - to_left)
    if shown <= 0:
        return
    rows = [
        desktop[3 * ((top + row) * wide + left):3 * ((top + row) * wide + left + shown)]
        for row in range(min(height, high - top, high - to_top))
    ]
    for row, samples in enumerate(rows):
        start = 3 * ((to_top + row) * wide + to_left)
        desktop[start:start + 3 * shown] = samples


def painted_frames(lines, wide, high):
    """The desktop at each cut."""
    desktop = bytearray(3 * wide * high)
    for line in lines:
        if line == "cut":
            yield bytes(desktop)
        elif line.startswith("copy "):
            copy(desktop, wide, high, line)
        else:
            paint(desktop, wide, high, line)


def read_lines(name):
    """The lines of a paint file, without the one that says version 2."""
    with open(name, encoding="ascii") as script:
        lines = script.read().splitlines()
    return lines[1:] if lines[:1] == ["paint 2"] else lines


def as_ppm(frame, wide, high):
    """A frame as a binary PPM picture."""
    return b"P6\n%d %d\n255\n" % (wide, high) + frame

"""Fills and blits that turn the desktop into a frame: solid rectangles as fills, the rest as blits.

A `Part` is a rectangle of the frame with a mark for each pixel that the desktop doesn't show yet. `paint_part` is given the
part of all that has changed, and looks at parts until each is done: one whose marks lie far apart is cut between them; one
that a fill puts mostly right is filled, and what is left is looked at again; one with gaps is cut there; and one without is
painted by fills or by a blit, whichever takes fewer characters, or cut in two where it is large.
"""
import re
from collections import Counter
from typing import NamedTuple

BLIT_PIXELS = 4096  # the most that one blit may have
PIXEL_COST = 6  # characters that a pixel takes in a blit
LINE_COST = 32  # characters that a line is reckoned at, beside the pixels of a blit
FAR_APART = 16  # a gap of so many rows or columns parts what is likely not one thing
SAMPLES = 400  # the pixels that are looked at for a colour
FAINT = 0.25  # an edge along fewer of a row's pixels is none
ZERO_OR_ONE = bytes([0]) + bytes([1]) * 255
MARKED = re.compile(rb"\x01+")


class Part(NamedTuple):
    """A rectangle of the frame. `marks` has a byte for each of its pixels, in rows from the top: 1 where the desktop doesn't
    show the frame yet, and 0 where it does."""

    left: int
    top: int
    wide: int
    high: int
    marks: bytes


def differing(pixels, others):
    """A byte for each pixel of two lists of the same length: 1 where they differ, and 0 where they don't."""
    mixed = int.from_bytes(pixels, "little") ^ int.from_bytes(others, "little")
    samples = mixed.to_bytes(len(pixels), "little")
    red, green, blue = (int.from_bytes(samples[channel::3], "little") for channel in range(3))
    return (red | green | blue).to_bytes(len(pixels) // 3, "little").translate(ZERO_OR_ONE)


def either(marks, others):
    """Marks where one of the two lists has one."""
    joined = int.from_bytes(marks, "little") | int.from_bytes(others, "little")
    return joined.to_bytes(len(marks), "little")


def cut_out(part, left, top, wide, high):
    """A smaller rectangle of a part, whose corner is given from the part's own."""
    starts = range(top * part.wide + left, (top + high) * part.wide + left, part.wide)
    marks = b"".join([part.marks[start:start + wide] for start in starts])
    return Part(part.left + left, part.top + top, wide, high, marks)


def pixels_of(part, frame):
    """What the frame shows in a part."""
    stride, length = 3 * frame.wide, 3 * part.wide
    first = part.top * stride + 3 * part.left
    starts = range(first, first + part.high * stride, stride)
    return b"".join([frame.pixels[start:start + length] for start in starts])


def spans(marks, gap):
    """(start, end) of the runs of marks, where runs with fewer than `gap` places between them count as one."""
    found = []
    for run in MARKED.finditer(marks):
        start, end = run.span()
        if found and start - found[-1][1] < gap:
            found[-1] = (found[-1][0], end)
        else:
            found.append((start, end))
    return found


def pieces(part, gap):
    """The part's pieces that have a mark, cut at empty rows and then at empty columns, where `gap` of them lie together."""
    wide, marks, found = part.wide, part.marks, []
    rows = bytes([marks.find(1, at, at + wide) >= 0 for at in range(0, len(marks), wide)])
    for top, bottom in spans(rows, gap):
        columns = 0
        for at in range(top * wide, bottom * wide, wide):
            columns |= int.from_bytes(marks[at:at + wide], "little")
        for left, right in spans(columns.to_bytes(wide, "little"), gap):
            found.append(cut_out(part, left, top, right - left, bottom - top))
    return found


def common_colour(part, pixels):
    """The colour that most of the marked pixels have, among those that are looked at."""
    step = len(part.marks) // SAMPLES | 1
    seen = Counter(pixels[3 * at:3 * at + 3] for at in range(0, len(part.marks), step) if part.marks[at])
    return seen.most_common(1)[0][0] if seen else None


def border_colour(part, pixels):
    """The colour of the part's four sides, where they have one colour."""
    colour, row = pixels[:3], 3 * part.wide
    if pixels[:row] != colour * part.wide or pixels[-row:] != colour * part.wide:
        return None
    left, right = ([pixels[at + k::row] for k in range(3)] for at in (0, row - 3))
    sides = [bytes([sample]) * part.high for sample in colour]
    return colour if left == sides and right == sides else None


def spell_fill(left, top, wide, high, colour):
    return f"fill {left} {top} {wide} {high} {colour.hex()}\n"


def filled(part, pixels, colour):
    """The part after a fill of it all."""
    return part._replace(marks=differing(pixels, colour * len(part.marks)))


def try_fill(part, pixels):
    """A colour that is worth a fill of the whole part, and the part afterwards; or None."""
    wrong = part.marks.count(1)
    colour = border_colour(part, pixels)
    if colour is not None:
        after = filled(part, pixels, colour)
        spoilt = either(part.marks, after.marks).count(1) - wrong
        if spoilt <= wrong // 16:
            return colour, after
    colour = common_colour(part, pixels)
    if colour is None:
        return None
    after = filled(part, pixels, colour)
    saved = wrong - after.marks.count(1)
    if saved * PIXEL_COST > LINE_COST and saved * 8 >= wrong:
        return colour, after
    return None


def ended(runs, bottom):
    """The rectangles of runs that began at a row each and go on to the bottom."""
    return [(left, top, right - left, bottom - top, colour) for (left, right, colour), top in runs.items()]


def solid_fills(part, pixels):
    """(left, top, wide, high, colour) of solid rectangles that cover the marked pixels: runs of one colour in rows, of which
    equal ones below one another are joined. Places are counted from the part's corner."""
    wide, marks = part.wide, part.marks
    changes = differing(pixels[3:], pixels[:-3]) + b"\1"
    done, above = [], {}
    for top, at in enumerate(range(0, len(marks), wide)):
        below, left = {}, 0
        while left < wide:
            right = changes.find(1, at + left, at + wide - 1)
            right = wide if right < 0 else right + 1 - at
            if marks.find(1, at + left, at + right) >= 0:
                colour = pixels[3 * (at + left):3 * (at + left) + 3]
                key = (left, right, colour)
                below[key] = above.pop(key, top)
            left = right
        done += ended(above, top)
        above = below
    return done + ended(above, part.high)


def turned(part, pixels):
    """A part and its pixels with rows and columns changed for one another."""
    wide, high = part.wide, part.high
    marks = b"".join([part.marks[left::wide] for left in range(wide)])
    samples = bytearray(len(pixels))
    for channel in range(3):
        plane = pixels[channel::3]
        samples[channel::3] = b"".join([plane[left::wide] for left in range(wide)])
    return Part(part.top, part.left, high, wide, marks), bytes(samples)


def fewest_fills(part, pixels):
    """Solid rectangles that cover the marked pixels, from rows or from columns, whichever are fewer."""
    rows = solid_fills(part, pixels)
    if len(rows) == 1 or part.high == 1:
        return rows
    columns = [(left, top, wide, high, colour) for top, left, high, wide, colour in solid_fills(*turned(part, pixels))]
    return columns if len(columns) < len(rows) else rows


def is_noise(part, pixels):
    """Whether the colour changes so often, along rows and along columns, that no fill is worth looking for."""
    row = 3 * part.wide
    along = differing(pixels[3:], pixels[:-3]).count(1)
    down = differing(pixels[row:], pixels[:-row]).count(1)
    return 3 * min(along, down) > len(part.marks)


def blits(part, pixels):
    """The part as blits of whole rows, each of as many as one blit may have."""
    row, rows = 6 * part.wide, BLIT_PIXELS // part.wide
    digits, lines = pixels.hex(), []
    for top in range(0, part.high, rows):
        high = min(rows, part.high - top)
        lines.append(f"blit {part.left} {part.top + top} {part.wide} {high} {digits[top * row:(top + high) * row]}\n")
    return lines


def sharpest_row(part, pixels):
    """(share, row): the row that differs most from the one above it, in colours or in marks, and in which share of its pixels;
    of equal ones the one nearest to the middle. A part of one row has no edge."""
    wide = part.wide
    if part.high == 1:
        return 0, 0
    changes = differing(pixels[3 * wide:], pixels[:-3 * wide])
    moved = int.from_bytes(part.marks[wide:], "little") ^ int.from_bytes(part.marks[:-wide], "little")
    changes = either(changes, moved.to_bytes(len(changes), "little"))
    counts = [changes.count(1, at, at + wide) for at in range(0, len(changes), wide)]
    most, _, row = max((count, -abs(2 * row - part.high), row) for row, count in enumerate(counts, 1))
    return most / wide, row


def halves(part, pixels):
    """The part cut in two at its sharpest edge, or in the middle of its longer side where it has none."""
    (share, row), (other_share, column) = sharpest_row(part, pixels), sharpest_row(*turned(part, pixels))
    at_row = share >= other_share
    if max(share, other_share) < FAINT:
        at_row, row, column = part.high > part.wide, part.high // 2, part.wide // 2
    if at_row:
        return cut_out(part, 0, 0, part.wide, row), cut_out(part, 0, row, part.wide, part.high - row)
    return cut_out(part, 0, 0, column, part.high), cut_out(part, column, 0, part.wide - column, part.high)


def paint_alike(part, pixels):
    """(lines, parts): what paints a part that no gap parts and no single fill helps, or what it is cut in."""
    if len(part.marks) <= BLIT_PIXELS:
        fills = fewest_fills(part, pixels)
        if len(fills) * LINE_COST <= LINE_COST + PIXEL_COST * len(part.marks):
            return [spell_fill(part.left + left, part.top + top, *rest) for left, top, *rest in fills], []
        return blits(part, pixels), []
    if is_noise(part, pixels):
        return blits(part, pixels), []
    return [], list(halves(part, pixels))


def paint_part(part, frame):
    """The lines that make the desktop show the frame in a part, in the order in which they paint."""
    lines, waiting = [], [part]
    while waiting:
        far = pieces(waiting.pop(), FAR_APART)
        if len(far) != 1:
            waiting += far
            continue
        part = far[0]
        pixels = pixels_of(part, frame)
        fill = try_fill(part, pixels)
        if fill is not None:
            lines.append(spell_fill(*part[:4], fill[0]))
            waiting.append(fill[1])
            continue
        near = pieces(part, 1)
        if len(near) > 1:
            waiting += near
            continue
        more, parts = paint_alike(part, pixels)
        lines += more
        waiting += parts
    return lines

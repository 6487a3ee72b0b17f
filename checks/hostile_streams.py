"""Streams of each of the four kinds by the independent model, and what is done to them for `checks/hostile`. Of `make_changed` the caller has
put the model's folder on the path."""
import random

START = b"\0\0\0\1"
HEADERS = (b"\x28\x01", b"\x02\x01", b"\x50\x01", b"\x40\x01", b"\x42\x01", b"\x44\x01", b"\x4e\x01")
# Per kind, sizes of one and several coding tree units either way, with padding and without.
SIZES = ((8, 8), (32, 32), (40, 24), (33, 47), (70, 40), (96, 66), (24, 100))
WIDE = ((33, 47), (40, 24), (70, 40), (96, 66))


class Base:
    """A stream with what it was made of: per picture its IDR flag, order count, picture, rows as (contexts, calls of the coder)."""

    def __init__(self, kind, size, first, pictures):
        self.kind, self.size, self.first, self.pictures = kind, size, first, pictures
        self.units = split(self.stream({}))

    def piece(self, number, rows):
        import stream
        idr, poc, now, _ = self.pictures[number]
        return stream.picture_piece(now, idr, poc, rows, self.kind)

    def stream(self, changed):
        """The stream, where the row (picture, row) in `changed` is coded from other calls."""
        out = self.first
        for number, (_, _, _, rows) in enumerate(self.pictures):
            coded = [replay(contexts, changed.get((number, r), calls)) for r, (contexts, calls) in enumerate(rows)]
            out += self.piece(number, coded)
        return out


def recorder():
    """The model's coder, which also keeps what it was asked to code."""
    from cabac import ByteCoder

    class Recorder(ByteCoder):
        def __init__(self, contexts):
            super().__init__(contexts)
            self.row = (list(contexts), [])
            Recorder.rows.append(self.row)

        def ctx(self, number, value):
            self.row[1].append(("ctx", number, value))
            super().ctx(number, value)

        def bypass(self, value):
            self.row[1].append(("bypass", value))
            super().bypass(value)

        def bits(self, value, count):
            for place in range(count - 1, -1, -1):
                self.bypass(value >> place & 1)

        def term(self, value):
            self.row[1].append(("term", value))
            super().term(value)

        def pcm(self, samples):
            self.row[1].append(("pcm", bytes(samples)))
            super().pcm(samples)

    Recorder.rows = []
    return Recorder


def replay(contexts, calls):
    """The bytes of a row."""
    from cabac import ByteCoder
    coder = ByteCoder(contexts)
    for name, *values in calls:
        getattr(coder, name)(*values)
    return coder.finish()


def bases():
    """Some sixty streams: by the choice rule, and by made-up plans that it would never choose."""
    made = []
    for kind in ("plain", "hash", "segments", "moves"):
        for number, size in enumerate(WIDE if kind == "segments" else SIZES):
            for forced in (False, True):
                made.append(make_base(kind, size, 100 * number + len(kind), forced))
    return made


def make_base(kind, size, number, forced):
    import cases
    import stream
    from intra import Order
    from params import first_piece
    from raster import pictures
    lines = cases.scrolling(size, number, 3) if kind == "moves" else cases.mixed(size, number, 3, calm=True)
    planner = cases.forced_plan(number) if forced else stream.plan
    key = number % 3
    kept, prev, poc, order = [], None, 0, None
    for count, now in enumerate(pictures(size, lines)):
        order = order or Order(now.cw, now.ch)
        idr = stream.is_idr(count, key)
        poc = 0 if idr else poc + 1
        plans = planner(None if idr else prev, now, 1, order, kind == "moves")
        coder = recorder()
        stream.code_rows(now, idr, plans, order, kind == "moves", kind == "segments", coder)
        kept.append((idr, poc, now, coder.rows))
        prev = now
    return Base(kind, size, first_piece(size, kind == "segments"), kept)


# ---- changes

def split(data):
    """The NAL units of a stream of four-byte start codes, each with its start code."""
    places = []
    at = data.find(START)
    while at >= 0:
        places.append(at)
        at = data.find(START, at + 4)
    return [data[a:b] for a, b in zip(places, [*places[1:], len(data)])]


def change_bytes(noise, base, others):
    data = bytearray(b"".join(base.units))
    # more often behind the parameter sets, which nearly any change refuses
    low = 0 if noise.random() < 0.2 else sum(map(len, base.units[:3]))
    for _ in range(noise.choice((1, 1, 1, 2, 4, 16))):
        data[noise.randrange(min(low, len(data) - 1), len(data))] = noise.choice((0, 1, 2, 3, 255, noise.randrange(256)))
    return bytes(data)


def change_bits(noise, base, others):
    data = bytearray(b"".join(base.units))
    low = 0 if noise.random() < 0.2 else sum(map(len, base.units[:3]))
    for _ in range(noise.choice((1, 1, 1, 2, 3))):
        data[noise.randrange(min(low, len(data) - 1), len(data))] ^= 1 << noise.randrange(8)
    return bytes(data)


def change_length(noise, base, others):
    data = b"".join(base.units)
    start = noise.randrange(len(data) + 1)
    end = min(len(data), start + noise.choice((0, 1, 1, 2, 5, 40)))
    middle = noise.choice((b"", data[start:end] * 2, bytes(noise.choice((1, 2, 3, 9))), noise.randbytes(3), START, b"\0\0\1", b"\0\0\2", b"\0\0\3"))
    cut = data[:start] + middle + data[end:]
    return cut[:noise.randrange(len(cut) + 1)] if noise.random() < 0.3 else cut


def change_units(noise, base, others):
    units = list(base.units)
    for _ in range(noise.choice((1, 1, 2))):
        at = noise.randrange(len(units))
        what = noise.randrange(6)
        if what == 0:
            other = noise.randrange(len(units))
            units[at], units[other] = units[other], units[at]
        elif what == 1 and len(units) > 1:
            del units[at]
        elif what == 2:
            units.insert(at, units[at])
        elif what == 3:
            units[at] = units[at][:4] + noise.choice(HEADERS) + units[at][6:]
        elif what == 4:
            units.insert(at, noise.choice(noise.choice(others).units))
        else:
            units[at] = units[at][:noise.randrange(len(units[at]) + 1)]
    return b"".join(units)


def change_syntax(noise, base, others):
    """One call of the coder is another one, is left out or comes twice; the rest is coded as before."""
    number = noise.randrange(len(base.pictures))
    rows = base.pictures[number][3]
    row = noise.randrange(len(rows))
    calls = list(rows[row][1])
    for _ in range(noise.choice((1, 1, 1, 2))):
        at = noise.randrange(len(calls))
        name, *values = calls[at]
        what = noise.random()
        if what < 0.1:
            del calls[at]
        elif what < 0.2:
            calls.insert(at, calls[at])
        elif name == "pcm":
            calls[at] = (name, noise.randbytes(len(values[0])))
        else:
            calls[at] = (name, *values[:-1], 1 - values[-1])
        if not calls or calls[-1] != ("term", 1):
            calls.append(("term", 1))
    return base.stream({(number, row): calls})


def change_head(noise, base, others):
    """A picture with another order count, other entry points or a row less, coded anew."""
    import params
    import stream
    number = noise.randrange(len(base.pictures))
    out = base.first
    for count, (idr, poc, now, rows) in enumerate(base.pictures):
        coded = [replay(*row) for row in rows]
        if count != number:
            out += base.piece(count, coded)
        elif base.kind == "segments":
            width, ctus = (now.cw + 31) // 32, (now.cw + 31) // 32 * len(rows)
            for r, row in enumerate(coded):
                address = noise.choice((r * width, r * width, noise.randrange(ctus)))
                head = params.segment_bits(idr, noise.choice((poc, poc, noise.randrange(256))) if not idr else 0, address, ctus)
                out += START + (stream.IDR if idr else stream.TRAIL) + params.escape(head) + params.escape(row)
        else:
            escaped = [params.escape(row) for row in coded]
            offsets = [max(1, len(row) + noise.choice((0, 0, -1, 1, 7))) for row in escaped[:-1]]
            head = params.head_bits(idr, 0 if idr else noise.choice((poc, poc + 1, noise.randrange(256))) % 256, offsets)
            out += START + (stream.IDR if idr else stream.TRAIL) + params.escape(head) + b"".join(escaped)
            if base.kind == "hash":
                out += params.nal_unit(stream.SEI, stream.hash_bits(noise.choice((now, base.pictures[0][2]))))
    return out


# How often each is made, in parts of 20.
CHANGES = [change_bytes] * 6 + [change_bits] * 6 + [change_length] * 3 + [change_units] * 3 + [change_syntax] + [change_head]


def changed(seed, number, some):
    """The stream of this number, and what was done."""
    noise = random.Random(f"{seed}/{number}")
    change = noise.choice(CHANGES)
    return change(noise, noise.choice(some), some), change.__name__

"""A client of remote desktops: the RFB protocol 3.8 (RFC 6143), with security None or VNC authentication.

The server's bytes are not trusted: what they count is bounded before it is read, every rectangle lies on the desktop, and what
has no sense ends in `Nonsense`, which says what it was. The desktop that is given to `updates` is told what each rectangle paints.
"""
import re
import socket
import struct
import time

import des
from ppm_frames import MOST_PIXELS, MOST_SIDE

PORT = 5900
PATIENCE = 20  # seconds for a whole message
MOST_TEXT = 4096  # bytes of a name or a reason
MOST_CUT_TEXT = 1 << 20  # bytes of a clipboard, which nobody keeps
CHUNK = 1 << 18  # bytes of pixels that are read at once
MOST_PARTS = 1024  # of an RRE rectangle, which are read at once
NONE, PASSWORD = 1, 2  # kinds of security
RAW, COPY, RRE, DESKTOP_SIZE = 0, 1, 2, -223
# The key by which vncpasswd hides a password in its file, and everybody else finds it.
HIDING = bytes.fromhex("e84ad660c4721ae0")
# 32 bits a pixel, of which 24 count, in true colours: the bytes red, green, blue, and one more.
FORMAT = struct.pack(">BBBBHHHBBBxxx", 32, 24, 0, 1, 255, 255, 255, 0, 8, 16)


class Nonsense(Exception):
    """Says what the server sent that it may not send."""


class Closed(Exception):
    """The server has ended the connection between two messages."""


def readable(text):
    """Bytes of the server as a line's words."""
    return "".join(c if c.isprintable() else "?" for c in text.decode("utf-8", "replace"))[:200]


def colours(pixels):
    """The red, green and blue bytes of pixels of four bytes."""
    found = bytearray(len(pixels) // 4 * 3)
    for channel in range(3):
        found[channel::3] = pixels[channel::4]
    return bytes(found)


def password_of(name):
    """The password that vncpasswd stored in a file, as the key of a cipher: each byte's bits the other way round."""
    with open(name, "rb") as file:
        hidden = file.read(8)
    if len(hidden) < 8:
        raise Nonsense(f"{name}: this isn't a password as vncpasswd stores it: it has {len(hidden)} bytes")
    plain = des.decrypt(HIDING, hidden).split(b"\0")[0].ljust(8, b"\0")
    return bytes(int(f"{byte:08b}"[::-1], 2) for byte in plain)


def address(word):
    """The host and the port of HOST[:PORT]; a port below 100 is the number of a display, as in other viewers."""
    found = re.fullmatch(r"(\[[^\[\]]+\]|[^:\[\]]+)(?::(\d{1,5}))?", word)
    port = int(found[2] or 0) if found else 65_536
    if port > 65_535:
        raise ValueError(f"{word} isn't HOST or HOST:PORT")
    return found[1].strip("[]"), port + PORT if port < 100 else port


class Server:
    """A connection: the server's bytes, and the messages that are sent to it."""

    def __init__(self, host, port, password=None):
        self.password, self.closing = password, False
        self.until = time.monotonic() + PATIENCE
        self.socket = socket.create_connection((host, port), timeout=PATIENCE)
        self.socket.setsockopt(socket.IPPROTO_TCP, socket.TCP_NODELAY, 1)

    def begin(self):
        """A new message may take its time."""
        self.until = time.monotonic() + PATIENCE

    def bytes(self, count, what):
        """So many bytes of a message; `count` is bounded by who calls this."""
        found = bytearray(count)
        rest = memoryview(found)
        while rest:
            left = self.until - time.monotonic()
            if left <= 0:
                raise Nonsense(f"the server stopped in the middle of {what}, or takes more than {PATIENCE} seconds for a message")
            self.socket.settimeout(left)
            try:
                read = self.socket.recv_into(rest)
            except TimeoutError:
                continue
            if read == 0:
                raise Nonsense(f"the connection ended in the middle of {what}")
            rest = rest[read:]
        return found

    def fields(self, form, what):
        """Numbers of a message, by their form."""
        return struct.unpack(form, self.bytes(struct.calcsize(form), what))

    def text(self, what, most=MOST_TEXT):
        """A text with its length before it."""
        (length,) = self.fields(">I", what)
        if length > most:
            raise Nonsense(f"{what} has {length:,} bytes, and may have {most:,}")
        return readable(self.bytes(length, what))

    def send(self, message):
        self.socket.settimeout(PATIENCE)
        self.socket.sendall(message)

    def close(self):
        """Ends the connection, also while bytes of it are awaited."""
        self.closing = True
        try:
            self.socket.shutdown(socket.SHUT_RDWR)
        except OSError:
            pass

    # Before the first picture

    def greet(self):
        """Agrees on everything: the sides of the desktop."""
        version = bytes(self.bytes(12, "the version"))
        found = re.fullmatch(rb"RFB (\d{3})\.(\d{3})\n", version)
        if found is None:
            raise Nonsense(f"this is no VNC server: it begins with {version!r}")
        if (int(found[1]), int(found[2])) < (3, 8):
            raise Nonsense(f"the server speaks RFB {int(found[1])}.{int(found[2])}, and 3.8 is wanted")
        self.send(b"RFB 003.008\n")
        self.agree_on_security()
        self.send(b"\1")
        wide, high = self.fields(">HH16x", "the size of the desktop")
        if not (0 < wide <= MOST_SIDE and 0 < high <= MOST_SIDE and wide * high <= MOST_PIXELS):
            most = f"sides are 1 to {MOST_SIDE}, and pixels at most {MOST_PIXELS:,}"
            raise Nonsense(f"the desktop is {wide}x{high}; {most}")
        self.text("the desktop's name")
        encodings = (COPY, RRE, RAW, DESKTOP_SIZE)
        self.send(b"\0\0\0\0" + FORMAT)
        self.send(struct.pack(f">BxH{len(encodings)}i", 2, len(encodings), *encodings))
        return wide, high

    def agree_on_security(self):
        (count,) = self.fields(">B", "the kinds of security")
        if count == 0:
            raise Nonsense(f"the server refuses: {self.text('its reason')}")
        kinds = self.bytes(count, "the kinds of security")
        if NONE in kinds:
            self.send(bytes([NONE]))
        elif PASSWORD not in kinds:
            raise Nonsense(f"the server wants security of kind {', '.join(map(str, kinds))}; None (1) and passwords (2) are known")
        elif self.password is None:
            raise Nonsense("the server wants a password (--password FILE)")
        else:
            self.send(bytes([PASSWORD]))
            challenge = self.bytes(16, "the challenge")
            self.send(b"".join(des.encrypt(self.password, challenge[at:at + 8]) for at in (0, 8)))
        (result,) = self.fields(">I", "the answer to the password")
        if result != 0:
            raise Nonsense(f"the server refuses: {self.text('its reason')}")

    # Pictures

    def ask(self, wide, high, all_of_it=False):
        """Asks for what has changed, or for the whole desktop."""
        self.send(struct.pack(">BBHHHH", 3, 0 if all_of_it else 1, 0, 0, wide, high))

    def message(self, desktop):
        """Reads a message, and tells the desktop what it paints; whether it was an update."""
        self.begin()
        self.socket.settimeout(PATIENCE)
        kind = self.socket.recv(1)
        if not kind:
            raise Closed()
        if kind[0] == 0:
            (count,) = self.fields(">xH", "an update")
            for _ in range(count):
                self.rectangle(desktop)
            return True
        if kind[0] == 1:
            (count,) = self.fields(">xxxH", "colours")
            self.bytes(6 * count, "colours")
        elif kind[0] == 3:
            self.bytes(3, "a clipboard")
            self.skip_clipboard()
        elif kind[0] != 2:
            raise Nonsense(f"the server sent a message of kind {kind[0]}, which isn't known")
        return False

    def skip_clipboard(self):
        (length,) = self.fields(">I", "a clipboard")
        if length > MOST_CUT_TEXT:
            raise Nonsense(f"a clipboard has {length:,} bytes, and may have {MOST_CUT_TEXT:,}")
        self.bytes(length, "a clipboard")

    def rectangle(self, desktop):
        left, top, wide, high, encoding = self.fields(">HHHHi", "a rectangle")
        if encoding == DESKTOP_SIZE:
            raise Nonsense(f"the desktop changes its size to {wide}x{high} (DesktopSize), which a recording can't")
        self.on_desktop(desktop, "a rectangle", left, top, wide, high)
        if encoding == RAW:
            self.raw(desktop, left, top, wide, high)
        elif encoding == COPY:
            source = self.fields(">HH", "a copy")
            self.on_desktop(desktop, "the source of a copy", *source, wide, high)
            if wide * high > 0:
                desktop.copy(*source, wide, high, left, top)
        elif encoding == RRE:
            self.rre(desktop, left, top, wide, high)
        else:
            raise Nonsense(f"a rectangle has the encoding {encoding}, which wasn't asked for")

    @staticmethod
    def on_desktop(desktop, what, left, top, wide, high):
        if left + wide > desktop.wide or top + high > desktop.high:
            raise Nonsense(f"{what} {wide}x{high} at {left}, {top} lies outside the desktop of {desktop.wide}x{desktop.high}")

    def raw(self, desktop, left, top, wide, high):
        """A rectangle of pixels, some rows at a time."""
        rows = max(CHUNK // max(4 * wide, 1) // 64 * 64, 64)
        for row in range(0, high if wide > 0 else 0, rows):
            count = min(rows, high - row)
            pixels = self.bytes(4 * wide * count, "the pixels of a rectangle")
            desktop.blit(left, top + row, wide, count, colours(pixels))

    def rre(self, desktop, left, top, wide, high):
        """A rectangle of one colour, with rectangles of one colour each on it."""
        count, colour = self.fields(">I4s", "an RRE rectangle")
        if count > wide * high:
            raise Nonsense(f"an RRE rectangle of {wide}x{high} has {count:,} parts")
        if wide * high > 0:
            desktop.fill(left, top, wide, high, colour[:3])
        while count > 0:
            some = min(count, MOST_PARTS)
            parts = self.bytes(12 * some, "the parts of an RRE rectangle")
            for colour, x, y, width, height in struct.iter_unpack(">4sHHHH", parts):
                if x + width > wide or y + height > high:
                    raise Nonsense(f"a part {width}x{height} at {x}, {y} lies outside its RRE rectangle of {wide}x{high}")
                if width * height > 0:
                    desktop.fill(left + x, top + y, width, height, colour[:3])
            count -= some

"""What is noted of the frames of a recording: the time of each, and a digest, by which a file is checked afterwards."""
import hashlib
import itertools
import os

DIGEST = 16  # bytes


def digest(wide, high, pixels):
    """A digest of a frame."""
    made = hashlib.blake2b(b"%d %d\n" % (wide, high), digest_size=DIGEST)
    made.update(pixels)
    return made.digest()


class FrameLog:
    """Files of the times and digests of frames, as a recording may have any number of them."""

    def __init__(self, folder):
        self.name, self.names = os.path.join(folder, "times.txt"), os.path.join(folder, "digests")
        self.times, self.digests = open(self.name, "w", encoding="ascii"), open(self.names, "wb")
        self.frames, self.last = 0, -1.0

    def add(self, at, wide, high, pixels):
        """Notes a frame; its time is later than the last one's by a millisecond or more."""
        self.last = max(round(at, 3), self.last + 1)
        self.times.write(f"{self.last:.3f}\n")
        self.digests.write(digest(wide, high, pixels))
        self.frames += 1

    def end(self, pictures, after):
        """Writes the times of so many pictures as mkvmerge reads them, with that of the end: the name of the file.

        `after` is the time of the end, or None where the last picture is shown as long as the one before it."""
        self.close()
        found = os.path.join(os.path.dirname(self.name), "timestamps.txt")
        with open(self.name, encoding="ascii") as times, open(found, "w", encoding="ascii") as file:
            file.write("# timestamp format v2\n")
            last, step = 0.0, 40.0
            for line in itertools.islice(times, pictures):
                last, step = float(line), float(line) - last or step
                file.write(line)
            until = last + step if after is None else max(after, last + 1)
            file.write(f"{until:.3f}\n")
        return found

    def noted(self):
        """The digests, in order."""
        with open(self.names, "rb") as file:
            yield from iter(lambda: file.read(DIGEST), b"")

    def close(self):
        self.times.close()
        self.digests.close()

"""The parts of a recording: scripts that are recorded while later ones are made, and whose streams follow one another."""
import collections
import contextlib
import itertools
import os
import re
import subprocess
import threading
import time

from programs import Fault, end, ours, start
from streams import write_whole

MOST_PART = 16_777_216  # bytes of a paint file
BLOCK = 1 << 20  # bytes that are copied at once
PAUSE = 0.05  # seconds between two looks at the parts
USAGE = 1  # the program's status for words that it doesn't know


class Running:
    """A part that is being recorded."""

    def __init__(self, words, script, stream):
        self.script, self.stream = script, stream
        self.process = start([*words, stream, script], stdout=subprocess.PIPE, stderr=subprocess.PIPE)

    def pictures(self):
        """How many pictures it has, once it is recorded."""
        report, said = self.process.communicate()
        found = re.search(rb"pictures (\d+)", report)
        if self.process.returncode != 0 or found is None:
            lines = said.decode(errors="replace").strip().splitlines()
            why = lines[-1] if lines else f"status {self.process.returncode}"
            raise Fault(f"{os.path.basename(self.script)}: screenrec: {why}")
        return int(found[1])


class Recorder(threading.Thread):
    """Records each part NAME-0.paint, NAME-1.paint .. as soon as it is whole, and adds its stream to the whole one.

    A part is whole when the next one is there, or when `scripts_ended` was called. `fault` is what went wrong, or None.
    """

    def __init__(self, words, folder, workers, keep):
        super().__init__(daemon=True)
        self.words, self.folder, self.workers, self.keep = words, folder, workers, keep
        self.stream = os.path.join(folder, "stream.h265")
        self.next, self.running = 0, collections.deque()
        self.pictures = self.bytes = 0
        self.fault, self.changed, self.ended = None, threading.Condition(), False

    def script(self, number):
        return os.path.join(self.folder, f"part-{number}.paint")

    def is_whole(self, number):
        return os.path.exists(self.script(number + 1)) or self.ended and os.path.exists(self.script(number))

    def has_room(self):
        """Whether few enough whole parts wait, so that the disk doesn't fill with them."""
        return not self.is_whole(self.next + 1)

    def wait_for_room(self):
        """Waits until another frame may be made."""
        with self.changed:
            self.changed.wait_for(lambda: self.has_room() or self.fault is not None)

    def scripts_ended(self, show):
        """No further part comes: records those that are left, and calls `show` meanwhile."""
        self.ended = True
        while self.is_alive():
            self.join(0.1)
            show()

    def run(self):
        try:
            with open(self.stream, "wb", buffering=0) as whole:
                while self.look(whole):
                    time.sleep(PAUSE)
        except Fault as fault:
            self.fault = str(fault)
        except OSError as fault:
            self.fault = f"{fault.filename or self.stream}: {fault.strerror}"
        finally:
            for part in self.running:
                end(part.process)
            with self.changed:
                self.changed.notify_all()

    def look(self, whole):
        """Starts parts that are whole, and adds the first one where it has ended. Whether there is more to do."""
        ended = self.ended
        while len(self.running) < self.workers and self.is_whole(self.next):
            self.begin()
        if self.running and self.running[0].process.poll() is not None:
            self.add(self.running.popleft(), whole)
        with self.changed:
            self.changed.notify_all()
        return bool(self.running) or not ended or self.is_whole(self.next)

    def begin(self):
        script, stream = self.script(self.next), os.path.join(self.folder, f"part-{self.next}.h265")
        self.next += 1
        # A part without a frame is left where one couldn't be written.
        if os.path.getsize(script) > 0:
            self.running.append(Running(self.words, script, stream))

    def add(self, part, whole):
        """Adds the stream of a part that has ended to the whole one, or nothing of it where it can't."""
        pictures = part.pictures()
        if not self.keep:
            # So that a disk that is nearly full has room.
            os.remove(part.script)
        try:
            with open(part.stream, "rb") as stream:
                for block in iter(lambda: stream.read(BLOCK), b""):
                    write_whole(whole, block)
        except OSError:
            with contextlib.suppress(OSError):
                whole.truncate(self.bytes)
            raise
        self.pictures += pictures
        self.bytes = whole.tell()
        if not self.keep:
            os.remove(part.stream)

    def waiting(self):
        """The bytes of the scripts that aren't recorded yet, with the one that grows."""
        total = 0
        with contextlib.suppress(OSError):
            for number in itertools.count(self.next - len(self.running)):
                total += os.path.getsize(self.script(number))
        return total


def serial(kinds):
    """The program and the words of its command for one script; `kinds` are `hash`, `moves` or neither."""
    return [ours("screenrec"), *kinds, "serial"]


def refuse_unknown(kinds, folder):
    """Refuses kinds of streams that the program doesn't know yet: words that it doesn't know answer Usage."""
    if not kinds:
        return
    script, stream = os.path.join(folder, "try.paint"), os.path.join(folder, "try.h265")
    with open(script, "wb") as file:
        file.write(b"cut\n")
    done = subprocess.run([*serial(kinds), "8x8", "0", "0", stream, script], stdin=subprocess.DEVNULL, capture_output=True)
    for name in (script, stream):
        with contextlib.suppress(FileNotFoundError):
            os.remove(name)
    if done.returncode == USAGE:
        options = " ".join(f"--{kind}" for kind in kinds)
        raise Fault(f"{options}: this screenrec doesn't serve `{' '.join([*kinds, 'serial'])}`")

"""Where the frames of a recording come from: an X display or a file by ffmpeg, or a Wayland session by grim.

A source gives pairs of a time, in milliseconds from the first frame, and a frame. `stop` asks it to end, which it does behind a
whole frame; `fault` then is what was wrong, or None.
"""
import collections
import contextlib
import io
import os
import queue
import signal
import subprocess
import threading
import time

from ppm_frames import BadFrame, read_frame, read_frames
from programs import Fault, Said, end, installed, start

MOST_WAITING = 16  # frames whose times haven't come


class Times(threading.Thread):
    """Reads the times that ffmpeg writes beside the frames, a line each, behind a line that says so."""

    def __init__(self, source):
        super().__init__(daemon=True)
        self.source, self.found = source, queue.SimpleQueue()
        self.start()

    def run(self):
        with self.source, contextlib.suppress(ValueError):
            for line in self.source:
                if not line.startswith("#"):
                    self.found.put(float(line))
        self.found.put(None)

    def next(self):
        """The next time; None where there is no further one."""
        try:
            return self.found.get(timeout=5)
        except queue.Empty:
            return None


class Ffmpeg:
    """Frames of whatever ffmpeg reads, each once and with its time."""

    def __init__(self, reading, step):
        self.step, self.fault, self.stopped = step, None, False
        times, into = os.pipe()
        passed = ["-map", "0:v:0", "-fps_mode", "passthrough", "-flush_packets", "1"]
        command = [installed("ffmpeg"), "-v", "error", "-nostdin", *reading]
        command += [*passed, "-enc_time_base", "1/1000", "-c:v", "wrapped_avframe", "-f", "mkvtimestamp_v2", f"pipe:{into}"]
        command += [*passed, "-c:v", "ppm", "-f", "image2pipe", "pipe:1"]
        self.process = start(command, stdout=subprocess.PIPE, stderr=subprocess.PIPE, pass_fds=[into])
        os.close(into)
        self.times, self.said = Times(open(times, encoding="ascii")), Said(self.process.stderr)

    def pairs(self):
        """(time, frame), as both come; ffmpeg may write a frame before the time of the last one."""
        waiting = collections.deque()
        for frame in read_frames(self.process.stdout):
            waiting.append(frame)
            while waiting and (len(waiting) > MOST_WAITING or not self.times.found.empty()):
                at = self.times.next()
                if at is None:
                    raise Fault("ffmpeg gives no times of its frames")
                yield at, waiting.popleft()
        while waiting:
            at = self.times.next()
            if at is None:
                return
            yield at, waiting.popleft()

    def frames(self):
        first = None
        try:
            for at, frame in self.pairs():
                first = at if first is None else first
                yield at - first, frame
        except BadFrame as refusal:
            # A frame that is cut off by a stop is no fault.
            self.fault = None if self.stopped else str(refusal)
        finally:
            self.close()

    def close(self):
        self.process.stdout.close()
        with contextlib.suppress(subprocess.TimeoutExpired):
            self.process.wait(5)
        end(self.process)
        if self.process.returncode != 0 and not self.stopped:
            self.fault = f"ffmpeg: {self.said.line()}"

    def stop(self):
        self.stopped = True
        with contextlib.suppress(ProcessLookupError):
            self.process.send_signal(signal.SIGINT)


class Grim:
    """Frames of a Wayland session, one by one at a rate, by grim."""

    def __init__(self, rate, seconds):
        self.step, self.fault, self.stopped = 1000 / rate, None, threading.Event()
        self.seconds, self.grim = seconds, installed("grim")

    def frames(self):
        begun = None
        number = 1
        while not self.stopped.is_set():
            at = time.monotonic()
            begun = at if begun is None else begun
            if self.seconds is not None and at - begun >= self.seconds:
                return
            done = subprocess.run([self.grim, "-c", "-t", "ppm", "-"], stdin=subprocess.DEVNULL, capture_output=True)
            if done.returncode != 0:
                said = done.stderr.decode(errors="replace").strip().splitlines()
                self.fault = None if self.stopped.is_set() else f"grim: {said[-1] if said else f'status {done.returncode}'}"
                return
            try:
                yield (at - begun) * 1000, read_frame(io.BytesIO(done.stdout), number)
            except BadFrame as refusal:
                self.fault = str(refusal)
                return
            number += 1
            # To the next place of the rate that isn't over yet.
            self.stopped.wait(-(time.monotonic() - begun) % (self.step / 1000))

    def stop(self):
        self.stopped.set()


def display(name, rate, seconds):
    """The frames of an X display."""
    limit = [] if seconds is None else ["-t", str(seconds)]
    return Ffmpeg(["-f", "x11grab", "-framerate", str(rate), *limit, "-i", name], 1000 / rate)


def file(name, rate, seconds):
    """The frames of a file, at its own times; those of PPM frames are at the rate."""
    plain = ["-f", "image2pipe", "-framerate", str(rate)] if name.endswith(".ppm") else []
    limit = [] if seconds is None else ["-t", str(seconds)]
    with open(name, "rb"):
        return Ffmpeg([*plain, *limit, "-i", "file:" + name], None)


def screen(rate, seconds):
    """The frames of this session's screen."""
    if os.environ.get("WAYLAND_DISPLAY"):
        return Grim(rate, seconds)
    if not os.environ.get("DISPLAY"):
        raise Fault("there is no screen: neither DISPLAY nor WAYLAND_DISPLAY is set (--virtual makes a display)")
    return display(os.environ["DISPLAY"], rate, seconds)

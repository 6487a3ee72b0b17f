"""The program, ffmpeg's lossless coders, and how a run of them is measured."""
import os
import resource
import shutil
import subprocess
import time
from typing import NamedTuple

TOP = os.path.dirname(os.path.dirname(os.path.abspath(__file__)))
PROGRAM = os.path.join(TOP, "crates", "screenrec", "out", "screenrec")
X265 = "lossless=1:log-level=error"


class Coder(NamedTuple):
    """A coder of ffmpeg: the form of the pixels that it takes, its words, those that keep it on one thread, and how its file's
    name ends."""

    name: str
    pixels: str
    words: list
    one_thread: list
    ending: str


def x265(preset):
    words = ["-c:v", "libx265", "-preset", preset, "-x265-params"]
    alone = words + [X265 + ":pools=none:frame-threads=1"]
    return Coder(f"libx265, {preset}, lossless=1", "gbrp", words + [X265], alone, ".mkv")


def coder(name, pixels, words, ending=".mkv"):
    return Coder(name, pixels, words, words + ["-threads", "1"], ending)


def x264(preset):
    return coder(f"libx264rgb, {preset}, qp 0", "rgb24", ["-c:v", "libx264rgb", "-preset", preset, "-qp", "0"])


FFV1 = coder("ffv1", "bgr0", ["-c:v", "ffv1", "-level", "3"])
PNG = coder("PNG, a file a picture", "rgb24", ["-c:v", "png", "-f", "image2pipe"], ".png")


def can_run():
    """Whether the program is built, and ffmpeg and its coders are installed."""
    if not os.path.exists(PROGRAM) or shutil.which("ffmpeg") is None:
        return False
    known = subprocess.run(["ffmpeg", "-v", "error", "-encoders"], check=True, stdout=subprocess.PIPE, text=True).stdout
    return all(name in known.split() for name in ("libx265", "libx264rgb", "ffv1", "png"))


def reading(pixels, size, raw):
    """The words with which ffmpeg reads raw frames."""
    return ["ffmpeg", "-v", "error", "-nostdin", "-y", "-f", "rawvideo", "-pix_fmt", pixels, "-s", size, "-i", raw]


def writing(pixels, source, raw):
    """The words with which ffmpeg writes a stream's pictures as raw frames."""
    return ["ffmpeg", "-v", "error", "-nostdin", "-y", "-i", source, "-f", "rawvideo", "-pix_fmt", pixels, raw]


def run(command):
    subprocess.run(command, check=True, stdout=subprocess.DEVNULL)


def seconds(command, rounds):
    """The least processor time and the least elapsed time of some runs, with the start of the process."""
    processor, elapsed = [], []
    for _ in range(rounds):
        before, begun = resource.getrusage(resource.RUSAGE_CHILDREN), time.monotonic()
        run(command)
        after = resource.getrusage(resource.RUSAGE_CHILDREN)
        elapsed.append(time.monotonic() - begun)
        processor.append(after.ru_utime + after.ru_stime - before.ru_utime - before.ru_stime)
    return min(processor), min(elapsed)


def memory(command):
    """The most bytes that a run holds in memory: what the system says of it, asked for twice a millisecond."""
    most = 0
    with subprocess.Popen(command, stdout=subprocess.DEVNULL) as process:
        while process.poll() is None:
            with open(f"/proc/{process.pid}/status", encoding="ascii") as status:
                peaks = [int(line.split()[1]) for line in status if line.startswith("VmHWM:")]
            most = max([most] + peaks)
            time.sleep(0.0005)
    return 1024 * most

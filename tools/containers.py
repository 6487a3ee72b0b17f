"""The files that recordings are given as: a stream, or a container with the time of each picture."""
import os
import subprocess

from programs import Fault, installed

ENDINGS = (".mkv", ".mp4", ".h265")
MOST_PICTURE = 64 << 20  # bytes that ffmpeg looks at to know a stream


def find_programs(name, is_checked):
    """Refuses a file whose programs aren't installed, before anything is recorded."""
    ending = os.path.splitext(name)[1]
    if ending != ".h265":
        installed("mkvmerge")
    if ending == ".mp4" or is_checked:
        installed("ffmpeg")


def run(command, what):
    """Runs a program that says what is wrong on its last line."""
    environment = {**os.environ, "LC_ALL": "C.UTF-8"}
    done = subprocess.run(command, stdin=subprocess.DEVNULL, stdout=subprocess.PIPE, stderr=subprocess.STDOUT, env=environment)
    # mkvmerge ends with 1 after a mere warning.
    if done.returncode not in ((0, 1) if what == "mkvmerge" else (0,)):
        said = done.stdout.decode(errors="replace").strip().splitlines()
        raise Fault(f"{what}: {said[-1] if said else f'status {done.returncode}'}")


def copied(source, name):
    """Copies pictures into another container, without coding them anew."""
    form = ["-probesize", str(MOST_PICTURE), "-f", "hevc"] if source.endswith(".h265") else []
    run([installed("ffmpeg"), "-v", "error", "-nostdin", "-y", *form, "-i", source, "-c", "copy", name], "ffmpeg")


def timed(source, times, name):
    run([installed("mkvmerge"), "-q", "-o", name, "--timestamps", f"0:{times}", source], "mkvmerge")


def contain(stream, times, name):
    """Makes the container of a stream. `times` is a file of milliseconds: the time of each picture, and that of the end."""
    stem = os.path.splitext(name)[0]
    try:
        timed(stream, times, stem + ".mkv")
    except Fault:
        # mkvmerge doesn't know a stream by one or two pictures, nor by very large ones; ffmpeg does.
        copied(stream, stem + "-untimed.mkv")
        timed(stem + "-untimed.mkv", times, stem + ".mkv")
        os.remove(stem + "-untimed.mkv")
    if name != stem + ".mkv":
        copied(stem + ".mkv", name)
        os.remove(stem + ".mkv")


def decoding(name):
    """The command that writes the pictures of a file, each once, as PPM frames."""
    command = [installed("ffmpeg"), "-v", "error", "-nostdin", "-xerror", "-i", "file:" + name]
    return [*command, "-map", "0:v:0", "-fps_mode", "passthrough", "-f", "image2pipe", "-vcodec", "ppm", "-"]

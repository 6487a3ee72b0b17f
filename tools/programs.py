"""The programs that the tools run: where they are, what is said where one is missing, and how they are started and ended."""
import os
import shutil
import subprocess
import threading

HERE = os.path.dirname(os.path.realpath(__file__))
# Debian's packages of what isn't ours.
PACKAGES = {"ffmpeg": "ffmpeg", "mkvmerge": "mkvtoolnix", "Xvfb": "xvfb", "grim": "grim"}
MOST_SAID = 65_536


class Fault(Exception):
    """Says in one line why something can't be done."""


def installed(name):
    """The path of a program of Debian's."""
    path = shutil.which(name)
    if path is None:
        raise Fault(f"{name} isn't installed (Debian's package {PACKAGES[name]})")
    return path


def ours(name):
    """The path of a program of this project: beside the tools, where it is built, or on the path."""
    built = os.path.join(os.path.dirname(HERE), "crates", name, "out", name)
    for path in (os.path.join(HERE, name), built):
        if os.access(path, os.X_OK) and os.path.isfile(path):
            return path
    path = shutil.which(name)
    if path is None:
        raise Fault(f"{name} isn't built (rt run in crates/{name} builds it) or installed")
    return path


def with_open_streams():
    """Opens the standard streams that are closed, so that no file or pipe takes their numbers."""
    while True:
        number = os.open(os.devnull, os.O_RDWR)
        if number > 2:
            os.close(number)
            return


class Said(threading.Thread):
    """Reads what a program says on standard error, and keeps the last line that isn't empty."""

    def __init__(self, source):
        super().__init__(daemon=True)
        self.source, self.last = source, b""
        self.start()

    def run(self):
        for line in iter(lambda: self.source.readline(MOST_SAID), b""):
            self.last = line.strip() or self.last

    def line(self):
        """The last line, once the program has ended; a carriage return begins it anew, as on a terminal."""
        self.join(5)
        return self.last.split(b"\r")[-1].decode(errors="replace").strip()


def start(command, **how):
    """Starts a program in a session of its own, so that a Ctrl-C at the terminal doesn't reach it. It is ended with this one,
    where the system can do that."""
    setpriv = shutil.which("setpriv")
    words = [setpriv, "--pdeathsig", "TERM", *command] if setpriv else command
    streams = {"stdin": subprocess.DEVNULL, "stdout": subprocess.DEVNULL, "stderr": subprocess.DEVNULL, **how}
    return subprocess.Popen(words, start_new_session=True, **streams)


def end(process, patience=5):
    """Ends a program, if it still runs."""
    if process.poll() is None:
        process.terminate()
        try:
            process.wait(patience)
        except subprocess.TimeoutExpired:
            process.kill()
            process.wait()

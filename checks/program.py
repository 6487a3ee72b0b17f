"""What the checks of the built program share: running it, and counting what it left."""
import os
import subprocess

TOP = os.path.dirname(os.path.dirname(os.path.abspath(__file__)))
PROGRAM = os.path.join(TOP, "crates", "screenrec", "out", "screenrec")


def is_built():
    """Whether there is a program (`rt ci` and `rt run` build it)."""
    return os.access(PROGRAM, os.X_OK)


def content(name):
    """The bytes of a file; None where there is none."""
    if not os.path.isfile(name):
        return None
    with open(name, "rb") as file:
        return file.read()


def store(name, text):
    with open(name, "wb") as file:
        file.write(text)


def remove(name):
    if os.path.lexists(name):
        os.remove(name)


def run(words, **how):
    """Runs the program in this folder: its exit status, its line on standard error, and what it reported."""
    streams = {"stdin": subprocess.DEVNULL, "stdout": subprocess.PIPE, "stderr": subprocess.PIPE, **how}
    done = subprocess.run([PROGRAM, *words], check=False, **streams)
    return done.returncode, done.stderr.decode().rstrip("\n"), done.stdout


class Count:
    """How many runs left what they must, and how many didn't."""

    def __init__(self):
        self.good = self.bad = 0

    def wants(self, what, found, wanted):
        """Counts a run, and prints it where something else is wanted."""
        if found == wanted:
            self.good += 1
        else:
            self.bad += 1
            print(f"{what}: {found}; wanted {wanted}")

    def end(self, name):
        """Prints the count; the exit status."""
        print(f"{name}: {self.good} as wanted, {self.bad} differ")
        return 1 if self.bad else 0

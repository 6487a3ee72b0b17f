"""A display of its own for a command, by Xvfb."""
import os
import secrets
import signal
import struct
import subprocess
import threading

from programs import Fault, end, installed, start

WILD = 0xFFFF  # the family of an entry that stands for each address


def authority(path):
    """Writes an X authority file with a new cookie, for any display."""
    fields = [b"", b"", b"MIT-MAGIC-COOKIE-1", secrets.token_bytes(16)]
    text = struct.pack(">H", WILD) + b"".join(struct.pack(">H", len(field)) + field for field in fields)
    with open(os.open(path, os.O_WRONLY | os.O_CREAT | os.O_TRUNC, 0o600), "wb") as file:
        file.write(text)


class VirtualDisplay:
    """An Xvfb of a size, which ends with this, and the command that runs on it."""

    def __init__(self, size, folder):
        self.command, self.asked = None, False
        cookie = os.path.join(folder, "authority")
        authority(cookie)
        number, into = os.pipe()
        words = [installed("Xvfb"), "-displayfd", str(into), "-screen", "0", size + "x24", "-nolisten", "tcp", "-auth", cookie]
        self.server = start(words, pass_fds=[into])
        os.close(into)
        with open(number, encoding="ascii") as answer:
            name = answer.readline().strip()
        if not name:
            raise Fault(f"Xvfb makes no display of {size}")
        self.name = ":" + name
        os.environ.update(DISPLAY=self.name, XAUTHORITY=cookie)
        os.environ.pop("WAYLAND_DISPLAY", None)

    def run(self, words, ended):
        """Starts the command, and calls `ended` behind it."""
        try:
            self.command = subprocess.Popen(words)
        except OSError as fault:
            raise Fault(f"{words[0]}: {fault.strerror}") from None
        threading.Thread(target=lambda: (self.command.wait(), ended()), daemon=True).start()

    def stop(self):
        """Asks the command to end; one that is asked again has to."""
        if self.command is not None and self.command.poll() is None:
            self.command.send_signal(signal.SIGKILL if self.asked else signal.SIGTERM)
            self.asked = True

    def status(self):
        """The command's exit status, as a shell gives it."""
        if self.command is None:
            return 0
        status = self.command.wait()
        return status if status >= 0 else 128 - status

    def close(self):
        end(self.server)

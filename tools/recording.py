"""Recordings: frames or a remote desktop's updates become scripts, scripts become streams, and these become a file."""
import contextlib
import os
import shutil
import subprocess
import time

import containers
import parts
from frame_log import FrameLog, digest
from ppm_frames import BadFrame, read_frames
from programs import Fault, Said, end, ours, start
from progress import Progress, clock
from remote_desktop import Desktop, Scripts, Watch
from rfb import Nonsense


class Recording:
    """What recordings of both kinds share."""

    def __init__(self, words, folder):
        self.words, self.folder, self.serial = words, folder, parts.serial(words.kinds)
        parts.refuse_unknown(words.kinds, folder)
        self.log, self.recorder, self.progress = FrameLog(folder), None, Progress()
        self.last, self.after, self.dropped = 0.0, None, 0

    @property
    def pictures(self):
        return self.recorder.pictures if self.recorder else 0

    def begin(self, wide, high):
        """Begins to record parts, now that the size is known."""
        words = [*self.serial, f"{wide}x{high}", str(self.words.effort), str(self.words.key)]
        self.recorder = parts.Recorder(words, self.folder, self.words.workers, self.words.keep is not None)
        self.recorder.start()

    def took(self, at, wide, high, pixels):
        """Notes a frame that has gone to the scripts."""
        self.log.add(at, wide, high, pixels)
        self.last = at
        self.show(at)

    def show(self, at):
        self.progress.show(lambda: f"{self.text(at, self.log.frames)}, and {self.recorder.waiting():,} of scripts")

    def text(self, at, frames):
        return f"{clock(at)}, {frames:,} frames, {self.dropped:,} dropped, {self.recorder.bytes:,} bytes"

    def summary(self):
        return self.text(self.after if self.after is not None else self.last, self.pictures)

    def finish(self):
        """Records what is left; what is wrong, or None."""
        if self.recorder is None:
            return None
        self.recorder.scripts_ended(lambda: self.show(self.last))
        self.progress.end()
        return self.recorder.fault

    def write(self, name):
        """Writes the file of what was recorded."""
        ending = os.path.splitext(name)[1]
        made = os.path.join(self.folder, "recording" + ending)
        try:
            times = self.log.end(self.pictures, self.after)
            if ending != ".h265":
                containers.contain(self.recorder.stream, times, made)
            elif self.words.keep is not None:
                shutil.copyfile(self.recorder.stream, made)
            else:
                made = self.recorder.stream
            shutil.move(made, name)
        except (Fault, OSError) as fault:
            why = fault if isinstance(fault, Fault) else f"{fault.filename or name}: {fault.strerror}"
            # A disk that is too full for a container still has the stream.
            shutil.move(self.recorder.stream, name + ".h265")
            raise Fault(f"{why}; the stream, without times, is {os.path.basename(name)}.h265") from None


class FrameRecording(Recording):
    """A recording of frames, which a converter turns into scripts."""

    def __init__(self, words, folder, source):
        super().__init__(words, folder)
        self.source, self.kept = source, None
        self.at_first_frame = lambda: None
        if words.keep is not None:
            self.kept = open(os.path.join(folder, "frames.ppm"), "wb")
        converter = [ours("frames_to_paint"), "--parts", str(parts.MOST_PART), os.path.join(folder, "part.paint")]
        self.converter = start(converter, stdin=subprocess.PIPE, stderr=subprocess.PIPE)
        self.said = Said(self.converter.stderr)

    def stop(self):
        self.source.stop()

    def make(self):
        """Takes frames to their end; what is wrong, or None."""
        fault = None
        try:
            for at, frame in self.source.frames():
                if not self.take(at, frame):
                    break
        except (BadFrame, Fault) as refusal:
            fault = str(refusal)
        except OSError as refusal:
            fault = f"{self.folder}: {refusal.strerror}"
        self.source.stop()
        converter = self.end_converter()
        if self.source.step is not None:
            self.after = self.last + self.source.step
        return self.finish() or converter or fault or self.source.fault

    def take(self, at, frame):
        """Hands a frame on; whether there may be another one."""
        header = b"P6\n%d %d\n255\n" % (frame.wide, frame.high)
        first, step = self.recorder is None, self.source.step
        if first:
            self.begin(frame.wide, frame.high)
        elif step is not None:
            # After a wait ffmpeg takes several frames at once: what it missed doesn't come back by that.
            if at - self.last < step / 2:
                return True
            self.dropped = max(int(at / step + 1.5) - self.log.frames - 1, self.dropped)
        if self.kept is not None:
            self.kept.write(header + frame.pixels)
        self.recorder.wait_for_room()
        try:
            self.converter.stdin.write(header)
            self.converter.stdin.write(frame.pixels)
            self.converter.stdin.flush()
        except BrokenPipeError:
            return False
        self.took(at, frame.wide, frame.high, frame.pixels)
        if first:
            self.at_first_frame()
        return self.recorder.fault is None

    def end_converter(self):
        """Waits for the last script; what is wrong, or None."""
        with contextlib.suppress(OSError):
            if self.kept is not None:
                self.kept.close()
        with contextlib.suppress(BrokenPipeError):
            self.converter.stdin.close()
        if self.converter.wait() == 0 or self.recorder is None:
            return None
        return self.said.line()


class RemoteRecording(Recording):
    """A recording of a remote desktop, whose updates are lines of the scripts."""

    def __init__(self, words, folder, server):
        super().__init__(words, folder)
        self.server = server
        self.watch = Watch(server, words.rate, words.seconds)

    def stop(self):
        self.watch.stop()

    def make(self):
        """Watches the desktop to its end; what is wrong, or None."""
        fault, scripts = None, Scripts(self.folder)
        try:
            desktop = Desktop(*self.server.greet())
            self.begin(desktop.wide, desktop.high)
            self.take_cuts(desktop, scripts)
        except Fault as refusal:
            fault = str(refusal)
        except Nonsense as refusal:
            fault = None if self.watch.stopped else str(refusal)
        except OSError as refusal:
            fault = f"{refusal.filename or self.words.vnc[0]}: {refusal.strerror or refusal}"
        self.server.close()
        scripts.close()
        return self.finish() or fault

    def take_cuts(self, desktop, scripts):
        begun = time.monotonic()
        for at in self.watch.cuts(desktop):
            if at is None:
                self.show((time.monotonic() - begun) * 1000)
            else:
                begun = time.monotonic() - at / 1000
                self.recorder.wait_for_room()
                scripts.cut(desktop)
                self.took(at, desktop.wide, desktop.high, desktop.pixels)
            self.after = (time.monotonic() - begun) * 1000
            if self.recorder.fault is not None:
                break


def check(name, log):
    """Decodes a file and compares each picture with the digest of its frame; what differs, or None."""
    wanted, pictures = log.noted(), 0
    decoder = start(containers.decoding(name), stdout=subprocess.PIPE, stderr=subprocess.PIPE)
    said = Said(decoder.stderr)
    try:
        for frame in read_frames(decoder.stdout):
            pictures += 1
            if digest(*frame) != next(wanted, None):
                return f"picture {pictures} of {os.path.basename(name)} isn't the frame that was taken"
        if decoder.wait() != 0:
            return f"ffmpeg can't decode all of {os.path.basename(name)}: {said.line()}"
    except BadFrame as refusal:
        return f"{os.path.basename(name)}: {refusal}"
    finally:
        end(decoder)
    if next(wanted, None) is not None:
        return f"{os.path.basename(name)} has {pictures} pictures, and there were more frames"
    return None

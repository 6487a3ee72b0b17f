"""A program that is stopped at each call of some functions of the C library, by ptrace. For Linux on x86-64."""
import ctypes
import os
import platform
import signal
import struct
import subprocess

TRACE_ME, GO_ON, STEP, GET_REGISTERS, SET_REGISTERS, SET_OPTIONS = 0, 7, 9, 12, 13, 0x4200
# Threads are traced too, and the program ends with its tracer.
OPTIONS = 0x8 | 0x100000
ANY_THREAD = 0x40000000
# Places of registers in what the kernel hands out.
RESULT, FIRST_ARGUMENT, NEXT_INSTRUCTION, STACK = 10, 14, 16, 19
BREAKPOINT = b"\xcc"
LONGEST_INSTRUCTION = 15
ENTRY = 9

LIBC = ctypes.CDLL(None, use_errno=True)
LIBC.ptrace.argtypes = [ctypes.c_long, ctypes.c_long, ctypes.c_void_p, ctypes.c_void_p]
LIBC.ptrace.restype = ctypes.c_long


def base_of_libc(pid):
    """Where the C library begins in a process, and its file; None where there is none."""
    with open(f"/proc/{pid}/maps", encoding="ascii") as maps:
        for line in maps:
            if "/libc.so" in line or "/libc-" in line:
                return int(line.split("-")[0], 16), line.split()[-1]
    return None


def ask(request, thread, value=None):
    """One request of ptrace."""
    if LIBC.ptrace(request, thread, None, value) < 0:
        raise OSError(ctypes.get_errno(), "ptrace")


class Traced:
    """A program that runs from one call of the named functions to the next, on any of its threads."""

    def __init__(self, command, names, **streams):
        self.process = subprocess.Popen(command, preexec_fn=lambda: ask(TRACE_ME, 0), **streams)
        self.pid = self.thread = self.process.pid
        self.threads = {self.pid}
        self.saved = {}
        self.names = {}
        self.refused = False
        os.waitpid(self.pid, 0)
        ask(SET_OPTIONS, self.pid, OPTIONS)
        self.memory = open(f"/proc/{self.pid}/mem", "r+b", buffering=0)
        # At the program's entry its libraries stand in place.
        self.entry = self.find_entry()
        self.stop_at(self.entry)
        self.next_stop()
        self.put(self.entry, self.saved.pop(self.entry)[:1])
        self.move_to(self.entry)
        mine, theirs = base_of_libc("self"), base_of_libc(self.pid)
        if mine is None or theirs is None or mine[1] != theirs[1]:
            self.kill()
            raise OSError("the program and Python have other C libraries")
        for name in names:
            address = ctypes.cast(getattr(LIBC, name), ctypes.c_void_p).value - mine[0] + theirs[0]
            self.names[address] = name
            self.stop_at(address)

    def find_entry(self):
        """Where the program begins."""
        with open(f"/proc/{self.pid}/auxv", "rb") as auxiliary:
            for kind, value in struct.iter_unpack("QQ", auxiliary.read()):
                if kind == ENTRY:
                    return value
        raise OSError("no entry")

    def put(self, address, text):
        self.memory.seek(address)
        self.memory.write(text)

    def stop_at(self, address):
        self.memory.seek(address)
        self.saved[address] = self.memory.read(LONGEST_INSTRUCTION)
        self.put(address, BREAKPOINT)

    def registers(self):
        found = (ctypes.c_ulong * 27)()
        ask(GET_REGISTERS, self.thread, ctypes.byref(found))
        return found

    def move_to(self, address):
        found = self.registers()
        found[NEXT_INSTRUCTION] = address
        ask(SET_REGISTERS, self.thread, ctypes.byref(found))

    def next_stop(self):
        """Lets the thread run on, and says whether one stands at a breakpoint. If not, the program has ended."""
        passed_on = 0
        while True:
            ask(GO_ON, self.thread, passed_on)
            self.thread, status = os.waitpid(-1, ANY_THREAD)
            while not os.WIFSTOPPED(status):
                if self.thread == self.pid:
                    self.process.returncode = os.waitstatus_to_exitcode(status)
                    self.memory.close()
                    return False
                self.threads.discard(self.thread)
                self.thread, status = os.waitpid(-1, ANY_THREAD)
            passed_on = os.WSTOPSIG(status)
            if passed_on == signal.SIGTRAP:
                if status >> 16 == 0:
                    return True
                passed_on = 0
            elif self.thread not in self.threads:
                self.threads.add(self.thread)
                passed_on = 0

    def calls(self):
        """The names of the calls, one by one. Each is made when the next one is asked for, if it wasn't refused."""
        while self.next_stop():
            address = self.registers()[NEXT_INSTRUCTION] - 1
            self.refused = False
            yield self.names[address]
            if not self.refused:
                self.step(address)

    def step(self, address):
        """Runs the instruction at a breakpoint: in its place, or, beside other threads, at the program's entry."""
        first = self.saved[address]
        at = address if len(self.threads) == 1 else self.entry
        self.put(at, first)
        self.move_to(at)
        ask(STEP, self.thread)
        os.waitpid(self.thread, ANY_THREAD)
        if at == address:
            self.put(address, BREAKPOINT)
        else:
            self.move_to(address + self.registers()[NEXT_INSTRUCTION] - at)

    def refuse(self):
        """The call gives 0, and isn't made."""
        found = self.registers()
        self.memory.seek(found[STACK])
        found[NEXT_INSTRUCTION] = int.from_bytes(self.memory.read(8), "little")
        found[STACK] += 8
        found[RESULT] = 0
        ask(SET_REGISTERS, self.thread, ctypes.byref(found))
        self.refused = True

    def first_argument(self):
        return self.registers()[FIRST_ARGUMENT]

    def kill(self):
        self.process.kill()
        self.process.wait()


def can_trace():
    """Whether programs can be stopped here."""
    if platform.system() != "Linux" or platform.machine() != "x86_64":
        return False
    try:
        for _ in Traced(["/bin/true"], ["malloc"]).calls():
            pass
    except OSError:
        return False
    return True

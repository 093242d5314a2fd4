"""Runs the program and stops it at each write and each sync of its disk file, so that power can be cut there. Linux on x86-64 alone.

A program that is killed loses nothing that it wrote: the system still has it, and writes it to the device later. A power loss does lose
it. So a run is traced (ptrace, with a filter that stops it at writes at a place and at syncs and nowhere else), and `Disk` keeps what
was written since the last sync. After the run has ended, `cut_power` leaves in each of these sectors something else.
"""

import ctypes
import os
import random
import signal
import struct

SECTOR = 512
OPEN_GATE = b"MSECOPEN" + bytes(504)

PWRITE64, FSYNC, FDATASYNC = 18, 74, 75
TRACEME, CONT, GETREGS, SYSCALL, SETOPTIONS = 0, 7, 12, 24, 0x4200
# Tell a stop at a system call from one at a signal; tell one by the filter; end the program with its tracer.
OPTIONS = 0x1 | 0x80 | 0x100000
AT_FILTER = signal.SIGTRAP | 7 << 8
AT_CALL = signal.SIGTRAP | 0x80

libc = ctypes.CDLL(None, use_errno=True)
libc.ptrace.argtypes = [ctypes.c_long, ctypes.c_long, ctypes.c_void_p, ctypes.c_void_p]
libc.ptrace.restype = ctypes.c_long


def filter_of_calls():
    """The program of the filter (BPF): the three calls are traced, all others allowed."""
    load, jump, answer = 0x20, 0x15, 0x06
    rows = [(load, 0, 0, 0), (jump, 2, 0, PWRITE64), (jump, 1, 0, FSYNC), (jump, 0, 1, FDATASYNC)]
    rows += [(answer, 0, 0, 0x7FF00000), (answer, 0, 0, 0x7FFF0000)]
    return b"".join(struct.pack("<HBBI", *row) for row in rows)


def become_traced(octets):
    """In the new process: it is traced by the one that made it, and stops at the three calls. False where the system does not let it."""
    buffer = ctypes.create_string_buffer(octets, len(octets))
    program = struct.pack("<HxxxxxxQ", len(octets) // 8, ctypes.addressof(buffer))
    no_new_privileges, set_filter, by_filter = 38, 22, 2
    return (
        libc.ptrace(TRACEME, 0, None, None) == 0
        and libc.prctl(no_new_privileges, 1, 0, 0, 0) == 0
        and libc.prctl(set_filter, by_filter, program, 0, 0) == 0
    )


def can_trace():
    """Whether this system lets a program be traced."""
    if os.uname().machine != "x86_64":
        return False
    child = os.fork()
    if child == 0:
        os._exit(0 if become_traced(filter_of_calls()) else 1)
    return os.waitpid(child, 0)[1] == 0


class Registers(ctypes.Structure):
    names = "r15 r14 r13 r12 rbp rbx r11 r10 r9 r8 rax rcx rdx rsi rdi orig_rax rip cs eflags rsp ss fs_base gs_base ds es fs gs"
    _fields_ = [(name, ctypes.c_ulong) for name in names.split()]


def registers(child):
    it = Registers()
    libc.ptrace(GETREGS, child, None, ctypes.addressof(it))
    return it


class Disk:
    """What a disk file has: the octets that a sync made durable, and the sectors that were written since."""

    def __init__(self, path):
        self.path = path
        self.durable = bytearray(open(path, "rb").read())
        self.pending = {}

    def write(self, place, octets):
        for at in range(0, len(octets), SECTOR):
            self.pending[place + at] = octets[at : at + SECTOR]

    def sync(self):
        for place, octets in self.pending.items():
            self.durable[place : place + SECTOR] = octets
        self.pending = {}

    def cut_power(self, chance):
        """Leaves in each pending sector its old octets, the new ones, half of each, or octets that nobody wrote there."""
        with open(self.path, "r+b") as file:
            for place, new in self.pending.items():
                old = bytes(self.durable[place : place + SECTOR])
                ways = [old, new, new[:256] + old[256:], bytes(SECTOR), chance.randbytes(SECTOR), OPEN_GATE]
                file.seek(place)
                file.write(chance.choice(ways))


class Run:
    """A run of the program that is stopped at each write and sync of its disk file."""

    def __init__(self, program, words, disk):
        octets = filter_of_calls()
        self.disk = Disk(disk)
        self.status = None
        self.child = os.fork()
        if self.child == 0:
            try:
                if become_traced(octets):
                    os.execv(program, [program, *words])
            finally:
                os._exit(127)
        self.wait()
        libc.ptrace(SETOPTIONS, self.child, None, OPTIONS)
        self.go_on(CONT)

    def wait(self):
        """Waits until the program stops: how it does. None when it has ended, by `status`."""
        if self.status is None:
            stop = os.waitpid(self.child, 0)[1]
            if os.WIFSTOPPED(stop):
                return stop
            self.status = os.waitstatus_to_exitcode(stop)
        return None

    def go_on(self, request, by=0):
        libc.ptrace(request, self.child, None, by)

    def kill(self):
        """Ends the program where it is, as `kill -9` does."""
        if self.status is None:
            os.kill(self.child, signal.SIGKILL)

    def is_on_disk(self, descriptor):
        """Whether a file is the one that has the disk's name. An opening writes and syncs a new one beside it, which then takes the name."""
        return os.readlink(f"/proc/{self.child}/fd/{descriptor}") == os.path.realpath(self.disk.path)

    def next_call(self):
        """Waits until the program is about to write or to sync: the call and, of a write to its disk file, its place and octets. None when it
        has ended."""
        while (stop := self.wait()) is not None:
            if stop >> 8 == AT_FILTER:
                it = registers(self.child)
                if not self.is_on_disk(it.rdi):
                    return "elsewhere", None, None
                if it.orig_rax != PWRITE64:
                    return "sync", None, None
                with open(f"/proc/{self.child}/mem", "rb") as memory:
                    memory.seek(it.rsi)
                    return "write", it.r10, memory.read(it.rdx)
            by = os.WSTOPSIG(stop)
            self.go_on(CONT, 0 if by == signal.SIGTRAP else by)
        return None

    def make(self, call, place, octets):
        """Lets the program make the call at which it has stopped. A write is pending from here on; what is pending is durable once a sync succeeds."""
        if call == "write":
            self.disk.write(place, octets)
        if call != "sync":
            self.go_on(CONT)
            return
        self.go_on(SYSCALL)
        stop = self.wait()
        if stop is not None:
            if os.WSTOPSIG(stop) == AT_CALL and registers(self.child).rax == 0:
                self.disk.sync()
            self.go_on(CONT)

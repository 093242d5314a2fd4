#!/usr/bin/env python3
"""Is a packet number used twice after a sync that failed, while another program holds pages of the disk file?

    tools/held_pages.py PROGRAM [--cut]

After a failed sync a kernel may go on showing what the device does not have. An opening can have it forget such pages, but not those that another
program has mapped, spliced into a pipe or is reading. PROGRAM (a built macsecd, such as out/x86-64-v2/macsecd) runs over a model of such a kernel,
a library of tools/held_pages.c that is preloaded: no root, no device. There the N-th sync of a run fails with EIO; its pages are clean from then
on, are shown, and are not on the device. POSIX_FADV_DONTNEED drops clean pages, or none of them where they are held. A power loss leaves each file as it
was last synced without a fault, under the name that it had when its folder was last synced.

A case, for disk files of blocks of 512 and of 4,096 octets, is a row of runs of `protect` over a few frames:

    one whose N-th sync fails, for each sync that there is: the area of the journal is almost full, so that the run also makes a compaction
    one while pages are held, or not
    one while none are held: in each second case it is left out
    a power loss, and one run more

It is bad if a packet number comes twice. If a later run sends nothing, since what was held made a bad journal, a line says so, and the line before the
last counts these cases. With --cut other cases come too: after four of the syncs (of a compaction those of the bodies and of the head's gate, then those
of the next record's body and gate), the second run, with pages held, ends before each of its calls on the disk file and its folder, with a power loss
or not; then come a run, a power loss and one run more. Such a case is bad if a number comes twice or one of these runs sends nothing.

Each bad case is a line; the last line is `N cases, numbers twice or none: M`. The status is 0 if both counts are 0, else 1; 2 after wrong words. Needs
gcc. It takes half a minute, with --cut some three.
"""

import os
import shutil
import struct
import subprocess
import sys
import tempfile

LIBRARY = os.path.join(os.path.dirname(os.path.abspath(__file__)), "held_pages.c")
SCI = "0200000000010001"
NAME = "left.disk"
BLOCKS = ("512", "4096")
# One number is reserved at a time, so that each frame takes a slot of the journal; after FILL frames it is almost full.
TX, RX = "1", "16"
FILL, FEW = 247, 12
# The status of a run that was ended before a call, and of one that made a call that is not modelled (tools/held_pages.c).
ENDED, NOT_MODELLED = 77, 78
# The syncs that --cut is about, counted from the opening's last one: twelve are of records before the compaction, and one is of its closed gates.
CUT_SYNCS = range(14, 18)
COMMANDS = """
[[command]]
do = "tx-install"
an = 0
key = "11111111111111111111111111111111"
start = 1
confidential = true
offset = 0

[[command]]
do = "tx-use"
an = 0
"""


def write_capture(path, count):
    """A classic capture of so many different frames."""
    with open(path, "wb") as file:
        file.write(struct.pack("<IHHIIII", 0xA1B2C3D4, 2, 4, 0, 0, 262144, 1))
        for number in range(count):
            frame = bytes.fromhex("0200000000020200000000010800") + struct.pack(">HI", 0, number) + bytes(40)
            file.write(struct.pack("<IIII", number, 0, len(frame), len(frame)) + frame)


def packet_numbers(path):
    """The packet numbers of the protected frames of a capture, in order. One that is missing or cut has those before its end."""
    if not os.path.exists(path):
        return []
    with open(path, "rb") as file:
        octets = file.read()
    at, found = 24, []
    while at + 16 <= len(octets):
        count = struct.unpack_from("<I", octets, at + 8)[0]
        frame = octets[at + 16 : at + 16 + count]
        at += 16 + count
        if len(frame) == count and frame[12:14] == b"\x88\xe5":
            found.append(struct.unpack(">I", frame[16:20])[0])
    return found


def span(numbers):
    return f"{numbers[0]}-{numbers[-1]}" if numbers else "none"


class Run:
    """What came of a run: its packet numbers, its status, and what it said on standard error."""

    def __init__(self, numbers, done):
        self.numbers, self.status, self.said = numbers, done.returncode, done.stderr.strip()

    def __str__(self):
        return span(self.numbers) + (f" ({self.said})" if self.said else "")


class Machine:
    """A folder with a disk file, over the model of a kernel and of a device."""

    def __init__(self, program, folder):
        self.program, self.folder = program, folder
        self.disk, self.full, self.few = (os.path.join(folder, it) for it in (NAME, "full", "few"))
        self.device, self.library = os.path.join(folder, "device"), os.path.join(folder, "held_pages.so")
        subprocess.run(["gcc", "-O1", "-Wall", "-shared", "-fPIC", "-o", self.library, LIBRARY], check=True)
        write_capture(self.few, FEW)

    def fill(self, block):
        """Makes the disk file that each case begins with, without the model."""
        commands, frames = os.path.join(self.folder, "commands"), os.path.join(self.folder, "fill")
        write_capture(frames, FILL)
        with open(commands, "w", encoding="ascii") as file:
            file.write(COMMANDS)
        if os.path.exists(self.full):
            os.unlink(self.full)
        for words in (
            ["format", self.full, SCI, TX, RX, "--block", block],
            ["apply", self.full, commands],
            ["protect", self.full, frames, os.path.join(self.folder, "filled")],
        ):
            subprocess.run([self.program, *words], check=True, capture_output=True)

    def clear(self):
        shutil.rmtree(self.device, ignore_errors=True)
        os.mkdir(self.device)
        for name in os.listdir(self.folder):
            if name.startswith(NAME):
                os.unlink(os.path.join(self.folder, name))

    def begin(self):
        """The disk file as it was filled; the device has all of it."""
        self.clear()
        shutil.copy(self.full, self.disk)
        os.chmod(self.disk, 0o600)

    def lose_power(self):
        """What the device has is all that is left."""
        with open(os.path.join(self.device, f"{NAME}.inode"), encoding="ascii") as file:
            kept = os.path.join(self.device, f"{file.read().strip()}.device")
        octets = b""
        if os.path.exists(kept):
            with open(kept, "rb") as file:
                octets = file.read()
        self.clear()
        with open(self.disk, "wb", opener=lambda path, flags: os.open(path, flags, 0o600)) as file:
            file.write(octets)

    def start(self, words, held, fail, end):
        env = {**os.environ, "LD_PRELOAD": self.library, "HELD_FOLDER": self.device, "HELD_NAME": NAME}
        env |= {"HELD_PAGES": str(int(held)), "HELD_FAIL": str(fail), "HELD_END": str(end)}
        done = subprocess.run([self.program, *words], env=env, capture_output=True, text=True, check=False)
        if done.returncode == NOT_MODELLED:
            sys.exit(done.stderr)
        return done

    def protect(self, held=False, fail=0, end=0):
        """A run over the few frames. With `fail` that sync fails, with `end` it ends before that call."""
        output = os.path.join(self.folder, "output")
        if os.path.exists(output):
            os.unlink(output)
        done = self.start(["protect", self.disk, self.few, output], held, fail, end)
        return Run(packet_numbers(output), done)

    def syncs_of_opening(self):
        """How many syncs an opening has: `show` fails at each of them."""
        count = 0
        while True:
            self.begin()
            if self.start(["show", self.disk], False, count + 1, 0).returncode == 0:
                return count
            count += 1


class Tally:
    """Counts cases, and prints those that are bad."""

    def __init__(self):
        self.cases = self.bad = self.silent = 0

    def judge(self, is_bad, what, runs):
        self.cases += 1
        self.bad += is_bad
        if is_bad:
            self.tell(what, runs)

    def note_silent(self, what, runs):
        self.silent += 1
        self.tell(what, runs)

    @staticmethod
    def tell(what, runs):
        print(f"{what}: {' / '.join(map(str, runs))}", flush=True)


def comes_twice(lists):
    """Whether a number is in these lists more than once."""
    numbers = [it for one in lists for it in one]
    return len(set(numbers)) < len(numbers)


def numbers_of(runs):
    return [it.numbers for it in runs]


def try_sync(machine, tally, block, sync):
    """The cases of one sync that fails. False if there is no such sync."""
    for held in (False, True):
        for is_short in (False, True):
            machine.begin()
            runs = [machine.protect(fail=sync)]
            if not runs[0].said:
                return False
            runs.append(machine.protect(held))
            if not is_short:
                runs.append(machine.protect())
            machine.lose_power()
            runs.append(machine.protect())
            what = f"block {block}, sync {sync}, pages {'held' if held else 'free'}{', loss after the first run' if is_short else ''}"
            tally.judge(comes_twice(numbers_of(runs)), f"TWICE: {what}", runs)
            if not all(numbers_of(runs[1:])):
                tally.note_silent(f"no numbers: {what}", runs)
    return True


def try_cuts(machine, tally, block, sync):
    """The cases in which the run after a failed sync ends before each of its calls."""
    call = 1
    while True:
        for loses_power in (False, True):
            machine.begin()
            runs = [machine.protect(fail=sync), machine.protect(held=True, end=call)]
            if runs[1].status != ENDED:
                return
            if loses_power:
                machine.lose_power()
            runs.append(machine.protect(held=not loses_power))
            machine.lose_power()
            runs.append(machine.protect())
            is_bad = comes_twice(numbers_of(runs)) or not all(numbers_of(runs[2:]))
            tally.judge(is_bad, f"BAD: block {block}, sync {sync}, ended before call {call}{' and power lost' if loses_power else ''}", runs)
        call += 1


def try_block(machine, tally, block, cuts):
    machine.fill(block)
    sync = 1
    while try_sync(machine, tally, block, sync):
        sync += 1
    first = machine.syncs_of_opening()
    if not first:
        sys.exit("held_pages.py: no sync was seen: is PROGRAM a program that the C library's calls are preloaded into?")
    print(f"block {block}: {sync - 1} syncs, {first} of them of the opening", flush=True)
    if cuts:
        for one in CUT_SYNCS:
            try_cuts(machine, tally, block, first + one)


def main():
    words = [it for it in sys.argv[1:] if it != "--cut"]
    if len(words) != 1 or not shutil.which("gcc"):
        print(__doc__, file=sys.stderr)
        sys.exit(2)
    tally = Tally()
    with tempfile.TemporaryDirectory() as folder:
        machine = Machine(os.path.abspath(words[0]), folder)
        for block in BLOCKS:
            try_block(machine, tally, block, "--cut" in sys.argv[1:])
    print(f"{tally.silent} cases in which a later run sends nothing")
    print(f"{tally.cases} cases, numbers twice or none: {tally.bad}")
    sys.exit(1 if tally.bad or tally.silent else 0)


if __name__ == "__main__":
    main()

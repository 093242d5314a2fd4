#!/usr/bin/env python3
"""Gives each word of the program that names a file every other word's file, and looks at what became of the files.

    tools/slips.py PROGRAM

PROGRAM is the absolute path of the built program, or a command that runs it. Each slip is a run in a folder of its own, which has an endpoint
that sends, one that another run has in use, one that nobody has, one in a spaced file, a command file, a capture, an image of
other octets, an empty file, a folder, a symbolic link and a hard link to the endpoint that sends. A line for each slip has its words, its status, what it
said, and which files were changed, made or removed. The last line is 'N slips, M wrong'. Wrong is a slip after which a file differs
that is not the run's own output, and one after which a packet number comes twice. The status is 1 if M is not 0.
"""
import fcntl
import os
import re
import shlex
import shutil
import struct
import subprocess
import sys
import tempfile

TOP = os.path.dirname(os.path.dirname(os.path.realpath(__file__)))
SCI = "0200000000010001"
# A number that is reserved at a time, so that each run that sends begins a new one.
BLOCK = "16"
# How long a run may take, in seconds.
PATIENCE = 60

# What is in the folder, by its role.
DISK = "disk"
IN_USE = "in-use"
IDLE = "idle"
SPACED = "spaced"
COMMANDS = "commands.toml"
CAPTURE = "plain.pcap"
IMAGE = "image"
EMPTY = "empty"
MISSING = "missing"
FOLDER = "folder"
LINK = "link"
SECOND = "second"
NULL = "/dev/null"
EACH = (DISK, IN_USE, IDLE, SPACED, COMMANDS, CAPTURE, IMAGE, EMPTY, MISSING, FOLDER, LINK, SECOND, NULL)
# The names of the endpoint that sends.
OWN = (DISK, LINK, SECOND)
WIRES = ["127.0.0.1:0", "127.0.0.1:9", "127.0.0.1:0", "127.0.0.1:9", "--turns", "3"]


class Room:
    """A folder with one of each file, and the program in it."""

    def __init__(self, program, folder):
        self.program = program
        self.folder = folder

    def run(self, words, given=None, printed=None):
        """Runs the program, and answers its status and what it printed last. Its standard output may be a file, at the end of
        which it is written."""
        with open(os.path.join(self.folder, given) if given else os.devnull, "rb") as stdin, \
                open(os.path.join(self.folder, printed) if printed else os.devnull, "ab") as stdout:
            done = subprocess.run(self.program + words, cwd=self.folder, stdin=stdin,
                                  stdout=stdout if printed else subprocess.PIPE, stderr=subprocess.PIPE,
                                  timeout=PATIENCE, check=False)
        lines = ((done.stdout or b"") + done.stderr).decode(errors="replace").strip().splitlines()
        return done.returncode, lines[-1] if lines else ""

    def must(self, *words):
        status, line = self.run(list(words))
        if status != 0:
            sys.exit(f"{' '.join(words)}: {status} {line}")

    def fill(self):
        examples = os.path.join(TOP, "examples")
        # The commands name no end here: there are four.
        with open(os.path.join(examples, "left.toml")) as example, open(os.path.join(self.folder, COMMANDS), "w") as commands:
            commands.write(re.sub(r"^sci = .*$", "", example.read(), count=1, flags=re.MULTILINE))
        shutil.copy(os.path.join(examples, "plain.pcap"), os.path.join(self.folder, CAPTURE))
        for name, last, more in ((DISK, "1", []), (IN_USE, "2", []), (IDLE, "3", []), (SPACED, "4", ["--block", "4096"])):
            self.must("format", name, SCI[:-1] + last, BLOCK, BLOCK, *more)
            self.must("apply", name, COMMANDS)
        with open(os.path.join(self.folder, IMAGE), "wb") as image:
            image.write(bytes(range(256)) * 64)
        with open(os.path.join(self.folder, EMPTY), "wb"):
            pass
        os.mkdir(os.path.join(self.folder, FOLDER))
        os.symlink(DISK, os.path.join(self.folder, LINK))
        os.link(os.path.join(self.folder, DISK), os.path.join(self.folder, SECOND))

    def look(self):
        """What each name in the folder holds."""
        found = {}
        for name in sorted(os.listdir(self.folder)):
            path = os.path.join(self.folder, name)
            if os.path.isdir(path):
                found[name] = tuple(sorted(os.listdir(path)))
            else:
                with open(path, "rb") as file:
                    found[name] = file.read()
        return found

    def numbers(self):
        """The packet numbers of the frames that the endpoint sends next; none where it refuses."""
        output = os.path.join(self.folder, "next.pcap")
        status, _ = self.run(["protect", DISK, CAPTURE, output])
        numbers = packet_numbers(output) if status == 0 else []
        if os.path.exists(output):
            os.remove(output)
        return numbers


def packet_numbers(path):
    """The packet numbers of a protected capture, little-endian as the program writes it."""
    with open(path, "rb") as file:
        octets = file.read()
    numbers, at = [], 24
    while at + 16 <= len(octets):
        (size,) = struct.unpack_from("<I", octets, at + 8)
        (number,) = struct.unpack_from(">I", octets, at + 16 + 16)
        numbers.append(number)
        at += 16 + size
    return numbers


def slips():
    """Each slip: its words, the file that is its standard input, the name that is its own output, and the file that is its
    standard output."""
    for name in EACH:
        if name not in (MISSING, FOLDER):
            yield ["open"], name, None, None
        yield ["format", name, SCI, BLOCK, BLOCK], None, name, None
        yield ["format", name, SCI, BLOCK, BLOCK, "--over"], None, name, None
        yield ["format", name, SCI, BLOCK, BLOCK, "--block", "4096"], None, name, None
        yield ["apply", name, COMMANDS], None, name, None
        yield ["apply", DISK, name], None, DISK, None
        yield ["show", name], None, None, None
        yield ["examine", name], None, None, None
        yield ["inspect", name], None, None, None
        yield ["check", name], None, None, None
        yield ["plan", name, "left", "first"], None, None, None
        yield ["check", COMMANDS, name], None, None, None
        for direction in ("protect", "validate"):
            yield [direction, name, CAPTURE, "out"], None, name, None
            yield [direction, DISK, name, "out"], None, DISK, None
            yield [direction, DISK, CAPTURE, name], None, name, None
            yield [direction, SPACED, CAPTURE, name], None, name, None
        yield ["relay", name, *WIRES], None, name, None
        # No socket takes the name of a file. One that is missing would be made, and a client waited for.
        yield ["keep", name, COMMANDS], None, None, None
        if name != MISSING:
            yield ["keep", IDLE, name], None, None, None
    for name in OWN:
        for printed in OWN:
            yield ["apply", name, COMMANDS], None, None, printed
            yield ["show", name], None, None, printed
            yield ["protect", name, CAPTURE, "out"], None, None, printed
            yield ["validate", name, CAPTURE, "out"], None, None, printed
            yield ["relay", name, *WIRES], None, None, printed
    yield ["format", EMPTY, SCI, BLOCK, BLOCK], None, None, EMPTY
    yield ["protect", DISK, CAPTURE, "out"], None, None, "out"
    yield ["validate", DISK, CAPTURE, "out"], None, None, "out"


def may_change(words, own, printed):
    """The names that a run may change: its own disk where it works on one, and its own output. Where it prints to its disk it
    changes nothing but makes an output."""
    names = {"out"}
    if printed:
        return names
    if words[0] in ("protect", "validate"):
        names.add(words[1])
        # OUTPUT may be a file that is no endpoint and no other file of the run.
        if words[3] in (COMMANDS, IMAGE, EMPTY, MISSING):
            names.add(words[3])
    elif words[0] == "format":
        # What is missing or empty is made. Other files of whole sectors are lost by `--over` alone.
        if own in (EMPTY, MISSING) or "--over" in words and own == IMAGE:
            names.add(own)
    elif words[0] in ("apply", "relay"):
        names.add(own)
        if words[0] == "apply" and words[2] == COMMANDS:
            # The list of keys, beside the file that a link leads to.
            names.add((DISK if own == LINK else own) + ".spent")
    if names & set(OWN):
        names |= set(OWN)
    return names


def changed(before, after):
    return [name for name in sorted(before.keys() | after.keys()) if before.get(name) != after.get(name)]


def try_slip(room, words, given, own, printed):
    """Runs a slip, and answers what it did and what is wrong with that."""
    used = room.numbers()
    before = room.look()
    with open(os.path.join(room.folder, IN_USE), "rb") as held:
        fcntl.flock(held, fcntl.LOCK_EX)
        status, line = room.run(words, given, printed)
    after = room.look()
    differs = changed(before, after)
    faults = [f"{name} is another" for name in differs if name not in may_change(words, own, printed)]
    if os.path.exists(os.path.join(room.folder, "out")) and words[0] == "protect" and status == 0:
        used += packet_numbers(os.path.join(room.folder, "out"))
    again = room.numbers()
    if set(again) & set(used):
        faults.append("a packet number comes twice")
    spelled = " ".join(words) + (f" < {given}" if given else "") + (f" >> {printed}" if printed else "")
    print(f"{spelled}: {status} {line!r}; changed: {', '.join(differs) or 'nothing'}")
    for fault in faults:
        print(f"    WRONG: {fault}")
    return not faults


def main():
    if len(sys.argv) != 2:
        sys.exit(__doc__)
    program = shlex.split(sys.argv[1])
    tried = wrong = 0
    with tempfile.TemporaryDirectory() as top:
        model = os.path.join(top, "model")
        os.mkdir(model)
        Room(program, model).fill()
        for words, given, own, printed in slips():
            folder = os.path.join(top, "room")
            # `cp -a` keeps the two names of one file.
            subprocess.run(["cp", "-a", model, folder], check=True)
            tried += 1
            wrong += not try_slip(Room(program, folder), words, given, own, printed)
            shutil.rmtree(folder)
    print(f"{tried} slips, {wrong} wrong")
    sys.exit(1 if wrong else 0)


if __name__ == "__main__":
    main()

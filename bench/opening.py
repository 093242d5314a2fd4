#!/usr/bin/env python3
"""Measures what an opening of a disk file takes, by `show`.

    python3 bench/opening.py [ROUNDS] [PROGRAM..]

The disks are packed and spaced, each of a new endpoint, whose journal is in the first area, and of one whose journal has moved to the second. Each
PROGRAM, out/LEVEL/macsecd where none is named, makes disks of its own and opens them in turn with the others, each first in as many rounds as the others,
ROUNDS times (100): with the file in the kernel's cache, and after the cache was emptied, which only root can have the kernel do. The figures are medians in
milliseconds, from the start of the process to its end, and of the processor's time in it, and their ratios to those of the first PROGRAM. One that has no such
layout is left out there.
"""

import os
import re
import resource
import statistics
import subprocess
import sys
import tempfile
import time

TOP = os.path.abspath(os.path.join(os.path.dirname(__file__), ".."))
CPU = os.environ.get("MACSECD_CPU", "x86-64-v3")
LAYOUTS = {"packed": "512", "spaced": "4096"}
# The layout that needs no word of its own.
DEFAULT = "512"
EMPTIED = "/proc/sys/vm/drop_caches"
# The gate of the second area's head: open where it is not of zeros.
SECOND_HEAD_GATE = 515


def empty_cache():
    os.sync()
    with open(EMPTIED, "w") as kernel:
        kernel.write("1")


def used():
    children = resource.getrusage(resource.RUSAGE_CHILDREN)
    return children.ru_utime + children.ru_stime


def opening(program, disk):
    """How long an opening takes by the clock, and of the processor's time, in milliseconds."""
    before, begun = used(), time.perf_counter()
    subprocess.run([program, "show", disk], check=True, stdout=subprocess.DEVNULL)
    return 1000 * (time.perf_counter() - begun), 1000 * (used() - before)


def in_turn(programs, round_):
    """The programs, each first in its round."""
    first = round_ % len(programs)
    return programs[first:] + programs[:first]


def openings(disks, rounds, is_cold):
    """The medians of each program over its own disk. They take turns."""
    seen = {it: [] for it in disks}
    for round_ in range(rounds):
        for program in in_turn(list(disks), round_):
            if is_cold:
                empty_cache()
                # The program itself is not to come from the disk.
                subprocess.run([program, "--version"], check=True, stdout=subprocess.DEVNULL)
            seen[program].append(opening(program, disks[program]))
    return {it: [statistics.median(column) for column in zip(*seen[it])] for it in disks}


def run(*words):
    subprocess.run(words, check=True, stdout=subprocess.DEVNULL)


def is_in_second_area(disk, block):
    with open(disk, "rb") as file:
        file.seek(SECOND_HEAD_GATE * block)
        return any(file.read(512))


def commands_beside(disk):
    """The commands of the example's left end, in a file beside the disk that names no end: older programs know no such name."""
    path = disk + ".toml"
    with open(os.path.join(TOP, "examples", "left.toml")) as example, open(path, "w") as commands:
        commands.write(re.sub(r"^sci = .*$", "", example.read(), count=1, flags=re.MULTILINE))
    return path


def move_to_second_area(program, disk, block):
    """Has an endpoint reserve packet numbers until its journal is compacted."""
    run(program, "apply", disk, commands_beside(disk))
    while not is_in_second_area(disk, block):
        run(program, "protect", disk, os.path.join(TOP, "examples", "plain.pcap"), disk + ".pcap")


def made(program, disk, block, area):
    """Whether the program made a disk of this layout whose journal is in this area."""
    words = [program, "format", disk, "0200000000010001", "1", "1"]
    words += [] if block == DEFAULT else ["--block", block]
    if subprocess.run(words, stdout=subprocess.DEVNULL, stderr=subprocess.DEVNULL).returncode != 0:
        return False
    if area == "second":
        move_to_second_area(program, disk, int(block))
    return True


def measure(disks, rounds, what):
    for name, is_cold in (("from the cache", False), ("from the disk", True)):
        if is_cold and not os.access(EMPTIED, os.W_OK):
            continue
        base = None
        for program, figures in openings(disks, rounds, is_cold).items():
            base = base or figures
            clock, processor = (f"{it:.3f} ms ({it / of_first:.3f})" for it, of_first in zip(figures, base))
            print(f"{what}, {name}: {clock} by the clock, {processor} of the processor: {program}", flush=True)


def main():
    rounds = int(sys.argv[1]) if len(sys.argv) > 1 else 100
    programs = [os.path.abspath(it) for it in sys.argv[2:]] or [os.path.join(TOP, "out", CPU, "macsecd")]
    with tempfile.TemporaryDirectory(dir=TOP) as folder:
        for layout, block in LAYOUTS.items():
            for area in ("first", "second"):
                disks = {it: os.path.join(folder, f"{layout}-{area}-{place}") for place, it in enumerate(programs)}
                measure({it: disks[it] for it in programs if made(it, disks[it], block, area)}, rounds, f"{layout}, {area} area")


main()

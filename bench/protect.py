#!/usr/bin/env python3
"""Measures `macsecd protect` and `validate` beside sealing alone: time, peak memory, and the calls of the system.

    python3 bench/protect.py [FOLDER] [FRAMES] [ROUNDS] [OCTETS]

FOLDER, where the captures and the disk file are made, should be on a real disk; it is the system's folder for temporary files unless
one is named. FRAMES is 100,000, ROUNDS 10: more of them where other work on the machine disturbs. Frames have OCTETS octets, 1,500 unless
another number is given; sealing alone is measured for 1,500. Blocks are 65,536 packet numbers. Both programs are built for one level of
processors, x86-64-v3 unless MACSECD_CPU names another, and run in turn in each round; times are of the processor (user and system).
`validate` takes what `protect` made, at another end; opening takes as long as sealing, to 3 of 100 (`bench/run`). Each ratio is given three
times: of the two least times, of the two tenths (a tenth of the runs took less), and as the median of the rounds' own ratios. Each run
writes a new file: to give back the pages of an old one would be counted too. strace, where there is one, counts the calls of one more run.
"""

import os
import re
import shutil
import struct
import subprocess
import sys
import tempfile
from collections import Counter
from statistics import median

TOP = os.path.abspath(os.path.join(os.path.dirname(__file__), ".."))
PROVE = os.path.join(TOP, "tools/prove")
CPU = os.environ.get("MACSECD_CPU", "x86-64-v3")
PROGRAM = os.path.join(TOP, "out", CPU, "macsecd")
ROUNDS = 10
COMMANDS = """
[[command]]
do = "tx-install"
an = 0
key = "000102030405060708090a0b0c0d0e0f"
start = 1
confidential = true
offset = 0

[[command]]
do = "tx-use"
an = 0
"""
RECEIVING = """
[[command]]
do = "rx-add"
sci = "0200000000010001"

[[command]]
do = "rx-install"
sci = "0200000000010001"
an = 0
key = "000102030405060708090a0b0c0d0e0f"
start = 1
offset = 0
"""


def build_sealing():
    """Builds the program that seals alone. Its words."""
    tree = subprocess.run([os.path.join(TOP, "tools/tree_for"), CPU], check=True, capture_output=True, text=True).stdout.strip()
    crate = os.path.join(tree, "crates/frame_times")
    subprocess.run(["rt", "run", "--cpu", CPU], cwd=crate, check=True, stdout=subprocess.DEVNULL, stderr=subprocess.DEVNULL)
    return [os.path.join(crate, "out/frame_times"), "seal"]


def write_capture(path, frames, octets):
    header = struct.pack("<IHHIIII", 0xA1B2C3D4, 2, 4, 0, 0, 262144, 1)
    with open(path, "wb") as file:
        file.write(header)
        for i in range(frames):
            file.write(struct.pack("<IIII", i, 0, octets, octets) + bytes(12) + b"\x08\x00" + bytes([i % 256]) * (octets - 14))


def measured(command):
    """Processor seconds and peak memory in MiB of one run."""
    process = subprocess.Popen(command, stdout=subprocess.DEVNULL)
    _, status, usage = os.wait4(process.pid, 0)
    assert status == 0, command
    return usage.ru_utime + usage.ru_stime, usage.ru_maxrss / 1024


def traced(folder, command):
    """How often each call came, and the sizes of reads and writes of at least 4 KiB."""
    trace = os.path.join(folder, "trace")
    calls = "read,write,pread64,pwrite64,fsync,fdatasync,fadvise64,lseek,brk,mmap"
    subprocess.run(["strace", "-f", "-o", trace, "-e", "trace=" + calls, *command], check=True, stdout=subprocess.DEVNULL)
    counts, sizes = Counter(), {"read": Counter(), "write": Counter()}
    for line in open(trace):
        found = re.match(r"\d+ +(\w+)\((\d+)?.*= (\d+|0x[0-9a-f]+)", line)
        if found:
            counts[found[1]] += 1
            if found[1] in sizes and int(found[3], 0) >= 4096:
                sizes[found[1]][int(found[3], 0)] += 1
    return counts, sizes


def main():
    frames = int(sys.argv[2]) if len(sys.argv) > 2 else 100_000
    octets = int(sys.argv[4]) if len(sys.argv) > 4 else 1500
    subprocess.run([PROVE, CPU], check=True, stdout=subprocess.DEVNULL)
    seal = [*build_sealing(), str(frames)] if octets == 1500 else ["true"]
    folder = tempfile.mkdtemp(dir=sys.argv[1] if len(sys.argv) > 1 else None)
    at = lambda name: os.path.join(folder, name)
    try:
        for disk, sci, commands in ("disk", "0200000000010001", COMMANDS), ("other", "0200000000020001", RECEIVING):
            open(at("commands"), "w").write(commands)
            subprocess.run([PROGRAM, "format", at(disk), sci, "65536", "65536"], check=True)
            subprocess.run([PROGRAM, "apply", at(disk), at("commands")], check=True)
        write_capture(at("few"), 1000, octets)
        write_capture(at("many"), frames, octets)
        protect = lambda name: [PROGRAM, "protect", at("disk"), at(name), at("out")]
        print(f"for {CPU}; {frames} frames of {octets} octets")
        rounds = []
        for _ in range(int(sys.argv[3]) if len(sys.argv) > 3 else ROUNDS):
            sealing, _ = measured(seal)
            whole, _ = measured(protect("many"))
            other, _ = measured([PROGRAM, "validate", at("other"), at("out"), at("plain")])
            assert os.path.getsize(at("plain")) == os.path.getsize(at("many"))
            os.remove(at("out"))
            os.remove(at("plain"))
            rounds.append((sealing, whole, other))
            print(f"sealing {sealing:.3f} s, protect {whole:.3f} s, validate {other:.3f} s")
        for word, at_word in ("protect", 1), ("validate", 2):
            sealing, whole = sorted(it[0] for it in rounds), sorted(it[at_word] for it in rounds)
            for name, at_rank in ("the least", 0), ("the tenths", len(rounds) // 10):
                beside = f", sealing {sealing[at_rank]:.3f} s, ratio {whole[at_rank] / sealing[at_rank]:.3f}" if octets == 1500 else ""
                print(f"{name}: {word} {whole[at_rank]:.3f} s{beside}")
            if octets == 1500:
                print(f"the median of {len(rounds)} ratios: {median(it[at_word] / it[0] for it in rounds):.3f}")
        _, few = measured(protect("few"))
        _, many = measured(protect("many"))
        print(f"peak memory: {few:.1f} MiB with 1,000 frames, {many:.1f} MiB with {frames}")
        if shutil.which("strace"):
            counts, sizes = traced(folder, protect("many"))
            print("calls:", ", ".join(f"{name} {count}" for name, count in sorted(counts.items())))
            for name, each in sizes.items():
                print(f"{name}s of 4 KiB and more:", ", ".join(f"{count} of {size}" for size, count in sorted(each.items())))
    finally:
        shutil.rmtree(folder)


main()

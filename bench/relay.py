#!/usr/bin/env python3
"""Measures `macsecd relay` over loopback beside a relay that only copies datagrams (bench/relay.c).

    python3 bench/relay.py [--wait [--keeper]] [FRAMES]
    python3 bench/relay.py --receive [--keeper] [FRAMES]
    python3 bench/relay.py --slow [--keeper] [--tx N] [FRAMES]

With `--keeper` a keeper has the disk file of each relay (`macsecd keep`).

FRAMES is 20,000 for each of the three sizes, 64, 256 and 1,400 octets; blocks are 65,536. The two relays run in turn, five times; the figures
are those of the most frames a second. What a frame takes longer in macsecd is the endpoint's part. With `--wait` both relays sleep while nothing
comes (`relay --wait 1000`, and a copier over epoll); then each also takes 2,000 frames of 64 octets one at a time, a millisecond apart, and
idles for 20 seconds: printed is how long a frame takes and which share of a processor it idles at, with its keeper.

With `--receive` it measures the other direction: protected frames of 64, 256 and 1,400 plain octets come in on the common side of `relay --wait 1000`,
as fast as they are delivered, 32 under way, with RX of 4, 16, 64 and 1,024 (each round with a new disk file in the folder for temporary files, TMPDIR,
which has to be on a disk: the syncs are what is measured), 6,000 unless FRAMES are named. Printed are the frames and the Mbit/s of plain frames that are
delivered, the most of three rounds, and the octets a frame that the relay, or its keeper, wrote into its disk file (`write_bytes` of /proc/PID/io: whole
pages, as the device gets them).

With `--slow` each sync of `relay --wait 1000`, or of its keeper, takes 0, 5, 50 and 200 ms longer (bench/slow_sync.c, preloaded), with TX of 1,024 unless
`--tx` names another, and RX of 1,024, while 2,000 plain frames of 256 octets a second come in on the controlled side, 8,000 unless FRAMES are named.
Printed are the frames that were lost, and the longest time in which none came out, of each of three rounds.

macsecd is built for x86-64-v3 unless MACSECD_CPU names another level; MACSECD_PROGRAM=PATH takes the program that is there. It needs a C compiler, cc.
"""

import argparse
import os
import struct
import subprocess
import sys
import tempfile
import time

TOP = os.path.abspath(os.path.join(os.path.dirname(__file__), ".."))
PROVE = os.path.join(TOP, "tools/prove")
CPU = os.environ.get("MACSECD_CPU", "x86-64-v3")
PROGRAM = os.environ.get("MACSECD_PROGRAM", os.path.join(TOP, "out", CPU, "macsecd"))
ROUNDS = 5
# Frames that go one at a time, and seconds that a relay idles.
TRIPS = 2_000
IDLE = 20
# Plain octets of a frame, in both directions.
SIZES = (64, 256, 1400)
# Of `--receive`: numbers reserved at a time, rounds, and frames unless said.
BLOCKS, RECEIVING_ROUNDS, RECEIVING_FRAMES = (4, 16, 64, 1024), 3, 6_000
# Of `--slow`: how much longer a sync takes, in milliseconds, rounds, octets, frames a second, frames unless said, RX, and TX unless said.
SLOWER, SLOW_ROUNDS, SLOW_OCTETS, SLOW_RATE, SLOW_FRAMES, SLOW_BLOCK = (0, 5, 50, 200), 3, 256, 2_000, 8_000, 1_024
SCI = "0200000000010001"
KEY = "000102030405060708090a0b0c0d0e0f"
# The host's port and the relay's on the controlled side, then the relay's and the host's on the common side.
INSIDE, OWN1, OWN2, OUTSIDE = "4100", "4101", "4102", "4103"
COMMANDS = f"""
[[command]]
do = "tx-install"
an = 0
key = "{KEY}"
start = 1
confidential = true
offset = 0

[[command]]
do = "tx-use"
an = 0
"""
PEER_COMMANDS = f"""
[[command]]
do = "rx-add"
sci = "{SCI}"

[[command]]
do = "rx-install"
sci = "{SCI}"
an = 0
key = "{KEY}"
start = 1
offset = 0
"""


class Relay:
    """A relay that runs, until the end of the block. If it has a keeper, that runs too, and in this environment."""

    def __init__(self, words, environment=None, disk=None):
        self.words = words
        self.environment = {**os.environ, **(environment or {})}
        self.disk, self.keeper = disk, None

    def __enter__(self):
        environment = self.environment
        if self.disk:
            socket = self.disk + ".keeper"
            self.keeper = subprocess.Popen([PROGRAM, "keep", self.disk, socket], env=environment)
            until_listening(socket)
            self.words, environment = [*self.words, "--keeper", socket], os.environ
        self.process = subprocess.Popen(self.words, stdout=subprocess.DEVNULL, env=environment)
        return self

    def __exit__(self, *_):
        self.process.kill()
        self.process.wait()
        if self.keeper:
            self.keeper.wait()

    def seconds(self):
        """The processor seconds that it and its keeper have taken."""
        taken = 0
        for process in filter(None, (self.process, self.keeper)):
            with open(f"/proc/{process.pid}/schedstat", encoding="utf-8") as file:
                taken += int(file.read().split()[0])
        return taken / 1e9

    def written(self):
        """The octets that it, or its keeper, had the system write to devices: whole pages of its disk file."""
        with open(f"/proc/{(self.keeper or self.process).pid}/io", encoding="ascii") as file:
            return next(int(it.split()[1]) for it in file if it.startswith("write_bytes:"))


def said(tool, what, octets, frames):
    """What comes of so many frames through the relay that runs."""
    command = [tool, what, INSIDE, OWN1, OUTSIDE, str(octets)]
    # The first frames may be lost, since the relay may not be there yet.
    subprocess.run([tool, "load", *command[2:], "50"], check=True, stdout=subprocess.DEVNULL)
    return subprocess.run([*command, str(frames)], check=True, capture_output=True, text=True).stdout.split()


def compare_rates(relays, tool, octets, frames):
    """Frames a second through each relay, the most of several rounds."""
    best = dict.fromkeys(relays, 0.0)
    for _ in range(ROUNDS):
        for name, relay in relays.items():
            with relay():
                came, _seconds, rate = said(tool, "load", octets, frames)
            print(f"{octets} octets, {name}: {came} of {frames} came, {rate} a second")
            best[name] = max(best[name], float(rate))
    part = 1e6 / best["macsecd"] - 1e6 / best["copy"]
    print(
        f"{octets} octets: copy {best['copy']:.0f}, macsecd {best['macsecd']:.0f} frames a second, {best['macsecd'] / best['copy']:.2f} of it;"
        f" the endpoint's part {part:.1f} us of {1e6 / best['macsecd']:.1f}"
    )


def compare_trips(relays, tool):
    """How long a frame takes through each relay, the least of several rounds."""
    best = dict.fromkeys(relays, float("inf"))
    for _ in range(ROUNDS):
        for name, relay in relays.items():
            with relay():
                came, median, late = said(tool, "trips", 64, TRIPS)
            print(f"one at a time, {name}: {came} of {TRIPS} came, median {median} us, 99 of 100 within {late} us")
            best[name] = min(best[name], float(median))
    print(f"one at a time: copy {best['copy']:.1f} us, macsecd {best['macsecd']:.1f} us, {best['macsecd'] / best['copy']:.2f} of it")


def measure_idling(relays):
    """Which share of a processor each relay takes while nothing comes."""
    for name, relay in relays.items():
        with relay() as running:
            time.sleep(1)
            before = running.seconds()
            time.sleep(IDLE)
            print(f"idle for {IDLE} s, {name}: {(running.seconds() - before) / IDLE * 100:.4f} % of a processor")


def built_tool(folder):
    tool = os.path.join(folder, "relay")
    subprocess.run(["cc", "-O2", "-o", tool, os.path.join(TOP, "bench/relay.c")], check=True)
    return tool


def new_disk(disk, sci, rx, text, tx=65536):
    """Makes a disk file for an endpoint, with these commands applied."""
    # Its keys are the same each time, so the list of those that were used goes too.
    for name in (disk, disk + ".spent"):
        if os.path.exists(name):
            os.unlink(name)
    quiet = {"check": True, "stdout": subprocess.DEVNULL}
    subprocess.run([PROGRAM, "format", disk, sci, str(tx), str(rx)], **quiet)
    with open(disk + ".commands", "w", encoding="utf-8") as file:
        file.write(text)
    subprocess.run([PROGRAM, "apply", disk, disk + ".commands"], **quiet)


def relaying(disk):
    """The words of an endpoint's relay but for its pace."""
    return [PROGRAM, "relay", disk, *(f"127.0.0.1:{port}" for port in (OWN1, INSIDE, OWN2, OUTSIDE))]


# The receiving direction.

def write_plain(path, octets, frames):
    """A capture of plain frames of so many octets, each with its number."""
    with open(path, "wb") as file:
        file.write(struct.pack("<IHHIIII", 0xA1B2C3D4, 2, 4, 0, 0, 262144, 1))
        for number in range(frames):
            frame = bytes.fromhex("02000000000202000000000188b5") + number.to_bytes(8, "big")
            file.write(struct.pack("<IIII", 0, 0, octets, octets) + frame.ljust(octets, b"\0"))


def until_bound(port):
    """Waits until a socket of this machine has a port."""
    while True:
        with open("/proc/net/udp", encoding="ascii") as sockets:
            if any(f":{int(port):04X} " in it.split(":", 1)[1] for it in sockets if ":" in it):
                return
        time.sleep(0.01)


def until_listening(name):
    """Waits until a socket of this name waits for clients (a flag in /proc/net/unix): it has its name a little earlier."""
    while True:
        with open("/proc/net/unix", encoding="utf-8") as sockets:
            if any(it.split()[3] == "00010000" and it.split()[-1] == name for it in sockets):
                return
        time.sleep(0.01)


def receive(tool, disk, capture, rx, has_keeper):
    """Frames a second that a relay with a new disk file delivers, how many came, and the octets that it wrote for each."""
    new_disk(disk, "0200000000020001", rx, PEER_COMMANDS)
    with Relay([*relaying(disk), "--wait", "1000"], disk=disk if has_keeper else None) as relay:
        until_bound(OWN2)
        before = relay.written()
        played = subprocess.run([tool, "play", OUTSIDE, OWN2, INSIDE, capture], check=True, capture_output=True, text=True)
        came, _seconds, rate = played.stdout.split()
        return float(rate), int(came), (relay.written() - before) / int(came)


def measure_receiving(folder, frames, has_keeper):
    tool, disk, sender = built_tool(folder), os.path.join(folder, "disk"), os.path.join(folder, "sender")
    plain, protected = os.path.join(folder, "plain"), os.path.join(folder, "protected")
    place = subprocess.run(["findmnt", "-n", "-o", "FSTYPE,SOURCE", "-T", folder], check=True, capture_output=True, text=True).stdout.split()
    print(f"disk files on {' of '.join(place)}; load {os.getloadavg()[0]:.2f}")
    for octets in SIZES:
        new_disk(sender, SCI, 1, COMMANDS)
        write_plain(plain, octets, frames)
        subprocess.run([PROGRAM, "protect", sender, plain, protected], check=True, stdout=subprocess.DEVNULL)
        for rx in BLOCKS:
            rounds = [receive(tool, disk, protected, rx, has_keeper) for _ in range(RECEIVING_ROUNDS)]
            rate, came, written = max(rounds)
            print(
                f"{octets} octets, RX {rx}: {rate:.0f} frames a second, {rate * octets * 8 / 1e6:.1f} Mbit/s, {written:.0f} octets written a frame;"
                f" {came} of {frames} came; all rounds: {' '.join(f'{it[0]:.0f}' for it in rounds)}",
                flush=True,
            )


# Slow syncs.

def pass_slowly(tool, library, disk, slower, tx, frames, has_keeper):
    """How many frames were lost while syncs took so much longer, and the longest time without one, in milliseconds."""
    new_disk(disk, SCI, SLOW_BLOCK, COMMANDS, tx)
    slowed = {"LD_PRELOAD": library, "SLOW_SYNC": str(slower)}
    with Relay([*relaying(disk), "--wait", "1000"], slowed, disk if has_keeper else None):
        until_bound(OWN2)
        # The reservations after the opening are not measured.
        time.sleep(1 + slower / 100)
        said = subprocess.run([tool, "gaps", INSIDE, OWN1, OUTSIDE, str(SLOW_OCTETS), str(frames), str(SLOW_RATE)], check=True, capture_output=True, text=True)
        came, longest = said.stdout.split()
        return frames - int(came), float(longest)


def measure_slowed(folder, frames, tx, has_keeper):
    tool, disk, library = built_tool(folder), os.path.join(folder, "disk"), os.path.join(folder, "slow_sync.so")
    subprocess.run(["cc", "-O2", "-shared", "-fPIC", "-o", library, os.path.join(TOP, "bench/slow_sync.c")], check=True)
    for slower in SLOWER:
        rounds = [pass_slowly(tool, library, disk, slower, tx, frames, has_keeper) for _ in range(SLOW_ROUNDS)]
        said = "; ".join(f"{lost} of {frames} lost, none for {longest:.1f} ms" for lost, longest in rounds)
        print(f"TX {tx}, syncs {slower} ms longer, {SLOW_RATE} frames a second: {said}", flush=True)


# The sending direction.

def measure_sending(folder, frames, waits, has_keeper):
    tool, disk = built_tool(folder), os.path.join(folder, "disk")
    new_disk(disk, SCI, 65536, COMMANDS)
    pace = ["--wait", "1000"] if waits else ["--turns", str(2**63)]
    copying = [tool, "rest" if waits else "copy", OWN1, INSIDE, OWN2, OUTSIDE]
    relays = {"copy": lambda: Relay(copying), "macsecd": lambda: Relay([*relaying(disk), *pace], disk=disk if has_keeper else None)}
    for octets in SIZES:
        compare_rates(relays, tool, octets, frames)
    if waits:
        compare_trips(relays, tool)
        measure_idling(relays)


def read_words():
    parser = argparse.ArgumentParser(description=__doc__, formatter_class=argparse.RawDescriptionHelpFormatter)
    what = parser.add_mutually_exclusive_group()
    for option in ("--wait", "--receive", "--slow"):
        what.add_argument(option, action="store_true")
    parser.add_argument("--keeper", action="store_true")
    parser.add_argument("--tx", type=int, metavar="N")
    parser.add_argument("frames", type=int, nargs="?", metavar="FRAMES")
    words = parser.parse_args()
    if words.keeper and not (words.wait or words.receive or words.slow):
        parser.error("--keeper is beside --wait, --receive or --slow")
    if words.tx and not words.slow:
        parser.error("--tx is beside --slow")
    return words


def main():
    words = read_words()
    if "MACSECD_PROGRAM" not in os.environ:
        subprocess.run([PROVE, CPU], check=True, stdout=subprocess.DEVNULL)
    with tempfile.TemporaryDirectory() as folder:
        if words.receive:
            measure_receiving(folder, words.frames or RECEIVING_FRAMES, words.keeper)
        elif words.slow:
            measure_slowed(folder, words.frames or SLOW_FRAMES, words.tx or SLOW_BLOCK, words.keeper)
        else:
            measure_sending(folder, words.frames or 20_000, words.wait, words.keeper)


main()

#!/usr/bin/env python3
"""Has an older program make disk files of format one, and looks at what this program makes of them.

    python3 tools/older_program.py OLDER PROGRAM [--folder FOLDER] [--files NAME..] [--layouts NAME..] [--without-kills]

OLDER is a macsecd that writes format one, as that of 2fc7e6a, built beside; PROGRAM is this one's, out/LEVEL/macsecd. It takes strace (Debian's
package), and a folder for temporary files on a real disk, /tmp where none is named. OLDER makes these files, each in both layouts, packed
(`--block 512`) and spaced (`--block 4096`):

  kinds    a record of each of the 17 kinds of format one in the current area, which is the second one
  full     a first area of which all slots are used, and a second one that was never written
  both     the third generation of a journal: the first area again, and a second one of which all slots are used
  limits   8 receive channels, 4 associations of each and 4 of the transmit side, and 512 spent keys on each side: 115 records in the snapshot

A reader of both formats that is written here, from docs/JOURNAL.md alone, says what each file stands for. What is asserted of it:

  show       prints what OLDER prints, and what the reader reads, to the octet; and the same again, and the file stays as it is then
  the file   has in its other area, and nowhere else, what a journal that begins anew has there: closed gates, a head of version 2 and of the
             next generation, the snapshot
  the rest   `apply`, `protect`, `validate`, `relay` and runs that fail once the file is open make the same of it; wrong words and `format`
             leave it as it was
  keys       a spent key is refused as before; one of 256 bits and a further receive channel are taken; the first frame goes out under the
             number that OLDER shows
  OLDER      says `bad journal` of the new file, whatever its subcommand, but `already formatted` where that is `format`; the file stays as it is
  kills      `show` is killed at each of its system calls on the file, and what was not synced is left in six ways (tools/killed_program.py).
             Each time it shows then what it would have shown, and makes the same file; OLDER shows the same where format one is found, and
             says `bad journal` where format two is
  spent      with the last generation in its heads, written by hand, PROGRAM says `generations spent` and leaves the file, of which OLDER
             shows what it did

It prints for each file what is on it, how long `show` took by the clock (the median of ROUNDS: OLDER on the old file, PROGRAM the first time and
the second time), how many kills and power losses there were, and what OLDER found after them.
"""

import argparse
import hashlib
import os
import shutil
import socket
import statistics
import struct
import subprocess
import sys
import tempfile
import time

sys.dont_write_bytecode = True
sys.path.insert(0, os.path.dirname(os.path.abspath(__file__)))
from killed_program import MARK, OPEN, SECTOR, kill_at_each

ROUNDS = 25
OWN, PEER, OTHER, THIRD = "0200000000010001", "0200000000020001", "0200000000030001", "0200000000040001"
TX_BLOCK, RX_BLOCK = 32, 16
AREA, SLOTS = 514, 256
BLOCKS = {"packed": 512, "spaced": 4096}
PLAIN = bytes.fromhex("0200000000050200000000060800") + bytes(range(46))
LAST_GENERATION = (1 << 64) - 1


# ---- A reader of both formats, from docs/JOURNAL.md. ----


def sectors_of(path):
    """The 1,028 sectors of a disk file of either layout."""
    octets = open(path, "rb").read()
    block = 4096 if octets[4096 * 1028 :][:8] == b"MSEC4096" else 512
    assert len(octets) % SECTOR == 0 and len(octets) >= 1028 * block, path
    return [octets[block * at : block * at + SECTOR] for at in range(1028)]


def has_rooms_of_zeros(path, block):
    """Whether the octets after each sector of a block are zeros, as long as no power loss spoilt a block."""
    octets = open(path, "rb").read()
    return all(not any(octets[block * at + SECTOR : block * (at + 1)]) for at in range(1028))


def is_open(sector):
    return sector[:8] == MARK


class Head:
    """The head of an area."""

    def __init__(self, body):
        mark, self.version, self.generation, self.count, self.sci, self.tx_block, self.rx_block = struct.unpack(">8sIQI8sII", body[:40])
        assert mark == b"MSECHEAD" and self.version in (1, 2) and 0 < self.generation and 0 < self.count <= SLOTS, body
        assert 0 < self.tx_block <= 65536 and 0 < self.rx_block <= 65536 and not any(body[40:]), body


def head_sector(version, generation, count, sci, tx_block, rx_block):
    return struct.pack(">8sIQI8sII", b"MSECHEAD", version, generation, count, sci, tx_block, rx_block).ljust(SECTOR, b"\0")


class Journal:
    """What a disk stands for: the current area's head and records."""

    def __init__(self, sectors):
        heads = {area: Head(sectors[AREA * area]) for area in (0, 1) if is_open(sectors[AREA * area + 1])}
        assert heads, "not formatted"
        if len(heads) == 2:
            one, other = heads.values()
            assert one.generation != other.generation and (one.sci, one.tx_block, one.rx_block) == (other.sci, other.tx_block, other.rx_block)
        self.area = max(heads, key=lambda area: heads[area].generation)
        self.head = heads[self.area]
        start = AREA * self.area
        gates = [is_open(sectors[start + 3 + 2 * slot]) for slot in range(self.head.count, SLOTS)]
        later = gates.index(False) if False in gates else len(gates)
        assert not any(gates[later:]), "an open gate after a closed one"
        self.used = self.head.count + later
        self.records = [sectors[start + 2 + 2 * slot] for slot in range(self.used)]
        self.kept = Kept(self.head, self.records)

    def kinds(self):
        return {record[4] for record in self.records}


def taken(octets, start, form):
    """Some fields of a record, which ends with them."""
    fields = struct.unpack_from(">" + form, octets, start)
    assert not any(octets[start + struct.calcsize(">" + form) :]), octets
    return fields


class Kept:
    """What records stand for: a configuration, and the ceilings of its associations."""

    def __init__(self, head, records):
        self.head = head
        self.tx, self.rx, self.spent = {}, {}, ([], [])
        for place, record in enumerate(records):
            assert record[:4] == b"MREC", record
            kind = record[4]
            assert head.version == 2 or kind <= 17, "a long key in format one"
            if place < head.count:
                assert (kind == 1) == (place == 0) and kind in (1, 2, 3, 4, 5, 18, 19), kind
                self.restore(kind, record)
            else:
                assert kind >= 6 and kind not in (18, 19), kind
                self.follow(kind, record)
        for an, (key, *_) in self.tx.items():
            assert hashlib.sha256(key).digest() in self.spent[0], an
        for sci, associations in self.rx.items():
            assert all(hashlib.sha256(sci + key).digest() in self.spent[1] for key, *_ in associations.values()), sci
        assert self.encoding is None or self.encoding in self.tx

    def restore(self, kind, record):
        long = 32 if kind > 17 else 16
        if kind == 1:
            self.validate, self.replay, self.window, self.mode, encoding = taken(record, 5, "BBIBB")
            self.encoding = None if encoding == 0xFF else encoding
        elif kind in (2, 18):
            an, key, ceiling, confidential, offset = taken(record, 5, f"B{long}sQBB")
            assert an not in self.tx
            self.tx[an] = [key, confidential, offset, ceiling]
        elif kind == 3:
            (sci,) = taken(record, 5, "8s")
            assert sci not in self.rx and sci != self.head.sci
            self.rx[sci] = {}
        elif kind in (4, 19):
            sci, an, key, ceiling, offset = taken(record, 5, f"8sB{long}sQB")
            assert an not in self.rx[sci]
            self.rx[sci][an] = [key, offset, ceiling]
        else:
            role, count = record[5], record[6]
            prints = taken(record, 7, "32s" * count)
            assert 0 < count <= 15 and not set(prints) & set(self.spent[role])
            self.spent[role].extend(prints)

    def follow(self, kind, record):
        long = 32 if kind > 17 else 16
        if kind == 6:
            (self.validate,) = taken(record, 5, "B")
        elif kind == 7:
            self.replay, self.window = taken(record, 5, "BI")
        elif kind == 8:
            (self.mode,) = taken(record, 5, "B")
        elif kind in (9, 20):
            an, key, start, confidential, offset = taken(record, 5, f"B{long}sIBB")
            assert an not in self.tx
            self.tx[an] = [key, confidential, offset, min(start + self.head.tx_block, 1 << 32)]
            self.spend(0, key)
        elif kind == 10:
            (self.encoding,) = taken(record, 5, "B")
            assert self.encoding in self.tx
        elif kind == 11:
            (an,) = taken(record, 5, "B")
            assert an != self.encoding
            del self.tx[an]
        elif kind == 12:
            (sci,) = taken(record, 5, "8s")
            assert sci not in self.rx and sci != self.head.sci
            self.rx[sci] = {}
        elif kind == 13:
            del self.rx[taken(record, 5, "8s")[0]]
        elif kind in (14, 21):
            sci, an, key, start, offset = taken(record, 5, f"8sB{long}sIB")
            assert an not in self.rx[sci]
            self.rx[sci][an] = [key, offset, start]
            self.spend(1, sci + key)
        elif kind == 15:
            sci, an = taken(record, 5, "8sB")
            del self.rx[sci][an]
        elif kind == 16:
            an, ceiling = taken(record, 5, "BQ")
            assert self.tx[an][3] < ceiling <= 1 << 32
            self.tx[an][3] = ceiling
        else:
            sci, an, ceiling = taken(record, 5, "8sBQ")
            assert kind == 17 and self.rx[sci][an][2] < ceiling <= 1 << 32
            self.rx[sci][an][2] = ceiling

    def spend(self, role, octets):
        made = hashlib.sha256(octets).digest()
        assert made not in self.spent[role] and len(self.spent[role]) < 512
        self.spent[role].append(made)

    def snapshot(self):
        """The records of a snapshot, in the order in which a program writes them."""
        encoding = 0xFF if self.encoding is None else self.encoding
        bodies = [struct.pack(">BBBIBB", 1, self.validate, self.replay, self.window, self.mode, encoding)]
        for an, (key, confidential, offset, ceiling) in sorted(self.tx.items()):
            kind = 18 if len(key) == 32 else 2
            bodies.append(struct.pack(f">BB{len(key)}sQBB", kind, an, key, ceiling, confidential, offset))
        bodies += [struct.pack(">B8s", 3, sci) for sci in sorted(self.rx)]
        for sci in sorted(self.rx):
            for an, (key, offset, ceiling) in sorted(self.rx[sci].items()):
                kind = 19 if len(key) == 32 else 4
                bodies.append(struct.pack(f">B8sB{len(key)}sQB", kind, sci, an, key, ceiling, offset))
        for role, prints in enumerate(self.spent):
            for first in range(0, len(prints), 15):
                part = prints[first : first + 15]
                bodies.append(struct.pack(">BBB", 5, role, len(part)) + b"".join(part))
        return [(b"MREC" + body).ljust(SECTOR, b"\0") for body in bodies]

    def shown(self):
        """What `show` prints: an opening begins each association at its ceiling."""
        lines = [f"sci {self.head.sci.hex()}", f"blocks tx {self.head.tx_block} rx {self.head.rx_block}"]
        lines.append("validate " + ("strict", "check")[self.validate])
        lines.append(f"replay {('off', 'on')[self.replay]} window {self.window}")
        lines.append("sci-mode " + ("explicit", "end-station", "implicit")[self.mode])
        lines.append("encoding " + ("none" if self.encoding is None else str(self.encoding)))
        for an, (_, confidential, offset, ceiling) in sorted(self.tx.items()):
            how = f"confidential offset {offset}" if confidential else "integrity"
            lines.append(f"tx {an} {how} next {ceiling}")
        for sci in sorted(self.rx):
            lines.append(f"channel {sci.hex()}")
            for an, (_, offset, ceiling) in sorted(self.rx[sci].items()):
                lines.append(f"rx {sci.hex()} {an} offset {offset} next {ceiling} lowest {ceiling}")
        lines.append(f"spent tx {len(self.spent[0])} rx {len(self.spent[1])}")
        return "".join(line + "\n" for line in lines)


def with_closed_gates(sectors):
    """The same sectors, with zeros in each gate that is closed, whatever it holds."""
    return [bytes(SECTOR) if at % AREA % 2 == 1 and not is_open(sector) else sector for at, sector in enumerate(sectors)]


def begun_anew(sectors):
    """The sectors of a disk whose journal started over in format two."""
    journal = Journal(sectors)
    head, snapshot = journal.head, journal.kept.snapshot()
    start = AREA * (1 - journal.area)
    new = list(sectors)
    for gate in range(start + 1, start + AREA, 2):
        if is_open(new[gate]):
            new[gate] = bytes(SECTOR)
    new[start] = head_sector(2, head.generation + 1, len(snapshot), head.sci, head.tx_block, head.rx_block)
    new[start + 1] = OPEN
    for slot, record in enumerate(snapshot):
        new[start + 2 + 2 * slot] = record
    return new


# ---- The older program's files. ----


def key(number, length=16):
    return number.to_bytes(length, "big").hex()


def tx_install(an, number, start=1, confidential=True, offset=0, length=16):
    return {"do": "tx-install", "an": an, "key": key(number, length), "start": start, "confidential": confidential, "offset": offset}


def rx_install(sci, an, number, start=1, offset=0, length=16):
    return {"do": "rx-install", "sci": sci, "an": an, "key": key(number, length), "start": start, "offset": offset}


def windows(count):
    """Commands that only fill slots."""
    return [{"do": "set-replay", "on": True, "window": window} for window in range(1, count + 1)]


def toml(commands):
    def value(it):
        return str(it).lower() if isinstance(it, (bool, int)) else f'"{it}"'

    return "".join("[[command]]\n" + "".join(f"{name} = {value(it)}\n" for name, it in command.items()) for command in commands)


def capture(*frames):
    header = struct.pack("<IHHIIII", 0xA1B2C3D4, 2, 4, 0, 0, 262144, 1)
    return header + b"".join(struct.pack("<IIII", 0, 0, len(frame), len(frame)) + frame for frame in frames)


class Bench:
    """Runs of a program in a folder."""

    def __init__(self, folder):
        self.folder = folder

    def at(self, name):
        return os.path.join(self.folder, name)

    def write(self, name, octets):
        with open(self.at(name), "wb") as file:
            file.write(octets)
        return self.at(name)

    def run(self, program, *words):
        return subprocess.run([program, *words], capture_output=True, text=True)

    def done(self, program, *words):
        """A run that succeeds: what it prints."""
        ended = self.run(program, *words)
        assert ended.returncode == 0 and not ended.stderr, (words, ended)
        return ended.stdout

    def apply(self, program, disk, commands):
        """Applies commands, and gives the answer to each."""
        ended = self.run(program, "apply", disk, self.write("commands", toml(commands).encode()))
        assert not ended.stderr, ended
        return [line.split(" ", 1)[1] for line in ended.stdout.splitlines()]

    def keep(self, program, disk, commands):
        answers = self.apply(program, disk, commands)
        assert answers == ["ok"] * len(commands), answers

    def copy(self, disk, name):
        """A copy that is durable."""
        shutil.copyfile(disk, self.at(name))
        with open(self.at(name), "rb") as file:
            os.fsync(file.fileno())
        return self.at(name)


def format_file(bench, older, name, block, sci=OWN):
    disk = bench.at(name)
    for old in (disk, disk + ".spent"):
        if os.path.exists(old):
            os.remove(old)
    bench.done(older, "format", disk, sci, str(TX_BLOCK), str(RX_BLOCK), "--block", str(block))
    return disk


def make_kinds(bench, older, block):
    disk = format_file(bench, older, "kinds", block)
    first = [tx_install(0, 1), tx_install(1, 2, 100, False), {"do": "tx-use", "an": 0}]
    first += [{"do": "rx-add", "sci": OTHER}, {"do": "rx-add", "sci": PEER}, rx_install(PEER, 0, 3, 7, 30)]
    bench.keep(older, disk, first + windows(SLOTS - len(first)))
    second = [{"do": "set-validate", "mode": "check"}, {"do": "set-replay", "on": True, "window": 70000}, {"do": "set-sci-mode", "mode": "implicit"}]
    second += [tx_install(2, 4, 1 << 20, True, 50), {"do": "tx-use", "an": 2}, {"do": "tx-remove", "an": 1}, {"do": "rx-add", "sci": THIRD}]
    second += [{"do": "rx-drop", "sci": OTHER}, rx_install(THIRD, 1, 5), rx_install(THIRD, 2, 6, 9, 50), {"do": "rx-remove", "sci": THIRD, "an": 2}]
    bench.keep(older, disk, second)
    bench.done(older, "protect", disk, bench.write("plain", capture(PLAIN, PLAIN)), bench.at("protected"))
    # The peer's frames come from an endpoint of its own.
    peer = format_file(bench, older, "peer", block, PEER)
    bench.keep(older, peer, [tx_install(0, 3, 7, True, 30), {"do": "tx-use", "an": 0}])
    bench.done(older, "protect", peer, bench.at("plain"), bench.at("sent"))
    assert bench.done(older, "validate", disk, bench.at("sent"), bench.at("got")) == "delivered 2 discarded 0\n"
    journal = Journal(sectors_of(disk))
    assert journal.area == 1 and journal.head.generation == 2 and journal.kinds() == set(range(1, 18)), journal.kinds()
    return disk


def make_full(bench, older, block):
    disk = format_file(bench, older, "full", block)
    first = [tx_install(3, 1), {"do": "tx-use", "an": 3}, {"do": "rx-add", "sci": PEER}, rx_install(PEER, 2, 2)]
    bench.keep(older, disk, first + windows(SLOTS - 1 - len(first)))
    sectors = sectors_of(disk)
    journal = Journal(sectors)
    assert journal.area == 0 and journal.head.generation == 1 and journal.used == SLOTS and not any(map(any, sectors[AREA:]))
    return disk


def make_both(bench, older, block):
    disk = format_file(bench, older, "both", block)
    first = [tx_install(0, 1), tx_install(1, 2), {"do": "tx-use", "an": 1}, {"do": "tx-remove", "an": 0}, {"do": "rx-add", "sci": PEER}, rx_install(PEER, 3, 3)]
    bench.keep(older, disk, first + windows(2 * SLOTS))
    bench.done(older, "protect", disk, bench.write("plain", capture(*[PLAIN] * 100)), bench.at("protected"))
    sectors = sectors_of(disk)
    journal = Journal(sectors)
    other = Head(sectors[AREA])
    # The gates of a snapshot are closed.
    assert all(is_open(sectors[AREA + 3 + 2 * slot]) for slot in range(other.count, SLOTS))
    assert journal.area == 0 and journal.head.generation == 3 and other.generation == 2
    return disk


def make_limits(bench, older, block):
    disk = format_file(bench, older, "limits", block)
    commands = []
    for number in range(512):
        if number >= 4:
            commands.append({"do": "tx-remove", "an": number % 4})
        commands.append(tx_install(number % 4, number, 1 + number, number % 2 == 0))
    scis = [f"09000000000000{channel:02x}" for channel in range(8)]
    commands += [{"do": "rx-add", "sci": sci} for sci in scis]
    for number in range(512):
        sci, an = scis[number % 8], number // 8 % 4
        if number >= 32:
            commands.append({"do": "rx-remove", "sci": sci, "an": an})
        commands.append(rx_install(sci, an, number, 1 + number, (0, 30, 50)[number % 3]))
    commands.append({"do": "tx-use", "an": 3})
    bench.keep(older, disk, commands + windows(SLOTS))
    journal = Journal(sectors_of(disk))
    assert journal.head.count == 115 == len(journal.kept.snapshot()) and 115 < journal.used
    return disk


FILES = {"kinds": make_kinds, "full": make_full, "both": make_both, "limits": make_limits}


# ---- What is looked at. ----


def octets_of(path):
    with open(path, "rb") as file:
        return file.read()


class File:
    """A disk file that the older program made."""

    def __init__(self, bench, older, program, name, block):
        self.bench, self.older, self.program, self.block = bench, older, program, block
        self.disk = FILES[name](bench, older, block)
        self.sectors = sectors_of(self.disk)
        self.journal = Journal(self.sectors)
        assert self.journal.head.version == 1
        self.before = octets_of(self.disk)
        self.shown = bench.done(older, "show", self.disk)
        assert self.shown == self.journal.kept.shown(), self.shown
        assert octets_of(self.disk) == self.before, "an opening of the older program writes"
        self.anew = begun_anew(self.sectors)

    def fresh(self):
        return self.bench.copy(self.disk, "tried")

    def is_anew(self, disk):
        assert sectors_of(disk) == self.anew

    def stays(self, disk):
        assert octets_of(disk) == self.before

    def look_at_show(self):
        disk = self.fresh()
        assert self.bench.done(self.program, "show", disk) == self.shown
        self.is_anew(disk)
        new = octets_of(disk)
        assert len(new) == len(self.before) and has_rooms_of_zeros(disk, self.block)
        assert self.bench.done(self.program, "show", disk) == self.shown
        assert octets_of(disk) == new, "a second opening writes"

    def look_at_others(self):
        bench = self.bench
        nothing, none = bench.write("nothing", b""), bench.write("none", capture())
        for words, said in [
            (["apply", nothing], ""),
            (["protect", none, bench.at("out")], "protected 0 dropped 0\n"),
            (["validate", none, bench.at("out")], "delivered 0 discarded 0\n"),
        ]:
            disk = self.fresh()
            assert bench.done(self.program, words[0], disk, *words[1:]) == said
            self.is_anew(disk)
        free = ["127.0.0.1:0", "127.0.0.1:9"]
        disk = self.fresh()
        assert bench.done(self.program, "relay", disk, *free, *free, "--turns", "1").startswith("sent 0 delivered 0 ")
        assert Journal(sectors_of(disk)).head.version == 2
        with socket.socket(socket.AF_INET, socket.SOCK_DGRAM) as held:
            held.bind(("127.0.0.1", 0))
            bound = [f"127.0.0.1:{held.getsockname()[1]}", "127.0.0.1:9"]
            for words, status, said in [
                (["apply", bench.at("missing")], 5, "commands"),
                (["protect", bench.at("missing"), bench.at("out")], 5, "capture"),
                (["validate", bench.at("missing"), bench.at("out")], 5, "capture"),
                (["relay", *bound, *free, "--turns", "1"], 5, "wire"),
            ]:
                disk = self.fresh()
                ended = bench.run(self.program, words[0], disk, *words[1:])
                assert (ended.returncode, ended.stdout, ended.stderr) == (status, "", f"macsecd: {said}\n"), ended
                self.is_anew(disk)
        for words, status in [
            (["show", "twice"], 2),
            (["apply"], 2),
            (["protect", none], 2),
            (["relay", "nowhere", "127.0.0.1:9", *free, "--turns", "1"], 2),
            (["format", OWN, str(TX_BLOCK), str(RX_BLOCK), "--block", str(self.block)], 4),
            (["format", OWN, str(TX_BLOCK), str(RX_BLOCK)], 4),
            (["format", OWN, str(TX_BLOCK), str(RX_BLOCK), "--over"], 4),
        ]:
            disk = self.fresh()
            ended = bench.run(self.program, words[0], disk, *words[1:])
            assert ended.returncode == status, ended
            assert status == 2 or ended.stderr == "macsecd: already formatted\n", ended
            self.stays(disk)

    def look_at_keys(self):
        """What the new file takes and refuses, and under which number its first frame goes out."""
        kept, disk = self.journal.kept, self.fresh()
        an, sci = max(kept.tx), max(kept.rx).hex()
        free = min(set(range(4)) - set(kept.tx), default=None)
        more = [{"do": "rx-add", "sci": "0a00000000000001"}]
        old = tx_install(free if free is not None else 0, int.from_bytes(kept.tx[an][0], "big"))
        new = tx_install(old["an"], 1 << 200, length=32)
        answers = ["ok"]
        if free is None:
            more.append({"do": "tx-remove", "an": 0})
            answers.append("ok")
        is_full = len(kept.spent[0]) == 512
        more += [old, new]
        answers += ["refused KeySpent", "refused SpentFull" if is_full else "ok"]
        if not is_full:
            used = max(kept.rx[bytes.fromhex(sci)])
            more.append(rx_install(sci, (used + 1) % 4, int.from_bytes(kept.rx[bytes.fromhex(sci)][used][0], "big")))
            more.append(rx_install(sci, (used + 1) % 4, 1 << 201, length=32))
            answers += ["refused KeySpent", "ok"]
        assert self.bench.apply(self.program, disk, more) == answers
        kept = Journal(sectors_of(disk)).kept
        assert is_full or len(kept.tx[old["an"]][0]) == 32
        following = self.journal.kept.tx[self.journal.kept.encoding][3]
        disk = self.fresh()
        assert self.bench.done(self.program, "protect", disk, self.bench.write("plain", capture(PLAIN)), self.bench.at("out")) == "protected 1 dropped 0\n"
        assert struct.unpack_from(">I", octets_of(self.bench.at("out")), 24 + 16 + 16)[0] == following

    def look_at_older(self):
        """What the older program says of the new file."""
        bench, disk = self.bench, self.fresh()
        bench.done(self.program, "show", disk)
        new = octets_of(disk)
        none, free = bench.write("none", capture()), ["127.0.0.1:0", "127.0.0.1:9"]
        for words, said in [
            (["show"], "bad journal"),
            (["apply", bench.write("nothing", b"")], "bad journal"),
            (["protect", none, bench.at("out")], "bad journal"),
            (["validate", none, bench.at("out")], "bad journal"),
            (["relay", *free, *free, "--turns", "1"], "bad journal"),
            (["format", OWN, str(TX_BLOCK), str(RX_BLOCK)], "already formatted"),
        ]:
            ended = bench.run(self.older, words[0], disk, *words[1:])
            assert (ended.returncode, ended.stdout, ended.stderr) == (4, "", f"macsecd: {said}\n"), ended
            assert octets_of(disk) == new, words

    def look_at_last_generation(self):
        """The heads have the two last generations, by hand."""
        octets = bytearray(self.before)
        for area in (0, 1):
            place = AREA * area * self.block
            if octets[place : place + 8] == b"MSECHEAD":
                generation = LAST_GENERATION - (area != self.journal.area)
                octets[place + 12 : place + 20] = generation.to_bytes(8, "big")
        disk = self.bench.write("tried", octets)
        for words in (["show"], ["apply", self.bench.write("nothing", b"")]):
            ended = self.bench.run(self.program, words[0], disk, *words[1:])
            assert (ended.returncode, ended.stdout, ended.stderr) == (4, "", "macsecd: generations spent\n"), ended
            assert octets_of(disk) == octets
        assert self.bench.done(self.older, "show", disk) == self.shown

    def kill(self, name):
        """The first `show` is killed at each system call: how many kills, power losses and contents there were, and after how many losses
        each format was found."""
        known, found = {}, {1: 0, 2: 0}
        program, bench = self.program, self.bench

        def judge(disk, _printed, _image):
            # What is on a disk decides what is found on it: each content is judged once.
            digest = hashlib.sha256(octets_of(disk)).digest()
            if digest not in known:
                version = Journal(sectors_of(disk)).head.version
                older = bench.run(self.older, "show", disk)
                told = (0, self.shown, "") if version == 1 else (4, "", "macsecd: bad journal\n")
                assert (older.returncode, older.stdout, older.stderr) == told, (version, older)
                assert hashlib.sha256(octets_of(disk)).digest() == digest
                assert bench.done(program, "show", disk) == self.shown
                # A gate that reads closed is left as it is.
                assert with_closed_gates(sectors_of(disk)) == self.anew
                known[digest] = version
            found[known[digest]] += 1

        kills, losses = kill_at_each(bench.folder, name, self.disk, lambda disk: [program, "show", disk], judge, self.block)
        assert losses == sum(found.values())
        return kills, losses, len(known), found

    def time(self):
        """How long the first and the second `show` take, and that of the older program on the file of before: medians in milliseconds."""
        seen = {"older": [], "first": [], "second": []}
        for _ in range(ROUNDS):
            disk = self.fresh()
            for what, program in (("older", self.older), ("first", self.program), ("second", self.program)):
                begun = time.perf_counter()
                subprocess.run([program, "show", disk], check=True, stdout=subprocess.DEVNULL)
                seen[what].append(1000 * (time.perf_counter() - begun))
        return {what: statistics.median(times) for what, times in seen.items()}

    def told(self):
        head = self.journal.head
        opened = sum(is_open(self.sectors[AREA * (1 - self.journal.area) + 1 + 2 * gate]) for gate in range(SLOTS + 1))
        snapshot = len(self.journal.kept.snapshot())
        place = f"area {self.journal.area}, generation {head.generation}, {self.journal.used} records"
        return f"{place}; {opened} open gates in the other area; {snapshot} records anew"


def main():
    words = argparse.ArgumentParser(description=__doc__, formatter_class=argparse.RawDescriptionHelpFormatter)
    words.add_argument("older", type=os.path.abspath)
    words.add_argument("program", type=os.path.abspath)
    words.add_argument("--folder")
    words.add_argument("--files", nargs="+", choices=FILES, default=list(FILES))
    words.add_argument("--layouts", nargs="+", choices=BLOCKS, default=list(BLOCKS))
    words.add_argument("--without-kills", action="store_true")
    words = words.parse_args()
    folder = tempfile.mkdtemp(dir=words.folder)
    bench, kills, losses = Bench(folder), 0, 0
    try:
        for layout in words.layouts:
            for name in words.files:
                file = File(bench, words.older, words.program, name, BLOCKS[layout])
                print(f"{name}, {layout}: {file.told()}", flush=True)
                file.look_at_show()
                file.look_at_others()
                file.look_at_keys()
                file.look_at_older()
                file.look_at_last_generation()
                times = file.time()
                took = ", ".join(f"{what} {took:.1f} ms" for what, took in times.items())
                print(f"{name}, {layout}: shown as before; show took: {took}", flush=True)
                if words.without_kills:
                    continue
                some, lost, contents, found = file.kill(f"{name}, {layout}")
                kills, losses = kills + some, losses + lost
                told = f"{contents} contents; OLDER showed the same after {found[1]} and said bad journal after {found[2]}"
                print(f"{name}, {layout}: {told}", flush=True)
        if not words.without_kills:
            print(f"{kills} kills, {losses} power losses: each time what was found is what was found before")
    finally:
        shutil.rmtree(folder)


main()

#!/usr/bin/env python3
"""Kills the program at each system call on its disk file, leaves what was not synced in each of several ways, and opens it again.

    python3 tools/killed_program.py [FOLDER]

It takes the proved program (`tools/prove`), or with MACSECD_PROGRAM=PATH the one that is there, strace (Debian's package) and a folder for temporary files on a real disk, /tmp
where none is named. Five runs of the program are killed: `format`, `apply` of four commands, `protect` of a capture of 400 frames of 1,500 octets at blocks of 32, which
reserves packet numbers between frames that go out, `show` of a file of format one, which brings it up to date, and a `relay` that reserves a block, is stopped, and rests. The
file of format one is what the program itself made, with version 1 in its head; `tools/older_program.py` has those of an older program. A run is first traced whole: which
system calls it makes on its disk file, and the octets that it writes. Then it is made again for each of these calls, and killed as that call begins.

That relay also rests over the disk file of a keeper (`keep`), and one of the two is killed: the keeper at each of its calls on the disk file; the relay, with no power loss
after it, at each call by which it sends, receives or waits, of whichever socket.

A kill alone loses nothing, since the operating system keeps what was written. So the power loss is made by hand: a sector that was written and not synced is left
with one of six contents: the octets of the last sync, the last write, zeros, ones, an open gate, or the first half of the last write and the octets of the last
sync after it. The same is left in each such sector; where there are two, each pair.

What is asserted of what `show` finds then:
  format   an endpoint as it was asked for, or none; then `format` makes one without `--over`, unless a sector was left that no `format` wrote;
  apply    the configuration after the commands of which a line was printed, or after those and one more;
  protect  the configuration as it was, and a next packet number above all that went out;
  show     what it shows of the file of format two, to the octet, and a head of version 2 then;
  rest     the configuration as it was, and the next packet number as it was or that after the block, of which each is seen; as it was once the last line was printed.
With a keeper it is as of `rest`. A relay whose keeper was killed ends as `disk`, with status 4, but for the keeper's last call: then it has ended as planned. A keeper whose
relay was killed ends with status 0, and prints nothing.
It prints how many kills and how many power losses there were.
"""

import itertools
import os
import re
import shutil
import struct
import subprocess
import sys
import tempfile
import time

TOP = os.path.abspath(os.path.join(os.path.dirname(__file__), ".."))
PROVE = os.path.join(TOP, "tools/prove")
SECTOR = 512
MARK = b"MSECOPEN"
OPEN = MARK + bytes(SECTOR - len(MARK))
HEAD = b"MSECHEAD"
CALLS = ["openat", "pread64", "pwrite64", "fsync", "fdatasync", "ftruncate", "fallocate", "flock", "fcntl", "rename", "unlink", "close"]
# Those by which a relay sends, receives and waits.
EXCHANGES = ["sendto", "recvfrom", "poll"]
SCI = "0200000000010001"
FRAMES = 400
BLOCK = "32"
COMMANDS = """
[[command]]
do = "tx-install"
an = 0
key = "000102030405060708090a0b0c0d0e0f"
start = 1
confidential = true
offset = 0

[[command]]
do = "tx-use"
an = 0

[[command]]
do = "rx-add"
sci = "0200000000020001"

[[command]]
do = "set-replay"
on = true
window = 7
"""


def program():
    """The path of the program that is named; else of the proved one, which the script that builds it prints after its sum."""
    if "MACSECD_PROGRAM" in os.environ:
        return os.path.abspath(os.environ["MACSECD_PROGRAM"])
    cpu = os.environ.get("MACSECD_CPU")
    told = subprocess.run([PROVE, *([cpu] if cpu else [])], check=True, stdout=subprocess.PIPE, text=True).stdout
    return os.path.join(TOP, told.split()[-1])


def tracing(disk, words, extra=()):
    """The words that run the program under strace, which writes its system calls on the disk file, the new one beside it, and their folder."""
    paths = [word for path in (disk, disk + ".new", os.path.dirname(disk)) for word in ("-P", path)]
    return ["strace", "-o", disk + ".trace", "-xx", "-s", "70000", "-e", "trace=" + ",".join(CALLS), *paths, *extra, *words]


def calls_on(disk):
    """The system calls that strace wrote."""
    return [line for line in open(disk + ".trace") if not line.startswith(("+++", "---"))]


def traced(disk, words, extra=()):
    """Runs the program under strace: its output, and its system calls."""
    done = subprocess.run(tracing(disk, words, extra), capture_output=True)
    return done, calls_on(disk)


def listens(name):
    """Whether a socket of this name waits for clients, as /proc/net/unix says by a flag: it has its name a little earlier."""
    with open("/proc/net/unix") as sockets:
        return any(it.split()[3] == "00010000" and it.split()[-1] == name for it in sockets)


def kept(disk, keeping, relaying):
    """Runs a keeper of a disk file, and a relay over that once the keeper waits for it, until both have ended: how each did."""
    keeper = subprocess.Popen(keeping, stdout=subprocess.PIPE, stderr=subprocess.PIPE)
    while not listens(disk + ".keeper") and keeper.poll() is None:
        time.sleep(0.005)
    relay = subprocess.run(relaying, capture_output=True)
    printed = keeper.communicate(timeout=60)
    return relay, subprocess.CompletedProcess(keeping, keeper.returncode, *printed)


def was_killed(process):
    return process.returncode in (-9, 137)


def octets_in(text):
    return bytes.fromhex(text.replace("\\x", ""))


class Sectors:
    """What a file has, by the calls that were made on it: what is durable, and what was written since. A power loss spoils as many octets at a time as a block has."""

    def __init__(self, octets, block=SECTOR):
        self.durable = octets
        self.pending = {}
        self.block = block

    def put(self, place, octets):
        assert place % SECTOR == 0 and len(octets) % SECTOR == 0, place
        for start in range(0, len(octets), SECTOR):
            self.write(place + start, octets[start : start + SECTOR])

    def sync(self):
        self.durable, self.pending = self.with_blocks(self.pending), {}

    def write(self, place, octets):
        """The block that has these octets is pending."""
        at, start = divmod(place, self.block)
        last = bytearray(self.pending.get(at, self.before(at)))
        last[start : start + len(octets)] = octets
        self.pending[at] = bytes(last)

    def before(self, at):
        """The durable octets of a block."""
        return self.durable[at * self.block : (at + 1) * self.block].ljust(self.block, b"\0")

    def with_blocks(self, blocks):
        """The durable octets, with these in the places of some blocks."""
        size = max([len(self.durable)] + [(at + 1) * self.block for at in blocks])
        whole = bytearray(self.durable.ljust(size, b"\0"))
        for at, octets in blocks.items():
            whole[at * self.block : (at + 1) * self.block] = octets
        return bytes(whole)

    def contents(self, at):
        """The six contents that may be left in a block. Half of one that has a sector and zeros is half of that sector, so that it is torn too."""
        block, half = self.block, SECTOR // 2
        before, last = self.before(at), self.pending[at]
        return [before, last, bytes(block), b"\xff" * block, OPEN.ljust(block, b"\0"), last[:half] + before[half:]]

    def images(self):
        """What a power loss may leave: for each way the octets of each pending block."""
        places = sorted(self.pending)
        if not places:
            return [{}]
        each = [self.contents(at) for at in places]
        if len(places) == 2:
            return [dict(zip(places, pair)) for pair in ((one, other) for one in each[0] for other in each[1])]
        return [dict(zip(places, same)) for same in zip(*each)]


class Folder:
    """Which file has the name of the disk file, and which had it at the last sync of the folder; what each file has; and what each descriptor is of."""

    def __init__(self, disk, block=SECTOR):
        self.disk, self.block = disk, block
        self.names = {disk: Sectors(open(disk, "rb").read(), block)} if os.path.exists(disk) else {}
        self.durable = dict(self.names)
        self.opened = {}

    def follow(self, line):
        found = re.match(r"(\w+)\((.*)\) += (-?\d+)", line)
        if not found or int(found[3]) < 0:
            return
        name, inside, answer = found[1], found[2], int(found[3])
        assert name != "ftruncate" and name != "fallocate", "the size of a disk file grows by what is written"
        texts = [octets_in(text) for text in re.findall(r'"([^"]*)"', inside)]
        if name == "openat":
            path = os.path.abspath(texts[0].decode())
            is_folder = path == os.path.dirname(self.disk)
            self.opened[answer] = self if is_folder else self.names.setdefault(path, Sectors(b"", self.block))
        elif name == "rename":
            self.names[texts[1].decode()] = self.names.pop(texts[0].decode())
        elif name == "unlink":
            del self.names[texts[0].decode()]
        elif name in ("pwrite64", "fsync", "fdatasync", "close"):
            of = self.opened[int(inside.split(",")[0])]
            if name == "pwrite64":
                of.put(int(inside.split(",")[-1], 0), texts[0][:answer])
            elif name == "close":
                del self.opened[int(inside)]
            else:
                of.sync()

    def sync(self):
        self.durable = dict(self.names)

    def left(self):
        """What a power loss may leave of the disk file: the octets, or None where no file has its name, and those of each pending block."""
        files = [self.durable.get(self.disk), self.names.get(self.disk)]
        for at, of in enumerate(files):
            if of is None:
                yield None, {}
            elif at == 0 or of is not files[0]:
                for image in of.images():
                    yield of.with_blocks(image), image


class Losses:
    """Kills of runs that begin with the disk file `start`, or none, and the power losses after them, each of which is judged."""

    def __init__(self, folder, start, judge, block=SECTOR):
        self.folder, self.disk = folder, os.path.join(folder, "disk")
        self.start, self.judge, self.block = start, judge, block
        self.kills = self.count = 0

    def begin(self):
        """Puts the files to where a run begins."""
        for left in (self.disk, self.disk + ".new", self.disk + ".keeper", os.path.join(self.folder, "out"), os.path.join(self.folder, "control")):
            if os.path.exists(left):
                os.remove(left)
        if self.start:
            shutil.copyfile(self.start, self.disk)
        self.files = Folder(self.disk, self.block)

    def lose(self, calls, printed):
        """After a kill: leaves what a power loss may leave of these calls, and judges it."""
        for each in calls:
            self.files.follow(each)
        self.kills += 1
        for octets, image in self.files.left():
            if os.path.exists(self.disk):
                os.remove(self.disk)
            if octets is not None:
                open(self.disk, "wb").write(octets)
            self.count += 1
            self.judge(self.disk, printed.decode(), image)

    def told(self, name):
        print(f"{name}: killed at {self.kills} system calls, {self.count} power losses", flush=True)
        return self.kills, self.count


def killing(call, when):
    """The options of strace that kill a program as it begins a system call for the time `when`."""
    return ["-e", f"inject={call}:signal=KILL:when={when}"]


def killing_at_each(lines):
    """The traced calls, each with the options of strace that kill the program as it begins."""
    counts = {}
    for line in lines:
        call = re.match(r"\w+", line)[0]
        counts[call] = counts.get(call, 0) + 1
        yield line, killing(call, counts[call])


def kill_at_each(folder, name, start, words, judge, block=SECTOR):
    """A run that begins with the disk file `start`, or none, is killed at each of its calls on the disk file. How many kills and power losses that were."""
    losses = Losses(folder, start, judge, block)
    losses.begin()
    done, lines = traced(losses.disk, words(losses.disk))
    assert done.returncode == 0, done
    for line, options in killing_at_each(lines):
        losses.begin()
        killed, made = traced(losses.disk, words(losses.disk), options)
        assert was_killed(killed), (line, killed)
        losses.lose(made, killed.stdout)
    return losses.told(name)


def kill_keeper_at_each(folder, start, keeping, relaying, judge):
    """The keeper of a relay's disk file is killed at each of its calls on that."""
    losses = Losses(folder, start, judge)
    disk = losses.disk
    losses.begin()
    both = kept(disk, tracing(disk, keeping(disk)), relaying(disk))
    assert [it.returncode for it in both] == [0, 0], both
    lines = calls_on(disk)
    for count, (line, options) in enumerate(killing_at_each(lines), 1):
        losses.begin()
        relay, keeper = kept(disk, tracing(disk, keeping(disk), options), relaying(disk))
        assert was_killed(keeper), (line, keeper)
        # Its last call comes after the relay's end.
        ended = (4, b"macsecd: disk\n") if count < len(lines) else (0, b"")
        assert (relay.returncode, relay.stderr) == ended, (line, relay)
        losses.lose(calls_on(disk), relay.stdout)
    losses.told("rest, the keeper")


def kill_kept_at_each(folder, start, keeping, relaying, judge):
    """A relay over the disk file of a keeper is killed at each call by which it sends, receives or waits. How many these are differs from run to run: it is made anew until it
    is not killed. A power loss then leaves what one leaves after a kill of the keeper."""
    losses = Losses(folder, start, judge)
    for call in EXCHANGES:
        for when in itertools.count(1):
            losses.begin()
            # strace is not between the relay and the shell, whose signal stops it.
            tracer = ["strace", "-D", "-o", os.devnull, "-e", "trace=" + call, *killing(call, when)]
            relay, keeper = kept(losses.disk, keeping(losses.disk), relaying(losses.disk, tracer))
            assert (keeper.returncode, keeper.stdout, keeper.stderr) == (0, b"", b""), (call, when, keeper)
            judge(losses.disk, relay.stdout.decode(), {})
            if not was_killed(relay):
                assert when > 1 and relay.returncode == 0, (call, when, relay)
                break
            losses.kills += 1
    losses.told("rest, the relay of a keeper")


def show(macsecd, disk):
    return subprocess.run([macsecd, "show", disk], capture_output=True, text=True)


def make_older(path, older):
    """A copy of a disk file with version 1 in each head."""
    octets = bytearray(open(path, "rb").read())
    for found in re.finditer(HEAD, bytes(octets)):
        octets[found.start() + 11] = 1
    open(older, "wb").write(octets)


def configuration(text):
    """What `show` prints but for packet numbers, which an opening may raise."""
    return re.sub(r"(next|lowest) \d+", "", text)


def main():
    macsecd = program()
    folder = tempfile.mkdtemp(dir=sys.argv[1] if len(sys.argv) > 1 else None)
    at = lambda name: os.path.join(folder, name)
    run = lambda *words: subprocess.run([macsecd, *words], check=True, capture_output=True, text=True)
    try:
        open(at("commands"), "w").write(COMMANDS)
        run("format", at("new"), SCI, BLOCK, BLOCK)
        formatted = show(macsecd, at("new")).stdout

        # The configurations after each number of commands.
        parts = COMMANDS.split("\n[[command]]")[1:]
        after = [configuration(formatted)]
        for count in range(1, len(parts) + 1):
            shutil.copyfile(at("new"), at("some"))
            open(at("few"), "w").write("".join("\n[[command]]" + part for part in parts[:count]))
            run("apply", at("some"), at("few"))
            after.append(configuration(show(macsecd, at("some")).stdout))

        def judge_format(disk, _printed, image):
            found = show(macsecd, disk)
            if found.returncode == 0:
                assert found.stdout == formatted, found
            else:
                assert found.returncode == 4, found
                assert found.stderr.strip() in ("macsecd: not formatted", "macsecd: too small", "macsecd: disk file", "macsecd: disk length", "macsecd: bad journal"), found
            # It is made again without `--over`, unless a sector was left that no `format` wrote.
            again = subprocess.run([macsecd, "format", disk, SCI, BLOCK, BLOCK], capture_output=True, text=True)
            if again.returncode != 0 and again.stderr != "macsecd: already formatted\n":
                assert any(octets in (b"\xff" * SECTOR, OPEN) for octets in image.values()), (again, sorted(image))

        def judge_apply(disk, printed, _image):
            acknowledged = len(printed.splitlines())
            found = configuration(show(macsecd, disk).stdout)
            assert found in after[acknowledged : acknowledged + 2], (printed, found)

        header = struct.pack("<IHHIIII", 0xA1B2C3D4, 2, 4, 0, 0, 262144, 1)
        frame = bytes(12) + b"\x08\x00" + bytes(1486)
        most = []
        record = lambda i: struct.pack("<IIII", i, 0, len(frame), len(frame)) + frame
        open(at("frames"), "wb").write(header + b"".join(record(i) for i in range(FRAMES)))
        shutil.copyfile(at("new"), at("ready"))
        run("apply", at("ready"), at("commands"))

        def following(shown):
            return int(re.search(r"^tx 0 .* next (\d+)", shown, re.M)[1])

        def judge_protect(disk, _printed, _image):
            found = show(macsecd, disk)
            assert configuration(found.stdout) == after[-1], found
            sent = numbers_in(at("out"))
            most.append(len(sent))
            assert sent == sorted(set(sent)) and all(number < following(found.stdout) for number in sent), (sent, found)

        make_older(at("ready"), at("old"))
        shown = show(macsecd, at("ready")).stdout

        def judge_migrated(disk, _printed, _image):
            found = show(macsecd, disk)
            assert found.returncode == 0 and found.stdout == shown, found
            assert HEAD + b"\0\0\0\2" in open(disk, "rb").read(), disk

        def judge_rest(disk, printed, _image):
            found = show(macsecd, disk)
            assert configuration(found.stdout) == after[-1], found
            found_next.add(following(found.stdout))
            assert not printed or following(found.stdout) == following(shown), (printed, found)

        def stopped_relay(disk, before=(), more=()):
            """A relay that nothing comes to, which gets SIGTERM once it has reserved a block: the disk file is another one then."""
            ends = ["127.0.0.1:0", "127.0.0.1:9", "127.0.0.1:0", "127.0.0.1:9"]
            later = '(while kill -0 $$ && cmp -s "$1" "$2"; do sleep 0.1; done; sleep 0.3; kill -TERM $$) >/dev/null 2>&1 & shift 2; exec "$@"'
            relay = [macsecd, "relay", disk, *ends, "--wait", "100", "--control", at("control"), *more]
            return ["env", "--block-signal=TERM", "sh", "-c", later, "sh", disk, at("ready"), *before, *relay]

        def keeping(disk):
            return [macsecd, "keep", disk, disk + ".keeper"]

        def stopped_kept_relay(disk, before=()):
            return stopped_relay(disk, before, ["--keeper", disk + ".keeper"])

        kill_at_each(folder, "format", None, lambda disk: [macsecd, "format", disk, SCI, BLOCK, BLOCK], judge_format)
        kill_at_each(folder, "apply", at("new"), lambda disk: [macsecd, "apply", disk, at("commands")], judge_apply)
        kill_at_each(folder, "protect", at("ready"), lambda disk: [macsecd, "protect", disk, at("frames"), at("out")], judge_protect)
        kill_at_each(folder, "migrate", at("old"), lambda disk: [macsecd, "show", disk], judge_migrated)
        rests = [
            lambda: kill_at_each(folder, "rest", at("ready"), stopped_relay, judge_rest),
            lambda: kill_keeper_at_each(folder, at("ready"), keeping, stopped_kept_relay, judge_rest),
            lambda: kill_kept_at_each(folder, at("ready"), keeping, stopped_kept_relay, judge_rest),
        ]
        for rest in rests:
            found_next = set()
            rest()
            assert found_next == {following(shown), following(shown) + int(BLOCK)}, found_next
        print(f"protect: up to {max(most)} frames had gone out")
    finally:
        shutil.rmtree(folder)


def numbers_in(path):
    """The packet numbers of the frames in a capture, as far as it goes."""
    if not os.path.exists(path):
        return []
    octets = open(path, "rb").read()
    place, numbers = 24, []
    while place + 16 <= len(octets):
        kept = struct.unpack_from("<I", octets, place + 8)[0]
        frame = octets[place + 16 : place + 16 + kept]
        if len(frame) < kept:
            break
        numbers.append(struct.unpack_from(">I", frame, 16)[0])
        place += 16 + kept
    return numbers


if __name__ == "__main__":
    main()

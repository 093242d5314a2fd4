#!/usr/bin/env python3
"""What the clients of a relay's control socket may do, tried over real sockets: none of it holds a frame or ends the relay.

    python3 tools/control_tries.py PROGRAM [WORD]

Each try sets up a link of two relays over loopback, with a control socket at the left one, and prints a line. With WORD those run whose names
have it. The status is 0 where each went as it is to go. It needs Python, `env` with --block-signal (coreutils 9), and a C compiler for one of them.
"""

import contextlib
import hashlib
import os
import resource
import signal
import socket
import stat
import subprocess
import sys
import tempfile
import threading
import time

PROGRAM = os.path.abspath(sys.argv[1])
WORD = sys.argv[2] if len(sys.argv) > 2 else ""
TOP = os.path.dirname(os.path.dirname(os.path.abspath(__file__)))
KEYS = [f"{n:032x}" for n in range(0x1000, 0x1400)]
TRIES = []


def a_try(function):
    TRIES.append(function)
    return function


def run(*words, **how):
    return subprocess.run([PROGRAM, *map(str, words)], capture_output=True, text=True, timeout=60, **how)


def free_ports(count):
    sockets = [socket.socket(socket.AF_INET, socket.SOCK_DGRAM) for _ in range(count)]
    for it in sockets:
        it.bind(("127.0.0.1", 0))
    ports = [it.getsockname()[1] for it in sockets]
    for it in sockets:
        it.close()
    return ports


class Link:
    """Two ends and the hosts at both; the left relay has a control socket."""

    def __init__(self, folder, more=(), wait="1000", before=(), env=None):
        self.folder, self.control = folder, os.path.join(folder, "control")
        self.hosts, self.relays = [], []
        host_l, plain_l, wire_l, wire_r, plain_r, host_r = free_ports(6)
        for own, peer in ((host_l, plain_l), (host_r, plain_r)):
            it = socket.socket(socket.AF_INET, socket.SOCK_DGRAM)
            it.bind(("127.0.0.1", own))
            it.settimeout(2)
            self.hosts.append((it, ("127.0.0.1", peer)))
        at = "127.0.0.1:%d"
        self.left_words = [at % plain_l, at % host_l, at % wire_l, at % wire_r]
        self.right_words = [at % plain_r, at % host_r, at % wire_r, at % wire_l]
        for side, sci in (("left", "0200000000010001"), ("right", "0200000000020001")):
            disk = os.path.join(folder, side + ".disk")
            if not os.path.exists(disk):
                assert run("format", disk, sci, 1024, 16).returncode == 0
                assert run("apply", disk, f"{TOP}/examples/{side}.toml").returncode == 0
        self.disk = os.path.join(folder, "left.disk")
        self.right = self.start([], os.path.join(folder, "right.disk"), self.right_words, ["--wait", "1000"], None)
        words = ["--wait", wait, "--control", self.control, *more]
        self.left = self.start(before, self.disk, self.left_words, words, env)
        until(lambda: os.path.exists(self.control) or self.left.poll() is not None)

    def start(self, before, disk, words, more, env):
        it = subprocess.Popen([*before, PROGRAM, "relay", disk, *words, *more], stdout=subprocess.PIPE, stderr=subprocess.PIPE, text=True,
                              env={**os.environ, **(env or {})})
        self.relays.append(it)
        return it

    def passes(self, text=b"frame"):
        """Sends a frame each way, and answers the longest time that one took, in seconds."""
        longest = 0
        for (sender, relay), (receiver, _), last in ((self.hosts[0], self.hosts[1], 1), (self.hosts[1], self.hosts[0], 2)):
            frame = b"\xff" * 6 + bytes([2, 0, 0, 0, 0, last]) + b"\x88\xb5" + text.ljust(46, b"\0")
            end = time.monotonic() + 10
            while True:
                began = time.monotonic()
                sender.sendto(frame, relay)
                try:
                    if receiver.recv(65536) == frame:
                        break
                except TimeoutError:
                    assert time.monotonic() < end, "no frame came"
            longest = max(longest, time.monotonic() - began)
        return longest

    def connect(self):
        it = socket.socket(socket.AF_UNIX, socket.SOCK_STREAM)
        it.connect(self.control)
        it.settimeout(5)
        return it

    def ask(self, *words):
        return run("ask", self.control, *words)

    def stop(self):
        """Ends the left relay by `ask stop`: its last line."""
        asked = self.ask("stop")
        assert (asked.returncode, asked.stdout, asked.stderr) == (0, "", ""), asked
        return self.ended()

    def ended(self):
        out, err = self.left.communicate(timeout=10)
        assert self.left.returncode == 0 and err == "", (self.left.returncode, out, err)
        assert out.startswith("sent ") and out.count("\n") == 1, out
        assert not os.path.exists(self.control), "the socket is left behind"
        return out

    def close(self):
        for it in self.relays:
            if it.poll() is None:
                it.kill()
            it.communicate()
        for it, _ in self.hosts:
            it.close()


@contextlib.contextmanager
def link(*words, **how):
    with tempfile.TemporaryDirectory() as folder:
        it = Link(folder, *words, **how)
        try:
            it.passes()
            yield it
        finally:
            it.close()


def until(is_so, seconds=10):
    end = time.monotonic() + seconds
    while not is_so():
        assert time.monotonic() < end, "it never came to that"
        time.sleep(0.02)


def read_all(it):
    """What a connection says up to its end, and whether it has one."""
    got = b""
    with contextlib.suppress(TimeoutError, ConnectionResetError):
        while True:
            more = it.recv(65536)
            if not more:
                return got, True
            got += more
        # A reset is an end too.
    return got, not is_open(it)


def is_open(it):
    try:
        it.sendall(b"")
        it.settimeout(0.2)
        return it.recv(1, socket.MSG_PEEK) != b""
    except TimeoutError:
        return True
    except OSError:
        return False


def until_end(it):
    got = b""
    while not (got.endswith(b"\n") and got.split(b"\n")[-2].startswith(b"end ")):
        more = it.recv(65536)
        if not more:
            break
        got += more
    return got


def until_ends(it, count):
    """What a connection says up to the end of so many answers."""
    got = b""
    while got.count(b"end ") < count or not got.endswith(b"\n"):
        more = it.recv(65536)
        assert more, got
        got += more
    return got


def command_file(folder, *commands):
    path = os.path.join(folder, "commands.toml")
    with open(path, "w", encoding="ascii") as file:
        for command in commands:
            file.write("[[command]]\n" + "".join(f"{name} = {value}\n" for name, value in command.items()))
    return path


def install(an, key):
    return {"do": '"tx-install"', "an": an, "key": f'"{key}"', "start": 1, "confidential": "true", "offset": 0}


@a_try
def show_is_that_of_the_disk():
    with link() as it:
        shown = it.ask("show")
        assert shown.returncode == 0 and shown.stderr == ""
        it.stop()
        closed = run("show", it.disk).stdout

        def still(text):
            return [line for line in text.splitlines() if not line.startswith(("tx ", "rx "))]

        assert still(shown.stdout) == still(closed) and len(still(closed)) > 5


@a_try
def the_socket_is_its_owners_alone():
    with link() as it:
        found = os.stat(it.control)
        assert stat.S_ISSOCK(found.st_mode) and stat.S_IMODE(found.st_mode) == 0o600


@a_try
def counters_count():
    with link() as it:
        def number(name):
            lines = it.ask("counters").stdout.splitlines()
            return next(int(line.split()[-1]) for line in lines if line.startswith(name + " "))

        before = number("tx protected"), number("rx ok")
        for _ in range(10):
            it.passes()
        assert number("tx protected") >= before[0] + 10 and number("rx ok") >= before[1] + 10


@a_try
def commands_are_applied_in_order():
    with link() as it:
        file = command_file(it.folder, install(1, KEYS[0]), install(1, KEYS[1]), {"do": '"tx-use"', "an": 1}, install(2, KEYS[0]))
        asked = it.ask("apply", file)
        assert (asked.returncode, asked.stdout) == (3, "1 ok\n2 refused SlotTaken\n3 ok\n4 refused KeySpent\n"), asked
        it.stop()
        assert "encoding 1\n" in run("show", it.disk).stdout


@a_try
def each_refusal_is_told():
    with link() as it:
        own, peer, other = "0200000000010001", "0200000000020001", "0200000000030001"

        def rx(do, sci, **more):
            return {"do": f'"rx-{do}"', "sci": f'"{sci}"', **more}

        def tx(key, **more):
            return {**install(2, key), **more}

        key = {"an": 3, "key": f'"{KEYS[3]}"', "start": 1, "offset": 0}
        wrong = [(tx(KEYS[0], start=0), "StartRange"), (tx(KEYS[0], offset=31), "OffsetChoice"), (rx("add", own), "OwnSci"),
                 (rx("install", other, **key), "NoChannel"), (rx("add", peer), "ChannelTaken"), (install(0, KEYS[0]), "SlotTaken"),
                 ({"do": '"tx-use"', "an": 3}, "SlotEmpty"), ({"do": '"tx-remove"', "an": 0}, "InUse")]
        # The peer's channel is there, and a key of each side is spent.
        full = [rx("add", f"02000000000400{n:02x}") for n in range(32)]
        spent = [command for n in range(512) for command in (tx(KEYS[n]), {"do": '"tx-remove"', "an": 2})]
        asked = it.ask("apply", command_file(it.folder, *(command for command, _ in wrong), *full, *spent))
        told = [line.split(" ", 1)[1] for line in asked.stdout.splitlines()]
        ends = [f"refused {name}" for _, name in wrong] + ["ok"] * 31 + ["refused ChannelsFull"] + ["ok"] * 1022
        assert asked.returncode == 3 and told == [*ends, "refused SpentFull", "refused SlotEmpty"], (asked.stderr, told)
        it.stop()


@a_try
def keys_are_named_and_not_shown():
    with link() as it:
        assert it.ask("apply", command_file(it.folder, install(1, KEYS[0]))).stdout == "1 ok\n"
        name = hashlib.sha256(b"macsecd key " + bytes.fromhex(KEYS[0])).hexdigest()[:8]
        keys = it.ask("keys").stdout
        assert f"tx 1 key 128 id {name}\n" in keys and KEYS[0] not in keys, keys
        # Each line but that of the new key is of a key that the other end has too.
        it.right.terminate()
        it.right.communicate()
        right = it.start([], os.path.join(it.folder, "right.disk"), it.right_words, ["--wait", "1000", "--control", it.control + "2"], None)
        until(lambda: os.path.exists(it.control + "2") or right.poll() is not None)
        ids = [sorted(line.split()[-1] for line in text.splitlines()) for text in (keys, run("ask", it.control + "2", "keys").stdout)]
        assert ids[0] == sorted([*ids[1], name]) and len(ids[1]) == 2, ids


@a_try
def traffic_is_counted_by_association():
    with link() as it:
        for _ in range(5):
            it.passes()
        lines = [line.split() for line in it.ask("traffic").stdout.splitlines()]
        tx, rx, last = lines
        sent, received = int(tx[4]), int(rx[5])
        # A frame of `passes` has 48 octets of User Data; the examples encrypt.
        assert tx == f"tx 0 encrypted frames {sent} octets {48 * sent}".split(), tx
        assert rx == f"rx 0200000000020001 0 decrypted frames {received} octets {48 * received}".split(), rx
        assert sent >= 6 and received >= 6, (sent, received)
        assert last[0] == "last-good" and abs(int(last[1]) - time.time()) < 10, last


@a_try
def a_relay_says_which_program_it_is():
    with link() as it:
        words = dict(line.split() for line in it.ask("about").stdout.splitlines())
        assert list(words) == ["macsecd", "commit", "proved", "started"], words
        assert abs(int(words["started"]) - time.time()) < 60, words
        assert run("--version").stdout == f"macsecd {words['macsecd']}\n"


@a_try
def a_key_of_a_disk_that_is_gone():
    with link() as it:
        file = command_file(it.folder, install(1, KEYS[0]))
        assert it.ask("apply", file).stdout == "1 ok\n"
        it.stop()
        os.remove(it.disk)
        assert run("format", it.disk, "0200000000010001", 1024, 16).returncode == 0
        it.left = it.start([], it.disk, it.left_words, ["--wait", "1000", "--control", it.control], None)
        until(lambda: os.path.exists(it.control) or it.left.poll() is not None)
        asked = it.ask("apply", command_file(it.folder, install(1, KEYS[0]), install(1, KEYS[1]), install(1, KEYS[0])))
        assert (asked.returncode, asked.stdout) == (3, "1 refused KeySpent\n2 ok\n3 refused KeySpent\n"), asked


@a_try
def keys_that_cannot_be_noted():
    with link() as it:
        name = it.disk + ".spent"
        if os.path.exists(name):
            os.remove(name)
        os.mkdir(name)
        asked = it.ask("apply", command_file(it.folder, install(1, KEYS[0])))
        assert asked.returncode == 4 and asked.stdout == "", asked
        assert it.ask("apply", command_file(it.folder, {"do": '"set-replay"', "on": "true", "window": 7})).stdout == "1 ok\n"
        it.stop()


@a_try
def a_command_file_that_is_wrong():
    with link() as it:
        file = os.path.join(it.folder, "wrong.toml")
        with open(file, "w", encoding="ascii") as wrong:
            wrong.write("[[command]]\ndo = 1\n")
        asked = it.ask("apply", file)
        assert (asked.returncode, asked.stdout, asked.stderr) == (5, "", "macsecd: command 1 do: not a command\n"), asked
        it.passes()
        it.stop()


@a_try
def a_command_file_for_one_end():
    with link() as it:
        file = command_file(it.folder, install(1, KEYS[0]))
        with open(file, encoding="ascii") as given:
            commands = given.read()
        for sci, told in (("0200000000020001", (5, "", f"macsecd: commands: {file}: for another end\n")), ("0200000000010001", (0, "1 ok\n", ""))):
            with open(file, "w", encoding="ascii") as named:
                named.write(f'sci = "{sci}"\n' + commands)
            asked = it.ask("apply", file)
            assert (asked.returncode, asked.stdout, asked.stderr) == told, asked
        it.stop()
        assert "tx 1 " in run("show", it.disk).stdout


@a_try
def clients_that_say_nothing():
    with link() as it:
        silent = [it.connect() for _ in range(4)]
        assert it.passes() < 1
        assert it.ask("show").returncode == 0
        assert it.passes() < 1
        it.stop()
        for client in silent:
            client.close()


@a_try
def the_one_that_was_silent_longest_makes_room():
    with link() as it:
        clients = [it.connect() for _ in range(6)]
        until(lambda: not is_open(clients[0]) and not is_open(clients[1]))
        assert all(is_open(client) for client in clients[2:])
        clients[5].sendall(b"stop\n")
        it.ended()


@a_try
def one_that_said_a_line_is_not_the_first_to_make_room():
    with link() as it:
        clients = [it.connect() for _ in range(4)]
        until(lambda: it.passes() < 1)
        clients[0].sendall(b"show\n")
        assert until_end(clients[0]).endswith(b"\nend 0\n")
        time.sleep(4)
        fifth = it.connect()
        until(lambda: not is_open(clients[1]))
        assert all(is_open(client) for client in (clients[0], *clients[2:], fifth))
        it.stop()


@a_try
def clients_that_end_and_say_nothing():
    with link() as it:
        clients = [it.connect() for _ in range(4)]
        for client in clients:
            client.shutdown(socket.SHUT_WR)
            assert read_all(client) == (b"", True)
        began = time.monotonic()
        assert it.ask("show").returncode == 0
        assert time.monotonic() - began < 1, "they kept their places"
        it.stop()


def window_of(disk):
    return next(int(line.split()[-1]) for line in run("show", disk).stdout.splitlines() if line.startswith("replay "))


@a_try
def a_client_that_shuts_its_side_at_once():
    with link() as it:
        for window in range(1, 60):
            client = it.connect()
            client.sendall(f"set-replay on {window}\n".encode())
            client.shutdown(socket.SHUT_WR)
            assert read_all(client) == (b"ok\nend 0\n", True), window
        assert it.passes() < 1
        it.stop()
        assert window_of(it.disk) == 59


@a_try
def several_lines_and_an_end():
    with link() as it:
        client, wanted = it.connect(), sixteen(0x500)
        send_channels(client, wanted)
        client.sendall(b"counters\nshow")
        client.shutdown(socket.SHUT_WR)
        got, ended = read_all(client)
        assert ended and got.count(b"ok\nend 0\n") == 16 and got.count(b"end 0\n") == 17 and b"\nsci " not in got, got
        it.stop()
        assert channels_of(it.disk) == wanted


@a_try
def one_with_a_command_under_way_keeps_its_place():
    with link() as it:
        clients = [it.connect() for _ in range(4)]
        others = []
        for window, client in enumerate(clients, 1):
            client.sendall(f"set-replay on {window}\n".encode())
            others += [it.connect() for _ in range(2)]
        for client in clients:
            assert until_end(client) == b"ok\nend 0\n"
        assert it.ask("show").returncode == 0
        it.stop()


@a_try
def sixteen_that_ask_at_once():
    with link() as it:
        channels = sixteen(0x600)[:8]
        files = [os.path.join(it.folder, sci) for sci in channels]
        for file, sci in zip(files, channels):
            with open(file, "w", encoding="ascii") as commands:
                for do in ("add", "drop", "add"):
                    commands.write(f'[[command]]\ndo = "rx-{do}"\nsci = "{sci}"\n')
        asked = [["apply", file] for file in files] + [["show"], ["counters"]] * 4
        began = time.monotonic()
        relays = [subprocess.Popen([PROGRAM, "ask", it.control, *words], stdout=subprocess.PIPE, stderr=subprocess.PIPE, text=True) for words in asked]
        assert it.passes() < 1
        for words, asker in zip(asked, relays):
            out, err = asker.communicate(timeout=60)
            assert (asker.returncode, err) == (0, ""), (words, asker.returncode, out, err)
            assert out == "1 ok\n2 ok\n3 ok\n" if words[0] == "apply" else out.count("\n") > 5, (words, out)
        assert time.monotonic() - began < 30
        it.stop()
        assert sorted(channels_of(it.disk)) == channels


@a_try
def a_relay_that_stands_still():
    with link() as it:
        it.left.send_signal(signal.SIGSTOP)
        first = subprocess.Popen([PROGRAM, "ask", it.control, "show"], stdout=subprocess.PIPE, stderr=subprocess.PIPE, text=True)
        time.sleep(1)
        waiting = []
        for _ in range(64):
            client = socket.socket(socket.AF_UNIX, socket.SOCK_STREAM)
            client.setblocking(False)
            waiting.append(client)
            try:
                client.connect(it.control)
            except BlockingIOError:
                break
        else:
            raise AssertionError("64 wait, and there is room for more")
        # Besides the first one 16 wait, and this one found no room.
        assert len(waiting) == 17, len(waiting)
        began = time.monotonic()
        asked = subprocess.run([PROGRAM, "ask", it.control, "show"], capture_output=True, text=True, timeout=90, check=False)
        assert (asked.returncode, asked.stdout, asked.stderr) == (5, "", f"macsecd: control: {it.control}: no answer of a relay, or it went away\n"), asked
        assert 55 < time.monotonic() - began < 70
        # The first one was connected, and its line was taken: no answer comes.
        out, err = first.communicate(timeout=10)
        assert (first.returncode, out, err) == (5, "", asked.stderr), (first.returncode, out, err)
        it.left.send_signal(signal.SIGCONT)
        for client in waiting:
            client.close()
        it.passes()
        assert it.ask("show").returncode == 0
        it.stop()


@a_try
def half_a_line():
    with link() as it:
        half = it.connect()
        half.sendall(b"sho")
        assert it.passes() < 1 and it.ask("show").returncode == 0
        half.sendall(b"w\n")
        assert until_end(half).endswith(b"\nend 0\n")
        it.stop()


@a_try
def a_line_octet_by_octet_and_two_at_once():
    with link() as it:
        client = it.connect()
        for octet in b"show\n":
            client.sendall(bytes([octet]))
            time.sleep(0.05)
        assert until_end(client).endswith(b"\nend 0\n")
        began = time.monotonic()
        client.sendall(b"show\ncounters\nshow\n")
        got = b""
        while got.count(b"end 0\n") < 3:
            got += client.recv(65536)
        assert time.monotonic() - began < 0.5, "a line at hand waited for a sleep"
        it.stop()


@a_try
def a_megabyte():
    with link() as it:
        client = it.connect()
        with contextlib.suppress(BrokenPipeError, ConnectionResetError):
            client.sendall(b"x" * 1_048_576)
        until(lambda: not is_open(client))
        assert it.passes() < 1 and it.ask("show").returncode == 0
        it.stop()


@a_try
def a_line_of_256_octets():
    with link() as it:
        client = it.connect()
        client.sendall(b"y" * 255 + b"\n")
        assert until_end(client) == b"end 2\n"
        client.sendall(b"y" * 256 + b"\n")
        assert read_all(client) == (b"", True)
        it.stop()


@a_try
def no_request_and_no_text():
    with link() as it:
        client = it.connect()
        for line in (b"\n", b"Show\n", b"show \n", b"\xff\xfe\n", b"tx-use 4\n", b"tx-use +1\n"):
            client.sendall(line)
            assert until_end(client) == b"end 2\n", line
        it.stop()


@a_try
def one_that_never_reads():
    with link() as it:
        client = it.connect()
        client.setblocking(False)
        end = time.monotonic() + 10
        while is_open(client) and time.monotonic() < end:
            with contextlib.suppress(BlockingIOError, BrokenPipeError, ConnectionResetError):
                client.setblocking(False)
                client.send(b"show\n" * 1000)
            assert it.passes() < 1
        assert not is_open(client), "it was never let go"
        assert it.ask("show").returncode == 0
        it.stop()


def sixteen(first):
    """Sixteen commands, each of a channel, in ascending order of their SCI."""
    return [f"02000000{n:04x}0001" for n in range(first, first + 16)]


def send_channels(client, channels):
    client.sendall("".join(f"rx-add {sci}\n" for sci in channels).encode())


def channels_in(shown):
    return [line.split()[1] for line in shown.splitlines() if line.startswith("channel ") and line != "channel 0200000000020001"]


def channels_of(disk):
    return channels_in(run("show", disk).stdout)


@a_try
def one_that_goes_away_with_commands_under_way():
    with link() as it:
        client, wanted = it.connect(), sixteen(0x100)
        send_channels(client, wanted)
        client.close()
        assert it.passes() < 1
        shown = it.ask("show").stdout
        it.stop()
        kept, then = channels_of(it.disk), channels_in(shown)
        assert kept == wanted[:len(kept)] and then == kept[:len(then)], (kept, then)


@a_try
def a_relay_that_is_killed_with_sixteen_under_way():
    for wait in range(8):
        with link() as it:
            client, wanted = it.connect(), sixteen(0x300)
            send_channels(client, wanted)
            time.sleep(wait / 1000)
            it.left.kill()
            answers = read_all(client)[0].decode().splitlines()
            it.left.communicate()
            told, kept = answers.count("ok"), channels_of(it.disk)
            assert kept == wanted[:len(kept)] and told <= len(kept) <= told + 1, (answers, kept)


# Mounts a file system of its own that has no room for a second copy of the disk file, and shows what is in the first.
ON_A_FULL_DISK = """
mkdir "$0.room"
mount -t tmpfs -o size=768k none "$0.room"
cp "$0" "$0.room/disk"
"$1" show "$0.room/disk"
echo "status $?"
cmp "$0" "$0.room/disk" && ls "$0.room"
"""


def can_mount():
    return subprocess.run(["unshare", "-rm", "sh", "-c", "mount -t tmpfs none /mnt"], capture_output=True, check=False).returncode == 0


@a_try
def a_disk_that_is_full():
    assert can_mount(), "this user may not mount in a namespace of its own"
    with tempfile.TemporaryDirectory() as folder:
        disk = os.path.join(folder, "left.disk")
        assert run("format", disk, "0200000000010001", 1024, 16).returncode == 0
        shown = subprocess.run(["unshare", "-rm", "sh", "-c", ON_A_FULL_DISK, disk, PROGRAM], capture_output=True, text=True, check=False)
        assert (shown.stdout, shown.stderr) == ("status 4\ndisk\n", "macsecd: disk file\n"), shown


# Each sync fails while a file of this name is there.
FAILING_SYNCS = """
#include <errno.h>
#include <stdlib.h>
#include <sys/syscall.h>
#include <unistd.h>

int fdatasync(int file) {
    if (access(getenv("SYNCS_FAIL"), F_OK) == 0) {
        errno = EIO;
        return -1;
    }
    return syscall(SYS_fdatasync, file);
}
"""


@a_try
def a_disk_that_fails():
    assert has("cc"), "a C compiler is needed for this"
    with tempfile.TemporaryDirectory() as folder:
        library, mark = os.path.join(folder, "syncs.so"), os.path.join(folder, "fail")
        subprocess.run(["cc", "-shared", "-fPIC", "-x", "c", "-o", library, "-"], input=FAILING_SYNCS, text=True, check=True)
        it = Link(folder, env={"LD_PRELOAD": library, "SYNCS_FAIL": mark})
        try:
            it.passes()
            client = it.connect()
            first, rest = sixteen(0x400)[:3], sixteen(0x400)[3:]
            send_channels(client, first)
            until_ends(client, len(first))
            with open(mark, "w", encoding="ascii"):
                pass
            send_channels(client, rest)
            answers = read_all(client)[0].decode().splitlines()
            out, err = it.left.communicate(timeout=10)
            assert (it.left.returncode, out, err) == (4, "", "macsecd: disk\n"), (it.left.returncode, out, err)
            assert not os.path.exists(it.control), "the socket is left behind"
            # Those that were taken by then; the relay reads no further line.
            assert answers == ["end 4"] * len(answers) and 1 <= len(answers) <= len(rest), answers
            os.remove(mark)
            kept = channels_of(it.disk)
            assert kept[:len(first)] == first and len(kept) <= len(first) + 1, kept
        finally:
            it.close()


@a_try
def a_client_that_shuts_its_side():
    with link() as it:
        client = it.connect()
        client.sendall(b"show\nshow\n")
        assert until_end(client).endswith(b"\nend 0\n")
        client.shutdown(socket.SHUT_WR)
        assert it.passes() < 1
        it.stop()


@a_try
def stop_with_work_under_way():
    with link() as it:
        client, wanted = it.connect(), sixteen(0x200)[:8]
        send_channels(client, wanted)
        client.sendall(b"stop\n")
        answers = read_all(client)[0].decode().splitlines()
        it.ended()
        told, kept = answers.count("ok"), channels_of(it.disk)
        assert kept == wanted[:len(kept)] and told <= len(kept) <= told + 1, (answers, kept)
        assert answers.count("end 0") + answers.count("end 4") == 9, answers


@a_try
def stop_is_one_line_and_the_next_start_goes_on():
    with link() as it:
        assert it.stop().startswith("sent ")
        nobody = it.ask("show")
        assert (nobody.returncode, nobody.stdout, nobody.stderr) == (5, "", f"macsecd: control: {it.control}: no such socket\n"), nobody


@a_try
def nobody_there():
    with tempfile.TemporaryDirectory() as folder:
        for path, why in ((os.path.join(folder, "none"), "no such socket"), (folder, "nobody listens"), ("/dev/null", "nobody listens"),
                          ("x" * 200, "not a socket of a relay")):
            for words in (["show"], ["counters"], ["stop"], ["apply", f"{TOP}/examples/left.toml"]):
                asked = run("ask", path, *words)
                assert (asked.returncode, asked.stdout, asked.stderr) == (5, "", f"macsecd: control: {path}: {why}\n"), (path, asked)


@a_try
def one_that_listens_and_says_nothing_whole():
    with tempfile.TemporaryDirectory() as folder:
        path = os.path.join(folder, "other")
        other = socket.socket(socket.AF_UNIX, socket.SOCK_STREAM)
        other.bind(path)
        other.listen(4)
        for said in (b"", b"end", b"end x\n", b"no end\n", b"z" * 300, b"end 256\n"):
            def answer(text=said):
                client, _ = other.accept()
                client.recv(256)
                client.sendall(text)
                client.close()

            thread = threading.Thread(target=answer)
            thread.start()
            asked = run("ask", path, "show")
            thread.join()
            assert (asked.returncode, asked.stdout, asked.stderr) == (5, "", f"macsecd: control: {path}: no answer of a relay, or it went away\n"), (said, asked)
        other.close()


@a_try
def a_socket_that_was_left_behind():
    with link() as it:
        it.left.kill()
        it.left.communicate()
        assert stat.S_ISSOCK(os.stat(it.control).st_mode)
        it.left = it.start([], it.disk, it.left_words, ["--wait", "1000", "--control", it.control], None)
        until(lambda: it.ask("show").returncode == 0)
        it.stop()


@a_try
def a_socket_that_is_in_use():
    with link() as it:
        disk = os.path.join(it.folder, "third.disk")
        assert run("format", disk, "0200000000030001", 16, 16).returncode == 0
        ports = ["127.0.0.1:%d" % port for port in free_ports(4)]
        second = run("relay", disk, *ports, "--wait", "1000", "--control", it.control)
        assert (second.returncode, second.stdout, second.stderr) == (5, "", "macsecd: control\n"), second
        it.passes()
        it.stop()


@a_try
def names_that_are_no_sockets():
    with tempfile.TemporaryDirectory() as folder:
        disk, file = os.path.join(folder, "disk"), os.path.join(folder, "file")
        assert run("format", disk, "0200000000030001", 16, 16).returncode == 0
        with open(file, "w", encoding="ascii") as it:
            it.write("kept")
        os.symlink(file, os.path.join(folder, "link"))
        for path in (file, folder, os.path.join(folder, "link"), os.path.join(folder, "no/folder"), folder + "/" + "x" * 108, disk):
            ports = ["127.0.0.1:%d" % port for port in free_ports(4)]
            relay = run("relay", disk, *ports, "--wait", "10", "--turns", "1", "--control", path)
            assert (relay.returncode, relay.stdout, relay.stderr) == (5, "", "macsecd: control\n"), (path, relay)
        with open(file, encoding="ascii") as it:
            assert it.read() == "kept"
        assert run("show", disk).returncode == 0


@a_try
def turns_with_a_control_socket():
    with tempfile.TemporaryDirectory() as folder:
        disk, control = os.path.join(folder, "disk"), os.path.join(folder, "control")
        assert run("format", disk, "0200000000030001", 16, 16).returncode == 0
        ports = ["127.0.0.1:%d" % port for port in free_ports(4)]
        for words in (["--turns", "1000"], ["--turns", "20", "--wait", "5"], ["--turns", "0", "--wait", "5"]):
            relay = run("relay", disk, *ports, *words, "--control", control)
            assert (relay.returncode, relay.stdout) == (0, "sent 0 delivered 0 dropped 0 faults 0\n"), relay
            assert not os.path.exists(control)
        neither = run("relay", disk, *ports, "--control", control)
        assert neither.returncode == 2 and not os.path.exists(control), neither


@a_try
def a_term_that_is_held_back():
    with link(before=["env", "--block-signal=TERM"], wait="60000") as it:
        began = time.monotonic()
        it.left.send_signal(signal.SIGTERM)
        it.ended()
        assert time.monotonic() - began < 2.5


@a_try
def a_term_that_is_not():
    with link() as it:
        it.left.send_signal(signal.SIGTERM)
        assert it.left.wait(timeout=5) == -signal.SIGTERM
        assert os.path.exists(it.control)


@a_try
def whoever_started_it_is_told():
    for abstract in (False, True):
        with tempfile.TemporaryDirectory() as folder:
            name = f"@macsecd-tries-{os.getpid()}" if abstract else os.path.join(folder, "notify")
            listener = socket.socket(socket.AF_UNIX, socket.SOCK_DGRAM)
            listener.bind(name.replace("@", "\0") if abstract else name)
            listener.settimeout(5)
            with link(env={"NOTIFY_SOCKET": name}) as it:
                assert listener.recv(256) == b"READY=1"
                it.stop()
                assert listener.recv(256) == b"STOPPING=1"
            listener.close()


@a_try
def nobody_hears_what_it_tells():
    for name in ("", "@", "/no/such/socket", "x" * 300):
        with link(env={"NOTIFY_SOCKET": name}) as it:
            it.stop()


@a_try
def metrics_are_whole_and_come_once_a_second():
    with tempfile.TemporaryDirectory() as folder:
        file = os.path.join(folder, "macsecd.prom")
        with link(["--metrics", file], wait="5") as it:
            until(lambda: os.path.exists(file))
            seen, times, end = set(), set(), time.monotonic() + 4
            while time.monotonic() < end:
                with open(file, encoding="ascii") as metrics:
                    text = metrics.read()
                assert text.endswith("\n"), text[-80:]
                seen.add(text.count("\n"))
                times.add(os.stat(file).st_mtime_ns)
                it.passes()
            assert len(seen) == 1 and seen.pop() > 20
            assert 3 <= len(times) <= 6, times
            assert "macsec" in text
            it.stop()
            assert not os.path.exists(file + ".new")


@a_try
def metrics_go_to_no_other_file():
    with tempfile.TemporaryDirectory() as folder:
        file, other = os.path.join(folder, "macsecd.prom"), os.path.join(folder, "other")
        with open(other, "w", encoding="ascii") as kept:
            kept.write("kept")
        with link(["--metrics", file], wait="5") as it:
            until(lambda: os.path.exists(file))

            def written():
                os.unlink(file)
                until(lambda: os.path.exists(file))
                with open(file, encoding="ascii") as metrics:
                    text = metrics.read()
                assert text.startswith("# HELP macsec_"), text[:80]

            def put(make, name=file + ".new"):
                """Puts something at a name: again where the relay just had its own file there."""
                while True:
                    with contextlib.suppress(FileExistsError):
                        return make(name)

            written()
            for target in (other, it.disk, os.path.join(folder, "none")):
                put(lambda name, to=target: os.symlink(to, name))
                written()
                assert not os.path.islink(file) and not os.path.exists(os.path.join(folder, "none")), target
            with open(other, encoding="ascii") as kept:
                assert kept.read() == "kept"
            put(os.mkfifo)
            written()
            assert it.passes() < 2, "a pipe holds frames"
            put(os.mkdir)
            os.unlink(file)
            time.sleep(2.5)
            assert it.passes() < 2, "a folder holds frames"
            assert not os.path.exists(file), "a folder was removed"
            os.rmdir(file + ".new")
            until(lambda: os.path.exists(file))

            def replace(name):
                os.unlink(name)
                os.mkdir(name)

            put(replace, file)
            time.sleep(2.5)
            assert it.passes() < 2, "a folder in the place of the file holds frames"
            assert os.path.isdir(file), "a folder was replaced"
            os.rmdir(file)
            until(lambda: os.path.isfile(file))
            it.stop()
            assert run("show", it.disk).returncode == 0


@a_try
def metrics_that_are_cut_take_no_name():
    with tempfile.TemporaryDirectory() as folder:
        file = os.path.join(folder, "macsecd.prom")
        with link(["--metrics", file], wait="5", before=["env", "--ignore-signal=XFSZ"]) as it:
            until(lambda: os.path.exists(file))
            # No file takes more octets than these, which is less than the metrics have.
            resource.prlimit(it.left.pid, resource.RLIMIT_FSIZE, (512, 512))
            time.sleep(2.5)
            with open(file, encoding="ascii") as metrics:
                text = metrics.read()
            assert len(text) > 512 and text.endswith("\n"), text[-80:]
            assert os.path.getsize(file + ".new") == 512
            assert it.passes() < 2


@a_try
def what_a_file_of_metrics_may_not_replace():
    with tempfile.TemporaryDirectory() as folder:
        disk, file, other = (os.path.join(folder, name) for name in ("disk", "metrics", "other"))
        assert run("format", disk, "0200000000030001", 16, 16).returncode == 0
        with open(other, "w", encoding="ascii") as kept:
            kept.write("# HELP macsec_")
        for name in (file, file + ".new"):
            for make in (lambda it: os.symlink(other, it), lambda it: os.symlink(disk, it), os.mkfifo, os.mkdir):
                make(name)
                ports = ["127.0.0.1:%d" % port for port in free_ports(4)]
                relay = run("relay", disk, *ports, "--turns", "1", "--metrics", file)
                assert (relay.returncode, relay.stdout, relay.stderr) == (5, "", "macsecd: control\n"), (name, relay)
                (os.rmdir if os.path.isdir(name) and not os.path.islink(name) else os.unlink)(name)


@a_try
def metrics_alone_and_where_they_cannot_be_written():
    with tempfile.TemporaryDirectory() as folder:
        disk = os.path.join(folder, "disk")
        assert run("format", disk, "0200000000030001", 16, 16).returncode == 0
        ports = ["127.0.0.1:%d" % port for port in free_ports(4)]
        file = os.path.join(folder, "metrics")
        assert run("relay", disk, *ports, "--wait", "100", "--turns", "15", "--metrics", file).returncode == 0
        assert os.path.getsize(file) > 500
        assert run("relay", disk, *ports, "--wait", "100", "--turns", "15", "--metrics", folder + "/no/metrics").returncode == 0


@a_try
def a_buffer_is_asked_for():
    with link(["--buffer", "300000"]) as it:
        with open("/proc/sys/net/core/rmem_max", encoding="ascii") as most:
            kept = 2 * min(300000, int(most.read()))
        lines = it.ask("counters").stdout.splitlines()
        assert [line for line in lines if " buffer " in line] == [f"wire {wire} buffer {kept}" for wire in (1, 2)], lines
        found = subprocess.run(["ss", "-uamnp"], capture_output=True, text=True, check=False).stdout if has("ss") else ""
        if found:
            pid = f"pid={it.left.pid},"
            lines = found.splitlines()
            rooms = [lines[i + 1] for i, line in enumerate(lines) if pid in line]
            assert len(rooms) == 2 and all(f"rb{kept}," in room for room in rooms), rooms
        it.stop()
    with link() as it:
        assert " buffer " not in it.ask("counters").stdout
        it.stop()


def has(program):
    return any(os.access(os.path.join(folder, program), os.X_OK) for folder in os.environ["PATH"].split(":"))


@a_try
def an_idle_relay_sleeps():
    with link() as it:
        client = it.connect()
        client.sendall(b"sho")

        def spent():
            with open(f"/proc/{it.left.pid}/stat", encoding="ascii") as file:
                return sum(map(int, file.read().rsplit(")", 1)[1].split()[11:13]))

        before = spent()
        time.sleep(5)
        assert spent() - before <= 5, "it is busy"
        it.stop()


def main():
    failed = 0
    for function in TRIES:
        name = function.__name__.replace("_", " ")
        if WORD not in name:
            continue
        began = time.monotonic()
        try:
            function()
            print(f"{name}: as it is to be ({time.monotonic() - began:.1f} s)", flush=True)
        except Exception as error:  # pylint: disable=broad-except
            failed += 1
            print(f"{name}: NOT: {type(error).__name__} {error}", flush=True)
    sys.exit(1 if failed else 0)


main()

#!/usr/bin/env python3
"""Runs both ends of a link, each with a keeper of its disk, and does to them what happens in years: for MINUTES, 10 unless another number is named.

    python3 tools/soak.py PROGRAM [MINUTES]

Plain frames go in at the left end, each with its number, and what comes out at the right end is noted. Between the ends a socket of this script passes the protected frames on,
and notes association and packet number of each. Each sync of a keeper takes 0 to 200 ms longer (bench/slow_sync.c, preloaded). In each round, of some seconds, one of these
happens, in turn and with the frames under way: a new key on both ends, under the next association number; a relay is killed; its keeper is killed, by which the relay ends with
status 4; a relay is asked to stop, by which it rests, and it and its keeper end with status 0. What has ended starts again, the keeper first.

What is asserted: no packet number twice under one key, no plain frame twice; after a planned end the next packet number on the wire is the one after the last; and at the end of
each round, once no frame has come for two seconds, what a relay counts as sent and as delivered since its start is what this script has seen.
It prints the rounds, the frames and the packet numbers. It needs a C compiler, cc, and root, for large buffers.
"""
import os
import random
import re
import select
import socket
import subprocess
import sys
import tempfile
import time

# Nothing is left in the checkout.
sys.dont_write_bytecode = True
from killed_program import listens  # pylint: disable=wrong-import-position

TOP = os.path.abspath(os.path.join(os.path.dirname(__file__), ".."))
LEFT, RIGHT = "0200000000010001", "0200000000020001"
TX, RX, RATE = 1_024, 64, 500
SLOWER = (0, 5, 50, 200)


def udp():
    made = socket.socket(socket.AF_INET, socket.SOCK_DGRAM)
    made.bind(("127.0.0.1", 0))
    made.setblocking(False)
    # No frame is lost here while the script waits for a start: SO_RCVBUFFORCE, for root alone.
    made.setsockopt(socket.SOL_SOCKET, 33, 1 << 24)
    return made


class End:
    """One end: a keeper and a relay, its disk file, and its ports."""

    def __init__(self, soak, name, sci, controlled, common):
        self.soak, self.name, self.sci = soak, name, sci
        # The ports of the relay on each side, and where it sends to.
        self.own = [it.getsockname()[1] for it in (udp(), udp())]
        self.peers = [controlled.getsockname()[1], common.getsockname()[1]]
        soak.run("format", self.at(), sci, str(TX), str(RX))

    def at(self, more=""):
        return os.path.join(self.soak.folder, self.name + more)

    def start(self):
        slow = {"LD_PRELOAD": self.soak.library, "SLOW_SYNC": str(random.choice(SLOWER))}
        self.keeper = subprocess.Popen([self.soak.program, "keep", self.at(), self.at(".keeper")], env={**os.environ, **slow})
        self.await_socket(".keeper")
        ends = [f"127.0.0.1:{port}" for pair in zip(self.own, self.peers) for port in pair]
        words = ["relay", self.at(), *ends, "--wait", "1000", "--control", self.at(".control"), "--keeper", self.at(".keeper")]
        self.relay = subprocess.Popen([self.soak.program, *words], stdout=subprocess.DEVNULL, stderr=subprocess.DEVNULL)
        self.await_socket(".control")

    def await_socket(self, more):
        until = time.monotonic() + 20
        while not listens(self.at(more)):
            assert time.monotonic() < until, f"{self.name}: no {more}"
            time.sleep(0.01)

    def ask(self, *words):
        return self.soak.run("ask", self.at(".control"), *words)

    def ended(self, relay, keeper):
        """Waits for both, while frames pass, and looks at how they ended."""
        while self.relay.poll() is None or self.keeper.poll() is None:
            self.soak.pass_frames(0.05)
        found = (self.relay.returncode, self.keeper.returncode)
        assert found == (relay, keeper), (self.name, found)
        if os.path.exists(self.at(".control")):
            os.unlink(self.at(".control"))


class Soak:
    def __init__(self, program, folder):
        self.program, self.folder = program, folder
        self.library = os.path.join(folder, "slow_sync.so")
        subprocess.run(["cc", "-O2", "-shared", "-fPIC", "-o", self.library, os.path.join(TOP, "bench/slow_sync.c")], check=True)
        self.host, self.between, self.back, self.guest = udp(), udp(), udp(), udp()
        self.left = End(self, "left", LEFT, self.host, self.between)
        self.right = End(self, "right", RIGHT, self.guest, self.back)
        self.number, self.due, self.epoch = 0, time.monotonic(), 0
        self.used, self.last, self.came = set(), {}, set()
        self.sent = self.delivered = 0

    def run(self, *words):
        return subprocess.run([self.program, *words], check=True, capture_output=True, text=True).stdout

    def apply(self, end, text):
        with open(end.at(".toml"), "w", encoding="utf-8") as file:
            file.write(text)
        if hasattr(end, "relay") and end.relay.poll() is None:
            ran = subprocess.Popen([self.program, "ask", end.at(".control"), "apply", end.at(".toml")], stdout=subprocess.PIPE, text=True)
            while ran.poll() is None:
                self.pass_frames(0.02)
            assert ran.returncode == 0, ran.stdout.read()
        else:
            self.run("apply", end.at(), end.at(".toml"))

    def rekey(self):
        """A new key under the next association number: first the end that receives, then the one that sends."""
        self.epoch += 1
        an, old, key = self.epoch % 4, (self.epoch - 1) % 4, f"{random.getrandbits(128):032x}"
        gone = f'[[command]]\ndo = "rx-remove"\nsci = "{LEFT}"\nan = {(self.epoch - 3) % 4}\n' if self.epoch > 3 else ""
        first = f'[[command]]\ndo = "rx-add"\nsci = "{LEFT}"\n' if self.epoch == 1 else ""
        self.apply(self.right, f'{first}{gone}[[command]]\ndo = "rx-install"\nsci = "{LEFT}"\nan = {an}\nkey = "{key}"\nstart = 1\noffset = 0\n')
        away = f'[[command]]\ndo = "tx-remove"\nan = {old}\n' if self.epoch > 1 else ""
        self.apply(
            self.left,
            f'[[command]]\ndo = "tx-install"\nan = {an}\nkey = "{key}"\nstart = 1\nconfidential = true\noffset = 0\n'
            f'[[command]]\ndo = "tx-use"\nan = {an}\n{away}',
        )

    def pass_frames(self, seconds, sends=True):
        """Sends what is due, and passes on and notes what comes, for so long."""
        until = time.monotonic() + seconds
        while (now := time.monotonic()) < until:
            while sends and self.due <= now:
                self.due += 1 / RATE
                self.number += 1
                frame = bytes.fromhex("02000000000202000000000188b5") + self.number.to_bytes(8, "big") + bytes(60)
                self.host.sendto(frame, ("127.0.0.1", self.left.own[0]))
            ready, _, _ = select.select([self.between, self.guest], [], [], 0.002)
            if self.between in ready:
                self.note_protected(self.between.recv(2000))
            if self.guest in ready:
                self.note_plain(self.guest.recv(2000))
        self.due = max(self.due, time.monotonic() - 0.05)

    def note_protected(self, frame):
        assert frame[12:14] == b"\x88\xe5"
        an, pn = frame[14] & 3, int.from_bytes(frame[16:20], "big")
        # An association number has another key four keys later, and its frames are gone by then.
        key = max(it for it in range(self.epoch + 2) if it % 4 == an and it <= self.epoch + 1) if self.epoch % 4 != an else self.epoch
        assert (key, pn) not in self.used, f"number {pn} twice under key {key}"
        self.used.add((key, pn))
        self.last[an] = pn
        self.sent += 1
        self.back.sendto(frame, ("127.0.0.1", self.right.own[1]))

    def note_plain(self, frame):
        number = int.from_bytes(frame[14:22], "big")
        assert number not in self.came, f"frame {number} twice"
        self.came.add(number)
        self.delivered += 1

    def settle(self):
        """No frame is sent until none has come for two seconds; then each relay has counted what was seen."""
        while True:
            before = (self.sent, self.delivered)
            self.pass_frames(2, sends=False)
            if before == (self.sent, self.delivered):
                break
        for end, line, seen in ((self.left, "tx protected", self.sent - self.left.before), (self.right, "rx ok", self.delivered - self.right.before)):
            said = end.ask("counters")
            counted = int(re.search(rf"^{line} (\d+)$", said, re.M)[1])
            assert counted == seen, (end.name, line, counted, seen, said)

    def start(self, end):
        end.start()
        end.before = self.sent if end is self.left else self.delivered

    def happen(self, what):
        end = random.choice((self.left, self.right))
        if what == "key":
            self.rekey()
            return
        if what == "kill":
            end.relay.kill()
            end.ended(-9, 0)
        elif what == "keeper":
            end.keeper.kill()
            # The relay notices at its next call: frames make it reserve, and a command too.
            while end.relay.poll() is None:
                subprocess.run([self.program, "ask", end.at(".control"), "apply", self.command(end)], capture_output=True, check=False)
                self.pass_frames(0.1)
            end.ended(4, -9)
        else:
            ran = subprocess.Popen([self.program, "ask", end.at(".control"), "stop"], stdout=subprocess.DEVNULL)
            end.ended(0, 0)
            assert ran.wait() == 0
        last = dict(self.last)
        self.start(end)
        if what == "stop" and end is self.left:
            an, more = self.epoch % 4, len(self.used)
            self.pass_frames(0.5)
            assert len(self.used) > more and any(pn == last[an] + 1 for _, pn in self.used), "a planned end skipped a number"

    def command(self, end):
        with open(end.at(".window"), "w", encoding="utf-8") as file:
            file.write('[[command]]\ndo = "set-replay"\non = true\nwindow = 0\n')
        return end.at(".window")


def main():
    if not 2 <= len(sys.argv) <= 3:
        sys.exit(__doc__)
    minutes = float(sys.argv[2]) if len(sys.argv) > 2 else 10
    with tempfile.TemporaryDirectory() as folder:
        soak = Soak(os.path.abspath(sys.argv[1]), folder)
        soak.rekey()
        for end in (soak.right, soak.left):
            soak.start(end)
        until, rounds = time.monotonic() + 60 * minutes, 0
        try:
            while time.monotonic() < until:
                soak.pass_frames(random.uniform(1, 3))
                soak.happen(("key", "kill", "stop", "keeper")[rounds % 4])
                soak.pass_frames(1)
                soak.settle()
                rounds += 1
        finally:
            for end in (soak.left, soak.right):
                end.relay.kill()
                end.keeper.kill()
        print(f"{rounds} rounds, {soak.number} plain frames, {len(soak.used)} packet numbers on the wire, {len(soak.came)} frames delivered: none twice")


main()

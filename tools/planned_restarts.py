#!/usr/bin/env python3
"""Stops and starts both ends of a link as planned, with frames between, and looks for packet numbers that are skipped and frames that are late.

    python3 tools/planned_restarts.py PROGRAM [ROUNDS] [--keeper]

Two relays run over loopback with TX of 1,024 and RX of 64, each with a control socket, and with `--keeper` each over the disk file of a keeper. In each of ROUNDS rounds, 5
unless another number is named, 100 frames go through both, one after another; then each relay is asked to stop. What is asserted: each frame comes out, the right end counts
none as late, relays and keepers end with status 0, and `show` then has exactly the number after the last one that went out as the next one of both ends.
"""
import os
import re
import socket
import subprocess
import sys
import tempfile
import time

# Nothing is left in the checkout.
sys.dont_write_bytecode = True
from killed_program import listens  # pylint: disable=wrong-import-position

TX, RX, FRAMES = 1_024, 64, 100
LEFT, RIGHT = "0200000000010001", "0200000000020001"
KEY = "000102030405060708090a0b0c0d0e0f"
SENDER = f"""
[[command]]
do = "tx-install"
an = 0
key = "{KEY}"
start = 1
confidential = true
offset = 0

[[command]]
do = "tx-use"
an = 0
"""
RECEIVER = f"""
[[command]]
do = "rx-add"
sci = "{LEFT}"

[[command]]
do = "rx-install"
sci = "{LEFT}"
an = 0
key = "{KEY}"
start = 1
offset = 0
"""


class Link:
    """Both ends, and a host on each side."""

    def __init__(self, program, folder, has_keepers):
        self.program, self.folder, self.has_keepers = program, folder, has_keepers
        self.hosts = [socket.socket(socket.AF_INET, socket.SOCK_DGRAM) for _ in range(6)]
        for it in self.hosts:
            it.bind(("127.0.0.1", 0))
            it.settimeout(2)
        # The ports of the host, the relay's plain side and its protected side at the left end, then the same from the right end's protected side on.
        self.ports = [it.getsockname()[1] for it in self.hosts]
        for it in self.hosts[1:5]:
            it.close()
        for name, sci, text in (("left", LEFT, SENDER), ("right", RIGHT, RECEIVER)):
            with open(self.at(name + ".toml"), "w", encoding="utf-8") as file:
                file.write(text)
            self.run("format", self.at(name), sci, str(TX), str(RX))
            self.run("apply", self.at(name), self.at(name + ".toml"))

    def at(self, name):
        return os.path.join(self.folder, name)

    def run(self, *words):
        return subprocess.run([self.program, *words], check=True, capture_output=True, text=True).stdout

    def ask(self, name, *words):
        return self.run("ask", self.at(name + ".control"), *words)

    def next_number(self, name):
        return int(re.search(r" next (\d+)", self.run("show", self.at(name)))[1])

    def start(self, name, own1, peer1, own2, peer2):
        ends = [f"127.0.0.1:{self.ports[it]}" for it in (own1, peer1, own2, peer2)]
        words = ["relay", self.at(name), *ends, "--wait", "1000", "--control", self.at(name + ".control")]
        running = []
        if self.has_keepers:
            running.append(self.run_until_listening(name + ".keeper", "keep", self.at(name), self.at(name + ".keeper")))
            words += ["--keeper", self.at(name + ".keeper")]
        return [*running, self.run_until_listening(name + ".control", *words)]

    def run_until_listening(self, socket_name, *words):
        process = subprocess.Popen([self.program, *words], stdout=subprocess.DEVNULL)
        while not listens(self.at(socket_name)):
            assert process.poll() is None, words
            time.sleep(0.01)
        return process

    def round(self):
        """How many frames came out of those that went in."""
        ends = {"left": self.start("left", 1, 0, 2, 3), "right": self.start("right", 4, 5, 3, 2)}
        came = sum(self.pass_frame() for _ in range(FRAMES))
        late = re.findall(r"late (\d+)", self.ask("right", "counters"))
        assert late and set(late) == {"0"}, late
        for name, processes in ends.items():
            self.ask(name, "stop")
            assert [it.wait(timeout=10) for it in processes] == [0] * len(processes), name
        return came

    def pass_frame(self):
        self.hosts[0].sendto(bytes(12) + b"\x88\xb5" + bytes(50), ("127.0.0.1", self.ports[1]))
        try:
            self.hosts[5].recv(2000)
        except socket.timeout:
            return False
        return True


def main():
    has_keepers = "--keeper" in sys.argv[1:]
    words = [it for it in sys.argv[1:] if it != "--keeper"]
    if not 1 <= len(words) <= 2:
        sys.exit(__doc__)
    rounds = int(words[1]) if len(words) > 1 else 5
    with tempfile.TemporaryDirectory() as folder:
        link = Link(os.path.abspath(words[0]), folder, has_keepers)
        first = link.next_number("left")
        for count in range(1, rounds + 1):
            came = link.round()
            assert came == FRAMES, came
            for name in ("left", "right"):
                assert link.next_number(name) == first + count * FRAMES, (name, link.next_number(name))
    print(f"{rounds} planned restarts, {FRAMES} frames between: no number skipped, no frame late")


main()

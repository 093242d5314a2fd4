#!/usr/bin/env python3
"""Draws docs/power-loss.svg from a run of the program: packet numbers over time, the ceiling on the disk, and two power losses.

    python3 tools/power_loss_picture.py [docs/power-loss.svg]

It takes `./macsecd` and Python alone. A relay with blocks of 16 is given a frame each 20 milliseconds. Its writes and syncs are traced
(examples/power-loss/traced.py), so that it is known from when on a ceiling is durable. Power fails after 30 frames, and a second time
while a ceiling is being reserved, of which the disk then has nothing. What is drawn is read from the frames as they came on the wire and
from the records as they were written (docs/JOURNAL.md). Times differ from run to run, the numbers do not but for one or two.
"""

import os
import re
import socket
import subprocess
import sys
import tempfile
import threading
import time

sys.dont_write_bytecode = True
TOP = os.path.abspath(os.path.join(os.path.dirname(__file__), ".."))
sys.path.insert(0, os.path.join(TOP, "examples/power-loss"))
import frames
import traced

MACSECD = os.path.join(TOP, "macsecd")
SCI, BLOCK = "0200000000010001", "16"
STEP, DOWN = 0.02, 0.25
HOST, OWN1, OWN2, PEER2 = 4300, 4301, 5301, 5302
WORDS = [f"127.0.0.1:{port}" for port in (OWN1, HOST, OWN2, PEER2)]
GATE = b"MSECOPEN"
TX_CEILING = b"MREC\x10"


def bound(port):
    it = socket.socket(socket.AF_INET, socket.SOCK_DGRAM)
    it.bind(("127.0.0.1", port))
    it.settimeout(STEP)
    return it


class Traffic(threading.Thread):
    """Gives the relay a frame at each step, and notes the time and the number of each frame that came."""

    def __init__(self, begun):
        super().__init__(daemon=True)
        self.begun, self.sent, self.ended = begun, [], False

    def run(self):
        host, far, serial = bound(HOST), bound(PEER2), 0
        while not self.ended:
            due = self.begun + serial * STEP
            time.sleep(max(0, due - time.monotonic()))
            host.sendto(frames.plain_frame("left", serial), ("127.0.0.1", OWN1))
            serial += 1
            try:
                frame = far.recv(65536)
            except TimeoutError:
                continue
            self.sent.append((time.monotonic() - self.begun, int.from_bytes(frame[16:20], "big")))


def live(program, disk, traffic, most, torn):
    """A life that ends after so many frames, or where `torn` says so in front of the sync of the next ceiling: the ceilings as they were durable, and its end."""
    ceilings, asked, first = [], None, len(traffic.sent)
    life = traced.Run(program, ["relay", disk, *WORDS, "--turns", "18446744073709551615"], disk)
    is_due = lambda: len(traffic.sent) - first >= most
    if not torn:
        threading.Thread(target=lambda: (wait_for(is_due), life.kill()), daemon=True).start()
    open_gate = False
    while (call := life.next_call()) is not None:
        name, _, octets = call
        if name == "write" and octets.startswith(TX_CEILING):
            asked = int.from_bytes(octets[6:14], "big")
        if name == "write" and octets.startswith(GATE):
            open_gate = True
        if name == "sync" and open_gate and torn and is_due():
            life.kill()
            life.wait()
            break
        life.make(*call)
        if name == "sync" and open_gate and asked:
            ceilings.append((time.monotonic() - traffic.begun, asked))
            open_gate, asked = False, None
    # What was not synced is lost.
    with open(disk, "r+b") as file:
        for place in life.disk.pending:
            file.seek(place)
            file.write(life.disk.durable[place : place + traced.SECTOR])
    return ceilings, time.monotonic() - traffic.begun


def wait_for(it):
    while not it():
        time.sleep(0.001)


def next_of(disk):
    """The number at which an opening goes on, as `show` prints it."""
    shown = subprocess.run([MACSECD, "show", disk], check=True, capture_output=True, text=True).stdout
    return int(re.search(r"^tx 0 .* next (\d+)", shown, re.M)[1])


def program_of():
    with subprocess.Popen([MACSECD, "open"], stdin=subprocess.PIPE, stdout=subprocess.DEVNULL) as waits:
        while not os.path.basename(path := os.readlink(f"/proc/{waits.pid}/exe")).startswith("macsecd"):
            time.sleep(0.01)
        waits.kill()
    return path


def played():
    """The lives of a run: each one's begin and end, where it begins to count, its frames and its ceilings."""
    lives = []
    with tempfile.TemporaryDirectory() as folder:
        disk = os.path.join(folder, "left.disk")
        subprocess.run([MACSECD, "format", disk, SCI, BLOCK, BLOCK], check=True, stdout=subprocess.DEVNULL)
        subprocess.run([MACSECD, "apply", disk, os.path.join(TOP, "examples/left.toml")], check=True, stdout=subprocess.DEVNULL)
        program = program_of()
        traffic = Traffic(time.monotonic() + 0.2)
        traffic.start()
        for most, torn in ((30, False), (24, True), (22, False)):
            at = next_of(disk)
            begin, first = time.monotonic() - traffic.begun, len(traffic.sent)
            ceilings, end = live(program, disk, traffic, most, torn)
            lives.append({"begin": begin, "end": end, "at": at, "sent": traffic.sent[first:], "ceilings": ceilings, "torn": torn})
            time.sleep(DOWN)
        traffic.ended = True
    return lives


WIDE, HIGH, LEFT, TOPMOST, RIGHT, BOTTOM = 960, 500, 60, 76, 24, 56


def drawn(lives):
    start, last = lives[0]["begin"], lives[-1]["end"]
    # Numbers that the first life found reserved are below the picture.
    least, most = lives[0]["at"] - 8, max(number for life in lives for _, number in life["ceilings"]) + 8
    x = lambda at: round(LEFT + (at - start) / (last - start) * (WIDE - LEFT - RIGHT), 1)
    y = lambda number: round(HIGH - BOTTOM - (number - least) / (most - least) * (HIGH - TOPMOST - BOTTOM), 1)
    out = [
        f'<svg xmlns="http://www.w3.org/2000/svg" viewBox="0 0 {WIDE} {HIGH}" font-family="sans-serif" font-size="14" fill="#222">',
        "<title>Packet numbers of a relay over two power losses</title>",
        f'<rect width="{WIDE}" height="{HIGH}" fill="#fff"/>',
    ]
    text = lambda at_x, at_y, words, more="": out.append(f'<text x="{at_x}" y="{at_y}" {more}>{words}</text>')
    line = lambda x1, y1, x2, y2, more: out.append(f'<line x1="{x1}" y1="{y1}" x2="{x2}" y2="{y2}" {more}/>')

    for number in range(least // 16 * 16 + 16, most, 16):
        line(LEFT, y(number), WIDE - RIGHT, y(number), 'stroke="#e4e4e4"')
        text(LEFT - 8, y(number) + 5, number, 'text-anchor="end"')
    for half in range(int((last - start) * 2) + 1):
        text(x(start + half / 2), HIGH - BOTTOM + 20, f"{half / 2:g} s", 'text-anchor="middle"')
    text(LEFT, HIGH - 8, "time")
    text(12, TOPMOST - 8, "packet number")

    for before, after in zip(lives, lives[1:]):
        off, on = x(before["end"]), x(after["begin"])
        out.append(f'<rect x="{off}" y="{TOPMOST}" width="{round(on - off, 1)}" height="{HIGH - TOPMOST - BOTTOM}" fill="#f3d9d4"/>')
        line(off, TOPMOST, off, HIGH - BOTTOM, 'stroke="#b3261e" stroke-width="2"')
        cause = "power loss while the next ceiling is written" if before["torn"] else "power loss"
        text(off, TOPMOST - 8, cause, 'text-anchor="middle" fill="#b3261e" font-weight="bold"')
        used, at = before["sent"][-1][1], after["at"]
        line(off, y(at), x(after["sent"][0][0]), y(at), 'stroke="#222" stroke-dasharray="3 4"')
        line(x(after["begin"]) - 8, y(used), x(after["begin"]) - 8, y(at), 'stroke="#b3261e" stroke-width="2"')
        text(x(after["begin"]) + 2, y((used + at) / 2) + 14, f"{used + 1} to {at - 1} are", 'fill="#b3261e"')
        text(x(after["begin"]) + 2, y((used + at) / 2) + 30, "never used", 'fill="#b3261e"')
        text(x(after["sent"][0][0]) - 6, y(at) - 8, f"goes on at {at}", 'text-anchor="end"')

    for life in lives:
        begin, end, ceiling = life["begin"], life["end"], life["at"]
        path = f'M{x(begin)} {y(ceiling)}'
        for at, number in life["ceilings"]:
            path += f" H{x(at)} V{y(number)}"
        path += f" H{x(end)}"
        back = "".join(f" L{x(at)} {y(number)}" for at, number in reversed(life["sent"]))
        out.append(f'<path d="{path}{back} Z" fill="#dce9f7"/>')
        out.append(f'<path d="{path}" fill="none" stroke="#1a5fb4" stroke-width="2.5"/>')
        out += [f'<circle cx="{x(at)}" cy="{y(number)}" r="2.6"/>' for at, number in life["sent"]]

    out.append('<circle cx="20" cy="18" r="3"/>')
    text(32, 23, "a frame on the wire, by its packet number")
    line(350, 18, 380, 18, 'stroke="#1a5fb4" stroke-width="2.5"')
    text(388, 23, "the ceiling on the disk, from its sync on: only numbers below it are used")
    out.append("</svg>\n")
    return "\n".join(out)


def main():
    path = sys.argv[1] if len(sys.argv) > 1 else os.path.join(TOP, "docs/power-loss.svg")
    lives = played()
    numbers = [number for life in lives for _, number in life["sent"]]
    assert len(numbers) == len(set(numbers)) and numbers == sorted(numbers), numbers
    with open(path, "w") as file:
        file.write(drawn(lives))
    print(f"{len(numbers)} frames, packet numbers {numbers[0]} to {numbers[-1]}, lives that began at {[life['at'] for life in lives]}")


main()

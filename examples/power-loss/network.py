#!/usr/bin/env python3
"""The hosts at both ends of the link, and the network between its ends, which records each frame and sends some of them again.

    examples/power-loss/network.py FOLDER

All addresses are on loopback:

    host 4200 <-> 4201 left 5201 <-> 5211 network 5212 <-> 5202 right 4202 <-> 4203 host

Each host sends a thousand frames a second, no two alike. It runs until it is ended (SIGTERM). Then FOLDER has four captures: what each
end sent on the network, `left-sent.pcap` and `right-sent.pcap`, and what each host was given, `left-given.pcap` and `right-given.pcap`.
"""

import random
import select
import signal
import socket
import struct
import sys
import time

from frames import plain_frame

RATE = 1000
# Of so many frames one is sent again, and of so many recorded ones it is chosen.
AGAIN, KEPT = 4, 5000


def bound(port):
    it = socket.socket(socket.AF_INET, socket.SOCK_DGRAM)
    it.bind(("127.0.0.1", port))
    it.setsockopt(socket.SOL_SOCKET, socket.SO_RCVBUF, 1 << 22)
    return it


class Capture:
    """A capture in the classic format, link type Ethernet."""

    def __init__(self, path):
        self.file = open(path, "wb")
        self.file.write(struct.pack("<IHHIIII", 0xA1B2C3D4, 2, 4, 0, 0, 262144, 1))

    def put(self, frame):
        stamp = time.time_ns() // 1000
        self.file.write(struct.pack("<IIII", *divmod(stamp, 1_000_000), len(frame), len(frame)) + frame)


def main():
    folder, ended = sys.argv[1], []
    signal.signal(signal.SIGTERM, lambda *_: ended.append(True))
    chance = random.Random(0)
    hosts = {"left": (bound(4200), ("127.0.0.1", 4201)), "right": (bound(4203), ("127.0.0.1", 4202))}
    # Where the network is for each end, and where it sends what comes from there.
    wires = {"left": (bound(5211), ("127.0.0.1", 5202)), "right": (bound(5212), ("127.0.0.1", 5201))}
    back = {"left": wires["right"][0], "right": wires["left"][0]}
    sent = {end: Capture(f"{folder}/{end}-sent.pcap") for end in hosts}
    given = {end: Capture(f"{folder}/{end}-given.pcap") for end in hosts}
    recorded = {end: [] for end in hosts}
    listening = {it: (end, True) for end, (it, _) in wires.items()} | {it: (end, False) for end, (it, _) in hosts.items()}
    begun, serial = time.monotonic(), 0

    def crosses(end, frame):
        sent[end].put(frame)
        back[end].sendto(frame, wires[end][1])
        kept = recorded[end]
        if len(kept) < KEPT:
            kept.append(frame)
        else:
            kept[chance.randrange(KEPT)] = frame
        if chance.randrange(AGAIN) == 0:
            back[end].sendto(chance.choice((frame, chance.choice(kept))), wires[end][1])

    while not ended:
        while serial < (time.monotonic() - begun) * RATE:
            for end, (it, relay) in hosts.items():
                it.sendto(plain_frame(end, serial), relay)
            serial += 1
        for it in select.select(list(listening), [], [], 0.001)[0]:
            end, is_wire = listening[it]
            frame = it.recv(65536)
            if is_wire:
                crosses(end, frame)
            else:
                given[end].put(frame)
    for capture in (*sent.values(), *given.values()):
        capture.file.close()


main()

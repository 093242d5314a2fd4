#!/usr/bin/env python3
"""Runs two gateways (examples/c/endpoint.c) over loopback, and takes their power away.

    python3 tools/try_endpoint.py PROGRAM FOLDER

The left one and the right one have keys of this run, and disk files in FOLDER. Before these are formatted a gateway has to stop, and a second format
is refused. This program is both hosts, and the network between the gateways, where it records what the left one sends. It sends frames each way,
kills both gateways (SIGKILL), starts them again without commands, and sends frames again. Then it sends every recorded frame to the right gateway
once more. No packet number may come twice, each frame has to arrive as it was sent, and none again. FOLDER then has `protected.pcap` and
`plain.pcap`, for `tools/check_protected.py`, and `key`.
"""
import os
import secrets
import select
import socket
import struct
import subprocess
import sys
import time

LEFT, RIGHT = "0200000000010001", "0200000000020001"
FRAMES = 200
HEADER = struct.pack("<IHHiIII", 0xA1B2C3D4, 2, 4, 0, 0, 65535, 1)


def wire():
    it = socket.socket(socket.AF_INET, socket.SOCK_DGRAM)
    it.bind(("127.0.0.1", 0))
    return it


def free_ports(count):
    its = [wire() for _ in range(count)]
    ports = [it.getsockname()[1] for it in its]
    for it in its:
        it.close()
    return ports


class Network:
    """The hosts at both ends, and the network between the gateways."""

    def __init__(self):
        self.host_left, self.to_left, self.to_right, self.host_right = (wire() for _ in range(4))
        self.ports = dict(zip(("left plain", "left common", "right common", "right plain"), free_ports(4)))
        self.recorded, self.arrived = [], []

    def send(self, it, port, frame):
        it.sendto(frame, ("127.0.0.1", self.ports[port]))

    def pass_on(self, seconds):
        """Passes what the gateways send to each other, and collects what comes to the hosts, until nothing came for this time."""
        its = (self.host_left, self.to_left, self.to_right, self.host_right)
        while ready := select.select(its, [], [], seconds)[0]:
            for it in ready:
                frame = it.recv(65536)
                if it is self.to_left:
                    self.recorded.append(frame)
                    self.send(self.to_right, "right common", frame)
                elif it is self.to_right:
                    self.send(self.to_left, "left common", frame)
                else:
                    self.arrived.append(frame)

    def address(self, it):
        return f"127.0.0.1:{it.getsockname()[1]}"

    def own(self, name):
        return f"127.0.0.1:{self.ports[name]}"

    def words(self, end):
        host, common = (self.host_left, self.to_left) if end == "left" else (self.host_right, self.to_right)
        return [self.own(f"{end} plain"), self.address(host), self.own(f"{end} common"), self.address(common)]


def wait_for(ports):
    """Waits until these ports are bound, for ten seconds at most."""
    end = time.monotonic() + 10
    while time.monotonic() < end:
        with open("/proc/net/udp", encoding="utf-8") as lines:
            bound = {int(it.split()[1].partition(":")[2], 16) for it in lines.readlines()[1:]}
        if bound >= set(ports):
            return
        time.sleep(0.05)
    sys.exit("a gateway has not bound its wires")


def commands(own_key, peer, peer_key):
    return f"tx-install 0 {own_key} 1 0\ntx-use 0\nrx-add {peer}\nrx-install {peer} 0 {peer_key} 1 0\n"


def is_refused(*words):
    return subprocess.run(words, stdout=subprocess.DEVNULL, stderr=subprocess.DEVNULL, timeout=10, check=False).returncode == 1


def format_disks(program, folder, network):
    """A gateway that made a missing disk file itself would use the packet numbers of its keys again."""
    for end, sci in (("left", LEFT), ("right", RIGHT)):
        disk = f"{folder}/{end}.disk"
        assert is_refused(program, disk, *network.words(end), f"{folder}/{end}.commands"), "a gateway runs without a disk file"
        assert not os.path.exists(disk), "a gateway made a disk file that was not there"
        subprocess.run([program, "format", disk, sci], check=True)
        assert is_refused(program, "format", disk, sci), "a disk file was formatted twice"


def start(program, folder, network, first):
    """Both gateways, once their commands are kept and their wires bound."""
    running = []
    for end in ("left", "right"):
        words = [program, f"{folder}/{end}.disk", *network.words(end), *([f"{folder}/{end}.commands"] if first else [])]
        with open(f"{folder}/{end}.log", "a", encoding="utf-8") as log:
            it = subprocess.Popen(words, stdout=subprocess.PIPE, stderr=log, text=True)
        if first:
            lines = [it.stdout.readline() for _ in range(4)]
            assert lines == [f"{n} it is done\n" for n in range(1, 5)], lines
        running.append(it)
    wait_for(network.ports.values())
    return running


def kill(running):
    for it in running:
        assert it.poll() is None, "a gateway has ended"
        it.kill()
        it.wait()


def plain_frame(number, end):
    source = bytes.fromhex((LEFT if end == "left" else RIGHT)[:12])
    return b"\xff" * 6 + source + b"\x88\xb5" + number.to_bytes(4, "big") + secrets.token_bytes(46 + number % 1400)


def exchange(network, first):
    """Frames each way, some at a time. All have to arrive."""
    sent = []
    for number in range(first, first + FRAMES):
        for end, it in (("left", network.host_left), ("right", network.host_right)):
            sent.append(plain_frame(number, end))
            network.send(it, f"{end} plain", sent[-1])
        network.pass_on(0.002 if number % 8 else 0.1)
    network.pass_on(1)
    return sent


def number_of(frame):
    return int.from_bytes(frame[16:20], "big")


def capture(path, frames):
    with open(path, "wb") as file:
        file.write(HEADER + b"".join(struct.pack("<IIII", n, 0, len(it), len(it)) + it for n, it in enumerate(frames)))


def main():
    if len(sys.argv) != 3:
        sys.exit(__doc__)
    program, folder = os.path.abspath(sys.argv[1]), sys.argv[2]
    keys, network = (secrets.token_hex(16), secrets.token_hex(32)), Network()
    for end, own, peer, other in (("left", keys[0], RIGHT, keys[1]), ("right", keys[1], LEFT, keys[0])):
        with open(f"{folder}/{end}.commands", "w", encoding="utf-8") as file:
            file.write(commands(own, peer, other))
    format_disks(program, folder, network)
    running = start(program, folder, network, True)
    sent = exchange(network, 0)
    kill(running)
    running = start(program, folder, network, False)
    # The receiver may take up to a block of genuine frames for late ones: they are lost.
    late = exchange(network, FRAMES)
    arrived = set(network.arrived)
    assert len(arrived) == len(network.arrived), "a frame arrived twice"
    assert arrived <= set(sent + late), "a frame arrived that nobody sent"
    assert set(sent) <= arrived, f"{len(set(sent) - arrived)} frames were lost"
    lost = len(set(late) - arrived)
    assert lost <= 2 * 16, f"{lost} frames were lost after the kill"
    numbers = [number_of(it) for it in network.recorded]
    assert len(set(numbers)) == len(numbers), "a packet number was used twice"
    network.arrived.clear()
    for frame in list(network.recorded):
        network.send(network.to_right, "right common", frame)
        network.pass_on(0.001)
    network.pass_on(1)
    assert not network.arrived, "a frame that was recorded arrived again"
    kill(running)
    capture(f"{folder}/protected.pcap", network.recorded)
    capture(f"{folder}/plain.pcap", [it for it in sent + late if it[6:12] == bytes.fromhex(LEFT[:12])])
    with open(f"{folder}/key", "w", encoding="utf-8") as file:
        file.write(keys[0])
    print(f"{len(sent + late)} frames sent, {lost} late after the kill, {len(numbers)} packet numbers, none twice; "
          f"none of {len(numbers)} arrived again")


main()

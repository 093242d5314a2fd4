#!/usr/bin/env python3
"""The hosts at the two ends of the link: each sends a plain frame to the other and waits for the one that it is sent.

    examples/link/hosts.py

A frame is sent again each tenth of a second until the other host has it, for ten seconds at most: the relays may not be there yet.
"""

import socket
import sys
import time

# Where each host is, and its end of the link.
LEFT, RIGHT = (("127.0.0.1", 4000), ("127.0.0.1", 4001)), (("127.0.0.1", 4003), ("127.0.0.1", 4002))
BROADCAST = b"\xff" * 6
# An EtherType for experiments (IEEE Std 802).
ETHERTYPE = b"\x88\xb5"


def host(ends):
    own, peer = ends
    it = socket.socket(socket.AF_INET, socket.SOCK_DGRAM)
    it.bind(own)
    it.settimeout(0.1)
    return it, peer


def send(sender, receiver, source, text):
    """Sends a frame until the other host has it, and prints what came."""
    frame = BROADCAST + source + ETHERTYPE + text.encode().ljust(46, b"\0")
    (it, peer), (other, _) = sender, receiver
    end = time.monotonic() + 10
    while time.monotonic() < end:
        it.sendto(frame, peer)
        try:
            got = other.recv(65536)
        except TimeoutError:
            continue
        if got == frame:
            print(f"{text}: {len(got)} octets, as they were sent")
            return True
        print(f"{text}: {len(got)} octets, another frame")
    print(f"{text}: nothing came")
    return False


def main():
    left, right = host(LEFT), host(RIGHT)
    there = send(left, right, b"\x02\0\0\0\0\x01", "left to right")
    back = send(right, left, b"\x02\0\0\0\0\x02", "right to left")
    sys.exit(0 if there and back else 1)


main()

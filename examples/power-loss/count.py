#!/usr/bin/env python3
"""Counts what became of the frames, by the captures alone: nothing of the program is used to read them.

    examples/power-loss/count.py FOLDER KILLS POWER-LOSSES

A packet number is repeated where two frames have the same SCI, association number and packet number in their SecTAG (IEEE Std
802.1AE-2018, clause 9): an SCI and an association number have one key here for good. A frame is delivered twice where a host was given
the same one twice. Prints a line, and fails where either happened, where a host was given a frame that was not sent, or where no frame
came through.
"""

import struct
import sys

from frames import plain_frame, serial_of

ENDS = {"left": "right", "right": "left"}


def records(path):
    """The frames of a classic capture, as `network.py` writes it."""
    octets = open(path, "rb").read()
    at = 24
    while at < len(octets):
        kept = struct.unpack_from("<I", octets, at + 8)[0]
        yield octets[at + 16 : at + 16 + kept]
        at += 16 + kept


def number_of(frame):
    """SCI, association number and packet number of a protected frame that spells its SCI out."""
    assert frame[12:14] == b"\x88\xe5" and frame[14] & 0xF0 == 0x20, "a frame without an explicit SecTAG"
    return frame[20:28], frame[14] & 3, frame[16:20]


def main():
    folder, kills, losses = sys.argv[1:]
    frames = repeated = delivered = twice = altered = 0
    came = True
    for end, other in ENDS.items():
        numbers = [number_of(frame) for frame in records(f"{folder}/{end}-sent.pcap")]
        frames += len(numbers)
        repeated += len(numbers) - len(set(numbers))
        given = list(records(f"{folder}/{end}-given.pcap"))
        delivered += len(given)
        twice += len(given) - len(set(given))
        altered += sum(frame != plain_frame(other, serial_of(frame)) for frame in given)
        came = came and numbers and given
    print(
        f"frames {frames} kills {kills} power-losses {losses} delivered {delivered} altered {altered}"
        f" numbers-repeated {repeated} delivered-twice {twice}"
    )
    sys.exit(1 if repeated or twice or altered or not came else 0)


main()

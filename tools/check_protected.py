#!/usr/bin/env python3
"""Opens each frame of a protected capture by Python's `cryptography`, and compares what comes out with a plain capture.

    python3 tools/check_protected.py KEY SCI OFFSET PROTECTED PLAIN

KEY is 32 hex digits, SCI 16, OFFSET 0, 30 or 50; both captures are classic ones. Every frame of PROTECTED has to be the one of PLAIN at
the same place, with its stamp, under a packet number above the one before. Prints how many frames there were and their packet numbers.
"""

import struct
import sys

from cryptography.hazmat.primitives.ciphers.aead import AESGCM

MAGICS = {b"\xa1\xb2\xc3\xd4": ">", b"\xa1\xb2\x3c\x4d": ">", b"\xd4\xc3\xb2\xa1": "<", b"\x4d\x3c\xb2\xa1": "<"}


def records(path):
    """The frames of a classic capture with their stamps."""
    octets = open(path, "rb").read()
    order = MAGICS[octets[:4]]
    at = 24
    while at < len(octets):
        seconds, fraction, kept, original = struct.unpack_from(order + "IIII", octets, at)
        assert kept == original, "a frame is cut"
        yield (seconds, fraction), octets[at + 16:at + 16 + kept]
        at += 16 + kept


def opened(key, sci, offset, frame):
    """The packet number of a protected frame and its plain frame (IEEE Std 802.1AE-2018, 10.6 and 14.5)."""
    assert frame[12:14] == b"\x88\xe5", "no SecTAG"
    control, short_length = frame[14], frame[15]
    start = 28 if control & 0b00100000 else 20
    assert start == 20 or frame[20:28] == sci, "another SCI"
    number = int.from_bytes(frame[16:20], "big")
    secure, icv = frame[start:-16], frame[-16:]
    assert short_length == (len(secure) if len(secure) < 48 else 0), "SL"
    clear = min(offset, len(secure)) if control & 0b00001000 else len(secure)
    nonce = sci + frame[16:20]
    hidden = AESGCM(key).decrypt(nonce, secure[clear:] + icv, frame[:start] + secure[:clear])
    return number, frame[:12] + secure[:clear] + hidden


def main():
    key, sci, offset = bytes.fromhex(sys.argv[1]), bytes.fromhex(sys.argv[2]), int(sys.argv[3])
    protected, plain = list(records(sys.argv[4])), list(records(sys.argv[5]))
    assert len(protected) == len(plain), f"{len(protected)} frames of {len(plain)}"
    numbers = []
    for (stamp, frame), (plain_stamp, plain_frame) in zip(protected, plain):
        number, found = opened(key, sci, offset, frame)
        assert (stamp, found) == (plain_stamp, plain_frame), "another frame"
        assert not numbers or number > numbers[-1], "a packet number does not rise"
        numbers.append(number)
    print(f"{len(numbers)} frames, packet numbers {numbers[0]} to {numbers[-1]}" if numbers else "0 frames")


main()

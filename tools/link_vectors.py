#!/usr/bin/env python3
"""Prints crates/macsecd_tests/src/tests/link_files.rt: the example link's files, and its protected capture by Python's `cryptography`.

The left end of the link is formatted with transmit blocks of 1,024 packet numbers, and protects in its second life: the numbers begin
at 1,025. Run:

    python3 tools/link_vectors.py > crates/macsecd_tests/src/tests/link_files.rt
"""

import os
import struct
import tomllib

from cryptography.hazmat.primitives.ciphers.aead import AESGCM

EXAMPLES = os.path.join(os.path.dirname(__file__), "../examples")
SCI = bytes.fromhex("0200000000010001")
FIRST = 1 + 1024


def example(name):
    return open(os.path.join(EXAMPLES, name), "rb").read()


def protected_frame(key, association, number, plain):
    """IEEE Std 802.1AE-2018, 9.3 to 9.9, 10.5 and 14.5: confidentiality with offset 0, the SCI spelled out."""
    hidden = plain[12:]
    short_length = len(hidden) if len(hidden) < 48 else 0
    tag = bytes([0x88, 0xE5, 0b00101100 | association, short_length]) + struct.pack(">I", number) + SCI
    front = plain[:12] + tag
    return front + AESGCM(key).encrypt(SCI + struct.pack(">I", number), hidden, front)


def protected_capture(plain, key, association):
    octets, at, number = plain[:24], 24, FIRST
    while at < len(plain):
        seconds, fraction, kept, _ = struct.unpack_from("<IIII", plain, at)
        frame = protected_frame(key, association, number, plain[at + 16:at + 16 + kept])
        octets += struct.pack("<IIII", seconds, fraction, len(frame), len(frame)) + frame
        at, number = at + 16 + kept, number + 1
    return octets


def print_text(comment, name, text):
    quoted = text.replace("\\", "\\\\").replace('"', '\\"')
    print(f'\n/// {comment}\npub const {name}: &str = "{quoted}";')


plain = example("plain.pcap")
install = tomllib.loads(example("left.toml").decode())["command"][0]
print("//! The files of the example link, and its protected capture. Printed by tools/link_vectors.py.")
print_text("The commands of the left end.", "LEFT", example("left.toml").decode())
print_text("The commands of the right end.", "RIGHT", example("right.toml").decode())
print_text("The plain capture, in hex.", "PLAIN", plain.hex())
print_text("What the left end makes of it, in hex.", "PROTECTED", protected_capture(plain, bytes.fromhex(install["key"]), install["an"]).hex())

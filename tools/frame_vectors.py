#!/usr/bin/env python3
"""Prints crates/macs_frame_tests/src/tests/vectors.rt: protected frames by Python's `cryptography`.

The inputs follow rules, which the tests of the crate repeat, so that the table holds protected frames
alone. Each way to name the channel is taken with each protection and each length of User Data, in the
order of NAMES, PROTECTIONS and LENGTHS below. Of frame n, counted from 0,
    octet i of the key is                (13 i + n) mod 256, of 32 octets where n mod 3 is 2, else of 16,
    octet i of the addresses is          ( 5 i + 2) mod 256,
    octet i of the User Data is          ( 7 i + 3) mod 256,
    the association is                   n mod 4,
    the packet number is                 0x89abcdef + n.
Octet i of the SCI is (19 i + 4) mod 256; an end station's is its source address with port 00-01.

A frame is written in 6 blocks of 16 octets, filled up with zero octets. Of a frame of more than 1,000
octets the table has the first 64 and the last 32. User Data of 0 or 1 octets make a
plain frame of 12 or 13, which is too short to be protected. With 1 octet the protected frame is one
that a receiver takes, and the tests open it. With none it is a bad tag, since an SL of 0 says that 48
octets or more follow.

Run:  python3 tools/frame_vectors.py > crates/macs_frame_tests/src/tests/vectors.rt
"""

from cryptography.hazmat.primitives.ciphers.aead import AESGCM

NAMES = ["Explicit", "EndStation", "Implicit"]
PROTECTIONS = [None, 0, 30, 50]
OFFSETS = {0: "Zero", 30: "Thirty", 50: "Fifty"}
BLOCKS = 6
LENGTHS = [0, 1, 29, 30, 31, 46, 47, 48, 50, 51, 1486]


def octets(factor, first, length):
    return bytes((factor * i + first) % 256 for i in range(length))


def sci_of(name):
    return octets(5, 2, 12)[6:] + b"\0\1" if name == "EndStation" else octets(19, 4, 8)


def written_sci(name):
    return "0x" + sci_of(name).hex()


def blocks(frame):
    filled = frame.ljust(16 * BLOCKS, b"\0")
    return [f"0x{filled[i:i + 16].hex()}" for i in range(0, len(filled), 16)]


def key_of(n):
    return octets(13, n, 32 if n % 3 == 2 else 16)


def sec_tag(name, encrypted, association, number, secure_length, sci):
    """IEEE Std 802.1AE-2018, 9.3 to 9.9."""
    control = {"Explicit": 0b00100000, "EndStation": 0b01000000, "Implicit": 0}[name]
    if encrypted:
        control |= 0b00001100
    short_length = secure_length if secure_length < 48 else 0
    tag = bytes([0x88, 0xE5, control | association, short_length]) + number.to_bytes(4, "big")
    return tag + sci if name == "Explicit" else tag


def protected(n, name, offset, length):
    """IEEE Std 802.1AE-2018, 10.5 and 14.5."""
    addresses, user_data = octets(5, 2, 12), octets(7, 3, length)
    sci = sci_of(name)
    number = 0x89ABCDEF + n
    clear_length = length if offset is None else offset
    clear, hidden = user_data[:clear_length], user_data[clear_length:]
    header = addresses + sec_tag(name, offset is not None, n % 4, number, length, sci)
    iv = sci + number.to_bytes(4, "big")
    return header + clear + AESGCM(key_of(n)).encrypt(iv, hidden, header + clear)


def main():
    print(
        f"""//! Protected frames by Python's `cryptography`, printed by tools/frame_vectors.py, which has the rules
//! of the inputs.

use super::Naming;
use macs_frame::Offset;

/// How many octets of User Data the frames of a group protect.
pub const LENGTHS: [u16; {len(LENGTHS)}] = {LENGTHS};

/// Frames of one way to name the channel and of one protection.
pub struct Group {{
    pub naming: Naming,
    pub sci: u64,
    /// Of confidentiality, `None` under integrity alone.
    pub offset: Option<Offset>,
    /// One for each of the lengths, in blocks of 16 octets, filled up with zero octets. Of a frame of
    /// more than 1,000 octets, the first 64 and the last 32.
    pub frames: [[u128; {BLOCKS}]; {len(LENGTHS)}],
}}

const STATION: u64 = {written_sci("EndStation")};

const CHANNEL: u64 = {written_sci("Explicit")};

pub const GROUPS: &[Group] = &["""
    )
    n = 0
    for name in NAMES:
        for offset in PROTECTIONS:
            print("    Group {")
            print(f"        naming: Naming::{name},")
            print(f"        sci: {'STATION' if name == 'EndStation' else 'CHANNEL'},")
            print(f"        offset: {'None' if offset is None else f'Some(Offset::{OFFSETS[offset]})'},")
            print("        frames: [")
            for length in LENGTHS:
                frame = protected(n, name, offset, length)
                shown = frame if len(frame) <= 1000 else frame[:64] + frame[-32:]
                print("            [")
                for block in blocks(shown):
                    print(f"                {block},")
                print("            ],")
                n += 1
            print("        ],")
            print("    },")
    print("];")


if __name__ == "__main__":
    main()

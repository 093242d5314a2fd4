#!/usr/bin/env python3
"""Prints crates/macs_frame_tests/src/tests/long_frames.rt: frames under a key of 256 bits, by Python's
`cryptography`. The key is that of FIPS 197, C.3.

Run:  python3 -B tools/channel_vectors.py > crates/macs_frame_tests/src/tests/long_frames.rt
"""

from cryptography.hazmat.primitives.ciphers.aead import AESGCM

from frame_vectors import sec_tag

KEY = bytes(range(32))
CHANNEL = bytes.fromhex("12153524c0895e81")
STATION = bytes.fromhex("f0761e8dcd3d0001")

# The plain frames of IEEE Std 802.1AE-2018, Annex C, with confidentiality.
TO_CHANNEL = bytes.fromhex("d609b1f056637a0d46df998d")
TO_STATION = bytes.fromhex("e20106d7cd0df0761e8dcd3d")
CHANNEL_DATA = b"\x08\x00" + bytes(range(0x0F, 0x3B)) + b"\x00\x02"
STATION_DATA = b"\x08\x00" + bytes(range(0x0F, 0x35)) + b"\x00\x04"


class Frame:
    """A frame by its inputs: `offset` is None under integrity alone."""

    def __init__(self, name, naming, sci, association, number, offset, addresses, data):
        self.name = name
        self.naming = naming
        self.sci = sci
        self.association = association
        self.number = number
        self.offset = offset
        self.addresses = addresses
        self.data = data

    def plain_parts(self):
        return [self.addresses, self.data]

    def parts(self):
        """Its addresses, SecTAG, Secure Data and ICV (IEEE Std 802.1AE-2018, 10.5 and 14.6)."""
        is_encrypted = self.offset is not None
        clear_length = self.offset if is_encrypted else len(self.data)
        clear, hidden = self.data[:clear_length], self.data[clear_length:]
        tag = sec_tag(self.naming, is_encrypted, self.association, self.number, len(self.data), self.sci)
        iv = self.sci + self.number.to_bytes(4, "big")
        sealed = AESGCM(KEY).encrypt(iv, hidden, self.addresses + tag + clear)
        return [self.addresses, tag, clear + sealed[:-16], sealed[-16:]]


def to_channel(name, number, offset, data):
    return Frame(name, "Explicit", CHANNEL, 2, number, offset, TO_CHANNEL, data)


def from_station(name, offset, data):
    return Frame(name, "Explicit", STATION, 0, 0x76D457ED, offset, TO_STATION, data)


SHORT_DATA = CHANNEL_DATA[:6]

FRAMES = [
    ("The channel's frame, under association 2.", to_channel("CHANNEL_FRAME", 0xB2C28465, 0, CHANNEL_DATA)),
    (
        "The end station's frame, under association 0.",
        Frame("STATION_FRAME", "EndStation", STATION, 0, 0x76D457ED, 0, TO_STATION, STATION_DATA),
    ),
    ("The shortest plain frame, 14 octets.", from_station("SHORTEST", 0, STATION_DATA[:2])),
    ("30 octets of User Data, all of them in the clear.", from_station("ALL_CLEAR", 30, STATION_DATA[:30])),
    (
        "30 octets of User Data in the clear and one encrypted.",
        from_station("ONE_HIDDEN", 30, STATION_DATA[:31]),
    ),
]

NUMBERED = [("Number 5 of the channel, in the clear.", to_channel("CLEAR_5", 5, None, SHORT_DATA))] + [
    (f"Number {number} of the channel, encrypted.", to_channel(f"NUMBER_{number}", number, 0, SHORT_DATA))
    for number in (4, 5, 7, 8, 10)
]


def literal(lines):
    written = ["".join(f"\\x{octet:02x}" for octet in line) for line in lines if line]
    return 'b"' + "\\\n".join(written) + '"'


def constant(comment, name, kind, value):
    print(f"\n/// {comment}\npub const {name}: {kind} = {value};")


def main():
    print(
        """//! Frames under a key of 256 bits by Python's `cryptography`, printed by tools/channel_vectors.py, which
//! has their inputs. A line of a frame is its addresses, its SecTAG, its Secure Data or its ICV.

use macs_aes::Key;"""
    )
    key = f"Key::Long(\n    *{literal([KEY[:16], KEY[16:]])},\n)"
    constant("The key of FIPS 197, C.3.", "KEY", "Key", key)
    for comment, frame in FRAMES:
        constant(comment, frame.name, "&[u8]", literal(frame.parts()))
        constant(f"The plain frame of `{frame.name}`.", f"{frame.name}_PLAIN", "&[u8]", literal(frame.plain_parts()))
    for comment, frame in NUMBERED:
        constant(comment, frame.name, "&[u8]", literal(frame.parts()))
    constant("The plain frame of each numbered frame.", "NUMBERED_PLAIN", "&[u8]", literal([TO_CHANNEL, SHORT_DATA]))


if __name__ == "__main__":
    main()

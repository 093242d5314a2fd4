"""The plain frames that the hosts send: each end's first one, second one and so on, no two alike."""

import hashlib
import struct

BROADCAST = b"\xff" * 6
# An EtherType for experiments (IEEE Std 802).
ETHERTYPE = b"\x88\xb5"
SOURCES = {"left": b"\x02\0\0\0\0\x01", "right": b"\x02\0\0\0\0\x02"}


def plain_frame(end, serial):
    """The frame of that end with that serial number: 60 to 123 octets, the serial number and octets that depend on it."""
    digest = hashlib.sha256(f"{end} {serial}".encode()).digest()
    rest = (digest * 4)[: 38 + digest[0] % 64]
    return BROADCAST + SOURCES[end] + ETHERTYPE + struct.pack(">Q", serial) + rest


def serial_of(frame):
    return struct.unpack_from(">Q", frame, 14)[0]

#!/usr/bin/env python3
"""A test bench for MACsec over libmacsec: makes a protected capture, and checks another.

    bench.py protect KEY SCI PLAIN.pcap PROTECTED.pcap [FIRST]
    bench.py check KEY SCI PROTECTED.pcap [PLAIN.pcap]

KEY has 32 or 64 hex digits, SCI 16; captures are classic ones of Ethernet, with whole frames. `protect` seals each frame with confidentiality
under association 0, with packet numbers from FIRST on (1): use no number twice under a key that is in use. `check` prints what the SecTAG of each
frame says, and how it opens, and with PLAIN.pcap whether that is the frame at the same place there. Status 0: each one opens, and is the same.

Take keys of tests alone: others on this machine see the words of a program. The library is libmacsec.so.0, or the one that MACSEC_LIBRARY names.
"""
import ctypes
import os
import string
import struct
import sys

MAX_FRAME = 9216
EXPLICIT = 1
ETHERNET = 1
# The order of octets in a capture, by how it begins: with stamps of microseconds or of nanoseconds.
ORDERS = {b"\xd4\xc3\xb2\xa1": "<", b"\x4d\x3c\xb2\xa1": "<", b"\xa1\xb2\xc3\xd4": ">", b"\xa1\xb2\x3c\x4d": ">"}
# struct macs_key, struct macs_sci, struct macs_tag and struct macs_opened of macsec.h.


class Key(ctypes.Structure):
    _fields_ = [("octets", ctypes.c_uint8 * 32), ("length", ctypes.c_uint32)]


class Sci(ctypes.Structure):
    _fields_ = [("octets", ctypes.c_uint8 * 8)]


class Tag(ctypes.Structure):
    _fields_ = [("sci", Sci), ("pn", ctypes.c_uint32), *((name, ctypes.c_uint8) for name in ("an", "name", "encrypted", "offset"))]


class Opened(ctypes.Structure):
    _fields_ = [("octets", ctypes.c_size_t), ("pn", ctypes.c_uint32), ("an", ctypes.c_uint8)]


LIBRARY = ctypes.CDLL(os.environ.get("MACSEC_LIBRARY", "libmacsec.so.0"))


def stop(why):
    sys.exit(f"bench.py: {why}")


def call(name, *words):
    """Calls the library. Octets go with their length, as its calls take them."""
    given = []
    for word in words:
        if isinstance(word, bytes):
            given += [word, ctypes.c_size_t(len(word))]
        elif isinstance(word, ctypes.Array):
            given += [word, ctypes.c_size_t(len(word))]
        else:
            given.append(ctypes.byref(word) if isinstance(word, (ctypes.Structure, ctypes.c_size_t)) else word)
    return LIBRARY[name](*given)


def octets_of(digits, lengths, what):
    """The octets of hex digits alone, as many as one of these."""
    if len(digits) not in lengths or not set(digits) <= set(string.hexdigits):
        stop(f"{what} has {' or '.join(map(str, lengths))} hex digits")
    return bytes.fromhex(digits)


def key_of(digits):
    key = Key()
    if call("macs_key_new", octets_of(digits, (32, 64), "a key"), key):
        stop("the library refuses this key")
    return key


def sci_of(digits):
    return Sci((ctypes.c_uint8 * 8)(*octets_of(digits, (16,), "an SCI")))


def records(path):
    """The header of a classic capture, its order of octets, and its records: the stamp and the frame of each."""
    with open(path, "rb") as capture:
        octets = capture.read()
    order = ORDERS.get(octets[:4])
    if order is None or len(octets) < 24 or struct.unpack_from(f"{order}I", octets, 20)[0] != ETHERNET:
        stop(f"{path} is no classic capture of Ethernet (editcap -F pcap IN OUT)")
    found, at = [], 24
    while at < len(octets):
        if at + 16 > len(octets):
            stop(f"{path} ends within a record")
        seconds, fraction, kept, original = struct.unpack_from(f"{order}IIII", octets, at)
        frame = octets[at + 16:at + 16 + kept]
        if not len(frame) == kept == original:
            stop(f"{path}: record {len(found) + 1} has a part of a frame")
        found.append(((seconds, fraction), frame))
        at += 16 + kept
    return octets[:24], order, found


def seal(key, tag, plain):
    out, written = (ctypes.c_uint8 * MAX_FRAME)(), ctypes.c_size_t()
    answer = call("macs_seal_frame", key, tag, plain, out, written)
    if answer:
        stop(f"the frame for number {tag.pn} is not protected: answer {answer}")
    return bytes(out[:written.value])


def protect(key, sci, source, target, first="1"):
    header, order, found = records(source)
    last = 2**32 - len(found)
    if not (first.isascii() and first.isdigit() and len(first) <= 10 and 1 <= int(first) <= last):
        stop(f"FIRST is 1 to {last}: each frame takes one of 2^32 - 1 packet numbers")
    sealed = [(stamp, seal(key, Tag(sci, number, 0, EXPLICIT, 1, 0), plain)) for number, (stamp, plain) in enumerate(found, int(first))]
    # All frames are sealed by now: none is refused with half a file written. The longest one may be longer than the plain capture allows.
    header = header[:16] + struct.pack(f"{order}I", MAX_FRAME) + header[20:]
    with open(target, "wb") as capture:
        capture.write(header + b"".join(struct.pack(f"{order}IIII", *stamp, len(frame), len(frame)) + frame for stamp, frame in sealed))
    print(f"protected {len(found)}")
    return True


def check(key, sci, source, other=None):
    found, expected = records(source)[2], [plain for _, plain in records(other)[2]] if other is not None else None
    all_good = expected is None or len(expected) == len(found)
    for place, (_, frame) in enumerate(found):
        tag, opened, out = Tag(), Opened(), (ctypes.c_uint8 * MAX_FRAME)()
        read, answer = call("macs_read_tag", frame, tag), call("macs_open_frame", key, sci, ctypes.c_uint8(0), frame, out, opened)
        said = f"an {tag.an} pn {tag.pn} sci {bytes(tag.sci.octets).hex()}" if not read else f"no tag, answer {read}"
        good = not answer and (expected is None or expected[place:place + 1] == [bytes(out[:opened.octets])])
        print(f"{place + 1} {said}: {'opens' if not answer else f'answer {answer}'}{'' if good or answer else ', another frame'}")
        all_good &= good
    if expected is not None and len(expected) != len(found):
        print(f"{len(found)} frames, but {len(expected)} plain ones")
    return all_good


def main():
    name, *words = sys.argv[1:] or [""]
    task, counts = {"protect": (protect, (4, 5)), "check": (check, (3, 4))}.get(name, (None, ()))
    if len(words) not in counts:
        sys.exit(__doc__)
    try:
        done = task(key_of(words[0]), sci_of(words[1]), *words[2:])
    except OSError as error:
        stop(error)
    sys.exit(0 if done else 1)


main()

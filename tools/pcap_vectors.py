#!/usr/bin/python3
"""Prints crates/macs_frame_tests/src/tests/capture_files/vectors.rt: one capture in both orders of octets and both fractions, as scapy writes it.

Two frames of 14 and 17 octets, captured at 1234567890.123456(789) and 4294967295.999999(999). Run on a machine with Debian's
python3-scapy:

    /usr/bin/python3 tools/pcap_vectors.py > crates/macs_frame_tests/src/tests/capture_files/vectors.rt
"""

import io

from scapy.all import RawPcapWriter

FRAMES = [bytes(range(14)), bytes(range(100, 117))]
STAMPS = {False: [(1234567890, 123456), (4294967295, 999999)], True: [(1234567890, 123456789), (4294967295, 999999999)]}
FORMS = [(">", False), (">", True), ("<", False), ("<", True)]


class Kept(io.BytesIO):
    """A file whose octets can be read after it was closed."""

    def close(self):
        self.octets = self.getvalue()
        super().close()


def capture(order, nanos):
    file = Kept()
    with RawPcapWriter(file, linktype=1, endianness=order, nano=nanos, snaplen=262144) as writer:
        writer.write_header(None)
        for frame, (seconds, fraction) in zip(FRAMES, STAMPS[nanos]):
            writer.write_packet(frame, sec=seconds, usec=fraction)
    return file.octets


print("//! One capture in both orders of octets and both fractions. Printed by tools/pcap_vectors.py.\n")
print("/// Highest octets first and lowest octets first, each in microseconds and in nanoseconds.")
print(f"pub const CAPTURES: [[u8; {len(capture(*FORMS[0]))}]; 4] = [")
for form in FORMS:
    print("    [")
    octets = capture(*form)
    for i in range(0, len(octets), 16):
        print("        " + " ".join(f"0x{octet:02x}," for octet in octets[i:i + 16]))
    print("    ],")
print("];")

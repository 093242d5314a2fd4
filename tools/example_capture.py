#!/usr/bin/python3
"""Makes examples/plain.pcap: three Ethernet frames without FCS, put together by scapy and written by text2pcap.

The frames are an ARP request (60 octets with its padding), an ICMP echo request (98) and a UDP datagram (142), from station
02-00-00-00-00-01 to others of the same link. Run on a machine with Debian's python3-scapy and wireshark-common:

    /usr/bin/python3 tools/example_capture.py
"""

import os
import subprocess

from scapy.all import ARP, ICMP, IP, UDP, Ether, Padding, Raw, raw

HERE, PEER = "02:00:00:00:00:01", "02:00:00:00:00:02"
FRAMES = [
    Ether(src=HERE, dst="ff:ff:ff:ff:ff:ff") / ARP(hwsrc=HERE, psrc="192.0.2.1", pdst="192.0.2.2") / Padding(bytes(18)),
    Ether(src=HERE, dst=PEER) / IP(src="192.0.2.1", dst="192.0.2.2", id=1) / ICMP(id=7, seq=1) / Raw(bytes(range(56))),
    Ether(src=HERE, dst=PEER) / IP(src="192.0.2.1", dst="192.0.2.2", id=2) / UDP(sport=40000, dport=7) / Raw(b"measured " * 11 + b"."),
]


def dump(frame, milliseconds):
    """A frame as text2pcap reads it: when it was captured, then its octets by sixteen."""
    lines = [f"2026-01-01 00:00:00.{milliseconds:03}000"]
    lines += [f"{i:06x} " + frame[i:i + 16].hex(" ") for i in range(0, len(frame), 16)]
    return "\n".join(lines) + "\n"


os.chdir(os.path.join(os.path.dirname(__file__), ".."))
subprocess.run(
    ["text2pcap", "-q", "-F", "pcap", "-t", "%Y-%m-%d %H:%M:%S.%f", "-", "examples/plain.pcap"],
    input="\n".join(dump(raw(frame), 250 * i) for i, frame in enumerate(FRAMES)),
    env=os.environ | {"TZ": "UTC"},
    text=True,
    check=True,
)

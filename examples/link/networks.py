"""Two hosts, each behind an end of a link, in network namespaces of this machine: what `tap` and `vxlan` have in common.

    left host -- left end == the common network == right end -- right host

Each host has an MTU of 1,500 octets and knows nothing of the link. Each end is a machine with a bridge, to which its host's cable goes, and a relay.
What joins the bridge and the relay is made by the caller. `./macsecd` says how the program is built first, if there is none (MACSECD_UNPROVED=1: in two
minutes). Needs root, ip, ss, ethtool, ping, iperf3.
"""

import json
import os
import re
import shutil
import signal
import subprocess
import sys
import tempfile
import time

TOP = os.path.join(os.path.dirname(os.path.realpath(__file__)), "..", "..")
sys.dont_write_bytecode = True
sys.path.append(os.path.join(TOP, "examples", "power-loss"))
from lives import program_of  # pylint: disable=wrong-import-position

SIDES = ("left", "right")
SCIS = {"left": "0200000000010001", "right": "0200000000020001"}
HOSTS = {"left": "10.9.0.1", "right": "10.9.0.2"}
COMMON = {"left": "192.0.2.1", "right": "192.0.2.2"}
OTHER = {"left": "right", "right": "left"}
# Numbers reserved at a time, to send and to receive: a link under load is not to wait for syncs.
TX = RX = "1024"
# Octets that sockets are asked to keep, up to net.core.rmem_max.
BUFFER = "4000000"
# The least speed of a direction, in Mbit/s, unless said.
LEAST = 10
SECONDS = 5
# Pings: how many, and of which octets of data, those of 1,500 octets with their headers last.
PINGS, DATA = 100, (0, 18, 56, 1000, 1471, 1472)


def run(*words, **options):
    return subprocess.run(words, check=True, **options)


def needs(*programs):
    missing = [it for it in ("ip", "ss", "ethtool", "ping", "iperf3", *programs) if not shutil.which(it)]
    if missing:
        sys.exit(f"{os.path.basename(sys.argv[0])}: {', '.join(missing)} is missing")


def until(holds, what):
    """Waits until something holds, for ten seconds at most."""
    end = time.monotonic() + 10
    while not holds():
        if time.monotonic() > end:
            sys.exit(f"{what}: not within ten seconds")
        time.sleep(0.05)


class Machine:
    """A network namespace."""

    def __init__(self, name):
        self.name = f"macsecd-{os.getpid()}-{name}"
        run("ip", "netns", "add", self.name)
        self.ip("link", "set", "lo", "up")

    def ip(self, *words):
        run("ip", "-n", self.name, *words)

    def words(self, *words):
        return ["ip", "netns", "exec", self.name, *words]

    def run(self, *words, **options):
        return run(*self.words(*words), **options)

    def has(self, device):
        return subprocess.run(["ip", "-n", self.name, "link", "show", device], capture_output=True, check=False).returncode == 0

    def remove(self):
        subprocess.run(["ip", "netns", "del", self.name], check=False)


def cable(one, device, other, its_device):
    """Two devices of two machines, joined. Segments and checksums are made before a frame is on it, as on a cable."""
    one.ip("link", "add", device, "type", "veth", "peer", "name", its_device, "netns", other.name)
    for machine, name in ((one, device), (other, its_device)):
        machine.run("ethtool", "-K", name, "tx", "off", "tso", "off", "gso", "off", "gro", "off", stdout=subprocess.DEVNULL)
        machine.ip("link", "set", name, "up")


class Network:
    """The machines and the programs that run on them, until the end of the block."""

    def __init__(self, common_mtu):
        self.common_mtu, self.machines, self.running = common_mtu, [], []
        self.macsecd = program_of(os.path.join(TOP, "macsecd"))

    def __enter__(self):
        # Whoever ends this program ends what it began.
        signal.signal(signal.SIGTERM, lambda *_: sys.exit(143))
        self.folder = tempfile.mkdtemp()
        self.hosts = {side: self.machine(f"{side}-host") for side in SIDES}
        self.ends = {side: self.machine(f"{side}-end") for side in SIDES}
        for side in SIDES:
            self.join_host(side)
        cable(self.ends["left"], "common0", self.ends["right"], "common0")
        for side in SIDES:
            self.ends[side].ip("addr", "add", f"{COMMON[side]}/24", "dev", "common0")
            self.ends[side].ip("link", "set", "common0", "mtu", str(self.common_mtu))
        return self

    def __exit__(self, *_):
        for it in reversed(self.running):
            it.terminate()
            it.wait()
        for it in self.machines:
            it.remove()
        shutil.rmtree(self.folder)

    def machine(self, name):
        self.machines.append(Machine(name))
        return self.machines[-1]

    def join_host(self, side):
        """The host's cable goes to the bridge of its end."""
        host, end = self.hosts[side], self.ends[side]
        cable(host, "eth0", end, "host0")
        host.ip("addr", "add", f"{HOSTS[side]}/24", "dev", "eth0")
        end.ip("link", "add", "br0", "type", "bridge")
        end.ip("link", "set", "br0", "up")
        end.ip("link", "set", "host0", "master", "br0")

    def start(self, machine, *words):
        self.running.append(subprocess.Popen(machine.words(*words), stdout=subprocess.DEVNULL))
        return self.running[-1]

    def start_relay(self, side, machine, own, peer):
        """Makes the disk file of an end, and starts its relay between two plain addresses and the common network."""
        disk, control = (os.path.join(self.folder, f"{side}.{it}") for it in ("disk", "control"))
        quiet = {"stdout": subprocess.DEVNULL}
        run(self.macsecd, "format", disk, SCIS[side], TX, RX, **quiet)
        run(self.macsecd, "apply", disk, os.path.join(TOP, "examples", f"{side}.toml"), **quiet)
        outside = [f"{COMMON[side]}:5001", f"{COMMON[OTHER[side]]}:5001"]
        pace = ["--wait", "1000", "--control", control, "--buffer", BUFFER]
        self.start(machine, self.macsecd, "relay", disk, own, peer, *outside, *pace)
        until(lambda: os.path.exists(control), f"{side} relay")

    def counters(self, side):
        control = os.path.join(self.folder, f"{side}.control")
        said = run(self.macsecd, "ask", control, "counters", capture_output=True, text=True).stdout
        return {name: int(count) for name, count in (it.rsplit(" ", 1) for it in said.splitlines()) if count.isdigit()}

    # What the hosts see of the link.

    def lost_pings(self, octets):
        words = ["ping", "-q", "-c", str(PINGS), "-i", "0.01", "-W", "2", "-M", "do", "-s", str(octets), HOSTS["right"]]
        said = subprocess.run(self.hosts["left"].words(*words), capture_output=True, text=True, check=False).stdout
        found = re.search(r"(\d+) packets transmitted, (\d+) received", said)
        return PINGS - int(found.group(2)) if found else PINGS

    def speed(self, side):
        """Mbit/s that TCP carries from this side to the other, and the segments that it sent again."""
        server = subprocess.Popen(self.hosts[OTHER[side]].words("iperf3", "-s", "-1"), stdout=subprocess.DEVNULL)
        listens = self.hosts[OTHER[side]].words("ss", "-Hltn", "sport = 5201")
        until(lambda: subprocess.run(listens, capture_output=True, check=False).stdout, "iperf3")
        # Where nothing comes through it would wait for minutes: then it is ended, and has no sums.
        words = ["timeout", str(3 * SECONDS), "iperf3", "-J", "-c", HOSTS[OTHER[side]], "-t", str(SECONDS)]
        said = subprocess.run(self.hosts[side].words(*words), capture_output=True, text=True, check=False).stdout
        server.kill()
        server.wait()
        # What is queued still arrives.
        time.sleep(1)
        end = json.loads(said or "{}").get("end", {})
        if "sum_received" not in end:
            return 0.0, 0
        return end["sum_received"]["bits_per_second"] / 1e6, end["sum_sent"].get("retransmits", 0)

    def check(self, least):
        """Pings and TCP both ways. Whether no ping was lost, and TCP was fast enough."""
        # The first frames find the neighbour's address, and may come before the other end is there.
        until(lambda: self.lost_pings(0) < PINGS, "a ping")
        is_right = self.check_pings()
        for side in SIDES:
            speed, again = self.speed(side)
            print(f"TCP {side} to {OTHER[side]}: {speed:.0f} Mbit/s, {again} segments sent again")
            is_right = is_right and speed >= least
        is_right = self.check_pings() and is_right
        for side in SIDES:
            counted = self.counters(side)
            found = {it: counted[it] for it in ("tx protected", "rx ok", "rx late", "rx not-valid", "wire 1 failed-sends", "wire 2 failed-sends")}
            print(f"{side} relay: {', '.join(f'{name} {count}' for name, count in found.items())}")
        print("all as it should be" if is_right else f"NOT as it should be: a ping was lost, or TCP carried less than {least} Mbit/s")
        return is_right

    def check_pings(self):
        lost = {octets: self.lost_pings(octets) for octets in DATA}
        print("pings: " + ", ".join(f"{octets + 28} octets {PINGS - it} of {PINGS}" for octets, it in lost.items()))
        return not any(lost.values())


def words_given(usage):
    """The words of such a script: MTU of the common network, least speed."""
    words = sys.argv[1:]
    if len(words) > 2 or not all(it.isdigit() for it in words):
        print(usage, file=sys.stderr)
        sys.exit(2)
    numbers = [int(it) for it in words]
    return numbers[0] if numbers else 1500, numbers[1] if len(numbers) > 1 else LEAST

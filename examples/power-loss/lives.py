#!/usr/bin/env python3
"""The lives of one end of the link: its relay is started, ended at a random moment and started again, so many times.

    examples/power-loss/lives.py MACSECD DISK KILLS SEED OWN1 PEER1 OWN2 PEER2

Every other life ends by a power loss: the relay is killed in front of a write or a sync of its disk file, and what it wrote since its
last sync is left old, new, half written or as octets that nobody wrote (`traced.py`). Each other life ends by SIGKILL at a random moment,
which loses nothing that was written. Where the system does not let a program be traced, all do. At the end it prints a line:

    kills 100 power-losses 50
"""

import os
import random
import signal
import subprocess
import sys
import time

import traced

FOREVER = "18446744073709551615"


def program_of(macsecd):
    """The built program's path: what the script `macsecd` becomes once it has built it."""
    with subprocess.Popen([macsecd, "open"], stdin=subprocess.PIPE, stdout=subprocess.DEVNULL, stderr=subprocess.DEVNULL) as waits:
        while True:
            path = os.readlink(f"/proc/{waits.pid}/exe")
            if os.path.basename(path).startswith("macsecd"):
                waits.kill()
                return path
            if waits.poll() is not None:
                sys.exit("lives: macsecd is not built")
            time.sleep(0.01)


def kill_after(seconds, child):
    """Kills the program when so much time has passed."""
    signal.signal(signal.SIGALRM, lambda *_: os.kill(child, signal.SIGKILL))
    signal.setitimer(signal.ITIMER_REAL, seconds)


def killed_life(program, words, chance):
    """A life that ends by a kill at a random moment: its status."""
    with subprocess.Popen([program, *words], stdout=subprocess.DEVNULL) as life:
        try:
            kill_after(chance.uniform(0.02, 0.5), life.pid)
            return life.wait()
        finally:
            life.kill()


def cut_life(program, words, disk, chance):
    """A life that ends by a power loss: its status."""
    life = traced.Run(program, words, disk)
    moment, more = time.monotonic() + chance.uniform(0.02, 0.5), chance.randrange(6)
    # Where no frame comes, nothing is written.
    kill_after(2, life.child)
    try:
        while (call := life.next_call()) is not None:
            if time.monotonic() > moment:
                if more == 0:
                    break
                more -= 1
            life.make(*call)
    finally:
        signal.setitimer(signal.ITIMER_REAL, 0)
        life.kill()
    life.wait()
    # A write in which power fails leaves of its sector anything, too.
    if call is not None and call[0] == "write":
        life.disk.write(*call[1:])
    life.disk.cut_power(chance)
    return life.status


def main():
    macsecd, disk, kills, seed, *ends = sys.argv[1:]
    # Whoever ends this ends the relay, too.
    signal.signal(signal.SIGTERM, lambda *_: sys.exit(1))
    kills, chance = int(kills), random.Random(seed)
    program, can_cut = program_of(macsecd), traced.can_trace()
    words, cuts = ["relay", disk, *ends, "--turns", FOREVER], 0
    for life in range(kills):
        cut = can_cut and life % 2 == 1
        status = cut_life(program, words, disk, chance) if cut else killed_life(program, words, chance)
        if status != -signal.SIGKILL:
            sys.exit(f"lives: the relay ended by itself, status {status}")
        cuts += cut
    print(f"kills {kills} power-losses {cuts}")


if __name__ == "__main__":
    main()

#!/usr/bin/env python3
"""Measures how long frames wait for an endpoint's work on its disk: one `step` after each frame beside one `refill`.

    python3 bench/gaps.py [FOLDER] [FRAMES]

FOLDER, where the disk files are made, should be on a real disk; it is the system's folder for temporary files unless one is named.
FRAMES is 100,000, of 1,500 octets. Blocks have 16, 64, 256, 1,024 and 65,536 packet numbers. The program is built for x86-64-v3 unless
MACSECD_CPU names another level. What its lines say: docs/PERFORMANCE.md, 'Frames between device calls'.
"""

import os
import subprocess
import sys
import tempfile

TOP = os.path.abspath(os.path.join(os.path.dirname(__file__), ".."))
CPU = os.environ.get("MACSECD_CPU", "x86-64-v3")
BLOCKS = (16, 64, 256, 1024, 65536)


def build():
    """Proves and builds the program. Its path."""
    tree = subprocess.run([os.path.join(TOP, "tools/tree_for"), CPU], check=True, capture_output=True, text=True).stdout.strip()
    crate = os.path.join(tree, "crates/frame_times")
    subprocess.run(["rt", "run", "--cpu", CPU], cwd=crate, check=True, stdout=subprocess.DEVNULL, stderr=subprocess.DEVNULL)
    return os.path.join(crate, "out/frame_times")


def main():
    frames = sys.argv[2] if len(sys.argv) > 2 else "100000"
    program = build()
    print(f"for {CPU}")
    for block in BLOCKS:
        with tempfile.TemporaryDirectory(dir=sys.argv[1] if len(sys.argv) > 1 else None) as folder:
            said = subprocess.run([program, "gaps", str(block), frames], cwd=folder, check=True, capture_output=True, text=True).stdout
        print(f"blocks of {block}\n{said}", end="")


main()

#!/usr/bin/env python3
"""Draws docs/layers.svg from crates.txt: the crates of the product and of the laws in six groups, each group above those that it uses.

    python3 tools/layers.py [docs/layers.svg]

It takes Python alone. Drawn is what the programs, the library for C and the theorem need; crates of tests and those of the toolchain are
left out. An arrow leads from a group to one that it uses, and is left out where other arrows lead there by way of a third group. A crate
that is in no group or in two, and groups that use each other in a circle, are an error. The same crates.txt gives the same octets.
"""

import os
import sys

# Nothing is left in the checkout.
sys.dont_write_bytecode = True
from drawing import Page

TOP = os.path.dirname(os.path.dirname(os.path.realpath(__file__)))
ROOTS = ["macsecd", "macs_c", "macs_theorem"]
# The crates of each group, without `macs_`.
GROUPS = {
    "program, and the library for C": "macsecd program offline cli c",
    "edge": "control texts edge commands pcap",
    "endpoint, and the laws": "endpoint headline theorem",
    "channels": "txsc rxsc frame",
    "disk": "store journal record disk",
    "ciphers and configuration": "gcm planes ghash aes gf config fields",
}
# In pixels: a box, from row to row, between two boxes, and the margin.
WIDE, HIGH, ROW, GAP, MARGIN = 330, 58, 96, 24, 12


def reached(used, name, above=()):
    """All that is used from here on, by name."""
    if name in above:
        sys.exit(f"they use each other: {', '.join(above)}")
    return set(used[name]).union(*(reached(used, it, (*above, name)) for it in used[name]))


def crates():
    """What each crate that the roots need uses of the repository."""
    with open(os.path.join(TOP, "crates.txt")) as file:
        lines = [line.split(":") for line in file if not line.startswith("#")]
    used = {name.split()[0]: words.split() for name, words in lines}
    used = {name: [it for it in words if it in used] for name, words in used.items()}
    needed = set(ROOTS).union(*(reached(used, root) for root in ROOTS))
    return {name: words for name, words in used.items() if name in needed}


def groups(names):
    """The group of each crate."""
    group = {}
    for title, words in GROUPS.items():
        for word in words.split():
            name = word if word in ROOTS else f"macs_{word}"
            if name in group or name not in names:
                sys.exit(f"{name}: in two groups, or not needed")
            group[name] = title
    if missing := [name for name in names if name not in group]:
        sys.exit(f"in no group: {', '.join(missing)}")
    return group


def arrows(used, group):
    """The groups that each group uses, but for those that are reached by way of another one."""
    links = {title: set() for title in GROUPS}
    for name, words in used.items():
        links[group[name]].update(group[it] for it in words if group[it] != group[name])
    below = {title: reached(links, title) for title in GROUPS}
    return {title: [it for it in GROUPS if it in links[title] and not any(it in below[other] for other in links[title])] for title in GROUPS}


def height(links, title):
    return 1 + max((height(links, it) for it in links[title]), default=-1)


def rows(links):
    """The groups of each row, from above: each group is one row above the highest that it uses."""
    heights = {title: height(links, title) for title in GROUPS}
    return [[it for it in GROUPS if heights[it] == at] for at in range(max(heights.values()), -1, -1)]


def drawn(links):
    table = rows(links)
    wide = max(len(row) for row in table) * (WIDE + GAP) - GAP + 2 * MARGIN
    high = len(table) * ROW - (ROW - HIGH) + 2 * MARGIN
    left = {it: (wide - len(row) * (WIDE + GAP) + GAP) // 2 + i * (WIDE + GAP) for row in table for i, it in enumerate(row)}
    top = {it: MARGIN + at * ROW for at, row in enumerate(table) for it in row}
    page = Page("Six groups of crates, each above those that it uses", wide, high)
    for a, words in links.items():
        for b in words:
            page.arrow((left[a] + WIDE // 2, top[a] + HIGH), (left[b] + WIDE // 2, top[b]))
    for title, words in GROUPS.items():
        middle = left[title] + WIDE // 2
        page.box(left[title], top[title], WIDE, HIGH)
        page.text(middle, top[title] + 24, title, "name")
        page.text(middle, top[title] + 45, ", ".join(words.split()), "small")
    return page


def main():
    used = crates()
    drawn(arrows(used, groups(used))).write(sys.argv[1] if len(sys.argv) > 1 else os.path.join(TOP, "docs/layers.svg"))


main()

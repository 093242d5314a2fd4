#!/usr/bin/env python3
"""Counts the instructions of sealing a frame, part by part, and draws docs/parts.svg from them.

    python3 bench/parts.py [docs/parts.svg]

It proves and builds the crates for x86-64-v2 and for x86-64-v3, each in its tree (`tools/tree_for`), with a small program in C (`sealing.c`),
which seals a text once and 101 times under valgrind's callgrind: the difference is that of 100 calls. It takes gcc, binutils and valgrind. Frames
have the lengths of the other picture, keys have 128 bits, additional data 28 octets. What the C library does, copies and zeros, is not counted.
"""

import os
import re
import subprocess
import sys
import tempfile

TOP = os.path.dirname(os.path.dirname(os.path.realpath(__file__)))
LEVELS = ("x86-64-v2", "x86-64-v3")
LENGTHS = (64, 256, 1500, 9184)
# The octets of a frame that are not encrypted: two addresses.
ADDRESSES = 12
# Parts by the names of their functions, with their colours: a function belongs to the first that its name begins with.
PARTS = {
    "macs_planes::group": ("AES by groups of blocks", "#2171b5"),
    "macs_ghash::tables": ("GHASH: products", "#238b45"),
    "macs_ghash::filling": ("GHASH: tables", "#74c476"),
    "": ("counter blocks, round keys, input of GHASH", "#bdbdbd"),
}
# In pixels: the picture, its margin, the longest bar, where bars begin, and the width of one.
WIDE, HIGH, MARGIN, LONGEST, FLOOR, BAR = 960, 390, 20, 220, 320, 80


def run(*command, **options):
    return subprocess.run(command, check=True, capture_output=True, text=True, **options)


def program_for(level, folder):
    """The program that seals, with the calls of a level."""
    tree = run(os.path.join(TOP, "tools/tree_for"), level).stdout.strip()
    crate = os.path.join(tree, "crates/kernel_calls")
    run("rt", "lib", "--cpu", level, cwd=crate)
    program = os.path.join(folder, level)
    run("gcc", "-O2", "-Wall", "-o", program, os.path.join(TOP, "bench/sealing.c"), os.path.join(crate, "out/libkernel_calls.a"))
    return program


def instructions(program, octets, count, folder):
    """How many instructions each function of ours takes where a text is sealed so many times."""
    counted = os.path.join(folder, "counted")
    run("valgrind", "--tool=callgrind", f"--callgrind-out-file={counted}", program, str(octets - ADDRESSES), str(count))
    told = run("callgrind_annotate", "--threshold=100", counted).stdout
    found = re.findall(r"^ *([\d,]+) \(.*\) +\S+?:((?:macs_|kernel_)\S*)", told, re.M)
    return {name: int(number.replace(",", "")) for number, name in found}


def parts_of(program, octets, folder):
    """Instructions for one frame, by part."""
    once, often = (instructions(program, octets, count, folder) for count in (1, 101))
    parts = dict.fromkeys(PARTS, 0)
    for name, number in often.items():
        part = next(it for it in PARTS if name.startswith(it))
        parts[part] += (number - once.get(name, 0)) / 100
    return parts


def text(x, y, words, more=""):
    return f'<text x="{x:.1f}" y="{y:.1f}" {more}>{words}</text>'


def box(x, y, wide, high, colour):
    return f'<rect x="{x:.1f}" y="{y:.1f}" width="{wide:.1f}" height="{high:.1f}" fill="{colour}"/>'


def column(x, parts, most):
    """The bar of one level: its parts one above another."""
    lines, y = [], FLOOR
    for part, number in parts.items():
        high = LONGEST * number / most
        y -= high
        lines.append(box(x, y, BAR, high, PARTS[part][1]))
        if high > 14:
            lines.append(text(x + BAR / 2, y + high / 2 + 4, f"{number:,.0f}", 'text-anchor="middle" font-size="12"'))
    lines.append(text(x + BAR / 2, y - 6, f"{sum(parts.values()):,.0f}", 'text-anchor="middle" font-size="12" font-weight="bold"'))
    return lines


def legend():
    lines, x = [], MARGIN
    for words, colour in PARTS.values():
        lines += [box(x, HIGH - 30, 14, 14, colour), text(x + 20, HIGH - 18, words, 'font-size="12"')]
        x += 40 + 6.6 * len(words)
    return lines


def picture(figures):
    lines = [
        f'<svg xmlns="http://www.w3.org/2000/svg" viewBox="0 0 {WIDE} {HIGH}" font-family="sans-serif" font-size="14" fill="#222">',
        "<title>Instructions for sealing a frame, part by part</title>",
        box(0, 0, WIDE, HIGH, "#fff"),
        text(MARGIN, 30, "Sealing a frame under AES-128: instructions, part by part", 'font-size="18"'),
    ]
    wide = (WIDE - MARGIN) / len(LENGTHS)
    for at, octets in enumerate(LENGTHS):
        left = MARGIN + at * wide
        lines.append(text(left, 62, f"{octets:,} octets"))
        most = max(sum(figures[level][octets].values()) for level in LEVELS)
        for place, level in enumerate(LEVELS):
            x = left + place * (BAR + 12)
            lines += [*column(x, figures[level][octets], most), text(x, FLOOR + 18, level, 'font-size="12"')]
    return "\n".join([*lines, *legend(), "</svg>", ""])


def print_figures(figures):
    for level in LEVELS:
        for part, (words, _) in PARTS.items():
            print(f"{level} {words:44}", *(f"{figures[level][octets][part]:9.0f}" for octets in LENGTHS))


def main():
    with tempfile.TemporaryDirectory() as folder:
        programs = {level: program_for(level, folder) for level in LEVELS}
        figures = {level: {octets: parts_of(programs[level], octets, folder) for octets in LENGTHS} for level in LEVELS}
    print_figures(figures)
    with open(sys.argv[1] if len(sys.argv) > 1 else os.path.join(TOP, "docs/parts.svg"), "w", encoding="utf-8") as file:
        file.write(picture(figures))


main()

#!/usr/bin/env python3
"""Draws docs/sealing.svg from what `bench/run` printed: nanoseconds for sealing a frame, by this program, OpenSSL and nettle.

    bench/run 400 | tee run.txt
    python3 bench/sealing_picture.py run.txt [docs/sealing.svg]

It takes Python alone. Keys have 128 bits, and this program makes key stream ahead, as an endpoint does. OpenSSL and nettle went without
the processor's instructions for AES and for products of polynomials: these rows come first in what is printed. Each length of frames has
a scale of its own.
"""

import os
import re
import sys

TOP = os.path.dirname(os.path.dirname(os.path.realpath(__file__)))
LENGTHS = (64, 256, 1500, 9184)
# How a library is named in the figures of `bench/run`: its words in the picture, and its colour.
LIBRARIES = {
    "v2, ahead": ("macsecd, x86-64-v2", "#6baed6"),
    "v3, ahead": ("macsecd, x86-64-v3", "#2171b5"),
    "OpenSSL": ("OpenSSL", "#bdbdbd"),
    "nettle": ("nettle", "#636363"),
}
# In pixels: the picture, its margin, the longest bar, and where bars begin.
WIDE, HIGH, MARGIN, LONGEST, FLOOR = 960, 350, 20, 200, 300


def text(x, y, words, more=""):
    return f'<text x="{x:.1f}" y="{y:.1f}" {more}>{words}</text>'


def box(x, y, wide, high, colour):
    return f'<rect x="{x:.1f}" y="{y:.1f}" width="{wide:.1f}" height="{high:.1f}" fill="{colour}"/>'


def times(said):
    """Nanoseconds for a frame of each length, by library: the first row of each."""
    found = {}
    for name, numbers in re.findall(r"^seal +AES-128 +(\S+(?:, ahead)?)((?: +\d+){%d})  \|" % len(LENGTHS), said, re.M):
        found.setdefault(name, [int(it) for it in numbers.split()])
    return found


def panel(left, wide, octets, figures):
    """The bars for one length of frames."""
    lines = [text(left, 70, f"{octets:,} octets")]
    for place, (name, (_, colour)) in enumerate(LIBRARIES.items()):
        high = LONGEST * figures[name] / max(figures.values())
        x = left + place * (wide - MARGIN) / len(LIBRARIES)
        lines.append(box(x, FLOOR - high, 44, high, colour))
        lines.append(text(x + 22, FLOOR - 6 - high, f"{figures[name]:,}", 'text-anchor="middle" font-size="12"'))
    return lines


def legend():
    lines, x = [], MARGIN
    for words, colour in LIBRARIES.values():
        lines += [box(x, FLOOR + 20, 14, 14, colour), text(x + 20, FLOOR + 32, words)]
        x += 40 + 8 * len(words)
    return lines


def picture(figures):
    lines = [
        f'<svg xmlns="http://www.w3.org/2000/svg" viewBox="0 0 {WIDE} {HIGH}" font-family="sans-serif" font-size="14" fill="#222">',
        "<title>Nanoseconds for sealing a frame</title>",
        box(0, 0, WIDE, HIGH, "#fff"),
        text(MARGIN, 30, "Sealing a frame under AES-128: nanoseconds, without instructions for AES", 'font-size="18"'),
    ]
    wide = (WIDE - MARGIN) / len(LENGTHS)
    for at, octets in enumerate(LENGTHS):
        lines += panel(MARGIN + at * wide, wide, octets, {name: figures[name][at] for name in LIBRARIES})
    return "\n".join([*lines, *legend(), "</svg>", ""])


def main():
    if len(sys.argv) < 2:
        sys.exit(__doc__)
    with open(sys.argv[1], encoding="utf-8") as file:
        drawn = picture(times(file.read()))
    with open(sys.argv[2] if len(sys.argv) > 2 else os.path.join(TOP, "docs/sealing.svg"), "w", encoding="utf-8") as file:
        file.write(drawn)


main()

#!/usr/bin/env python3
"""Draws docs/link.svg, docs/rekeying.svg and docs/compaction.svg: the two ends of a link, a change of keys, and a compaction of the journal.

    python3 tools/pictures.py [FOLDER]

It takes Python alone, and draws what is written here: the same octets each time.
"""
import os
import sys

# Nothing is left in the checkout.
sys.dont_write_bytecode = True
from drawing import Page

TOP = os.path.dirname(os.path.dirname(os.path.realpath(__file__)))


def end_of_link(page, x, name):
    """One end: its relay, its keeper and disk file, and a client of its control socket."""
    page.box(x, 40, 280, 200, "empty")
    page.text(x + 140, 62, name, "name")
    page.box(x + 10, 80, 260, 60)
    page.text(x + 140, 115, "macsecd relay")
    for left, wide, words in ((10, 62, "keep"), (84, 110, "disk file"), (208, 62, "ask")):
        page.box(x + left, 182, wide, 44, "other")
        page.text(x + left + wide // 2, 209, words, "small")
    page.arrow((x + 41, 140), (x + 41, 182))
    page.text(x + 48, 166, "device calls", "small", "start")
    page.arrow((x + 72, 204), (x + 84, 204))
    page.arrow((x + 239, 182), (x + 239, 140))
    page.text(x + 232, 166, "control socket", "small", "end")


def link():
    page = Page("A link: plain frames at both ends, protected frames between them", 1100, 280)
    end_of_link(page, 210, "left end")
    end_of_link(page, 610, "right end")
    for begin, middle, end, words in ((104, 157, 220, "plain frames"), (480, 550, 620, "protected frames"), (880, 943, 996, "plain frames")):
        page.arrow((begin, 98), (end, 98))
        page.arrow((end, 122), (begin, 122))
        page.text(middle, 88, words, "small")
    for x in (20, 996):
        page.box(x, 80, 84, 60, "other")
        page.text(x + 42, 115, "host")
    page.text(550, 264, "The controlled socket of a relay faces its host, the common socket the other end. A keeper is optional.", "small")
    return page


# When each end of a link does each step of a change of keys.
LEFT, RIGHT, FIRST, LAST = (250, 460, 690), (320, 530, 760), 170, 900


def bars(page, y, name, receive, send, remove):
    """What one end sends and accepts over time."""
    page.text(16, y + 44, name, "name", "start")
    for at, what in enumerate(("sends", "accepts", "accepts")):
        page.text(FIRST - 10, y + 17 + 34 * at, what, "small", "end")
    rows = (((FIRST, send, "box", "AN 0"), (send, LAST, "other", "AN 1")), ((FIRST, remove, "box", "AN 0"),), ((receive, LAST, "other", "AN 1"),))
    for at, row in enumerate(rows):
        for begin, end, kind, words in row:
            page.box(begin, y + 34 * at, end - begin, 24, kind)
            page.text((begin + end) // 2, y + 17 + 34 * at, words, "small")


def rekeying():
    page = Page("A change of keys at both ends of a link, in three stages", 930, 330)
    for at, words in enumerate(("receive", "send", "remove")):
        middle = (LEFT[at] + RIGHT[at]) // 2
        page.text(middle, 28, f"{at + 1}. {words}", "name")
        for x in (LEFT[at], RIGHT[at]):
            page.cut(x, 38, 292)
    bars(page, 54, "left end", *LEFT)
    bars(page, 178, "right end", *RIGHT)
    page.arrow((FIRST, 292), (LAST, 292))
    page.text(FIRST, 316, "time; each stage is done at both ends before the next one, so what one end sends the other accepts", "small", "start")
    return page


# What a compaction from area 0 into area 1 has done after each of its steps. A slot is 'o' if its gate is open, 'c' if it is closed, '?' while
# its octets may be lost; 'n' has a new body and a closed gate, 'm' the same while it may be lost.
STEPS = [
    ("before", "ooooo", "ooocc", "o", "the old records"),
    ("close the gates there; sync", "ooooo", "ccccc", "c", "the old records"),
    ("write the new head and bodies", "ooooo", "mmmcc", "m", "the old records"),
    ("sync", "ooooo", "nnncc", "n", "the old records"),
    ("open the new head's gate", "ooooo", "nnncc", "?", "the old records or the new ones"),
    ("sync", "ooooo", "nnncc", "o", "the new records"),
]
KINDS = {"o": "box", "c": "empty", "n": "other", "m": "unsure", "?": "unsure"}


def cells(page, x, y, head, slots):
    """An area: its head, and its slots."""
    page.box(x, y, 44, 26, KINDS[head])
    page.text(x + 22, y + 18, "head", "small")
    for at, slot in enumerate(slots):
        page.box(x + 50 + 26 * at, y, 22, 26, KINDS[slot])


def compaction():
    page = Page("A compaction of the journal from one area into the other", 930, 350)
    for x, words in ((120, "step"), (330, "area 0"), (530, "area 1"), (775, "a power loss after it leaves")):
        page.text(x, 28, words, "name")
    for at, (words, old, new, head, found) in enumerate(STEPS):
        y = 44 + 42 * at
        page.text(16, y + 18, words, "small", "start")
        cells(page, 235, y, "o", old)
        cells(page, 435, y, head, new)
        page.text(660, y + 18, found, "small loss" if "or" in found.split() else "small", "start")
    legend = (("box", "open gate"), ("empty", "closed gate"), ("unsure", "may be lost or torn"), ("other", "new octets, durable, closed gate"))
    for at, (kind, words) in enumerate(legend):
        page.box(16 + 200 * at, 312, 22, 22, kind)
        page.text(46 + 200 * at, 328, words, "small", "start")
    return page


def main():
    folder = sys.argv[1] if len(sys.argv) > 1 else os.path.join(TOP, "docs")
    for name, drawn in (("link", link), ("rekeying", rekeying), ("compaction", compaction)):
        drawn().write(os.path.join(folder, f"{name}.svg"))


main()

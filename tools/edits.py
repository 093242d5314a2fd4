"""The edits of a crate: crates/NAME/wrong-bodies.edits, tested-bodies.edits and wrong-definitions.edits.

A line '== NAME' begins an edit, and a blank line ends it. Between them are lines 'file: PATH' (from the crate's folder), and for each file
pairs of lines 'old: TEXT' and 'new: TEXT'. A line 'more: TEXT' adds a line to the new text. A line that begins with '--' is a comment.
Edits are sorted by the file that they change, then by name.
"""
import os
import re


# What a line of an edit begins with.
LINES = ("file: ", "old: ", "new:", "more:", "--")


class Unfit(Exception):
    """An edit that cannot be applied, or that shows nothing."""


def edits_of(folder, kind, word=""):
    """The text of each edit of a kind whose name holds the word, by name."""
    path = f"{folder}/{kind}.edits"
    if not os.path.isfile(path):
        return {}
    with open(path, encoding="utf-8") as file:
        before, *parts = re.split(r"^== (.*)\n", file.read(), flags=re.M)
    names = parts[::2]
    twice = {it for it in names if names.count(it) > 1}
    strange = [it for text in parts[1::2] for it in text.split("\n") if it and not it.startswith(LINES)]
    if before or twice or strange:
        wrong = f"no line of an edit: {strange[0]}" if strange else "it does not begin with an edit"
        raise SystemExit(f"{path}: {f'it has two edits {twice.pop()}' if twice else wrong}")
    return {name: text.rstrip("\n") + "\n" for name, text in zip(names, parts[1::2]) if word in name}


def groups_of(edit):
    """The path of the file, from the crate, and the old and the new text of each group of an edit."""
    path, old, groups = "", "", []
    for line in edit.split("\n"):
        if line.startswith("file: "):
            path = line.removeprefix("file: ").strip()
        elif line.startswith("old: "):
            old = line.removeprefix("old: ")
        elif line.startswith("new:"):
            groups.append([path, old, line.removeprefix("new:").removeprefix(" ")])
        elif line.startswith("more:"):
            groups[-1][2] += "\n" + line.removeprefix("more:").removeprefix(" ")
    return groups


# What separates two words where a line is broken, also one of a comment; and two names of a `use`, which may be two.
SPACE = r"\s+(?:(?:--|///|//!|//)\s+)?"
NEXT_NAME = r"(?:,\s+|\};?\n(?:pub )?(?:ghost )?use [^{\n]*\{)"


def in_any_layout(text):
    """What finds a text however lines are broken: what is between brackets may have lines of its own, with a separator after the last."""
    found = []
    for part in re.split(r"(\s*[)\]}]|[(\[{]\s*|,\s+|\s+)", text.strip()):
        if part.isspace():
            found.append(SPACE)
        elif part.strip() == ",":
            found.append(f"(?:,{SPACE}|{NEXT_NAME})")
        elif part[-1:] and part[-1] in ")]}":
            found.append(r"[;,]?\s*" + part[-1].replace(")", r"\)").replace("]", r"\]").replace("}", r"\}"))
        elif part[:1] and part[0] in "([{":
            found.append(re.escape(part[0]) + r"\s*")
        else:
            found.append(re.escape(part))
    # What follows the last word is no part of it.
    return re.compile("".join(found).removesuffix(r"\s*"))


def replaced(text, old, new, path):
    """The text with `new` in place of `old`, which is in it once: word for word, or else in another layout."""
    if text.count(old) == 1:
        return text.replace(old, new)
    places = [*in_any_layout(old).finditer(text)]
    if len(places) != 1:
        raise Unfit(f"an old text is in {path} {len(places)} times, and not once: {old.strip()[:60]}")
    return text[: places[0].start()] + new.strip(" ") + text[places[0].end() :]


def apply(folder, groups):
    """Changes files below a folder: each group is a path, the old text and the new one."""
    for path, old, new in groups:
        with open(f"{folder}/{path}", encoding="utf-8") as file:
            text = file.read()
        with open(f"{folder}/{path}", "w", encoding="utf-8") as file:
            file.write(replaced(text, old, new, path))

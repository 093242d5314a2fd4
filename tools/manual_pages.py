#!/usr/bin/env python3
"""Makes the manual pages `macsecd.1` and `macsecd-link.5` from the program's own help and from the pages of docs, and `macsec.3` from macsec.h.

    python3 tools/manual_pages.py make PROGRAM FOLDER
    python3 tools/manual_pages.py check PROGRAM FOLDER
    python3 tools/manual_pages.py library

`make` writes both pages into FOLDER. `check` has them rendered (`mandoc`, or `groff` where that is not there) and looks for what has to be in
them: each line of each help, each subcommand, option and status, each heading of docs/OPERATIONS.md, each row of its tables of lines, and each
command and refusal of docs/MACSEC.md. It also looks for broken sentences: one that ends in two stops, as `..` or `?.`, one that begins with a
small letter, a `status:` of the help that is not one paragraph. It prints a line for each that is missing or broken, and ends with status 1
where there is one.

`check` reads the help and the documents by itself, and what has to be in the pages only as they are rendered. `library` prints `macsec.3`.
"""
import itertools
import os
import re
import shutil
import subprocess
import sys
import textwrap

# Nothing is left in the checkout.
sys.dont_write_bytecode = True
import help_texts
from help_texts import joined

TOP = os.path.dirname(os.path.dirname(os.path.abspath(__file__)))
PAGES = ("macsecd.1", "macsecd-link.5")


# What is read of the documents.

# A paragraph, or an item of a list, that begins so is of the repository's files, which are not installed.
OF_A_CHECKOUT = re.compile(r"^(?:\*\*In a checkout\*\*.*\n(?:.+\n)*\n*|- \*\*In a checkout\*\*.*\n(?:  .*\n)*)", re.M)


def installed(page):
    """A page as it is where the program is installed: without what is of a checkout, and with the program as it is called there."""
    return OF_A_CHECKOUT.sub("", page).replace("./macsecd ", "macsecd ")


def document(name):
    """A document without its pictures."""
    with open(f"{TOP}/{name}", encoding="utf-8") as text:
        return installed(re.sub(r"^!\[.*\n\n", "", text.read(), flags=re.M))


# The key in an example that is installed: no command takes it.
NO_KEY = "PUT-A-KEY-OF-macsecd-key-HERE"
KEYS_ARE_EXAMPLES = "The keys are examples: take random ones, and another one for each direction."
KEYS_ARE_MISSING = "Its keys are missing: each direction has one of `macsecd key`. `macsecd plan` writes such files."


def example(end):
    """The command file of an end, as it is installed: without its keys, which all can read."""
    text, count = re.subn(r'(?m)^key = "[0-9a-f]*"$', f'key = "{NO_KEY}"', document(f"examples/{end}.toml"))
    if count != 2:
        sys.exit(f"manual_pages.py: examples/{end}.toml has {count} keys")
    return text.replace(KEYS_ARE_EXAMPLES, KEYS_ARE_MISSING)


def section(name, heading):
    """What is below a heading of a document, up to the next one of its level or above."""
    level = heading.split()[0]
    lines = iter(document(name).splitlines())
    if heading not in lines:
        sys.exit(f"manual_pages.py: {name} has no heading '{heading}'")
    found, code = [], False
    for line in lines:
        code ^= line.startswith("```")
        if not code and re.match(r"#+ ", line) and len(line.split()[0]) <= len(level):
            break
        found.append(line)
    return "\n".join(found).strip("\n")


def sections(name):
    """The sections of a document, by their headings: each with what is below it, up to the next heading of the second level."""
    return {it: section(name, f"## {it}") for it in re.findall(r"^## (.*)$", document(name), re.M)}


def headings(text):
    """The headings in a text, without those in code."""
    return re.findall(r"^#+ (.*)$", re.sub(r"^```.*?^```", "", text, flags=re.M | re.S), re.M)


def cells(row):
    return [it.strip() for it in row.strip()[1:-1].split("|")]


def tables(text):
    """The tables of a text: the rows of each, its heading first."""
    for rows in re.finditer(r"^(\|.*)\n\|[-| :]*\n((?:\|.*(?:\n|$))*)", text, re.M):
        yield [cells(it) for it in [rows.group(1), *rows.group(2).splitlines()]]


def table(text):
    """The rows of the first table of a text, its heading first."""
    return next(tables(text))


# Markdown, as the documents have it, into roff.

def escaped(text):
    """Text as it is, for roff."""
    text = text.replace("\\", r"\e").replace("-", r"\-").replace("'", r"\(aq").replace("`", r"\(ga").replace("^", r"\(ha").replace("~", r"\(ti")
    return r"\&" + text if text.startswith((".", "'")) else text


def without_links(text):
    """A text with links as their words. One that is alone in brackets goes: it leads to another page."""
    return re.sub(r"\[([^]]*)\]\([^)]*\)", r"\1", re.sub(r"\s\(\[[^]]*\]\([^)]*\)\)", "", text))


def inline(text):
    """A line of running text: links without their targets, code and emphasis in bold."""
    text = without_links(text)
    parts = re.split(r"(`[^`]*`|\*\*)", text)
    bold, out = False, []
    for part in parts:
        if part == "**":
            bold = not bold
            out.append(r"\fB" if bold else r"\fR")
        elif part.startswith("`"):
            out.append(r"\fB" + escaped(part.strip("`")).removeprefix(r"\&") + (r"\fB" if bold else r"\fR"))
        else:
            out.append(escaped(part).removeprefix(r"\&"))
    line = "".join(out)
    return r"\&" + line if line.startswith((".", "'")) else line


def verbatim(lines):
    """Lines as they are, as far in as 80 columns leave room, up to where running text begins."""
    room = min(7, max(0, 79 - max(len(it) for it in lines)))
    return [".PP", f".in {room}n", ".nf", *(escaped(it) for it in lines), ".fi", ".in"]


def sentences_of(heading, row):
    """What a row says beside its first cell: a sentence for each other cell, under its heading from the third one on."""
    labels = [f"{it}: " for it in heading[1:]]
    if len(row) == 2 or heading[1] == "cause":
        labels[0] = ""
    if heading[0] == "order":
        labels = [f"{heading[2]} "]
        row = row[1:]
    return " ".join(closed(capital(label + cell)) for label, cell in zip(labels, row[1:]) if cell)


def tag_of(heading, row):
    if heading[0] == "order":
        return f"{row[0]} {row[1]}"
    return f"{heading[0]} {row[0]}" if heading[0].isupper() else row[0]


def row_of(heading, row):
    """A row of a table as a paragraph with a tag: the line that is printed, the refusal, or the first cell. Where that is empty it has the tag above."""
    mark = [".TP", inline(f"**{tag_of(heading, row).replace('`', '')}**")] if row[0] else [".IP"]
    return [*mark, inline(sentences_of(heading, row))]


def closed(text):
    return text if text.endswith((".", "?")) else f"{text}."


def capital(text):
    return text[:1].upper() + text[1:]


def blocks(text):
    """The blocks of a text: code, or lines up to a blank one."""
    block, code = [], False
    for line in [*text.splitlines(), ""]:
        if line.startswith("```"):
            code = not code
        if line or code:
            block.append(line)
        elif block:
            yield block
            block = []


def listed(block):
    """A list: each item begins with `- ` or `1. `, and goes on in lines that are indented."""
    for item in re.split(r"\n(?=- |\d+\. )", "\n".join(block)):
        mark, text = item.split(" ", 1)
        yield from [f".IP {mark if mark != '-' else chr(92) + '(bu'} 3", inline(joined(text))]


def roff_of(block):
    first = block[0]
    if first.startswith("```"):
        return verbatim(block[1:-1])
    if first.startswith("#"):
        return [".SS " + inline(first.lstrip("# "))]
    if first.startswith("|"):
        heading = cells(first)
        return [line for row in block[2:] for line in row_of(heading, cells(row))]
    if re.match(r"- |\d+\. ", first):
        return list(listed(block))
    return [".PP", inline(joined(" ".join(block)))]


def roff(text):
    return [line for block in blocks(text) for line in roff_of(block)]


def without(text, *starts):
    """The text without the blocks that begin so."""
    return "\n\n".join("\n".join(it) for it in blocks(text) if not it[0].startswith(starts))


# The pages.

def head(name, number, title, version):
    note = r'.\" Made by tools/manual_pages.py from the help of the program and from docs.'
    return [note, f'.TH {name} {number} "" "macsecd {version}" "{title}"', ".nh", ".ad l"]


EXAMPLES_ARE_THERE = "The folder `examples` is in `/usr/share/doc/macsecd`. Its command files have no keys, and are refused."

# How the lines of a help begin that are printed as they are.
AS_IT_IS = ("  ", "usage:", "example:")


def help_text(text):
    """A text of the help: running text as paragraphs; indented lines, the usage and an example as they are. `status:` may go on in an indented line."""
    text = re.sub(r"^(status: .*)\n +", r"\1\n", text, flags=re.M)
    for as_it_is, lines in itertools.groupby(text.splitlines(), key=lambda it: it.startswith(AS_IT_IS)):
        if as_it_is:
            yield from verbatim(textwrap.dedent("\n".join(lines)).splitlines())
        else:
            yield from paragraphs(lines)


def paragraphs(lines):
    """Lines of running text. A blank one begins a paragraph, and so does `status:`."""
    yield ".PP"
    for line in lines:
        if not line or line.startswith("status:"):
            yield ".PP"
        if line:
            yield escaped(line)


def synopsis(given):
    for it in given.subcommands:
        for usage in it.usage:
            yield from [".br", rf"\fBmacsecd\fR {escaped(usage.removeprefix('macsecd '))}"]


# The sections of OPERATIONS that macsecd-link(5) has, and those that neither page has, since the help is in them.
OF_A_LINK = ("Set up a link", "Keys")
OF_NO_PAGE = ("Subcommands",)
KEYS_ARE_THERE = "How a link is set up by hand, its command files, and how its keys are changed: see **macsecd-link**(5)."


def operations():
    """The sections of OPERATIONS that macsecd(1) has."""
    return {name: text for name, text in sections("docs/OPERATIONS.md").items() if name not in (*OF_A_LINK, *OF_NO_PAGE)}


def page_of_program(given):
    parts = [
        head("MACSECD", 1, "User Commands", given.version),
        [".SH NAME", r"macsecd \- a MACsec endpoint in user space that uses no packet number twice", ".SH SYNOPSIS", *list(synopsis(given))[1:]],
        [".SH DESCRIPTION", *roff(section("docs/PACKAGE.md", "## What it is")), *help_text(given.text)],
        [".SH SUBCOMMANDS", *roff(EXAMPLES_ARE_THERE)],
        *([f".SS {it.word}", *help_text(it.text)] for it in given.subcommands),
        [".SH EXIT STATUS"],
        *([".TP", rf"\fB{status}\fR", escaped(capital(closed(meaning)))] for status, meaning in given.statuses()),
        [".SH A LINK AS A SERVICE", *roff(section("docs/PACKAGE.md", "## A link as a service"))],
        [".SH KEYS", *roff(KEYS_ARE_THERE)],
        *([f".SH {inline(name.upper())}", *roff(text)] for name, text in operations().items()),
        [".SH INSTALLING, UPGRADING, REMOVING", *roff(section("docs/PACKAGE.md", "## Installing, upgrading, removing"))],
        [".SH FILES", *roff(section("docs/PACKAGE.md", "## Files"))],
        [".SH SEE ALSO", r"\fBmacsecd\-link\fR(5), \fBsystemd.service\fR(5), \fBip\-macsec\fR(8), \fBsocat\fR(1)"],
    ]
    return [line for part in parts for line in part]


CLAUSES = "Numbers in brackets are clauses of IEEE Std 802.1AE-2018."
FILES_OF_A_LINK = "A link file describes a link. `macsecd plan` makes command files of it, which `macsecd apply` gives to the endpoint of a disk file."


def page_of_link(given):
    apply = next(it for it in given.subcommands if it.word == "apply")
    examples = [[f".SS {end} end", *verbatim(example(end.lower()).splitlines())] for end in ("Left", "Right")]
    parts = [
        head("MACSECD-LINK", 5, "File Formats", given.version),
        [".SH NAME", r"macsecd\-link \- command files and the settings of a link of macsecd"],
        [".SH DESCRIPTION", *roff(FILES_OF_A_LINK), *help_text(apply.text)],
        [".SH COMMANDS", *roff(section("docs/MACSEC.md", "### Commands"))],
        [".SH CONFIGURATION", *roff(CLAUSES), *roff(section("docs/MACSEC.md", "## The configuration").split("\n### ")[0].replace(" (own)", ""))],
        *([f".SH {name.upper()}", *roff(sections("docs/OPERATIONS.md")[name])] for name in OF_A_LINK),
        [".SH SETTINGS OF A SERVICE", *roff(section("docs/PACKAGE.md", "## Settings of a service"))],
        [".SH EXAMPLES"], *examples,
        [".SH SEE ALSO", r"\fBmacsecd\fR(1), \fBsystemd.exec\fR(5)"],
    ]
    return [line for part in parts for line in part]


# The page of the library: include/macsec.h, its comments as running text.

HEADER = "include/macsec.h"
# What of the header no reader needs: guards, the last braces, and how the answers become an enum and a text.
NO_CODE = re.compile(r"^#(?!define MACS).*\n|^#define MACSEC_H\n|^#define MACS_ANSWER.*\n|^enum macs_answer \{\n(?:.*\n)*?\};\n|^#endif\n|^extern \"C\" \{\n|^\}\n", re.M)


def header_blocks():
    """The parts of the header, each a comment and the code after it."""
    text = document(HEADER).replace("#define MACS_ANSWERS(X)", "")
    text = re.sub(r"^static inline (.*?) \{\n.*?^\}\n", r"\1;\n", text, flags=re.M | re.S)
    for comment, code in re.findall(r"^/\* (.*?) ?\*/\n(.*?)(?=^/\*|\Z)", text, re.M | re.S):
        yield re.sub(r"^ \* ?", "", comment, flags=re.M), NO_CODE.sub("", code).strip("\n")


def comment_of(text):
    """A comment: its title, if it has one, becomes a heading; what is indented is an example or belongs to the list above it."""
    title, _, rest = text.partition("\n\n")
    if rest and not re.search(r"[.:;]", title):
        yield f".SH {title.upper()}"
        text = rest
    for block in re.split(r"\n\n", text):
        if block.startswith("    "):
            yield from verbatim(textwrap.dedent(block).splitlines())
        else:
            yield from roff(textwrap.dedent(block))


def answers_of(code):
    """The list of answers, each with its number and its words."""
    for name, number, words in re.findall(r'X\((\w+), (\d+), "([^"]*)"\)', code):
        yield from [".TP", inline(f"**{name}** {number}"), escaped(closed(capital(words)))]


def library_page(version):
    note = r'.\" Made by tools/manual_pages.py from include/macsec.h.'
    use = ["#include <macsec.h>", "", "cc PROGRAM.c $(pkg-config --cflags --libs macsec)"]
    lines = [note, f'.TH MACSEC 3 "" "macsec {version}" "Library Functions"', ".nh", ".ad l",
             ".SH NAME", r"macsec \- MACsec frames, and endpoints that use no packet number twice", ".SH SYNOPSIS", *verbatim(use)[1:], ".SH DESCRIPTION"]
    for comment, code in header_blocks():
        lines += comment_of(comment)
        listed_answers = list(answers_of(code))
        lines += listed_answers or (verbatim(code.splitlines()) if code else [])
    lines += [".SH SEE ALSO", r"\fBmacsecd\fR(1), \fBpkg\-config\fR(1)"]
    return "".join(f"{it}\n" for it in tidied(lines))


def tidied(lines):
    """The lines without a paragraph's mark beside another mark of that kind, or a heading."""
    out = []
    for line in lines:
        if line.startswith((".PP", ".SH", ".SS", ".TP", ".IP")) and out and out[-1] == ".PP":
            out.pop()
        if line != ".PP" or not out[-1].startswith((".SH", ".SS")):
            out.append(line)
    return out


def make(given, folder):
    os.makedirs(folder, exist_ok=True)
    for name, lines in zip(PAGES, (page_of_program(given), page_of_link(given))):
        with open(f"{folder}/{name}", "w", encoding="utf-8") as page:
            page.writelines(f"{it}\n" for it in tidied(lines))


# What has to be in them.

def rendered_lines(path):
    """The lines of a page as it is read, 900 columns wide: a `status:` is one."""
    words = ["mandoc", "-O", "width=900", "-T", "utf8"] if shutil.which("mandoc") else ["groff", "-man", "-Tutf8", "-Kutf8", "-rLL=900n"]
    text = subprocess.run([*words, path], capture_output=True, text=True, check=True).stdout
    text = re.sub("\x1b\\[[0-9;]*m|.\b", "", text)
    for written, meant in zip("‐−’‘•", "--''-"):
        text = text.replace(written, meant)
    return [joined(it) for it in text.splitlines()]


def plain(text):
    """A cell of a table as it is read."""
    return joined(without_links(text).replace("`", "").replace("**", ""))


def wanted_of_help(given):
    for text in given.texts():
        yield from ((f"a line of the help: {joined(it)}", joined(it)) for it in text.splitlines() if it.strip())
    for it in given.subcommands:
        yield f"the subcommand {it.word}", f"macsecd {it.word}" if it.word != "open" else "macsecd [open]"
        yield from ((f"the option {option.name} of {it.word}", f"{option.name} {option.value}".strip()) for option in it.options)
    yield from ((f"the option {it}", it) for it in [*given.common_options(), "-h"])
    yield from ((f"the status {status}", f" {status} {meaning}") for status, meaning in given.statuses())


def wanted_of_operations():
    """The headings of macsecd(1), and the rows of the tables of lines: each line with the first of what is said of it, and what is said more."""
    for name, text in operations().items():
        yield from ((f"the heading {it}", it) for it in [name.upper(), *headings(text)])
    for _, *rows in tables(sections("docs/OPERATIONS.md")["What is printed"]):
        line = ""
        for row in rows:
            line = row[0] or line
            yield f"the line {line}: {row[1]}", f"{plain(row[0])} {capital(plain(row[1]))}"
            yield from ((f"what to do of the line {line}: {it}", f"What to do: {plain(it)}") for it in row[2:] if it)
    shown = re.search(r"```text\n(.*?)```", section("docs/OPERATIONS.md", "### Results"), re.S).group(1)
    yield from ((f"a line of show: {joined(it)}", joined(it)) for it in shown.splitlines())
    yield from ((f"the option {it} of OPERATIONS", it) for it in sorted(set(re.findall(r"(?<![\w-])--[a-z]+", without(document("docs/OPERATIONS.md"), "```")))))


def wanted_of_keys():
    for name in OF_A_LINK:
        yield from ((f"the heading {it}", it) for it in [name.upper(), *headings(sections("docs/OPERATIONS.md")[name])])


def wanted_of_commands(given):
    commands = section("docs/MACSEC.md", "### Commands")
    first, second = re.split(r"\n\n(?=\| order)", commands)
    for command, effect, _ in table(first + "\n")[1:]:
        yield f"the command {command}", f"{plain(command)} Effect: {plain(effect)}"
    for order, refusal, where in table(second + "\n")[1:]:
        yield f"the refusal {refusal}", f"{order} {plain(refusal)} Holds where {plain(where)}"
    text = next(it for it in given.subcommands if it.word == "apply").text
    yield from ((f"a line of the help: {joined(it)}", joined(it)) for it in text.splitlines() if it.strip())


def is_in(words, text):
    """Whether a text has these words, and not as a part of longer ones."""
    return re.search(rf"(?<![\w-]){re.escape(words.strip())}(?![\w-])", text) is not None


def wanted(given):
    """What has to be in each page."""
    return [*wanted_of_help(given), *wanted_of_operations()], [*wanted_of_commands(given), *wanted_of_keys()]


def missing(given, folder):
    for name, its in zip(PAGES, wanted(given)):
        text = joined(" ".join(rendered_lines(f"{folder}/{name}")))
        yield from (f"{name}: {what}" for what, words in its if not is_in(words, text))


# Broken sentences.

def running_text(path):
    """The lines of running text of a page in roff: no code, no tags, no usages."""
    code = usages = tag = False
    for line in page_lines(path):
        if line.startswith("."):
            code = line == ".nf" or code and line != ".fi"
            usages = line == ".SH SYNOPSIS" or usages and not line.startswith(".SH")
            tag = line == ".TP"
        elif tag:
            tag = False
        elif not code and not usages:
            yield line


# Words that begin no sentence with a capital letter: names, and marks of the help.
SMALL = r"(?:status:|ext4|macsecd)"
# Two stops, or a stop after another mark. Between blanks two stops are a range.
TWO_STOPS = re.compile(r"\?\.|(?<=\S)\.\.|[,;:]\.")


def broken_sentences(path):
    """The sentences of a page that are none: what is wrong, and where. Code, which is bold, may have any stops, and follow one in any letter."""
    for line in running_text(path):
        read, without_code = re.sub(r"\\f.|\\&", "", line), re.sub(r"\\fB.*?\\f.", "CODE", line)
        if TWO_STOPS.search(without_code) or read.endswith(("..", "?.")):
            yield f"a sentence has two stops: {read}"
        yield from (f"a small letter after a stop: {it[0]}" for it in re.finditer(rf"(?<![.\s])[.?] (?!{SMALL})[a-z].{{0,40}}", line))


def broken_starts(path):
    """The paragraphs that begin with a small letter. One after code may, if the sentence began before it. An item of a list may where the list is a
    sentence: its items end in `;`."""
    in_list, lines = False, page_lines(path)
    for earlier, before, line in zip(["", *lines], lines, lines[1:]):
        begins = before.startswith((".SH", ".SS")) or before == ".PP" and earlier != ".in" or before.startswith(".IP") and not in_list or earlier == ".TP"
        if begins and re.match(rf"(?!{SMALL})[a-z]", line) and not line.endswith(";"):
            yield f"a paragraph begins with a small letter: {line}"
        in_list = line.endswith(";") or in_list and not line.startswith((".PP", ".SH", ".SS", ".TP"))


def page_lines(path):
    with open(path, encoding="utf-8") as lines:
        return lines.read().splitlines()


def cut_statuses(given, path):
    """The texts of the help whose `status:` is not one paragraph of a page."""
    shown = rendered_lines(path)
    for text in given.texts():
        status = joined(re.search(r"^status: .*(?:\n +.*)*", text, re.M)[0])
        if status not in shown:
            yield f"no paragraph is: {status}"


def broken(given, folder):
    for name in PAGES:
        path = f"{folder}/{name}"
        yield from (f"{name}: {it}" for it in [*broken_sentences(path), *broken_starts(path)])
    yield from (f"{PAGES[0]}: {it}" for it in cut_statuses(given, f"{folder}/{PAGES[0]}"))


def check(given, folder):
    absent, bad = list(missing(given, folder)), list(broken(given, folder))
    count = sum(len(it) for it in wanted(given))
    print(*(f"missing in {it}" for it in absent), *(f"broken in {it}" for it in bad), sep="\n", end="\n" if absent or bad else "")
    print(f"{count - len(absent)} there, {len(absent)} missing, {len(bad)} broken")
    return 1 if absent or bad else 0


def main():
    if sys.argv[1:] == ["library"]:
        sys.exit(print(library_page(re.search(r'MACSEC_VERSION "(.*)"', document(HEADER))[1]), end=""))
    if len(sys.argv) != 4 or sys.argv[1] not in ("make", "check"):
        sys.exit(__doc__)
    _, word, program, folder = sys.argv
    sys.exit({"make": make, "check": check}[word](help_texts.Help(os.path.abspath(program)), folder))


if __name__ == "__main__":
    main()

"""The program's own help, read: its subcommands, their operands and options, and the texts.

`tools/manual_pages.py`, `tools/completions.py` and `tools/try_completions` read it. Nothing of the program is written down here: what the
help has no word of is in no page and in no completion.
"""
import dataclasses
import re
import subprocess

# An option of a usage line: `[--block n]`, `[--over]`, `--turns n`. One in brackets may be left out.
OPTION = re.compile(r"(\[?)(--[a-z-]+)(?: ([A-Za-z]+))?\]?")


@dataclasses.dataclass(frozen=True)
class Option:
    name: str
    # How the help calls its value: empty where it takes none.
    value: str
    # The values that the help names as the only ones: none where it names a range.
    choices: tuple
    needed: bool


@dataclasses.dataclass(frozen=True)
class Form:
    """A line of a usage."""
    operands: tuple
    options: tuple


@dataclasses.dataclass(frozen=True)
class Subcommand:
    word: str
    # The lines of its usage, as they are printed, and what they say.
    usage: tuple
    forms: tuple
    # What the first help says of it, one line.
    summary: str
    # All that `macsecd WORD --help` prints.
    text: str

    @property
    def operands(self):
        return self.forms[0].operands

    def choices_at(self, place):
        """The words that the help has at a place among the operands, counted from 0, where it has words there and no names. `left|right` are two."""
        words = (it for form in self.forms if len(form.operands) > place for it in form.operands[place].split("|"))
        return tuple(dict.fromkeys(it for it in words if it.islower()))

    @property
    def options(self):
        """The options of all forms, each once."""
        return tuple({it.name: it for form in self.forms for it in form.options}.values())


def printed(program, *words):
    """What the program prints of these words, which it has to answer with status 0."""
    return subprocess.run([program, *words], stdin=subprocess.DEVNULL, capture_output=True, text=True, check=True).stdout


def joined(text):
    """The text with every run of blanks and line ends as one blank."""
    return " ".join(text.split())


def choices_of(option, text):
    """The values of an option where its line ends in `: A, or B`."""
    found = re.search(rf"^  {option} [A-Za-z]+ .*?:\s+(\w+), or (\w+)\b", joined_lists(text), re.M)
    return found.groups() if found else ()


def joined_lists(text):
    """The text with each line that only goes on with the one above it joined to that one."""
    return re.sub(r"\n {4,}", "  ", text)


def form(usage, text):
    """What a line of a usage says: `macsecd WORD OPERANDS.. OPTIONS..`, the word perhaps in brackets."""
    options = tuple(Option(name, value, choices_of(name, text), not bracket) for bracket, name, value in OPTION.findall(usage))
    return Form(tuple(OPTION.sub("", usage).split()[2:]), options)


def with_common(lines):
    """The lines of a usage. One that begins with `and` has options of all that come before it."""
    forms = []
    for line in lines:
        if line.startswith("and "):
            forms = [f"{it} {line.removeprefix('and ')}" for it in forms]
        else:
            forms.append(line)
    return tuple(forms)


def subcommand(program, word, summary):
    text = printed(program, word, "--help")
    usage = with_common(it.removeprefix("usage:").strip() for it in text.split("\n\n")[0].splitlines())
    return Subcommand(word, usage, tuple(form(it, text) for it in usage), summary, text)


def listed(text):
    """The words of the first help's list, each with its line: `  WORD OPERANDS..   summary`, the summary perhaps on the next line."""
    for row in re.findall(r"^  ([a-z].*)$", joined_lists(text), re.M):
        words, _, summary = row.partition("  ")
        yield words.split()[0], summary.strip()


class Help:
    """All of a program's help."""

    def __init__(self, program):
        self.text = printed(program, "--help")
        self.version = printed(program, "--version").split()[1]
        self.subcommands = [subcommand(program, word, summary) for word, summary in listed(self.text)]

    def texts(self):
        """The first help, and that of each subcommand."""
        return [self.text, *(it.text for it in self.subcommands)]

    def common_options(self):
        """The options that the first help names by themselves: `--help`, `--version`."""
        own = {option.name for it in self.subcommands for option in it.options}
        return sorted(set(re.findall(r"--[a-z]+", self.text)) - own)

    def statuses(self):
        """Each status of the first help with what it says of it: `('0', 'done')`."""
        line = next(it for it in self.text.splitlines() if it.startswith("status: "))
        return re.findall(r"(\d) ([^,]+(?:, [a-z][^,]*)*)", line.removeprefix("status: "))

"""Wrong bodies as copies of functions, many in one check.

A copy of the function stands beside it under another name, with a copy of its proof's answers. Nothing calls a copy, so no proof waits
for another one. For each function that has answers the same check has a copy that nothing changes: where that one is not proved, the
others show nothing. A function of a trait, or of an impl of one, can have no copy.
"""
import os
import re
import shutil
from typing import NamedTuple

import edits

FN = re.compile(r"^( *)(?:(?:pub(?:\([^)]*\))?|const|unsafe|ghost|default) )*(?:extern \"C\" )?fn (\w+)")
# A comment or an attribute before one.
BEFORE = re.compile(r" *(?://|#\[)")
BLOCK = re.compile(r"(?:pub )?(?:unsafe )?(?:impl|trait|mod)\b")
TYPE = re.compile(r"(?:unsafe )?impl(?:<.*?>)? (\w+)")
# What a check says of a function, of an error in the answers of one or in a lemma, and of a goal at which a search gave up; and the goals
# that a search left.
SAID = re.compile(r"^fn (\S+): (.*)$")
ANSWERS = re.compile(r"^(?:\./)?proofs/(\S+)/(?:Answers|Invariants|Proof)\.antt:\d+:\d+: error: (.*)$", re.M)
LEMMAS = re.compile(r"^(?:\./)?(proofs/\S+): error: (.*)$", re.M)
GAVE_UP = re.compile(r"^note: .*\(`([^`]+)`\); `search` gave up at one of its limits")
LEFT = re.compile(r"`search` did not prove ((?:`[^`]+`(?:, | and )?)+)")
# Errors of a name that is gone, and those that another error brings with it.
GONE = re.compile(r"has no field|is not in scope|has no `|is no name")
FOLLOWS = re.compile(r"\d+ declarations? that depends? on `")
# Where the front end finds an error.
FRONT = re.compile(r"^(?:(?:\./)?(src/\S+?):(\d+):\d+: error| *--> (?:\./)?(src/\S+?):(\d+):\d+)", re.M)
# How a wrong body falls, the surest first: at a goal that search left open, where an answer no longer fits, at a goal where search gave up,
# or by a gone name.
HOWS = ("clause", "answer", "search", "gone")


class Function(NamedTuple):
    """A function of a source file: its first line and the one after its last."""

    path: str
    first: int
    last: int
    name: str


def text_of(path):
    with open(path, encoding="utf-8") as file:
        return file.read()


def write(path, text):
    with open(path, "w", encoding="utf-8") as file:
        file.write(text)


def function_at(path, text, number):
    """The function of a file that has this line in it."""
    lines = text.split("\n")
    for first in range(number, -1, -1):
        found = FN.match(lines[first])
        if found:
            is_short = lines[first].endswith("}")
            last = first if is_short else next((at for at in range(first, len(lines)) if lines[at].rstrip() == f"{found[1]}}}"), -1)
            return Function(path, first, last + 1, found[2]) if number <= last else None
    return None


def functions_of(crate, edit):
    """The functions that an edit changes, or none where it changes anything else."""
    found = set()
    for path, old, _ in edits.groups_of(edit):
        text = text_of(f"{crate}/{path}")
        at = text.find(old) + len(old) - len(old.lstrip())
        if text.count(old) != 1:
            places = [*edits.in_any_layout(old).finditer(text)]
            if len(places) != 1:
                return set()
            at = places[0].start()
        function = function_at(path, text, text.count("\n", 0, at)) if path.startswith("src/") else None
        if not function:
            return set()
        found.add(function)
    return found


def module_of(path):
    """The module of a source file, as a check names it: empty for the crate's root."""
    return re.sub(r"(^|/)mod$|^lib$|^main$", "", path.removeprefix("src/").removesuffix(".rt")).replace("/", "::")


class Copy:
    """A copy of a function as an edit changes it, or without one as it is: its name and text, and the folders of its answers."""

    def __init__(self, crate, function, name, edit=""):
        self.crate, self.function, self.name = crate, function, name
        lines = text_of(f"{crate}/{function.path}").split("\n")
        block = next((it for it in lines[function.first :: -1] if BLOCK.match(it)), "") if lines[function.first].startswith(" ") else ""
        owner = TYPE.match(block)
        if block and (not owner or " for " in block):
            raise edits.Unfit("it is in a trait, an impl of one or a module")
        top = function.first
        while top and BEFORE.match(lines[top - 1]):
            top -= 1
        text = "\n".join(lines[top : function.last])
        for path, old, new in edits.groups_of(edit):
            text = edits.replaced(text, old, new, path)
        self.text = re.sub(rf"^(?! *//)(.*?\bfn ){function.name}\b", rf"\1{name}", text, count=1, flags=re.M)
        # All folders of its name, in case the answers are found in none that it should have.
        proofs = f"{crate}/proofs"
        self.named = [it[len(proofs) + 1 :] for it, _, _ in os.walk(proofs) if os.path.basename(it) == function.name]
        self.answers = self.folders(owner and owner[1])

    def folders(self, owner):
        """Those of its type, wherever the type is, or of its module."""
        module = module_of(self.function.path).replace("::", "/")
        end = f"/{owner}/{self.function.name}" if owner else f"/{module}/{self.function.name}".replace("//", "/")
        found = [it for it in self.named if f"/{it}" == end or owner and f"/{it}".endswith(end)]
        return [it for it in found if it.startswith(f"{module}/")] or found

    def lay_answers(self, room):
        """Copies the answers, which name their own folder."""
        for folder in self.answers:
            above = folder.removesuffix(self.function.name)
            dots = re.escape(above.replace("/", "."))
            names = re.compile(rf"(\bRattle\.\w+\.(?:proofs|specs\.contracts)\.{dots}){self.function.name}(?=\.)")
            copy = f"{room}/proofs/{above}{self.name}"
            shutil.copytree(f"{room}/proofs/{folder}", copy)
            for file in os.listdir(copy):
                write(f"{copy}/{file}", names.sub(rf"\g<1>{self.name}", text_of(f"{copy}/{file}")))


def lay(room, copies):
    """Puts copies beside their functions into a copy of their crate."""
    for path in {it.function.path for it in copies}:
        lines = text_of(f"{room}/{path}").split("\n")
        for it in sorted((it for it in copies if it.function.path == path), key=lambda it: -it.function.last):
            lines[it.function.last : it.function.last] = ["", *it.text.split("\n")]
        write(f"{room}/{path}", "\n".join(lines))
    for it in copies:
        it.lay_answers(room)


def blamed(room, said):
    """The names of the functions in which the front end found an error."""
    found = set()
    for at in FRONT.finditer(said):
        path, number = (at[1], at[2]) if at[1] else (at[3], at[4])
        function = function_at(path, text_of(f"{room}/{path}"), int(number) - 1)
        found.add(function.name if function else "")
    return found


def verdict_of(says, given_up, errors):
    """How a function fell, and at what; 'proved', or 'unclear' where its line does not say."""
    goals = LEFT.search(says)
    goals = re.findall(r"`([^`]+)`", goals[1]) if goals else []
    by = {
        "clause": [it for it in goals if it not in given_up],
        "answer": [it for it in errors if not GONE.search(it)],
        "search": goals,
        "gone": errors,
    }
    how = next((it for it in HOWS if by[it]), "")
    return (how, by[how][0][:200]) if how else ("proved" if says == "proved" else "unclear", says[:200])


def verdicts(said):
    """What a check says of each function: how it fell and at what."""
    found, given_up, errors = {}, set(), {}
    for path, error in ANSWERS.findall(said):
        if not FOLLOWS.search(error):
            errors.setdefault(path, []).append(error)
    for line in said.split("\n"):
        note, of = GAVE_UP.match(line), SAID.match(line)
        if note:
            given_up.add(note[1])
        if of:
            found[of[1]] = verdict_of(of[2], given_up, errors.get(of[1].partition("::")[2].replace("::", "/"), []))
            given_up = set()
    return found


def surest(found):
    """The surest of several verdicts by which a function fell: how, and at what of which function."""
    fallen = [(HOWS.index(how), f"{function}: {at}") for function, (how, at) in found.items() if how in HOWS]
    rank, at = min(fallen, default=(0, ""))
    return (HOWS[rank], at) if fallen else None


def lemmas(said):
    """How lemmas of the proofs fell, where no function did."""
    errors = [f"{at}: {error[:200]}" for at, error in LEMMAS.findall(said) if not FOLLOWS.search(error)]
    unfit = [it for it in errors if not GONE.search(it)]
    return ("answer", unfit[0]) if unfit else ("gone", errors[0]) if errors else None


def verdict_on(name, found):
    """What a check says of a function of this name and of what is within it."""
    mine = {it: of for it, of in found.items() if it.endswith(f"::{name}") or f"::fn::{name}::" in it}
    is_proved = mine and all(how == "proved" for how, _ in mine.values())
    return surest(mine) or ("proved" if is_proved else "unclear", "")

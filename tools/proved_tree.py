"""A tree of crates that `tools/tree_for` lays out, and what is proved in it, so that a check proves only what differs from that."""
import importlib.util
import os
import signal
import subprocess
import sys
import threading
from importlib.machinery import SourceFileLoader

TOP = os.path.dirname(os.path.dirname(os.path.realpath(__file__)))
LEVEL = "x86-64-v2"
# The calls that run, and whether all are to end.
RUNNING, STOPPED = set(), threading.Event()


def end(ran):
    """Ends a call and all that it started."""
    try:
        os.killpg(ran.pid, signal.SIGKILL)
    except ProcessLookupError:
        pass  # It has ended.


def stop_all():
    """Ends all calls, and each that would begin."""
    STOPPED.set()
    for it in list(RUNNING):
        end(it)


def run(words, folder):
    """The status of a call, what it said, and the processor seconds that it took."""
    how = {"stdin": subprocess.DEVNULL, "stdout": subprocess.PIPE, "stderr": subprocess.STDOUT, "text": True, "start_new_session": True}
    with subprocess.Popen(words, cwd=folder, **how) as ran:
        RUNNING.add(ran)
        if STOPPED.is_set():
            end(ran)
        said = ran.stdout.read()
        _, status, used = os.wait4(ran.pid, 0)
        ran.returncode = os.waitstatus_to_exitcode(status)
        RUNNING.discard(ran)
    if STOPPED.is_set():
        raise KeyboardInterrupt
    return ran.returncode, said, used.ru_utime + used.ru_stime


def errors_of(said):
    return "\n".join([it[:300] for it in said.split("\n") if "error" in it][:12]) or said[-600:]


def prove_crates():
    """The tool of that name as a module."""
    spec = importlib.util.spec_from_loader("prove_crates", SourceFileLoader("prove_crates", f"{TOP}/tools/prove_crates"))
    module = importlib.util.module_from_spec(spec)
    spec.loader.exec_module(module)
    return module


def lay_out(name):
    """A tree of that name with the present sources, beside those of `tools/tree_for`, where the gate does not look."""
    known = subprocess.run(["git", "rev-parse", "--absolute-git-dir"], cwd=TOP, check=True, capture_output=True, text=True)
    trees = f"{known.stdout.strip()}/trees"
    os.makedirs(trees, exist_ok=True)
    with open(f"{trees}/MODULE.bazel", "w", encoding="utf-8"):
        pass
    subprocess.run([f"{TOP}/tools/tree_for", LEVEL, f"{trees}/{name}"], check=True, stdout=subprocess.DEVNULL)
    return f"{trees}/{name}"


class Tree:
    """The crates of a tree. What is proved of one is kept in its folder, `out/incremental`, and its library in `out/rlib`."""

    def __init__(self, at):
        self.at, self.tool = at, prove_crates()
        self.named, self.kit = self.tool.listed(at), self.tool.kit()
        self.below = self.tool.with_all_below(self.named)

    def crate(self, name):
        return self.tool.Crate(self.at, name, self.named, self.below[name], self.kit)

    def words(self, verb, name, jobs=1, kept="incremental"):
        """The call of `rattle` for a crate, over what is kept of it."""
        return [*self.crate(name).words(verb, jobs), "--incremental", f"out/{kept}"]

    def check(self, name, folder, only=()):
        """Checks a copy of a crate, or only some of its functions and modules."""
        return run([*self.words("check", name), *[word for it in only for word in ("--only", it)]], folder)

    def build(self, name, jobs=1):
        """Proves a crate and builds its library with its proofs, unless that is there. Answers what was wrong, if anything."""
        crate = self.crate(name)
        sources = crate.sources(LEVEL)
        if self.tool.text_of(crate.built) == sources:
            return ""
        os.makedirs(f"{crate.folder}/out/rlib", exist_ok=True)
        status, said, _ = run([*self.words("build", name, jobs), "-o", crate.rlib(name)], crate.folder)
        if status == 0:
            with open(crate.built, "w", encoding="utf-8") as built:
                built.write(sources)
        return said if status else ""

    def prove(self, names):
        """Builds crates, lowest first, with as many processes as there are processors."""
        for it in self.named:
            wrong = it in names and self.build(it, os.cpu_count())
            if wrong:
                sys.exit(f"{it} is not proved, so nothing above it was tried:\n{errors_of(wrong)}")

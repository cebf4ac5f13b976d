"""The toolchain's own code, from the command `rt` on the PATH, for the parts of the gate that go by its rules."""

import hashlib
import importlib.machinery
import importlib.util
import os
import re
import shutil
import sys

sys.dont_write_bytecode = True
ONE_JOB = ["--jobs", "1"]


def load_rt():
    """Returns the code of the command rt."""
    file = shutil.which("rt")
    if not file:
        sys.exit("rt, the command of the Rattle toolchain, is not on the PATH")
    loader = importlib.machinery.SourceFileLoader("rt", os.path.realpath(file))
    made = importlib.util.module_from_spec(importlib.util.spec_from_loader("rt", loader))
    sys.modules["rt"] = made
    loader.exec_module(made)
    os.environ.pop(made.rtlib.ALLOW_C, None)
    # Its first call sets a signal's handler, which only the main thread may.
    made.rtlib.guarded()
    return made


def crates_in(rt, root):
    """Returns the crates of a repository, lowest first. It goes there, since rt reads crates.txt where it stands."""
    os.chdir(root)
    rt.rtlib.Crate = rt.Crate
    rt.Crate.allowed = rt.handles_of(root)
    return sorted(rt.rtlib.crates_below(root), key=lambda it: len(it.below()))


def copied(file, new):
    """Copies a file. A check replaces the file of a checked module and never writes into it, so a link serves there."""
    if file.endswith(".oantt"):
        try:
            return os.link(file, new)
        except OSError:
            pass
    return shutil.copy2(file, new)


def clone(folder, to):
    """Copies a folder of kept work."""
    shutil.copytree(folder, to, copy_function=copied)


def text_of(path):
    """Returns the text of a file, or nothing where it can't be read."""
    try:
        with open(path, encoding="utf-8") as it:
            return it.read()
    except OSError:
        return ""


class Built:
    """What `rt ci` left of each crate in its out/, for a kit whose own code keeps none of what it proved.

    A crate counts as proved once that run has said so (`mark`), of the files that it has now, and as long as nothing else
    was built in the place of what that run built."""

    def __init__(self, root):
        self.root, self.keys = root, {}

    def key(self, crate):
        """Returns the sum of all that the crate is proved from, those below it too. It is made once: nothing changes them meanwhile."""
        if crate not in self.keys:
            self.keys[crate] = crate.stamp()
        return self.keys[crate]

    def line_of(self, crate, key):
        """Returns what is written of a proved crate: its sum, and that of what was built of it. That is nothing while it is being built."""
        out = f"{self.root}/crates/{crate.name}/out"
        files = [f"{at}/{it}" for at, _, names in os.walk(f"{out}/rlib") for it in names]
        files += [f"{out}/{crate.name}"] if crate.is_program and os.path.isfile(f"{out}/{crate.name}") else []
        try:
            built = sorted((os.path.relpath(it, out), os.stat(it).st_size, os.stat(it).st_mtime_ns) for it in files)
        except FileNotFoundError:
            return ""
        return f"{key} {hashlib.sha256(repr(built).encode()).hexdigest()}\n" if built else ""

    def mark(self, crate):
        """Notes that `rt ci` has proved a crate."""
        line = self.line_of(crate, self.key(crate))
        if line:
            with open(f"{self.root}/crates/{crate.name}/out/proved", "w", encoding="utf-8") as it:
                it.write(line)

    def give(self, crate, _tests, key):
        """Puts what was built of a crate into its folder. Returns whether `rt ci` has proved it."""
        out = f"{self.root}/crates/{crate.name}/out"
        proved = text_of(f"{out}/proved")
        if not proved.startswith(f"{key} ") or proved != self.line_of(crate, key):
            return False
        if not crate.is_program:
            shutil.rmtree(f"{crate.folder}/out/rlib", ignore_errors=True)
            try:
                clone(f"{out}/rlib", f"{crate.folder}/out/rlib")
            except OSError:
                return False
        return True

    def is_built(self, crate):
        """Does nothing: what stands in a crate's out/ is taken as it is."""


def kept_of(rt, crates, root):
    """Returns what holds the crates that `rt ci` proved: the toolchain's own code, or what stands in for it in a kit without."""
    return rt.Kept(crates) if hasattr(rt, "Kept") else Built(root)


def verdict_on(rt, crate, edit):
    """Returns whether the toolchain's own check of an edit refuses it, whether only by a limit of the prover, and what it says. Some kits answer a word for
    what came of it, others no more than whether it was refused."""
    kind, text = rt.must_fail(crate, edit, ONE_JOB)
    if isinstance(kind, bool):
        return kind, False, text
    return kind == rt.REFUSED, kind == rt.AT_LIMIT, text


def refused_in(log):
    """Returns the functions that the prover itself refused in the log of a check, and the clauses that it named.

    A function that is only not proved because it calls such a one is left out."""
    said = re.findall(r"^fn (\S+): (?:not proved|no proof|could not tell)(: it calls)?", log, re.M)
    functions = {name for name, only_calls in said if not only_calls}
    return functions, {*re.findall(r"-clause-(\w+)", log)}


def refused_by_function(log):
    """Returns the functions that the prover itself refused in the log of a check, each with the clauses named for it: in its own line, in the notes before
    it, and in what is said of its proof files."""
    refused, before = {}, ""
    for line in log.split("\n"):
        found = re.match(r"fn (\S+): (not proved|no proof|could not tell)?(: it calls)?", line)
        if not found:
            before += line + "\n"
            continue
        if found[2] and not found[3]:
            refused[found[1]] = {*re.findall(r"-clause-(\w+)", before + line)}
        before = ""
    for function, clauses in refused.items():
        folder = "/".join(function.split("::")[1:])
        for line in re.findall(rf"^\./proofs/{re.escape(folder)}/.*", log, re.M):
            clauses |= {*re.findall(r"-clause-(\w+)", line)}
    return refused

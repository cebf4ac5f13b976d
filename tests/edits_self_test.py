#!/usr/bin/env python3
"""edits_self_test.py: whether tests/must_fail.py tells good edits from bad ones, and tries again just those that are due.

It tries edits of each sort on a small crate of its own, good and bad, and sees that each is told from the others, and that a
forged line of the record is found. Then it changes, one after another, what a refusal stands on and what it does not, and
sees which edits are due. The last line is 'N passed, M failed'.
"""

import contextlib
import io
import math
import os
import subprocess
import sys
import tempfile
import time
import types

import must_fail
import toolchain
import record
from toolchain import crates_in, load_rt

COMMIT = "0" * 40
SMALL = """//! A crate to try edits on.
#![tactic(auto)]
ghost use Rattle.std.specs.Prelude.{◌≡◌, ◌+◌, ◌<◌, IsSome, IfSome};

/// The number after this one, `None` at the greatest.
pub fn next(number: u8) -> Option<u8>
    ensures found { number < 255 → IsSome result }
    ensures value { IfSome result (λ found. found ≡ number + 1) }
{
    let step = 1;
    number.checked_add(step)
}

/// The number before this one, `None` at 0.
pub fn previous(number: u8) -> Option<u8>
    ensures value { IfSome result (λ found. found + 1 ≡ number) }
{
    let back = 1;
    number.checked_sub(back)
}
"""
# The edits of the small crate: what refuses it, the old text and the new one, and what must be said of it. Those of UNREAD
# can't even be read; of TRIED the prover is asked. There `adds_two` and `back_by_three` stand in one check, and
# `back_by_two` in one with `changes_nothing`, which has to be found out beside it. The record says that this one was refused.
UNREAD = {
    "has_no_such_text": ("refused by: next", "let step = 3;", "let step = 2;", "BAD EDIT"),
    "says_nothing_of_why": ("", "let step = 1;", "let step = 2;", "BAD EDIT"),
}
FORGED = "changes_nothing"
TRIED = {
    "adds_two": ("refused by: next, clause value", "let step = 1;", "let step = 2;", ""),
    "back_by_two": ("refused by: previous", "let back = 1;", "let back = 2;", ""),
    "back_by_three": ("refused by: previous", "let back = 1;", "let back = 3;", ""),
    FORGED: ("refused by: next", "let step = 1;", "let step = 2 - 1;", "forged or stale"),
    "does_not_compile": ("refused by: next", "let step = 1;", "let step = one;", "BAD EDIT"),
    "names_another_function": ("refused by: other", "let step = 1;", "let step = 2;", "ANOTHER REASON"),
    "names_another_clause": ("refused by: next, clause start", "let step = 1;", "let step = 2;", "ANOTHER REASON"),
}
# A repository of two crates, which no prover sees: `high` stands on `low`, and cites one of its two lemma files.
TWO = {
    "HANDLES": "Handles allowed: none.\n",
    "crates.txt": "low:\nhigh: low\n",
    "crates/low/README.md": "A crate.\n",
    "crates/low/src/lib.rt": "/// One.\npub fn one() -> u8\n    ensures { result ≡ 1 }\n{\n    1\n}\n#[cfg(test)]\nmod tests;\n",
    "crates/low/src/tests.rt": "#[test]\nfn is_one() {}\n",
    "crates/low/specs/Lib.antt": "pub mod Ones\n",
    "crates/low/specs/Ones.antt": "-- one\n",
    "crates/low/proofs/one/Answers.antt": "-- an answer\n",
    "crates/low/proofs/Cited.antt": "-- a lemma\n",
    "crates/low/proofs/Other.antt": "-- a lemma\n",
    "crates/high/src/lib.rt": "pub fn two() -> u8 {\n    let two = 2;\n    two\n}\n",
    "crates/high/proofs/two/Answers.antt": "use Rattle.low.proofs.Cited.{lemma}\n",
    "tests/edits/low/is_two.edit": "refused by: one\nfile: src/lib.rt\nold:     1\nnew:     2\n",
    "tests/edits/high/is_three.edit": "refused by: two\nfile: src/lib.rt\nold: let two = 2;\nnew: let two = 3;\n",
    "tests/edits/high/is_four.edit": "refused by: two\nfile: src/lib.rt\nold: let two = 2;\nnew: let two = 4;\n",
}
BOTH = ["high/is_four.edit", "high/is_three.edit"]
EVERY = [*BOTH, "low/is_two.edit"]
# What is changed: the file, the old and the new text, and which edits are due then.
CHANGES = [
    ("crates/low/README.md", "A crate", "No crate", []),
    ("crates/low/specs/Ones.antt", "one", "two", EVERY),
    ("crates/low/src/lib.rt", "result ≡ 1", "result ≡ 2", EVERY),
    ("crates/low/src/lib.rt", "    1\n", "    0 + 1\n", ["low/is_two.edit"]),
    ("crates/low/src/lib.rt", "/// One", "/// Two", ["low/is_two.edit"]),
    ("crates/low/src/tests.rt", "is_one", "is_two", []),
    ("crates/low/src/lib.rt", "mod tests;\n", "mod tests;\n#[cfg(test)]\nmod more;\n", ["low/is_two.edit"]),
    ("crates/low/proofs/one/Answers.antt", "an answer", "another", ["low/is_two.edit"]),
    ("crates/low/proofs/Cited.antt", "a lemma", "another", EVERY),
    ("crates/low/proofs/Other.antt", "a lemma", "another", ["low/is_two.edit"]),
    ("crates/high/proofs/two/Answers.antt", "lemma", "another", BOTH),
    ("crates/high/src/lib.rt", "u8 {", "u8  {", BOTH),
    ("crates.txt", "high: low", "high: low httparse", BOTH),
    ("HANDLES", "none", "Wait", EVERY),
    ("tests/edits/high/is_four.edit", "two = 4", "two = 5", ["high/is_four.edit"]),
]
# What the record may be (GOOD stands for its lines as they were, and LOW for that of the lower crate), what is then said of it, and which edits are due.
RECORDS = [
    (b"\xff\xfe\n", "it can't be read", EVERY),
    (b"<<<<<<< HEAD\nGOOD", "line 1 can't be read", EVERY),
    (b"GOOD>>>>>>> a/branch\n", "line 4 can't be read", EVERY),
    (b"high/is_three.edit\nLOW", "line 1 can't be read", BOTH),
    (b"high/is_three.edit %s\nhigh/is_four.edit %s\nLOW" % (b"0" * 32, b"0" * 32), "line 2 is out of order", BOTH),
    (b"high/a_gone.edit %s\nGOOD" % (b"0" * 32), "it names a_gone.edit, which is not there", BOTH),
    (b"gone/a_gone.edit %s\nGOOD" % (b"0" * 32), "", []),
]


def write(root, files):
    for path, text in files.items():
        os.makedirs(os.path.dirname(f"{root}/{path}"), exist_ok=True)
        with open(f"{root}/{path}", "wb") as it:
            it.write(text if isinstance(text, bytes) else text.encode())


def words_of(**given):
    """Returns what must_fail.py was asked for, when nothing but this was said."""
    asked = must_fail.read_words([])
    for name, value in given.items():
        setattr(asked, name, value)
    return asked


def choice_in(room, rt, root, toolchain="a toolchain", commit=COMMIT, **given):
    """Returns the crates of a repository, copied to this folder, and the choice of its edits."""
    asked = words_of(**given)
    must_fail.copy_repository(root, room, asked)
    crates = crates_in(rt, room)
    wanted = must_fail.Edits(rt, root, asked, crates).wanted
    sums = record.Sums(crates, toolchain, record.read(f"{room}/HANDLES"))
    return crates, must_fail.Choice(root, wanted, sums, asked, commit)


def chosen(*words, **given):
    """Returns the choice of the edits of a repository."""
    with tempfile.TemporaryDirectory() as room:
        return choice_in(room, *words, **given)[1]


def due_of(choice):
    """Returns the edits that are tried since they are due."""
    tried = {f"{crate.name}/{os.path.basename(it)}" for crate, edits in choice.tried.items() for it in edits}
    return sorted(tried - choice.drawn)


def keep(choice):
    """Notes each edit as refused."""
    for crate, sums in choice.sums.items():
        choice.note(crate, [*sums], [True] * len(sums))


def try_small(rt):
    """Tries the edits of the small crate. Yields what is wrong, or None, for each."""
    for edits in (UNREAD, TRIED):
        with tempfile.TemporaryDirectory(prefix="small-") as root:
            write(root, {"HANDLES": "Handles allowed: none.\n", "crates.txt": "small:\n", "crates/small/src/lib.rt": SMALL})
            for name, (why, old, new, _) in edits.items():
                write(root, {f"tests/edits/small/{name}.edit": f"{why}\nfile: src/lib.rt\nold: {old}\nnew: {new}\n"})
            if FORGED in edits:
                [sums] = chosen(rt, root, record.read(f"{rt.KIT}/KIT-ID")).sums.values()
                write(root, {record.PATH: f"small/{FORGED}.edit {sums[f'{FORGED}.edit']}\n"})
            _, said = must_fail.try_edits(rt, root, words_of(), COMMIT)
            kept = {os.path.basename(it)[: -len(".edit")] for it in record.Record(root).sums}
        for name, (_, _, _, word) in edits.items():
            of_it = [it for it in said if f"small/{name}.edit:" in it]
            is_told = len(of_it) == bool(word) and all(word in it for it in of_it)
            yield None if is_told else f"{name}: wanted is '{word}', and was said: {of_it}"
        if FORGED in edits:
            refused = {it for it, (_, _, _, word) in edits.items() if not word}
            yield None if kept == refused else f"the record names {sorted(kept)}"


def changed(rt):
    """Changes what refusals may stand on. Yields what is wrong, or None, for each."""
    with tempfile.TemporaryDirectory(prefix="two-") as root:
        write(root, TWO)
        first = chosen(rt, root)
        yield None if due_of(first) == EVERY else f"with no record are due: {due_of(first)}"
        keep(first)
        again = due_of(chosen(rt, root))
        yield None if not again else f"with nothing changed are due: {again}"
        other = due_of(chosen(rt, root, toolchain="another"))
        yield None if other == EVERY else f"with another toolchain are due: {other}"
        every = due_of(chosen(rt, root, all=True))
        yield None if every == EVERY else f"of all are tried: {every}"
        without = due_of(chosen(rt, root, commit=None))
        yield None if without == EVERY else f"with no commit are due: {without}"
        for path, old, new, wanted in CHANGES:
            was = record.read(f"{root}/{path}")
            write(root, {path: was.replace(old, new)})
            found = due_of(chosen(rt, root))
            write(root, {path: was})
            yield None if found == wanted and old in was else f"with '{new}' for '{old}' in {path} are due: {found}"


def faulty(rt):
    """Puts faulty records in place of a good one, and takes the commit away. Yields what is wrong, or None, for each."""
    with tempfile.TemporaryDirectory(prefix="two-") as root:
        write(root, TWO)
        keep(chosen(rt, root))
        good = record.read(f"{root}/{record.PATH}").encode()
        for text, word, due in RECORDS:
            write(root, {record.PATH: text.replace(b"GOOD", good).replace(b"LOW", good.splitlines(True)[-1])})
            said = io.StringIO()
            with contextlib.redirect_stdout(said):
                found = due_of(chosen(rt, root))
            lines = said.getvalue().splitlines()
            is_told = all(it.startswith(f"{record.PATH}: {word}") for it in lines) and len(lines) == len({it.partition("/")[0] for it in due})
            yield None if found == due and is_told else f"of the record {text} is said: {said.getvalue()}; due are {found}"
        said = io.StringIO()
        with contextlib.redirect_stdout(said):
            chosen(rt, root, commit=None)
        yield None if "no hash of a commit" in said.getvalue() else f"with no commit is said: {said.getvalue()}"


def draws(rt):
    """Yields what is wrong, or None, of what is drawn: one in twelve, each at some time, and the same of one commit."""
    names = [f"crate/{number}" for number in range(36)]
    of = {str(commit): record.drawn(names, str(commit)) for commit in range(400)}
    yield None if all(len(it) == 3 for it in of.values()) else "it draws not one in twelve"
    yield None if set().union(*of.values()) == set(names) else "it never draws some"
    yield None if record.drawn(names, "7") == of["7"] != of["8"] else "it is not the commit that draws"
    yield None if record.drawn(names[:1], "7") == {names[0]} else "of one edit it draws none"
    names = [f"{'small' if number < 30 else 'large'}/{number}" for number in range(330)]
    of = [record.drawn(names, str(commit)) for commit in range(600)]
    # Each is drawn 51 times where all are drawn alike.
    often = [sum(name in it for it in of) for name in names]
    yield None if min(often) > 25 and max(often) < 85 else f"it draws some {min(often)} times of 600, and others {max(often)}"
    crates = max(len({name.partition("/")[0] for name in it}) for it in of)
    bundles = max(len(it & set(names[30:])) for it in of), min(len(it) for it in of)
    yield None if crates == 2 and bundles == (28, 28) else f"it draws {bundles} of one crate"
    with tempfile.TemporaryDirectory(prefix="two-") as root:
        write(root, {**TWO, **{f"tests/edits/high/{number}.edit": TWO["tests/edits/high/is_four.edit"] for number in range(40)}})
        keep(chosen(rt, root))
        parts = [chosen(rt, root, all=True, part=(at, 3)).tried for at in range(3)]
        tried = [it for part in parts for edits in part.values() for it in edits]
        names = {os.path.basename(it) for it in tried}
        yield None if len(tried) == len(names) == 43 else f"three parts try {len(tried)} edits, {len(names)} of them once"
        choice = chosen(rt, root)
        tried = {f"{crate.name}/{os.path.basename(it)}" for crate, edits in choice.tried.items() for it in edits}
        yield None if len(choice.drawn) == 4 and tried == choice.drawn else f"of 43 edits it draws {len(choice.drawn)} and tries {len(tried)}"


class Ended:
    """An event that is set after so many looks at it."""

    def __init__(self, looks):
        self.left = looks

    def wait(self, _):
        time.sleep(0.05)
        self.left -= 1
        return self.left < 0

    def proved(self):
        return set()


def beside(rt):
    """Yields what is wrong, or None, of what is tried beside `rt ci`, which has proved these crates, and of what is left then."""
    for proved, wanted in ((set(), []), ({"low"}, ["low/is_two.edit"]), ({"low", "high"}, EVERY)):
        with tempfile.TemporaryDirectory(prefix="two-") as root, tempfile.TemporaryDirectory() as room:
            write(root, TWO)
            crates, choice = choice_in(room, rt, root)
            trial, tried = must_fail.Trial(rt, room, crates, choice), []
            give = lambda crate, tests, key, proved=proved: crate.name in proved
            trial.kept = types.SimpleNamespace(give=give, key=lambda crate: "", is_built=lambda crate: None)
            trial.attempt_all = lambda crate, edits, given, tried=tried: tried.extend(f"{crate.name}/{os.path.basename(it)}" for it in edits)
            trial.try_beside(Ended(8))
            left = sorted(f"{key[0]}/{os.path.basename(it)}" for key in trial.tasks() if key[1] == "edits" for it in key[2:])
            is_right = sorted(tried) == wanted and left == sorted({*EVERY} - {*wanted})
            yield None if is_right else f"beside a run that proved {sorted(proved)} are tried {tried}, and then {left}"


def limited(rt):
    """Yields what is wrong, or None, of edits whose time is over before a group of them is begun, or while that is tried: what was not tried is left, and due."""
    for until, wanted in ((math.inf, (3, 0)), (0, (0, 3))):
        with tempfile.TemporaryDirectory(prefix="two-") as root, tempfile.TemporaryDirectory() as room:
            write(root, TWO)
            crates, choice = choice_in(room, rt, root)
            trial = must_fail.Trial(rt, room, crates, choice)
            trial.until, trial.cleared, trial.attempt = until, lambda crate, edits: [], lambda crate, edit: (True, "")
            given = {(it.name, "proof"): True for it in crates}
            found = [it for crate in crates for edits in trial.groups()[crate] for it in trial.attempt_all(crate, edits, given)]
            is_right = (len(found), trial.left) == wanted and len(choice.record.sums) == wanted[0]
            yield None if is_right else f"of three edits {found} are tried, {trial.left} are left, and the record has {sorted(choice.record.sums)}"


def grouped():
    """Yields what is wrong, or None, of the groups in which a repository's edits are tried: each edit is in one, which has one at most of each function, and
    no more than may be tried at once."""
    folder = f"{must_fail.TOP}/tests/edits"
    for name in sorted(it for it in os.listdir(folder) if os.path.isdir(f"{folder}/{it}")):
        crate = f"{must_fail.TOP}/crates/{name}"
        edits = sorted(f"{folder}/{name}/{it}" for it in os.listdir(f"{folder}/{name}") if it.endswith(".edit"))
        groups = must_fail.groups_of(edits, crate)
        functions = [[must_fail.promised(it)[0].split("::")[-2:] for it in group] for group in groups]
        is_right = sorted(sum(groups, [])) == edits and all(len(it) <= must_fail.AT_ONCE for it in groups)
        is_right &= all(own.count(it) == 1 for own in functions for it in own)
        yield None if is_right else f"the groups of {name} are {groups}"


def halved():
    """Yields what is wrong, or None, of what is told apart in a group of which one edit spoils each check that it is in: all but that one and its neighbour."""
    for many in (2, 3, 16):
        names, checks = [str(it) for it in range(many)], []
        trial = types.SimpleNamespace(refused=lambda crate, edits, texts, checks=checks: checks.append(edits) or ([] if "1" in edits else edits))
        trial.cleared = lambda crate, edits, trial=trial: must_fail.Trial.cleared(trial, crate, edits)
        texts_of, must_fail.texts_of = must_fail.texts_of, lambda edits, folder: {}
        clear = trial.cleared(types.SimpleNamespace(folder=""), names)
        must_fail.texts_of = texts_of
        is_right = clear == ([*names[2:]] if many > 3 else []) and len(checks) < 8
        yield None if is_right else f"of {many} edits, one of which spoils each check, {clear} are clear after {len(checks)} checks"


# A run beside another one, which says whether it was told within half a second that the other one has ended.
TOLD = "import must_fail; told = must_fail.Told(); print(told.wait(0.5), sorted(told.proved()))"


def told():
    """Yields what is wrong, or None, of what a run beside another one is told: the crates that are named while its input is open, and it ends well then too,
    and the end once its input has ended."""
    tests = os.path.dirname(os.path.realpath(__file__))
    for names, ends, wanted in (("", False, "False []\n"), ("low\nhigh\nmi", False, "False ['high', 'low']\n"), ("low\n", True, "True ['low']\n")):
        how = {"cwd": tests, "stdin": subprocess.PIPE, "stdout": subprocess.PIPE, "stderr": subprocess.STDOUT, "text": True}
        with subprocess.Popen([sys.executable, "-c", TOLD], **how) as ran:
            ran.stdin.write(names)
            ran.stdin.flush()
            if ends:
                ran.stdin.close()
            said, status = ran.stdout.read(), ran.wait()
        yield None if (status, said) == (0, wanted) else f"of the input {names!r} a run has the status {status}, and says {said!r}"


class Lasting:
    """A crate whose sum is this."""

    def __init__(self, root, name, is_program, key):
        self.folder, self.name, self.is_program, self.key = f"{root}/copy/{name}", name, is_program, key

    def stamp(self):
        return self.key


def built():
    """Yields what is wrong, or None, of what is taken as proved where the toolchain keeps nothing: what `rt ci` was said to have proved, as it was then."""
    with tempfile.TemporaryDirectory(prefix="built-") as root:
        for name, path in (("low", "rlib/low.rlib/a"), ("app", "app")):
            crate, other = (Lasting(root, name, name == "app", key) for key in ("one", "another"))
            kept, made = toolchain.Built(root), f"{root}/crates/{name}/out/{path}"
            gives = [kept.give(crate, False, kept.key(crate))]
            kept.mark(crate)
            gives += [kept.give(crate, False, kept.key(crate))]
            write(root, {f"crates/{name}/out/{path}": "made"})
            gives += [kept.give(crate, False, kept.key(crate))]
            kept.mark(crate)
            gives += [kept.give(crate, False, kept.key(it)) for it in (crate, other)]
            is_copied = crate.is_program or record.read(f"{crate.folder}/out/{path}") == "made"
            os.utime(made, (1, 1))
            gives += [kept.give(crate, False, kept.key(crate))]
            kept.mark(crate)
            gives += [kept.give(crate, False, kept.key(crate))]
            # A file that is gone once it is looked at, as while a crate is built.
            os.makedirs(f"{root}/crates/{name}/out/rlib", exist_ok=True)
            os.symlink("gone", f"{root}/crates/{name}/out/rlib/going")
            gives += [kept.give(crate, False, kept.key(crate))]
            kept.mark(crate)
            gives += [kept.give(crate, False, kept.key(crate))]
            is_right = is_copied and gives == [False, False, False, True, False, False, True, False, False]
            yield None if is_right else f"of what was built of {name} is given: {gives}"


# A part in the place of `rt ci`, which says these lines and then its sum; and one beside it, which says what it was told, or has ended before it is.
CI = "import time; print('rt: low proved\\nrt: high proved\\nrt: low: its tests are proved', flush=True); time.sleep(0.3); print('2 passed, 0 failed')"
HEARS = "import must_fail; told = must_fail.Told(); told.wait(9); print('edits: heard', *sorted(told.proved())); print('3 passed, 0 failed')"
ENDS = "print('edits: none'); print('3 passed, 0 failed')"
FAILS = "print('edits: heard'); raise SystemExit(1)"
# The whole gate of the first part, the one in the place of `rt ci` and the one beside it.
GATE = """import gate, sys, tempfile
tempfile.tempdir, gate.chain.LOG, gate.CI = sys.argv[1], sys.argv[1] + "/checks", [sys.executable, "-c", sys.argv[2]]
first = [sys.executable, "-c", "print('1 passed, 0 failed')"]
gate.PARTS = [("first", first), ("rt ci", gate.CI), ("edits", [sys.executable, "-c", sys.argv[3]])]
sys.exit(gate.main())
"""


def gate():
    """Yields what is wrong, or None, of the gate itself: it tells the part beside `rt ci` which crates are proved, and sums all parts."""
    tests = os.path.dirname(os.path.realpath(__file__))
    rows = ((HEARS, 0, "7 passed, 0 failed", "edits: heard high low"), (ENDS, 0, "7 passed, 0 failed", "edits: none"), (FAILS, 1, "4 passed, 1 failed", "edits: heard"))
    for part, status, last, noted in rows:
        with tempfile.TemporaryDirectory(prefix="gate-") as root:
            env = {**os.environ, "PYTHONPATH": tests}
            ran = subprocess.run([sys.executable, "-c", GATE, root, CI, part], env=env, capture_output=True, text=True, check=False)
        said = ran.stdout.rstrip("\n").split("\n")
        is_right = ran.returncode == status and said[-2:] == [noted, last]
        yield None if is_right else f"a gate of parts of its own has the status {ran.returncode}, and ends with {said[-4:]} {ran.stderr[-300:]}"


def lines():
    """Yields what is wrong, or None, of what a line of the record holds: the sums of the last two refusals, newest first."""
    with tempfile.TemporaryDirectory(prefix="lines-") as root:
        write(root, {record.PATH: ""})
        kept = record.Record(root)
        for new in "abbca":
            kept.note("high/is_three.edit", new * 32)
        kept.write()
        found = record.Record(root).sums
        yield None if found == {"high/is_three.edit": ["a" * 32, "c" * 32]} else f"of five refusals the record holds {found}"


def main():
    rt = load_rt()
    found = [*changed(rt), *faulty(rt), *draws(rt), *beside(rt), *limited(rt), *grouped(), *halved(), *told(), *built(), *gate(), *lines(), *try_small(rt)]
    failed = [it for it in found if it]
    for it in failed:
        print(f"FAILED: self-test: {it}")
    print(f"{len(found) - len(failed)} passed, {len(failed)} failed")
    return 1 if failed else 0


if __name__ == "__main__":
    sys.exit(main())

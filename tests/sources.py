#!/usr/bin/env python3
"""sources.py [--self-test]: what no clause can see, held by the text of the sources.

- Want of memory is said only where a growth was refused: no crate builds an `AllocError` itself, but for the two places
  that docs/DECISIONS.md names, where no memory could hold so much, and where a push that was refused answers otherwise.
- Want of memory is said (`NoMemory`) only right after something was refused, but for the places named here.
- Nothing is kept from being let go: no `forget`, `leak` or `ManuallyDrop`, but for the place named here.
- A call that has no answer for want of memory takes none: it contains no `with_capacity`, `reserve` or `shrink`.
- No answer of a call is thrown away, but for what is written on standard error.
- docs/DECISIONS.md names only tests, edits and files that are there.
- Each edit of tests/faults still fits its source.
- The private words of a crate, those of its `specs/private`, are used by no other crate, and by none of its other definitions.

Of the sources, tests are left out. With --self-test it reads small texts of its own, each with one such fault and one without.
The last line is 'N passed, M failed', where a file, or a text of the self-test, is one.
"""

import glob
import os
import re
import sys

TOP = os.path.dirname(os.path.dirname(os.path.realpath(__file__)))
# Where an `AllocError` is built: with no growth refused, for a number of bytes or places that no `usize` says; where a push was
# refused, whose error is the element; where a library says so by a variant of its own, which has no value; and, in `held.rt`, the
# one place where it is the type of a variant's field.
BUILDS = {"crates/asgi_apps/src/mounts.rt": 1, "crates/asgi_pipes/src/plain.rt": 1, "crates/asgi_pipes/src/rings.rt": 1, "crates/asgi_reactor/src/held.rt": 1, "crates/asgi_response/src/append.rt": 1, "crates/asgi_routes/src/error.rt": 1}
# Where an answer is thrown away: what can't be written on standard error can be told nowhere.
THROWS = {"crates/asgi_command/src/telling.rt": 1, "crates/asgi_log/src/journal.rt": 3}
# Where something is kept for good: what the thread of a log shares with all that log, until the program ends.
LEAKS = {"crates/asgi_log/src/starting.rt": 1}
# Where want of memory is said and no refusal stands right before it: in a function that is called where one was, and in the
# record of a call that is made before its result is known.
SAYS = {"crates/asgi_crew/src/sharing.rt": 1, "crates/asgi_ws/src/calls.rt": 1}
# What stands right before want of memory: the arm of an error or of another want, the `else` of what was asked, or a test of it.
REFUSED = [
    re.compile(r"(?:\bErr\([^()]*(?:\([^()]*\))?\)|NoMemory(?:\([^()]*\))?) =>[^,;]*$"),
    re.compile(r"\blet (?:Ok|Some)\([^;]*\belse \{[^;{}]*$"),
    re.compile(r"(?:\.is_err\(\)|\bif let Err\([^;]*) \{[^;{}]*$"),
]
# A value of the type: not where it is brought in, nor the end of a type's arguments, nor the field that an error keeps, nor a parameter that is not read.
BUILT = re.compile(r"(?<!\] )(?<!_: )\bAllocError\b(?!>)")
GROWS = re.compile(r"\b(with_capacity|reserve|reserve_exact|shrink_to|shrink_to_fit)\s*\(")
CLAUSE = re.compile(r"\b(ensures|requires|ghost|measure)\b")


# Edits of tests/faults, each with a word of what is wrong with it.
UNFIT = [
    ("fails: test_a\nfile: tests/run\nold: #!/\nnew: #\n", None),
    ("fails: clients.py test_a\nfile: tests/run\nold: #!/\nnew: #\n", None),
    ("fails: test_a\nfile: tests/run\nold: #!/\nwhat stands nowhere behind it\nnew: #\n", "0 times"),
    ("fails: test_a\nfile: tests/run\nold: what stands nowhere in it\nnew: x\n", "0 times"),
    ("fails: test_a\nfile: tests/none\nold: x\nnew: y\n", "tests/none: "),
    ("file: tests/run\nold: x\nnew: y\n", "form"),
]


def code_of(text):
    """Returns the text without comments, with its strings empty, and without the tests at its end."""
    text = re.sub(r'b?"(?:[^"\\]|\\.)*"', '""', re.sub(r"//[^\n]*", "", text))
    return re.split(r"#\[cfg\(test\)\]", text)[0]


def end_of(code, at):
    """Returns the place after the brace that closes the one at this place."""
    depth = 0
    for place in range(at, len(code)):
        depth += (code[place] == "{") - (code[place] == "}")
        if not depth:
            return place + 1
    return len(code)


def functions_in(code):
    """Yields each function's name, what its signature answers, and its body."""
    for found in re.finditer(r"\bfn (\w+)", code):
        at, answer = found.end(), None
        while at < len(code):
            brace = re.compile(r"[{;]").search(code, at)
            if not brace:
                break
            head = code[at : brace.start()]
            answer = head if answer is None else answer
            if brace[0] == ";":
                break
            end = end_of(code, brace.start())
            if not CLAUSE.search(head):
                yield found[1], answer, code[brace.start() : end]
                break
            at = end


def wants(body):
    """Returns how often a body says want of memory where no refusal stands right before it. Patterns are left out."""
    said = [it for it in re.finditer(r"\b\w+::NoMemory\b(?:\([^()]*\))?", body) if not re.match(r"\)*\s*(?:=>|\|[^|])", body[it.end() :])]
    return sum(not any(it.search(body[: found.start()]) for it in REFUSED) for found in said)


def faults_of(path, text):
    """Returns what is wrong with the text of a source."""
    code, faults = code_of(text), []
    built = BUILT.findall(re.sub(r"\buse [^;]*;", "", code))
    if len(built) != BUILDS.get(path, 0):
        faults.append(f"it builds an AllocError {len(built)} times: that is for a growth that was refused")
    kept = re.findall(r"\b(?:mem::forget|forget|leak|ManuallyDrop)\b", code)
    faults += [f"it has {it}" for it in kept[LEAKS.get(path, 0) :]]
    if len(kept) < LEAKS.get(path, 0):
        faults.append("it keeps less for good than is named here")
    for name, answer, body in functions_in(code):
        if "Result<" not in answer:
            faults += [f"{name} has no answer for want of memory, and calls {it}" for it in GROWS.findall(body)]
    said = sum(wants(body) for name, _, body in functions_in(code) if name != "from")
    if said != SAYS.get(path, 0):
        faults.append(f"it says want of memory {said} times where nothing was refused")
    thrown = re.findall(r"\blet _ = [^;(]*\(|\.ok\(\);", code)
    if len(thrown) != THROWS.get(path, 0):
        faults.append(f"it throws {len(thrown)} answers away")
    return faults


GOOD = """
use std::alloc::{AllocError, Global};
/// `AllocError` where memory is refused.
pub fn grow(held: &mut Vec<u8>) -> Result<(), AllocError>
    ensures ok { OnOk result (held.new.items ≡ held.old.items) }
{
    held.reserve(1)?;
    Ok(())
}
fn count(held: &Vec<u8>) -> usize {
    held.len()
}
fn end(held: &mut Vec<u8>) -> Outcome {
    let Ok(()) = grow(held) else {
        return Outcome::NoMemory;
    };
    match grow(held) {
        Ok(()) => Outcome::Finished,
        Err(_) => Outcome::NoMemory,
    }
}
"""
# Each fault: what the text of GOOD has, what stands in its place, and a word of what must be said.
BAD = [
    ("held.reserve(1)?;", "return Err(AllocError);", "builds an AllocError"),
    ("held.reserve(1)?;", "held.reserve(1).map_err(|_| AllocError)?;", "builds an AllocError"),
    ("held.len()", "mem::forget(held)", "forget"),
    ("held.len()", "held.leak().len()", "leak"),
    ("held.len()", "held.reserve(9).is_ok() as usize", "count has no answer"),
    ("held.len()", "held.shrink_to_fit()", "count has no answer"),
    ("held.reserve(1)?;", "let _ = held.reserve(1);", "throws"),
    ("held.reserve(1)?;", "held.reserve(1).ok();", "throws"),
    ("Outcome::Finished,", "Outcome::NoMemory,", "says want of memory 1"),
    ("held.len()", "if held.len() > 9 { return Outcome::NoMemory; } 0", "says want of memory 1"),
]


def private_uses(path, text):
    """Returns the private words that a file of a crate may not use: another crate's, or its own in a definition that is not private."""
    crate = path.split("/")[1]
    is_public = "/specs/" in path and "/specs/private/" not in path
    return [f"{it[0]} is private" for it in re.finditer(r"\bRattle\.(\w+)\.specs\.private\.\w+", text) if it[1] != crate or is_public]


# A use that does not say by its first words what it reads of one of our crates. What reads uses as text (here and in record.py) would pass it over.
HIDDEN = re.compile(
    r"\bRattle\.\{[^}\n]*|\bRattle\.(asgi_\w+)(?:\.\{[^}\n]*| as \w+|\.(?:specs|proofs) as \w+|\.specs\.\{[^}\n]*\bprivate\b[^}\n]*)"
)


def hidden_uses(path, text):
    """Returns the uses of a file that hide what they read of another crate."""
    crate = path.split("/")[1]
    return [f"{it[0]} hides what it reads" for it in HIDDEN.finditer(text) if it[1] != crate]


def self_test():
    """Returns what is wrong with what is said of the texts, and how many there are."""
    failed = [f"self-test: of a good text is said: {it}" for it in faults_of("good.rt", GOOD)]
    for old, new, word in BAD:
        said = faults_of("bad.rt", GOOD.replace(old, new))
        if len(said) != 1 or word not in said[0]:
            failed.append(f"self-test: of '{new}' is said: {said}")
    if unknown_names("Shown by: test `grow`, edit `shrinks`.", {"grow"}) != ["shrinks"]:
        failed.append("self-test: a name that is not there is passed over")
    for path, count in (("crates/a/specs/A.antt", 2), ("crates/a/specs/private/A.antt", 1), ("crates/a/src/a.rt", 1), ("crates/b/proofs/B.antt", 1)):
        said = private_uses(path, "use Rattle.a.specs.private.A.{x}\nuse Rattle.b.specs.private.B.{y}\nuse Rattle.b.specs.C.{z}\n")
        if len(said) != count:
            failed.append(f"self-test: of private words in {path} is said: {said}")
    uses = ["b.{proofs.F.x}", "{asgi_b.proofs.F.x}", "asgi_b as b", "asgi_b.specs.{A.x, private.B.y}", "asgi_b.specs as words", "asgi_b.{proofs.F.x, specs.A.y}"]
    plain = ["asgi_a.specs.{A.x, private.B.y}", "asgi_b.proofs.F.{x, y}", "asgi_b.specs.{A.x, declared.b.B.B}", "asgi_b.specs.A as a", "asgi_b.specs.private.A.{x}"]
    for words, count in ((uses[1:], 1), ([uses[0], *plain], 0)):
        said = {it: hidden_uses("crates/asgi_a/proofs/A.antt", f"use Rattle.{it}\n") for it in words}
        failed += [f"self-test: of 'use Rattle.{it}' is said: {found}" for it, found in said.items() if len(found) != count]
    for edit, word in UNFIT:
        said = unfit(edit, TOP)
        if (word or said) and (not word or word not in (said or "")):
            failed.append(f"self-test: of the edit '{edit}' is said: {said}")
    return failed, 17 + len(BAD) + len(UNFIT)


def names_there():
    """Returns the names of all functions and edits of the repository."""
    edits = glob.glob(f"{TOP}/crates/*/must-fail/*.edit") + glob.glob(f"{TOP}/tests/edits/*/*.edit")
    names = {os.path.basename(it)[: -len(".edit")] for it in edits}
    for path in glob.glob(f"{TOP}/crates/*/src/**/*.rt", recursive=True):
        with open(path, encoding="utf-8") as it:
            names |= {*re.findall(r"\bfn (\w+)", it.read())}
    return names


def unknown_names(text, names):
    """Returns what a text names after 'Shown by:' that is neither a function, nor an edit, nor a file."""
    shown = [name for line in re.findall(r"Shown by: (.*)", text) for name in re.findall(r"`([^`]+)`", line)]
    return [it for it in shown if it not in names and not os.path.exists(f"{TOP}/{it}")]


def unfit(edit, root):
    """Returns what is wrong with an edit of tests/faults: no form of one, or its old text does not stand once in its file."""
    found = re.fullmatch(r"fails: (?:\w+\.py )?(\w+)\nfile: (\S+)\nold: (.*?)\nnew: (.*)\n", edit, re.DOTALL)
    if not found:
        return "it has not the form of an edit"
    try:
        with open(f"{root}/{found[2]}", encoding="utf-8") as it:
            times = it.read().count(found[3])
    except OSError as error:
        return f"{found[2]}: {error.strerror}"
    return None if times == 1 else f"its old text is in {found[2]} {times} times"


def is_source(path):
    return not re.search(r"^crates/\w+_tests/|/tests(_\w+)?(\.rt$|/)", path)


def main(words):
    if words == ["--self-test"]:
        failed, count = self_test()
    else:
        files = sorted(glob.glob("crates/*/src/**/*.rt", recursive=True, root_dir=TOP))
        files, failed = [it for it in files if is_source(it)], []
        for path in files:
            with open(f"{TOP}/{path}", encoding="utf-8") as it:
                said = faults_of(path, it.read())
            failed += [f"{path}: {'; '.join(said)}"] * bool(said)
        words = sorted(glob.glob("crates/*/*/**/*.antt", recursive=True, root_dir=TOP))
        words = [it for it in words if it.split("/")[2] in ("specs", "proofs")]
        for path in [*files, *words]:
            with open(f"{TOP}/{path}", encoding="utf-8") as it:
                text = it.read()
            said = private_uses(path, text) + hidden_uses(path, text)
            failed += [f"{path}: {'; '.join(said)}"] * bool(said)
        with open(f"{TOP}/docs/DECISIONS.md", encoding="utf-8") as it:
            unknown = unknown_names(it.read(), names_there())
        failed += [f"docs/DECISIONS.md names what is not there: {', '.join(unknown)}"] * bool(unknown)
        edits = sorted(glob.glob("tests/faults/*.edit", root_dir=TOP))
        for path in edits:
            with open(f"{TOP}/{path}", encoding="utf-8") as it:
                said = unfit(it.read(), TOP)
            failed += [f"{path}: {said}"] * bool(said)
        count = len(files) + len(words) + len(edits) + 1
    for it in failed:
        print(f"FAILED: {it}")
    print(f"{count - len(failed)} passed, {len(failed)} failed")
    return 1 if failed or not count else 0


if __name__ == "__main__":
    sys.exit(main(sys.argv[1:]))

#!/usr/bin/env python3
"""proved.py [CRATE..]: which function promises what, read from the sources: no list of it is kept by hand.

  proved.py [CRATE..]      each function that a user of the crate can call and that has a contract, each of its clauses by name, and the
                           definitions of `specs/` that the clause names, each with its file; of the crates that the library and the
                           program stand on, if no crate is named
  proved.py --reach NAME   the files of `specs/` that a definition is made of, itself or through others: lines, lines of its definitions,
                           and the first sentence, which has the section of the standard. NAME is `Serves`, say, or `asgi_conn.Serves`
  proved.py --check        reads README.md, docs/ and the crates' READMEs: where a text has a clause of a function, a field of a record or
                           a name of a crate, as `serves` of `serve_many`, it is there; so is each name after "Kept by:". Each entry of
                           docs/DECISIONS.md has what keeps and what shows it, and stands in the index
  proved.py --self-test    reads sources and texts of its own, good and bad

Names are read, not proved: that a clause holds is for `rt ci`. The last line of a check is 'N passed, M failed', where a name is one.
"""

import os
import re
import signal
import sys
import tempfile

sys.dont_write_bytecode = True
sys.path.insert(0, os.path.dirname(os.path.realpath(__file__)))
import contracts  # noqa: E402
import named  # noqa: E402
from progress import below, text_of  # noqa: E402

TOP = os.path.dirname(os.path.dirname(os.path.realpath(__file__)))
# What a user depends on: the library, and the program. All that they stand on is a part of the product.
PRODUCTS = ["nomtsage", "asgi_demo"]


# ---- what a crate's functions promise


def named_in(clause, imports):
    """Returns the definitions that the text of a clause names, each with its file."""
    found = {}
    for it in re.finditer(r"(?<![\w.])([^\W\d]\w*)(?:\.(\w+))?", clause):
        if it[1] in imports:
            path, name = imports[it[1]]
            found[name or it[2] or it[1]] = path
    return found


def short(path, crate):
    """Returns the path of a file of `specs/` as it is read from a crate."""
    return path.removeprefix(f"crates/{crate}/").removeprefix("crates/")


def lines_of(function, top):
    """Returns the lines that tell of a function and its clauses."""
    imports = contracts.imports_in(text_of(f"{top}/{function.path}"), top)
    lines = [f"  {called(function)}  {function.path.split('/src/')[1]}:{function.line}"]
    for kind, name, text in function.clauses:
        found = ", ".join(f"{word} ({short(path, function.crate)})" for word, path in sorted(named_in(text, imports).items()))
        lines.append(f"    {kind} {name or '(no name)'}{': ' if found else ''}{found}")
    return lines


def called(function):
    return f"{function.owner}: {function.name}" if function.owner else function.name


def told_of(crate, top):
    """Returns the lines that tell of a crate."""
    functions = [it for it in contracts.functions_of(crate, top) if it.public and it.clauses]
    lines = [line for it in functions for line in lines_of(it, top)]
    return [f"{crate}: {len(functions)} functions with a contract, {sum(len(it.clauses) for it in functions)} clauses", *lines, ""]


# ---- what a definition reaches


def reached(start, definitions, imports):
    """Returns the definitions that one is made of, itself among them. `imports` has what each file brings in."""
    by_name = {}
    for it in definitions:
        for name in (it.name, *(it.parts if "data" in it.text.partition("\n")[0] else ())):
            by_name.setdefault((it.path, name), it)
    found, left = [], [start]
    while left:
        one = left.pop()
        if one in found:
            continue
        found.append(one)
        for word in set(contracts.WORD.findall(one.text)):
            path, name = imports[one.path].get(word, (one.path, word))
            left += [by_name[path, name]] if (path, name) in by_name else []
        for alias, name in re.findall(r"\b(\w+)\.(\w+)", one.text):
            path, whole = imports[one.path].get(alias, (None, ""))
            left += [by_name[path, name]] if whole is None and (path, name) in by_name else []
    return found


def code_lines(text):
    return sum(bool(it.partition("--")[0].strip()) for it in text.split("\n"))


def subject_of(text):
    """Returns the first sentence of a file: what it is about, and the section of the standard."""
    lines = re.match(r"(?:--.*\n)*", text)[0]
    return re.split(r"\.(?= [A-Z`])|\.$", " ".join(it.removeprefix("--").strip() for it in lines.split("\n")).strip())[0]


def reach(name, top):
    """Returns the lines that tell which files a definition is made of, or what is wrong with its name."""
    crates = contracts.crates_in(text_of(f"{top}/crates.txt"))
    definitions = [it for crate in crates for it in contracts.definitions_of(crate, top)]
    crate, _, word = name.rpartition(".")
    starts = [it for it in definitions if it.name == word and crate in ("", it.crate)]
    if len(starts) != 1:
        return None, [f"{len(starts)} definitions are named {name}" + (f": say which one, as {starts[0].crate}.{word}" if starts else "")]
    imports = {it.path: contracts.imports_in(text_of(f"{top}/{it.path}"), top) for it in definitions}
    found = reached(starts[0], definitions, imports)
    paths = [it for it in dict.fromkeys(it.path for it in definitions) if any(one.path == it for one in found)]
    lines, all_lines, all_code = [], 0, 0
    for path in paths:
        text, own = text_of(f"{top}/{path}"), [it for it in definitions if it.path == path and it in found]
        code, of = sum(code_lines(it.text) for it in own), sum(it.path == path for it in definitions)
        some = "" if len(own) == of else f" [{', '.join(it.name for it in own)}]" if len(own) < 4 else f" [{len(own)} of its {of} definitions]"
        lines.append(f"{text.count(chr(10)):5} {code:5}  {path.removeprefix('crates/')}{some}: {subject_of(text)}")
        all_lines, all_code = all_lines + text.count("\n"), all_code + code
    head = f"{name} is made of definitions of {len(paths)} files, which have {all_lines} lines, {all_code} of them of these definitions"
    return starts[0], [head, "lines, lines of the definitions, file: its first sentence", *lines]


# ---- the self-test

# A small repository: each file and its text.
SMALL = {
    "crates.txt": "# Lowest first.\nlow: kit\nhigh: low\n",
    "crates/low/src/lib.rt": "mod count;\npub use count::{Counter, Counts};\npub mod laws;\n",
    "crates/low/src/laws.rt": "ghost use Rattle.low.specs.Sums.{IsSum};\npub fn sums_are_one()\n    ensures { IsSum [] 0 }\n{}\n",
    "crates/low/src/count.rt": """
ghost use Rattle.std.specs.Prelude.{List};
ghost use Rattle.low.specs.Sums.{IsSum, sum_of as total};
// ensures nothing { no clause: a comment }
/// A counter.
pub struct Counter { pub seen: u64, ghost counts: { seen ≡ 0 } }
pub enum Why { Full, Bad(u8) }
impl<'a, T: Into<u8>> Counter {
    /// Adds "{" and '}'.
    pub fn add(&mut self, more: &[u8]) -> Result<(), Why>
    where
        T: Copy,
        requires room { total more ≡ 0 }
        // why { not }
        ensures ok { IsSum more (total more) }
        ensures { codes "}" ≡ [] }
    {
        let brace = '{';
        self.note("ensures lost { }")
    }
    fn note(&mut self, text: &str) ensures noted { text ≡ text } { match text { _ => {} } }
}
pub trait Counts {
    ghost held: { Self → ℕ };
    fn next(&self) -> [u8; 4]
        ensures told { held self.now ≡ 0 };
}
impl Counts for Counter { ghost held = { λ _. 0 }; fn next(&self) -> [u8; 4] { [0; 4] } }
""",
    "crates/low/specs/Sums.antt": """-- Sums of lists (RFC 1, section 2).
use Rattle.std.specs.Prelude.{List}
use Rattle.low.specs.Adding as adding

-- the sum
abbrev pub sum_of : List ℕ → ℕ
sum_of [] = 0
sum_of (x ∷ xs) = adding.plus x (sum_of xs)

pub record IsSum (xs : List ℕ) (n : ℕ) : Type 0 where
  -- not other_word
  pub same : sum_of xs ≡ n

abbrev pub other_word : ℕ
other_word = 1
""",
    "crates/low/specs/Adding.antt": "-- Adding.\nabbrev pub plus : ℕ → ℕ → ℕ\nplus x y = x\n",
    "crates/high/src/lib.rt": "pub use low::Counter;\nfn hidden() {}\n",
    "tests/edits/low/sum_is_lost.edit": "",
}
TOLD = """low: 3 functions with a contract, 5 clauses
  Counter: add  count.rt:10
    requires room: sum_of (specs/Sums.antt)
    ensures ok: IsSum (specs/Sums.antt), sum_of (specs/Sums.antt)
    ensures (no name)
  Counts: next  count.rt:25
    ensures told
  sums_are_one  laws.rt:2
    ensures (no name): IsSum (specs/Sums.antt)
"""
# Definitions, and the last lines of what is told of what they reach.
REACHES = [
    ("IsSum", ["3     2  low/specs/Adding.antt: Adding", "15     5  low/specs/Sums.antt [sum_of, IsSum]: Sums of lists (RFC 1, section 2)"]),
    ("plus", ["3     2  low/specs/Adding.antt: Adding"]),
    ("high.plus", ["0 definitions are named high.plus"]),
]
# Texts, each with how much of it is not there.
TEXTS = [
    ("`ok` and `room` of `Counter::add`, `noted` of the private `note`, `same` of `IsSum`, `Full` of `Why`.", 0),
    ("`ok` of `add`, `told` of `next` of `Counts`. `held` of `Counts`, `seen` of `Counter`, `told` of `Counts::next`.", 0),
    ("`IsSum`, `sum_of` of low. `add` of `crates/low/src/count.rt`, `IsSum` of `specs/Sums.antt`, `any` of `kit`.", 0),
    ("```rust\n// `ko` of `add`\n```\n`GET` of `/a b`, `Content-Length` of `add`.", 0),
    ("`told` of `Counts::next` and `Counts`, `ok` of `add` and `note`, `held` of `Counts`.", 0),
    ("`ko` of `add`.", 1),
    ("`ok` of `add` and `next`.", 1),
    ("`IsSum` (`crates/low/specs/Sums.antt`), `add` (`crates/low/src/count.rt`).", 0),
    ("`IsSums` (`crates/low/specs/Sums.antt`), `IsSum` (`crates/low/specs/Sum.antt`).", 2),
    ("`ok`, `room`, `rooms` of `Counter::add`.", 1),
    ("`ok` of `Counter::ad`.", 1),
    ("`ok` of `next`, `other` of `IsSum`, `Empty` of `Why`.", 3),
    ("Kept by: `ok`, `IsSum`, `Counter::add`, `sum_is_lost`. Shown by: `nothing_of_it`.", 0),
    ("Kept by: `ok` of `add`, `note`, `IsSums`. Shown by: x.", 1),
]
# Documents with an index, each with how many faults it has.
INDEXED = [
    ("[A `b` is](#a-b-is)\n### A `b` is\nKept by: x. Shown by: y.\n", 0),
    ("[A](#a)\n### A\nKept by: x.\n### B\nKept by: x. Shown by: y.\n", 2),
]


def self_test():
    """Returns what is wrong with what is said of a small repository, and how many looks there were."""
    failed = []
    with tempfile.TemporaryDirectory(prefix="proved-") as top:
        for path, text in SMALL.items():
            os.makedirs(os.path.dirname(f"{top}/{path}"), exist_ok=True)
            with open(f"{top}/{path}", "w", encoding="utf-8") as it:
                it.write(text)
        told = "\n".join(told_of("low", top))
        failed += [] if told == TOLD else [f"of a small crate is told: {told}"]
        failed += [] if told_of("high", top)[0].startswith("high: 0 ") else ["of a crate without a contract is told more"]
        for name, ends in REACHES:
            start, lines = reach(name, top)
            is_right = (start is None) == ends[0].startswith("0 definitions") and [it.strip() for it in lines[-len(ends) :]] == ends
            failed += [] if is_right else [f"of what {name} reaches is told: {lines}"]
        names = named.Names(top)
        for text, count in TEXTS:
            found, _ = named.unknown_in(text, names)
            failed += [] if len(found) == count else [f"of '{text}' is said: {found}"]
        for text, count in INDEXED:
            found, _ = named.entry_faults(text)
            failed += [] if len(found) == count else [f"of the entries of '{text}' is said: {found}"]
        with open(f"{top}/README.md", "w", encoding="utf-8") as it:
            it.write("`ok` of `add`, and `told` of `next`.\n")
        before, _ = named.check(top)
        with open(f"{top}/crates/low/src/count.rt", "w", encoding="utf-8") as it:
            it.write(SMALL["crates/low/src/count.rt"].replace("ensures ok", "ensures added"))
        after, _ = named.check(top)
        is_right = not before and after == ["README.md names what is not there: `ok` of `add`"]
        failed += [] if is_right else [f"of a clause that was renamed is said: {before}, {after}"]
    return [f"self-test: {it}" for it in failed], len(TEXTS) + len(INDEXED) + 6


def main(words):
    if words[:1] == ["--reach"] and len(words) == 2:
        start, lines = reach(words[1], TOP)
        print(*lines, sep="\n")
        return 0 if start else 2
    if words in (["--check"], ["--self-test"]):
        failed, count = self_test() if words == ["--self-test"] else named.check(TOP)
        for it in failed:
            print(f"FAILED: {it}")
        print(f"{count - len(failed)} passed, {len(failed)} failed")
        return 1 if failed or not count else 0
    listed = text_of(f"{TOP}/crates.txt")
    crates = contracts.crates_in(listed)
    if any(it not in crates for it in words):
        print(__doc__)
        return 2
    products = {crate for it in PRODUCTS for crate in below(listed, it)}
    for crate in words or [it for it in crates if it in products]:
        print(*told_of(crate, TOP), sep="\n")
    return 0


if __name__ == "__main__":
    # What is printed may go to a reader that takes only its beginning.
    signal.signal(signal.SIGPIPE, signal.SIG_DFL)
    sys.exit(main(sys.argv[1:]))

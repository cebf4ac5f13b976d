"""The record of the edits that were refused, and what a refusal stands on.

`tests/edits/tried` has a line for each edit that the prover refused, CRATE/NAME.edit, in the order of these words, so that two
branches seldom change the same lines: the name, and the sum of all that the refusal stood on, of its last two refusals. An edit
with a sum that is the same now need not be tried again. A sum covers the toolchain's line, HANDLES, the edit, its crate's line of crates.txt with `src`, `specs` and `proofs`, and of the
crates below it what a check of this crate can see:

- `specs`, whole;
- `src` without the bodies of functions and without comments. The prover takes each function by the contracts of what it
  calls, and the toolchain gives it the interface of a library, which has no bodies. The bodies of a trait's own functions,
  of a `const fn` and of macros are kept all the same, since what is above may take these in;
- of `proofs` the lemma files that the crate cites, as it cites them: their proofs, too, since a text can't be told from
  its statement here. Proofs of functions are left out, since from above a function is known by its contract alone.

Modules of tests are left out: the check of an edit reads none.
"""

import hashlib
import os
import re
import subprocess

# Raise it where the verdict on an edit comes about in another way than before: then each edit is tried again.
RULES = 1
# One in so many of the edits that stand by the record is tried all the same.
ONE_IN = 12
# So many of a crate are drawn together.
TOGETHER = 12
# How many sums a line of the record holds at the most: machines with two toolchains take turns, so that the last one of each stands.
AT_MOST = 2
LINE = re.compile(r"(\w+/[A-Za-z0-9_-][A-Za-z0-9_.-]*\.edit)((?: [0-9a-f]{32}){1,%d})" % AT_MOST)
# Where it stands in a repository.
PATH = "tests/edits/tried"
# A comment, a text, a character, a word, or one other character.
TOKEN = re.compile(
    r"(?P<space>//[^\n]*|/\*.*?\*/|\s+)|b?r(?P<hashes>#*)\".*?\"(?P=hashes)|b?\"(?:[^\"\\]|\\.)*\"|b?'(?:[^'\\\n]|\\(?:x..|u\{[^}]*\}|.))'|\w+|.", re.S
)
TEST_MODULE = r"^#\[cfg\(test\)\]\nmod (\w+);\n"
CITED = re.compile(r"Rattle\.(\w+)\.proofs((?:\.\w+)*)")


def sum_of(*parts):
    """Returns the sum of some texts."""
    return hashlib.sha256(repr(parts).encode()).hexdigest()[:32]


def read(path):
    with open(path, encoding="utf-8", errors="surrogateescape") as it:
        return it.read()


def files_in(folder, part):
    """Returns the paths below a part of a crate, as that crate has them."""
    found = [f"{at}/{name}" for at, _, names in os.walk(f"{folder}/{part}") for name in names]
    return sorted(os.path.relpath(it, folder) for it in found)


def test_modules(folder):
    """Returns the files of a crate that only its tests read."""
    found, sources = set(), files_in(folder, "src")
    for path in sources:
        at = os.path.dirname(path) if os.path.basename(path) in ("lib.rt", "main.rt", "mod.rt") else path.removesuffix(".rt")
        for name in re.findall(TEST_MODULE, read(f"{folder}/{path}"), re.M):
            found |= {it for it in sources if it == f"{at}/{name}.rt" or it.startswith(f"{at}/{name}/")}
    return found


def after_group(tokens, at):
    """Returns the place after the bracket that closes the one at this place."""
    depth = 0
    for place in range(at, len(tokens)):
        depth += (tokens[place] in "([{") - (tokens[place] in ")]}") if len(tokens[place]) == 1 else 0
        if not depth:
            return place + 1
    return len(tokens)


def after_head(tokens, at):
    """Returns the place after the head of the function whose name stands here: where its body begins, or after its `;`."""
    has_clause = False
    while at < len(tokens):
        token = tokens[at]
        has_clause = has_clause or token in ("ensures", "requires", "ghost", "measure")
        if token == ";":
            return at + 1
        if token == "{" and not has_clause:
            return at
        if token in ("(", "[", "{"):
            has_clause, at = has_clause and token != "{", after_group(tokens, at)
        else:
            at += 1
    return at


def interface(text):
    """Returns the text of a source without comments, modules of tests and the bodies of functions, but for the bodies in traits, `const fn`s and macros."""
    text = re.sub(TEST_MODULE, "", text, flags=re.M)
    tokens = [it[0] for it in TOKEN.finditer(text) if not it["space"]]
    kept, at = [], 0
    while at < len(tokens):
        token, begin = tokens[at], at
        at += 1
        if token in ("trait", "macro_rules"):
            while at < len(tokens) and tokens[at] not in ("{", ";"):
                at += 1
            at = after_group(tokens, at)
        elif token == "fn" and at < len(tokens) and re.match(r"\w", tokens[at]):
            at = after_head(tokens, at)
            has_body = at < len(tokens) and tokens[at] == "{"
            if has_body and tokens[max(0, begin - 1)] != "const":
                kept += [*tokens[begin:at], "{}"]
                at = after_group(tokens, at)
                continue
            at = after_group(tokens, at) if has_body else at
        kept += tokens[begin:at]
    return " ".join(kept)


class Sums:
    """What refusals stand on, in a repository with this line of the toolchain."""

    def __init__(self, crates, toolchain, handles):
        self.start, self.crates = (RULES, toolchain, handles), {it.name: it for it in crates}
        self.own, self.seen = {}, {}

    def texts_of(self, crate):
        """Returns what a check of a crate's edits reads of that crate itself: each path and its text."""
        if crate.name not in self.own:
            left = test_modules(crate.folder)
            paths = [it for part in ("src", "specs", "proofs") for it in files_in(crate.folder, part) if it not in left]
            self.own[crate.name] = [(it, read(f"{crate.folder}/{it}")) for it in paths]
        return self.own[crate.name]

    def seen_of(self, crate):
        """Returns the sum of what any crate above this one can see of it."""
        if crate.name not in self.seen:
            texts = [(path, interface(text) if path.startswith("src/") else text) for path, text in self.texts_of(crate) if not path.startswith("proofs/")]
            self.seen[crate.name] = sum_of(crate.name, sorted(crate.of_kit), sorted(it.name for it in crate.deps), texts)
        return self.seen[crate.name]

    def cited_by(self, crate):
        """Returns the lemma files of lower crates that a crate cites, and what those pass on of others: each name and its text."""
        below, found, left = {it.name for it in crate.below()}, {}, [text for _, text in self.texts_of(crate)]
        while left:
            for name, path in CITED.findall(left.pop()):
                if name not in below:
                    continue
                texts = dict(self.texts_of(self.crates[name]))
                words = path.split(".")[1:]
                files = [it for it in ("/".join(["proofs", *words[:end]]) + ".antt" for end in range(1, len(words) + 1)) if it in texts]
                # A list in braces, say, names files that are not told here: then any may be meant.
                if not words:
                    files = [it for it in texts if it.startswith("proofs/")]
                for it in files:
                    if (name, it) not in found:
                        found[name, it] = texts[it]
                        left += re.findall(r"^pub use .*", texts[it], re.M)
        return sorted(found.items())

    def of_crate(self, crate):
        """Returns the sum of what each edit of a crate stands on beside its own text."""
        seen = [self.seen_of(it) for it in sorted(crate.below(), key=lambda it: it.name)]
        return sum_of(self.start, crate.name, sorted(crate.of_kit), self.texts_of(crate), seen, self.cited_by(crate))

    def of_edits(self, crate, edits):
        """Returns the sum of each of these edits of a crate, by its name."""
        base = self.of_crate(crate)
        return {os.path.basename(it): sum_of(base, os.path.basename(it), read(it)) for it in edits}


class Record:
    """The record of a repository's edits."""

    def __init__(self, root):
        # The sums of each edit, by CRATE/NAME.edit, and what is wrong with a crate's lines, or (by "") with the whole.
        self.path, self.sums, self.faults = f"{root}/{PATH}", {}, {}
        if os.path.lexists(self.path):
            self.read()
        for crate in self.faults:
            self.drop(crate)

    def read(self):
        try:
            with open(self.path, encoding="utf-8") as it:
                lines = it.read().splitlines()
        except (OSError, ValueError) as error:
            self.faults[""] = f"it can't be read ({getattr(error, 'strerror', None) or 'it is no text'})"
            return
        last = ""
        for number, line in enumerate(lines, 1):
            found = LINE.fullmatch(line)
            if found and found[1] > last:
                last = found[1]
                self.sums[last] = found[2].split()
                continue
            crate = re.match(r"(?:(\w+)/)?", line)[1] or ""
            self.faults.setdefault(crate, f"line {number} is out of order" if found else f"line {number} can't be read")

    def drop(self, crate):
        """Forgets what it has of this crate, or of all for ""."""
        self.sums = {name: sums for name, sums in self.sums.items() if crate and not name.startswith(f"{crate}/")}

    def fault_of(self, crate):
        """Returns what is wrong with what it has of a crate, or None."""
        return self.faults.get("") or self.faults.get(crate)

    def note(self, name, new):
        """Notes that an edit was refused with this sum."""
        self.sums[name] = [new, *[it for it in self.sums.get(name, []) if it != new]][:AT_MOST]

    def write(self):
        """Writes the record, where it is another than the one that stands there."""
        text = "".join(f"{' '.join([name, *self.sums[name]])}\n" for name in sorted(self.sums))
        try:
            if read(self.path) == text:
                return
        except OSError:
            pass
        with open(f"{self.path}.new", "w", encoding="utf-8") as it:
            it.write(text)
        os.replace(f"{self.path}.new", self.path)


def commit_of(root):
    """Returns the hash of the commit that stands in a repository, or None where there is none."""
    try:
        ran = subprocess.run(["git", "rev-parse", "--verify", "HEAD"], cwd=root, capture_output=True, text=True, check=False)
    except OSError:
        return None
    return ran.stdout.strip() if ran.returncode == 0 and os.path.lexists(f"{root}/.git") else None


def last_tried(root):
    """Returns the last commit that changed the record, with its day, or None."""
    words = ["git", "log", "-1", "--format=%h of %cs", "--", PATH]
    ran = subprocess.run(words, cwd=root, capture_output=True, text=True, check=False)
    return ran.stdout.strip() or None


def drawn(names, commit):
    """Returns one in twelve of these names, rounded up, as the hash of a commit draws them.

    Those of a crate are drawn some at a time, since a check of one edit costs nearly what a check of twelve does."""
    bundles = {}
    for name in sorted(names, key=lambda it: sum_of(commit, it)):
        of_crate = bundles.setdefault(name.partition("/")[0], [[]])
        if len(of_crate[-1]) == TOGETHER:
            of_crate.append([])
        of_crate[-1].append(name)
    order = sorted((it for of_crate in bundles.values() for it in of_crate), key=lambda it: sum_of(commit, *it))
    return set([name for it in order for name in it][: -(-len(names) // ONE_IN)])

"""What documents name: a clause of a function, a field of a record, a name of a crate, and whether it is there.

A text says `serves` of `serve_many`, `converses` of `Serves` or `record_of` of asgi_request. What is named after "Kept by:" is
looked for, too, and so is what has the path of its file behind it: `Serves` (`crates/asgi_conn/specs/Serving.antt`). A name of no
known kind, as a field of HTTP, is passed over unless it is said to be of something that is known.
"""

import glob
import os
import re

import contracts
from progress import text_of

NAME = re.compile(r"[A-Za-z_]\w*(?:::[A-Za-z_]\w*)*|[\w/]+\.(?:antt|rt)")
RUN = re.compile(r"`[^`\n]+`(?:(?:,| and)\s`[^`\n]+`)*")
OF = r"\sof\s(?:(?:the|its)\s)?(?:private\s)?"
PAIR = re.compile(rf"({RUN.pattern}){OF}(?=(`[^`\n]+`|asgi_\w+|nomtsage\b))")
AND = re.compile(rf"`[^`\n]+`\sand\s`([^`\n]+)`(?!(?:(?:,| and)\s`[^`\n]+`)*{OF})")
PLACED = re.compile(r"`(\w+)` \(`(crates/[\w/]+\.(?:antt|rt))`")
KEPT = re.compile(r"Kept by: (.*?)(?:;? Shown by:|$)", re.M)
TYPE = re.compile(r"^ *(?:pub(?:\([^)]*\))? )?(struct|enum|trait)\s+(\w+)[^;{(]*([;{(])", re.M)
FIELD = re.compile(r"(?:^|[{(,\n]) *(?:#\[[^\]]*\]\s*)*(?:pub(?:\([^)]*\))? )?(?:ghost )?(\w+)\s*(?=[:,({=]|\s*})")
GHOST = re.compile(r"^ *ghost (\w+)\s*[:=]", re.M)
ITEM = re.compile(r"^ *(?:pub(?:\([^)]*\))? )?(?:const|static|type|mod) (\w+)", re.M)
SHOWN = re.compile(r"^pub use [\w:]+?(?:::(\w+)|::\{([^}]*)\});", re.M)
LEMMA = re.compile(r"^ *(?:abbrev )?(?:pub )?([^\s:(]+) :", re.M)
# The document whose entries each say what keeps them.
ENTRIES = "docs/DECISIONS.md"
# Words of the language, which a text may say of anything.
WORDS = {"requires", "ensures"}


class Names:
    """All that a text may name: functions, types, definitions, lemmas, edits, files and crates, each with what belongs to it."""

    def __init__(self, top):
        self.top, self.of, self.clauses = top, {}, set()
        crates = contracts.crates_in(text_of(f"{top}/crates.txt"))
        self.crates, self.libraries = set(crates), {it for names in crates.values() for it in names} - set(crates)
        for crate in crates:
            self.add(crate)
            for it in contracts.functions_of(crate, top, with_tests=True):
                self.add_function(it)
            for it in contracts.definitions_of(crate, top):
                self.add_definition(it)
            for path in glob.glob(f"{top}/crates/{crate}/src/**/*.rt", recursive=True):
                self.add_source(crate, path, contracts.bare(text_of(path)))
            for path in glob.glob(f"{top}/crates/{crate}/proofs/**/*.antt", recursive=True):
                self.add_all(self.add_file(crate, path), LEMMA.findall(text_of(path)))
            for path in [*glob.glob(f"{top}/tests/edits/{crate}/*.edit"), *glob.glob(f"{top}/crates/{crate}/must-fail/*.edit")]:
                self.add_all([crate], [os.path.basename(path)[: -len(".edit")]])

    def add(self, name, *parts):
        self.of.setdefault(name, set()).update(parts)

    def add_all(self, owners, parts):
        """Adds parts that can be named by themselves, too."""
        for owner in owners:
            self.add(owner, *parts)
        for it in parts:
            self.add(it)

    def add_file(self, crate, path):
        """Adds a file, and returns the names by which it goes."""
        inside = os.path.relpath(path, f"{self.top}/crates/{crate}")
        stem = os.path.splitext(os.path.basename(path))[0]
        names = [inside, os.path.basename(path), f"{crate}/{inside}", f"crates/{crate}/{inside}", stem]
        self.add_all([crate], names)
        return [*names, crate]

    def add_function(self, it):
        """Adds a function with its clauses, its parameters and the definitions that its clauses name."""
        clauses = {name for _, name, _ in it.clauses if name}
        parts = {*clauses, *it.parameters, *(word for _, _, text in it.clauses for word in contracts.WORD.findall(text))}
        self.clauses |= clauses
        owners = contracts.words_of(it.owner)
        names = [it.name, *(f"{word}::{it.name}" for word in owners), f"{os.path.basename(it.path)[: -len('.rt')]}::{it.name}"]
        self.add_all([it.crate, *owners], names)
        for name in names:
            self.add(name, *parts)
        for word in owners:
            self.add(word, *clauses, *owners)

    def add_source(self, crate, path, code):
        """Adds the types of a source, with their fields, variants and ghost members, its constants, and what it hands on of other crates."""
        files, found = self.add_file(crate, path), [*ITEM.findall(code), *re.findall(r"\bfn (\w+)", code)]
        for it in TYPE.finditer(code):
            body = code[it.end() : contracts.end_of(code, it.end() - 1)] if it[3] != ";" else ""
            self.add(it[2], *(GHOST.findall(body) if it[1] == "trait" else FIELD.findall("\n" + body)))
            found.append(it[2])
        found += [name.strip() for one, many in SHOWN.findall(code) for name in [one, *many.split(",")] if name.strip()]
        self.add_all(files, found)
        for begin, end, _, head in contracts.owners_in(code):
            for word in contracts.words_of(head):
                self.add(word, *GHOST.findall(code[begin:end]))

    def add_definition(self, it):
        """Adds a definition: of a record its fields belong to it, of another one all words of its text."""
        is_record = " record " in f" {it.text.partition(chr(10))[0]}"
        self.add_all(self.add_file(it.crate, f"{self.top}/{it.path}"), [it.name])
        self.add(it.name, *(it.parts if is_record else contracts.WORD.findall(it.text)))

    def knows(self, name):
        return name in self.of or name in WORDS or name in self.libraries

    def has(self, name, of):
        """Returns whether a name belongs to another one. Of a library nothing is known. A plain word may be one that a crate's program
        takes, and a crate has the calls of the types that it hands on."""
        parts = self.of.get(of, ())
        if of in self.crates and (re.fullmatch(r"[a-z]+", name) or (name in self.of and name.partition("::")[0] in parts)):
            return True
        return of in self.libraries or name in parts


def pairs_in(text):
    """Yields the names of a text that are said to belong to another one: of "`a`, `b` of `c`" the list of `a` and `b`, and `c`; and whether
    what stands before says what the first of them belong to, as `b` in "`a` of `b`, `c` of `d`". In "`a` of `b` and `c`" `a` belongs to both."""
    for it in PAIR.finditer(text):
        parts = re.findall(r"`([^`\n]+)`", it[1])
        yield parts, it[2].strip("`"), bool(re.search(rf"{OF}$", text[: it.start()]))
        other = AND.match(text, it.end())
        if other:
            yield parts[-1:], other[1], False


def unknown_in(text, names):
    """Returns what a text names that is not there, each in words, and how many names were looked for."""
    text, found, count = re.sub(r"^```.*?^```", "", text, flags=re.M | re.S), [], 0
    for parts, of, is_open in pairs_in(text):
        if not NAME.fullmatch(of):
            continue
        for part in filter(NAME.fullmatch, parts):
            may_stand_alone = part is not parts[-1] and (is_open or of in names.crates)
            count += 1
            found += [] if names.has(part, of) or (may_stand_alone and names.knows(part)) else [f"`{part}` of `{of}`"]
    for name, path in PLACED.findall(text):
        count += 1
        found += [] if names.has(name, path) else [f"`{name}` in `{path}`"]
    for line in KEPT.findall(text):
        alone = [it for it in re.findall(r"`([^`\n]+)`", PAIR.sub("", line)) if NAME.fullmatch(it)]
        found += [f"`{it}`, after 'Kept by'" for it in alone if not names.knows(it) and it not in names.clauses]
        count += len(alone)
    return found, count


def entry_faults(text):
    """Returns what is wrong with the entries of a document that has an index: each stands in it, and says what keeps it and what shows it."""
    index, *entries = re.split(r"^### ", text, flags=re.M)
    faults = []
    for entry in entries:
        title, _, body = entry.partition("\n")
        link = re.sub(r"[^\w -]", "", title).lower().replace(" ", "-")
        faults += [] if f"](#{link})" in index else [f"'{title}' is not in the index"]
        faults += [f"'{title}' has no '{it}'" for it in ("Kept by:", "Shown by:") if it not in body]
    return faults, len(entries)


def check(top):
    """Returns what the documents name that is not there, and how many names they have."""
    names, failed, count = Names(top), [], 0
    paths = [path for words in ("*.md", "docs/*.md", "crates/*/README.md") for path in sorted(glob.glob(words, root_dir=top))]
    for path in paths:
        found, looked = unknown_in(text_of(f"{top}/{path}"), names)
        failed += [f"{path} names what is not there: {it}" for it in found]
        count += looked
    if ENTRIES in paths:
        found, looked = entry_faults(text_of(f"{top}/{ENTRIES}"))
        failed += [f"{ENTRIES}: {it}" for it in found]
        count += looked
    return failed, count

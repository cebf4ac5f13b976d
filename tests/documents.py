#!/usr/bin/env python3
"""documents.py [--self-test]: what every document of the repository keeps to, by its text.

- No document is longer than its budget of words, nor all of them together, nor the READMEs of all crates.
- No other document stands at the top, in docs/, or beside the README of a crate.
- Each link leads to a file, and to a heading where it names one. Each path and each file that code in a document names is there.
- The README of a crate names no wrong body. No figure that a script prints stands in a text: how many crates, edits, tests and the like there are.
- No diary: no hash of a commit, no path of one machine, no date, and no column with what was before, but where these are the matter.
- In the users' documents a house word is explained where it stands first.
- Nothing that was false once is said again, in a comment of crates/nomtsage/src either.

With --self-test it reads small texts of its own, good ones and bad ones. The last line is 'N passed, M failed', where a
document, or a text of the self-test, is one.
"""

import glob
import os
import re
import sys

TOP = os.path.dirname(os.path.dirname(os.path.realpath(__file__)))
# The documents, and how many words each may have.
BUDGETS = {
    "README.md": 900,
    "CHANGELOG.md": 400,
    "docs/GUIDE.md": 4_500,
    "docs/OPERATING.md": 1_800,
    "docs/PROMISE.md": 2_000,
    "docs/ARCHITECTURE.md": 2_200,
    "docs/DECISIONS.md": 6_000,
    "docs/CONTRIBUTING.md": 1_800,
    "docs/HOSTILE.md": 1_500,
    "docs/PERFORMANCE.md": 1_200,
}
# The README of a crate, of a crate of tests or an example, of all crates together, and all documents.
OF_CRATE, OF_SMALL, OF_CRATES, OF_ALL = 600, 150, 18_000, 45_000
SMALL = re.compile(r"crates/(?:\w+_(?:tests|example)|asgi_fakes|asgi_keys|asgi_demo)/README\.md")
README = re.compile(r"crates/\w+/README\.md")
# Those that a user reads, who never proved anything.
USERS = ("README.md", "CHANGELOG.md", "docs/GUIDE.md", "docs/OPERATING.md")
# Those that tell of one day and one machine.
DATED = ("CHANGELOG.md", "docs/HOSTILE.md", "docs/PERFORMANCE.md")

FENCED = re.compile(r"^(```+).*?^\1 *$", re.M | re.S)
CODE = re.compile(r"`[^`\n]*`")
LINK = re.compile(r"\]\(([^()\s]+)\)")
# A path of the repository, and a file by its name alone.
PATH = re.compile(r"(?<![\w./-])(?:crates|docs|tests|tools|next|\.ci)/[\w.*/-]*[\w*/]")
IN_CRATE = re.compile(r"(?<![\w./-])(?:src|specs|proofs|must-fail)/[\w.*/-]*[\w*]")
FILE = re.compile(r"[\w-]+\.(?:rt|antt|py|sh|edit|md)")
# Files of the toolchain, and places that stand for any crate's or file's name.
ELSEWHERE = {"START-HERE.md", "CALLING.md", "docs/HANDLES.md", "docs/NOT_COVERED.md"}
STANDS_FOR = re.compile(r"\b(?:NAME|CRATE|FUNCTION)\b")
# What a script prints: how many there are of these, and how long they are.
THINGS = r"crates|(?:wrong|planted) bodies|bodies refused|edits|tests|functions|clauses|definitions|definitions? files|proofs|lemmas|lines of (?:code|proof)"
NUMBER = r"(?<![\w.,:/-])\d[\d,]*"
COUNT = re.compile(rf"{NUMBER} (?:(?:further|more|public|private|other) ){{0,2}}(?:{THINGS})\b(?! (?:a|per) )|{NUMBER} of (?:them|these) (?:are|stand) in\b|(?<!under )(?<!most ){NUMBER}\d\d lines\b")
# Of an engineer's diary, and what is wrong with it.
DIARY = [
    (r"(?i)\b(?:that|another|the other) day\b|\bon another machine\b|\bhypervisor\b", "tells of one day or machine"),
    (r"(?i)\bplanted bod", "tells of planted bodies"),
    (r"(?<![\w/=.-])(?=[a-f]*\d)(?=\d*[a-f])(?:[0-9a-f]{7,12}|[0-9a-f]{40})(?![\w/=.-])", "has the hash of a commit"),
    (r"/opt/rattle\b|(?<![\w.])/(?:work|root|home)/", "has a path of one machine"),
]
DATE = re.compile(r"\b20\d\d-\d\d-\d\d\b|\b\d{1,2} (?:January|February|March|April|May|June|July|August|September|October|November|December) 20\d\d\b")
# The head of a table with a column of what was before.
BEFORE = re.compile(r"^\|(?:[^\n]*[|,])? *before *\|[^\n]*\n\|[ :|-]+$", re.M)
# House words, each with what the paragraph where it stands first says of it.
HOUSE = {"judge": "order", "exchange": "request", "seat": "connection", "teller": "report", "desk": "report"}
# What was said of the server that a user gets, and is not so: what no sentence has, unless it has this too, and why.
FALSE = [
    (r"no limit is in seconds", None, "limits of a server in seats are seconds"),
    (r"each connection ends, in (?:its worker's thread|the thread of its worker)", None, "a server in seats has no worker"),
    (r"holds? back those that came after", "worker", "in seats a report is given as its connection ends"),
    (r"(?:asked|looked at) (?:for connections )?(?:each|every) millisecond", "worker", "in seats the flag is looked at every 50 milliseconds"),
    (r"hold it to the number", None, "`RanFew` holds a server of one thread to the number of connections"),
    (r"handler is called once", None, "a task may fail without calling its handler"),
    (r"offered \"?Startup\"? once", None, "what was heard is a beginning of it"),
    (r"crates\.txt` (?:lists|has) (?:them|the crates) lowest first", None, "it has them in the order in which a reader meets them"),
]
SENTENCE = re.compile(r"(?<=[.;|])\s+|\n\s*\n")
USERS_CRATE = "crates/nomtsage/src/*.rt"


def prose_of(text):
    """Returns the text without code."""
    return CODE.sub("``", FENCED.sub("", text))


def code_of(text):
    """Returns the code of a text."""
    return "\n".join([it[0] for it in FENCED.finditer(text)] + CODE.findall(FENCED.sub("", text)))


def anchors_of(text):
    """Returns the names of a text's headings, as links have them."""
    heads = re.findall(r"^#{1,6} +(.*?) *#*$", FENCED.sub("", text), re.M)
    return {re.sub(r"[^\w -]", "", re.sub(r"\[([^]]*)\]\([^)]*\)", r"\1", it)).lower().replace(" ", "-") for it in heads}


def text_at(path):
    with open(f"{TOP}/{path}", encoding="utf-8") as it:
        return it.read()


def documents():
    """Returns the path of each document of the repository."""
    found = []
    for at, folders, files in os.walk(TOP):
        folders[:] = [it for it in folders if it not in (".git", "out", "__pycache__")]
        found += [os.path.relpath(f"{at}/{it}", TOP) for it in files if it.endswith(".md")]
    return sorted(found)


def file_names():
    """Returns the name of each file of the repository."""
    return {it for at, _, files in os.walk(TOP) if "/.git" not in at for it in files}


# ---- how long


def budget_of(path):
    """Returns how many words a document may have, or None if there is to be no such document."""
    if README.fullmatch(path):
        return OF_SMALL if SMALL.fullmatch(path) else OF_CRATE
    return BUDGETS.get(path)


def too_long(words, most):
    return [f"it has {words:,} words, and at most {most:,} are allowed"] * (words > most)


def length_faults(path, text):
    most = budget_of(path)
    if most is None:
        return ["it is none of the documents that there are to be"]
    return too_long(len(text.split()), most)


def sum_faults(words):
    """Returns what is wrong with the documents together, of which so many words stand at each path."""
    of_crates = sum(count for path, count in words.items() if README.fullmatch(path))
    return [f"READMEs of crates: {it}" for it in too_long(of_crates, OF_CRATES)] + [f"all documents: {it}" for it in too_long(sum(words.values()), OF_ALL)]


# ---- where it leads


def link_faults(path, text):
    """Returns the links of a text that lead nowhere."""
    faults = []
    for link in LINK.findall(FENCED.sub("", text)):
        to, _, anchor = link.partition("#")
        if re.match(r"https?:|mailto:", link):
            continue
        target = os.path.normpath(os.path.join(os.path.dirname(path), to)) if to else path
        if target != path and not os.path.exists(f"{TOP}/{target}"):
            faults.append(f"its link to {link} leads nowhere")
        elif anchor and anchor not in anchors_of(text if target == path else text_at(target)):
            faults.append(f"its link to {link} names no heading")
    return faults


def is_there(path):
    """Returns whether a path of the repository, which may have `*` in it, is there. What a build makes is not looked at."""
    path = STANDS_FOR.sub("*", re.sub(r"^crates/shop(?=/|$)", "crates/asgi_new_example", path.partition("/out/")[0].rstrip("/")))
    return bool(glob.glob(f"{TOP}/{path}")) if "*" in path else os.path.exists(f"{TOP}/{path}")


def path_faults(path, text, names):
    """Returns the paths and files in a text's code that are not there."""
    code, folder = code_of(text), os.path.dirname(path)
    wanted = {it: it for it in PATH.findall(code) if it not in ELSEWHERE}
    # A crate's README names its own parts, a user's document those of the user's crate, and another one those of any crate.
    if path not in USERS:
        wanted |= {it: f"{folder if README.fullmatch(path) else 'crates/*'}/{it}" for it in IN_CRATE.findall(code)}
    gone = [it for it, full in wanted.items() if not is_there(full)]
    files = {it.strip("`") for it in CODE.findall(FENCED.sub("", text)) if FILE.fullmatch(it.strip("`"))}
    gone += [it for it in files if it not in names | ELSEWHERE and not os.path.exists(f"{TOP}/{it}")]
    # Wrong bodies are named as sentences where they stand.
    edits = [it for it in re.findall(r"`(\w+)`", text) if README.fullmatch(path) and f"{it}.edit" in names]
    return [f"{it} is not there" for it in sorted(gone)] + [f"{it} is a wrong body of tests/edits" for it in edits]


# ---- what it says


def word_faults(path, text):
    """Returns what a text says that no document is to say."""
    prose = prose_of(text)
    faults = [f"'{it[0]}' is a count that a script prints" for it in COUNT.finditer(prose)]
    faults += [f"'{it[0]}' {why}" for words, why in DIARY for it in re.finditer(words, FENCED.sub("", text))]
    faults += [f"'{it[0]}' is a date"[:80] for it in DATE.finditer(prose) if path not in DATED]
    faults += [f"a table has a column of what was before: {it[0].splitlines()[0]}"[:100] for it in BEFORE.finditer(text)]
    return faults + false_faults(text)


def false_faults(text):
    """Returns what a text says that was said once and is not so."""
    sentences, faults = SENTENCE.split(FENCED.sub("", text)), []
    for words, unless, why in FALSE:
        said = [it for it in sentences if re.search(words, it, re.I) and not (unless and re.search(unless, it, re.I))]
        faults += [f"'{re.search(words, it, re.I)[0]}' is not so: {why}" for it in said]
    return faults


def comment_faults(path):
    """Returns what the comments of a source say that is not so."""
    return false_faults(" ".join(re.findall(r"^ *//[/!] ?(.*)$", text_at(path), re.M)))


def house_faults(path, text):
    """Returns the house words that a user's document does not explain where they stand first."""
    if path not in USERS:
        return []
    faults, paragraphs = [], re.split(r"\n\s*\n|\n(?=[-|])", prose_of(text))
    for word, explained in HOUSE.items():
        first = next((it for it in paragraphs if re.search(rf"\b{word}s?\b", it, re.I)), explained)
        faults += [f"'{word}' is not explained where it stands first"] * (explained not in first.lower())
    return faults


def faults_of(path, text, names):
    """Returns what is wrong with a document."""
    return length_faults(path, text) + link_faults(path, text) + path_faults(path, text, names) + word_faults(path, text) + house_faults(path, text)


# ---- its own test

GOOD = """# A title

The [guide](docs/GUIDE.md) and [this](#a-title), `crates/nomtsage/src/server.rt`, `tests/edits/CRATE`, `crates/shop/src/items.rt`, `server.rt`.
A connection has a seat. An idle connection is closed after 75 seconds, of 10,000 at most; RFC 9112 has 2 forms of a body, 1,001 requests are one test.

```text
nothing is looked for here but paths: 12 crates
```

| before a request | 3 seconds |
|---|---|
"""
# What is put at the end of GOOD, the path of the document, and a word of what must be said. The first ones stood in documents, and were false.
BAD = [
    ("Some 980 of them are in `tests/edits`, each with the function that refuses it.", "docs/PROMISE.md", "is a count"),
    ("The repository has 207 definition files.", "docs/ARCHITECTURE.md", "is a count"),
    ("No limit is in seconds: turns are counted.", "docs/GUIDE.md", "is not so"),
    ("`on_end`: is called as each connection ends, in its worker's thread, with its report and its client.", "crates/nomtsage/README.md", "is not so"),
    ("So a session of an hour holds back those that came after it.", "crates/nomtsage/README.md", "is not so"),
    ("Its socket is then asked for connections each millisecond, and does not wait for one.", "crates/nomtsage/README.md", "is not so"),
    ("A handler is called once, with the whole body.", "README.md", "is not so"),
    ("It has 3,445 lines.", "docs/ARCHITECTURE.md", "is a count"),
    ("There are 47 crates.", "README.md", "is a count"),
    ("Of it 31 more private functions are proved.", "README.md", "is a count"),
    ("It took 42 minutes that day.", "docs/CONTRIBUTING.md", "one day"),
    ("The hypervisor kept a third.", "docs/PERFORMANCE.md", "one day"),
    ("Planted bodies: none.", "crates/nomtsage/README.md", "planted"),
    ("It was so in `cfc22100`.", "docs/CONTRIBUTING.md", "hash of a commit"),
    ("It stands in `/opt/rattle-kept`.", "docs/CONTRIBUTING.md", "path of one machine"),
    ("It was measured on 2026-11-29.", "docs/CONTRIBUTING.md", "is a date"),
    ("| part | before | now |\n|---|---|---|\n| a | 1 | 2 |", "docs/PERFORMANCE.md", "what was before"),
    ("A [link](docs/GONE.md).", "README.md", "leads nowhere"),
    ("A [link](#another-title).", "README.md", "names no heading"),
    ("See `docs/GONE.md`.", "README.md", "is not there"),
    ("See `gone_from_here.rt`.", "README.md", "is not there"),
    ("The record is `tests/edits/CRATE/tried`.", "docs/CONTRIBUTING.md", "is not there"),
    ("See `specs/Gone.antt`.", "crates/nomtsage/README.md", "is not there"),
    ("```console\n$ tests/gone.py\n```", "README.md", "is not there"),
    ("See `handler_is_called_twice`.", "crates/asgi_handlers/README.md", "is a wrong body"),
    ("The judge is asked.", "README.md", "not explained"),
    ("It is long." + " word" * 900, "README.md", "at most 900"),
    ("It is long." + " word" * 150, "crates/asgi_log_tests/README.md", "at most 150"),
    ("Another one.", "docs/READING.md", "none of the documents"),
    ("Another one.", "crates/asgi_io/NOTES.md", "none of the documents"),
]
# What is no fault.
FINE = [
    ("With workers the socket is asked for connections each millisecond.", "README.md"),
    ("A chunk has 16 lines, 4 of them are text.", "README.md"),
    ("It was measured on 2026-11-29.", "docs/PERFORMANCE.md"),
    ("A judge sees the order of the events. The judge is asked.", "README.md"),
    ("The judge is asked.", "crates/asgi_protocol/README.md"),
    ("See `specs/Serving.antt` and `specs/*.antt`.", "crates/nomtsage/README.md"),
    ("The line of `rt version` is `rattle-kit logic dac8208d650f15bf`.", "README.md"),
    ("It closes with 1001, after 16 of 4,096 bytes, 2 functions a file, of files under 800 lines.", "README.md"),
]


def said_of(path, more, names):
    """Returns what is said of GOOD, as it would stand at this path, with more at its end."""
    up = "../" * path.count("/")
    return faults_of(path, GOOD.replace("(docs/", f"({up}docs/") + f"\n{more}\n", names)


def self_test():
    """Returns what is wrong, and how many texts were read."""
    names, wrong = file_names(), []
    for more, path in [("", "README.md"), *FINE]:
        wrong += [f"self-test: of '{more[:60]}' in {path} is said: {it}" for it in said_of(path, more, names)]
    for more, path, word in BAD:
        said = said_of(path, more, names)
        wrong += [f"self-test: of '{more[:60]}' in {path} is said: {said}"] * (len(said) != 1 or word not in said[0])
    for words, count in (({"crates/a/README.md": 18_001}, 1), ({"README.md": 45_001}, 1), ({"README.md": 900, "crates/a/README.md": 18_000}, 0)):
        wrong += [f"self-test: of {words} is said: {sum_faults(words)}"] * (len(sum_faults(words)) != count)
    return wrong, 1 + len(FINE) + len(BAD) + 3


def read_all():
    """Returns what is wrong with the documents, and how many there are."""
    names, wrong, words = file_names(), [], {}
    paths = documents()
    for path in paths:
        text = text_at(path)
        words[path] = len(text.split())
        said = faults_of(path, text, names)
        wrong += [f"{path}: {'; '.join(said)}"] * bool(said)
    sources = sorted(glob.glob(USERS_CRATE, root_dir=TOP))
    wrong += [f"{path}: {it}" for path in sources for it in comment_faults(path)[:1]]
    missing = [f"{it}: it is not there" for it in BUDGETS if it not in paths]
    missing += [f"{it}: it has no README.md" for it in sorted(glob.glob("crates/*", root_dir=TOP)) if f"{it}/README.md" not in paths]
    together = sum_faults(words)
    return wrong + missing + together, len(paths) + len(sources) + len(missing) + 2


def main(words):
    wrong, count = self_test() if words == ["--self-test"] else read_all()
    for it in wrong:
        print(f"FAILED: {it}")
    print(f"{count - len(wrong)} passed, {len(wrong)} failed")
    return 1 if wrong or not count else 0


if __name__ == "__main__":
    sys.exit(main(sys.argv[1:]))

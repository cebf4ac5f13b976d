#!/usr/bin/env python3
"""crate.py new|run|check NAME: makes a crate of one's own, runs it without proofs, and proves it. `make new NAME=shop` calls it.

  crate.py new NAME                        makes crates/NAME out of the files of crates/asgi_new_example, and adds its line to crates.txt
  crate.py run NAME [PORT [COUNT [SECONDS]]]   runs it with no proof: it serves COUNT connections of the port, 1,000 if none are
                                           said, for SECONDS at the most, an hour if none are said. It is compiled by `rt try`,
                                           which begins to run it, and kept: it is compiled anew only once it, or a crate below
                                           it, has changed
  crate.py run NAME -- WORD..              the same with these words, for a program that takes others than a port and a number
  crate.py check NAME                      proves it and the crates below it, proves and runs its tests, and builds crates/NAME/out/NAME
  crate.py --self-test                     tries what is said of bad input, on a copy of the template in a folder of its own

The status is 0 if all went well, 2 for bad input, and 1 else.
"""

import hashlib
import os
import re
import shutil
import subprocess
import sys
import tempfile
import threading
import time

sys.dont_write_bytecode = True
sys.path.insert(0, os.path.dirname(os.path.realpath(__file__)))
from progress import TOP, below, minutes, quiet, shown_path, text_of  # noqa: E402

TEMPLATE = "asgi_new_example"
# What a program of the template is given where nothing else is said, and the most that each may be.
PORT, COUNT, SECONDS = 8_000, 1_000, 3_600
MOST_PORT, MOST_COUNT, MOST_SECONDS = 65_535, 10**9, 10**6
# The state of a socket that listens, in /proc/net/tcp.
LISTENS = "0A"
# Words that no crate or module can be named by: those of the language, of clauses, and the tactics of proofs.
KEYWORDS = set(
    "abstract as async await become box break const continue core crate data do dyn else ensures enum extern false final fn for gen ghost if impl in let loop "
    "macro match measure mod move mut open override priv pub record ref requires return ruleset self static std struct super trait true try type "
    "typeof unsafe unsized use virtual where while yield assumption cc grind ground omega rw search simp".split()
)
# What a check prints of what went well, and notes about which nothing has to be done.
NOISE = re.compile(
    r"(fn|struct|enum|impl|trait|const|static|mod|law) \S+: proved.*|(library|statements|logic|axioms|crate|linked)[ =].*|so far: .*|rt: (chose|running|\w+: begins) .*"
    r"|\S+: note: large solution: .*|note: only the first of \d+ notes on a large solution .*|note: finished `\.antt` files with imports .*"
    r"|rt: rt check --fix-imports .*|rt: nothing has changed since .*|"
)
# How many lines of what is open are shown.
MOST_LINES = 60
# How often one looks whether a program that is compiled runs, in seconds.
LOOKS = 0.3
# How the toolchain says that a value is to be `Copy` and is not.
COPY = r"the trait bound `[^`]*: Copy` is not satisfied"
# What is said of a try whose program did not end, by its status.
REFUSED = {
    1: "the compiler refused it: the lines above say where",
    3: "it could not be compiled within a limit of the toolchain",
    4: "it made a fault that a proof would have refused: the lines above say which, and where",
    5: "its two runs came to different ends: the lines above say how",
}
# Modules that no crate can have, whatever it uses.
NO_MODULES = {"core", "std"}


class Bad(Exception):
    """What is wrong with what was asked for, in a line."""


def crates_in(top):
    """Returns the names in crates.txt."""
    return [it.partition(":")[0].split()[0] for it in text_of(f"{top}/crates.txt").splitlines() if ":" in it and not it.startswith("#")]


def libraries():
    """Returns the toolchain's own libraries, as far as the command `rt` leads to them."""
    rt = shutil.which("rt")
    folder = os.path.join(os.path.dirname(os.path.dirname(os.path.realpath(rt))), "rlibs") if rt else ""
    return {it.removesuffix(".rlib") for it in os.listdir(folder)} if os.path.isdir(folder) else set()


def modules_of(folder):
    """Returns the names of the modules of a crate."""
    return {os.path.splitext(it)[0] for it in os.listdir(f"{folder}/src") if it.endswith(".rt")}


def check_name(name, top):
    """Stops if no crate can be made under this name."""
    if not name:
        raise Bad("say under which name: make new NAME=shop")
    if not re.fullmatch(r"[a-z](_?[a-z0-9])*", name) or len(name) > 40:
        raise Bad(f"{name!r} can be no crate's name: at most 40 lowercase letters, digits and single _, a letter first and no _ last, as in make new NAME=shop")
    if name in KEYWORDS:
        raise Bad(f"{name} is a word of the language: take another name")
    if name in libraries():
        raise Bad(f"{name} is a library of the toolchain: take another name")
    if name.startswith("asgi_"):
        raise Bad("names that begin with asgi_ are those of Nomtsage's own crates: take another name")
    if name in modules_of(f"{top}/crates/{TEMPLATE}"):
        raise Bad(f"{name} is the name of a file in each new crate, crates/{TEMPLATE}/src/{name}.rt: take another name")
    if name in crates_in(top) or os.path.lexists(f"{top}/crates/{name}"):
        raise Bad(f"crates/{name} is there already: take another name, or go on with it: make run NAME={name}")


def find(name, top):
    """Returns the folder of a crate. Stops if there is none of this name."""
    if not name:
        raise Bad("say which crate: make run NAME=shop, or make check NAME=shop")
    if name in crates_in(top) and os.path.isdir(f"{top}/crates/{name}/src"):
        return f"{top}/crates/{name}"
    if os.path.isdir(f"{top}/crates/{name}/src"):
        raise Bad(f"crates/{name} is there, but crates.txt has no line for it: add one, '{name}: ' and then the crates that it uses")
    raise Bad(f"there is no crate {name}: make new NAME={name} makes one, and crates.txt lists those that are there")


def check_modules(name, top):
    """Stops if a module of the crate has the name of a crate that it uses, which the toolchain would find only later."""
    [line] = [it for it in text_of(f"{top}/crates.txt").splitlines() if re.match(rf"{name}\b[^:]*:", it)]
    for at, _, files in os.walk(f"{top}/crates/{name}/src"):
        for file in sorted(files):
            module = file.removesuffix(".rt")
            if module in NO_MODULES | set(line.partition(":")[2].split()):
                where = os.path.relpath(f"{at}/{file}", top)
                raise Bad(f"{where}: no module can be named {module}, as a crate that {name} uses is: give the file another name, and its `mod`")


def number(word, what, most):
    if not re.fullmatch(r"[0-9]{1,12}", word) or not 1 <= int(word) <= most:
        raise Bad(f"{what} is a number from 1 to {most:,}, and not {word!r}")
    return int(word)


# ---- new


def new(name, top):
    """Makes the crate, and returns what to say."""
    check_name(name, top)
    source, to = f"{top}/crates/{TEMPLATE}", f"{top}/crates/{name}"
    [line] = [it for it in text_of(f"{top}/crates.txt").splitlines() if re.match(rf"{TEMPLATE}\b", it)]
    with tempfile.TemporaryDirectory(prefix=".new-", dir=f"{top}/crates") as room:
        shutil.copytree(source, f"{room}/{name}", ignore=shutil.ignore_patterns("out"))
        for at, _, files in os.walk(f"{room}/{name}"):
            for file in files:
                text = text_of(f"{at}/{file}").replace(TEMPLATE, name)
                with open(f"{at}/{file}", "w", encoding="utf-8") as it:
                    it.write(text)
        os.rename(f"{room}/{name}", to)
    try:
        with open(f"{top}/crates.txt", "a", encoding="utf-8") as it:
            it.write(line.replace(TEMPLATE, name) + "\n")
    except OSError as error:
        shutil.rmtree(to)
        raise Bad(f"crates.txt can't be written ({error.strerror}), so nothing was made") from error
    return [
        f"made crates/{name}, and its line in crates.txt. Next:",
        f"  edit crates/{name}/src/items.rt    what each request gets; src/tests.rt has a row for each",
        f"  make run NAME={name}    runs it without proofs",
        f"  make check NAME={name}    proves it, and builds crates/{name}/out/{name}",
        "docs/GUIDE.md goes on from here.",
    ]


# ---- run


def sockets():
    """Returns the address and the state of each socket of this machine's TCP over IPv4, as the system writes them."""
    return [(row[1], row[3]) for row in map(str.split, text_of("/proc/net/tcp").splitlines()[1:])]


def listens(port):
    """Returns whether something listens on this port of the loopback address, or of all addresses. No connection is made to find out."""
    return any((f"{host}:{port:04X}", LISTENS) in sockets() for host in ("0100007F", "00000000"))


def tell_when_listening(port, ran, count, seconds):
    """Says where to ask, once the program listens."""
    while ran.poll() is None:
        if listens(port):
            print(f"listening on http://127.0.0.1:{port}/ for {count:,} connections and {seconds:,} seconds at the most; Ctrl-C ends it", flush=True)
            print(f"ask it from another terminal:  curl -i http://127.0.0.1:{port}/", flush=True)
            return
        time.sleep(0.1)


def sources_of(name, top):
    """Returns the files of which a crate is compiled: its own, and those of the crates below it."""
    crates = below(text_of(f"{top}/crates.txt"), name)
    walked = [os.walk(f"{top}/crates/{it}/src") for it in crates]
    return sorted(f"{at}/{it}" for walk in walked for at, _, files in walk for it in files if it.endswith(".rt"))


def sum_of(name, top):
    """Returns a checksum of all of which a program is compiled: its sources, crates.txt, and the toolchain."""
    rt = shutil.which("rt")
    line = os.path.join(os.path.dirname(os.path.dirname(os.path.realpath(rt))), "KIT-ID") if rt else ""
    found = hashlib.sha256(text_of(line).encode() if os.path.isfile(line) else b"")
    for path in [f"{top}/crates.txt", *sources_of(name, top)]:
        with open(path, "rb") as it:
            text = it.read()
        found.update(f"{os.path.relpath(path, top)} {len(text)}\n".encode() + text)
    return found.hexdigest()


def kept_at(name, top):
    """Returns where a compiled program is kept, and the checksum of what it was compiled of."""
    return f"{top}/tests/out/run/{name}", f"{top}/tests/out/run/{name}.sum"


def is_kept(name, top):
    """Returns whether the program that is kept was compiled of what is there now."""
    program, sums = kept_at(name, top)
    return os.access(program, os.X_OK) and os.path.isfile(sums) and text_of(sums) == sum_of(name, top)


def begun_in(room):
    """Returns the path of the program that a try runs in a folder of the room, and its length, or None.

    The try puts it beside what it is given and what it prints."""
    for at, _, files in os.walk(room):
        if {"program", "stdin", "stdout", "stderr"} <= set(files):
            try:
                return f"{at}/program", os.path.getsize(f"{at}/program")
            except OSError:
                return None
    return None


def is_linked(path, program):
    """Links what has this path under this name, too, and returns whether it was there."""
    try:
        os.link(path, program)
    except OSError:
        return False
    return True


def compiled(name, words, top, folder):
    """Compiles the program by `rt try`, which begins to run it. Once it runs it is kept, and that run is ended.

    Returns None if it is kept, and else what came of the try: the program ended at once, or was refused."""
    program, sums = kept_at(name, top)
    os.makedirs(os.path.dirname(program), exist_ok=True)
    for it in (program, sums):
        if os.path.lexists(it):
            os.remove(it)
    summed, is_found, begun = sum_of(name, top), False, None
    with tempfile.TemporaryDirectory(prefix="try-", dir=f"{top}/tests/out") as room, open(f"{room}/said", "w+", errors="replace", encoding="utf-8") as said:
        how = {"cwd": folder, "stdin": subprocess.DEVNULL, "stderr": said}
        ran = subprocess.Popen(["rt", "try", "--", *words], env={**os.environ, "TMPDIR": room}, **how)
        try:
            while not is_found and ran.poll() is None:
                time.sleep(LOOKS)
                before, begun = begun, begun_in(room)
                is_found = begun is not None and begun == before and is_linked(begun[0], program)
            if is_found:
                ran.terminate()
            status = ran.wait()
        except KeyboardInterrupt:
            ran.wait()
            raise
        said.seek(0)
        text = said.read()
    if is_found:
        with open(sums, "w", encoding="utf-8") as it:
            it.write(summed)
        return None
    print(text, end="", file=sys.stderr, flush=True)
    for hint in hints_of(text, name, top):
        print(hint, file=sys.stderr, flush=True)
    return status, tried(text.splitlines()[-1] if text else "", status)


def tried(last, status):
    """Returns what came of a try, by its last line and its status, which is the program's own if that ended."""
    ended = re.match(r"run=ended status=(\d+) ", last)
    return ended_with(int(ended[1])) if ended else REFUSED.get(status, "it did not run: the lines above say why")


def hints_of(text, name, top):
    """Returns what a person can do about what the toolchain says."""
    found, known = [], libraries() | set(crates_in(top))
    for library in dict.fromkeys(re.findall(r"there is no `(\w+)` in the crate root", text)):
        if library in known:
            found.append(f"hint: {library} is a crate that {name} does not list: add it to the line '{name}: ..' of crates.txt")
        else:
            found.append(f"hint: if {library} is to be a crate, crates.txt lists those of this repository, and `rt doc` leads to those of the toolchain")
    if re.search(COPY, text):
        found.append("hint: what `Handled`, `Talked` or `Told` holds is `Copy`; serve a value that is not by Shared::new(alloc, value)?")
    return found


def run(name, words, top):
    folder = find(name, top)
    if not os.path.isfile(f"{folder}/src/main.rt"):
        raise Bad(f"crates/{name} is a library, with no src/main.rt to run: its tests run by  cd crates/{name} && rt try --test")
    check_modules(name, top)
    port, count, seconds = None, COUNT, SECONDS
    if words[:1] == ["--"]:
        words = words[1:]
    else:
        if len(words) > 3:
            raise Bad("run takes a port, a number of connections and a number of seconds, in this order")
        given = [it for it in words if it]
        port = number(given[0], "PORT", MOST_PORT) if given else PORT
        count = number(given[1], "COUNT", MOST_COUNT) if given[1:] else COUNT
        seconds = number(given[2], "SECONDS", MOST_SECONDS) if given[2:] else SECONDS
        if listens(port):
            raise Bad(f"port {port} is in use: make run NAME={name} PORT={port + 1 if port < MOST_PORT else port - 1}")
        words = [str(port), str(count)]
    if not is_kept(name, top):
        print(f"compiling crates/{name} and the crates below it, without proofs", flush=True)
        try:
            ended = compiled(name, words, top, folder)
        except KeyboardInterrupt:
            print("\nstopped")
            return 0
        if ended:
            print(ended[1])
            return 1 if ended[0] else 0
    return served(kept_at(name, top)[0], words, port, count, seconds)


def served(program, words, port, count, seconds):
    """Runs a program in the folder in which one stands, for so many seconds at the most. Returns the status."""
    ran = subprocess.Popen([program, *words], stdin=subprocess.DEVNULL)
    if port:
        threading.Thread(target=tell_when_listening, args=(port, ran, count, seconds), daemon=True).start()
    try:
        status = ran.wait(timeout=seconds)
    except subprocess.TimeoutExpired:
        ran.kill()
        ran.wait()
        print(f"it was still running after {seconds:,} seconds, and was ended: SECONDS=.. allows more time")
        return 1
    except KeyboardInterrupt:
        # The program hears the signal as well.
        ran.wait()
        print("\nstopped")
        return 0
    print(ended_with(status))
    return 1 if status else 0


def ended_with(status):
    """Returns what came of a run, by its status."""
    if status < 0:
        return f"it was ended by signal {-status}: a fault that a proof would have refused, or someone else's"
    return f"it ended with status {status}. Nothing of it is proved: make check does that"


# ---- check


def open_lines(text):
    """Returns the lines of a check that say what is wrong."""
    return [it for it in text.splitlines() if not NOISE.fullmatch(it)]


def check(name, top):
    folder = find(name, top)
    check_modules(name, top)
    is_program = os.path.isfile(f"{folder}/src/main.rt")
    has_tests = any("#[test]" in text_of(f"{at}/{it}") for at, _, files in os.walk(f"{folder}/src") for it in files)
    # A program is built by a run of it, which is stopped as soon as it begins.
    steps = [("it is proved", "it is not proved", ["rt", "check"], None)]
    steps += [("its tests are proved, and pass", "its tests are not proved, or one failed", ["rt", "test"], None)] * has_tests
    built = (f"it is built: crates/{name}/out/{name}", "it is not built", ["rt", "run"], "rt: running out/")
    steps += [built if is_program else ("its library is built", "its library is not built", ["rt", "lib"], None)]
    for good, bad, words, until in steps:
        log = f"{top}/tests/out/{words[1]}-{name}.log"
        status, _, seconds = quiet(words, folder, log, name, until)
        if status:
            said = open_lines(text_of(log))
            print(*said[:MOST_LINES], *hints_of(text_of(log), name, top), sep="\n")
            more = f" and {len(said) - MOST_LINES} lines more" * (len(said) > MOST_LINES)
            print(f"{bad} ({minutes(seconds)}). The lines above say what is open{more}; all of the output is in {shown_path(log)}")
            print('docs/GUIDE.md, "What the checker says", has the usual ones')
            return 1
        print(f"{good} ({minutes(seconds)})", flush=True)
    return 0


# ---- its own test

# What is asked for, and a word of what is said.
BAD = [
    (["new", ""], "under which name"),
    (["new", "Shop"], "no crate's name"),
    (["new", "my-shop"], "no crate's name"),
    (["new", "7up"], "no crate's name"),
    (["new", "a__b"], "no crate's name"),
    (["new", "shop_"], "no crate's name"),
    (["new", "../shop"], "no crate's name"),
    (["new", "s" * 41], "no crate's name"),
    (["new", "match"], "word of the language"),
    (["new", "std"], "word of the language"),
    (["new", "search"], "word of the language"),
    (["new", "asgi_shop"], "Nomtsage's own"),
    (["new", "items"], "name of a file"),
    (["new", "taken"], "is there already"),
    (["run", ""], "which crate"),
    (["run", "nowhere"], "there is no crate nowhere"),
    (["run", "loose"], "no line for it"),
    (["run", "library"], "is a library"),
    (["run", "taken", "0"], "PORT is a number"),
    (["run", "taken", "65536"], "PORT is a number"),
    (["run", "taken", "80a"], "PORT is a number"),
    (["run", "taken", "8000", "none"], "COUNT is a number"),
    (["run", "taken", "8000", "1", "-1"], "SECONDS is a number"),
    (["run", "named"], "no module can be named core"),
    (["check", "named"], "no module can be named core"),
    (["check", "uses"], "no module can be named asgi_types"),
    (["check", "nowhere"], "there is no crate nowhere: make new NAME=nowhere makes one, and crates.txt lists"),
]
# The last line of a try, its status, and a word of what is said.
TRIES = [
    ("run=ended status=0 steps=9 runners=1 races=unchecked proved=no\n", 0, "ended with status 0"),
    ("run=ended status=5 runners=1 proved=no\n", 5, "ended with status 5"),
    ("run=fault proved=no\n", 4, "a fault"),
    ("run=none proved=no\n", 1, "refused"),
    ("run=none proved=no\n", 2, "did not run"),
]
# The status of a run, and a word of what is said.
ENDS = [(0, "ended with status 0"), (5, "ended with status 5"), (-6, "by signal 6")]
# What the toolchain says, and a word of each hint.
HINTS = [
    ("src/main.rt:2:5: error[unknown-name]: unresolved import: there is no `asgi_types` in the crate root\n", ["'taken: ..' of crates.txt"]),
    ("src/main.rt:2:5: error[unknown-name]: unresolved import: there is no `nowhere` in the crate root\n", ["crates.txt lists"]),
    ("src/main.rt:7:16: error[unsatisfied-bound]: the trait bound `Shop: Copy` is not satisfied\n", ["Shared::new"]),
    ("src/main.rt:7:16: error[unsatisfied-bound]: the trait bound `Shop: Send` is not satisfied\n", []),
]
# Lines of a check, and whether they are shown.
LINES = [
    ("fn shop::items::reply_to: proved", False),
    ("struct shop::items::Items: proved", False),
    ("fn shop::main: proved, may wait", False),
    ("so far: 3 of 9 functions checked", False),
    ("rt: chose --jobs 2 for shop", False),
    ("crate shop: modules loaded=955 checked=1599", False),
    ("logic=proved functions=52 sum=dac8208d650f15bf", False),
    ("fn shop::items::reply_to: no proof: expected answers in ./proofs/items/reply_to/Answers.antt; `search` did not prove `overflow_add-n`", True),
    ("note: `overflow_add-n` of proofs/items/reply_to/Answers.antt must prove: Fits w64 (c.args.n + 1)", True),
    ("src/items.rt:9:5: error[unknown-name]: no `Reply` here", True),
    ("logic=not-proved functions=52", False),
]


def self_test():
    """Returns what is wrong, and how many things were tried."""
    wrong = []
    with tempfile.TemporaryDirectory() as top:
        shutil.copytree(f"{TOP}/crates/{TEMPLATE}", f"{top}/crates/{TEMPLATE}", ignore=shutil.ignore_patterns("out"))
        files = ["taken/main", "loose/main", "library/lib", "named/main", "named/core", "uses/main", "uses/deep/asgi_types", "asgi_types/lib"]
        for crate, _, file in (it.partition("/") for it in files):
            os.makedirs(os.path.dirname(f"{top}/crates/{crate}/src/{file}"), exist_ok=True)
            with open(f"{top}/crates/{crate}/src/{file}.rt", "w", encoding="utf-8"):
                pass
        with open(f"{top}/crates.txt", "w", encoding="utf-8") as it:
            it.write(f"# lowest first\n{TEMPLATE} status=2: asgi_types asgi_apps\ntaken: asgi_types\nlibrary:\nnamed:\nuses: asgi_types\nasgi_types:\n")
        for words, word in BAD:
            try:
                do(words, top)
                wrong.append(f"self-test: {words} is taken")
            except Bad as error:
                wrong += [f"self-test: of {words} is said: {error}"] * (word not in str(error) or "\n" in str(error))
        new("shop", top)
        made = {os.path.relpath(f"{at}/{it}", f"{top}/crates/shop") for at, _, files in os.walk(f"{top}/crates/shop") for it in files}
        source = {os.path.relpath(f"{at}/{it}", f"{top}/crates/{TEMPLATE}") for at, _, files in os.walk(f"{top}/crates/{TEMPLATE}") for it in files}
        wrong += [f"self-test: the new crate has {made}"] * (made != source)
        wrong += [f"self-test: {it} has the template's name" for it in made if TEMPLATE in text_of(f"{top}/crates/shop/{it}")]
        line = text_of(f"{top}/crates.txt").splitlines()[-1]
        wrong += [f"self-test: the line of the new crate is {line}"] * (line != "shop status=2: asgi_types asgi_apps")
        wrong += [f"self-test: there is left: {it}" for it in os.listdir(f"{top}/crates") if it.startswith(".")]
        wrong += kept_wrongly(top)
        for text, words in HINTS:
            said = hints_of(text, "taken", top)
            wrong += [f"self-test: of {text!r} is said: {said}"] * (len(said) != len(words) or any(it not in line for it, line in zip(words, said)))
    for last, status, word in TRIES:
        said = tried(last, status)
        wrong += [f"self-test: of the end {last!r} is said: {said}"] * (word not in said)
    for status, word in ENDS:
        said = ended_with(status)
        wrong += [f"self-test: of the status {status} is said: {said}"] * (word not in said)
    for line, is_shown in LINES:
        wrong += [f"self-test: shown or not, wrongly: {line}"] * (bool(open_lines(line)) != is_shown)
    return wrong, len(BAD) + 4 + len(CHANGES) + len(HINTS) + len(TRIES) + len(ENDS) + len(LINES)


# What is changed behind a compiled program, and whether that is still kept.
CHANGES = [("crates/asgi_types/notes", True), ("crates/named/src/main.rt", True), ("crates/asgi_types/src/lib.rt", False), ("crates/taken/src/deep/more.rt", False), ("crates.txt", False)]


def kept_wrongly(top):
    """Returns what is wrong with what is said of a program that was kept before a change."""
    wrong = []
    program, sums = kept_at("taken", top)
    os.makedirs(os.path.dirname(program))
    for path, is_same in CHANGES:
        shutil.copy("/bin/true", program)
        with open(sums, "w", encoding="utf-8") as it:
            it.write(sum_of("taken", top))
        wrong += [f"self-test: nothing has changed before {path}, and it is not kept"] * (not is_kept("taken", top))
        os.makedirs(os.path.dirname(f"{top}/{path}"), exist_ok=True)
        with open(f"{top}/{path}", "a", encoding="utf-8") as it:
            it.write("# \n")
        wrong += [f"self-test: kept or not, wrongly: {path}"] * (is_kept("taken", top) != is_same)
    return wrong


def do(words, top):
    verb, name, rest = words[0], words[1] if words[1:] else "", words[2:]
    if verb == "new":
        print(*new(name, top), sep="\n")
        return 0
    return run(name, rest, top) if verb == "run" else check(name, top)


def main(words):
    if words == ["--self-test"]:
        wrong, count = self_test()
        for it in wrong:
            print(f"FAILED: {it}")
        print(f"{count - len(wrong)} passed, {len(wrong)} failed")
        return 1 if wrong else 0
    if words[:1] not in (["new"], ["run"], ["check"]):
        sys.exit(__doc__)
    if not shutil.which("rt"):
        print("rt, the command of the Rattle toolchain, is not on the PATH: add the bin folder of the toolchain to it", file=sys.stderr)
        return 2
    try:
        return do(words, TOP)
    except Bad as error:
        print(error, file=sys.stderr)
        return 2


if __name__ == "__main__":
    sys.exit(main(sys.argv[1:]))

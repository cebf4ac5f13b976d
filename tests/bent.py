#!/usr/bin/env python3
"""bent.py [NAME..]: the edits of tests/faults, which no clause can see: each takes a cure back, and the test that it names must fail.

The programs are compiled without proofs, in a copy of this tree: as they are, where each of the tests must pass, and then with each
edit. It takes minutes an edit, and is no part of the gate. The last line is 'N passed, M failed', and the status is 0 only with none
failed.
"""

import os
import re
import shutil
import subprocess
import sys
import tempfile
import threading
from concurrent.futures import ThreadPoolExecutor
from typing import NamedTuple

TOP = os.path.dirname(os.path.dirname(os.path.realpath(__file__)))
sys.path.insert(0, f"{TOP}/tools")
import crate  # noqa: E402
from servers import free_port  # noqa: E402

EDIT = re.compile(r"fails: (?:(?P<script>\w+)\.py )?(?P<test>\w+)\nfile: (?P<file>\S+)\nold: (?P<old>.*?)\nnew: (?P<new>.*)\n", re.DOTALL)
# The words by which each program serves a port until it is ended.
SERVING = {
    "asgi_demo": lambda port: ["serve", str(port), "1", "hello"],
    "server_for_tests": lambda port: [str(port), "1", "hello"],
    "asgi_many_example": lambda port: [f"127.0.0.1:{port}", "8", "1", "hello"],
    "chat_example": lambda port: [str(port), "1"],
}
# The programs that the tests of a script ask, where those are not all servers.
ASKED = {
    "waking": ["server_for_tests"],
    "library": ["server_for_tests"],
    "examples": ["chat_example"],
    "seats": ["asgi_many_example"],
}
SERVERS = ["asgi_demo", "server_for_tests"]
# What takes its tests alone, and no program before them.
TESTS_ALONE = ("waking", "library", "examples")


class Bent(NamedTuple):
    """An edit, and the test that fails by it."""

    script: str
    test: str
    file: str
    old: str
    new: str

    def programs(self):
        return ASKED.get(self.script, SERVERS)

    def apply(self, top):
        """Applies it to the tree at this path. Returns what is wrong with it."""
        with open(f"{top}/{self.file}", encoding="utf-8") as it:
            text = it.read()
        if text.count(self.old) != 1:
            return f"its old text is in {self.file} {text.count(self.old)} times"
        with open(f"{top}/{self.file}", "w", encoding="utf-8") as it:
            it.write(text.replace(self.old, self.new))
        return None


def read(name):
    with open(f"{TOP}/tests/faults/{name}.edit", encoding="utf-8") as it:
        found = EDIT.fullmatch(it.read()).groupdict()
    return Bent(**{**found, "script": found["script"] or "faults"})


def copy_to(top):
    shutil.copytree(TOP, top, ignore=shutil.ignore_patterns(".git", "out"))


def build(programs, top):
    """Compiles programs without proofs, each to where its tests find it. Returns what is wrong."""
    for name in programs:
        why = crate.compiled(name, SERVING[name](free_port()), top, crate.find(name, top))
        if why is not None:
            return f"{name} is not compiled: {why[1]}"
        os.makedirs(f"{top}/crates/{name}/out", exist_ok=True)
        os.replace(crate.kept_at(name, top)[0], f"{top}/crates/{name}/out/{name}")
    return None


def tried(bent, top):
    """Runs the test that an edit names. Returns how many passed and failed, on how many servers it is, or what was printed last."""
    program = [] if bent.script in TESTS_ALONE else [f"{top}/crates/{bent.programs()[0]}/out/{bent.programs()[0]}"]
    words = [sys.executable, f"{top}/tests/{bent.script}.py", *program, bent.test]
    said = subprocess.run(words, capture_output=True, stdin=subprocess.DEVNULL, check=False).stdout.decode(errors="replace")
    last = said.rstrip("\n").rpartition("\n")[2]
    found = re.fullmatch(r"(\d) passed, (\d) failed", last)
    return (int(found[1]), int(found[2])) if found else last


def wrong_as_it_is(edits, room):
    """Yields, of each test that an edit names and that does not pass on the programs as they are, what is wrong."""
    copy_to(room)
    why = build(sorted({it for bent in edits for it in bent.programs()}), room)
    if why:
        yield why
        return
    for script, test in sorted({(it.script, it.test) for it in edits}):
        came = tried(next(it for it in edits if (it.script, it.test) == (script, test)), room)
        if not (isinstance(came, tuple) and came[0] and not came[1]):
            yield f"{script}.py {test}, with no edit: {came}"


def wrong_with(name, bent, room, alone):
    """Returns what is wrong with an edit: nothing can be built with it, or its test passes all the same."""
    copy_to(room)
    why = bent.apply(room) or build(bent.programs(), room)
    if not why:
        # Two tests at the same time would wait for one another.
        with alone:
            came = tried(bent, room)
        why = None if isinstance(came, tuple) and came[1] else f"{bent.test}: {came}"
    shutil.rmtree(room)
    print(f"{name}: {why or 'its test fails, as it must'}", flush=True)
    return why


def main():
    names = sys.argv[1:] or sorted(it.removesuffix(".edit") for it in os.listdir(f"{TOP}/tests/faults"))
    edits = {name: read(name) for name in names}
    with tempfile.TemporaryDirectory(prefix="bent-") as rooms:
        wrong = list(wrong_as_it_is(list(edits.values()), f"{rooms}/none"))
        print(*wrong, sep="\n", end="\n" if wrong else "", flush=True)
        alone = threading.Lock()
        with ThreadPoolExecutor(max(1, len(os.sched_getaffinity(0)) // 2)) as pool:
            failed = len(wrong) + sum(why is not None for why in pool.map(lambda it: wrong_with(*it, f"{rooms}/{it[0]}", alone), edits.items()))
    print(f"{len(edits)} tried")
    print(f"{len(edits) - failed} passed, {failed} failed")
    return 1 if failed or not edits else 0


if __name__ == "__main__":
    sys.exit(main())

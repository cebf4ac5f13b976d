#!/usr/bin/env python3
"""outside.py [--parts]: the tests from outside, as many scripts beside one another as there are processors.

Each script is run by itself, as it can be by hand; those that ask each server of tests/servers_of.py are run for each by itself.
What one printed is shown once it has ended, with how long it took. A script that fails beside others is run once more when all have
ended, by itself, if there are few such: what it says then counts, and that it was asked twice is told. So a clock that others held up
is no fault, and a fault that comes each time is one. The last line is 'N passed, M failed'; a script without such a line, or with
another status than that says, has failed. --parts only prints what would be run.
"""

import os
import re
import subprocess
import sys
import time
from concurrent.futures import ThreadPoolExecutor

TOP = os.path.dirname(os.path.dirname(os.path.realpath(__file__)))
PROGRAM = "crates/asgi_demo/out/asgi_demo"
KEYS = "crates/asgi_keys/out/asgi_keys"
EACH = ["OnOneThread", "OnFourThreads", "OnWorkers"]
# Those that take longest first.
SCRIPTS = [
    ["tests/servers.py", PROGRAM],
    *(["tests/clients.py", PROGRAM, it] for it in EACH),
    *(["tests/sessions.py", PROGRAM, it] for it in ["OnOnce", *EACH]),
    ["tests/faults.py", PROGRAM],
    *(["tests/served.py", PROGRAM, it] for it in EACH),
    ["tests/seats.py"],
    ["tests/reactor.py"],
    ["tests/turns.py"],
    ["tests/waking.py"],
    ["tests/streams.py"],
    ["tests/library.py"],
    ["tests/log.py"],
    ["tests/examples.py"],
    *(["tests/many.py", PROGRAM, it] for it in EACH),
    *(["tests/calls.py", PROGRAM, it] for it in EACH),
    ["tests/program.py", PROGRAM],
    ["tests/keys.py", KEYS],
]
SUM = re.compile(r"(\d+) passed, (\d+) failed")
# Longer than any of them takes, in seconds.
LONGEST = 600
# Of how many scripts that failed each is run once more.
FEW = 3


def run(words):
    """Returns what a script printed, how many of its tests passed and failed, and how long it took."""
    began = time.monotonic()
    how = {"cwd": TOP, "stdin": subprocess.DEVNULL, "stdout": subprocess.PIPE, "stderr": subprocess.STDOUT, "errors": "replace"}
    with subprocess.Popen([sys.executable, *words], **how) as ran:
        try:
            said = ran.communicate(timeout=LONGEST)[0]
        except subprocess.TimeoutExpired:
            ran.kill()
            said = ran.communicate()[0] + "\nit had not ended"
    found = SUM.fullmatch(said.rstrip("\n").rpartition("\n")[2])
    passed, failed = (int(found[1]), int(found[2])) if found else (0, 1)
    return said, passed, failed or int(ran.returncode != 0 or not passed), time.monotonic() - began


def show(words, said, seconds):
    """Shows what a script printed."""
    print(f"== {' '.join(words)}", said.rstrip("\n"), f"({seconds:.0f} seconds)", sep="\n", flush=True)


def main():
    sums = []
    with ThreadPoolExecutor(len(os.sched_getaffinity(0))) as pool:
        for words, (said, good, bad, seconds) in zip(SCRIPTS, pool.map(run, SCRIPTS)):
            show(words, said, seconds)
            sums.append((good, bad))
    again = [at for at, (_, bad) in enumerate(sums) if bad]
    for at in again if len(again) <= FEW else []:
        print(f"it failed beside others, and is run once more by itself: {' '.join(SCRIPTS[at])}")
        said, good, bad, seconds = run(SCRIPTS[at])
        show(SCRIPTS[at], said, seconds)
        sums[at] = (good, bad)
    passed, failed = (sum(it[at] for it in sums) for at in (0, 1))
    print(f"{passed} passed, {failed} failed")
    return 1 if failed or not passed else 0


if __name__ == "__main__":
    if sys.argv[1:] == ["--parts"]:
        print(*[" ".join(["python3", *it]) for it in SCRIPTS], sep="\n")
        sys.exit(0)
    sys.exit(main() if not sys.argv[1:] else __doc__)

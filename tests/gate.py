#!/usr/bin/env python3
"""gate.py [--parts]: the whole gate, part by part. `make test` runs it; --parts only prints what it would run, and what each part is for.

Each part's output is shown as it comes. At the end stand the checks that each long part waited for (tests/chain.py), the
minutes of each part, what each number of the sum is, and how many edits stand by the record; the last line is 'N passed,
M failed', and the status is 0 only with none failed.
"""

import ast
import os
import re
import subprocess
import sys
import tempfile
import threading
import time

import chain
import record

TOP = os.path.dirname(os.path.dirname(os.path.realpath(__file__)))
PROGRAM = "crates/asgi_demo/out/asgi_demo"
CI = ["rt", "ci"]
# What `rt ci` says of a crate that is proved, by itself or by what an earlier run on this machine proved of the same files.
PROVED = r"rt: (\w+)(?: proved| is kept: an earlier run on this machine proved the same .*)"
# For how long further edits are begun: a gate that a new toolchain, or a change below all crates, makes too long for CI would never end.
MINUTES = 90
# What each part runs, and what its sum counts. The last one runs beside `rt ci`, from whose beginning on.
PARTS = [
    ("crates in the layout", ["python3", "tests/layout.py"]),
    ("documents read", ["python3", "tests/documents.py"]),
    ("self-tests of the gate's scripts", ["python3", "tests/documents.py", "--self-test"]),
    ("sources read", ["python3", "tests/sources.py"]),
    ("names in documents", ["python3", "tools/proved.py", "--check"]),
    ("self-tests of the gate's scripts", ["python3", "tests/sources.py", "--self-test"]),
    ("self-tests of the gate's scripts", ["python3", "tools/proved.py", "--self-test"]),
    ("self-tests of the gate's scripts", ["python3", "tests/chain.py", "--self-test"]),
    ("self-tests of the gate's scripts", ["python3", "tests/instructions.py", "--self-test"]),
    ("self-tests of the gate's scripts", ["python3", "tests/edits_self_test.py"]),
    ("self-tests of the gate's scripts", ["python3", "tools/progress.py", "--self-test"]),
    ("self-tests of the gate's scripts", ["python3", "tools/crate.py", "--self-test"]),
    ("what documents say of the sources", ["python3", "tests/said.py"]),
    ("edits that can be applied", ["python3", "tests/must_fail.py", "--read"]),
    ("rt ci", CI),
    ("runs with an allocation refused", ["python3", "tests/memory.py"]),
    ("runs with an allocation refused", ["python3", "tests/memory_served.py"]),
    ("tests that name their servers", ["python3", "tests/servers_of.py", "--table"]),
    ("tests from outside", ["python3", "tests/outside.py"]),
    ("counts of instructions", ["python3", "tests/instructions.py", PROGRAM]),
    ("self-tests of the gate's scripts", ["python3", "tests/fuzz.py", "--self-test", PROGRAM]),
    ("inputs of a fuzzer", ["python3", "tests/fuzz.py", "--seconds", "60", PROGRAM]),
    ("self-tests of the gate's scripts", ["python3", "tests/fuzz_sockets.py", "--self-test", PROGRAM]),
    ("clients of a fuzzer", ["python3", "tests/fuzz_sockets.py", "--seconds", "30", PROGRAM]),
    ("further edits refused", ["python3", "tests/must_fail.py", "--beside", "--minutes", str(MINUTES)]),
]
SUM = re.compile(r"(\d+) passed, (\d+) failed")
# What a check takes at the most, in bytes, by what was seen: 2 to 4 GB.
CHECK = 4_000_000_000


def side_by_side():
    """Returns how many checks go side by side: one a processor, as many as memory holds.

    By itself `rt` plans with up to 16 GB for a check over large crates, so that it would run one at a time."""
    with open("/proc/meminfo", encoding="utf-8") as it:
        free = 1024 * int(re.search(r"MemAvailable:\s+(\d+)", it.read())[1])
    return max(1, min(len(os.sched_getaffinity(0)), free // CHECK))


def run(words, heard=lambda line: None):
    """Runs a part, shows what it prints, and has each line heard. Returns its status and its lines."""
    lines = []
    how = {"cwd": TOP, "stdin": subprocess.DEVNULL, "stdout": subprocess.PIPE, "stderr": subprocess.STDOUT}
    with subprocess.Popen(words, errors="replace", **how) as ran:
        for line in ran.stdout:
            print(line, end="", flush=True)
            lines.append(line.rstrip("\n"))
            heard(lines[-1])
    return ran.returncode, lines


class Beside:
    """A part that runs beside another one, which it is told the end of, and is shown when its turn comes."""

    def __init__(self, words):
        how = {"cwd": TOP, "stdin": subprocess.PIPE, "stdout": subprocess.PIPE, "stderr": subprocess.STDOUT}
        self.ran = subprocess.Popen(words, errors="replace", **how)
        self.lines, self.has_turn, self.alone = [], False, threading.Lock()
        self.reads = threading.Thread(target=self.read)
        self.reads.start()

    def read(self):
        for line in self.ran.stdout:
            with self.alone:
                self.lines.append(line.rstrip("\n"))
                if self.has_turn:
                    print(line, end="", flush=True)

    def hear(self, line):
        """Tells it the name of a crate that the other part says is proved."""
        proved = re.fullmatch(PROVED, line)
        if proved:
            self.tell(f"{proved[1]}\n")

    def tell(self, text):
        """Writes to it, as long as it runs."""
        try:
            self.ran.stdin.write(text)
            self.ran.stdin.flush()
        except OSError:
            pass

    def end(self):
        """Tells it that the other part has ended."""
        try:
            self.ran.stdin.close()
        except OSError:
            pass

    def run(self):
        """Shows what it prints, until it has ended. Returns its status and its lines."""
        with self.alone:
            print(*self.lines, sep="\n", flush=True)
            self.has_turn = True
        self.reads.join()
        return self.ran.wait(), self.lines


def counts_of_ci(lines, failed):
    """Returns what the numbers of `rt ci` are. Its own sum has each crate's proofs and tests as one.

    What an earlier run on this machine proved of the same files is told in other words, and counts as well; of tests that
    it proved nothing is told but that they ran. An edit that is refused only by a limit of the prover, or that can't be
    tried, is no failure of `rt ci`, and is one here."""
    crates = {it[1] for it in (re.fullmatch(PROVED, line) for line in lines) if it}
    suites = {it[1] for it in (re.fullmatch(r"rt: (\w+): its tests (?:are proved|passed|FAILED)", line) for line in lines) if it}
    said = [it for it in lines if re.match(r"rt: must-fail \S+: refused, as it must be", it)]
    limits = sum("refused, as it must be (only by a limit" in it for it in said)
    bad = sum(bool(re.match(r"rt: [^:]*: BAD EDIT: ", it)) for it in lines)
    tests = sum(bool(re.fullmatch(r"test \S+ \.\.\. ok", it)) for it in lines)
    runs = sum(" ran" in it and it.endswith("wrote what its file stdout has") for it in lines)
    faults = sum(bool(re.fullmatch(r"test \S+ \.\.\. FAILED", it)) for it in lines)
    return {
        "crates proved": (len(crates), 0),
        "crates' tests proved": (len(suites), 0),
        "edits refused": (len(said) - limits, limits + bad),
        "tests": (tests, faults),
        "stored runs": (runs, 0),
        "what rt ci says has failed": (0, failed),
    }


def counts_of(what, status, lines):
    """Returns what a part's numbers are, each with how many passed and failed. One without a sum has failed."""
    found = [it for it in map(SUM.fullmatch, lines) if it]
    if not found:
        return {what: (0, 1)}
    passed, failed = int(found[-1][1]), int(found[-1][2])
    failed = failed or int(status != 0 or not passed)
    return counts_of_ci(lines, failed) if what == "rt ci" else {what: (passed, failed)}


def tell(lines):
    """Shows the lines at the end of a run. They stay among the temporary files, too, since a fresh clone is often gone before they are read."""
    print(*lines, sep="\n", flush=True)
    try:
        with open(f"{tempfile.gettempdir()}/nomtsage-gate.txt", "w", encoding="utf-8") as it:
            print(f"gate of {record.commit_of(TOP) or 'a tree without git'}, {time.strftime('%Y-%m-%d %H:%M')}", *lines, sep="\n", file=it)
    except OSError as error:
        print(f"(not kept among the temporary files: {error.strerror})", flush=True)


def main():
    os.environ.setdefault("RT_JOBS", str(side_by_side()))
    counts, times, notes, began = {}, [], [], time.time()
    with chain.Watch(chain.LOG) as watch:
        for what, words in PARTS:
            started, idle = time.time(), chain.idle_ticks()
            print(f"== {' '.join(words)}", flush=True)
            if words == CI:
                beside = Beside(PARTS[-1][1])
            heard = beside.hear if words == CI else lambda line: None
            status, lines = beside.run() if words == PARTS[-1][1] else run(words, heard)
            if words == CI:
                beside.end()
            watch.part(" ".join(words), started, idle)
            times.append((" ".join(words), time.time() - started))
            notes += [it for it in lines if what == PARTS[-1][0] and it.startswith("edits: ")]
            for name, (passed, failed) in counts_of(what, status, lines).items():
                before = counts.get(name, (0, 0))
                counts[name] = (before[0] + passed, before[1] + failed)
    minutes = [*times, (f"in all, {len(os.sched_getaffinity(0))} processors, {os.environ['RT_JOBS']} checks side by side", time.time() - began)]
    said = ["== the checks that the long parts waited for", *chain.told_of(chain.LOG), "== sum"]
    said += [f"{seconds / 60:6.1f} minutes: {name}" for name, seconds in minutes]
    said += [f"{passed:6} {name}{f', {failed} FAILED' if failed else ''}" for name, (passed, failed) in counts.items()]
    passed, failed = (sum(it[at] for it in counts.values()) for at in (0, 1))
    tell([*said, *notes, f"{passed} passed, {failed} failed"])
    return 1 if failed or not passed else 0


def told_parts():
    """Returns the parts, each with what it counts and the first line of what its script says of itself."""
    lines = []
    for what, words in PARTS:
        said = "proves each crate and its tests, tries the edits of crates/*/must-fail, and runs the tests and the programs"
        if words != CI:
            with open(f"{TOP}/{words[1]}", encoding="utf-8") as it:
                said = ast.get_docstring(ast.parse(it.read())).split("\n")[0]
        lines += [" ".join(words), f"    {what}: {said}"]
    return lines


if __name__ == "__main__":
    if sys.argv[1:] == ["--parts"]:
        print(*told_parts(), sep="\n")
        sys.exit(0)
    sys.exit(main())

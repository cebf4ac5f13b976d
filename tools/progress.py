#!/usr/bin/env python3
"""progress.py --self-test: what `rt` does while it proves, told in one line in the place of its hundreds.

`quiet` runs a command of `rt`, writes all that it prints into a file, and shows which crate is being proved, how far it is, and
how long it has taken: on a terminal in one line that changes, and else in a line for each crate and one each five minutes.
tests/demo and tools/crate.py use it. With --self-test it reads a short log of its own.
"""

import collections
import glob
import os
import queue
import re
import shutil
import signal
import subprocess
import sys
import threading
import time

TOP = os.path.dirname(os.path.dirname(os.path.realpath(__file__)))
# How many lines of a log are shown of a run that failed.
LAST = 20
# Where nothing else is to be told, a line is written this often, in seconds, so that one sees that it goes on.
OFTEN = 300
# No time is reckoned before this share of the work is done, since the first crates say little of the others.
TELLING = 0.1

# What `rt` says while it proves a crate: that it begins, how far it is, and that it is done.
BEGINS = re.compile(r"rt: (?:chose --jobs \d+ for (\w+)|(\w+): begins with what a check kept in .*)")
SO_FAR = re.compile(r"so far: (\d+) of (\d+) functions checked\b.*")
DONE = re.compile(r"crate (\w+): modules loaded=.*")


def text_of(path):
    with open(path, encoding="utf-8", errors="replace") as it:
        return it.read()


def below(crates, name):
    """Returns, by the text of crates.txt, the repository's crates below this one in the order in which `rt` builds them, and then the crate itself."""
    lines = dict(it.split(":", 1) for it in crates.splitlines() if ":" in it and not it.startswith("#"))
    of, found = {head.split()[0]: words.split() for head, words in lines.items()}, []

    def add(crate):
        for dep in of.get(crate, ()):
            if dep in of:
                add(dep)
        if crate not in found:
            found.append(crate)

    add(name)
    return found


def lines_of(crate):
    """Returns how many lines of code a crate has, by which its share of the whole work is reckoned."""
    files = glob.glob(f"{TOP}/crates/{crate}/src/**/*.rt", recursive=True)
    return 1 + sum(text_of(it).count("\n") for it in files if not re.search(r"/tests(\.rt$|/)", it))


def minutes(seconds):
    number = round(seconds / 60)
    if not number:
        return "less than a minute"
    return f"{number} minute{'' if number == 1 else 's'}"


class Progress:
    """How far `rt` is, by the lines that it prints."""

    def __init__(self, crates, work):
        # The crates in their order, what the work of each is, which was proved in this run, which is being proved, and how much of it.
        self.crates, self.work, self.proved, self.at, self.part = crates, work, set(), 0, 0.0
        self.has_begun = False

    def hear(self, line):
        """Takes a line. Returns whether another crate is being proved now."""
        begins, so_far, done = (it.fullmatch(line) for it in (BEGINS, SO_FAR, DONE))
        name = begins and (begins[1] or begins[2])
        is_first = not self.has_begun and bool(begins or so_far or done)
        self.has_begun = self.has_begun or is_first
        if name in self.crates and self.crates.index(name) != self.at:
            self.at, self.part = self.crates.index(name), 0.0
            return True
        if so_far and int(so_far[2]):
            self.part = int(so_far[1]) / int(so_far[2])
        if done and done[1] in self.crates:
            self.proved.add(done[1])
            self.at, self.part = self.crates.index(done[1]) + 1, 0.0
            return self.at < len(self.crates)
        return is_first

    def share(self):
        """Returns how much of the work of this run is done. A crate that was passed over was built by an earlier run, and is no work."""
        kept = {it for it in self.crates[: self.at] if it not in self.proved}
        whole = sum(self.work[it] for it in self.crates if it not in kept)
        done = sum(self.work[it] for it in self.proved)
        if self.at < len(self.crates):
            done += self.part * self.work[self.crates[self.at]]
        return done / whole if whole else 1.0

    def told(self, seconds):
        """Returns the line for so many seconds after the beginning."""
        if not self.has_begun:
            return f"reading the sources; {minutes(seconds)} gone"
        if self.at >= len(self.crates):
            return f"all {len(self.crates)} crates are proved, {minutes(seconds)} gone"
        of, share = "", self.share()
        if share >= TELLING and seconds >= 60:
            of = f" of about {max(1, round(seconds / share / 60))}"
        what = f"crate {self.at + 1} of {len(self.crates)}: {self.crates[self.at]}"
        far = f", {round(100 * self.part)} % of it" if self.part else ""
        return f"{what}{far}; {minutes(seconds)} gone{of}"


class Shown:
    """The line on the terminal, or the lines in a file or a pipe."""

    def __init__(self, out=sys.stdout):
        self.out, self.is_terminal, self.last, self.written = out, out.isatty(), "", 0.0

    def show(self, text, seconds, is_new):
        if self.is_terminal:
            width = shutil.get_terminal_size().columns - 1
            print(f"\r{text[:width]:<{width}}", end="", file=self.out, flush=True)
        elif is_new or seconds - self.written >= OFTEN:
            print(text, file=self.out, flush=True)
            self.written = seconds

    def end(self):
        if self.is_terminal:
            print(file=self.out, flush=True)


def read_into(stream, lines):
    for line in stream:
        lines.put(line)
    lines.put(None)


def stop(ran):
    """Ends a command and all that it started: `rt` puts its files in order at a signal."""
    for how in (signal.SIGTERM, signal.SIGKILL):
        try:
            os.killpg(ran.pid, how)
        except ProcessLookupError:
            pass
        try:
            ran.wait(timeout=20)
            return
        except subprocess.TimeoutExpired:
            pass


def quiet(words, folder, log, name, until=None):
    """Runs a command of `rt` that proves the crate `name` and those below it, in this folder, and writes what it prints into the file `log`.

    It is stopped once it prints the line `until`, which counts as a good end. Returns its status, the lines that it printed
    last, and the seconds that it took."""
    crates = below(text_of(f"{TOP}/crates.txt"), name)
    progress, shown = Progress(crates, {it: lines_of(it) for it in crates}), Shown()
    os.makedirs(os.path.dirname(log), exist_ok=True)
    lines, began, last, is_new, is_there = queue.Queue(), time.monotonic(), collections.deque(maxlen=LAST), True, False
    how = {"cwd": folder, "stdin": subprocess.DEVNULL, "stdout": subprocess.PIPE, "stderr": subprocess.STDOUT, "start_new_session": True}
    with open(log, "w", encoding="utf-8") as it, subprocess.Popen(words, errors="replace", **how) as ran:
        threading.Thread(target=read_into, args=(ran.stdout, lines), daemon=True).start()
        try:
            while True:
                try:
                    line = lines.get(timeout=1)
                    if line is None:
                        break
                    it.write(line)
                    it.flush()
                    last.append(line.rstrip("\n"))
                    is_new = progress.hear(line.rstrip("\n")) or is_new
                    if until and line.startswith(until):
                        is_there = True
                        stop(ran)
                        break
                except queue.Empty:
                    pass
                if lines.empty():
                    shown.show(progress.told(time.monotonic() - began), time.monotonic() - began, is_new)
                    is_new = False
        except KeyboardInterrupt:
            stop(ran)
            shown.end()
            print(f"stopped; what is proved is kept, and the next run goes on from there. The prover's output: {shown_path(log)}")
            sys.exit(130)
    shown.end()
    return 0 if is_there else ran.returncode, [*last], time.monotonic() - began


def shown_path(path):
    """Returns a path as one would type it at the top of the repository."""
    return os.path.relpath(path, TOP) if path.startswith(f"{TOP}/") else path


def tell_failure(what, log, last):
    """Says that a run failed: its last lines, and where all of them are."""
    print(f"{what}. The last lines of the prover's output, of which the whole is in {shown_path(log)}:", *(f"  {it}" for it in last), sep="\n")


# A log of three crates of 100, 300 and 200 lines, the first of which was built before: the lines are those of `rt run`, shortened. After
# each line stands what is told a minute later than before.
SAMPLE = """rt: chose --jobs 4 for asgi_types
so far: 0 of 80 functions checked; the verdict comes last
so far: 40 of 80 functions checked
./proofs/state/+get/Answers.antt:18:43: note: large solution: the implicit argument {b} was filled in with a large term
fn asgi_types::state::State::get: proved
library asgi_io: modules loaded=920 checked=0
crate asgi_types: modules loaded=2308 checked=2578
logic=proved functions=130 sum=dac8208d650f15bf native=nat,char,string
rt: asgi_demo: begins with what a check kept in /srv/other/crates/asgi_demo
so far: 22 of 55 functions checked
crate asgi_demo: modules loaded=955 checked=1599
rt: running out/asgi_demo; to give it other input, run that file yourself
"""
TOLD = """crate 2 of 3: asgi_types; 1 minute gone
crate 2 of 3: asgi_types; 2 minutes gone
crate 2 of 3: asgi_types, 50 % of it; 3 minutes gone of about 10
crate 2 of 3: asgi_types, 50 % of it; 4 minutes gone of about 13
crate 2 of 3: asgi_types, 50 % of it; 5 minutes gone of about 17
crate 2 of 3: asgi_types, 50 % of it; 6 minutes gone of about 20
crate 3 of 3: asgi_demo; 7 minutes gone of about 12
crate 3 of 3: asgi_demo; 8 minutes gone of about 13
crate 3 of 3: asgi_demo; 9 minutes gone of about 15
crate 3 of 3: asgi_demo, 40 % of it; 10 minutes gone of about 13
all 3 crates are proved, 11 minutes gone
all 3 crates are proved, 12 minutes gone
""".splitlines()
CRATES = "# lowest first\nasgi_io:\nasgi_types: asgi_io httparse\nother: asgi_io\nasgi_demo status=2: asgi_types asgi_io itoa\n"


def self_test():
    """Returns what of the sample is told wrongly, and how many lines there are."""
    order = below(CRATES, "asgi_demo")
    wrong = [] if order == ["asgi_io", "asgi_types", "asgi_demo"] else [f"self-test: the crates below are {order}"]
    progress = Progress(["asgi_io", "asgi_types", "asgi_demo"], {"asgi_io": 100, "asgi_types": 300, "asgi_demo": 200})
    wrong += ["self-test: a crate is told before any begins"] * (progress.told(0) != "reading the sources; less than a minute gone")
    for number, (line, wanted) in enumerate(zip(SAMPLE.splitlines(), TOLD), 1):
        progress.hear(line)
        found = progress.told(60 * number)
        wrong += [f"self-test: after '{line}' is told '{found}' in place of '{wanted}'"] * (found != wanted)
    return wrong, 2 + len(TOLD)


def main(words):
    if words != ["--self-test"]:
        sys.exit(__doc__)
    wrong, number = self_test()
    for it in wrong:
        print(f"FAILED: {it}")
    print(f"{number - len(wrong)} passed, {len(wrong)} failed")
    return 1 if wrong else 0


if __name__ == "__main__":
    sys.exit(main(sys.argv[1:]))

#!/usr/bin/env python3
"""chain.py [--self-test] [LOG]: which checks a run of the gate waited for, by its log (tests/out/checks where none is given).

tests/gate.py writes the log while it runs, by looking each second at the prover's processes: for each check its crate, whether
it was the crate's proof, its tests or its edits, when it began and ended, its processor seconds and the memory that it held at
the most; and for each part of the gate when it began and ended, and how long each processor was idle.

Of each part of a minute or more it prints the chain of the checks that ended last, each after the last one that it had to
wait for, with how long it then waited for a processor; how long each processor was idle; and what the checks took, the
dearest crates first. With --self-test it reads a short log of its own.
"""

import os
import re
import sys
import threading
import time

TOP = os.path.dirname(os.path.dirname(os.path.realpath(__file__)))
LOG = f"{TOP}/tests/out/checks"
TICKS = os.sysconf("SC_CLK_TCK")
# Parts that took fewer seconds are not told.
SHORT = 60
# What is checked where a check leaves the processors to others.
BESIDE = "edits_beside"


def text_of(path):
    with open(path, encoding="utf-8", errors="replace") as it:
        return it.read()


def idle_ticks():
    """Returns how long each processor that there is to use has been idle since the machine began."""
    found = {}
    for line in text_of("/proc/stat").splitlines():
        words = line.split()
        if re.fullmatch(r"cpu\d+", words[0]) and int(words[0][3:]) in os.sched_getaffinity(0):
            found[words[0]] = int(words[4]) + int(words[5])
    return found


def check_of(process):
    """Returns what the system says of a process that checks a crate: the crate, what is checked, when it began, its processor seconds and its memory, or None."""
    try:
        words = text_of(f"/proc/{process}/cmdline").split("\0")
        if os.path.basename(words[0]) != "rattle" or words[1] not in ("check", "build") or "--crate-name" not in words:
            return None
        fields = text_of(f"/proc/{process}/stat").rpartition(")")[2].split()
        if os.path.basename(text_of(f"/proc/{fields[1]}/cmdline").split("\0")[0]) == "rattle":
            # A copy that a check made of itself is counted with that check.
            return None
        folder = os.readlink(f"/proc/{process}/cwd")
        memory = int(re.search(r"VmHWM:\s+(\d+)", text_of(f"/proc/{process}/status"))[1]) >> 10
    except (OSError, TypeError, IndexError):
        return None
    kind = "edits" if "/rt-edit-" in folder else "tests" if "--test" in words else "build" if "--crate-checked" in words else "proof"
    kind = BESIDE if kind == "edits" and int(fields[16]) > 0 else kind
    began = time.time() - float(text_of("/proc/uptime").split()[0]) + int(fields[19]) / TICKS
    return words[words.index("--crate-name") + 1], kind, began, sum(map(int, fields[11:15])) / TICKS, memory


class Watch:
    """Watches a run of the gate, and writes its log."""

    def __init__(self, log):
        os.makedirs(os.path.dirname(log), exist_ok=True)
        self.log, self.running, self.is_over = open(log, "w", encoding="utf-8"), {}, threading.Event()
        self.thread = threading.Thread(target=self.look_on, daemon=True)

    def __enter__(self):
        self.thread.start()
        return self

    def __exit__(self, *_):
        self.is_over.set()
        self.thread.join()
        self.log.close()

    def look_on(self):
        while not self.is_over.wait(1):
            self.look()
        self.running, ended = {}, self.running
        self.write(ended)

    def look(self):
        found = {it: check for it in os.listdir("/proc") if it.isdigit() for check in [check_of(it)] if check}
        now = time.time()
        ended = {it: self.running.pop(it) for it in [*self.running] if it not in found or found[it][0] != self.running[it][0][0]}
        self.running.update({it: (check, now) for it, check in found.items()})
        self.write(ended)

    def write(self, ended):
        for (crate, kind, began, seconds, memory), last in ended.values():
            print(f"check {crate} {kind} {began:.1f} {last:.1f} {seconds:.1f} {memory}", file=self.log, flush=True)

    def part(self, name, began, idle):
        """Notes a part of the gate, which began then, with these idle ticks of the processors."""
        now = idle_ticks()
        times = ",".join(f"{(now[it] - idle[it]) / TICKS:.0f}" for it in now if it in idle)
        print(f"part {name.replace(' ', '_')} {began:.1f} {time.time():.1f} {times}", file=self.log, flush=True)


def below_of(crates):
    """Returns, by the text of crates.txt, the crates below each crate."""
    lines = dict(it.split(":", 1) for it in crates.splitlines() if ":" in it and not it.startswith("#"))
    of = {name.split()[0]: words.split() for name, words in lines.items()}
    found = {}
    for name in of:
        left, found[name] = [name], set()
        while left:
            new = {it for it in of[left.pop()] if it in of} - found[name]
            found[name] |= new
            left += new
    return found


def chain_of(checks, below):
    """Returns the chain that ends with the last of these checks, from its first one on: each with the seconds that it waited after the one before, None for the first."""
    at, chain = max(checks, key=lambda it: it[3]), []
    while at:
        crate, kind, began = at[:3]
        # The edits of `rt ci` wait for the proof and the tests of their own crate too. (The log is a second coarse.)
        waits = [it for it in checks if it[3] <= began + 2 and it is not at]
        waits = [it for it in waits if it[1] == "proof" and it[0] in below.get(crate, ()) or it[0] == crate and kind in ("edits", "build") and it[1] in ("proof", "tests")]
        before = max(waits, key=lambda it: it[3], default=None)
        chain.append((at, max(0, began - before[3]) if before else None))
        at = before
    return chain[::-1]


def told(log, crates):
    """Returns the lines that are told of a log."""
    below, checks, parts, lines = below_of(crates), [], [], []
    for line in log.splitlines():
        words = line.split()
        if words[0] == "check":
            checks.append((words[1], words[2], *map(float, words[3:])))
        else:
            parts.append((words[1].replace("_", " "), float(words[2]), float(words[3]), [int(it) / 60 for it in words[4].split(",")]))
    for name, began, ended, idle in parts:
        own = [it for it in checks if began <= it[3] <= ended + 1]
        # Nothing waited for edits that were tried beside the part.
        last = [it for it in own if it[1] != BESIDE] or own
        if ended - began < SHORT or not own:
            continue
        lines.append(f"{name}: {(ended - began) / 60:.1f} minutes; its processors were idle for {', '.join(f'{it:.1f}' for it in idle)}; the checks that ended last:")
        for (crate, kind, start, end, seconds, memory), waited in chain_of(last, below):
            after = f"it waited {waited / 60:.1f}, and " if waited is not None and waited > 5 else ""
            lines.append(f"{(start - began) / 60:6.1f} {crate}, its {kind.replace('_', ' ')}: {after}took {(end - start) / 60:.1f} ({seconds / 60:.1f} of a processor)")
        lines.append("  what the checks took of a processor, in minutes, and the most memory of one, in MB:")
        sums = {}
        for crate, kind, _, _, seconds, memory in own:
            number, taken, most = sums.get((crate, kind), (0, 0, 0))
            sums[crate, kind] = number + 1, taken + seconds, max(most, memory)
        for (crate, kind), (number, taken, most) in sorted(sums.items(), key=lambda it: -it[1][1]):
            lines.append(f"{taken / 60:6.1f} {crate}, its {kind.replace('_', ' ')}{f' ({number} checks)' if number > 1 else ''}, {most:.0f}")
        lines.append(f"{sum(it[4] for it in own) / 60:6.1f} in all")
    return lines


def told_of(log):
    """Returns the lines that are told of the log in this file."""
    return told(text_of(log), text_of(f"{TOP}/crates.txt"))


# A log of two processors: `high` waits for `low` and then for a processor, its tests end last but one, and its edits last but for those of `low`, which leave
# it the processors.
CRATES = "# lowest first\nlow:\nbeside:\nhigh: low httparse\n"
SAMPLE = """part sources_read 0.0 4.0 3,3
check low proof 5.0 65.0 58.0 900
check beside proof 5.0 125.0 119.0 800
check high tests 65.5 190.0 120.0 1000
check high proof 125.0 245.0 118.0 1100
check high edits 245.5 305.0 30.0 700
check high edits 245.5 275.0 29.0 600
check low edits_beside 66.0 305.5 24.0 500
part rt_ci 4.0 306.0 0,60
"""
TOLD = """rt ci: 5.0 minutes; its processors were idle for 0.0, 1.0; the checks that ended last:
   0.0 low, its proof: took 1.0 (1.0 of a processor)
   2.0 high, its proof: it waited 1.0, and took 2.0 (2.0 of a processor)
   4.0 high, its edits: took 1.0 (0.5 of a processor)
  what the checks took of a processor, in minutes, and the most memory of one, in MB:
   2.0 high, its tests, 1000
   2.0 beside, its proof, 800
   2.0 high, its proof, 1100
   1.0 high, its edits (2 checks), 700
   1.0 low, its proof, 900
   0.4 low, its edits beside, 500
   8.3 in all"""


def self_test():
    """Returns how many of the log's lines are told as they must be, and says which are not."""
    found, wanted = told(SAMPLE, CRATES), TOLD.splitlines()
    wrong = [f"{has!r} in place of {should!r}" for has, should in zip(found, wanted) if has != should]
    wrong += [f"{len(found)} lines in place of {len(wanted)}"] * (len(found) != len(wanted))
    for it in wrong:
        print(f"FAILED: self-test: {it}")
    print(f"{len(wanted) - len(wrong)} passed, {len(wrong)} failed")
    return 1 if wrong else 0


def main(words):
    if words == ["--self-test"]:
        return self_test()
    print(*told_of(words[0] if words else LOG), sep="\n")
    return 0


if __name__ == "__main__":
    sys.exit(main(sys.argv[1:]))

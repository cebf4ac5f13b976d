#!/usr/bin/env python3
"""cost.py NAME [SECONDS]: what each function of a crate costs to check, its tests included, in processor seconds.

The crate is checked from nothing, at one job, over its libraries in out/. A line a function that took SECONDS (8 where none
are given) or more, slowest first; then the sum. The first function in order has the start of the check in its figure,
and a figure may have some of what is shared with the function after it. It is no part of the gate.
"""

import os
import re
import subprocess
import sys

from toolchain import ONE_JOB, crates_in, load_rt

TOP = os.path.dirname(os.path.dirname(os.path.realpath(__file__)))


def fields_of(process):
    """Returns what the system says of a process after its name, or None once it has ended."""
    try:
        with open(f"/proc/{process}/stat", encoding="utf-8", errors="replace") as it:
            return it.read().rpartition(")")[2].split()
    except OSError:
        return None


def processor_seconds(process):
    """Returns the processor seconds that a process and those below it have taken."""
    fields = {it: fields_of(it) for it in os.listdir("/proc") if it.isdigit()}
    taken, left = 0, [str(process)]
    while left:
        at = left.pop()
        if fields.get(at):
            taken += sum(int(it) for it in fields[at][11:15])
        left += [it for it, has in fields.items() if has and has[1] == at]
    return taken / os.sysconf("SC_CLK_TCK")


def measured(words, folder):
    """Yields each function as its check ends, with what it took. Returns nothing of the verdict."""
    last = 0.0
    how = {"cwd": folder, "stdin": subprocess.DEVNULL, "stdout": subprocess.PIPE, "stderr": subprocess.STDOUT}
    with subprocess.Popen(words, errors="replace", **how) as ran:
        for line in ran.stdout:
            found = re.match(r"checked (.*), \d+ of \d+", line)
            if found:
                now = processor_seconds(ran.pid)
                yield found[1], now - last
                last = now
            elif ": error" in line or line.startswith("logic="):
                print(line, end="")


def main(words):
    name, least = words[0], float(words[1]) if len(words) > 1 else 8.0
    rt = load_rt()
    crate = next(it for it in crates_in(rt, TOP) if it.name == name)
    for below in crate.below():
        if below.build_rlib(ONE_JOB, anew=False):
            return 1
    given = crate.words(ONE_JOB, tests=True, keeps=False)
    found = sorted(measured([rt.rtlib.RATTLE, "check", *given, "--progress"], crate.folder), key=lambda it: -it[1])
    for function, seconds in found:
        if seconds >= least:
            print(f"{seconds:7.1f} {function}")
    print(f"{sum(it[1] for it in found):7.1f} in all, {len(found)} functions")
    return 0


if __name__ == "__main__":
    sys.exit(main(sys.argv[1:]))

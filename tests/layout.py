#!/usr/bin/env python3
"""layout.py: whether each crate's files are as `rt fmt` writes them.

`rt ci` proves no crate that is not, and says so only when it comes to that crate. This formats a copy, and changes nothing.
The last line is 'N passed, M failed', where a crate is one.
"""

import os
import shutil
import subprocess
import sys
import tempfile

TOP = os.path.dirname(os.path.dirname(os.path.realpath(__file__)))


def formatted(folder):
    """Returns the files of the crate that `rt fmt` changes, and what else it says where it fails."""
    ran = subprocess.run(["rt", "fmt"], cwd=folder, stdin=subprocess.DEVNULL, capture_output=True, text=True, errors="replace")
    lines = (ran.stdout + ran.stderr).splitlines()
    changed = [it.removeprefix("rt: formatted ") for it in lines if it.startswith("rt: formatted ")]
    return changed or (lines or ["rt fmt failed"] if ran.returncode else [])


def main():
    passed = failed = 0
    with tempfile.TemporaryDirectory() as copy:
        crates = os.path.join(copy, "crates")
        shutil.copytree(os.path.join(TOP, "crates"), crates, ignore=shutil.ignore_patterns("out"))
        shutil.copy(os.path.join(TOP, "crates.txt"), copy)
        for crate in sorted(os.listdir(crates)):
            found = formatted(os.path.join(crates, crate))
            for it in found:
                print(f"FAILED: {crate}: {it} is not as rt fmt writes it")
            passed += not found
            failed += bool(found)
    print(f"{passed} passed, {failed} failed")
    return 1 if failed or not passed else 0


if __name__ == "__main__":
    sys.exit(main())

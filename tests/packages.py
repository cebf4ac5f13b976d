"""Debian's packages that tests take, installed by apt-get where they are missing.

Scripts run beside one another, and apt-get turns away whoever comes while another one installs: so one waits for the other here."""

import fcntl
import os
import shutil
import subprocess
import sys
import tempfile

# Of Debian's own Python, which is another one than may stand first on the PATH.
PYTHON = "/usr/bin/python3"


def of(programs):
    """Returns which packages are missing of those that have these programs, given as {program: package}."""
    return [package for program, package in programs.items() if not shutil.which(program)]


def has_websockets():
    """Returns whether Debian's Python has `websockets`."""
    words = [PYTHON, "-c", "import websockets"]
    return os.path.isfile(PYTHON) and subprocess.run(words, stderr=subprocess.DEVNULL, check=False).returncode == 0


def websockets():
    """Returns which packages are missing for `websockets`."""
    return [] if has_websockets() else ["python3", "python3-websockets"]


def go_to_debians_python():
    """Goes on in Debian's Python, if it has `websockets`."""
    if has_websockets() and os.path.realpath(sys.executable) != os.path.realpath(PYTHON):
        os.execv(PYTHON, [PYTHON, *sys.argv])


def install(missing):
    """Installs the packages that `missing()` names, each by itself: one that can't be had does not keep the others away.

    None of them is to serve by itself, so that apt-get is told that the system is not one that runs services."""
    if not missing() or not shutil.which("apt-get"):
        return
    with open(f"{tempfile.gettempdir()}/nomtsage-packages", "w", encoding="ascii") as lock:
        fcntl.flock(lock, fcntl.LOCK_EX)
        names = missing()
        how = {"stdout": sys.stderr, "check": False, "env": {**os.environ, "DEBIAN_FRONTEND": "noninteractive", "RUNLEVEL": "1"}}
        if names:
            subprocess.run(["apt-get", "update", "-qq"], **how)
        for name in names:
            subprocess.run(["apt-get", "install", "-y", "-qq", "--no-install-recommends", name], **how)

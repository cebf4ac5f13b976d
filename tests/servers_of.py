#!/usr/bin/env python3
"""The servers that tests from outside ask, and how many tests each of them has.

servers_of.py --table prints, of each script that names its servers by this table, how many of its tests each server has, and which
tests are not for one of them, and why. The last line is 'N passed, M failed', where each test on each of its servers is one that
passed, and a line of `NOT_FOR` that names no such test is one that failed.

A class of tests says by `asks(..)` which servers its tests run on: the class is then a mould, and for each server there is one of
that mould, whose `server` is its name.
"""

import importlib
import inspect
import os
import re
import socket
import subprocess
import sys
import threading
import time
import unittest
from collections import namedtuple

TOP = os.path.dirname(os.path.dirname(os.path.realpath(__file__)))
DEMO = f"{TOP}/crates/asgi_demo/out/asgi_demo"
SERVER = f"{TOP}/crates/server_for_tests/out/server_for_tests"
SECONDS = 60

# `Server` by itself; the same in four threads; workers, each task in a thread beside its worker; a program for each connection,
# which reads and writes standard input and output.
ONE, FOUR, WORKERS, ONCE = "one thread", "four threads", "workers", "once"
SERVERS = (ONE, FOUR, WORKERS)
# How each is started, for a port, a number of connections and an application.
STARTS = {
    ONE: lambda port, count, app: [SERVER, str(port), str(count), app],
    FOUR: lambda port, count, app: [SERVER, str(port), str(count), app, "threads=4"],
    WORKERS: lambda port, count, app: [DEMO, "serve", str(port), str(count), app],
}
# What each line of the log begins with, if the clock tells it: its time (RFC 3339, section 5.6), in UTC and with milliseconds.
MOMENT = r"\d{4}-\d\d-\d\dT\d\d:\d\d:\d\d\.\d{3}Z "
# The first column is printed by workers for a connection, the others stand in the log of a program over `Server`.
REPORT = re.compile(r"(?P<number>\d+) (?P<report>\d+ [a-z].*)|(?:" + MOMENT + r")?\[INFO  \S+\] connection (?P<line>\d+): (?:(?P<host>\S+) port (?P<port>\d+), )?(?P<requests>\d+) requests, (?P<how>.*)")
# What a reactor tells: of bytes that have not left, of connections that it closed as they came, and of newcomers that wait.
NOTES = re.compile(r"\d+ bytes for \S+ port \d+ (could not be sent|were not taken in time)|\d+ more clients were not sent all|\d+ connections were closed as they came|newcomers have waited for")
LISTENS = re.compile(MOMENT + r"\[INFO  \S+\] listening on http://\S+")
# What stands in the place of lines that found no memory, or no room.
LOST = re.compile(r"(?:1 line of the log was|(\d+) lines of the log were) lost")
# What it tells at the start, if there may be fewer descriptors than connections: of a machine, not of what was asked.
ROOM = re.compile(r"(\d+) descriptors \(ulimit -n\) do not suffice for (\d+) connections at the same time")
# What a server says at the end, where the listening socket has failed: workers in their own words, the others with the system's.
FAILED = {
    WORKERS: lambda error: "device fault",
    ONE: lambda error: f"no connection can be accepted any more: {os.strerror(error)} (os error {error})",
}
FAILED[FOUR] = FAILED[ONE]
# Tests that are not for a server that their class asks: the script, the test, the server, and why it can't hold.
IN_ORDER = "a connection is told of as it ends, under the number of its end"
IN_THREAD = "its application has a thread of its own: a ping or a close that comes right behind a message may be answered before that"
LINGERS = "it is read for 30 seconds: tests/reactor.py has it with shorter ticks"
NOT_FOR = {
    **{
        ("sessions", test, WORKERS): IN_THREAD
        for test in (
            "test_answers_however_its_bytes_and_those_of_a_frame_are_cut",
            "test_nothing_is_answered_after_a_close",
            "test_what_comes_before_a_faulty_frame_is_answered",
            "test_ten_thousand_fragments_are_one_message",
            "test_a_text_is_judged_alike_wherever_it_is_cut",
            "test_a_text_with_a_ping_inside_is_judged_alike",
            "test_a_mask_is_taken_off_byte_by_byte",
            "test_a_client_that_only_stops_sending_gets_its_answers",
        )
    },
    ("calls", "test_a_socket_that_accepts_nothing_ends_the_server", WORKERS): "its accept has begun before it fails: tests/faults.py has it fail from the start",
    ("clients", "test_a_refused_client_that_sends_for_ever_is_left", ONE): LINGERS,
    ("clients", "test_a_refused_client_that_sends_for_ever_is_left", FOUR): LINGERS,
    ("many", "test_as_many_are_served_at_once_as_there_are_workers", ONE): "all of its clients are served at once",
    ("many", "test_as_many_are_served_at_once_as_there_are_workers", FOUR): "all of its clients are served at once",
    ("many", "test_reports_are_told_in_order_as_soon_as_those_before_them_are_there", ONE): IN_ORDER,
    ("many", "test_reports_are_told_in_order_as_soon_as_those_before_them_are_there", FOUR): IN_ORDER,
}
# The scripts that name their servers by this table.
SCRIPTS = ["program", "sessions", "served", "many", "calls", "clients"]

Report = namedtuple("Report", "number host port requests how")
Ended = namedtuple("Ended", "reports others status")


def asks(*servers):
    """Makes a class of tests one for each of these servers, in the module of the class."""

    def make(mould):
        module = sys.modules[mould.__module__]
        script = mould.__module__ if mould.__module__ != "__main__" else os.path.basename(module.__file__).removesuffix(".py")
        for server in servers:
            name = f"{mould.__name__}On{server.title().replace(' ', '')}"
            made = type(name, (mould, unittest.TestCase), {"server": server, "__module__": mould.__module__, "__doc__": mould.__doc__})
            for test in unittest.defaultTestLoader.getTestCaseNames(made):
                why = NOT_FOR.get((script, test, server))
                if why:
                    setattr(made, test, None)
            setattr(module, name, made)
        mould.asks = servers
        return mould

    return make


def report_of(line):
    """The report that a line tells, or None."""
    found = REPORT.fullmatch(line)
    if not found:
        return None
    if found["number"]:
        requests, _, how = found["report"].partition(" ")
        return Report(int(found["number"]), None, None, int(requests), how)
    return Report(int(found["line"]), found["host"], int(found["port"] or 0), int(found["requests"]), found["how"])


class Running:
    """A server of the table, which serves so many connections, and then ends by itself."""

    def __init__(self, server, port, app, count=1, *settings, env=None, before=None):
        self.server, self.port = server, port
        self.url = f"http://127.0.0.1:{port}/"
        words = [*STARTS[server](port, count, app), *map(str, settings)]
        pipes = {"stdin": subprocess.DEVNULL, "stdout": subprocess.PIPE, "stderr": subprocess.PIPE}
        self.ran = subprocess.Popen(words, env={**os.environ, **(env or {})}, preexec_fn=before, **pipes)
        # A pipe holds little, so what it prints is read as it comes.
        self.notes, self.lost, self.lines = [], 0, []
        self.reads = [threading.Thread(target=self.read, args=(it,), daemon=True) for it in (self.ran.stdout, self.ran.stderr)]
        for it in self.reads:
            it.start()

    def read(self, pipe):
        for line in pipe:
            self.lines.append(line.decode(errors="replace").rstrip("\n"))

    def __enter__(self):
        until = time.monotonic() + SECONDS
        while not self.listens() and self.ran.poll() is None:
            if time.monotonic() > until:
                raise AssertionError(f"the server does not listen: {self.lines}")
            time.sleep(0.005)
        return self

    def __exit__(self, *_):
        self.ran.kill()
        self.ran.wait()
        for it in self.reads:
            it.join()

    def listens(self):
        """Whether a socket listens on its port, with no connection made to find out."""
        with open("/proc/net/tcp", encoding="ascii") as it:
            return any(row[1] == f"0100007F:{self.port:04X}" and row[3] == "0A" for row in map(str.split, it.readlines()[1:]))

    def connect(self, room=None):
        """A connection to it, with so much room for what the client has not read, if it is said."""
        line = socket.socket()
        if room:
            line.setsockopt(socket.SOL_SOCKET, socket.SO_RCVBUF, room)
        line.settimeout(SECONDS)
        line.connect(("127.0.0.1", self.port))
        return line

    def reports(self):
        """The reports so far, in the order in which they were told."""
        return [it for it in map(report_of, list(self.lines)) if it]

    def told(self, count):
        """Waits until so many connections are told of."""
        until = time.monotonic() + SECONDS
        while len(self.reports()) < count:
            if time.monotonic() > until:
                raise AssertionError(f"{count} connections are not told of: {self.lines}")
            time.sleep(0.005)
        return self.reports()

    def descriptors(self):
        return len(os.listdir(f"/proc/{self.ran.pid}/fd"))

    def rests(self, own=None):
        """Waits until its descriptors are so many again, or stay as many as they are, for connections that are told of are still closed. Returns the number."""
        found, since, until = -1, 0, time.monotonic() + SECONDS / 4
        while time.monotonic() < until:
            now = self.descriptors()
            found, since = now, since + 1 if now == found else 0
            if now == own or own is None and since == 10:
                break
            time.sleep(0.01)
        return found

    def memory(self):
        """Its memory in kilobytes."""
        with open(f"/proc/{self.ran.pid}/status", encoding="ascii") as it:
            return int(re.search(r"^VmRSS:\s+(\d+) kB$", it.read(), re.M)[1])

    def ticks(self):
        """The processor time that it has used, in ticks of the system."""
        with open(f"/proc/{self.ran.pid}/stat", encoding="ascii") as it:
            return sum(map(int, it.read().rpartition(")")[2].split()[11:13]))

    def ended(self):
        """Once it has ended: how each connection ended, as `1 finished`, in the order of their numbers; what else it said; its status."""
        self.ran.wait(timeout=SECONDS)
        for it in self.reads:
            it.join()
        said = [re.sub(rf"^(?:{MOMENT})?\[\w+ +\S+\] ", "", it) for it in self.lines if not report_of(it) and not LISTENS.fullmatch(it)]
        self.lost = sum(int(it[1] or 1) for it in map(LOST.fullmatch, said) if it)
        said = [it for it in said if not ROOM.fullmatch(it) and not LOST.fullmatch(it)]
        reports = sorted(self.reports())
        numbers = [it.number for it in reports]
        if numbers != sorted(set(numbers)) or numbers and numbers[-1] - len(numbers) > self.lost:
            raise AssertionError(f"the connections are not numbered: {self.lines}")
        self.notes, others = [it for it in said if NOTES.match(it)], [it for it in said if not NOTES.match(it)]
        return Ended([f"{it.requests} {it.how}" for it in reports], others, self.ran.returncode)


def well(*reports):
    """The end of a server that went well, with these reports."""
    return Ended(list(reports), [], 0)


def moulds_of(script):
    """The classes of a script that ask servers of the table."""
    module = importlib.import_module(script)
    return [it for _, it in inspect.getmembers(module, inspect.isclass) if it.__module__ == script and "asks" in vars(it)]


def main():
    counts, known = {}, set()
    for script in SCRIPTS:
        for mould in moulds_of(script):
            tests = unittest.defaultTestLoader.getTestCaseNames(mould)
            for server in mould.asks:
                known |= {(script, test, server) for test in tests}
                held = [test for test in tests if (script, test, server) not in NOT_FOR]
                counts[script, server] = counts.get((script, server), 0) + len(held)
    columns = [*SERVERS, ONCE]
    print(f"{'':12}", *[f"{it:>14}" for it in columns])
    for script in SCRIPTS:
        print(f"{script:12}", *[f"{counts.get((script, it), 0):14}" for it in columns])
    totals = [sum(counts.get((script, it), 0) for script in SCRIPTS) for it in columns]
    print(f"{'in all':12}", *[f"{it:14}" for it in totals])
    for (script, test, server), why in NOT_FOR.items():
        print(f"{script}.py: {test} is not for {server}: {why}")
    wrong = sorted(set(NOT_FOR) - known)
    for it in wrong:
        print(f"FAILED: {it} names no test of a server")
    print(f"{sum(totals)} passed, {len(wrong)} failed")
    return 1 if wrong else 0


def run_tests(module):
    """Runs the tests of a script, those alone whose names have one of the further words, and prints the sum. Returns the exit status."""
    loader = unittest.defaultTestLoader
    loader.testNamePatterns = [f"*{it}*" for it in sys.argv[2:]] or None
    suite = loader.loadTestsFromModule(sys.modules[module])
    result = unittest.TextTestRunner(stream=sys.stdout, verbosity=2).run(suite)
    failed = len({getattr(test, "test_case", test).id() for test, _ in [*result.failures, *result.errors]})
    print(f"{result.testsRun - failed - len(result.skipped)} passed, {failed} failed")
    return 1 if failed or not result.testsRun else 0


if __name__ == "__main__":
    if sys.argv[1:] != ["--table"]:
        sys.exit(__doc__)
    sys.dont_write_bytecode = True
    sys.exit(main())

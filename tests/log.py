#!/usr/bin/env python3
"""log.py [TEST..]: what a server writes to its log, and that it serves on while nobody reads that.

The server is the program of `crates/server_for_tests`. What a line tells of a connection is compared with what its client knows of
itself. The last line is 'N passed, M failed', and the status is 0 only with none failed.
"""

import contextlib
import datetime
import errno
import os
import re
import socket
import struct
import subprocess
import sys
import tempfile
import threading
import time
import unittest

import servers_of
from servers import SECONDS, read_all, run, wait_for
from servers_of import LISTENS, MOMENT, ROOM, report_of

GET = b"GET / HTTP/1.1\r\nHost: a\r\n\r\n"
LAST = b"GET / HTTP/1.1\r\nHost: a\r\nConnection: close\r\n\r\n"
LOST = re.compile(MOMENT + r"\[WARN  asgi_log\] " + servers_of.LOST.pattern)
# How long a client waits for its answer, though nobody reads the log.
HELD = 10
# More than fit into a pipe of 64 KiB and into what waits, 1,024 lines.
MANY = 3_000
# The modes of the program.
MODES = ("", "threads=2", "blocking=2")


class Logged:
    """A server whose standard error is a pipe that is read once `read` is called."""

    def __init__(self, words, count, env=None):
        self.port = self.free_port()
        self.reading, writing = os.pipe()
        words = [servers_of.SERVER, f"127.0.0.1:{self.port}", str(count), *words.split()]
        env = {**os.environ, **(env or {})}
        self.ran = subprocess.Popen(words, stdin=subprocess.DEVNULL, stdout=subprocess.DEVNULL, stderr=writing, env=env)
        os.close(writing)
        self.text, self.reader = [], None

    @staticmethod
    def free_port():
        with socket.create_server(("127.0.0.1", 0)) as it:
            return it.getsockname()[1]

    def __enter__(self):
        wait_for(lambda: self.listens() or self.ran.poll() is not None, "the server does not listen")
        return self

    def __exit__(self, *_):
        self.ran.kill()
        self.ran.wait()
        if self.reader:
            self.reader.join()
        else:
            os.close(self.reading)

    def listens(self):
        with open("/proc/net/tcp", encoding="ascii") as it:
            return any(row[1] == f"0100007F:{self.port:04X}" and row[3] == "0A" for row in map(str.split, it.readlines()[1:]))

    def connect(self):
        return socket.create_connection(("127.0.0.1", self.port), timeout=HELD)

    def ask(self, text=LAST):
        """What a client of its own is answered, and its port."""
        with self.connect() as line:
            line.sendall(text)
            line.shutdown(socket.SHUT_WR)
            return read_all(line), line.getsockname()[1]

    def read(self):
        """Reads what was written, and what is to come, until the server has ended."""

        def reads():
            with open(self.reading, "rb") as it:
                while piece := it.read(1 << 16):
                    self.text.append(piece)

        self.reader = threading.Thread(target=reads, daemon=True)
        self.reader.start()

    def lines(self):
        """The lines that it wrote, once it has ended well."""
        if not self.reader:
            self.read()
        status = self.ran.wait(timeout=SECONDS)
        self.reader.join(timeout=SECONDS)
        if status:
            raise AssertionError(f"status {status}: {b''.join(self.text)[-500:]}")
        text = b"".join(self.text).decode()
        if text and not text.endswith("\n"):
            raise AssertionError(f"its last line is not whole: {text[-200:]}")
        return [it for it in text.splitlines() if not ROOM.search(it)]


class Unread(unittest.TestCase):
    """A log that nobody reads."""

    def accounted(self, lines, connections):
        """Asserts that each connection has one line, whole and in order, or is counted as lost in its place."""
        self.assertTrue(LISTENS.fullmatch(lines[0]), lines[0])
        due, lost = 1, 0
        for line in lines[1:]:
            if counted := LOST.fullmatch(line):
                lost += int(counted[1] or 1)
                due += int(counted[1] or 1)
                continue
            report = report_of(line)
            self.assertTrue(report and report.how == "finished", line)
            self.assertEqual(report.number, due, line)
            due += 1
        self.assertEqual(due, connections + 1)
        return lost

    def test_clients_are_answered_though_nobody_reads(self):
        for mode in MODES:
            with self.subTest(mode=mode), Logged(f"hello {mode}", 501) as server:
                for _ in range(500):
                    answer, _ = server.ask()
                    self.assertTrue(answer.startswith(b"HTTP/1.1 200 "), answer)
                server.read()
                server.ask()
                # With several threads the lines of two connections may change places.
                lines = server.lines()
                if mode:
                    numbers = [report_of(it).number for it in lines if report_of(it)]
                    lost = sum(int(it[1] or 1) for it in map(LOST.fullmatch, lines) if it)
                    self.assertEqual((len(lines[1:]) - sum(bool(LOST.fullmatch(it)) for it in lines) + lost, len(set(numbers))), (501, len(numbers)))
                else:
                    self.accounted(lines, 501)

    def test_lines_that_are_lost_are_counted_in_their_place(self):
        with Logged("hello", MANY + 1) as server:
            for _ in range(MANY):
                answer, _ = server.ask()
                self.assertTrue(answer.startswith(b"HTTP/1.1 200 "), answer)
            server.read()
            # All that waits is written before one more line comes.
            time.sleep(1)
            server.ask()
            lost = self.accounted(server.lines(), MANY + 1)
            self.assertGreater(lost, 0)

    def test_a_server_ends_though_nobody_reads(self):
        began = time.monotonic()
        with Logged("hello", 1_000) as server:
            for _ in range(1_000):
                server.ask()
            served = time.monotonic()
            self.assertEqual(server.ran.wait(timeout=SECONDS), 0)
            self.assertLess(time.monotonic() - served, 5, f"it began at {began}")

    def test_a_reader_that_has_gone_ends_no_server(self):
        with Logged("hello", 20) as server:
            os.close(server.reading)
            server.reading = os.open(os.devnull, os.O_RDONLY)
            for _ in range(20):
                answer, _ = server.ask()
                self.assertTrue(answer.startswith(b"HTTP/1.1 200 "), answer)
            self.assertEqual(server.ran.wait(timeout=SECONDS), 0)


class Lines(unittest.TestCase):
    """What a line tells is what its client knows of itself."""

    def reported(self, words, ask, env=None):
        """The reports of a server of one connection, and the port of the client that asked it so."""
        with Logged(words, 1, env) as server:
            server.read()
            with server.connect() as line:
                port = line.getsockname()[1]
                ask(line)
            lines = server.lines()
        return [it for it in map(report_of, lines) if it], port

    def assert_reported(self, requests, how, ask, words="hello"):
        reports, port = self.reported(words, ask)
        self.assertEqual([(it.number, it.host, it.port, it.requests) for it in reports], [(1, "127.0.0.1", port, requests)])
        self.assertRegex(reports[0].how, f"^{how}$")

    def test_one_that_is_finished(self):
        def asks(many):
            def ask(line):
                line.sendall(GET * (many - 1) + LAST)
                self.assertEqual(read_all(line).count(b"HTTP/1.1 200 "), many)

            return ask

        for many in (1, 2, 16):
            self.assert_reported(many, "finished", asks(many))

    def test_one_that_is_refused(self):
        rows = [(b"GET / HTTP/1.1\r\n\r\n", 400), (b"GET / HTTP/1.1\r\nHost: a\r\nX: " + b"x" * 20_000 + b"\r\n\r\n", 431)]
        rows += [(b"POST / HTTP/1.1\r\nHost: a\r\nContent-Length: 9999999\r\n\r\n", 413), (b"GET / HTTP/1.1\r\nHost: a\r\nTransfer-Encoding: gzip\r\n\r\n", 501)]
        for text, status in rows:

            def ask(line, text=text, status=status):
                line.sendall(text)
                line.shutdown(socket.SHUT_WR)
                self.assertTrue(read_all(line).startswith(b"HTTP/1.1 %d " % status))

            with self.subTest(status=status):
                reports, port = self.reported("echo", ask)
                self.assertEqual([(it.host, it.port, it.how) for it in reports], [("127.0.0.1", port, f"refused {status}")])

    def test_one_whose_client_goes_inside_a_request(self):
        def ask(line):
            line.sendall(GET)
            answer = b""
            while not answer.endswith(b"0\r\n\r\n"):
                answer += line.recv(1 << 16)
            line.sendall(b"POST / HTTP/1.1\r\nHost: a\r\nContent-Length: 10\r\n\r\nab")
            time.sleep(0.2)
            line.shutdown(socket.SHUT_WR)
            read_all(line)

        reports, port = self.reported("hello", ask)
        self.assertEqual([(it.host, it.port) for it in reports], [("127.0.0.1", port)])
        self.assertIn(reports[0].how, ("input-broke", "finished"))

    def test_one_whose_client_takes_nothing_and_resets(self):
        def ask(line):
            line.sendall(b"GET /bytes/50000000 HTTP/1.1\r\nHost: a\r\n\r\n")
            line.recv(1)
            line.setsockopt(socket.SOL_SOCKET, socket.SO_LINGER, struct.pack("ii", 1, 0))

        reports, port = self.reported("handles", ask)
        self.assertEqual([(it.host, it.port) for it in reports], [("127.0.0.1", port)])
        # A read or a write finds the reset first.
        self.assertRegex(reports[0].how, r"^(write-failed \d+|input-broke)$")

    def test_one_that_is_silent(self):
        def ask(line):
            line.settimeout(SECONDS)
            self.assertEqual(read_all(line), b"")

        self.assert_reported(0, "idle", ask, "hello idle=400")


class Form(unittest.TestCase):
    """What each line begins with, and which are written."""

    def test_a_line_has_the_time_at_which_it_was_logged(self):
        before = time.time()
        with Logged("hello", 2) as server:
            server.read()
            server.ask()
            time.sleep(1.5)
            server.ask()
            lines = server.lines()
        after = time.time()
        found = [datetime.datetime.strptime(it.partition(" ")[0], "%Y-%m-%dT%H:%M:%S.%fZ").replace(tzinfo=datetime.timezone.utc).timestamp() for it in lines]
        self.assertEqual(len(found), 3)
        self.assertEqual(found, sorted(found))
        self.assertTrue(before - 0.001 <= found[0] and found[-1] <= after, (before, found, after))
        self.assertGreater(found[2] - found[1], 1.4)

    def test_the_level_is_chosen_by_the_environment(self):
        usual = ["INFO", "INFO"]
        rows = [("off", []), ("error", []), ("warn", []), ("info", usual), ("debug", usual), ("trace", usual), ("INFO", usual), ("Warn", [])]
        rows += [("loud", ["WARN", *usual]), ("", ["WARN", *usual]), ("info,x=debug", ["WARN", *usual])]
        for word, levels in rows:
            with self.subTest(word=word), Logged("hello", 1, {"RUST_LOG": word}) as server:
                server.ask()
                lines = server.lines()
                self.assertEqual([re.fullmatch(MOMENT + r"\[([A-Z]+) +\S+\] .*", it)[1] for it in lines], levels)
                if levels[:1] == ["WARN"]:
                    self.assertIn(f'RUST_LOG: "{word}" is none of off, error, warn, info, debug, trace: the level is info', lines[0])

    def test_an_error_is_written_though_the_level_is_error(self):
        with socket.create_server(("127.0.0.1", 0)) as taken:
            words = [servers_of.SERVER, f"127.0.0.1:{taken.getsockname()[1]}", "1", "hello"]
            for level, wanted in (("error", 1), ("off", 0)):
                status, _, errors = run(words, env={**os.environ, "RUST_LOG": level})
                self.assertEqual((status, len(errors.splitlines())), (5, wanted), errors)

    def test_a_clock_that_is_not_read_leaves_the_time_out(self):
        with failing("clock_gettime", errno.EINVAL, times=1_000_000_000) as env, Logged("hello blocking=1", 0, env) as server:
            for line in server.lines():
                self.assertRegex(line, r"^\[[A-Z]+ +\S+\] ")

    def test_a_log_without_a_thread_says_so_and_is_written(self):
        with failing("pthread_create", errno.EAGAIN) as env, Logged("hello", 1, env) as server:
            server.ask()
            first, *rest = server.lines()
            self.assertRegex(first, MOMENT + r"\[WARN  \S+\] no thread for the log: each line is written by the thread that logs it$")
            self.assertEqual((len(rest), bool(LISTENS.fullmatch(rest[0])), report_of(rest[1]).how), (2, True, "finished"))


@contextlib.contextmanager
def failing(call, error, times=1):
    """What a program's environment has that makes such calls of it fail."""
    with tempfile.TemporaryDirectory(prefix="log-") as room:
        built = f"{room}/fail_once.so"
        subprocess.run(["gcc", "-shared", "-fPIC", "-O1", "-o", built, f"{servers_of.TOP}/tests/fail_once.c", "-ldl"], check=True)
        yield {"LD_PRELOAD": built, "FAIL_CALL": call, "FAIL_ERROR": str(error), "FAIL_TIMES": str(times)}


def main():
    program = unittest.main(argv=[sys.argv[0], *sys.argv[1:]], exit=False)
    failed = len(program.result.failures) + len(program.result.errors)
    print(f"{program.result.testsRun - failed} passed, {failed} failed")
    return 1 if failed or not program.result.testsRun else 0


if __name__ == "__main__":
    sys.exit(main())

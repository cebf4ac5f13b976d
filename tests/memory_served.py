#!/usr/bin/env python3
"""memory_served.py [WORD]: each allocation refused in turn, on `Server` in one thread and in two, with two clients at once.

The clients ask for a greeting, send an upload, hold a session, or one of them goes away while much is held for it. Each is answered
whole, or gets a beginning of that, the response to a fault of the application, or a closed connection; one that is answered whole is
told of as finished; and the server ends well, or says what it lacks. With nothing refused all is whole. A row is through once a run
had nothing left to refuse. The last line is 'N passed, M failed', where a run with one allocation refused is one.
"""

import contextlib
import os
import re
import socket
import struct
import subprocess
import sys
import tempfile
import threading
from concurrent.futures import ThreadPoolExecutor

from memory import ANSWERED, FAULTED, GET, HELLO, SESSION, Refusing, connected
from servers import free_port
from servers_of import LISTENS, MOMENT, NOTES, ROOM, SERVER, report_of

UPLOAD = b"POST /length HTTP/1.1\r\nHost: a\r\nContent-Length: 40000\r\n\r\n" + b"u" * 40_000
COUNTED = b"HTTP/1.1 200 OK\r\ncontent-type: text/plain; charset=utf-8\r\ncontent-length: 6\r\n\r\n40000\n"
BIG = b"GET /bytes/1000000 HTTP/1.1\r\nHost: a\r\n\r\n"
BYTES = b"HTTP/1.1 200 OK\r\ncontent-type: application/octet-stream\r\ncontent-length: 1000000\r\n\r\n" + b"b" * 1_000_000
# The application, what each of the two clients sends, the whole answer, how it is told of, and whether the first one resets once it
# has taken a little of its answer.
ROWS = [
    ("hello", GET, HELLO, "1 finished", False),
    ("routes", UPLOAD, COUNTED, "1 finished", False),
    ("wsecho", SESSION, ANSWERED, "1 finished", False),
    ("handles", BIG, BYTES, "1 finished", True),
]
LACKS = re.compile(MOMENT + r"\[ERROR \S+\] (out of memory|no thread for a worker|cannot listen on \S+: the system refused it: .*)")
# What the log says of memory that it lacks: for one of its lines, or for its thread.
LOG_LACKS = re.compile(MOMENT + r"\[WARN  asgi_log\S*\] (1 line of the log was lost|no thread for the log: .*)")
# How many more clients a server is given, in place of those that were lost before they were accepted.
MORE = 50


class Client(threading.Thread):
    """Sends this and ends its side, and takes all that it is answered; or takes a little, and resets."""

    def __init__(self, line, given, goes):
        super().__init__(daemon=True)
        self.line, self.given, self.goes = line, given, goes
        self.port = line.getsockname()[1] if line else None
        self.answer = b""

    def run(self):
        if not self.line:
            return
        with contextlib.suppress(OSError):
            self.line.sendall(self.given)
            if self.goes:
                self.answer = self.line.recv(1_000)
                self.line.setsockopt(socket.SOL_SOCKET, socket.SO_LINGER, struct.pack("ii", 1, 0))
                return
            self.line.shutdown(socket.SHUT_WR)
            while piece := self.line.recv(1 << 16):
                self.answer += piece
        self.line.close()

    def end(self):
        self.join()
        if self.line:
            self.line.close()


def ended_with(ran):
    """What a server prints to its end, which further clients bring about."""
    for _ in range(MORE):
        with contextlib.suppress(subprocess.TimeoutExpired):
            return ran.communicate(timeout=0.1)[1].decode()
        with contextlib.suppress(OSError):
            socket.create_connection(("127.0.0.1", ran.port), timeout=1).close()
    ran.kill()
    return "it had not ended\n" + ran.communicate()[1].decode()


def serve(refusing, words, row, number):
    """Returns whether an allocation of this number was refused, the server's status, its lines, and its clients."""
    app, given, _, _, goes = row
    port, (reading, writing) = free_port(), os.pipe()
    how = {**refusing.refusing(number, writing), "stdin": subprocess.DEVNULL, "stdout": subprocess.PIPE, "stderr": subprocess.PIPE}
    with subprocess.Popen([SERVER, str(port), "2", app, *words], **how) as ran:
        os.close(writing)
        ran.port = port
        clients = [Client(connected(ran, port), given, goes and at == 0) for at in range(2)]
        for it in clients:
            it.start()
        for it in clients:
            it.end()
        lines = ended_with(ran).splitlines()
    with os.fdopen(reading, "rb") as it:
        return bool(it.read()), ran.returncode, lines, clients


def is_part(answer, whole):
    """Whether this is a beginning of the answer, or one after which the application faulted."""
    return whole.startswith(answer.removesuffix(FAULTED))


def judge(row):
    _, _, whole, report, _ = row

    def judged(refused, status, lines, clients):
        reports = [it for it in map(report_of, lines) if it]
        told = {it.port: f"{it.requests} {it.how}" for it in reports}
        # A line has no client where memory for its address was refused.
        unnamed = sum(not it.host for it in reports)
        log_lacks = [it for it in lines if refused and LOG_LACKS.fullmatch(it)][:1]
        others = [it for it in lines if not report_of(it) and not LISTENS.fullmatch(it) and it not in log_lacks and not NOTES.search(it) and not ROOM.search(it)]
        wrong = [it.answer[-200:] for it in clients if not is_part(it.answer, whole)]
        wrong += [told.get(it.port) for it in clients if it.answer == whole and told.get(it.port, report if unnamed or log_lacks else None) != report]
        lacks = LACKS.fullmatch(others[0]) if len(others) == 1 else None
        # It lacks memory for its words, or for the application that it is to serve.
        if refused and status in (2, 5) and not lines:
            return f"status {status}", None
        if wrong or (status, others) != (0, []) and not (refused and status == 5 and lacks):
            return "", f"status {status}, lines {lines}, wrong {wrong}, answers {[it.answer[-200:] for it in clients]}"
        if not refused and [it for it in clients if not it.goes and it.answer != whole]:
            return "", f"nothing was refused, and not all is whole: {lines}"
        if lacks:
            return lacks[1].partition(" on ")[0], None
        others = [how for how in told.values() if how != report and not how.startswith("1 write-failed")]
        return ("whole" if not others and not log_lacks else (others or ["log"])[0]), None

    return judged


def main(words):
    if not os.path.isfile(SERVER):
        print(f"{SERVER} is not there: rt ci builds it", "0 passed, 1 failed", sep="\n")
        return 1
    rows = [(row, how) for row in ROWS for how in ([], ["threads=2"]) if not words or words[0] in row[0]]
    with tempfile.TemporaryDirectory(prefix="memory-") as room, ThreadPoolExecutor(os.cpu_count()) as pool:
        refusing = Refusing(room)

        def sweep(asked):
            row, how = asked
            name = " ".join(["server_for_tests", row[0], *how, *["and one goes"] * row[4]])
            return refusing.sweep(name, lambda number: serve(refusing, how, row, number), judge(row))

        done = [*pool.map(sweep, rows)]
    passed, failed = sum(it[0] for it in done), [text for it in done for text in it[1]]
    print(*[f"FAILED: {it}" for it in failed], sep="\n")
    print(f"{passed} passed, {len(failed)} failed")
    return 1 if failed or not passed else 0


if __name__ == "__main__":
    sys.exit(main(sys.argv[1:]))

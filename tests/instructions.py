#!/usr/bin/env python3
"""instructions.py PROGRAM [SERVER]: whether a request of the built programs takes more instructions than the repository says.

Each row is an input of `asgi_demo once`, or of one connection to a server of one thread (`crates/server_for_tests`). valgrind's
callgrind counts the instructions of the program and its libraries, not those of the system: a run with many requests less one
with few, divided by the requests between them. A count depends on the input, and on no load: the client of a server sends once
it has the answer to all before and the server waits, so that each run has the same turns. (Those that time brings are counted
too: one a second, and in a session one in ten milliseconds, up to 2 % of its row where the machine is busy.) The C library is
told to copy, fill and search by instructions that each processor of the kind has, so that a row counts the same on each;
docs/PERFORMANCE.md counts with those of the machine, so its figures are others.

A row fails if its count is more than 5 % over its figure in tests/instructions.txt, if it has no figure that can be read, or
if its run fails. One that is more than 5 % below its figure is shown, so that the figures are renewed, by

    instructions.py --write PROGRAM [SERVER]

With --self-test it compares counts with figures of its own. The last line is 'N passed, M failed'.
"""

import array
import fcntl
import os
import re
import shutil
import socket
import subprocess
import sys
import tempfile
import termios
import time
from typing import NamedTuple

import packages
from servers import TOP, free_port, listens

FIGURES = f"{TOP}/tests/instructions.txt"
SERVER = f"{TOP}/crates/server_for_tests/out/server_for_tests"
MARGIN = 5
SECONDS = 300
# A byte that is copied by wider registers, or by one repeated instruction, counts less or more: the C library is to do without
# what only some processors have. SSSE3 stays, since the program asks for it as it starts; the last word passes its copy over.
LIBRARY = "glibc.cpu.hwcaps=-AVX2,-AVX_Fast_Unaligned_Load,-AVX512F,-AVX512VL,-ERMS,-FSRM,Fast_Unaligned_Copy"

HEAD = b"GET / HTTP/1.1\r\nHost: a\r\n"
BROWSER = (
    b"GET /index.html HTTP/1.1\r\nHost: www.example.org\r\nConnection: keep-alive\r\n"
    b'sec-ch-ua: "Chromium";v="120", "Not?A_Brand";v="8"\r\nsec-ch-ua-mobile: ?0\r\nsec-ch-ua-platform: "Linux"\r\n'
    b"Upgrade-Insecure-Requests: 1\r\nUser-Agent: Mozilla/5.0 (X11; Linux x86_64) AppleWebKit/537.36 (KHTML, like Gecko) "
    b"Chrome/120.0.0.0 Safari/537.36\r\nAccept: text/html,application/xhtml+xml,application/xml;q=0.9,image/avif,image/webp,"
    b"*/*;q=0.8\r\nSec-Fetch-Site: none\r\nSec-Fetch-Mode: navigate\r\nSec-Fetch-User: ?1\r\nSec-Fetch-Dest: document\r\n"
    b"Accept-Encoding: gzip, deflate, br\r\nAccept-Language: en-US,en;q=0.9\r\n"
)
HANDSHAKE = (
    HEAD + b"Upgrade: websocket\r\nConnection: Upgrade\r\n"
    b"Sec-WebSocket-Key: dGhlIHNhbXBsZSBub25jZQ==\r\nSec-WebSocket-Version: 13\r\n\r\n"
)
# A binary message of 1 KiB under a mask of zeros, what comes back, and a close with 1000 (RFC 6455, 5.2 and 5.5.1).
MESSAGE, ECHOED = b"\x82\xfe\x04\x00" + bytes(4) + b"a" * 1024, b"\x82\x7e\x04\x00" + b"a" * 1024
CLOSE = b"\x88\x82" + bytes(4) + b"\x03\xe8"
OK = b"HTTP/1.1 200 OK\r\n"
# What a content in chunks ends with (RFC 9112, 7.1).
LAST = b"\r\n0\r\n\r\n"
HEAD_END = b"\r\n\r\n"
# What a server of one connection writes on standard error.
LOGGED = re.compile(rb".*listening on .*\n(?:.* descriptors .*\n)?.*connection 1: .*, finished\n")


def padded(text, size):
    """Returns a head of this size, whose last field has what is missing."""
    return text + b"Z: " + b"z" * (size - len(text) - 7) + b"\r\n\r\n"


def post(size):
    return b"POST / HTTP/1.1\r\nHost: a\r\nContent-Length: %d\r\n\r\n" % size + b"a" * size


class Row(NamedTuple):
    """What is counted: the application, the texts of both runs, what stands before, in and after them, what each answer to
    one has, how many bytes it has at least, and whether each byte comes alone. Of a server, what each answer ends with, and
    how many answers a text has."""

    app: str
    few: int
    many: int
    text: bytes
    answer: bytes = OK
    least: int = 0
    before: bytes = b""
    after: bytes = b""
    comes_alone: bool = False
    end: bytes = b""
    answers: int = 1

    def given(self, number):
        return self.before + self.text * number + self.after

    def is_answer(self, output, number):
        """Returns whether this is an output for so many requests. What an answer is to be is tested elsewhere."""
        return output.count(self.answer) == number * self.answers and len(output) >= number * self.least


ROWS = {
    "once hello, requests of 27 bytes": Row("hello", 1000, 6000, HEAD + b"\r\n"),
    "once hello, requests of 605 bytes": Row("hello", 1000, 3000, padded(BROWSER, 605)),
    "once hello, a head of 1 KiB byte by byte": Row("hello", 0, 1, padded(HEAD, 1024), comes_alone=True),
    "once echo, 1 KiB by length": Row("echo", 500, 2500, post(1024), least=1024),
    "once echo, 64 KiB by length": Row("echo", 20, 100, post(65536), least=65536),
    "once wsecho, messages of 1 KiB": Row("wsecho", 500, 2500, MESSAGE, answer=ECHOED, before=HANDSHAKE, after=CLOSE),
    "server hello, requests of 27 bytes": Row("hello", 200, 1200, HEAD + b"\r\n", end=LAST),
    "server hello, 16 requests of 27 bytes at once": Row("hello", 20, 120, (HEAD + b"\r\n") * 16, end=LAST, answers=16),
    "server echo, 64 KiB by length": Row("echo", 10, 60, post(65536), least=65536, end=LAST),
    "server wsecho, messages of 1 KiB": Row("wsecho", 200, 1200, MESSAGE, answer=ECHOED, end=ECHOED, before=HANDSHAKE, after=CLOSE),
    "server handles, a text of JSON": Row("handles", 200, 1200, b"GET /json HTTP/1.1\r\nHost: a\r\n\r\n", end=b"}"),
}


class Odd(Exception):
    """Why there is no count of a row."""


def wait_until_idle(ran, until):
    """Waits until a process of one thread waits for the system."""
    while True:
        with open(f"/proc/{ran.pid}/stat", encoding="ascii") as it:
            if it.read().rpartition(")")[2].split()[0] == "S":
                return
        if ran.poll() is not None or time.monotonic() > until:
            raise Odd(f"it ended early, or did not wait within {SECONDS} seconds")
        time.sleep(0)


def answer_of(line, end, count):
    """Reads what has this end so many times."""
    text = b""
    while text.count(end) < count:
        piece = line.recv(1 << 16)
        if not piece:
            raise Odd(f"the connection ended behind {text[-300:]!r}")
        text += piece
    return text


class Counting:
    """Counts the instructions of programs, which stand in a folder under names of the same length each time."""

    def __init__(self, program, server, room):
        self.room = room
        os.symlink(os.path.abspath(program), f"{room}/program")
        os.symlink(os.path.abspath(server), f"{room}/server")

    def run(self, row, number):
        """Returns the instructions of a run with so many texts."""
        words = ["valgrind", "--tool=callgrind", "--callgrind-out-file=/dev/null", f"--log-file={self.room}/log"]
        how = {"cwd": self.room, "env": {"PATH": os.environ.get("PATH", ""), "GLIBC_TUNABLES": LIBRARY}}
        with open(f"{self.room}/output", "w+b") as output, open(f"{self.room}/errors", "w+b") as errors:
            how |= {"stdout": output, "stderr": errors}
            if row.end:
                status = self.ask([*words, "./server"], row, number, how, output)
            elif row.comes_alone:
                status = self.feed([*words, "./program", "once", row.app], row.given(number), how)
            else:
                status = self.give([*words, "./program", "once", row.app], row.given(number), how)
            output.seek(0)
            errors.seek(0)
            output, errors = output.read(), errors.read()
        if status or not (LOGGED.fullmatch(errors) if row.end else not errors):
            raise Odd(f"the run has status {status}, and says {errors[-300:]!r}")
        if not row.is_answer(output, number):
            raise Odd(f"{number} requests are answered {output[:300]!r}.., {len(output)} bytes")
        with open(f"{self.room}/log", encoding="utf-8", errors="replace") as it:
            found = re.search(r"Collected : (\d+)$", it.read(), re.M)
        if not found:
            raise Odd("valgrind tells no count")
        return int(found[1])

    def give(self, words, given, how):
        """Runs the program on a file, and returns its status."""
        with open(f"{self.room}/input", "w+b") as it:
            it.write(given)
            it.seek(0)
            try:
                return subprocess.run(words, stdin=it, timeout=SECONDS, check=False, **how).returncode
            except subprocess.TimeoutExpired:
                raise Odd(f"it had not ended after {SECONDS} seconds") from None

    def feed(self, words, given, how):
        """Runs the program, gives it each byte once the one before was read, and returns its status."""
        until, waiting = time.monotonic() + SECONDS, array.array("i", [0])
        with subprocess.Popen(words, stdin=subprocess.PIPE, **how) as ran:
            try:
                for byte in given:
                    os.write(ran.stdin.fileno(), bytes([byte]))
                    while not fcntl.ioctl(ran.stdin.fileno(), termios.FIONREAD, waiting) and waiting[0]:
                        if ran.poll() is not None or time.monotonic() > until:
                            raise Odd(f"it ended early, or a byte was not read within {SECONDS} seconds")
                        time.sleep(0)
                ran.stdin.close()
                return ran.wait(SECONDS)
            except (OSError, subprocess.TimeoutExpired) as error:
                raise Odd(str(error)) from None
            finally:
                ran.kill()

    def ask(self, words, row, number, how, output):
        """Serves one client, who writes down what it is sent. Returns the server's status."""
        port, until = free_port(), time.monotonic() + SECONDS
        with subprocess.Popen([*words, str(port), "1", row.app, "slots=16"], stdin=subprocess.DEVNULL, **how) as ran:
            try:
                while not listens(port):
                    if ran.poll() is not None or time.monotonic() > until:
                        raise Odd("the server does not listen")
                    time.sleep(0.01)
                with socket.create_connection(("127.0.0.1", port), timeout=SECONDS) as line:
                    steps = [(row.before, HEAD_END, 1)] * bool(row.before) + [(row.text, row.end, row.answers)] * number
                    for text, end, count in steps:
                        wait_until_idle(ran, until)
                        line.sendall(text)
                        output.write(answer_of(line, end, count))
                    line.sendall(row.after)
                    line.shutdown(socket.SHUT_WR)
                    while piece := line.recv(1 << 16):
                        output.write(piece)
                return ran.wait(SECONDS)
            except (OSError, subprocess.TimeoutExpired) as error:
                raise Odd(str(error)) from None
            finally:
                ran.kill()

    def count(self, row):
        """Returns the instructions of one text."""
        return round((self.run(row, row.many) - self.run(row, row.few)) / (row.many - row.few))


def figures_of(text):
    """Returns the figures of a text, a line 'NAME: FIGURE' each (None: it can't be read), and the lines that name no row, or one again."""
    figures, wrong = {}, []
    for line in text.splitlines():
        name, _, figure = line.rpartition(": ")
        if name not in ROWS or name in figures:
            wrong.append(line)
        else:
            figures[name] = int(figure) if re.fullmatch(r"[1-9]\d*", figure) else None
    return figures, wrong


def compared(name, count, figures):
    """Returns whether a row passes by the figures, and what is said of it."""
    figure = figures.get(name)
    if figure is None:
        return False, f"{name}: {count:,}, and its figure " + ("can't be read" if name in figures else "is missing")
    said = f"{name}: {count:,}, {100 * (count / figure - 1):+.1f} % of {figure:,}"
    if 100 * count > (100 + MARGIN) * figure:
        return False, said
    return True, said + "; renew the figures" * (100 * count < (100 - MARGIN) * figure)


def judged(text, counted):
    """Yields, of each line that is no figure and of each row that was counted, whether it passes and what is said of it."""
    figures, wrong = figures_of(text)
    for line in wrong:
        yield False, f"the figures have a line that names no row, or one again: {line!r}"
    for name, count, why in counted:
        yield compared(name, count, figures) if why is None else (False, f"{name}: {why}")


def install():
    """Installs valgrind where it is missing. Returns whether it is there."""
    packages.install(lambda: packages.of({"valgrind": "valgrind"}))
    return bool(shutil.which("valgrind"))


def counts_of(program, server):
    """Yields each row's name with its count and None, or with None and why there is no count."""
    with tempfile.TemporaryDirectory(prefix="instructions-") as room:
        counting = Counting(program, server, room)
        for name, row in ROWS.items():
            try:
                yield name, counting.count(row), None
            except Odd as odd:
                yield name, None, odd


def check(program, server):
    """Compares the counts of the programs with the figures. Yields whether each row passes, and what is said of it."""
    try:
        with open(FIGURES, encoding="utf-8") as it:
            text = it.read()
    except (OSError, UnicodeDecodeError) as error:
        yield False, f"the figures can't be read: {error}"
        return
    yield from judged(text, counts_of(program, server))


def write(program, server):
    """Writes the counts of the programs as the figures, if each row has one. Yields of each whether it has, and what is said of it."""
    lines, failed = [], False
    for name, count, why in counts_of(program, server):
        yield why is None, f"{name}: {count if why is None else why}"
        lines.append(f"{name}: {count}\n")
        failed = failed or why is not None
    if not failed:
        with open(FIGURES, "w", encoding="utf-8") as it:
            it.writelines(lines)


# Of the first row, whose count is 1,000, what the figures have, whether all rows pass then, and a word of what is said.
LINES = [
    ("{name}: 1000\n", True, ": 1,000, +0.0 % of 1,000"),
    ("{name}: 940\n", False, "+6.4 % of 940"),
    ("{name}: 960\n", True, "+4.2 % of 960"),
    ("{name}: 1040\n", True, "-3.8 % of 1,040"),
    ("{name}: 1060\n", True, "-5.7 % of 1,060; renew the figures"),
    ("", False, "is missing"),
    ("{name}: \n", False, "can't be read"),
    ("{name}: 0\n", False, "can't be read"),
    ("{name}: 1,000\n", False, "can't be read"),
    ("{name}: 1000\n{name}: 1000\n", False, "or one again"),
    ("{name}: 1000\nanother row: 1000\n", False, "names no row"),
    ("{name}: 1000\n\n", False, "names no row"),
]


def self_test():
    """Yields, of each case, whether it is told right, and which it is."""
    name, *others = ROWS
    counted, rest = [(it, 1000, None) for it in ROWS], "".join(f"{it}: 1000\n" for it in others)
    for line, passes, word in LINES:
        said = [*judged(line.format(name=name) + rest, counted)]
        wrong = [text for is_right, text in said if not is_right]
        is_told = len(wrong) == (not passes) and any(word in text for _, text in said)
        yield is_told, f"self-test: of the figures {line!r} is said {said}"
    said = [*judged(f"{name}: 1000\n{rest}", [(name, None, Odd("a reason")), *counted[1:]])]
    yield [it for it in said if not it[0]] == [(False, f"{name}: a reason")], f"self-test: of a row without a count is said {said}"
    echo = next(row for row in ROWS.values() if row.least)
    for count, body, is_answer in ((3, echo.least, True), (2, 2 * echo.least, False), (3, 0, False)):
        is_told = echo.is_answer((OK + bytes(body)) * count, 3) == is_answer
        yield is_told, f"self-test: {count} answers with {body} bytes pass for three, or the other way round"
    batch = next(row for row in ROWS.values() if row.answers > 1)
    for count, is_answer in ((3 * batch.answers, True), (3 * batch.answers - 1, False), (3, False)):
        yield batch.is_answer(OK * count, 3) == is_answer, f"self-test: {count} answers pass for three batches, or the other way round"


def main(words):
    if words == ["--self-test"]:
        found = self_test()
    elif not install():
        found = [(False, "valgrind can't be had")]
    else:
        programs = [it for it in words if it != "--write"]
        found = (write if words[0] == "--write" else check)(*[*programs, SERVER][:2])
    passed = failed = 0
    for is_right, said in found:
        if not is_right or words != ["--self-test"]:
            print(said if is_right else f"FAILED: {said}", flush=True)
        passed += is_right
        failed += not is_right
    print(f"{passed} passed, {failed} failed")
    return 1 if failed or not passed else 0


if __name__ == "__main__":
    sys.exit(main(sys.argv[1:]))

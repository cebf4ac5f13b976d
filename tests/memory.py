#!/usr/bin/env python3
"""memory.py [WORD]: each allocation refused in turn, on the programs that `rt ci` proved and built.

Runs each test whose name has WORD (memory_ where none is given) of the programs of tests, crates/*/out/*_tests, once for
each allocation that it makes, with that one refused. Each call that can answer want of memory does so and leaves its
object as it was, so that the test passes all the same. Then it runs the program itself so, on some words and inputs: it
gives its whole answer, or says that it lacks memory after a beginning of it, and never anything else. Then it runs the
program as a server of two clients so, by one worker and by two: each client gets its answer, a beginning of it, the
response to a fault of the application, or a closed connection, and has its report if any byte of it was answered. Last it
runs the program of crates/server_for_tests so, from its start to its stop. No number of allocations is written down: one is
through once a run had nothing left to refuse. What came of the runs of the programs is told for each row, with how often.
The last line is 'N passed, M failed', where a run with one allocation refused is one.
"""

import glob
import os
import re
import shutil
import socket
import subprocess
import sys
import tempfile
import time
from collections import Counter
from concurrent.futures import ThreadPoolExecutor

import servers
from servers_of import MOMENT

HERE = os.path.dirname(os.path.realpath(__file__))
CRATES = f"{os.path.dirname(HERE)}/crates"
PROGRAM = f"{CRATES}/asgi_demo/out/asgi_demo"
OWN = f"{CRATES}/server_for_tests/out/server_for_tests"
# A run makes far fewer; one that makes more has lost its way.
MOST = 5_000
SECONDS = 60

GET = b"GET / HTTP/1.1\r\nHost: a\r\n\r\n"
HELLO = (
    b"HTTP/1.1 200 OK\r\ncontent-type: text/plain\r\ntransfer-encoding: chunked\r\n\r\n"
    b"6\r\nhello\n\r\n0\r\n\r\n"
)
ECHO_HEAD = b"HTTP/1.1 200 OK\r\ncontent-type: application/octet-stream\r\ntransfer-encoding: chunked\r\n\r\n"
POST = (
    b"POST / HTTP/1.1\r\nHost: a\r\nExpect: 100-continue\r\nTransfer-Encoding: chunked\r\n\r\n"
    b"2\r\nab\r\n0\r\n\r\n"
)
ECHOED = b"HTTP/1.1 100 Continue\r\n\r\n" + ECHO_HEAD + b"2\r\nab\r\n0\r\n\r\n" + ECHO_HEAD + b"0\r\n\r\n"
NOT_FOUND = b"HTTP/1.1 404 Not Found\r\ncontent-length: 0\r\n\r\n"
REFUSED = b"HTTP/1.1 400 Bad Request\r\ncontent-length: 0\r\nconnection: close\r\n\r\n"
# A handshake that offers a subprotocol, a text, the fragments of one, a ping and a close, and their answers.
HANDSHAKE = (
    b"GET / HTTP/1.1\r\nHost: a\r\nUpgrade: websocket\r\nConnection: Upgrade\r\nSec-WebSocket-Protocol: a\r\n"
    b"Sec-WebSocket-Key: dGhlIHNhbXBsZSBub25jZQ==\r\nSec-WebSocket-Version: 13\r\n\r\n"
)
MASK = b"\x00\x00\x00\x00"
SESSION = (
    HANDSHAKE + b"\x81\x85" + MASK + b"Hello" + b"\x02\x81" + MASK + b"a" + b"\x80\x81" + MASK + b"b"
    b"\x89\x81" + MASK + b"p" + b"\x88\x83" + MASK + b"\x03\xe8r"
)
ANSWERED = (
    b"HTTP/1.1 101 Switching Protocols\r\nupgrade: websocket\r\nconnection: Upgrade\r\n"
    b"sec-websocket-accept: s3pPLMBiTxaQ9kYGzzhZRbK+xOo=\r\n\r\n"
    b"\x81\x05Hello\x82\x02ab\x8a\x01p\x88\x03\x03\xe8r"
)
USAGE = b"usage: asgi_demo once APP | asgi_demo serve PORT COUNT APP [WORKERS]\n"
FIELDS = b"".join(b"x-%d: %s\r\n" % (number, b"v" * 100) for number in range(40))
# The words, the input, and the whole answer: the status, the output and the errors.
# What `mounts` answers to a path below a mount, and `life` in a state with no number, and in that of its start.
BELOW = b"GET /a/b/c HTTP/1.1\r\nHost: a\r\n\r\n"
MOUNTED = b"HTTP/1.1 200 OK\r\ncontent-type: text/plain\r\ntransfer-encoding: chunked\r\n\r\n5\r\n/a/b\n\r\n0\r\n\r\n"
UNSTARTED = b"HTTP/1.1 200 OK\r\ncontent-type: text/plain\r\ntransfer-encoding: chunked\r\n\r\n4\r\nn=?\n\r\n0\r\n\r\n"
STARTED = UNSTARTED.replace(b"?", b"7")
RUNS = [
    (["once", "hello"], GET, (0, HELLO, b"")),
    (["once", "hello"], GET.replace(b"\r\n\r\n", b"\r\n" + FIELDS + b"\r\n"), (0, HELLO, b"")),
    (["once", "hello"], b"GET / HTTP/1.1\r\n\r\n", (0, REFUSED, b"")),
    (["once", "hello"], b"", (0, b"", b"")),
    (["once", "echo"], POST + GET, (0, ECHOED, b"")),
    (["once", "notfound"], GET + GET, (0, NOT_FOUND + NOT_FOUND, b"")),
    (["once", "mounts"], BELOW, (0, MOUNTED, b"")),
    (["once", "life"], GET, (0, UNSTARTED, b"")),
    (["once", "nostart"], GET, (0, UNSTARTED, b"")),
    (["once", "nostop"], GET, (0, UNSTARTED, b"")),
    (["once", "wsecho"], SESSION, (0, ANSWERED, b"")),
    (["once", "nothing"], b"", (2, b"", USAGE)),
    (["serve", "0", "1", "hello"], GET, (2, b"", USAGE)),
]
# What is said of want of memory: on the connection, and before there is one.
LACKING = [b"stopped: no-memory\n", b"device fault\n"]
# The servers: their words after COUNT, and what each of their clients is answered, with whatever state there is.
SERVED = [(["hello", "1"], [HELLO]), (["hello", "2"], [HELLO]), (["life", "1"], [STARTED, UNSTARTED]), (["life", "2"], [STARTED, UNSTARTED])]
# How a server ends: the status, and what it says then (docs/OPERATING.md).
ENDS = {0: rb"", 3: rb"startup failed: .*\n", 4: rb"shutdown failed: .*\n", 5: rb"device fault\n"}
# What a request gets whose application lacks memory, so that its call faults.
FAULTED = b"HTTP/1.1 500 Internal Server Error\r\ncontent-length: 0\r\nconnection: close\r\n\r\n"


def preloaded(room):
    """Compiles the library that refuses, by the clang that compiled the programs, and returns its file."""
    rt = shutil.which("rt")
    if not rt:
        sys.exit("rt, the command of the Rattle toolchain, is not on the PATH")
    clang = os.path.join(os.path.dirname(os.path.dirname(os.path.realpath(rt))), "toolchain/bin/clang")
    made = f"{room}/refuse.so"
    words = ["--target=x86_64-unknown-linux-gnu", "-O2", "-fPIC", "-shared", "-nostdlib", "-fuse-ld=lld", "-o", made]
    subprocess.run([clang, *words, f"{HERE}/refuse.c"], check=True)
    return made


class Refusing:
    """Runs a program with one of its allocations refused."""

    def __init__(self, room):
        self.room, self.library = room, preloaded(room)

    def refusing(self, number, writing):
        """How a program is run with the allocation of this number refused, which it tells by this descriptor."""
        named = {"REFUSE": str(number), "REFUSE_TO": str(writing), "LD_PRELOAD": self.library, "LANG": "C.UTF-8"}
        return {"env": named, "pass_fds": [writing], "cwd": self.room}

    def run(self, words, number, given=b""):
        """Returns whether there was such an allocation, the status, the output and the errors."""
        reading, writing = os.pipe()
        how = {**self.refusing(number, writing), "capture_output": True, "timeout": SECONDS}
        try:
            ran = subprocess.run(words, input=given, check=False, **how)
            status, output, errors = ran.returncode, ran.stdout, ran.stderr
        except subprocess.TimeoutExpired:
            status, output, errors = 124, b"", b"it had not ended after %d seconds" % SECONDS
        finally:
            os.close(writing)
        with os.fdopen(reading, "rb") as it:
            return bool(it.read()), status, output, errors

    def serve(self, words, number):
        """Returns the same of a server of two clients, and what each client was answered."""
        port, (reading, writing) = servers.free_port(), os.pipe()
        how = {**self.refusing(number, writing), "stdin": subprocess.DEVNULL, "stdout": subprocess.PIPE, "stderr": subprocess.PIPE}
        with subprocess.Popen([PROGRAM, "serve", str(port), "2", *words], **how) as ran:
            os.close(writing)
            answers = answers_of(ran, port)
            try:
                output, errors = ran.communicate(timeout=SECONDS)
            except subprocess.TimeoutExpired:
                ran.kill()
                output, errors = b"", b"it had not ended after %d seconds" % SECONDS
        with os.fdopen(reading, "rb") as it:
            return bool(it.read()), ran.returncode, output, errors, answers

    def sweep(self, name, once, judge):
        """Runs a program until nothing is left to refuse. Returns how many runs passed, and what the others said.

        `once` runs it with the allocation of a number refused. `judge` says, of whether one was refused and of what the run
        gave, what came of it, and what is wrong with it, or None."""
        passed, failed, kinds = 0, [], Counter()
        for number in range(1, MOST + 1):
            refused, *gave = once(number)
            kind, why = judge(refused, *gave)
            if why:
                failed.append(f"{name}, allocation {number} {'refused' if refused else 'not reached'}: {why}")
            elif refused:
                passed += 1
                kinds[kind] += 1
            if not refused:
                break
        else:
            failed.append(f"{name}: more than {MOST} allocations")
        if not passed:
            failed.append(f"{name}: nothing was refused, so it shows nothing")
        told = ", ".join(f"{count} {kind}" for kind, count in kinds.most_common() if kind)
        print(f"{name}: {passed} allocations refused in turn{': ' * bool(told)}{told}", flush=True)
        return passed, failed


def connected(ran, port):
    """A connection to a server, once it listens; None where it has ended."""
    while ran.poll() is None:
        try:
            return socket.create_connection(("127.0.0.1", port), timeout=SECONDS)
        except ConnectionError:
            time.sleep(0.001)
    return None


def answers_of(ran, port):
    """What two clients of a server are answered, which are connected before either asks, and then send no more."""
    lines, answers = [connected(ran, port), connected(ran, port)], [b"", b""]
    for line in filter(None, lines):
        try:
            line.sendall(GET)
            line.shutdown(socket.SHUT_WR)
        except OSError:
            pass
    for at, line in enumerate(lines):
        try:
            while line and (piece := line.recv(1 << 16)):
                answers[at] += piece
        except OSError:
            pass
    for line in filter(None, lines):
        line.close()
    return answers


def judge_test(_refused, status, output, errors):
    """A test passes, whatever is refused."""
    if status or not output.endswith(b"test result: ok\n"):
        return "", f"status {status}\n{(output + errors).decode(errors='replace')}"
    return "", None


def judge_once(wanted):
    """The program gives its whole answer, or a beginning of it after which it says that memory is lacking.

    Where the application lacks it, the connection says so to the client."""

    def judge(refused, status, output, errors):
        if (status, output, errors) == wanted:
            return "whole", None
        if refused and status == 5 and errors in LACKING and wanted[1].startswith(output):
            return errors.decode().removeprefix("stopped: ").rstrip("\n"), None
        if refused and (status, errors) == (0, b"") and output.endswith(FAULTED):
            if wanted[1].startswith(output[: -len(FAULTED)]):
                return "500", None
        return "", f"status {status}, output {output!r}, errors {errors!r}"

    return judge


def wrong_report(report, answer, whole):
    """Whether a client's report and its answer do not belong together."""
    if report == "1 finished":
        return answer not in whole
    if report == "1 refused 500":
        return answer != FAULTED
    return not re.fullmatch("[01] (no-memory|no-thread)", report) or not any(it.startswith(answer) for it in whole)


def judge_served(whole):
    """Each client gets one of these answers, or a beginning of one, and its report; the server ends as the table has it."""

    def judge(refused, status, output, errors, answers):
        numbers, reports = zip(*(it.split(" ", 1) for it in output.decode().splitlines())) if output else ((), ())
        is_numbered = list(numbers) == [str(at + 1) for at in range(len(reports))] and len(reports) <= len(answers)
        is_ended = re.fullmatch(ENDS.get(status, b"."), errors) and (status != 0 or len(reports) == len(answers))
        wrong = [it for it in zip(reports, answers) if wrong_report(*it, whole)] + [it for it in answers[len(reports) :] if it]
        if not is_numbered or not is_ended or wrong or not refused and (status, set(reports), set(answers)) != (0, {"1 finished"}, {whole[0]}):
            return "", f"status {status}, output {output!r}, errors {errors!r}, answers {answers!r}"
        others = [it.partition(" ")[2] for it in reports if it != "1 finished"]
        return ("whole", None) if not others and not errors else (errors.decode().partition(":")[0].rstrip("\n") or others[0], None)

    return judge


# The words of a server that serves no connection, and the texts of the log that say what it lacks: memory, or what needs it.
OWN_RUNS = [["127.0.0.1:0", "0", *words] for words in (["hello", "blocking=2"], ["ends", "blocking=2"], ["hello", "slots=64"], ["hello", "threads=2", "slots=64"])]
OWN_USAGE = b"usage: server_for_tests PORT|ADDRESS COUNT APP [threads=N|blocking=N|slots=N|body=N|idle=N]..\n"
LISTENS = MOMENT.encode() + rb"\[INFO  \S+\] listening on http://127\.0\.0\.1:\d+\n"
# What the log says of memory that it lacks: for one of its lines, or for its thread.
LOG_LACKS = MOMENT.encode() + rb"\[WARN  asgi_log\S*\] (?:1 line of the log was lost|no thread for the log: [^\n]*)\n"
OWN_LACKS = MOMENT.encode() + rb"\[ERROR \S+\] (out of memory|no thread for a worker|cannot listen on 127\.0\.0\.1:0: the system refused it: [^\n]*)\n"


def judge_own(refused, status, output, errors):
    """The server starts, stops and ends well, or says what it lacks, with the status 5; without its words it says how it is called."""
    if status == 0 and output == b"" and re.fullmatch(LISTENS, errors):
        return "whole", None
    if refused and status == 0 and output == b"" and re.fullmatch(rb"%s(?:%s)?" % (LOG_LACKS, LISTENS), errors):
        return "log", None
    lacks = re.fullmatch(rb"(?:%s)?%s" % (LISTENS, OWN_LACKS), errors)
    if refused and status == 5 and output == b"" and lacks:
        return lacks[1].decode().partition(" on ")[0], None
    if refused and (status, output, errors) == (2, OWN_USAGE, b""):
        return "usage", None
    return "", f"status {status}, output {output!r}, errors {errors!r}"


def has_such(crate, word):
    """Returns whether the crate has a test of such a name."""
    for file in glob.glob(f"{crate}/src/**/*.rt", recursive=True):
        with open(file, encoding="utf-8") as it:
            if re.search(rf"#\[test\]\s*(pub )?fn \w*{re.escape(word)}", it.read()):
                return True
    return False


def tests_of(program, word):
    """Returns the names of the program's tests that have the word."""
    listed = subprocess.run([program, "--list"], stdout=subprocess.PIPE, check=True, env={}).stdout.decode()
    named = [it[: -len(": test")] for it in listed.split("\n") if it.endswith(": test")]
    return [it for it in named if word in it]


def main(words):
    word = words[0] if words else "memory_"
    crates = [it for it in sorted(glob.glob(f"{CRATES}/*")) if has_such(it, word)]
    programs = [f"{it}/out/{os.path.basename(it)}_tests" for it in crates]
    lacking = [it for it in [*programs, PROGRAM, OWN] if not os.path.isfile(it)]
    if lacking:
        print(*[f"{it} is not there: rt ci builds it" for it in lacking], sep="\n")
        print(f"0 passed, {len(lacking)} failed")
        return 1
    with tempfile.TemporaryDirectory(prefix="memory-") as room, ThreadPoolExecutor(os.cpu_count()) as pool:
        refusing, asked = Refusing(room), []
        for program in programs:
            for test in tests_of(program, word):
                once = lambda number, program=program, test=test: refusing.run([program, test], number)
                asked.append((f"{os.path.basename(program)} {test}", once, judge_test))
        for given, sent, wanted in [] if words else RUNS:
            once = lambda number, given=given, sent=sent: refusing.run([PROGRAM, *given], number, sent)
            asked.append((f"asgi_demo {' '.join(given)}", once, judge_once(wanted)))
        for given, whole in [] if words else SERVED:
            once = lambda number, given=given: refusing.serve(given, number)
            asked.append((f"asgi_demo serve PORT 2 {' '.join(given)}", once, judge_served(whole)))
        for given in [] if words else OWN_RUNS:
            once = lambda number, given=given: refusing.run([OWN, *given], number)
            asked.append((f"server_for_tests {' '.join(given)}", once, judge_own))
        done = [*pool.map(lambda it: refusing.sweep(*it), asked)]
    passed, failed = sum(it[0] for it in done), [text for it in done for text in it[1]]
    print(*[f"FAILED: {it}" for it in failed], sep="\n")
    print(f"{passed} passed, {len(failed)} failed")
    return 1 if failed or not passed else 0


if __name__ == "__main__":
    sys.exit(main(sys.argv[1:]))

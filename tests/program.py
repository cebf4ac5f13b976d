"""What each server of tests/servers_of.py answers to what is sent at once and byte by byte, and the program over pipes, files and devices.

Usage: program.py PROGRAM [TEST..]. The last line is 'N passed, M failed', and the status is 0 only with none failed.
Every expected text is written out here, from the documentation of the program.
"""

import array
import contextlib
import fcntl
import os
import select
import socket
import subprocess
import sys
import tempfile
import termios
import threading
import time

import servers_of
from servers import free_port
from servers_of import FOUR, ONCE, ONE, WORKERS, Running, asks


GET = b"GET / HTTP/1.1\r\nHost: a\r\n\r\n"
HELLO = (
    b"HTTP/1.1 200 OK\r\ncontent-type: text/plain\r\ntransfer-encoding: chunked\r\n\r\n"
    b"6\r\nhello\n\r\n0\r\n\r\n"
)
HELLO_HEAD = HELLO.partition(b"6\r\n")[0]
ECHO_HEAD = b"HTTP/1.1 200 OK\r\ncontent-type: application/octet-stream\r\ntransfer-encoding: chunked\r\n\r\n"
LAST_CHUNK = b"0\r\n\r\n"
CONTINUE = b"HTTP/1.1 100 Continue\r\n\r\n"
NOT_FOUND = b"HTTP/1.1 404 Not Found\r\ncontent-length: 0\r\n\r\n"
USAGE = b"usage: asgi_demo once APP | asgi_demo serve PORT COUNT APP [WORKERS]\n"


def refusal(status):
    return b"HTTP/1.1 " + status + b"\r\ncontent-length: 0\r\nconnection: close\r\n\r\n"


def run(words, given=b"", **options):
    """Runs the program on these words and this input, and gives status, output and errors."""
    if "stdin" not in options:
        options["input"] = given
    options.setdefault("stdout", subprocess.PIPE)
    done = subprocess.run([servers_of.DEMO] + words, stderr=subprocess.PIPE, timeout=60, check=False, **options)
    return done.returncode, done.stdout, done.stderr


def post(fields, body=b""):
    """A request with these fields and this body."""
    return b"POST / HTTP/1.1\r\nHost: a\r\n" + fields + b"\r\n" + body


def echoed(body):
    """What `echo` answers to a body that comes in one piece."""
    return ECHO_HEAD + (b"%x\r\n%s\r\n" % (len(body), body) if body else b"") + LAST_CHUNK


def answer_of(line, given):
    """What a connection is answered to what is sent at once; its side ends then, and what comes is read meanwhile."""
    sends = threading.Thread(target=send_all, args=(line, given))
    sends.start()
    answer = b""
    while piece := line.recv(1 << 16):
        answer += piece
    sends.join()
    return answer


def send_all(line, given):
    """Sends all, and ends this side. A server that has refused what came takes no more of it."""
    try:
        line.sendall(given)
        line.shutdown(socket.SHUT_WR)
    except OSError:
        pass


class Conversation:
    """A server of one connection, and its client that writes and reads by turns."""

    def __init__(self, server, app):
        self.running = Running(server, free_port(), app)

    def __enter__(self):
        self.line = self.running.__enter__().connect()
        self.line.setsockopt(socket.IPPROTO_TCP, socket.TCP_NODELAY, 1)
        return self

    def __exit__(self, *_):
        self.line.close()
        self.running.__exit__()

    def write(self, given):
        self.line.sendall(given)

    def write_alone(self, given):
        """Writes what the server reads before the next one comes, as far as a client can see: it is at the other side, and a while has gone."""
        self.line.sendall(given)
        time.sleep(0.002)

    def read(self, length):
        """Reads so many bytes, or fewer where the connection ends before."""
        found = b""
        while len(found) < length and (more := self.line.recv(length - len(found))):
            found += more
        return found

    def end(self):
        """Ends this side, and gives the status, the rest of the answers, and the other lines that were printed."""
        self.line.shutdown(socket.SHUT_WR)
        rest = self.read(1 << 30)
        ended = self.running.ended()
        return ended.status, rest, "".join(ended.others).encode()

    def ended_by_itself(self):
        """Whether the server has ended well, with the client's side open."""
        return self.running.ended().status == 0


class Talk:
    """The program, with a client that writes and reads by turns."""

    def __init__(self, app):
        kinds = {"stdin": subprocess.PIPE, "stdout": subprocess.PIPE, "stderr": subprocess.PIPE}
        self.program = subprocess.Popen([servers_of.DEMO, "once", app], **kinds)

    def __enter__(self):
        return self

    def __exit__(self, *_):
        self.program.kill()
        self.program.communicate()

    def write(self, given):
        os.write(self.program.stdin.fileno(), given)

    def write_alone(self, given):
        """Writes what the program reads before the next one comes."""
        self.write(given)
        wait_until_read(self.program.stdin.fileno())

    def ended_by_itself(self):
        """Whether the program has ended well, with its input open."""
        return self.program.wait(timeout=60) == 0

    def read(self, length):
        """Reads so many bytes, and no more of what is there."""
        pipe, found = self.program.stdout.fileno(), b""
        while len(found) < length:
            if not select.select([pipe], [], [], 30)[0]:
                raise TimeoutError(f"only {found!r} was answered")
            more = os.read(pipe, length - len(found))
            if not more:
                return found
            found += more
        return found

    def end(self):
        """Ends the input, and gives the status, the rest of the output and the errors."""
        output, errors = self.program.communicate(timeout=60)
        return self.program.returncode, output, errors


def wait_until_read(pipe):
    """Waits until the program has read all that was written to its input."""
    waiting = array.array("i", [1])
    deadline = time.monotonic() + 30
    while waiting[0] != 0:
        fcntl.ioctl(pipe, termios.FIONREAD, waiting)
        if time.monotonic() > deadline:
            raise TimeoutError("the program does not read")


@asks(ONE, FOUR, WORKERS, ONCE)
class Answers:
    """What is answered by each application."""

    def each(self, rows):
        """Sees that what each row gives to an application is answered so, by a connection of its own."""
        for app in sorted({app for app, _, _ in rows}):
            some = [(given, wanted) for name, given, wanted in rows if name == app]
            with contextlib.ExitStack() as room:
                server = room.enter_context(Running(self.server, free_port(), app, len(some))) if self.server != ONCE else None
                for given, wanted in some:
                    with self.subTest(app=app, given=given[:80]):
                        self.assertEqual(self.answer(server, app, given), wanted)
                if server:
                    ended = server.ended()
                    self.assertEqual((len(ended.reports), ended.others, ended.status), (len(some), [], 0))

    def answer(self, server, app, given):
        if not server:
            status, output, errors = run(["once", app], given)
            self.assertEqual((status, errors), (0, b""))
            return output
        with server.connect() as line:
            return answer_of(line, given)

    def talk(self, app):
        return Talk(app) if self.server == ONCE else Conversation(self.server, app)

    def test_answers_each_form_of_a_request(self):
        close = HELLO.replace(b"chunked\r\n\r\n6", b"chunked\r\nconnection: close\r\n\r\n6")
        rows = [
            (GET, HELLO),
            (b"\r\n" + GET, HELLO),
            (GET + GET, HELLO + HELLO),
            (GET + b"\r\n" + GET + b"\r\n", HELLO + HELLO),
            (GET + b"GE", HELLO),
            (GET + b"GET / HTTP/1.1\r\n\r\n" + GET, HELLO + refusal(b"400 Bad Request")),
            (b"GET / HTTP/1.1\nHost: a\n\n", HELLO),
            (b"OPTIONS * HTTP/1.1\r\nHost: a\r\n\r\n", HELLO),
            (b"GET / HTTP/1.1\r\nHost: a\r\nConnection: close\r\n\r\n", close),
            (b"GET / HTTP/1.1\r\nHost: a\r\nConnection: close\r\n\r\n" + GET, close),
            (b"GET / HTTP/1.1\r\n\r\n", refusal(b"400 Bad Request")),
            (b"GET / HTTP/1.1\r\nHost: a\r\nHost: a\r\n\r\n", refusal(b"400 Bad Request")),
            (b"GET * HTTP/1.1\r\nHost: a\r\n\r\n", refusal(b"400 Bad Request")),
            (b"CONNECT a:1 HTTP/1.1\r\nHost: a\r\n\r\n", refusal(b"501 Not Implemented")),
            (b"GET / HTTP/1.0\r\n\r\n", b"HTTP/1.1 200 OK\r\ncontent-type: text/plain\r\nconnection: close\r\n\r\nhello\n"),
            (b"HEAD / HTTP/1.1\r\nHost: a\r\n\r\n" + GET, HELLO_HEAD + HELLO),
            (b"GET / HTTP/1.1\r\nHost: a\r\nContent-Length: 0\r\n\r\n", HELLO),
            (post(b"Content-Length: 5\r\n", b"abcde") + GET, HELLO + HELLO),
            (post(b"Content-Length: 5\r\n", b"abcd"), HELLO),
            (post(b"Expect: 100-continue\r\nContent-Length: 3\r\n", b"abc") + GET, CONTINUE + HELLO + HELLO),
            (post(b"Transfer-Encoding: chunked\r\n", b"3\r\nabc\r\n" + LAST_CHUNK) + GET, HELLO + HELLO),
            (post(b"Content-Length: 2000000\r\n"), refusal(b"413 Content Too Large")),
            (b"A" * 16384, refusal(b"431 Request Header Fields Too Large")),
            (b"", b""),
            (b"\r\n", b""),
            (b"GE", b""),
        ]
        self.each([("hello", given, wanted) for given, wanted in rows])

    def test_answers_by_the_application_that_is_named(self):
        chunks = b"4\r\nabcd\r\n5\r\nefghi\r\n"
        large = b"x" * 16_384
        rows = [
            ("notfound", GET + GET, NOT_FOUND + NOT_FOUND),
            ("notfound", post(b"Content-Length: 3\r\n", b"abc") + GET, NOT_FOUND + NOT_FOUND),
            ("wsecho", GET + GET, NOT_FOUND + NOT_FOUND),
            ("echo", GET, echoed(b"")),
            ("echo", post(b"Content-Length: 0\r\n"), echoed(b"")),
            ("echo", post(b"Content-Length: 3\r\n", b"abc") + GET, echoed(b"abc") + echoed(b"")),
            ("echo", post(b"Content-Length: 10\r\n", b"abcd"), b""),
            (
                "echo",
                post(b"Transfer-Encoding: chunked\r\n", chunks + b"0\r\nx: y\r\n\r\n") + GET,
                ECHO_HEAD + chunks + LAST_CHUNK + echoed(b""),
            ),
            ("echo", post(b"Transfer-Encoding: chunked\r\n", b"x\r\n") + GET, refusal(b"400 Bad Request")),
            (
                "echo",
                post(b"Expect: 100-continue\r\nContent-Length: 3\r\n", b"abc") + GET,
                CONTINUE + echoed(b"abc") + echoed(b""),
            ),
            (
                "echo",
                b"POST / HTTP/1.0\r\nExpect: 100-continue\r\nContent-Length: 3\r\n\r\nabc",
                b"HTTP/1.1 200 OK\r\ncontent-type: application/octet-stream\r\nconnection: close\r\n\r\nabc",
            ),
            (
                "echo",
                post(b"Content-Length: 32768\r\n", large + large) + GET,
                ECHO_HEAD + 2 * (b"4000\r\n" + large + b"\r\n") + LAST_CHUNK + echoed(b""),
            ),
        ]
        self.each(rows)

    def test_keeps_to_the_usual_limits(self):
        # 64 fields and 16 KiB of a head, with what stands before and after (RFC 6585, section 5), 256 bytes of a size line, 16 KiB
        # of a trailer section; and ten mebibytes of what has no end.
        def head(fields):
            return GET[:-2] + fields + b"\r\n"

        few, many, ten = b"".join(b"x-%d: y\r\n" % at for at in range(63)), b"z: y\r\n", b"a" * 10_485_760
        room = 16_384 - len(GET)
        too_large, bad = refusal(b"431 Request Header Fields Too Large"), refusal(b"400 Bad Request")
        chunked = post(b"Transfer-Encoding: chunked\r\n")
        rows = [
            ("64 fields", "hello", head(few), HELLO),
            ("65 fields", "hello", head(few + many), bad),
            ("a name that fills the head", "hello", head(b"n" * (room - 3) + b":\r\n"), HELLO),
            ("a name of a byte more", "hello", head(b"n" * (room - 2) + b":\r\n"), too_large),
            ("a name of 16 KiB", "hello", head(b"n" * 16_384 + b": y\r\n"), too_large),
            ("a value that fills the head", "hello", head(b"n:" + b"v" * (room - 4) + b"\r\n"), HELLO),
            ("a value of a byte more", "hello", head(b"n:" + b"v" * (room - 3) + b"\r\n"), too_large),
            ("a target that fills the head", "hello", GET.replace(b"/ ", b"/" + b"p" * room + b" "), HELLO),
            ("a target of a byte more", "hello", GET.replace(b"/ ", b"/" + b"p" * (room + 1) + b" "), too_large),
            ("empty lines that fill the head", "hello", b"\r\n" * (room // 2) + GET, HELLO),
            ("an empty line more", "hello", b"\r\n" * (room // 2 + 1) + GET, too_large),
            ("10 MiB without a line feed", "hello", ten, too_large),
            ("10 MiB of a method", "hello", ten + GET, too_large),
            ("10 MiB of a target", "hello", b"GET /" + ten + b" HTTP/1.1\r\nHost: a\r\n\r\n", too_large),
            ("10 MiB of a value", "hello", head(b"n: " + ten + b"\r\n"), too_large),
            ("10 MiB of line feeds", "hello", b"\n" * len(ten), too_large),
            ("10 MiB of NUL bytes", "hello", bytes(len(ten)), too_large),
            ("10 MiB of fields", "hello", GET[:-2] + b"x: y\r\n" * 1_747_626, too_large),
            ("a size line of 256 bytes", "echo", chunked + b"0;" + b"a" * 252 + b"\r\n\r\n", echoed(b"")),
            ("a size line of 257 bytes", "echo", chunked + b"0;" + b"a" * 253 + b"\r\n\r\n", bad),
            ("10 MiB of a size", "echo", chunked + b"0" * len(ten), bad),
            ("10 MiB of an extension", "echo", chunked + b"5;" + ten, bad),
            ("64 trailer fields", "echo", chunked + b"0\r\n" + few + many + b"\r\n", echoed(b"")),
            ("65 trailer fields", "echo", chunked + b"0\r\n" + few + many * 2 + b"\r\n", bad),
            ("10 MiB of a trailer", "echo", chunked + b"0\r\nx: " + ten, bad),
        ]
        self.each([(app, given, wanted) for _, app, given, wanted in rows])

    def test_answers_a_request_that_comes_byte_by_byte(self):
        with self.talk("hello") as talk:
            for place in range(len(GET)):
                talk.write_alone(GET[place : place + 1])
            # The client's side stays open: an answer waits for no more of it.
            self.assertEqual(talk.read(len(HELLO)), HELLO)
            self.assertEqual(talk.end(), (0, b"", b""))

    def test_keeps_a_connection_alive(self):
        with self.talk("hello") as talk:
            for _ in range(5):
                talk.write(GET)
                self.assertEqual(talk.read(len(HELLO)), HELLO)
            self.assertEqual(talk.end(), (0, b"", b""))

    def test_ends_after_an_answer_that_closes(self):
        with self.talk("hello") as talk:
            talk.write(GET.replace(b"\r\n\r\n", b"\r\nConnection: close\r\n\r\n"))
            close = HELLO.replace(b"chunked\r\n\r\n6", b"chunked\r\nconnection: close\r\n\r\n6")
            self.assertEqual(talk.read(len(close) + 1), close)
            # It has ended though the client's side is open.
            self.assertTrue(talk.ended_by_itself())

    def test_tells_a_client_that_waits_to_go_on(self):
        with self.talk("echo") as talk:
            talk.write(post(b"Expect: 100-continue\r\nContent-Length: 3\r\n"))
            self.assertEqual(talk.read(len(CONTINUE)), CONTINUE)
            talk.write(b"abc")
            self.assertEqual(talk.read(len(echoed(b"abc"))), echoed(b"abc"))
            self.assertEqual(talk.end(), (0, b"", b""))

    def test_answers_a_piece_before_the_next_one_comes(self):
        with self.talk("echo") as talk:
            talk.write(post(b"Transfer-Encoding: chunked\r\n", b"1\r\na\r\n"))
            wanted = ECHO_HEAD + b"1\r\na\r\n"
            self.assertEqual(talk.read(len(wanted)), wanted)
            for letter in (b"b", b"c", b"d"):
                chunk = b"1\r\n" + letter + b"\r\n"
                talk.write(chunk)
                self.assertEqual(talk.read(len(chunk)), chunk)
            talk.write(LAST_CHUNK)
            self.assertEqual(talk.read(len(LAST_CHUNK)), LAST_CHUNK)
            self.assertEqual(talk.end(), (0, b"", b""))

    def test_an_answer_comes_before_the_body_that_it_does_not_need(self):
        with self.talk("hello") as talk:
            talk.write(post(b"Content-Length: 4\r\n", b"ab"))
            self.assertEqual(talk.read(len(HELLO)), HELLO)
            talk.write(b"cd" + GET)
            self.assertEqual(talk.read(len(HELLO)), HELLO)
            self.assertEqual(talk.end(), (0, b"", b""))


@asks(ONCE)
class Streams:
    """Standard input and standard output that fail."""

    def test_a_client_that_reads_no_more_stops_it(self):
        with Talk("hello") as talk:
            talk.write(GET)
            self.assertEqual(talk.read(len(HELLO)), HELLO)
            talk.program.stdout.close()
            talk.write(GET)
            # The input is open still.
            self.assertEqual(talk.program.wait(timeout=60), 5)
            self.assertEqual(talk.program.stderr.read(), b"stopped: write-failed 0\n")

    def test_says_that_a_write_failed(self):
        wanted = (5, b"stopped: write-failed 0\n")
        with open("/dev/full", "wb") as full:
            status, _, errors = run(["once", "hello"], GET, stdout=full)
            self.assertEqual((status, errors), wanted)
        reader, writer = os.pipe()
        os.close(reader)
        status, _, errors = run(["once", "hello"], GET, stdout=writer)
        os.close(writer)
        self.assertEqual((status, errors), wanted)

    def test_an_input_that_fails_is_no_fault_of_the_program(self):
        with tempfile.TemporaryDirectory() as folder:
            place = os.open(folder, os.O_RDONLY)
            result = run(["once", "hello"], stdin=place)
            os.close(place)
        self.assertEqual(result, (0, b"", b""))


@asks(ONCE)
class Usage:
    """Any other words."""

    def test_is_said_before_anything_else_is_done(self):
        rows = [
            [],
            ["once"],
            ["hello"],
            ["once", "nothing"],
            ["once", "Echo"],
            ["once", "wsEcho"],
            ["ONCE", "hello"],
            ["once", "hello", "hello"],
            ["once", "hello", ""],
            ["serve", "0", "1", "hello"],
            ["once", b"hello\xff"],
            [b"\xff", "hello"],
            ["once", "hello", b"\xc3"],
        ]
        for words in rows:
            with self.subTest(words=words), tempfile.TemporaryFile() as given:
                given.write(GET)
                given.flush()
                given.seek(0)
                self.assertEqual(run(words, stdin=given), (2, b"", USAGE))
                # The input was not read: the place in the shared file is where it was.
                self.assertEqual(os.lseek(given.fileno(), 0, os.SEEK_CUR), 0)


def main():
    servers_of.DEMO = os.path.abspath(sys.argv[1])
    return servers_of.run_tests(__name__)


if __name__ == "__main__":
    sys.exit(main())

"""The built program as a server, by real clients: `serve PORT COUNT APP` on this machine's loopback address.

Usage: servers.py PROGRAM. The last line is 'N passed, M failed', and the status is 0 only with none failed.
The program of `crates/asgi_digest_example`, whose responses have trailers, is asked too, as a service of inetd(8) is; and those of
`crates/asgi_new_example` and `crates/asgi_guide_example`, which docs/GUIDE.md shows.
The clients are curl, ab, wrk, nginx and haproxy of Debian's packages, Python's `http.client`, and the `websockets` of Debian's
package python3-websockets; what is missing is installed by apt-get. A client that can't be had is told as skipped, and
counts neither as passed nor as failed. Each server is started by its test, and has ended at its end: what it printed, and
its status, are a part of each test. Expected texts are those of the RFCs and of the program's documentation.
"""

import asyncio
import base64
import contextlib
import errno
import hashlib
import http.client
import json
import os
import random
import re
import shutil
import socket
import struct
import subprocess
import sys
import tempfile
import threading
import time
import unittest

import packages
from servers_of import MOMENT, ROOM

PROGRAM = ""
TOP = os.path.dirname(os.path.dirname(os.path.realpath(__file__)))
PACKAGES = {"curl": "curl", "ab": "apache2-utils", "wrk": "wrk", "nginx": "nginx-light", "haproxy": "haproxy"}
SECONDS = 60
# The largest body that the usual limits take.
MEBIBYTE = bytes(number * number % 251 for number in range(251)) * (1 << 12)
MEBIBYTE = (MEBIBYTE * 2)[: 1 << 20]
GET = b"GET / HTTP/1.1\r\nHost: a\r\n\r\n"
GREETING = b"6\r\nhello\n\r\n0\r\n\r\n"
HANDSHAKE = (
    b"GET / HTTP/1.1\r\nHost: a\r\nUpgrade: websocket\r\nConnection: Upgrade\r\n"
    b"Sec-WebSocket-Key: dGhlIHNhbXBsZSBub25jZQ==\r\nSec-WebSocket-Version: 13\r\n\r\n"
)


# The ports that servers of these tests are given: below those that the system gives to clients (ip(7), ip_local_port_range), each once.
FIRST_OF_CLIENTS = 32_768
PORTS = iter(random.sample(range(10_000, FIRST_OF_CLIENTS), FIRST_OF_CLIENTS - 10_000))
NEXT_PORT = threading.Lock()
# The state of a socket that listens, in /proc/net/tcp.
LISTENS = "0A"


def sockets():
    """The sockets of this machine's TCP over IPv4: the address and port of each, as the system writes them, and its state."""
    with open("/proc/net/tcp", encoding="ascii") as it:
        return [(row[1], row[3]) for row in map(str.split, it.readlines()[1:])]


def free_port():
    """A port that nothing uses, which no other call of this run is given, and no client that connects meanwhile.

    No socket is opened to find out: a process that another thread starts meanwhile would hold it until it runs its program, and
    the server that is given the port would find it in use."""
    with NEXT_PORT:
        used = {address.partition(":")[2] for address, _ in sockets()}
        return next(port for port in PORTS if f"{port:04X}" not in used)


def listens(port):
    """Whether a socket listens on this port of the loopback address, with no connection made to find out."""
    return (f"0100007F:{port:04X}", LISTENS) in sockets()


def wait_for(what, why):
    until = time.monotonic() + SECONDS
    while not what():
        if time.monotonic() > until:
            raise AssertionError(why)
        time.sleep(0.01)


class Server:
    """The program, which serves so many connections, and then ends by itself."""

    def __init__(self, app, count=1, port=None, zeros=0, env=None, workers=None):
        self.port = port or free_port()
        self.url = f"http://127.0.0.1:{self.port}/"
        words = [PROGRAM, "serve", f"{self.port:0{zeros}}", f"{count:0{zeros}}", app, *([str(workers)] if workers else [])]
        pipes = {"stdin": subprocess.DEVNULL, "stdout": subprocess.PIPE, "stderr": subprocess.PIPE}
        self.ran = subprocess.Popen(words, env={**os.environ, **(env or {})}, **pipes)

    def __enter__(self):
        wait_for(lambda: listens(self.port) or self.ran.poll() is not None, "the server does not listen")
        return self

    def __exit__(self, *_):
        self.ran.kill()
        self.ran.communicate()

    def connect(self):
        return socket.create_connection(("127.0.0.1", self.port), timeout=SECONDS)

    def ended(self):
        """What it printed, and its status, once it has ended."""
        output, errors = self.ran.communicate(timeout=SECONDS)
        return output.decode().splitlines(), errors.decode(), self.ran.returncode

    def used_up(self, at_most):
        """The same, where the number of connections that a client makes is not known: further ones are made, up to so many."""
        for _ in range(at_most):
            if self.ran.poll() is not None:
                break
            with contextlib.suppress(OSError):
                self.connect().close()
            time.sleep(0.02)
        return self.ended()


def read_all(line):
    pieces = []
    while piece := line.recv(1 << 16):
        pieces.append(piece)
    return b"".join(pieces)


def run(words, **options):
    done = subprocess.run(words, stdout=subprocess.PIPE, stderr=subprocess.PIPE, timeout=SECONDS, check=False, **options)
    return done.returncode, done.stdout, done.stderr.decode(errors="replace")


def text_of(path):
    """The text of a file of this repository."""
    with open(f"{TOP}/{path}", encoding="utf-8") as it:
        return it.read()


def needs(name):
    return unittest.skipUnless(shutil.which(name), f"{name} can't be had")


class Example(unittest.TestCase):
    """The program of `crates/asgi_port_example`, which serves one connection after another in its own thread."""

    @needs("curl")
    def test_an_application_of_ones_own_is_served_on_a_port(self):
        port = free_port()
        ran = subprocess.Popen([f"{TOP}/crates/asgi_port_example/out/asgi_port_example", str(port), "2"], stdout=subprocess.PIPE)
        try:
            wait_for(lambda: listens(port) or ran.poll() is not None, "the example does not listen")
            for path in ("/a/b", "/a%20b?q"):
                status, output, _ = run(["curl", "-s", "-m", str(SECONDS), f"http://127.0.0.1:{port}{path}"])
                wanted = {"/a/b": b"GET /a/b\n", "/a%20b?q": b"GET /a b\n"}[path]
                self.assertEqual((status, output), (0, wanted))
            told = ran.communicate(timeout=SECONDS)[0]
            self.assertEqual((told, ran.returncode), (b"1 exchanges, finished\n" * 2, 0))
        finally:
            ran.kill()


def log_of(errors):
    """The lines that a program over `nomtsage` wrote to the log, without their time, level and place, without clients and the one of descriptors."""
    texts = [re.fullmatch(MOMENT + r"\[[A-Z]+ +\S+\] (.*)", line) for line in errors.splitlines()]
    texts = [it for it in texts if not it or not ROOM.fullmatch(it[1])]
    return [re.sub(r": \S+ port \d+, ", ": ", it[1]) if it else "no line of a log" for it in texts]


def system_error(number):
    """What the system says of an error, as the toolchain writes it."""
    return f"{os.strerror(number)} (os error {number})"


class Served:
    """The program of an example, which serves so many connections of a port, and then ends by itself."""

    def __init__(self, name, count, *words):
        self.port = free_port()
        self.url = f"http://127.0.0.1:{self.port}"
        words = [f"{TOP}/crates/{name}/out/{name}", str(self.port), str(count), *words]
        self.ran = subprocess.Popen(words, stdin=subprocess.DEVNULL, stdout=subprocess.PIPE, stderr=subprocess.PIPE)

    def __enter__(self):
        wait_for(lambda: listens(self.port) or self.ran.poll() is not None, "the example does not listen")
        return self

    def __exit__(self, *_):
        self.ran.kill()
        self.ran.communicate()

    def connect(self):
        return http.client.HTTPConnection("127.0.0.1", self.port, timeout=SECONDS)

    def ended(self):
        """What it printed, what it wrote to the log after the line that says where it listens, and its status, once it has ended."""
        output, errors = self.ran.communicate(timeout=SECONDS)
        first, *lines = log_of(errors.decode())
        if first != f"listening on {self.url}":
            raise AssertionError(f"no line says where it listens: {first}")
        return output.decode(), lines, self.ran.returncode


class Guide(unittest.TestCase):
    """The programs of docs/GUIDE.md: what `make new` makes, and the applications that come after it."""

    def assert_ended(self, served, *requests, how="finished"):
        """It printed nothing, wrote a line of the log for each connection, with so many requests each, and ended well."""
        output, lines, status = served.ended()
        self.assertEqual((output, status), ("", 0))
        found = [re.fullmatch(r"connection (\d+): (\d+) requests, (.*)", it).groups() for it in lines]
        self.assertEqual(sorted(int(number) for number, _, _ in found), list(range(1, len(requests) + 1)))
        self.assertEqual(sorted((int(many), end) for _, many, end in found), sorted((many, how) for many in requests))

    def curl(self, served, path="/", *words):
        """The status, the content type and the body that curl gets."""
        asked = ["curl", "-s", "-m", str(SECONDS), "-w", "\n%{http_code} %{content_type}", *words, f"{served.url}{path}"]
        status, output, _ = run(asked)
        self.assertEqual(status, 0)
        body, _, rest = output.decode().rpartition("\n")
        return (*rest.split(" ", 1), body)

    @needs("curl")
    def test_a_new_crate_is_served(self):
        text, json, missing = "text/plain; charset=utf-8", "application/json", ("404", "", "")
        rows = [(["/"], ("200", text, "hello\n")), (["/items/7"], ("200", json, '{"item":7}')), (["/items/x"], missing), (["/x"], missing)]
        rows += [(["/items", "-d", "a new item"], ("200", json, '{"length":10}')), (["/", "-X", "DELETE"], missing)]
        with Served("asgi_new_example", len(rows)) as served:
            for words, wanted in rows:
                self.assertEqual(self.curl(served, *words), wanted)
            output, lines, status = served.ended()
            told = [f"connection {number}: 1 requests, finished" for number in range(1, len(rows) + 1)]
            self.assertEqual((output, sorted(lines), status), ("", told, 0))

    def test_a_new_crate_without_a_count_serves_on(self):
        program = f"{TOP}/crates/asgi_new_example/out/asgi_new_example"
        ran = subprocess.Popen([program, "0"], stdin=subprocess.DEVNULL, stdout=subprocess.PIPE, stderr=subprocess.PIPE)
        try:
            url = log_of(ran.stderr.readline().decode())[0].removeprefix("listening on ")
            for _ in range(3):
                line = http.client.HTTPConnection(url.removeprefix("http://"), timeout=SECONDS)
                line.request("HEAD", "/items/7")
                answer = line.getresponse()
                self.assertEqual((answer.status, answer.headers["content-length"], answer.read()), (200, "10", b""))
                line.close()
            self.assertIsNone(ran.poll())
        finally:
            ran.kill()
            ran.communicate()

    @needs("curl")
    def test_requests_share_a_counter(self):
        with Served("asgi_guide_example", 3, "counts") as served:
            for number in (1, 2, 3):
                self.assertEqual(self.curl(served), ("200", "text/plain; charset=utf-8", f"request {number}\n"))
            self.assert_ended(served, 1, 1, 1)

    def asked(self, line, path="/"):
        """The status and the content of the response to one more request of a connection."""
        line.request("GET", path)
        answer = line.getresponse()
        return answer.status, answer.read().decode()

    def test_two_clients_at_once_get_each_number_once(self):
        def client(found):
            line = served.connect()
            found += [self.asked(line) for _ in range(50)]
            line.close()

        with Served("asgi_guide_example", 2, "counts") as served:
            found = [[], []]
            clients = [threading.Thread(target=client, args=(it,)) for it in found]
            for it in clients:
                it.start()
            for it in clients:
                it.join(SECONDS)
            self.assertEqual(sorted(found[0] + found[1]), sorted((200, f"request {number}\n") for number in range(1, 101)))
            # Of two requests of one client the later one has the larger number.
            for it in found:
                self.assertEqual(it, sorted(it, key=lambda found: int(found[1].split()[1])))
            self.assert_ended(served, 50, 50)

    def test_a_pool_of_one_is_busy_until_what_was_taken_is_given_back(self):
        with Served("asgi_guide_example", 2, "pool") as served:
            slow, quick = served.connect(), served.connect()
            # The question of the first client takes three seconds; the second one asks until it finds the pool busy with that.
            slow.request("GET", "/3000")
            asks = []
            wait_for(lambda: asks.append("/0") or self.asked(quick, "/0") == (503, ""), "the pool is never busy")
            answer = slow.getresponse()
            self.assertEqual(answer.status, 200)
            number = int(answer.read().split()[1])
            # It is free again, and the same value as before.
            self.assertEqual(self.asked(quick, "/0"), (200, f"question {number + 1}\n"))
            self.assertEqual(self.asked(slow, "/1"), (200, f"question {number + 2}\n"))
            slow.close()
            quick.close()
            self.assert_ended(served, 2, len(asks) + 1)

    def test_a_cache_computes_each_answer_once_and_keeps_a_hundred(self):
        with Served("asgi_guide_example", 2, "cache") as served:
            first = served.connect()
            for path, number in (("/a", 1), ("/b", 2), ("/a", 1)):
                self.assertEqual(self.asked(first, path), (200, f"answer {number}: {path}\n"))
            first.close()
            # The other client gets what was computed for the first one. Of 101 answers the one that was asked for longest ago is gone.
            other = served.connect()
            for path, number in (("/b", 2), ("/a", 1), *((f"/{it}", it) for it in range(3, 102)), ("/a", 1), ("/101", 101), ("/b", 102)):
                self.assertEqual(self.asked(other, path), (200, f"answer {number}: {path}\n"))
            other.close()
            self.assert_ended(served, 3, 104)

    @needs("curl")
    def test_an_order_is_answered_with_what_it_costs(self):
        # The last but one costs more than a number of 64 bits holds; the last one is no UTF-8.
        rows = [('{"count": 3}', "200", '{"cents":75}'), ("{}", "400", '{"error":"no count"}'), ("", "400", '{"error":"no count"}')]
        rows += [(it, "400", '{"error":"no count"}') for it in ("count", '{"count": -1}', '{"count": 18446744073709551615}', b'{"count": \xff}')]
        with Served("asgi_guide_example", len(rows), "orders") as served:
            for order, status, body in rows:
                self.assertEqual(self.curl(served, "/", "--data-binary", order), (status, "application/json", body))
            self.assert_ended(served, *[1] * len(rows))

    @needs("curl")
    def test_an_order_may_come_in_pieces(self):
        order = '{"count": 3' + " " * 70_000 + "}"
        with tempfile.NamedTemporaryFile("w") as file, Served("asgi_guide_example", 1, "orders") as served:
            file.write(order)
            file.flush()
            words = ["-H", "Transfer-Encoding: chunked", "--data-binary", f"@{file.name}"]
            self.assertEqual(self.curl(served, "/", *words), ("200", "application/json", '{"cents":75}'))
            self.assert_ended(served, 1)

    @needs("curl")
    def test_an_order_that_is_too_long_is_refused(self):
        with tempfile.NamedTemporaryFile("w") as file, Served("asgi_guide_example", 1, "orders") as served:
            file.write('{"count": 3' + " " * (1 << 20) + "}")
            file.flush()
            self.assertEqual(self.curl(served, "/", "--data-binary", f"@{file.name}"), ("413", "", ""))
            self.assert_ended(served, 0, how="refused 413")

    def test_a_session_says_each_text_again(self):
        import websockets

        async def talk(url):
            async with websockets.connect(url, ping_interval=None) as session:
                for text in ("Hello", "", "\u20ac"):
                    await session.send(text)
                    self.assertEqual(await session.recv(), f"you said: {text}")
                await session.send(b"no answer")
                await session.send("bye")
                with self.assertRaises(websockets.ConnectionClosed):
                    await session.recv()
                return session.close_code, session.close_reason

        with Served("asgi_guide_example", 1, "session") as served:
            url = served.url.replace("http", "ws")
            self.assertEqual(asyncio.run(asyncio.wait_for(talk(url), SECONDS)), (1000, "bye"))
            self.assert_ended(served, 1)

    @needs("curl")
    def test_the_state_of_the_start_is_in_each_request(self):
        with Served("asgi_guide_example", 2, "greets") as served:
            for _ in range(2):
                self.assertEqual(self.curl(served), ("200", "text/plain; charset=utf-8", "good morning\n"))
            self.assert_ended(served, 1, 1)

    def test_a_port_that_is_taken_ends_it(self):
        with socket.create_server(("127.0.0.1", 0)) as taken:
            for name, words in (("asgi_new_example", []), ("asgi_guide_example", ["orders"]), ("asgi_guide_example", ["greets"])):
                port = taken.getsockname()[1]
                status, output, errors = run([f"{TOP}/crates/{name}/out/{name}", str(port), "1", *words])
                said = f"cannot listen on 127.0.0.1:{port}: the port is in use: {system_error(errno.EADDRINUSE)}"
                self.assertEqual((status, output, log_of(errors)), (5, b"", [said]))


class Service:
    """The program of an example, which serves the first connection of a port by its standard input and output, as inetd(8) has it."""

    def __init__(self, name):
        self.words = [f"{TOP}/crates/{name}/out/{name}"]
        self.listener = socket.create_server(("127.0.0.1", 0))
        self.listener.settimeout(SECONDS)
        self.port = self.listener.getsockname()[1]
        self.url = f"http://127.0.0.1:{self.port}"
        self.ended = None
        self.thread = threading.Thread(target=self.serve, daemon=True)

    def serve(self):
        with self.listener.accept()[0] as line:
            done = subprocess.run(self.words, stdin=line, stdout=line, stderr=subprocess.PIPE, timeout=SECONDS, check=False)
        self.ended = (done.returncode, done.stderr)

    def __enter__(self):
        self.thread.start()
        return self

    def __exit__(self, *_):
        self.thread.join(SECONDS)
        self.listener.close()


class Digest(unittest.TestCase):
    """The program of `crates/asgi_digest_example`, whose responses end with a digest in a trailer (RFC 9530, section 2)."""

    HEAD = b"HTTP/1.1 200 OK\r\ntrailer: content-digest\r\ntransfer-encoding: chunked\r\n\r\n"
    DIGEST = b"content-digest: sha-256=:" + base64.b64encode(hashlib.sha256(b"/a/b\n").digest()) + b":\r\n"

    def curl(self, *words):
        """What curl shows of the response for `/a/b`, once the program has ended well."""
        with Service("asgi_digest_example") as service:
            status, output, errors = run(["curl", "-sS", "--max-time", "30", *words, f"{service.url}/a/b"])
        self.assertEqual((status, errors, service.ended), (0, "", (0, b"")))
        return output

    @needs("curl")
    def test_a_client_that_takes_trailers_gets_the_digest(self):
        # What comes is shown as it comes: the chunks, and the trailer section (RFC 9112, section 7.1.2).
        raw = self.HEAD + b"5\r\n/a/b\n\r\n0\r\n" + self.DIGEST + b"\r\n"
        self.assertEqual(self.curl("--raw", "-i", "-H", "TE: trailers"), raw)
        self.assertEqual(self.curl("--raw", "-i", "-H", "TE: trailers", "-H", "Connection: TE"), raw)

    @needs("curl")
    def test_a_client_that_takes_none_gets_the_content_alone(self):
        raw = self.HEAD + b"5\r\n/a/b\n\r\n0\r\n\r\n"
        self.assertEqual(self.curl("--raw", "-i"), raw)
        self.assertEqual(self.curl("--raw", "-i", "-H", "TE: deflate"), raw)

    @needs("curl")
    def test_trailers_are_no_part_of_the_content(self):
        for words in ([], ["-H", "TE: trailers"]):
            self.assertEqual(self.curl(*words), b"/a/b\n")

    def test_a_connection_option_for_te_closes_nothing(self):
        with Service("asgi_digest_example") as service:
            line = http.client.HTTPConnection("127.0.0.1", service.port, timeout=SECONDS)
            for fields in ({"TE": "trailers", "Connection": "TE"}, {"TE": "trailers"}, {}):
                line.request("GET", "/a/b", headers=fields)
                used = line.sock
                answer = line.getresponse()
                self.assertEqual((answer.status, answer.read()), (200, b"/a/b\n"))
                # `http.client` drops trailers; it asks on by the same connection.
                self.assertEqual((answer.headers["trailer"], answer.headers["content-digest"]), ("content-digest", None))
                self.assertIs(line.sock, used)
            line.close()
        self.assertEqual(service.ended, (0, b""))


class Program(unittest.TestCase):
    """What the program prints, and its status."""

    def test_wrong_words_give_the_usage_text(self):
        usage = b"usage: asgi_demo once APP | asgi_demo serve PORT COUNT APP [WORKERS]\n"
        port = str(free_port())
        rows = [[], ["serve"], ["serve", port, "1"], ["serve", port, "1", "hello", "more"], ["serve", port, "1", "hello", "0"]]
        rows += [["serve", port, "1", "hello", "9"], ["serve", port, "1", "hello", "-1"], ["serve", port, "1", "hello", ""], ["serve", port, "1", "hello", "2", "2"], ["serve", "0", "1", "hello"]]
        rows += [["serve", "65536", "1", "hello"], ["serve", "080000", "1", "hello"], ["serve", "+80", "1", "hello"], ["serve", " 80", "1", "hello"], ["serve", "", "1", "hello"]]
        rows += [["serve", port, "0", "hello"], ["serve", port, "1001", "hello"], ["serve", port, "one", "hello"], ["serve", port, "1", "Hello"], ["serve", port, "1", ""]]
        rows += [["server", port, "1", "hello"]]
        for words in rows:
            with self.subTest(words=words):
                done = subprocess.run([PROGRAM, *words], capture_output=True, timeout=SECONDS, check=False)
                self.assertEqual((done.returncode, done.stdout, done.stderr), (2, b"", usage))

    def test_leading_zeros_are_a_number(self):
        with Server("hello", zeros=5) as server:
            with server.connect() as line:
                line.sendall(GET)
                line.shutdown(socket.SHUT_WR)
                self.assertTrue(read_all(line).endswith(GREETING))
            self.assertEqual(server.ended(), (["1 1 finished"], "", 0))

    def test_a_start_that_fails_takes_no_connection(self):
        with Server("nostart") as server:
            self.assertEqual(server.ended(), ([], "startup failed: no table\n", 3))

    def test_a_stop_that_fails_is_told_after_the_reports(self):
        with Server("nostop", 1) as server:
            with server.connect() as line:
                line.sendall(b"GET / HTTP/1.0\r\n\r\n")
                self.assertTrue(read_all(line).endswith(b"\r\n\r\nn=7\n"))
            self.assertEqual(server.ended(), (["1 1 finished"], "shutdown failed: still busy\n", 4))

    def test_a_port_that_is_taken_is_a_device_fault(self):
        with socket.create_server(("127.0.0.1", 0)) as taken:
            port = taken.getsockname()[1]
            for app, errors in (("hello", "device fault\n"), ("life", "device fault\n"), ("nostop", "device fault\n")):
                with self.subTest(app=app), Server(app, 1, port) as server:
                    self.assertEqual(server.ended(), ([], errors, 5))

    def test_reports_that_cannot_be_written_are_a_device_fault(self):
        port = free_port()
        with open("/dev/full", "wb") as full:
            words = [PROGRAM, "serve", str(port), "1", "life"]
            with subprocess.Popen(words, stdin=subprocess.DEVNULL, stdout=full, stderr=subprocess.PIPE) as ran:
                wait_for(lambda: listens(port), "the server does not listen")
                with socket.create_connection(("127.0.0.1", port), timeout=SECONDS) as line:
                    line.sendall(GET)
                    line.shutdown(socket.SHUT_WR)
                    self.assertTrue(read_all(line).endswith(b"0\r\n\r\n"))
                _, errors = ran.communicate(timeout=SECONDS)
                self.assertEqual((errors, ran.returncode), (b"device fault\n", 5))

    def test_a_client_that_aborts_before_it_is_accepted_is_reported_and_the_next_is_served(self):
        with Server("hello", 3, workers=1) as server:
            with server.connect() as first:
                first.sendall(GET)
                answer = b""
                while not answer.endswith(GREETING):
                    answer += first.recv(1 << 16)
                # The only worker is with the first client while the second one comes, and is gone at once.
                with server.connect() as second:
                    second.setsockopt(socket.SOL_SOCKET, socket.SO_LINGER, struct.pack("ii", 1, 0))
                first.shutdown(socket.SHUT_WR)
                self.assertEqual(read_all(first), b"")
            with server.connect() as third:
                third.sendall(GET)
                third.shutdown(socket.SHUT_WR)
                self.assertTrue(read_all(third).endswith(GREETING))
            self.assertEqual(server.ended(), (["1 1 finished", "2 0 input-broke", "3 1 finished"], "", 0))

def talk(test, url):
    """The code with which a session of all kinds of messages ends."""
    import websockets

    async def messages():
        async with websockets.connect(url, ping_interval=None) as session:
            for message in ("", "Hello", "\u20ac" * 300, b"\x00\xff" * 40_000):
                await session.send(message)
                test.assertEqual(await session.recv(), message)
            await session.ping()
            await session.close(3001, "done")
            return session.close_code

    return asyncio.run(asyncio.wait_for(messages(), SECONDS))


NGINX = """
daemon off;
pid {folder}/pid;
error_log {folder}/errors;
events {{}}
http {{
  access_log off;
  client_body_temp_path {folder}/body;
  proxy_temp_path {folder}/proxy;
  fastcgi_temp_path {folder}/fastcgi;
  uwsgi_temp_path {folder}/uwsgi;
  scgi_temp_path {folder}/scgi;
{said}
}}
"""
HAPROXY = """
global
  maxconn 100
{said}
"""
OPERATING = "docs/OPERATING.md"


def said_in(language, *others):
    """The text of docs/OPERATING.md in this language, with the places of each pattern filled by others: where to listen, and where the servers are."""
    found = re.findall(rf"```{language}\n(.*?)```", text_of(OPERATING), re.DOTALL)
    if len(found) != 1:
        raise AssertionError(f"{OPERATING} has {len(found)} texts for {language}, and not one")
    said = found[0]
    for pattern, new in others:
        said, count = re.subn(pattern, lambda _, new=new: new, said)
        if count != 1:
            raise AssertionError(f"{OPERATING} has {count} places like {pattern}, and not one, to put others in")
    return said


def nginx(port, servers, *others):
    """The text for nginx, before `Server` as it is by itself."""
    lines = "".join(f"  server 127.0.0.1:{it};\n" for it in servers)
    return said_in("nginx", (r"(  server 127\.0\.0\.1:\d+;\n)+", lines), (r"listen \d+;", f"listen 127.0.0.1:{port};"), *others)


def nginx_before_workers(port, servers):
    """The same as the document has it for a server with workers: without the line that keeps connections."""
    return nginx(port, servers, (r"  keepalive \d+;\n", ""))


def haproxy(port, servers, most=10_000, *others):
    """The text for haproxy, before `Server` as it is by itself."""
    lines = "".join(f"  server s{number} 127.0.0.1:{it} maxconn {most}\n" for number, it in enumerate(servers, 1))
    return said_in("haproxy", (r"(  server \w+ 127\.0\.0\.1:\d+ maxconn 10000\n)+", lines), (r"bind :\d+", f"bind 127.0.0.1:{port}"), *others)


def haproxy_before_workers(port, servers):
    """The same as the document has it for a server with workers: as many connections as workers, and none that is kept."""
    return haproxy(port, servers, 2, (r"  mode http\n", "  mode http\n  option http-server-close\n"))


class Proxy:
    """nginx before servers on these ports, by the text of docs/OPERATING.md."""

    def __init__(self, *servers, words=nginx):
        self.folder, self.port = tempfile.TemporaryDirectory(), free_port()
        os.chmod(self.folder.name, 0o777)
        path = f"{self.folder.name}/conf"
        with open(path, "w", encoding="utf-8") as it:
            it.write(self.text(words(self.port, servers)))
        how = {"stdin": subprocess.DEVNULL, "stdout": subprocess.DEVNULL, "stderr": subprocess.DEVNULL}
        self.ran = subprocess.Popen(self.command(path), **how)

    def text(self, said):
        return NGINX.format(folder=self.folder.name, said=said)

    def command(self, path):
        return ["nginx", "-c", path]

    def __enter__(self):
        wait_for(lambda: listens(self.port) or self.ran.poll() is not None, "the proxy does not listen")
        if self.ran.poll() is not None:
            raise AssertionError("the proxy does not take the text of the document")
        return self

    def __exit__(self, *_):
        self.ran.terminate()
        self.ran.wait(timeout=SECONDS)
        self.folder.cleanup()


class Haproxy(Proxy):
    """haproxy before servers on these ports, by the text of docs/OPERATING.md."""

    def __init__(self, *servers, words=haproxy):
        super().__init__(*servers, words=words)

    def text(self, said):
        return HAPROXY.format(said=said)

    def command(self, path):
        return ["haproxy", "-db", "-q", "-f", path]


class Behind:
    """A proxy before `Server` as it is by itself, and before one with workers. Expected is what the server would answer without it."""

    @staticmethod
    def made(*servers):
        """The proxy before `Server` as it is by itself."""
        raise NotImplementedError

    @staticmethod
    def before_workers(*servers):
        raise NotImplementedError

    def told(self, served, *requests):
        """Asserts that its connections had so many requests each, and that it ended well."""
        output, lines, status = served.ended()
        ends = sorted(int(re.fullmatch(r"connection \d+: (\d+) requests, finished", it)[1]) for it in lines)
        self.assertEqual((output, ends, status), ("", sorted(requests), 0))

    def test_requests(self):
        with Served("asgi_guide_example", 1, "orders") as served:
            with self.made(served.port) as proxy:
                line = http.client.HTTPConnection("127.0.0.1", proxy.port, timeout=SECONDS)
                for count in (1, 2, 3):
                    line.request("POST", "/", json.dumps({"count": count}))
                    answer = line.getresponse()
                    self.assertEqual((answer.status, json.loads(answer.read())), (200, {"cents": 25 * count}))
                line.close()
            # It keeps its own connection for all three.
            self.told(served, 3)

    def test_a_mebibyte(self):
        with Served("upload_example", 1) as served:
            with self.made(served.port) as proxy:
                line = http.client.HTTPConnection("127.0.0.1", proxy.port, timeout=SECONDS)
                line.request("POST", "/", MEBIBYTE)
                self.assertEqual(line.getresponse().read().decode(), hashlib.sha256(MEBIBYTE).hexdigest())
                line.close()
            self.told(served, 1)

    def test_a_request_beside_a_session(self):
        # One server of one thread has both.
        with Served("chat_example", 2) as served:
            with self.made(served.port) as proxy, socket.create_connection(("127.0.0.1", proxy.port), SECONDS) as session:
                session.sendall(HANDSHAKE)
                self.assertTrue(session.recv(4_096).startswith(b"HTTP/1.1 101 "))
                line = http.client.HTTPConnection("127.0.0.1", proxy.port, timeout=SECONDS)
                line.request("GET", "/")
                self.assertTrue(line.getresponse().read().startswith(b"<!doctype html>"))
                line.close()
                # A text, which comes back, and then a close without a code, and its answer (RFC 6455, sections 5.6 and 5.5.1).
                session.sendall(b"\x81\x82\0\0\0\0hi")
                self.assertEqual(session.recv(4_096), b"\x81\x02hi")
                session.sendall(b"\x88\x80\0\0\0\0")
                self.assertEqual(read_all(session), b"\x88\0")
            self.told(served, 1, 1)

    def test_requests_by_workers(self):
        with Server("echo", 3) as server:
            with self.before_workers(server.port) as proxy:
                line = http.client.HTTPConnection("127.0.0.1", proxy.port, timeout=SECONDS)
                for body in (b"", b"abc", MEBIBYTE):
                    line.request("POST", "/", body)
                    answer = line.getresponse()
                    self.assertEqual((answer.status, answer.read()), (200, body))
                line.close()
            # It closes its connection to the server after each response, and keeps that of the client.
            self.assertEqual(server.ended(), ([f"{number} 1 finished" for number in (1, 2, 3)], "", 0))

    def test_a_session_by_workers(self):
        with Server("wsecho", 1) as server:
            with self.before_workers(server.port) as proxy:
                self.assertEqual(talk(self, f"ws://127.0.0.1:{proxy.port}/"), 3001)
            self.assertEqual(server.ended(), (["1 1 finished"], "", 0))

    def test_a_request_beside_a_session_by_workers(self):
        # The one that has the session is busy, so the request goes to the other one.
        with Server("wsecho") as one, Server("wsecho") as other:
            with self.before_workers(one.port, other.port) as proxy, socket.create_connection(("127.0.0.1", proxy.port), SECONDS) as session:
                session.sendall(HANDSHAKE)
                self.assertTrue(session.recv(4_096).startswith(b"HTTP/1.1 101 "))
                line = http.client.HTTPConnection("127.0.0.1", proxy.port, timeout=SECONDS)
                line.request("GET", "/")
                self.assertEqual(line.getresponse().status, 404)
                line.close()
                # A close without a code, and its answer (RFC 6455, section 5.5.1).
                session.sendall(b"\x88\x80\0\0\0\0")
                self.assertEqual(read_all(session), b"\x88\0")
            for server in (one, other):
                self.assertEqual(server.ended(), (["1 1 finished"], "", 0))


@needs("nginx")
class BehindNginx(Behind, unittest.TestCase):
    @staticmethod
    def made(*servers):
        return Proxy(*servers)

    @staticmethod
    def before_workers(*servers):
        return Proxy(*servers, words=nginx_before_workers)


@needs("haproxy")
class BehindHaproxy(Behind, unittest.TestCase):
    @staticmethod
    def made(*servers):
        return Haproxy(*servers)

    @staticmethod
    def before_workers(*servers):
        return Haproxy(*servers, words=haproxy_before_workers)


def install():
    """Installs what is missing, as far as it can be had, and goes on in Debian's Python."""
    packages.install(lambda: packages.of(PACKAGES) + packages.websockets())
    packages.go_to_debians_python()


def versions():
    """Shows which clients there are."""
    asked = {"curl": ["curl", "--version"], "ab": ["ab", "-V"], "wrk": ["wrk", "-v"], "nginx": ["nginx", "-v"], "haproxy": ["haproxy", "-v"]}
    print(f"python: {sys.version.split()[0]}")
    for name, words in asked.items():
        found = run(words) if shutil.which(name) else (0, b"", "can't be had")
        print(f"{name}: {(found[1].decode() + found[2]).strip().splitlines()[0]}")
    with contextlib.suppress(ImportError):
        import websockets

        print(f"websockets: {getattr(websockets, '__version__', '') or websockets.version.version}")


def main():
    global PROGRAM
    install()
    versions()
    PROGRAM = os.path.abspath(sys.argv[1])
    suite = unittest.defaultTestLoader.loadTestsFromModule(sys.modules[__name__])
    result = unittest.TextTestRunner(stream=sys.stdout, verbosity=2).run(suite)
    failed, skipped = len(result.failures) + len(result.errors), len(result.skipped)
    for test, why in result.skipped:
        print(f"skipped: {test}: {why}")
    print(f"{max(result.testsRun - failed - skipped, 0)} passed, {failed} failed")
    return 1 if failed or not result.testsRun else 0


if __name__ == "__main__":
    sys.exit(main())

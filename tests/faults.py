#!/usr/bin/env python3
"""What may happen to the built program as a server: calls of the system that fail, clients that take nothing, and signals.

Usage: faults.py PROGRAM [TEST..]. The last line is 'N passed, M failed', and the status is 0 only with none failed. The program of
`crates/server_for_tests` is tried too.
Calls fail by a library that is preloaded (tests/fail_once.c), which gcc builds here, and descriptors are taken away by a
limit of the system. What accept(2) says of its errors is the source of the first table. The clients are sockets of this
script and Python's `http.client`. Each server is started by its test, and has ended at its end.
"""

import contextlib
import errno
import http.client
import os
import re
import resource
import signal
import socket
import subprocess
import sys
import tempfile
import threading
import time
import unittest
from concurrent.futures import ThreadPoolExecutor

import servers
from library import Own
from many import MOST, greeted
from servers import GET, GREETING, HANDSHAKE, SECONDS, Server, free_port, listens, read_all, wait_for

TOP = os.path.dirname(os.path.dirname(os.path.realpath(__file__)))
LIBRARY = ""
# accept(2): a connection that is lost before it is accepted is passed over, and the next one is accepted. (The last ones are
# pending errors of the new socket, which are to be taken as "again".)
PASSED_OVER = [
    "ECONNABORTED", "ECONNRESET", "EINTR", "EPERM", "EAGAIN", "ETIMEDOUT",
    "ENETDOWN", "EPROTO", "ENOPROTOOPT", "EHOSTDOWN", "ENONET", "EHOSTUNREACH", "EOPNOTSUPP", "ENETUNREACH",
]  # fmt: skip
# A want that may pass.
WAITED_FOR = ["EMFILE", "ENFILE", "ENOBUFS", "ENOMEM"]
# The listening socket is of no use any more.
LASTING = ["EBADF", "EINVAL", "ENOTSOCK", "EFAULT"]
# Without these nothing listens.
OPENS = ["socket", "epoll_create1", "epoll_ctl"]
FAULT = "device fault\n"
# How long another client may have to wait for one that holds the server: it is 9 seconds for a pong that is not taken.
HELD = 45
# How long it may take until nothing more of the first one is taken, which is a few seconds where the processors are free.
FILLED = 120
# "Any client that is refused gets its answer": the largest body that is taken, and more than that.
MEBIBYTE = 1 << 20
# A ping with a payload of 125 bytes, masked by zeros.
PING = b"\x89\xfd" + bytes(4) + bytes(125)


def failing(call, error, times=1, after=0):
    """The variables by which so many calls of a program fail, after so many that do not."""
    return {"LD_PRELOAD": LIBRARY, "FAIL_CALL": call, "FAIL_ERROR": str(error), "FAIL_TIMES": str(times), "FAIL_AFTER": str(after)}


class Failing(Server):
    """A server some of whose calls fail."""

    def __init__(self, app, count=1, call="", error=0, times=1, after=0, workers=None):
        super().__init__(app, count, env=failing(call, error, times, after), workers=workers)


def ask(server):
    """What a client is answered, with its end of the connection left open: nothing where it is reset."""
    with server.connect() as line:
        try:
            line.sendall(GET)
            line.settimeout(SECONDS)
            answer = b""
            while not answer.endswith(GREETING) and (piece := line.recv(1 << 16)):
                answer += piece
            return answer
        except ConnectionError:
            return b""


def is_greeted(answer):
    return answer.startswith(b"HTTP/1.1 200 OK\r\n") and answer.endswith(GREETING)


def asked(server):
    """Whether a client is greeted, and how the server of one connection ended."""
    try:
        greeted = is_greeted(ask(server))
    except OSError:
        greeted = False
    return (greeted, *server.ended())


SERVED, ENDED = (True, ["1 1 finished"], "", 0), (False, [], FAULT, 5)


class Faults(unittest.TestCase):
    """Calls of the system that fail."""

    def accepts(self, rows):
        """Sees what becomes of servers whose accept fails so often, and is then asked."""

        def row(given):
            name, times, _ = given
            with Failing("hello", call="accept", error=getattr(errno, name), times=times) as server:
                return asked(server)

        with ThreadPoolExecutor(8) as pool:
            for (name, times, wanted), found in zip(rows, pool.map(row, rows)):
                with self.subTest(error=name, times=times):
                    self.assertEqual(found, wanted)

    def test_a_connection_that_is_lost_is_passed_over(self):
        self.accepts([(name, times, SERVED) for name in PASSED_OVER for times in (1, 1_000)])

    def test_connections_that_are_lost_for_ever_end_the_server(self):
        self.accepts([("EPROTO", 1_000_000, ENDED), ("ECONNABORTED", 1_000_000, ENDED)])

    def test_a_want_of_descriptors_or_memory_is_waited_for(self):
        self.accepts([(name, times, SERVED) for name in WAITED_FOR for times in (1, 50)])

    def test_a_socket_that_accepts_nothing_ends_the_server(self):
        self.accepts([(name, 1_000_000, ENDED) for name in LASTING])

    def test_a_socket_that_can_not_be_made_ready_is_reported(self):
        with Failing("hello", 2, "setsockopt", errno.EINVAL) as server:
            self.assertEqual(ask(server), b"")
            self.assertTrue(is_greeted(ask(server)))
            self.assertEqual(server.ended(), (["1 0 input-broke", "2 1 finished"], "", 0))

    def test_a_socket_without_a_name_is_served(self):
        with Failing("hello", 1, "getsockname", errno.ENOBUFS) as server:
            self.assertEqual(asked(server), SERVED)

    def test_a_thread_that_is_refused_ends_the_server_before_a_connection(self):
        # A thread for the tasks of each worker, and then one for each worker.
        for workers in (1, 2, 8):
            for after in range(2 * workers):
                with self.subTest(workers=workers, after=after):
                    with Failing("life", 1, "pthread_create", errno.EAGAIN, after=after, workers=workers) as server:
                        self.assertEqual(asked(server), ENDED)
            with self.subTest(workers=workers), Failing("hello", 1, "pthread_create", errno.EAGAIN, after=2 * workers, workers=workers) as server:
                self.assertEqual(asked(server), SERVED)

    def test_descriptors_that_come_back_are_used(self):
        with Server("hello", 2) as server:
            hard = resource.prlimit(server.ran.pid, resource.RLIMIT_NOFILE)[1]
            resource.prlimit(server.ran.pid, resource.RLIMIT_NOFILE, (3, hard))
            # The accept that waits has its descriptor already; the next one finds none.
            self.assertTrue(is_greeted(ask(server)))
            with server.connect() as line:
                line.sendall(GET)
                time.sleep(1)
                self.assertIsNone(server.ran.poll())
                resource.prlimit(server.ran.pid, resource.RLIMIT_NOFILE, (hard, hard))
                line.shutdown(socket.SHUT_WR)
                self.assertTrue(is_greeted(read_all(line)))
            self.assertEqual(server.ended(), (["1 1 finished", "2 1 finished"], "", 0))


class Library(unittest.TestCase):
    """What a program over `nomtsage` says, and how it ends, where calls of the system fail: that of `crates/server_for_tests`."""

    def ends(self, said, call, error, app="hello blocking=2", **how):
        """Asserts that it ends by itself with this line, after the one that says where it listens if it could, and the status 5."""
        with Own(app, env={**os.environ, **failing(call, error, **how)}) as own:
            lines, status = own.ended()
            self.assertEqual((lines[call not in OPENS :], status), ([said], 5))

    def test_a_socket_that_is_refused(self):
        for name in ("EMFILE", "ENFILE", "ENOBUFS"):
            with self.subTest(error=name):
                number = getattr(errno, name)
                said = f"cannot listen on 127.0.0.1:0: the system refused it: {servers.system_error(number)}"
                self.ends(said, "socket", number)

    def test_what_tells_of_sockets_is_refused(self):
        # Each of several threads has one of its own, with the socket that listens.
        said = f"cannot listen on 127.0.0.1:0: the system refused it: {servers.system_error(errno.EMFILE)}"
        for call in ("epoll_create1", "epoll_ctl"):
            for app, after in (("hello", 0), ("hello threads=2", 0), ("hello threads=2", 1)):
                with self.subTest(call=call, app=app, after=after):
                    self.ends(said, call, errno.EMFILE, app, after=after)

    def test_a_thread_that_is_refused_ends_the_server(self):
        # A thread for the log, one for the tasks of each of its two workers, and then one for each worker.
        for app in ("hello blocking=2", "nostop blocking=2"):
            for after in range(1, 5):
                with self.subTest(app=app, after=after):
                    self.ends("no thread for a worker", "pthread_create", errno.EAGAIN, app, after=after)

    def test_a_thread_that_is_refused_to_one_of_several_tables_ends_the_server(self):
        # One thread for the log, and one for each table but that of the caller. What those that were started were to serve is left.
        for workers in (2, 4, 8):
            for after in range(1, workers):
                with self.subTest(workers=workers, after=after):
                    with Own(f"hello threads={workers}", env={**os.environ, **failing("pthread_create", errno.EAGAIN, after=after)}) as own:
                        lines, status = own.ended()
                        self.assertEqual((lines[1:], status), (["no thread for a worker"], 5))

    def test_a_socket_that_accepts_nothing_ends_the_server(self):
        for name in (*LASTING, "EPROTO"):
            with self.subTest(error=name):
                number = getattr(errno, name)
                said = f"no connection can be accepted any more: {servers.system_error(number)}"
                self.ends(said, "accept", number, times=1_000_000)

    def test_a_connection_that_is_lost_is_passed_over(self):
        for name in ("ECONNABORTED", "EMFILE"):
            with self.subTest(error=name), Own("hello blocking=2", env={**os.environ, **failing("accept", getattr(errno, name), times=10)}) as own:
                with socket.create_connection(("127.0.0.1", own.port()), timeout=SECONDS) as line:
                    line.sendall(b"GET / HTTP/1.0\r\n\r\n")
                    self.assertTrue(read_all(line).endswith(b"hello\n"))
                lines, status = own.ended()
                self.assertEqual((lines[1:], status), (["connection 1: 1 requests, finished"], 0))


class Flood(threading.Thread):
    """Sends a text over a line on and on, and reads nothing, until `end`. `stands` is set once nothing was taken for a second."""

    def __init__(self, line, text):
        super().__init__(daemon=True)
        self.line, self.text = line, text
        self.stands, self.is_over = threading.Event(), threading.Event()
        self.start()

    def run(self):
        self.line.settimeout(0.1)
        rest, waited = self.text, 0
        while not self.is_over.is_set():
            try:
                rest = rest[self.line.send(rest) :] or self.text
                waited = 0
            except TimeoutError:
                waited += 1
                if waited == 10:
                    self.stands.set()
            except OSError:
                break
        self.stands.set()

    def end(self):
        self.is_over.set()
        self.join()
        self.line.close()


class Held(unittest.TestCase):
    """Clients that would hold the server, or lose an answer."""

    def test_a_client_that_reads_no_pongs_does_not_hold_the_server(self):
        with Server("wsecho", 2, workers=1) as server:
            pings = socket.socket()
            pings.setsockopt(socket.SOL_SOCKET, socket.SO_RCVBUF, 4_096)
            pings.connect(("127.0.0.1", server.port))
            pings.sendall(HANDSHAKE)
            flood = Flood(pings, PING * 1_000)
            self.assertTrue(flood.stands.wait(FILLED))
            began = time.monotonic()
            with server.connect() as line:
                line.sendall(HANDSHAKE)
                line.settimeout(HELD)
                answer = line.recv(1 << 16)
                waited = time.monotonic() - began
                flood.end()
            self.assertTrue(answer.startswith(b"HTTP/1.1 101 "), answer)
            self.assertLess(waited, HELD)
            reports, errors, status = server.ended()
            self.assertEqual((reports[0][:4], len(reports), errors, status), ("1 1 ", 2, "", 0))

    def unread(self, asked, connect):
        """How long another client waits for one that asks this on and on and reads nothing, where there is one worker."""
        flood = Flood(connect(4_096), asked)
        self.assertTrue(flood.stands.wait(FILLED))
        began = time.monotonic()
        with connect() as line:
            line.settimeout(HELD)
            line.sendall(b"GET / HTTP/1.0\r\n\r\n")
            answer = read_all(line)
        waited = time.monotonic() - began
        flood.end()
        self.assertTrue(answer.startswith(b"HTTP/1.1 200 OK\r\n"), answer)
        return waited

    def connection(self, port, room=None):
        """A connection to a port, with this much room for what it is sent."""
        line = socket.socket()
        if room:
            line.setsockopt(socket.SOL_SOCKET, socket.SO_RCVBUF, room)
        line.connect(("127.0.0.1", port))
        return line

    def test_a_client_that_reads_no_answer_does_not_hold_the_server(self):
        post = b"POST / HTTP/1.1\r\nHost: a\r\nContent-Length: 16000\r\n\r\n" + bytes(16_000)
        with Server("echo", 2, workers=1) as server:
            self.assertLess(self.unread(post, lambda room=None: self.connection(server.port, room)), HELD)
            reports, errors, status = server.ended()
            self.assertRegex(reports[0], r"^1 \d+ write-failed \d+$")
            self.assertEqual((reports[1:], errors, status), (["2 1 finished"], "", 0))

    def test_a_client_that_reads_no_answer_does_not_hold_a_server_of_one_thread(self):
        port = free_port()
        words = [f"{TOP}/crates/asgi_port_example/out/asgi_port_example", str(port), "2"]
        with subprocess.Popen(words, stdout=subprocess.PIPE) as ran:
            wait_for(lambda: listens(port) or ran.poll() is not None, "the example does not listen")
            try:
                # The answer has the path.
                get = b"GET /%s HTTP/1.1\r\nHost: a\r\n\r\n" % (b"a" * 16_000)
                self.assertLess(self.unread(get, lambda room=None: self.connection(port, room)), HELD)
                reports = ran.communicate(timeout=SECONDS)[0].decode().splitlines()
            finally:
                ran.kill()
            self.assertRegex(reports[0], r"^\d+ exchanges, write-failed \d+$")
            self.assertEqual((reports[1:], ran.returncode), (["1 exchanges, finished"], 0))

    def refused(self, post):
        """Sees that five clients that send too much are told so, and that all are reported."""
        with Server("echo", 5) as server:
            for _ in range(5):
                self.assertEqual(post(server), 413)
            reports = [f"{number} 0 refused 413" for number in range(1, 6)]
            self.assertEqual(server.ended(), (reports, "", 0))

    def test_a_body_that_is_sent_at_once_is_refused(self):
        def post(server):
            client = http.client.HTTPConnection("127.0.0.1", server.port, timeout=SECONDS)
            client.request("POST", "/", body=bytes(5_000_000))
            return client.getresponse().status

        self.refused(post)

    def test_a_body_that_is_sent_in_pieces_is_refused(self):
        def pieces():
            for _ in range(17):
                yield bytes(65_536)
                time.sleep(0.01)

        def post(server):
            client = http.client.HTTPConnection("127.0.0.1", server.port, timeout=SECONDS)
            client.request("POST", "/", body=pieces(), headers={"Content-Length": str(17 * 65_536)})
            return client.getresponse().status

        self.refused(post)

    def test_a_refused_client_that_sends_for_ever_is_left_after_a_second(self):
        with Server("echo", 2, workers=1) as server:
            line = server.connect()
            line.sendall(b"POST / HTTP/1.1\r\nHost: a\r\nContent-Length: 99999999999\r\n\r\n")
            began, stop = time.monotonic(), threading.Event()

            def send():
                while not stop.is_set():
                    try:
                        line.send(bytes(1_000))
                        time.sleep(0.001)
                    except OSError:
                        return

            sending = threading.Thread(target=send)
            sending.start()
            with server.connect() as other:
                other.sendall(b"GET / HTTP/1.0\r\n\r\n")
                answer = read_all(other)
            waited = time.monotonic() - began
            stop.set()
            sending.join()
            line.close()
            self.assertTrue(answer.startswith(b"HTTP/1.1 200 OK\r\n"), answer)
            self.assertLess(waited, 2.5)
            self.assertEqual(server.ended(), (["1 0 refused 413", "2 1 finished"], "", 0))

    def test_a_refused_client_that_says_nothing_is_left(self):
        with Server("echo", 2, workers=1) as server:
            with server.connect() as silent:
                silent.sendall(b"GET / HTTP/1.1\r\n\r\n")
                # Its answer has ended, and it neither sends nor closes; the only worker comes to the next one all the same.
                self.assertTrue(read_all(silent).startswith(b"HTTP/1.1 400 Bad Request\r\n"))
                with server.connect() as line:
                    line.settimeout(HELD)
                    line.sendall(b"GET / HTTP/1.0\r\n\r\n")
                    self.assertTrue(read_all(line).startswith(b"HTTP/1.1 200 OK\r\n"))
                self.assertEqual(server.ended(), (["1 0 refused 400", "2 1 finished"], "", 0))

    def test_a_signal_loses_no_report(self):
        with Server("hello", 500) as server:
            lines = []
            reads = threading.Thread(target=lambda: lines.extend(server.ran.stdout))
            reads.start()
            for number in range(1, 21):
                with server.connect() as line:
                    line.sendall(GET)
                    line.shutdown(socket.SHUT_WR)
                    self.assertTrue(is_greeted(read_all(line)))
                servers.wait_for(lambda number=number: len(lines) >= number, f"the report of connection {number} is not printed")
            server.ran.send_signal(signal.SIGTERM)
            self.assertEqual(server.ran.wait(SECONDS), -signal.SIGTERM)
            reads.join()
            self.assertEqual(lines, [b"%d 1 finished\n" % number for number in range(1, 21)])


class Little(unittest.TestCase):
    """A server with few descriptors, or with little memory, under a thousand clients."""

    def test_few_descriptors_are_enough_for_a_thousand_clients(self):
        # Four are the program's own; with 16 not all of 8 workers, 4 that wait and one in hand have one each.
        for few, clients in ((16, MOST), (8, MOST), (5, 100)):
            with self.subTest(few=few), Server("hello", clients, workers=8) as server:
                resource.prlimit(server.ran.pid, resource.RLIMIT_NOFILE, (few, few))
                with ThreadPoolExecutor(64) as pool:
                    self.assertEqual(sum(pool.map(lambda _: greeted(server), range(clients))), clients)
                self.assertEqual(server.ended(), ([f"{number} 1 finished" for number in range(1, clients + 1)], "", 0))

    def test_little_memory_is_enough_or_ends_the_server_as_the_table_has_it(self):
        # A client is answered, or gets a beginning of that, or the response to a fault, or is closed; and each that is
        # answered whole has its report (docs/OPERATING.md).
        whole = re.compile(rb"HTTP/1\.1 200 OK\r\n.*" + re.escape(GREETING), re.DOTALL)
        report = re.compile(r"\d+ ([01] finished|1 refused 500|[01] no-memory|[01] no-thread)")
        for spare in (0, 32, 128, 512, 2_048, 8_192):
            with self.subTest(spare=spare), Server("hello", MOST, workers=8) as server:
                with open(f"/proc/{server.ran.pid}/status", encoding="ascii") as it:
                    size = int(re.search(r"^VmSize:\s+(\d+) kB$", it.read(), re.M)[1])
                resource.prlimit(server.ran.pid, resource.RLIMIT_AS, (1024 * (size + spare), 1024 * (size + spare)))
                with ThreadPoolExecutor(64) as pool:
                    answers = list(pool.map(lambda _: ask_in_vain(server), range(MOST)))
                # One that was lost before it was accepted does not count.
                lines, errors, status = server.used_up(MOST)
                self.assertIn((errors, status), [("", 0), (FAULT, 5)])
                self.assertEqual([int(it.split()[0]) for it in lines], list(range(1, len(lines) + 1)))
                self.assertEqual([it for it in lines if not report.fullmatch(it)], [])
                self.assertEqual(sum(it.endswith(" 1 finished") for it in lines), sum(bool(whole.fullmatch(it)) for it in answers))
                if status == 0:
                    self.assertEqual(len(lines), MOST)


def ask_in_vain(server):
    """What a client is answered that sends no more than a request; nothing where there is no server any more."""
    answer = b""
    try:
        with server.connect() as line:
            line.sendall(GET)
            line.shutdown(socket.SHUT_WR)
            while piece := line.recv(1 << 16):
                answer += piece
    except OSError:
        pass
    return answer


def main():
    global LIBRARY
    servers.PROGRAM = os.path.abspath(sys.argv[1])
    with tempfile.TemporaryDirectory() as room:
        LIBRARY = f"{room}/fail_once.so"
        source = f"{os.path.dirname(os.path.realpath(__file__))}/fail_once.c"
        subprocess.run(["gcc", "-shared", "-fPIC", "-O1", "-Wall", "-o", LIBRARY, source, "-ldl"], check=True)
        loader = unittest.defaultTestLoader
        loader.testNamePatterns = [f"*{it}*" for it in sys.argv[2:]] or None
        suite = loader.loadTestsFromModule(sys.modules[__name__])
        result = unittest.TextTestRunner(stream=sys.stdout, verbosity=2).run(suite)
    failed = len({getattr(test, "test_case", test).id() for test, _ in [*result.failures, *result.errors]})
    print(f"{result.testsRun - failed} passed, {failed} failed")
    return 1 if failed or not result.testsRun else 0


if __name__ == "__main__":
    sys.exit(main())

#!/usr/bin/env python3
"""How the server in one thread ends connections and itself: the programs of `crates/asgi_many_example` and `crates/nomtsage_example`.

Usage: reactor.py [TEST..]. The last line is 'N passed, M failed', and the status is 0 only with none failed.
The clients are Python's `http.client` and sockets of this script. Each server is started by its test, and has ended at its end.
"""

import http.client
import os
import signal
import socket
import sys
import threading
import time
import unittest

from library import Own
from seats import Server, body_of, post, sums
from servers import GET, GREETING, SECONDS, read_all

MEGABYTE = 1_000_000
# After how many bytes a client that sends on after its answer is left, and after how many ticks at the most, and of silence.
LINGER_BYTES, LINGER, LINGER_SILENT = 67_108_864, 30, 5
# How long what is quick may take on a machine that does much else.
QUICK = 3


def refused(server, size):
    """The status of a body of this size that `http.client` sends at once, and how long that took."""
    began = time.monotonic()
    client = http.client.HTTPConnection("127.0.0.1", server.port, timeout=SECONDS)
    client.request("POST", "/", body=bytes(size))
    answer = client.getresponse()
    answer.read()
    client.close()
    return answer.status, time.monotonic() - began


def begun(server, length):
    """A connection of a client that has sent a head, with a body of this length to follow."""
    line = server.connect()
    line.sendall(b"POST / HTTP/1.1\r\nHost: a\r\nContent-Length: %d\r\n\r\n" % length)
    return line


def send_on(line, pause=0.0, each=1 << 16):
    """How many bytes are taken of a client that sends for ever."""
    taken, piece = 0, bytes(each)
    try:
        while True:
            line.sendall(piece)
            taken += each
            time.sleep(pause)
    except ConnectionError:
        return taken


def is_refused(port):
    """Whether who connects to this port is refused at once."""
    try:
        socket.create_connection(("127.0.0.1", port), timeout=SECONDS).close()
    except ConnectionRefusedError:
        return True
    except ConnectionResetError:
        # The port was closed while this one waited to be accepted.
        return False
    return False


def is_refused_soon(port):
    """The same after a while: the server looks at its flag each 50 milliseconds."""
    until = time.monotonic() + QUICK
    while not (found := is_refused(port)) and time.monotonic() < until:
        time.sleep(0.02)
    return found


class Answers(unittest.TestCase):
    """What a client gets that is refused while it sends."""

    def test_a_body_that_is_sent_at_once_is_refused_at_once(self):
        sizes = [size * MEGABYTE for size in (3, 4, 5, 20)]
        with Server("echo", 2 * len(sizes)) as server:
            for size in sizes * 2:
                with self.subTest(size=size):
                    status, seconds = refused(server, size)
                    self.assertEqual(status, 413)
                    self.assertLess(seconds, QUICK)
            self.assertEqual(server.ended(), sums(2 * len(sizes), 0))

    def test_a_body_that_is_sent_for_five_seconds_is_refused(self):
        size, pieces = 30 * MEGABYTE, 100
        with Server("echo", 1) as server:
            with begun(server, size) as line:
                for _ in range(pieces):
                    line.sendall(bytes(size // pieces))
                    time.sleep(5 / pieces)
                self.assertTrue(read_all(line).startswith(b"HTTP/1.1 413 "))
            self.assertEqual(server.ended(), sums(1, 0))

    def test_others_are_served_while_much_is_dropped(self):
        with Server("echo", 21) as server:
            lines = [begun(server, 60 * MEGABYTE) for _ in range(16)]
            sends = [threading.Thread(target=line.sendall, args=(bytes(60 * MEGABYTE),)) for line in lines]
            for send in sends:
                send.start()
            began = time.monotonic()
            for _ in range(5):
                with server.connect() as line:
                    line.sendall(post(b"abc"))
                    self.assertEqual(body_of(read_all(line))[1], b"abc")
            self.assertLess(time.monotonic() - began, QUICK)
            for send, line in zip(sends, lines):
                send.join()
                self.assertTrue(read_all(line).startswith(b"HTTP/1.1 413 "))
                line.close()
            self.assertEqual(server.ended(), sums(21, 5))

    def test_a_client_that_sends_for_ever_is_left_after_so_many_bytes(self):
        with Server("echo", 1) as server:
            with begun(server, 1 << 40) as line:
                taken = send_on(line)
            # What both ends hold is some megabytes.
            self.assertGreaterEqual(taken, LINGER_BYTES)
            self.assertLess(taken, LINGER_BYTES + 32 * MEGABYTE)
            self.assertEqual(server.ended(), sums(1, 0))

    def test_a_client_that_sends_for_ever_is_left_after_so_long(self):
        with Server("echo", 1, tick=100) as server:
            with begun(server, 1 << 40) as line:
                began = time.monotonic()
                send_on(line, pause=0.02, each=100)
                took = (time.monotonic() - began) / 0.1
            self.assertGreater(took, LINGER - 2)
            self.assertLess(took, LINGER + 15)
            self.assertEqual(server.ended(), sums(1, 0))

    def test_a_client_that_falls_silent_is_left_sooner(self):
        with Server("echo", 1, tick=200) as server:
            with begun(server, 1 << 40) as line:
                began = time.monotonic()
                self.assertTrue(read_all(line).startswith(b"HTTP/1.1 413 "))
                self.assertLess(time.monotonic() - began, QUICK)
                self.assertEqual(server.ended(), sums(1, 0))
                took = (time.monotonic() - began) / 0.2
            self.assertGreater(took, LINGER_SILENT - 2)
            self.assertLess(took, LINGER_SILENT + 10)


class Ending(unittest.TestCase):
    """A server that takes no connections any more."""

    def test_who_connects_once_all_have_come_is_refused(self):
        with Server("hello", 1) as server:
            with server.connect() as line:
                line.sendall(GET)
                self.assertTrue(line.recv(1 << 16).startswith(b"HTTP/1.1 200 "))
                self.assertTrue(is_refused_soon(server.port))
                line.sendall(GET)
                line.shutdown(socket.SHUT_WR)
                self.assertTrue(read_all(line).endswith(GREETING))
            self.assertEqual(server.ended(), sums(1, 2))

    def test_who_connects_once_it_is_to_stop_is_refused(self):
        # The second has one seat, which is taken, so that it asks for no connection.
        for app in ("ends slots=8", "ends threads=3"):
            with self.subTest(app=app), Own(app, count=1000) as own:
                port = own.port()
                begun = socket.create_connection(("127.0.0.1", port), timeout=SECONDS)
                with begun:
                    begun.sendall(b"POST /last HTTP/1.1\r\nHost: a\r\nConnection: close\r\nContent-Length: 3\r\n\r\na")
                    with socket.create_connection(("127.0.0.1", port), timeout=SECONDS) as line:
                        line.sendall(b"GET /end HTTP/1.1\r\nHost: a\r\nConnection: close\r\n\r\n")
                        self.assertIn(b"/end", read_all(line))
                    self.assertTrue(is_refused_soon(port))
                    # What was begun goes on.
                    begun.sendall(b"bc")
                    self.assertIn(b"/last", read_all(begun))
                self.assertEqual(own.ended()[1], 0)


    def test_who_has_connected_as_it_is_to_stop_is_served(self):
        # It stands still while they connect and send. As it goes on sixteen of them come before those that sit have their turns.
        with Own("ends slots=64", count=1000) as own:
            port = own.port()
            with socket.create_connection(("127.0.0.1", port), timeout=SECONDS) as line:
                line.sendall(b"GET /first HTTP/1.1\r\nHost: a\r\n\r\n")
                self.assertIn(b"/first", line.recv(1 << 16))
                os.kill(own.ran.pid, signal.SIGSTOP)
                line.sendall(b"GET /end HTTP/1.1\r\nHost: a\r\nConnection: close\r\n\r\n")
                queued = [socket.create_connection(("127.0.0.1", port), timeout=SECONDS) for _ in range(40)]
                for it in queued:
                    it.sendall(b"POST /last HTTP/1.1\r\nHost: a\r\nContent-Length: 3\r\n\r\nabc")
                os.kill(own.ran.pid, signal.SIGCONT)
                answers = []
                for it in queued:
                    with it:
                        try:
                            answers.append(b"/last" in read_all(it))
                        except ConnectionError:
                            answers.append(False)
                self.assertEqual(answers, [True] * len(queued))
            self.assertTrue(is_refused_soon(port))
            self.assertEqual(own.ended()[1], 0)


def main():
    load = unittest.defaultTestLoader
    tests = [load.loadTestsFromTestCase(it) for it in (Answers, Ending)]
    chosen = unittest.TestSuite(test for part in tests for test in part if not sys.argv[1:] or test._testMethodName in sys.argv[1:])
    result = unittest.TextTestRunner(stream=sys.stdout, verbosity=2).run(chosen)
    failed = len({getattr(test, "test_case", test).id() for test, _ in [*result.failures, *result.errors]})
    print(f"{result.testsRun - failed - len(result.skipped)} passed, {failed} failed")
    return 1 if failed or not result.testsRun else 0


if __name__ == "__main__":
    sys.exit(main())

#!/usr/bin/env python3
"""The program of `crates/asgi_many_example`, which serves many connections in one thread, by sockets and by wrk.

Usage: seats.py [PROGRAM [TEST..]]. The last line is 'N passed, M failed', and the status is 0 only with none failed.
Each server is started by its test, and has ended at its end: how many connections it says to have served, and how many
requests they had, are a part of each test.
"""

import contextlib
import os
import re
import resource
import select
import shutil
import socket
import struct
import subprocess
import sys
import tempfile
import threading
import time
import unittest
from concurrent.futures import ThreadPoolExecutor

import packages
import servers
from many import echoed, greeted, read_exactly
from servers import GET, GREETING, HANDSHAKE, SECONDS, TOP, read_all, run
from servers_of import NOTES

PROGRAM = f"{TOP}/crates/asgi_many_example/out/asgi_many_example"
CLIENTS, REQUESTS = 64, 20
MEBIBYTE = servers.MEBIBYTE
# How long the answer is that echoes a mebibyte, in blocks of the usual limits.
ECHOED = 1_049_180
# Frames of RFC 6455, sections 5.2 and 5.5: a ping of the server, and its close with 1011; a pong of a client, a text, one of 20 bytes and a close with 1000,
# masked by zeros.
ASKED, NO_ANSWER = b"\x89\x00", b"\x88\x02\x03\xf3"
PONG, HI, LONG, CLOSES = b"\x8a\x80" + bytes(4), b"\x81\x82" + bytes(4) + b"hi", b"\x81\x94" + bytes(24), b"\x88\x82" + bytes(4) + b"\x03\xe8"


class Server:
    """The program with so many seats, which serves so many connections, and then ends by itself."""

    def __init__(self, app, count, seats=128, files=None, tick=None, held=None, env=None):
        self.port = servers.free_port()
        self.url = f"http://127.0.0.1:{self.port}/"
        words = [PROGRAM, f"127.0.0.1:{self.port}", str(seats), str(count), app, *[str(it) for it in (tick, held) if it]]
        pipes = {"stdin": subprocess.DEVNULL, "stdout": subprocess.PIPE, "stderr": subprocess.PIPE}
        limit = (lambda: resource.setrlimit(resource.RLIMIT_NOFILE, (files, files))) if files else None
        self.ran = subprocess.Popen(words, preexec_fn=limit, env={**os.environ, **(env or {})}, **pipes)

    def __enter__(self):
        servers.wait_for(lambda: servers.listens(self.port) or self.ran.poll() is not None, "the server does not listen")
        return self

    def __exit__(self, *_):
        self.ran.kill()
        self.ran.communicate()

    def connect(self):
        return socket.create_connection(("127.0.0.1", self.port), timeout=SECONDS)

    def ended(self):
        """What it printed below the line of its address, what on standard error, and its status, once it has ended."""
        output, errors = self.ran.communicate(timeout=SECONDS)
        lines, errors = output.decode().splitlines(), errors.decode().splitlines(keepends=True)
        assert lines[:1] == [f"listening on 127.0.0.1:{self.port}"], lines
        self.notes = [it.partition("] ")[2].rstrip() for it in errors if NOTES.search(it)]
        return lines[1:], "".join(it for it in errors if not NOTES.search(it)), self.ran.returncode

    def ticks(self):
        """The processor time that it has used, in ticks of the system."""
        with open(f"/proc/{self.ran.pid}/stat", encoding="ascii") as it:
            return sum(map(int, it.read().rpartition(")")[2].split()[11:13]))


def opened(server):
    """A connection in a session, of whose answer nothing follows the head."""
    line = server.connect()
    line.sendall(HANDSHAKE)
    head = b""
    while not head.endswith(b"\r\n\r\n"):
        head += read_exactly(line, 1)
    assert head.startswith(b"HTTP/1.1 101 "), head
    return line


def sums(connections, requests):
    return ([f"{connections} connections, {requests} requests"], "", 0)


def post(body):
    return b"POST / HTTP/1.1\r\nHost: a\r\nConnection: close\r\nContent-Length: %d\r\n\r\n" % len(body) + body


def narrow(server):
    """A connection whose client holds little of what it has not read."""
    line = socket.socket()
    line.setsockopt(socket.SOL_SOCKET, socket.SO_RCVBUF, 1 << 16)
    line.settimeout(SECONDS)
    line.connect(("127.0.0.1", server.port))
    return line


def room_of_sockets():
    """How many bytes the system takes at the most of what one side of a connection sends, and the other has not read (tcp(7))."""
    most = 0
    for name in ("tcp_rmem", "tcp_wmem"):
        with open(f"/proc/sys/net/ipv4/{name}", encoding="ascii") as it:
            most += int(it.read().split()[2])
    return most


def sends_all(line, text):
    """Sends the text, or as much of it as the server takes."""
    with contextlib.suppress(OSError):
        line.sendall(text)


def reads(line, size):
    """Reads so many bytes, or those that come before the line is reset."""
    text = b""
    with contextlib.suppress(OSError):
        while len(text) < size and (piece := line.recv(size - len(text))):
            text += piece
    return text


def body_of(answer):
    """The body of an answer in chunks."""
    head, _, rest = answer.partition(b"\r\n\r\n")
    body = b""
    while rest:
        size, _, rest = rest.partition(b"\r\n")
        if not int(size, 16):
            return head, body
        body, rest = body + rest[: int(size, 16)], rest[int(size, 16) + 2 :]
    return head, None


def calls_of(room):
    """The library by which calls of a server do less than they are asked for, built in this folder."""
    subprocess.run(["gcc", "-shared", "-fPIC", "-O1", "-Wall", "-o", f"{room}/fail_once.so", f"{TOP}/tests/fail_once.c", "-ldl"], check=True)
    return f"{room}/fail_once.so"


def greets(line):
    """Whether the next answer of a connection that goes on is the greeting."""
    text = b""
    while not text.endswith(GREETING) and (piece := line.recv(4096)):
        text += piece
    return text.startswith(b"HTTP/1.1 200 ") and text.endswith(GREETING)


def drip(line, text, each, pause):
    """How many pieces of so many bytes the server has taken until it closed the connection; None if it took all."""
    for number, at in enumerate(range(0, len(text), each)):
        try:
            line.sendall(text[at : at + each])
        except OSError:
            return number
        time.sleep(pause)
        if select.select([line], [], [], 0)[0] and not line.recv(1, socket.MSG_PEEK):
            return number
    return None


class Seats(unittest.TestCase):
    """Many connections in one thread."""

    def test_a_client_that_sends_too_slowly_is_given_up(self):
        # A tick is 20 milliseconds, and 64 bytes are the least that a sender has to send in one. 60 slow ones are 1.2 seconds.
        head = b"GET / HTTP/1.1\r\nHost: a\r\nX: " + b"a" * 5_000
        body = b"POST / HTTP/1.1\r\nHost: a\r\nContent-Length: 5000\r\n\r\n"
        with Server("echo", 3, tick=20) as server:
            with server.connect() as line:
                self.assertTrue(50 < (drip(line, head, 1, 0.01) or 0) < 1_000)
            with server.connect() as line:
                line.sendall(body)
                self.assertTrue(50 < (drip(line, b"a" * 5_000, 1, 0.01) or 0) < 1_000)
            with server.connect() as line:
                text = MEBIBYTE[: 200 * 250]
                whole = post(text)
                self.assertIsNone(drip(line, whole, 200, 0.01))
                self.assertEqual(body_of(read_all(line))[1], text)
            self.assertEqual(server.ended(), sums(3, 2))

    def test_a_client_that_sends_in_bursts_is_given_up(self):
        # 70 bytes in every third tick or so: enough for that tick, and too few for all. The 20,000 of them would take 17 seconds.
        body = b"POST / HTTP/1.1\r\nHost: a\r\nContent-Length: 20000\r\n\r\n"
        with Server("echo", 1, tick=20) as server:
            with server.connect() as line:
                line.sendall(body)
                self.assertTrue(5 < (drip(line, b"a" * 20_000, 70, 0.06) or 0) < 120)
            self.assertEqual(server.ended(), sums(1, 1))

    def test_a_client_that_takes_a_byte_now_and_then_is_given_up(self):
        # A send takes one byte of the answer, of which there are a thousand, and the next one is made at the next tick: for 30 ticks, and
        # one more for each 64 bytes. One server goes on with the connection after the answer, and the other closes it.
        asked = post(b"a" * 1_000)
        for given in (asked, asked.replace(b"Connection: close\r\n", b"")):
            with self.subTest(given=given[:40]), tempfile.TemporaryDirectory() as room:
                with Server("echo", 1, tick=20, env={"LD_PRELOAD": calls_of(room), "FAIL_MOST": "1"}) as server:
                    with server.connect() as line:
                        line.sendall(given)
                        text, until = b"", time.monotonic() + 10
                        with contextlib.suppress(ConnectionError):
                            while time.monotonic() < until and (piece := line.recv(1 << 16)):
                                text += piece
                        self.assertTrue(20 < len(text) < 100)
                    self.assertEqual(server.ended(), sums(1, 1))
                    self.assertRegex("".join(server.notes), r"^\d+ bytes for 127\.0\.0\.1 port \d+ were not taken in time$")

    def test_clients_that_keep_their_connections(self):
        with Server("hello", CLIENTS) as server:
            with ThreadPoolExecutor(CLIENTS) as pool:
                right = list(pool.map(lambda _: greeted(server, REQUESTS), range(CLIENTS)))
            self.assertEqual(right, [REQUESTS] * CLIENTS)
            self.assertEqual(server.ended(), sums(CLIENTS, CLIENTS * REQUESTS))

    def test_more_clients_than_seats(self):
        with Server("hello", CLIENTS, seats=3) as server:
            with ThreadPoolExecutor(CLIENTS) as pool:
                right = list(pool.map(lambda _: greeted(server, 2), range(CLIENTS)))
            self.assertEqual(right, [2] * CLIENTS)
            self.assertEqual(server.ended(), sums(CLIENTS, 2 * CLIENTS))

    def test_as_many_sit_as_there_are_seats_and_no_more(self):
        with Server("hello", 4, seats=3) as server:
            lines = [server.connect() for _ in range(4)]
            for line in lines:
                line.sendall(GET)
            answered, waiting = lines[:3], lines[3]
            for line in answered:
                self.assertTrue(greets(line))
            self.assertEqual(select.select([waiting], [], [], 0.5)[0], [])
            answered[0].close()
            self.assertTrue(greets(waiting))
            for line in lines[1:]:
                line.close()
            self.assertEqual(server.ended(), sums(4, 4))

    def test_that_newcomers_wait_is_said_in_the_log(self):
        # A tick is 50 milliseconds, and what sits in a session gives its seat to nobody. It is said once in 60 ticks.
        with Server("wsecho", 2, seats=1, tick=50) as server:
            with server.connect() as line, server.connect() as waiting:
                line.sendall(HANDSHAKE)
                self.assertTrue(line.recv(4096).startswith(b"HTTP/1.1 101 "))
                time.sleep(1)
                line.close()
                waiting.sendall(HANDSHAKE)
                self.assertTrue(waiting.recv(4096).startswith(b"HTTP/1.1 101 "))
            self.assertEqual(server.ended(), sums(2, 2))
            self.assertEqual({re.sub(r"\d+", "N", it) for it in server.notes}, {"newcomers have waited for N seconds: all slots are taken"})
            self.assertLess(len(server.notes), 5)

    def test_sessions(self):
        with Server("wsecho", CLIENTS) as server:
            with ThreadPoolExecutor(CLIENTS) as pool:
                right = list(pool.map(lambda name: echoed(server, REQUESTS, name), range(CLIENTS)))
            self.assertEqual(right, [REQUESTS + 1] * CLIENTS)
            self.assertEqual(server.ended(), sums(CLIENTS, CLIENTS))

    def test_echoes_of_a_mebibyte(self):
        with Server("echo", 8) as server:

            def client(_):
                with server.connect() as line:
                    line.sendall(post(MEBIBYTE))
                    return body_of(read_all(line))[1] == MEBIBYTE

            with ThreadPoolExecutor(8) as pool:
                self.assertEqual(list(pool.map(client, range(8))), [True] * 8)
            self.assertEqual(server.ended(), sums(8, 8))

    def test_clients_that_do_not_read_hold_up_no_other_and_get_all_in_the_end(self):
        # Each sends more than the system takes for a client that does not read, and four mebibytes.
        requests, clients = room_of_sockets() // len(MEBIBYTE) + 4, 3
        body = post(MEBIBYTE).replace(b"Connection: close\r\n", b"")
        with Server("echo", clients + 5) as server:
            slow = [narrow(server) for _ in range(clients)]
            sends = [threading.Thread(target=line.sendall, args=(body * requests,)) for line in slow]
            for send in sends:
                send.start()
            time.sleep(1)
            self.assertEqual([send.is_alive() for send in sends], [True] * clients)
            began = time.monotonic()
            for _ in range(5):
                with server.connect() as line:
                    line.sendall(post(b"abc"))
                    self.assertEqual(body_of(read_all(line))[1], b"abc")
            self.assertLess(time.monotonic() - began, 5)
            one = read_exactly(slow[0], ECHOED)
            self.assertEqual(body_of(one)[1], MEBIBYTE)
            for line, rest in zip(slow, (requests - 1, requests, requests)):
                self.assertEqual(read_exactly(line, rest * len(one)), one * rest)
            for send, line in zip(sends, slow):
                send.join()
                line.close()
            self.assertEqual(server.ended(), sums(clients + 5, clients * requests + 5))

    def test_what_is_held_for_all_clients_is_bounded(self):
        # Some 70,000 bytes are held for each that takes nothing, so that half a mebibyte for all is enough for seven. A tick is half
        # a second: none is given up here because nothing of it leaves, which takes fifteen seconds.
        requests, clients = 3, 16
        body = post(MEBIBYTE).replace(b"Connection: close\r\n", b"")
        with Server("echo", clients + 1, tick=500, held=1 << 19) as server:
            slow = [narrow(server) for _ in range(clients)]
            sends = [threading.Thread(target=sends_all, args=(line, body * requests)) for line in slow]
            for send in sends:
                send.start()
            time.sleep(2.5)
            with server.connect() as line:
                line.sendall(post(b"abc"))
                self.assertEqual(body_of(read_all(line))[1], b"abc")
            whole = [len(reads(line, requests * ECHOED)) == requests * ECHOED for line in slow]
            for send, line in zip(sends, slow):
                send.join()
                line.close()
            # Those for which most is held are given up, and others get all.
            self.assertTrue(0 < sum(whole) < clients, whole)
            self.assertEqual(server.ended()[1:], ("", 0))

    def test_a_thousand_silent_clients_and_one_that_asks(self):
        silent = 1000
        resource.setrlimit(resource.RLIMIT_NOFILE, (resource.getrlimit(resource.RLIMIT_NOFILE)[1],) * 2)
        with Server("hello", silent + 1, seats=2000) as server:
            lines = [server.connect() for _ in range(silent)]
            time.sleep(0.5)
            before = server.ticks()
            time.sleep(2)
            # Some ten milliseconds of a processor in two seconds.
            self.assertLessEqual(server.ticks() - before, 10)
            began = time.monotonic()
            self.assertEqual(greeted(server, 200), 200)
            self.assertLess(time.monotonic() - began, 5)
            for line in lines[::2]:
                line.sendall(GET)
            for line in lines[::2]:
                self.assertTrue(read_exactly(line, len(GREETING) + 8).startswith(b"HTTP/1.1 200 OK\r\n"))
            for line in lines:
                line.close()
            self.assertEqual(server.ended(), sums(silent + 1, 200 + silent // 2))

    def test_clients_that_go_away_or_send_what_is_no_request(self):
        with Server("hello", CLIENTS) as server:

            def client(number):
                if number % 4 == 0:
                    return greeted(server) == 1
                with server.connect() as line:
                    if number % 4 == 1:
                        line.setsockopt(socket.SOL_SOCKET, socket.SO_LINGER, struct.pack("ii", 1, 0))
                        line.sendall(GET[:-2])
                        return True
                    if number % 4 == 2:
                        line.sendall(GET)
                        line.shutdown(socket.SHUT_WR)
                        return read_all(line).endswith(GREETING)
                    line.sendall(b"GET / HTTP/1.1\r\n\r\n")
                    return read_all(line).startswith(b"HTTP/1.1 400 ")

            with ThreadPoolExecutor(16) as pool:
                self.assertTrue(all(pool.map(client, range(CLIENTS))))
            self.assertEqual(server.ended(), sums(CLIENTS, CLIENTS // 2))

    def test_heads_byte_by_byte_beside_others(self):
        with Server("hello", CLIENTS + 1) as server:
            lines = [server.connect() for _ in range(CLIENTS)]
            for byte in range(len(GET)):
                for line in lines:
                    line.sendall(GET[byte : byte + 1])
            self.assertEqual(greeted(server, REQUESTS), REQUESTS)
            for line in lines:
                line.shutdown(socket.SHUT_WR)
                self.assertTrue(read_all(line).endswith(GREETING))
                line.close()
            self.assertEqual(server.ended(), sums(CLIENTS + 1, CLIENTS + REQUESTS))

    def test_requests_one_after_another_at_once(self):
        with Server("hello", 1) as server:
            with server.connect() as line:
                line.sendall(GET * 1000)
                line.shutdown(socket.SHUT_WR)
                self.assertEqual(read_all(line).count(GREETING), 1000)
            self.assertEqual(server.ended(), sums(1, 1000))

    def test_silent_clients_are_given_up_after_seventy_five_ticks(self):
        with Server("hello", 20, tick=10) as server:
            lines = [server.connect() for _ in range(20)]
            began = time.monotonic()
            for line in lines[:10]:
                line.sendall(GET[:-2])
            for line in lines[10:]:
                self.assertEqual(read_all(line), b"")
            self.assertGreater(time.monotonic() - began, 0.5)
            for line in lines[:10]:
                self.assertEqual(read_all(line), b"")
            self.assertEqual(server.ended(), sums(20, 0))

    def test_a_client_that_takes_nothing_is_given_up_after_thirty_ticks(self):
        with Server("echo", 1, tick=10) as server:
            with server.connect() as line:
                line.setsockopt(socket.SOL_SOCKET, socket.SO_RCVBUF, 4096)
                sent = 0
                with self.assertRaises(OSError):
                    for _ in range(1000):
                        line.sendall(post(MEBIBYTE).replace(b"Connection: close\r\n", b""))
                        sent += 1
                self.assertLess(sent, 100)
            [line], errors, status = server.ended()
            self.assertEqual((errors, status), ("", 0))
            self.assertTrue(line.startswith("1 connections, "), line)

    def test_a_silent_session_is_asked_after_twenty_ticks_and_stays_open_by_its_answers(self):
        with Server("wsecho", 1, tick=50) as server, opened(server) as line:
            # Five pings are 100 ticks: with no sign of life it would be given up after 75.
            for _ in range(5):
                began = time.monotonic()
                self.assertEqual(read_exactly(line, 2), ASKED)
                self.assertGreater(time.monotonic() - began, 0.8)
                line.sendall(PONG)
            line.sendall(HI)
            self.assertEqual(read_exactly(line, 4), b"\x81\x02hi")
            line.sendall(CLOSES)
            self.assertEqual(read_all(line), b"\x88\x02\x03\xe8")
            line.close()
            self.assertEqual(server.ended(), sums(1, 1))

    def test_a_session_whose_client_does_not_answer_is_closed_with_1011_after_forty_ticks(self):
        with Server("wsecho", 2, tick=50) as server, opened(server) as line, opened(server) as speaks:
            began = time.monotonic()
            # One that has spoken, and one that has answered once, are asked and given up as any other.
            speaks.sendall(HI)
            self.assertEqual(read_exactly(speaks, 6), b"\x81\x02hi" + ASKED)
            speaks.sendall(PONG)
            self.assertEqual(read_all(line), ASKED + NO_ANSWER)
            self.assertGreater(time.monotonic() - began, 1.8)
            self.assertEqual(read_all(speaks), ASKED + NO_ANSWER)
            line.close()
            speaks.close()
            self.assertEqual(server.ended(), sums(2, 2))

    def test_a_session_that_speaks_gets_no_ping(self):
        with Server("wsecho", 1, tick=50) as server, opened(server) as line:
            for _ in range(12):
                line.sendall(HI)
                self.assertEqual(read_exactly(line, 4), b"\x81\x02hi")
                time.sleep(0.25)
            # So does one of whose message some bytes come.
            for byte in LONG:
                line.sendall(bytes([byte]))
                time.sleep(0.1)
            self.assertEqual(read_exactly(line, 22), b"\x81\x14" + bytes(20))
            line.sendall(CLOSES)
            self.assertEqual(read_all(line), b"\x88\x02\x03\xe8")
            line.close()
            self.assertEqual(server.ended(), sums(1, 1))

    def test_few_descriptors(self):
        # Five are its own; what is left is for clients, and the others wait until one has gone.
        with Server("hello", CLIENTS, files=12) as server:
            with ThreadPoolExecutor(CLIENTS) as pool:
                right = list(pool.map(lambda _: greeted(server, 3), range(CLIENTS)))
            self.assertEqual(right, [3] * CLIENTS)
            self.assertEqual(server.ended(), sums(CLIENTS, 3 * CLIENTS))

    def test_a_port_in_use(self):
        with Server("hello", 1) as server:
            words = [PROGRAM, f"127.0.0.1:{server.port}", "1", "1", "hello"]
            self.assertEqual(run(words), (5, b"", ""))
            self.assertEqual(greeted(server), 1)
            self.assertEqual(server.ended(), sums(1, 1))

    def test_wrk(self):
        if not shutil.which("wrk"):
            self.skipTest("there is no wrk")
        # Its first connection carries nothing: it ends where wrk has found the address.
        for clients in (1, 16, 256):
            with self.subTest(clients=clients), Server("hello", clients + 1, seats=512) as server:
                status, output, _ = run(["wrk", "-t1", f"-c{clients}", "-d1s", server.url])
                self.assertEqual(status, 0)
                self.assertNotIn(b"Non-2xx", output)
                self.assertNotIn(b"Socket errors", output)
                [line], errors, status = server.ended()
                self.assertEqual((errors, status), ("", 0))
                self.assertTrue(line.startswith(f"{clients + 1} connections, "), line)


def main():
    global PROGRAM
    if len(sys.argv) > 1:
        PROGRAM = sys.argv[1]
    packages.install(lambda: packages.of({"wrk": "wrk"}))
    loader = unittest.defaultTestLoader
    loader.testNamePatterns = [f"*{it}*" for it in sys.argv[2:]] or None
    suite = loader.loadTestsFromTestCase(Seats)
    result = unittest.TextTestRunner(stream=sys.stdout, verbosity=2).run(suite)
    failed = len({getattr(test, "test_case", test).id() for test, _ in [*result.failures, *result.errors]})
    print(f"{result.testsRun - failed - len(result.skipped)} passed, {failed} failed")
    return 1 if failed or not result.testsRun else 0


if __name__ == "__main__":
    sys.exit(main())

#!/usr/bin/env python3
"""Clients that take nothing, that send on, that reset, or that end their side alone, on the servers of tests/servers_of.py.

Usage: clients.py PROGRAM [TEST..]. The last line is 'N passed, M failed', and the status is 0 only with none failed.
Of each: what the client sees, what is told of it, that the next one is served, and that descriptors and memory are those of before.
"""

import contextlib
import http.client
import os
import re
import resource
import signal
import socket
import struct
import sys
import threading
import time
from concurrent.futures import ThreadPoolExecutor

import servers_of
from faults import FILLED, PING, Flood, ask_in_vain
from many import MOST, greeted, read_exactly
from servers import GET, GREETING, HANDSHAKE, SECONDS, free_port, read_all
from servers_of import FOUR, ONE, WORKERS, Running, asks, well

# How long another client may have to wait where one holds a server of workers, and where each has its turn.
WAITS = {WORKERS: 45, ONE: 5, FOUR: 5}
MEBIBYTE = 1 << 20
# How many kilobytes a server may have grown by once a client has gone: what the allocator keeps.
GROWTH = 1_024
CLOSES = b"GET / HTTP/1.1\r\nHost: a\r\nConnection: close\r\n\r\n"
LITTLE = b"POST / HTTP/1.1\r\nHost: a\r\nConnection: close\r\nContent-Length: 3\r\n\r\nabc"


def resets(line):
    """Closes a connection by a reset."""
    line.setsockopt(socket.SOL_SOCKET, socket.SO_LINGER, struct.pack("ii", 1, 0))
    line.close()


def post(size):
    return b"POST / HTTP/1.1\r\nHost: a\r\nContent-Length: %d\r\n\r\n" % size


class Case:
    def serves(self, app, count, *settings, **how):
        return Running(self.server, free_port(), app, count, *settings, **how)

    def is_served(self, server, given=CLOSES):
        """Sees that a client is answered, soon. Returns how long that took."""
        began = time.monotonic()
        with server.connect() as line:
            line.settimeout(WAITS[self.server])
            line.sendall(given)
            self.assertTrue(read_all(line).startswith((b"HTTP/1.1 200 OK\r\n", b"HTTP/1.1 404 ")))
        waited = time.monotonic() - began
        self.assertLess(waited, WAITS[self.server])
        return waited


@asks(ONE, FOUR, WORKERS)
class Held(Case):
    """Clients that would hold the server, or lose an answer."""

    def floods(self, app, begins, text):
        """A client sends this on and on and takes nothing; another is served, and it goes. It is told of as one whose write failed, or that went away."""
        settings = ["1"] if self.server == WORKERS else []
        with self.serves(app, 4, *settings) as server:
            self.is_served(server)
            server.told(1)
            before = server.rests(), server.memory()
            line = server.connect(4_096)
            line.sendall(begins)
            flood = Flood(line, text)
            self.assertTrue(flood.stands.wait(FILLED))
            self.is_served(server)
            flood.end()
            server.told(3)
            after = server.rests(before[0]), server.memory()
            self.assertEqual(after[0], before[0])
            self.assertLess(after[1], before[1] + 8 * GROWTH)
            self.is_served(server)
            ended = server.ended()
            told = sorted(ended.reports)
            self.assertEqual((told.count("1 finished") >= 3, len(told), ended.others, ended.status), (True, 4, [], 0))
            return next((it for it in told if it != "1 finished"), None)

    def test_a_client_that_takes_no_pongs_holds_nobody(self):
        self.assertRegex(self.floods("wsecho", HANDSHAKE, PING * 1_000), r"^1 (write-failed \d+|input-broke)$")

    def test_a_client_that_takes_no_answer_holds_nobody(self):
        self.assertRegex(self.floods("echo", b"", post(16_000) + bytes(16_000)), r"^\d+ (write-failed \d+|input-broke)$")

    def test_a_client_that_takes_nothing_and_stays_is_left(self):
        big = b"GET /bytes/8000000 HTTP/1.1\r\nHost: a\r\n\r\n"
        app, asked = ("echo", post(MEBIBYTE) + bytes(MEBIBYTE)) if self.server == WORKERS else ("handles", big)
        with self.serves(app, 2) as server, server.connect(4_096) as line:
            sends = threading.Thread(target=send_on, args=(line, asked * 12))
            sends.start()
            waited = self.is_served(server) if self.server == WORKERS else self.is_answered_by_the_handler(server)
            self.assertLess(waited, WAITS[self.server])
            server.told(2)
            ended = server.ended()
            self.assertEqual((len(ended.reports), ended.others, ended.status), (2, [], 0))
            self.assertRegex("\n".join(ended.reports), r"(?m)^\d+ write-failed \d+$")
            sends.join()

    def is_answered_by_the_handler(self, server):
        began = time.monotonic()
        with server.connect() as line:
            line.sendall(CLOSES)
            self.assertTrue(read_all(line).startswith(b"HTTP/1.1 204 No Content\r\n"))
        return time.monotonic() - began


def send_on(line, text):
    """Sends this, as far as it is taken."""
    with contextlib.suppress(OSError):
        line.sendall(text)


class TooMuch(Case):
    """Clients that send more of a body than is taken."""

    def refused(self, asked):
        """Sees that five clients that send too much are told so, and that all are told of."""
        with self.serves("echo", 5) as server:
            for _ in range(5):
                self.assertEqual(asked(server), 413)
            self.assertEqual(server.ended(), well(*["0 refused 413"] * 5))


@asks(ONE, FOUR, WORKERS)
class AtOnce(TooMuch):
    """A body that is sent at once."""

    def test_a_body_that_is_sent_at_once_is_refused(self):
        def asked(server):
            client = http.client.HTTPConnection("127.0.0.1", server.port, timeout=SECONDS)
            client.request("POST", "/", body=bytes(5_000_000))
            return client.getresponse().status

        self.refused(asked)


@asks(ONE, FOUR, WORKERS)
class Refused(TooMuch):
    """Clients that send what is refused, and more."""

    def test_a_body_that_is_sent_in_pieces_is_refused(self):
        def pieces():
            for _ in range(17):
                yield bytes(65_536)
                time.sleep(0.01)

        def asked(server):
            client = http.client.HTTPConnection("127.0.0.1", server.port, timeout=SECONDS)
            client.request("POST", "/", body=pieces(), headers={"Content-Length": str(17 * 65_536)})
            return client.getresponse().status

        self.refused(asked)

    def test_a_refused_client_that_sends_for_ever_is_left(self):
        with self.serves("echo", 2) as server:
            line = server.connect()
            line.sendall(post(99_999_999_999))
            stop = threading.Event()

            def send():
                while not stop.is_set():
                    try:
                        line.send(bytes(1_000))
                        time.sleep(0.001)
                    except OSError:
                        return

            sending = threading.Thread(target=send)
            sending.start()
            self.is_served(server, LITTLE)
            # It is reset, and not by its own side.
            sending.join(10)
            self.assertFalse(sending.is_alive())
            stop.set()
            line.close()
            ended = server.ended()
            self.assertEqual((sorted(ended.reports), ended.others, ended.status), (["0 refused 413", "1 finished"], [], 0))

    def test_a_refused_client_that_says_nothing_is_left(self):
        with self.serves("echo", 2) as server:
            with server.connect() as silent:
                silent.sendall(b"GET / HTTP/1.1\r\n\r\n")
                # Its answer has ended, and it neither sends nor closes.
                self.assertTrue(read_all(silent).startswith(b"HTTP/1.1 400 Bad Request\r\n"))
                self.is_served(server, LITTLE)
                ended = server.ended()
            self.assertEqual((sorted(ended.reports), ended.others, ended.status), (["0 refused 400", "1 finished"], [], 0))


# What a client sends before it goes, and what is told of one that resets, and of one that ends its side alone and reads all:
# the application, what is sent, what is waited for, the two reports (ASGI has no answer for a body that does not come whole).
STAGES = [
    ("hello", b"", b"", "0 (finished|input-broke)", "0 finished"),
    ("hello", GET[:-2], b"", "0 input-broke", "0 input-broke"),
    ("hello", GET, GREETING, "1 (finished|input-broke)", "1 finished"),
    ("hello", GET + GET[:5], GREETING, "1 input-broke", "1 input-broke"),
    ("echo", post(10) + b"abcde", b"", "1 input-broke", "1 input-broke"),
    ("wsecho", HANDSHAKE, b"\r\n\r\n", "1 input-broke", "1 input-broke"),
    ("wsecho", HANDSHAKE + b"\x81\x85\0\0\0\0Hel", b"\r\n\r\n", "1 input-broke", "1 input-broke"),
]


@asks(ONE, FOUR, WORKERS)
class Gone(Case):
    """Clients that go away at each stage."""

    def each(self, go, report_of):
        for app in ("hello", "echo", "wsecho"):
            rows = [it for it in STAGES if it[0] == app]
            with self.serves(app, len(rows) + 2) as server:
                self.is_served(server)
                server.told(1)
                before = server.rests()
                for number, row in enumerate(rows, 2):
                    with self.subTest(row=row):
                        line = server.connect()
                        line.sendall(row[1])
                        answer = b""
                        while row[2] not in answer:
                            answer += line.recv(1 << 16)
                        time.sleep(0.02)
                        go(line)
                        told = server.told(number)[-1]
                        self.assertRegex(f"{told.requests} {told.how}", f"^{report_of(row)}$")
                self.assertEqual(server.rests(before), before)
                self.is_served(server)
                ended = server.ended()
                self.assertEqual((ended.others, ended.status), ([], 0))

    def test_a_client_that_resets(self):
        self.each(resets, lambda row: row[3])

    def test_a_client_that_ends_its_side_alone(self):
        def go(line):
            line.shutdown(socket.SHUT_WR)
            read_all(line)
            line.close()

        self.each(go, lambda row: row[4])

    def test_a_client_that_goes_while_it_is_answered(self):
        # What is held for it is dropped.
        with self.serves("echo", 12) as server:
            self.is_served(server, LITTLE)
            server.told(1)
            before = server.rests(), server.memory()
            for number in range(2, 12):
                line = server.connect(4_096)
                sends = threading.Thread(target=send_on, args=(line, (post(MEBIBYTE) + bytes(MEBIBYTE)) * 8))
                sends.start()
                time.sleep(0.05)
                line.shutdown(socket.SHUT_RDWR)
                sends.join()
                resets(line)
                self.assertRegex(server.told(number)[-1].how, "^(write-failed \\d+|input-broke|finished)$")
            after = server.rests(before[0]), server.memory()
            self.assertEqual(after[0], before[0])
            self.assertLess(after[1], before[1] + 8 * GROWTH)
            self.is_served(server, LITTLE)
            self.assertEqual(server.ended()[1:], ([], 0))

    def test_a_signal_loses_no_line(self):
        with self.serves("hello", 500) as server:
            for number in range(1, 21):
                self.is_served(server)
                server.told(number)
            server.ran.send_signal(signal.SIGTERM)
            self.assertEqual(server.ran.wait(SECONDS), -signal.SIGTERM)
            self.assertEqual([f"{it.requests} {it.how}" for it in server.reports()], ["1 finished"] * 20)


class Streamed(Case):
    """Clients that go while they are sent a stream without end, by a task that receives nothing."""

    def goes(self, server):
        """A client that takes a mebibyte of the stream, and resets."""
        line = server.connect(4_096)
        line.sendall(GET)
        self.assertTrue(read_exactly(line, MEBIBYTE).startswith(b"HTTP/1.1 200 OK\r\n"))
        resets(line)


@asks(ONE, FOUR)
class Streams(Streamed):
    """Such a client has a slot."""

    def test_a_stream_ends_with_its_client(self):
        # 400 idle turns are a second: its slot, the only one, is free after three.
        with self.serves("flood", 2, "idle=1200", "slots=1") as server:
            own = server.rests()
            for number in (1, 2):
                self.goes(server)
                time.sleep(0.5)
                before = server.ticks()
                time.sleep(1)
                # A fifth of a processor at most.
                self.assertLess(server.ticks() - before, 20)
                self.assertRegex(server.told(number)[-1].how, r"^write-failed \d+$")
                if number == 1:
                    self.assertEqual(server.rests(own), own)
            ended = server.ended()
            self.assertEqual((len(ended.reports), ended.others, ended.status), (2, [], 0))


# A server of one worker, whose stream ends after so many idle turns.
WORKER = ("blocking=1", "idle=1000")


@asks(ONE)
class StreamsOfWorkers(Streamed):
    """Such a client has a worker."""

    def test_a_stream_of_a_worker_ends_with_its_client(self):
        with self.serves("flood", 2, *WORKER) as server:
            # The second one is served once the worker is free.
            self.goes(server)
            self.goes(server)
            self.assertEqual(server.ran.wait(SECONDS), 0)


@asks(ONE, FOUR)
class Told(Case):
    """What a line of the log says of a connection is what its client knows."""

    def test_each_kind_of_line_has_its_client(self):
        def asked(app, given, wanted):
            with self.serves(app, 1) as server, server.connect() as line:
                client = line.getsockname()
                line.sendall(given)
                line.shutdown(socket.SHUT_WR)
                with contextlib.suppress(ConnectionError):
                    read_all(line)
                [told] = server.told(1)
                self.assertEqual((told.host, told.port, f"{told.requests} {told.how}"), (*client, wanted))
                self.assertEqual(server.ended(), well(wanted))

        bad = b"GET / HTTP/1.1\r\n\r\n"
        rows = [
            ("hello", b"", "0 finished"),
            ("hello", GET * 7, "7 finished"),
            ("hello", GET * 3 + bad, "3 refused 400"),
            ("hello", b"CONNECT a:1 HTTP/1.1\r\nHost: a\r\n\r\n", "0 refused 501"),
            ("hello", b"A" * 16_384, "0 refused 431"),
            ("echo", post(2_000_000), "0 refused 413"),
            ("hello", HANDSHAKE.replace(b"Version: 13", b"Version: 8"), "0 refused 426"),
            ("handles", b"GET /fail HTTP/1.1\r\nHost: a\r\n\r\n", "1 refused 500"),
            ("handles", b"GET /json HTTP/1.1\r\nHost: a\r\n\r\n" * 2, "2 finished"),
            ("echo", post(10) + b"abcde", "1 input-broke"),
            ("wsecho", HANDSHAKE, "1 input-broke"),
            ("wsecho", HANDSHAKE + b"\x88\x80\0\0\0\0", "1 finished"),
        ]
        for app, given, wanted in rows:
            with self.subTest(app=app, wanted=wanted):
                asked(app, given, wanted)


@asks(ONE, FOUR)
class Waiting(Case):
    """Exchanges that wait, and what is held as a server ends."""

    def test_what_an_application_says_while_nothing_comes_is_sent_at_once(self):
        # A line each 100 milliseconds; a tick is a second.
        with self.serves("slow", 2) as server:
            for _ in range(2):
                with server.connect() as line:
                    line.sendall(CLOSES)
                    text, times = b"", []
                    while piece := line.recv(1 << 16):
                        text += piece
                        times += [time.monotonic()] * (text.count(b"line\n") - len(times))
                self.assertEqual(len(times), 10)
                self.assertLess(times[-1] - times[0], 1.6)
                self.assertGreater(times[-1] - times[0], 0.6)
                self.assertLess(max(after - before for before, after in zip(times, times[1:])), 0.7)
            self.assertEqual(server.ended(), well("1 finished", "1 finished"))

    def test_what_is_held_as_the_last_connection_ends_is_sent_whole(self):
        # Each of them reads once the server has nothing more to do for it than that, and no connection comes after them.
        sizes = (100_000, 1_000_000, 3_000_000, 5_000_001)
        with self.serves("handles", len(sizes)) as server:
            lines = [server.connect(4_096) for _ in sizes]
            for line, size in zip(lines, sizes):
                line.sendall(b"GET /bytes/%d HTTP/1.1\r\nHost: a\r\nConnection: close\r\n\r\n" % size)
            time.sleep(0.5)
            with ThreadPoolExecutor(len(sizes)) as pool:
                bodies = [it.partition(b"\r\n\r\n")[2] for it in pool.map(read_all, lines)]
            for line in lines:
                line.close()
            self.assertEqual([(len(it), set(it)) for it in bodies], [(size, {ord("b")}) for size in sizes])
            self.assertEqual(server.ended(), well(*["1 finished"] * len(sizes)))


@asks(ONE, FOUR, WORKERS)
class Little(Case):
    """A server with few descriptors, or with little memory, under many clients."""

    def test_few_descriptors_are_enough_for_many_clients(self):
        for few, clients in ((32, MOST), (16, 200)):
            with self.subTest(few=few), self.serves("hello", clients) as server:
                own = server.descriptors()
                resource.prlimit(server.ran.pid, resource.RLIMIT_NOFILE, (few, few))
                self.assertLess(own, few)
                with ThreadPoolExecutor(64) as pool:
                    self.assertEqual(sum(pool.map(lambda _: greeted(server), range(clients))), clients)
                self.assertEqual(server.ended(), well(*["1 finished"] * clients))

    def test_little_memory_is_enough_or_ends_the_server_as_the_table_has_it(self):
        # A client is answered, or gets a beginning of that, or the response to a fault, or is closed; and each that is
        # answered whole is told of (docs/OPERATING.md).
        whole = re.compile(rb"HTTP/1\.1 200 OK\r\n.*" + re.escape(GREETING), re.DOTALL)
        report = re.compile(r"([01] finished|1 refused 500|[01] no-memory|[01] no-thread|0 input-broke)")
        for spare in (0, 128, 2_048):
            with self.subTest(spare=spare), self.serves("hello", 300) as server:
                with open(f"/proc/{server.ran.pid}/status", encoding="ascii") as it:
                    size = int(re.search(r"^VmSize:\s+(\d+) kB$", it.read(), re.M)[1])
                resource.prlimit(server.ran.pid, resource.RLIMIT_AS, (1024 * (size + spare), 1024 * (size + spare)))
                with ThreadPoolExecutor(64) as pool:
                    answers = list(pool.map(lambda _, server=server: ask_in_vain(server), range(300)))
                # One that was lost before it was accepted does not count.
                for _ in range(300):
                    if server.ran.poll() is not None:
                        break
                    with contextlib.suppress(OSError):
                        server.connect().close()
                    time.sleep(0.02)
                ended = server.ended()
                self.assertIn((ended.others, ended.status), [([], 0), (["device fault"], 5), (["out of memory"], 5)])
                self.assertEqual([it for it in ended.reports if not report.fullmatch(it)], [])
                # A line of the log may find no memory either: it is counted then, in its place.
                untold = sum(bool(whole.fullmatch(it)) for it in answers) - ended.reports.count("1 finished")
                self.assertTrue(0 <= untold <= server.lost, f"{untold} are not told of, {server.lost} lines were lost")


def main():
    servers_of.DEMO = os.path.abspath(sys.argv[1])
    return servers_of.run_tests(__name__)


if __name__ == "__main__":
    sys.exit(main())

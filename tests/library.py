#!/usr/bin/env python3
"""`Server` by the program of `crates/server_for_tests`: its settings, its log, its start, its stop, and how it ends.

Usage: library.py [TEST..]. The last line is 'N passed, M failed', and the status is 0 only with none failed.
"""

import asyncio
import contextlib
import errno
import os
import re
import resource
import socket
import subprocess
import sys
import time
import unittest
from concurrent.futures import ThreadPoolExecutor

import servers_of
from servers import GET, HANDSHAKE, SECONDS, TOP, free_port, install, listens, log_of, read_all, run, system_error, wait_for
from servers_of import ROOM

# How many threads the log has.
LOG = 1


class Own:
    """The program of `crates/server_for_tests`, on this address: the application and its settings are words."""

    def __init__(self, words, address="127.0.0.1:0", count=1, **options):
        words = [servers_of.SERVER, address, str(count), *words.split()]
        pipes = {"stdin": subprocess.DEVNULL, "stdout": subprocess.PIPE, "stderr": subprocess.PIPE}
        # Nothing of the log is left in a buffer once its first line is read.
        self.ran = subprocess.Popen(words, bufsize=0, **pipes, **options)
        self.lines = []

    def __enter__(self):
        return self

    def __exit__(self, *_):
        self.ran.kill()
        self.ran.communicate()

    def port(self):
        """The port that its line of the log has, once it listens."""
        while line := self.ran.stderr.readline().decode():
            self.lines.append(line)
            if found := re.search(r"listening on http://\S+:(\d+)$", line.rstrip()):
                return int(found[1])
        raise AssertionError(f"no line says where it listens: {self.lines}")

    def ended(self):
        """What it wrote to the log, but for a line of descriptors, and its status, once it has ended."""
        return log_of(self.errors()), self.ran.returncode

    def errors(self):
        """All that it wrote to the log, once it has ended."""
        _, errors = self.ran.communicate(timeout=SECONDS)
        return "".join(self.lines) + errors.decode()


class Library(unittest.TestCase):
    """`Server` of `crates/nomtsage`, as it is by itself and by its settings."""

    def get(self, port, path, host="127.0.0.1"):
        with socket.create_connection((host, port), timeout=SECONDS) as line:
            line.sendall(b"GET %s HTTP/1.0\r\n\r\n" % path)
            return read_all(line).partition(b"\r\n\r\n")[2]

    def refused(self, said, status, app="hello", has_begun=False, **how):
        """Asserts that it ends by itself with this one line, after the one that says where it listens if it has begun, and with this status."""
        with Own(app, **how) as own:
            lines, found = own.ended()
            self.assertEqual((lines[-1], len(lines), found), (said, 1 + has_begun, status))

    def test_any_free_port_is_told(self):
        with Own("hello") as own:
            port = own.port()
            self.assertEqual(self.get(port, b"/"), b"hello\n")
            told = [f"listening on http://127.0.0.1:{port}", "connection 1: 1 requests, finished"]
            self.assertEqual(own.ended(), (told, 0))

    def test_too_few_descriptors_are_told_at_the_start(self):
        # One for each connection and each thread, the standard streams, and the socket that listens.
        rows = [
            ("hello", 64, [("64", "10000")]),
            ("hello slots=60", 64, [("64", "60")]),
            ("hello slots=59", 64, []),
            ("hello slots=29 threads=2", 64, []),
            ("hello slots=30 threads=2", 65, [("65", "60")]),
            ("hello blocking=8", 32, []),
        ]
        for app, files, said in rows:
            with self.subTest(app=app), Own(app, preexec_fn=lambda: resource.setrlimit(resource.RLIMIT_NOFILE, (files, files))) as own:
                self.assertEqual(self.get(own.port(), b"/"), b"hello\n")
                self.assertEqual(ROOM.findall(own.errors()), said)

    def test_no_connection_is_told_where_nobody_asked(self):
        for app in ("quiet", "quiet threads=4", "quiet blocking=2"):
            with self.subTest(app=app), Own(app, count=2) as own:
                port = own.port()
                for _ in range(2):
                    self.assertEqual(self.get(port, b"/"), b"hello\n")
                self.assertEqual(own.ended(), ([f"listening on http://127.0.0.1:{port}"], 0))

    def test_each_connection_is_told(self):
        for app in ("hello", "hello threads=4", "hello blocking=8"):
            with self.subTest(app=app), Own(app, count=5) as own:
                port = own.port()
                for _ in range(5):
                    self.assertEqual(self.get(port, b"/"), b"hello\n")
                told, status = own.ended()
                self.assertEqual(sorted(told[1:]), [f"connection {number}: 1 requests, finished" for number in range(1, 6)])
                self.assertEqual(status, 0)

    def test_clients_in_seats_share_one_thread(self):
        with Own("hello slots=64", count=64) as own:
            port = own.port()
            lines = [socket.create_connection(("127.0.0.1", port), timeout=SECONDS) for _ in range(64)]
            for line in reversed(lines):
                line.sendall(GET)
                self.assertTrue(line.recv(1 << 16).endswith(b"hello\n\r\n0\r\n\r\n"))
            self.assertEqual(len(os.listdir(f"/proc/{own.ran.pid}/task")) - LOG, 1)
            for line in lines:
                line.close()
            told, status = own.ended()
            self.assertEqual(sorted(told[1:]), sorted(f"connection {number}: 1 requests, finished" for number in range(1, 65)))
            self.assertEqual(status, 0)

    def test_many_clients_in_several_threads(self):
        clients, each, threads = 25, 40, 4

        def client(port):
            return [self.get(port, b"/") for _ in range(each)]

        with Own(f"hello threads={threads}", count=clients * each) as own:
            port = own.port()
            self.assertEqual(self.get(port, b"/"), b"hello\n")
            self.assertEqual(len(os.listdir(f"/proc/{own.ran.pid}/task")) - LOG, threads)
            with ThreadPoolExecutor(clients + 1) as pool:
                # What it writes to the log is read meanwhile, since a pipe holds little.
                ended = pool.submit(own.ended)
                answers = [pool.submit(client, port) for _ in range(clients - 1)]
                self.assertEqual([it.result() for it in answers], [[b"hello\n"] * each] * (clients - 1))
                self.assertEqual([self.get(port, b"/") for _ in range(each - 1)], [b"hello\n"] * (each - 1))
                told, status = ended.result()
            self.assertEqual(sorted(told[1:]), sorted(f"connection {number}: 1 requests, finished" for number in range(1, clients * each + 1)))
            self.assertEqual(status, 0)

    def test_clients_that_keep_their_connections_in_several_threads(self):
        with Own("hello threads=4", count=64) as own:
            port = own.port()
            lines = [socket.create_connection(("127.0.0.1", port), timeout=SECONDS) for _ in range(64)]
            for _ in range(2):
                for line in reversed(lines):
                    line.sendall(GET)
                    self.assertTrue(line.recv(1 << 16).endswith(b"hello\n\r\n0\r\n\r\n"))
            # A server that has given as many connections as were set accepts no more, in none of its threads.
            self.assertTrue(self.is_left(port))
            for line in lines:
                line.close()
            told, status = own.ended()
            self.assertEqual(sorted(told[1:]), sorted(f"connection {number}: 2 requests, finished" for number in range(1, 65)))
            self.assertEqual(status, 0)

    def test_more_clients_than_seats_wait(self):
        with Own("hello slots=1", count=3) as own:
            port = own.port()
            first = socket.create_connection(("127.0.0.1", port), timeout=SECONDS)
            first.sendall(GET)
            self.assertTrue(first.recv(1 << 16).endswith(b"hello\n\r\n0\r\n\r\n"))
            self.assertTrue(self.is_left(port))
            first.close()
            self.assertEqual(self.get(port, b"/"), b"hello\n")
            self.assertEqual(own.ended()[1], 0)

    def test_all_addresses_where_that_is_named(self):
        with Own("hello", "0.0.0.0:0") as own:
            self.assertEqual(self.get(own.port(), b"/"), b"hello\n")
            self.assertEqual(own.ended()[1], 0)

    def test_ipv6(self):
        try:
            socket.create_server(("::1", 0), family=socket.AF_INET6).close()
        except OSError as e:
            self.skipTest(f"no IPv6: {e}")
        with Own("hello", "[::1]:0") as own:
            self.assertEqual(self.get(own.port(), b"/", "::1"), b"hello\n")
            self.assertEqual(own.ended()[1], 0)

    def test_a_port_in_use(self):
        with socket.create_server(("127.0.0.1", 0)) as taken:
            address = f"127.0.0.1:{taken.getsockname()[1]}"
            for app in ("hello", "nostart", "hello threads=4", "hello blocking=2", "nostart blocking=2"):
                with self.subTest(app=app):
                    why = system_error(errno.EADDRINUSE)
                    self.refused(f"cannot listen on {address}: the port is in use: {why}", 5, app, address=address)

    def test_no_right_to_a_port(self):
        with open("/proc/sys/net/ipv4/ip_unprivileged_port_start", encoding="ascii") as it:
            first = int(it.read())
        nobody = {"user": 65534, "group": 65534, "extra_groups": []} if os.getuid() == 0 else {}
        if first <= 1 or not os.access(f"{TOP}/crates", os.X_OK):
            self.skipTest("each port is for everybody here")
        try:
            why = system_error(errno.EACCES)
            self.refused(f"cannot listen on 127.0.0.1:1: no right to this port: {why}", 5, address="127.0.0.1:1", **nobody)
        except PermissionError as e:
            self.skipTest(f"the program can't be run without rights: {e}")

    def test_an_address_that_is_not_ours(self):
        # 192.0.2.0/24 is for documentation (RFC 5737): no machine has such an address.
        why = system_error(errno.EADDRNOTAVAIL)
        self.refused(f"cannot listen on 192.0.2.1:8000: the address is not one of this machine: {why}", 5, address="192.0.2.1:8000")

    def test_numbers_of_workers_that_are_none(self):
        for place in ("threads", "blocking"):
            for workers in (0, 9):
                with self.subTest(place=place, workers=workers):
                    self.refused(f"workers: {workers} is not a number from 1 to 8", 2, f"hello {place}={workers}")

    def test_a_connection_is_told_with_its_client(self):
        for app in ("hello", "hello threads=4", "hello blocking=2"):
            with self.subTest(app=app), Own(app) as own:
                with socket.create_connection(("127.0.0.1", own.port()), timeout=SECONDS) as line:
                    client = line.getsockname()[1]
                    line.sendall(b"GET / HTTP/1.0\r\n\r\n")
                    read_all(line)
                errors = own.ran.communicate(timeout=SECONDS)[1].decode()
                self.assertIn(f"connection 1: 127.0.0.1 port {client}, 1 requests, finished\n", errors)

    def test_a_start_that_fails(self):
        for app in ("nostart", "nostart threads=4", "nostart blocking=2"):
            with self.subTest(app=app):
                port = free_port()
                self.refused("startup failed: no table", 3, app, has_begun=True, address=f"127.0.0.1:{port}")
                self.assertFalse(listens(port))

    def test_a_start_that_is_not_answered(self):
        for app in ("silentstart", "silentstart threads=4", "silentstart blocking=2"):
            with self.subTest(app=app):
                self.refused("startup failed: no answer", 3, f"{app} idle=50", has_begun=True)

    def test_a_stop_that_is_not_answered(self):
        # It serves no connection, so the stop comes right after the start.
        for app in ("silentstop", "silentstop threads=4", "silentstop blocking=2"):
            with self.subTest(app=app):
                self.refused("shutdown failed: no answer", 4, f"{app} idle=50", has_begun=True, count=0)

    def test_words_that_are_none(self):
        usage = b"usage: server_for_tests PORT|ADDRESS COUNT APP [threads=N|blocking=N|slots=N|body=N|idle=N]..\n"
        good = ["127.0.0.1:0", "1", "hello"]
        rows = [good[:number] for number in range(3)] + [[word, *good[1:]] for word in ("127.0.0.1", "127.0.0.1:65536", "65536")]
        rows += [["127.0.0.1:0", "one", "hello"], [*good[:2], "Hello"], *([*good, word] for word in ("threads", "threads=", "threads=x", "thread=1", "=1", "idle=4294967296"))]
        for words in rows:
            with self.subTest(words=words):
                status, output, errors = run([servers_of.SERVER, *words])
                self.assertEqual((status, output, errors), (2, usage, ""))

    def test_a_handler_that_fails(self):
        # Its connection ends, and no other one.
        failed = b"HTTP/1.1 500 Internal Server Error\r\ncontent-length: 0\r\nconnection: close\r\n\r\n"
        for app in ("handles", "handles threads=4", "handles blocking=2"):
            with self.subTest(app=app), Own(app, count=2) as own:
                port = own.port()
                with socket.create_connection(("127.0.0.1", port), timeout=SECONDS) as line:
                    line.sendall(b"GET /fail HTTP/1.1\r\nHost: a\r\n\r\n" + GET)
                    self.assertEqual(read_all(line), failed)
                with socket.create_connection(("127.0.0.1", port), timeout=SECONDS) as line:
                    line.sendall(b"GET / HTTP/1.0\r\n\r\n")
                    self.assertTrue(read_all(line).startswith(b"HTTP/1.1 204 No Content\r\n"))
                told, status = own.ended()
                # They are numbered as they end, and the refused one is first read to its end.
                ends = sorted(line.partition(": ")[2] for line in told[1:])
                self.assertEqual((ends, status), (["1 requests, finished", "1 requests, refused 500"], 0))

    def lines_at(self, line, count):
        """When each line of a content in chunks came, up to so many: `first` and `last` of each response."""
        found, text = [], b""
        while len(found) < count:
            piece = line.recv(1 << 16)
            self.assertNotEqual(piece, b"", text)
            text += piece
            while len(found) < len(re.findall(rb"(?:first|last)\n", text)):
                found.append(time.monotonic())
        return found

    def test_what_was_said_leaves_before_the_work_that_follows(self):
        # A task in its connection's thread that works holds up what is written to its client: it is to wait, or to have a thread.
        for app in ("works blocking=2", "waits", "waits threads=4"):
            with self.subTest(app=app), Own(app) as own:
                with socket.create_connection(("127.0.0.1", own.port()), timeout=SECONDS) as line:
                    line.sendall(b"GET /works HTTP/1.1\r\nHost: a\r\nConnection: close\r\n\r\n")
                    first, last = self.lines_at(line, 2)
                    self.assertGreater(last - first, 0.7)

    def test_an_answer_leaves_before_the_work_of_the_request_behind_it(self):
        for app in ("works blocking=2", "waits", "waits threads=4"):
            with self.subTest(app=app), Own(app) as own:
                with socket.create_connection(("127.0.0.1", own.port()), timeout=SECONDS) as line:
                    line.sendall(b"GET / HTTP/1.1\r\nHost: a\r\n\r\nGET /works HTTP/1.1\r\nHost: a\r\nConnection: close\r\n\r\n")
                    _, answered, _, last = self.lines_at(line, 4)
                    self.assertGreater(last - answered, 0.7)

    def test_a_stop_that_fails(self):
        for app in ("nostop", "nostop threads=4", "nostop blocking=2"):
            with self.subTest(app=app), Own(app) as own:
                self.get(own.port(), b"/")
                told, status = own.ended()
                self.assertEqual((told[-2:], status), (["connection 1: 1 requests, finished", "shutdown failed: still busy"], 4))

    def test_a_stop_that_the_application_pulls(self):
        with Own("ends blocking=2", count=1000) as own:
            port = own.port()
            begun = self.begun(port)
            self.assertEqual(self.get(port, b"/end"), b"/end")
            wait_for(lambda: not listens(port) or own.ran.poll() is not None or self.is_left(port), "the server accepts on")
            # What was begun is still answered, and ends the server with it.
            begun.sendall(b"GET /last HTTP/1.1\r\nHost: a\r\nConnection: close\r\n\r\n")
            self.assertIn(b"/last", read_all(begun))
            begun.close()
            told, status = own.ended()
            self.assertEqual(told[1:], ["connection 1: 1 requests, finished", "connection 2: 2 requests, finished"])
            self.assertEqual(status, 0)

    def test_a_stop_that_the_application_pulls_in_seats(self):
        for app in ("ends", "ends threads=8"):
            with self.subTest(app=app), Own(app, count=1000) as own:
                port = own.port()
                # One between two requests is closed, one in the middle of a request is answered.
                rests, asks = self.begun(port), self.begun(port)
                asks.sendall(b"POST /last HTTP/1.1\r\nHost: a\r\nConnection: close\r\nContent-Length: 3\r\n\r\na")
                began = time.monotonic()
                self.assertEqual(self.get(port, b"/end"), b"/end")
                self.assertEqual(read_all(rests), b"")
                asks.sendall(b"bc")
                self.assertIn(b"/last", read_all(asks))
                told, status = own.ended()
                self.assertLess(time.monotonic() - began, 20)
                ends = sorted(line.partition(": ")[2] for line in told[1:])
                self.assertEqual(ends, ["1 requests, finished", "1 requests, idle", "2 requests, finished"])
                self.assertEqual(status, 0)

    def test_sessions_hear_that_the_server_goes_away(self):
        import websockets

        async def talk(port):
            async with contextlib.AsyncExitStack() as open_ones:
                sessions = [await open_ones.enter_async_context(websockets.connect(f"ws://127.0.0.1:{port}/", ping_interval=None)) for _ in range(5)]
                for number, session in enumerate(sessions):
                    await session.send(f"{number}")
                    self.assertEqual(await session.recv(), f"{number}")
                # One has sent half of a message, and one says something as the server begins to end.
                sessions[0].transport.write(b"\x81\x85\0\0\0\0He")
                await sessions[1].send("last")
                self.assertEqual(await asyncio.to_thread(self.get, port, b"/end"), b"/end")
                self.assertEqual(await sessions[1].recv(), "last")
                for session in sessions:
                    with self.assertRaises(websockets.ConnectionClosed):
                        await session.recv()
                return [(session.close_code, session.close_reason) for session in sessions]

        for app in ("ends", "ends threads=8"):
            with self.subTest(app=app), Own(app, count=1000) as own:
                port = own.port()
                began = time.monotonic()
                ended = asyncio.run(asyncio.wait_for(talk(port), SECONDS))
                told, status = own.ended()
                # They end at once, and not by a limit.
                self.assertLess(time.monotonic() - began, 15)
                # 1001: an endpoint goes away (RFC 6455, section 7.4.1).
                self.assertEqual(ended, [(1001, "")] * 5)
                ends = sorted(line.partition(": ")[2] for line in told[1:])
                self.assertEqual(ends, ["1 requests, finished"] * 6)
                self.assertEqual(status, 0)

    def test_a_session_whose_client_does_not_answer_hears_1011(self):
        """In seconds: a client of each engine is asked after 20, and given up 20 later; one that answers stays until then."""
        with contextlib.ExitStack() as stack:
            owns = [stack.enter_context(Own(app, count=2)) for app in ("hears", "hears threads=2")]
            lines = [[stack.enter_context(self.opened(port)) for _ in range(2)] for port in [own.port() for own in owns]]
            for mute, answers in lines:
                self.assertEqual([it.recv(2) for it in (mute, answers)], [b"\x89\x00"] * 2)
                answers.sendall(b"\x8a\x80" + bytes(4))
            for own, (mute, answers) in zip(owns, lines):
                # 1011, "an unexpected condition" (RFC 6455, section 7.4.1).
                self.assertEqual(read_all(mute), b"\x88\x02\x03\xf3")
                answers.sendall(b"\x88\x82" + bytes(4) + b"\x03\xe8")
                self.assertEqual(read_all(answers).removeprefix(b"\x89\x00"), b"\x88\x02\x03\xe8")
                mute.close()
                answers.close()
                told, status = own.ended()
                self.assertEqual(sorted(line.partition(": ")[2] or line for line in told[1:]), ["1 requests, finished", "1 requests, finished", "disconnect 1000", "disconnect 1011"])
                self.assertEqual(status, 0)

    def opened(self, port):
        """A connection in a session, of whose answer nothing follows the head."""
        line = socket.create_connection(("127.0.0.1", port), timeout=SECONDS)
        line.sendall(HANDSHAKE)
        head = b""
        while not head.endswith(b"\r\n\r\n"):
            head += line.recv(1)
        self.assertTrue(head.startswith(b"HTTP/1.1 101 "))
        return line

    def begun(self, port):
        """A connection whose first request was answered."""
        line = socket.create_connection(("127.0.0.1", port), timeout=SECONDS)
        line.sendall(b"GET /first HTTP/1.1\r\nHost: a\r\n\r\n")
        self.assertTrue(line.recv(1 << 16).startswith(b"HTTP/1.1 200 "))
        return line

    def is_left(self, port):
        """Whether the server leaves a connection in the system's queue for a while: nothing is answered."""
        try:
            with socket.create_connection(("127.0.0.1", port), timeout=0.2) as line:
                line.sendall(GET)
                return not line.recv(1)
        except TimeoutError:
            return True
        except ConnectionError:
            return True


def main():
    install()
    sys.argv.insert(1, servers_of.DEMO)
    return servers_of.run_tests(__name__)


if __name__ == "__main__":
    sys.exit(main())

#!/usr/bin/env python3
"""Each server of tests/servers_of.py: many clients at once, many connections, clients that are silent or go away.

Usage: many.py PROGRAM [TEST..]. The last line is 'N passed, M failed', and the status is 0 only with none failed.
The clients are sockets of this script, Python's `http.client`, and wrk of Debian's packages, which is installed by apt-get
where it is missing. Each server is started by its test, and has ended at its end.
"""

import http.client
import os
import shutil
import socket
import struct
import sys
import time
from concurrent.futures import ThreadPoolExecutor

import packages
import servers_of
from servers import GET, GREETING, HANDSHAKE, SECONDS, free_port, read_all, run
from servers_of import FOUR, ONE, WORKERS, Running, asks, well

# So many clients at once, and so many requests of each.
CLIENTS, REQUESTS = 64, 20
# The most connections that one run of the program serves.
MOST = 1000


# What each server is tried with: the numbers of workers, and of threads.
SIZES = {WORKERS: [1, 2, 8], ONE: ["threads=1", "slots=10000"], FOUR: ["threads=2", "threads=8"]}


def finished(count, exchanges):
    return well(*[f"{exchanges} finished"] * count)


def greeted(server, requests=1):
    """How many of so many requests of one connection are answered right."""
    line = http.client.HTTPConnection("127.0.0.1", server.port, timeout=SECONDS)
    right = 0
    for _ in range(requests):
        line.request("GET", "/")
        answer = line.getresponse()
        right += (answer.status, answer.read()) == (200, b"hello\n")
    line.close()
    return right


def read_exactly(line, size):
    text = b""
    while len(text) < size and (piece := line.recv(size - len(text))):
        text += piece
    return text


def masked(code, payload):
    return bytes([0x80 | code, 0x80 | len(payload)]) + bytes(4) + payload


def echoed(server, messages, name):
    """How many of so many messages of a session come back as they were sent."""
    right = 0
    with server.connect() as line:
        line.sendall(HANDSHAKE)
        head = b""
        while not head.endswith(b"\r\n\r\n"):
            head += read_exactly(line, 1)
        for number in range(messages):
            text = f"{name}:{number}".encode()
            line.sendall(masked(1, text))
            right += read_exactly(line, 2 + len(text)) == bytes([0x81, len(text)]) + text
        line.sendall(masked(8, struct.pack(">H", 1000)))
        right += read_exactly(line, 4) == b"\x88\x02" + struct.pack(">H", 1000)
    return right if head.startswith(b"HTTP/1.1 101 ") else 0


@asks(ONE, FOUR, WORKERS)
class Many:
    """Many clients at once."""

    def serves(self, app, count, *settings):
        return Running(self.server, free_port(), app, count, *settings)

    def test_clients_that_keep_their_connections(self):
        for size in SIZES[self.server]:
            with self.subTest(size=size), self.serves("hello", CLIENTS, size) as server:
                with ThreadPoolExecutor(CLIENTS) as pool:
                    right = list(pool.map(lambda _: greeted(server, REQUESTS), range(CLIENTS)))
                self.assertEqual(right, [REQUESTS] * CLIENTS)
                self.assertEqual(server.ended(), finished(CLIENTS, REQUESTS))

    def test_sessions(self):
        for size in SIZES[self.server][-2:]:
            with self.subTest(size=size), self.serves("wsecho", CLIENTS, size) as server:
                with ThreadPoolExecutor(CLIENTS) as pool:
                    right = list(pool.map(lambda name: echoed(server, REQUESTS, name), range(CLIENTS)))
                self.assertEqual(right, [REQUESTS + 1] * CLIENTS)
                self.assertEqual(server.ended(), finished(CLIENTS, 1))

    def test_as_many_are_served_at_once_as_there_are_workers(self):
        # Each client but the last holds a worker; the last one finds one that is free.
        for workers in (2, 8):
            with self.subTest(workers=workers), self.serves("hello", workers, workers) as server:
                held = [server.connect() for _ in range(workers - 1)]
                for line in held:
                    line.sendall(GET[:-2])
                self.assertEqual(greeted(server), 1)
                for line in held:
                    line.sendall(GET[-2:])
                    line.shutdown(socket.SHUT_WR)
                    self.assertTrue(read_all(line).endswith(GREETING))
                    line.close()
                self.assertEqual(server.ended(), finished(workers, 1))

    def test_reports_are_told_in_order_as_soon_as_those_before_them_are_there(self):
        with self.serves("hello", 3) as server:
            first = server.connect()
            first.sendall(GET[:-2])
            time.sleep(0.2)
            self.assertEqual(greeted(server) + greeted(server), 2)
            time.sleep(0.2)
            self.assertEqual(server.lines, [])
            first.sendall(GET[-2:])
            first.shutdown(socket.SHUT_WR)
            self.assertTrue(read_all(first).endswith(GREETING))
            first.close()
            self.assertEqual(server.ended(), finished(3, 1))

    def test_clients_that_go_away_or_send_what_is_no_request(self):
        with self.serves("hello", CLIENTS) as server:

            def client(number):
                if number % 3 == 0:
                    return greeted(server)
                with server.connect() as line:
                    if number % 3 == 1:
                        line.setsockopt(socket.SOL_SOCKET, socket.SO_LINGER, struct.pack("ii", 1, 0))
                        line.sendall(GET[:-2])
                        return 1
                    line.sendall(b"GET / HTTP/1.1\r\n\r\n")
                    return read_all(line).startswith(b"HTTP/1.1 400 ")

            with ThreadPoolExecutor(16) as pool:
                self.assertTrue(all(pool.map(client, range(CLIENTS))))
            ended = server.ended()
            self.assertEqual((len(ended.reports), ended.others, ended.status), (CLIENTS, [], 0))
            self.assertEqual(ended.reports.count("1 finished"), (CLIENTS + 2) // 3)
            self.assertEqual(ended.reports.count("0 refused 400"), CLIENTS // 3)

    def test_ten_thousand_connections_leave_descriptors_and_memory_as_they_were(self):
        for _ in range(10):
            with self.serves("hello", MOST, *SIZES[self.server][-1:]) as server:
                with ThreadPoolExecutor(16) as pool:
                    self.assertEqual(sum(pool.map(lambda _: greeted(server), range(MOST // 4))), MOST // 4)
                    time.sleep(0.1)
                    before = server.descriptors(), server.memory()
                    self.assertEqual(sum(pool.map(lambda _: greeted(server), range(MOST // 2))), MOST // 2)
                    time.sleep(0.1)
                    after = server.descriptors(), server.memory()
                    # The reports are kept to the end: some 200 bytes each.
                    self.assertLessEqual(after[0], before[0] + 1)
                    self.assertLess(after[1], before[1] + 1024)
                    self.assertEqual(sum(pool.map(lambda _: greeted(server), range(MOST // 4))), MOST // 4)
                self.assertEqual(server.ended(), finished(MOST, 1))

    def test_wrk(self):
        if not shutil.which("wrk"):
            self.skipTest("there is no wrk")
        # Its first connection carries nothing: it ends where wrk has found the address.
        for size in SIZES[self.server][-2:]:
            for clients in (8, 16):
                with self.subTest(size=size, clients=clients), self.serves("hello", clients + 1, size) as server:
                    status, output, _ = run(["wrk", "-t1", f"-c{clients}", "-d1s", server.url])
                    self.assertEqual(status, 0)
                    self.assertNotIn(b"Non-2xx", output)
                    ended = server.ended()
                    self.assertEqual((len(ended.reports), ended.others, ended.status), (clients + 1, [], 0))
                    self.assertGreater(sum(int(it.split()[0]) for it in ended.reports), 100)


def main():
    servers_of.DEMO = os.path.abspath(sys.argv[1])
    packages.install(lambda: packages.of({"wrk": "wrk"}))
    return servers_of.run_tests(__name__)


if __name__ == "__main__":
    sys.exit(main())

#!/usr/bin/env python3
"""Real clients, on each server of tests/servers_of.py: curl, ab, wrk, Python's `http.client` and `websockets`.

Usage: served.py PROGRAM [TEST..]. The last line is 'N passed, M failed', and the status is 0 only with none failed.
The clients are those of tests/servers.py, which installs what is missing; one that can't be had is told as skipped. Expected texts
are those of the RFCs and of the program's documentation.
"""

import contextlib
import http.client
import os
import re
import socket
import struct
import sys
import tempfile

import servers_of
from servers import GET, MEBIBYTE, SECONDS, free_port, install, needs, read_all, run, talk
from servers_of import FOUR, ONE, WORKERS, Running, asks, well


class Case:
    def serves(self, app, count=1):
        return Running(self.server, free_port(), app, count)


@asks(ONE, FOUR, WORKERS)
class Told(Case):
    """What is told of each connection, and the state of the start."""

    def test_the_state_of_the_startup_is_in_each_scope(self):
        with self.serves("life", 2) as server:
            for _ in range(2):
                with server.connect() as line:
                    line.sendall(b"GET / HTTP/1.0\r\n\r\n")
                    self.assertTrue(read_all(line).endswith(b"\r\n\r\nn=7\n"))
            self.assertEqual(server.ended(), well("1 finished", "1 finished"))

    def test_each_connection_has_its_report(self):
        rows = [
            (GET, "1 finished"),
            (GET + GET, "2 finished"),
            (b"", "0 finished"),
            (b"GET / HTTP/1.1\r\n\r\n", "0 refused 400"),
            (b"GE", "0 input-broke"),
            (b"POST / HTTP/1.1\r\nHost: a\r\nContent-Length: 9\r\n\r\nabc", "1 input-broke"),
        ]
        with self.serves("echo", len(rows)) as server:
            for given, _ in rows:
                with server.connect() as line:
                    line.sendall(given)
                    line.shutdown(socket.SHUT_WR)
                    read_all(line)
            ended = server.ended()
            self.assertEqual((sorted(ended.reports), ended.others, ended.status), (sorted(report for _, report in rows), [], 0))

    def test_a_client_that_goes_away_is_reported_and_the_next_is_served(self):
        with self.serves("echo", 2) as server:
            with server.connect() as line:
                # It takes nothing of its echo, until the server can write no more, and is then gone at once.
                line.setsockopt(socket.SOL_SOCKET, socket.SO_LINGER, struct.pack("ii", 1, 0))
                line.sendall(b"POST / HTTP/1.1\r\nHost: a\r\nContent-Length: %d\r\n\r\n" % len(MEBIBYTE))
                line.settimeout(1)
                with contextlib.suppress(TimeoutError):
                    line.sendall(MEBIBYTE[:-1])
            with server.connect() as line:
                line.sendall(GET)
                line.shutdown(socket.SHUT_WR)
                self.assertTrue(read_all(line).endswith(b"0\r\n\r\n"))
            ended = server.ended()
            self.assertEqual((ended.reports.count("1 finished"), len(ended.reports), ended.others, ended.status), (1, 2, [], 0))
            self.assertRegex("\n".join(ended.reports), r"(?m)^1 (write-failed \d+|input-broke)$")

    def test_a_refused_client_gets_its_text_though_it_sends_on(self):
        with self.serves("echo") as server:
            with server.connect() as line:
                line.sendall(b"POST / HTTP/1.1\r\nHost: a\r\nContent-Length: %d\r\n\r\n" % (1 << 21))
                with contextlib.suppress(OSError):
                    line.sendall(MEBIBYTE[: 1 << 19])
                text = read_all(line)
            self.assertTrue(text.startswith(b"HTTP/1.1 413 Content Too Large\r\n"), text[:80])
            self.assertEqual(server.ended(), well("0 refused 413"))


@asks(ONE, FOUR, WORKERS)
@needs("curl")
class Curl(Case):
    def curl(self, *words):
        status, output, errors = run(["curl", "-sS", "-i", "--max-time", "30", *words])
        self.assertEqual((status, errors), (0, ""))
        return output

    def check_body(self, output, body):
        head, _, found = output.rpartition(b"\r\n\r\n") if body == b"" else output.partition(b"\r\n\r\n")
        self.assertTrue(head.startswith(b"HTTP/1.1 200 OK"), head)
        self.assertEqual(found, body)

    def test_http_1_1(self):
        with self.serves("hello") as server:
            self.check_body(self.curl(server.url), b"hello\n")
            self.assertEqual(server.ended(), well("1 finished"))

    def test_http_1_0(self):
        with self.serves("hello") as server:
            output = self.curl("--http1.0", server.url)
            self.check_body(output, b"hello\n")
            self.assertIn(b"\r\nconnection: close\r\n", output)
            self.assertEqual(server.ended(), well("1 finished"))

    def test_three_requests_of_one_connection(self):
        with self.serves("hello") as server:
            output = self.curl(server.url, server.url, server.url)
            self.assertEqual(output.count(b"\r\n\r\nhello\n"), 3)
            self.assertEqual(server.ended(), well("3 finished"))

    def test_a_mebibyte_by_length_and_in_chunks(self):
        with tempfile.NamedTemporaryFile() as file:
            file.write(MEBIBYTE)
            file.flush()
            for fields in (["-H", "Expect:"], ["-H", "Expect:", "-H", "Transfer-Encoding: chunked"]):
                with self.subTest(fields=fields), self.serves("echo") as server:
                    output = self.curl(*fields, "--data-binary", f"@{file.name}", server.url)
                    self.check_body(output, MEBIBYTE)
                    self.assertEqual(server.ended(), well("1 finished"))

    def test_a_client_that_expects_to_be_told_to_continue(self):
        with self.serves("echo") as server:
            output = self.curl("-H", "Expect: 100-continue", "--expect100-timeout", "20", "--data-binary", "abc", server.url)
            first, _, rest = output.partition(b"\r\n\r\n")
            self.assertEqual(first, b"HTTP/1.1 100 Continue")
            self.check_body(rest, b"abc")
            self.assertEqual(server.ended(), well("1 finished"))

    def test_head(self):
        with self.serves("hello") as server:
            self.check_body(self.curl("-I", server.url), b"")
            self.assertEqual(server.ended(), well("1 finished"))

    def test_mounts(self):
        with self.serves("mounts") as server:
            urls = [f"{server.url}{path}" for path in ("a/bc", "a/b", "a/b/c", "ab", "x")]
            output = self.curl(*urls)
            bodies = re.findall(rb"\r\n\r\n(\S*)\n", output)
            self.assertEqual(bodies, [b"/a", b"/a/b", b"/a/b"])
            self.assertEqual(output.count(b"HTTP/1.1 404 Not Found\r\n"), 2)
            self.assertEqual(server.ended(), well("5 finished"))


@asks(ONE, FOUR, WORKERS)
class Python(Case):
    def test_http_client(self):
        with self.serves("echo") as server:
            line = http.client.HTTPConnection("127.0.0.1", server.port, timeout=SECONDS)
            for body in (b"", b"abc", MEBIBYTE[:70_000]):
                line.request("POST", "/", body)
                answer = line.getresponse()
                self.assertEqual((answer.status, answer.read()), (200, body))
            line.request("POST", "/", iter([b"ab", b"cde"]), encode_chunked=True, headers={"Transfer-Encoding": "chunked"})
            answer = line.getresponse()
            self.assertEqual((answer.status, answer.read()), (200, b"abcde"))
            line.request("HEAD", "/")
            answer = line.getresponse()
            self.assertEqual((answer.status, answer.read()), (200, b""))
            line.close()
            self.assertEqual(server.ended(), well("5 finished"))

    def test_websockets(self):
        with self.serves("wsecho", 2) as server:
            for _ in range(2):
                self.assertEqual(talk(self, server.url.replace("http", "ws")), 3001)
            self.assertEqual(server.ended(), well("1 finished", "1 finished"))


@asks(ONE, FOUR, WORKERS)
class Load(Case):
    @needs("ab")
    def test_a_thousand_requests_of_ab(self):
        with self.serves("hello", 1_000) as server:
            status, output, _ = run(["ab", "-q", "-k", "-n", "1000", "-c", "1", server.url])
            text = output.decode()
            self.assertEqual(status, 0)
            self.assertRegex(text, r"Complete requests:\s+1000\n")
            self.assertRegex(text, r"Failed requests:\s+0\n")
            self.assertNotIn("Non-2xx", text)
            self.assertEqual(server.ended(), well(*["1 finished"] * 1_000))

    @needs("wrk")
    def test_a_second_of_wrk(self):
        # Its first connection carries nothing; it ends where wrk has found the address.
        with self.serves("hello", 2) as server:
            status, output, _ = run(["wrk", "-t1", "-c1", "-d1s", server.url])
            text = output.decode()
            self.assertEqual(status, 0)
            self.assertNotIn("Socket errors", text)
            self.assertNotIn("Non-2xx", text)
            self.assertGreater(int(re.search(r"(\d+) requests in", text)[1]), 1)
            ended = server.ended()
            self.assertEqual((len(ended.reports), ended.others, ended.status), (2, [], 0))
            first, last = sorted(ended.reports, key=lambda it: int(it.split()[0]))
            self.assertEqual(first, "0 finished")
            self.assertGreater(int(last.split()[0]), 1)


def main():
    install()
    servers_of.DEMO = os.path.abspath(sys.argv[1])
    return servers_of.run_tests(__name__)


if __name__ == "__main__":
    sys.exit(main())

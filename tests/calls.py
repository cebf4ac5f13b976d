#!/usr/bin/env python3
"""Calls of the system that fail, on the servers of tests/servers_of.py: what the client sees, what is told, and that the next one is served.

Usage: calls.py PROGRAM [TEST..]. The last line is 'N passed, M failed', and the status is 0 only with none failed.
Calls fail by a library that is preloaded (tests/fail_once.c), which gcc builds here, for as long as a file is there. Each row is a
server of four connections: one that is served, one whose calls fail, and two more. Its descriptors and its memory are those of before.
"""

import contextlib
import errno
import os
import re
import subprocess
import sys
import tempfile
import time
from concurrent.futures import ThreadPoolExecutor

import servers_of
from faults import LASTING, PASSED_OVER, WAITED_FOR, failing
from servers import GREETING, SECONDS, free_port, read_all
from servers_of import FAILED, FOUR, ONE, WORKERS, Running, asks, well

ROOM = tempfile.TemporaryDirectory()
LIBRARY = f"{ROOM.name}/fail_once.so"
CLOSES = b"GET / HTTP/1.1\r\nHost: a\r\nConnection: close\r\n\r\n"
# The same with 16 requests before it, so that the answers leave in more than one write.
MANY = b"GET / HTTP/1.1\r\nHost: a\r\n\r\n" * 16 + CLOSES
# How many kilobytes a server may grow by: the texts of its lines, and what the allocator keeps.
GROWTH = 512
EVER = 1_000_000
GREETED, CLOSED = "greeted", "closed"


def seen(server, given=CLOSES):
    """What a client sees of this: that it is greeted, that its connection is closed without an answer, or what came."""
    answer = b""
    with contextlib.suppress(ConnectionError), server.connect() as line:
        line.sendall(given)
        while piece := line.recv(1 << 16):
            answer += piece
    if answer.startswith(b"HTTP/1.1 200 OK\r\n") and answer.endswith(GREETING) and answer.count(GREETING) == given.count(b"GET "):
        return GREETED
    return answer or CLOSED


class Failing(Running):
    """A server some of whose calls fail for as long as `fails` says."""

    names = iter(range(EVER))

    def __init__(self, server, app, count, call, error, times=1):
        self.file = f"{ROOM.name}/fails-{next(self.names)}"
        env = {**failing(call, error, times), "LD_PRELOAD": LIBRARY, "FAIL_WHILE": self.file}
        super().__init__(server, free_port(), app, count, env=env)

    @contextlib.contextmanager
    def fails(self):
        with open(self.file, "w", encoding="ascii"):
            pass
        yield
        os.remove(self.file)


class Rows:
    """Each row: a call, its error, how often it fails, what the client sees meanwhile, and what is told of it."""

    def row(self, given):
        call, name, times, _, report = given
        with Failing(self.server, "hello", 4, call, getattr(errno, name), times) as server:
            first = seen(server)
            server.told(1)
            before, grown = server.rests(), server.memory()
            with ThreadPoolExecutor(1) as pool:
                with server.fails():
                    asked = pool.submit(seen, server, MANY)
                    # While no connection can be accepted it waits for the end of that.
                    if times == EVER and call == "accept":
                        with contextlib.suppress(TimeoutError):
                            asked.result(0.3)
                    else:
                        asked.result(SECONDS)
                found = asked.result(SECONDS)
            if report:
                server.told(2)
            after = [seen(server)]
            server.told(3 if report else 2)
            left = server.rests(before) - before, max(0, server.memory() - grown - GROWTH)
            after += [seen(server) for _ in range(1 if report else 2)]
            ended = server.ended()
        told = ["1 finished", *([report] if report else []), "1 finished", "1 finished"]
        good = (first, after, left, sorted(ended.reports), ended.others, ended.status)
        wanted = (GREETED, [GREETED] * len(after), (0, 0), sorted(told if report else told + ["1 finished"]), [], 0)
        return found, None if good == wanted else good

    def rows(self, rows):
        with ThreadPoolExecutor(4) as pool:
            for row, (found, wrong) in zip(rows, pool.map(self.row, rows)):
                with self.subTest(call=row[0], error=row[1], times=row[2]):
                    self.assertEqual((found, wrong), (row[3], None))


@asks(ONE, FOUR, WORKERS)
class Calls(Rows):
    """Calls that fail on each server."""

    def test_a_connection_that_is_lost_is_passed_over(self):
        # After EAGAIN no connection is there, until the next one comes or a second has gone.
        rows = [("accept", name, times, GREETED, "17 finished") for name in PASSED_OVER for times in (1, 500)]
        self.rows([row for row in rows if row[1:3] != ("EAGAIN", 500)])

    def test_a_want_of_descriptors_or_memory_is_waited_for(self):
        self.rows([("accept", name, 1, GREETED, "17 finished") for name in WAITED_FOR])

    def test_a_wait_that_is_interrupted_goes_on(self):
        self.rows([(call, "EINTR", times, GREETED, "17 finished") for call, times in (("epoll_wait", 1), ("epoll_wait", 500), ("recv", 1), ("send", 1))])

    def test_what_a_socket_is_not_set_to_is_done_without(self):
        # Workers set it before they read, and the connection is lost.
        seen_and_told = (CLOSED, "0 input-broke") if self.server == WORKERS else (GREETED, "17 finished")
        self.rows([("setsockopt", "EINVAL", times, *seen_and_told) for times in (1, EVER)])

    def test_a_socket_that_the_system_does_not_tell_of_is_lost(self):
        # Workers ask for none.
        seen_and_told = (GREETED, "17 finished") if self.server == WORKERS else (CLOSED, None)
        self.rows([("epoll_ctl", name, times, *seen_and_told) for name in ("ENOMEM", "ENOSPC") for times in (1, EVER)])

    def test_a_call_that_is_not_made_is_not_missed(self):
        self.rows([("eventfd", "EMFILE", times, GREETED, "17 finished") for times in (1, EVER)])

    def test_a_socket_that_breaks_is_told_as_the_client_s_end(self):
        self.rows([("recv", name, 1, CLOSED, "0 input-broke") for name in ("ECONNRESET", "ETIMEDOUT", "EIO", "ENOTCONN")])

    def test_a_close_or_a_shutdown_that_fails_ends_no_other(self):
        calls = (("close", "EIO"), ("close", "EINTR"), ("shutdown", "ENOTCONN"))
        self.rows([(call, name, times, GREETED, "17 finished") for call, name in calls for times in (1, EVER)])

    def test_a_clock_that_fails_holds_nobody(self):
        self.rows([("clock_gettime", "EINVAL", times, GREETED, "17 finished") for times in (1, EVER)])

    def test_a_socket_that_accepts_nothing_ends_the_server(self):
        for name in LASTING:
            error = getattr(errno, name)
            with self.subTest(error=name), Failing(self.server, "hello", 2, "accept", error, EVER) as server:
                self.assertEqual(seen(server), GREETED)
                server.told(1)
                with server.fails():
                    self.assertEqual(seen(server), CLOSED)
                    ended = server.ended()
                self.assertEqual((ended.reports, ended.others, ended.status), (["1 finished"], [FAILED[self.server](error)], 5))


# What the log says of bytes that a connection was told to be written.
UNSENT = re.compile(r"(\d+) bytes for 127\.0\.0\.1 port (\d+) could not be sent: (.*)")


@asks(ONE, FOUR)
class Reactors(Rows):
    """Calls of servers in one thread or several, and what their log says of them."""

    def test_what_has_not_left_is_said_in_the_log(self):
        for name in ("EPIPE", "ECONNRESET"):
            error = getattr(errno, name)
            with self.subTest(error=name), Failing(self.server, "hello", 2, "send", error) as server:
                with server.fails(), server.connect() as line:
                    port, answer = line.getsockname()[1], b""
                    line.sendall(CLOSES)
                    with contextlib.suppress(ConnectionError):
                        answer = read_all(line)
                    server.told(1)
                self.assertEqual((answer, seen(server)), (b"", GREETED))
                ended = server.ended()
                self.assertEqual((ended, len(server.notes)), (well("1 finished", "1 finished"), 1))
                bytes_, of, why = UNSENT.fullmatch(server.notes[0]).groups()
                self.assertEqual((of, why), (str(port), f"{os.strerror(error)} (os error {error})"))
                self.assertGreater(int(bytes_), len(GREETING))

    def test_a_send_for_which_memory_is_short_is_made_again(self):
        self.rows([("send", name, times, GREETED, "17 finished") for name in ("ENOBUFS", "ENOMEM") for times in (1, 3)])

    def test_a_wait_that_fails_a_few_times_is_made_again(self):
        self.rows([("epoll_wait", "EINVAL", 2, GREETED, "17 finished")])

    def test_a_wait_that_fails_for_ever_ends_the_server(self):
        with Failing(self.server, "hello", 2, "epoll_wait", errno.EINVAL, EVER) as server:
            self.assertEqual(seen(server), GREETED)
            server.told(1)
            with server.fails():
                time.sleep(3)
                # It does not spin until then.
                self.assertLess(server.ticks(), 100)
                ended = server.ended()
            self.assertEqual((ended.reports, ended.others, ended.status), (["1 finished"], [FAILED[self.server](errno.EINVAL)], 5))

    def test_a_connection_that_can_not_be_waited_for_is_said_in_the_log(self):
        with Failing(self.server, "hello", 2, "epoll_ctl", errno.ENOSPC) as server:
            with server.fails():
                self.assertEqual(seen(server), CLOSED)
            self.assertEqual([seen(server) for _ in range(2)], [GREETED] * 2)
            said = f"1 connections were closed as they came: {os.strerror(errno.ENOSPC)} (os error {errno.ENOSPC})"
            self.assertEqual((server.ended(), server.notes), (well("1 finished", "1 finished"), [said]))


@asks(ONE, FOUR)
class Ending:
    """A server that has served as many connections as were set, and holds what it said to them."""

    def test_what_waits_for_room_as_a_server_ends_is_sent(self):
        # A refusal ends its connection at once, so all of them end, in each thread, while the sockets take nothing.
        count = 32
        with Failing(self.server, "hello", count, "send", errno.EAGAIN, EVER) as server:
            with server.fails():
                lines = [server.connect() for _ in range(count)]
                for line in lines:
                    line.sendall(b"GET / HTTP/1.1\r\n\r\n")
                server.told(count)
            answers = []
            for line in lines:
                with line, contextlib.suppress(ConnectionError):
                    answers.append(read_all(line).partition(b"\r\n")[0])
            self.assertEqual(answers, [b"HTTP/1.1 400 Bad Request"] * count)
            self.assertEqual(server.ended(), well(*["0 refused 400"] * count))


def main():
    servers_of.DEMO = os.path.abspath(sys.argv[1])
    source = f"{os.path.dirname(os.path.realpath(__file__))}/fail_once.c"
    subprocess.run(["gcc", "-shared", "-fPIC", "-O1", "-Wall", "-o", LIBRARY, source, "-ldl"], check=True)
    try:
        return servers_of.run_tests(__name__)
    finally:
        ROOM.cleanup()


if __name__ == "__main__":
    sys.exit(main())

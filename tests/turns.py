#!/usr/bin/env python3
"""Whose turn it is in a server of one thread: what a busy client and silent ones take from another one.

Usage: turns.py. What is compared is an order, and no time. The last line is 'N passed, M failed', and the status is
0 only with none failed.
"""

import contextlib
import select
import sys
import time
import unittest

import seats
import servers_of
from servers import GET, read_all
from servers_of import ONE

MEBIBYTE = 1 << 20
# A request that takes a second of the thread, and one that takes nothing.
WORKS = b"GET /works HTTP/1.1\r\nHost: a\r\n\r\n"
CLOSES = b"GET / HTTP/1.1\r\nHost: a\r\nConnection: close\r\n\r\n"


class Turns(unittest.TestCase):
    def test_one_that_pipelines_has_no_more_than_one_long_turn_before_another_client(self):
        with servers_of.Running(ONE, seats.servers.free_port(), "works", 2) as server:
            with server.connect() as busy, server.connect() as other:
                busy.sendall(WORKS * 6)
                # It has its turns; what is answered leaves once it rests.
                time.sleep(0.3)
                other.sendall(CLOSES)
                self.assertTrue(read_all(other).endswith(b"0\r\n\r\n"))
                text = b""
                busy.setblocking(False)
                with contextlib.suppress(BlockingIOError):
                    while piece := busy.recv(MEBIBYTE):
                        text += piece
                self.assertLess(text.count(b"last\n"), 5)

    def test_the_connection_that_is_silent_longest_gives_its_seat_to_a_newcomer(self):
        # A tick is 100 milliseconds: five silent ones are half a second, and after 75 it would be given up.
        with seats.Server("hello", 4, seats=3, tick=100) as server:
            silent, *others = [server.connect() for _ in range(3)]
            with server.connect() as newcomer:
                newcomer.sendall(GET)
                for _ in range(50):
                    for it in others:
                        it.sendall(GET)
                        self.assertTrue(seats.greets(it))
                    if select.select([newcomer], [], [], 0.1)[0]:
                        break
                self.assertTrue(seats.greets(newcomer))
                self.assertEqual(read_all(silent), b"")
                for it in others:
                    it.sendall(GET)
                    self.assertTrue(seats.greets(it))
                    it.close()


def main():
    suite = unittest.defaultTestLoader.loadTestsFromTestCase(Turns)
    result = unittest.TextTestRunner(stream=sys.stdout, verbosity=2).run(suite)
    failed = len({getattr(test, "test_case", test).id() for test, _ in [*result.failures, *result.errors]})
    print(f"{result.testsRun - failed - len(result.skipped)} passed, {failed} failed")
    return 1 if failed or not result.testsRun else 0


if __name__ == "__main__":
    sys.exit(main())

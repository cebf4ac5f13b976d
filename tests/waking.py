#!/usr/bin/env python3
"""Who wakes whom where a task has a thread beside its connection's: the program of `crates/server_for_tests` with `blocking=1`.

Usage: waking.py [TEST..]. The last line is 'N passed, M failed', and the status is 0 only with none failed.
A wake-up that is left out costs 5 milliseconds, since each of the two threads looks by itself after that, and no clock finds it beside
other scripts. So these waits take half a minute here, by a library that is preloaded (tests/stretch_parks.c), which gcc builds: what
comes within some seconds came by a wake-up.
"""

import os
import subprocess
import sys
import tempfile
import time
import unittest

import servers_of
from many import read_exactly
from servers import GET, free_port, read_all, wait_for
from servers_of import ONE, Running

ROOM = tempfile.TemporaryDirectory()
LIBRARY = f"{ROOM.name}/stretch_parks.so"
# Half a minute is what a wait takes that nobody ends, and far less what one takes that is ended, on a machine that does much else.
WOKEN = 20
RESTS = 0.2
POST = b"POST /json HTTP/1.1\r\nHost: a\r\nConnection: close\r\nContent-Length: 3\r\n\r\n"
WORKS = b"GET /works HTTP/1.1\r\nHost: a\r\n\r\n"
MEGABYTE = 1_000_000


class Waking(unittest.TestCase):
    def serves(self, app, stretched):
        """A server of one connection with one worker, the waits of whose threads are stretched, as tests/stretch_parks.c has it."""
        self.waits = f"{ROOM.name}/{self.id()}"
        env = {"LD_PRELOAD": LIBRARY, "STRETCH": stretched, "STRETCH_TOLD": self.waits}
        return self.enterContext(Running(ONE, free_port(), app, 1, "blocking=1", env=env))

    def connect(self, server, given):
        """A connection that has sent this. Its client waits for as long as what comes by a wake-up takes."""
        line = self.enterContext(server.connect())
        line.settimeout(WOKEN)
        line.sendall(given)
        return line

    def waited_for(self):
        """Waits until such a thread waits."""
        wait_for(lambda: os.path.exists(self.waits), "no thread waits")

    def ends_soon(self, server, line):
        """Sees that the server is done with a client that goes, once it is woken."""
        began = time.monotonic()
        line.close()
        server.told(1)
        self.assertLess(time.monotonic() - began, WOKEN)

    def test_an_event_that_is_offered_wakes_the_task(self):
        server = self.serves("handles", "tasks")
        line = self.connect(server, POST)
        self.waited_for()
        line.sendall(b"abc")
        self.assertIn(b'"length":3', read_all(line))

    def test_a_disconnect_wakes_the_task(self):
        server = self.serves("handles", "tasks")
        line = self.connect(server, POST)
        self.waited_for()
        self.ends_soon(server, line)

    def test_room_wakes_the_task(self):
        # What it says without end is read once there is no room for more of it.
        server = self.serves("flood", "tasks")
        line = self.connect(server, GET)
        self.waited_for()
        self.assertEqual(len(read_exactly(line, 20 * MEGABYTE)), 20 * MEGABYTE)

    def pause(self):
        """How long the last line of an answer comes after the first: they are sent a second apart."""
        server = self.serves("works", "connections")
        # The thread for tasks has come to wait.
        time.sleep(RESTS)
        line = self.connect(server, WORKS)
        text, times = b"", []
        for word in (b"first", b"last"):
            while word not in text and (piece := line.recv(1 << 16)):
                text += piece
            times.append(time.monotonic())
        return times[1] - times[0]

    def test_an_event_that_is_sent_wakes_its_connection(self):
        # Else both come as the task ends. The middle one of three is held to it: a client may be held up, too.
        pauses = sorted(self.pause() for _ in range(3))
        self.assertGreater(pauses[1], 0.5)

    def test_the_end_of_a_task_wakes_its_connection(self):
        # It waits for a body, and ends as it hears that its client has gone.
        server = self.serves("handles", "ends")
        self.ends_soon(server, self.connect(server, POST))


def main():
    source = f"{os.path.dirname(os.path.realpath(__file__))}/stretch_parks.c"
    subprocess.run(["gcc", "-shared", "-fPIC", "-O1", "-Wall", "-o", LIBRARY, source, "-ldl"], check=True)
    sys.argv.insert(1, servers_of.DEMO)
    try:
        return servers_of.run_tests(__name__)
    finally:
        ROOM.cleanup()


if __name__ == "__main__":
    sys.exit(main())

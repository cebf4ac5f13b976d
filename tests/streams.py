#!/usr/bin/env python3
"""Standard streams with which a program over `Server` is not started: no socket gets the number of one, so no line of the log comes to a client.

Usage: streams.py. The last line is 'N passed, M failed', and the status is 0 only with none failed.
"""

import itertools
import re
import socket
import subprocess
import sys
import unittest

import servers
from servers import SECONDS, read_all
from servers_of import SERVER

# The words for a server in one thread, in two, and by two workers.
KINDS = [["hello"], ["hello", "threads=2"], ["hello", "blocking=2"]]
STREAMS = ["0<&-", "1>&-", "2>&-"]
ASKS = b"GET / HTTP/1.0\r\n\r\n"
ANSWER = re.compile(rb"HTTP/1\.1 200 OK\r\n[^\0]*\r\n\r\nhello\n")


class Closed(unittest.TestCase):
    def answers(self, words, closed):
        """What six clients got of a server that is started without these streams, three of them at the same time, and its status."""
        port = servers.free_port()
        pipes = {"stdin": subprocess.DEVNULL, "stdout": subprocess.DEVNULL, "stderr": subprocess.DEVNULL}
        with subprocess.Popen(["sh", "-c", f'exec "$@" {" ".join(closed)}', "", SERVER, str(port), "6", *words], **pipes) as ran:
            servers.wait_for(lambda: servers.listens(port) or ran.poll() is not None, "the server does not listen")
            # By two workers the third one waits for one of the others.
            lines = [socket.create_connection(("127.0.0.1", port), timeout=SECONDS) for _ in range(3)]
            for line in lines:
                line.sendall(ASKS)
            got = [read_all(line) for line in lines]
            for line in lines:
                line.close()
            for _ in range(3):
                with socket.create_connection(("127.0.0.1", port), timeout=SECONDS) as line:
                    line.sendall(ASKS)
                    got.append(read_all(line))
            return got, ran.wait(timeout=SECONDS)

    def test_no_byte_of_the_log_comes_to_a_client(self):
        for words, many in itertools.product(KINDS, (1, 2, 3)):
            for closed in itertools.combinations(STREAMS, many):
                with self.subTest(words=words, closed=closed):
                    got, status = self.answers(words, closed)
                    self.assertEqual(([bool(ANSWER.fullmatch(it)) for it in got], status), ([True] * 6, 0), got)


def main():
    suite = unittest.defaultTestLoader.loadTestsFromTestCase(Closed)
    result = unittest.TextTestRunner(stream=sys.stdout, verbosity=2).run(suite)
    failed = len({getattr(test, "test_case", test).id() for test, _ in [*result.failures, *result.errors]})
    print(f"{result.testsRun - failed} passed, {failed} failed")
    return 1 if failed or not result.testsRun else 0


if __name__ == "__main__":
    sys.exit(main())

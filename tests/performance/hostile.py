"""hostile.py PORT KIND: 1,000 clients that do one of these until they are killed. It is called by seats.sh.

none         nothing, and there are none
silent       connect and say nothing
slow_heads   send a byte of a head each second
not_reading  send requests without an end, and read no answer
half_closed  ask, shut their write half, read to the end, and come again
resets       send a part of a head, reset the connection, and come again
beyond       ask, read the answer, close, and come again: a server with fewer seats than clients has some of them wait
"""

import socket, struct, sys, time

MANY = 1_000
ASKS = b"GET / HTTP/1.1\r\nHost: a\r\n\r\n"
# A head that a byte a second does not end.
LONG = b"GET / HTTP/1.1\r\nHost: a\r\nX: " + 1_000 * b"a"
RESET = struct.pack("ii", 1, 0)


class Client:
    """A connection, and how much was sent and read of it."""

    def __init__(self, port):
        self.line = socket.socket()
        self.line.setblocking(False)
        self.line.connect_ex(("127.0.0.1", port))
        self.sent, self.read, self.next = 0, b"", 0.0


def slow_heads(it):
    if time.monotonic() >= it.next:
        it.line.send(LONG[it.sent : it.sent + 1])
        it.sent, it.next = it.sent + 1, time.monotonic() + 1
    return True


def not_reading(it):
    it.line.send(ASKS * 64)
    return True


def read_on(it):
    """Asks, and reads to the end. Whether more is to come."""
    if it.sent == 0:
        it.sent = it.line.send(ASKS)
        it.line.shutdown(socket.SHUT_WR)
    return it.line.recv(65_536) != b""


def reset(it):
    it.line.send(ASKS[:9])
    it.line.setsockopt(socket.SOL_SOCKET, socket.SO_LINGER, RESET)
    return False


def ask_once(it):
    if it.sent == 0:
        it.sent = it.line.send(ASKS)
    it.read += it.line.recv(65_536)
    return b"hello\n" not in it.read


def silent(_it):
    return True


STEPS = {"silent": silent, "slow_heads": slow_heads, "not_reading": not_reading, "half_closed": read_on, "resets": reset, "beyond": ask_once}


def main(words):
    port, kind = int(words[0]), words[1]
    if kind == "none":
        time.sleep(600)
    step = STEPS[kind]
    clients = [Client(port) for _ in range(MANY)]
    while True:
        for at, it in enumerate(clients):
            try:
                goes_on = step(it)
            except BlockingIOError:
                goes_on = True
            except OSError:
                goes_on = False
            if not goes_on:
                it.line.close()
                clients[at] = Client(port)
        time.sleep(0.01)


if __name__ == "__main__":
    main(sys.argv[1:])

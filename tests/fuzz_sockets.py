#!/usr/bin/env python3
"""Requests and sessions of fuzz.py's grammar, by 64 clients at the same time, given to one server of one thread.

Usage: fuzz_sockets.py PROGRAM [SERVER] [--seconds N] [--seed S] [--first N], or with --self-test. PROGRAM is asgi_demo, and SERVER
serves in one thread, as `nomtsage::Server` does by itself. The first line is the seed, the last one 'N passed, M failed', where
each client is one, and the status is 0 only with none failed. --first N begins with round N of the seed, to repeat it.

A round is 64 clients that have connected before one of them sends a byte. By the seed each has a text, made by the grammar and
often bent, cuts of it, pauses, a socket that takes little at a time for a second, and an end: it shuts its half, at once or
later, or resets the connection in the midst. Which one goes on next is drawn too. Of each is asked:

- What it is sent are the bytes that `PROGRAM once` gives for its text, or a beginning of them where it reset the connection,
  whatever the others do.
- Nobody waits for ten seconds without a byte, and one that reads a short answer once it has sent all can send all (RFC 9112, 9.6).
- A server that its clients have left has told of each connection once, and of nothing else, and has as many descriptors as before.

--self-test: servers that do one thing wrong, by a library that is preloaded (tests/bend_sockets.c), are found out within 20 seconds
each, and the server itself is not.
"""

import argparse
import os
import random
import re
import select
import socket
import struct
import subprocess
import sys
import tempfile
import time
from concurrent.futures import ThreadPoolExecutor
from typing import NamedTuple

import fuzz
from servers import TOP, free_port, listens, wait_for
from servers_of import NOTES, ROOM

SERVER = f"{TOP}/crates/server_for_tests/out/server_for_tests"
CLIENTS = 64
# So many bytes are held for each client that does not read.
SMALL = 2_000
# What one takes at a time that is not narrow.
WIDE = 1 << 20
# How long nothing may move of a client that is not through, in seconds.
SILENCE = 10
# What a round is asked of: requests three times in four.
APPS = ["echo", "echo", "echo", "wsecho"]
# What a client's socket takes at a time (SO_RCVBUF), and the segments that it asks for (TCP_MAXSEG), on which depends how much
# the system holds for the server: 15 to 150 kilobytes in place of some megabytes. 0 is the usual size.
ROOMS = [(0, 0), (0, 0), (0, 536), (1_024, 88), (1_024, 536), (2_304, 0), (2_304, 1_400), (16_384, 88), (16_384, 536)]
# After how many seconds a client is narrow no more: the system may give one that is only some 70 bytes in 200 milliseconds.
NARROW = 1
# What a server writes on standard error.
LOGGED = re.compile(rb".*(?:listening on |connection \d+: ).*")
# What it may write besides: of clients that reset their connections, say.
NOTED = re.compile(f"{NOTES.pattern}|{ROOM.pattern}".encode())


class Plan(NamedTuple):
    """What a client sends, and how. `resets` is after how many bytes it resets the connection, if it does."""

    app: str
    text: bytes
    places: list[int]
    pauses: list[float]
    takes: int
    room: int
    segment: int
    is_late: bool
    resets: int | None

    def told(self):
        ends = f"reset after {self.resets}" if self.resets is not None else f"shut {self.pauses[-1]:.3f} s later"
        how = f"{'late, ' * self.is_late}{self.takes} at a time, of a room of {self.room} in segments of {self.segment}"
        return f"{len(self.text)} bytes {self.text[:300]!r}.. cut at {self.places[:20]}, read {how}, {ends}"


# ---- what is sent


def a_large_request(rng):
    """Returns a request whose echo is more than a narrow socket holds; rarely one that is refused, and is more than any holds."""
    is_refused = rng.random() < 0.05
    if rng.random() < 0.5:
        body = rng.randbytes(8_000_000 if is_refused else rng.randrange(20_000, 200_000))
        return b"POST /large HTTP/1.1\r\nHost: a\r\nContent-Length: %d\r\n\r\n" % len(body) + body
    body = rng.randbytes(1_100_000 if is_refused else rng.randrange(20_000, 200_000))
    return b"PUT /large HTTP/1.1\r\nHost: a\r\nTransfer-Encoding: chunked\r\n\r\n" + fuzz.in_chunks(rng, body)


def large_frames(rng):
    """Returns messages whose echoes are more than a narrow socket holds."""
    return b"".join(fuzz.a_frame(rng, 2, rng.randbytes(rng.randrange(1_000, 60_000))) for _ in range(rng.randrange(1, 6)))


def a_text(rng, app):
    is_large = rng.random() < 0.3
    if app == "wsecho":
        text, _ = fuzz.a_session(rng)
        end = text.index(b"\r\n\r\n") + 4
        text = text[:end] + (large_frames(rng) if is_large else b"") + text[end:]
    else:
        parts = [fuzz.a_connection(rng)[0] for _ in range(rng.choice([1, 1, 2]))]
        parts += [a_large_request(rng) for _ in range(rng.choice([1, 1, 2]))] if is_large else []
        rng.shuffle(parts)
        text = b"".join(parts)
    return fuzz.bent(rng, text)[0] if rng.random() < 0.5 else text


def cuts(rng, size):
    """Returns the places where a text of this size is cut: nowhere, here and there, at each byte for a while, or evenly."""
    how = rng.randrange(4)
    if how == 0:
        return []
    if how == 1:
        return sorted(rng.randrange(size + 1) for _ in range(rng.choice([1, 2, 8])))
    if how == 2:
        first = rng.randrange(size + 1)
        return list(range(first, min(size, first + 60)))
    step = max(rng.choice([7, 100, 536, 4096]), size // 200)
    return list(range(step, size, step))


def a_plan(rng, app):
    text = a_text(rng, app)
    places = cuts(rng, len(text))
    # The last one is that before its half is shut.
    pauses = [rng.random() * rng.choice([0, 0, 0, 0.003, 0.02]) for _ in range(len(places) + 1)]
    pauses.append(rng.choice([0, 0, rng.random() * 0.1]))
    room, segment = rng.choice(ROOMS)
    return Plan(
        app, text, places, pauses,
        takes=max(rng.choice([64, 1_000, 5_000, 65_536, 65_536]), room // 10),
        room=room,
        segment=segment,
        is_late=rng.random() < 0.3,
        resets=rng.randrange(len(text) + 1) if rng.random() < 0.12 else None,
    )  # fmt: skip


# ---- the clients


class Client:
    """One that is connected, and follows its plan, a step a turn."""

    def __init__(self, port, plan, wanted):
        self.plan = plan
        # It sends all before it reads, if the sockets hold all that it is sent meanwhile.
        self.holds = plan.is_late and len(wanted) < SMALL
        self.line = socket.socket()
        # The system keeps what it has learned of an address, by which it may hold more for it: this one is new to it.
        self.line.bind((f"127.{random.randrange(1, 255)}.{random.randrange(256)}.{random.randrange(1, 255)}", 0))
        if plan.segment:
            self.line.setsockopt(socket.IPPROTO_TCP, socket.TCP_MAXSEG, plan.segment)
        if plan.room:
            self.line.setsockopt(socket.SOL_SOCKET, socket.SO_RCVBUF, plan.room)
        self.line.connect(("127.0.0.1", port))
        self.line.setblocking(False)
        self.pieces = [plan.text[a:b] for a, b in zip([0, *plan.places], [*plan.places, len(plan.text)])]
        self.pauses = list(plan.pauses)
        self.got, self.sent, self.takes = [], 0, plan.takes
        self.sends, self.reads, self.is_over = True, not plan.is_late, False
        self.was_refused = self.was_reset = False
        self.moved = time.monotonic()
        self.due, self.widens = self.moved + self.pauses.pop(0), self.moved + NARROW

    def turn(self, now):
        """Takes one step, if one can be taken. Returns whether it was."""
        if now > self.widens and self.takes < WIDE:
            self.takes = WIDE
            self.line.setsockopt(socket.SOL_SOCKET, socket.SO_RCVBUF, WIDE)
        moves = (self.sends and now >= self.due and self.send()) or (self.reads and not self.is_over and self.read())
        if moves:
            self.moved = now
        return moves

    def send(self):
        """Sends what it can of the next piece, or shuts its half behind the last one."""
        if self.plan.resets is not None and self.sent >= self.plan.resets:
            self.line.setsockopt(socket.SOL_SOCKET, socket.SO_LINGER, struct.pack("ii", 1, 0))
            self.is_over = True
            self.line.close()
            return True
        try:
            if not self.pieces:
                self.sends, self.reads = False, True
                self.line.shutdown(socket.SHUT_WR)
                return True
            sent = self.line.send(self.pieces[0]) if self.pieces[0] else 0
        except BlockingIOError:
            self.reads = not self.holds
            return False
        except OSError:
            # The server takes no more: what it has sent is still to be read.
            self.was_refused, self.sends, self.reads = True, False, True
            return True
        self.sent += sent
        self.pieces[0] = self.pieces[0][sent:]
        if not self.pieces[0]:
            self.pieces.pop(0)
            self.due = time.monotonic() + self.pauses.pop(0)
        return True

    def read(self):
        try:
            piece = self.line.recv(self.takes)
        except BlockingIOError:
            return False
        except OSError:
            piece, self.was_reset = b"", True
        self.got.append(piece)
        if not piece:
            self.is_over = True
            self.line.close()
        return True


def play(rng, port, plans, wanted, silence):
    """Returns the clients of these plans, each of them through, or left alone for too long."""
    clients = [Client(port, *it) for it in zip(plans, wanted)]
    waiting = [*clients]
    while waiting:
        rng.shuffle(waiting)
        now = time.monotonic()
        moved = [it for it in waiting if it.turn(now)]
        waiting = [it for it in waiting if not it.is_over and now - it.moved < silence]
        if not moved and waiting:
            rest(waiting, now)
    for it in clients:
        it.line.close()
    return clients


def rest(waiting, now):
    """Waits until one of these may take a step."""
    ready, times = select.poll(), [0.1]
    for it in waiting:
        is_due = it.sends and now >= it.due
        ready.register(it.line, select.POLLIN * it.reads | select.POLLOUT * is_due)
        times += [it.due - now] if it.sends and not is_due else []
    ready.poll(1000 * min(times) + 1)


# ---- what they are sent


def fault_of(client, wanted, silence):
    """Returns what is wrong with what a client was sent, if something is."""
    got = b"".join(client.got)
    if not client.is_over:
        return f"nothing has moved for {silence} seconds, behind {client.sent} bytes sent and {len(got)} received of {len(wanted)}"
    if client.was_refused and client.holds:
        return f"it reads once it has sent all, and can't send on behind {client.sent} bytes, {len(got)} received of {len(wanted)}"
    if client.was_reset and client.plan.resets is None:
        return f"the server reset it, behind {client.sent} bytes sent and {len(got)} received of {len(wanted)}"
    if got == wanted or client.plan.resets is not None and wanted.startswith(got):
        return None
    at = next((at for at, (a, b) in enumerate(zip(got, wanted)) if a != b), min(len(got), len(wanted)))
    what = "it ends early" if at == len(got) else "it is too long" if at == len(wanted) else "it has other bytes"
    places = f"{len(got)} bytes in place of {len(wanted)}, from {at} on {got[at : at + 60]!r} in place of {wanted[at : at + 60]!r}"
    return f"{what}: {places}"


class Served:
    """A server of one thread, which serves until it is ended."""

    def __init__(self, server, app, env):
        self.port = free_port()
        words = [server, str(self.port), "1000000000", app]
        self.errors = tempfile.TemporaryFile()
        pipes = {"stdin": subprocess.DEVNULL, "stdout": subprocess.DEVNULL, "stderr": self.errors}
        self.ran = subprocess.Popen(words, env={**os.environ, **env}, **pipes)
        wait_for(lambda: listens(self.port) or self.ran.poll() is not None, "the server does not listen")
        self.descriptors, self.clients = self.count(), 0

    def count(self):
        return len(os.listdir(f"/proc/{self.ran.pid}/fd"))

    def end(self, patience):
        """Ends it once its clients have gone, or after so many seconds. Returns what is wrong with it, if something is."""
        until = time.monotonic() + patience
        while self.ran.poll() is None and self.count() != self.descriptors and time.monotonic() < until:
            time.sleep(0.05)
        status = self.ran.poll()
        count = self.count() if status is None else 0
        self.ran.kill()
        self.ran.wait()
        self.errors.seek(0)
        lines = [it for it in self.errors.read().splitlines() if not NOTED.search(it)]
        self.errors.close()
        if status is not None or not all(map(LOGGED.fullmatch, lines)):
            return f"it ended with status {status}, and said {[it for it in lines if not LOGGED.fullmatch(it)][:5]}"
        if count != self.descriptors:
            return f"it has {count} descriptors in place of {self.descriptors}"
        return f"it told of {len(lines) - 1} connections, in place of {self.clients}" if len(lines) != self.clients + 1 else None


class Rounds:
    """The rounds of a seed, by a program and a server."""

    def __init__(self, program, server, seed, env=None, silence=SILENCE):
        self.program, self.server, self.seed, self.env, self.silence = program, server, seed, env or {}, silence
        self.passed, self.failed, self.served = 0, [], {}

    def run(self, number):
        rng = random.Random(f"{self.seed} {number}")
        app = rng.choice(APPS)
        plans = [a_plan(rng, app) for _ in range(CLIENTS)]
        try:
            with ThreadPoolExecutor(len(os.sched_getaffinity(0))) as pool:
                wanted = list(pool.map(lambda it: fuzz.run([self.program, "once", app], [it.text]), plans))
        except fuzz.Odd as odd:
            self.failed.append(f"round {number} of seed {self.seed}: of `once`: {odd}")
            return
        if app not in self.served:
            self.served[app] = Served(self.server, app, self.env)
        self.served[app].clients += CLIENTS
        try:
            clients = play(rng, self.served[app].port, plans, wanted, self.silence)
        except OSError as error:
            self.failed.append(f"round {number} of seed {self.seed}: a client can't connect: {error}")
            self.end(app)
            return
        faults = [(at, fault_of(client, wanted[at], self.silence)) for at, client in enumerate(clients)]
        found = [f"round {number} of seed {self.seed}, client {at} of {app}: {why}; {plans[at].told()}" for at, why in faults if why]
        self.passed += CLIENTS - len(found)
        self.failed += found
        if found:
            self.served.pop(app).end(0)

    def end(self, app):
        why = self.served.pop(app).end(SILENCE)
        self.failed += [f"the server of {app}: {why}"] if why else []

    def go_on(self, first, seconds, until=None):
        """Plays rounds for a time, at least one, or until a fault has such words, and ends the servers. Returns how many it played."""
        number, end = first, time.monotonic() + seconds
        try:
            while number == first or time.monotonic() < end and not self.said(until):
                self.run(number)
                number += 1
        finally:
            for app in [*self.served]:
                self.end(app)
        return number - first

    def said(self, words):
        """Returns the faults that have such words."""
        return [it for it in self.failed if words and re.search(words, it)]


# ---- servers that are bent

# What each is seen by.
BENT = {
    "mixes": r"other bytes",
    "twice": r"other bytes|too long",
    "loses": r"other bytes|ends early",
    "forgets": r"nothing has moved",
    "closes": r"ends early",
}


def self_test(program, server):
    """Returns how many bent servers are found, and the one that is not bent is not, and what is wrong."""
    passed, failed = 0, []
    with tempfile.TemporaryDirectory() as room:
        library = f"{room}/bend.so"
        subprocess.run(["gcc", "-shared", "-fPIC", "-O1", "-Wall", "-o", library, f"{TOP}/tests/bend_sockets.c", "-ldl"], check=True)
        for name, words in BENT.items():
            began = time.monotonic()
            rounds = Rounds(program, server, "self-test", {"LD_PRELOAD": library, "BEND": name}, silence=3)
            rounds.go_on(1, 20, until=words)
            said = rounds.said(words)
            if said:
                print(f"a server that {name} is found after {time.monotonic() - began:.1f} s: {said[0][:200]}", flush=True)
            else:
                failed.append(f"a server that {name} is not found: {rounds.failed[:3]}")
            passed += bool(said)
        rounds = Rounds(program, server, "self-test", {"LD_PRELOAD": library})
        rounds.go_on(1, 3)
    return passed + (not rounds.failed), failed + rounds.failed


def main():
    asked = argparse.ArgumentParser()
    asked.add_argument("program")
    asked.add_argument("server", nargs="?", default=SERVER)
    asked.add_argument("--seconds", type=int, default=30)
    asked.add_argument("--seed", default=str(time.time_ns()))
    asked.add_argument("--first", type=int, default=1)
    asked.add_argument("--self-test", action="store_true")
    asked = asked.parse_args()
    program, server = os.path.abspath(asked.program), os.path.abspath(asked.server)
    if asked.self_test:
        passed, failed = self_test(program, server)
    else:
        print(f"seed {asked.seed}", flush=True)
        rounds = Rounds(program, server, asked.seed)
        print(f"{rounds.go_on(asked.first, asked.seconds)} rounds of {CLIENTS} clients")
        passed, failed = rounds.passed, rounds.failed
    for it in failed[:20]:
        print(f"FAILED: {it}")
    print(f"{passed} passed, {len(failed)} failed")
    return 1 if failed or not passed else 0


if __name__ == "__main__":
    sys.exit(main())

"""WebSocket sessions over real sockets, of each server of tests/servers_of.py: by Python's `websockets`, and frame by frame.

Usage: sessions.py PROGRAM [TEST..]. The last line is 'N passed, M failed', and the status is 0 only with none failed.
For `once` each connection of a listener on 127.0.0.1 is the standard input and output of a program of its own, so that all
that the program reads and writes goes over a socket. The client is the one of Debian's package python3-websockets, which
is installed by apt-get where it is missing; it is a package of Debian's own Python, which then runs this script.
Expected bytes are those of RFC 6455, and never what the program wrote before.
"""

import asyncio
import os
import select
import socket
import struct
import subprocess
import sys
import threading
import time
from concurrent.futures import ThreadPoolExecutor

import fuzz
import packages
import servers_of
from servers import free_port
from servers_of import FOUR, ONCE, ONE, WORKERS, Running, asks

# How long a client waits for bytes, and how long a program may take to end once its connection has.
SECONDS = 30

# The example of RFC 6455, sections 1.2 and 1.3.
KEY, ACCEPT = b"dGhlIHNhbXBsZSBub25jZQ==", "s3pPLMBiTxaQ9kYGzzhZRbK+xOo="
EXAMPLE = (
    b"GET /chat HTTP/1.1\r\nHost: server.example.com\r\nUpgrade: websocket\r\nConnection: Upgrade\r\n"
    b"Sec-WebSocket-Key: " + KEY + b"\r\nOrigin: http://example.com\r\n"
    b"Sec-WebSocket-Protocol: chat, superchat\r\nSec-WebSocket-Version: 13\r\n\r\n"
)
GET = b"GET / HTTP/1.1\r\nHost: a\r\n\r\n"
HANDSHAKE = (
    b"GET / HTTP/1.1\r\nHost: a\r\nUpgrade: websocket\r\nConnection: Upgrade\r\n"
    b"Sec-WebSocket-Key: " + KEY + b"\r\nSec-WebSocket-Version: 13\r\n\r\n"
)
NOT_FOUND = b"HTTP/1.1 404 Not Found\r\ncontent-length: 0\r\n\r\n"

# Opcodes (section 5.2) and close codes (section 7.4.1).
CONTINUATION, TEXT, BINARY, CLOSE, PING, PONG = 0x0, 0x1, 0x2, 0x8, 0x9, 0xA
PROTOCOL_ERROR, NOT_CONSISTENT, TOO_BIG = 1002, 1007, 1009
# The masking key of the examples of section 5.7, and its masked frames: a text of "Hello", and a pong of it.
MASK = b"\x37\xfa\x21\x3d"
HELLO, HELLO_BACK = b"\x81\x85\x37\xfa\x21\x3d\x7f\x9f\x4d\x51\x58", b"\x81\x05Hello"
# A ping of "Hello" as a client sends it, and what answers it.
PING_HELLO, PONG_BACK = b"\x89\x85\x37\xfa\x21\x3d\x7f\x9f\x4d\x51\x58", b"\x8a\x05Hello"

# On each side of where a length needs more bytes (section 5.2), and a long one.
SIZES = [0, 1, 125, 126, 65_535, 65_536, 1 << 20]
# The longest frame that the message layer takes.
LONGEST = 1 << 24


def pattern(size):
    """So many bytes that differ, so that a piece that is lost or moved shows."""
    return (bytes(number * number % 251 for number in range(251)) * (size // 251 + 1))[:size]


def masked(payload, key=MASK):
    """A payload under the key (section 5.3)."""
    wide = (key * (len(payload) // 4 + 1))[: len(payload)]
    return (int.from_bytes(payload, "big") ^ int.from_bytes(wide, "big")).to_bytes(len(payload), "big")


def length_of(size, mask_bit, form=None):
    """The length of a payload, in its shortest form, or in that of so many further bytes (section 5.2)."""
    if form is None:
        form = 0 if size < 126 else 2 if size < 1 << 16 else 8
    if form == 0:
        return bytes([mask_bit | size])
    return bytes([mask_bit | (126 if form == 2 else 127)]) + size.to_bytes(form, "big")


def frame(opcode, payload=b"", final=True, reserved=0, mask=True, form=None):
    """A frame of a client."""
    first = bytes([(0x80 if final else 0) | reserved << 4 | opcode])
    head = first + length_of(len(payload), 0x80 if mask else 0, form)
    return head + (MASK + masked(payload) if mask else payload)


def answered(opcode, payload=b""):
    """A frame of a server: whole, and without a mask."""
    return bytes([0x80 | opcode]) + length_of(len(payload), 0) + payload


def code_of(back):
    """The code of a close that is all that was sent, with a reason or none (section 5.5.1)."""
    [(opcode, body)] = fuzz.frames(back)
    if opcode != CLOSE or len(body) < 2:
        raise AssertionError(f"{back!r} is no close with a code")
    body[2:].decode()
    return int.from_bytes(body[:2], "big")


def frames_of(answer):
    """The frames of a session's answer."""
    head, end, text = answer.partition(b"\r\n\r\n")
    if (head[:13], end) != (b"HTTP/1.1 101 ", b"\r\n\r\n"):
        raise AssertionError(f"{answer!r} is no session")
    return fuzz.frames(text)


def spoken(given):
    """The frames that answer those of a client which come at once, after the opening handshake, through pipes."""
    words = {"stdout": subprocess.PIPE, "stderr": subprocess.PIPE, "timeout": SECONDS, "check": False}
    ran = subprocess.run([servers_of.DEMO, "once", "wsecho"], input=HANDSHAKE + given, **words)
    if (ran.returncode, ran.stderr) != (0, b""):
        raise AssertionError(f"{ran!r} is no session")
    return frames_of(ran.stdout)


def spoken_to(server, given):
    """The same by a connection of a server, whose client sends all, ends its side, and reads meanwhile."""
    with server.connect() as line:
        sends = threading.Thread(target=send_all, args=(line, HANDSHAKE + given))
        sends.start()
        answer = b""
        while piece := line.recv(1 << 16):
            answer += piece
        sends.join()
    return frames_of(answer)


def send_all(line, given):
    """Sends all, and ends this side. A server that has closed the session takes no more of it."""
    try:
        line.sendall(given)
        line.shutdown(socket.SHUT_WR)
    except OSError:
        pass


class Served:
    """A listener, and the programs of its connections."""

    def __init__(self, app="wsecho"):
        self.app, self.programs, self.began = app, [], threading.Condition()
        self.listener = socket.create_server(("127.0.0.1", 0))
        self.port = self.listener.getsockname()[1]
        threading.Thread(target=self.accept, daemon=True).start()

    def accept(self):
        while True:
            try:
                line, _ = self.listener.accept()
            except OSError:
                return
            how = {"stdin": line, "stdout": line, "stderr": subprocess.PIPE}
            program = subprocess.Popen([servers_of.DEMO, "once", self.app], **how)
            # The program has the socket alone, so that the connection ends where it does.
            line.close()
            with self.began:
                self.programs.append(program)
                self.began.notify()

    def __enter__(self):
        return self

    def __exit__(self, *_):
        # Closing alone does not wake the thread that accepts.
        self.listener.shutdown(socket.SHUT_RDWR)
        self.listener.close()
        for program in self.programs:
            program.kill()
            program.communicate()

    def end(self):
        """Waits until the program of the first connection has ended, and gives its status and errors."""
        with self.began:
            self.began.wait_for(lambda: self.programs, timeout=SECONDS)
        _, errors = self.programs[0].communicate(timeout=SECONDS)
        return self.programs[0].returncode, errors


class Client:
    """A connection of bytes."""

    def __init__(self, served):
        self.line = socket.create_connection(("127.0.0.1", served.port), timeout=SECONDS)
        self.line.setsockopt(socket.IPPROTO_TCP, socket.TCP_NODELAY, 1)

    def __enter__(self):
        return self

    def __exit__(self, *_):
        self.line.close()

    def write(self, given):
        self.line.sendall(given)

    def read(self, length):
        """Reads so many bytes, or fewer where the connection ends before."""
        found = bytearray()
        while len(found) < length:
            more = self.line.recv(length - len(found))
            if not more:
                break
            found += more
        return bytes(found)

    def rest(self):
        """Reads until the connection ends, and closes this side then. That it is reset is an end too: the program did not read all that was sent."""
        found = b""
        try:
            while more := self.line.recv(65_536):
                found += more
        except ConnectionResetError:
            pass
        self.line.close()
        return found

    def head(self):
        """Reads a head, and gives its status and its fields, the names in lower case."""
        text = b""
        while not text.endswith(b"\r\n\r\n"):
            more = self.read(1)
            if not more:
                raise EOFError(f"only {text!r} was answered")
            text += more
        status, *fields = text.decode("ascii").removesuffix("\r\n\r\n").split("\r\n")
        pairs = [it.split(":", 1) for it in fields]
        return status, {name.lower(): value.strip() for name, value in pairs}

    def open(self, handshake=HANDSHAKE):
        """Opens a session as a client has to see it (section 4.1): 101, the three fields, and nothing else chosen."""
        self.write(handshake)
        status, fields = self.head()
        if not status.startswith("HTTP/1.1 101 "):
            raise AssertionError(f"the handshake is answered by {status}, {fields}")
        told = (fields.get("upgrade", "").lower(), fields.get("connection", "").lower(), fields.get("sec-websocket-accept"))
        if told != ("websocket", "upgrade", ACCEPT):
            raise AssertionError(f"the handshake is answered with {fields}")
        for name in ("sec-websocket-protocol", "sec-websocket-extensions"):
            if name in fields:
                raise AssertionError(f"{name}: {fields[name]} was chosen")
        return self

    def close_with_a_reset(self):
        self.line.setsockopt(socket.SOL_SOCKET, socket.SO_LINGER, struct.pack("ii", 1, 0))
        self.line.close()


class Case:
    def serves(self, app="wsecho", count=1):
        """The server that is asked."""
        return Served(app) if self.server == ONCE else Running(self.server, free_port(), app, count)

    def session(self, app="wsecho"):
        """A server and an open connection to it, until the test ends."""
        served = self.enterContext(self.serves(app))
        return served, self.enterContext(Client(served))

    def ends_well(self, served, *reports):
        """Its one connection ends with one of these reports, or as finished if none is said, and the server well."""
        if self.server == ONCE:
            self.assertEqual(served.end(), (0, b""))
        else:
            self.assertIn(served.ended(), [servers_of.well(it) for it in reports or ["1 finished"]])


@asks(ONE, FOUR, WORKERS, ONCE)
class Handshakes(Case):
    """The opening handshake, byte by byte."""

    def test_answers_the_example_of_the_standard(self):
        served, client = self.session()
        client.open(EXAMPLE)
        client.write(HELLO)
        self.assertEqual(client.read(len(HELLO_BACK)), HELLO_BACK)
        client.write(frame(CLOSE))
        self.assertEqual(client.rest(), answered(CLOSE))
        self.ends_well(served)

    def test_answers_however_its_bytes_and_those_of_a_frame_are_cut(self):
        given = EXAMPLE + HELLO + frame(CLOSE, struct.pack(">H", 1000))
        wanted = HELLO_BACK + answered(CLOSE, struct.pack(">H", 1000))
        places = [0, 1, len(EXAMPLE) - 1, len(EXAMPLE), len(EXAMPLE) + 1, len(EXAMPLE) + 7, len(given) - 1]
        for place in places:
            with self.subTest(place=place), self.serves() as served, Client(served) as client:
                client.write(given[:place])
                time.sleep(0.05)
                client.open(given[place:])
                self.assertEqual(client.rest(), wanted)
                self.ends_well(served)

    def test_is_answered_after_plain_requests(self):
        for apart in (False, True):
            with self.subTest(apart=apart), self.serves() as served, Client(served) as client:
                if apart:
                    for _ in range(2):
                        client.write(GET)
                        self.assertEqual(client.read(len(NOT_FOUND)), NOT_FOUND)
                    client.open()
                else:
                    client.write(GET + GET + HANDSHAKE[:-2])
                    self.assertEqual(client.read(2 * len(NOT_FOUND)), 2 * NOT_FOUND)
                    client.open(b"\r\n")
                client.write(HELLO)
                self.assertEqual(client.read(len(HELLO_BACK)), HELLO_BACK)
                client.write(frame(CLOSE))
                self.assertEqual(client.rest(), answered(CLOSE))
                self.ends_well(served, "3 finished")

    def test_is_refused_where_it_is_faulty(self):
        rows = [
            (b"Sec-WebSocket-Version: 13", b"Sec-WebSocket-Version: 8", "426"),
            (b"Sec-WebSocket-Version: 13\r\n", b"", "426"),
            (b"Sec-WebSocket-Key: " + KEY + b"\r\n", b"", "400"),
            (KEY, KEY[:-4], "400"),
            (b"GET /", b"POST /", "400"),
        ]
        for old, new, wanted in rows:
            with self.subTest(new=new), self.serves() as served, Client(served) as client:
                client.write(HANDSHAKE.replace(old, new))
                status, fields = client.head()
                self.assertEqual(status.split(" ")[:2], ["HTTP/1.1", wanted])
                if wanted == "426":
                    # The versions that are served (RFC 6455, section 4.4).
                    self.assertEqual(fields.get("sec-websocket-version"), "13")
                client.write(HELLO)
                self.assertNotIn(HELLO_BACK, client.rest())
                self.ends_well(served, f"0 refused {wanted}")

    def test_is_refused_by_the_other_applications(self):
        # A close in place of an accept is 403 (ASGI WebSocket, "Close").
        for app in ("hello", "echo", "notfound"):
            with self.subTest(app=app), self.serves(app) as served, Client(served) as client:
                client.write(HANDSHAKE)
                self.assertEqual(client.head()[0], "HTTP/1.1 403 Forbidden")
                client.rest()
                self.ends_well(served)


@asks(ONE, FOUR, WORKERS, ONCE)
class Frames(Case):
    """Sessions frame by frame."""

    def test_lengths_have_their_shortest_form(self):
        # The examples of section 5.7: 256 bytes have a length of 7 + 16 bits, and 64 KiB one of 7 + 64 bits.
        rows = [
            (0, b"\x82\x00"),
            (1, b"\x82\x01"),
            (125, b"\x82\x7d"),
            (126, b"\x82\x7e\x00\x7e"),
            (256, b"\x82\x7e\x01\x00"),
            (65_535, b"\x82\x7e\xff\xff"),
            (65_536, b"\x82\x7f\x00\x00\x00\x00\x00\x01\x00\x00"),
        ]
        served, client = self.session()
        client.open()
        for size, head in rows:
            with self.subTest(size=size):
                client.write(frame(BINARY, pattern(size)))
                self.assertEqual(client.read(len(head) + size), head + pattern(size))
        client.write(frame(CLOSE))
        self.assertEqual(client.rest(), answered(CLOSE))
        self.ends_well(served)

    def test_the_longest_frame_comes_back(self):
        # The message layer takes frames of up to 16 MiB; see the faults for one byte more.
        served, client = self.session()
        client.open()
        sending = threading.Thread(target=client.write, args=(frame(BINARY, pattern(LONGEST)),))
        sending.start()
        wanted = answered(BINARY, pattern(LONGEST))
        self.assertTrue(client.read(len(wanted)) == wanted)
        sending.join()
        client.write(frame(CLOSE))
        self.assertEqual(client.rest(), answered(CLOSE))
        self.ends_well(served)

    def test_fragments_are_one_message(self):
        rows = [
            [b"Hel", b"lo"],
            [b"", b"Hello"],
            [b"Hello", b""],
            [b"", b"", b""],
            [b"H", b"e", b"l", b"l", b"o"],
            ["\u00e9".encode()[:1], "\u00e9".encode()[1:]],
            [pattern(65_536), pattern(70_000), pattern(3)],
        ]
        for number, parts in enumerate(rows):
            opcode = BINARY if number == len(rows) - 1 else TEXT
            with self.subTest(row=number), self.serves() as served, Client(served) as client:
                client.open()
                for place, part in enumerate(parts):
                    client.write(frame(CONTINUATION if place else opcode, part, final=place == len(parts) - 1))
                wanted = answered(opcode, b"".join(parts))
                self.assertEqual(client.read(len(wanted)), wanted)
                client.write(frame(CLOSE))
                self.assertEqual(client.rest(), answered(CLOSE))
                self.ends_well(served)

    def test_a_ping_is_answered_between_fragments(self):
        served, client = self.session()
        client.open()
        client.write(frame(TEXT, b"Hel", final=False) + PING_HELLO)
        # The pong waits for no further fragment.
        self.assertEqual(client.read(len(PONG_BACK)), PONG_BACK)
        client.write(frame(PING) + frame(CONTINUATION, b"lo"))
        self.assertEqual(client.read(2 + len(HELLO_BACK)), answered(PONG) + HELLO_BACK)
        client.write(frame(CLOSE))
        self.assertEqual(client.rest(), answered(CLOSE))
        self.ends_well(served)

    def test_pings_of_each_length_are_answered_and_pongs_are_not(self):
        served, client = self.session()
        client.open()
        for size in (0, 1, 124, 125):
            client.write(frame(PONG, pattern(size)) + frame(PING, pattern(size)))
            wanted = answered(PONG, pattern(size))
            self.assertEqual(client.read(len(wanted)), wanted)
        client.write(frame(CLOSE))
        self.assertEqual(client.rest(), answered(CLOSE))
        self.ends_well(served)

    def test_a_close_is_answered_by_its_code(self):
        # Section 5.5.1: the endpoint "typically echos the status code it received".
        for code in (1000, 1001, 3000, 4999):
            for reason in (b"", b"r", "\u00e9".encode() + b"n" * 121):
                with self.subTest(code=code, reason=len(reason)), self.serves() as served, Client(served) as client:
                    client.open()
                    client.write(frame(CLOSE, struct.pack(">H", code) + reason))
                    back = client.rest()
                    self.assertEqual(back[:1], b"\x88")
                    self.assertEqual(back[1], len(back) - 2)
                    self.assertEqual(back[2:4], struct.pack(">H", code))
                    # A reason, where there is one, is the one that came.
                    self.assertIn(back[4:], (b"", reason))
                    self.ends_well(served)

    def test_nothing_is_answered_after_a_close(self):
        for after in (HELLO, PING_HELLO, frame(CLOSE, struct.pack(">H", 1001)), b"\xff" * 100):
            with self.subTest(after=after[:2]), self.serves() as served, Client(served) as client:
                client.open()
                client.write(HELLO + frame(CLOSE, struct.pack(">H", 1000)) + after)
                self.assertEqual(client.rest(), HELLO_BACK + answered(CLOSE, struct.pack(">H", 1000)))
                self.ends_well(served)


# What ends a session: why, the bytes, and the code of the close that tells the client (sections 7.1.7 and 7.4.1).
FAULTS = [
    ("no mask", frame(TEXT, b"Hello", mask=False), PROTOCOL_ERROR),
    ("no mask on a close", frame(CLOSE, mask=False), PROTOCOL_ERROR),
    *((f"opcode {opcode}", frame(opcode, b"Hello"), PROTOCOL_ERROR) for opcode in (3, 4, 5, 6, 7, 11, 12, 13, 14, 15)),
    *((f"reserved bits {bits}", frame(TEXT, b"Hello", reserved=bits), PROTOCOL_ERROR) for bits in (1, 2, 4, 7)),
    ("a reserved bit on a ping", frame(PING, reserved=4), PROTOCOL_ERROR),
    ("text that is not UTF-8", frame(TEXT, b"Hel\xfflo"), NOT_CONSISTENT),
    ("text that ends in a character", frame(TEXT, b"Hell\xc3"), NOT_CONSISTENT),
    ("a surrogate", frame(TEXT, b"\xed\xa0\x80"), NOT_CONSISTENT),
    ("a long form of a slash", frame(TEXT, b"\xc0\xaf"), NOT_CONSISTENT),
    ("fragments that are not UTF-8", frame(TEXT, b"\xc3", final=False) + frame(CONTINUATION, b"\xc3"), NOT_CONSISTENT),
    ("a length of 5 in 16 bits", frame(TEXT, b"Hello", form=2), PROTOCOL_ERROR),
    ("a length of 5 in 64 bits", frame(TEXT, b"Hello", form=8), PROTOCOL_ERROR),
    ("a length of 65,535 in 64 bits", frame(BINARY, pattern(65_535), form=8), PROTOCOL_ERROR),
    ("a length with its highest bit", b"\x82\xff\x80" + bytes(7) + MASK, PROTOCOL_ERROR),
    ("a ping of 126 bytes", frame(PING, pattern(126)), PROTOCOL_ERROR),
    ("a pong of 126 bytes", frame(PONG, pattern(126)), PROTOCOL_ERROR),
    ("a close of 126 bytes", frame(CLOSE, struct.pack(">H", 1000) + b"r" * 124), PROTOCOL_ERROR),
    ("a ping in fragments", frame(PING, final=False), PROTOCOL_ERROR),
    ("a close of one byte", frame(CLOSE, b"\x03"), PROTOCOL_ERROR),
    ("a reason that is not UTF-8", frame(CLOSE, struct.pack(">H", 1000) + b"\xff"), NOT_CONSISTENT),
    *(
        (f"the close code {code}", frame(CLOSE, struct.pack(">H", code)), PROTOCOL_ERROR)
        for code in (0, 999, 1004, 1005, 1006, 1015, 2999, 5000, 65_535)
    ),
    ("a continuation of nothing", frame(CONTINUATION, b"lo"), PROTOCOL_ERROR),
    ("a text within fragments", frame(TEXT, b"Hel", final=False) + frame(TEXT, b"lo"), PROTOCOL_ERROR),
    # Of these the header alone is enough: the payload never comes.
    ("a frame over 16 MiB", b"\x82" + length_of(LONGEST + 1, 0x80) + MASK, TOO_BIG),
    ("the head of an opcode without a meaning", b"\x83\x8a" + MASK, PROTOCOL_ERROR),
    ("the head of a length of 10 in 16 bits", b"\x81\xfe" + struct.pack(">H", 10) + MASK, PROTOCOL_ERROR),
]
# What is judged once the frame is whole, and not at its head.
WHOLE = [
    frame(TEXT, b"Hello", mask=False), frame(PING, b"Hello", final=False), frame(PING, pattern(126)), frame(CONTINUATION, b"lo"),
    *(frame(TEXT, b"Hello", reserved=bits) for bits in (1, 2, 4, 7)),
]  # fmt: skip


# The codes that a close may have (sections 7.4.1 and 7.4.2), and those that were registered later, which may be taken or not.
LAWFUL = {*range(1000, 1004), *range(1007, 1012), *range(3000, 5000)}
LATER = {1012, 1013, 1014}
# Texts that are cut at each place: one with characters of one to four bytes, and the edges of what is no UTF-8 (RFC 3629, section 4).
TEXTS = [
    b"a\xc3\xa9\xe2\x82\xac\xf0\x9f\x98\x80z", b"\xf4\x8f\xbf\xbf\xee\x80\x80\xed\x9f\xbf\xe0\xa0\x80\xf0\x90\x80\x80\xc2\x80",
    b"a\x80", b"a\xbf\xbf", b"\xc0\x80", b"\xc1\xbf", b"\xc3\xc3", b"\xe0\x9f\xbf", b"\xe2\x82a", b"\xed\xa0\x80", b"\xed\xbf\xbf",
    b"\xf0\x8f\xbf\xbf", b"\xf0\x9f\x98a", b"\xf4\x90\x80\x80", b"\xf5\x80\x80\x80", b"\xf8\x88\x80\x80\x80", b"\xfe", b"\xff\xff",
]  # fmt: skip


def bent_texts():
    """The texts, each beginning of the first, and the first with a byte of it replaced at each place."""
    first = TEXTS[0]
    beginnings = [first[:end] for end in range(len(first))]
    return TEXTS + beginnings + [first[:at] + b"\xff" + first[at + 1 :] for at in range(len(first))]


def due(payload):
    """What answers a text by Python's own reading of UTF-8: the text, or a close for what is none (sections 5.6 and 8.1)."""
    try:
        payload.decode()
    except UnicodeDecodeError:
        return [(CLOSE, NOT_CONSISTENT)]
    return [(TEXT, payload), (CLOSE, 1000)]


def coded(frames):
    """The frames, each close by its code alone."""
    return [(opcode, int.from_bytes(body[:2], "big") if opcode == CLOSE else body) for opcode, body in frames]


@asks(ONE, FOUR, WORKERS, ONCE)
class Edges(Case):
    """What comes at once: a connection for each row, and for `once` a program, as many side by side as there are processors."""

    def each(self, rows, given):
        """The rows, each with the frames that answer what is given for it."""
        with ThreadPoolExecutor(len(os.sched_getaffinity(0))) as pool:
            if self.server == ONCE:
                return list(zip(rows, pool.map(lambda row: spoken(given(row)), rows)))
            found = []
            # A server of workers ends after at most so many connections.
            for at in range(0, len(rows), 1_000):
                some = rows[at : at + 1_000]
                with self.serves(count=len(some)) as server:
                    found += zip(some, pool.map(lambda row, server=server: spoken_to(server, given(row)), some))
                    ended = server.ended()
                    self.assertEqual((len(ended.reports), ended.others, ended.status), (len(some), [], 0))
            return found

    def spoken(self, given):
        return self.each([given], lambda row: row)[0][1]

    def test_a_close_is_answered_by_its_code_or_as_a_fault(self):
        codes = [*range(5001), 65_535]
        wrong = []
        for code, frames in self.each(codes, lambda code: frame(CLOSE, struct.pack(">H", code) + b"r")):
            back = coded(frames)
            wanted = [code] if code in LAWFUL else [code, PROTOCOL_ERROR] if code in LATER else [PROTOCOL_ERROR]
            wrong += [] if len(back) == 1 and back[0][0] == CLOSE and back[0][1] in wanted else [(code, back)]
        self.assertEqual(wrong, [])

    def test_a_text_is_judged_alike_wherever_it_is_cut(self):
        rows = [(text, cut) for text in bent_texts() for cut in range(len(text) + 1)]
        end = frame(CLOSE, struct.pack(">H", 1000))

        def given(row):
            text, cut = row
            return frame(TEXT, text[:cut], final=False) + frame(CONTINUATION, text[cut:]) + end

        self.assertEqual([(row, back) for row, back in self.each(rows, given) if coded(back) != due(row[0])], [])

    def test_a_text_with_a_ping_inside_is_judged_alike(self):
        end = frame(CLOSE, struct.pack(">H", 1000))
        rows = [(text, cut) for text in TEXTS for cut in range(len(text) + 1)]

        def given(row):
            text, cut = row
            return frame(TEXT, text[:cut], final=False) + PING_HELLO + frame(CONTINUATION, text[cut:]) + end

        # A text that is faulty before the ping may end the session before it (section 8.1).
        found = [(row, [it for it in coded(back) if it != (PONG, b"Hello")]) for row, back in self.each(rows, given)]
        self.assertEqual([(row, back) for row, back in found if back != due(row[0])], [])

    def test_ten_thousand_pings_are_answered_in_order(self):
        payloads = [number.to_bytes(4, "big") for number in range(10_000)]
        given = b"".join(frame(PING, it) for it in payloads)
        back = self.spoken(given + frame(CLOSE, struct.pack(">H", 1000)))
        self.assertEqual(coded(back[-1:]), [(CLOSE, 1000)])
        # A pong may answer several pings, with the payload of the last (section 5.5.3).
        pongs = [int.from_bytes(body, "big") for opcode, body in back[:-1] if opcode == PONG]
        self.assertEqual((len(back), pongs), (len(pongs) + 1, sorted(set(pongs))))
        self.assertEqual(pongs[-1], len(payloads) - 1)

    def test_ten_thousand_fragments_are_one_message(self):
        for between in (b"", frame(PONG, b"x")):
            parts = [frame(TEXT if at == 0 else CONTINUATION, b"%04d" % at, final=at == 9_999) + between for at in range(10_000)]
            back = self.spoken(b"".join(parts) + frame(CLOSE, struct.pack(">H", 1000)))
            self.assertEqual(coded(back), [(TEXT, b"".join(b"%04d" % at for at in range(10_000))), (CLOSE, 1000)])

    def test_a_mask_is_taken_off_byte_by_byte(self):
        # Any key is lawful (section 5.3).
        keys = (bytes(4), b"\xff" * 4, b"\0\xff\0\xff", b"\x80\0\0\x01", MASK)
        rows = [(key, size) for key in keys for size in (0, 1, 2, 3, 4, 5, 125, 126, 70_001)]

        def given(row):
            key, size = row
            return b"\x82" + length_of(size, 0x80) + key + masked(pattern(size), key) + frame(CLOSE, struct.pack(">H", 1000))

        for (key, size), back in self.each(rows, given):
            self.assertEqual(coded(back), [(BINARY, pattern(size)), (CLOSE, 1000)], (key, size))


@asks(ONE, FOUR, WORKERS, ONCE)
class Faults(Case):
    """Sessions that a client ends, in a way that the standard forbids or by leaving."""

    def test_a_faulty_frame_ends_the_session(self):
        for why, given, code in FAULTS:
            with self.subTest(why=why), self.serves() as served, Client(served) as client:
                client.open()
                client.write(HELLO)
                self.assertEqual(client.read(len(HELLO_BACK)), HELLO_BACK)
                client.write(given)
                # The client leaves its side open, and the connection ends all the same.
                self.assertEqual(code_of(client.rest()), code)
                # A close that is faulty by its code alone is one.
                self.ends_well(served, "1 finished" if why.startswith("the close code") else "1 input-broke")

    def test_a_frame_is_judged_once_it_is_whole(self):
        for given in WHOLE:
            with self.subTest(given=given[:8]), self.serves() as served, Client(served) as client:
                client.open()
                client.write(given[:-1])
                self.assertEqual(select.select([client.line], [], [], 0.2)[0], [])
                client.write(given[-1:])
                self.assertEqual(code_of(client.rest()), PROTOCOL_ERROR)
                self.ends_well(served, "1 input-broke")

    def test_what_comes_before_a_faulty_frame_is_answered(self):
        served, client = self.session()
        client.open()
        client.write(HELLO + HELLO + frame(TEXT, b"Hello", mask=False) + HELLO)
        back = client.rest()
        self.assertEqual(back[: 2 * len(HELLO_BACK)], 2 * HELLO_BACK)
        self.assertEqual(code_of(back[2 * len(HELLO_BACK) :]), PROTOCOL_ERROR)
        self.ends_well(served, "1 input-broke")

    def test_a_client_that_leaves_ends_the_program(self):
        rows = [
            ("after the handshake", b""),
            ("after a message", HELLO),
            ("within a header", HELLO + b"\x81"),
            ("within a payload", HELLO + HELLO[:-1]),
            ("within fragments", HELLO + frame(TEXT, b"Hel", final=False)),
        ]
        for why, given in rows:
            for leave in (lambda it: it.line.close(), Client.close_with_a_reset):
                with self.subTest(why=why), self.serves() as served, Client(served) as client:
                    client.open()
                    client.write(given)
                    if given:
                        self.assertEqual(client.read(len(HELLO_BACK)), HELLO_BACK)
                    leave(client)
                    self.ends_well(served, "1 input-broke")

    def test_a_client_that_only_stops_sending_gets_its_answers(self):
        served, client = self.session()
        client.write(HANDSHAKE + HELLO + PING_HELLO)
        client.line.shutdown(socket.SHUT_WR)
        self.assertEqual(client.head()[0].split(" ")[1], "101")
        self.assertEqual(client.rest(), HELLO_BACK + PONG_BACK)
        self.ends_well(served, "1 input-broke", "1 finished")


@asks(ONE, FOUR, WORKERS, ONCE)
class Messages(Case):
    """Sessions of Python's `websockets`, with all that it offers by itself."""

    def run_session(self, talk, **options):
        """Opens a session, runs the talk over it, and sees that both sides end well."""
        import websockets

        async def run(port):
            options.setdefault("max_size", None)
            how = {"ping_interval": None, "open_timeout": SECONDS, "close_timeout": SECONDS, **options}
            async with websockets.connect(f"ws://127.0.0.1:{port}/", **how) as session:
                await talk(session)
            return session.close_code, session.close_reason

        with self.serves() as served:
            ended = asyncio.run(asyncio.wait_for(run(served.port), 4 * SECONDS))
            self.ends_well(served)
        return ended

    def test_messages_come_back(self):
        for size in SIZES:
            for kind in ("text", "wide text", "bytes"):
                message = {
                    "text": "".join(chr(32 + number % 95) for number in range(size)),
                    # Characters of one to four bytes, so that some stand across the ends of reads.
                    "wide text": ("a\u00e9\u20ac\U0001f600" * (size // 10 + 1))[: size // 3],
                    "bytes": pattern(size),
                }[kind]

                async def talk(session):
                    await session.send(message)
                    self.assertEqual(await session.recv(), message)

                with self.subTest(size=size, kind=kind):
                    self.assertEqual(self.run_session(talk), (1000, ""))

    def test_messages_come_back_in_order(self):
        messages = [number.to_bytes(4, "big") * (number % 40) if number % 2 else f"{number}" for number in range(300)]

        async def talk(session):
            sending = asyncio.create_task(self.send_all(session, messages))
            self.assertEqual([await session.recv() for _ in messages], messages)
            await sending

        self.assertEqual(self.run_session(talk), (1000, ""))

    async def send_all(self, session, messages):
        for message in messages:
            await session.send(message)

    def test_fragments_come_back_as_one_message(self):
        async def talk(session):
            for parts in (["Hel", "lo"], ["", "a", ""], [b"a" * 70_000, b"b"], ["\u00e9"] * 100):
                await session.send(parts)
                self.assertEqual(await session.recv(), parts[0][:0].join(parts))

        self.assertEqual(self.run_session(talk), (1000, ""))

    def test_pings_are_answered_with_their_payload(self):
        async def talk(session):
            # Each waits for the pong with this payload.
            for payload in (b"", b"a", b"Hello", pattern(125)):
                await asyncio.wait_for(await session.ping(payload), SECONDS)
            await session.pong(b"unasked")
            await session.send("a")
            self.assertEqual(await session.recv(), "a")

        self.assertEqual(self.run_session(talk), (1000, ""))

    def test_a_close_comes_back_with_its_code(self):
        for code in (1000, 1001, 3000, 4999):
            for reason in ("", "going"):

                async def talk(session):
                    await session.close(code, reason)

                with self.subTest(code=code, reason=reason):
                    ended = self.run_session(talk)
                    self.assertEqual(ended[0], code)
                    self.assertIn(ended[1], ("", reason))

    def test_no_subprotocol_and_no_extension_is_chosen(self):
        async def talk(session):
            self.assertIsNone(session.subprotocol)
            self.assertEqual(session.extensions, [])
            await session.send("a")
            self.assertEqual(await session.recv(), "a")

        # It offers permessage-deflate by itself.
        self.assertEqual(self.run_session(talk, subprotocols=["chat", "superchat"]), (1000, ""))

    def test_sessions_run_beside_one_another(self):
        import websockets

        async def one(port, number):
            how = {"ping_interval": None, "open_timeout": SECONDS, "close_timeout": SECONDS}
            async with websockets.connect(f"ws://127.0.0.1:{port}/", **how) as session:
                for turn in range(20):
                    await session.send(f"{number} {turn}")
                    self.assertEqual(await session.recv(), f"{number} {turn}")

        async def all_of(port):
            await asyncio.gather(*(one(port, number) for number in range(8)))

        with self.serves(count=8) as served:
            asyncio.run(asyncio.wait_for(all_of(served.port), 4 * SECONDS))
            if self.server != ONCE:
                self.assertEqual(served.ended(), servers_of.well(*["1 finished"] * 8))
                return
            # A session can be over before the thread that accepts has said that its program began.
            with served.began:
                served.began.wait_for(lambda: len(served.programs) == 8, timeout=SECONDS)
            self.assertEqual(len(served.programs), 8)
            for program in served.programs:
                _, errors = program.communicate(timeout=SECONDS)
                self.assertEqual((program.returncode, errors), (0, b""))


def main():
    packages.install(packages.websockets)
    if not packages.has_websockets():
        sys.exit(f"{packages.PYTHON} has no `websockets`: install Debian's python3-websockets")
    packages.go_to_debians_python()
    servers_of.DEMO = os.path.abspath(sys.argv[1])
    return servers_of.run_tests(__name__)


if __name__ == "__main__":
    sys.exit(main())

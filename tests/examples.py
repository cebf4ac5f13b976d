"""The examples over `nomtsage` that serve on a port, by real clients: items, the chat and uploads.

Usage: examples.py [TEST..]. The last line is 'N passed, M failed', and the status is 0 only with none failed.
The programs are those of `crates/items_example`, `crates/chat_example` and `crates/upload_example`, built. The clients are Python's
`http.client`, a small one of WebSocket over sockets, and two pages of the chat in Debian's chromium, which is spoken to by its
DevTools protocol; it is installed by apt-get where it is missing, and where it can't be had that test is told as skipped. With
`SCREENSHOT=FILE` in the environment it leaves there what the second page shows. Expected texts are those of the examples'
documents, of RFC 6455 and of RFC 9530, never what the programs printed.
"""

import base64
import concurrent.futures
import hashlib
import http.client
import json
import os
import re
import shutil
import socket
import subprocess
import sys
import tempfile
import time
import unittest
import urllib.request

import packages

TOP = os.path.dirname(os.path.dirname(os.path.realpath(__file__)))
SECONDS = 60
MEBIBYTE = bytes(number * number % 251 for number in range(251)) * (1 << 13)
MEBIBYTE = MEBIBYTE[: 1 << 20]
MASK = b"\x37\xfa\x21\x3d"
TEXT, BINARY, CLOSE = 0x1, 0x2, 0x8


class Program:
    """The program of an example, which serves so many connections of a free port, and then ends by itself."""

    def __init__(self, name, count):
        words = [f"{TOP}/crates/{name}/out/{name}", "0", str(count)]
        self.ran = subprocess.Popen(words, stdin=subprocess.DEVNULL, stdout=subprocess.PIPE, stderr=subprocess.PIPE)
        self.lines = []
        self.port = None

    def __enter__(self):
        while line := self.ran.stderr.readline().decode():
            self.lines.append(line)
            if found := re.search(r"listening on http://127\.0\.0\.1:(\d+)$", line.rstrip()):
                self.port = int(found[1])
                return self
        self.__exit__()
        raise AssertionError(f"no line says where it listens: {self.lines}")

    def __exit__(self, *_):
        self.ran.kill()
        self.ran.communicate()

    def ended(self):
        """How its connections ended, in any order, and its status, once it has ended."""
        _, errors = self.ran.communicate(timeout=SECONDS)
        ends = re.findall(r"connection \d+: .*?, (\d+) requests, (\S+)", errors.decode())
        return sorted(ends), self.ran.returncode


class Items(unittest.TestCase):
    """The program of `crates/items_example`."""

    def ask(self, line, method, path, body=None):
        """The status, the content type and the value of a response."""
        line.request(method, path, body)
        answer = line.getresponse()
        content = answer.read()
        return answer.status, answer.headers["content-type"], json.loads(content) if content else None

    def test_items_are_added_and_found(self):
        no_item, no_name, no_json = ({"error": f"no {what}"} for what in ("such item", "name", "JSON"))
        rows = [
            ("GET", "/items", None, 200, {"items": 0}),
            ("GET", "/items/1", None, 404, no_item),
            ("POST", "/items", '{"name": "tea"}', 201, {"item": 1, "name": "tea"}),
            ("POST", "/items", '{"name": "\u20ac", "more": [1]}', 201, {"item": 2, "name": "\u20ac"}),
            ("POST", "/items", '{"name": 7}', 400, no_name),
            ("POST", "/items", "{}", 400, no_name),
            ("POST", "/items", "tea", 400, no_json),
            ("POST", "/items", b"\xff", 400, no_json),
            ("POST", "/items", None, 400, no_json),
            ("GET", "/items", None, 200, {"items": 2}),
            ("GET", "/items/2", None, 200, {"item": 2}),
            ("GET", "/items/3", None, 404, no_item),
            ("GET", "/items/0", None, 404, no_item),
            ("GET", "/items/tea", None, 404, no_item),
            ("GET", "/items/18446744073709551616", None, 404, no_item),
        ]
        with Program("items_example", 1) as served:
            line = http.client.HTTPConnection("127.0.0.1", served.port, timeout=SECONDS)
            for method, path, body, status, value in rows:
                with self.subTest(method=method, path=path, body=body):
                    body = body.encode() if isinstance(body, str) else body
                    self.assertEqual(self.ask(line, method, path, body), (status, "application/json", value))
            line.close()
            self.assertEqual(served.ended(), ([(str(len(rows)), "finished")], 0))

    def test_paths_and_methods_that_there_are_not(self):
        with Program("items_example", 1) as served:
            line = http.client.HTTPConnection("127.0.0.1", served.port, timeout=SECONDS)
            for method, path, status, allow in (
                ("GET", "/", 404, None),
                ("GET", "/items/1/2", 404, None),
                ("DELETE", "/items", 405, {"OPTIONS", "GET", "HEAD", "POST"}),
                ("POST", "/items/1", 405, {"OPTIONS", "GET", "HEAD"}),
                ("HEAD", "/items", 200, None),
            ):
                with self.subTest(method=method, path=path):
                    line.request(method, path)
                    answer = line.getresponse()
                    self.assertEqual((answer.status, answer.read()), (status, b""))
                    if allow:
                        self.assertEqual(set(re.split(", *", answer.headers["allow"])), allow)
            line.close()
            self.assertEqual(served.ended(), ([("5", "finished")], 0))

    def test_each_item_has_its_own_number(self):
        """By several connections at the same time."""
        connections, requests = 4, 50

        def add(port):
            line = http.client.HTTPConnection("127.0.0.1", port, timeout=SECONDS)
            added = [self.ask(line, "POST", "/items", b'{"name": "a"}') for _ in range(requests)]
            line.close()
            return [value["item"] for status, _, value in added if status == 201]

        with Program("items_example", connections) as served:
            with concurrent.futures.ThreadPoolExecutor(connections) as threads:
                numbers = [number for found in threads.map(add, [served.port] * connections) for number in found]
            self.assertEqual(sorted(numbers), list(range(1, connections * requests + 1)))
            self.assertEqual(served.ended(), ([(str(requests), "finished")] * connections, 0))


class Upload(unittest.TestCase):
    """The program of `crates/upload_example`."""

    def digests(self, body):
        """The content and the field that are due for a body (RFC 9530, section 2)."""
        digest = hashlib.sha256(body)
        return digest.hexdigest().encode(), b"content-digest: sha-256=:" + base64.b64encode(digest.digest()) + b":\r\n"

    def test_bodies_by_length_and_in_chunks(self):
        bodies = [b"", b"abc", MEBIBYTE, MEBIBYTE * 10]
        with Program("upload_example", 1) as served:
            line = http.client.HTTPConnection("127.0.0.1", served.port, timeout=SECONDS)
            for body in bodies:
                for given in (body, (body[at : at + 50_000] for at in range(0, len(body), 50_000))):
                    line.request("POST", "/", given)
                    answer = line.getresponse()
                    self.assertEqual((answer.status, answer.read()), (200, self.digests(body)[0]))
                    self.assertEqual(answer.headers["trailer"], "content-digest")
            line.close()
            self.assertEqual(served.ended(), ([(str(2 * len(bodies)), "finished")], 0))

    def test_the_digest_is_a_trailer_where_the_client_takes_them(self):
        """What comes is looked at as it comes: a chunk, the last one, and the trailer section (RFC 9112, section 7.1)."""
        content, field = self.digests(MEBIBYTE * 10)
        with Program("upload_example", 2) as served:
            for fields, trailer in ((b"TE: trailers\r\n", field), (b"", b"")):
                with socket.create_connection(("127.0.0.1", served.port), timeout=SECONDS) as line:
                    head = b"POST / HTTP/1.1\r\nHost: a\r\nConnection: close\r\n%sContent-Length: %d\r\n\r\n" % (fields, 10 << 20)
                    line.sendall(head + MEBIBYTE * 10)
                    head, _, rest = read_all(line).partition(b"\r\n\r\n")
                self.assertTrue(head.startswith(b"HTTP/1.1 200 OK\r\n"), head)
                self.assertEqual(rest, b"40\r\n" + content + b"\r\n0\r\n" + trailer + b"\r\n")
            self.assertEqual(served.ended(), ([("1", "finished")] * 2, 0))

    def test_a_longer_body_is_refused(self):
        with Program("upload_example", 1) as served:
            with socket.create_connection(("127.0.0.1", served.port), timeout=SECONDS) as line:
                line.sendall(b"POST / HTTP/1.1\r\nHost: a\r\nContent-Length: %d\r\n\r\n" % ((10 << 20) + 1))
                self.assertTrue(read_all(line).startswith(b"HTTP/1.1 413 "))
            self.assertEqual(served.ended()[1], 0)

    def test_a_client_that_goes_away_ends_its_task_alone(self):
        with Program("upload_example", 2) as served:
            with socket.create_connection(("127.0.0.1", served.port), timeout=SECONDS) as line:
                line.sendall(b"POST / HTTP/1.1\r\nHost: a\r\nContent-Length: 100\r\n\r\nabc")
            line = http.client.HTTPConnection("127.0.0.1", served.port, timeout=SECONDS)
            line.request("POST", "/", b"abc")
            self.assertEqual(line.getresponse().read(), self.digests(b"abc")[0])
            line.close()
            self.assertEqual(served.ended(), ([("1", "finished"), ("1", "input-broke")], 0))


def read_all(line):
    pieces = []
    while piece := line.recv(1 << 16):
        pieces.append(piece)
    return b"".join(pieces)


class Session:
    """A client of WebSocket (RFC 6455), as small as these tests need it: whole messages, and no pings."""

    def __init__(self, port, path="/", host="127.0.0.1"):
        self.line = socket.create_connection((host, port), timeout=SECONDS)
        self.line.setsockopt(socket.IPPROTO_TCP, socket.TCP_NODELAY, 1)
        key = base64.b64encode(os.urandom(16)).decode()
        self.line.sendall(
            f"GET {path} HTTP/1.1\r\nHost: {host}:{port}\r\nUpgrade: websocket\r\nConnection: Upgrade\r\n"
            f"Sec-WebSocket-Key: {key}\r\nSec-WebSocket-Version: 13\r\n\r\n".encode()
        )
        head = b""
        while not head.endswith(b"\r\n\r\n"):
            head += self.take(1)
        due = base64.b64encode(hashlib.sha1((key + "258EAFA5-E914-47DA-95CA-C5AB0DC85B11").encode()).digest())
        if not head.startswith(b"HTTP/1.1 101 ") or due not in head:
            raise AssertionError(f"the handshake is answered by {head!r}")

    def __enter__(self):
        return self

    def __exit__(self, *_):
        self.line.close()

    def take(self, length):
        found = bytearray()
        while len(found) < length:
            more = self.line.recv(length - len(found))
            if not more:
                raise EOFError(f"only {bytes(found)!r} came")
            found += more
        return bytes(found)

    def send(self, payload, opcode=TEXT):
        """A message in one frame, masked (section 5.2)."""
        payload = payload.encode() if isinstance(payload, str) else payload
        size = len(payload)
        length = bytes([0x80 | size]) if size < 126 else bytes([0x80 | 126]) + size.to_bytes(2, "big")
        if size >= 1 << 16:
            length = bytes([0x80 | 127]) + size.to_bytes(8, "big")
        masked = bytes(byte ^ MASK[at % 4] for at, byte in enumerate(payload))
        self.line.sendall(bytes([0x80 | opcode]) + length + MASK + masked)

    def receive(self):
        """The opcode and the payload of a message."""
        first, size = self.take(2)
        if size >= 126:
            size = int.from_bytes(self.take(2 if size == 126 else 8), "big")
        return first & 0xF, self.take(size)

    def text(self):
        opcode, payload = self.receive()
        if opcode != TEXT:
            raise AssertionError(f"{opcode}: {payload!r}")
        return payload.decode()

    def closed(self):
        """The code and the reason of the close that comes next (section 5.5.1)."""
        opcode, payload = self.receive()
        if opcode != CLOSE:
            raise AssertionError(f"{opcode}: {payload!r}")
        self.send(payload[:2], CLOSE)
        return int.from_bytes(payload[:2], "big"), payload[2:].decode()

    def close(self):
        """Closes as a client does, the connection too, and gives the code that comes back; messages that come before it are passed over."""
        self.send((1000).to_bytes(2, "big"), CLOSE)
        while (came := self.receive())[0] != CLOSE:
            pass
        self.line.close()
        return int.from_bytes(came[1][:2], "big")


class Chat(unittest.TestCase):
    """The program of `crates/chat_example`."""

    def test_what_one_says_each_sees(self):
        with Program("chat_example", 3) as served, Session(served.port) as ann, Session(served.port) as ben:
            for speaker, text in ((ann, "hello"), (ben, "\u20ac"), (ben, ""), (ann, "x" * 1000)):
                speaker.send(text)
                self.assertEqual((ann.text(), ben.text()), (text, text))
            # One that comes later sees all that was said, in order.
            with Session(served.port) as cem:
                self.assertEqual([cem.text() for _ in range(4)], ["hello", "\u20ac", "", "x" * 1000])
                cem.send("late")
                self.assertEqual([it.text() for it in (ann, ben, cem)], ["late"] * 3)
                self.assertEqual([it.close() for it in (ann, ben, cem)], [1000] * 3)
            self.assertEqual(served.ended(), ([("1", "finished")] * 3, 0))

    def test_all_see_the_same_order(self):
        members, texts = 4, 25
        with Program("chat_example", members) as served:
            sessions = [Session(served.port) for _ in range(members)]

            def speak(number):
                for at in range(texts):
                    sessions[number].send(f"{number} {at}")
                return [sessions[number].text() for _ in range(members * texts)]

            with concurrent.futures.ThreadPoolExecutor(members) as threads:
                seen = list(threads.map(speak, range(members)))
            self.assertEqual(sorted(seen[0]), sorted(f"{number} {at}" for number in range(members) for at in range(texts)))
            for other in seen[1:]:
                self.assertEqual(other, seen[0])
            for number in range(members):
                said = [text for text in seen[0] if text.startswith(f"{number} ")]
                self.assertEqual(said, [f"{number} {at}" for at in range(texts)])
            self.assertEqual([it.close() for it in sessions], [1000] * members)
            self.assertEqual(served.ended(), ([("1", "finished")] * members, 0))

    def test_words_reach_the_others_soon(self):
        # They are looked at some milliseconds later, and not at the next tick, which is a second. The best of three runs is held to that.
        words, longest = 20, 5
        with Program("chat_example", 3) as served:
            members = [Session(served.port) for _ in range(3)]
            times = []
            for _ in range(3):
                began = time.monotonic()
                for at in range(words):
                    members[at % 3].send(f"{at}")
                    self.assertEqual([it.text() for it in members], [f"{at}"] * 3)
                    if time.monotonic() - began > longest:
                        break
                times.append(time.monotonic() - began)
                if times[-1] < longest:
                    break
            self.assertLess(min(times), longest)
            self.assertEqual([it.close() for it in members], [1000] * 3)
            self.assertEqual(served.ended(), ([("1", "finished")] * 3, 0))

    def test_many_members(self):
        members = 200
        with Program("chat_example", members) as served:
            sessions = [Session(served.port) for _ in range(members)]
            began = time.monotonic()
            sessions[0].send("to all")
            self.assertEqual([it.text() for it in sessions], ["to all"] * members)
            self.assertLess(time.monotonic() - began, 5)
            self.assertEqual([it.close() for it in sessions], [1000] * members)
            self.assertEqual(served.ended(), ([("1", "finished")] * members, 0))

    def test_what_it_takes_no_part_of(self):
        with Program("chat_example", 2) as served:
            with Session(served.port) as session:
                session.send(b"abc", BINARY)
                self.assertEqual(session.closed(), (1003, "texts only"))
            with Session(served.port) as session:
                session.send("x" * 1001)
                self.assertEqual(session.closed()[0], 1008)
            self.assertEqual(served.ended(), ([("1", "finished")] * 2, 0))

    def test_a_session_that_is_gone_is_not_missed(self):
        with Program("chat_example", 2) as served, Session(served.port) as ann:
            with Session(served.port) as ben:
                ben.send("I go")
                self.assertEqual((ann.text(), ben.text()), ("I go", "I go"))
            ann.send("alone")
            self.assertEqual(ann.text(), "alone")
            self.assertEqual(ann.close(), 1000)
            ends, status = served.ended()
            self.assertEqual((len(ends), status), (2, 0))

    def test_a_page_of_another_site_has_no_part_in_it(self):
        with Program("chat_example", 4) as served:
            here = f"http://127.0.0.1:{served.port}"
            for origin, status in ((here, 101), ("http://127.0.0.1", 403), ("http://other.example", 403), ("null", 403)):
                line = http.client.HTTPConnection("127.0.0.1", served.port, timeout=SECONDS)
                fields = {"Upgrade": "websocket", "Connection": "Upgrade", "Sec-WebSocket-Version": "13", "Origin": origin}
                line.request("GET", "/", headers={**fields, "Sec-WebSocket-Key": "dGhlIHNhbXBsZSBub25jZQ=="})
                self.assertEqual(line.getresponse().status, status, origin)
                line.close()
            self.assertEqual(len(served.ended()[0]), 4)

    def test_the_page(self):
        with Program("chat_example", 1) as served:
            line = http.client.HTTPConnection("127.0.0.1", served.port, timeout=SECONDS)
            for path, status in (("/", 200), ("/favicon.ico", 404)):
                line.request("GET", path)
                answer = line.getresponse()
                self.assertEqual(answer.status, status)
                self.assertEqual(answer.read().startswith(b"<!doctype html>\n"), status == 200)
            line.close()
            self.assertEqual(served.ended(), ([("2", "finished")], 0))


class Browser:
    """A headless chromium, and its pages, by the DevTools protocol."""

    def __init__(self):
        self.folder = tempfile.mkdtemp()
        words = ["chromium", "--headless=new", "--no-sandbox", "--disable-gpu", "--disable-dev-shm-usage", "--no-first-run"]
        words += ["--remote-debugging-port=0", f"--user-data-dir={self.folder}", "about:blank"]
        pipes = {"stdin": subprocess.DEVNULL, "stdout": subprocess.DEVNULL, "stderr": subprocess.DEVNULL}
        self.ran = subprocess.Popen(words, env={**os.environ, "HOME": self.folder}, **pipes)
        until = time.monotonic() + SECONDS
        told = f"{self.folder}/DevToolsActivePort"
        while not (os.path.exists(told) and os.path.getsize(told)):
            if time.monotonic() > until or self.ran.poll() is not None:
                self.__exit__()
                raise AssertionError("chromium does not start")
            time.sleep(0.05)
        with open(told, encoding="ascii") as it:
            self.port = int(it.readline())

    def __enter__(self):
        return self

    def __exit__(self, *_):
        self.ran.kill()
        self.ran.wait()
        shutil.rmtree(self.folder, ignore_errors=True)

    def page(self, url):
        asked = urllib.request.Request(f"http://127.0.0.1:{self.port}/json/new?{url}", method="PUT")
        with urllib.request.urlopen(asked, timeout=SECONDS) as answer:
            path = re.search(r"(/devtools/page/[^\"]+)", json.load(answer)["webSocketDebuggerUrl"])[1]
        page = Page(Session(self.port, path))
        page.call("Emulation.setFocusEmulationEnabled", enabled=True)
        return page


class Page:
    """A page of it."""

    def __init__(self, session):
        self.session, self.number = session, 0

    def call(self, method, **params):
        self.number += 1
        self.session.send(json.dumps({"id": self.number, "method": method, "params": params}))
        while (came := json.loads(self.session.text())).get("id") != self.number:
            pass
        if "error" in came:
            raise AssertionError(f"{method}: {came['error']}")
        return came["result"]

    def value(self, expression):
        return self.call("Runtime.evaluate", expression=expression, returnByValue=True)["result"].get("value")

    def wait_for(self, expression, wanted):
        until = time.monotonic() + SECONDS
        while (found := self.value(expression)) != wanted:
            if time.monotonic() > until:
                raise AssertionError(f"{expression} is {found!r}, and not {wanted!r}")
            time.sleep(0.05)

    def type(self, text):
        """Types a text into what has the focus, and then the key Enter."""
        self.call("Input.insertText", text=text)
        for kind in ("keyDown", "keyUp"):
            self.call("Input.dispatchKeyEvent", type=kind, key="Enter", code="Enter", windowsVirtualKeyCode=13, text="\r")


class Pages(unittest.TestCase):
    """Two pages of the chat in a browser."""

    LINES = "[...document.querySelectorAll('li')].map(it => it.textContent).join('|')"

    def test_what_is_typed_in_one_page_is_seen_in_the_other(self):
        if not shutil.which("chromium"):
            self.skipTest("chromium can't be had")
        with Program("chat_example", 1000) as served, Browser() as browser:
            pages = [browser.page(f"http://127.0.0.1:{served.port}/") for _ in range(2)]
            for page in pages:
                page.wait_for("document.readyState === 'complete' && socket.readyState", 1)
            seen = []
            for page, text in ((pages[0], "hello from one"), (pages[1], "<b>and</b> \u20ac from two")):
                page.value("document.getElementById('text').focus()")
                page.type(text)
                seen.append(text)
                for other in pages:
                    other.wait_for(self.LINES, "|".join(seen))
                self.assertEqual(page.value("document.getElementById('text').value"), "")
            if "SCREENSHOT" in os.environ:
                with open(os.environ["SCREENSHOT"], "wb") as it:
                    it.write(base64.b64decode(pages[1].call("Page.captureScreenshot")["data"]))


def main():
    packages.install(lambda: packages.of({"chromium": "chromium"}))
    loader = unittest.defaultTestLoader
    loader.testNamePatterns = [f"*{it}*" for it in sys.argv[1:]] or None
    suite = loader.loadTestsFromModule(sys.modules[__name__])
    result = unittest.TextTestRunner(stream=sys.stdout, verbosity=2).run(suite)
    failed, skipped = len(result.failures) + len(result.errors), len(result.skipped)
    for test, why in result.skipped:
        print(f"skipped: {test}: {why}")
    print(f"{max(result.testsRun - failed - skipped, 0)} passed, {failed} failed")
    return 1 if failed or not result.testsRun else 0


if __name__ == "__main__":
    sys.exit(main())

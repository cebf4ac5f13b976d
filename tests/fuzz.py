#!/usr/bin/env python3
"""Requests and sessions made by a grammar and then bent, given whole and in pieces to the built program.

Usage: fuzz.py PROGRAM [--seconds N] [--seed S], or fuzz.py --self-test PROGRAM. The first line is the seed, the last one
'N passed, M failed', and the status is 0 only with none failed. The same seed makes the same inputs.

Of each run is asked: it ends within ten seconds with status 0 and no word on standard error; what it wrote is read by an
independent reader (`answers`, `frames`) as answers, of statuses that the server and the application have, at most one more than
the input has ends of heads, and at most one refusal, which is the last; the same bytes in pieces are answered alike. The answers
to an input that is not bent are known, and so are those to the requests before the first place where one was bent.

--self-test: the fuzzer is seen to fail on programs bent for it, and not on the program itself.
"""

import argparse
import array
import fcntl
import os
import random
import re
import struct
import subprocess
import sys
import tempfile
import termios
import time

REASONS = {100: b"Continue", 101: b"Switching Protocols", 200: b"OK", 400: b"Bad Request", 404: b"Not Found", 413: b"Content Too Large"}
REASONS |= {426: b"Upgrade Required", 431: b"Request Header Fields Too Large", 500: b"Internal Server Error", 501: b"Not Implemented"}
REFUSALS = {400, 413, 426, 431, 501}
KEY, VALUE = b"dGhlIHNhbXBsZSBub25jZQ==", b"s3pPLMBiTxaQ9kYGzzhZRbK+xOo="
BLOCK = 16_384
# What is put into an input that is bent.
WORDS = [
    b"\r", b"\n", b"\r\n", b"\n\n", b"\r\n\r\n", b"\0", b" ", b"\t", b":", b",", b";", b"\"", b"0", b"-1", b"+5", b"0x5", b"\xff", b"\xc3\xa9",
    b"Content-Length: 5\r\n", b"Content-Length: 0\r\n", b"Content-Length: 5, 5\r\n", b"Transfer-Encoding: chunked\r\n",
    b"Transfer-Encoding: identity\r\n", b"Transfer-Encoding: gzip, chunked\r\n", b"Transfer-Encoding:\x0bchunked\r\n", b"transfer-encoding : chunked\r\n",
    b"Host: b\r\n", b"Host:\r\n", b"Connection: close\r\n", b"Upgrade: websocket\r\n", b" obs-fold\r\n", b"HTTP/1.0", b"HTTP/1.1", b"HTTP/2.0",
    b"GET / HTTP/1.1\r\nHost: a\r\n\r\n", b"0\r\n\r\n", b"5\r\nhello\r\n", b"ffffffffffffffff\r\n", b"10000000000000000\r\n", b"5;a=\"b\"\r\n", b"A" * 17_000,
]  # fmt: skip


class Odd(Exception):
    """What was written, or how the program ended, is not as it must be."""


# ---- the independent reader


def fields_of(head):
    lines = head.split(b"\r\n")
    found = [re.fullmatch(rb"([!#$%&'*+.^_`|~0-9A-Za-z-]+): ([^\r\n\0]*)", it) for it in lines]
    if not all(found):
        raise Odd(f"a line of a head is no field: {head[:200]!r}")
    return [(it[1].lower(), it[2]) for it in found]


def chunks_of(text):
    """Returns the content of a chunked body, whether it is whole, and what comes after it (RFC 9112, section 7.1)."""
    content = b""
    while True:
        size = re.match(rb"([0-9a-f]{1,16})\r\n", text)
        if not size:
            raise_unless_cut(text, rb"[0-9a-f]{0,16}\r?")
            return content, False, b""
        length, text = int(size[1], 16), text[size.end() :]
        if length == 0:
            if text[:2] != b"\r\n":
                raise_unless_cut(text, rb"\r?")
                return content, False, b""
            return content, True, text[2:]
        content, end, text = content + text[:length], text[length : length + 2], text[length + 2 :]
        if end != b"\r\n":
            raise_unless_cut(end, rb"\r?")
            return content, False, b""


def raise_unless_cut(text, form):
    if not re.fullmatch(form, text):
        raise Odd(f"no chunk stands here: {text[:60]!r}")


def answers(text, may_be_head):
    """Returns the answers that stand in a text, each with its status, its fields, its content, and whether it is whole."""
    found = []
    while text:
        line = re.match(rb"HTTP/1\.1 ([1-5][0-9][0-9]) ([^\r\n]*)\r\n", text)
        end = text.find(b"\r\n\r\n")
        if not line or end < 0:
            raise Odd(f"no whole head of an answer stands here: {text[:80]!r}")
        status, fields = int(line[1]), fields_of(text[line.end() : end]) if line.end() < end else []
        if REASONS.get(status) != line[2]:
            raise Odd(f"no answer has this status: {line[0]!r}")
        text = text[end + 4 :]
        if status < 200:
            if status == 101:
                return found, (fields, text)
            if fields:
                raise Odd("100 Continue has fields")
            continue
        names = dict(fields)
        if len(fields) != len(names):
            raise Odd(f"a field stands twice: {fields}")
        if may_be_head and (not text or text.startswith(b"HTTP/1.1 ")):
            content, whole = b"", True
        elif b"content-length" in names:
            length = int(names[b"content-length"])
            content, text = text[:length], text[length:]
            whole = len(content) == length
        elif names.get(b"transfer-encoding") == b"chunked":
            content, whole, text = chunks_of(text)
        else:
            content, whole, text = text, True, b""
        found.append((status, names, content, whole))
        if text and (not whole or names.get(b"connection") == b"close"):
            raise Odd(f"something follows an answer that closes or is not whole: {text[:80]!r}")
    return found, None


def frames(text):
    """Returns the frames that a server sent, each with its opcode and its payload (RFC 6455, section 5.2)."""
    found = []
    while text:
        if len(text) < 2 or text[0] & 0x70 or not text[0] & 0x80 or text[1] & 0x80:
            raise Odd(f"no frame of a server stands here: {text[:20]!r}")
        size, at = text[1], 2
        if size > 125:
            form = ">H" if size == 126 else ">Q"
            at += struct.calcsize(form)
            size = struct.unpack(form, text[2:at])[0]
        if len(text) < at + size:
            raise Odd("a frame is not whole")
        found.append((text[0] & 15, text[at : at + size]))
        text = text[at + size :]
    return found


# ---- the grammar: each input with what is known of its answers


def a_request(rng):
    """Returns the text of a request that is well formed, and its answer by `echo`: its status, its content and whether it closes."""
    method = rng.choice([b"GET", b"POST", b"PUT", b"DELETE", b"OPTIONS", b"M-SEARCH", b"post"])
    target = rng.choice([b"/", b"/a/b?c=d", b"/%41%00", b"/a#b", b"http://a/x", b"/" + b"p" * rng.randrange(300), b"/\xc3\xa9"])
    fields = [b"Host: a"] + rng.sample([b"Accept: */*", b"X-Empty:", b"X-A:  b \t", b"TE: trailers", b"Cookie: a=b; c=d", b"X-High: \xe9\xff"], rng.randrange(5))
    body = bytes(rng.randrange(256) for _ in range(rng.choice([0, 1, 3, rng.randrange(60), rng.randrange(400)])))
    if rng.random() < 0.02:
        body = body * (BLOCK // max(1, len(body)) + 2)
    kind = rng.choice(["none", "length", "chunks"])
    if kind == "none":
        body, text = b"", b""
    elif kind == "length":
        fields.append(b"Content-Length: " + rng.choice([b"", b"0"]) + b"%d" % len(body))
        text = body
    else:
        fields.append(rng.choice([b"Transfer-Encoding: chunked", b"transfer-encoding: Chunked"]))
        text = in_chunks(rng, body)
    if rng.random() < 0.15 and kind != "none":
        fields.append(b"Expect: 100-continue")
    closes = rng.random() < 0.1
    if closes:
        fields.append(rng.choice([b"Connection: close", b"connection: x, Close"]))
    rng.shuffle(fields)
    end = rng.choice([b"\r\n"] * 9 + [b"\n"])
    head = rng.choice([b"", b"", b"\r\n", b"\r\n\r\n"]) + end.join([method + b" " + target + b" HTTP/1.1"] + fields) + end + end
    return head + text, (200, body, closes)


def in_chunks(rng, body):
    text, at = b"", 0
    while at < len(body):
        size = min(len(body) - at, rng.choice([1, 2, rng.randrange(1, 40), rng.randrange(1, 20_000)]))
        line = rng.choice([b"%x", b"%X", b"0%x", b"%x;a", b"%x;a=b"]) % size
        text, at = text + line + b"\r\n" + body[at : at + size] + b"\r\n", at + size
    return text + rng.choice([b"0", b"00", b"0;x=y"]) + b"\r\n" + rng.choice([b"", b"", b"X-T: y\r\n"]) + b"\r\n"


def a_connection(rng):
    """Returns the text of a connection's requests, and their answers, up to the first that closes, each with the place where its request ends."""
    text, wanted, closes = b"", [], False
    for _ in range(rng.randrange(1, 6)):
        request, answer = a_request(rng)
        text += request
        wanted += [] if closes else [(len(text), answer)]
        closes = closes or answer[2]
    return text, wanted


def a_frame(rng, opcode, payload, fin=True):
    mask = rng.choice([b"\0\0\0\0", bytes(rng.randrange(256) for _ in range(4))])
    size = bytes([0x80 | len(payload)]) if len(payload) < 126 else b"\xfe" + struct.pack(">H", len(payload))
    return bytes([(0x80 if fin else 0) | opcode]) + size + mask + bytes(b ^ mask[at % 4] for at, b in enumerate(payload))


def a_session(rng):
    """Returns the text of a session that ends with a close, and the messages that `wsecho` sends back."""
    fields = [b"Host: a", b"Upgrade: websocket", b"Connection: Upgrade", b"Sec-WebSocket-Version: 13", b"Sec-WebSocket-Key: " + KEY]
    rng.shuffle(fields)
    text, wanted = b"GET /chat HTTP/1.1\r\n" + b"\r\n".join(fields) + b"\r\n\r\n", []
    for _ in range(rng.randrange(6)):
        opcode = rng.choice([1, 2])
        payload = rng.choice(["a", "é", "x" * rng.randrange(200), "\U0001f600" * rng.randrange(40)]).encode()
        cuts = sorted(rng.randrange(len(payload) + 1) for _ in range(rng.choice([0, 0, 1, 3])))
        pieces = [payload[a:b] for a, b in zip([0, *cuts], [*cuts, len(payload)])]
        for number, piece in enumerate(pieces):
            text += a_frame(rng, opcode if not number else 0, piece, number + 1 == len(pieces))
            if rng.random() < 0.2:
                text += a_frame(rng, rng.choice([9, 10]), b"p" * rng.randrange(3))
        wanted.append((opcode, payload))
    return text + a_frame(rng, 8, rng.choice([b"", b"\x03\xe8", b"\x03\xe9bye"])), wanted


def bent(rng, text):
    """Returns a text with a few faults, and the place of the first."""
    first = len(text)
    for _ in range(rng.choice([1, 1, 1, 2, 3])):
        at = rng.randrange(len(text) + 1)
        how = rng.randrange(7)
        if how == 0:
            text = text[:at] + text[at + rng.choice([1, 1, 2, 30]) :]
        elif how == 1:
            text = text[:at] + bytes([rng.randrange(256)]) + text[at + 1 :]
        elif how == 2:
            text = text[:at] + rng.choice(WORDS) + text[at:]
        elif how == 3:
            text = text[:at]
        elif how == 4:
            end = min(len(text), at + rng.randrange(1, 80))
            text = text[:end] + text[at:end] + text[end:]
        elif how == 5:
            line = text.rfind(b"\n", 0, at) + 1
            text, at = text[:line] + rng.choice(WORDS) + text[line:], line
        else:
            text = text[:at] + text[at : at + 1].swapcase() + text[at + 1 :]
        first = min(first, at)
    return text, first


# ---- a run


def run(words, pieces):
    """Runs the program on an input in these pieces, each given once the one before it was read."""
    with subprocess.Popen(words, stdin=subprocess.PIPE, stdout=subprocess.PIPE, stderr=subprocess.PIPE) as it:
        try:
            if len(pieces) > 1:
                give(it, pieces[:-1])
            output, errors = it.communicate(pieces[-1], timeout=10)
        except subprocess.TimeoutExpired:
            it.kill()
            raise Odd("it does not end") from None
    if it.returncode or errors:
        raise Odd(f"it ended with status {it.returncode} and said {errors!r}")
    return output


def give(program, pieces):
    """Writes pieces, each once the one before it was read, as long as the program reads on."""
    pipe, waiting, deadline = program.stdin.fileno(), array.array("i", [0]), time.monotonic() + 10
    for piece in pieces:
        try:
            os.write(pipe, piece)
        except BrokenPipeError:
            return
        while fcntl.ioctl(pipe, termios.FIONREAD, waiting) == 0 and waiting[0] and program.poll() is None:
            if time.monotonic() > deadline:
                raise subprocess.TimeoutExpired(program.args, 10)


def cut(rng, text):
    """Returns a text in pieces that a pipe takes at once."""
    places = sorted(rng.randrange(len(text) + 1) for _ in range(rng.choice([1, 2, 8])))
    pieces = [text[a:b] for a, b in zip([0, *places], [*places, len(text)])]
    return [it[at : at + 4096] for it in pieces for at in range(0, len(it), 4096)] or [b""]


def judged(output, text):
    """Reads what was written for an input of requests, and returns the answers."""
    found, switched = answers(output, b"head" in text.lower())
    if switched:
        raise Odd("a session began")
    refusals = [number for number, it in enumerate(found) if it[0] in REFUSALS]
    heads = len(re.findall(rb"(?=\n\r?\n)", text))
    if len(found) > heads + 1 or len(found) - len(refusals) > heads:
        raise Odd(f"{len(found)} answers for {heads} ends of heads")
    if refusals and refusals != [len(found) - 1]:
        raise Odd("something follows a refusal")
    if any(not it[3] for it in found[:-1]):
        raise Odd("an answer that is not whole is not the last")
    return found


def try_requests(rng, program):
    """Tries one connection with `echo`, as it is made or bent."""
    text, wanted = a_connection(rng)
    is_bent = rng.random() < 0.7
    text, first = bent(rng, text) if is_bent else (text, len(text))
    pieces, words, output = cut(rng, text), [program, "once", "echo"], b""
    # What stands before the first fault is answered as ever.
    known = [answer for end, answer in wanted if end <= first]
    try:
        output = run(words, [text])
        found = judged(output, text)
        got = [(it[0], it[2], it[1].get(b"connection") == b"close") for it in found]
        if got[: len(known)] != known or not all(it[3] for it in found[: len(known)]) or not is_bent and len(got) != len(known):
            raise Odd(f"answered {got!r} in place of {known!r}")
        if run(words, pieces) != output:
            raise Odd("in pieces it is answered otherwise")
    except Odd as odd:
        raise Odd(f"{odd}; input {text[:1500]!r}.. of {len(text)} bytes, in pieces of {[len(it) for it in pieces]}; output {output[:600]!r}") from None


def try_session(rng, program):
    """Tries one session with `wsecho`, as it is made or bent."""
    text, wanted = a_session(rng)
    if rng.random() < 0.5:
        text, _ = bent(rng, text)
        wanted = None
    words, results, messages = [program, "once", "wsecho"], [], []
    try:
        results += [run(words, it) for it in ([text], cut(rng, text))]
        for output in results:
            found, switched = answers(output, True)
            if switched and dict(switched[0]).get(b"sec-websocket-accept") != VALUE and KEY in text:
                raise Odd("the accept value is another")
            # What follows the first close is the layer's own.
            sent = frames(switched[1]) if switched else []
            messages.append((found, [it for it in sent if it[0] in (1, 2)]))
        if wanted is not None and messages[0] != ([], wanted):
            raise Odd(f"answered {messages[0]!r} in place of {wanted!r}")
        if messages[0] != messages[1]:
            raise Odd("in pieces it is answered otherwise")
    except Odd as odd:
        raise Odd(f"{odd}; input {text!r}, outputs {results!r}") from None


def fuzz(program, seed, seconds, most=None, first_only=False):
    """Tries inputs for a time, or so many. Returns how many passed, and what was odd."""
    end, number, failed = time.monotonic() + seconds, 0, []
    while time.monotonic() < end and number != most and not (failed and first_only):
        rng = random.Random(f"{seed} {number}")
        number += 1
        try:
            (try_session if rng.random() < 0.25 else try_requests)(rng, program)
        except Odd as odd:
            failed.append(f"input {number} of seed {seed}: {odd}")
    return number - len(failed), failed


# ---- programs that are bent

# Each stands in front of the program and does one thing wrong.
BENT = {
    "loses the first byte of a second piece": "given[1:2] = [it[1:] for it in given[1:2]]",
    "takes a bare line feed for the end of all": "given = [b''.join(given).split(b'\\n\\n')[0] + b'\\n\\n'] if b'\\n\\n' in b''.join(given) else given",
    "answers once more where a body has the text of a request": "twice = b'Content-Length: 5' in b''.join(given)",
    "ends with status 1 for a byte of zero": "status = int(b'\\0' in b''.join(given))",
    "sends a header in place of another": "new = (b'chunked', b'identity')",
}
IN_FRONT = """#!/usr/bin/env python3
import os, subprocess, sys
given, twice, status, new = [], False, 0, (b'', b'')
while piece := os.read(0, 65536):
    given.append(piece)
{line}
output = subprocess.run([{program!r}, *sys.argv[1:]], input=b''.join(given), stdout=subprocess.PIPE).stdout
os.write(1, (output + output[len(output) // 2 :] * twice).replace(*new) if new[0] else output + output * twice)
sys.exit(status)
"""


def self_test(program):
    passed, failed = 0, []
    for name, line in BENT.items():
        with tempfile.TemporaryDirectory() as room:
            path = f"{room}/bent"
            with open(path, "w", encoding="utf-8") as it:
                it.write(IN_FRONT.format(line=line, program=program))
            os.chmod(path, 0o755)
            odd = fuzz(path, "self-test", 60, 400, first_only=True)[1]
        passed += bool(odd)
        failed += [] if odd else [f"a program that {name} is not found out"]
    odd = fuzz(program, "self-test", 60, 100)[1]
    return passed + (not odd), failed + odd


def main():
    asked = argparse.ArgumentParser()
    asked.add_argument("program")
    asked.add_argument("--seconds", type=int, default=60)
    asked.add_argument("--seed", default=str(time.time_ns()))
    asked.add_argument("--self-test", action="store_true")
    asked = asked.parse_args()
    program = os.path.abspath(asked.program)
    print(f"seed {asked.seed}" if not asked.self_test else "bent programs", flush=True)
    passed, failed = self_test(program) if asked.self_test else fuzz(program, asked.seed, asked.seconds)
    for it in failed[:20]:
        print(f"FAILED: {it}")
    print(f"{passed} passed, {len(failed)} failed")
    return 1 if failed or not passed else 0


if __name__ == "__main__":
    sys.exit(main())

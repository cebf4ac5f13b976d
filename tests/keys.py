#!/usr/bin/env python3
"""keys.py PROGRAM: keys of the opening handshake, and what answers them, by Python's hashlib and base64.

PROGRAM is crates/asgi_keys/out/asgi_keys, which writes the answer to each line. It is asked a thousand keys, and as many
texts that differ from a key by one symbol, about half of which are none. The last line is 'N passed, M failed'.
"""

import base64
import binascii
import hashlib
import random
import subprocess
import sys

GUID = b"258EAFA5-E914-47DA-95CA-C5AB0DC85B11"
SYMBOLS = "ABCDEFGHIJKLMNOPQRSTUVWXYZabcdefghijklmnopqrstuvwxyz0123456789+/=-_ "


def answer(text):
    """Returns what RFC 6455, section 4.2.2 answers a key with, or that the text is no key."""
    try:
        nonce = base64.b64decode(text, validate=True)
    except binascii.Error:
        return "no key"
    # Only the canonical encoding counts: stray bits after the last byte are refused.
    if len(nonce) != 16 or base64.b64encode(nonce).decode() != text:
        return "no key"
    return base64.b64encode(hashlib.sha1(text.encode() + GUID).digest()).decode()


def keys(source, count):
    return [base64.b64encode(source.randbytes(16)).decode() for _ in range(count)]


def changed(source, key):
    """Returns the key with one symbol replaced, left out or added."""
    at, symbol = source.randrange(len(key)), source.choice(SYMBOLS)
    return key[:at] + source.choice([symbol, symbol, "", symbol + key[at]]) + key[at + 1 :]


def failures(program, texts):
    """Returns the texts that the program answers in another way, each with both answers."""
    given = "".join(f"{text}\n" for text in texts)
    done = subprocess.run([program], input=given, capture_output=True, text=True, timeout=60, check=False)
    said = done.stdout.split("\n")[:-1]
    if done.returncode or done.stderr or len(said) != len(texts):
        return [f"status {done.returncode}, {len(said)} answers to {len(texts)} texts: {done.stderr}"]
    rows = zip(texts, said, map(answer, texts))
    return [f"{text!r}: {found!r} in place of {wanted!r}" for text, found, wanted in rows if found != wanted]


def main(words):
    source = random.Random(6455)
    right = keys(source, 1000)
    wrong = [changed(source, key) for key in keys(source, 1000)]
    failed = 0
    for what, texts in [("keys", right), ("texts near a key", wrong)]:
        found = failures(words[0], texts)
        failed += bool(found)
        for it in found[:5]:
            print(f"FAILED: {what}: {it}")
    print(f"{2 - failed} passed, {failed} failed")
    return 1 if failed else 0


if __name__ == "__main__":
    sys.exit(main(sys.argv[1:]))

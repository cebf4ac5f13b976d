#!/usr/bin/env python3
"""said.py: what the documents for users say, held to the sources that say it first.

- Each piece of Rust in docs/GUIDE.md names its file in its first line, and stands in it as it is; README.md has the program of
  crates/asgi_new_example.
- Each number of the table below is that of its constant.
- Each error text that a user can meet stands in its document: those of `#[error(..)]`, the reasons why an address can't be
  listened on, the words of how a connection ended, and the usage text of asgi_demo.
- docs/HOSTILE.md names only tests, calls and files that are there.

The last line is 'N passed, M failed', where a piece of Rust, a number, a text or a name is one.
"""

import glob
import os
import re
import sys

TOP = os.path.dirname(os.path.dirname(os.path.realpath(__file__)))
README, GUIDE, OPERATING, HOSTILE = "README.md", "docs/GUIDE.md", "docs/OPERATING.md", "docs/HOSTILE.md"
SERVER, SEATED, SEATS = (f"crates/nomtsage/src/{it}.rt" for it in ("server", "seated", "seats"))
REACTOR, QUEUE, PACE = (f"crates/asgi_reactor/src/{it}.rt" for it in ("reactor", "queue", "pace"))
ACCEPTING, LIMITS = "crates/asgi_server/src/accepting.rt", "crates/asgi_types/src/limits.rt"
# A source, a constant or the field of a record in it, a document, and what it says of it.
NUMBERS = [
    (SERVER, "SEATS", README, "{:,} connections at the same time"),
    (SERVER, "SEATS", GUIDE, "serves up to {:,} connections at the same time"),
    (SERVER, "SEATS", OPERATING, "serves up to {:,} connections at the same time"),
    (SERVER, "SEATS", OPERATING, "server one 127.0.0.1:8000 maxconn {}"),
    (SERVER, "MOST_WORKERS", OPERATING, "has 1 to {} of them"),
    (SEATED, "TICK", OPERATING, "by ticks of {} second"),
    (SEATED, "PATIENCE", OPERATING, "takes nothing of its response; it takes too little | {} s; in all"),
    (SEATED, "PATIENCE", README, "after {} seconds if it reads"),
    (SEATED, "LEAST", OPERATING, "slowly | 60 s, and one more for each {} bytes;"),
    (SEATED, "SLOW", OPERATING, "but slowly | {} s, and one more"),
    (SEATED, "GIVE_WAY", OPERATING, "is silent longest between two requests is closed, after {} s | waits |"),
    (SEATED, "PING", OPERATING, "| a session is silent | a ping after {} s"),
    (SEATED, "PONG", OPERATING, "1011 after {} more |"),
    (SEATED, "PING", GUIDE, "gets one after {} seconds"),
    (SEATED, "LEAVE", OPERATING, "what is begun may go on for | {} s |"),
    (SEATS, "TURNS_A_SECOND", OPERATING, "{} of them are a second in one thread"),
    (PACE, "LONGEST_PAUSE", OPERATING, "a pause counts at most {}"),
    (REACTOR, "FLAG_WAIT", OPERATING, "(looked at every {} ms)"),
    (SEATED, "LINGER", OPERATING, "and it sends on | {} s, 64 MiB"),
    (SEATED, "LINGER_SILENT", OPERATING, "or {} s of silence | 1 s |"),
    (QUEUE, "BEAT", GUIDE, "polled about every {} ms"),
    (QUEUE, "IN_A_MILLISECOND", GUIDE, "one millisecond later for each {} sessions that wait"),
    (ACCEPTING, "LOST_IN_A_ROW", OPERATING, "with workers also {:,} lost connections in a row"),
    (LIMITS, "max_head", OPERATING, "| a head, or a trailer section | {:,} bytes |"),
    (LIMITS, "max_headers", OPERATING, "| their fields | {} |"),
    (LIMITS, "max_body", OPERATING, "| a body | {:,} bytes |"),
    (LIMITS, "block", OPERATING, "| a body event | {:,} bytes |"),
    (LIMITS, "ring", OPERATING, "| events that wait, each way | {} |"),
    (LIMITS, "idle_turns", OPERATING, "`idle_turns` of the limits ({:,})"),
]
# What is reckoned: a document, what it says, and of what.
RECKONED = [
    (OPERATING, "between two | dropped after {} s |", lambda: number(LIMITS, "idle_turns") // number(SEATS, "TURNS_A_SECOND")),
    (README, "A silent client is dropped after {} seconds", lambda: number(LIMITS, "idle_turns") // number(SEATS, "TURNS_A_SECOND")),
    (OPERATING, "and it sends on | 30 s, {} MiB,", lambda: number(SEATED, "LINGER_BYTES") >> 20),
    (OPERATING, "| {} s, then it ends |", lambda: number(ACCEPTING, "SHORT_IN_A_ROW") * number(ACCEPTING, "SHORT_WAIT") // 1_000),
    (GUIDE, "with 1,000 of them about every {} ms", lambda: number(QUEUE, "BEAT") + 1_000 // number(QUEUE, "IN_A_MILLISECOND")),
    (README, "`crates/asgi_conversation/specs/Conversation.antt`, {} lines", lambda: text_of("crates/asgi_conversation/specs/Conversation.antt").count("\n")),
]
# Where a user's error texts stand, and where they are told.
ERRORS = [(OPERATING, "crates/nomtsage/src/fault.rt")]
ERRORS += [(GUIDE, f"crates/{it}.rt") for it in ("asgi_apps/src/mounts", "asgi_apps/src/task", "asgi_protocol/src/verdict", "asgi_routes/src/error")]
ERRORS += [(GUIDE, f"crates/asgi_types/src/{it}.rt") for it in ("headers", "limits", "state")]
FOLDER = "crates/asgi_new_example/src"


def text_of(path):
    """The text of a file of this repository."""
    with open(f"{TOP}/{path}", encoding="utf-8") as it:
        return it.read()


def number(path, name):
    """The number of a constant, or the one that the last record of the source has in a field."""
    text = text_of(path)
    found = re.findall(rf"\bconst {name}: \w+ = ([\d_]+);", text) or re.findall(rf"^ +{name}: ([\d_]+(?: << [\d_]+)?),$", text, re.M)
    if not found:
        raise SystemExit(f"{path} has no {name}")
    base, _, shift = found[-1].partition(" << ")
    return int(base) << int(shift or 0)


def code():
    """Yields for each piece of Rust what it is, and whether it stands in its source."""
    handler = re.search(r"^impl Handler for .*?^}\n", text_of(f"{FOLDER}/items.rt"), re.M | re.S)[0]
    body = re.search(r"^fn main\(.*?^}\n", text_of(f"{FOLDER}/main.rt"), re.M | re.S)[0]
    yield f"{README}: the program of asgi_new_example", f"```rust\n{handler}\n{body}```\n" in text_of(README)
    guide = text_of(GUIDE)
    pieces = re.findall(r"```rust\n// (crates/\S+)\n(.*?)```", guide, re.DOTALL)
    yield f"{GUIDE}: each piece of Rust names its file", bool(pieces) and len(pieces) == guide.count("```rust\n")
    for path, piece in pieces:
        yield f"{GUIDE}: a piece of {path}", os.path.isfile(f"{TOP}/{path}") and piece in text_of(path)


def numbers():
    """Yields for each number what is to be said, and whether it is."""
    reckoned = [(document, said.format(of())) for document, said, of in RECKONED]
    for document, said in [(it[2], it[3].format(number(*it[:2]))) for it in NUMBERS] + reckoned:
        yield f"{document}: '{said}'", said in text_of(document)


def texts():
    """Yields for each text of a user's errors whether its document has it: all of it, but for what is filled in."""
    for document, path in ERRORS:
        source, told = text_of(path), text_of(document)
        for said in re.findall(r'#\[error\("([^"]*)"', source) + re.findall(r'ErrorKind::\w+ => "([^"]*)"', source):
            parts = [it for it in re.split(r"\{[^}]*\}", said) if len(it) > 2]
            yield f"{document}: '{said}'", all(it in told for it in parts)
    told = text_of(OPERATING).replace("\\|", "|")
    usage = re.search(r'const USAGE: &\[u8\] = b"([^"]*)\\n"', text_of("crates/asgi_command/src/program.rt"))[1]
    for said in [usage, *re.findall(r'(?:word|numbered)\("([^"]*)"', text_of("crates/asgi_conversation/src/report.rt"))]:
        yield f"{OPERATING}: '{said}'", f"`{said}" in told


def names():
    """Yields for each name of a test, and each file, whether it is there."""
    there = set()
    for path in glob.glob(f"{TOP}/crates/*/src/**/*.rt", recursive=True):
        with open(path, encoding="utf-8") as it:
            there |= {os.path.basename(path), *re.findall(r"\bfn (\w+)", it.read())}
    for path in glob.glob(f"{TOP}/tests/*.py"):
        with open(path, encoding="utf-8") as it:
            there |= set(re.findall(r"\bdef (\w+)", it.read()))
    for name in sorted(set(re.findall(r"`(\w+_\w+_\w+|\w+\.rt|tests/\w+\.py|check_\w+)`", text_of(HOSTILE)))):
        yield f"{HOSTILE}: {name}", name in there or os.path.exists(f"{TOP}/{name}") or os.path.isdir(f"{TOP}/crates/{name}")


def main():
    found = [*code(), *numbers(), *texts(), *names()]
    failed = [what for what, is_so in found if not is_so]
    for it in failed:
        print(f"FAILED: {it}")
    print(f"{len(found) - len(failed)} passed, {len(failed)} failed")
    return 1 if failed else 0


if __name__ == "__main__":
    sys.exit(main())

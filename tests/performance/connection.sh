#!/usr/bin/env bash
# Instructions, and nanoseconds of processor time, of one request of a whole connection from standard input to standard
# output, by `asgi_demo once` and by a peer over the toolchain's `http_server`, in the same run:
#   hello   requests without a body, pipelined, of 27 bytes, of 82, and of a browser
#   echo    POST requests of 1 KiB, 64 KiB and 1 MiB, pipelined, by their length and in chunks of 4 KiB
# Each is a long run less a short one, divided by the requests between them; for time the least of three runs of each.
# All answers of the short runs are read first: both programs must give each request the same status, type and content.
# Instructions are counted in the program and its libraries, and not in the system. The C library is asked to copy and
# to fill by the same instructions whatever the size, so that a byte copied counts the same.
# Usage: tests/performance/connection.sh [PROGRAM PEER]
#        tests/performance/connection.sh hello [PROGRAM [PEER]]
#        tests/performance/connection.sh profile [PROGRAM]
# It needs valgrind. With no PROGRAM it proves and builds both; the peer stands below, and gets a folder of its own.
# `hello` prints the instructions of the first row alone.
# `profile` prints for two of the rows where the program's instructions go, and who asks for memory and for copies.
# A function that is inlined counts for the one around it.
set -eu
way=tables
case ${1:-} in hello | profile) way=$1; shift ;; esac
program=${1:+$(realpath "$1")}
peer=${2:+$(realpath "$2")}
cd "$(dirname "$0")/../.."
folder=$(mktemp -d)
trap 'rm -rf "$folder"' EXIT
library=glibc.cpu.x86_rep_movsb_threshold=1000000000000:glibc.cpu.x86_rep_stosb_threshold=1000000000000
library=$library:glibc.cpu.x86_non_temporal_threshold=1000000000

peer_text() {
  cat <<'P'
//! Serves one connection from standard input to standard output by `http_server`: as `hello`, or as `echo`.
#![tactic(auto)]

use bytes::{BufMut, Bytes};
use http::{HeaderValue, Request, header};
use http_server::{Config, Connection, Response, Service, serve};
use std::alloc::AllocError;
use std::hash::RandomState;
use std::process::ExitCode;
use std::rt::Env;
use std::{env, io};

fn main(rt: HostRuntime) -> ExitCode {
    match run(&rt) {
        Ok(true) => ExitCode::SUCCESS,
        _ => ExitCode::FAILURE,
    }
}

/// Serves by the application that the second word names.
fn run(rt: &HostRuntime) -> io::Result<bool> {
    for word in env::args(rt)?.skip(2) {
        match word.as_str() {
            "hello" => answer(rt, &mut Greeting)?,
            "echo" => answer(rt, &mut Echo)?,
            _ => return Ok(false),
        }
        return Ok(true);
    }
    Ok(false)
}

fn answer<S: Service>(rt: &HostRuntime, service: &mut S) -> io::Result<()> {
    let mut connection = Connection::new(rt.alloc(), RandomState::new(rt)?, Config::default());
    serve(&mut connection, service, &mut rt.stdin(), &mut rt.stdout())
}

/// Answers each request with a greeting.
#[derive(Drop)]
struct Greeting;

impl Service for Greeting {
    ghost answers = { λ old request response new. Unit {0} };

    fn call(&mut self, _: &Request<Bytes>, response: &mut Response) -> Result<(), AllocError> {
        let plain = HeaderValue::from_static("text/plain");
        response.headers.push((header::CONTENT_TYPE, plain))?;
        response.body.put_slice(b"hello\n")
    }
}

/// Answers each request with its own body.
#[derive(Drop)]
struct Echo;

impl Service for Echo {
    ghost answers = { λ old request response new. Unit {0} };

    fn call(
        &mut self,
        request: &Request<Bytes>,
        response: &mut Response,
    ) -> Result<(), AllocError> {
        let octets = HeaderValue::from_static("application/octet-stream");
        response.headers.push((header::CONTENT_TYPE, octets))?;
        response.body.push(request.body().clone()?)
    }
}
P
}

# Proves the peer, and builds it by LLVM.
build_peer() {
  mkdir -p "$folder/peer/crates/connection_peer/src"
  echo 'connection_peer: bytes http http_server' >"$folder/peer/crates.txt"
  peer_text >"$folder/peer/crates/connection_peer/src/main.rt"
  peer=$folder/peer/crates/connection_peer/out/connection_peer
  (cd "$folder/peer/crates/connection_peer" && rt run -- once hello </dev/null >"$folder/log" 2>&1) ||
    { cat "$folder/log"; exit 1; }
}

# So many requests of a shape.
requests() {
  python3 - "$1" "$2" <<'P'
import sys
shape, count = sys.argv[1], int(sys.argv[2])
size, _, framing = shape.partition(":")
host = b"GET / HTTP/1.1\r\nHost: a\r\n"
browser = b"\r\n".join([
    b"GET /index.html HTTP/1.1",
    b"Host: www.example.org", b"Connection: keep-alive", b'sec-ch-ua: "Chromium";v="120", "Not?A_Brand";v="8"',
    b"sec-ch-ua-mobile: ?0", b'sec-ch-ua-platform: "Linux"', b"Upgrade-Insecure-Requests: 1",
    b"User-Agent: Mozilla/5.0 (X11; Linux x86_64) AppleWebKit/537.36 (KHTML, like Gecko) Chrome/120.0.0.0 Safari/537.36",
    b"Accept: text/html,application/xhtml+xml,application/xml;q=0.9,image/avif,image/webp,*/*;q=0.8",
    b"Sec-Fetch-Site: none", b"Sec-Fetch-Mode: navigate", b"Sec-Fetch-User: ?1", b"Sec-Fetch-Dest: document",
    b"Accept-Encoding: gzip, deflate, br", b"Accept-Language: en-US,en;q=0.9", b""])
post = b"POST / HTTP/1.1\r\nHost: a\r\n"
if framing:
    # Bodies that differ from byte to byte, so that a piece that is lost or moved shows.
    body = bytes(number * number % 251 for number in range(int(size)))
    text = post + b"Content-Length: %d\r\n\r\n" % len(body) + body
    if framing == "chunks":
        pieces = [body[at:at + 4096] for at in range(0, len(body), 4096)]
        text = post + b"Transfer-Encoding: chunked\r\n\r\n"
        text += b"".join(b"%x\r\n" % len(piece) + piece + b"\r\n" for piece in pieces) + b"0\r\n\r\n"
else:
    text = {27: host, 82: host + b"User-Agent: curl/7.88.1\r\nAccept: */*\r\n", 605: browser}[int(size)]
    rest = int(size) - len(text) - 2
    if rest >= 5:
        text += b"Z: " + b"z" * (rest - 5) + b"\r\n"
    text += b"\r\n"
    assert len(text) == int(size)
for _ in range(count):
    sys.stdout.buffer.write(text)
P
}

# The short and the long run of a shape.
counts() {
  case $1 in
    1024:*) echo 500 5000 ;;
    65536:*) echo 20 200 ;;
    1048576:*) echo 2 20 ;;
    *) echo 2000 20000 ;;
  esac
}

# Writes both inputs of a shape, and reads the answers of both programs to the short one.
prepare() {
  local short long
  read -r short long <<<"$(counts "$2")"
  requests "$2" "$short" >"$folder/short"
  requests "$2" "$long" >"$folder/long"
  between=$((long - short))
  python3 - "$folder/short" "$1" "$2" "$short" "$program" ${peer:+"$peer"} <<'P'
import http.client, io, subprocess, sys
given, app, shape, count, *programs = sys.argv[1:]
size, _, framing = shape.partition(":")

class Wire:
    def __init__(self, answers):
        self.file = io.BufferedReader(io.BytesIO(answers))
        self.file.close = lambda: None

    def makefile(self, mode):
        return self.file

content = bytes(number * number % 251 for number in range(int(size))) if framing else b"hello\n"
kind = "application/octet-stream" if framing else "text/plain"
for program in programs:
    with open(given, "rb") as it:
        answers = subprocess.run([program, "once", app], stdin=it, stdout=subprocess.PIPE, check=True).stdout
    wire = Wire(answers)
    for number in range(int(count)):
        response = http.client.HTTPResponse(wire)
        response.begin()
        same = (response.status, response.getheader("content-type"), response.read()) == (200, kind, content)
        assert same, f"{program}: answer {number} to {shape} is another one"
    assert not wire.file.read(), f"{program}: more answers than requests"
P
}

# Instructions of a run, as callgrind counts them.
run_counted() {
  GLIBC_TUNABLES=$library valgrind --tool=callgrind --callgrind-out-file="$3" "$1" once "$2" 2>&1 >/dev/null <"$4" |
    sed -n 's/.*Collected : //p'
}

instructions() {
  local long short
  long=$(run_counted "$1" "$2" "$folder/out" "$folder/long")
  short=$(run_counted "$1" "$2" "$folder/out" "$folder/short")
  echo $(((long - short) / between))
}

nanoseconds() {
  python3 - "$1" "$2" "$folder/short" "$folder/long" "$between" <<'P'
import os, resource, subprocess, sys
program, app, short, long, between = sys.argv[1:]

def seconds(given):
    before = resource.getrusage(resource.RUSAGE_CHILDREN)
    with open(given, "rb") as it:
        subprocess.run([program, "once", app], stdin=it, stdout=subprocess.DEVNULL, check=True)
    after = resource.getrusage(resource.RUSAGE_CHILDREN)
    return after.ru_utime + after.ru_stime - before.ru_utime - before.ru_stime

least = [min(seconds(given) for _ in range(3)) for given in (long, short)]
print(round((least[0] - least[1]) * 1e9 / int(between)))
P
}

# A table of so many shapes, for each count.
tables() {
  local app=$1 titles=$2 what shape first second ours theirs ratio
  shift 2
  for what in $counted; do
    echo "| $what of \`once $app\` | $titles |"
    echo "|---|$(for shape in "$@"; do printf -- '---|'; done)"
    ours="| asgi_demo |" theirs="| http_server |" ratio="| asgi_demo, of http_server |"
    for shape in "$@"; do
      prepare "$app" "$shape"
      first=$($what "$program" "$app")
      second=$($what "$peer" "$app")
      theirs="$theirs $(python3 -c "print(f'{$second:,}')") |"
      ours="$ours $(python3 -c "print(f'{$first:,}')") |"
      ratio="$ratio $(python3 -c "print(f'{$first / $second:.2f}')") |"
    done
    printf '%s\n' "$theirs" "$ours" "$ratio" ""
  done
}

# Where the instructions of a shape go. What is copied and cleared counts for the function that asks for it.
profile() {
  prepare "$1" "$2"
  for run in short long; do
    run_counted "$program" "$1" "$folder/out.$run" "$folder/$run" >"$folder/log"
    callgrind_annotate --threshold=100 --tree=caller "$folder/out.$run" >"$folder/callers.$run"
    valgrind --tool=dhat --mode=copy --dhat-out-file="$folder/out" "$program" once "$1" 2>&1 >/dev/null <"$folder/$run" |
      sed -n 's/.*Total: *\([0-9,]*\) bytes.*/\1/p' >"$folder/copied.$run"
  done
  python3 - "$folder" "$between" "once $1, $2" <<'P'
import re, sys
folder, between, title = sys.argv[1], int(sys.argv[2]), sys.argv[3]
memory = r"(_int_)?(malloc|free|realloc)|malloc_consolidate|unlink_chunk|rattle_(de|re)?alloc"
places = [
    ("memory taken and given back", memory),
    ("bytes dropped from the front of the reader's buffer", r"core::slice::edits|asgi_request::reader::drop_front"),
    ("`carry`: what was put, on to the other end", r"asgi_run::inline::carry|asgi_pipes::plain::Plain::carry"),
    ("`serve_connection`, and the turns of the runner", r"asgi_demo::command|asgi_conn::(connection|tally)|asgi_run::inline|asgi_exchange|asgi_io::turns|asgi_conversation"),
    ("the reader", r"asgi_request|httparse|memchr|core::(str|slice)|http_header|percent_encoding|asgi_types::headers::Headers::(has_token|value)"),
    ("the connection's half, and the text of the response", r"asgi_halves::(half|wire)|asgi_response|asgi_io|itoa|std_alloc::vec::Vec::extend"),
    ("the application, its end and the judge", r"asgi_apps|asgi_demo::asgi_|asgi_pipes|asgi_protocol|asgi_types|futures"),
    ("all else", ""),
]

def number(text):
    return int(text.replace(",", ""))

def name(text):
    text = re.sub(r"::<.*$", "", re.sub(r" \[[^]]*\]$", "", text.strip()).split(":", 1)[1])
    for plain, asked in (("memcpy", r"_*mem(cpy|p?move)"), ("memset", r"_*memset")):
        if re.match(asked, text):
            return plain
    return text

def run_of(run):
    own, moved, calls, waiting = {}, {}, {}, []
    for line in open(f"{folder}/callers.{run}"):
        it = re.match(r" *([\d,]+) \([ \d.]+%\)  ([<*]) (\s*\S*:.*?)(?: \(([\d,]+)x\))?(?: \[[^]]*\])?$", line)
        if not it:
            waiting = waiting if line.strip() else []
        elif it[2] == "<":
            waiting.append((name(it[3]), number(it[1]), number(it[4])))
        else:
            what = name(it[3])
            if what in ("memcpy", "memset"):
                for by, cost, _ in waiting:
                    own[by] = own.get(by, 0) + cost
                    moved[by] = moved.get(by, 0) + cost
            else:
                own[what] = own.get(what, 0) + number(it[1])
            if what in ("memcpy", "memset", "rattle_alloc", "rattle_realloc"):
                for by, _, times in waiting:
                    calls[what, by] = calls.get((what, by), 0) + times
            waiting = []
    return own, moved, calls, {"copied": number(open(f"{folder}/copied.{run}").read())}

def less(long, short):
    return sorted(((it, (long[it] - short.get(it, 0)) / between) for it in long), key=lambda it: -it[1])

own, moved, calls, copied = (less(long, short) for long, short in zip(run_of("long"), run_of("short")))
whole, moved = sum(count for _, count in own), dict(moved)
grouped = {}
for function, count in own:
    place = next(title for title, names in places if re.match(names, function))
    sums = grouped.setdefault(place, [0, 0])
    sums[0] += count
    sums[1] += moved.get(function, 0)
print(f"{title}: {whole:,.0f} instructions a request, {copied[0][1]:,.0f} bytes copied by memcpy\n")
print("| place | instructions | share | of them copying and clearing |\n|---|---|---|---|")
for place, (count, copying) in sorted(grouped.items(), key=lambda it: -it[1][0]):
    print(f"| {place} | {count:,.0f} | {100 * count / whole:.0f} % | {copying:,.0f} |")
print("\n| function, with what it copies and clears | instructions | share |\n|---|---|---|")
for function, count in own[:12]:
    print(f"| `{function}` | {count:,.0f} | {100 * count / whole:.1f} % |")
print("\n| calls of | by | a request |\n|---|---|---|")
for (what, by), times in sorted(calls, key=lambda it: (it[0][0], -it[1])):
    if times >= 0.05:
        print(f"| {what} | `{by}` | {times:,.2f} |")
print()
P
}

if [ -z "$program" ]; then
  make -s demo >"$folder/log" 2>&1 || { cat "$folder/log"; exit 1; }
  program=$PWD/crates/asgi_demo/out/asgi_demo
fi
if [ "$way" = profile ]; then
  profile hello 27
  profile echo 65536:length
  exit
fi
[ -n "$peer" ] || build_peer
counted='instructions nanoseconds'
[ "$way" != hello ] || counted=instructions
tables hello '27 bytes | 82 bytes | 605 bytes (browser)' 27 82 605
[ "$way" != hello ] || exit 0
tables echo '1 KiB | 1 KiB, chunks | 64 KiB | 64 KiB, chunks | 1 MiB | 1 MiB, chunks' \
  1024:length 1024:chunks 65536:length 65536:chunks 1048576:length 1048576:chunks

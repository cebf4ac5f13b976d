#!/usr/bin/env bash
# Instructions and memory of the request reader, on inputs of 10 KiB, 1 MiB and 10 MiB of five shapes, fed whole, in
# pieces of 4,096 bytes and byte by byte, less those of reading the input alone. The shapes of large blocks are also
# given in blocks of 256 bytes, of which 10 KiB hold many. The C library is asked to copy by the same instructions
# whatever the size, so that a byte copied counts the same.
# Usage: tests/performance/reader.sh [PROGRAM]. It needs valgrind. With no PROGRAM it proves and builds one, which
# stands below, in a folder of its own over copies of the crates.
set -eu
[ $# -eq 0 ] || set -- "$(realpath "$1")"
cd "$(dirname "$0")/../.."
folder=$(mktemp -d)
trap 'rm -rf "$folder"' EXIT
sizes=${SIZES:-10240 1048576 10485760}
library=glibc.cpu.x86_rep_movsb_threshold=1000000000000:glibc.cpu.x86_rep_stosb_threshold=1000000000000
export GLIBC_TUNABLES=$library:glibc.cpu.x86_non_temporal_threshold=1000000000

# A program that feeds a reader with standard input.
program_text() {
  cat <<'P'
//! Feeds standard input to a request reader in pieces of so many bytes, asks it for all that it gives after each, and
//! prints how much it gave. With a size of 0 it only reads its input. A second word is the bytes of a block.
#![tactic(auto)]

use asgi_request::{Next, RequestReader};
use asgi_types::{Incoming, Limits};
use std::alloc::AllocError;
use std::io::{Read, Write};
use std::process::ExitCode;
use std::rt::Env;
use std::{env, io};

/// How much a reader gave.
#[derive(Clone, Copy, Debug, Default)]
struct Given {
    heads: u64,
    blocks: u64,
    bytes: u64,
    whole: u64,
    refusals: u64,
}

fn main(rt: HostRuntime) -> ExitCode {
    match run(&rt, &mut rt.stdin(), &mut rt.stdout()) {
        Ok(()) => ExitCode::SUCCESS,
        Err(_) => ExitCode::FAILURE,
    }
}

fn run<H: Env + AllocGlobal, R: Read, W: Write>(
    rt: &H,
    input: &mut R,
    output: &mut W,
) -> io::Result<()> {
    let size = word(rt, 1)?;
    let mut bytes = Vec::new(rt.alloc());
    input.read_to_end(&mut bytes)?;
    let mut reader = RequestReader::new(rt.alloc(), limits(word(rt, 2)?));
    let given = feed_all(&mut reader, &bytes, size)?;
    writeln!(
        output,
        "{} heads, {} blocks of {} bytes, {} whole, {} refused",
        given.heads, given.blocks, given.bytes, given.whole, given.refusals
    )
}

/// A word of the command line as a number, or 0.
fn word<H: Env + AllocGlobal>(rt: &H, index: usize) -> io::Result<usize> {
    for word in env::args(rt)?.skip(index) {
        return Ok(word.parse().unwrap_or(0));
    }
    Ok(0)
}

/// The usual limits, with blocks of so many bytes where that is a size.
fn limits(block: usize) -> Limits {
    Limits::new(16_384, 64, 1_048_576, block, 16, 30_000, 1_099_511_627_776)
        .unwrap_or(Limits::usual())
}

/// Feeds the bytes in pieces of so many, and counts all that the reader gives.
fn feed_all(reader: &mut RequestReader, bytes: &[u8], size: usize) -> Result<Given, AllocError> {
    let mut given = Given::default();
    if size == 0 {
        return Ok(given);
    }
    for piece in bytes.chunks(size) {
        reader.feed(piece)?;
        drain(reader, &mut given)?;
    }
    Ok(given)
}

/// Counts all that the reader gives before it needs more.
fn drain(reader: &mut RequestReader, given: &mut Given) -> Result<(), AllocError> {
    for _ in 0..u64::MAX {
        if !count(&reader.next()?, given) {
            return Ok(());
        }
    }
    Ok(())
}

/// Counts a result, and says whether more may be there.
fn count(next: &Next, given: &mut Given) -> bool {
    match next {
        Next::Need => return false,
        Next::Head(_, _) => given.heads = given.heads.saturating_add(1),
        Next::Event(Incoming::HttpRequest { body, .. }) => {
            given.blocks = given.blocks.saturating_add(1);
            given.bytes = given.bytes.saturating_add(body.bytes().len() as u64);
        }
        Next::Event(_) => {}
        Next::Whole => given.whole = given.whole.saturating_add(1),
        Next::Bad(_) => {
            given.refusals = given.refusals.saturating_add(1);
            return false;
        }
    }
    true
}
P
}

# Proves the program, and builds it by LLVM.
build() {
  mkdir -p "$folder/crates/reader/src"
  cp -a crates/asgi_types crates/asgi_request "$folder/crates"
  program_text >"$folder/crates/reader/src/main.rt"
  { grep -E '^asgi_(types|request):' crates.txt; echo 'reader: asgi_types asgi_request'; } >"$folder/crates.txt"
  (cd "$folder/crates/reader" && rt run -- 0 </dev/null >"$folder/log" 2>&1) || { cat "$folder/log"; exit 1; }
}
program=${1:-}
[ -n "$program" ] || { build; program=$folder/crates/reader/out/reader; }

# Requests of one shape, one after another, up to so many bytes.
input() {
  python3 - "$1" "$2" <<'P'
import sys
shape, size = sys.argv[1], int(sys.argv[2])
post = b"POST / HTTP/1.1\r\nHost: a\r\n"
mebi = 1 << 20

def chunked(length):
    chunk = b"%x\r\n" % length + b"a" * length + b"\r\n"
    return post + b"Transfer-Encoding: chunked\r\n\r\n" + chunk * (mebi // length) + b"0\r\n\r\n"

fields = [
    b"Host: www.example.org", b"Connection: keep-alive", b'sec-ch-ua: "Chromium";v="120", "Not?A_Brand";v="8"',
    b"sec-ch-ua-mobile: ?0", b'sec-ch-ua-platform: "Linux"', b"Upgrade-Insecure-Requests: 1",
    b"User-Agent: Mozilla/5.0 (X11; Linux x86_64) AppleWebKit/537.36 (KHTML, like Gecko) Chrome/120.0.0.0 Safari/537.36",
    b"Accept: text/html,application/xhtml+xml,application/xml;q=0.9,image/avif,image/webp,*/*;q=0.8",
    b"Sec-Fetch-Site: none", b"Sec-Fetch-Mode: navigate", b"Sec-Fetch-User: ?1", b"Sec-Fetch-Dest: document",
    b"Accept-Encoding: gzip, deflate, br", b"Accept-Language: en-US,en;q=0.9",
]
request = {
    "gets": b"GET / HTTP/1.1\r\nHost: a\r\n\r\n",
    "browser": b"GET /index.html HTTP/1.1\r\n" + b"\r\n".join(fields) + b"\r\n\r\n",
    "length": post + b"Content-Length: %d\r\n\r\n" % mebi + b"a" * mebi,
    "chunks16": chunked(16),
    "chunks64k": chunked(65536),
}[shape]
sys.stdout.buffer.write((request * (size // len(request) + 1))[:size])
P
}

# Instructions of a run that feeds the input in pieces of so many bytes, in blocks of so many, as callgrind counts them.
count() {
  valgrind --tool=callgrind --callgrind-out-file="$folder/out" "$program" "$1" "$2" 2>&1 >/dev/null <"$folder/input" |
    sed -n 's/.*Collected : //p'
}

# The most bytes allocated at once in such a run, as massif sees them.
held() {
  valgrind --tool=massif --massif-out-file="$folder/heap" "$program" "$1" >/dev/null 2>&1 <"$folder/input"
  sed -n 's/^mem_heap_B=//p' "$folder/heap" | sort -n | tail -n 1
}

echo "| input | bytes | whole | by 4,096 | byte by byte |"
echo "|---|---|---|---|---|"
for shape in ${SHAPES-gets browser length chunks16 chunks64k length:256 chunks64k:256}; do
  block=${shape#*:}
  [ "$block" != "$shape" ] || block=16384
  for size in $sizes; do
    input "${shape%:*}" "$size" >"$folder/input"
    read_alone=$(count 0 "$block")
    row="| $shape | $size |"
    for piece in "$size" 4096 1; do
      row="$row $(python3 -c "print(f'{($(count "$piece" "$block") - $read_alone) / $size:.2f}')") |"
    done
    echo "$row"
  done
done
echo
echo "| input | bytes | whole | by 4,096 | byte by byte |"
echo "|---|---|---|---|---|"
for shape in ${HELD-gets browser length chunks16 chunks64k}; do
  for size in $sizes; do
    input "$shape" "$size" >"$folder/input"
    read_alone=$(held 0)
    row="| $shape | $size |"
    for piece in "$size" 4096 1; do
      row="$row $(($(held "$piece") - read_alone)) |"
    done
    echo "$row"
  done
done

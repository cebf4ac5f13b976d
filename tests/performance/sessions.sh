#!/usr/bin/env bash
# Instructions of one echoed message of a WebSocket session, from standard input to standard output, by
# `asgi_demo once wsecho` and by a peer that runs the toolchain's `tungstenite` alone in a loop, in the same run:
# messages of bytes of 1 byte, 1 KiB and 64 KiB, each one masked frame. The peer begins after the handshake, and reads by
# `tungstenite`'s usual buffer of 128 KiB, and once more by one of 4 KiB, as `asgi_ws` has it read.
# Each number is a long run less a short one, divided by the messages between them. All answers of the short runs are
# compared first: each message comes back, in order, and after them the close. Instructions are counted in the program and
# its libraries, and not in the system. The C library is asked to copy and to fill by the same instructions whatever the
# size, so that a byte copied counts the same; bytes copied are those of memcpy and memmove, as dhat counts them.
# Usage: tests/performance/sessions.sh [PROGRAM PEER]
#        tests/performance/sessions.sh profile [PROGRAM PEER]
# It needs valgrind. With no PROGRAM it proves and builds both; the peer stands below, and gets a folder of its own.
# `profile` prints, for 1 KiB and 64 KiB, where the instructions of both go, and who asks for memory and for copies.
# A function that is inlined counts for the one around it.
set -eu
way=tables
[ "${1:-}" != profile ] || { way=profile; shift; }
program=${1:+$(realpath "$1")}
peer=${2:+$(realpath "$2")}
cd "$(dirname "$0")/../.."
folder=$(mktemp -d)
trap 'rm -rf "$folder"' EXIT
library=glibc.cpu.x86_rep_movsb_threshold=1000000000000:glibc.cpu.x86_rep_stosb_threshold=1000000000000
library=$library:glibc.cpu.x86_non_temporal_threshold=1000000000

peer_text() {
  cat <<'P'
//! Sends each message of standard input back to standard output, by `tungstenite` alone, as a server after its handshake.
//! With a word it reads 4,096 bytes at a time.
#![tactic(auto)]

use std::env;
use std::process::ExitCode;
use std::rt::Env;
use tungstenite::{Duplex, NoMask, Role, WebSocket, WebSocketConfig};

fn main(rt: HostRuntime) -> ExitCode {
    let stream = Duplex {
        reader: rt.stdin(),
        writer: rt.stdout(),
    };
    let config = config_of(&rt);
    let mut socket = WebSocket::from_raw_socket(rt.alloc(), stream, NoMask, Role::Server, config);
    for _ in 0..u64::MAX {
        let Ok(message) = socket.read() else {
            return ExitCode::SUCCESS;
        };
        if !message.is_text() && !message.is_binary() {
            continue;
        }
        if socket.send(message).is_err() {
            return ExitCode::FAILURE;
        }
    }
    ExitCode::SUCCESS
}

fn config_of(rt: &HostRuntime) -> Option<WebSocketConfig> {
    let Ok(words) = env::args(rt) else {
        return None;
    };
    for _word in words.skip(1) {
        return Some(WebSocketConfig::default().read_buffer_size(4_096));
    }
    None
}
P
}

# Proves the peer, and builds it by LLVM.
build_peer() {
  mkdir -p "$folder/peer/crates/session_peer/src"
  echo 'session_peer: tungstenite' >"$folder/peer/crates.txt"
  peer_text >"$folder/peer/crates/session_peer/src/main.rt"
  peer=$folder/peer/crates/session_peer/out/session_peer
  (cd "$folder/peer/crates/session_peer" && rt run </dev/null >"$folder/log" 2>&1) || { cat "$folder/log"; exit 1; }
}

# The short and the long run of a size.
counts() {
  case $1 in
    65536) echo 200 400 ;;
    *) echo 2000 4000 ;;
  esac
}

# Writes both inputs of a size, with a handshake and without, and compares the answers of all programs to the short one.
prepare() {
  local short long
  read -r short long <<<"$(counts "$1")"
  between=$((long - short))
  python3 - "$folder" "$1" "$short" "$long" "$program" ${peer:+"$peer"} <<'P'
import subprocess, sys
folder, size, short, long, program, *peers = sys.argv[1:]
handshake = (
    b"GET / HTTP/1.1\r\nHost: a\r\nUpgrade: websocket\r\nConnection: Upgrade\r\n"
    b"Sec-WebSocket-Key: dGhlIHNhbXBsZSBub25jZQ==\r\nSec-WebSocket-Version: 13\r\n\r\n"
)
# Bytes that differ, so that a piece that is lost or moved shows.
payload, mask = bytes(number * number % 251 for number in range(int(size))), b"\x37\xfa\x21\x3d"

def under_mask(given):
    return bytes(byte ^ mask[at % 4] for at, byte in enumerate(given))

def length(bit):
    n = len(payload)
    return bytes([bit | n]) if n < 126 else bytes([bit | 126]) + n.to_bytes(2, "big") if n < 1 << 16 else bytes([bit | 127]) + n.to_bytes(8, "big")

message, back = b"\x82" + length(0x80) + mask + under_mask(payload), b"\x82" + length(0) + payload
close, closed = b"\x88\x82" + mask + under_mask(b"\x03\xe8"), b"\x88\x02\x03\xe8"
for name, count in (("short", int(short)), ("long", int(long))):
    for kind, head in (("session", handshake), ("frames", b"")):
        with open(f"{folder}/{name}.{kind}", "wb") as it:
            it.write(head)
            for _ in range(count):
                it.write(message)
            it.write(close)
runs = [([program, "once", "wsecho"], "session"), *(([it, *word], "frames") for it in peers for word in ([], ["small"]))]
for words, kind in runs:
    with open(f"{folder}/short.{kind}", "rb") as it:
        gave = subprocess.run(words, stdin=it, stdout=subprocess.PIPE, check=True).stdout
    if kind == "session":
        gave = gave.partition(b"\r\n\r\n")[2]
    assert gave == back * int(short) + closed, f"{words[0]}: messages of {size} bytes come back as others"
P
}

# Instructions of a run, as callgrind counts them: what for, the input, the program and its words.
run_counted() {
  local made=$1 given=$2
  shift 2
  GLIBC_TUNABLES=$library valgrind --tool=callgrind --callgrind-out-file="$made" "$@" 2>&1 >/dev/null <"$given" |
    sed -n 's/.*Collected : //p'
}

instructions() {
  local kind=$1 long short
  shift
  long=$(run_counted "$folder/out" "$folder/long.$kind" "$@")
  short=$(run_counted "$folder/out" "$folder/short.$kind" "$@")
  echo $(((long - short) / between))
}

# Bytes that a run copies.
run_copied() {
  local given=$1
  shift
  valgrind --tool=dhat --mode=copy --dhat-out-file="$folder/out" "$@" 2>&1 >/dev/null <"$given" |
    sed -n 's/.*Total: *\([0-9,]*\) bytes.*/\1/p' | tr -d ,
}

copied() {
  local kind=$1 long short
  shift
  long=$(run_copied "$folder/long.$kind" "$@")
  short=$(run_copied "$folder/short.$kind" "$@")
  echo $(((long - short) / between))
}

# A number as the tables have it.
number() { python3 -c "print(f'{$1:,}')"; }
ratio() { python3 -c "print(f'{$1 / $2:.2f}')"; }

tables() {
  local size ours usual small copies theirs
  echo '| payload | tungstenite | by 4 KiB | asgi_demo | of tungstenite | of it by 4 KiB | bytes copied by tungstenite | by asgi_demo |'
  echo '|---|---|---|---|---|---|---|---|'
  for size in 1 1024 65536; do
    prepare "$size"
    ours=$(instructions session "$program" once wsecho)
    usual=$(instructions frames "$peer")
    small=$(instructions frames "$peer" small)
    theirs=$(copied frames "$peer")
    copies=$(copied session "$program" once wsecho)
    echo "| $(number "$size") bytes | $(number "$usual") | $(number "$small") | $(number "$ours") |" \
      "$(ratio "$ours" "$usual") | $(ratio "$ours" "$small") | $(number "$theirs") | $(number "$copies") |"
  done
}

# Where the instructions of a message go. What is copied and cleared counts for the function that asks for it.
profile() {
  local title=$1 kind=$2 run
  shift 2
  for run in short long; do
    run_counted "$folder/out.$run" "$folder/$run.$kind" "$@" >"$folder/log"
    callgrind_annotate --threshold=100 --tree=caller "$folder/out.$run" >"$folder/callers.$run"
  done
  python3 - "$folder" "$between" "$title" <<'P'
import re, sys
folder, between, title = sys.argv[1], int(sys.argv[2]), sys.argv[3]

def number(text):
    return int(text.replace(",", ""))

def name(text):
    text = re.sub(r"::<.*$", "", re.sub(r" \[[^]]*\]$", "", text.strip()).split(":", 1)[1])
    for plain, asked in (("memcpy", r"_*mem(cpy|p?move)"), ("memset", r"_*memset")):
        if re.match(asked, text):
            return plain
    return text

def run_of(run):
    own, moved, calls, waiting = {}, {}, {}, []
    for line in open(f"{folder}/callers.{run}"):
        it = re.match(r" *([\d,]+) \([ \d.]+%\)  ([<*]) (\s*\S*:.*?)(?: \(([\d,]+)x\))?(?: \[[^]]*\])?$", line)
        if not it:
            waiting = waiting if line.strip() else []
        elif it[2] == "<":
            waiting.append((name(it[3]), number(it[1]), number(it[4])))
        else:
            what = name(it[3])
            if what in ("memcpy", "memset"):
                for by, cost, _ in waiting:
                    own[by] = own.get(by, 0) + cost
                    moved[by] = moved.get(by, 0) + cost
            else:
                own[what] = own.get(what, 0) + number(it[1])
            if what in ("memcpy", "memset", "rattle_alloc", "rattle_realloc", "write", "read"):
                for by, _, times in waiting:
                    calls[what, by] = calls.get((what, by), 0) + times
            waiting = []
    return own, moved, calls

def less(long, short):
    return sorted(((it, (long[it] - short.get(it, 0)) / between) for it in long), key=lambda it: -it[1])

own, moved, calls = (less(long, short) for long, short in zip(run_of("long"), run_of("short")))
whole, moved = sum(count for _, count in own), dict(moved)
print(f"{title}: {whole:,.0f} instructions a message\n")
print("| function, with what it copies and clears | instructions | share | of them copying and clearing |\n|---|---|---|---|")
for function, count in own[:20]:
    print(f"| `{function}` | {count:,.0f} | {100 * count / whole:.1f} % | {moved.get(function, 0):,.0f} |")
print("\n| calls of | by | a message |\n|---|---|---|")
for (what, by), times in sorted(calls, key=lambda it: (it[0][0], -it[1])):
    if times >= 0.05:
        print(f"| {what} | `{by}` | {times:,.2f} |")
print()
P
}

if [ -z "$program" ]; then
  make -s demo >"$folder/log" 2>&1 || { cat "$folder/log"; exit 1; }
  program=$PWD/crates/asgi_demo/out/asgi_demo
fi
[ -n "$peer" ] || build_peer
if [ "$way" = profile ]; then
  for size in 1024 65536; do
    prepare "$size"
    profile "asgi_demo, $size bytes" session "$program" once wsecho
    profile "tungstenite, $size bytes" frames "$peer"
  done
  exit
fi
tables

#!/usr/bin/env bash
# What a handler costs, of a server of one's own over `nomtsage`; all three servers answer the same requests.
#   greeting  instructions of one request of a whole connection from standard input to standard output, by callgrind: of
#             `asgi_demo once hello`, and of a program whose handler replies the same. A long run less a short one, divided
#             by the requests between them. The C library copies by the same instructions whatever the size.
#   JSON      answers a second to POST requests whose body is 1 KiB of JSON, which is parsed, and sent back as what it was
#             parsed to: by `Server` of nomtsage with four workers whose tasks are in threads (`in_threads`), with all
#             connections in four threads (`threads`) and in one (`in_seats`), and by Debian's uvicorn with its fast parts
#             (httptools and uvloop), in one process. wrk with one thread, and 1, 4 and 64 connections, but for workers 1 and 4;
#             by turns, so many rounds of 4 seconds; the median.
# Usage: tests/performance/handlers.sh [ROUNDS [PROGRAM [HANDLERS]]]
# ROUNDS is 3 unless given. What is not given is proved and built: PROGRAM by `make demo`, HANDLERS from the text below, in a
# folder of its own over copies of the crates. It needs valgrind, wrk and uvicorn, and installs Debian's where one is missing.
set -eu
rounds=${1:-3} program=${2:+$(realpath "$2")} handlers=${3:+$(realpath "$3")}
cd "$(dirname "$0")/../.."
folder=$(mktemp -d)
job=
trap '[ -z "$job" ] || kill "$job" 2>/dev/null || true; rm -rf "$folder"' EXIT
library=glibc.cpu.x86_rep_movsb_threshold=1000000000000:glibc.cpu.x86_rep_stosb_threshold=1000000000000
library=$library:glibc.cpu.x86_non_temporal_threshold=1000000000

handlers_text() {
  cat <<'P'
//! A handler that greets, and sends JSON back: over standard input and output, or on a port.
#![tactic(auto)]

use asgi_conn::{CountingPause, Inline, serve_connection};
use asgi_ws::{Pair, Wired};
use futures::task::{Doorbell, Solo};
use nomtsage::{AppFault, Handled, Handler, Limits, Reply, Request, Server, State};
use serde_json::Value;
use std::env;
use std::process::ExitCode;
use std::rt::Env;

#[derive(Clone, Copy, Debug)]
struct Speaks;

impl Handler for Speaks {
    fn handle(&self, request: &Request<'_>) -> Result<Reply, AppFault> {
        let alloc = request.alloc();
        match request.method() {
            "GET" => Reply::text(alloc, "hello\n"),
            _ => match str::from_utf8(request.body()) {
                Ok(text) => match Value::from_str(alloc, text) {
                    Ok(value) => Reply::json(alloc, &value),
                    Err(_) => Reply::status(alloc, 400),
                },
                Err(_) => Reply::status(alloc, 400),
            },
        }
    }
}

/// Where tasks run.
#[derive(Clone, Copy)]
enum How {
    Workers,
    Threads,
    Seats,
}

fn main(rt: HostRuntime) -> ExitCode {
    match asked(&rt) {
        (0, _) => once(rt),
        (port, How::Workers) => Server::on(port).in_threads().workers(4).serve(&rt, &Handled::new(Speaks)),
        (port, How::Threads) => Server::on(port).in_seats(1_000).threads(4).serve(&rt, &Handled::new(Speaks)),
        (port, How::Seats) => Server::on(port).in_seats(1_000).serve(&rt, &Handled::new(Speaks)),
    }
}

/// The port, 0 for none, and where tasks run.
fn asked<H: Env + AllocGlobal>(rt: &H) -> (u16, How) {
    let Ok(mut words) = env::args(rt) else {
        return (0, How::Workers);
    };
    let _name = words.next();
    let port = match words.next() {
        Some(word) => word.as_str().parse::<u16>().unwrap_or(0),
        None => 0,
    };
    let how = match words.next() {
        Some(word) => if word.as_str() == "threads" { How::Threads } else { How::Seats },
        None => How::Workers,
    };
    (port, how)
}

fn once(rt: HostRuntime) -> ExitCode {
    let Ok(solo) = Solo::new(&rt, Doorbell::spinning()) else {
        return ExitCode::from(5);
    };
    let pair = Pair {
        reader: rt.stdin(),
        writer: rt.stdout(),
    };
    let mut line = Wired::new(rt.alloc(), pair);
    let mut runner = Inline::new(solo.begin());
    let mut pause = CountingPause::new();
    let limits = Limits::usual();
    let state = State::new(rt.alloc());
    let app = Handled::new(Speaks);
    let _report = serve_connection(&rt, &limits, &None, &None, &state, &app, &mut line, &mut runner, &mut pause);
    runner.end();
    ExitCode::from(0)
}
P
}

build_handlers() {
  mkdir -p "$folder/own"
  cp -r crates crates.txt HANDLES "$folder/own/"
  git init -q "$folder/own"
  mkdir -p "$folder/own/crates/handlers/src"
  echo 'handlers: asgi_conn asgi_ws nomtsage futures serde_json' >>"$folder/own/crates.txt"
  handlers_text >"$folder/own/crates/handlers/src/main.rt"
  (cd "$folder/own/crates/handlers" && rt run </dev/null >"$folder/log" 2>&1) || { tail -40 "$folder/log"; exit 1; }
  handlers=$folder/own/crates/handlers/out/handlers
}

counted() {
  GLIBC_TUNABLES=$library valgrind --tool=callgrind --callgrind-out-file=/dev/null "$@" 2>&1 >/dev/null <"$folder/in" | sed -n 's/.*Collected : //p'
}

# Instructions of a request of a program, and one request's text.
instructions() {
  local text=$1 few many count
  shift
  for count in 200 2200; do
    python3 -c 'import sys; sys.stdout.write(sys.argv[1].encode().decode("unicode_escape") * int(sys.argv[2]))' "$text" "$count" >"$folder/in"
    few=${many:-}
    many=$(counted "$@")
  done
  echo $(((many - few) / 2000))
}

greeting() {
  local plain=$'GET / HTTP/1.1\\r\\nHost: a\\r\\n' curl ours theirs name text
  curl="${plain}User-Agent: curl/7.88.1\\r\\nAccept: */*\\r\\n\\r\\n"
  echo '| instructions of a request | asgi_demo | a handler | of asgi_demo |'
  echo '|---|---|---|---|'
  for name in 27 82; do
    text=$curl
    [ "$name" = 82 ] || text="$plain\\r\\n"
    theirs=$(instructions "$text" "$program" once hello)
    ours=$(instructions "$text" "$handlers")
    python3 -c "print(f'| a greeting, {$name} bytes | {$theirs:,} | {$ours:,} | {$ours / $theirs:.2f} |')"
  done
  echo
}

install_missing() {
  local missing=()
  for name in wrk valgrind; do command -v "$name" >/dev/null || missing+=("$name"); done
  /usr/bin/python3 -c 'import uvicorn, uvloop, httptools' 2>/dev/null || missing+=(uvicorn python3-uvicorn python3-uvloop python3-httptools)
  [ ${#missing[@]} -eq 0 ] || { apt-get update -qq && DEBIAN_FRONTEND=noninteractive apt-get install -y -qq --no-install-recommends "${missing[@]}"; } >"$folder/log" 2>&1
}

application_text() {
  cat <<'P'
import json

async def app(scope, receive, send):
    body, more = b"", True
    while more:
        event = await receive()
        body += event.get("body", b"")
        more = event.get("more_body", False)
    text = json.dumps(json.loads(body), separators=(",", ":")).encode()
    headers = [(b"content-type", b"application/json"), (b"content-length", b"%d" % len(text))]
    await send({"type": "http.response.start", "status": 200, "headers": headers})
    await send({"type": "http.response.body", "body": text})
P
}

listens() { grep -q "0100007F:$(printf %04X "$1") 00000000:0000 0A" /proc/net/tcp; }

# Starts a server, and shows how many answers a second it gives at so many connections, each number a word.
rates() {
  local port=$((20000 + RANDOM % 10000)) at counts=$1
  shift
  "${@/#PORT/$port}" >/dev/null 2>"$folder/errors" &
  job=$!
  for _ in {1..1000}; do ! listens "$port" || break; sleep 0.01; done
  for at in $counts; do
    wrk -t1 "-c$at" -d4s -s "$folder/post.lua" "http://127.0.0.1:$port/" >"$folder/load"
    ! grep -E 'Socket errors|Non-2xx| 0 requests in' "$folder/load" >&2 || exit 1
    sed -n 's|^Requests/sec: *||p' "$folder/load"
  done
  kill "$job" 2>/dev/null || true
  wait "$job" 2>/dev/null || true
  job=
}

json() {
  local round
  python3 - "$folder" <<'P'
import json, sys
items = [{"item": at, "name": f"thing {at:02}", "price": 100 + at, "left": at % 2 == 0} for at in range(17)]
text = json.dumps({"items": items}, separators=(",", ":"))
text = text[:-1] + ',"more":"' + "x" * (1024 - len(text) - 10) + '"}'
assert len(text) == 1024 and json.loads(text)
open(sys.argv[1] + "/post.lua", "w").write("wrk.method = 'POST'\nwrk.headers['Content-Type'] = 'application/json'\nwrk.body = '%s'\n" % text)
P
  application_text >"$folder/speaks.py"
  for ((round = 0; round < rounds; round++)); do
    rates '1 4' "$handlers" PORT | tr '\n' ' ' >>"$folder/workers"
    rates '1 4 64' "$handlers" PORT threads | tr '\n' ' ' >>"$folder/threads"
    rates '1 4 64' "$handlers" PORT seats | tr '\n' ' ' >>"$folder/seats"
    rates '1 4 64' /usr/bin/python3 -m uvicorn --workers 1 --no-access-log --http httptools --loop uvloop --port PORT --app-dir "$folder" speaks:app | tr '\n' ' ' >>"$folder/uvicorn"
  done
  python3 - "$folder" <<'P'
import statistics, sys

def median(name, at, many):
    """Of so many figures a round, the one at this place."""
    figures = [float(it) for it in open(f"{sys.argv[1]}/{name}").read().split()][at::many]
    return statistics.median(figures)

print("| answers a second to 1 KiB of JSON, median | four workers | four threads | one thread | uvicorn, httptools, uvloop | of uvicorn's: workers, threads, one |")
print("|---|---|---|---|---|---|")
for at, count in enumerate((1, 4, 64)):
    ours = [median("workers", at, 2) if at < 2 else None, median("threads", at, 3), median("seats", at, 3)]
    theirs = median("uvicorn", at, 3)
    rates = [f"{it:,.0f}" if it else "" for it in (*ours, theirs)]
    ratios = ", ".join(f"{it / theirs:.1f}" if it else "-" for it in ours)
    print(f"| {count} connection{'s' * (count > 1)} | {' | '.join(rates)} | {ratios} |")
P
}

install_missing
if [ -z "$program" ]; then
  make -s demo >"$folder/log" 2>&1 || { tail -40 "$folder/log"; exit 1; }
  program=$PWD/crates/asgi_demo/out/asgi_demo
fi
[ -n "$handlers" ] || build_handlers
greeting
json
echo
echo "load: $(cut -d' ' -f1-3 /proc/loadavg), $(nproc) processors"

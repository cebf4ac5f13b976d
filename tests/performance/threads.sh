#!/usr/bin/env bash
# Round trips over one real connection, of programs beside each other in one run: a greeting on a kept connection, an echo of
# 64 KiB and a WebSocket echo of 1 KiB. Of each the best of three runs: round trips a second, how long one took (the 50th and the
# 99th part of a hundred, and the longest, in microseconds), and the context switches and the processor time of the server a
# round trip. Then the server's system calls a round trip, in a run under strace, and the share of a processor that an idle
# connection takes.
# Usage: tests/performance/threads.sh PROGRAM [PEER]
#        tests/performance/threads.sh build FOLDER
# PROGRAM is `asgi_demo`, built, whose tasks have a thread of their own. PEER has each task in the connection's thread; with none
# it is proved and built: it stands below, and gets a folder of its own over copies of the crates. It needs gcc and strace, and a
# machine that does nothing else. `build` only proves and builds PEER, as crates/one_thread/out/one_thread of FOLDER.
set -eu
if [ "$1" = build ]; then
  mkdir -p "$2"
  folder=$(realpath "$2") program='' peer=''
else
  program=$(realpath "$1") peer=${2:+$(realpath "$2")}
  folder=$(mktemp -d)
  trap 'rm -rf "$folder"' EXIT
fi
cd "$(dirname "$0")/../.."
[ -z "$program" ] || gcc -O2 -o "$folder/trips" tests/performance/trips.c

peer_text() {
  cat <<'P'
//! Serves the connections of a port in one thread: `serve PORT COUNT APP`, where APP is hello, echo or wsecho.
#![tactic(auto)]

use asgi_apps::{Application, Echo, Hello, WsEcho};
use asgi_conn::Inline;
use asgi_server::{Accepts, Sockets, Waiting, serve_next};
use asgi_types::{Limits, State};
use futures::task::{Doorbell, Solo};
use std::env;
use std::net::Net;
use std::process::ExitCode;
use std::random::RandomSource;
use std::rt::Env;
use std::sync::Wait;
use std::time::Clock;

/// Which application is served.
#[derive(Clone, Copy)]
enum App {
    Hello,
    Echo,
    WsEcho,
}

fn main(rt: HostRuntime) -> ExitCode {
    let Some((port, count, app)) = words_of(&rt) else {
        return ExitCode::from(2);
    };
    let is_served = match app {
        App::Hello => serve(&rt, port, count, &Hello),
        App::Echo => serve(&rt, port, count, &Echo),
        App::WsEcho => serve(&rt, port, count, &WsEcho),
    };
    ExitCode::from(if is_served { 0 } else { 5 })
}

fn words_of<H: Env + AllocGlobal>(rt: &H) -> Option<(u16, u64, App)> {
    let mut words = env::args(rt).ok()?.skip(2);
    let port = words.next()?.parse::<u16>().ok()?;
    let count = words.next()?.parse::<u64>().ok()?;
    let app = match words.next()?.as_str() {
        "hello" => App::Hello,
        "echo" => App::Echo,
        "wsecho" => App::WsEcho,
        _ => return None,
    };
    Some((port, count, app))
}

/// Serves so many connections of this port. It says whether all could be.
fn serve<H: AllocGlobal + Net + Clock + Wait + RandomSource, A: Application>(
    rt: &H,
    port: u16,
    count: u64,
    app: &A,
) -> bool {
    let Ok(solo) = Solo::new(rt, Doorbell::spinning()) else {
        return false;
    };
    let limits = Limits::usual();
    let state = State::new(rt.alloc());
    let mut listener = Sockets::new(rt, rt.alloc(), port, count);
    let mut runner = Inline::new(solo.begin());
    let mut pause = Waiting::new(rt);
    for _served in 0..count {
        let next = serve_next(
            rt,
            &limits,
            &state,
            app,
            &mut listener,
            &mut runner,
            &mut pause,
        );
        if next.is_none() {
            break;
        }
    }
    runner.end();
    !listener.failed()
}
P
}

# Proves the peer and what it stands on, and builds it by LLVM: `rt ci` takes from its earlier runs what it proved of the same files.
build() {
  local below
  below=$(PYTHONPATH=tools python3 -B -c 'import progress; print(*progress.below(progress.text_of("crates.txt"), "asgi_server"))')
  mkdir -p "$folder/crates/one_thread/src"
  for crate in $below; do
    mkdir "$folder/crates/$crate"
    cp -a "crates/$crate/src" "crates/$crate/specs" "$folder/crates/$crate"
    [ ! -d "crates/$crate/proofs" ] || cp -a "crates/$crate/proofs" "$folder/crates/$crate"
    grep "^$crate:" crates.txt >>"$folder/crates.txt"
  done
  cp HANDLES "$folder"
  peer_text >"$folder/crates/one_thread/src/main.rt"
  echo 'one_thread status=2: asgi_types asgi_ws asgi_apps asgi_conn asgi_server futures' >>"$folder/crates.txt"
  (cd "$folder" && rt ci >"$folder/log" 2>&1) || { cat "$folder/log"; exit 1; }
}
[ -n "$peer" ] || { build; peer=$folder/crates/one_thread/out/one_thread; }
[ -n "$program" ] || exit 0

# Starts a server for so many connections, and waits until it listens: sets `port` and `pid`.
start() {
  port=$((20000 + RANDOM % 10000))
  "$1" serve "$port" "$3" "$2" > "$folder/reports" &
  pid=$!
  local socket
  socket="0100007F:$(printf %04X "$port") 00000000:0000 0A"
  for _ in {1..500}; do
    ! grep -q "$socket" /proc/net/tcp || return 0
    sleep 0.01
  done
  echo "the server does not listen" >&2
  exit 1
}

# The context switches of the server, and its processor time in clock ticks.
switches() { cat /proc/"$pid"/task/*/status | awk '/ctxt_switches/ { n += $2 } END { print n + 0 }'; }
ticks() { sed 's/.*) //' /proc/"$pid"/stat | awk '{ print $12 + $13 }'; }

for program in "$program" "$peer"; do
  echo "$program"
  for row in hello:hello:20000 echo:echo:5000 wsecho:ws:20000; do
    IFS=: read -r app way count <<< "$row"
    for _ in 1 2 3; do
      start "$program" "$app" 2
      # The second connection keeps the server alive until its counts are read.
      "$folder/trips" "$port" "$way" "$count" > "$folder/trip"
      echo "$(cat "$folder/trip") $(switches) $(ticks)"
      kill "$pid"
      wait "$pid" 2> /dev/null || true
    done | sort -n | tail -1 | awk -v way="$way" -v count="$count" -v hz="$(getconf CLK_TCK)" \
      '{ printf "  %-5s %7d a second; %7.1f us, 99%%: %7.1f, longest %9.1f; %.2f switches, %.1f us of a processor\n", way, $1, $2, $3, $4, $5 / count, $6 / hz * 1e6 / count }'
  done
  # One run under strace, which costs time, so only the calls are counted.
  for row in hello:hello echo:echo wsecho:ws; do
    IFS=: read -r app way <<< "$row"
    start "$program" "$app" 1
    strace -f -c -o "$folder/calls" -p "$pid" 2> /dev/null &
    tracer=$!
    sleep 1
    "$folder/trips" "$port" "$way" 2000 > "$folder/trip"
    wait "$pid" 2> /dev/null || true
    wait "$tracer" 2> /dev/null || true
    awk -v way="$way" '$4 ~ /^[0-9]+$/ && $NF != "total" { all += $4; n[$NF] = $4 }
      END { printf "  %-5s %.1f calls a round trip:", way, all / 2000; for (name in n) if (n[name] >= 200) printf " %s %.2f", name, n[name] / 2000; print "" }' "$folder/calls"
  done
  start "$program" hello 1
  exec 3<> "/dev/tcp/127.0.0.1/$port"
  sleep 1
  before=$(ticks)
  sleep 20
  echo "  an idle connection: $(awk -v n=$(($(ticks) - before)) -v hz="$(getconf CLK_TCK)" 'BEGIN { printf "%.2f", n / hz / 20 * 100 }') % of a processor"
  exec 3<&-
  wait "$pid"
done

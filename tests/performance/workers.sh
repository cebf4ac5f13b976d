#!/usr/bin/env bash
# Requests a second with 1, 2, 4 and 8 workers and as many keep-alive clients, beside one nginx with as many workers, in one run;
# of each the best of three runs of 5 seconds by `wrk`, and the processor time of the server a request in it. Then what a
# connection costs that carries one request, with each number of workers, the time from its start until the server listens, and how
# long so many silent clients hold all workers, where SILENT is 1 (some five minutes).
# Usage: tests/performance/workers.sh PROGRAM
# PROGRAM is `asgi_demo`, built. It needs wrk, ab and nginx (Debian's wrk, apache2-utils and nginx-light), and a machine that does
# nothing else. Before all, what one item costs that goes through `share` of asgi_crew to a worker who does nothing with it, and
# whose report is told: its program stands below, and is proved and built in a folder of its own.
set -eu
program=$(realpath "$1")
cd "$(dirname "$0")/../.."
folder=$(mktemp -d)
pid=
trap 'kill $pid 2>/dev/null || true; rm -rf "$folder"' EXIT
hz=$(getconf CLK_TCK)

listens() { grep -q "0100007F:$(printf %04X "$port") 00000000:0000 0A" /proc/net/tcp; }

await() {
  for _ in {1..5000}; do
    ! listens || return 0
    sleep 0.001
  done
  echo "the server does not listen" >&2
  exit 1
}

# The processor time of a server and its children, in clock ticks.
ticks() {
  local sum=0 at
  for at in "$pid" $(pgrep -P "$pid" || true); do
    sum=$((sum + $(sed 's/.*) //' /proc/"$at"/stat | awk '{ print $12 + $13 }')))
  done
  echo "$sum"
}

start_ours() {
  port=$((10000 + RANDOM % 20000))
  "$program" serve "$port" "$2" hello "$1" >"$folder/reports" &
  pid=$!
  await
}

start_nginx() {
  port=$((10000 + RANDOM % 20000))
  cat >"$folder/nginx.conf" <<N
worker_processes $1;
daemon off;
pid $folder/pid;
error_log /dev/null;
events { worker_connections 1024; }
http {
  access_log off;
  keepalive_requests 1000000000;
  server { listen 127.0.0.1:$port; location / { default_type text/plain; return 200 "hello\n"; } }
}
N
  nginx -c "$folder/nginx.conf" &
  pid=$!
  await
}

stop() {
  kill "$pid" 2>/dev/null || true
  wait "$pid" 2>/dev/null || true
}

# A run of wrk with so many clients: requests a second, and microseconds of the server's processor time a request.
load() {
  local before after
  before=$(ticks)
  wrk -t"$(($1 < 4 ? $1 : 4))" -c"$1" -d5s "http://127.0.0.1:$port/" >"$folder/wrk"
  after=$(ticks)
  awk -v spent="$((after - before))" -v hz="$hz" '/requests in/ { n = $1 } /Requests\/sec/ { printf "%d %.1f\n", $2, spent / hz * 1e6 / n }' "$folder/wrk"
}

sharer_text() {
  cat <<'P'
//! Shares so many numbers out among so many workers, who only count them.
#![tactic(auto)]

mod fakes;

use asgi_crew::{End, share};
use fakes::{Counter, Counting, Heard, Numbers};
use std::env;
use std::process::ExitCode;
use std::rt::Env;

fn main(rt: HostRuntime) -> ExitCode {
    let Some((items, workers)) = words_of(&rt) else {
        return ExitCode::from(2);
    };
    let mut crew = Vec::new(rt.alloc());
    for name in 0..workers {
        if crew.push(Counter { name, served: 0 }).is_err() {
            return ExitCode::from(5);
        }
    }
    if crew.is_empty() || crew.len() > 8 {
        return ExitCode::from(2);
    }
    let how = Counting { highest: u64::MAX };
    let mut giver = Numbers::up_to(items);
    let shared = share(&rt, rt.alloc(), &how, &mut giver, crew, Heard::none());
    ExitCode::from(if shared.end == End::Given { 0 } else { 5 })
}

fn words_of<H: Env + AllocGlobal>(rt: &H) -> Option<(u64, u64)> {
    let mut words = env::args(rt).ok()?.skip(1);
    let items = words.next()?.parse::<u64>().ok()?;
    let workers = words.next()?.parse::<u64>().ok()?;
    Some((items, workers))
}
P
}

build() {
  mkdir -p "$folder/crates/sharer/src"
  for crate in asgi_io asgi_desk asgi_crew; do
    mkdir "$folder/crates/$crate"
    cp -a "crates/$crate/src" "crates/$crate/specs" "$folder/crates/$crate"
    [ ! -d "crates/$crate/proofs" ] || cp -a "crates/$crate/proofs" "$folder/crates/$crate"
  done
  cp HANDLES "$folder"
  sharer_text >"$folder/crates/sharer/src/main.rt"
  # Without the part that the tests alone use.
  sed '/^\/\/\/ The same, but a worker lets/,/^\/\/\/ Gets reports/{/^\/\/\/ Gets reports/!d}; /^use std::thread;$/d' crates/asgi_crew_tests/src/fakes.rt >"$folder/crates/sharer/src/fakes.rt"
  { grep -E '^(asgi_io|asgi_desk|asgi_crew):' crates.txt; echo 'sharer status=2: asgi_io asgi_desk asgi_crew'; } >"$folder/crates.txt"
  (cd "$folder" && rt ci >"$folder/log" 2>&1) || { tail -40 "$folder/log"; exit 1; }
}

build
echo "workers: nanoseconds an item that is shared out, the least of three"
for workers in 1 2 4 8; do
  for _ in 1 2 3; do
    began=$(date +%s%N)
    "$folder/crates/sharer/out/sharer" 200000 "$workers"
    echo $((($(date +%s%N) - began) / 200000))
  done | sort -n | head -1 | sed "s/^/$workers: /"
done

echo "workers: requests a second and microseconds of processor time each, ours and nginx's"
for workers in 1 2 4 8; do
  for kind in ours nginx; do
    for _ in 1 2 3; do
      # wrk opens one connection more, to find the address.
      "start_$kind" "$workers" 1000
      load "$workers"
      stop
    done | sort -n | tail -1 >"$folder/$kind"
  done
  echo "$workers: $(cat "$folder/ours") | $(cat "$folder/nginx")"
done

echo "workers: connections of one request a second, and microseconds of processor time each"
for workers in 1 2 4 8; do
  for _ in 1 2 3; do
    start_ours "$workers" 1000
    before=$(ticks)
    ab -q -n 900 -c 8 "http://127.0.0.1:$port/" >"$folder/ab" 2>/dev/null
    after=$(ticks)
    awk -v spent="$((after - before))" -v hz="$hz" '/Requests per second/ { printf "%d %.0f\n", $4, spent / hz * 1e6 / 900 }' "$folder/ab"
    stop
  done | sort -n | tail -1 | sed "s/^/$workers: /"
done

echo "workers: milliseconds from the start until it listens, the most of ten"
for workers in 1 2 8; do
  for _ in 1 2 3 4 5 6 7 8 9 10; do
    began=$(date +%s%N)
    port=$((10000 + RANDOM % 20000))
    "$program" serve "$port" 1 hello "$workers" >/dev/null &
    pid=$!
    while ! listens; do :; done
    echo $((($(date +%s%N) - began) / 10000))
    stop
  done | sort -n | tail -1 | awk -v workers="$workers" '{ printf "%d: %.1f\n", workers, $1 / 100 }'
done

[ "${SILENT:-0}" = 1 ] || exit 0
echo "seconds that as many silent clients hold all workers"
start_ours 2 3
began=$(date +%s)
exec 3<>"/dev/tcp/127.0.0.1/$port" 4<>"/dev/tcp/127.0.0.1/$port"
curl -s --max-time 600 "http://127.0.0.1:$port/" >/dev/null
echo $(($(date +%s) - began))

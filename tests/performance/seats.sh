#!/usr/bin/env bash
# Many clients in one thread, beside nginx with one worker, hyper on one thread of tokio and uvicorn with its fast parts (httptools,
# uvloop), in the same rounds. PARTS says what is shown, all unless given:
#   rates     requests a second of 1, 16, 256 and 1,000 keep-alive clients by wrk, the best of ROUNDS runs of 4 seconds, with the
#             microseconds of a processor that the server took for a request in it, and what 99 of 100 requests took at the most
#   sessions  echoes a second of WebSocket messages of 1 KiB by 100 and 1,000 clients (sessions.c), the best of ROUNDS, the same
#   hostile   requests a second of 16 clients while 1,000 others do the worst that they can (hostile.py)
#   silent    what 10,000 silent clients cost: memory of the server each, and its processor time in ten seconds
# Usage: tests/performance/seats.sh PROGRAM [ROUNDS [HYPER]]
# PROGRAM is `asgi_many_example`, built. It needs a machine that does nothing else, python3, gcc, and Debian's wrk, nginx-light and
# uvicorn. HYPER is built from Debian's crates unless it is given.
set -eu
program=$(realpath "$1") rounds=${2:-3} hyper=${3:+$(realpath "$3")}
cd "$(dirname "$0")/../.."
folder=$(mktemp -d)
pid=
trap 'kill $pid 2>/dev/null || true; rm -rf "$folder"' EXIT
hz=$(getconf CLK_TCK)
ulimit -n "$(ulimit -Hn)"
gcc -O2 -o "$folder/sessions" tests/performance/sessions.c
. tests/performance/hyper.sh
[ -n "$hyper" ] || build_hyper

await() {
  for _ in {1..5000}; do
    ! grep -q "0100007F:$(printf %04X "$port") 00000000:0000 0A" /proc/net/tcp || return 0
    sleep 0.001
  done
  echo "the server does not listen" >&2
  exit 1
}

# The processor time of a server and its children, in clock ticks.
ticks() {
  local sum=0 at
  for at in "$pid" $(pgrep -P "$pid" || true); do
    sum=$((sum + $(sed 's/.*) //' /proc/"$at"/stat | awk '{ print $12 + $13 }')))
  done
  echo "$sum"
}

# Starts a server for an application, `hello` or `wsecho`, with so many seats if it has seats.
start() {
  port=$((10000 + RANDOM % 20000))
  case $1 in
    ours) "$program" "127.0.0.1:$port" "${3:-20000}" 1000000000 "$2" >/dev/null & ;;
    hyper) "$hyper" "$port" >/dev/null & ;;
    nginx) nginx_text >"$folder/nginx.conf"; nginx -c "$folder/nginx.conf" & ;;
    uvicorn)
      application_text >"$folder/peer.py"
      /usr/bin/python3 -m uvicorn --workers 1 --no-access-log --http httptools --loop uvloop --ws websockets --port "$port" \
        --app-dir "$folder" peer:app >/dev/null 2>&1 & ;;
  esac
  pid=$!
  await
}

nginx_text() {
  cat <<N
worker_processes 1;
daemon off;
pid $folder/pid;
error_log /dev/null;
events { worker_connections 20000; }
http {
  access_log off;
  keepalive_requests 1000000000;
  server { listen 127.0.0.1:$port; location / { default_type text/plain; return 200 "hello\n"; } }
}
N
}

application_text() {
  cat <<'P'
async def app(scope, receive, send):
    if scope["type"] == "websocket":
        await receive()
        await send({"type": "websocket.accept"})
        while (event := await receive())["type"] == "websocket.receive":
            await send({"type": "websocket.send", "bytes": event["bytes"]})
    elif scope["type"] == "http":
        await send({"type": "http.response.start", "status": 200, "headers": [(b"content-type", b"text/plain"), (b"content-length", b"6")]})
        await send({"type": "http.response.body", "body": b"hello\n"})
P
}

stop() {
  kill "$pid" 2>/dev/null || true
  wait "$pid" 2>/dev/null || true
}

# Requests a second, microseconds of the server a request, and what 99 of 100 requests took at the most.
load() {
  local before after
  before=$(ticks)
  wrk --latency -t"$(($1 < 2 ? $1 : 2))" -c"$1" -d4s "http://127.0.0.1:$port/" >"$folder/wrk"
  after=$(ticks)
  awk -v spent="$((after - before))" -v hz="$hz" '/ 99%/ { last = $2 } /requests in/ { n = $1 } /Requests\/sec/ { printf "%d %.1f %s\n", $2, spent / hz * 1e6 / n, last }' "$folder/wrk"
}

# Echoes a second, microseconds of the server an echo, and what 99 of 100 took at the most, in microseconds.
echoes() {
  local before after
  before=$(ticks)
  timeout 60 "$folder/sessions" "$port" "$1" 1024 4 >"$folder/echoes" || echo "0 0 0" >"$folder/echoes"
  after=$(ticks)
  awk -v spent="$((after - before))" -v hz="$hz" '{ printf "%d %.1f %dus\n", $1, spent / hz * 1e6 / ($1 * 4.5 + 1), $3 }' "$folder/echoes"
}

# The best of the rounds of each server that is named, in one line.
best() {
  local what=$1 server line=
  shift
  for server in "$@"; do line="$line, $server $(sort -n "$folder/$server.$what" | tail -1)"; done
  echo "${line:2}"
}

rates() {
  local clients round server
  echo "requests a second, microseconds of the server a request, and the 99th of 100 (the best of $rounds rounds)"
  for clients in 1 16 256 1000; do
    for round in $(seq "$rounds"); do
      for server in ours nginx hyper uvicorn; do
        start "$server" hello
        load "$clients" >>"$folder/$server.$clients"
        stop
      done
    done
    echo "$clients clients: $(best "$clients" ours nginx hyper uvicorn)"
  done
}

sessions() {
  local clients round server
  echo "WebSocket echoes of 1 KiB a second, microseconds of the server an echo, and the 99th of 100 (the best of $rounds rounds)"
  for clients in 100 1000; do
    for round in $(seq "$rounds"); do
      for server in ours uvicorn; do
        start "$server" wsecho
        echoes "$clients" >>"$folder/$server.ws$clients"
        stop
      done
    done
    echo "$clients clients: $(best "ws$clients" ours uvicorn)"
  done
}

hostile() {
  local kind server bad
  echo "requests a second of 16 clients, microseconds of the server a request, and the 99th of 100, beside 1,000 other clients"
  for kind in none slow_heads half_closed not_reading resets silent beyond; do
    for server in ours nginx; do
      start "$server" hello "$([ "$kind" != beyond ] || echo 500)"
      python3 tests/performance/hostile.py "$port" "$kind" &
      bad=$!
      sleep 2
      echo "$kind: $server $(load 16)"
      kill "$bad" 2>/dev/null || true
      wait "$bad" 2>/dev/null || true
      stop
    done
  done
}

silent() {
  local server
  echo "silent clients, after a request each"
  for server in ours nginx; do
    start "$server" hello
    python3 tests/performance/silent.py "$port" "$(pgrep -P "$pid" || echo "$pid")" "$server"
    stop
  done
}

for part in ${PARTS:-rates sessions hostile silent}; do "$part"; done

#!/usr/bin/env bash
# Round trips a second of a keep-alive client over loopback, side by side: one connection, GET requests one after another,
# each sent once the answer to the one before is there, and each answered with the line `hello`, by
#   asgi_demo  `asgi_demo serve PORT COUNT hello`, which serves one connection after another in one thread
#   hyper      a peer over the toolchain's `hyper` and `tokio`, which does the same
#   uvicorn    Debian's uvicorn, of one worker and with no access log, over an application that sends the same events
# The client is `wrk` with one thread and one connection, three times for 5 seconds; the best of the three is compared.
# Before them two requests of curl's are answered over one connection, and their status, type and content are compared.
# No answer has a date or the server's name. That of `hyper` states its length, and those of the others come in chunks.
# The client is a part of each round trip, and no processor is kept for anyone: two processors that wake each other can
# take several times as long as one that both run on. So read the numbers beside the load, of 1, 5 and 15 minutes, and
# the best beside the least.
# Usage: tests/performance/round_trips.sh [PROGRAM [PEER]]
# With no PROGRAM it proves and builds asgi_demo, and with no PEER the peer, which stands below and gets a folder of its
# own. It needs curl, wrk and uvicorn, and installs Debian's where one is missing. All that it starts ends with it.
set -eu
program=${1:+$(realpath "$1")}
peer=${2:+$(realpath "$2")}
cd "$(dirname "$0")/../.."
folder=$(mktemp -d)
job='' client=''
trap 'end "$client"; end "$job"; rm -rf "$folder"' EXIT

# Starts a command in the background, in a group of processes of its own, for at most so many seconds (0: any time).
start() {
  local log=$folder/$1 seconds=$2
  shift 2
  timeout -k 5 "$seconds" "$@" >"$log" 2>&1 </dev/null &
}

# Ends what `start` started, with all of its group.
end() {
  [ -z "$1" ] || { kill "$1" && wait "$1"; } 2>/dev/null || true
}

fail() {
  echo "$1" >&2
  exit 1
}

peer_text() {
  cat <<'P'
//! Serves the connections of a port, one after another, by `hyper`: each request is answered with a greeting.
#![tactic(auto)]

use bytes::Bytes;
use futures::future;
use futures::future::Ready;
use http_body_util::Full;
use hyper::body::Incoming;
use hyper::header::{CONTENT_TYPE, HeaderMapError, HeaderValue};
use hyper::server::conn::http1::Builder;
use hyper::service::Service;
use hyper::{Request, Response};
use std::alloc::{AllocGlobal, Global};
use std::env;
use std::hash::RandomState;
use std::net::{Ipv4Addr, Net, SocketAddr, TcpListener};
use std::process::ExitCode;
use std::random::RandomSource;
use std::rt::Env;
use std::sync::Wait;
use std::time::Clock;
use tokio::net::TcpStream;
use tokio::runtime::LocalRuntime;

fn main(rt: HostRuntime) -> ExitCode {
    match serve(&rt) {
        Ok(()) => ExitCode::SUCCESS,
        Err(_) => ExitCode::FAILURE,
    }
}

/// Serves the port that the first word names. With no word there is nothing to serve.
fn serve<R>(rt: &R) -> anyhow::Result<()>
where
    R: Wait
        + Clock
        + RandomSource
        + AllocGlobal
        + Env
        + Net<Listener = TcpListener, Stream = std::net::TcpStream>,
{
    let Some(word) = env::args(rt)?.nth(1) else {
        return Ok(());
    };
    let address = SocketAddr::from((Ipv4Addr::LOCALHOST, word.parse::<u16>()?));
    let listener = TcpListener::bind(rt, address)?;
    let mut runtime = LocalRuntime::new(rt)?;
    let http = Builder::new(rt.alloc(), RandomState::new(rt)?);
    for _ in 0..u64::MAX {
        let (socket, _client) = listener.accept()?;
        socket.set_nodelay(true)?;
        let socket = TcpStream::from_std(socket, runtime.handle().reactor())?;
        let connection = http.serve_connection(socket, Greeting(rt.alloc()));
        // A connection that fails is over, and the next one is served.
        let _over = runtime.block_on(rt, connection)?;
    }
    Ok(())
}

/// Answers each request with a greeting.
#[derive(Clone, Copy)]
struct Greeting(Global);

impl Service<Request<Incoming>> for Greeting {
    type Response = Response<Full<Bytes>>;

    type Error = HeaderMapError;

    type Future = Ready<Result<Response<Full<Bytes>>, HeaderMapError>>;

    fn call(&self, _request: Request<Incoming>) -> Self::Future {
        let mut response = Response::new(self.0, Full::new(Bytes::from_static(b"hello\n")));
        let plain = HeaderValue::from_static("text/plain");
        match response.headers_mut().insert(CONTENT_TYPE, plain) {
            Ok(_none) => future::ok(response),
            Err(e) => future::err(e),
        }
    }
}
P
}

# Runs a command to its end, and shows what it printed where it fails.
build() {
  start log 0 "$@"
  job=$!
  wait "$job" || { cat "$folder/log"; exit 1; }
  job=''
}

# Proves the peer, and builds it by LLVM.
build_peer() {
  mkdir -p "$folder/peer/crates/hyper_peer/src"
  echo 'hyper_peer: anyhow bytes futures http_body_util hyper tokio' >"$folder/peer/crates.txt"
  echo 'Handles allowed: Threads, Wait, Net.' >"$folder/peer/HANDLES"
  peer_text >"$folder/peer/crates/hyper_peer/src/main.rt"
  peer=$folder/peer/crates/hyper_peer/out/hyper_peer
  build env -C "$folder/peer/crates/hyper_peer" rt run
}

application_text() {
  cat <<'P'
"""Answers each request with a greeting."""


async def app(scope, receive, send):
    if scope["type"] != "http":
        raise ValueError(scope["type"])
    headers = [(b"content-type", b"text/plain")]
    await send({"type": "http.response.start", "status": 200, "headers": headers})
    await send({"type": "http.response.body", "body": b"hello\n"})
P
}

install_missing() {
  local missing=() name
  for name in curl wrk uvicorn; do
    [ -x "/usr/bin/$name" ] || missing+=("$name")
  done
  [ ${#missing[@]} -ne 0 ] || return 0
  {
    apt-get update -qq
    DEBIAN_FRONTEND=noninteractive apt-get install -y -qq --no-install-recommends "${missing[@]}"
  } >&2 || fail "there is no ${missing[*]}"
}

load() { cut -d' ' -f1-3 /proc/loadavg; }

# Shows what is compared, and where.
versions() {
  echo "asgi_demo: ${1:-commit $(git --no-optional-locks describe --always --dirty)}"
  echo "hyper: ${2:-$(rt version)}"
  /usr/bin/python3 - <<'P'
import asyncio, importlib.metadata, platform, uvicorn
from uvicorn.protocols.http.auto import AutoHTTPProtocol

# What uvicorn takes where it is told nothing.
uvicorn.Config("").setup_event_loop()
parser = "httptools" if "httptools" in AutoHTTPProtocol.__module__ else "h11"
loop = type(asyncio.new_event_loop()).__module__.split(".")[0]
packages = [parser] + [loop] * (loop != "asyncio")
with_versions = {name: f"{name} {importlib.metadata.version(name)}" for name in packages}
print(f"uvicorn: {uvicorn.__version__}, {with_versions[parser]}, {with_versions.get(loop, loop)}, Python {platform.python_version()}")
P
  wrk -v | sed -n '1s/^wrk \([^ ]*\).*/wrk: \1/p'
  curl --version | sed -n '1s/^curl \([^ ]*\).*/curl: \1/p'
  echo "system: $(uname -sr), $(nproc) processors, load $(load)"
}

free_port() {
  python3 -c 'import socket; print(socket.create_server(("127.0.0.1", 0)).getsockname()[1])'
}

# Waits until a socket listens on the port, and makes no connection to find out.
wait_until_it_listens() {
  local socket _
  socket="0100007F:$(printf %04X "$port") 00000000:0000 0A"
  for _ in {1..1500}; do
    ! grep -q "$socket" /proc/net/tcp || return 0
    kill -0 "$job" 2>/dev/null || break
    sleep 0.02
  done
  cat "$folder/log" >&2
  fail "$1 does not listen"
}

# Two requests, over one connection.
compare_answers() {
  local wanted gave
  wanted=$(printf 'hello\n200 text/plain, connections: %s\n' 1 0)
  gave=$(curl -sS -m 10 -w '%{http_code} %{content_type}, connections: %{num_connects}\n' "$url" "$url") || true
  [ "$gave" = "$wanted" ] || fail "$1 does not answer as it is to: $gave"
}

# Round trips a second of one run of the client.
run_client() {
  start load 60 wrk -t1 -c1 -d5s "$url"
  client=$!
  wait "$client" || { cat "$folder/load" >&2; fail "wrk fails on $1"; }
  client=''
  ! grep -E 'Socket errors|Non-2xx| 0 requests in' "$folder/load" >&2 || fail "$1 fails under wrk"
  number=$(sed -n 's|^Requests/sec: *||p' "$folder/load")
}

# Takes the best and the least of three runs on a server: its name, and its command, with PORT for a free port.
measure() {
  local name=$1 _
  shift
  port=$(free_port) url=http://127.0.0.1:$port/ numbers=''
  start log 120 "${@/#PORT/$port}"
  job=$!
  wait_until_it_listens "$name"
  compare_answers "$name"
  for _ in 1 2 3; do
    run_client "$name"
    numbers+=$number,
  done
  end "$job"
  job=''
  best=$(python3 -c "print(max($numbers))")
  least=$(python3 -c "print(min($numbers))")
}

row() { python3 -c "print(f'| $1 | {$best:,.0f} | {$least:,.0f} | {$ours / $best:.2f} |')"; }

install_missing
given=("$program" "$peer")
if [ -z "$program" ]; then
  build make -s demo
  program=$PWD/crates/asgi_demo/out/asgi_demo
fi
[ -n "$peer" ] || build_peer
application_text >"$folder/greeting.py"
versions "${given[@]}"
echo
echo '| server | round trips a second, best of three | least of three | best of asgi_demo, of its best |'
echo '|---|---|---|---|'
# curl makes one connection, and each run of wrk two, the first of which carries nothing.
measure asgi_demo "$program" serve PORT 1000 hello
ours=$best
row asgi_demo
measure hyper "$peer" PORT
row hyper
measure uvicorn /usr/bin/uvicorn --workers 1 --no-access-log --no-server-header --no-date-header --port PORT \
  --app-dir "$folder" greeting:app
row uvicorn
echo
echo "load after the runs: $(load)"

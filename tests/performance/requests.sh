#!/usr/bin/env bash
# Instructions, and nanoseconds of processor time, of one request without a body, beside two of the toolchain's crates
# in the same run:
#   spans   `httparse` alone, which gives offsets
#   server  `http_server`: a connection reads the request, a service answers it with a greeting, the text is handed out
#   reader  `RequestReader`: the request is fed, and asked for from two places: its head, its one event, its end, and
#           that no more is there
#   whole   the same, and then the events of the same greeting are made, judged and turned into their text
# Each is a run of 2,100 requests less one of 100, on one object, divided by 2,000 (for time 100,000 in place of 2,000).
# Usage: tests/performance/requests.sh [PROGRAM]. It needs valgrind. With no PROGRAM it proves and builds one, which
# stands below, in a folder of its own over copies of the crates.
set -eu
[ $# -eq 0 ] || set -- "$(realpath "$1")"
cd "$(dirname "$0")/../.."
folder=$(mktemp -d)
trap 'rm -rf "$folder"' EXIT

program_text() {
  cat <<'P'
//! Serves the request on standard input so many times over, in one of four ways.
#![tactic(auto)]

use asgi_protocol::{Judge, Verdict};
use asgi_request::{Next, RequestReader};
use asgi_response::ResponseText;
use asgi_types::{Facts, HeaderError, Headers, Kind, Limits, Octets, Outgoing};
use bytes::{BufMut, Bytes};
use http::{HeaderValue, Request, header};
use http_server::{Config, Connection, Response, Service};
use httparse::Status;
use httparse::spans::{EMPTY_HEADER_SPAN, parse_request};
use std::alloc::{AllocError, Global};
use std::hash::RandomState;
use std::io::{ErrorKind, Read};
use std::process::ExitCode;
use std::rt::Env;
use std::{env, io};

fn main(rt: HostRuntime) -> ExitCode {
    match run(&rt) {
        Ok(true) => ExitCode::SUCCESS,
        _ => ExitCode::FAILURE,
    }
}

fn run(rt: &HostRuntime) -> io::Result<bool> {
    let mut text = Vec::new(rt.alloc());
    rt.stdin().read_to_end(&mut text)?;
    let times = times(rt)?;
    for way in env::args(rt)?.skip(1) {
        return match way.as_str() {
            "spans" => Ok(spans(&text, times)),
            "server" => server(rt, &text, times),
            "reader" => Ok(reader(rt.alloc(), &text, times)?),
            "whole" => whole(rt.alloc(), &text, times),
            _ => Ok(false),
        };
    }
    Ok(false)
}

/// How often, by the second word.
fn times<H: Env + AllocGlobal>(rt: &H) -> io::Result<u64> {
    for word in env::args(rt)?.skip(2) {
        return Ok(word.parse().unwrap_or(0));
    }
    Ok(0)
}

fn spans(text: &[u8], times: u64) -> bool {
    let mut fields = [EMPTY_HEADER_SPAN; 64];
    for _ in 0..times {
        match parse_request(text, &mut fields) {
            Ok(Status::Complete(request)) if request.len == text.len() => {}
            _ => return false,
        }
    }
    true
}

/// Answers each request with a greeting.
#[derive(Drop)]
struct Greeting;

impl Service for Greeting {
    ghost answers = { λ old request response new. Unit {0} };

    fn call(&mut self, _: &Request<Bytes>, response: &mut Response) -> Result<(), AllocError> {
        let plain = HeaderValue::from_static("text/plain");
        response.headers.push((header::CONTENT_TYPE, plain))?;
        for byte in b"hello\n" {
            response.body.put_u8(*byte)?;
        }
        Ok(())
    }
}

fn server(rt: &HostRuntime, text: &[u8], times: u64) -> io::Result<bool> {
    let mut connection = Connection::new(rt.alloc(), RandomState::new(rt)?, Config::default());
    let mut service = Greeting;
    let mut given = 0u64;
    for _ in 0..times {
        let mut rest = text;
        for _ in 0..text.len() {
            if rest.is_empty() {
                break;
            }
            connection.read_from(&mut rest)?;
        }
        connection.advance(&mut service);
        for _ in 0..text.len() {
            let count = connection.output().len();
            if count == 0 {
                break;
            }
            given = given.wrapping_add(count as u64);
            connection.sent(count);
        }
    }
    Ok(given > times)
}

/// The facts of the one request that was fed, where its head and its end are there and no more is.
fn one(requests: &mut RequestReader, text: &[u8]) -> Result<Option<Facts>, AllocError> {
    requests.feed(text)?;
    let Next::Head(_, facts) = requests.next()? else {
        return Ok(None);
    };
    if is_whole(requests)? {
        return Ok(Some(facts));
    }
    Ok(None)
}

fn is_whole(requests: &mut RequestReader) -> Result<bool, AllocError> {
    for _ in 0..3u8 {
        match requests.next()? {
            Next::Event(_) | Next::Whole => {}
            Next::Need => return Ok(true),
            _ => return Ok(false),
        }
    }
    Ok(false)
}

fn reader(alloc: Global, text: &[u8], times: u64) -> Result<bool, AllocError> {
    let mut requests = RequestReader::new(alloc, Limits::usual());
    for _ in 0..times {
        if one(&mut requests, text)?.is_none() {
            return Ok(false);
        }
    }
    Ok(true)
}

fn whole(alloc: Global, text: &[u8], times: u64) -> io::Result<bool> {
    let mut requests = RequestReader::new(alloc, Limits::usual());
    let mut out = Vec::new(alloc);
    for _ in 0..times {
        out.clear();
        let Some(facts) = one(&mut requests, text)? else {
            return Ok(false);
        };
        match answer(alloc, &facts, &mut out) {
            Ok(true) => {}
            _ => return Err(ErrorKind::OutOfMemory.into()),
        }
    }
    Ok(out.len() > 0)
}

fn answer(alloc: Global, facts: &Facts, out: &mut Vec<u8>) -> Result<bool, HeaderError> {
    let mut judge = Judge::new(Kind::Http);
    let mut text = ResponseText::new(alloc, facts);
    text.begin(out)?;
    if !says_start(alloc, facts, &mut judge, &mut text, out)? {
        return Ok(false);
    }
    says_body(alloc, facts, &mut judge, &mut text, out)
}

fn says_start(
    alloc: Global,
    facts: &Facts,
    judge: &mut Judge,
    text: &mut ResponseText,
    out: &mut Vec<u8>,
) -> Result<bool, HeaderError> {
    let event = start(alloc)?;
    says(facts, judge, text, &event, out)
}

fn says_body(
    alloc: Global,
    facts: &Facts,
    judge: &mut Judge,
    text: &mut ResponseText,
    out: &mut Vec<u8>,
) -> Result<bool, HeaderError> {
    let event = Outgoing::ResponseBody {
        body: Octets::new(Vec::from_slice(alloc, b"hello\n")?),
        more_body: false,
    };
    says(facts, judge, text, &event, out)
}

fn says(
    facts: &Facts,
    judge: &mut Judge,
    text: &mut ResponseText,
    event: &Outgoing,
    out: &mut Vec<u8>,
) -> Result<bool, HeaderError> {
    if judge.judge(facts, event) != Verdict::Pass {
        return Ok(false);
    }
    text.take(event, out)?;
    Ok(true)
}

fn start(alloc: Global) -> Result<Outgoing, HeaderError> {
    let mut headers = Headers::new(alloc);
    headers.push(b"content-type", b"text/plain")?;
    Ok(Outgoing::ResponseStart {
        status: 200,
        headers,
        trailers: false,
    })
}
P
}

# Proves the program, and builds it by LLVM.
build() {
  mkdir -p "$folder/crates/request_cost/src"
  for crate in asgi_io asgi_types asgi_protocol asgi_request asgi_response; do
    cp -a "crates/$crate" "$folder/crates"
    grep "^$crate:" crates.txt >>"$folder/crates.txt"
  done
  echo 'request_cost: asgi_types asgi_protocol asgi_request asgi_response bytes http http_server httparse' >>"$folder/crates.txt"
  program_text >"$folder/crates/request_cost/src/main.rt"
  request 27 >"$folder/input"
  (cd "$folder/crates/request_cost" && rt run -- whole 1 <"$folder/input" >"$folder/log" 2>&1) || { cat "$folder/log"; exit 1; }
}

# A request of so many bytes: the least, one of two fields, that of a browser, and one of 8 KiB in fields of 500 bytes.
request() {
  python3 - "$1" <<'P'
import sys
size = int(sys.argv[1])
host = b"GET / HTTP/1.1\r\nHost: a\r\n"
browser = b"\r\n".join([
    b"GET /index.html HTTP/1.1",
    b"Host: www.example.org", b"Connection: keep-alive", b'sec-ch-ua: "Chromium";v="120", "Not?A_Brand";v="8"',
    b"sec-ch-ua-mobile: ?0", b'sec-ch-ua-platform: "Linux"', b"Upgrade-Insecure-Requests: 1",
    b"User-Agent: Mozilla/5.0 (X11; Linux x86_64) AppleWebKit/537.36 (KHTML, like Gecko) Chrome/120.0.0.0 Safari/537.36",
    b"Accept: text/html,application/xhtml+xml,application/xml;q=0.9,image/avif,image/webp,*/*;q=0.8",
    b"Sec-Fetch-Site: none", b"Sec-Fetch-Mode: navigate", b"Sec-Fetch-User: ?1", b"Sec-Fetch-Dest: document",
    b"Accept-Encoding: gzip, deflate, br", b"Accept-Language: en-US,en;q=0.9", b""])
text = {27: host, 82: host + b"User-Agent: curl/7.88.1\r\nAccept: */*\r\n", 605: browser, 8192: host}[size]
if size == 8192:
    for number in range(15):
        text += b"X-%02d: " % number + b"v" * 500 + b"\r\n"
rest = size - len(text) - 2
if rest >= 5:
    text += b"Z: " + b"z" * (rest - 5) + b"\r\n"
text += b"\r\n"
assert len(text) == size, (len(text), size)
sys.stdout.buffer.write(text)
P
}

# Instructions of a run, as callgrind counts them.
instructions() {
  valgrind --tool=callgrind --callgrind-out-file="$folder/out" "$program" "$1" "$2" 2>&1 >/dev/null <"$folder/input" |
    sed -n 's/.*Collected : //p'
}

# Nanoseconds of processor time of a request: the least of seven runs, less a short one.
nanoseconds() {
  python3 - "$program" "$1" "$folder/input" <<'P'
import os, resource, subprocess, sys
program, way, given = sys.argv[1:]

def seconds(times):
    before = resource.getrusage(resource.RUSAGE_CHILDREN)
    with open(given, "rb") as it:
        subprocess.run([program, way, str(times)], stdin=it, check=True)
    after = resource.getrusage(resource.RUSAGE_CHILDREN)
    return after.ru_utime + after.ru_stime - before.ru_utime - before.ru_stime

print(round((min(seconds(100_100) for _ in range(7)) - min(seconds(100) for _ in range(7))) * 1e9 / 100_000))
P
}

program=${1:-}
[ -n "$program" ] || { build; program=$folder/crates/request_cost/out/request_cost; }
for what in instructions nanoseconds; do
  echo "| $what | 27 bytes | 82 bytes | 605 bytes (browser) | 8,192 bytes |"
  echo "|---|---|---|---|---|"
  for way in spans server reader whole; do
    row="| $way |"
    for size in 27 82 605 8192; do
      request "$size" >"$folder/input"
      if [ "$what" = instructions ]; then
        row="$row $((($(instructions "$way" 2100) - $(instructions "$way" 100)) / 2000)) |"
      else
        row="$row $(nanoseconds "$way") |"
      fi
    done
    echo "$row"
  done
  echo
done

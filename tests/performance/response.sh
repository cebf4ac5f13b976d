#!/usr/bin/env bash
# Instructions per response of `ResponseText`, as callgrind counts them: of a greeting, of 64 KiB in one body, and of
# the same in 16 bodies. The output has its memory from the response before. It needs valgrind.
# It proves and builds a program over a copy of the crates, which takes a few minutes.
set -eu
cd "$(dirname "$0")/../.."
folder=$(mktemp -d)
trap 'rm -rf "$folder"' EXIT

mkdir -p "$folder/crates/response_cost/src"
for crate in asgi_io asgi_types asgi_protocol asgi_response; do
  cp -r "crates/$crate" "$folder/crates"
  grep "^$crate:" crates.txt >>"$folder/crates.txt"
done
echo 'response_cost: asgi_types asgi_response' >>"$folder/crates.txt"

cat >"$folder/crates/response_cost/src/main.rt" <<'P'
//! Makes the text of a response: SIZE bytes a body, so many BODIES, so many TIMES.
#![tactic(auto)]

use asgi_response::ResponseText;
use asgi_types::{Facts, Framing, HeaderError, Headers, HttpVersion, Names, Octets, Outgoing};
use std::alloc::{AllocError, Global};
use std::process::ExitCode;
use std::rt::Env;
use std::{env, io};

fn main(rt: HostRuntime) -> ExitCode {
    let alloc = rt.alloc();
    let Ok(numbers) = numbers(&rt) else {
        return ExitCode::FAILURE;
    };
    let [size, bodies, times] = numbers.as_slice() else {
        return ExitCode::FAILURE;
    };
    let Ok(said) = events(alloc, *size, *bodies) else {
        return ExitCode::FAILURE;
    };
    match texts(alloc, &said, *times) {
        Ok(len) if len > *size => ExitCode::SUCCESS,
        _ => ExitCode::FAILURE,
    }
}

fn numbers<H: Env + AllocGlobal>(rt: &H) -> io::Result<Vec<usize>> {
    let mut numbers = Vec::new(rt.alloc());
    for word in env::args(rt)?.skip(1) {
        numbers.push(word.parse::<usize>().unwrap_or(0))?;
    }
    Ok(numbers)
}

fn events(alloc: Global, size: usize, bodies: usize) -> Result<Vec<Outgoing>, HeaderError> {
    let mut headers = Headers::new(alloc);
    headers.push(b"content-type", b"text/plain")?;
    let mut said = Vec::new(alloc);
    said.push(Outgoing::ResponseStart {
        status: 200,
        headers,
        trailers: false,
    })?;
    for left in (0..bodies).rev() {
        let mut body = Vec::new(alloc);
        body.resize(size, b'x')?;
        said.push(Outgoing::ResponseBody {
            body: Octets::new(body),
            more_body: left > 0,
        })?;
    }
    Ok(said)
}

fn texts(alloc: Global, said: &[Outgoing], times: usize) -> Result<usize, AllocError> {
    let facts = Facts {
        version: HttpVersion::V11,
        head_only: false,
        close: false,
        expect: false,
        trailers_ok: false,
        framing: Framing::Length(0),
        key: [0; 24],
        subprotocols: Names::new(alloc),
    };
    let mut out = Vec::new(alloc);
    for _ in 0..times {
        out.clear();
        let mut text = ResponseText::new(alloc, &facts);
        text.begin(&mut out)?;
        for event in said.iter() {
            text.take(event, &mut out)?;
        }
    }
    Ok(out.len())
}
P

(cd "$folder/crates/response_cost" && rt run -- 6 1 1) >"$folder/log" 2>&1 || { cat "$folder/log"; exit 1; }

# Instructions of a run.
count() {
  valgrind --tool=callgrind --callgrind-out-file="$folder/out" "$folder/crates/response_cost/out/response_cost" "$@" 2>&1 >/dev/null |
    sed -n 's/.*Collected : //p'
}

echo "| response | instructions |"
echo "|---|---|"
while read -r size bodies name; do
  once=$(count "$size" "$bodies" 1)
  more=$(count "$size" "$bodies" 11)
  echo "| $name | $(((more - once) / 10)) |"
done <<'R'
6 1 a greeting of 6 bytes
65536 1 64 KiB in one body
4096 16 64 KiB in 16 bodies
R

#!/usr/bin/env bash
# Instructions of `once hello` on heads of 1, 8 and 16 KiB, given whole and byte by byte, less those of an empty input.
# Usage: tests/performance/heads.sh PROGRAM. It needs valgrind.
set -eu
program=$(realpath "$1")
folder=$(mktemp -d)
trap 'rm -rf "$folder"' EXIT

# A head of so many bytes, with fields of at most 1,000 bytes.
head() {
  python3 - "$1" <<'P'
import sys
size = int(sys.argv[1])
out = b"GET / HTTP/1.1\r\nHost: a\r\n"
while size - len(out) > 1100:
    out += b"X: " + b"a" * 995 + b"\r\n"
out += b"X: " + b"a" * (size - len(out) - 7) + b"\r\n\r\n"
assert len(out) == size
sys.stdout.buffer.write(out)
P
}

# Instructions of a run on standard input, as callgrind counts them.
count() {
  valgrind --tool=callgrind --callgrind-out-file="$folder/out" "$program" once hello 2>&1 >/dev/null |
    sed -n 's/.*Collected : //p'
}

# Gives a file byte by byte: the next once the one before was read.
slowly() {
  python3 - "$1" <<'P'
import array, fcntl, os, sys, termios
waiting = array.array("i", [1])
for byte in open(sys.argv[1], "rb").read():
    os.write(1, bytes([byte]))
    waiting[0] = 1
    while waiting[0]:
        fcntl.ioctl(1, termios.FIONREAD, waiting)
P
}

empty=$(count </dev/null)
echo "| head | whole | byte by byte |"
echo "|---|---|---|"
for size in 1024 8192 16384; do
  head "$size" >"$folder/head"
  whole=$(($(count <"$folder/head") - empty))
  slow=$(($(slowly "$folder/head" | count) - empty))
  echo "| $size bytes | $whole | $slow |"
done

#!/usr/bin/env bash
# What requests cost beside hyper, over real sockets of the loopback address, one client and one connection at a time:
#   seats  `asgi_many_example`: all connections in one thread, as `Server` of nomtsage serves by itself
#   one    a server in one thread over these crates (`Inline`), which serves one connection after another; it stands in threads.sh
#   two    `asgi_demo serve PORT COUNT APP 1`: one worker, whose application has a thread of its own (`Beside`)
#   hyper  Debian's hyper on one thread of tokio; its program stands below
#   floor  a server in C that makes the calls of the system which seats makes, and almost nothing else (floor.c): where it has a row
# Part `times`: processor time of the server (user's and system's) and requests a second, so many rounds, each row by turns; of
# each number the median, and of each ratio the median of the rounds' ratios, with the least and the most. Part `counts`, which
# no load moves: instructions a request (callgrind, so without the system's), its system calls (strace), and memory. Part
# `once`: instructions of `once hello` beside the toolchain's http_server, by connection.sh.
# Usage: tests/performance/side_by_side.sh ROUNDS [PROGRAM [ONE [HYPER [SEATS]]]]
# What is not given is built: PROGRAM by `make demo`, ONE by `threads.sh build`, SEATS by `make check NAME=asgi_many_example`, HYPER
# by cargo over Debian's crates, which are installed where they are missing. It needs gcc, valgrind and strace. PARTS ("times
# counts once") says what is printed.
set -eu
rounds=$1 program=${2:+$(realpath "$2")} one=${3:+$(realpath "$3")} hyper=${4:+$(realpath "$4")} seats=${5:+$(realpath "$5")}
cd "$(dirname "$0")/../.."
folder=$(mktemp -d)
pid=
trap 'stop; rm -rf "$folder"' EXIT
gcc -O2 -o "$folder/trips" tests/performance/trips.c
gcc -O2 -o "$folder/floor" tests/performance/floor.c
# The C library copies and fills by the same instructions whatever the size, so that a byte counts the same.
library=glibc.cpu.x86_rep_movsb_threshold=1000000000000:glibc.cpu.x86_rep_stosb_threshold=1000000000000
library=$library:glibc.cpu.x86_non_temporal_threshold=1000000000
# What a row is called, its application, what trips.c is to do, and how often.
rows=(
  'a greeting|hello|hello|20000'
  'a greeting, 16 at once|hello|hello:16|3000'
  'a greeting, 256 at once|hello|hello:256|200'
  'a greeting, a connection each|hello|connect|900'
  'echo of 1 KiB|echo|echo:1024|10000'
  'echo of 64 KiB|echo|echo:65536|2000'
  'echo of 64 KiB, chunks of 16 KiB|echo|echo:65536:16384|2000'
  'echo of 1 MiB|echo|echo:1048576|200'
  'echo of 1 MiB, chunks of 16 KiB|echo|echo:1048576:16384|200'
  'WebSocket echo of 1 KiB|wsecho|ws:1024|10000'
  'WebSocket echo of 1 MiB|wsecho|ws:1048576|200'
)

. tests/performance/hyper.sh

listens() { grep -q "0100007F:$(printf %04X "$port") 00000000:0000 0A" /proc/net/tcp; }

# Starts a server for an application, behind the words that follow, and waits until it listens.
start() {
  local server=$1 app=$2
  shift 2
  port=$((20000 + RANDOM % 10000))
  case $server in
    seats) "$@" "$seats" "127.0.0.1:$port" 1000 1000 "$app" >/dev/null 2>"$folder/errors" & ;;
    one) "$@" "$one" serve "$port" 1000 "$app" >/dev/null 2>"$folder/errors" & ;;
    two) "$@" "$program" serve "$port" 1000 "$app" 1 >/dev/null 2>"$folder/errors" & ;;
    hyper) "$@" "$hyper" "$port" >/dev/null 2>"$folder/errors" & ;;
    floor) "$@" "$folder/floor" "$port" 0 >/dev/null 2>"$folder/errors" & ;;
  esac
  pid=$!
  for _ in {1..3000}; do
    ! listens || return 0
    sleep 0.01
  done
  echo "$server does not listen" >&2
  exit 1
}

# Ends the server, or the one that a tracer runs.
stop() {
  [ -n "$pid" ] || return 0
  # shellcheck disable=SC2046
  kill $(pgrep -P "$pid" || echo "$pid") 2>/dev/null || true
  wait "$pid" 2>/dev/null || true
  pid=
}

# The processor time that the server has taken, in nanoseconds.
nanoseconds() { cat /proc/"$pid"/task/*/schedstat | awk '{ sum += $1 } END { printf "%d", sum }'; }

trips() { timeout 300 "$folder/trips" "$port" "$1" "$2"; }

# How many requests a round trip has.
requests_in() { case $1 in hello:*) echo "${1#hello:}" ;; *) echo 1 ;; esac; }

# Which servers have a row: hyper has no sessions, and floor neither sessions nor chunks, nor does it close a connection.
servers_of() {
  case $1 in
    ws:*) echo seats one two ;;
    connect | echo:*:*) echo seats hyper one two ;;
    *) echo seats hyper floor one two ;;
  esac
}

times() {
  local round at name app what count server before many
  for ((round = 0; round < rounds; round++)); do
    for at in "${!rows[@]}"; do
      IFS='|' read -r name app what count <<<"${rows[at]}"
      many=$(requests_in "$what")
      for server in $(servers_of "$what"); do
        start "$server" "$app"
        before=$(nanoseconds)
        trips "$what" "$count" >"$folder/trip"
        echo "$round|$name|$server|$((($(nanoseconds) - before) / count / many))|$(cut -d' ' -f1 "$folder/trip")|$many"
        stop
      done
    done
  done >"$folder/times"
  python3 - "$folder/times" <<'P'
import statistics, sys
found, names = {}, []
for line in open(sys.argv[1]):
    at, name, server, spent, rate, many = line.strip().split("|")
    names += [name] * (name not in names)
    found[name, server, int(at)] = int(spent) / 1000, int(rate) * int(many)
rounds = 1 + max(at for _, _, at in found)

def all_of(name, server, which):
    return [found[name, server, at][which] for at in range(rounds) if (name, server, at) in found]

def numbers(name, server):
    return ", ".join(f"{statistics.median(all_of(name, server, it)):,.{1 - it}f}" for it in (0, 1)) if all_of(name, server, 0) else ""

def ratio(name, server, other, which):
    of = [a / b for a, b in zip(all_of(name, server, which), all_of(name, other, which))]
    return f"{statistics.median(of):.2f} ({min(of):.2f} to {max(of):.2f})" if of else ""

print("| microseconds of a processor, requests a second | `seats` | hyper | time, of hyper's | rate, of hyper's | `floor`: time, of hyper's | `one` | time, of hyper's | `two`: time, of `one`'s |")
print("|---|---|---|---|---|---|---|---|---|")
for name in names:
    of_hyper = [ratio(name, "seats", "hyper", which) for which in (0, 1)]
    of_one = [ratio(name, "one", "hyper", 0), ratio(name, "two", "one", 0)]
    of_floor = ratio(name, "floor", "hyper", 0)
    print(f"| {' | '.join([name, numbers(name, 'seats'), numbers(name, 'hyper'), *of_hyper, of_floor, numbers(name, 'one'), *of_one])} |")
P
}

# Finds the instructions of one request: a run with many less one with few.
instructions() {
  local few=20 many=120 count
  for count in "$few" "$many"; do
    start "$1" "$2" env GLIBC_TUNABLES="$library" valgrind --tool=callgrind --callgrind-out-file=/dev/null
    trips "$3" "$count" >/dev/null
    stop
    sed -n 's/.*Collected : //p' "$folder/errors" >"$folder/count.$count"
  done
  count=$((($(cat "$folder/count.$many") - $(cat "$folder/count.$few")) / (many - few) / $(requests_in "$3")))
  line="$line $(echo "$count" | sed ':a; s/\B[0-9]\{3\}\>/,&/; ta') |"
}

# Finds the reads and writes of one request: a run with many less one with few.
calls() {
  local few=20 many=60 count
  for count in "$few" "$many"; do
    start "$1" "$2" strace -f -c -o "$folder/calls"
    trips "$3" "$count" >/dev/null
    stop
    awk '$4 ~ /^[0-9]+$/ { n[$NF] = $4 } END { print n["read"] + n["recvfrom"] + n["recvmsg"] + n["readv"], n["write"] + n["sendto"] + n["sendmsg"] + n["writev"] }' \
      "$folder/calls" >"$folder/calls.$count"
  done
  line="$line $(paste "$folder/calls.$few" "$folder/calls.$many" | awk -v many=$((many - few)) '{ printf "%.1f, %.1f", ($3 - $1) / many, ($4 - $2) / many }') |"
}

memory_of() { awk -v name="$1:" '$1 == name { printf "%.1f", $2 / 1024 }' /proc/"$pid"/status; }

counts() {
  local name app what server line
  printf '| instructions a request | `seats` | `one` | hyper |\n|---|---|---|---|\n'
  while IFS='|' read -r name app what; do
    line="| $name |"
    for server in seats one; do instructions "$server" "$app" "$what"; done
    [ "$app" = wsecho ] || instructions hyper "$app" "$what"
    echo "$line"
  done <<'P'
a greeting|hello|hello
a greeting, 16 at once|hello|hello:16
echo of 1 KiB|echo|echo:1024
echo of 64 KiB|echo|echo:65536
echo of 1 MiB|echo|echo:1048576
WebSocket echo of 1 byte|wsecho|ws:1
WebSocket echo of 1 KiB|wsecho|ws:1024
WebSocket echo of 64 KiB|wsecho|ws:65536
P
  printf '\n| reads and writes of a request | `seats` | `one` | `two` | hyper |\n|---|---|---|---|---|\n'
  while IFS='|' read -r name app what; do
    line="| $name |"
    for server in seats one two hyper; do calls "$server" "$app" "$what"; done
    echo "$line"
  done <<'P'
a greeting|hello|hello
echo of 64 KiB|echo|echo:65536
64 KiB in chunks of 16 bytes|echo|echo:65536:16
echo of 1 MiB|echo|echo:1048576
P
  printf '\n| memory, MB | idle | the most, by echoes of 1 MiB |\n|---|---|---|\n'
  for server in seats one two hyper; do
    start "$server" echo
    line="| $server | $(memory_of VmRSS)"
    trips echo:1048576 20 >/dev/null
    echo "$line | $(memory_of VmHWM) |"
    stop
  done
}

wants() { case " ${PARTS:-times counts once} " in *" $1 "*) ;; *) false ;; esac; }

load() { echo "load $(cut -d' ' -f1-3 /proc/loadavg), $(nproc) processors, $(date -u '+%F %H:%M')"; }

[ -n "$program" ] || { quietly make -s demo; program=$PWD/crates/asgi_demo/out/asgi_demo; }
if wants times || wants counts; then
  [ -n "$one" ] || { quietly tests/performance/threads.sh build "$folder/one"; one=$folder/one/crates/one_thread/out/one_thread; }
  [ -n "$hyper" ] || build_hyper
  [ -n "$seats" ] || { quietly make -s check NAME=asgi_many_example; seats=$PWD/crates/asgi_many_example/out/asgi_many_example; }
fi
load
for part in times counts; do
  ! wants "$part" || { echo; "$part"; }
done
! wants once || { echo; tests/performance/connection.sh hello "$program"; }
echo
load

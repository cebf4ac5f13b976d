"""silent.py PORT PROCESS NAME: what 10,000 clients that come within some twenty seconds, ask once and then say nothing cost the server of
that process: memory each, and processor time in ten seconds. It is called by seats.sh."""

import re, socket, sys, time

port, worker, server = int(sys.argv[1]), sys.argv[2].split()[0], sys.argv[3]
MANY = 10_000


def memory():
    with open(f"/proc/{worker}/status", encoding="ascii") as it:
        return int(re.search(r"VmRSS:\s+(\d+)", it.read())[1])


def ticks():
    with open(f"/proc/{worker}/stat", encoding="ascii") as it:
        return sum(map(int, it.read().rpartition(")")[2].split()[11:13]))


before = memory()
lines = []
for _ in range(MANY):
    line = socket.create_connection(("127.0.0.1", port))
    line.sendall(b"GET / HTTP/1.1\r\nHost: a\r\n\r\n")
    line.recv(4096)
    lines.append(line)
    time.sleep(0.0018)
after, spent = memory(), ticks()
time.sleep(10)
print(f"{server}: {MANY} clients, {(after - before) * 1024 / MANY:.0f} bytes each, {ticks() - spent} hundredths of a second in ten")

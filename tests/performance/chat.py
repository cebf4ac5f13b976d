"""Sessions of the chat (`crates/chat_example`, built) that wait in one thread for what another one says.

Usage: chat.py [MEMBERS..]. For each number of members: how much of a processor the server takes in five seconds in which nobody
says anything, how long it takes until the last member has what the first one says, and the server's memory.
"""

import os
import resource
import statistics
import sys
import time

sys.path.insert(0, os.path.dirname(os.path.dirname(os.path.abspath(__file__))))
from examples import Program, Session


def seconds_of(pid):
    """The processor time that a process has used."""
    with open(f"/proc/{pid}/stat", encoding="ascii") as it:
        return sum(map(int, it.read().rpartition(")")[2].split()[11:13])) / os.sysconf("SC_CLK_TCK")


def measure(members):
    with Program("chat_example", members) as served:
        sessions = [Session(served.port) for _ in range(members)]
        used, began = seconds_of(served.ran.pid), time.monotonic()
        time.sleep(5)
        idle = (seconds_of(served.ran.pid) - used) / (time.monotonic() - began)
        took = []
        for text in "abcde":
            began = time.monotonic()
            sessions[0].send(text)
            sessions[-1].text()
            took.append(time.monotonic() - began)
            for session in sessions[:-1]:
                session.text()
        with open(f"/proc/{served.ran.pid}/status", encoding="ascii") as it:
            memory = next(int(line.split()[1]) for line in it if line.startswith("VmRSS"))
        print(f"| {members} | {100 * idle:.1f} % | {1000 * statistics.median(took):.0f} ms | {memory / 1000:.1f} MB |")


if __name__ == "__main__":
    resource.setrlimit(resource.RLIMIT_NOFILE, (4096, 4096))
    print("| sessions | idle, of a processor | a message to the last one, median of five | memory |\n|---|---|---|---|")
    for members in [int(it) for it in sys.argv[1:]] or [10, 100, 300, 700]:
        measure(members)
    print(f"load: {' '.join(f'{it:.1f}' for it in os.getloadavg())}")

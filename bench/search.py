#!/usr/bin/env python3
"""What `jeprun search` finds in each store with each workload, and how fast. Run it at the top of the repository, after
`rt run` in crates/jeprun:

    bench/search.py [--runs N] [--jobs N] [--program PROGRAM] [--speed]

Each row of the table is a store, a workload, whether killed nodes lose their replica, and how many nodes there are: two
clients, 100 calls, half of them reads where there are reads, a tick after every 5 calls of a client, 8 random faults of all
kinds, N candidates (100,000). For each it gives how many candidates fail, the number of the least, and how many entries
`jeprun shrink` leaves of it.

A search ends at the first that fails. So to count them it is begun again behind each. That is done in parts of 1,000
candidates, as many at once as there are jobs (4), each on one thread.

With `--speed` it gives how many candidates are tried in a second, on one thread and on four, and how many times as many four
are; then nothing else should run on the machine. What is timed are the longest stretches of candidates of which none fails,
as many as it takes for 4,000 candidates. Where these are shorter than 200 there is no row.
"""

import argparse
import multiprocessing
import os
import re
import subprocess
import tempfile
import time

GENERATORS = {
    "register": "[:clients [:mix [:forever :read] [:forever [:write 1]] [:forever [:write 2]] [:forever [:cas 1 2]]]]",
    "counter": "[:clients [:mix [:forever :read] [:forever [:add 1]]]]",
    "set": "[:clients [:phases [:limit 90 [:rising 0]] [:limit 10 [:forever :read]]]]",
    "unique-ids": "[:clients [:forever :generate]]",
}
PART = 1_000
STRETCH, TIMED = 200, 4_000


def settings(store, workload, volatile, nodes):
    names = " ".join('"n%d"' % n for n in range(1, nodes + 1))
    initial = "initial = 0\n" if workload == "register" else ""
    return f"""
start = '{{:nodes [{names}]}}'
store = "{store}"
workload = "{workload}"
volatile = {"true" if volatile else "false"}
{initial}clients = 2
ops = 100
tick_every = 5
generator = '{GENERATORS[workload]}'
"""


def search(program, source, first, runs, threads):
    """The number of the least candidate that fails, or None. There are many searches, so each costs as little as it can:
    what it writes fits into a pipe."""
    words = ["jeprun", "search", "--from", str(first), "--runs", str(runs), "--threads", str(threads)]
    reader, writer = os.pipe()
    actions = [(os.POSIX_SPAWN_OPEN, 0, source, os.O_RDONLY, 0), (os.POSIX_SPAWN_DUP2, writer, 1)]
    child = os.posix_spawn(program, words, {}, file_actions=actions)
    os.close(writer)
    status = os.waitstatus_to_exitcode(os.waitpid(child, 0)[1])
    said = os.read(reader, 100).decode()
    os.close(reader)
    if status not in (0, 1, 2):
        raise SystemExit(f"{' '.join(words)}: status {status}")
    found = re.match(r"# candidate (\d+) of", said)
    return int(found[1]) if found else None


def failing_in(part):
    """The numbers of the candidates of a part that fail."""
    program, source, first, end = part
    numbers = []
    while first < end:
        number = search(program, source, first, end - first, 1)
        if number is None:
            break
        numbers.append(number)
        first = number + 1
    return numbers


def stretches(failing, runs):
    """The longest stretches without a failing candidate, each as its first number and its length, as far as they are timed."""
    edges = [-1, *failing, runs]
    found = sorted(((end - begin - 1, begin + 1) for begin, end in zip(edges, edges[1:])), reverse=True)
    timed, candidates = [], 0
    for length, first in found:
        if length < STRETCH or candidates >= TIMED:
            break
        timed.append((first, min(length, TIMED)))
        candidates += timed[-1][1]
    return timed


def speed(program, source, timed, threads):
    """How many candidates of these stretches are tried in a second: the most of three tries."""
    seconds = []
    for _ in range(3):
        begin = time.monotonic()
        for first, length in timed:
            search(program, source, first, length, threads)
        seconds.append(time.monotonic() - begin)
    return sum(length for _, length in timed) / min(seconds)


def left(program, source, least):
    """How many entries of its schedule a failing run needs."""
    with open(source, "rb") as text:
        words = [program, "search", "--from", str(least), "--runs", "1"]
        document = subprocess.run(words, stdin=text, capture_output=True, check=False).stdout
    lines = subprocess.run([program, "shrink"], input=document, capture_output=True, check=False).stdout.decode().splitlines()
    return f"{len(lines) - 1}" if lines and lines[0] == ":minimal" else lines[0] if lines else "-"


def row(pool, program, source, runs, with_speed):
    """The columns of a row behind those that name it, or None where its speed cannot be timed."""
    parts = [(program, source, first, min(first + PART, runs)) for first in range(0, runs, PART)]
    failing = [number for numbers in pool.imap(failing_in, parts) for number in numbers]
    if not with_speed:
        least = failing[0] if failing else None
        return [f"{len(failing):,}", *(["", ""] if least is None else [str(least), left(program, source, least)])]
    timed = stretches(failing, runs)
    if not timed:
        return None
    one, four = (speed(program, source, timed, threads) for threads in (1, 4))
    return [f"{one:,.0f}", f"{four:,.0f}", f"{four / one:.1f}"]


def main():
    parser = argparse.ArgumentParser()
    parser.add_argument("--runs", type=int, default=100_000)
    parser.add_argument("--jobs", type=int, default=4)
    parser.add_argument("--program", default="crates/jeprun/out/jeprun")
    parser.add_argument("--speed", action="store_true")
    options = parser.parse_args()
    columns = ["1 thread", "4 threads", "times"] if options.speed else ["Invalid", "Least", "Entries left"]
    print(f"| Store | Workload | Volatile | Nodes | {' | '.join(columns)} |")
    print("|---" * 7 + "|")
    with tempfile.TemporaryDirectory() as room, multiprocessing.Pool(options.jobs) as pool:
        source = os.path.join(room, "settings.toml")
        for store in ("quorum", "lww", "local"):
            for workload in GENERATORS:
                for volatile in (False, True):
                    for nodes in (3, 5):
                        with open(source, "w") as text:
                            text.write(settings(store, workload, volatile, nodes))
                        found = row(pool, options.program, source, options.runs, options.speed)
                        named = [store, workload, "yes" if volatile else "no", str(nodes)]
                        if found:
                            print(f"| {' | '.join(named + found)} |", flush=True)


if __name__ == "__main__":
    main()

#!/usr/bin/env python3
"""How long `jeprun run` takes for a whole serial run, beside a plain program that makes the same run and writes the same bytes.

    bench/serial.py [--times N] [--program PROGRAM] [WORD ..]

Run it at the top of the repository, after `rt run` in crates/jeprun; it builds the plain program, bench/serial/plain.rs, by
`rustc -O`. Where WORDs are given, only rows are taken that have one of them: a store, a workload or a number of nodes.

The runs are those of bench/runs.py: 10,000 calls by 8 clients on three nodes, for each store and workload but sets, with a cut
that begins and ends; and of a register and a counter on a quorum the same on 64 nodes. A register has the budget 0, since its
judge may take most of the time. First all bytes that both programs write are compared, and their statuses, and the script stops
where they differ. Then both are run in turn, N times (30), with their input from a file and the output to /dev/null; the least
processor time counts, of the whole program with its start.

A row has the milliseconds of both, and how many times as long `jeprun` takes. Compare these ratios only: the rest is the
machine's. `jeprun` reads its settings, keeps a journal beside the history, and builds all that it writes in memory; the plain
program has the settings in its source and on its command line, and writes through 8 KB.
"""

import argparse
import itertools
import os
import subprocess
import sys
import tempfile

import runs

PROGRAM = os.path.join("crates", "jeprun", "out", "jeprun")
PLAIN = os.path.join("bench", "serial", "plain.rs")
STORES = ("quorum", "lww", "local")
WORKLOADS = ("register", "counter", "unique-ids")
CASES = [(*case, 3) for case in itertools.product(STORES, WORKLOADS)]
CASES += [("quorum", "register", 64), ("quorum", "counter", 64)]
CALLS, CLIENTS, SEED = 10_000, 8, 1


def settings(store, workload, nodes):
    """The settings of bench/runs.py, which has so many calls."""
    text = runs.settings(store, workload, nodes, CLIENTS, SEED, 0 if workload == "register" else 100_000)
    if f"\nops = {CALLS}\n" not in text:
        sys.exit(f"bench/runs.py has another number of calls than {CALLS}")
    return text.encode()


def written(words, source):
    """What a program writes, and its status."""
    source.seek(0)
    done = subprocess.run(words, stdin=source, capture_output=True, check=False)
    if done.returncode not in (0, 1, 2):
        sys.exit(f"{' '.join(words)}: status {done.returncode}: {done.stderr.decode().strip()}")
    return done.stdout, done.returncode


def seconds(words, source):
    """The processor time of one run."""
    source.seek(0)
    child = subprocess.Popen(words, stdin=source, stdout=subprocess.DEVNULL)
    _, status, usage = os.wait4(child.pid, 0)
    child.returncode = os.waitstatus_to_exitcode(status)
    if child.returncode not in (0, 1, 2):
        sys.exit(f"{' '.join(words)}: status {child.returncode}")
    return usage.ru_utime + usage.ru_stime


def row(store, workload, nodes, programs, times):
    with tempfile.TemporaryFile() as source:
        source.write(settings(store, workload, nodes))
        source.flush()
        plain, own = (written(words, source) for words in programs)
        if plain != own:
            sys.exit(f"{store}, {workload}, {nodes} nodes: the plain program writes other bytes, or has another status")
        took = [[seconds(words, source) for words in programs] for _ in range(times)]
    plain, own = (1000 * min(it) for it in zip(*took))
    return [store, workload, str(nodes), f"{plain:.1f}", f"{own:.1f}", f"{own / plain:.2f}"]


def main():
    words = argparse.ArgumentParser(description="How long whole serial runs take, beside a plain program.")
    words.add_argument("--times", type=int, default=30, metavar="N", help="runs of each")
    words.add_argument("--program", default=PROGRAM, metavar="PROGRAM", help="the jeprun that is measured")
    words.add_argument("word", nargs="*", metavar="WORD", help="take the rows that have one of these")
    asked = words.parse_args()
    if not os.path.exists(asked.program):
        sys.exit(f"{asked.program} is not there: build it first, by rt run in crates/jeprun")
    print("| Store | Workload | Nodes | plain ms | jeprun ms | times as long |", "|---|---|---|---|---|---|", sep="\n")
    with tempfile.TemporaryDirectory() as room:
        plain = os.path.join(room, "plain")
        subprocess.run(["rustc", "-O", "--edition", "2021", "-o", plain, PLAIN], check=True)
        for case in CASES:
            if not asked.word or any(word in map(str, case) for word in asked.word):
                run = (plain, *map(str, case), str(CALLS), str(CLIENTS), str(SEED))
                print("|", " | ".join(row(*case, (run, (asked.program, "run")), asked.times)), "|", flush=True)


if __name__ == "__main__":
    main()

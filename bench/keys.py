#!/usr/bin/env python3
"""How fast independent keys are judged on 1, 2, 4 and 8 threads.

    bench/keys.py PROGRAM [--calls N] [--clients N] [--times N]

PROGRAM is the program `jeprun`. Hard keys: 16 registers, each asked by clients that are busy all the time, with a read near the
end of a value that was never written, so that the judge has to go through all that can have happened. Easy keys: 10,000
registers of 20 calls each. It prints the least seconds of so many times, and how many times as fast as one thread that is.
Reading and cutting the history, which one thread does, is in it; for hard keys it is little.
"""

import argparse
import os
import random
import subprocess
import tempfile
import time

from register import Case, history_of, records

THREADS = (1, 2, 4, 8)


def history(clients, calls, kind, seed):
    """The process, the type, the function and the text of the value of each operation, over five values."""
    return list(records(history_of(Case(0, clients, "5", calls, kind, seed))))


def hard_keys(clients, calls):
    """The histories of 16 keys, each with a read near the end of a value that was never written."""
    return [history(clients, calls, "never", seed) for seed in range(16)]


def by_key(parts):
    """The operations of all keys, mixed; each key has processes of its own."""
    dice = random.Random(len(parts))
    left = [[key, list(reversed(part))] for key, part in enumerate(parts)]
    while left:
        at = dice.randrange(len(left))
        key, part = left[at]
        yield key, part.pop()
        if not part:
            left[at] = left[-1]
            left.pop()


def write(parts, clients, file):
    for key, (process, kind, f, value) in by_key(parts):
        file.write(f"{{:type :{kind}, :process {key * clients + process}, :f :{f}, :value [{key} {value}]}}\n")


def seconds(program, path, threads, budget, times):
    words = [program, "check", "--workload", "register", "--initial", "0", "--budget", str(budget)]
    words += ["--independent", "--threads", str(threads)]
    least = None
    for _ in range(times):
        with open(path, "rb") as file:
            begin = time.time()
            ran = subprocess.run(words, stdin=file, stdout=subprocess.PIPE, check=False)
            took = time.time() - begin
        least = took if least is None else min(least, took)
    return least, ran.returncode, ran.stdout


def show(name, program, parts, clients, budget, times):
    with tempfile.NamedTemporaryFile("w", suffix=".edn") as file:
        write(parts, clients, file)
        file.flush()
        first = None
        for threads in THREADS:
            took, status, output = seconds(program, file.name, threads, budget, times)
            first = first or (took, output)
            same = "the same bytes" if output == first[1] else "OTHER BYTES"
            print(f"{name}, {threads} threads: {took:.2f} s, {first[0] / took:.2f} times, status {status}, {same}")


def main():
    words = argparse.ArgumentParser(description="How fast independent keys are judged.")
    words.add_argument("program")
    words.add_argument("--calls", type=int, default=2000, help="of a hard key")
    words.add_argument("--clients", type=int, default=16, help="of a hard key")
    words.add_argument("--times", type=int, default=3)
    given = words.parse_args()
    print(f"{os.cpu_count()} processors")
    hard = hard_keys(given.clients, given.calls)
    show("16 hard keys", given.program, hard, given.clients, 10_000_000, given.times)
    easy = [history(2, 20, "valid", seed) for seed in range(10_000)]
    show("10,000 easy keys", given.program, easy, 2, 100_000, given.times)


if __name__ == "__main__":
    main()

#!/usr/bin/env python3
"""How the time of each command grows with its input. Run it at the top of the repository, after `rt run` in crates/jeprun:

    bench/growth.py [--times N] [WORD ..]

Each row is one kind of input at four sizes, an eighth, a quarter, a half and the whole, and the least processor time of N runs (2)
of each. The exponent is that of the power by which the time grows from the smallest to the largest: 1 where twice the input takes
twice the time. Starting the program, a few milliseconds, is part of each time. Where WORDs are given, only rows are taken that
have one of them.

- `env`: 4,096 steps over 32 and 64 nodes, in turn a begin and a withdrawal of a cut of all links, each link named.
- `run`: serial runs of 10,000 calls (1,000 of a set), for each store and workload, with output and verdict; a register with the
  budget 0, since its judge's search has no such bound.
- `check`: histories of 1,000,000 operations of each workload; of a register that of one client, whose order is forced.
- `timeline`: pages that show all records of histories of 100,000, also with a section for each key.
"""

import argparse
import itertools
import math
import os
import subprocess
import sys
import tempfile

import checkers
import runs

PROGRAM = os.path.join("crates", "jeprun", "out", "jeprun")
PARTS = (8, 4, 2, 1)


def steps(nodes, count):
    """An environment and so many steps, in turn a begin of a cut of all links and its withdrawal."""
    names = [f'"n{number}"' for number in range(1, nodes + 1)]
    links = " ".join(f"[{a} {b}]" for a, b in itertools.permutations(names, 2))
    lines = [f"[:begin {at} [:cut [{links}]]]" if at % 2 == 0 else f"[:withdraw {at - 1}]" for at in range(count)]
    return "\n".join([f"{{:nodes [{' '.join(names)}]}}", *lines]).encode()


def settings(store, workload, ops):
    """The settings of bench/runs.py with so many calls."""
    text = runs.settings(store, workload, 3, 8, 1, 0 if workload == "register" else 100_000)
    return "".join(f"ops = {ops}\n" if line.startswith("ops =") else f"{line}\n" for line in text.split("\n")).encode()


def one_client(operations):
    """The history of one client that writes and reads in turn."""
    asked = [(":write", "{0}", "{0}"), (":read", "nil", "{0}")]
    lines = []
    for call in range(operations // 2):
        f, value, answer = asked[call % 2]
        for kind, shown in ((":invoke", value), (":ok", answer)):
            lines.append(checkers.line(len(lines), kind, 0, f, shown.format(call // 2)))
    return "".join(lines).encode()


def keyed(operations):
    """The history of one client that is given ids, a key for each hundred records."""
    lines = []
    for call in range(operations // 2):
        for kind, shown in ((":invoke", "nil"), (":ok", call)):
            lines.append(checkers.line(len(lines), kind, 0, ":generate", f"[{call // 50} {shown}]"))
    return "".join(lines).encode()


def rows():
    """Each row: its name, the words behind the program, the whole size, and how an input of a size is made."""
    for nodes in (32, 64):
        yield f"env: steps over all links of {nodes} nodes", ("env",), 4_096, lambda size, nodes=nodes: steps(nodes, size)
    for store, workload in itertools.product(("quorum", "lww", "local"), runs.GENERATORS):
        whole = 1_000 if workload == "set" else 10_000
        yield f"run: {workload}, {store}", ("run",), whole, lambda size, s=store, w=workload: settings(s, w, size)
    for workload in ("set", "counter", "unique-ids"):
        words = ("check", "--workload", workload)
        yield f"check: {workload}", words, 1_000_000, lambda size, w=workload: checkers.history(w, size, 1)
    yield "check: register, one client", ("check", "--workload", "register"), 1_000_000, one_client
    for workload in ("set", "unique-ids"):
        words = ("timeline", "--workload", workload, "--from", "0", "--to", "100000")
        yield f"timeline: {workload}, all shown", words, 100_000, lambda size, w=workload: checkers.history(w, size, 1)
    words = ("timeline", "--workload", "unique-ids", "--independent", "--to", "100000")
    yield "timeline: unique-ids, a key for each 100 records", words, 100_000, keyed
    yield "timeline: register, one client, all shown", ("timeline", "--workload", "register", "--to", "100000"), 100_000, one_client


def seconds(words, text, times):
    """The least processor time of these runs."""
    found = []
    with tempfile.TemporaryFile() as source:
        source.write(text)
        for _ in range(times):
            source.seek(0)
            child = subprocess.Popen([PROGRAM, *words], stdin=source, stdout=subprocess.DEVNULL)
            _, status, usage = os.wait4(child.pid, 0)
            child.returncode = os.waitstatus_to_exitcode(status)
            if child.returncode not in (0, 1, 2):
                sys.exit(f"{' '.join(words)}: status {child.returncode}")
            found.append(usage.ru_utime + usage.ru_stime)
    return min(found)


def main():
    words = argparse.ArgumentParser(description="How the time of each command grows with its input.")
    words.add_argument("--times", type=int, default=2, metavar="N", help="runs of each")
    words.add_argument("word", nargs="*", metavar="WORD", help="take the rows that have one of these")
    asked = words.parse_args()
    if not os.path.exists(PROGRAM):
        sys.exit(f"{PROGRAM} is not there: build it first, by rt run in crates/jeprun")
    print("| Input | Size | an eighth | a quarter | a half | the whole | Exponent |", "|---|---|---|---|---|---|---|", sep="\n")
    for name, command, whole, made in rows():
        if asked.word and not any(word in name for word in asked.word):
            continue
        took = [seconds(command, made(whole // part), asked.times) for part in PARTS]
        exponent = math.log(took[-1] / took[0]) / math.log(PARTS[0] / PARTS[-1])
        print(f"| {name} | {whole:,} |", " | ".join(f"{it:.3f}" for it in took), f"| {exponent:.2f} |", flush=True)


if __name__ == "__main__":
    main()

#!/usr/bin/env python3
"""How fast histories are judged, beside a plain program that reads them as a stream. Run it at the top of the repository, after
`rt run` in crates/jeprun; it builds the plain program, bench/checkers/plain.rs, by `rustc -O`:

    bench/checkers.py [--most OPERATIONS] [--times N] [--seed SEED] [--program FILE] [ROW ..]

Histories of unique ids, a counter and a set, of 10,000 operations and ten times as many each time, up to OPERATIONS (100,000,
which are some 8.5 megabytes): ten clients, one in a hundred completions `:info`. Then histories of a register that begins with 0,
which bench/register.py makes, of those that have no more operations than OPERATIONS:

  register, 2 clients       five values, no unknown outcomes; and the same with 5 clients
  register, unique values   10 clients, each value written once, one in a hundred calls `:info`
  register, stale, ..       16 clients, five values, one stale read near the end
  16 hard keys, 4 threads   those of bench/keys.py, judged by `--independent` on four threads; SEED changes nothing here

Each is given to both programs in turn, N times (5); the least processor time counts, of all threads, and the most memory. The
script stops where they do not write the same bytes. A register has many orders, though, and each program writes the one that it
finds: where both say `{:valid? true, :order [..]}` each order is checked by itself, with bench/explain.py.

The plain program judges a register by a search whose cache has a limit, 100,000 entries, and of the last two rows 3,000,000;
jeprun has the same number as its budget. Where the plain program gives up and jeprun decides, its cells and the ratios are
dashes.

A row has the workload, its operations and megabytes; the seconds and megabytes of the plain program; then those of `jeprun
check`, and how many times as long and as much that is. Compare these ratios only: the rest is the machine's.
"""

import argparse
import os
import random
import re
import subprocess
import sys
import tempfile
from typing import NamedTuple

PROGRAM = "crates/jeprun/out/jeprun"
PLAIN = "bench/checkers/plain.rs"
WORKLOADS = ("unique-ids", "counter", "set")
CLIENTS = 10
GAVE_UP, INVALID = b"{:valid? :unknown}\n", b"{:valid? false}\n"
VALID = rb"{:valid\? true, :order \[[0-9 ]*\]}\n"
# Calls of one of the 16 hard keys; each has two operations.
HARD_CALLS = 2000


class Register(NamedTuple):
    """A history of a register; unknown outcomes are percent of its calls. The budget is that of both programs."""

    unknown: int
    clients: int
    values: str
    kind: str
    operations: int
    budget: int
    threads: int = 0


REGISTERS = {
    "register, 2 clients": Register(0, 2, "5", "valid", 100_000, 100_000),
    "register, 5 clients": Register(0, 5, "5", "valid", 100_000, 100_000),
    "register, unique values": Register(1, 10, "unique", "valid", 100_000, 100_000),
    "register, stale, 16 clients": Register(0, 16, "5", "stale", 10_000, 3_000_000),
    "16 hard keys, 4 threads": Register(0, 16, "5", "never", 16 * 2 * HARD_CALLS, 3_000_000, 4),
}


def line(index, kind, process, f, value):
    return (
        f"{{:index {index}, :time {index * 104_729}, :type {kind}, :process {process}, :f {f}, :value {value}}}\n"
    )


def calls(workload, dice):
    """What clients ask, without end: a function with its value at the invocation, and the value of the completion."""
    number, total = 0, 0
    while True:
        if workload == "set":
            yield ":add", number, number
        elif workload == "unique-ids":
            yield ":generate", "nil", f'"n{number % 5}-{number}"'
        elif dice.random() < 0.5:
            total += number % 7
            yield ":add", number % 7, number % 7
        else:
            yield ":read", "nil", total
        number += 1


def history(workload, operations, seed):
    """The lines of a history in which each client ends its call when it is its turn again."""
    dice = random.Random(seed)
    asked = calls(workload, dice)
    processes, busy, lines, added = list(range(CLIENTS)), [None] * CLIENTS, [], []
    while len(lines) < operations - 2:
        client = dice.randrange(CLIENTS)
        if busy[client] is None:
            busy[client] = next(asked)
            f, value, _ = busy[client]
            lines.append(line(len(lines), ":invoke", processes[client], f, value))
        elif dice.random() < 0.01:
            f, value, _ = busy[client]
            lines.append(line(len(lines), ":info", processes[client], f, value))
            processes[client] += CLIENTS
            busy[client] = None
        else:
            f, _, value = busy[client]
            lines.append(line(len(lines), ":ok", processes[client], f, value))
            busy[client] = None
            added.append(value)
    if workload == "set":
        lines.append(line(len(lines), ":invoke", 10 * operations, ":read", "nil"))
        lines.append(line(len(lines), ":ok", 10 * operations, ":read", "[" + " ".join(map(str, added)) + "]"))
    return "".join(lines).encode()


# What follows is done by processes of their own: what a process was before it runs a program counts among that program's memory,
# the modules that it imported too.


def write(name, operations, seed):
    """Writes a history."""
    if name in WORKLOADS:
        sys.stdout.buffer.write(history(name, operations, seed))
        return
    import keys
    import register

    one = REGISTERS[name]
    if one.threads:
        keys.write(keys.hard_keys(one.clients, HARD_CALLS), one.clients, sys.stdout)
    else:
        case = register.Case(one.unknown, one.clients, one.values, operations // 2, one.kind, seed)
        sys.stdout.writelines(register.edn(register.history_of(case)))


def check_orders(path):
    """Stops where a line of the standard input has an order that is none of the history at this path."""
    import explain

    with open(path) as file:
        records = explain.Reader(file.read()).all()
    known = explain.cut(explain.operations(records), len(records))
    for line in sys.stdin:
        fault, _ = explain.fault_of_order(known, 0, explain.Reader(line).value()[":order"])
        if fault:
            sys.exit(f"{line[:60]}: {fault}")


def by_itself(*words, **options):
    """Runs this script with these words."""
    if subprocess.run([sys.executable, __file__, *map(str, words)], check=False, **options).returncode != 0:
        sys.exit(1)


# The table.


def run(words, source):
    """What a program writes of this history, its processor time in seconds, and the most memory in megabytes."""
    source.seek(0)
    with tempfile.TemporaryFile() as output:
        child = subprocess.Popen(words, stdin=source, stdout=output)
        _, status, usage = os.wait4(child.pid, 0)
        if os.waitstatus_to_exitcode(status) not in (0, 1, 2):
            sys.exit(f"{' '.join(words)}: status {os.waitstatus_to_exitcode(status)}")
        output.seek(0)
        return output.read(), usage.ru_utime + usage.ru_stime, usage.ru_maxrss / 1024


def words_of(name):
    """The words behind the name of the plain program, and those behind `check`."""
    if name in WORKLOADS:
        return [name], ["--workload", name]
    budget, threads = str(REGISTERS[name].budget), REGISTERS[name].threads
    keys = ["--independent", "--threads", str(threads)] if threads else []
    return ["register", "0", budget] + keys[2:], ["--workload", "register", "--initial", "0", "--budget", budget] + keys


def compare(name, path, theirs, ours):
    """Whether the plain program decided what jeprun decides. Stops where they do not agree."""
    are_orders = [line for line in (theirs, ours) if name in REGISTERS and re.fullmatch(VALID, line)]
    if are_orders:
        by_itself("--check-orders", path, input=b"".join(are_orders))
    gave_up = theirs == GAVE_UP and ours in (*are_orders, INVALID)
    if theirs != ours and not gave_up and len(are_orders) < 2:
        sys.exit(f"the answers to {name} differ")
    return not gave_up


def times_as(ours, theirs):
    return f"{ours / theirs:.1f}" if ours >= theirs else f"{ours / theirs:.2f}"


def row(programs, name, operations, seed, times):
    """The cells of a row."""
    with tempfile.NamedTemporaryFile() as source:
        by_itself("--write", name, operations, seed, stdout=source)
        size = source.seek(0, os.SEEK_END)
        all_words = [[*program, *words] for program, words in zip(programs, words_of(name))]
        runs = [[run(words, source) for words in all_words] for _ in range(times)]
        # A program writes the same at each of its runs, mostly, so that there is one pair to look at.
        decided = all([compare(name, source.name, *pair) for pair in {(theirs[0], ours[0]) for theirs, ours in runs}])
    (plain_s, plain_mb), (s, mb) = ((min(it[place][1] for it in runs), max(it[place][2] for it in runs)) for place in (0, 1))
    beside = [f"{plain_s:.3f}", f"{plain_mb:.1f}", times_as(s, plain_s), times_as(mb, plain_mb)] if decided else ["-"] * 4
    return [name, f"{operations:,}", f"{size / 1e6:.1f}", *beside[:2], f"{s:.3f}", f"{mb:.1f}", *beside[2:]]


def rows(asked):
    """The name and the operations of each row."""
    operations = 10_000
    while operations <= asked.most:
        yield from ((workload, operations) for workload in WORKLOADS)
        operations *= 10
    yield from ((name, one.operations) for name, one in REGISTERS.items() if one.operations <= asked.most)


def arguments():
    words = argparse.ArgumentParser(description="How fast histories are judged, beside a plain program.")
    words.add_argument("--most", type=int, default=100_000, metavar="OPERATIONS", help="the largest history")
    words.add_argument("--times", type=int, default=5, metavar="N", help="runs of each")
    words.add_argument("--seed", type=int, default=1, help="of the histories")
    words.add_argument("--program", default=PROGRAM, metavar="FILE", help="the jeprun that is measured")
    words.add_argument("row", nargs="*", metavar="ROW", help="the name of a row; all where none is named")
    asked = words.parse_args()
    unknown = [name for name in asked.row if name not in (*WORKLOADS, *REGISTERS)]
    if unknown:
        sys.exit(f"no row: {unknown[0]}; there are {'; '.join((*WORKLOADS, *REGISTERS))}")
    if not os.path.exists(asked.program):
        sys.exit(f"{asked.program} is not there: build it first, by rt run in crates/jeprun")
    return asked


def main():
    if sys.argv[1:2] == ["--write"]:
        write(sys.argv[2], int(sys.argv[3]), int(sys.argv[4]))
        return
    if sys.argv[1:2] == ["--check-orders"]:
        check_orders(sys.argv[2])
        return
    asked = arguments()
    print("| Workload | Operations | MB | plain s | MB | jeprun s | MB | times as long | as much |")
    print("|---|---|---|---|---|---|---|---|---|")
    with tempfile.TemporaryDirectory() as room:
        plain = os.path.join(room, "plain")
        subprocess.run(["rustc", "-O", "--edition", "2021", "-o", plain, PLAIN], check=True)
        programs = [plain], [asked.program, "check"]
        for name, operations in rows(asked):
            if not asked.row or name in asked.row:
                print("|", " | ".join(row(programs, name, operations, asked.seed, asked.times)), "|", flush=True)


if __name__ == "__main__":
    main()

#!/usr/bin/env python3
"""How fast transactions over lists are judged. Run it at the top of the repository, after `rt run` in crates/jeprun:

    bench/transactions.py [MOST [SEED]]

Histories of Jepsen's list-append, of a database that is strictly serializable. The first have eight clients, four micro-operations a
transaction and 100 appends a key, and 10,000 transactions, then ten times as many up to MOST (100,000). Then one shape each: a key with
very many appends and ten reads; a thousand keys that each transaction reads whole; transactions that all overlap; one client, so that real
time orders all. Each is judged by the four models, read by `check --workload set`, which passes over all of it, and judged for a serial
order that keeps real time by bench/transactions/plain.rs, which does the same in plain Rust, without proofs.

Prints processor seconds of the least of three runs, how many times as much as the plain program and as the checker of a set, transactions a
second, and bytes of memory for each byte of text.
"""

import os
import random
import subprocess
import sys
import tempfile

PROGRAM = os.environ.get("JEPRUN", "crates/jeprun/out/jeprun")
PLAIN = "bench/transactions/plain.rs"
MODELS = ("strict-serializable", "serializable", "strong-snapshot-isolation", "snapshot-isolation")


class Database:
    """Lists by key, and how many appends to a key are asked for at most."""

    def __init__(self, appends):
        self.lists, self.appends, self.first, self.active = {}, appends, 0, 10

    def key(self, dice, numbers):
        """One of ten keys that still take elements, with `numbers` of appends to each key asked for."""
        key = self.first + dice.randrange(self.active)
        while numbers.get(self.first, 0) >= self.appends:
            self.first += 1
        return max(key, self.first)

    def run(self, asked):
        """What a transaction sees, and what it leaves."""
        answered = []
        for f, key, value in asked:
            if f == ":append":
                self.lists.setdefault(key, []).append(value)
                answered.append((f, key, value))
            else:
                answered.append((f, key, list(self.lists.get(key, ()))))
        return answered


def text(ops):
    return "[" + " ".join(f"[{f} {key} {shown(value)}]" for f, key, value in ops) + "]"


def shown(value):
    return "[" + " ".join(map(str, value)) + "]" if isinstance(value, list) else str(value)


def mixed(dice, database, numbers):
    """Four micro-operations, half of them appends."""
    ops = []
    for _ in range(4):
        key = database.key(dice, numbers)
        if dice.random() < 0.5:
            numbers[key] = numbers.get(key, 0) + 1
            ops.append((":append", key, numbers[key]))
        else:
            ops.append((":r", key, "nil"))
    return ops


def history(shape, count, seed):
    """The lines of a history of a shape."""
    dice, database, numbers = random.Random(seed), Database(100), {}
    index = 0

    def line(kind, process, ops):
        nonlocal index
        index += 1
        return f"{{:index {index - 1}, :type {kind}, :process {process}, :f :txn, :value {text(ops)}}}\n"

    if shape in ("mixed", "one client"):
        clients = 8 if shape == "mixed" else 1
        busy = [None] * clients
        done = 0
        while done < count:
            client = dice.randrange(clients)
            if busy[client] is None:
                asked = mixed(dice, database, numbers)
                yield line(":invoke", client, asked)
                busy[client] = database.run(asked)
                done += 1
            else:
                yield line(":ok", client, busy[client])
                busy[client] = None
        for client in range(clients):
            if busy[client] is not None:
                yield line(":ok", client, busy[client])
    elif shape == "one key":
        for number in range(count):
            ops = [(":append", 1, number)]
            if number % (count // 10) == count // 10 - 1:
                ops.append((":r", 1, "nil"))
            yield line(":invoke", 0, ops)
            yield line(":ok", 0, database.run(ops))
    elif shape == "many keys":
        for number in range(count):
            ops = [(":append", number % 1000, number)] + [(":r", key, "nil") for key in range(1000)]
            yield line(":invoke", 0, ops)
            yield line(":ok", 0, database.run(ops))
    else:
        asked = [mixed(dice, database, numbers) for _ in range(count)]
        for process, ops in enumerate(asked):
            yield line(":invoke", process, ops)
        for process, ops in enumerate(asked):
            yield line(":ok", process, database.run(ops))


def measured(arguments, path):
    """The least processor seconds of three runs, the most memory in bytes, and the last status."""
    seconds, memory = [], 0
    for _ in range(3):
        with open(path, "rb") as source:
            run = subprocess.Popen(arguments, stdin=source, stdout=subprocess.DEVNULL)
            _, status, usage = os.wait4(run.pid, 0)
        seconds.append(usage.ru_utime + usage.ru_stime)
        memory = max(memory, usage.ru_maxrss * 1024)
    return min(seconds), memory, os.waitstatus_to_exitcode(status)


def main():
    if sys.argv[1:2] == ["--write"]:
        sys.stdout.writelines(history(sys.argv[2], int(sys.argv[3]), int(sys.argv[4])))
        return
    most, seed = (int(word) for word in (sys.argv[1:] + ["100000", "1"][len(sys.argv) - 1 :]))
    shapes = [("mixed", 10**power) for power in range(4, 8) if 10**power <= most]
    shapes += [("one key", most), ("many keys", max(10, most // 1000)), ("overlapping", most), ("one client", most)]
    with tempfile.TemporaryDirectory() as folder:
        plain = f"{folder}/plain"
        subprocess.run(["rustc", "-O", "-o", plain, PLAIN], check=True)
        for shape, count in shapes:
            path = f"{folder}/history.edn"
            with open(path, "wb") as source:
                # A process of its own makes it: what a process was before it runs a program counts among its memory.
                subprocess.run([sys.executable, __file__, "--write", shape, str(count), str(seed)], stdout=source, check=True)
            size = os.path.getsize(path)
            plain_took, plain_memory, _ = measured([plain], path)
            set_took, set_memory, _ = measured([PROGRAM, "check", "--workload", "set"], path)
            print(f"{shape}, {count:,} transactions, {size / 1e6:.1f} MB: plain {plain_took:.2f} s, {plain_memory / size:.1f} B/B; set {set_took:.2f} s, {set_memory / size:.1f} B/B")
            for model in MODELS:
                took, memory, status = measured([PROGRAM, "check", "--workload", "list-append", "--model", model], path)
                print(
                    f"  {model}, status {status}: {took:.2f} s, {took / plain_took:.2f} times plain, {took / set_took:.2f} times set, "
                    f"{count / took:,.0f} transactions a second, {memory / size:.1f} B/B",
                    flush=True,
                )


if __name__ == "__main__":
    main()

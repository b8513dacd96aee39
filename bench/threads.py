#!/usr/bin/env python3
"""Runs on threads: that none is lost, and how long they take.

    bench/threads.py PROGRAM [--runs N] [--seed S]

PROGRAM is the program `jeprun`. First it makes N runs (1,000) of random plans, the same plans for the same S (0): each store and
workload in turn, 1 to 16 clients, 1 to 5 nodes, at most 200 calls and 48 entries with steps of every kind, and logs of which a
third has too few rows. A run is given out only where its audit finds nothing, so a status of 0 to 2 says that it was audited. Its
history is counted once more here: each invocation has its completion, each event is named once, and no index is left out. Then
`jeprun check` judges it once more, and its status and its line have to be those of the run. Where the log is too small the run
may end with `history full`, with nothing printed. All else is a run that was lost, also one of over a minute. It prints how many
ran, how they ended, and in how many a call began before another had ended, which are more on more processors. It ends with status
1 where one was lost.

Then it prints how long a plan of 10,000 calls takes on threads and serially, of 4 clients and of 16, the least of five each, and
the processor time. All of a run is in it: its audit, its checker and its output too.
"""

import argparse
import collections
import random
import re
import resource
import subprocess
import sys
import time

CALLS = {
    "register": (":read", "[:write 1]", "[:write 2]", "[:cas 1 2]"),
    "counter": (":read", "[:add 2]", "[:add 3]"),
    "set": (":read", "[:add 1]", "[:add 2]"),
    "unique-ids": (":generate",),
}
STORES = ("quorum", "lww", "local")
EVENT = re.compile(r":event (\d+)}$")
CALL = re.compile(r":type :(\w+), :process (\d+),")
BUDGET = 5_000
SECONDS = 60


def generator(chance, workload, clients):
    """A mixture of calls, by itself, before a last call, for each thread, or for some threads alone."""
    calls = CALLS[workload]
    some = chance.sample(calls, chance.randint(1, len(calls)))
    mixture = "[:mix " + " ".join(f"[:forever {call}]" for call in some) + "]"
    first = f"[:mix {mixture} [:rising 0]]" if workload == "set" else mixture
    last = f"[:once {calls[0]}]"
    return chance.choice(
        (
            first,
            f"[:phases [:limit {chance.randint(0, 150)} {first}] {last}]",
            f"[:each-thread [:seq [:limit {chance.randint(0, 20)} {mixture}] {last}]]",
            f"[:reserve {chance.randint(0, clients)} {first} [:clients {mixture}]]",
        )
    )


def fault(chance, nodes):
    """A fault of any kind, of some nodes or links."""
    some = chance.sample(nodes, chance.randint(1, len(nodes)))
    names = "[" + " ".join(some) + "]"
    links = [f"[{source} {destination}]" for source in nodes for destination in nodes if source != destination]
    cuts = "[" + " ".join(chance.sample(links, chance.randint(0, len(links)))) + "]"
    return chance.choice(
        (
            f"[:cut {cuts}]",
            f"[:slow {chance.randint(1, 2000)} {cuts}]",
            f"[:loss {chance.randint(1, 3)} {cuts}]",
            f"[:fix {chance.randint(0, 2000)} {cuts}]",
            f"[:pause {names}]",
            f"[:kill {names}]",
            "[:bump {" + ", ".join(f"{node} {chance.choice((-700, 1, 900))}" for node in some) + "}]",
            "[:halves]",
            f"[:split-one {some[0]}]",
            "[:bridge]",
            "[:ring]",
            f"[:ring {chance.randint(0, 99)}]",
        )
    )


def schedule(chance, nodes, ops):
    """Steps of every kind. Some are refused: an id may be taken or not active, and there may be nothing to undo."""
    entries = []
    for at in sorted(chance.randint(0, ops + 5) for _ in range(chance.choice((0, 4, 16, 48)))):
        begin = f"[:begin {chance.randint(0, 9)} {fault(chance, nodes)}]"
        step = chance.choice((begin, begin, begin, f"[:withdraw {chance.randint(0, 9)}]", "[:withdraw-all]", "[:undo]", "[:redo]"))
        entries.append(f"[{at} {step}]")
    return entries


def plan(number, seed):
    """A random plan: its settings, the words by which `jeprun check` judges its history, and whether its log may be too small."""
    chance = random.Random(f"{seed} {number}")
    workload = list(CALLS)[number // 3 % 4]
    nodes = [f'"n{node}"' for node in range(1, chance.randint(1, 5) + 1)]
    clients, ops = chance.randint(1, 16), chance.randint(1, 200)
    entries = schedule(chance, nodes, ops)
    # What a read of a set answers has a row for each five words, and at most as many elements as there are calls.
    enough = 2 * (ops + len(entries)) + (ops * ((ops + 7) // 5) if workload == "set" else 0)
    rows = enough if number % 9 < 6 else chance.randint(1, enough)
    initial = chance.choice((None, 0, 1)) if workload == "register" else None
    text = settings("threads", STORES[number % 3], workload, clients, ops, entries, rows, nodes, generator(chance, workload, clients))
    text += f"seed = {chance.getrandbits(62)}\nvolatile = {chance.choice(('true', 'false'))}\nbudget = {BUDGET}\n"
    words = ["--workload", workload, "--budget", str(BUDGET)]
    if initial is not None:
        text += f"initial = {initial}\n"
        words.append(f"--initial={initial}")
    return text, words, rows < enough


def settings(mode, store, workload, clients, ops, entries, rows, nodes, generator):
    lines = [
        f"start = '{{:nodes [{' '.join(nodes)}]}}'",
        f'mode = "{mode}"',
        f'store = "{store}"',
        f'workload = "{workload}"',
        f"clients = {clients}",
        f"ops = {ops}",
        f"rows = {rows}",
        "tick_every = 5",
        f"generator = '{generator}'",
        "schedule = [" + ", ".join(f"'{entry}'" for entry in entries) + "]",
    ]
    return "\n".join(lines) + "\n"


def is_whole(history):
    """Whether a printed history has no gap: each call and step is completed, and each event is named once."""
    events = [EVENT.search(line) for line in history]
    named = [int(found[1]) for found in events if found]
    return 2 * len(named) == len(history) and len(set(named)) == len(named) and all(
        line.startswith("{:index %d, " % index) for index, line in enumerate(history)
    )


def has_overlap(history):
    """Whether a call begins before another has ended."""
    busy = 0
    for line in history:
        client = CALL.search(line)
        if client and client[1] == "invoke":
            busy += 1
        elif client:
            busy -= 1
        if busy > 1:
            return True
    return False


def call(program, words, text):
    return subprocess.run([program, *words], input=text, capture_output=True, text=True, timeout=SECONDS)


def ending(program, number, seed):
    """How one run ended, and its history; `lost` and why where it was lost."""
    text, words, is_small = plan(number, seed)
    ran = call(program, ["run"], text)
    if is_small and (ran.returncode, ran.stdout, ran.stderr) == (4, "", "jeprun: history full\n"):
        return "history full", []
    if ran.returncode not in (0, 1, 2) or ran.stderr:
        return f"lost: status {ran.returncode} {ran.stderr.strip()}", []
    lines = ran.stdout.splitlines()
    history, judged = lines[:-3], lines[-1]
    if not is_whole(history):
        return "lost: a gap", []
    again = call(program, ["check", *words], "\n".join(history))
    if (again.returncode, again.stdout, again.stderr) != (ran.returncode, judged + "\n", ""):
        return f"lost: judged {judged[:80]} and then {again.returncode} {again.stdout[:80]}{again.stderr.strip()}", []
    return ("valid", "not valid", "unknown")[ran.returncode], history


def stress(program, runs, seed):
    ended, operations, overlaps, lost = collections.Counter(), 0, 0, 0
    for number in range(runs):
        try:
            how, history = ending(program, number, seed)
        except subprocess.TimeoutExpired:
            how, history = "lost: over a minute", []
        operations += len(history)
        overlaps += has_overlap(history)
        if how.startswith("lost"):
            lost += 1
            print(f"run {number}: {how}", flush=True)
        else:
            ended[how] += 1
    counts = ", ".join(f"{count} {how}" for how, count in ended.most_common())
    print(f"{runs} runs: {counts}, {lost} lost; {operations} operations, calls overlap in {overlaps} runs", flush=True)
    return lost


def times(program):
    calls = "[:mix [:forever :read] [:forever [:add 2]]]"
    for clients, mode in ((4, "threads"), (4, "serial"), (16, "threads"), (16, "serial")):
        text = settings(mode, "quorum", "counter", clients, 10_000, [], 65_536, ['"n1"', '"n2"', '"n3"'], calls)
        least, used = None, None
        for _ in range(5):
            before = resource.getrusage(resource.RUSAGE_CHILDREN)
            began = time.monotonic()
            call(program, ["run"], text)
            took = time.monotonic() - began
            after = resource.getrusage(resource.RUSAGE_CHILDREN)
            if least is None or took < least:
                least = took
                used = after.ru_utime + after.ru_stime - before.ru_utime - before.ru_stime
        print(f"10,000 calls of {clients} clients, {mode}: {least:.3f} s, {used:.3f} s of processors")


def main():
    parser = argparse.ArgumentParser(description=__doc__.splitlines()[0])
    parser.add_argument("program")
    parser.add_argument("--runs", type=int, default=1000)
    parser.add_argument("--seed", type=int, default=0)
    arguments = parser.parse_args()
    lost = stress(arguments.program, arguments.runs, arguments.seed)
    times(arguments.program)
    sys.exit(1 if lost else 0)


if __name__ == "__main__":
    main()

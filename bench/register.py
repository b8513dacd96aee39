#!/usr/bin/env python3
"""Judges random histories of a register by `jeprun` and by a plain search, in turn and on the same histories, and prints what
each found, the seconds of processor it took and its memory. Run it at the top of the repository, after `rt run` in
crates/jeprun; it builds the plain search, bench/register/plain.rs, by `rustc -O`:

    bench/register.py [OPTION ..]                    # a table over unknown outcomes, clients and values
    bench/register.py --default-budget               # what the default budget decides, of 2 to 5 and of 16 clients
    bench/register.py --processes 450,5000           # so many processes whose writes end :info, then one that writes
    bench/register.py --sequential                   # a million calls of one client
    bench/register.py --write FOLDER [OPTION ..]     # the histories alone, in both formats

The histories. Clients that are busy all the time make reads, writes and compare-and-sets in thirds over two or five values, or
reads and writes in halves where each write has a value of its own (`unique`). The answers are those of a register that begins
with 0, so the histories are valid. Of all calls, so many percent are writes and compare-and-sets that end `:info`; their
process goes on under another number. Half of them never take effect, a quarter before the `:info`, a quarter at a later moment
of the history. In two kinds one read, 50 calls before the end or as soon before as one can be had, has an answer that is wrong:

  stale    a value that was overwritten before the read was invoked. Where one can be found among the 500 calls before, it is
           such a value that no write can bring back in time. Else another order may explain it, and the verdict may be valid;
           where many outcomes are unknown and values are few, it mostly is.
  never    a value that was never written

The table has a row for each unknown share, clients, values, calls, kind and budget. It says of how many seeds each verdict
was; the seconds of processor, on average and at most; the most memory, of which less than Python itself has is not seen; and
how many entries the cache of the plain search had. With --configurations it also finds the least budget with which jeprun
decides, by bisection. Where the memory of --memory or the time of --seconds is not enough for a program, its verdict is
`no memory` or `no time`. A verdict that is wrong, or another one than the other program's, ends the script with status 1.
"""

import argparse
import bisect
import heapq
import itertools
import os
import random
import resource
import signal
import subprocess
import sys
import tempfile
from collections import Counter
from functools import partial
from typing import NamedTuple

KINDS = {"valid", "stale", "never", "crashed"}
INITIAL = 0
NEVER_WRITTEN = -1
DEFAULT_BUDGET = 100_000
LARGEST_BUDGET = 10_000_000
# How many calls before the end the wrong answer stands, and among how many before it a certain one is looked for.
BEFORE_END = 50
LOOKED_THROUGH = 500
VERDICTS = {
    0: "valid",
    1: "invalid",
    2: "unknown",
    4: "no memory",
    -signal.SIGABRT: "no memory",
    -signal.SIGXCPU: "no time",
    -signal.SIGKILL: "no time",
}

# What each way to run the script measures where no option says otherwise.
TABLE = {
    "unknown": "0,1,5,20",
    "clients": "2,5,16",
    "values": "2,5,unique",
    "calls": "10000",
    "kinds": "valid,stale",
    "seeds": "1..3",
    "judges": "jeprun,plain",
}
BY_DEFAULT_BUDGET = TABLE | {
    "unknown": "0,1",
    "clients": "2,3,4,5,16",
    "values": "5",
    "kinds": "valid,stale,never",
    "seeds": "1..100",
    "judges": "jeprun",
}
SEQUENTIAL = TABLE | {
    "unknown": "0",
    "clients": "1",
    "values": "5",
    "calls": "1000000",
    "kinds": "valid",
    "seeds": "1",
}
PROCESSES = SEQUENTIAL | {"unknown": "100", "kinds": "crashed", "calls": "0"}


class Case(NamedTuple):
    """What a history is made by."""

    unknown: float
    clients: int
    values: str
    calls: int
    kind: str
    seed: int


class Op:
    """An operation. Asked is nothing, a value or the old and the new one; the places are those of its records."""

    __slots__ = ("number", "process", "f", "asked", "answer", "outcome", "invoked", "ended", "fate")

    def __init__(self, number, process, f, asked, invoked):
        self.number, self.process, self.f, self.asked, self.invoked = number, process, f, asked, invoked
        self.answer = self.outcome = self.ended = self.fate = None

    def leaves(self):
        """The value that is there after it, where it changes the value."""
        return self.asked[1] if self.f == "cas" else self.asked

    def may_leave(self, value):
        return self.f != "read" and self.outcome != "fail" and self.leaves() == value


class History:
    """Operations, the records of their invocations and completions in order, and the verdict where it is known."""

    def __init__(self):
        self.ops, self.records, self.verdict = [], [], "valid"

    def invoke(self, process, f, asked):
        op = Op(len(self.ops), process, f, asked, len(self.records))
        self.ops.append(op)
        self.records.append((op, "invoke"))
        return op

    def complete(self, op, outcome):
        op.outcome, op.ended = outcome, len(self.records)
        self.records.append((op, outcome))


class Register:
    """A register and its clients. It has held each value from a number of records on."""

    def __init__(self, case):
        self.case, self.history, self.dice = case, History(), random.Random(case.seed)
        self.value, self.held = INITIAL, [(0, INITIAL)]
        self.processes = list(range(case.clients))
        self.busy = [None] * case.clients
        # the calls that take effect behind their completion, each behind the number of calls at which it does
        self.late = []

    def run(self):
        while len(self.history.ops) < self.case.calls or any(self.busy):
            client = self.dice.randrange(self.case.clients)
            op = self.busy[client]
            if op is None:
                self.invoke(client)
            elif op.outcome is None:
                self.answer(op)
            else:
                self.complete(client)

    def invoke(self, client):
        made = len(self.history.ops)
        if made == self.case.calls:
            return
        f, asked = self.call(made + 1)
        op = self.history.invoke(self.processes[client], f, asked)
        op.fate = self.fate(f)
        self.busy[client] = op
        while self.late and self.late[0][0] <= made:
            _, number = heapq.heappop(self.late)
            self.change(self.history.ops[number])

    def call(self, own):
        """A function and what is asked of it; the value is a write's own, or one of a few."""
        if self.case.values == "unique":
            return self.dice.choice([("read", None), ("write", own)])
        old, new = (self.dice.randrange(int(self.case.values)) for _ in range(2))
        return self.dice.choice([("read", None), ("write", new), ("cas", (old, new))])

    def fate(self, f):
        """When a call takes effect whose outcome will not be known, or nothing where it will be."""
        changing = 1 / 2 if self.case.values == "unique" else 2 / 3
        if f == "read" or self.dice.random() >= self.case.unknown / 100 / changing:
            return None
        return self.dice.choice(["never", "never", "soon", "late"])

    def answer(self, op):
        """What becomes of a call, between its invocation and its completion."""
        if op.f == "read":
            op.answer, op.outcome = self.value, "ok"
        elif op.fate is None:
            op.outcome = "ok" if self.change(op) else "fail"
        else:
            op.outcome = "info"
            if op.fate == "soon":
                self.change(op)

    def change(self, op):
        """Whether the call takes effect."""
        if op.f == "cas" and op.asked[0] != self.value:
            return False
        self.value = op.leaves()
        self.held.append((len(self.history.records), self.value))
        return True

    def complete(self, client):
        op, self.busy[client] = self.busy[client], None
        self.history.complete(op, op.outcome)
        if op.outcome == "info":
            self.processes[client] += self.case.clients
        if op.fate == "late":
            heapq.heappush(self.late, (self.dice.randint(len(self.history.ops), self.case.calls), op.number))


def crashed(case):
    """Each process but the last invokes a write that ends :info, and the last one writes 1 and 2."""
    history = History()
    for process in range(case.clients):
        history.complete(history.invoke(process, "write", process % 5), "info")
    for value in (1, 2):
        history.complete(history.invoke(case.clients, "write", value), "ok")
    return history


def overwritten(held, reads):
    """Each read with some values that the register had before it was invoked and not from then on until it ended."""
    for read in reads:
        first, last = (bisect.bisect(held, at, key=lambda one: one[0]) - 1 for at in (read.invoked, read.ended))
        during = {value for _, value in held[first : last + 1]}
        earlier = (value for _, value in reversed(held[max(0, first - 100) : first]) if value not in during)
        for value in list(dict.fromkeys(earlier))[:5]:
            yield read, value


def is_gone(ops, read, value):
    """No order has the read find the value: another one was written behind all that may leave it, before the read."""
    changes = (op for op in reversed(ops[: read.number]) if op.f != "read" and op.outcome == "ok")
    last = next((op for op in changes if op.ended < read.invoked), None)
    if last is None or last.leaves() == value:
        return False
    there = itertools.takewhile(lambda op: op.invoked < read.ended, ops)
    return not any(op.may_leave(value) and (op.outcome == "info" or op.ended > last.invoked) for op in there)


def spoil(history, held, kind):
    """Gives one read an answer that is wrong."""
    calls = len(history.ops)
    before = calls - min(BEFORE_END, calls // 2)
    reads = [op for op in reversed(history.ops[:before]) if op.f == "read"]
    if kind == "never":
        certain = found = next(((read, NEVER_WRITTEN) for read in reads), None)
    else:
        near = [read for read in reads if read.number >= before - LOOKED_THROUGH]
        certain = next((both for both in overwritten(held, near) if is_gone(history.ops, *both)), None)
        found = certain or next(overwritten(held, reads), None)
    if found:
        read, answer = found
        read.answer = answer
        history.verdict = "invalid" if certain else "open"


def history_of(case):
    if case.kind == "crashed":
        return crashed(case)
    register = Register(case)
    register.run()
    if case.kind != "valid":
        spoil(register.history, register.held, case.kind)
    return register.history


# The formats.


def records(history):
    """The process, the type, the function and the text of the value of each record."""
    for op, kind in history.records:
        if op.f == "read":
            value = "nil" if kind == "invoke" else op.answer
        else:
            value = f"[{op.asked[0]} {op.asked[1]}]" if op.f == "cas" else op.asked
        yield op.process, kind, op.f, str(value)


def edn(history):
    for process, kind, f, value in records(history):
        yield f"{{:type :{kind}, :process {process}, :f :{f}, :value {value}}}\n"


def plain(history):
    """The lines that bench/register/plain.rs reads."""
    for op in history.ops:
        if op.outcome == "fail":
            continue
        ended = op.ended if op.outcome == "ok" else "-"
        words = op.asked if op.f == "cas" else [op.answer if op.f == "read" else op.asked]
        yield f"{op.invoked} {ended} {op.outcome} {op.f} {' '.join(map(str, words))}\n"


def write(case, folder):
    """Writes the history in both formats, and prints the name of the files and the verdict where it is known."""
    name = f"{case.kind}-{case.calls}-{case.clients}-{case.values}-{case.unknown:g}-{case.seed}"
    history = history_of(case)
    for ending, lines in ((".edn", edn), (".txt", plain)):
        with open(os.path.join(folder, name + ending), "w") as file:
            file.writelines(lines(history))
    print(name, history.verdict, flush=True)


def written(case, folder):
    """The path of the files without its ending, and the verdict. A process of its own makes them: what a process had in
    memory before it runs a program counts among that program's."""
    words = ["--write", folder, "--unknown", case.unknown, "--clients", case.clients, "--values", case.values]
    words += ["--calls", case.calls, "--kinds", case.kind, "--seeds", case.seed]
    told = subprocess.run([sys.executable, __file__, *map(str, words)], capture_output=True, text=True, check=True)
    name, verdict = told.stdout.split()
    return os.path.join(folder, name), verdict


# The judges.


class Judged(NamedTuple):
    word: str
    seconds: float
    megabytes: int
    entries: int


def limit(megabytes, seconds):
    resource.setrlimit(resource.RLIMIT_AS, (megabytes << 20, megabytes << 20))
    resource.setrlimit(resource.RLIMIT_CPU, (seconds, seconds + 5))
    resource.setrlimit(resource.RLIMIT_CORE, (0, 0))


def judged(words, path, limits):
    """What a program finds in a file, which says `valid` and so on by its status."""
    with open(path, "rb") as file, tempfile.TemporaryFile("w+") as out, tempfile.TemporaryFile("w+") as err:
        run = subprocess.Popen(words, stdin=file, stdout=out, stderr=err, preexec_fn=partial(limit, *limits))
        _, status, usage = os.wait4(run.pid, 0)
        run.returncode = os.waitstatus_to_exitcode(status)
        out.seek(0)
        err.seek(0)
        told, said = out.read(100).split(), err.read()
    if run.returncode not in VERDICTS or (run.returncode == 4 and "out of memory" not in said):
        sys.exit(f"{' '.join(words)} < {path}: status {run.returncode}: {said}")
    entries = int(told[1]) if len(told) == 2 and told[1].isdigit() else 0
    return Judged(VERDICTS[run.returncode], usage.ru_utime + usage.ru_stime, usage.ru_maxrss // 1024, entries)


class Judge(NamedTuple):
    name: str
    program: str
    limits: tuple

    def judge(self, path, budget):
        """With no budget, that of the program itself."""
        if self.name == "plain":
            words = [self.program, str(INITIAL), str(budget or DEFAULT_BUDGET)]
            return judged(words, path + ".txt", self.limits)
        words = [self.program, "check", "--workload", "register", "--initial", str(INITIAL)]
        words += ["--budget", str(budget)] if budget else []
        return judged(words, path + ".edn", self.limits)

    def least_budget(self, path, high):
        """The least budget that decides the history, where this one does."""
        low = 0
        while low + 1 < high:
            middle = (low + high) // 2
            if self.judge(path, middle).word == "unknown":
                low = middle
            else:
                high = middle
        return high


def built_plain(folder):
    program = os.path.join(folder, "plain")
    subprocess.run(["rustc", "--edition", "2021", "-O", "-o", program, "bench/register/plain.rs"], check=True)
    return program


# The table.


def compare(case, verdict, words):
    """Stops where a verdict is wrong."""
    decided = {word for word in words if word in ("valid", "invalid")}
    wanted = decided | ({verdict} - {"open"})
    if decided and len(wanted) > 1:
        sys.exit(f"{case}: the verdict is {verdict}, and the judges say {', '.join(words)}")


def measured(case, judges, budget, asked):
    """What each judge finds in a history, and the least budget of jeprun, where it is asked for."""
    with tempfile.TemporaryDirectory() as folder:
        path, verdict = written(case, folder)
        found = [judge.judge(path, budget) for judge in judges]
        compare(case, verdict, [one.word for one in found])
        least = None
        for judge, one in zip(judges, found):
            if asked.configurations and judge.name == "jeprun" and one.word in ("valid", "invalid"):
                least = judge.least_budget(path, budget or DEFAULT_BUDGET)
    return found, least


def verdicts(found):
    return ", ".join(f"{count} {word}" for word, count in sorted(Counter(one.word for one in found).items()))


def average_and_most(numbers, form):
    return [format(sum(numbers) / len(numbers), form), format(max(numbers), form)] if numbers else ["", ""]


def cells(judge, found, least, asked):
    """The cells of one judge: the verdicts, seconds, memory, and what it counts."""
    row = [verdicts(found), *average_and_most([one.seconds for one in found], ".2f")]
    row.append(f"{max(one.megabytes for one in found):,}")
    if judge.name == "plain":
        row += average_and_most([one.entries for one in found if one.entries], ",.0f")
    elif asked.configurations:
        row += average_and_most([one for one in least if one is not None], ",.0f")
    return row


def head(judges, asked):
    row = ["unknown", "clients", "values", "calls", "history", "budget"]
    for judge in judges:
        row += [judge.name, "s", "most s", "MB"]
        if judge.name == "plain":
            row += ["entries", "most entries"]
        elif asked.configurations:
            row += ["least budget", "most least budget"]
    return row


def show(row):
    print("| " + " | ".join(row) + " |", flush=True)


def show_row(cases, judges, budget, asked):
    """The row of cases that differ in their seeds alone."""
    case = cases[0]
    all_found = [measured(one, judges, budget, asked) for one in cases]
    row = [f"{case.unknown:g} %", str(case.clients), case.values, f"{case.calls:,}", case.kind]
    row.append(f"{budget:,}" if budget else "default")
    for place, judge in enumerate(judges):
        row += cells(judge, [found[place] for found, _ in all_found], [least for _, least in all_found], asked)
    show(row)


def table(groups, budgets, judges, asked):
    names = head(judges, asked)
    show(names)
    show(["---"] * len(names))
    for cases, budget in itertools.product(groups, budgets):
        show_row(cases, judges, budget, asked)


# What is asked.


def seeds_of(text):
    """`7`, `1,2,7` or `1..100`."""
    if ".." in text:
        first, last = text.split("..")
        return range(int(first), int(last) + 1)
    return [int(word) for word in text.split(",")]


def groups_of(asked):
    """The cases, those together that differ in their seeds alone."""
    unknown = [float(word) for word in asked.unknown.split(",")]
    clients, calls = ([int(word) for word in text.split(",")] for text in (asked.clients, asked.calls))
    kinds, values = asked.kinds.split(","), asked.values.split(",")
    if not set(kinds) <= KINDS:
        sys.exit(f"--kinds: of {', '.join(sorted(KINDS))}")
    for case in itertools.product(unknown, clients, values, calls, kinds):
        case = Case(*case, 0)
        if case.kind == "crashed":
            case = case._replace(calls=case.clients + 2)
        if asked.default_budget and case.clients > 5 and case.kind != "valid":
            continue
        yield [case._replace(seed=seed) for seed in seeds_of(asked.seeds)]


def arguments():
    words = argparse.ArgumentParser(description="Judges random histories of a register by jeprun and by a plain search.")
    words.add_argument("--default-budget", action="store_true", help="what the default budget decides")
    words.add_argument("--processes", metavar="N,..", help="so many processes that crash, and one that writes twice")
    words.add_argument("--sequential", action="store_true", help="the calls of one client")
    words.add_argument("--write", metavar="FOLDER", help="write the histories into this folder, and judge nothing")
    words.add_argument("--unknown", metavar="PERCENT,..")
    words.add_argument("--clients", metavar="N,..")
    words.add_argument("--values", metavar="N|unique,..")
    words.add_argument("--calls", metavar="N,..")
    words.add_argument("--kinds", metavar="KIND,..", help="valid, stale, never; and crashed, which --processes takes")
    words.add_argument("--seeds", metavar="N,..|FIRST..LAST")
    words.add_argument("--budget", metavar="N,..", help=f"of both judges, {DEFAULT_BUDGET} where it is left out")
    words.add_argument("--judges", metavar="NAME,..", help="jeprun, plain, or both")
    words.add_argument("--configurations", action="store_true", help="find the least budget with which jeprun decides")
    words.add_argument("--jeprun", metavar="FILE", default="crates/jeprun/out/jeprun")
    words.add_argument("--memory", metavar="MB", type=int, default=4096, help="the address space of each program, 4096")
    words.add_argument("--seconds", metavar="N", type=int, default=600, help="the processor time of each program, 600")
    asked = words.parse_args()
    fill(asked)
    return asked


def fill(asked):
    """Sets what was left out."""
    where_left_out = TABLE
    if asked.default_budget:
        where_left_out = BY_DEFAULT_BUDGET
    elif asked.sequential:
        where_left_out = SEQUENTIAL
    elif asked.processes:
        where_left_out = PROCESSES | {"clients": asked.processes}
    for name, text in where_left_out.items():
        if getattr(asked, name) is None:
            setattr(asked, name, text)


def budgets_of(asked):
    if asked.budget is None:
        return [None]
    budgets = [int(word) for word in asked.budget.split(",")]
    if not all(0 < budget <= LARGEST_BUDGET for budget in budgets):
        sys.exit(f"--budget: 1 to {LARGEST_BUDGET}")
    return budgets


def judges_of(asked, folder):
    names = asked.judges.split(",")
    if not set(names) <= {"jeprun", "plain"}:
        sys.exit("--judges: jeprun, plain, or both with a comma between")
    if "jeprun" in names and not os.path.exists(asked.jeprun):
        sys.exit(f"{asked.jeprun} is not there: build it first, by rt run in crates/jeprun")
    programs = {"jeprun": os.path.abspath(asked.jeprun), "plain": built_plain(folder) if "plain" in names else None}
    return [Judge(name, programs[name], (asked.memory, asked.seconds)) for name in names]


def main():
    asked = arguments()
    groups = list(groups_of(asked))
    if asked.write:
        for case in itertools.chain(*groups):
            write(case, asked.write)
        return
    with tempfile.TemporaryDirectory() as folder:
        table(groups, budgets_of(asked), judges_of(asked, folder), asked)


if __name__ == "__main__":
    main()

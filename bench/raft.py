#!/usr/bin/env python3
"""After how many candidates each mistake of a register by Raft is found, in the simulation of adapters/python.

    bench/raft.py [PROGRAM] [--candidates N] [--bugs WORD,..] [--jobs N] [--log FILE] [--seconds N] [--found FOLDER]

Run it at the top of the repository; PROGRAM is `crates/jeprun/out/jeprun` where it is left out. For each bug of
nodes/raft.py candidates are tried up to the first whose history is not valid, N of them (1,000) at most. Of the node
without a bug, which is called `none`, all N are tried, in the settings of each bug.

The candidates are those of `jeprun search --drive`, of the settings in adapters/python/nodes that the row names: three
random faults of all kinds, among those that stand there. They are tried in parts of 200, each by one search as
`simulated.py --search` makes it, and --jobs says how many parts at once (1). --found keeps the settings of those that
are not valid, and then each is made small by `jeprun shrink --drive`.

A row has how many candidates were tried, the number of the first one that is not valid, how many verdicts are unknown
in the parts where none was found, how many calls a candidate had answered with `:ok`, and the seconds of processor
time that one takes, with those of `jeprun`. With --found it has too how many entries the schedule of the one that was
found has, how many of them are left, and by how many tests. A line for each part is written to the log, and those that
are there are not tried again. So a long search may be done in pieces, none of which begins a part after so many
seconds.
"""

import argparse
import concurrent.futures
import dataclasses
import itertools
import pathlib
import re
import resource
import sys
import tempfile
import time
import tomllib

TOP = pathlib.Path(__file__).resolve().parent.parent
PYTHON = TOP / "adapters" / "python"
sys.path[:0] = [str(PYTHON), str(PYTHON / "nodes")]

import jeprun  # noqa: E402
import raft  # noqa: E402
import simulated  # noqa: E402

NONE = "none"
FAULTS, PART = 3, 200
LATENCY = 10.0  # milliseconds
# The settings in which bugs are looked for, and how many seconds a client waits there. The right node is tried in all.
SETTINGS = {"raft_cut": 0.5, "raft_race": 0.8, "raft_crash": 0.3}
OF_BUG = {
    "reads-alone": "raft_cut",
    "cuts-log": "raft_cut",
    "snapshot-only": "raft_cut",
    "counts-old": "raft_race",
    "forgets-vote": "raft_crash",
}
ROWS = [(NONE, name) for name in SETTINGS] + [*OF_BUG.items()]
INVALID, UNKNOWN = 1, 2  # statuses of `jeprun search --drive`
UNKNOWN_LINE = re.compile(r":none {:tried \d+, :unknown (\d+)}")


@dataclasses.dataclass
class Part:
    """What became of candidates from one on: a line of the log."""

    bug: str
    settings: str
    first: int
    tried: int
    found: int  # the number of the one that is not valid, or -1
    unknown: int
    calls: int
    seconds: float

    def __str__(self):
        return " ".join(map(str, dataclasses.astuple(self)))


def read_log(path):
    rows = [line.split() for line in path.read_text().splitlines()] if path.exists() else []
    return [Part(bug, name, *map(int, numbers), float(seconds)) for bug, name, *numbers, seconds in rows]


def processor_seconds():
    used = [resource.getrusage(who) for who in (resource.RUSAGE_SELF, resource.RUSAGE_CHILDREN)]
    return sum(use.ru_utime + use.ru_stime for use in used)


def try_part(program, bug, name, first):
    """Tries a part, and says what became of it, with the settings that were found."""
    began, calls = processor_seconds(), []
    path, words = PYTHON / "nodes" / f"{name}.toml", [] if bug == NONE else [bug]
    test = simulated.Test(program, path, jeprun.read_settings(path, program), "lin-kv", raft.start, words,
                          latency=LATENCY, timeout=SETTINGS[name])  # fmt: skip
    asked = [f"--from={first}", f"--runs={PART}", f"--faults={FAULTS}"]
    result = simulated.run_many(test, "search", asked, lambda replies: calls.append(replies.count(b":type :ok")))
    if result.status not in (0, INVALID, UNKNOWN):
        raise SystemExit(f"candidates of {bug} from {first} on: status {result.status}")
    found = result.begun[0] if result.status == INVALID else -1
    unknown = 0 if result.status == INVALID else int(UNKNOWN_LINE.fullmatch(result.verdict())[1])
    seconds = round(processor_seconds() - began, 3)
    return Part(bug, name, first, len(calls), found, unknown, sum(calls), seconds), result.found()


def parts_of(options, tried):
    """The parts that are to be tried, in turn: the first of each row, then the second of each, and so on, of a bug
    until it is found."""
    done = {(it.bug, it.settings, it.first) for it in tried}
    for first, (bug, name) in itertools.product(range(0, options.candidates, PART), ROWS):
        found = bug != NONE and any(it.bug == bug and it.found >= 0 for it in tried)
        if not found and bug in options.bugs.split(",") and (bug, name, first) not in done:
            yield bug, name, first


def try_all(tried, options):
    """Tries the parts, so many at once, until the time is up."""
    began, pending = time.monotonic(), set()
    with concurrent.futures.ProcessPoolExecutor(options.jobs) as pool, open(options.log, "a") as log:

        def take(count):
            """Waits until at most so many are under way, and takes what became of the others."""
            nonlocal pending
            while len(pending) > count:
                done, pending = concurrent.futures.wait(pending, return_when=concurrent.futures.FIRST_COMPLETED)
                for future in done:
                    part, settings = future.result()
                    tried.append(part)
                    print(part, file=log, flush=True)
                    keep(options.found, part, settings)

        for part in parts_of(options, tried):
            if options.seconds and time.monotonic() - began > options.seconds:
                break
            pending.add(pool.submit(try_part, options.program, *part))
            take(options.jobs - 1)
        take(0)


def path_of(folder, bug, name, found):
    return folder / f"{bug}-{name}-{found}.toml"


def keep(folder, part, settings):
    if folder and part.found >= 0:
        folder.mkdir(parents=True, exist_ok=True)
        path_of(folder, part.bug, part.settings, part.found).write_bytes(settings)


def made_small(program, bug, name, path):
    """How many entries the schedule of settings that were found has, how many are left, and by how many tests."""
    settings, replies = jeprun.read_settings(path, program), []
    test = simulated.Test(program, path, settings, "lin-kv", raft.start, [bug], settings.table["seed"], LATENCY,
                          SETTINGS[name])  # fmt: skip
    result = simulated.run_many(test, "shrink", [], replies.append)
    small = path.with_name(f"{path.stem}-small.toml")
    small.write_bytes(result.found())
    if result.heading() != ":minimal":
        return len(settings.table["schedule"]), result.heading(), len(replies)
    return len(settings.table["schedule"]), len(tomllib.loads(small.read_text())["schedule"]), len(replies)


def row(bug, name, parts, options):
    """The row of a bug in these settings."""
    tried, unknown = sum(it.tried for it in parts), sum(it.unknown for it in parts)
    calls, seconds = sum(it.calls for it in parts) / tried, sum(it.seconds for it in parts) / tried
    found = min((it.found for it in parts if it.found >= 0), default="none")
    cells = [f"`{bug}`", f"`{name}.toml`", f"{tried:,}", found, unknown, f"{calls:.0f}", f"{seconds:.3f}"]
    if options.found:
        path = path_of(options.found, bug, name, found)
        cells += made_small(options.program, bug, name, path) if path.exists() else ["", "", ""]
    return "| " + " | ".join(map(str, cells)) + " |"


def parse():
    parser = argparse.ArgumentParser()
    option = parser.add_argument
    option("program", nargs="?", default=str(TOP / "crates" / "jeprun" / "out" / "jeprun"))
    option("--candidates", type=int, default=1_000, metavar="N")
    option("--bugs", default=",".join([NONE, *raft.BUGS]), metavar="WORD,..")
    option("--jobs", type=int, default=1, metavar="N")
    option("--log", type=pathlib.Path, default=None, metavar="FILE")
    option("--seconds", type=float, default=0, metavar="N")
    option("--found", type=pathlib.Path, metavar="FOLDER")
    return parser.parse_args()


def main():
    options = parse()
    with tempfile.TemporaryDirectory() as room:
        options.log = options.log or pathlib.Path(room, "log")
        tried = read_log(options.log)
        try_all(tried, options)
    heads = ["Bug", "Settings", "Tried", "Found", "Unknown", "Calls `:ok`", "Seconds"]
    heads += ["Entries", "Left", "Tests"] if options.found else []
    print("| " + " | ".join(heads) + " |\n" + "|---" * len(heads) + "|")
    for bug, name in ROWS:
        if parts := [it for it in tried if (it.bug, it.settings) == (bug, name)]:
            print(row(bug, name, parts, options), flush=True)


if __name__ == "__main__":
    main()

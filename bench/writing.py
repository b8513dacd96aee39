#!/usr/bin/env python3
"""How fast histories and reports are written, beside a plain writer that writes the same bytes through a buffer.

    bench/writing.py [--times N] [--least SECONDS] [--size N] [WORD ..]

Run it at the top of the repository, after `rt run` in crates/jeprun; it builds the plain writer, bench/writing/plain.rs, by
`rustc -O`. Where WORDs are given, only inputs are taken whose names have one of them.

Writing can't be timed from outside by itself. So `jeprun` is run twice, once where it writes much and once where it does the same
work and writes next to nothing, and what counts is the difference. There are three kinds of inputs:

- `report`: a register's history of one read of what was never written, whose completion has a large value under another key.
  `jeprun check --workload register --explain` writes the completion with all its keys; without `--explain` it says no, and that
  is all. An explanation copies the completion first, and that is in the difference; the plain writer copies nothing.
- `counter`: a history of reads that are wrong. `jeprun check --workload counter` writes each with its bounds, and then once more
  as an error. The other history is of the same size, and all its reads fail, so none is written.
- `run`: settings of a serial run. `jeprun run` makes the run, judges it and writes its history; `jeprun shrink` makes the same
  run once, judges it, and says that it does not fail. The plain writer reads the history that was written and writes it again.

The plain writer tells the processor time that it takes behind its reading; of a counter, which it judges first, the difference of
two runs counts, too. The programs are run in turn, N times (50) and until `jeprun` wrote for SECONDS (1); the least time counts.
Before that the bytes that both write are compared, and the script stops where they differ. While it measures, the output goes to
/dev/null. Reports are of a megabyte or two, and N times as large with `--size N`: of a larger one fewer runs are undisturbed, so
its difference scatters more.

A row has the megabytes that are written, the seconds of processor time that this takes the plain writer, the megabytes a second
of both, and how many times as much time `jeprun` takes. Compare these ratios only: the rest is the machine's.
"""

import argparse
import os
import subprocess
import sys
import tempfile

import growth

PROGRAM = os.path.join("crates", "jeprun", "out", "jeprun")
PLAIN = os.path.join("bench", "writing", "plain.rs")
REGISTER = ("check", "--workload", "register")
COUNTER = ("check", "--workload", "counter")


def vector(count, element):
    return "[" + " ".join(str(element(index)) for index in range(count)) + "]"


def nested(index):
    """What a client might tell of an answer."""
    return (
        f'{{:node "n{index % 5}", :asked [:cas [{index} {index + 1}]], :seen #{{{index} nil true}}, '
        f':took #ms {index % 997}, :error "connection \\"n{index % 5}\\" refused"}}'
    )


# The values in reports, each of a megabyte or two for each unit of size.
VALUES = {
    "integers of 7 digits": lambda size: vector(2 * 10**5 * size, lambda index: 10**6 + index * 7919 % 10**6),
    "integers of 19 digits": lambda size: vector(10**5 * size, lambda index: 9 * 10**18 + index * 7919),
    "one string": lambda size: '"' + "x" * 10**6 * size + '"',
    "one string, each tenth byte escaped": lambda size: '"' + '\\"xxxxxxxxx' * 10**5 * size + '"',
    "strings of 100 bytes": lambda size: vector(10**4 * size, lambda _: '"' + "0123456789" * 10 + '"'),
    "strings of 10 bytes": lambda size: vector(10**5 * size, lambda _: '"0123456789"'),
    "keywords": lambda size: vector(10**5 * size, lambda index: f":key{index * 7919 % 10**6}"),
    "maps with nested values": lambda size: vector(10**4 * size, nested),
}


def report(value):
    return (
        "{:index 0, :type :invoke, :process 0, :f :read, :value nil}\n"
        f"{{:index 1, :type :ok, :process 0, :f :read, :value 1, :seen {value}}}\n"
    )


def counter(reads, kind):
    """Ten adds of nearly all that 64 bits hold, and so many reads of other large numbers, which end `kind`."""
    calls = [(":add", str(9 * 10**18 + add), str(9 * 10**18 + add), ":ok") for add in range(10)]
    calls += [(":read", "nil", str(8 * 10**18 + read), kind) for read in range(reads)]
    return "".join(
        f"{{:type :invoke, :process 0, :f {f}, :value {asked}}}\n{{:type {end}, :process 0, :f {f}, :value {answer}}}\n"
        for f, asked, answer, end in calls
    )


def settings(workload, calls, generator):
    """The settings of bench/growth.py on a quorum, with another generator."""
    lines = growth.settings("quorum", workload, calls).decode().splitlines()
    lines = [line for line in lines if not line.startswith(("generator", "schedule"))]
    return "\n".join([*lines, f"generator = '{generator}'", ""])


# The settings of runs. Half of a set's calls are adds, and then it is read.
RUNS = {
    "set, 1,000 calls": ("set", 1_000, "[:seq [:limit 500 [:rising 0]] [:forever :read]]"),
    "set of integers of 19 digits": ("set", 1_000, "[:seq [:limit 500 [:rising 9000000000000000000]] [:forever :read]]"),
    "register, 10,000 calls": ("register", 10_000, "[:mix [:forever :read] [:forever [:write 1]]]"),
    "counter, 10,000 calls": ("counter", 10_000, "[:mix [:forever :read] [:forever [:add 1]]]"),
    "unique ids, 10,000 calls": ("unique-ids", 10_000, "[:forever :generate]"),
}


def history_of(output):
    """The history that a run wrote: all lines but the last three."""
    return b"".join(output.splitlines(keepends=True)[:-3])


def written(words, text):
    """What a program writes of a text."""
    done = subprocess.run(words, input=text, capture_output=True, check=False)
    if done.returncode not in (0, 1, 2):
        sys.exit(f"{' '.join(words)}: status {done.returncode}: {done.stderr.decode().strip()}")
    return done.stdout


def seconds(words, source):
    """The processor time of one run, of the plain writer that behind its reading."""
    source.seek(0)
    child = subprocess.Popen(words, stdin=source, stdout=subprocess.DEVNULL, stderr=subprocess.PIPE)
    told = child.stderr.read().decode()
    _, status, usage = os.wait4(child.pid, 0)
    child.returncode = os.waitstatus_to_exitcode(status)
    if child.returncode not in (0, 1, 2):
        sys.exit(f"{' '.join(words)}: status {child.returncode}: {told}")
    return usage.ru_utime + usage.ru_stime if words[0] == PROGRAM else int(told) / 1e9


def measure(runs, times, least):
    """The least processor time of each of these programs with its input, from runs in turn."""
    found = [[] for _ in runs]
    with tempfile.TemporaryDirectory() as room:
        sources = []
        for number, (_, text) in enumerate(runs):
            sources.append(open(os.path.join(room, str(number)), "w+b"))
            sources[-1].write(text)
        while len(found[0]) < times or sum(found[0]) < least:
            for (words, _), source, took in zip(runs, sources, found):
                took.append(seconds(words, source))
        for source in sources:
            source.close()
    return [min(it) for it in found]


def rows(size):
    """Each row: its name, and a function that gives what is run: `jeprun` where it writes much, and where it writes little; the
    plain writer where it writes much, and of a counter where it writes little."""
    for name, value in VALUES.items():

        def reports(plain, value=value):
            text = report(value(size)).encode()
            both = (PROGRAM, *REGISTER)
            return [((*both, "--explain"), text), (both, text), ((plain, "stuck"), text)]

        yield f"report: {name}", reports

    def counters(plain):
        texts = [counter(10**4 * size, kind).encode() for kind in (":ok  ", ":fail")]
        return [(words, text) for words in ((PROGRAM, *COUNTER), (plain, "counter")) for text in texts]

    yield "counter: reads, all wrong", counters
    for name, asked in RUNS.items():

        def histories(plain, asked=asked):
            text = settings(*asked).encode()
            history = history_of(written((PROGRAM, "run"), text))
            own = [((PROGRAM, command), text) for command in ("run", "shrink")]
            return [*own, ((plain, "lines"), history)]

        yield f"run: {name}", histories


def row(name, runs, times, least):
    outputs = [written(*run) for run in runs]
    much = history_of(outputs[0]) if name.startswith("run") else outputs[0]
    if much != outputs[2]:
        sys.exit(f"{name}: the plain writer writes other bytes")
    if any(len(output) > 100 for output in (outputs[1], *outputs[3:])):
        sys.exit(f"{name}: too much is written where next to nothing should be")
    took = measure(runs, times, least)
    size, own, plain = len(much) / 1e6, took[0] - took[1], took[2] - sum(took[3:])
    return [name, f"{size:.1f}", f"{plain:.4f}", f"{size / plain:,.0f}", f"{size / own:,.0f}", f"{own / plain:.2f}"]


def main():
    words = argparse.ArgumentParser(description="How fast histories and reports are written, beside a plain writer.")
    words.add_argument("--times", type=int, default=50, metavar="N", help="runs of each, at least")
    words.add_argument("--least", type=float, default=1.0, metavar="SECONDS", help="processor time of jeprun, at least")
    words.add_argument("--size", type=int, default=1, metavar="N", help="reports of so many megabytes, or twice as many")
    words.add_argument("word", nargs="*", metavar="WORD", help="take the inputs whose names have one of these")
    asked = words.parse_args()
    if not os.path.exists(PROGRAM):
        sys.exit(f"{PROGRAM} is not there: build it first, by rt run in crates/jeprun")
    print("| Input | MB | plain s | plain MB/s | jeprun MB/s | time |")
    print("|---|---|---|---|---|---|")
    with tempfile.TemporaryDirectory() as room:
        plain = os.path.join(room, "plain")
        subprocess.run(["rustc", "-O", "--edition", "2021", "-o", plain, PLAIN], check=True)
        for name, runs in rows(asked.size):
            if not asked.word or any(word in name for word in asked.word):
                print("|", " | ".join(row(name, runs(plain), asked.times, asked.least)), "|", flush=True)


if __name__ == "__main__":
    main()

#!/usr/bin/env python3
"""How fast EDN is read, and in how much memory, beside a plain reader that builds the same tree.

    bench/reading.py [--times N] [--least SECONDS] [WORD ..]

Run it at the top of the repository, after `rt run` in crates/jeprun; it builds the plain reader, bench/reading/plain.rs, by
`rustc -O`. Each input is given to the plain reader and to `jeprun` in turn, N times (3) and until each was run for SECONDS
(0.5); the least time counts. Where WORDs are given, only inputs are taken whose names have one of them.

- `tree`: `jeprun env`, which reads the whole text into a tree before it judges it. That it then refuses the first element as no
  environment costs nothing.
- `check`: `jeprun check --workload unique-ids`, of inputs that are histories: read, judged, and one line written.

A row has the input's megabytes, the plain reader's seconds of processor time and bytes of peak memory for each byte of text, and
how many times as much `jeprun` takes. Compare these ratios only: the rest is the machine's.
"""

import argparse
import os
import subprocess
import sys
import tempfile

PROGRAM = os.path.join("crates", "jeprun", "out", "jeprun")
PLAIN = os.path.join("bench", "reading", "plain.rs")
ENV = (PROGRAM, "env")
CHECK = (PROGRAM, "check", "--workload", "unique-ids")


def operation(index, begin="{", more=""):
    """One operation, as Jepsen prints them to a history: an id is asked for and made."""
    kind, value = (":invoke", "nil") if index % 2 == 0 else (":ok", str(index))
    return (
        f"{begin}:index {index}, :time {index * 104729}, :type {kind}, :process {index // 2 % 10}, "
        f":f :generate, :value {value}{more}}}\n"
    )


def history(count, **how):
    return "".join(operation(index, **how) for index in range(count))


def rich(index):
    """An operation with an error and a nested value."""
    more = ', :error "connection refused"' if index % 50 == 1 else ""
    kind, value = (":invoke", "nil") if index % 2 == 0 else (":ok", f"[{index} {{:node :n{index % 5}}}]")
    return (
        f"{{:index {index}, :time {index * 104729}, :type {kind}, :process {index // 2 % 10}, "
        f":f :generate, :value {value}{more}}}\n"
    )


def elements(count):
    """Numbers in no order, each once."""
    return " ".join(str(index * 7919 % count) for index in range(count))


# Each input: how it is made, and whether it is a history that can be checked.
INPUTS = {
    "history of 10^5 operations": (lambda: history(10**5), True),
    "history of 10^6 operations": (lambda: history(10**6), True),
    "the same, tagged": (lambda: history(10**6, begin="#jepsen.history.Op{"), True),
    "the same in one vector": (lambda: "[" + history(10**6) + "]", True),
    "10^6 with errors, nested values": (lambda: "".join(map(rich, range(10**6))), True),
    "vector of 10^5 integers": (lambda: "[" + elements(10**5) + "]", False),
    "set of 10^5 integers": (lambda: "#{" + elements(10**5) + "}", False),
    "map of 10^5 keys": (lambda: "{" + " ".join(f":k{index * 7919 % 10**5} {index}" for index in range(10**5)) + "}", False),
    "string of 10 megabytes": (lambda: '"' + "x" * 10**7 + '"', False),
    "10^6 strings of 10 bytes": (lambda: "[" + '"0123456789" ' * 10**6 + "]", False),
}


def run(words, source):
    """The processor time in seconds and the peak memory in bytes of one run; it may refuse what it reads."""
    source.seek(0)
    child = subprocess.Popen(words, stdin=source, stdout=subprocess.DEVNULL, stderr=subprocess.PIPE)
    complaint = child.stderr.read().decode().strip()
    _, status, usage = os.wait4(child.pid, 0)
    child.returncode = os.waitstatus_to_exitcode(status)
    if child.returncode not in (0, 3) or (child.returncode == 3) != (words == ENV):
        sys.exit(f"{' '.join(words)}: status {child.returncode}: {complaint}")
    return usage.ru_utime + usage.ru_stime, usage.ru_maxrss * 1024


def measure(all_words, source, times, least):
    """For each program the least processor time and the peak memory, from runs in turn."""
    found = {words: [] for words in all_words}
    while len(found[all_words[0]]) < times or any(sum(it[0] for it in runs) < least for runs in found.values()):
        for words in all_words:
            found[words].append(run(words, source))
    return {words: (min(it[0] for it in runs), max(it[1] for it in runs)) for words, runs in found.items()}


def row(name, plain, times, least):
    # The input is made by a process of its own: what a process was before it runs a program counts among its memory.
    with tempfile.TemporaryFile() as source:
        subprocess.run([sys.executable, __file__, "--write", name], stdout=source, check=True)
        size = source.seek(0, os.SEEK_END)
        programs = [(plain,), ENV, *([CHECK] if INPUTS[name][1] else [])]
        found = measure(programs, source, times, least)
    seconds, memory = found[(plain,)]
    cells = [name, f"{size / 1e6:.1f}", f"{seconds:.2f}", f"{memory / size:.1f}"]
    for words in programs[1:]:
        cells += [f"{found[words][0] / seconds:.2f}", f"{found[words][1] / memory:.2f}", f"{found[words][1] / size:.1f}"]
    return cells + [""] * (10 - len(cells))


def main():
    words = argparse.ArgumentParser(description="How fast EDN is read, beside a plain reader.")
    words.add_argument("--times", type=int, default=3, metavar="N", help="runs of each, at least")
    words.add_argument("--least", type=float, default=0.5, metavar="SECONDS", help="processor time of each, at least")
    words.add_argument("--write", metavar="NAME", help="write this input and stop")
    words.add_argument("word", nargs="*", metavar="WORD", help="take the inputs whose names have one of these")
    asked = words.parse_args()
    if asked.write:
        sys.stdout.write(INPUTS[asked.write][0]())
        return
    if not os.path.exists(PROGRAM):
        sys.exit(f"{PROGRAM} is not there: build it first, by rt run in crates/jeprun")
    print("| Input | MB | plain s | plain B/B | tree time | tree memory | B/B | check time | check memory | B/B |")
    print("|---|---|---|---|---|---|---|---|---|---|")
    with tempfile.TemporaryDirectory() as room:
        plain = os.path.join(room, "plain")
        subprocess.run(["rustc", "-O", "--edition", "2021", "-o", plain, PLAIN], check=True)
        for name in INPUTS:
            if not asked.word or any(word in name for word in asked.word):
                print("|", " | ".join(row(name, plain, asked.times, asked.least)), "|", flush=True)


if __name__ == "__main__":
    main()

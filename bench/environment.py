#!/usr/bin/env python3
"""How long `jeprun env` takes for an environment and its steps, and how much memory, beside a plain program that does the same.

    bench/environment.py [--program FILE] [--times N] [WORD ..]

Run it at the top of the repository, after `rt run` in crates/jeprun; FILE is `crates/jeprun/out/jeprun` where it is left out. It
builds the plain program, bench/environment/plain.rs, by `rustc -O`. Where WORDs are given, only inputs are taken whose names have
one of them.

The inputs, on 64 nodes where a name has no number of nodes:

  all links            4,095 steps, each of which begins or withdraws a cut of all 4,032 links; the text names each link
  rings, N nodes       4,095 steps, each of which begins or withdraws a cut `[:ring SEED]`, each begin with another seed
  255 active           255 faults of all links, a cut, a slow, a loss and a fix in turn, that all stay active
  255 beside another   255 cuts of one link that stay active, while another, of no link, comes and goes 1,900 times
  undo, N nodes        a cut of all links, and 10,000 times its undo and its redo
  all kinds            4,000 steps and faults of every kind over a start that has every key; some steps are refused

Each is given to both programs in turn, N times (5), and the script stops where they do not write the same bytes. The least
processor time counts, and the least of the most memory, of which some 15 megabytes are those of the script that starts both.

A row has the megabytes of the input; the seconds and megabytes of the plain program; those of `jeprun env`; and how many times
as long and as much that is. Compare these ratios only: the rest is the machine's. The plain program holds the text, the faults
and the tree of one step at a time; `jeprun env` holds the tree of the whole input, and the last ratio shows it.
"""

import argparse
import os
import random
import subprocess
import sys
import tempfile

PROGRAM = os.path.join("crates", "jeprun", "out", "jeprun")
PLAIN = os.path.join("bench", "environment", "plain.rs")
NODES = 64
# How many faults come, each of which is withdrawn when the next one has come. A nemesis keeps 4,096 steps.
COMING = 2048
STANDING = 255
KINDS = (":cut", ":slow 100", ":loss 7", ":fix 200")


def vector(items):
    return "[" + " ".join(items) + "]"


def nodes_of(count):
    return [f'"n{place}"' for place in range(1, count + 1)]


def links_of(count):
    """All links between so many nodes."""
    nodes = nodes_of(count)
    return vector(f"[{source} {destination}]" for source in nodes for destination in nodes if source != destination)


def start(count):
    return f"{{:nodes {vector(nodes_of(count))}}}"


def in_turn(faults):
    """Steps that begin each of these faults, and withdraw the one before it."""
    for number, fault in enumerate(faults):
        yield f"[:begin {number} {fault}]"
        if number > 0:
            yield f"[:withdraw {number - 1}]"


def all_links():
    fault = f"[:cut {links_of(NODES)}]"
    return [start(NODES), *in_turn(fault for _ in range(COMING))]


def rings(count):
    return [start(count), *in_turn(f"[:ring {seed}]" for seed in range(COMING))]


def standing():
    links = links_of(NODES)
    return [start(NODES), *(f"[:begin {number} [{KINDS[number % len(KINDS)]} {links}]]" for number in range(STANDING))]


def beside_another():
    others = [f'[:begin {number} [:cut [["n1" "n2"]]]]' for number in range(STANDING)]
    return [start(NODES), *others, *["[:begin 1000 [:cut []]]", "[:withdraw 1000]"] * 1900]


def undone(count):
    return [start(count), f"[:begin 1 [:cut {links_of(count)}]]", *["[:undo]", "[:redo]"] * 10_000]


def random_fault(dice):
    """A fault of any kind, whose links and nodes may stand in it twice; a clock that is bumped may not."""
    nodes = nodes_of(NODES)
    some = vector(dice.choices(nodes, k=dice.randrange(4)))
    links = vector(vector(dice.sample(nodes, 2)) for _ in range(dice.randrange(200)))
    bumps = [f"{node} {dice.choice([-1, 1]) * dice.randint(1, 10**9)}" for node in dice.sample(nodes, 3)]
    kinds = [
        f"[:cut {links}]",
        f"[:slow {dice.randint(1, 60_000)} {links}]",
        f"[:loss {dice.randint(1, 20)} {links}]",
        f"[:fix {dice.randint(0, 60_000)} {links}]",
        f"[:pause {some}]",
        f"(:kill {some})",
        "[:bump {" + ", ".join(bumps) + "}]",
        "[:halves]",
        "[:bridge]",
        f"[:split-one {dice.choice(nodes)}]",
        "[:ring]",
        f"[:ring {dice.randrange(2**63)}]",
    ]
    return dice.choice(kinds)


def random_step(dice):
    which = dice.random()
    if which < 0.45:
        return f"[:begin {dice.randrange(99)} {random_fault(dice)}]"
    if which < 0.65:
        return f"[:withdraw {dice.randrange(99)}]"
    if which < 0.66:
        return "[:withdraw-all]"
    return "[:undo]" if which < 0.84 else "[:redo]"


def all_kinds():
    dice = random.Random(1)
    keys = [
        f":nodes {vector(nodes_of(NODES))}",
        ':cut [["n1" "n2"] ["n64" "n63"]], :slow [["n2" "n1" 300]], :loss [["n3" "n4" 9]]',
        ':down [["n5" :paused] ["n6" :killed]], :clock [["n7" -1000000000000]]',
    ]
    refused = ["[:undo]", "[:redo]", "[:withdraw 1]", "[:withdraw-all]"]
    return ["{" + ", ".join(keys) + "}", *refused, *(random_step(dice) for _ in range(4000))]


INPUTS = {
    "all links": all_links,
    "rings, 32 nodes": lambda: rings(32),
    "rings, 64 nodes": lambda: rings(64),
    "255 active": standing,
    "255 beside another": beside_another,
    "undo, 32 nodes": lambda: undone(32),
    "undo, 64 nodes": lambda: undone(64),
    "all kinds": all_kinds,
}


def run(words, source):
    """What a program writes of this input, its processor time in seconds, and the most memory in megabytes."""
    source.seek(0)
    with tempfile.TemporaryFile() as output:
        child = subprocess.Popen(words, stdin=source, stdout=output)
        _, status, usage = os.wait4(child.pid, 0)
        if os.waitstatus_to_exitcode(status) != 0:
            sys.exit(f"{' '.join(words)}: status {os.waitstatus_to_exitcode(status)}")
        output.seek(0)
        return output.read(), usage.ru_utime + usage.ru_stime, usage.ru_maxrss / 1024


def row(plain, program, name, times):
    """The cells of a row."""
    with tempfile.TemporaryFile() as source:
        # The input is made by a process of its own: what a process was before it runs a program counts among its memory.
        subprocess.run([sys.executable, __file__, "--write", name], stdout=source, check=True)
        size = source.seek(0, os.SEEK_END)
        runs = [[run(words, source) for words in ([plain], [program, "env"])] for _ in range(times)]
    if any(ours[0] != theirs[0] for theirs, ours in runs):
        sys.exit(f"what the programs write of the input `{name}` differs")
    (plain_s, plain_mb), (s, mb) = ((min(it[place][1] for it in runs), min(it[place][2] for it in runs)) for place in (0, 1))
    cells = [name, f"{size / 1e6:.1f}", f"{plain_s:.3f}", f"{plain_mb:.0f}", f"{s:.3f}", f"{mb:.0f}"]
    return cells + [f"{s / plain_s:.1f}", f"{mb / plain_mb:.1f}"]


def main():
    if sys.argv[1:2] == ["--write"]:
        sys.stdout.writelines(f"{element}\n" for element in INPUTS[sys.argv[2]]())
        return
    words = argparse.ArgumentParser(description="How long jeprun env takes, beside a plain program that does the same.")
    words.add_argument("--program", metavar="FILE", default=PROGRAM, help=f"what is measured, {PROGRAM} where it is left out")
    words.add_argument("--times", type=int, default=5, metavar="N", help="runs of each")
    words.add_argument("word", nargs="*", metavar="WORD", help="a part of the names of the inputs that are taken")
    asked = words.parse_args()
    if not os.path.exists(asked.program):
        sys.exit(f"{asked.program} is not there: build it first, by rt run in crates/jeprun")
    print("| Input | MB | plain s | plain MB | jeprun s | MB | times as long | as much |")
    print("|---|---|---|---|---|---|---|---|")
    with tempfile.TemporaryDirectory() as room:
        plain = os.path.join(room, "plain")
        subprocess.run(["rustc", "-O", "--edition", "2021", "-o", plain, PLAIN], check=True)
        for name in INPUTS:
            if not asked.word or any(word in name for word in asked.word):
                print("|", " | ".join(row(plain, os.path.abspath(asked.program), name, asked.times)), "|", flush=True)


if __name__ == "__main__":
    main()

#!/usr/bin/env python3
"""How many steps a nemesis takes in a second, beside a plain program that keeps the same counts. Run it at the top of the
repository:

    bench/steps.py [--program FILE] [--standing KINDS] [KIND ..]

The script proves and builds bench/steps over jh_nemesis in a folder of its own, and builds bench/steps/plain.rs by `rustc -O`.
It copies the crates below with what earlier checks kept of them, so only the rest is proved. With --program it measures that
file, which was built before from bench/steps/main.rt.txt, and builds only the plain program.

KIND is the kind of a fault that is measured: cut, slow, loss, fix, pause, kill or bump. If none is given, cuts, slows and fixes
are measured. The fault names one link, or all links; a pause, a kill or a bump names one node, or all nodes. Each case is
measured on 2, 32 and 64 nodes, with 0 and with 255 other faults active. Those name all links. They are a cut, a slow, a loss and
a fix in turn, or of the kinds that --standing gives, with commas between: `--standing fix fix` has a fix beside 255 others.

A round of `begin` withdraws the fault and begins it again. A round of `undo` undoes the begin and redoes it. Each round is two
steps. Each begin copies the fault and tests that it fits; both programs do so within the time. A nemesis keeps 4,096
steps, so a long run of begins goes on with a new nemesis; making it is not counted. The two programs run in turn, three times
for each case, and the fastest run counts. Each prints a checksum of the cells with the fault and without it, and the script
stops where these differ.

The columns are the kind, the nodes, the other active faults, the links or nodes that the fault names, and the steps of a round;
then thousands of steps a second, of the nemesis and of the plain program; then how many times as long the nemesis takes.
"""

import argparse
import os
import re
import shutil
import subprocess
import sys
import tempfile

CRATES = ("jh_edn", "jh_tables", "jh_env", "jh_grudge", "jh_nemesis")
KINDS = ("cut", "slow", "fix")
STANDING = "cut,slow,loss,fix"
OF_NODES = ("pause", "kill", "bump")
RUNS = 3
# The most rounds of begins beside 255 active faults, so that a nemesis has room for all of their steps.
MAX_BEGINS = 1900
# About as many links or nodes are named in all rounds of a case.
NAMED = 1_000_000


def built_nemesis(top):
    """The program over jh_nemesis, which is proved and built below the folder."""
    shutil.copy("HANDLES", top)
    with open("crates.txt") as crates, open(f"{top}/crates.txt", "w") as copy:
        copy.writelines(line for line in crates if re.split(r"[ :]", line)[0] in CRATES)
        copy.write("steps_bench: jh_env jh_nemesis\n")
    for crate in CRATES:
        shutil.copytree(f"crates/{crate}", f"{top}/crates/{crate}", symlinks=True)
    bench = f"{top}/crates/steps_bench"
    os.makedirs(f"{bench}/src")
    # The file ends in .txt in the repository, since the gate wants each source in a crate of its own.
    shutil.copy("bench/steps/main.rt.txt", f"{bench}/src/main.rt")
    subprocess.run(["git", "init", "-q"], cwd=top, check=True)
    case = map(str, words_of("cut", 2, 0, STANDING, 1, "undo"))
    said = subprocess.run(["rt", "run", "--", *case], cwd=bench, capture_output=True, text=True)
    if said.returncode != 0:
        sys.exit(said.stdout + said.stderr)
    return f"{bench}/out/steps_bench"


def built_plain(top):
    """The plain program, built in the folder."""
    program = f"{top}/plain"
    subprocess.run(["rustc", "--edition", "2021", "-O", "-o", program, "bench/steps/plain.rs"], check=True)
    return program


def words_of(kind, nodes, standing, kinds, named, steps):
    """The arguments of a case, with as many rounds as take some milliseconds."""
    rounds = max(100, NAMED // (named + 10))
    nemeses = -(-rounds // MAX_BEGINS) if steps == "begin" else 1
    return nodes, standing, kinds, kind, named, steps, rounds // nemeses, nemeses


def run(program, words):
    """The nanoseconds and the checksum that a program prints."""
    said = subprocess.run([program, *map(str, words)], capture_output=True, text=True)
    if said.returncode != 0:
        sys.exit(f"{program} {words}: {said.stderr}")
    return [int(word) for word in said.stdout.split()]


def measure(programs, kind, nodes, standing, kinds, named, steps):
    """Prints the row of a case."""
    words = words_of(kind, nodes, standing, kinds, named, steps)
    runs = [[run(program, words) for program in programs] for _ in range(RUNS)]
    if len({checksum for both in runs for _, checksum in both}) > 1:
        sys.exit(f"the checksums of {words} differ: {runs}")
    least = [min(both[which][0] for both in runs) for which in range(len(programs))]
    taken = 2 * words[-2] * words[-1]
    thousands = [taken * 1_000_000 / nanoseconds for nanoseconds in least]
    print(
        f"{kind:5} {nodes:5} {standing:6} {named:5} {steps:5} | {thousands[0]:9,.1f} {thousands[1]:9,.1f}"
        f" | {least[0] / least[1]:6.2f}",
        flush=True,
    )


def main():
    words = argparse.ArgumentParser(description="Measures steps of a nemesis beside a plain program.")
    words.add_argument("--program", metavar="FILE", help="the program over jh_nemesis, where it is built already")
    words.add_argument("--standing", metavar="KINDS", default=STANDING, help="the kinds of the other active faults")
    words.add_argument("kinds", nargs="*", metavar="KIND", help="the kinds of the faults that are measured")
    asked = words.parse_args()
    with tempfile.TemporaryDirectory() as top:
        nemesis = os.path.abspath(asked.program) if asked.program else built_nemesis(top)
        programs = [nemesis, built_plain(top)]
        print("kind  nodes active named steps |   nemesis     plain |  ratio")
        for kind in asked.kinds or KINDS:
            for nodes in (2, 32, 64):
                for standing in (0, 255):
                    for named in (1, nodes if kind in OF_NODES else nodes * (nodes - 1)):
                        for steps in ("begin", "undo"):
                            measure(programs, kind, nodes, standing, asked.standing, named, steps)


if __name__ == "__main__":
    main()

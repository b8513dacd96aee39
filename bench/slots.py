#!/usr/bin/env python3
"""How fast 1, 2 and 4 threads claim, write and publish a whole log of 65,536 rows, records of one row and of ten, and how
fast one seat reads it; beside a vector of the same records under a lock. At the top of the repository:

    python3 bench/slots.py

proves and builds bench/slots over jh_slots in a folder of its own, runs it, and prints millions of records a second: for each
run the fastest of 20.
"""

import os
import shutil
import subprocess
import sys
import tempfile

ROWS = 65_536
# The program's files end in .txt here, since the gate wants each source in a crate of its own.
SOURCES = {
    "main.rt": "src/main.rt",
    "proofs/fill/Invariants.antt": "proofs/fill/Invariants.antt",
    "proofs/read_all/Invariants.antt": "proofs/read_all/Invariants.antt",
}
CRATES = "jh_slots tests_may=Threads: atomic_table thiserror\nslots_bench: jh_slots\n"


def main():
    with tempfile.TemporaryDirectory() as top:
        shutil.copy("HANDLES", top)
        with open(f"{top}/crates.txt", "w") as crates:
            crates.write(CRATES)
        shutil.copytree("crates/jh_slots", f"{top}/crates/jh_slots", ignore=shutil.ignore_patterns("out"))
        bench = f"{top}/crates/slots_bench"
        for source, place in SOURCES.items():
            os.makedirs(os.path.dirname(f"{bench}/{place}"))
            shutil.copy(f"bench/slots/{source}.txt", f"{bench}/{place}")
        subprocess.run(["git", "init", "-q"], cwd=top, check=True)
        said = subprocess.run(["rt", "run"], cwd=bench, capture_output=True, text=True)
        if said.returncode != 0:
            sys.exit(said.stdout + said.stderr)
    print("rows of a record, threads | published, read, pushed to a vector under a lock: million records a second")
    for line in said.stdout.splitlines():
        words = line.split()
        if len(words) == 5 and all(word.isdigit() for word in words):
            rows, threads, *took = map(int, words)
            records = ROWS // rows
            print(f"{rows:2} {threads} | " + " ".join(f"{records / micros:7.1f}" for micros in took))


if __name__ == "__main__":
    main()

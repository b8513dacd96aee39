#!/usr/bin/env python3
"""How many calls a second a serial run makes, for each store and workload. Run it at the top of the repository, after
`rt run` in crates/jeprun:

    bench/runs.py [CLIENTS [SEED]]

10,000 calls (1,000 of a set) by CLIENTS clients (8) on 3, 32 and 64 nodes, half of them reads where there are reads, with a
tick after every 10 calls of a client and a cut that begins and ends. The time is that of the whole program: settings,
run, history, checker, output. A register is run twice, since its judge may take most of the time: once with the budget 0.
"""

import subprocess
import sys
import time

PROGRAM = "crates/jeprun/out/jeprun"
GENERATORS = {
    "register": "[:mix [:forever :read] [:forever [:write 1]]]",
    "counter": "[:mix [:forever :read] [:forever [:add 1]]]",
    "set": "[:mix [:forever :read] [:rising 0]]",
    "unique-ids": "[:forever :generate]",
}


def settings(store, workload, nodes, clients, seed, budget):
    names = " ".join('"n%d"' % n for n in range(1, nodes + 1))
    return f"""
start = '{{:nodes [{names}]}}'
mode = "serial"
store = "{store}"
workload = "{workload}"
clients = {clients}
ops = {1000 if workload == "set" else 10000}
generator = '{GENERATORS[workload]}'
tick_every = 10
seed = {seed}
budget = {budget}
schedule = ['[100 [:begin 1 [:cut [["n1" "n2"] ["n2" "n1"]]]]]', '[800 [:withdraw 1]]']
"""


def measure(store, workload, nodes, clients, seed, budget):
    text = settings(store, workload, nodes, clients, seed, budget)
    begin = time.monotonic()
    done = subprocess.run([PROGRAM, "run"], input=text.encode(), capture_output=True, check=False)
    took = time.monotonic() - begin
    calls = done.stdout.count(b":type :invoke")
    print(f"{store:6} {workload:10} {nodes:2} nodes, budget {budget:6}: {calls:5} calls in {took * 1000:6.0f} ms,"
          f" {calls / took:8.0f} a second, status {done.returncode}")


def main():
    clients = int(sys.argv[1]) if len(sys.argv) > 1 else 8
    seed = int(sys.argv[2]) if len(sys.argv) > 2 else 1
    for store in ("quorum", "lww", "local"):
        for workload in GENERATORS:
            for nodes in (3, 32, 64):
                for budget in ((0, 100000) if workload == "register" else (100000,)):
                    measure(store, workload, nodes, clients, seed, budget)


if __name__ == "__main__":
    main()

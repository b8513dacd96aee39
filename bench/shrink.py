#!/usr/bin/env python3
"""How many runs `jeprun shrink` makes, and how long it takes. Run it at the top of the repository, after `rt run` in
crates/jeprun:

    bench/shrink.py

Schedules of 10, 100 and 1,024 entries, of which three matter, spread over the schedule: a node is paused, the two that took
a write are killed, and they start again with nothing. The others bump a clock and take that back. The runs are counted by
what the program tells on a terminal.
"""

import os
import pty
import re
import subprocess
import time

PROGRAM = "crates/jeprun/out/jeprun"
MATTERS = ('[0 [:begin 1 [:pause ["n3"]]]]', '[1 [:begin 2 [:kill ["n1" "n2"]]]]', "[1 [:withdraw 2]]")


def schedule(count):
    entries = []
    places = [count // 5, count // 2, count - 2]
    for place in range(count):
        if place in places:
            entries.append(MATTERS[places.index(place)])
        elif place % 2 == 0:
            entries.append('[0 [:begin %d [:bump {"n1" 5}]]]' % (1000 + place))
        else:
            entries.append("[0 [:withdraw %d]]" % (1000 + place - 1))
    return entries


def settings(entries, calls):
    listed = ",\n".join("    '%s'" % entry for entry in entries)
    return f"""
start = '{{:nodes ["n1" "n2" "n3"]}}'
store = "quorum"
volatile = true
workload = "register"
initial = 0
clients = 1
ops = {calls}
generator = '[:seq [:once [:write 5]] [:forever :read]]'
schedule = [
{listed}
]
"""


def measure(count, calls):
    reader, writer = pty.openpty()
    begin = time.monotonic()
    with subprocess.Popen([PROGRAM, "shrink"], stdin=subprocess.PIPE, stdout=subprocess.PIPE, stderr=writer) as program:
        os.close(writer)
        program.stdin.write(settings(schedule(count), calls).encode())
        program.stdin.close()
        told = b""
        while True:
            try:
                part = os.read(reader, 65536)
            except OSError:
                break
            if not part:
                break
            told += part
        printed = program.stdout.read().decode().splitlines()
    took = time.monotonic() - begin
    os.close(reader)
    runs = re.findall(rb"run (\d+),", told)[-1].decode()
    print(f"{count:5} entries, {calls:4} calls: {printed[0]}, {len(printed) - 1} left, {runs:>4} runs in"
          f" {took * 1000:6.0f} ms, status {program.returncode}")


def main():
    for calls in (2, 100):
        for count in (10, 100, 1024):
            measure(count, calls)


main()

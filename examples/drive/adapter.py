"""An adapter between `jeprun drive` and a database, with a counter of its own in the database's place.

    adapter.py SETTINGS REPLIES

It conducts a test of unique ids, prints the report, and has the exit status of `jeprun drive`. The replies are kept in the file REPLIES,
too, from which the test can be played again. What touches a database would stand in `call`, what touches its machines in `change`.
"""

import itertools
import re
import subprocess
import sys
import threading
import time
from concurrent.futures import ThreadPoolExecutor

CALL = re.compile(r'.*, :process (\d+), :f (\S+), :value (.*), :node "(.*)"}')
STEP = re.compile(r".*, :process :nemesis, :f :step, :value (\d+), .*, :links (.*), :nodes (.*)}")
CLIENTS = 16
ids = itertools.count()


def call(node, f, value):
    """Makes a call to a node, and gives `:type` and `:value` of its completion."""
    return ":ok", next(ids)


def change(links, nodes):
    """Makes these links and nodes what they now have to be."""


class Test:
    """A conversation with `jeprun drive`."""

    def __init__(self, settings, replies):
        # In a session of its own, so that Ctrl-C reaches this program alone.
        words, pipe = ["jeprun", "drive", settings], subprocess.PIPE
        self.program = subprocess.Popen(words, stdin=pipe, stdout=pipe, text=True, start_new_session=True)
        self.replies, self.lock, self.began = replies, threading.Lock(), time.monotonic_ns()
        self.is_over = threading.Event()

    def say(self, reply):
        with self.lock:
            print(reply, file=self.replies, flush=True)
            try:
                print(reply, file=self.program.stdin, flush=True)
            except OSError:  # the test is over, and nobody reads
                self.is_over.set()

    def now(self):
        return time.monotonic_ns() - self.began

    def tick(self):
        """Tells the time now and then, so that what waits for it goes on."""
        while not self.is_over.wait(0.005):
            self.say(self.now())

    def answer(self, line):
        """Does what a line says, and says that it is done."""
        step = STEP.fullmatch(line)
        if step:
            change(step[2], step[3])
            self.say(f"{{:type :info, :process :nemesis, :f :step, :value {step[1]}, :time {self.now()}}}")
            return
        process, f, value, node = CALL.fullmatch(line).groups()
        try:
            kind, answered = call(node, f, value)
        except OSError:  # whether it happened is not known
            kind, answered = ":info", value
        self.say(f"{{:type {kind}, :process {process}, :f {f}, :value {answered}, :time {self.now()}}}")

    def conduct(self, threads):
        """Hands each line to a thread, prints the report, and gives the status."""
        for line in self.program.stdout:
            if line == ":end\n":
                break
            threads.submit(self.answer, line.rstrip("\n"))
        self.is_over.set()
        print(self.program.stdout.read(), end="", flush=True)
        return self.program.wait()


def main():
    settings, replies = sys.argv[1:]
    # Threads for the clients, the faults, the time and the conversation.
    with open(replies, "w", encoding="utf-8") as kept, ThreadPoolExecutor(CLIENTS + 3) as threads:
        test = Test(settings, kept)
        threads.submit(test.tick)
        status = threads.submit(test.conduct, threads)
        while True:
            try:
                return status.result()
            except KeyboardInterrupt:
                test.say(":stop")


if __name__ == "__main__":
    sys.exit(main())

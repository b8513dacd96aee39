#!/usr/bin/env python3
"""How long `jeprun drive` takes for tests of many calls, and how soon it answers a reply, beside a plain program that does the same.

    bench/drive.py [PROGRAM [WORD ..]] [--calls N] [--times N] [--records N] [--answers N]

Run it at the top of the repository, after `rt run` in crates/jeprun; PROGRAM is `crates/jeprun/out/jeprun` where it is left out. It builds
the plain program, bench/drive/plain.rs, by `rustc -O`. Where WORDs are given, only rows are taken whose names have one of them.

Tests have 16 clients, three nodes and N calls (1,000,000), and all replies are there from the start. Clients answer in turn, each with
the time, as soon as the one before has. So the replies are known without any database:

  ids            unique ids, without faults
  ids, crashes   the same, and each tenth call ends :info
  ids, faults    the same as the first, and 1,001 entries of a schedule, each second one of which withdraws what the one before it began
  counter        reads and adds
  register       reads and writes of keys of their own for each four threads, 100 calls a key
  set            adds, and then one read of all, whose reply is one line

First the bytes of both programs are compared, of the ids, and the script stops where they differ, or where a test is not valid. Then
each program is run N times (3), with its replies from a file and the output to /dev/null. A row has the megabytes of the replies; of
the plain program and of `jeprun drive` the least seconds of processor time and the most memory, in megabytes and in bytes for each byte
of replies; how many times as long as the plain program it takes; and the seconds that `jeprun check` takes to judge the history that was
written, which is in those of `jeprun drive` too, but for its reading.

The last row of each program, `answers`, is of a conversation through pipes: behind N records (500,000) of unique ids N replies (20,000)
are written one by one, each when the answer of the one before was read, and the time between the two is measured, by this
script, whose own time is in it. It has the median, the 99th percentile and the greatest. Below each table stands what is aimed at,
on a quiet machine.
"""

import argparse
import filecmp
import gc
import os
import pathlib
import subprocess
import sys
import tempfile
import threading
import time

PROGRAM = os.path.join("crates", "jeprun", "out", "jeprun")
PLAIN = os.path.join("bench", "drive", "plain.rs")
CLIENTS = 16
THREADS_PER_KEY, CALLS_PER_KEY = 4, 100
MOST_CALLS = 1_000_000
ENTRIES = 1_001
AIM_OF_TESTS = "Aims, of ids and 1,000,000 calls: 6 s, 1,000 MB, 3 times plain."
AIM_OF_ANSWERS = "Aims, behind 500,000 records: 50 µs at the median, 1,000 µs at the 99th percentile."
# Each test: its workload, its generator, and which other lines its settings have.
TESTS = {
    "ids": ("unique-ids", "[:forever :generate]", []),
    "ids, crashes": ("unique-ids", "[:forever :generate]", []),
    "ids, faults": ("unique-ids", "[:forever :generate]", []),
    "counter": ("counter", "[:mix [:forever :read] [:forever [:add 1]]]", []),
    "register": (
        "register",
        "[:mix [:forever :read] [:forever [:write 1]] [:forever [:write 2]]]",
        [f"threads_per_key = {THREADS_PER_KEY}", f"ops_per_key = {CALLS_PER_KEY}"],
    ),
    "set": ("set", "[:rising 0]", ["final = '[:once :read]'"]),
}


def entries(name, calls):
    """After how many answered calls each entry of the schedule is due; the plain program has the same."""
    has_faults = name == "ids, faults" and calls >= 20
    count = min(ENTRIES, calls // 20 * 2 + 1) if has_faults else 0
    return [calls // (count + 1) * (entry + 1) for entry in range(count)]


def step(entry):
    if entry % 2:
        return f"[:withdraw {entry - 1}]"
    one, other = entry // 2 % 3 + 1, (entry // 2 + 1) % 3 + 1
    return f'[:begin {entry} [:cut [["n{one}" "n{other}"] ["n{other}" "n{one}"]]]]'


def settings(name, calls):
    workload, generator, more = TESTS[name]
    schedule = [f"'[{at} {step(entry)}]'" for entry, at in enumerate(entries(name, calls))]
    lines = [
        """start = '{:nodes ["n1" "n2" "n3"]}'""",
        f'workload = "{workload}"',
        f"generator = '{generator}'",
        f"clients = {CLIENTS}",
        f"ops = {calls}",
        *more,
        f"schedule = [{', '.join(schedule)}]",
    ]
    return "\n".join(lines) + "\n"


def random_numbers():
    """The random numbers of the seed 0: PCG XSL RR 128/64 in its stream 0."""
    multiplier, low = 0x2360_ED05_1FC6_5DA4_4385_DF64_9FCC_F645, 2**64 - 1
    state = multiplier + 1
    while True:
        state = (state * multiplier + 1) % 2**128
        mixed, by = (state >> 64) ^ state & low, state >> 122
        yield (mixed >> by | mixed << 64 - by) & low


class Database:
    """What a database that works answers. A call takes effect when it is answered."""

    def __init__(self, name):
        self.name, self.numbers = name, random_numbers()
        self.held, self.count, self.given = {}, 0, [0] * CLIENTS

    def answer(self, call):
        """The function of this call, which is the next one, and what is answered to it."""
        if self.name.startswith("ids"):
            return ":generate", call
        if self.name == "set":
            return ":add", call
        number = next(self.numbers)
        if self.name == "counter":
            self.count += number % 2
            return (":add", 1) if number % 2 else (":read", self.count)
        group = call % CLIENTS // THREADS_PER_KEY
        key = group + CLIENTS // THREADS_PER_KEY * (self.given[group] // CALLS_PER_KEY)
        self.given[group] += 1
        if number % 3 == 0:
            return ":read", f"[{key} {self.held.get(key, 'nil')}]"
        self.held[key] = number % 3
        return ":write", f"[{key} {number % 3}]"


def replies(name, calls):
    """The lines of an adapter whose clients answer in turn: each call is given to the client that was answered `CLIENTS` calls before."""
    database, crashes, due = Database(name), [0] * CLIENTS, iter([*entries(name, calls), None])
    entry, next_due = 0, next(due)

    def stepped(entry, now):
        return f"{{:type :info, :process :nemesis, :f :step, :value {entry}, :time {now}}}\n"

    for call in range(calls):
        thread = call % CLIENTS
        f, value = database.answer(call)
        process, now = thread + CLIENTS * crashes[thread], 1_000 * (call + 1)
        kind = ":ok"
        if name == "ids, crashes" and call % 10 == 9:
            kind, value = ":info", "nil"
            crashes[thread] += 1
        yield f"{{:type {kind}, :process {process}, :f {f}, :value {value}, :time {now}}}\n"
        if next_due == call + 1:
            yield stepped(entry, now)
            entry, next_due = entry + 1, next(due)
    if entry % 2:
        yield stepped(entry, 1_000 * calls)  # all faults are ended, of which one is active
    if name == "set":
        yield f"{{:type :ok, :process 0, :f :read, :value [{' '.join(map(str, range(calls)))}], :time {1_000 * calls}}}\n"


def written(words, source, path):
    """Runs a program with its output to a file."""
    with open(source, "rb") as text, open(path, "wb") as output:
        done = subprocess.run(words, stdin=text, stdout=output, check=False)
    if done.returncode:
        sys.exit(f"{' '.join(words)}: status {done.returncode}")


def history(path, to):
    """Copies the history out of what was written: what stands behind `:end`, but for the last three lines."""
    with open(path, "rb") as lines, open(to, "wb") as copy:
        for line in lines:
            if line == b":end\n":
                break
        for line in lines:
            if line.startswith(b":active "):
                return
            copy.write(line)


def measured(words, source, times):
    """The least processor seconds of some runs, and the most memory in bytes."""
    seconds, memory = [], 0
    for _ in range(times):
        with open(source, "rb") as text:
            run = subprocess.Popen(words, stdin=text, stdout=subprocess.DEVNULL)
            _, status, usage = os.wait4(run.pid, 0)
        run.returncode = os.waitstatus_to_exitcode(status)
        if run.returncode:
            sys.exit(f"{' '.join(words)}: status {run.returncode}")
        seconds.append(usage.ru_utime + usage.ru_stime)
        memory = max(memory, usage.ru_maxrss * 1024)
    return min(seconds), memory


def made(name, calls, room):
    """The files of a test: its settings, and its replies."""
    test, source = os.path.join(room, "test.toml"), os.path.join(room, "replies.edn")
    with open(test, "w", encoding="ascii") as to:
        to.write(settings(name, calls))
    with open(source, "wb") as to:
        # A process of its own makes them: what a process was before it runs a program counts among its memory.
        subprocess.run([sys.executable, __file__, "--write", name, str(calls)], stdout=to, check=True)
    return test, source


def row(name, asked, plain, room):
    test, source = made(name, asked.calls, room)
    own = [asked.program, "drive", test]
    judge = [asked.program, "check", "--workload", TESTS[name][0]] + ["--independent"] * (name == "register")
    output, other, records = (os.path.join(room, it) for it in ("output", "other", "history.edn"))
    written(own, source, output)
    size = os.path.getsize(source)
    cells = [name, f"{asked.calls:,}", f"{size / 1e6:.1f}"]
    plain_seconds = None
    if name.startswith("ids"):
        yard = [plain, str(asked.calls), str(CLIENTS), str(len(entries(name, asked.calls)))]
        written(yard, source, other)
        if not filecmp.cmp(output, other, shallow=False):
            sys.exit(f"{name}: the plain program writes other bytes")
        plain_seconds, memory = measured(yard, source, asked.times)
        cells += [f"{plain_seconds:.2f}", f"{memory / 1e6:,.0f}", f"{memory / size:.1f}"]
    else:
        cells += [""] * 3
    history(output, records)
    seconds, memory = measured(own, source, asked.times)
    cells += [f"{seconds:.2f}", f"{memory / 1e6:,.0f}", f"{memory / size:.1f}"]
    cells.append(f"{seconds / plain_seconds:.2f}" if plain_seconds else "")
    cells.append(f"{measured(judge, records, asked.times)[0]:.2f}")
    return cells


class Peer:
    """The other side of a conversation through pipes."""

    def __init__(self, words):
        self.child = subprocess.Popen(words, stdin=subprocess.PIPE, stdout=subprocess.PIPE, bufsize=0)
        self.reading, self.writing = self.child.stdout.fileno(), self.child.stdin.fileno()

    def write(self, text):
        while text:
            text = text[os.write(self.writing, text) :]

    def hear(self, lines):
        """Reads so many lines, and no more may come."""
        while lines > 0:
            piece = os.read(self.reading, 1 << 16)
            lines -= piece.count(b"\n")
            if not piece or lines < 0:
                sys.exit("another number of lines was written than calls were to come")

    def ask(self, reply):
        """The nanoseconds from this reply to its answer, which is one line."""
        begin = time.perf_counter_ns()
        os.write(self.writing, reply)
        answer = os.read(self.reading, 1 << 16)
        took = time.perf_counter_ns() - begin
        if answer.count(b"\n") != 1 or not answer.endswith(b"\n"):
            self.hear(1)
        return took

    def end(self, text):
        """Writes what is left, and looks for the verdict."""
        writer = threading.Thread(target=self.write, args=(text,))
        writer.start()
        last = b""
        while piece := os.read(self.reading, 1 << 16):
            last = (last + piece)[-1_000:]
        writer.join()
        self.child.stdin.close()
        if self.child.wait() or b"\n{:valid? true, " not in last:
            sys.exit(f"the conversation ended with status {self.child.returncode}")


def answer_times(words, records, answers):
    """The nanoseconds that each of some replies waits for its answer, with so many records before them."""
    before = records // 2
    lines = [line.encode() for line in replies("ids", before + answers + CLIENTS)]
    peer = Peer(words)
    peer.hear(CLIENTS)
    writer = threading.Thread(target=peer.write, args=(b"".join(lines[:before]),))
    writer.start()
    peer.hear(before)
    writer.join()
    gc.collect()
    gc.disable()
    took = [peer.ask(line) for line in lines[before : before + answers]]
    gc.enable()
    peer.end(b":stop\n" + b"".join(lines[before + answers :]))
    return took


def answers_row(name, words, asked):
    took = sorted(answer_times(words, asked.records, asked.answers))
    shown = (took[len(took) // 2], took[len(took) * 99 // 100], took[-1])
    return [name, f"{asked.records:,}", f"{asked.answers:,}", *(f"{it / 1000:,.1f}" for it in shown)]


def show(cells):
    print("|", " | ".join(cells), "|", flush=True)


def main():
    if sys.argv[1:2] == ["--write"]:
        sys.stdout.writelines(replies(sys.argv[2], int(sys.argv[3])))
        return
    words = argparse.ArgumentParser(description="How long `jeprun drive` takes, beside a plain program.")
    words.add_argument("program", nargs="?", default=PROGRAM, metavar="PROGRAM", help="the jeprun that is measured")
    words.add_argument("word", nargs="*", metavar="WORD", help="take the rows that have one of these")
    words.add_argument("--calls", type=int, default=MOST_CALLS, metavar="N", help="calls of each test")
    words.add_argument("--times", type=int, default=3, metavar="N", help="runs of each")
    words.add_argument("--records", type=int, default=500_000, metavar="N", help="records before the replies that are answered one by one")
    words.add_argument("--answers", type=int, default=20_000, metavar="N", help="such replies")
    asked = words.parse_args()
    if asked.records // 2 + asked.answers + CLIENTS > MOST_CALLS:
        sys.exit(f"a test has at most {MOST_CALLS:,} calls: half the records, and the answers")
    asked.program = str(pathlib.Path(asked.program).resolve())
    if not os.path.exists(asked.program):
        sys.exit(f"{asked.program} is not there: build it first, by rt run in crates/jeprun")
    taken = [it for it in [*TESTS, "answers"] if not asked.word or any(word in it for word in asked.word)]
    with tempfile.TemporaryDirectory() as room:
        plain = os.path.join(room, "plain")
        subprocess.run(["rustc", "-O", "--edition", "2021", "-o", plain, PLAIN], check=True)
        if taken != ["answers"]:
            show(["Test", "Calls", "MB", "plain s", "plain MB", "B/B", "s", "MB", "B/B", "times plain", "check s"])
            print("|---" * 11 + "|")
        for name in taken:
            if name in TESTS:
                show(row(name, asked, plain, room))
        if taken != ["answers"]:
            print(f"\n{AIM_OF_TESTS}\n")
        if "answers" in taken:
            test = os.path.join(room, "answers.toml")
            with open(test, "w", encoding="ascii") as to:
                to.write(settings("ids", MOST_CALLS))
            show(["Answers", "Records before", "Replies", "median µs", "99 % µs", "greatest µs"])
            print("|---" * 6 + "|")
            show(answers_row("plain", [plain, str(MOST_CALLS), str(CLIENTS), "0"], asked))
            show(answers_row("jeprun", [asked.program, "drive", test], asked))
            print(f"\n{AIM_OF_ANSWERS}")


if __name__ == "__main__":
    main()

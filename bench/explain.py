#!/usr/bin/env python3
"""Confirms from outside what `jeprun check --workload register --explain` says of histories that are not valid. Run it at the
top of the repository, after `rt run` in crates/jeprun:

    bench/explain.py [--histories N] [--seed N] [--jeprun FILE]
    bench/explain.py --self-test [--histories N] [--seed N]

It makes small random histories until so many, 300, are not valid: up to 12 operations by 2 to 4 clients, reads, writes and
compare-and-sets that are `:ok`, `:fail` or `:info` or have no completion, some answers wrong, any first value, operations of
the nemesis between them. In half of them nearly every value is written once, in the others there are three values.
Operations are numbered from 0 in the order of their invocations. Each history is judged with and without `--explain`, with the
default budget and with a small one. A line that explains,

    {:valid? false, :stuck RECORD, :order [..], :value V, :pending [..]}

has to hold by a plain search of its own that tries every order:

  - The record is an `:ok` completion of the history. Where the history is cut right before it, the order is an order of the
    operations and leaves V. Each one that was `:ok` by then is in it, and stands before all that were invoked behind its end;
    none failed, also not later; a read that is not known to have happened, or that answered nil, finds any value.
  - Where the history is cut right behind the record, there is no order.
  - The pending ones are those that were invoked before the record, have no `:ok` before it and did not fail, also not later, in
    order; the operation that the record completes is one of them.

Where each value is written by one operation at most, those left out that failed, and the first value by none,
`:because REASON, :named [..]` stands behind that, and nowhere else. The operations that are named have to show the reason in the
whole history, by the words of docs/register.md ("Why there is no order"), which `Reasons` says step by step.

Without `--explain` the line is `{:valid? false}` then. Other lines are the same with and without it. The verdict is that of the
plain search; it may be unknown only where the budget is small and a value is written twice, or the budget is 0. It prints counts,
and the first differences with their histories; the status is 1 where there is one.

--self-test asks no program. It makes the lines by the plain search, and sees that they are confirmed, and that each of them
is refused once something in it is made wrong. Of each history whose values are written once it sees that it has a reason where
it has no order, and none where it has one. And each reason has to exclude every order by itself: where all that it can do without
is made unknown the plain search finds none; nor does it where no times are heeded, unless the reason is `:out-of-order`.
"""

import argparse
import math
import os
import random
import re
import subprocess
import sys
from itertools import permutations
from typing import NamedTuple, Optional

KEYS = [":valid?", ":stuck", ":order", ":value", ":pending"]
REASON_KEYS = [":because", ":named"]
START = -1
WORDS = {"nil": None, "true": True, "false": False}
MAX_CALLS = 12
SHOWN = 10


# A little EDN: nil, booleans, integers, keywords, vectors, lists and maps. A keyword is a string with its colon.


def edn(value):
    """The text of a value."""
    if isinstance(value, dict):
        return "{" + ", ".join(f"{key} {edn(held)}" for key, held in value.items()) + "}"
    if isinstance(value, list):
        return "[" + " ".join(map(edn, value)) + "]"
    if isinstance(value, bool) or value is None:
        return {None: "nil", True: "true", False: "false"}[value]
    return str(value)


class Reader:
    """Reads the values of a text, one after another; ValueError where it can't."""

    def __init__(self, text):
        self.tokens = re.findall(r"[\[\](){}]|[^\s,\[\](){}]+", text)
        self.at = 0

    def all(self):
        values = []
        while self.at < len(self.tokens):
            values.append(self.value())
        return values

    def value(self):
        token = self.token()
        if token in "[(":
            return self.items({"[": "]", "(": ")"}[token])
        if token == "{":
            items = self.items("}")
            if len(items) % 2 != 0:
                raise ValueError("a map with a key without a value")
            return dict(zip(items[::2], items[1::2]))
        if token in WORDS:
            return WORDS[token]
        return token if re.fullmatch(r":[a-z?-]+", token) else int(token)

    def token(self):
        if self.at == len(self.tokens):
            raise ValueError("the text ends too early")
        self.at += 1
        return self.tokens[self.at - 1]

    def items(self, closing):
        items = []
        while self.at < len(self.tokens) and self.tokens[self.at] != closing:
            items.append(self.value())
        self.token()
        return items


# Random histories: lists of records.


class Client:
    """A client under a process; it has an operation while one is open."""

    def __init__(self, process):
        self.process, self.f, self.asked, self.outcome, self.answer = process, None, None, None, None


class Maker:
    """Makes a history. How much is wrong and how much crashes is drawn for each anew."""

    def __init__(self, dice):
        self.dice, self.records, self.calls = dice, [], 0
        self.first = self.value = dice.choice([None, 0, 1, 2])
        self.clients = [Client(process) for process in range(dice.randint(2, 4))]
        self.most = dice.randint(4, MAX_CALLS)
        self.seen = [0, 1, 2]
        # The values to write once, the next one last; none where values repeat.
        self.unwritten = [value for value in range(self.most + 3) if value != self.first] if self.happens(0.5) else []
        dice.shuffle(self.unwritten)
        self.wrong = dice.choice([0.05, 0.1, 0.3])
        self.crashing = dice.choice([0, 0.1, 0.3])
        self.indexed, self.timed = dice.random() < 0.7, dice.random() < 0.3

    def happens(self, share):
        return self.dice.random() < share

    def some(self):
        """A value that was written, or one of a few others."""
        return self.dice.choice(self.seen)

    def old(self):
        """A value for a compare-and-set to replace; where there are many, half the time that of the register."""
        return self.value if self.unwritten and self.value is not None and self.happens(0.5) else self.some()

    def new(self):
        """A value to write."""
        if not self.unwritten or self.happens(0.02):
            return self.some()
        self.seen.append(self.unwritten.pop())
        return self.seen[-1]

    def history(self):
        while self.calls < self.most or self.happens(0.9):
            client = self.dice.choice(self.clients)
            if self.happens(0.05):
                self.record(":nemesis", ":info", ":cut", None)
            elif client.f is not None:
                self.go_on(client)
            elif self.calls < self.most:
                self.invoke(client)
            elif all(one.f is None for one in self.clients):
                break
        return self.records

    def record(self, process, kind, f, value):
        record = {":index": len(self.records)} if self.indexed else {}
        record |= {":time": 1000 + 17 * len(self.records)} if self.timed else {}
        record |= {":type": kind, ":process": process, ":f": f, ":value": value}
        record |= {":error": ":timeout"} if kind == ":info" and self.happens(0.5) else {}
        self.records.append(record)

    def invoke(self, client):
        client.f = self.dice.choice([":read", ":write", ":cas"])
        client.asked = {":read": lambda: None, ":write": self.new, ":cas": lambda: [self.old(), self.new()]}[client.f]()
        client.outcome = None
        self.calls += 1
        self.record(client.process, ":invoke", client.f, client.asked)

    def go_on(self, client):
        """The moment between invocation and completion, or the completion."""
        if client.outcome is None:
            client.outcome = self.outcome(client)
            return
        self.record(client.process, client.outcome, client.f, client.answer)
        client.f = None
        if client.outcome == ":info":
            client.process += 10

    def outcome(self, client):
        """What becomes of an operation; its answer goes to the client."""
        client.answer = client.asked if self.happens(0.9) else None
        if client.f == ":read":
            client.answer = self.read()
            return ":info" if self.happens(self.crashing) else ":fail" if self.happens(0.1) else ":ok"
        fits = client.f == ":write" or client.asked[0] == self.value
        changes = fits != self.happens(self.wrong / 2)
        if changes and self.happens(0.9):
            self.value = client.asked if client.f == ":write" else client.asked[1]
        if self.happens(self.crashing):
            return ":info"
        return ":ok" if changes != self.happens(self.wrong / 4) else ":fail"

    def read(self):
        if self.happens(0.1):
            return None
        return self.some() if self.happens(self.wrong) else self.value


# What a history says, and all of its orders.


class Op(NamedTuple):
    """An operation, with the places of its records."""

    number: int
    invoked: int
    ended: Optional[int]
    outcome: str
    f: str
    asked: object
    answer: object


class Known(NamedTuple):
    """What is known of an operation where the history is cut: it happened and ended at a place, or it may have happened."""

    number: int
    invoked: int
    ended: Optional[int]
    f: str
    value: object


def operations(records):
    """The operations of the clients, in the order of their invocations."""
    ops, open_ops = [], {}
    for place, record in enumerate(records):
        process = record[":process"]
        if process == ":nemesis":
            continue
        if record[":type"] == ":invoke":
            open_ops[process] = len(ops)
            ops.append(Op(len(ops), place, None, ":info", record[":f"], record[":value"], None))
        else:
            number = open_ops.pop(process)
            ops[number] = ops[number]._replace(ended=place, outcome=record[":type"], answer=record[":value"])
    return ops


def is_ok_before(op, place):
    return op.outcome == ":ok" and op.ended < place


def cut(ops, place):
    """The operations as they are known from the records before the place. Those that fail, then or later, are left out."""
    known = {}
    for op in ops:
        if op.invoked < place and op.outcome != ":fail":
            ended = op.ended if is_ok_before(op, place) else None
            answer = op.answer if ended is not None else None
            value = answer if op.f == ":read" else op.asked
            known[op.number] = Known(op.number, op.invoked, ended, op.f, value)
    return known


def allows(op, value):
    """Whether the operation can come at this value of the register."""
    if op.f == ":read":
        return op.value is None or op.value == value
    return op.f == ":write" or op.value[0] == value


def after(op, value):
    """The register's value after an operation."""
    return {":read": lambda: value, ":write": lambda: op.value, ":cas": lambda: op.value[1]}[op.f]()


def is_before(first, second):
    """The first one happened, and ended before the second was invoked."""
    return first.ended is not None and first.ended < second.invoked


def any_order(known, first):
    """An order and the value that it leaves, or nothing where there is none."""
    tried = set()

    def search(order, value):
        if (frozenset(order), value) in tried:
            return None
        tried.add((frozenset(order), value))
        left = [op for op in known.values() if op.number not in order]
        if all(op.ended is None for op in left):
            return order, value
        for op in left:
            if allows(op, value) and not any(is_before(other, op) for other in left):
                found = search(order + [op.number], after(op, value))
                if found:
                    return found
        return None

    return search([], first)


def fault_of_order(known, first, order):
    """Why this is no order of the operations, or nothing where it is one; and the value that it leaves."""
    placed, value, earliest_end = set(order), first, math.inf
    if not placed <= known.keys():
        return "the order has a number that no operation has which can have happened", None
    if len(placed) < len(order):
        return "the order has an operation twice", None
    if any(op.ended is not None and op.number not in placed for op in known.values()):
        return "the order lacks an operation that is ok", None
    for number in reversed(order):
        if earliest_end < known[number].invoked:
            return "the order has an operation before one that ended before its invocation", None
        if known[number].ended is not None:
            earliest_end = min(earliest_end, known[number].ended)
    for number in order:
        if not allows(known[number], value):
            return f"operation {number} cannot come where the order has it", None
        value = after(known[number], value)
    return None, value


def pending(ops, place):
    """The numbers of those that were invoked before a place, have no :ok before it and did not fail, also not later."""
    return [op.number for op in ops if op.invoked < place and op.outcome != ":fail" and not is_ok_before(op, place)]


# Why there is no order, where each value is written once.


def needs(op):
    """The value that an operation has to find, or nothing where any will do."""
    return {":read": lambda: op.value, ":write": lambda: None, ":cas": lambda: op.value[0]}[op.f]()


def leaves(op):
    """The value that the register has behind an operation, or nothing where that is not known: behind a read of nil."""
    return after(op, needs(op))


def hands_on(first, second):
    """The first one wrote what the second needs, or read what the second replaced."""
    if first.f == ":read":
        return first.value is not None and second.f == ":cas" and needs(second) == first.value
    return needs(second) == leaves(first)


def writers(known, first):
    """The operation that writes each value, or nothing where one is written twice, or the first value is."""
    writer = {}
    for op in known.values():
        if op.f != ":read":
            if leaves(op) == first or leaves(op) in writer:
                return None
            writer[leaves(op)] = op
    return writer


class Reasons:
    """What excludes every order of a history each of whose values is written once. A value has an origin: the number of the
    write from which compare-and-sets lead to it, or START where they lead to it from the first value."""

    def __init__(self, known, first, writer):
        self.known, self.first, self.writer = known, first, writer
        self.standing = self.all_standing()

    def all_standing(self):
        """The numbers of what has to have happened: what is known to have, and who wrote what one of these needs."""
        standing, left = set(), [op for op in self.known.values() if op.ended is not None]
        while left:
            op = left.pop()
            if op.number not in standing:
                standing.add(op.number)
                left += [self.writer[needs(op)]] if needs(op) in self.writer else []
        return standing

    def origin(self, value):
        """The origin of a value, or nothing where it has none."""
        passed = set()
        while value != self.first:
            if value not in self.writer or value in passed:
                return None
            passed.add(value)
            if self.writer[value].f == ":write":
                return self.writer[value].number
            value = needs(self.writer[value])
        return START

    def use(self, op):
        """The origin of the value that an operation leaves, or nothing where that is not known or has none."""
        return None if leaves(op) is None else self.origin(leaves(op))

    def users(self, origin):
        return [op for op in self.known.values() if self.use(op) == origin]

    def has_no_origin(self, op):
        return needs(op) is not None and self.origin(needs(op)) is None

    def replace_one_value(self, one, other):
        return one != other and one.f == other.f == ":cas" and needs(one) == needs(other)

    def hands_on_in_steps(self, first, second):
        """The first one hands on to the second, directly or by others that have to have happened."""
        reached, left = set(), [first]
        while left:
            one = left.pop()
            following = {number for number in self.standing if hands_on(one, self.known[number])} - reached
            reached |= following
            left += [self.known[number] for number in following]
        return second.number in reached

    def are_crossed(self, first, second):
        """They use different origins, and what uses that of the first has to come before what uses that of the second: it is the
        first value, or one that uses it ended before another was invoked that uses the other and has to have happened."""
        one, other = self.use(first), self.use(second)
        if one is None or other is None or one == other:
            return False
        behind = [op for op in self.users(other) if op.number in self.standing]
        return one == START or any(is_before(early, late) for early in self.users(one) for late in behind)

    def are_out_of_order(self, first, second):
        return is_before(second, first) and (self.hands_on_in_steps(first, second) or self.are_crossed(first, second))

    def fault(self, because, named):
        """Why the operations with these numbers don't show the reason, or nothing where they do."""
        shown = {":no-origin": (1, self.has_no_origin), ":replaced-twice": (2, self.replace_one_value)}
        shown |= {":out-of-order": (2, self.are_out_of_order)}
        if because not in shown or shown[because][0] != len(named):
            return f"{edn(because)} is no reason with so many operations as are named"
        if not self.standing.issuperset(named):
            return "an operation is named that need not have happened"
        if not shown[because][1](*(self.known[number] for number in named)):
            return f"operations {edn(named)} do not show {because}"
        return None

    def all(self):
        """All reasons with the operations that show them."""
        some = [(":no-origin", [one]) for one in self.known]
        some += [(because, [*pair]) for because in (":replaced-twice", ":out-of-order") for pair in permutations(self.known, 2)]
        return [reason for reason in some if self.fault(*reason) is None]


def reasons_of(known, first):
    """The reasons of a history, or nothing where a value is written twice."""
    writer = writers(known, first)
    return None if writer is None else Reasons(known, first, writer)


# What is to be confirmed.


def are_numbers(value):
    return isinstance(value, list) and all(type(item) is int for item in value)


def fault_at(ops, first, line, place):
    """What of the line does not hold where the stuck record stands at this place, or nothing."""
    fault, left = fault_of_order(cut(ops, place), first, line[":order"])
    if fault is None and left != line[":value"]:
        fault = f"the order leaves {edn(left)}"
    if fault is None and any_order(cut(ops, place + 1), first):
        fault = "an order exists also behind the stuck record"
    if fault is None and line[":pending"] != pending(ops, place):
        fault = f"the pending ones are {edn(pending(ops, place))}"
    if fault is None and not any(op.ended == place and op.number in line[":pending"] for op in ops):
        fault = "the stuck operation is not pending"
    return fault


def fault_of_line(records, first, line):
    """What of a line that explains does not hold, or nothing. Where equal records stand at several places, one has to do."""
    ops = operations(records)
    reasons = reasons_of(cut(ops, len(records)), first)
    keys = KEYS + (REASON_KEYS if reasons else [])
    if not isinstance(line, dict) or list(line) != keys or line[":valid?"] is not False:
        return f"it has not the keys {edn(keys)} of a line that explains, or says valid"
    if not all(are_numbers(line[key]) for key in (":order", ":pending", ":named") if key in line):
        return "the order, the pending ones or the named ones are no numbers"
    fault = reasons and reasons.fault(line[":because"], line[":named"])
    if fault:
        return fault
    places = [op.ended for op in ops if op.outcome == ":ok" and records[op.ended] == line[":stuck"]]
    faults = [fault_at(ops, first, line, place) for place in places]
    if None in faults:
        return None
    return faults[0] if faults else "the stuck record is no :ok completion of the history"


def explained(records, first):
    """A right line, or nothing where the history is valid. It lacks the reason where none is found."""
    ops = operations(records)
    reasons = reasons_of(cut(ops, len(records)), first)
    for place in sorted(op.ended for op in ops if op.outcome == ":ok"):
        if any_order(cut(ops, place + 1), first) is None:
            order, value = any_order(cut(ops, place), first)
            found = [False, records[place], order, value, pending(ops, place)]
            found += reasons.all()[0] if reasons and reasons.all() else []
            return dict(zip(KEYS + REASON_KEYS, found))
    return None


# Lines of the program.


def text_of(records):
    return "".join(edn(record) + "\n" for record in records)


def told(program, records, first, budget, explain):
    """The status and what the program writes, also to standard error, where it should write nothing."""
    words = [program, "check", "--workload", "register"]
    words += [] if first is None else ["--initial", str(first)]
    words += [] if budget is None else ["--budget", str(budget)]
    words += ["--explain"] if explain else []
    run = subprocess.run(words, input=text_of(records), capture_output=True, text=True)
    if run.returncode not in (0, 1, 2):
        sys.exit(f"{' '.join(words)}: status {run.returncode}: {run.stderr}\n{text_of(records)}")
    return run.returncode, run.stdout + run.stderr


def fault_of_program(program, records, first, budget):
    """The verdict without --explain, what was confirmed with it, and what does not hold, or nothing."""
    plain, explaining = (told(program, records, first, budget, explain) for explain in (False, True))
    verdict = ("valid", "invalid", "unknown")[plain[0]]
    differ = f"with --explain it is {explaining}, without it {plain}"
    if verdict != "invalid":
        return verdict, "the same with --explain", None if plain == explaining else differ
    if plain[1] != "{:valid? false}\n" or explaining[0] != 1:
        return verdict, None, differ
    try:
        [line] = Reader(explaining[1]).all()
    except (ValueError, TypeError) as fault:
        return verdict, None, f"{explaining[1]} cannot be read: {fault}"
    fault = fault_of_line(records, first, line)
    if fault:
        return verdict, None, f"{fault}, and the line is {explaining[1]}"
    return verdict, f"confirmed, {line.get(':because', 'values repeat')}", None


class Counts:
    """How often what was found; the first differences are printed at once."""

    def __init__(self):
        self.of, self.differences = {}, 0

    def add(self, name):
        self.of[name] = self.of.get(name, 0) + 1

    def differ(self, seed, records, first, fault):
        self.differences += 1
        if self.differences <= SHOWN:
            print(f"seed {seed}, --initial {edn(first)}: {fault}\n{text_of(records)}", flush=True)

    def show(self):
        for name in sorted(self.of):
            print(f"{self.of[name]:,} {name}")
        print(f"{self.differences} differences")
        sys.exit(1 if self.differences else 0)


def confirm(program, seed, counts):
    """Judges one history by the program, and says whether it is valid."""
    dice = random.Random(seed)
    maker = Maker(dice)
    records, first = maker.history(), maker.first
    known = cut(operations(records), len(records))
    is_valid = any_order(known, first) is not None
    right = "valid" if is_valid else "invalid"
    for budget in (None, dice.randint(0, 8)):
        name = "the default budget" if budget is None else "a small budget"
        may_be_unknown = budget == 0 or budget is not None and writers(known, first) is None
        verdict, what, fault = fault_of_program(program, records, first, budget)
        if fault is None and verdict != right and not (may_be_unknown and verdict == "unknown"):
            fault = f"{verdict}, and the plain search says {right}"
        if fault is None:
            counts.add(f"{verdict} with {name}, {what}")
        else:
            counts.differ(seed, records, first, f"with {name}, {budget}: {fault}")
    return is_valid


# The test of this script.


def wrong_orders(ops, place, order):
    """Orders that are none: one that is ok is missing, one stands twice, one failed, is too late or is not there, and two
    stand the other way round."""
    known = cut(ops, place)
    for number in order:
        if known[number].ended is not None:
            yield [other for other in order if other != number]
        yield order + [number]
    for number in range(len(ops) + 1):
        if number not in known:
            yield order + [number]
    for at, (first, second) in enumerate(zip(order, order[1:])):
        if is_before(known[first], known[second]):
            yield order[:at] + [second, first] + order[at + 2 :]


def wrong_pending(ops, right):
    """One is missing, there is one more, and they are not in order."""
    yield from ([number for number in right if number != one] for one in right)
    yield from (sorted(right + [number]) for number in range(len(ops) + 1) if number not in right)
    if len(right) > 1:
        yield right[::-1]


def says_nothing(op):
    """The operation failed, or is a read of which no value is known: none of these shows a reason."""
    return op.outcome == ":fail" or op.f == ":read" and (op.outcome != ":ok" or op.answer is None)


def wrong_reasons(ops, because, named):
    """Reasons that are none: operations are missing, too many, or of the kind that shows nothing; it is of another kind, which
    names more or fewer, or of none; and what is out of order is so the other way round."""
    yield from ((because, named[:at] + named[at + 1 :]) for at in range(len(named)))
    yield from ((because, named + [number]) for number in range(len(ops)))
    silent = [op.number for op in ops if says_nothing(op)] + [len(ops), -1]
    yield from ((because, named[:at] + [number] + named[at + 1 :]) for at in range(len(named)) for number in silent)
    yield from ((other, named) for other in ([":no-origin"] if len(named) == 2 else [":replaced-twice", ":out-of-order"]))
    yield from ((other, named) for other in (":stale", None, because[1:]))
    if because == ":out-of-order":
        yield because, named[::-1]


def wrong_lines(records, line):
    """Lines that differ from a right one in one thing and are wrong."""
    ops, place = operations(records), records.index(line[":stuck"])
    if ":because" in line:
        reasons = wrong_reasons(ops, line[":because"], line[":named"])
        yield from (line | dict(zip(REASON_KEYS, reason)) for reason in reasons)
    else:
        yield line | {":because": ":no-origin", ":named": [place]}
    yield from (line | {":order": order} for order in wrong_orders(ops, place, line[":order"]))
    yield from (line | {":value": value} for value in (None, 0, 1, 2, 3) if value != line[":value"])
    yield from (line | {":pending": numbers} for numbers in wrong_pending(ops, line[":pending"]))
    yield from (line | {":stuck": record} for record in records if record != line[":stuck"])
    yield line | {":valid?": True}
    yield line | {":more": 1}
    for missing in line:
        yield {key: held for key, held in line.items() if key != missing}


def least_history(known, first, because, named):
    """The history, in which as many operations as the reason can do without are of unknown outcome."""
    for number, op in known.items():
        weaker = known | {number: op._replace(ended=None, value=None if op.f == ":read" else op.value)}
        if reasons_of(weaker, first).fault(because, named) is None:
            known = weaker
    return {number: op for number, op in known.items() if op.ended is not None or op.f != ":read"}


def without_times(known):
    """The history as if all had begun before anything ended."""
    return {op.number: op._replace(invoked=-1) for op in known.values()}


def test_reasons(seed, records, first, counts):
    """A history has a reason where it has no order, and each reason excludes every order by itself."""
    known = cut(operations(records), len(records))
    reasons = reasons_of(known, first)
    if reasons is None:
        return
    found, is_valid = reasons.all(), any_order(known, first) is not None
    counts.add("valid histories without a reason" if is_valid else "histories with a reason")
    if is_valid == bool(found):
        counts.differ(seed, records, first, f"valid is {edn(is_valid)}, and the reasons are {found}")
    for because, named in found:
        counts.add(f"reasons {because}")
        least = least_history(known, first, because, named)
        least = least if because == ":out-of-order" else without_times(least)
        if any_order(least, first) is not None:
            counts.differ(seed, records, first, f"{because} {edn(named)} does not exclude every order by itself")


def self_test(seed, counts):
    """Confirms a right line and refuses wrong ones; says whether the history is valid."""
    maker = Maker(random.Random(seed))
    records, first = maker.history(), maker.first
    test_reasons(seed, records, first, counts)
    line = explained(records, first)
    if line is None:
        return True
    if Reader(edn(line)).all() != [line] or Reader(text_of(records)).all() != records:
        counts.differ(seed, records, first, f"{edn(line)} is not read as it was written")
    fault = fault_of_line(records, first, line)
    if fault:
        counts.differ(seed, records, first, f"{edn(line)} is right, and refused: {fault}")
    counts.add("right lines")
    # Equal records may stand at several places; wrong lines are made where there is one.
    if records.count(line[":stuck"]) > 1:
        return False
    for wrong in wrong_lines(records, line):
        counts.add("wrong lines")
        if fault_of_line(records, first, wrong) is None:
            counts.differ(seed, records, first, f"{edn(wrong)} is wrong, and confirmed")
    return False


def main():
    words = argparse.ArgumentParser(description="Confirms what jeprun check --workload register --explain says.")
    words.add_argument("--histories", metavar="N", type=int, default=300, help="that are not valid, 300")
    words.add_argument("--seed", metavar="N", type=int, default=1, help="of the first history")
    words.add_argument("--jeprun", metavar="FILE", default="crates/jeprun/out/jeprun")
    words.add_argument("--self-test", action="store_true", help="test this script")
    asked = words.parse_args()
    if not asked.self_test and not os.path.exists(asked.jeprun):
        sys.exit(f"{asked.jeprun} is not there: build it first, by rt run in crates/jeprun")
    program = os.path.abspath(asked.jeprun)
    counts, invalid, seed = Counts(), 0, asked.seed
    while invalid < asked.histories:
        is_valid = self_test(seed, counts) if asked.self_test else confirm(program, seed, counts)
        invalid += not is_valid
        seed += 1
    print(f"{seed - asked.seed:,} histories, {invalid:,} of them not valid")
    counts.show()


if __name__ == "__main__":
    main()

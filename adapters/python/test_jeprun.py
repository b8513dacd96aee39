#!/usr/bin/env python3
"""Tests of jeprun.py: `python3 test_jeprun.py`. playback.sh stands in for `jeprun`; nothing else is needed.

What is expected is worked out from the lines that docs/drive.md describes.
"""

import contextlib
import dataclasses
import errno
import io
import os
import pathlib
import re
import signal
import tempfile
import threading
import time
import unittest
import warnings
from collections.abc import Callable
from typing import Any
from unittest import mock

import jeprun
from jeprun import Failed, Keyword, LinkCell, NodeCell, Operation, Unsuitable

HERE = pathlib.Path(__file__).parent
HEALTHY = '{:nodes ["n1" "n2"], :cut [], :slow [], :loss [], :down [], :clock []}'
CUT = (
    '{:index 2, :time 7, :type :info, :process :nemesis, :f :step, :value 0, :step [:begin 1 [:cut [["n1" "n2"]]]], '
    ':links [["n1" "n2" {:cut true, :delay 0, :loss 0}]], :nodes []}'
)
HEAL = (
    "{:index 6, :time 7, :type :info, :process :nemesis, :f :step, :value 1, :step [:withdraw-all], "
    ':links [["n1" "n2" {:cut false, :delay 0, :loss 0}]], :nodes []}'
)
STEPPED = "{:type :info, :process :nemesis, :f :step, :value %d}"


def call(process: int, function: str, value: str = "nil") -> str:
    """The line that asks for a call."""
    return f'{{:index 0, :time 0, :type :invoke, :process {process}, :f :{function}, :value {value}, :node "n1"}}'


def pairs(written: list[str], told: list[str]) -> list[str]:
    """What is written, each line with its reply behind it."""
    return [line for asked, reply in zip(written, told) for line in (asked, f"< {reply}")]


def wait_until(is_so: Callable[[], bool]) -> None:
    """Waits until something is so, but not for ever."""
    end = time.monotonic() + 10
    while not is_so() and time.monotonic() < end:
        time.sleep(0.002)


def report(*records: str, verdict: str = "{:valid? true}") -> list[str]:
    """What stands from `:end` on, where no fault is active."""
    return [":end", *records, ":active []", HEALTHY, verdict]


def script(*lines: str) -> str:
    """A conversation: lines that begin with no sign are written."""
    return "".join(f"{line}\n" if re.match(r"[<#.>] |\.$|kill$", line) else f"> {line}\n" for line in lines)


class Cluster(jeprun.Cluster):
    """Remembers what it was told, and does instead what is among its hooks."""

    def __init__(self) -> None:
        self.told: list[Any] = []
        self.hooks: dict[str, Callable[..., Any]] = {}

    def do(self, name: str, *told: Any) -> Any:
        return self.hooks[name](*told) if name in self.hooks else self.told.append(told or name)

    def setup(self) -> None:
        self.do("setup")

    def teardown(self) -> None:
        self.do("teardown")

    def set_link(self, source: str, destination: str, cell: LinkCell) -> None:
        self.do("set_link", source, destination, cell)

    def set_node(self, node: str, cell: NodeCell) -> None:
        self.do("set_node", node, cell)

    def read_back(self) -> jeprun.Cells | None:
        return self.do("read_back") if "read_back" in self.hooks else None


class Client(jeprun.Client):
    """Has each call answered by a function."""

    made = 0

    def __init__(
        self, invoke: Callable[[Operation], Any], open: Callable[[str], Any] = str, closed: Any = None
    ) -> None:
        self.answer, self.connect, self.closed = invoke, open, [] if closed is None else closed
        Client.made += 1

    def open(self, node: str) -> None:
        self.connect(node)

    def invoke(self, operation: Operation) -> Any:
        return self.answer(operation)

    def close(self) -> None:
        self.closed.append(self)


class Case(unittest.TestCase):
    """A test that has a folder, and conversations to play."""

    def setUp(self) -> None:
        self.enterContext(warnings.catch_warnings())
        warnings.simplefilter("ignore", ResourceWarning)  # files of a test that is over are closed with its objects
        self.folder = pathlib.Path(self.enterContext(tempfile.TemporaryDirectory()))
        self.store = self.folder / "store"
        self.settings = self.folder / "small.toml"
        (self.folder / "conversations").mkdir()
        self.enterContext(mock.patch.dict(os.environ, {"CONVERSATION": str(self.folder / "conversations")}))
        self.program = HERE / "playback.sh"
        self.known = jeprun.Settings({"workload": "register", "clients": 1}, ["n1", "n2"], ({}, {}), frozenset())
        self.cluster = Cluster()
        Client.made = 0

    def play(self, *scripts: str) -> None:
        for place, text in enumerate(scripts):
            (self.folder / "conversations" / str(place)).write_text(text, encoding="utf-8")

    def run_test(self, client: Callable[[], jeprun.Client], *scripts: str, **options: Any) -> int:
        """Runs a test whose settings are known, and gives its status."""
        self.play(*scripts)
        self.settings.write_text("# small\n")
        out, err = io.StringIO(), io.StringIO()
        with contextlib.ExitStack() as stack:
            stack.enter_context(mock.patch("jeprun.read_settings", return_value=self.known))
            stack.enter_context(mock.patch("jeprun.Folder.draw"))
            stack.enter_context(contextlib.redirect_stdout(out))
            stack.enter_context(contextlib.redirect_stderr(err))
            status = jeprun.run_test(
                self.settings, self.cluster, client, store=self.store, jeprun=str(self.program), **options
            )
        self.out, self.err = out.getvalue().splitlines(), err.getvalue().splitlines()
        return status

    def kept(self, name: str) -> list[str]:
        return (self.store / "small" / "latest" / name).read_text(encoding="utf-8").splitlines()

    def replies(self, text: str | None = None) -> list[str]:
        """What was replied, without times."""
        lines = self.kept("replies.edn") if text is None else text.splitlines()
        return [re.sub(", :time [0-9]+", "", line) for line in lines if not line.isdigit()]


class Edn(unittest.TestCase):
    def test_lines_are_read(self) -> None:
        line = jeprun.read(CUT)
        self.assertEqual([line["index"], line["time"], line["value"]], [2, 7, 0])
        self.assertEqual([line["type"], line["process"], line["f"]], ["info", "nemesis", "step"])
        self.assertEqual(line["step"], ["begin", 1, ["cut", [["n1", "n2"]]]])
        self.assertEqual(line["links"], [["n1", "n2", {"cut": True, "delay": 0, "loss": 0}]])
        self.assertEqual(line["nodes"], [])
        self.assertEqual(
            jeprun.read(call(3, "txn", "[[:append 3 -1] [:r 7 nil]]"))["value"], [["append", 3, -1], ["r", 7, None]]
        )
        self.assertIsInstance(jeprun.read(":ok"), Keyword)
        self.assertEqual(
            jeprun.read('[["n1" {:process :paused, :clock -500}] false "" {}]'),
            [["n1", {"process": "paused", "clock": -500}], False, "", {}],
        )

    def test_values_are_written(self) -> None:
        values: list[tuple[Any, str]] = [
            (None, "nil"), (True, "true"), (False, "false"), (0, "0"), (-7, "-7"), ("a", '"a"'), ([], "[]"), ({}, "{}"),
            (2**63 - 1, "9223372036854775807"), (-(2**63), "-9223372036854775808"), (2**63, '"9223372036854775808"'),
            ('say "a\\b"', '"say \\"a\\\\b\\""'), ("1\n2\t3\r", '"1\\n2\\t3\\r"'), ("Ä \x01", '"Ä \x01"'),
            ("\udc80", '"?"'),
            (Keyword("ok"), ":ok"), (Keyword("not one"), '"not one"'), (1.5, '"1.5"'), (b"x", "\"b'x'\""),
            ([1, (2, None)], "[1 [2 nil]]"), ({3, 1}, "#{1 3}"), (frozenset(), "#{}"), ({1.5, "1.5"}, '#{"1.5"}'),
            ({"a": {Keyword("b"): 1}}, '{"a" {:b 1}}'), ({1.5: 1, "1.5": 2}, '{"1.5" 2}'),
        ]  # fmt: skip
        for value, text in values:
            with self.subTest(text):
                self.assertEqual(jeprun.write(value), text)

    def test_what_is_too_deep_is_a_string(self) -> None:
        deep: list[Any] = []
        for _ in range(40):
            deep = [deep]
        self.assertEqual(jeprun.write(deep), "[" * 32 + '"' + "[" * 9 + "]" * 9 + '"' + "]" * 32)

    TXN = [[Keyword("append"), 3, 1], [Keyword("r"), 3, None]]

    def test_answers_that_suit(self) -> None:
        for workload, function, asked, got, answer in [
            ("register", "read", None, None, None),
            ("register", "read", None, -5, -5),
            ("register", "write", 5, "any", 5),
            ("register", "cas", [1, 2], None, [1, 2]),
            ("counter", "read", None, 2**63 - 1, 2**63 - 1),
            ("set", "read", None, {1}, {1}),
            ("set", "read", None, (1, 1), (1, 1)),
            ("unique-ids", "generate", None, 1.5, 1.5),
            ("list-append", "txn", self.TXN, [["append", 3, None], ("r", 3, [1])], [["append", 3, 1], ["r", 3, [1]]]),
            ("list-append", "txn", self.TXN, self.TXN, self.TXN),
        ]:
            with self.subTest(f"{workload} {function} {got}"):
                self.assertEqual(jeprun.completed_value(workload, function, asked, got), answer)

    def test_answers_that_do_not_suit(self) -> None:
        append = ["append", 3, 1]
        bad: dict[str, list[Any]] = {
            "register": ["5", True, 2**63],
            "counter": [None, 1.0],
            "set": [None, {1: 2}],
            "list-append": [None, 5, [append], [append, ["r", 4, [1]]], [append, ["r", 3, 1]], [append, [3, [1]]]],
        }
        for workload, answers in bad.items():
            function, asked = ("txn", self.TXN) if workload == "list-append" else ("read", None)
            for got in answers:
                with self.subTest(f"{workload} {got}"), self.assertRaises(Unsuitable):
                    jeprun.completed_value(workload, function, asked, got)


class SettingsTest(Case):
    ENVIRONMENT = (
        '{:nodes ["n1" "n2"], :cut [["n1" "n2"]], :slow [["n1" "n2" 50]], :loss [["n2" "n1" 3]], '
        ':down [["n1" :paused]], :clock [["n1" -5] ["n2" 9]]}'
    )

    def read(self, toml: str, drive: str, environment: str) -> jeprun.Settings:
        self.settings.write_text(toml)
        self.play(drive)
        run = jeprun.run_program

        def answer(*words: str, given: bytes = b"") -> Any:
            if words[1] == "env":
                self.start = given
                return mock.Mock(stdout=f":active []\n{environment}\n".encode())
            return run(*words, given=given)

        with mock.patch("jeprun.run_program", answer):
            return jeprun.read_settings(self.settings, str(self.program))

    def test_start_and_needs(self) -> None:
        entries = ["[1 [:begin 1 [:fix 5 []]]]", '[(:ms 5) [:begin 2 (:kill ["n1"])]]']
        toml = f"start = '{{:nodes [\"n1\"]}}'\nschedule = ['{entries[0]}', '{entries[1]}']\n"
        known = self.read(toml, script(*report()), self.ENVIRONMENT)
        self.assertEqual(self.start, b'{:nodes ["n1"]}')
        self.assertEqual(known.nodes, ["n1", "n2"])
        links = {("n1", "n2"): LinkCell(True, 50, 0), ("n2", "n1"): LinkCell(False, 0, 3)}
        self.assertEqual(known.start, (links, {"n1": NodeCell("paused", -5), "n2": NodeCell("running", 9)}))
        self.assertEqual(known.needs, {"cut", "delay", "loss", "paused", "clock", "killed"})

    def test_needs_of_a_schedule(self) -> None:
        needs = {
            "[:cut []]": "cut",
            "[:halves]": "cut",
            '[:split-one "n1"]': "cut",
            "[:bridge]": "cut",
            "[:ring 3]": "cut",
        }
        needs |= {"[:slow 5 []]": "delay", "[:loss 1 []]": "loss", "[:pause []]": "paused", '[:bump {"n1" 5}]': "clock"}
        for fault, need in needs.items():
            with self.subTest(fault):
                known = self.read(f"start = ''\nschedule = ['[1 [:begin 1 {fault}]]']\n", script(*report()), HEALTHY)
                self.assertEqual(known.needs, {need})
                self.assertEqual(known.start, ({}, {}))

    def run_refused(self, **options: Any) -> tuple[int, str]:
        err = io.StringIO()
        with contextlib.redirect_stderr(err):
            status = jeprun.run_test(self.settings, self.cluster, jeprun.Client, store=self.store, **options)
        self.assertEqual(self.cluster.told, [])
        self.assertFalse(self.store.exists())
        self.assertEqual(err.getvalue().count("\n"), 1)
        return status, err.getvalue()

    def test_refused_settings(self) -> None:
        self.settings.write_text("clients = 17\n")
        self.play("# 3\n")
        status, told = self.run_refused(jeprun=str(self.program))
        self.assertEqual((status, told), (3, f"jeprun.py: {self.settings}: \n"))

    def test_no_program(self) -> None:
        self.settings.write_text("")
        status, told = self.run_refused(jeprun="/nowhere/jeprun")
        self.assertEqual(status, 5)
        self.assertIn("/nowhere/jeprun", told)

    def test_what_a_machine_can_not_do(self) -> None:
        class Weak(Cluster):
            def check(self, settings: jeprun.Settings) -> None:
                raise jeprun.Unsupported(f"no netem for {sorted(settings.needs)}")

        self.cluster, self.known = Weak(), jeprun.Settings({}, ["n1"], ({}, {}), frozenset({"delay"}))
        with mock.patch("jeprun.read_settings", return_value=self.known):
            self.assertEqual(self.run_refused(), (5, "jeprun.py: no netem for ['delay']\n"))


class Conversation(Case):
    def test_a_whole_test(self) -> None:
        records = [
            "{:index 0, :time 0, :type :invoke, :process 0, :f :write, :value 5}",
            "{:index 1, :time 7, :type :ok}",
        ]
        replies = [
            "{:type :ok, :process 0, :f :write, :value 5}",
            STEPPED % 0,
            '{:type :ok, :process 0, :f :read, :value 7, :lag "1.5"}',
            STEPPED % 1,
        ]
        written = [
            call(0, "write", "5"),
            CUT,
            call(0, "read"),
            HEAL,
            *report(*records, verdict="{:valid? true, :order [0 1]}"),
        ]
        asked: list[Operation] = []
        closed: list[Any] = []

        def invoke(operation: Operation) -> Any:
            asked.append(dataclasses.replace(operation))
            if operation.function == "read":
                operation.other = {"lag": 1.5, "process": 9, "time": "now"}  # what the line has itself is not taken
            return 7

        talk = [line for pair in zip(written, [f"< {reply}" for reply in replies]) for line in pair]
        self.assertEqual(self.run_test(lambda: Client(invoke, closed=closed), script(*talk, *written[4:])), 0)
        self.assertEqual(self.err, [])
        self.assertEqual(asked, [Operation(0, "write", 5, None, "n1"), Operation(0, "read", None, None, "n1")])
        wait_until(lambda: len(closed) == 1)
        self.assertEqual((Client.made, len(closed)), (1, 1))
        link = ("n1", "n2")
        self.assertEqual(self.cluster.told, ["setup", (*link, LinkCell(cut=True)), (*link, LinkCell()), "teardown"])
        self.assertEqual(self.cluster.nodes, ["n1", "n2"])
        folder = self.store / "small" / "latest"
        self.assertEqual(self.out, [str(folder.parent / os.readlink(folder)), "{:valid? true, :order [0 1]}"])
        self.assertEqual(self.cluster.folder, pathlib.Path(self.out[0], "nodes"))
        self.assertTrue(self.cluster.folder.is_dir())
        self.assertEqual(self.replies(), replies)
        self.assertEqual(self.kept("report.edn"), written)
        self.assertEqual(self.kept("history.edn"), records)
        self.assertEqual(self.kept("settings.toml"), ["# small"])
        self.assertRegex(os.readlink(folder), r"^[0-9]{8}T[0-9]{6}\.[0-9]{3}$")

    def test_time_is_told_and_goes_on(self) -> None:
        self.run_test(
            lambda: Client(lambda _: time.sleep(0.02)),
            script(call(0, "write", "5"), "< {:type :ok, :process 0, :f :write, :value 5}", *report()),
            tick=0.001,
        )
        times = [int(line) for line in self.kept("replies.edn") if line.isdigit()]
        self.assertGreater(len(times), 5)
        self.assertEqual(times, sorted(times))
        self.assertLess(times[0], 10**9)

    def test_exceptions(self) -> None:
        """Failed keeps the client, any other exception makes it anew, one of `open` means that nothing was done."""
        errors: list[Exception] = [Failed("full"), ValueError('a "b"\n'), KeyError("k")]
        refusals: list[Exception | None] = [None, OSError("down"), None, None]
        closed: list[Any] = []

        def connect(node: str) -> None:
            if refusal := refusals.pop(0):
                raise refusal

        def invoke(operation: Operation) -> Any:
            raise errors.pop(0)

        told = [
            '{:type :fail, :process 0, :f :write, :value 5, :error "full"}',
            '{:type :info, :process 0, :f :write, :value 5, :error "ValueError(\'a \\"b\\"\\\\n\')"}',
            "{:type :fail, :process 1, :f :write, :value 5, :error \"OSError('down')\"}",
            "{:type :info, :process 1, :f :read, :value nil, :error \"KeyError('k')\"}",
        ]
        asked = [call(0, "write", "5"), call(0, "write", "5"), call(1, "write", "5"), call(1, "read")]
        talk = [line for pair in zip(asked, [f"< {reply}" for reply in told]) for line in pair]
        self.assertEqual(self.run_test(lambda: Client(invoke, connect, closed), script(*talk, *report())), 0)
        self.assertEqual(self.replies(), told)
        wait_until(lambda: len(closed) == 3)
        self.assertEqual((Client.made, len(closed)), (3, 3))
        self.assertIn('ValueError: a "b"', self.kept("test.log"))

    def test_a_client_that_can_not_be_made(self) -> None:
        told = "{:type :fail, :process 0, :f :read, :value nil, :error \"ImportError('none')\"}"
        self.run_test(mock.Mock(side_effect=ImportError("none")), script(call(0, "read"), f"< {told}", *report()))
        self.assertEqual(self.replies(), [told])

    def test_a_call_that_runs_out(self) -> None:
        """It is `:info`, what it answers later is dropped, and the next call of its thread is made."""
        release, closed = threading.Event(), list[Any]()

        def invoke(operation: Operation) -> int:
            if operation.process == 0:
                release.wait()
                return 1
            release.set()
            wait_until(lambda: len(closed) == 1)  # the late answer comes before this one
            return 2

        told = [
            '{:type :info, :process 0, :f :read, :value nil, :error "timed out after 0.1 s"}',
            "{:type :ok, :process 1, :f :read, :value 2}",
        ]
        lines = script(*pairs([call(0, "read"), call(1, "read")], told), *report())
        self.assertEqual(self.run_test(lambda: Client(invoke, closed=closed), lines, call_timeout=0.1), 0)
        self.assertEqual(self.replies(), told)
        wait_until(lambda: len(closed) == 2)
        self.assertEqual((Client.made, len(closed)), (2, 2))

    def test_an_open_that_runs_out(self) -> None:
        """The call is not done, and it is not done later either."""
        release, closed, invoked = threading.Event(), list[Any](), list[Any]()

        def connect(node: str) -> None:
            if Client.made == 1:
                release.wait()

        def invoke(operation: Operation) -> int:
            release.set()
            wait_until(lambda: len(closed) == 1)
            invoked.append(operation)
            return 2

        told = [
            '{:type :fail, :process 0, :f :read, :value nil, :error "open timed out after 0.1 s"}',
            "{:type :ok, :process 0, :f :read, :value 2}",
        ]
        lines = script(*pairs([call(0, "read"), call(0, "read")], told), *report())
        self.run_test(lambda: Client(invoke, connect, closed), lines, call_timeout=0.1)
        self.assertEqual(self.replies(), told)
        self.assertEqual(len(invoked), 1)

    def test_the_time_out_begins_behind_the_gap(self) -> None:
        told = "{:type :ok, :process 0, :f :read, :value 2}"
        with mock.patch("random.uniform", return_value=0.05) as uniform:
            self.run_test(
                lambda: Client(lambda _: 2),
                script(call(0, "read"), f"< {told}", *report()),
                call_timeout=0.03,
                gap=0.025,
            )
        uniform.assert_called_once_with(0, 0.05)
        self.assertEqual(self.replies(), [told])

    def test_independent_keys(self) -> None:
        self.known.table.update(threads_per_key=1, ops_per_key=5)
        seen = []

        def invoke(operation: Operation) -> int:
            seen.append((operation.key, operation.value))
            if operation.function == "cas":
                raise Failed
            return 9

        told = [
            "{:type :ok, :process 0, :f :read, :value [2 9]}",
            "{:type :ok, :process 0, :f :write, :value [2 7]}",
            '{:type :fail, :process 0, :f :cas, :value [2 [7 8]], :error "Failed()"}',
        ]
        asked = [call(0, "read", "[2 nil]"), call(0, "write", "[2 7]"), call(0, "cas", "[2 [7 8]]")]
        self.run_test(
            lambda: Client(invoke),
            script(*[line for pair in zip(asked, [f"< {reply}" for reply in told]) for line in pair], *report()),
        )
        self.assertEqual(self.replies(), told)
        self.assertEqual(seen, [(2, None), (2, 7), (2, [7, 8])])

    def test_a_transaction_that_a_client_changes(self) -> None:
        """A client may write its reads where it found them: a call that may have been done has its own value."""
        self.known.table["workload"] = "list-append"

        def invoke(operation: Operation) -> Any:
            operation.value[1][2] = [1, 2]
            if operation.process == 0:
                raise OSError("gone")
            return operation.value

        told = [
            "{:type :info, :process 0, :f :txn, :value [[:append 3 1] [:r 3 nil]], :error \"OSError('gone')\"}",
            "{:type :ok, :process 1, :f :txn, :value [[:append 3 1] [:r 3 [1 2]]]}",
        ]
        asked = [call(0, "txn", "[[:append 3 1] [:r 3 nil]]"), call(1, "txn", "[[:append 3 1] [:r 3 nil]]")]
        self.run_test(lambda: Client(invoke), script(asked[0], f"< {told[0]}", asked[1], f"< {told[1]}", *report()))
        self.assertEqual(self.replies(), told)

    def test_an_answer_that_does_not_suit(self) -> None:
        told = [
            ":stop",
            ":stop",
            "{:type :info, :process 0, :f :read, :value nil, :error \"Unsuitable('read nil was answered by 7.0')\"}",
        ]
        lines = script(call(0, "read"), *[f"< {line}" for line in told], *report())
        self.assertEqual(self.run_test(lambda: Client(lambda _: 7.0), lines), 5)
        self.assertEqual(self.err, ["jeprun.py: process 0: read nil was answered by 7.0"])

    def test_a_line_that_can_not_be_read(self) -> None:
        self.assertEqual(self.run_test(lambda: Client(str), script("what?", "."), script(".", *report())), 5)
        self.assertIn("the test can't go on: JSONDecodeError", self.err[0])
        self.assertEqual(self.cluster.told, ["setup", "teardown"])

    def test_the_name_of_the_folder(self) -> None:
        self.run_test(lambda: Client(str), script(*report()), name="other")
        self.assertEqual(pathlib.Path(self.out[0]).parent, self.store / "other")

    def test_the_status_is_that_of_the_program(self) -> None:
        for status in (1, 2, 3):
            self.assertEqual(self.run_test(lambda: Client(str), script(*report(), f"# {status}")), status)


class Faults(Case):
    def step(self, *, links: str = "", nodes: str = "") -> str:
        told = f":step [:undo], :links [{links}], :nodes [{nodes}]"
        return f"{{:index 0, :time 0, :type :info, :process :nemesis, :f :step, :value 0, {told}}}"

    def answer(self, error: str) -> str:
        return (STEPPED % 0)[:-1] + f', :error "{error}"}}'

    def test_cells(self) -> None:
        links = '["n1" "n2" {:cut false, :delay 50, :loss 2}] ["n2" "n1" {:cut true, :delay 0, :loss 0}]'
        nodes = '["n1" {:process :paused, :clock -500}] ["n2" {:process :killed, :clock 0}]'
        self.assertEqual(
            self.run_test(
                lambda: Client(str), script(self.step(links=links, nodes=nodes), f"< {STEPPED % 0}", *report())
            ),
            0,
        )
        cells = [
            ("n1", "n2", LinkCell(False, 50, 2)),
            ("n2", "n1", LinkCell(cut=True)),
            ("n1", NodeCell("paused", -500)),
            ("n2", NodeCell("killed")),
        ]
        self.assertEqual(self.cluster.told, ["setup", *cells, "teardown"])

    def test_a_step_that_fails(self) -> None:
        """Its other cells are made nevertheless."""

        def refuse(*told: Any) -> None:
            raise OSError("no iptables")

        self.cluster.hooks["set_link"] = refuse
        error = "set_link('n1', 'n2', LinkCell(cut=True, delay=0, loss=0)): OSError('no iptables')"
        lines = script(
            self.step(links='["n1" "n2" {:cut true, :delay 0, :loss 0}]', nodes='["n1" {:process :paused, :clock 0}]'),
            "< :stop",
            "< :stop",
            f"< {self.answer(error)}",
            *report(),
        )
        self.assertEqual(self.run_test(lambda: Client(str), lines), 5)
        self.assertEqual(self.err, [f"jeprun.py: step 0: {error}"])
        self.assertEqual(self.cluster.told, ["setup", ("n1", NodeCell("paused")), "teardown"])
        self.assertEqual(self.out[1], "{:valid? true}")

    def test_a_step_that_runs_out(self) -> None:
        """No later step is done while it is under way, and what is left of it is not done any more."""
        release = threading.Event()

        def set_link(source: str, destination: str, cell: LinkCell) -> None:
            self.cluster.told.append(f"{source} begins")
            release.wait()
            self.cluster.told.append(f"{source} ends")

        def let_go() -> None:
            replies = self.store / "small" / "latest" / "replies.edn"
            wait_until(lambda: replies.exists() and replies.read_text().count("timed out") == 2)
            release.set()

        self.cluster.hooks["set_link"] = set_link
        links = '["n1" "n2" {:cut true, :delay 0, :loss 0}] ["n2" "n1" {:cut true, :delay 0, :loss 0}]'
        steps = [self.step(links=links), self.step(nodes='["n1" {:process :paused, :clock 0}]')]
        ran_out = ["< :stop", "< :stop", f"< {self.answer('timed out after 0.1 s')}"]
        healed = [self.step(nodes='["n2" {:process :running, :clock 0}]'), f"< {STEPPED % 0}"]
        lines = script(steps[0], *ran_out, steps[1], *ran_out, *healed, *report())
        threading.Thread(target=let_go, daemon=True).start()
        self.assertEqual(self.run_test(lambda: Client(str), lines, step_timeout=0.1), 5)
        self.assertEqual(self.cluster.told, ["setup", "n1 begins", "n1 ends", ("n2", NodeCell()), "teardown"])

    def test_teardown_waits_for_a_step(self) -> None:
        release = threading.Event()

        def set_node(node: str, cell: NodeCell) -> None:
            self.cluster.told.append("begins")
            threading.Timer(0.1, release.set).start()
            release.wait()
            self.cluster.told.append("ends")

        self.cluster.hooks["set_node"] = set_node
        told = "{:type :ok, :process 0, :f :read, :value 2}"
        # `jeprun` is killed while the step is under way.
        lines = script(self.step(nodes='["n1" {:process :paused, :clock 0}]'), call(0, "read"), f"< {told}", "kill")

        def invoke(operation: Operation) -> int:
            wait_until(lambda: "begins" in self.cluster.told)
            return 2

        client = Client(invoke)
        self.assertEqual(self.run_test(lambda: client, lines, script(".", *report())), 5)
        self.assertEqual(self.cluster.told, ["setup", "begins", "ends", "teardown"])

    def test_what_is_read_back(self) -> None:
        self.known = dataclasses.replace(self.known, start=({("n2", "n1"): LinkCell(delay=5)}, {}))
        real: list[Any] = [
            ({("n2", "n1"): LinkCell(delay=5)}, {}),
            ({("n1", "n2"): LinkCell(), ("n2", "n1"): LinkCell(delay=6)}, {"n1": NodeCell("killed")}),
            ({("n2", "n1"): LinkCell(delay=5)}, {"n2": NodeCell(clock=1)}),
        ]
        self.cluster.hooks["read_back"] = lambda: real.pop(0)
        told = [
            "n1 to n2: told LinkCell(cut=True, delay=0, loss=0), is LinkCell(cut=False, delay=0, loss=0)",
            "n2 to n1: told LinkCell(cut=False, delay=5, loss=0), is LinkCell(cut=False, delay=6, loss=0)",
            "n1: told NodeCell(process='running', clock=0), is NodeCell(process='killed', clock=0)",
        ]
        left = [
            "n1 to n2: told LinkCell(cut=True, delay=0, loss=0), is LinkCell(cut=False, delay=0, loss=0)",
            "n2: told NodeCell(process='running', clock=0), is NodeCell(process='running', clock=1)",
        ]
        links = '["n1" "n2" {:cut true, :delay 0, :loss 0}]'
        lines = script(self.step(links=links), "< :stop", "< :stop", f"< {self.answer('; '.join(told))}", *report())
        self.assertEqual(self.run_test(lambda: Client(str), lines), 5)
        self.assertEqual(
            self.err, [f"jeprun.py: step 0: {'; '.join(told)}", f"jeprun.py: at the end: {'; '.join(left)}"]
        )

    def test_the_cells_of_the_start(self) -> None:
        """They are made behind `setup`, and before the first line."""
        cells = [("n1", "n2", LinkCell(loss=3)), ("n2", NodeCell("paused", 7))]
        self.known = dataclasses.replace(
            self.known, start=({("n1", "n2"): LinkCell(loss=3)}, {"n2": NodeCell("paused", 7)})
        )
        lines = script(call(0, "read"), "< {:type :ok, :process 0, :f :read, :value 2}", *report())

        def invoke(operation: Operation) -> int:
            self.cluster.told.append("read")
            return 2

        self.run_test(lambda: Client(invoke), lines)
        self.assertEqual(self.cluster.told, ["setup", *cells, "read", "teardown"])

    def test_a_start_that_can_not_be_made(self) -> None:
        self.known = dataclasses.replace(self.known, start=({}, {"n2": NodeCell("paused")}))
        self.cluster.hooks["read_back"] = lambda: ({}, {})
        self.assertEqual(self.run_test(lambda: Client(str)), 5)
        wanted = "told NodeCell(process='paused', clock=0), is NodeCell(process='running', clock=0)"
        self.assertEqual(self.err, [f"jeprun.py: start: n2: {wanted}"])
        self.assertEqual(self.cluster.told, ["setup", ("n2", NodeCell("paused")), "teardown"])
        self.assertEqual(self.out[1], "no verdict")


class Ends(Case):
    """How a test ends otherwise."""

    def interrupt(self, times: int) -> Callable[[Operation], int]:
        """A call that is interrupted, as by Ctrl-C, so many times while it is under way."""

        def invoke(operation: Operation) -> int:
            for _ in range(times):
                os.kill(os.getpid(), signal.SIGINT)
                time.sleep(0.02)
            return 2

        return invoke

    def test_ctrl_c(self) -> None:
        told = [":stop", "{:type :ok, :process 0, :f :read, :value 2}"]
        lines = script(call(0, "read"), *[f"< {line}" for line in told], *report())
        self.assertEqual(self.run_test(lambda: Client(self.interrupt(1)), lines), 0)
        self.assertEqual(self.replies(), told)
        self.assertEqual(self.err, ["jeprun.py: Ctrl-C: all faults end"])
        self.assertEqual(self.cluster.told, ["setup", "teardown"])

    def test_ctrl_c_twice(self) -> None:
        told = [":stop", ":stop", "{:type :ok, :process 0, :f :read, :value 2}"]
        lines = script(call(0, "read"), *[f"< {line}" for line in told], *report())
        self.assertEqual(self.run_test(lambda: Client(self.interrupt(2)), lines), 0)
        self.assertEqual(self.replies(), told)

    def test_ctrl_c_three_times(self) -> None:
        """The cluster is torn down at once, and what was replied is played again."""
        verdict = "{:valid? true, :order []}"
        scripts = [script(call(0, "read"), "."), script("< :stop", "< :stop", ".", *report(verdict=verdict), "# 4")]
        self.assertEqual(self.run_test(lambda: Client(self.interrupt(3)), *scripts), 4)
        self.assertEqual(self.err[-1], "jeprun.py: Ctrl-C: the cluster is torn down at once")
        self.assertEqual(self.cluster.told, ["setup", "teardown"])
        self.assertEqual(self.out[1], verdict)
        self.assertEqual(self.kept("report.edn"), report(verdict=verdict))

    def test_sigterm_is_ctrl_c(self) -> None:
        def invoke(operation: Operation) -> int:
            os.kill(os.getpid(), signal.SIGTERM)
            time.sleep(0.02)
            return 2

        told = [":stop", "{:type :ok, :process 0, :f :read, :value 2}"]
        self.run_test(lambda: Client(invoke), script(call(0, "read"), *[f"< {line}" for line in told], *report()))
        self.assertEqual(self.replies(), told)
        self.assertEqual(signal.getsignal(signal.SIGTERM), signal.SIG_DFL)

    def test_ctrl_c_in_setup(self) -> None:
        self.cluster.hooks["setup"] = lambda: os.kill(os.getpid(), signal.SIGINT)
        self.assertEqual(self.run_test(lambda: Client(str)), 5)
        self.assertEqual(self.cluster.told, ["teardown"])

    def test_setup_that_fails(self) -> None:
        self.cluster.hooks["setup"] = mock.Mock(side_effect=OSError("no disk"))
        self.assertEqual(self.run_test(lambda: Client(str)), 5)
        self.assertEqual(self.cluster.told, ["teardown"])
        self.assertEqual(self.err, ["jeprun.py: the test can't go on: OSError('no disk')"])

    def test_a_program_that_is_killed(self) -> None:
        told = "{:type :ok, :process 0, :f :read, :value 2}"
        lines = [script(call(0, "read"), f"< {told}", "kill"), script(f"< {told}", ".", *report("{:index 0}"), "# 4")]
        self.assertEqual(self.run_test(lambda: Client(lambda _: 2), *lines), 5)
        self.assertEqual(self.err, ["jeprun.py: jeprun gave no verdict, status -9: its replies are played again"])
        self.assertEqual(self.kept("history.edn"), ["{:index 0}"])
        self.assertEqual(self.kept("report.edn"), report("{:index 0}"))
        self.assertEqual(self.out[1], "{:valid? true}")

    def test_a_program_that_is_killed_in_its_report(self) -> None:
        written = report("{:index 0}", "{:index 1}")
        for lines in (2, 4, 5):  # in the history, before the environment, before the verdict
            scripts = [script(*written[:lines], "kill"), script(".", *written)]
            self.assertEqual(self.run_test(lambda: Client(str), *scripts), 5)
            self.assertEqual(self.kept("history.edn"), ["{:index 0}", "{:index 1}"])
            self.assertEqual(self.out[1], "{:valid? true}")

    def test_an_answer_behind_the_end(self) -> None:
        """It is kept no longer: the replies are those that the report is made of."""
        release, closed = threading.Event(), list[Any]()
        client = Client(lambda operation: operation.value == 5 or release.wait(), closed=closed)
        told = "{:type :ok, :process 0, :f :write, :value 5}"
        lines = script(call(0, "write", "5"), f"< {told}", call(0, "write", "6"), "kill")
        self.run_test(lambda: client, lines, script(".", *report()))
        release.set()
        wait_until(lambda: bool(closed))
        self.assertEqual(self.replies(), [told])

    def test_ctrl_c_in_teardown(self) -> None:
        """It does not end half-way."""

        def teardown() -> None:
            for _ in range(4):
                os.kill(os.getpid(), signal.SIGINT)
            self.cluster.told.append("teardown")

        self.cluster.hooks["teardown"] = teardown
        self.assertEqual(self.run_test(lambda: Client(str), script(*report())), 0)
        self.assertEqual(self.cluster.told, ["setup", "teardown"])

    def test_teardown_that_fails(self) -> None:
        """The guard tries once more, in its own process."""
        marker = self.folder / "marker"

        def teardown() -> None:
            marker.write_text(marker.read_text() + f"{os.getpid()} " if marker.exists() else f"{os.getpid()} ")
            raise OSError("still there")

        self.cluster.hooks["teardown"] = teardown
        with mock.patch("time.sleep"):
            self.assertEqual(self.run_test(lambda: Client(str), script(*report()), script(".", *report())), 5)
        here, guard = marker.read_text().split()
        self.assertEqual(here, str(os.getpid()))
        self.assertNotEqual(here, guard)
        log = "\n".join(self.kept("test.log"))
        self.assertIn("teardown: OSError('still there')", log)
        self.assertIn("the guard could not tear the cluster down: OSError('still there')", log)

    def test_a_test_that_is_killed(self) -> None:
        """The guard tears down, says so, and gets the report from the replies."""
        marker = self.folder / "marker"
        self.cluster.hooks["teardown"] = lambda: marker.write_text(f"{os.getpid()} {os.getsid(0)}")

        def invoke(operation: Operation) -> None:
            os.kill(os.getpid(), signal.SIGKILL)

        lines = [script(call(0, "read"), "."), script(".", *report("{:index 0}"), "# 4")]
        child = os.fork()
        if child == 0:
            with mock.patch("time.sleep"):
                self.run_test(lambda: Client(invoke), *lines)
            os._exit(0)
        self.assertEqual(os.WTERMSIG(os.waitpid(child, 0)[1]), signal.SIGKILL)
        wait_until(lambda: "as far as the test got: {:valid? true}" in "\n".join(self.kept("test.log")))
        guard, session = marker.read_text().split()
        self.assertNotIn(guard, [str(child), str(os.getpid())])
        self.assertEqual(guard, session)
        self.assertEqual(self.kept("history.edn"), ["{:index 0}"])


class FullDisk(Case):
    """Files that take only so many bytes."""

    OK = "{:type :ok, :process 0, :f :write, :value %d}"
    ROOM_FOR_ONE = len(OK) + 40

    def limited(self, room: dict[str, int]) -> Callable[..., Any]:
        """An `open` whose files of these names take so many bytes, and then no more."""

        class Limited(io.FileIO):
            def write(self, data: Any) -> int:
                left = room.get(pathlib.Path(str(self.name)).name, 10**9) - self.tell()
                if left <= 0 and len(data):
                    raise OSError(errno.ENOSPC, "No space left on device")
                return super().write(bytes(data)[:left]) or 0

        spare = room.pop("spare", 10**9)

        def opened(path: pathlib.Path, mode: str, buffering: int) -> Any:
            file = Limited(path, mode[0])
            if "store" not in path.parts and spare == 0:
                raise OSError(errno.ENOSPC, "No space left on device")
            return file if "store" in path.parts else io.FileIO(path, mode[0])

        return opened

    def run_limited(self, room: dict[str, int], *lines: str, again: str = "") -> list[str]:
        """Runs a test, and gives the files of the spare folder."""
        (self.folder / "tmp").mkdir()
        tmp = mock.patch("tempfile.tempdir", str(self.folder / "tmp"))
        with tmp, mock.patch("jeprun.open", self.limited(room), create=True):
            client = Client(lambda _: None)
            self.assertEqual(self.run_test(lambda: client, script(*lines, *report("{:index 0}")), again, tick=10), 5)
        self.assertEqual(self.cluster.told, ["setup", "teardown"])
        self.spare = next((self.folder / "tmp").iterdir())
        return [file.name for file in self.spare.iterdir()]

    def test_replies(self) -> None:
        """What a file has in both folders is the whole of it, in whole lines, and the test is stopped."""
        calls = [call(0, "write", "5"), f"< {self.OK % 5}", call(0, "write", "6")]
        told = [":stop", ":stop", self.OK % 6]
        room = len(self.OK) + len(", :time ") + 14  # for the first reply and the beginning of the next one
        spare = self.run_limited({"replies.edn": room}, *calls, *[f"< {line}" for line in told])
        trouble = f"{self.out[0]}/replies.edn: No space left on device: the rest goes to {self.spare}"
        self.assertEqual(self.err, [f"jeprun.py: {trouble}"])
        self.assertEqual(self.replies(), [self.OK % 5])
        self.assertEqual(self.replies((self.spare / "replies.edn").read_text()), told)
        self.assertEqual(sorted(spare), ["history.edn", "replies.edn", "report.edn", "test.log"])
        self.assertEqual((self.spare / "history.edn").read_text(), "{:index 0}\n")
        self.assertEqual(self.out[1], "{:valid? true}")

    def test_played_again(self) -> None:
        """Where `jeprun` is killed, too, it is given what is in both folders."""
        told = [self.OK % 5, ":stop", ":stop", self.OK % 6]
        lines = [
            *pairs([call(0, "write", "5")], told),
            call(0, "write", "6"),
            *[f"< {line}" for line in told[1:]],
            "kill",
        ]
        again = script(*[f"< {line}" for line in told], ".", *report())
        self.run_limited({"replies.edn": len(self.OK) + len(", :time ") + 14}, *lines, again=again)
        self.assertEqual(self.out[1], "{:valid? true}")

    def test_both_folders(self) -> None:
        told = [":stop", ":stop", ":stop", ":stop", self.OK % 5]  # two for each folder
        self.run_limited({"replies.edn": 0, "spare": 0}, call(0, "write", "5"), *[f"< {line}" for line in told])
        self.assertEqual(
            self.err[1], f"jeprun.py: {self.spare}/test.log: No space left on device: the rest goes to standard output"
        )
        shown = [line.removeprefix("replies.edn: ") for line in self.out if line.startswith("replies.edn: ")]
        self.assertEqual(self.replies("\n".join(shown)), told)
        self.assertIn("history.edn: {:index 0}", self.out)

    def test_no_spare_folder(self) -> None:
        told = [":stop", ":stop", self.OK % 5]
        lines = script(call(0, "write", "5"), *[f"< {line}" for line in told], *report())
        full = mock.patch("jeprun.open", self.limited({"replies.edn": 0}), create=True)
        with full, mock.patch("tempfile.mkdtemp", side_effect=OSError):
            self.assertEqual(self.run_test(lambda: Client(str), lines, tick=10), 5)
        shown = [line.removeprefix("replies.edn: ") for line in self.out if line.startswith("replies.edn: ")]
        self.assertEqual(self.replies("\n".join(shown)), told)

    def test_the_log(self) -> None:
        """A file that is written before the first line stops the test, too."""
        spare = self.run_limited({"test.log": 0})
        self.assertEqual(spare, ["test.log"])
        self.assertIn("setup", (self.spare / "test.log").read_text())


class Pages(Case):
    def draw(self, table: dict[str, Any], program: str) -> jeprun.Folder:
        self.settings.write_text("")
        script = self.folder / "jeprun"
        script.write_text(f"#!/bin/sh\n{program}\n")
        script.chmod(0o755)
        folder = jeprun.Folder(self.store, self.settings, str(script))
        folder.write("history.edn", b"{:index 0}\n")
        folder.draw(table)
        return folder

    def test_options(self) -> None:
        """The page is drawn with what the settings say of the judge, whatever the verdict is."""
        table = {
            "workload": "register",
            "initial": -5,
            "budget": 7,
            "clients": 4,
            "threads_per_key": 2,
            "ops_per_key": 3,
        }
        folder = self.draw(table, 'echo "$@"; cat; exit 2')
        page = "timeline --workload=register --initial=-5 --budget=7 --independent\n{:index 0}\n"
        self.assertEqual((folder.path / "timeline.html").read_text(), page)
        self.assertEqual((folder.path / "plot.html").read_text(), "plot\n{:index 0}\n")

    def test_a_page_that_is_refused(self) -> None:
        folder = self.draw({"workload": "set"}, "echo odd; echo jeprun: odd >&2; exit 3")
        self.assertEqual(sorted(os.listdir(folder.path)), ["history.edn", "nodes", "settings.toml", "test.log"])
        self.assertIn("timeline.html: jeprun: odd", (folder.path / "test.log").read_text())

    def test_a_command_that_is_not_there(self) -> None:
        folder = self.draw({"workload": "set"}, "echo \"error: unrecognized subcommand '$1'\" >&2; exit 3")
        self.assertEqual(sorted(os.listdir(folder.path)), ["history.edn", "nodes", "settings.toml"])


if __name__ == "__main__":
    unittest.main()

"""Tests of maelstrom.py: what nodes are told and what their answers mean, by Maelstrom's pages; the network; processes.

    python3 -m unittest test_maelstrom
"""

import argparse
import contextlib
import io
import itertools
import json
import os
import pathlib
import sys
import tempfile
import time
import unittest
import unittest.mock
from typing import Any

import jeprun
import maelstrom
import maelstrom_network
from jeprun import Keyword, LinkCell, NodeCell, Operation
from maelstrom_network import Body, LastWriteStore, LinearizableStore, SequentialStore, TimestampOracle

# A node that answers each message by its type and `_ok`. Asked to print, it prints what is no message; asked to leave,
# it ends.
NODE = """#!{python}
import json, sys
for line in sys.stdin:
    message = json.loads(line)
    body = message["body"]
    print("heard", body["type"], file=sys.stderr, flush=True)
    if body["type"] == "print":
        print("Hello, I am a node!", flush=True)
    if body["type"] == "leave":
        sys.exit(3)
    if "node_id" in body:
        name = body["node_id"]
    answer = dict(type=body["type"] + "_ok", in_reply_to=body["msg_id"], value=name)
    print(json.dumps(dict(src=name, dest=message["src"], body=answer)), flush=True)
"""


def operation(function: str, value: Any = None, key: int | None = None) -> Operation:
    return Operation(0, function, value, key, "n1")


def settings(workload: str, **others: Any) -> jeprun.Settings:
    table = {"start": '{:nodes ["n1"]}', "workload": workload, "generator": "[:rising 0]", **others}
    return jeprun.Settings(table, ["n1"], ({}, {}), frozenset())


class Bodies(unittest.TestCase):
    """What is asked and what answers mean, as the page on workloads has it."""

    def test_requests(self) -> None:
        transaction = operation("txn", [[Keyword("append"), 3, 1], [Keyword("r"), 3, None]])
        for workload, asked, body in [
            ("lin-kv", operation("read", None, 7), '{"type": "read", "key": 7}'),
            ("lin-kv", operation("read"), '{"type": "read", "key": 0}'),
            ("lin-kv", operation("write", 5, 7), '{"type": "write", "key": 7, "value": 5}'),
            ("lin-kv", operation("cas", [1, 2], 7), '{"type": "cas", "key": 7, "from": 1, "to": 2}'),
            ("broadcast", operation("add", 5), '{"type": "broadcast", "message": 5}'),
            ("broadcast", operation("read"), '{"type": "read"}'),
            ("g-set", operation("add", 5), '{"type": "add", "element": 5}'),
            ("g-counter", operation("add", 5), '{"type": "add", "delta": 5}'),
            ("unique-ids", operation("generate"), '{"type": "generate"}'),
            ("txn-list-append", transaction, '{"type": "txn", "txn": [["append", 3, 1], ["r", 3, null]]}'),
        ]:
            self.assertEqual(json.dumps(maelstrom.request_of(workload, asked)), body)

    def test_answers(self) -> None:
        transaction = operation("txn", [["append", 3, 1], ["r", 3, None]])
        done = [["append", 3, 1], ["r", 3, [1]]]
        rows: list[tuple[str, Operation, Body, Any]] = [
            ("lin-kv", operation("read", None, 7), {"type": "read_ok", "value": 5}, 5),
            ("lin-kv", operation("write", 5, 7), {"type": "write_ok"}, None),
            ("lin-kv", operation("cas", [1, 2], 7), {"type": "cas_ok"}, None),
            ("broadcast", operation("add", 5), {"type": "broadcast_ok"}, None),
            ("broadcast", operation("read"), {"type": "read_ok", "messages": [1, 8]}, [1, 8]),
            ("g-set", operation("read"), {"type": "read_ok", "value": [1, 8]}, [1, 8]),
            ("g-counter", operation("read"), {"type": "read_ok", "value": 9}, 9),
            ("unique-ids", operation("generate"), {"type": "generate_ok", "id": "a1"}, "a1"),
            ("txn-list-append", transaction, {"type": "txn_ok", "txn": done}, done),
        ]
        for workload, asked, answer, value in rows:
            self.assertEqual(maelstrom.value_of(workload, asked, answer), value)

    def test_answers_to_other_questions(self) -> None:
        rows: list[tuple[str, Operation, Body, str]] = [
            ("lin-kv", operation("read", None, 7), {"type": "write_ok"}, "n1 answered read by write_ok"),
            ("broadcast", operation("read"), {"type": "read_ok", "value": []}, "n1 answered read without messages"),
        ]
        for workload, asked, answer, text in rows:
            with self.assertRaises(maelstrom_network.Malformed) as raised:
                maelstrom.value_of(workload, asked, answer)
            self.assertEqual(str(raised.exception), text)

    def test_errors(self) -> None:
        definite = {1, 10, 11, 12, 14, 20, 21, 22, 30}
        for code in [0, 1, 10, 11, 12, 13, 14, 20, 21, 22, 30, 99, 1000, None, "11"]:
            with self.assertRaises(jeprun.Failed if code in definite else maelstrom.Indefinite):
                maelstrom.value_of("lin-kv", operation("write", 5, 7), {"type": "error", "code": code, "text": "no"})
        with self.assertRaisesRegex(jeprun.Failed, "^22 precondition-failed: expected 1$"):
            maelstrom.value_of("lin-kv", operation("cas", [1, 2]), {"type": "error", "code": 22, "text": "expected 1"})

    def test_topologies(self) -> None:
        names = ["n1", "n2", "n3", "n4", "n5"]
        for shape, neighbours in {
            "grid": ["n2 n4", "n1 n3 n5", "n2", "n1 n5", "n2 n4"],  # three in a row
            "line": ["n2", "n1 n3", "n2 n4", "n3 n5", "n4"],
            "total": ["n2 n3 n4 n5", "n1 n3 n4 n5", "n1 n2 n4 n5", "n1 n2 n3 n5", "n1 n2 n3 n4"],
            "tree2": ["n2 n3", "n1 n4 n5", "n1", "n2", "n2"],
            "tree4": ["n2 n3 n4 n5", "n1", "n1", "n1", "n1"],
        }.items():
            self.assertEqual(maelstrom.topology_of(names, shape), dict(zip(names, map(str.split, neighbours))))
        self.assertEqual(maelstrom.topology_of(["n1"], "grid"), {"n1": []})


class Services(unittest.TestCase):
    def test_key_value_store(self) -> None:
        store, none = LinearizableStore(), {"type": "error", "code": 20, "text": 'there is no key "x"'}
        other = {"type": "error", "code": 22, "text": "expected true, but had 1"}
        rows: list[tuple[Body, Body]] = [
            ({"type": "read", "key": "x"}, none),
            ({"type": "cas", "key": "x", "from": 0, "to": 1}, none),
            ({"type": "cas", "key": "x", "from": 0, "to": 1, "create_if_not_exists": True}, {"type": "cas_ok"}),
            ({"type": "cas", "key": "x", "from": True, "to": 2}, other),
            ({"type": "cas", "key": "x", "from": 1, "to": [2]}, {"type": "cas_ok"}),
            ({"type": "read", "key": "x"}, {"type": "read_ok", "value": [2]}),
            ({"type": "write", "key": ["x", 1], "value": None}, {"type": "write_ok"}),
            ({"type": "read", "key": ["x", 1]}, {"type": "read_ok", "value": None}),
            ({"type": "txn"}, {"type": "error", "code": 10, "text": "a key-value store has no txn"}),
        ]
        for asked, answered in rows:
            self.assertEqual(store.handle("n1", asked), answered)

    def test_sequential_reads_never_go_back(self) -> None:
        store, read = SequentialStore(), {"type": "read", "key": "x"}
        seen: dict[str, list[int]] = {"n1": [], "n2": []}
        store.handle("n1", {"type": "write", "key": "x", "value": 0})
        for value in range(1, 50):
            store.handle("n1", {"type": "write", "key": "x", "value": value})
            self.assertEqual(store.handle("n1", read)["value"], value, "a node sees its own write")
            answer = store.handle("n2", read)
            seen["n2"].append(answer.get("value", -1))
        self.assertEqual(seen["n2"], sorted(seen["n2"]))
        self.assertTrue(any(value < written for written, value in enumerate(seen["n2"], 1)), "some read is old")
        newcomers = {store.handle(f"m{number}", read)["value"] for number in range(500)}
        self.assertEqual(newcomers, set(range(18, 50)), "the last 32 states are kept")

    def test_last_write(self) -> None:
        store, read = LastWriteStore(), {"type": "read", "key": "x"}

        def write(value: str) -> Body:
            return {"type": "write", "key": "x", "value": value}

        # Each call with the replica that takes it, and the one that then takes over what this one has.
        for body, replica, other, value in [
            (write("a"), 0, None, None),
            (write("b"), 0, None, None),
            (write("c"), 1, None, None),
            (read, 0, None, "b"),
            (read, 1, 0, "c"),
            (read, 0, 1, "b"),  # replica 0 made two writes, so its clock is ahead of that of replica 1
            (read, 1, None, "b"),
        ]:
            places = [replica] if other is None else [replica, other]
            with (
                unittest.mock.patch("random.randrange", side_effect=places),
                unittest.mock.patch("random.random", return_value=0.9 if other is None else 0.1),
            ):
                self.assertEqual(store.handle("n1", body).get("value"), value)

    def test_timestamps_rise(self) -> None:
        oracle = TimestampOracle()
        for number in range(2):
            self.assertEqual(oracle.handle("n1", {"type": "ts"}), {"type": "ts_ok", "ts": number})


class Messages(unittest.TestCase):
    def test_lines_that_are_no_message(self) -> None:
        for line, text in [
            (b"Hello\n", "no JSON"),
            (b"\xff\n", "no JSON"),
            (b"\n", "no JSON"),
            (b'{"src": "n1", "dest": "n2", "body": {"type": "x", "value": NaN}}\n', "no JSON"),
            (b"[" * 100000 + b"\n", "no JSON"),
            (b"7\n", "no object"),
            (b'{"dest": "n2", "body": {"type": "x"}}\n', "no src"),
            (b'{"src": "n1", "dest": 2, "body": {"type": "x"}}\n', "no dest"),
            (b'{"src": "n1", "dest": "n2"}\n', "no body with a type"),
            (b'{"src": "n1", "dest": "n2", "body": {"type": 1}}\n', "no body with a type"),
            (b'{"src": "n1", "dest": "n9", "body": {"type": "x"}}\n', "nobody is called n9"),
        ]:
            with self.assertRaises(maelstrom_network.Malformed) as raised:
                maelstrom_network.message_of(line, {"n1", "n2"})
            self.assertEqual(str(raised.exception), text)

    def test_long_lines_and_control_characters_are_shown_on_one_line(self) -> None:
        self.assertEqual(maelstrom_network.shown(b"a\tb\n"), r"'a\tb'")
        self.assertEqual(maelstrom_network.shown(b"x" * 201), "'" + "x" * 200 + " ..'")


class Links(unittest.TestCase):
    """The network, with queues in the place of processes."""

    def setUp(self) -> None:
        self.folder = pathlib.Path(self.enterContext(tempfile.TemporaryDirectory()))
        self.network = maelstrom_network.Network(["n1", "n2"], 0, self.folder / "messages.jsonl")
        self.addCleanup(self.network.close)
        self.noted = 2
        self.inputs = {name: maelstrom_network.Input() for name in ("n1", "n2")}
        for name, given in self.inputs.items():
            self.network.begin(name, given, "c0", {"type": "init"})
            self.assertEqual(self.next_of(name)["body"], {"type": "init"})

    def next_of(self, node: str, seconds: float = 1.0) -> Any:
        return json.loads(self.inputs[node].get(timeout=seconds) or b"")

    def send(self, number: int, source: str = "n1", destination: str = "n2", kind: str = "x", **body: Any) -> None:
        message = {"src": source, "dest": destination, "body": {"type": kind, "msg_id": number, **body}}
        self.network.send(source, message)

    def fates(self, count: int) -> list[str]:
        """What became of the last so many messages. A message is noted behind its arrival, so this waits for them."""

        def lines() -> list[str]:
            return (self.folder / "messages.jsonl").read_text().split("\n")[:-1]

        self.noted += count
        self.assertTrue(maelstrom.wait_until(lambda: len(lines()) == self.noted, 1))
        return [json.loads(line)["fate"] for line in lines()[-count:]]

    def test_a_cut_link_loses_all_and_the_other_way_is_open(self) -> None:
        self.network.cells["n1", "n2"] = LinkCell(cut=True)
        self.send(1)
        self.send(2, "n2", "n1")
        self.assertEqual(self.next_of("n1")["body"]["msg_id"], 2)
        self.network.cells["n1", "n2"] = LinkCell()
        self.send(3)
        self.assertEqual(self.next_of("n2")["body"]["msg_id"], 3)
        self.assertEqual(self.fates(3), ["cut", "delivered", "delivered"])

    def test_loss(self) -> None:
        for loss, least, most in [(20, 200, 200), (10, 50, 150), (0, 0, 0)]:
            self.network.cells["n1", "n2"] = LinkCell(loss=loss)
            for number in range(200):
                self.send(number)
            lost = self.fates(200).count("lost")
            self.assertTrue(least <= lost <= most, f"{lost} of 200 are lost at {loss} twentieths")

    def test_delay(self) -> None:
        self.network.cells["n1", "n2"] = LinkCell(delay=100)
        began = time.monotonic()
        self.send(1)
        self.network.cells["n1", "n2"] = LinkCell()
        self.send(2)
        self.assertEqual([self.next_of("n2")["body"]["msg_id"] for _ in range(2)], [2, 1])
        self.assertTrue(0.1 <= time.monotonic() - began < 0.3)

    def test_a_service_answers_and_links_do_not_matter_to_it(self) -> None:
        self.network.cells["n1", "n2"] = self.network.cells["n2", "n1"] = LinkCell(cut=True)
        self.send(1, "n1", "lin-kv", "write", key="x", value=5)
        self.send(2, "n1", "lin-kv", "cas", key="x")
        expected: list[Body] = [
            {"type": "write_ok", "in_reply_to": 1},
            {"type": "error", "code": 12, "text": "cas needs from", "in_reply_to": 2},
        ]
        self.assertEqual([self.next_of("n1")["body"] for _ in range(2)], expected)

    def test_a_client_hears_that_a_node_is_not_running(self) -> None:
        caller = maelstrom_network.Caller(self.network)
        self.network.end("n1", self.inputs["n1"])
        caller.ask("n1", {"type": "read"})
        self.assertEqual(caller.answer(1), {"type": "error", "code": 1, "text": "n1 is not running", "in_reply_to": 1})

    def test_late_answers_are_dropped(self) -> None:
        caller = maelstrom_network.Caller(self.network)
        number = caller.ask("n2", {"type": "read"})
        message = self.next_of("n2")
        self.assertEqual(message["id"], number)
        client = message["src"]
        self.assertIsNone(caller.answer(0))
        caller.ask("n2", {"type": "read"})
        for number in 1, 2:
            self.network.send("n2", {"src": "n2", "dest": client, "body": {"type": "read_ok", "in_reply_to": number}})
        self.assertEqual(caller.answer(1), {"type": "read_ok", "in_reply_to": 2})
        caller.leave()
        self.network.take("n2", 1, json.dumps({"src": "n2", "dest": client, "body": {"type": "read_ok"}}).encode())
        self.assertEqual(self.network.complaints, 0)

    def test_a_full_disk_keeps_no_messages_and_stops_none(self) -> None:
        network, given = maelstrom_network.Network(["n1"], 0, pathlib.Path("/dev/full")), maelstrom_network.Input()
        self.addCleanup(network.close)
        with contextlib.redirect_stderr(io.StringIO()) as told:
            network.begin("n1", given, "c0", {"type": "init"})
            network.send("n1", {"src": "n1", "dest": "n1", "body": {"type": "x"}})
            self.assertEqual([json.loads(given.get(timeout=1) or b"")["body"]["type"] for _ in range(2)], ["init", "x"])
        self.assertEqual(told.getvalue().count("from here on no messages are kept"), 1)

    def test_what_is_no_message_is_told_with_node_and_line(self) -> None:
        with contextlib.redirect_stderr(io.StringIO()) as told:
            for number in range(1, 16):
                self.network.take("n1", number, b"Hello\n")
        lines = told.getvalue().splitlines()
        self.assertEqual(len(lines), 10)
        self.assertTrue(lines[1].endswith("n1: line 2 of its output is no message: no JSON: 'Hello'"), lines[1])
        self.assertEqual(self.network.complaints, 15)


class Checks(unittest.TestCase):
    """What is refused before anything is set up."""

    def check(self, workload: str | None, given: jeprun.Settings) -> str:
        cluster = maelstrom.Maelstrom(argparse.Namespace(workload=workload))
        cluster.check(given)
        return cluster.workload

    def test_the_workload_follows_from_the_settings_but_for_a_set(self) -> None:
        for workload, given, answer in [
            (None, settings("register"), "lin-kv"),
            (None, settings("counter", final="[:once :read]"), "g-counter"),
            (None, settings("unique-ids"), "unique-ids"),
            (None, settings("list-append"), "txn-list-append"),
            ("broadcast", settings("set", final="[:once :read]"), "broadcast"),
            ("g-set", settings("set", final="[:once :read]"), "g-set"),
        ]:
            self.assertEqual(self.check(workload, given), answer)

    def test_refusals(self) -> None:
        bump = '[[:ms 5] [:begin 1 [:bump {"n1" 50}]]]'
        late = settings("register", schedule=["[0 [:undo]]", bump])
        final = "final: missing: nodes of g-set may lag, so they are read when all faults have ended"
        clock = jeprun.Settings({**settings("register").table}, ["n1"], ({}, {}), frozenset(["clock"]))
        client = jeprun.Settings({**settings("register").table}, ["n1", "c3"], ({}, {}), frozenset())
        for workload, given, text in [
            (None, settings("set"), "--workload: settings of a set suit broadcast and g-set"),
            ("lin-kv", settings("set"), "--workload: settings of a set suit broadcast and g-set"),
            (None, late, f"schedule: entry 1: the clock of a node can't be changed: {bump}"),
            (None, clock, "start: the clock of a node can't be changed"),
            ("g-set", settings("set"), final),
            (None, settings("counter", final="[:once :read]", generator="[:mix [:forever :read]]"),
             "generator: nodes of g-counter may lag, so they are read in `final` alone"),
            (None, client, "start: no node can be called c3, since a service or a client is"),
        ]:  # fmt: skip
            with self.assertRaises(jeprun.Unsupported) as raised:
                self.check(workload, given)
            self.assertEqual(str(raised.exception), text)


class Processes(unittest.TestCase):
    """A cluster of two processes."""

    def setUp(self) -> None:
        folder = pathlib.Path(self.enterContext(tempfile.TemporaryDirectory()))
        (folder / "nodes").mkdir()
        self.program = folder / "node.py"
        self.program.write_text(NODE.format(python=sys.executable))
        self.program.chmod(0o755)
        self.cluster = self.make(folder)
        self.addCleanup(self.cluster.teardown)

    def make(self, folder: pathlib.Path) -> maelstrom.Maelstrom:
        cluster = maelstrom.Maelstrom(maelstrom.parse(["--bin", str(self.program), "--latency", "0", "SETTINGS"]))
        cluster.folder, cluster.nodes = folder / "nodes", ["n1", "n10"]
        cluster.workload = "broadcast"
        return cluster

    def ask(self, node: str, kind: str, seconds: float = 1.0) -> Body | None:
        caller = maelstrom_network.Caller(self.cluster.network)
        caller.ask(node, {"type": kind})
        return caller.answer(seconds)

    def states(self) -> dict[str, NodeCell]:
        cells = self.cluster.read_back()
        return cells[1]

    def test_pause_kill_and_start_again(self) -> None:
        self.cluster.setup()
        running, paused, killed = NodeCell(), NodeCell("paused"), NodeCell("killed")
        self.assertEqual(self.states(), {"n1": running, "n10": running})
        for process in maelstrom.processes_of(f"{self.cluster.folder}/n1/"):
            self.assertEqual(os.getsid(process), process, "Ctrl-C does not reach it")
        self.cluster.set_node("n1", paused)
        self.assertEqual(self.states(), {"n1": paused, "n10": running})
        self.assertIsNone(self.ask("n1", "read", 0.05))
        self.cluster.set_node("n1", killed)
        self.assertEqual(self.states(), {"n1": killed, "n10": running})
        self.assertEqual((self.ask("n1", "read") or {})["code"], 1)
        for cell in paused, running, running:
            self.cluster.set_node("n1", cell)
            self.assertEqual(self.states(), {"n1": cell, "n10": running})
        self.assertEqual((self.ask("n1", "read") or {})["value"], "n1")
        log = (self.cluster.folder / "n1.log").read_text().split("\n")
        self.assertEqual(log, ["heard init", "heard topology", "heard init", "heard topology", "heard read", ""])

    def test_who_tears_down_need_not_have_set_up(self) -> None:
        self.cluster.setup()
        guard = self.make(self.cluster.folder.parent)
        with contextlib.redirect_stderr(io.StringIO()):  # here the one who set up lives, and says that its nodes ended
            guard.teardown()
            guard.teardown()
            self.assertTrue(maelstrom.wait_until(lambda: self.cluster.network.complaints == 2, 1))
        self.assertEqual(self.states(), {"n1": NodeCell("killed"), "n10": NodeCell("killed")})

    def test_a_node_that_does_not_begin(self) -> None:
        self.program.write_text("#!/bin/sh\necho no license >&2\nexit 7\n")
        log = self.cluster.folder / "n1.log"
        with contextlib.redirect_stderr(io.StringIO()), self.assertRaises(RuntimeError) as raised:
            self.cluster.setup()
        self.assertEqual(str(raised.exception), f"n1 had to answer init_ok, and answered nothing: {log} has its errors")
        self.assertEqual(log.read_text(), "no license\n")

    def test_a_node_that_ends_by_itself(self) -> None:
        self.cluster.setup()
        with contextlib.redirect_stderr(io.StringIO()) as told:
            self.ask("n1", "print")
            self.assertIsNone(self.ask("n10", "leave", 0.2))
            maelstrom.wait_until(lambda: self.cluster.network.complaints == 2, 1)
        log = self.cluster.folder / "n10.log"
        for line, end in itertools.zip_longest(told.getvalue().splitlines(), [
            "n1: line 3 of its output is no message: no JSON: 'Hello, I am a node!'",
            f"n10 ended by itself, with status 3: {log} has its errors",
        ]):  # fmt: skip
            self.assertTrue(line.endswith(end), line)
        self.assertEqual(self.states(), {"n1": NodeCell(), "n10": NodeCell("killed")})


if __name__ == "__main__":
    unittest.main()

"""Tests of simulated.py and nodes/raft.py: links and nodes in virtual time, Raft rule by rule, and whole tests twice.

    python3 -m unittest test_simulated

Whole tests need the program: that of crates/jeprun/out, or the one on the PATH. Where there is none, they are skipped.
"""

import contextlib
import io
import json
import os
import pathlib
import random
import re
import shutil
import signal
import subprocess
import sys
import tempfile
import time
import tomllib
import unittest
from collections.abc import Sequence
from typing import Any

import jeprun
import maelstrom
import simulated
from jeprun import LinkCell, NodeCell
from maelstrom_network import Body
from simulated import MILLISECOND, Clock, Network

sys.path.insert(0, str(simulated.NODES))
import raft  # noqa: E402

BUILT = pathlib.Path(__file__).parents[2] / "crates" / "jeprun" / "out" / "jeprun"
PROGRAM = str(BUILT) if BUILT.exists() else shutil.which("jeprun")
RAFT = simulated.NODES / "raft.py"


class Echo:
    """An actor that keeps what it hears, and notes each 10 milliseconds that it lives."""

    def __init__(self, world: Any, words: list[str]) -> None:
        self.world, self.heard = world, list[str]()
        self.beats = 0
        self.was = world.stored()
        world.after(0.01, self.beat)

    def beat(self) -> None:
        self.beats += 1
        self.world.after(0.01, self.beat)

    def receive(self, source: str, body: Body) -> None:
        self.heard.append(body["type"])
        self.world.store(body["type"])
        if body["type"] == "fail":
            raise ValueError("no such thing")
        if "msg_id" in body:
            self.world.send(source, {"type": "echo_ok", "in_reply_to": body["msg_id"]})


def make_test(start: Any, nodes: list[str], **others: Any) -> simulated.Test:
    settings = jeprun.Settings({"workload": "register"}, nodes, ({}, {}), frozenset())
    return simulated.Test(PROGRAM or "", pathlib.Path(), settings, "lin-kv", start, [], **others)


class VirtualTime(unittest.TestCase):
    """Two nodes that keep what they hear, and a client."""

    def setUp(self) -> None:
        self.clock, self.answers = Clock(), list[Body]()
        test = make_test(Echo, ["n1", "n2"], latency=1)
        self.arrivals, self.network = test.arrivals, Network(test, self.clock, self.answers.append)
        self.nodes = self.network.nodes
        for node in self.nodes.values():
            node.set(NodeCell())

    def pass_time(self, milliseconds: int) -> None:
        is_over: list[bool] = []
        self.clock.after(milliseconds * MILLISECOND, lambda: is_over.append(True))
        while not is_over:
            self.clock.step()

    def actor(self, name: str) -> Any:
        return self.nodes[name]._actor

    def fates(self) -> list[str]:
        return [arrival.fate for arrival in self.arrivals]

    def test_cut_delay_and_loss(self) -> None:
        for cell, fate, milliseconds in [
            (LinkCell(), "delivered", 2),
            (LinkCell(cut=True), "cut", 2),
            (LinkCell(loss=20), "lost", 2),
            (LinkCell(delay=50), "delivered", 52),
        ]:
            self.network.cells["n1", "n2"] = cell
            self.network.send("n1", "n2", {"type": "x"})
            self.network.send("n2", "n1", {"type": "y"})
            self.pass_time(milliseconds - 2)
            self.assertEqual(len(self.fates()), milliseconds > 2, "a slow message comes late, the other one in time")
            self.pass_time(2)
            self.assertCountEqual(self.fates(), [fate, "delivered"])
            self.arrivals.clear()
        self.assertEqual(self.actor("n2").heard, ["x", "x"])
        self.assertEqual(self.actor("n1").heard, ["y"] * 4)

    def test_loss_in_part(self) -> None:
        self.network.cells["n1", "n2"] = LinkCell(loss=10)
        for _ in range(200):
            self.network.send("n1", "n2", {"type": "x"})
        self.pass_time(2)
        self.assertTrue(60 < self.fates().count("lost") < 140)

    def test_a_paused_node_does_later_what_came_meanwhile(self) -> None:
        self.nodes["n2"].set(NodeCell("paused"))
        for kind in "abcdef":
            self.network.send("n1", "n2", {"type": kind})
            self.pass_time(2)
        self.pass_time(8)
        self.assertEqual((self.actor("n2").heard, self.actor("n2").beats), ([], 0))
        self.nodes["n2"].set(NodeCell())
        self.assertEqual((self.actor("n2").heard, self.actor("n2").beats), (list("abcdef"), 1))
        self.pass_time(10)
        self.assertEqual(self.actor("n2").beats, 2)

    def test_a_killed_node_has_what_it_stored(self) -> None:
        self.network.send("n1", "n2", {"type": "x"})
        self.pass_time(5)
        self.nodes["n2"].set(NodeCell("killed"))
        self.network.send("n1", "n2", {"type": "lost"})
        self.network.send("c0", "n2", {"type": "read", "msg_id": 7})
        self.pass_time(4)
        self.assertCountEqual(self.fates(), ["delivered", "dropped", "refused", "delivered"])
        self.assertEqual([(answer["code"], answer["in_reply_to"]) for answer in self.answers], [(1, 7)])
        self.nodes["n2"].set(NodeCell())
        self.assertEqual((self.actor("n2").was, self.actor("n2").heard), ("x", []))
        self.pass_time(9)
        self.assertEqual(self.actor("n2").beats, 0, "what was to happen in its earlier life does not")

    def test_a_clock_that_is_ahead(self) -> None:
        self.pass_time(500)
        self.nodes["n2"].set(NodeCell(clock=-200))
        self.assertEqual((self.nodes["n1"].now(), self.nodes["n2"].now()), (0.5, 0.3))

    def test_the_program_ends_in_the_midst(self) -> None:
        program = simulated.Program("true")
        with self.assertRaisesRegex(simulated.TestFailed, "^jeprun ended in the midst of the test$"):
            for _ in range(2):
                program.say("0")
        program.kill()

    def test_a_node_that_fails(self) -> None:
        self.network.send("n1", "n2", {"type": "fail"})
        with self.assertRaisesRegex(simulated.TestFailed, r"^n2 failed at \d+ ns: ValueError\('no such thing'\)$"):
            self.pass_time(2)


class Playback(unittest.TestCase):
    """What is heard of a program that says what a test has written down, and reads nothing."""

    TESTS = "{:type :test, :number 6, :seed 7}\n:end\n{:type :test, :number 7, :seed 8}\n:end\n"

    def test_many_tests(self) -> None:
        for behind, verdict, settings in [
            (":none {:tried 2, :unknown 0}\n", ":none {:tried 2, :unknown 0}", ""),
            (":active []\n{}\n{:valid? false}\n:found\nseed = 8\n", "{:valid? false}", "seed = 8\n"),
            (":active []\n{}\n{:valid? true}\n:not-reproduced\nseed = 8\n", "{:valid? true}", "seed = 8\n"),
            (":not-reproduced\n", ":not-reproduced", ""),
        ]:
            program = simulated.Program("printf", "%s", self.TESTS + behind)
            for begun in (6, 7), (7, 8):
                self.assertEqual(program.next_test(), begun)
                self.assertEqual((program.say(":ready"), program.is_over), ([], True))
            self.assertIsNone(program.next_test())
            result = simulated.Result(program.end(), bytes(program.written), b"")
            self.assertEqual(result.written.decode(), f":end\n{behind}", "it has the last test alone")
            self.assertEqual((result.verdict(), result.found().decode()), (verdict, settings))

    def test_no_test_at_all(self) -> None:
        program = simulated.Program("true")
        self.assertIsNone(program.next_test())
        self.assertEqual(program.end(), 0)


class World:
    """A world that keeps what is sent, and in which nothing comes of itself."""

    def __init__(self) -> None:
        self.name, self.others, self.random = "n1", ["n2", "n3"], random.Random(0)
        self.time, self.sent, self.kept = 0.0, list[tuple[str, Body]](), None

    def now(self) -> float:
        return self.time

    def send(self, destination: str, body: Body) -> None:
        self.sent.append((destination, json.loads(json.dumps(body))))

    def after(self, seconds: float, work: Any) -> None:
        self.tick = work

    def store(self, value: Any) -> None:
        self.kept = json.loads(json.dumps(value))

    def stored(self) -> Any:
        return self.kept


def entry(term: int, value: int) -> Body:
    return {"term": term, "command": {"type": "write", "key": 0, "value": value, "msg_id": value}}


class Server(unittest.TestCase):
    """The node n1 of three, by itself; each rule of Raft with the bug that breaks it."""

    def make(self, bug: str = "") -> raft.Raft:
        self.world = World()
        return raft.Raft(self.world, bug)

    def tell(self, server: raft.Raft, source: str, kind: str, **body: Any) -> Body:
        """What is answered to a message."""
        self.world.sent.clear()
        server.receive(source, {"type": kind, **body})
        return self.world.sent[-1][1] if self.world.sent else {}

    def ask_for_vote(self, server: raft.Raft, candidate: str, term: int, last: tuple[int, int] = (0, 0)) -> bool:
        asked = {"term": term, "last_log_term": last[0], "last_log_index": last[1]}
        granted: bool = self.tell(server, candidate, "request_vote", **asked)["vote_granted"]
        return granted

    def append(self, server: raft.Raft, term: int, previous: tuple[int, int], *entries: Body, commit: int = 0) -> Body:
        place = {"term": term, "prev_log_term": previous[0], "prev_log_index": previous[1]}
        return self.tell(server, "n2", "append_entries", **place, entries=list(entries), leader_commit=commit)

    def elect(self, server: raft.Raft) -> None:
        self.world.time += 1
        self.world.tick()
        self.tell(server, "n2", "request_vote_result", term=server.current_term, vote_granted=True)
        self.assertEqual(server.role, raft.LEADER)

    def test_one_vote_in_a_term_also_over_a_kill(self) -> None:
        for bug, is_twice in ("", False), ("forgets-vote", True):
            server = self.make(bug)
            self.assertTrue(self.ask_for_vote(server, "n2", 1))
            self.assertFalse(self.ask_for_vote(server, "n3", 1))
            again = raft.Raft(self.world, bug)
            self.assertEqual((again.current_term, self.ask_for_vote(again, "n3", 1)), (1, is_twice))
            self.assertTrue(self.ask_for_vote(again, "n3", 2))

    def test_no_vote_for_a_log_that_lacks_something(self) -> None:
        server = self.make()
        self.append(server, 1, (0, 0), entry(1, 1), entry(1, 2))
        for last, granted in [((1, 1), False), ((0, 9), False), ((1, 2), True), ((1, 3), True), ((2, 1), True)]:
            self.assertEqual(self.ask_for_vote(server, "n3", server.current_term + 1, last), granted)

    def test_a_conflict_is_deleted_and_what_agrees_is_kept(self) -> None:
        for bug, kept in ("", [1, 2, 3]), ("cuts-log", [1, 2]):
            server = self.make(bug)
            first, second, third = entry(1, 1), entry(1, 2), entry(1, 3)
            self.append(server, 1, (0, 0), first, second, third)
            self.append(server, 1, (1, 1), second)  # it was sent before the one above, and comes late
            self.assertEqual([it["command"]["value"] for it in self.world.kept["entries"]], kept)
        server = self.make()
        self.append(server, 1, (0, 0), first, second, third)
        self.assertEqual(self.append(server, 2, (1, 1), entry(2, 4))["match_index"], 2)
        self.assertEqual([it["command"]["value"] for it in self.world.kept["entries"]], [1, 4])
        self.assertFalse(self.append(server, 2, (1, 3), entry(2, 5))["success"], "there is no entry 3 any more")
        self.assertFalse(self.append(server, 1, (0, 0))["success"], "the term has passed")

    def test_an_older_entry_is_committed_with_one_of_the_term(self) -> None:
        for bug, committed in ("", 0), ("counts-old", 1):
            server = self.make(bug)
            self.append(server, 1, (0, 0), entry(1, 1))
            self.elect(server)
            done = {"term": server.current_term, "success": True, "last_log_index": 1}
            self.tell(server, "n2", "append_entries_result", match_index=1, **done)
            self.assertEqual(server.commit_index, committed)
            self.tell(server, "c0", "write", key=0, value=2, msg_id=1)
            answer = self.tell(server, "n2", "append_entries_result", match_index=2, **done)
            self.assertEqual((server.commit_index, answer), (2, {"type": "write_ok", "in_reply_to": 1}))

    def test_a_read_is_answered_when_others_have_it(self) -> None:
        for bug, kind in ("", "append_entries"), ("reads-alone", "error"):
            server = self.make(bug)
            self.elect(server)
            self.assertEqual(self.tell(server, "c0", "read", key=0, msg_id=1)["type"], kind)

    def test_a_snapshot_keeps_what_is_behind_it(self) -> None:
        for bug, last in ("", 3), ("snapshot-only", 2):
            server = self.make(bug)
            self.append(server, 1, (0, 0), entry(1, 1), entry(1, 2), entry(1, 3))
            snapshot = {"last_included_index": 2, "last_included_term": 1, "state": {"0": 2}}
            self.assertEqual(self.tell(server, "n2", "install_snapshot", term=1, **snapshot)["match_index"], 2)
            self.assertEqual((server.state, server.commit_index, server.log.last()), ({"0": 2}, 2, last))
            again = raft.Raft(self.world, bug)
            self.assertEqual((again.state, again.commit_index, again.log.last()), ({"0": 2}, 2, last))

    def test_the_log_is_compacted(self) -> None:
        count = raft.ENTRIES_PER_SNAPSHOT
        entries = [entry(1, value) for value in range(count + 2)]
        for bug, last in ("", count + 2), ("snapshot-only", count):
            server = self.make(bug)
            self.append(server, 1, (0, 0), *entries, commit=count)
            self.assertEqual((server.log.first(), server.log.last(), server.state), (count, last, {"0": count - 1}))
            self.assertEqual(self.append(server, 1, (1, 1), *entries[1:])["match_index"], count + 2)
            self.assertEqual((server.log.first(), server.log.last()), (count, count + 2))

    def test_a_call_waits_for_a_leader_and_goes_to_it(self) -> None:
        server, call = self.make(), {"type": "read", "key": 0, "msg_id": 3}
        self.assertEqual(self.tell(server, "c0", **{"kind": "read", "key": 0, "msg_id": 3}), {})
        self.append(server, 1, (0, 0))
        self.assertIn(("n2", {"type": "forward", "client": "c0", "call": call}), self.world.sent)


class Register(unittest.TestCase):
    def test_the_state_machine(self) -> None:
        state: dict[str, Any] = {}
        for command, answer in [
            ({"type": "read"}, {"type": "error", "code": 20, "text": "there is no key 7"}),
            ({"type": "cas", "from": 1, "to": 2}, {"type": "error", "code": 20, "text": "there is no key 7"}),
            ({"type": "write", "value": 1}, {"type": "write_ok"}),
            ({"type": "cas", "from": 1, "to": 2}, {"type": "cas_ok"}),
            ({"type": "cas", "from": 1, "to": 3}, {"type": "error", "code": 22, "text": "expected 1, but had 2"}),
            ({"type": "read"}, {"type": "read_ok", "value": 2}),
        ]:
            self.assertEqual(raft.apply(state, {"key": 7, **command}), answer)


class AsProcess(unittest.TestCase):
    """The same file as a process."""

    def test_what_it_stored_survives_a_kill(self) -> None:
        folder = self.enterContext(tempfile.TemporaryDirectory())
        rows: list[list[Body]] = [
            [{"type": "write", "key": 0, "value": 5}, {"type": "write_ok"}],
            [{"type": "read", "key": 0}, {"type": "read_ok", "value": 5}],
        ]
        for asked, answer in rows:
            with subprocess.Popen(
                [sys.executable, str(RAFT)], stdin=subprocess.PIPE, stdout=subprocess.PIPE,
                env={**os.environ, maelstrom.MARK: f"{folder}/n1/"},
            ) as process:  # fmt: skip
                init = {"type": "init", "node_id": "n1", "node_ids": ["n1"]}
                for number, (body, expected) in enumerate([(init, {"type": "init_ok"}), (asked, answer)]):
                    message = {"src": "c0", "dest": "n1", "body": {**body, "msg_id": number}}
                    assert process.stdin and process.stdout
                    process.stdin.write(json.dumps(message).encode() + b"\n")
                    process.stdin.flush()
                    got = json.loads(process.stdout.readline())
                    self.assertEqual(got["body"], {**expected, "in_reply_to": number})
                process.kill()


class Options(unittest.TestCase):
    def test_what_many_tests_alone_are_told(self) -> None:
        rows: list[tuple[list[str], list[str] | str]] = [
            (["--search", "--from=3", "--palette", "cut,kill"], ["--from=3", "--palette=cut,kill"]),
            (["--search"], []),
            (["--seed=4"], []),
            (["--runs=3"], "--runs: only with --search\n"),
            (["--palette=cut"], "--palette: only with --search\n"),
            (["--search", "--seed=3"], "--seed: not with --search, where the settings say the seed of each test\n"),
            (["--shrink", "--budget=9"], ["--budget=9"]),
            (["--budget=9"], "--budget: only with --shrink\n"),
            (["--shrink", "--faults=3"], "--faults: only with --search\n"),
            (["--shrink", "--search"], "--shrink: not with --search\n"),
        ]
        for words, told in rows:
            parsed = [*words, "--node=n", "settings.toml"]
            if isinstance(told, list):
                self.assertEqual(simulated.parse(parsed).told, told)
                continue
            with self.assertRaises(SystemExit) as ended, contextlib.redirect_stderr(io.StringIO()) as said:
                simulated.parse(parsed)
            self.assertEqual(ended.exception.code, 3)
            self.assertEqual(said.getvalue().splitlines(keepends=True)[-1].partition(": ")[2], told)


@unittest.skipUnless(PROGRAM, "there is no jeprun")
class Whole(unittest.TestCase):
    """What tests with `jeprun` have in common."""

    def make_test(self, text: str, seed: int = 0, words: Sequence[str] = (), **others: Any) -> simulated.Test:
        path = pathlib.Path(self.enterContext(tempfile.TemporaryDirectory())) / "settings.toml"
        path.write_text(text)
        known, start = jeprun.read_settings(path, PROGRAM or ""), simulated.load(RAFT)
        return simulated.Test(PROGRAM or "", path, known, "lin-kv", start, [*words], seed, **others)

    def play_again(self, text: str, result: simulated.Result) -> tuple[int, bytes]:
        """The status and the output of `jeprun drive` with the replies of a test."""
        ran = jeprun.run_program(PROGRAM or "", "drive", str(self.make_test(text).path), given=result.replies)
        return ran.returncode, ran.stdout


class WholeTests(Whole):
    """Tests with faults of all kinds, with `jeprun drive`."""

    SETTINGS = """
        start = '{:nodes ["n1" "n2" "n3"], :cut [["n1" "n2"]]}'
        workload = "register"
        generator = '[:mix [:forever :read] [:rising-write 1] [:forever [:cas 1 2]]]'
        clients = 3
        ops = 60
        time_limit = 1500
        recovery = 400
        final = '[:each-thread [:once :read]]'
        schedule = [
          '[[:ms 400] [:begin 1 [:kill ["n1" "n2"]]]]', '[[:ms 500] [:withdraw-all]]',
          '[[:ms 600] [:begin 2 [:pause ["n3"]]]]', '[[:ms 600] [:begin 3 [:bump {"n2" 100000}]]]',
          '[[:ms 900] [:withdraw-all]]', '[[:ms 910] [:begin 4 [:loss 6 [["n3" "n2"] ["n1" "n2"]]]]]',
          '[[:ms 910] [:begin 5 [:slow 50 [["n2" "n3"]]]]]',
        ]
    """
    # Here threads wait for others. Each time that one is asked, it takes a random number.
    PHASES = """
        start = '{:nodes ["n1" "n2" "n3"]}'
        workload = "register"
        generator = '[:phases [:once :read] [:mix [:forever :read] [:rising-write 1]]]'
        clients = 6
        ops = 40
    """

    def test_the_same_seed_is_the_same_test(self) -> None:
        for text in self.SETTINGS, self.PHASES:
            first, again, other = (simulated.run(self.make_test(text, seed)) for seed in (7, 7, 8))
            self.assertEqual((first.written, first.replies), (again.written, again.replies))
            self.assertNotEqual(first.replies, other.replies)
            self.assertEqual((first.status, other.status), (0, 0))
            self.assertGreater(first.replies.count(b":ok"), 5)

    def test_each_step_is_told_and_answered(self) -> None:
        result = simulated.run(self.make_test(self.SETTINGS, 7))
        self.assertEqual(result.replies.count(b":nemesis"), 8, "the steps, and that which ends all faults")

    def test_its_replies_played_again_are_the_same_test(self) -> None:
        for text in self.SETTINGS, self.PHASES:
            for seed in range(4):
                result = simulated.run(self.make_test(text, seed))
                self.assertEqual(self.play_again(text, result), (result.status, result.written))

    def test_a_line_that_is_longer_than_a_packet(self) -> None:
        settings = self.PHASES.replace("register", "set").replace("6", "1").replace("[:rising-write 1]", "")
        reply = f"{{:type :ok, :process 0, :f :read, :value {[*range(9_999)]}}}"
        path = self.make_test(settings.replace("40", "3")).path
        with simulated.started(PROGRAM or "", "drive", str(path)) as program:
            self.assertEqual([len(program.say(line)) for line in (None, reply, reply, reply)], [1, 1, 1, 0])
            self.assertEqual((program.is_over, program.end()), (True, 1))


class Searches(Whole):
    """Tests of `jeprun search --drive` and `jeprun shrink --drive`, each in one conversation."""

    SETTINGS = (simulated.NODES / "raft_cut.toml").read_text()

    def search(self, *options: str, words: Sequence[str] = ()) -> tuple[simulated.Result, list[bytes], simulated.Test]:
        test, seen = self.make_test(self.SETTINGS, words=words, latency=10, timeout=0.5), list[bytes]()
        return simulated.run_many(test, "search", ["--faults=3", *options], seen.append), seen, test

    def test_none_is_found(self) -> None:
        result, seen, _ = self.search("--runs=4")
        self.assertEqual((result.status, result.verdict()), (0, ":none {:tried 4, :unknown 0}"))
        self.assertEqual((len({*seen}), seen[-1], result.begun), (4, result.replies, (3, 3)))

    def test_a_test_of_a_search_is_as_if_it_were_alone(self) -> None:
        _, seen, all_of_them = self.search("--runs=3")
        _, (last,), alone = self.search("--from=2", "--runs=1")
        self.assertEqual((seen[2], all_of_them.arrivals), (last, alone.arrivals))

    def test_what_is_found_is_the_same_test_again(self) -> None:
        words = ["reads-alone"]
        result, _, searched = self.search(words=words)
        found = result.found().decode()
        self.assertEqual((result.status, result.verdict()), (1, "{:valid? false}"))
        again = self.make_test(found, tomllib.loads(found)["seed"], words, latency=10, timeout=0.5)
        played = simulated.run(again)
        self.assertEqual((played.status, played.written), (1, result.report()))
        self.assertEqual((played.replies, again.arrivals), (result.replies, searched.arrivals))
        self.assertEqual(self.play_again(found, result), (1, result.report()))

    def test_what_is_found_is_made_small(self) -> None:
        words = ["reads-alone"]
        text = self.search(words=words)[0].found().decode()
        found = tomllib.loads(text)
        test = self.make_test(text, found["seed"], words, latency=10, timeout=0.5)
        result = simulated.run_many(test, "shrink", [])
        small = tomllib.loads(result.found().decode())
        self.assertEqual((result.status, result.heading(), result.verdict()), (1, ":minimal", "{:valid? false}"))
        self.assertEqual({**small, "schedule": found["schedule"]}, found)
        self.assertLess(len(small["schedule"]), len(found["schedule"]))
        self.assertEqual(self.play_again(result.found().decode(), result), (1, result.report()))

    def test_a_right_node_is_not_made_small(self) -> None:
        result = simulated.run_many(self.make_test(self.SETTINGS, latency=10, timeout=0.5), "shrink", [])
        self.assertEqual((result.status, result.verdict(), result.found()), (0, ":not-reproduced", b""))

    def test_a_node_that_fails(self) -> None:
        test = self.make_test(self.SETTINGS)
        test.start = Echo
        with self.assertRaisesRegex(simulated.TestFailed, "^test 7: n1 answered write by echo_ok$"):
            simulated.run_many(test, "search", ["--from=7", "--faults=0"])

    def run_command(self, *words: str) -> tuple[int, str, str]:
        """The status of a command, and what it writes, but for the name of its folder."""
        command = [sys.executable, simulated.__file__, f"--node={RAFT}", f"--jeprun={PROGRAM}"]
        words = *command, f"--store={self.store}", *words
        ran = subprocess.run(words, capture_output=True, text=True, check=False)
        return ran.returncode, re.sub(r".*/raft/\d.*", "FOLDER", ran.stdout), ran.stderr

    def test_the_command(self) -> None:
        self.store = pathlib.Path(self.enterContext(tempfile.TemporaryDirectory()))
        settings, folder = str(simulated.NODES / "raft_cut.toml"), self.store / "raft" / "latest"
        options = ["--latency=10", "--timeout=0.5", "--search", "--faults=3"]
        status, said, complaint = self.run_command(*options, settings, "--", "reads-alone")
        self.assertEqual((status, complaint), (1, ""))
        self.assertRegex(said, r"^FOLDER\n{:type :test, :number (\d+), :seed \1}\n{:valid\? false}\n$")
        files = {file.name: file.read_bytes() for file in folder.resolve().iterdir() if file.is_file()}
        self.assertIn("found.toml", files)
        found = str(folder.resolve() / "found.toml")
        again = self.run_command(*options[:2], str(folder / "found.toml"), "--", "reads-alone")
        self.assertEqual(again, (1, "FOLDER\n{:valid? false}\n", ""))
        for name in "replies.edn", "report.edn", "history.edn", "messages.jsonl":
            self.assertEqual((folder / name).read_bytes(), files[name])
        words = *options[:2], "--shrink", found, "--", "reads-alone"
        status, said, complaint = self.run_command(*words)
        self.assertEqual((status, complaint), (1, ""))
        self.assertRegex(said, r"^FOLDER\n{:type :test, :number \d+, :seed \d+}\n{:valid\? false}\n:minimal\n$")
        none = "FOLDER\n:none {:tried 2, :unknown 0}\n"
        self.assertEqual(self.run_command(*options, "--runs=2", settings), (0, none, ""))

    def test_an_interrupt(self) -> None:
        store = pathlib.Path(self.enterContext(tempfile.TemporaryDirectory()))
        settings = str(simulated.NODES / "raft_cut.toml")
        words = [sys.executable, simulated.__file__, f"--node={RAFT}", f"--jeprun={PROGRAM}", f"--store={store}"]
        with subprocess.Popen([*words, "--search", settings], stderr=subprocess.PIPE, text=True) as search:
            while not [*store.glob("raft/latest")]:
                time.sleep(0.01)
            time.sleep(1)
            search.send_signal(signal.SIGINT)
            _, complaint = search.communicate()
        self.assertRegex(complaint, r"^jeprun.py: test \d+: Ctrl-C: \S+/test.log has more\n$")
        self.assertEqual(search.returncode, jeprun.ADAPTER_FAILED)

    def test_what_the_program_refuses(self) -> None:
        self.store = pathlib.Path(self.enterContext(tempfile.TemporaryDirectory()))
        for option, line in ("--palette=x", r"jeprun.py: jeprun: --palette: .*\n"), ("--runs=0", ".*'0'.*\n"):
            status, said, complaint = self.run_command("--search", option, str(simulated.NODES / "raft_cut.toml"))
            self.assertEqual((status, said, [*self.store.iterdir()]), (3, "", []))
            self.assertRegex(complaint, f"^{line}$")


if __name__ == "__main__":
    unittest.main()

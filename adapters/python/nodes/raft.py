#!/usr/bin/env python3
"""lin-kv by Raft (Ongaro and Ousterhout, "In search of an understandable consensus algorithm", 2014), in its words.

    raft.py [BUG]

Each node has a log of entries, each with the term of the leader that appended it. Whoever is leader takes the calls of
clients, also reads, appends them, and sends them to the others by AppendEntries. An entry that a majority has is
committed, and each node applies committed entries in their order to its state machine. What is applied is compacted to
a snapshot. With a BUG the node has this mistake and no other:

    forgets-vote    voted_for is not stored, so a node that was killed may vote twice in a term
    counts-old      a leader also commits an entry of an older term as soon as a majority has it
    reads-alone     a leader answers reads without a word to the others, so one that is deposed reads old values
    cuts-log        a follower deletes all behind prev_log_index, also what agrees with the leader's log
    snapshot-only   a snapshot takes the place of a follower's whole log, also of what is behind it
"""

from typing import Any

import actor
from actor import Body, World

BUGS = ["forgets-vote", "counts-old", "reads-alone", "cuts-log", "snapshot-only"]
TICK, HEARTBEAT = 0.01, 0.05  # seconds
ELECTION = 0.15, 0.3  # an election time-out is chosen at random between these
ENTRIES_PER_SNAPSHOT = 6
FOLLOWER, CANDIDATE, LEADER = "follower", "candidate", "leader"
ABORT, NO_KEY, PRECONDITION = 14, 20, 22  # codes of Maelstrom's errors


def error(code: int, text: str) -> Body:
    return {"type": "error", "code": code, "text": text}


def apply(state: dict[str, Any], command: Body) -> Body:
    """The state machine: does a command to the registers, and gives the answer."""
    key, kind = str(command["key"]), command["type"]
    if kind == "write":
        state[key] = command["value"]
    elif key not in state:
        return error(NO_KEY, f"there is no key {key}")
    elif kind == "read":
        return {"type": "read_ok", "value": state[key]}
    elif state[key] != command["from"]:
        return error(PRECONDITION, f"expected {command['from']}, but had {state[key]}")
    else:
        state[key] = command["to"]
    return {"type": f"{kind}_ok"}


class Log:
    """The entries behind a snapshot. The first entry of all has the index 1."""

    def __init__(self, entries: list[Body], snapshot: Body) -> None:
        self.entries, self.snapshot = entries, snapshot

    def first(self) -> int:
        """The index of the last entry that is in the snapshot."""
        index: int = self.snapshot["last_included_index"]
        return index

    def last(self) -> int:
        return self.first() + len(self.entries)

    def term(self, index: int) -> int:
        entry = self.snapshot if index == self.first() else self.entries[index - self.first() - 1]
        term: int = entry["term"]
        return term

    def has(self, index: int, term: int) -> bool:
        """Whether an entry of this index and term is in the log. All that a snapshot has is committed, so the leader
        has it."""
        return index < self.first() or index <= self.last() and self.term(index) == term

    def behind(self, index: int) -> list[Body]:
        return self.entries[index - self.first() :]

    def delete_behind(self, index: int) -> None:
        del self.entries[index - self.first() :]

    def compact(self, index: int, term: int, state: dict[str, Any], keeps_rest: bool = True) -> None:
        """Has a snapshot in the place of all entries up to this index. Those behind are kept, unless they conflict."""
        rest = self.behind(index) if keeps_rest and self.has(index, term) else []
        self.entries, self.snapshot = rest, {"last_included_index": index, "term": term, "state": dict(state)}


class Raft:
    """A server."""

    def __init__(self, world: World, bug: str) -> None:
        self.world, self.bug = world, bug
        empty = {"last_included_index": 0, "term": 0, "state": {}}
        kept = world.stored() or {"current_term": 0, "voted_for": None, "entries": [], "snapshot": empty}
        # Persistent state.
        self.current_term, self.voted_for = kept["current_term"], kept["voted_for"]
        self.log = Log(kept["entries"], kept["snapshot"])
        # Volatile state.
        self.role = FOLLOWER
        self.leader: str | None = None
        self.commit_index = self.last_applied = self.log.first()
        self.state: dict[str, Any] = dict(self.log.snapshot["state"])
        self.votes: list[str] = []
        self.next_index: dict[str, int] = {}
        self.match_index: dict[str, int] = {}
        self.held: list[tuple[str, Body]] = []  # calls that wait for a leader
        self.waiting: dict[int, tuple[int, str, Body]] = {}  # by the index of its entry: term, client and call
        self.due = self.asked = 0.0  # when the next heartbeat or election is due, and when votes were asked for
        self.wait_for_leader()
        self.tick()

    def receive(self, source: str, body: Body) -> None:
        if body.get("term", 0) > self.current_term:
            self.follow(body["term"], None)
        match body["type"]:
            case "read" | "write" | "cas":
                self.on_call(source, body)
            case "forward":
                self.on_call(body["client"], body["call"])
            case "request_vote":
                self.on_request_vote(source, body)
            case "request_vote_result":
                self.on_request_vote_result(source, body)
            case "append_entries":
                self.on_append_entries(source, body)
            case "install_snapshot":
                self.on_install_snapshot(source, body)
            case "append_entries_result":
                self.on_append_entries_result(source, body)

    def persist(self) -> None:
        """Stores what has to survive, before anybody hears of it."""
        voted_for = None if self.bug == "forgets-vote" else self.voted_for
        kept = {"current_term": self.current_term, "voted_for": voted_for}
        self.world.store({**kept, "entries": self.log.entries, "snapshot": self.log.snapshot})

    # --- time

    def tick(self) -> None:
        """Sends heartbeats, or begins an election, where it is time to, by this node's clock."""
        now = self.world.now()
        if self.due > now + ELECTION[1]:  # the clock was set back
            self.due = self.asked = now
        if now >= self.due:
            if self.role == LEADER:
                self.replicate()
            else:
                self.begin_election()
        elif self.role == CANDIDATE and now >= self.asked + HEARTBEAT:
            self.ask_for_votes()
        self.world.after(TICK, self.tick)

    def wait_for_leader(self) -> None:
        """Begins the election time-out anew."""
        self.due = self.world.now() + self.world.random.uniform(*ELECTION)

    # --- elections

    def follow(self, term: int, leader: str | None) -> None:
        """Is a follower in this term."""
        if term > self.current_term:
            self.current_term, self.voted_for = term, None
            self.persist()
        if self.role == LEADER:
            self.wait_for_leader()
        self.role = FOLLOWER
        self.know(leader)

    def know(self, leader: str | None) -> None:
        """Knows who the leader is, who gets the calls that were held back meanwhile."""
        self.leader = leader
        if leader:
            held, self.held = self.held, []
            for client, call in held:
                self.on_call(client, call)

    def begin_election(self) -> None:
        self.current_term += 1
        self.role, self.leader, self.voted_for, self.votes = CANDIDATE, None, self.world.name, []
        self.persist()
        self.wait_for_leader()
        self.ask_for_votes()
        self.count_vote(self.world.name)

    def ask_for_votes(self) -> None:
        """Asks those whose vote it lacks, again and again, since messages may get lost."""
        self.asked, last = self.world.now(), self.log.last()
        for other in self.world.others:
            if other not in self.votes:
                place = {"last_log_index": last, "last_log_term": self.log.term(last)}
                self.world.send(other, {"type": "request_vote", "term": self.current_term, **place})

    def on_request_vote(self, candidate: str, body: Body) -> None:
        last = self.log.last()
        is_up_to_date = (body["last_log_term"], body["last_log_index"]) >= (self.log.term(last), last)
        is_free = self.voted_for in (None, candidate) and body["term"] == self.current_term
        if is_free and is_up_to_date:
            self.voted_for = candidate
            self.persist()
            self.wait_for_leader()
        result = {"term": self.current_term, "vote_granted": is_free and is_up_to_date}
        self.world.send(candidate, {"type": "request_vote_result", **result})

    def on_request_vote_result(self, source: str, body: Body) -> None:
        if self.role == CANDIDATE and body["term"] == self.current_term and body["vote_granted"]:
            self.count_vote(source)

    def count_vote(self, source: str) -> None:
        if source not in self.votes:
            self.votes.append(source)
        if self.is_majority(len(self.votes)):
            self.role = LEADER
            self.next_index = dict.fromkeys(self.world.others, self.log.last() + 1)
            self.match_index = dict.fromkeys(self.world.others, 0)
            self.replicate()
            self.know(self.world.name)

    def is_majority(self, count: int) -> bool:
        return 2 * count > 1 + len(self.world.others)

    # --- calls of clients

    def on_call(self, client: str, call: Body) -> None:
        """Has the leader do a call, whose answer goes from there to the client."""
        if self.leader is None:
            self.held.append((client, call))
        elif self.leader != self.world.name:
            self.world.send(self.leader, {"type": "forward", "client": client, "call": call})
        elif call["type"] == "read" and self.bug == "reads-alone":
            actor.answer(self.world, client, call, apply(self.state, call))
        else:
            self.log.entries.append({"term": self.current_term, "command": call})
            self.waiting[self.log.last()] = self.current_term, client, call
            self.persist()
            self.replicate()

    # --- replication

    def replicate(self) -> None:
        """Sends each follower what it lacks, or a heartbeat."""
        self.due = self.world.now() + HEARTBEAT
        for follower in self.world.others:
            self.send_entries(follower)
        self.advance_commit_index()

    def send_entries(self, follower: str) -> None:
        """Sends a follower the entries from next_index on, or the snapshot where they are not in the log any more."""
        previous = self.next_index[follower] - 1
        if previous < self.log.first():
            self.world.send(follower, {"type": "install_snapshot", **self.log.snapshot, "term": self.current_term,
                                       "last_included_term": self.log.snapshot["term"]})  # fmt: skip
            return
        place = {"prev_log_index": previous, "prev_log_term": self.log.term(previous)}
        sent = {"entries": self.log.behind(previous), "leader_commit": self.commit_index}
        self.world.send(follower, {"type": "append_entries", "term": self.current_term, **place, **sent})

    def on_append_entries(self, source: str, body: Body) -> None:
        if body["term"] < self.current_term:
            self.send_result(source, False, 0)
            return
        self.follow(body["term"], source)
        self.wait_for_leader()
        previous = body["prev_log_index"]
        if not self.log.has(previous, body["prev_log_term"]):
            self.send_result(source, False, 0)
            return
        if self.bug == "cuts-log":
            self.log.delete_behind(max(previous, self.last_applied))
        for index, entry in enumerate(body["entries"], previous + 1):
            if not self.log.has(index, entry["term"]):
                self.log.delete_behind(index - 1)  # a conflict, and all that follows it
                self.log.entries.append(entry)
        if body["entries"]:
            self.persist()
        last_new = previous + len(body["entries"])
        self.commit_index = max(self.commit_index, min(body["leader_commit"], last_new))
        self.apply_committed()
        self.send_result(source, True, last_new)

    def on_install_snapshot(self, source: str, body: Body) -> None:
        index = body["last_included_index"]
        if body["term"] < self.current_term:
            self.send_result(source, False, 0)
            return
        self.follow(body["term"], source)
        self.wait_for_leader()
        if index > self.commit_index:
            keeps_rest = self.bug != "snapshot-only"
            self.log.compact(index, body["last_included_term"], body["state"], keeps_rest)
            self.persist()
            self.commit_index = self.last_applied = index
            self.state = dict(body["state"])
        self.send_result(source, True, index)

    def send_result(self, leader: str, success: bool, match_index: int) -> None:
        result = {"success": success, "match_index": match_index, "last_log_index": self.log.last()}
        self.world.send(leader, {"type": "append_entries_result", "term": self.current_term, **result})

    def on_append_entries_result(self, follower: str, body: Body) -> None:
        if self.role != LEADER or body["term"] != self.current_term:
            return
        if body["success"]:
            self.match_index[follower] = max(self.match_index[follower], body["match_index"])
            self.next_index[follower] = max(self.next_index[follower], self.match_index[follower] + 1)
            self.advance_commit_index()
        else:
            before = min(self.next_index[follower] - 1, body["last_log_index"] + 1)
            before = max(self.match_index[follower] + 1, before)
            if before < self.next_index[follower]:  # else the next heartbeat tries again
                self.next_index[follower] = before
                self.send_entries(follower)

    def advance_commit_index(self) -> None:
        """Commits what a majority has, if it is of this term; what is before it is then committed with it."""
        for index in range(self.log.last(), self.commit_index, -1):
            count = 1 + sum(match >= index for match in self.match_index.values())
            is_of_this_term = self.log.term(index) == self.current_term or self.bug == "counts-old"
            if self.is_majority(count) and is_of_this_term:
                self.commit_index = index
                self.apply_committed()
                return

    def apply_committed(self) -> None:
        """Applies committed entries, answers the clients that wait for them, and takes a snapshot now and then."""
        while self.last_applied < self.commit_index:
            self.last_applied += 1
            index = self.last_applied
            got = apply(self.state, self.log.entries[index - self.log.first() - 1]["command"])
            term, client, call = self.waiting.pop(index, (0, "", {}))
            if term == self.log.term(index):
                actor.answer(self.world, client, call, got)
            elif term:
                actor.answer(self.world, client, call, error(ABORT, "another entry was committed in its place"))
        if self.last_applied - self.log.first() >= ENTRIES_PER_SNAPSHOT:
            keeps_rest = self.role == LEADER or self.bug != "snapshot-only"
            self.log.compact(self.last_applied, self.log.term(self.last_applied), self.state, keeps_rest)
            self.persist()


def start(world: World, words: list[str]) -> Raft:
    bug = words[0] if words else ""
    if bug and bug not in BUGS:
        raise SystemExit(f"{bug} is no bug of: {' '.join(BUGS)}")
    return Raft(world, bug)


if __name__ == "__main__":
    actor.run(start)

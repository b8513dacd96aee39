//! A test of a real database as a plain program conducts it: what `bench/drive.py` compares `jeprun drive` with.
//!
//!     plain CALLS CLIENTS ENTRIES < REPLIES
//!
//! It conducts the tests of unique ids of `bench/drive.py` on three nodes, whose settings these numbers give, and writes what
//! `jeprun drive` writes of the same replies, byte for byte; it ends with the same status. It is written as one would write it in
//! Rust, with std alone and without proofs. Replies are read by the plain reader, `bench/reading/plain.rs`, values are written by the
//! plain writer, `bench/writing/plain.rs`. Each record is kept once, as what it says, and written twice: when it is made, and behind
//! the end. What was written is flushed only where no whole reply is left in the input's buffer.
//!
//! Ids are integers, and a line that is no reply ends it: it judges no errors.

use std::collections::HashMap;
use std::io::{self, BufRead, BufReader, BufWriter, StdinLock, StdoutLock, Write};
use std::process::ExitCode;

#[allow(dead_code)]
#[path = "../writing/plain.rs"]
mod writing;

use writing::reading::{Value, values_of};
use writing::write_value;

const NODES: [&str; 3] = ["n1", "n2", "n3"];
const BUFFER: usize = 1 << 16;

type Pairs = Vec<(Value, Value)>;
type Link = (usize, usize);

#[derive(Clone, Copy, PartialEq)]
enum Kind {
    Ok,
    Fail,
    Info,
}

/// What a step changes, and what it makes of the link.
struct Told {
    link: Link,
    is_cut: bool,
}

/// A step of the nemesis. A fault is a cut of two links.
#[derive(Clone, Copy)]
enum Step {
    Begin(usize, [Link; 2]),
    Withdraw(usize),
    WithdrawAll,
}

enum Record {
    Invoked { time: i64, process: usize, node: usize },
    Ended { time: i64, process: usize, kind: Kind, value: Value, more: Pairs },
    Begun { time: i64, entry: usize, step: Step, told: Vec<Told> },
    Answered { time: i64, entry: usize, code: i64, more: Pairs },
}

/// The faults that are active, and which links they cut.
#[derive(Default)]
struct Nemesis {
    active: Vec<(usize, [Link; 2])>,
    cut: [[bool; NODES.len()]; NODES.len()],
}

impl Nemesis {
    /// Takes a step, and gives the code of its answer and what it changed.
    fn take(&mut self, step: Step) -> (i64, Vec<Told>) {
        let is_active = |id: usize| self.active.iter().any(|fault| fault.0 == id);
        match step {
            Step::Begin(id, _) if is_active(id) => return (1, Vec::new()),
            Step::Withdraw(id) if !is_active(id) => return (4, Vec::new()),
            Step::Begin(id, links) => self.active.push((id, links)),
            Step::Withdraw(id) => self.active.retain(|fault| fault.0 != id),
            Step::WithdrawAll => self.active.clear(),
        }
        let mut cut = [[false; NODES.len()]; NODES.len()];
        for (from, to) in self.active.iter().flat_map(|fault| fault.1) {
            cut[from][to] = true;
        }
        let mut told = Vec::new();
        for from in 0..NODES.len() {
            for to in 0..NODES.len() {
                if cut[from][to] != self.cut[from][to] {
                    told.push(Told { link: (from, to), is_cut: cut[from][to] });
                }
            }
        }
        self.cut = cut;
        (0, told)
    }
}

#[derive(Clone, Copy, PartialEq)]
enum Phase {
    Main,
    Heal,
    Over,
}

/// A thread that makes calls: how many of its processes have crashed, and whether it waits for an answer.
#[derive(Clone, Default)]
struct Caller {
    crashes: usize,
    is_busy: bool,
}

/// A test of which no more is said than what is known of it now.
struct Machine {
    calls: usize,
    schedule: Vec<(usize, Step)>,
    phase: Phase,
    callers: Vec<Caller>,
    given: usize,
    answered: usize,
    has_spent: bool,
    is_stopped: bool,
    nemesis: Nemesis,
    taken: usize,
    awaited: Option<(usize, i64)>,
    clock: i64,
    history: Vec<Record>,
    told: usize,
}

impl Machine {
    fn new(calls: usize, clients: usize, entries: usize) -> Machine {
        Machine {
            calls,
            schedule: schedule(calls, entries),
            phase: Phase::Main,
            callers: vec![Caller::default(); clients],
            given: 0,
            answered: 0,
            has_spent: false,
            is_stopped: false,
            nemesis: Nemesis::default(),
            taken: 0,
            awaited: None,
            clock: 0,
            history: Vec::new(),
            told: 0,
        }
    }

    fn has_ended(&self) -> bool {
        (self.has_spent || self.is_stopped) && self.callers.iter().all(|caller| !caller.is_busy)
    }

    fn due(&self) -> Option<(usize, Step)> {
        match self.phase {
            Phase::Main if self.has_ended() || self.is_stopped => None,
            Phase::Main => {
                let (at, step) = self.schedule.get(self.taken)?;
                (*at <= self.answered).then_some((self.taken, *step))
            }
            Phase::Heal => (!self.nemesis.active.is_empty()).then_some((self.schedule.len(), Step::WithdrawAll)),
            Phase::Over => None,
        }
    }

    fn take_due(&mut self) {
        if self.awaited.is_some() {
            return;
        }
        if let Some((entry, step)) = self.due() {
            let (code, told) = self.nemesis.take(step);
            self.taken += 1;
            self.awaited = Some((entry, code));
            self.history.push(Record::Begun { time: self.clock, entry, step, told });
        }
    }

    /// Each thread that is free makes a call, while there are calls.
    fn give_calls(&mut self) {
        let clients = self.callers.len();
        for thread in 0..clients {
            if self.callers[thread].is_busy || self.has_spent || self.is_stopped {
                continue;
            }
            if self.given == self.calls {
                self.has_spent = true;
                continue;
            }
            self.given += 1;
            self.callers[thread].is_busy = true;
            let process = thread + clients * self.callers[thread].crashes;
            self.history.push(Record::Invoked { time: self.clock, process, node: thread % NODES.len() });
        }
    }

    fn turn(&mut self) {
        loop {
            self.take_due();
            match self.phase {
                Phase::Main => {
                    self.give_calls();
                    if !self.has_ended() {
                        return;
                    }
                    self.phase = Phase::Heal;
                }
                Phase::Heal if self.awaited.is_none() && self.nemesis.active.is_empty() => self.phase = Phase::Over,
                _ => return,
            }
        }
    }

    fn hear_time(&mut self, time: i64) {
        assert!(time >= 0, "bad time");
        self.clock = self.clock.max(time);
    }

    /// What a line makes of the test.
    fn hear(&mut self, line: &str) {
        let Ok(mut values) = values_of(line) else { panic!("no EDN: {line}") };
        assert!(values.len() <= 1, "more than one element: {line}");
        match values.pop() {
            None => {}
            Some(Value::Int(time)) => self.hear_time(time),
            Some(Value::Keyword(word)) if word == "stop" => self.is_stopped = true,
            Some(Value::Map(pairs)) => self.hear_reply(Reply::of(pairs)),
            Some(_) => panic!("not a map: {line}"),
        }
        self.turn();
    }

    fn hear_reply(&mut self, reply: Reply) {
        if let Some(time) = reply.time {
            self.hear_time(time);
        }
        let time = self.clock;
        let Some(process) = reply.process else {
            let (entry, code) = self.awaited.take().expect("no step is open");
            let is_answer = reply.kind == Kind::Info && reply.f == "step";
            assert!(is_answer && matches!(reply.value, Value::Int(value) if value == entry as i64), "not the answer of the step");
            self.history.push(Record::Answered { time, entry, code, more: reply.more });
            return;
        };
        let clients = self.callers.len();
        let caller = &mut self.callers[process % clients];
        assert!(caller.is_busy && process == process % clients + clients * caller.crashes, "no call is open");
        assert!(reply.f == "generate" && (reply.kind == Kind::Ok || matches!(reply.value, Value::Nil)), "not the answer of the call");
        caller.is_busy = false;
        caller.crashes += usize::from(reply.kind == Kind::Info);
        self.answered += 1;
        self.history.push(Record::Ended { time, process, kind: reply.kind, value: reply.value, more: reply.more });
    }

    /// Writes what was recorded since the last time, but for what was read.
    fn tell(&mut self, to: &mut impl Write) -> io::Result<()> {
        for (index, record) in self.history.iter().enumerate().skip(self.told) {
            if matches!(record, Record::Invoked { .. } | Record::Begun { .. }) {
                write_record(index, record, to)?;
            }
        }
        self.told = self.history.len();
        Ok(())
    }
}

/// Entries in equal steps of the calls: each second one withdraws the fault that the one before it began.
fn schedule(calls: usize, entries: usize) -> Vec<(usize, Step)> {
    let links = |entry: usize| {
        let (one, other) = (entry / 2 % NODES.len(), (entry / 2 + 1) % NODES.len());
        let (one, other) = (one.min(other), one.max(other));
        [(one, other), (other, one)]
    };
    let step = |entry: usize| if entry % 2 == 0 { Step::Begin(entry, links(entry)) } else { Step::Withdraw(entry - 1) };
    (0..entries).map(|entry| (calls / (entries + 1) * (entry + 1), step(entry))).collect()
}

/// A reply by its keys. The nemesis has no process.
struct Reply {
    kind: Kind,
    process: Option<usize>,
    f: String,
    value: Value,
    time: Option<i64>,
    more: Pairs,
}

impl Reply {
    fn of(pairs: Pairs) -> Reply {
        let (mut kind, mut process, mut f, mut value, mut time, mut more) = (None, None, None, Value::Nil, None, Vec::new());
        for (key, held) in pairs {
            let Value::Keyword(name) = &key else {
                more.push((key, held));
                continue;
            };
            match (name.as_str(), held) {
                ("type", Value::Keyword(word)) => kind = Some(kind_of(&word)),
                ("process", Value::Int(number)) => process = Some(Some(usize::try_from(number).expect("a process"))),
                ("process", Value::Keyword(word)) if word == "nemesis" => process = Some(None),
                ("f", Value::Keyword(word)) => f = Some(word),
                ("value", held) => value = held,
                ("time", Value::Int(number)) => time = Some(number),
                ("type" | "process" | "f" | "time", _) => panic!("no reply"),
                ("index" | "node", _) => {}
                (_, held) => more.push((key, held)),
            }
        }
        Reply { kind: kind.expect("a type"), process: process.expect("a process"), f: f.expect("a function"), value, time, more }
    }
}

fn kind_of(word: &str) -> Kind {
    match word {
        "ok" => Kind::Ok,
        "fail" => Kind::Fail,
        "info" => Kind::Info,
        _ => panic!("not the answer of the call: {word}"),
    }
}

fn write_record(index: usize, record: &Record, to: &mut impl Write) -> io::Result<()> {
    match record {
        Record::Invoked { time, process, node } => writeln!(
            to,
            "{{:index {index}, :time {time}, :type :invoke, :process {process}, :f :generate, :value nil, :node \"{}\"}}",
            NODES[*node]
        ),
        Record::Ended { time, process, kind, value, more } => {
            let kind = match kind {
                Kind::Ok => "ok",
                Kind::Fail => "fail",
                Kind::Info => "info",
            };
            write!(to, "{{:index {index}, :time {time}, :type :{kind}, :process {process}, :f :generate, :value ")?;
            write_value(value, to)?;
            write_more(more, to)
        }
        Record::Begun { time, entry, step, told } => {
            write!(to, "{{:index {index}, :time {time}, :type :info, :process :nemesis, :f :step, :value {entry}, :step ")?;
            write_step(*step, to)?;
            write!(to, ", :links [")?;
            for (at, told) in told.iter().enumerate() {
                let gap = if at == 0 { "" } else { " " };
                let (from, other) = (NODES[told.link.0], NODES[told.link.1]);
                write!(to, "{gap}[\"{from}\" \"{other}\" {{:cut {}, :delay 0, :loss 0}}]", told.is_cut)?;
            }
            writeln!(to, "], :nodes []}}")
        }
        Record::Answered { time, entry, code, more } => {
            write!(to, "{{:index {index}, :time {time}, :type :info, :process :nemesis, :f :step, :value [{entry} {code}]")?;
            write_more(more, to)
        }
    }
}

fn write_more(more: &Pairs, to: &mut impl Write) -> io::Result<()> {
    for (key, value) in more {
        write!(to, ", ")?;
        write_value(key, to)?;
        write!(to, " ")?;
        write_value(value, to)?;
    }
    writeln!(to, "}}")
}

fn write_step(step: Step, to: &mut impl Write) -> io::Result<()> {
    match step {
        Step::Begin(id, [first, second]) => write!(to, "[:begin {id} [:cut [{} {}]]]", link_text(first), link_text(second)),
        Step::Withdraw(id) => write!(to, "[:withdraw {id}]"),
        Step::WithdrawAll => write!(to, "[:withdraw-all]"),
    }
}

fn link_text(link: Link) -> String {
    format!("[\"{}\" \"{}\"]", NODES[link.0], NODES[link.1])
}

/// The verdict on the ids, and its line.
fn judged(history: &[Record]) -> (bool, String) {
    let attempted = history.iter().filter(|record| matches!(record, Record::Invoked { .. })).count();
    let mut times: HashMap<i64, usize> = HashMap::new();
    let mut acknowledged = 0;
    for record in history {
        if let Record::Ended { kind: Kind::Ok, value, .. } = record {
            let Value::Int(id) = value else { panic!("ids are integers here") };
            *times.entry(*id).or_default() += 1;
            acknowledged += 1;
        }
    }
    let mut twice: Vec<(i64, usize)> = times.into_iter().filter(|(_, times)| *times > 1).collect();
    twice.sort_unstable();
    let shown: Vec<String> = twice.iter().map(|(id, times)| format!("[{id} {times}]")).collect();
    let counts = format!(":attempted {attempted}, :acknowledged {acknowledged}");
    (twice.is_empty(), format!("{{:valid? {}, {counts}, :duplicated [{}]}}", twice.is_empty(), shown.join(" ")))
}

/// Reads replies until the test is over or they end.
fn converse(machine: &mut Machine, from: &mut BufReader<StdinLock>, to: &mut BufWriter<StdoutLock>) -> io::Result<()> {
    machine.turn();
    machine.tell(to)?;
    let mut line = String::new();
    while machine.phase != Phase::Over {
        if !from.buffer().contains(&b'\n') {
            to.flush()?;
        }
        line.clear();
        if from.read_line(&mut line)? == 0 {
            return Ok(());
        }
        machine.hear(&line);
        machine.tell(to)?;
    }
    Ok(())
}

/// What is written behind the last record; whether the history is valid.
fn report(machine: &Machine, to: &mut impl Write) -> io::Result<bool> {
    writeln!(to, ":end")?;
    for (index, record) in machine.history.iter().enumerate() {
        write_record(index, record, to)?;
    }
    let ids: Vec<String> = machine.nemesis.active.iter().map(|fault| fault.0.to_string()).collect();
    let mut cut = Vec::new();
    for (from, links) in machine.nemesis.cut.iter().enumerate() {
        cut.extend(links.iter().enumerate().filter(|(_, is_cut)| **is_cut).map(|(other, _)| link_text((from, other))));
    }
    let nodes = NODES.map(|name| format!("{name:?}")).join(" ");
    writeln!(to, ":active [{}]", ids.join(" "))?;
    writeln!(to, "{{:nodes [{nodes}], :cut [{}], :slow [], :loss [], :down [], :clock []}}", cut.join(" "))?;
    let (is_valid, line) = judged(&machine.history);
    writeln!(to, "{line}")?;
    to.flush()?;
    Ok(is_valid)
}

fn main() -> io::Result<ExitCode> {
    let numbers: Vec<usize> = std::env::args().skip(1).map(|it| it.parse().expect("a number")).collect();
    let [calls, clients, entries] = numbers[..] else { panic!("CALLS CLIENTS ENTRIES") };
    let mut machine = Machine::new(calls, clients, entries);
    let mut from = BufReader::with_capacity(BUFFER, io::stdin().lock());
    let mut to = BufWriter::with_capacity(BUFFER, io::stdout().lock());
    converse(&mut machine, &mut from, &mut to)?;
    let is_valid = report(&machine, &mut to)?;
    if machine.phase != Phase::Over {
        eprintln!("jeprun: replies ended");
        return Ok(ExitCode::from(4));
    }
    Ok(ExitCode::from(u8::from(!is_valid)))
}

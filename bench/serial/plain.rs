//! A serial run as a plain program makes it: what `bench/serial.py` compares `jeprun run` with.
//!
//!     plain STORE WORKLOAD NODES CALLS CLIENTS SEED
//!
//! It makes the run of the settings of `bench/runs.py` on so many nodes, judges it, and writes what `jeprun run` writes of it,
//! byte for byte, through a `BufWriter`; it ends with the same status. It is written as one would write it in Rust, with std
//! alone and without proofs: the history is kept in memory, since nothing is written before all is judged.
//!
//! STORE is quorum, lww or local, WORKLOAD is register, counter or unique-ids. A register has the line of the budget 0, by which
//! nothing is searched.

use std::collections::HashMap;
use std::fmt::{self, Display, Write as _};
use std::io::{self, BufWriter, Write};
use std::process::ExitCode;

const TICK_EVERY: u32 = 10;

/// Random numbers: PCG XSL RR 128/64 in its stream 0.
struct Random(u128);

impl Random {
    fn new(seed: u64) -> Random {
        let mut random = Random(u128::from(seed) + 1);
        random.next();
        random
    }

    fn next(&mut self) -> u64 {
        self.0 = self.0.wrapping_mul(0x2360_ED05_1FC6_5DA4_4385_DF64_9FCC_F645).wrapping_add(1);
        ((self.0 >> 64) as u64 ^ self.0 as u64).rotate_right((self.0 >> 122) as u32)
    }
}

#[derive(Clone, Copy, PartialEq)]
enum Request {
    Read,
    Write(i64),
    Add(i64),
    Generate,
}

impl Request {
    fn name(self) -> &'static str {
        match self {
            Request::Read => "read",
            Request::Write(_) => "write",
            Request::Add(_) => "add",
            Request::Generate => "generate",
        }
    }

    fn value(self) -> Value {
        match self {
            Request::Read | Request::Generate => Value::Nil,
            Request::Write(value) | Request::Add(value) => Value::Int(value),
        }
    }

    /// What is held after the request, and what its completion has; none where it fails.
    fn perform(self, held: Option<i64>) -> Option<(Option<i64>, Value)> {
        match self {
            Request::Read => Some((held, held.map_or(Value::Nil, Value::Int))),
            Request::Write(value) => Some((Some(value), self.value())),
            Request::Add(amount) => Some((Some(held?.checked_add(amount)?), self.value())),
            Request::Generate => Some((Some(held?.checked_add(1)?), Value::Int(held?))),
        }
    }
}

/// What is left of a generator.
enum Generator {
    Forever(Request),
    Mix(Vec<Generator>),
    Limit(u64, Box<Generator>),
}

impl Generator {
    fn is_spent(&self) -> bool {
        match self {
            Generator::Forever(_) => false,
            Generator::Mix(members) => members.iter().all(Generator::is_spent),
            Generator::Limit(left, inner) => *left == 0 || inner.is_spent(),
        }
    }

    /// The next call, or none where the generator is spent. A mixture chooses by the random number.
    fn next(&mut self, number: u64) -> Option<Request> {
        match self {
            Generator::Forever(request) => Some(*request),
            Generator::Mix(members) => {
                let mut left: Vec<&mut Generator> = members.iter_mut().filter(|it| !it.is_spent()).collect();
                let chosen = number.checked_rem(left.len() as u64)?;
                left[chosen as usize].next(number)
            }
            Generator::Limit(0, _) => None,
            Generator::Limit(left, inner) => {
                *left -= 1;
                inner.next(number)
            }
        }
    }
}

#[allow(dead_code)]
#[derive(Clone, Copy, PartialEq)]
enum Life {
    Running,
    Paused,
    Killed,
}

#[derive(Clone, Copy)]
struct Node {
    life: Life,
    clock: i64,
}

#[derive(Clone, Copy, Default)]
struct Link {
    cut: bool,
    delay: u64,
    loss: u64,
}

/// The nodes, and from each a row of links.
#[derive(Clone)]
struct Environment {
    nodes: Vec<Node>,
    links: Vec<Vec<Link>>,
}

impl Environment {
    fn is_running(&self, node: usize) -> bool {
        self.nodes[node].life == Life::Running
    }

    /// The nodes that a call of a node reaches.
    fn reached(&self, node: usize, draw: u64) -> Vec<usize> {
        let carries = |link: Link| !link.cut && draw % 20 >= link.loss;
        let both = |other: usize| carries(self.links[node][other]) && carries(self.links[other][node]);
        (0..self.nodes.len()).filter(|it| *it == node || self.is_running(*it) && both(*it)).collect()
    }

    /// Those of them whose answers come in time.
    fn responding(&self, node: usize, reached: &[usize]) -> Vec<usize> {
        let delay = |other: usize| self.links[node][other].delay + self.links[other][node].delay;
        reached.iter().copied().filter(|it| *it == node || delay(*it) <= 1000).collect()
    }
}

type Cut = Vec<(usize, usize)>;

#[derive(Clone)]
enum Step {
    Begin(u32, Cut),
    Withdraw(u32),
}

#[derive(Clone, Copy, PartialEq)]
enum Store {
    Quorum,
    Lww,
    Local,
}

/// How new a replica is.
#[derive(Clone, Copy, PartialEq, PartialOrd)]
enum Mark {
    First,
    Version(u64),
    Stamp(i128, usize),
}

#[derive(Clone, Copy)]
struct Replica {
    mark: Mark,
    held: Option<i64>,
}

type Reply = (Kind, Value);

/// The environment under its faults, a replica for each node, and the number of events so far.
struct World {
    store: Store,
    start: Environment,
    environment: Environment,
    active: Vec<(u32, Cut)>,
    replicas: Vec<Replica>,
    events: u64,
}

impl World {
    /// Takes a step, and gives the code of the answer.
    fn step(&mut self, step: Step) -> i64 {
        self.events += 1;
        let is_active = |id: u32| self.active.iter().any(|fault| fault.0 == id);
        match step {
            Step::Begin(id, _) if is_active(id) => return 1,
            Step::Withdraw(id) if !is_active(id) => return 4,
            Step::Begin(id, cut) => self.active.push((id, cut)),
            Step::Withdraw(id) => self.active.retain(|fault| fault.0 != id),
        }
        self.environment = self.start.clone();
        for (from, to) in self.active.iter().flat_map(|fault| &fault.1) {
            self.environment.links[*from][*to].cut = true;
        }
        0
    }

    fn call(&mut self, node: usize, request: Request, draw: u64) -> Reply {
        let reply = match self.environment.nodes[node].life {
            Life::Paused if !matches!(request, Request::Read | Request::Generate) => Some((Kind::Info, request.value())),
            Life::Paused | Life::Killed => None,
            Life::Running if self.store == Store::Quorum => self.serve_quorum(node, request, draw),
            Life::Running => self.serve_own(node, request, draw),
        };
        self.events += 1;
        reply.unwrap_or((Kind::Fail, request.value()))
    }

    /// The newest replica of these nodes, of equals the first; none where they are no majority.
    fn newest(&self, these: &[usize]) -> Option<Replica> {
        let newer = |best: Replica, it: Replica| if best.mark < it.mark { it } else { best };
        let best = these.iter().map(|place| self.replicas[*place]).reduce(newer);
        best.filter(|_| these.len() > self.replicas.len() / 2)
    }

    fn serve_quorum(&mut self, node: usize, request: Request, draw: u64) -> Option<Reply> {
        let reached = self.environment.reached(node, draw);
        let responding = self.environment.responding(node, &reached);
        let asked = if request == Request::Read { &responding } else { &reached };
        let best = self.newest(asked)?;
        let (held, value) = request.perform(best.held)?;
        if request == Request::Read {
            return Some((Kind::Ok, value));
        }
        let mark = match best.mark {
            Mark::Version(version) => Mark::Version(version + 1),
            _ => Mark::Version(1),
        };
        for place in reached {
            self.replicas[place] = Replica { mark, held };
        }
        let is_ok = responding.len() > self.replicas.len() / 2;
        Some(if is_ok { (Kind::Ok, value) } else { (Kind::Info, request.value()) })
    }

    /// Serves by the node's own replica.
    fn serve_own(&mut self, node: usize, request: Request, draw: u64) -> Option<Reply> {
        let (held, value) = request.perform(self.replicas[node].held)?;
        if self.store == Store::Local {
            self.replicas[node].held = held;
        } else if request != Request::Read {
            let time = i128::from(self.events) + i128::from(self.environment.nodes[node].clock);
            let mark = Mark::Stamp(time, node);
            for place in self.environment.reached(node, draw) {
                self.take_newer(place, Replica { mark, held });
            }
        }
        Some((Kind::Ok, value))
    }

    fn take_newer(&mut self, place: usize, replica: Replica) {
        if self.replicas[place].mark < replica.mark {
            self.replicas[place] = replica;
        }
    }

    /// The nodes send each other what they have, where the last writer wins.
    fn tick(&mut self) {
        self.events += 1;
        let count = if self.store == Store::Lww { self.replicas.len() } else { 0 };
        for from in 0..count {
            for to in 0..count {
                let both_run = self.environment.is_running(from) && self.environment.is_running(to);
                if both_run && !self.environment.links[from][to].cut {
                    self.take_newer(to, self.replicas[from]);
                }
            }
        }
    }
}

#[derive(Clone, Copy, PartialEq)]
enum Kind {
    Invoke,
    Ok,
    Fail,
    Info,
}

#[derive(Clone, Copy)]
enum Value {
    Nil,
    Int(i64),
    Two(i64, i64),
}

/// An operation of a client's process, or of the nemesis.
struct Operation {
    kind: Kind,
    process: Option<u64>,
    f: &'static str,
    value: Value,
    event: Option<u64>,
}

/// The history of a run that is made on a world.
struct Run {
    world: World,
    history: Vec<Operation>,
}

impl Run {
    /// Records an operation, with the number of the last event where it is a completion.
    fn record(&mut self, kind: Kind, process: Option<u64>, f: &'static str, value: Value, is_completion: bool) {
        let event = is_completion.then(|| self.world.events - 1);
        self.history.push(Operation { kind, process, f, value, event });
    }

    fn step(&mut self, entry: i64, step: Step) {
        self.record(Kind::Info, None, "step", Value::Int(entry), false);
        let code = self.world.step(step);
        self.record(Kind::Info, None, "step", Value::Two(entry, code), true);
    }

    fn call(&mut self, process: u64, node: usize, request: Request, draw: u64) -> Kind {
        self.record(Kind::Invoke, Some(process), request.name(), request.value(), false);
        let (kind, value) = self.world.call(node, request, draw);
        self.record(kind, Some(process), request.name(), value, true);
        kind
    }

    /// Asks the clients in turn until the generator is spent, and applies the entries of the schedule that are due.
    fn make(&mut self, mut generator: Generator, clients: usize, schedule: &[(u64, Step)], mut random: Random) {
        let mut entries = (0..).zip(schedule).peekable();
        let mut processes: Vec<u64> = (0..clients as u64).collect();
        let mut calls = vec![0; clients];
        let nodes = self.world.replicas.len();
        let mut answered = 0;
        for thread in (0..clients).cycle() {
            while let Some((entry, (_, step))) = entries.next_if(|(_, (at, _))| *at <= answered) {
                self.step(entry, step.clone());
            }
            let Some(request) = generator.next(random.next()) else {
                break;
            };
            if self.call(processes[thread], thread % nodes, request, random.next()) == Kind::Info {
                processes[thread] += clients as u64;
            }
            answered += 1;
            calls[thread] += 1;
            if calls[thread] % TICK_EVERY == 0 {
                self.world.tick();
            }
        }
        entries.for_each(|(entry, (_, step))| self.step(entry, step.clone()));
    }
}

/// Of each invocation of a client, how it ends, and where.
fn completions(history: &[Operation]) -> Vec<Option<(Kind, usize)>> {
    let mut open = HashMap::new();
    let mut found = vec![None; history.len()];
    for (at, op) in history.iter().enumerate() {
        if op.process.is_some() && op.kind == Kind::Invoke {
            open.insert(op.process, at);
        } else if let Some(invocation) = open.remove(&op.process) {
            found[invocation] = Some((op.kind, at));
        }
    }
    found
}

/// The reads of a counter in the order of their completions, each between the sums where it has to lie.
fn bounded_reads(history: &[Operation]) -> Vec<(i128, i64, i128)> {
    let completions = completions(history);
    let mut lower_at = vec![0; history.len()];
    let (mut lower, mut upper) = (0, 0);
    let mut reads = Vec::new();
    for (at, op) in history.iter().enumerate() {
        match (op.f, op.kind, op.value, completions[at]) {
            ("add", Kind::Invoke, _, Some((Kind::Fail, _))) => {}
            ("add", Kind::Invoke, Value::Int(amount), _) => upper += i128::from(amount),
            ("add", Kind::Ok, Value::Int(amount), _) => lower += i128::from(amount),
            ("read", Kind::Invoke, _, Some((_, end))) => lower_at[end] = lower,
            ("read", Kind::Ok, Value::Int(value), _) => reads.push((lower_at[at], value, upper)),
            _ => {}
        }
    }
    reads
}

/// Elements with a space between.
fn row<T: Display>(items: impl IntoIterator<Item = T>) -> String {
    let mut text = String::new();
    for item in items {
        let gap = if text.is_empty() { "" } else { " " };
        write!(text, "{gap}{item}").expect("a string takes all");
    }
    text
}

/// A verdict: its status and its line.
fn judged_counter(history: &[Operation]) -> (u8, String) {
    let reads = bounded_reads(history);
    let is_wrong = |(lower, value, upper): &&(i128, i64, i128)| !(*lower..=*upper).contains(&i128::from(*value));
    let shown = |(lower, value, upper): &(i128, i64, i128)| format!("[{lower} {value} {upper}]");
    let errors = row(reads.iter().filter(is_wrong).map(shown));
    let (valid, reads) = (errors.is_empty(), row(reads.iter().map(shown)));
    (u8::from(!valid), format!("{{:valid? {valid}, :reads [{reads}], :errors [{errors}]}}"))
}

fn judged_ids(history: &[Operation]) -> (u8, String) {
    let attempted = history.iter().filter(|op| op.f == "generate" && op.kind == Kind::Invoke).count();
    let given = |op: &Operation| match (op.f, op.kind, op.value) {
        ("generate", Kind::Ok, Value::Int(id)) => Some(id),
        _ => None,
    };
    let mut ids: Vec<i64> = history.iter().filter_map(given).collect();
    ids.sort();
    let same = ids.chunk_by(|id, next| id == next).filter(|same| same.len() > 1);
    let twice = row(same.map(|same| Value::Two(same[0], same.len() as i64)));
    let (valid, acknowledged) = (twice.is_empty(), ids.len());
    let counts = format!(":attempted {attempted}, :acknowledged {acknowledged}");
    (u8::from(!valid), format!("{{:valid? {valid}, {counts}, :duplicated [{twice}]}}"))
}

impl Display for Value {
    fn fmt(&self, to: &mut fmt::Formatter<'_>) -> fmt::Result {
        match self {
            Value::Nil => to.write_str("nil"),
            Value::Int(number) => write!(to, "{number}"),
            Value::Two(first, second) => write!(to, "[{first} {second}]"),
        }
    }
}

impl Display for Kind {
    fn fmt(&self, to: &mut fmt::Formatter<'_>) -> fmt::Result {
        to.write_str(match self {
            Kind::Invoke => "invoke",
            Kind::Ok => "ok",
            Kind::Fail => "fail",
            Kind::Info => "info",
        })
    }
}

/// The line of the environment: of links and nodes what is not as it is without faults.
impl Display for Environment {
    fn fmt(&self, to: &mut fmt::Formatter<'_>) -> fmt::Result {
        let (mut cut, mut slow, mut loss, mut down, mut clock) = (vec![], vec![], vec![], vec![], vec![]);
        let names: Vec<String> = (1..=self.nodes.len()).map(|number| format!("n{number}")).collect();
        for (from, links) in names.iter().zip(&self.links) {
            for (other, link) in names.iter().zip(links) {
                cut.extend(link.cut.then(|| format!("[{from:?} {other:?}]")));
                slow.extend((link.delay > 0).then(|| format!("[{from:?} {other:?} {}]", link.delay)));
                loss.extend((link.loss > 0).then(|| format!("[{from:?} {other:?} {}]", link.loss)));
            }
        }
        for (name, node) in names.iter().zip(&self.nodes) {
            down.extend((node.life == Life::Paused).then(|| format!("[{name:?} :paused]")));
            down.extend((node.life == Life::Killed).then(|| format!("[{name:?} :killed]")));
            clock.extend((node.clock != 0).then(|| format!("[{name:?} {}]", node.clock)));
        }
        let [cut, slow, loss, down, clock] = [cut, slow, loss, down, clock].map(row);
        let nodes = row(names.iter().map(|name| format!("{name:?}")));
        write!(to, "{{:nodes [{nodes}], :cut [{cut}], :slow [{slow}], :loss [{loss}], :down [{down}], :clock [{clock}]}}")
    }
}

fn write_run(run: &Run, verdict: &str) -> io::Result<()> {
    let mut to = BufWriter::new(io::stdout().lock());
    for (index, op) in run.history.iter().enumerate() {
        write!(to, "{{:index {index}, :type :{}, :process ", op.kind)?;
        match op.process {
            Some(process) => write!(to, "{process}")?,
            None => write!(to, ":nemesis")?,
        }
        write!(to, ", :f :{}, :value {}", op.f, op.value)?;
        if let Some(event) = op.event {
            write!(to, ", :event {event}")?;
        }
        writeln!(to, "}}")?;
    }
    writeln!(to, ":active [{}]", row(run.world.active.iter().map(|fault| fault.0)))?;
    writeln!(to, "{}\n{verdict}", run.world.environment)?;
    to.flush()
}

/// A world of so many nodes and the store in which nothing happened, whose replicas hold this at first.
fn world_of(store: &str, nodes: usize, first: Option<i64>) -> World {
    let store = match store {
        "quorum" => Store::Quorum,
        "lww" => Store::Lww,
        "local" => Store::Local,
        _ => panic!("no store: {store}"),
    };
    let links = vec![vec![Link::default(); nodes]; nodes];
    let replicas = vec![Replica { mark: Mark::First, held: first }; nodes];
    let start = Environment { nodes: vec![Node { life: Life::Running, clock: 0 }; nodes], links };
    World { store, environment: start.clone(), start, active: Vec::new(), replicas, events: 0 }
}

fn main() -> ExitCode {
    let words: Vec<String> = std::env::args().skip(1).collect();
    let [store, workload, numbers @ ..] = words.as_slice() else { panic!("STORE WORKLOAD NODES CALLS CLIENTS SEED") };
    let numbers: Vec<u64> = numbers.iter().map(|it| it.parse().expect("a number")).collect();
    let [nodes, calls, clients, seed] = numbers[..] else { panic!("NODES CALLS CLIENTS SEED") };
    let half = |request| Generator::Mix(vec![Generator::Forever(Request::Read), Generator::Forever(request)]);
    let (generator, first) = match workload.as_str() {
        "register" => (half(Request::Write(1)), None),
        "counter" => (half(Request::Add(1)), Some(0)),
        "unique-ids" => (Generator::Forever(Request::Generate), Some(0)),
        _ => panic!("no workload: {workload}"),
    };
    let schedule = [(100, Step::Begin(1, vec![(0, 1), (1, 0)])), (800, Step::Withdraw(1))];
    let mut run = Run { world: world_of(store, nodes as usize, first), history: Vec::new() };
    let limited = Generator::Limit(calls, Box::new(generator));
    run.make(limited, clients as usize, &schedule, Random::new(seed));
    let (status, verdict) = match workload.as_str() {
        "register" => (2, "{:valid? :unknown}".to_string()),
        "counter" => judged_counter(&run.history),
        _ => judged_ids(&run.history),
    };
    match write_run(&run, &verdict) {
        Ok(()) => ExitCode::from(status),
        Err(_) => ExitCode::from(4),
    }
}

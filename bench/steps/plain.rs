//! The steps of a nemesis as a plain program counts them: what `bench/steps.py` compares with.
//!
//! The arguments are how many nodes there are, how many faults stand and their kinds, with commas between; the kind of the
//! fault that is measured and how many links or nodes it names; which steps a round takes, and how many rounds are taken in
//! each of how many nemeses. It prints the nanoseconds that all rounds took, and a checksum of the cells.
//! `bench/environment/plain.rs` takes its steps by this nemesis, too.

use std::env;
use std::hint::black_box;
use std::time::{Duration, Instant};

const LEVELS: usize = 20;
pub const MAX_NODES: usize = 64;
const MAX_ACTIVE: usize = 256;
const MAX_STEPS: usize = 4096;

/// The id of the fault that is measured.
const MEASURED: u32 = 1_000_000;

#[derive(Clone, Copy, PartialEq)]
pub enum Life {
    Running,
    Paused,
    Killed,
}

#[derive(Clone, Copy)]
pub struct Link {
    pub cut: bool,
    pub delay: u64,
    pub loss: u8,
}

#[derive(Clone, Copy)]
pub struct NodeCell {
    pub life: Life,
    pub clock: i64,
}

/// What is kept of a link: its start, and how many faults do what to it.
pub struct LinkTally {
    pub start: Link,
    cuts: u16,
    slowed: u64,
    losses: [u16; LEVELS],
}

/// What is kept of a node: its start, and how many faults do what to it.
pub struct NodeTally {
    pub start: NodeCell,
    pauses: u16,
    kills: u16,
    bumped: i64,
}

/// A fix that stands: its stamp, its delay, and in the word of each source the bit of each destination.
pub struct Fix {
    stamp: usize,
    delay: u64,
    links: [u64; MAX_NODES],
}

#[derive(Clone)]
pub enum Fault {
    Cut(Vec<(u8, u8)>),
    Slow(u64, Vec<(u8, u8)>),
    Loss(u8, Vec<(u8, u8)>),
    Fix(u64, Vec<(u8, u8)>),
    Pause(Vec<u8>),
    Kill(Vec<u8>),
    Bump(Vec<(u8, i64)>),
}

impl Fault {
    /// Whether each node that it names is one of so many.
    fn fits(&self, count: usize) -> bool {
        let is_known = |place: &u8| usize::from(*place) < count;
        match self {
            Fault::Cut(links)
            | Fault::Slow(_, links)
            | Fault::Loss(_, links)
            | Fault::Fix(_, links) => links
                .iter()
                .all(|(from, to)| is_known(from) && is_known(to)),
            Fault::Pause(nodes) | Fault::Kill(nodes) => nodes.iter().all(is_known),
            Fault::Bump(bumps) => bumps.iter().all(|(node, _)| is_known(node)),
        }
    }
}

/// What is done with a fault.
#[derive(Clone, Copy)]
enum Turn {
    Put,
    Take,
}

impl Turn {
    fn count(self, number: &mut u16) {
        match self {
            Turn::Put => *number += 1,
            Turn::Take => *number -= 1,
        }
    }

    fn delay(self, sum: &mut u64, milliseconds: u64) {
        match self {
            Turn::Put => *sum += milliseconds,
            Turn::Take => *sum -= milliseconds,
        }
    }

    fn clock(self, sum: &mut i64, milliseconds: i64) {
        match self {
            Turn::Put => *sum += milliseconds,
            Turn::Take => *sum -= milliseconds,
        }
    }
}

/// Tallies of links and nodes, and the fixes that stand, in the order of their stamps.
pub struct Tables {
    pub links: Vec<LinkTally>,
    pub nodes: Vec<NodeTally>,
    fixes: Vec<Fix>,
}

impl Tables {
    /// Tables of so many nodes, in which nothing is wrong.
    pub fn calm(count: usize) -> Tables {
        let link = || LinkTally {
            start: Link {
                cut: false,
                delay: 0,
                loss: 0,
            },
            cuts: 0,
            slowed: 0,
            losses: [0; LEVELS],
        };
        let node = || NodeTally {
            start: NodeCell {
                life: Life::Running,
                clock: 0,
            },
            pauses: 0,
            kills: 0,
            bumped: 0,
        };
        Tables {
            links: (0..count * count).map(|_| link()).collect(),
            nodes: (0..count).map(|_| node()).collect(),
            fixes: Vec::with_capacity(MAX_ACTIVE),
        }
    }

    fn each_link(&mut self, links: &[(u8, u8)], turn: impl Fn(&mut LinkTally)) {
        let count = self.nodes.len();
        for (from, to) in links {
            turn(&mut self.links[usize::from(*from) * count + usize::from(*to)]);
        }
    }

    fn each_node(&mut self, nodes: &[u8], turn: impl Fn(&mut NodeTally)) {
        for node in nodes {
            turn(&mut self.nodes[usize::from(*node)]);
        }
    }

    fn put_fix(&mut self, stamp: usize, delay: u64, links: &[(u8, u8)]) {
        let mut words = [0; MAX_NODES];
        for (from, to) in links {
            words[usize::from(*from)] |= 1 << to;
        }
        let place = self.fixes.partition_point(|fix| fix.stamp < stamp);
        let fix = Fix {
            stamp,
            delay,
            links: words,
        };
        self.fixes.insert(place, fix);
    }

    fn take_fix(&mut self, stamp: usize) {
        if let Ok(place) = self.fixes.binary_search_by_key(&stamp, |fix| fix.stamp) {
            self.fixes.remove(place);
        }
    }

    /// Puts a fault on the tallies or takes it off.
    fn turn(&mut self, turn: Turn, fault: &Fault, stamp: usize) {
        match fault {
            Fault::Cut(links) => self.each_link(links, |link| turn.count(&mut link.cuts)),
            Fault::Slow(delay, links) => {
                self.each_link(links, |link| turn.delay(&mut link.slowed, *delay))
            }
            Fault::Loss(level, links) => {
                let place = usize::from(*level) - 1;
                self.each_link(links, |link| turn.count(&mut link.losses[place]));
            }
            Fault::Fix(delay, links) => match turn {
                Turn::Put => self.put_fix(stamp, *delay, links),
                Turn::Take => self.take_fix(stamp),
            },
            Fault::Pause(nodes) => self.each_node(nodes, |node| turn.count(&mut node.pauses)),
            Fault::Kill(nodes) => self.each_node(nodes, |node| turn.count(&mut node.kills)),
            Fault::Bump(bumps) => {
                for (node, milliseconds) in bumps {
                    turn.clock(&mut self.nodes[usize::from(*node)].bumped, *milliseconds);
                }
            }
        }
    }

    /// The link as it is now.
    pub fn link(&self, from: usize, to: usize) -> Link {
        let tally = &self.links[from * self.nodes.len() + to];
        let fix = self
            .fixes
            .iter()
            .rev()
            .find(|fix| fix.links[from] >> to & 1 == 1);
        let level = tally.losses.iter().rposition(|count| *count > 0);
        Link {
            cut: tally.start.cut || tally.cuts > 0,
            delay: fix.map_or(tally.start.delay, |fix| fix.delay) + tally.slowed,
            loss: level
                .map_or(0, |place| place as u8 + 1)
                .max(tally.start.loss),
        }
    }

    /// The node as it is now.
    pub fn node(&self, place: usize) -> NodeCell {
        let tally = &self.nodes[place];
        let life = if tally.start.life == Life::Killed || tally.kills > 0 {
            Life::Killed
        } else if tally.start.life == Life::Paused || tally.pauses > 0 {
            Life::Paused
        } else {
            Life::Running
        };
        NodeCell {
            life,
            clock: tally.start.clock + tally.bumped,
        }
    }
}

/// A step that is kept: a fault that was begun under an id, the stamp of one that was withdrawn, or the stamps of all that were
/// active when all were withdrawn.
enum Record {
    Begun(u32, Fault),
    Withdrawn(usize),
    AllWithdrawn(Vec<usize>),
}

/// The answer to a step: nothing where it is taken, or the name of what refuses it.
pub type Answer = Result<(), &'static str>;

/// Faults over tables, with the steps that were taken, a cursor among them, and the stamps of the faults that are active.
pub struct Nemesis {
    pub tables: Tables,
    records: Vec<Record>,
    cursor: usize,
    active: Vec<usize>,
}

impl Nemesis {
    pub fn new(tables: Tables) -> Nemesis {
        Nemesis {
            tables,
            records: Vec::new(),
            cursor: 0,
            active: Vec::with_capacity(MAX_ACTIVE),
        }
    }

    /// The stamp of the active fault of an id.
    fn stamp_of(&self, id: u32) -> Option<usize> {
        let has_id = |stamp: &usize| matches!(&self.records[*stamp], Record::Begun(other, _) if *other == id);
        self.active.iter().copied().find(has_id)
    }

    /// The ids of the active faults, in the order in which they were begun.
    pub fn active_ids(&self) -> impl Iterator<Item = u32> + '_ {
        self.active.iter().filter_map(|stamp| match &self.records[*stamp] {
            Record::Begun(id, _) => Some(*id),
            _ => None,
        })
    }

    fn turn(&mut self, turn: Turn, stamp: usize) {
        if let Record::Begun(_, fault) = &self.records[stamp] {
            self.tables.turn(turn, fault, stamp);
        }
    }

    /// Puts or takes all faults that the record at the cursor withdrew.
    fn turn_all(&mut self, turn: Turn) {
        if let Record::AllWithdrawn(stamps) = &self.records[self.cursor] {
            for stamp in stamps {
                if let Record::Begun(_, fault) = &self.records[*stamp] {
                    self.tables.turn(turn, fault, *stamp);
                }
            }
        }
    }

    fn go_forth(&mut self) {
        match self.records[self.cursor] {
            Record::Begun(..) => {
                self.turn(Turn::Put, self.cursor);
                self.active.push(self.cursor);
            }
            Record::Withdrawn(stamp) => {
                self.turn(Turn::Take, stamp);
                self.active.retain(|other| *other != stamp);
            }
            Record::AllWithdrawn(_) => {
                self.turn_all(Turn::Take);
                self.active.clear();
            }
        }
        self.cursor += 1;
    }

    fn go_back(&mut self) {
        self.cursor -= 1;
        match self.records[self.cursor] {
            Record::Begun(..) => {
                self.turn(Turn::Take, self.cursor);
                self.active.pop();
            }
            Record::Withdrawn(stamp) => {
                self.turn(Turn::Put, stamp);
                let place = self.active.partition_point(|other| *other < stamp);
                self.active.insert(place, stamp);
            }
            Record::AllWithdrawn(ref stamps) => {
                self.active.extend(stamps);
                self.turn_all(Turn::Put);
            }
        }
    }

    fn take_step(&mut self, step: Record) {
        self.records.truncate(self.cursor);
        self.records.push(step);
        self.go_forth();
    }

    fn take_step_where_room(&mut self, step: Record) -> Answer {
        if self.cursor >= MAX_STEPS {
            return Err("too-many-steps");
        }
        self.take_step(step);
        Ok(())
    }

    /// Begins a fault under an id that no active fault has.
    pub fn begin(&mut self, id: u32, fault: Fault) -> Answer {
        if self.stamp_of(id).is_some() {
            return Err("id-taken");
        }
        if self.active.len() >= MAX_ACTIVE {
            return Err("too-many-active");
        }
        self.take_step_where_room(Record::Begun(id, fault))
    }

    /// Withdraws the active fault of an id.
    pub fn withdraw(&mut self, id: u32) -> Answer {
        let stamp = self.stamp_of(id).ok_or("not-active")?;
        self.take_step_where_room(Record::Withdrawn(stamp))
    }

    /// Withdraws all active faults.
    pub fn withdraw_all(&mut self) -> Answer {
        if self.active.is_empty() {
            return Err("nothing-active");
        }
        self.take_step_where_room(Record::AllWithdrawn(self.active.clone()))
    }

    /// Goes back to the moment before the last step.
    pub fn undo(&mut self) -> Answer {
        if self.cursor == 0 {
            return Err("nothing-to-undo");
        }
        self.go_back();
        Ok(())
    }

    /// Goes forth again to the moment that the last step back left.
    pub fn redo(&mut self) -> Answer {
        if self.cursor == self.records.len() {
            return Err("nothing-to-redo");
        }
        self.go_forth();
        Ok(())
    }
}

/// What is measured.
struct Case {
    nodes: u8,
    standing: u32,
    standing_kinds: String,
    kind: String,
    named: usize,
    steps: String,
    rounds: u32,
    nemeses: u32,
}

fn case_of(mut words: impl Iterator<Item = String>) -> Option<Case> {
    Some(Case {
        nodes: words.next()?.parse().ok()?,
        standing: words.next()?.parse().ok()?,
        standing_kinds: words.next()?,
        kind: words.next()?,
        named: words.next()?.parse().ok()?,
        steps: words.next()?,
        rounds: words.next()?.parse().ok()?,
        nemeses: words.next()?.parse().ok()?,
    })
}

/// The first so many links between so many nodes.
fn links_of(count: u8, named: usize) -> Vec<(u8, u8)> {
    let to_all = |from| (0..count).map(move |to| (from, to));
    let links = (0..count).flat_map(to_all).filter(|(from, to)| from != to);
    links.take(named).collect()
}

/// A fault of a kind that names so many links or nodes.
fn fault_of(count: u8, kind: &str, named: usize) -> Option<Fault> {
    let links = links_of(count, named);
    let nodes: Vec<u8> = (0..count).take(named).collect();
    Some(match kind {
        "cut" => Fault::Cut(links),
        "slow" => Fault::Slow(100, links),
        "loss" => Fault::Loss(7, links),
        "fix" => Fault::Fix(200, links),
        "pause" => Fault::Pause(nodes),
        "kill" => Fault::Kill(nodes),
        "bump" => Fault::Bump(nodes.into_iter().map(|node| (node, 300)).collect()),
        _ => return None,
    })
}

/// Begins a copy of a fault, once it is known to fit.
fn begin(nemesis: &mut Nemesis, id: u32, fault: &Fault) -> Option<()> {
    let copy = fault.clone();
    if !copy.fits(nemesis.tables.nodes.len()) {
        return None;
    }
    nemesis.begin(id, copy).ok()
}

/// A nemesis under which so many faults stand, which are copies of these in turn.
fn nemesis_of(case: &Case, faults: &[Fault]) -> Option<Nemesis> {
    let mut nemesis = Nemesis::new(Tables::calm(usize::from(case.nodes)));
    for (id, fault) in (0..case.standing).zip(faults.iter().cycle()) {
        begin(&mut nemesis, id, fault)?;
    }
    Some(nemesis)
}

fn withdraw_and_begin(nemesis: &mut Nemesis, fault: &Fault, rounds: u32) -> Option<()> {
    for _ in 0..rounds {
        black_box(&mut *nemesis).withdraw(MEASURED).ok()?;
        begin(black_box(nemesis), MEASURED, fault)?;
    }
    Some(())
}

fn undo_and_redo(nemesis: &mut Nemesis, rounds: u32) -> Option<()> {
    for _ in 0..rounds {
        black_box(&mut *nemesis).undo().ok()?;
        black_box(&mut *nemesis).redo().ok()?;
    }
    Some(())
}

/// Takes the rounds of one nemesis, in which the fault stands. Answers how long they took.
fn rounds_run(case: &Case, nemesis: &mut Nemesis, fault: &Fault) -> Option<Duration> {
    let start = Instant::now();
    match case.steps.as_str() {
        "begin" => withdraw_and_begin(nemesis, fault, case.rounds)?,
        "undo" => undo_and_redo(nemesis, case.rounds)?,
        _ => return None,
    }
    Some(start.elapsed())
}

/// A checksum with one number more.
fn mixed(sum: u64, number: u64) -> u64 {
    (sum ^ number).wrapping_mul(0x100_0000_01b3)
}

/// A checksum with all cells of tables.
fn cells_mixed(sum: u64, tables: &Tables) -> u64 {
    let count = tables.nodes.len();
    let mut sum = sum;
    for from in 0..count {
        for to in (0..count).filter(|to| *to != from) {
            let link = tables.link(from, to);
            sum = mixed(
                mixed(mixed(sum, u64::from(link.cut)), link.delay),
                u64::from(link.loss),
            );
        }
        let cell = tables.node(from);
        sum = mixed(mixed(sum, cell.life as u64), cell.clock.unsigned_abs());
    }
    sum
}

/// Answers how long all rounds took, and a checksum of the cells with the fault and without it.
fn run(case: &Case) -> Option<(Duration, u64)> {
    let all = |kind| fault_of(case.nodes, kind, usize::MAX);
    let standing: Vec<Fault> = case
        .standing_kinds
        .split(',')
        .map(all)
        .collect::<Option<_>>()?;
    let fault = fault_of(case.nodes, &case.kind, case.named)?;
    let mut took = Duration::ZERO;
    let mut sum = 0;
    for _ in 0..case.nemeses {
        let mut nemesis = nemesis_of(case, &standing)?;
        begin(&mut nemesis, MEASURED, &fault)?;
        took += rounds_run(case, &mut nemesis, &fault)?;
        sum = cells_mixed(sum, &nemesis.tables);
        nemesis.undo().ok()?;
        sum = cells_mixed(sum, &nemesis.tables);
    }
    Some((took, sum))
}

fn main() -> Result<(), &'static str> {
    let case = case_of(env::args().skip(1)).ok_or("the arguments are not right")?;
    let (took, sum) = run(&case).ok_or("a step was refused")?;
    println!("{} {sum}", took.as_nanos());
    Ok(())
}

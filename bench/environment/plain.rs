//! What `jeprun env` does as a plain program does it: what `bench/environment.py` compares with.
//!
//!     plain < INPUT
//!
//! It reads a starting environment and steps, and writes what `jeprun env` writes of the same input, byte for byte. It is written
//! as one would write it in Rust, with std alone and without proofs. Elements are read one by one by the plain reader,
//! `bench/reading/plain.rs`. The nemesis of `bench/steps/plain.rs` takes each step as soon as it is read, and the step's tree is
//! dropped. The answers are written behind the last step, since of a refused input nothing is written.
//!
//! It knows all faults and all steps. It judges no errors: of an input that is not right it may write anything.

use std::collections::HashMap;
use std::io::{self, Write};
use std::process;

#[allow(dead_code)]
#[path = "../reading/plain.rs"]
mod reading;

#[allow(dead_code)]
#[path = "../steps/plain.rs"]
mod steps;

use reading::{Value, each_value};
use steps::{Answer, Fault, Life, Link, MAX_NODES, Nemesis, Tables};

type Links = Vec<(u8, u8)>;

fn refused() -> ! {
    eprintln!("refused");
    process::exit(3);
}

fn elements(value: &Value) -> &[Value] {
    match value {
        Value::List(items) | Value::Vector(items) => items,
        _ => refused(),
    }
}

fn pairs(value: &Value) -> &[(Value, Value)] {
    match value {
        Value::Map(pairs) => pairs,
        _ => refused(),
    }
}

fn keyword(value: &Value) -> &str {
    match value {
        Value::Keyword(name) => name,
        _ => refused(),
    }
}

fn text(value: &Value) -> &str {
    match value {
        Value::Str(text) => text,
        _ => refused(),
    }
}

fn number(value: &Value) -> i64 {
    match value {
        Value::Int(number) => *number,
        _ => refused(),
    }
}

/// Random numbers: PCG XSH RR 64/32.
struct Numbers {
    state: u64,
    increment: u64,
}

impl Numbers {
    /// The numbers of the state and the increment that a seed gives: four words of another such generator.
    fn seeded(seed: u64) -> Numbers {
        let mut seeder = Numbers { state: seed, increment: 0xa176_54e4_6fbe_17f3 };
        let mut word = || {
            seeder.step();
            u64::from(seeder.word())
        };
        let state = word() | word() << 32;
        let increment = word() | word() << 32 | 1;
        let mut numbers = Numbers { state: state.wrapping_add(increment), increment };
        numbers.step();
        numbers
    }

    fn step(&mut self) {
        self.state = self.state.wrapping_mul(0x5851_f42d_4c95_7f2d).wrapping_add(self.increment);
    }

    /// The word of the state.
    fn word(&self) -> u32 {
        let mixed = ((self.state >> 18 ^ self.state) >> 27) as u32;
        mixed.rotate_right((self.state >> 59) as u32)
    }

    fn next(&mut self) -> u64 {
        let word = self.word();
        self.step();
        u64::from(word)
    }

    /// A number below a bound, as the crate `rand` draws it.
    fn below(&mut self, bound: u64) -> u32 {
        let product = self.next() * bound;
        let (high, low) = (product >> 32, product & 0xffff_ffff);
        if low <= (1 << 32) - bound {
            return high as u32;
        }
        let carry = (low + (self.next() * bound >> 32)) >> 32;
        (high + carry) as u32
    }
}

/// The product of as many numbers from this one up as fit 32 bits, and how many these are.
fn rising(first: u64) -> (u64, u32) {
    let (mut product, mut count) = (first, 1);
    while product * (first + u64::from(count)) <= u64::from(u32::MAX) {
        product *= first + u64::from(count);
        count += 1;
    }
    (product, count)
}

/// So many places in the order that a seed gives, as the crate `rand` shuffles them: one draw serves several swaps.
fn shuffled(count: u8, seed: u64) -> Vec<u8> {
    let mut order: Vec<u8> = (0..count).collect();
    let mut numbers = Numbers::seeded(seed);
    let (mut drawn, mut left) = (0, 0);
    for place in 1..order.len() {
        let bound = place as u32 + 1;
        if left == 0 {
            let (product, served) = rising(u64::from(bound));
            (drawn, left) = (numbers.below(product), served);
        }
        left -= 1;
        let other = if left == 0 { drawn } else { drawn % bound };
        drawn /= bound;
        order.swap(place, other as usize);
    }
    order
}

/// The links that a ring in this order cuts: each node is not heard by those that come next, which see the smallest majority that
/// begins with themselves.
fn ring(order: &[u8]) -> Links {
    let deaf = order.len() - (order.len() / 2 + 1);
    let twice = [order, order].concat();
    let mut links = Vec::with_capacity(order.len() * deaf);
    for (place, from) in order.iter().enumerate() {
        links.extend(twice[place + 1..][..deaf].iter().map(|to| (*from, *to)));
    }
    links
}

/// Of all links between so many nodes those that are such.
fn links_where(count: u8, is_such: impl Fn(u8, u8) -> bool) -> Links {
    let all = (0..count).flat_map(|from| (0..count).map(move |to| (from, to)));
    all.filter(|(from, to)| is_such(*from, *to)).collect()
}

/// The names of the nodes, and the place of each.
struct Names {
    names: Vec<String>,
    places: HashMap<String, u8>,
}

impl Names {
    fn of(value: &Value) -> Names {
        let names: Vec<String> = elements(value).iter().map(|name| text(name).to_owned()).collect();
        let places = names.iter().cloned().zip(0..).collect();
        Names { names, places }
    }

    fn count(&self) -> u8 {
        self.names.len() as u8
    }

    fn place(&self, name: &Value) -> u8 {
        self.places.get(text(name)).copied().unwrap_or_else(|| refused())
    }

    /// The links that are named, each once.
    fn links(&self, value: &Value) -> Links {
        let named = elements(value);
        let mut met = [0u64; MAX_NODES];
        let mut links = Vec::with_capacity(named.len().min(MAX_NODES * MAX_NODES));
        for link in named {
            let [from, to] = elements(link) else { refused() };
            let (from, to) = (self.place(from), self.place(to));
            let met = &mut met[usize::from(from)];
            if *met >> to & 1 == 0 {
                *met |= 1 << to;
                links.push((from, to));
            }
        }
        links
    }

    /// The nodes that are named, each once.
    fn nodes(&self, value: &Value) -> Vec<u8> {
        let mut nodes: Vec<u8> = elements(value).iter().map(|name| self.place(name)).collect();
        nodes.sort_unstable();
        nodes.dedup();
        nodes
    }

    fn bumps(&self, value: &Value) -> Vec<(u8, i64)> {
        pairs(value).iter().map(|(name, milliseconds)| (self.place(name), number(milliseconds))).collect()
    }

    fn fault(&self, value: &Value) -> Fault {
        let [kind, more @ ..] = elements(value) else { refused() };
        let (count, half) = (self.count(), self.count() / 2);
        match (keyword(kind), more) {
            ("cut", [links]) => Fault::Cut(self.links(links)),
            ("slow", [delay, links]) => Fault::Slow(number(delay) as u64, self.links(links)),
            ("loss", [level, links]) => Fault::Loss(number(level) as u8, self.links(links)),
            ("fix", [delay, links]) => Fault::Fix(number(delay) as u64, self.links(links)),
            ("pause", [nodes]) => Fault::Pause(self.nodes(nodes)),
            ("kill", [nodes]) => Fault::Kill(self.nodes(nodes)),
            ("bump", [bumps]) => Fault::Bump(self.bumps(bumps)),
            ("halves", []) => Fault::Cut(links_where(count, |from, to| (from < half) != (to < half))),
            ("bridge", []) => {
                let crosses = |one, other| one < half && other > half;
                Fault::Cut(links_where(count, |from, to| crosses(from, to) || crosses(to, from)))
            }
            ("split-one", [name]) => {
                let loner = self.place(name);
                Fault::Cut(links_where(count, |from, to| (from == loner) != (to == loner)))
            }
            ("ring", []) => Fault::Cut(ring(&(0..count).collect::<Vec<u8>>())),
            ("ring", [seed]) => Fault::Cut(ring(&shuffled(count, number(seed) as u64))),
            _ => refused(),
        }
    }
}

/// Makes the start of what the entries under a key say.
fn set_start(tables: &mut Tables, names: &Names, key: &str, entries: &Value) {
    let count = names.names.len();
    let node = |name| usize::from(names.place(name));
    for entry in elements(entries) {
        match (key, elements(entry)) {
            ("cut", [from, to]) => tables.links[node(from) * count + node(to)].start.cut = true,
            ("slow", [from, to, delay]) => tables.links[node(from) * count + node(to)].start.delay = number(delay) as u64,
            ("loss", [from, to, level]) => tables.links[node(from) * count + node(to)].start.loss = number(level) as u8,
            ("down", [name, life]) => {
                let life = if keyword(life) == "killed" { Life::Killed } else { Life::Paused };
                tables.nodes[node(name)].start.life = life;
            }
            ("clock", [name, milliseconds]) => tables.nodes[node(name)].start.clock = number(milliseconds),
            _ => refused(),
        }
    }
}

/// The names of an environment, and a nemesis over it.
fn start_of(value: &Value) -> (Names, Nemesis) {
    let pairs = pairs(value);
    let Some((_, nodes)) = pairs.iter().find(|(key, _)| keyword(key) == "nodes") else { refused() };
    let names = Names::of(nodes);
    let mut tables = Tables::calm(names.names.len());
    for (key, entries) in pairs.iter().filter(|(key, _)| keyword(key) != "nodes") {
        set_start(&mut tables, &names, keyword(key), entries);
    }
    (names, Nemesis::new(tables))
}

fn take_step(names: &Names, nemesis: &mut Nemesis, value: &Value) -> Answer {
    let [step, more @ ..] = elements(value) else { refused() };
    match (keyword(step), more) {
        ("begin", [id, fault]) => nemesis.begin(number(id) as u32, names.fault(fault)),
        ("withdraw", [id]) => nemesis.withdraw(number(id) as u32),
        ("withdraw-all", []) => nemesis.withdraw_all(),
        ("undo", []) => nemesis.undo(),
        ("redo", []) => nemesis.redo(),
        _ => refused(),
    }
}

fn joined(entries: impl Iterator<Item = String>) -> String {
    entries.collect::<Vec<String>>().join(" ")
}

/// Writes the line of the environment as it is now.
fn write_environment(names: &[String], tables: &Tables, to: &mut Vec<u8>) -> io::Result<()> {
    let ends = (0..names.len()).flat_map(|from| (0..names.len()).map(move |to| (from, to)));
    let links: Vec<(usize, usize, Link)> =
        ends.filter(|(from, to)| from != to).map(|(from, to)| (from, to, tables.link(from, to))).collect();
    let written = |from: usize, to: usize, more: String| format!("[\"{}\" \"{}\"{more}]", names[from], names[to]);
    let cut = links.iter().filter(|link| link.2.cut).map(|(from, to, _)| written(*from, *to, String::new()));
    let slow = links.iter().filter(|link| link.2.delay > 0);
    let slow = slow.map(|(from, to, link)| written(*from, *to, format!(" {}", link.delay)));
    let loss = links.iter().filter(|link| link.2.loss > 0);
    let loss = loss.map(|(from, to, link)| written(*from, *to, format!(" {}", link.loss)));
    let cells = || names.iter().enumerate().map(|(place, name)| (name, tables.node(place)));
    let down = cells().filter_map(|(name, cell)| match cell.life {
        Life::Running => None,
        Life::Paused => Some(format!("[\"{name}\" :paused]")),
        Life::Killed => Some(format!("[\"{name}\" :killed]")),
    });
    let clock = cells().filter(|(_, cell)| cell.clock != 0).map(|(name, cell)| format!("[\"{name}\" {}]", cell.clock));
    write!(to, "{{:nodes [{}], :cut [{}]", joined(names.iter().map(|name| format!("\"{name}\""))), joined(cut))?;
    write!(to, ", :slow [{}], :loss [{}]", joined(slow), joined(loss))?;
    writeln!(to, ", :down [{}], :clock [{}]}}", joined(down), joined(clock))
}

fn main() -> io::Result<()> {
    let input = io::read_to_string(io::stdin().lock())?;
    let mut started: Option<(Names, Nemesis)> = None;
    let mut output = Vec::new();
    let reading = each_value(&input, |value| match &mut started {
        None => started = Some(start_of(&value)),
        Some((names, nemesis)) => {
            let answer = take_step(names, nemesis, &value).err().unwrap_or("ok");
            output.extend([":", answer, "\n"].concat().bytes());
        }
    });
    let (Ok(()), Some((names, nemesis))) = (reading, started) else { refused() };
    writeln!(output, ":active [{}]", joined(nemesis.active_ids().map(|id| id.to_string())))?;
    write_environment(&names.names, &nemesis.tables, &mut output)?;
    io::stdout().lock().write_all(&output)
}

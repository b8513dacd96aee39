//! A plain judge of transactions over lists: what `bench/transactions.py` compares `jeprun` with.
//!
//! It reads a history of Jepsen's list-append from standard input, an operation on each line, and looks for a serial order that
//! keeps real time, as `jeprun check --workload list-append` does, without proofs: each read is looked at by itself (the
//! anomalies of Kingsbury and Alvaro, "Elle", 2020), then transactions become the nodes of a graph whose edges are the
//! dependencies that neighbours in the longest read of each key show (Adya, "Weak consistency", 1999), with one node for each
//! completion in place of an edge for each two transactions in time, and a depth-first search looks for a cycle.
//!
//! Keys and elements are one where their texts are the same: `1` and `+1` are two here. It checks no more of a history than it
//! must, and prints `valid N` with how many transactions the order has, `bad read P M`, or `cycle`. The exit status is 0 or 1.

use std::collections::HashMap;
use std::io::Read;
use std::process::exit;

#[derive(Clone, Copy, PartialEq)]
enum Outcome {
    Done,
    Failed,
    Unsure,
}

enum Op {
    Append(u32, u32),
    Read(u32, Vec<u32>),
}

struct Txn {
    invoked: u32,
    ended: u32,
    outcome: Outcome,
    ops: Vec<Op>,
}

const NONE: u32 = u32::MAX;

/// What is left of the text of a line.
struct Text<'a> {
    bytes: &'a [u8],
    at: usize,
}

impl<'a> Text<'a> {
    fn skip(&mut self) {
        while self.at < self.bytes.len() && matches!(self.bytes[self.at], b' ' | b',' | b'\t' | b'\r') {
            self.at += 1;
        }
    }

    fn peek(&mut self) -> u8 {
        self.skip();
        *self.bytes.get(self.at).unwrap_or(&0)
    }

    fn take(&mut self, byte: u8) -> bool {
        let is = self.peek() == byte;
        self.at += is as usize;
        is
    }

    /// One value, as its text.
    fn value(&mut self) -> &'a [u8] {
        self.skip();
        let start = self.at;
        let mut depth = 0;
        while self.at < self.bytes.len() {
            match self.bytes[self.at] {
                b'[' | b'{' | b'(' => depth += 1,
                b']' | b'}' | b')' if depth == 0 => break,
                b']' | b'}' | b')' => {
                    depth -= 1;
                    if depth == 0 {
                        self.at += 1;
                        break;
                    }
                }
                b'"' => {
                    self.at += 1;
                    while self.bytes[self.at] != b'"' {
                        self.at += 1 + (self.bytes[self.at] == b'\\') as usize;
                    }
                }
                b' ' | b',' | b'\t' | b'\r' if depth == 0 => break,
                _ => {}
            }
            self.at += 1;
        }
        &self.bytes[start..self.at]
    }
}

/// Numbers for texts.
#[derive(Default)]
struct Numbers<'a> {
    keys: HashMap<&'a [u8], u32>,
    elements: HashMap<(u32, &'a [u8]), u32>,
}

impl<'a> Numbers<'a> {
    fn key(&mut self, text: &'a [u8]) -> u32 {
        let next = self.keys.len() as u32;
        *self.keys.entry(text).or_insert(next)
    }

    fn element(&mut self, key: u32, text: &'a [u8]) -> u32 {
        let next = self.elements.len() as u32;
        *self.elements.entry((key, text)).or_insert(next)
    }

    /// The micro-operations that a value spells.
    fn ops(&mut self, value: &'a [u8]) -> Vec<Op> {
        let mut text = Text { bytes: value, at: 0 };
        let mut ops = Vec::new();
        text.take(b'[');
        while text.take(b'[') {
            let name = text.value();
            let key = text.value();
            let key = self.key(key);
            if name == b":append" {
                let element = text.value();
                ops.push(Op::Append(key, self.element(key, element)));
            } else {
                let mut seen = Vec::new();
                if text.take(b'[') {
                    while !text.take(b']') {
                        let element = text.value();
                        seen.push(self.element(key, element));
                    }
                } else {
                    text.value();
                }
                ops.push(Op::Read(key, seen));
            }
            text.take(b']');
        }
        ops
    }
}

/// The transactions of a history, in the order of their invocations.
fn transactions<'a>(text: &'a [u8], numbers: &mut Numbers<'a>) -> Vec<Txn> {
    let mut txns: Vec<Txn> = Vec::new();
    let mut open: HashMap<&[u8], usize> = HashMap::new();
    let lines = text.split(|byte| *byte == b'\n').filter(|line| !line.is_empty());
    for (place, line) in lines.enumerate() {
        let mut fields = Text { bytes: line, at: 0 };
        let (mut kind, mut process, mut f, mut value): (&[u8], &[u8], &[u8], &[u8]) = (b"", b"", b"", b"");
        fields.take(b'{');
        while fields.peek() != b'}' && fields.peek() != 0 {
            let key = fields.value();
            let text = fields.value();
            match key {
                b":type" => kind = text,
                b":process" => process = text,
                b":f" => f = text,
                b":value" => value = text,
                _ => {}
            }
        }
        if f != b":txn" {
            continue;
        }
        if kind == b":invoke" {
            open.insert(process, txns.len());
            let ops = numbers.ops(value);
            txns.push(Txn { invoked: place as u32, ended: NONE, outcome: Outcome::Unsure, ops });
        } else if let Some(txn) = open.remove(process) {
            txns[txn].ended = place as u32;
            if kind == b":ok" {
                txns[txn].outcome = Outcome::Done;
                txns[txn].ops = numbers.ops(value);
            } else if kind == b":fail" {
                txns[txn].outcome = Outcome::Failed;
            }
        }
    }
    txns
}

/// Of each element who appended it, as which micro-operation of those to its key, and which element this transaction appended
/// to the key next.
#[derive(Clone, Copy)]
struct Writer {
    txn: u32,
    rank: u32,
    next: u32,
    key: u32,
}

fn writers(txns: &[Txn], elements: usize) -> Vec<Writer> {
    let mut table = vec![Writer { txn: NONE, rank: 0, next: NONE, key: 0 }; elements];
    let mut last: HashMap<u32, u32> = HashMap::new();
    for (number, txn) in txns.iter().enumerate() {
        last.clear();
        for op in &txn.ops {
            if let Op::Append(key, element) = op {
                let before = last.insert(*key, *element);
                let rank = before.map_or(0, |element| table[element as usize].rank + 1);
                if let Some(before) = before {
                    table[before as usize].next = *element;
                }
                table[*element as usize] = Writer { txn: number as u32, rank, next: NONE, key: *key };
            }
        }
    }
    table
}

/// The first read that no order explains.
fn bad_read(txns: &[Txn], writers: &[Writer]) -> Option<(usize, usize)> {
    let mut stamps: Vec<(u32, u32)> = vec![(NONE, 0); writers.len()];
    let mut turn = 0;
    for (number, txn) in txns.iter().enumerate().filter(|(_, txn)| txn.outcome == Outcome::Done) {
        let mut own: HashMap<u32, Vec<u32>> = HashMap::new();
        let mut bases: HashMap<u32, &[u32]> = HashMap::new();
        for (index, op) in txn.ops.iter().enumerate() {
            match op {
                Op::Append(key, element) => own.entry(*key).or_default().push(*element),
                Op::Read(key, seen) => {
                    turn += 1;
                    let mine: &[u32] = own.get(key).map_or(&[], |mine| mine);
                    if !seen.ends_with(mine) {
                        return Some((number, index));
                    }
                    let base = &seen[..seen.len() - mine.len()];
                    if *bases.entry(*key).or_insert(base) != base {
                        return Some((number, index));
                    }
                    let mut last: Option<(u32, u32)> = None;
                    for element in seen {
                        let writer = writers[*element as usize];
                        let is_twice = stamps[*element as usize].0 == turn;
                        stamps[*element as usize] = (turn, 0);
                        if is_twice || writer.txn == NONE || txns[writer.txn as usize].outcome == Outcome::Failed {
                            return Some((number, index));
                        }
                        if last.is_some_and(|(txn, rank)| txn == writer.txn && writer.rank != rank + 1) {
                            return Some((number, index));
                        }
                        last = Some((writer.txn, writer.rank));
                    }
                    for element in base {
                        let writer = writers[*element as usize];
                        let is_cut = writer.next != NONE && stamps[writer.next as usize].0 != turn;
                        if writer.txn as usize == number || is_cut {
                            return Some((number, index));
                        }
                    }
                }
            }
        }
    }
    None
}

/// A graph: for each node where its edges lead.
struct Graph {
    edges: Vec<Vec<u32>>,
}

impl Graph {
    fn add(&mut self, from: u32, to: u32) {
        if from != to {
            self.edges[from as usize].push(to);
        }
    }

    fn node(&mut self) -> u32 {
        self.edges.push(Vec::new());
        self.edges.len() as u32 - 1
    }
}

/// The graph of dependencies and of real time; nothing where two reads of a key fork.
fn graph(txns: &[Txn], writers: &[Writer], keys: usize) -> Option<Graph> {
    let mut longest: Vec<&[u32]> = vec![&[]; keys];
    let done = || txns.iter().enumerate().filter(|(_, txn)| txn.outcome == Outcome::Done);
    let reads = || {
        done().flat_map(|(number, txn)| {
            txn.ops.iter().filter_map(move |op| match op {
                Op::Read(key, seen) => Some((number as u32, *key as usize, seen.as_slice())),
                Op::Append(..) => None,
            })
        })
    };
    for (_, key, seen) in reads() {
        if seen.len() > longest[key].len() {
            longest[key] = seen;
        }
    }
    let mut there: Vec<bool> = txns.iter().map(|txn| txn.outcome == Outcome::Done).collect();
    let mut is_read = vec![false; writers.len()];
    for element in longest.iter().flat_map(|seen| seen.iter()) {
        there[writers[*element as usize].txn as usize] = true;
        is_read[*element as usize] = true;
    }
    let mut graph = Graph { edges: vec![Vec::new(); txns.len()] };
    let hubs: Vec<u32> = (0..keys).map(|_| graph.node()).collect();
    for (reader, key, seen) in reads() {
        if longest[key][..seen.len()] != *seen {
            return None;
        }
        if let Some(last) = seen.iter().rev().find(|element| writers[**element as usize].txn != reader) {
            graph.add(writers[*last as usize].txn, reader);
        }
        match longest[key][seen.len()..].iter().find(|element| writers[**element as usize].txn != reader) {
            Some(next) => graph.add(reader, writers[*next as usize].txn),
            None if seen.len() == longest[key].len() => graph.add(reader, hubs[key]),
            None => {}
        }
    }
    for seen in &longest {
        for two in seen.windows(2) {
            graph.add(writers[two[0] as usize].txn, writers[two[1] as usize].txn);
        }
    }
    for (element, writer) in writers.iter().enumerate() {
        if writer.txn != NONE && !is_read[element] && there[writer.txn as usize] {
            let reads_all = txns[writer.txn as usize].outcome == Outcome::Done
                && txns[writer.txn as usize].ops.iter().any(
                    |op| matches!(op, Op::Read(key, seen) if *key == writer.key && seen.len() >= longest[writer.key as usize].len()),
                );
            if !reads_all {
                graph.add(hubs[writer.key as usize], writer.txn);
            }
        }
    }
    add_real_time(&mut graph, txns);
    Some(graph)
}

/// A chain of moments: each completion leads to one, which leads to the next one and to what is invoked behind it.
fn add_real_time(graph: &mut Graph, txns: &[Txn]) {
    let mut events: Vec<(u32, u32, bool)> = Vec::new();
    for (number, txn) in txns.iter().enumerate() {
        events.push((txn.invoked, number as u32, false));
        if txn.outcome == Outcome::Done {
            events.push((txn.ended, number as u32, true));
        }
    }
    events.sort_unstable();
    let mut moment = graph.node();
    for (_, txn, ends) in events {
        if ends {
            let next = graph.node();
            graph.add(moment, next);
            graph.add(txn, next);
            moment = next;
        } else {
            graph.add(moment, txn);
        }
    }
}

/// How many of the first nodes an order has; nothing where there is a cycle.
fn ordered(graph: &Graph, count: usize) -> Option<usize> {
    let mut waits = vec![0u32; graph.edges.len()];
    for to in graph.edges.iter().flatten() {
        waits[*to as usize] += 1;
    }
    let mut free: Vec<u32> = (0..waits.len() as u32).filter(|node| waits[*node as usize] == 0).collect();
    let mut order: Vec<u32> = Vec::with_capacity(count);
    let mut left = waits.len();
    while let Some(node) = free.pop() {
        left -= 1;
        if (node as usize) < count {
            order.push(node);
        }
        for to in &graph.edges[node as usize] {
            waits[*to as usize] -= 1;
            if waits[*to as usize] == 0 {
                free.push(*to);
            }
        }
    }
    (left == 0).then_some(order.len())
}

fn main() {
    let mut text = Vec::new();
    std::io::stdin().read_to_end(&mut text).expect("standard input");
    let mut numbers = Numbers::default();
    let txns = transactions(&text, &mut numbers);
    let writers = writers(&txns, numbers.elements.len());
    if let Some((place, index)) = bad_read(&txns, &writers) {
        println!("bad read {place} {index}");
        exit(1);
    }
    match graph(&txns, &writers, numbers.keys.len()).and_then(|graph| ordered(&graph, txns.len())) {
        Some(count) => println!("valid {count}"),
        None => {
            println!("cycle");
            exit(1);
        }
    }
}

//! A plain checker that reads a history as a stream: what `bench/checkers.py` compares `jeprun check` with.
//!
//! It reads a history of one operation on each line, keeps of an operation no more than its checker needs, and writes the line
//! that `jeprun check` writes, byte for byte. It is written as one would write it in Rust, with std alone and without proofs: a
//! key is told by its bytes, a value that no checker looks at is passed over, and no operation is kept but a register's. It
//! takes for granted what `jeprun` checks: that a text is EDN, that no key stands twice, and that the records of a process
//! pair.
//!
//! A register is judged by the plain search of bench/register/search.rs, whose cache has at most BUDGET entries; where it is
//! full the answer is unknown. With THREADS, each value is a tuple of a key, an integer, and a value, and each key is judged by
//! itself, by the next thread that is free. Of several orders this program writes the one that it finds, as `jeprun` does: only
//! there the bytes may differ.
//!
//!     plain counter | set | unique-ids < HISTORY
//!     plain register INITIAL BUDGET [THREADS] < HISTORY

#[path = "../register/search.rs"]
mod search;

use search::{search, Call, Op, Value, Verdict};
use std::collections::{BTreeMap, BTreeSet, HashMap};
use std::io::{self, BufRead, BufWriter, Write};
use std::sync::atomic::{AtomicUsize, Ordering};
use std::sync::OnceLock;
use std::{env, thread};

/// What a line says, as pieces of it.
#[derive(Default)]
struct Record<'a> {
    kind: &'a [u8],
    process: &'a [u8],
    f: &'a [u8],
    value: &'a [u8],
}

/// Where an element ends that begins here.
fn element_end(line: &[u8], from: usize) -> usize {
    let (mut depth, mut at) = (0, from);
    while at < line.len() {
        match line[at] {
            b'[' | b'(' | b'{' => depth += 1,
            b']' | b')' | b'}' if depth == 0 => return at,
            b']' | b')' | b'}' => depth -= 1,
            b'"' => {
                at += 1;
                while line[at] != b'"' {
                    at += if line[at] == b'\\' { 2 } else { 1 };
                }
            }
            b' ' | b',' | b'\n' if depth == 0 => return at,
            _ => {}
        }
        at += 1;
    }
    at
}

/// Where the next element begins.
fn element_start(line: &[u8], mut at: usize) -> usize {
    while matches!(line.get(at), Some(b' ' | b',' | b'\t' | b'\n')) {
        at += 1;
    }
    at
}

fn record(line: &[u8]) -> Record<'_> {
    let mut record = Record::default();
    let mut at = element_start(line, 1);
    while line[at] != b'}' {
        let key_end = element_end(line, at);
        let key = &line[at..key_end];
        let from = element_start(line, key_end);
        let end = element_end(line, from);
        match key {
            b":type" => record.kind = &line[from..end],
            b":process" => record.process = &line[from..end],
            b":f" => record.f = &line[from..end],
            b":value" => record.value = &line[from..end],
            _ => {}
        }
        at = element_start(line, end);
    }
    record
}

fn integer(bytes: &[u8]) -> i64 {
    std::str::from_utf8(bytes).unwrap().parse().unwrap()
}

/// The integers of a vector.
fn integers(bytes: &[u8]) -> impl Iterator<Item = i64> + '_ {
    bytes[1..bytes.len() - 1]
        .split(|byte| *byte == b' ')
        .filter(|word| !word.is_empty())
        .map(integer)
}

fn each_line(mut look: impl FnMut(Record<'_>)) {
    let mut input = io::stdin().lock();
    let mut line = Vec::new();
    while input.read_until(b'\n', &mut line).unwrap() > 0 {
        look(record(&line));
        line.clear();
    }
}

fn write_joined<T>(out: &mut impl Write, items: &[T], mut write: impl FnMut(&mut dyn Write, &T)) {
    out.write_all(b"[").unwrap();
    for (place, item) in items.iter().enumerate() {
        if place > 0 {
            out.write_all(b" ").unwrap();
        }
        write(out, item);
    }
    out.write_all(b"]").unwrap();
}

fn unique_ids(out: &mut impl Write) {
    let (mut attempted, mut acknowledged) = (0, 0);
    let mut times: HashMap<Vec<u8>, usize> = HashMap::new();
    each_line(|record| match (record.kind, record.f) {
        (b":invoke", b":generate") => attempted += 1,
        (b":ok", b":generate") => {
            acknowledged += 1;
            *times.entry(record.value.to_vec()).or_default() += 1;
        }
        _ => {}
    });
    let twice: BTreeMap<_, _> = times.into_iter().filter(|(_, times)| *times > 1).collect();
    let twice: Vec<_> = twice.into_iter().collect();
    let valid = twice.is_empty();
    write!(out, "{{:valid? {valid}, :attempted {attempted}, :acknowledged {acknowledged}, :duplicated ").unwrap();
    write_joined(out, &twice, |out, (id, times)| {
        out.write_all(b"[").unwrap();
        out.write_all(id).unwrap();
        write!(out, " {times}]").unwrap();
    });
    out.write_all(b"}\n").unwrap();
}

fn counter(out: &mut impl Write) {
    let (mut lower, mut upper) = (0, 0);
    let mut open: HashMap<i64, i64> = HashMap::new();
    let mut reads = Vec::new();
    each_line(|record| match (record.kind, record.f) {
        (b":invoke", b":add") => upper += integer(record.value),
        (b":ok", b":add") => lower += integer(record.value),
        (b":invoke", b":read") => {
            open.insert(integer(record.process), lower);
        }
        (b":ok", b":read") => {
            reads.push([open[&integer(record.process)], integer(record.value), upper]);
        }
        _ => {}
    });
    let errors: Vec<_> = reads.iter().filter(|[lower, value, upper]| value < lower || upper < value).copied().collect();
    let write = |out: &mut dyn Write, [lower, value, upper]: &[i64; 3]| {
        write!(out, "[{lower} {value} {upper}]").unwrap();
    };
    write!(out, "{{:valid? {}, :reads ", errors.is_empty()).unwrap();
    write_joined(out, &reads, write);
    out.write_all(b", :errors ").unwrap();
    write_joined(out, &errors, write);
    out.write_all(b"}\n").unwrap();
}

fn set(out: &mut impl Write) {
    let (mut attempted, mut added, mut read) = (BTreeSet::new(), BTreeSet::new(), None);
    each_line(|record| match (record.kind, record.f) {
        (b":invoke", b":add") => {
            attempted.insert(integer(record.value));
        }
        (b":ok", b":add") => {
            added.insert(integer(record.value));
        }
        (b":ok", b":read") => read = Some(integers(record.value).collect::<BTreeSet<_>>()),
        _ => {}
    });
    let read = read.unwrap();
    let ok: Vec<_> = read.intersection(&attempted).collect();
    let lost: Vec<_> = added.difference(&read).collect();
    let unexpected: Vec<_> = read.difference(&attempted).collect();
    let recovered: Vec<_> = ok.iter().filter(|value| !added.contains(value)).copied().collect();
    write!(out, "{{:valid? {}", lost.is_empty() && unexpected.is_empty()).unwrap();
    for (name, values) in [("ok", &ok), ("lost", &lost), ("unexpected", &unexpected), ("recovered", &recovered)] {
        write!(out, ", :{name} ").unwrap();
        write_joined(out, values, |out, value| write!(out, "{value}").unwrap());
    }
    out.write_all(b"}\n").unwrap();
}

/// The operations of a register, or of one of its keys, numbered as they are invoked. None stands for one that failed.
#[derive(Default)]
struct Register {
    ops: Vec<Option<Op>>,
    open: HashMap<i64, usize>,
}

/// An integer, or none for `nil`.
fn held(bytes: &[u8]) -> Value {
    (bytes != b"nil").then(|| integer(bytes))
}

/// The two elements of a vector.
fn two(bytes: &[u8]) -> (&[u8], &[u8]) {
    let end = element_end(bytes, 1);
    let from = element_start(bytes, end);
    (&bytes[1..end], &bytes[from..element_end(bytes, from)])
}

fn call(f: &[u8], value: &[u8]) -> Call {
    match f {
        b":read" => Call::Read(held(value)),
        b":write" => Call::Write(integer(value)),
        _ => {
            let (old, new) = two(value);
            Call::Cas(integer(old), integer(new))
        }
    }
}

impl Register {
    /// Takes a record, which stands at this place of the history.
    fn take(&mut self, place: usize, record: &Record, value: &[u8]) {
        let process = integer(record.process);
        if record.kind == b":invoke" {
            self.open.insert(process, self.ops.len());
            self.ops.push(Some(Op { invoked: place, ended: None, call: call(record.f, value) }));
            return;
        }
        let op = &mut self.ops[self.open.remove(&process).unwrap()];
        match (record.kind, op.as_mut()) {
            (b":fail", _) => *op = None,
            (b":ok", Some(op)) => {
                op.ended = Some(place);
                if record.f == b":read" {
                    op.call = Call::Read(held(value));
                }
            }
            _ => {}
        }
    }

    /// The word of the verdict, and the line.
    fn judged(&self, initial: Value, budget: usize) -> (&'static str, Vec<u8>) {
        let happened = self.ops.iter().enumerate().filter_map(|(number, op)| Some((number, (*op)?)));
        let (numbers, ops): (Vec<usize>, Vec<Op>) = happened.unzip();
        let (word, order) = match search(&ops, initial, budget).0 {
            Verdict::Valid(order) => ("true", Some(order)),
            Verdict::Invalid => ("false", None),
            Verdict::Unknown => (":unknown", None),
        };
        let mut line = format!("{{:valid? {word}").into_bytes();
        if let Some(order) = order {
            line.extend(b", :order ");
            write_joined(&mut line, &order, |out, op| write!(out, "{}", numbers[*op]).unwrap());
        }
        line.push(b'}');
        (word, line)
    }
}

fn register(out: &mut impl Write, initial: Value, budget: usize) {
    let (mut register, mut place) = (Register::default(), 0);
    each_line(|record| {
        register.take(place, &record, record.value);
        place += 1;
    });
    out.write_all(&register.judged(initial, budget).1).unwrap();
    out.write_all(b"\n").unwrap();
}

/// What the register of each key is judged to be. The next thread that is free takes the next key.
fn judged_by(threads: usize, registers: Vec<Register>, initial: Value, budget: usize) -> Vec<(&'static str, Vec<u8>)> {
    let next = AtomicUsize::new(0);
    let judged: Vec<_> = registers.iter().map(|_| OnceLock::new()).collect();
    let judge = || loop {
        let key = next.fetch_add(1, Ordering::Relaxed);
        let Some(register) = registers.get(key) else { break };
        judged[key].get_or_init(|| register.judged(initial, budget));
    };
    thread::scope(|scope| {
        for _ in 0..threads {
            scope.spawn(judge);
        }
    });
    judged.into_iter().map(|it| it.into_inner().unwrap()).collect()
}

fn registers(out: &mut impl Write, initial: Value, budget: usize, threads: usize) {
    let (mut by_key, mut place) = (BTreeMap::<i64, Register>::new(), 0);
    each_line(|record| {
        let (key, value) = two(record.value);
        by_key.entry(integer(key)).or_default().take(place, &record, value);
        place += 1;
    });
    let (keys, registers): (Vec<i64>, Vec<Register>) = by_key.into_iter().unzip();
    let judged = judged_by(threads, registers, initial, budget);
    let is_one = |wanted: &str| judged.iter().any(|(word, _)| *word == wanted);
    let word = ["false", ":unknown"].into_iter().find(|it| is_one(it)).unwrap_or("true");
    write!(out, "{{:valid? {word}, :keys ").unwrap();
    let lines: Vec<_> = keys.iter().zip(&judged).collect();
    write_joined(out, &lines, |out, (key, (_, line))| {
        write!(out, "[{key} ").unwrap();
        out.write_all(line).unwrap();
        out.write_all(b"]").unwrap();
    });
    out.write_all(b"}\n").unwrap();
}

fn main() {
    let mut out = BufWriter::new(io::stdout().lock());
    let words: Vec<String> = env::args().skip(1).collect();
    let words: Vec<&str> = words.iter().map(String::as_str).collect();
    let count = |word: &str| word.parse::<usize>().unwrap();
    match words[..] {
        ["unique-ids"] => unique_ids(&mut out),
        ["counter"] => counter(&mut out),
        ["set"] => set(&mut out),
        ["register", initial, most] => register(&mut out, held(initial.as_bytes()), count(most)),
        ["register", initial, most, threads] => {
            registers(&mut out, held(initial.as_bytes()), count(most), count(threads));
        }
        _ => panic!("counter, set, unique-ids, or register INITIAL BUDGET [THREADS]"),
    }
}

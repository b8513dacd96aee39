//! A plain writer of EDN texts: what `bench/writing.py` compares `jeprun` with.
//!
//! It reads a text by the plain reader, `bench/reading/plain.rs`, and writes what `jeprun` writes of it, byte for byte, through a
//! `BufWriter`. It is written as one would write it in Rust, with std alone and without proofs: strings go out in runs between
//! what is escaped, and nothing is copied before it is written.
//!
//!     plain WHAT < FILE
//!
//! - `lines`: each element on a line.
//! - `stuck`: of a register's history that is one read of what was never written, the line with which `--explain` says so.
//! - `counter`: the line of a counter's history, in which all operations are those of clients.
//!
//! To the standard error it prints the nanoseconds of processor time that it takes behind the reading, by the system's clock of
//! the process. It has status 3 where the text is refused. `bench/drive/plain.rs` writes by it, too.

use std::collections::HashMap;
use std::io::{self, BufWriter, Read, Write};
use std::process;

#[allow(dead_code)]
#[path = "../reading/plain.rs"]
pub mod reading;

use reading::{Value, values_of};

pub fn write_value<W: Write>(value: &Value, to: &mut W) -> io::Result<()> {
    match value {
        Value::Nil => to.write_all(b"nil"),
        Value::Bool(held) => write!(to, "{held}"),
        Value::Int(held) => write!(to, "{held}"),
        Value::Char(held) => write_char(*held, to),
        Value::Str(text) => write_text(text, to),
        Value::Keyword(name) => {
            to.write_all(b":")?;
            to.write_all(name.as_bytes())
        }
        Value::Symbol(name) => to.write_all(name.as_bytes()),
        Value::List(items) => write_items("(", items, ")", to),
        Value::Vector(items) => write_items("[", items, "]", to),
        Value::Set(items) => write_items("#{", items, "}", to),
        Value::Map(pairs) => {
            to.write_all(b"{")?;
            for (at, (key, value)) in pairs.iter().enumerate() {
                if at > 0 {
                    to.write_all(b", ")?;
                }
                write_value(key, to)?;
                to.write_all(b" ")?;
                write_value(value, to)?;
            }
            to.write_all(b"}")
        }
        Value::Tagged(tag, value) => {
            write!(to, "#{tag} ")?;
            write_value(value, to)
        }
    }
}

fn write_items<W: Write>(open: &str, items: &[Value], close: &str, to: &mut W) -> io::Result<()> {
    to.write_all(open.as_bytes())?;
    for (at, item) in items.iter().enumerate() {
        if at > 0 {
            to.write_all(b" ")?;
        }
        write_value(item, to)?;
    }
    to.write_all(close.as_bytes())
}

fn write_text<W: Write>(text: &str, to: &mut W) -> io::Result<()> {
    to.write_all(b"\"")?;
    let bytes = text.as_bytes();
    let mut written = 0;
    for (at, byte) in bytes.iter().enumerate() {
        let escape: &[u8] = match byte {
            b'"' => b"\\\"",
            b'\\' => b"\\\\",
            b'\n' => b"\\n",
            b'\t' => b"\\t",
            b'\r' => b"\\r",
            b'\x08' => b"\\b",
            b'\x0c' => b"\\f",
            _ => continue,
        };
        to.write_all(&bytes[written..at])?;
        to.write_all(escape)?;
        written = at + 1;
    }
    to.write_all(&bytes[written..])?;
    to.write_all(b"\"")
}

fn write_char<W: Write>(c: char, to: &mut W) -> io::Result<()> {
    match c {
        '\n' => to.write_all(b"\\newline"),
        '\r' => to.write_all(b"\\return"),
        ' ' => to.write_all(b"\\space"),
        '\t' => to.write_all(b"\\tab"),
        '\x0c' => to.write_all(b"\\formfeed"),
        '\x08' => to.write_all(b"\\backspace"),
        '\0'..='\x1f' | '\x7f' => write!(to, "\\u{:04x}", c as u32),
        _ => write!(to, "\\{c}"),
    }
}

/// The value of a key in an operation.
fn part<'a>(op: &'a Value, name: &str) -> &'a Value {
    let Value::Map(pairs) = op else {
        return &Value::Nil;
    };
    let found = pairs.iter().find(|(key, _)| matches!(key, Value::Keyword(key) if key == name));
    found.map_or(&Value::Nil, |pair| &pair.1)
}

fn word<'a>(op: &'a Value, name: &str) -> &'a str {
    match part(op, name) {
        Value::Keyword(word) => word,
        _ => "",
    }
}

fn number(op: &Value, name: &str) -> i64 {
    match part(op, name) {
        Value::Int(number) => *number,
        _ => 0,
    }
}

fn write_stuck<W: Write>(history: &[Value], to: &mut W) -> io::Result<()> {
    to.write_all(b"{:valid? false, :stuck ")?;
    write_value(&history[history.len() - 1], to)?;
    to.write_all(b", :order [], :value nil, :pending [0]}\n")
}

/// A read with the sums that it has to lie between.
struct Bounded {
    lower: i128,
    value: i64,
    upper: i128,
}

/// The reads of a counter in the order of their completions.
fn bounded_reads(history: &[Value]) -> Vec<Bounded> {
    let mut open = HashMap::new();
    let mut failed = vec![false; history.len()];
    for (at, op) in history.iter().enumerate() {
        match word(op, "type") {
            "invoke" => {
                open.insert(number(op, "process"), at);
            }
            kind => {
                if let Some(invoke) = open.remove(&number(op, "process")) {
                    failed[invoke] = kind == "fail";
                }
            }
        }
    }
    let (mut lower, mut upper) = (0, 0);
    let mut reads = Vec::new();
    for (at, op) in history.iter().enumerate() {
        let process = number(op, "process");
        match (word(op, "f"), word(op, "type")) {
            ("add", "invoke") => {
                let amount = i128::from(number(op, "value"));
                open.insert(process, at);
                upper += if failed[at] { 0 } else { amount };
            }
            ("add", "ok") => lower += i128::from(number(&history[open[&process]], "value")),
            ("read", "invoke") => {
                open.insert(process, reads.len());
                reads.push((usize::MAX, Bounded { lower, value: 0, upper }));
            }
            ("read", "ok") => {
                let read = &mut reads[open[&process]];
                read.0 = at;
                read.1.value = number(op, "value");
                read.1.upper = upper;
            }
            _ => {}
        }
    }
    reads.retain(|read| read.0 != usize::MAX);
    reads.sort_by_key(|read| read.0);
    reads.into_iter().map(|read| read.1).collect()
}

fn write_reads<'a, W: Write>(reads: impl Iterator<Item = &'a Bounded>, to: &mut W) -> io::Result<()> {
    for (at, read) in reads.enumerate() {
        let before = if at > 0 { " " } else { "" };
        write!(to, "{before}[{} {} {}]", read.lower, read.value, read.upper)?;
    }
    Ok(())
}

fn write_counter<W: Write>(history: &[Value], to: &mut W) -> io::Result<()> {
    let reads = bounded_reads(history);
    let wrong = |read: &&Bounded| !(read.lower..=read.upper).contains(&i128::from(read.value));
    write!(to, "{{:valid? {}, :reads [", !reads.iter().any(|read| wrong(&read)))?;
    write_reads(reads.iter(), to)?;
    to.write_all(b"], :errors [")?;
    write_reads(reads.iter().filter(wrong), to)?;
    to.write_all(b"]}\n")
}

#[repr(C)]
struct Timespec {
    seconds: i64,
    nanoseconds: i64,
}

/// The number of the clock of a process, as Linux has it.
const PROCESS_CLOCK: i32 = 2;

extern "C" {
    fn clock_gettime(clock: i32, time: *mut Timespec) -> i32;
}

/// The nanoseconds of processor time that the process took so far.
fn nanoseconds() -> i64 {
    let mut time = Timespec { seconds: 0, nanoseconds: 0 };
    unsafe { clock_gettime(PROCESS_CLOCK, &mut time) };
    time.seconds * 1_000_000_000 + time.nanoseconds
}

fn main() -> io::Result<()> {
    let what = std::env::args().nth(1).unwrap_or_default();
    let mut bytes = Vec::new();
    io::stdin().lock().read_to_end(&mut bytes)?;
    let Ok(Ok(values)) = std::str::from_utf8(&bytes).map(values_of) else {
        eprintln!("refused");
        process::exit(3);
    };
    let begin = nanoseconds();
    let mut to = BufWriter::new(io::stdout().lock());
    match what.as_str() {
        "lines" => {
            for value in &values {
                write_value(value, &mut to)?;
                to.write_all(b"\n")?;
            }
        }
        "stuck" => write_stuck(&values, &mut to)?,
        "counter" => write_counter(&values, &mut to)?,
        _ => {}
    }
    to.flush()?;
    eprintln!("{}", nanoseconds() - begin);
    Ok(())
}

//! A plain search for an order of the operations of a register: what `bench/register.py` compares `jeprun` with. The search
//! itself, and whose it is, stands in search.rs beside this file.
//!
//!     plain INITIAL BUDGET < FILE
//!
//! INITIAL is the register's first value, an integer or `nil`. The search stops before the cache would have more entries than
//! BUDGET. Each line of FILE is one operation; failed ones are left out, and no two of the places are the same:
//!
//!     INVOKED ENDED ok CALL
//!     INVOKED - info CALL
//!
//! CALL is `read VALUE`, `write VALUE` or `cas OLD NEW`; `read nil` finds any value. It prints `valid`, `invalid` or `unknown`
//! and the entries of the cache. The exit status is 0, 1 or 2; 3 where FILE or the arguments are none of these.

mod search;

use search::{search, Call, Op, Value, Verdict};
use std::io::{self, Read};
use std::{env, process};

/// An integer, or none for `nil`.
fn value_of(word: &str) -> Option<Value> {
    match word {
        "nil" => Some(None),
        _ => word.parse().ok().map(Some),
    }
}

fn call_of(words: &[&str]) -> Option<Call> {
    match words {
        ["read", seen] => Some(Call::Read(value_of(seen)?)),
        ["write", new] => Some(Call::Write(new.parse().ok()?)),
        ["cas", old, new] => Some(Call::Cas(old.parse().ok()?, new.parse().ok()?)),
        _ => None,
    }
}

fn op_of(line: &str) -> Option<Op> {
    let words: Vec<&str> = line.split_ascii_whitespace().collect();
    let [invoked, ended, outcome, call @ ..] = words.as_slice() else {
        return None;
    };
    let invoked = invoked.parse().ok()?;
    let ended = match (*ended, *outcome) {
        ("-", "info") => None,
        (end, "ok") => Some(end.parse().ok().filter(|end| *end > invoked)?),
        _ => return None,
    };
    let call = call_of(call)?;
    Some(Op {
        invoked,
        ended,
        call,
    })
}

fn refuse(text: &str) -> ! {
    eprintln!("plain: {text}");
    process::exit(3)
}

/// The first value and the budget.
fn arguments() -> Option<(Value, usize)> {
    let words: Vec<String> = env::args().skip(1).collect();
    match words.as_slice() {
        [initial, budget] => Some((value_of(initial)?, budget.parse().ok()?)),
        _ => None,
    }
}

fn main() {
    let Some((initial, budget)) = arguments() else {
        refuse("INITIAL BUDGET")
    };
    let mut text = String::new();
    if io::stdin().read_to_string(&mut text).is_err() {
        refuse("read failed")
    }
    let mut ops = Vec::new();
    for (place, line) in text.lines().enumerate() {
        match op_of(line) {
            Some(op) => ops.push(op),
            None => refuse(&format!("line {}: no operation", place + 1)),
        }
    }
    let (verdict, entries) = search(&ops, initial, budget);
    let (word, status) = match verdict {
        Verdict::Valid(_) => ("valid", 0),
        Verdict::Invalid => ("invalid", 1),
        Verdict::Unknown => ("unknown", 2),
    };
    println!("{word} {entries}");
    process::exit(status)
}

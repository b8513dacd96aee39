//! A plain reader of EDN texts: what `bench/reading.py` compares `jeprun` with.
//!
//! It reads a whole text into a tree of the same kind as `jh_edn` does: the same elements, the same names and numbers, gaps,
//! comments and discards, at most 64 brackets, tags and discards inside one another, no two equal keys in a map and no two
//! equal elements in a set. It is written as one would write it in Rust, with std alone and without proofs, and for speed where
//! that is plain: one pass over the bytes, a table of what each byte is, no copy of a value once it is made. Equal keys are
//! sought by a number of 64 bits for each key, up to eight keys against each other and more of them sorted; keys whose numbers
//! agree are compared.
//!
//!     plain < FILE
//!
//! It prints how many elements the text has, or `refused at BYTE`, with status 3. `bench/writing/plain.rs` and
//! `bench/environment/plain.rs` read by it, too.

use std::io::{self, Read};
use std::process;

const DEPTH_LIMIT: usize = 64;
const FEW: usize = 8;

pub enum Value {
    Nil,
    Bool(bool),
    Int(i64),
    Char(char),
    Str(String),
    Keyword(String),
    Symbol(String),
    List(Vec<Value>),
    Vector(Vec<Value>),
    Map(Vec<(Value, Value)>),
    Set(Vec<Value>),
    Tagged(String, Box<Value>),
}

/// Where the text is refused.
pub struct Refused(pub usize);

pub type Reading<T> = Result<T, Refused>;

const SPACE: u8 = 1;
const RUN: u8 = 2;
const SYMBOL: u8 = 4;

/// What each byte is.
static CLASSES: [u8; 256] = classes();

const fn classes() -> [u8; 256] {
    let mut table = [RUN; 256];
    let mut byte = 0;
    while byte < 256 {
        let b = byte as u8;
        if matches!(b, b' ' | b',' | b'\t'..=b'\r') {
            table[byte] = SPACE;
        } else if matches!(b, b'(' | b')' | b'[' | b']' | b'{' | b'}' | b'"' | b';' | b'\\') {
            table[byte] = 0;
        } else if b.is_ascii_alphanumeric()
            || matches!(
                b,
                b'.' | b'*' | b'+' | b'!' | b'-' | b'_' | b'?' | b'$' | b'%' | b'&' | b'=' | b'<' | b'>' | b':' | b'#' | b'\'' | b'/'
            )
        {
            table[byte] = RUN | SYMBOL;
        }
        byte += 1;
    }
    table
}

struct Reader<'a> {
    text: &'a str,
    at: usize,
}

impl Reader<'_> {
    fn byte(&self) -> Option<u8> {
        self.text.as_bytes().get(self.at).copied()
    }

    fn refused<T>(&self) -> Reading<T> {
        Err(Refused(self.at))
    }

    /// Goes over white space, comments and discards.
    fn gap(&mut self, depth: usize) -> Reading<()> {
        let bytes = self.text.as_bytes();
        while let Some(&b) = bytes.get(self.at) {
            if CLASSES[b as usize] & SPACE != 0 {
                self.at += 1;
            } else if b == b';' {
                let rest = &bytes[self.at..];
                self.at += rest.iter().position(|b| *b == b'\n').unwrap_or(rest.len());
            } else if b == b'#' && bytes.get(self.at + 1) == Some(&b'_') {
                if depth == 0 {
                    return self.refused();
                }
                self.at += 2;
                self.next(depth - 1)?;
            } else {
                break;
            }
        }
        Ok(())
    }

    /// The element behind a gap.
    fn next(&mut self, depth: usize) -> Reading<Value> {
        self.gap(depth)?;
        self.element(depth)
    }

    fn element(&mut self, depth: usize) -> Reading<Value> {
        let Some(first) = self.byte() else {
            return self.refused();
        };
        match first {
            b'"' => self.string().map(Value::Str),
            b'(' => self.elements(1, b')', depth).map(Value::List),
            b'[' => self.elements(1, b']', depth).map(Value::Vector),
            b'{' => self.map(depth),
            b'\\' => self.character(),
            b'#' => self.hashed(depth),
            b if CLASSES[b as usize] & RUN != 0 => self.atom(),
            _ => self.refused(),
        }
    }

    /// The elements up to a closing bracket, from an opening one of `front` bytes on.
    fn elements(&mut self, front: usize, close: u8, depth: usize) -> Reading<Vec<Value>> {
        if depth == 0 {
            return self.refused();
        }
        self.at += front;
        let mut found = Vec::new();
        loop {
            self.gap(depth - 1)?;
            if self.byte() == Some(close) {
                self.at += 1;
                return Ok(found);
            }
            found.push(self.element(depth - 1)?);
        }
    }

    fn map(&mut self, depth: usize) -> Reading<Value> {
        if depth == 0 {
            return self.refused();
        }
        self.at += 1;
        let mut pairs = Vec::with_capacity(FEW);
        loop {
            self.gap(depth - 1)?;
            if self.byte() == Some(b'}') {
                break;
            }
            let key = self.element(depth - 1)?;
            self.gap(depth - 1)?;
            pairs.push((key, self.element(depth - 1)?));
        }
        if repeats(&pairs, |pair| &pair.0) {
            return self.refused();
        }
        self.at += 1;
        Ok(Value::Map(pairs))
    }

    fn hashed(&mut self, depth: usize) -> Reading<Value> {
        if self.text.as_bytes().get(self.at + 1) == Some(&b'{') {
            let items = self.elements(2, b'}', depth)?;
            return if repeats(&items, |item| item) { self.refused() } else { Ok(Value::Set(items)) };
        }
        let tag = run_at(self.text, self.at + 1);
        if depth == 0 || !tag.starts_with(|c: char| c.is_ascii_alphabetic()) || !is_symbol(tag) {
            return self.refused();
        }
        let tag = tag.to_owned();
        self.at += 1 + tag.len();
        Ok(Value::Tagged(tag, Box::new(self.next(depth - 1)?)))
    }

    fn string(&mut self) -> Reading<String> {
        self.at += 1;
        let mut text = String::new();
        loop {
            let rest = &self.text[self.at..];
            let Some(plain) = rest.bytes().position(|b| b == b'"' || b == b'\\') else {
                return self.refused();
            };
            text.push_str(&rest[..plain]);
            self.at += plain + 1;
            if rest.as_bytes()[plain] == b'"' {
                return Ok(text);
            }
            text.push(match self.byte() {
                Some(b't') => '\t',
                Some(b'r') => '\r',
                Some(b'n') => '\n',
                Some(b'\\') => '\\',
                Some(b'"') => '"',
                Some(b'b') => '\x08',
                Some(b'f') => '\x0c',
                _ => return self.refused(),
            });
            self.at += 1;
        }
    }

    fn character(&mut self) -> Reading<Value> {
        let Some(first) = self.text[self.at + 1..].chars().next() else {
            return self.refused();
        };
        let behind = run_at(self.text, self.at + 1 + first.len_utf8());
        let name = &self.text[self.at + 1..self.at + 1 + first.len_utf8() + behind.len()];
        let named = match name {
            _ if behind.is_empty() => (!matches!(first, ' ' | '\t'..='\r')).then_some(first),
            "newline" => Some('\n'),
            "return" => Some('\r'),
            "space" => Some(' '),
            "tab" => Some('\t'),
            "formfeed" => Some('\x0c'),
            "backspace" => Some('\x08'),
            _ if name.len() == 5 && first == 'u' && behind.bytes().all(|b| b.is_ascii_hexdigit()) => {
                u32::from_str_radix(behind, 16).ok().and_then(char::from_u32)
            }
            _ => None,
        };
        let Some(named) = named else {
            return self.refused();
        };
        self.at += 1 + name.len();
        Ok(Value::Char(named))
    }

    /// A number, a keyword, a symbol, `nil`, `true` or `false`.
    fn atom(&mut self) -> Reading<Value> {
        let run = run_at(self.text, self.at);
        let bytes = run.as_bytes();
        let digits = &bytes[usize::from(matches!(bytes[0], b'+' | b'-'))..];
        let value = if digits.first().is_some_and(u8::is_ascii_digit) {
            let digits = digits.strip_suffix(b"N").unwrap_or(digits);
            if digits.len() > 1 && digits[0] == b'0' {
                return self.refused();
            }
            match run.strip_suffix('N').unwrap_or(run).parse() {
                Ok(number) => Value::Int(number),
                Err(_) => return self.refused(),
            }
        } else if let Some(name) = run.strip_prefix(':').filter(|name| is_name(name)) {
            Value::Keyword(name.to_owned())
        } else {
            match run {
                "nil" => Value::Nil,
                "true" => Value::Bool(true),
                "false" => Value::Bool(false),
                _ if is_symbol(run) => Value::Symbol(run.to_owned()),
                _ => return self.refused(),
            }
        };
        self.at += run.len();
        Ok(value)
    }
}

/// The run that stands at a place.
fn run_at(text: &str, at: usize) -> &str {
    let rest = &text[at..];
    let end = rest.bytes().position(|b| CLASSES[b as usize] & RUN == 0);
    &rest[..end.unwrap_or(rest.len())]
}

fn is_name(name: &str) -> bool {
    let mut slashes = 0;
    for b in name.bytes() {
        if CLASSES[b as usize] & SYMBOL == 0 {
            return false;
        }
        slashes += usize::from(b == b'/');
    }
    !name.is_empty() && slashes < 2 && !name.starts_with([':', '#', '\'', '/']) && !name.ends_with('/')
}

fn is_symbol(name: &str) -> bool {
    let second = name.strip_prefix(['+', '-', '.']).unwrap_or(name);
    name == "/" || is_name(name) && !second.starts_with(|c: char| c.is_ascii_digit())
}

/// Whether two of these have equal keys.
fn repeats<T>(items: &[T], key: impl Fn(&T) -> &Value) -> bool {
    if items.len() <= FEW {
        let mut numbers = [0; FEW];
        for (at, item) in items.iter().enumerate() {
            numbers[at] = number(key(item));
            let before = (0..at).any(|other| numbers[other] == numbers[at] && equal(key(&items[other]), key(item)));
            if before {
                return true;
            }
        }
        return false;
    }
    let mut numbered: Vec<(u64, usize)> = items.iter().enumerate().map(|(at, item)| (number(key(item)), at)).collect();
    numbered.sort_unstable();
    numbered.chunk_by(|one, other| one.0 == other.0).any(|alike| {
        alike.iter().enumerate().any(|(at, one)| {
            alike[..at].iter().any(|other| equal(key(&items[one.1]), key(&items[other.1])))
        })
    })
}

fn mixed(number: u64, more: u64) -> u64 {
    (number ^ more).wrapping_mul(0x9e37_79b9_7f4a_7c15).rotate_left(29)
}

fn text_number(kind: u64, text: &str) -> u64 {
    let chunks = text.as_bytes().chunks(8);
    chunks.fold(mixed(kind, text.len() as u64), |number, chunk| {
        let mut word = [0; 8];
        word[..chunk.len()].copy_from_slice(chunk);
        mixed(number, u64::from_le_bytes(word))
    })
}

/// A number that equal values have alike.
fn number(value: &Value) -> u64 {
    match value {
        Value::Nil => 1,
        Value::Bool(held) => mixed(2, u64::from(*held)),
        Value::Int(held) => mixed(3, *held as u64),
        Value::Char(held) => mixed(4, u64::from(*held)),
        Value::Str(text) => text_number(5, text),
        Value::Keyword(text) => text_number(6, text),
        Value::Symbol(text) => text_number(7, text),
        Value::List(items) | Value::Vector(items) => items.iter().fold(8, |sum, item| mixed(sum, number(item))),
        Value::Map(pairs) => {
            pairs.iter().fold(9, |sum: u64, pair| sum.wrapping_add(mixed(number(&pair.0), number(&pair.1))))
        }
        Value::Set(items) => items.iter().fold(10, |sum: u64, item| sum.wrapping_add(number(item))),
        Value::Tagged(tag, value) => mixed(text_number(11, tag), number(value)),
    }
}

fn equal(one: &Value, other: &Value) -> bool {
    match (one, other) {
        (Value::Nil, Value::Nil) => true,
        (Value::Bool(a), Value::Bool(b)) => a == b,
        (Value::Int(a), Value::Int(b)) => a == b,
        (Value::Char(a), Value::Char(b)) => a == b,
        (Value::Str(a), Value::Str(b)) | (Value::Keyword(a), Value::Keyword(b)) | (Value::Symbol(a), Value::Symbol(b)) => a == b,
        (Value::List(a) | Value::Vector(a), Value::List(b) | Value::Vector(b)) => {
            a.len() == b.len() && a.iter().zip(b).all(|(a, b)| equal(a, b))
        }
        (Value::Map(a), Value::Map(b)) => {
            a.len() == b.len() && a.iter().all(|(k, v)| b.iter().any(|(l, w)| equal(k, l) && equal(v, w)))
        }
        (Value::Set(a), Value::Set(b)) => a.len() == b.len() && a.iter().all(|a| b.iter().any(|b| equal(a, b))),
        (Value::Tagged(s, a), Value::Tagged(t, b)) => s == t && equal(a, b),
        _ => false,
    }
}

/// Hands over each element of a text, as soon as it is read.
pub fn each_value(text: &str, mut take: impl FnMut(Value)) -> Reading<()> {
    let mut reader = Reader { text, at: 0 };
    loop {
        reader.gap(DEPTH_LIMIT)?;
        if reader.at == text.len() {
            return Ok(());
        }
        take(reader.element(DEPTH_LIMIT)?);
    }
}

/// The elements of a text.
pub fn values_of(text: &str) -> Reading<Vec<Value>> {
    let mut values = Vec::new();
    each_value(text, |value| values.push(value))?;
    Ok(values)
}

fn main() -> io::Result<()> {
    let mut bytes = Vec::new();
    io::stdin().lock().read_to_end(&mut bytes)?;
    let Ok(text) = std::str::from_utf8(&bytes) else {
        println!("not UTF-8");
        process::exit(3);
    };
    match values_of(text) {
        Ok(values) => println!("{}", values.len()),
        Err(Refused(at)) => {
            println!("refused at {at}");
            process::exit(3);
        }
    }
    Ok(())
}

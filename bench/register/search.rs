//! A plain search for an order of the operations of a register, which bench/register/plain.rs and bench/checkers/plain.rs share.
//!
//! The science: J. M. Wing and C. Gong, "Testing and Verifying Concurrent Objects" (1993), try the operations that may come
//! next one after another and go back where none can; G. Lowe, "Testing for Linearizability" (2017), keeps each set of
//! linearized operations, with the value it leads to, and goes on from none of them twice. This is their search as Porcupine
//! (A. Athalye, `checkSingle`) has it: a linked list of the calls and returns that are left, a set of bits for the linearized
//! operations, copied whole into each entry of the cache, and a stack to go back by. It prunes nothing of its own. Only its
//! hash is another one: Porcupine's is the exclusive or of the words, which here are mixed in turn, so that fewer are equal.
//!
//! An operation of unknown outcome may take effect at any time after its invocation, or never. Porcupine's users let it return
//! at the end of the history. Here it has a call and no return, and the search is done as soon as every operation that is `ok`
//! is linearized: what is of unknown outcome and is not linearized then never happened. A compare-and-set of unknown outcome
//! is linearized only where it finds its old value; where it does not, it would change nothing.

use std::collections::HashMap;

pub type Value = Option<i64>;

#[derive(Clone, Copy)]
pub enum Call {
    Read(Value),
    Write(i64),
    Cas(i64, i64),
}

/// An operation; it has no end where its outcome is unknown.
#[derive(Clone, Copy)]
pub struct Op {
    pub invoked: usize,
    pub ended: Option<usize>,
    pub call: Call,
}

/// The value behind a call, or nothing where the call can't come at this value.
fn step(value: Value, call: Call) -> Option<Value> {
    match call {
        Call::Read(None) => Some(value),
        Call::Read(seen) => (value == seen).then_some(value),
        Call::Write(new) => Some(Some(new)),
        Call::Cas(old, new) => (value == Some(old)).then_some(Some(new)),
    }
}

/// An entry of the list: the call of an operation, with the place of its return if there is one, or a return.
#[derive(Clone, Copy)]
struct Entry {
    op: usize,
    is_call: bool,
    returns_at: Option<usize>,
    before: usize,
    after: usize,
}

/// The place of the head of the list, which is a ring.
const HEAD: usize = 0;

struct Entries {
    entries: Vec<Entry>,
}

impl Entries {
    /// The calls and returns of all operations, in the order of their places in the history.
    fn new(ops: &[Op]) -> Entries {
        let calls = ops.iter().enumerate().map(|(op, o)| (o.invoked, op, true));
        let returns = ops
            .iter()
            .enumerate()
            .filter_map(|(op, o)| o.ended.map(|end| (end, op, false)));
        let mut events: Vec<(usize, usize, bool)> = calls.chain(returns).collect();
        events.sort_unstable();
        let size = events.len() + 1;
        let link = |place: usize, op, is_call| Entry {
            op,
            is_call,
            returns_at: None,
            before: (place + size - 1) % size,
            after: (place + 1) % size,
        };
        let mut entries = vec![link(HEAD, usize::MAX, false)];
        let mut called_at = vec![HEAD; ops.len()];
        for (_, op, is_call) in events {
            let place = entries.len();
            entries.push(link(place, op, is_call));
            if is_call {
                called_at[op] = place;
            } else {
                entries[called_at[op]].returns_at = Some(place);
            }
        }
        Entries { entries }
    }

    fn first(&self) -> usize {
        self.entries[HEAD].after
    }

    fn take_out(&mut self, place: usize) {
        let Entry { before, after, .. } = self.entries[place];
        self.entries[before].after = after;
        self.entries[after].before = before;
    }

    fn put_back(&mut self, place: usize) {
        let Entry { before, after, .. } = self.entries[place];
        self.entries[before].after = place;
        self.entries[after].before = place;
    }

    /// Takes a call and its return out of the list.
    fn lift(&mut self, call: usize) {
        self.take_out(call);
        if let Some(place) = self.entries[call].returns_at {
            self.take_out(place);
        }
    }

    /// Puts back the call that was lifted last, with its return.
    fn unlift(&mut self, call: usize) {
        if let Some(place) = self.entries[call].returns_at {
            self.put_back(place);
        }
        self.put_back(call);
    }
}

/// The linearized operations.
#[derive(Clone, PartialEq)]
struct Bits(Box<[u64]>);

impl Bits {
    fn flip(&mut self, op: usize) {
        self.0[op / 64] ^= 1 << (op % 64);
    }

    fn hash(&self) -> u64 {
        self.0.iter().fold(0, |hash: u64, word| {
            (hash.rotate_left(23) ^ word).wrapping_mul(0x9E37_79B9_7F4A_7C15)
        })
    }
}

enum Added {
    New,
    Known,
    Full,
}

/// The sets of linearized operations that were reached, each with its value.
struct Cache {
    by_hash: HashMap<u64, Vec<(Bits, Value)>>,
    entries: usize,
    budget: usize,
}

impl Cache {
    fn add(&mut self, linearized: &Bits, value: Value) -> Added {
        let alike = self
            .by_hash
            .entry(linearized.hash())
            .or_insert_with(|| Vec::with_capacity(1));
        if alike
            .iter()
            .any(|(bits, held)| *held == value && bits == linearized)
        {
            return Added::Known;
        }
        if self.entries == self.budget {
            return Added::Full;
        }
        alike.push((linearized.clone(), value));
        self.entries += 1;
        Added::New
    }
}

/// Valid has the places of the operations in the order that was found, which not each program asks for.
#[allow(dead_code)]
pub enum Verdict {
    Valid(Vec<usize>),
    Invalid,
    Unknown,
}

/// Where the search stands: what is linearized, the value behind it, and how many operations are left that have to be.
struct Search<'a> {
    ops: &'a [Op],
    list: Entries,
    linearized: Bits,
    cache: Cache,
    /// the calls that were lifted, each with the value before it
    lifted: Vec<(usize, Value)>,
    value: Value,
    wanted: usize,
}

impl Search<'_> {
    fn new(ops: &[Op], initial: Value, budget: usize) -> Search<'_> {
        Search {
            ops,
            list: Entries::new(ops),
            linearized: Bits(vec![0; ops.len().div_ceil(64)].into_boxed_slice()),
            cache: Cache { by_hash: HashMap::new(), entries: 0, budget },
            lifted: Vec::new(),
            value: initial,
            wanted: ops.iter().filter(|op| op.ended.is_some()).count(),
        }
    }

    fn verdict(&mut self) -> Verdict {
        let mut at = self.list.first();
        // The return of an operation that is wanted stands in the list, so that the end of the list is never reached.
        while self.wanted > 0 {
            let entry = self.list.entries[at];
            if !entry.is_call {
                let Some(next) = self.go_back() else { return Verdict::Invalid };
                at = next;
                continue;
            }
            let Some(next) = step(self.value, self.ops[entry.op].call) else {
                at = entry.after;
                continue;
            };
            self.linearized.flip(entry.op);
            match self.cache.add(&self.linearized, next) {
                Added::Full => return Verdict::Unknown,
                Added::Known => {
                    self.linearized.flip(entry.op);
                    at = entry.after;
                }
                Added::New => at = self.go_on(at, next),
            }
        }
        Verdict::Valid(self.lifted.iter().map(|(call, _)| self.list.entries[*call].op).collect())
    }

    /// Lifts a call behind which the value is this one, and gives the first place of what is left.
    fn go_on(&mut self, call: usize, next: Value) -> usize {
        self.lifted.push((call, self.value));
        self.value = next;
        self.list.lift(call);
        self.wanted -= usize::from(self.list.entries[call].returns_at.is_some());
        self.list.first()
    }

    /// Puts back the call that was lifted last, and gives the place behind it; none where none was lifted.
    fn go_back(&mut self) -> Option<usize> {
        let (call, before) = self.lifted.pop()?;
        let back = self.list.entries[call];
        self.value = before;
        self.linearized.flip(back.op);
        self.list.unlift(call);
        self.wanted += usize::from(back.returns_at.is_some());
        Some(back.after)
    }
}

/// The verdict on operations, and the entries of the cache.
pub fn search(ops: &[Op], initial: Value, budget: usize) -> (Verdict, usize) {
    let mut search = Search::new(ops, initial, budget);
    (search.verdict(), search.cache.entries)
}

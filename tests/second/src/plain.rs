// The plain path map: a count of nodes and a table, fed with calls and nothing of any store.
// It asks the questions in the paper's order and takes one step of the rule.

use crate::image;
use crate::limits::*;
use crate::meaning::take_below;
use crate::path::{apart_or_equal, below, empty_or_well_formed, to_text, well_formed};
use crate::tree::Table;

/// The numbers of the questions.
pub const NO_LENGTHS: u32 = 1;
pub const NO_SOUND: u32 = 2;
pub const NO_PATH: u32 = 3;
pub const NO_VALUE: u32 = 4;
pub const NO_BUFFER: u32 = 5;
pub const NO_NODE: u32 = 6;
pub const NO_APART: u32 = 7;
pub const NO_PRESENT: u32 = 8;
pub const NO_ROOM_IN_PATH: u32 = 9;
pub const NO_ROOM: u32 = 10;

/// A call with its arguments, any buffer as it is before it, and any work area's length. A node
/// number has 64 bits: one cut to fewer might name a node that was not meant.
#[derive(Clone, Debug, PartialEq, Eq)]
#[rustfmt::skip]
pub enum Call {
    Put { path: Vec<u8>, value: Vec<u8>, work: usize },
    Drop { path: Vec<u8>, work: usize },
    Clear { path: Vec<u8>, work: usize },
    Move { from: Vec<u8>, to: Vec<u8>, work: usize },
    Settle { work: usize },
    Tidy { work: usize },
    Flush { node: u64, work: usize },
    Heal { node: u64, work: usize },
    Get { path: Vec<u8>, buffer: Vec<u8> },
    Next { path: Vec<u8>, after: Vec<u8>, buffer: Vec<u8> },
}

impl Call {
    /// The length of the work area, for a call that is lent one.
    pub fn work(&self) -> Option<usize> {
        match self {
            Call::Put { work, .. }
            | Call::Drop { work, .. }
            | Call::Clear { work, .. }
            | Call::Move { work, .. }
            | Call::Settle { work }
            | Call::Tidy { work }
            | Call::Flush { work, .. }
            | Call::Heal { work, .. } => Some(*work),
            Call::Get { .. } | Call::Next { .. } => None,
        }
    }

    /// The buffer as it is before the call; empty for a call without one.
    pub fn buffer(&self) -> &[u8] {
        match self {
            Call::Get { buffer, .. } | Call::Next { buffer, .. } => buffer,
            _ => &[],
        }
    }

    pub fn name(&self) -> &'static str {
        match self {
            Call::Put { .. } => "put",
            Call::Drop { .. } => "drop",
            Call::Clear { .. } => "clear",
            Call::Move { .. } => "move",
            Call::Settle { .. } => "settle",
            Call::Tidy { .. } => "tidy",
            Call::Flush { .. } => "flush",
            Call::Heal { .. } => "heal",
            Call::Get { .. } => "get",
            Call::Next { .. } => "next",
        }
    }

    /// The call in words, for messages.
    pub fn told(&self) -> String {
        let text = |p: &[u8]| String::from_utf8_lossy(&to_text(p)).into_owned();
        let arguments = match self {
            Call::Put { path, value, .. } => format!("{} ({} bytes)", text(path), value.len()),
            Call::Drop { path, .. } | Call::Clear { path, .. } | Call::Get { path, .. } => {
                text(path)
            }
            Call::Move { from, to, .. } => format!("{} to {}", text(from), text(to)),
            Call::Next { path, after, .. } => format!("{} after {}", text(path), text(after)),
            Call::Flush { node, .. } | Call::Heal { node, .. } => node.to_string(),
            Call::Settle { .. } | Call::Tidy { .. } => String::new(),
        };
        format!("{} {arguments}", self.name())
    }

    /// Does the call only read the store?
    pub fn only_reads(&self) -> bool {
        self.work().is_none()
    }

    /// Is a path of it the empty one? Of a next the first is asked: the second is empty often.
    pub fn names_empty_path(&self) -> bool {
        match self {
            Call::Put { path, .. }
            | Call::Drop { path, .. }
            | Call::Clear { path, .. }
            | Call::Get { path, .. }
            | Call::Next { path, .. } => path.is_empty(),
            Call::Move { from, to, .. } => from.is_empty() || to.is_empty(),
            _ => false,
        }
    }

    /// Is it a clear of every path?
    pub fn clears_all(&self) -> bool {
        matches!(self, Call::Clear { path, .. } if path.is_empty())
    }

    /// Is it a put, a drop or a clear?
    pub fn adds_message(&self) -> bool {
        matches!(
            self,
            Call::Put { .. } | Call::Drop { .. } | Call::Clear { .. }
        )
    }
}

/// The number of the question that was a no, or 0; and the number beside it.
#[derive(Clone, Copy, Debug, PartialEq, Eq)]
pub struct Answer {
    pub number: u32,
    pub beside: u32,
}

impl Answer {
    pub const DONE: Answer = Answer {
        number: 0,
        beside: 0,
    };

    pub fn refused(number: u32) -> Answer {
        Answer { number, beside: 0 }
    }

    pub fn accepted(self) -> bool {
        self.number == 0
    }
}

/// An answer with the buffer after the call.
#[derive(Clone, Debug, PartialEq, Eq)]
pub struct Outcome {
    pub answer: Answer,
    pub buffer: Vec<u8>,
}

#[derive(Clone, Debug, PartialEq, Eq)]
pub struct Plain {
    pub n: usize,
    pub table: Table,
}

impl Plain {
    pub fn new(n: usize) -> Plain {
        Plain {
            n,
            table: Table::new(),
        }
    }

    /// One call. A flush or heal gets no answer here: its question looks at nodes.
    pub fn step(&mut self, call: &Call) -> Option<Outcome> {
        let buffer = call.buffer().to_vec();
        if matches!(call, Call::Flush { .. } | Call::Heal { .. }) {
            return None;
        }
        if let Err(number) = self.ask(call) {
            let answer = Answer::refused(number);
            return Some(Outcome { answer, buffer });
        }
        Some(self.act(call, buffer))
    }

    /// The questions that apply, in their order; the first no.
    fn ask(&self, call: &Call) -> Result<(), u32> {
        if let Some(work) = call.work() {
            question(NO_LENGTHS, work >= WORK_PER_NODE * self.n)?;
        }
        match call {
            Call::Put { path, value, .. } => {
                question(NO_PATH, well_formed(path))?;
                question(NO_VALUE, value.len() <= VALUE_LIMIT)?;
                question(NO_ROOM, self.has_room(path))
            }
            Call::Drop { path, .. } => question(NO_PATH, well_formed(path)),
            Call::Clear { path, .. } => question(NO_PATH, empty_or_well_formed(path)),
            Call::Move { from, to, .. } => {
                question(NO_PATH, well_formed(from) && well_formed(to))?;
                question(NO_APART, apart_or_equal(from, to))?;
                question(NO_PRESENT, self.table.keys().any(|p| below(p, from)))?;
                let left = moved(&self.table, from, to);
                question(NO_ROOM_IN_PATH, left.keys().all(|p| well_formed(p)))
            }
            Call::Get { path, buffer } => {
                question(NO_PATH, well_formed(path))?;
                question(NO_BUFFER, buffer.len() >= GET_BUFFER)?;
                question(NO_PRESENT, self.table.contains_key(path))
            }
            Call::Next {
                path,
                after,
                buffer,
            } => {
                let both = [path, after].iter().all(|p| empty_or_well_formed(p));
                question(NO_PATH, both)?;
                question(NO_BUFFER, buffer.len() >= NEXT_BUFFER)?;
                question(NO_PRESENT, next(&self.table, path, after).is_some())
            }
            Call::Settle { .. } | Call::Tidy { .. } | Call::Flush { .. } | Call::Heal { .. } => {
                Ok(())
            }
        }
    }

    fn has_room(&self, path: &[u8]) -> bool {
        self.table.contains_key(path) || self.table.len() < self.n
    }

    fn act(&mut self, call: &Call, mut buffer: Vec<u8>) -> Outcome {
        let mut beside = 0;
        match call {
            Call::Put { path, value, .. } => {
                self.table.insert(path.clone(), value.clone());
            }
            Call::Drop { path, .. } => {
                self.table.remove(path);
            }
            Call::Clear { path, .. } => {
                take_below(&mut self.table, path);
            }
            Call::Move { from, to, .. } => self.table = moved(&self.table, from, to),
            Call::Get { path, .. } => {
                let value = self.table.get(path).map_or(&[][..], |v| v);
                beside = fill(&mut buffer, value);
            }
            Call::Next { path, after, .. } => {
                let found = next(&self.table, path, after).unwrap_or(&[]);
                beside = fill(&mut buffer, found);
            }
            Call::Settle { .. } | Call::Tidy { .. } | Call::Flush { .. } | Call::Heal { .. } => {}
        }
        let answer = Answer { number: 0, beside };
        Outcome { answer, buffer }
    }
}

fn question(number: u32, yes: bool) -> Result<(), u32> {
    if yes {
        Ok(())
    } else {
        Err(number)
    }
}

/// Puts the bytes at the front of the buffer and gives their length.
fn fill(buffer: &mut [u8], bytes: &[u8]) -> u32 {
    if let Some(front) = buffer.get_mut(..bytes.len()) {
        front.copy_from_slice(bytes);
    }
    bytes.len() as u32
}

/// The least path below the first and greater than the second.
pub fn next<'a>(table: &'a Table, path: &[u8], after: &[u8]) -> Option<&'a [u8]> {
    table
        .keys()
        .map(|p| &p[..])
        .find(|p| below(p, path) && *p > after)
}

/// The table that a move leaves.
pub fn moved(table: &Table, from: &[u8], to: &[u8]) -> Table {
    let mut left = table.clone();
    let aside = take_below(&mut left, from);
    take_below(&mut left, to);
    for (path, value) in aside {
        left.insert([to, &path[from.len()..]].concat(), value);
    }
    left
}

/// Two tables are the same when they hold the same paths, whatever the values.
pub fn same(a: &Table, b: &Table) -> bool {
    a.keys().eq(b.keys())
}

/// make's only question, of a store of this length.
pub fn make(length: usize) -> Answer {
    match image::nodes_of(length) {
        Some(_) => Answer::DONE,
        None => Answer::refused(NO_LENGTHS),
    }
}

/// The work area after a call on a store of `n` nodes: what an accepted call leaves.
pub fn work_after(n: usize, answer: Answer, before: &[u8]) -> Vec<u8> {
    let mut after = before.to_vec();
    if answer.accepted() {
        let cleaned = (WORK_PER_NODE * n).min(after.len());
        after[..cleaned].fill(0);
    }
    after
}

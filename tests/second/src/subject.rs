// What is judged: any store with the paper's calls on byte slices. The stores are lent to be
// written even to calls that only read, so that a write where none may be is seen.

use crate::plain::{Answer, Call};

/// The number of the question that was a no, or 0; and the number beside it.
pub type Numbers = (u32, u32);

pub trait Subject {
    /// Which calls the subject has; the others are never made.
    fn capabilities(&self) -> Capabilities;

    fn make(&mut self, store: &mut [u8]) -> Numbers;
    fn get(&mut self, store: &mut [u8], path: &[u8], buffer: &mut [u8]) -> Numbers;
    fn next(&mut self, store: &mut [u8], path: &[u8], after: &[u8], buffer: &mut [u8]) -> Numbers;
    fn same(&mut self, a: &mut [u8], b: &mut [u8]) -> Numbers;
    /// Questions 1 and 2 alone; beside the 0 the number of live paths.
    fn check(&mut self, store: &mut [u8]) -> Numbers;

    fn put(&mut self, _store: &mut [u8], _path: &[u8], _value: &[u8], _work: &mut [u8]) -> Numbers {
        MISSING
    }
    fn drop(&mut self, _store: &mut [u8], _path: &[u8], _work: &mut [u8]) -> Numbers {
        MISSING
    }
    fn clear(&mut self, _store: &mut [u8], _path: &[u8], _work: &mut [u8]) -> Numbers {
        MISSING
    }
    fn move_(&mut self, _store: &mut [u8], _from: &[u8], _to: &[u8], _work: &mut [u8]) -> Numbers {
        MISSING
    }
    fn settle(&mut self, _store: &mut [u8], _work: &mut [u8]) -> Numbers {
        MISSING
    }
    fn tidy(&mut self, _store: &mut [u8], _work: &mut [u8]) -> Numbers {
        MISSING
    }
    fn flush(&mut self, _store: &mut [u8], _node: u64, _work: &mut [u8]) -> Numbers {
        MISSING
    }
    fn heal(&mut self, _store: &mut [u8], _node: u64, _work: &mut [u8]) -> Numbers {
        MISSING
    }
}

/// What a call answers that the subject lacks: no call of the paper answers so.
pub const MISSING: Numbers = (u32::MAX, u32::MAX);

/// The calls that a subject may lack, and the bounds that it may not be held to.
#[derive(Clone, Copy, Debug, PartialEq, Eq)]
pub struct Capabilities {
    pub put: bool,
    pub drop: bool,
    pub clear: bool,
    pub move_: bool,
    pub settle: bool,
    pub tidy: bool,
    pub flush: bool,
    pub heal: bool,
    pub move_bound: bool,
    pub waiting_bound: bool,
}

impl Capabilities {
    pub const ALL: Capabilities = Capabilities {
        put: true,
        drop: true,
        clear: true,
        move_: true,
        settle: true,
        tidy: true,
        flush: true,
        heal: true,
        move_bound: true,
        waiting_bound: true,
    };

    /// make, get, next, same and check only.
    pub const READS: Capabilities = Capabilities {
        put: false,
        drop: false,
        clear: false,
        move_: false,
        settle: false,
        tidy: false,
        flush: false,
        heal: false,
        move_bound: false,
        waiting_bound: false,
    };

    pub fn has(&self, call: &Call) -> bool {
        self.named(call.name())
    }

    /// The same by a call's name; make, get, next, same and check are never lacking.
    pub fn named(&self, name: &str) -> bool {
        match name {
            "put" => self.put,
            "drop" => self.drop,
            "clear" => self.clear,
            "move" => self.move_,
            "settle" => self.settle,
            "tidy" => self.tidy,
            "flush" => self.flush,
            "heal" => self.heal,
            _ => true,
        }
    }
}

/// Makes a call of the subject.
pub fn perform(
    subject: &mut dyn Subject,
    call: &Call,
    store: &mut [u8],
    work: &mut [u8],
    buffer: &mut [u8],
) -> Answer {
    let (number, beside) = match call {
        Call::Get { path, .. } => subject.get(store, path, buffer),
        Call::Next { path, after, .. } => subject.next(store, path, after, buffer),
        Call::Put { path, value, .. } => subject.put(store, path, value, work),
        Call::Drop { path, .. } => subject.drop(store, path, work),
        Call::Clear { path, .. } => subject.clear(store, path, work),
        Call::Move { from, to, .. } => subject.move_(store, from, to, work),
        Call::Settle { .. } => subject.settle(store, work),
        Call::Tidy { .. } => subject.tidy(store, work),
        Call::Flush { node, .. } => subject.flush(store, *node, work),
        Call::Heal { node, .. } => subject.heal(store, *node, work),
    };
    Answer { number, beside }
}

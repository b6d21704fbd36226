// Fills stores to n paths, overwrites them by longer values, clears and refills them, after a clear of everything too: no call refuses but
// by its rule, and the map is right at each milestone.

use crate::Library;
use second::limits::{OLD_VALUE_LIMIT, VALUE_LIMIT};
use second::sound::judge;
use second::subject::Subject;

/// Fills, overwrites, clears and refills a store of n nodes.
pub fn run(n: usize) -> Result<usize, String> {
    let mut filling = Filling {
        store: vec![0xAA; n * 1024],
        work: vec![0x55; n * 128 + 7],
        calls: 0,
    };
    expect(Library.make(&mut filling.store).0, 0, "make")?;
    for round in 0..2u8 {
        filling.fill(n, round)?;
        filling.put(&path(n), &[round], 10)?;
        filling.holds(n, round)?;
        filling.fill(n, round + 10)?;
        filling.holds(n, round + 10)?;
        filling.clear(&closure(0), 0)?;
        filling.holds(n - n.div_ceil(CLOSURES), round + 10)?;
        filling.fill(n, round + 20)?;
        filling.empty(round)?;
        filling.holds(0, 0)?;
    }
    Ok(filling.calls)
}

const CLOSURES: usize = 8;

fn closure(index: usize) -> Vec<u8> {
    format!("r1\0c{index}\0").into_bytes()
}

/// The i-th path: its closure, tray and fibre.
fn path(index: usize) -> Vec<u8> {
    let tail = format!("t{}\0f{index}\0", index / 64);
    [closure(index % CLOSURES), tail.into_bytes()].concat()
}

/// The value of this byte: of the first fill of each round as long as it could be before values became longer, then as it may be now.
fn value(byte: u8) -> Vec<u8> {
    let length = if byte < 10 {
        OLD_VALUE_LIMIT
    } else {
        VALUE_LIMIT
    };
    vec![byte; length]
}

fn expect(answer: u32, number: u32, call: &str) -> Result<(), String> {
    match answer == number {
        true => Ok(()),
        false => Err(format!("{call} answers {answer} and not {number}")),
    }
}

struct Filling {
    store: Vec<u8>,
    work: Vec<u8>,
    calls: usize,
}

impl Filling {
    fn put(&mut self, path: &[u8], value: &[u8], number: u32) -> Result<(), String> {
        self.calls += 1;
        let answer = Library.put(&mut self.store, path, value, &mut self.work).0;
        expect(answer, number, "put")
    }

    fn clear(&mut self, path: &[u8], number: u32) -> Result<(), String> {
        self.calls += 1;
        let answer = Library.clear(&mut self.store, path, &mut self.work).0;
        expect(answer, number, "clear")
    }

    /// Clears everything at once, and in the next round one closure after the other.
    fn empty(&mut self, round: u8) -> Result<(), String> {
        match round {
            0 => self.clear(&[], 0),
            _ => (0..CLOSURES).try_for_each(|c| self.clear(&closure(c), 0)),
        }
    }

    /// Puts the first n paths with this byte.
    fn fill(&mut self, n: usize, byte: u8) -> Result<(), String> {
        (0..n).try_for_each(|index| self.put(&path(index), &value(byte), 0))
    }

    /// The library counts and the second program finds so many paths, all with this byte.
    fn holds(&mut self, count: usize, byte: u8) -> Result<(), String> {
        let counted = Library.check(&mut self.store);
        if counted != (0, count as u32) {
            return Err(format!("check answers {counted:?}, {count} paths expected"));
        }
        let sound = judge(&self.store).map_err(|rule| format!("unsound: {}", rule.name()))?;
        let right = sound.table.values().all(|held| *held == value(byte));
        match sound.table.len() == count && right {
            true => Ok(()),
            false => Err(format!("{} paths, {count} expected", sound.table.len())),
        }
    }
}

// Full stores of the longest rows: right stores are filled to the last path and tidied into at most a quarter of their nodes, and a store that has
// room enough for the shorter values of before alone is found.

use second::lazy::Lazy;
use second::limits::*;
use second::pack;
use second::plain::NO_ROOM;
use second::quarter::{run, Full, Parting, Tried};
use second::reference::{Fault, Reference};
use second::sound::judge;
use second::subject::{Capabilities, Numbers, Subject};

const SEED: u64 = 2026;

fn full(n: usize, value: usize, parting: Parting) -> Full {
    Full { n, value, parting }
}

fn tried(subject: &mut dyn Subject, full: Full) -> Tried {
    let tried = run(subject, SEED, full).unwrap_or_else(|what| panic!("{what}"));
    println!("{full:?}: {} nodes in use after a tidy", tried.used);
    assert!(tried.used > 2 && tried.used <= full.n / 4, "{full:?}");
    tried
}

#[test]
fn right_stores_fit_a_quarter() {
    for parting in Parting::ALL {
        for value in [VALUE_LIMIT, OLD_VALUE_LIMIT] {
            for n in [NODES_LEAST, NODES_LEAST + 3, 64] {
                tried(&mut Reference::default(), full(n, value, parting));
            }
        }
        let most = full(NODES_MOST, VALUE_LIMIT, parting);
        tried(&mut Reference::default(), most);
    }
}

/// The lazy store need not keep the bound and mostly does: there are such moves, and they are counted.
#[test]
fn moves_of_the_longest_rows_are_held_to_the_bound() {
    for parting in Parting::ALL {
        let tried = tried(&mut Lazy::default(), full(300, VALUE_LIMIT, parting));
        let moves = tried.stats.moves.values();
        let (bounded, over) = moves.fold((0, 0), |sum, moves| {
            (sum.0 + moves.bounded, sum.1 + moves.over)
        });
        println!("{parting:?}: {bounded} moves held to the bound, {over} over it");
        assert!(bounded > 10 && 5 * over < bounded, "{parting:?}");
    }
}

#[test]
fn a_tidy_that_cuts_values_is_found() {
    let mut wrong = Reference {
        fault: Some(Fault::TidyCutsValues),
        batch_fault: None,
    };
    assert!(run(&mut wrong, SEED, full(32, VALUE_LIMIT, Parting::First)).is_err());
    assert!(run(&mut wrong, SEED, full(32, OLD_VALUE_LIMIT, Parting::First)).is_ok());
}

/// What was enough for values of 32 bytes and is not for longer ones.
#[derive(Clone, Copy, Debug, PartialEq, Eq)]
enum Short {
    /// A tidy fills two thirds of each leaf: six of the longest old rows, and five of the new ones.
    TidyFillsLess,
    /// A put is refused by 10 where all rows are longer than n of the longest old ones.
    PutCountsBytes,
}

struct Shorter(Short);

impl Shorter {
    fn is_full(&self, store: &[u8], path: &[u8], value: &[u8]) -> bool {
        let others = |(p, _): &(&Vec<u8>, &Vec<u8>)| p[..] != *path;
        let held: usize = judge(store).map_or(0, |sound| {
            let others = sound.table.iter().filter(others);
            others.map(|(p, v)| p.len() + v.len()).sum()
        });
        let most = (store.len() / NODE) * (PATH_LIMIT + OLD_VALUE_LIMIT);
        self.0 == Short::PutCountsBytes && held + path.len() + value.len() > most
    }
}

impl Subject for Shorter {
    fn capabilities(&self) -> Capabilities {
        Capabilities {
            put: true,
            move_: true,
            settle: true,
            tidy: true,
            ..Capabilities::READS
        }
    }
    fn make(&mut self, store: &mut [u8]) -> Numbers {
        Reference::default().make(store)
    }
    fn get(&mut self, store: &mut [u8], path: &[u8], buffer: &mut [u8]) -> Numbers {
        Reference::default().get(store, path, buffer)
    }
    fn next(&mut self, store: &mut [u8], path: &[u8], after: &[u8], to: &mut [u8]) -> Numbers {
        Reference::default().next(store, path, after, to)
    }
    fn same(&mut self, a: &mut [u8], b: &mut [u8]) -> Numbers {
        Reference::default().same(a, b)
    }
    fn check(&mut self, store: &mut [u8]) -> Numbers {
        Reference::default().check(store)
    }
    fn put(&mut self, store: &mut [u8], path: &[u8], value: &[u8], work: &mut [u8]) -> Numbers {
        match self.is_full(store, path, value) {
            true => (NO_ROOM, 0),
            false => Reference::default().put(store, path, value, work),
        }
    }
    fn move_(&mut self, store: &mut [u8], from: &[u8], to: &[u8], work: &mut [u8]) -> Numbers {
        Reference::default().move_(store, from, to, work)
    }
    fn settle(&mut self, store: &mut [u8], work: &mut [u8]) -> Numbers {
        Reference::default().settle(store, work)
    }
    fn tidy(&mut self, store: &mut [u8], work: &mut [u8]) -> Numbers {
        let answer = Reference::default().tidy(store, work);
        if let (Short::TidyFillsLess, Ok(sound)) = (self.0, judge(store)) {
            let most = 2 * ENTRY_BYTES_LIMIT / 3;
            if let Some(image) = pack::image_filled(&sound.table, sound.n, most) {
                store.copy_from_slice(&image);
            }
        }
        answer
    }
}

#[test]
fn what_was_enough_for_shorter_values_is_found() {
    for short in [Short::TidyFillsLess, Short::PutCountsBytes] {
        let least = |value| full(NODES_LEAST, value, Parting::First);
        let before = run(&mut Shorter(short), SEED, least(OLD_VALUE_LIMIT));
        assert!(before.is_ok(), "{short:?}: {:?}", before.err());
        let now = run(&mut Shorter(short), SEED, least(VALUE_LIMIT));
        println!("{short:?}: {:?}", now.as_ref().err());
        assert!(now.is_err(), "{short:?}");
    }
}

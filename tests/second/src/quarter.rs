// Stores as full as they may be: n paths of 64 bytes, each with a value of the same length, put in any order. No put is refused before the
// last path is in; a tidy leaves at most a quarter of the nodes in use; and then moves go about, each after a settle or a tidy, so that the
// bound on changed nodes holds for them. Random lists seldom bring so many bytes together.

use crate::calls::Known;
use crate::limits::*;
use crate::path::beginnings;
use crate::plain::{Call, NO_ROOM};
use crate::rng::Rng;
use crate::script::{tried, Made, Script};
use crate::sound::judge;
use crate::stats::Stats;
use crate::subject::Subject;
use crate::tree::Table;

/// How many moves are made on a store.
const MOVES: usize = 24;
/// How many first components the paths have that part in the second one.
const GROUPS: usize = 7;
/// The lengths of the components of a path of 64 bytes.
const WIDTHS: [usize; 4] = [16, 16, 16, 12];

/// The component in which the paths of a store part: the later, the more of them is lifted.
#[derive(Clone, Copy, Debug, PartialEq, Eq)]
pub enum Parting {
    First,
    Second,
    Last,
}

impl Parting {
    pub const ALL: [Parting; 3] = [Parting::First, Parting::Second, Parting::Last];

    /// The path of this number, 64 bytes long.
    pub fn path(self, index: usize) -> Vec<u8> {
        let number = format!("{index:04}");
        let group = format!("g{}", index % GROUPS);
        let components = match self {
            Parting::First => [&number, "b", "c", "d"],
            Parting::Second => [&group, &number[..], "c", "d"],
            Parting::Last => ["a", "b", "c", &number],
        };
        let mut path = Vec::new();
        for (component, width) in components.iter().zip(WIDTHS) {
            path.extend(wide(component, width));
        }
        path
    }
}

/// The component made as wide as that, with its 00.
fn wide(component: &str, width: usize) -> Vec<u8> {
    format!("{component:x<width$}\0").into_bytes()
}

/// How a store is filled.
#[derive(Clone, Copy, Debug)]
pub struct Full {
    pub n: usize,
    /// The length of every value.
    pub value: usize,
    pub parting: Parting,
}

/// What was tried on one store.
pub struct Tried {
    pub stats: Stats,
    /// The most nodes in use after a tidy, node 0 counted.
    pub used: usize,
}

/// Fills a store, tidies it and moves its paths about. The words of an error name the store.
pub fn run(subject: &mut dyn Subject, seed: u64, full: Full) -> Result<Tried, String> {
    let mut rng = Rng::new(seed ^ full.n as u64);
    let told = |what| format!("{full:?}, seed {seed}: {what}");
    let store = Script::made(subject, full.n).map_err(told)?.store;
    let mut filled = Filled {
        subject,
        rng: &mut rng,
        full,
        store,
        tried: Tried {
            stats: Stats::default(),
            used: 0,
        },
    };
    filled.all().map_err(told)?;
    Ok(filled.tried)
}

struct Filled<'a> {
    subject: &'a mut dyn Subject,
    rng: &'a mut Rng,
    full: Full,
    store: Vec<u8>,
    tried: Tried,
}

type Judged = Result<(), String>;

impl Filled<'_> {
    fn all(&mut self) -> Judged {
        self.fill()?;
        self.one_more()?;
        self.tidy()?;
        for index in 0..MOVES {
            self.settle_or_tidy()?;
            let call = self.a_move(index)?;
            self.accepted(&call)?;
        }
        self.tidy()
    }

    fn work(&self) -> usize {
        WORK_PER_NODE * self.full.n
    }

    /// Puts every path, and looks once at what is left: each put by itself is judged elsewhere.
    fn fill(&mut self) -> Judged {
        let n = self.full.n;
        let mut order: Vec<usize> = (0..n).collect();
        self.rng.shuffle(&mut order);
        let (mut rows, mut work) = (Table::new(), vec![0; self.work()]);
        for (count, index) in order.into_iter().enumerate() {
            let (path, value) = (
                self.full.parting.path(index),
                self.rng.bytes(self.full.value),
            );
            let store = &mut self.store;
            let (number, _) = self.subject.put(store, &path, &value, &mut work);
            if number != 0 {
                return Err(format!("put {count} of {n} answers {number}"));
            }
            rows.insert(path, value);
        }
        match judge(&self.store) {
            Ok(sound) if sound.table == rows => Ok(()),
            Ok(_) => Err("it does not hold what was put".into()),
            Err(rule) => Err(format!("it is unsound: {}", rule.name())),
        }
    }

    /// One path more is refused, and a present one is overwritten.
    fn one_more(&mut self) -> Judged {
        for (index, number) in [(self.full.n, NO_ROOM), (0, 0)] {
            let put = Call::Put {
                path: self.full.parting.path(index),
                value: self.rng.bytes(self.full.value),
                work: self.work(),
            };
            let answer = self.call(&put)?.map_or(number, |made| made.answer.number);
            if answer != number {
                return Err(format!("{} answers {answer}", put.told()));
            }
        }
        Ok(())
    }

    fn tidy(&mut self) -> Judged {
        let work = self.work();
        self.accepted(&Call::Tidy { work })
    }

    fn settle_or_tidy(&mut self) -> Judged {
        let work = self.work();
        match self.rng.chance(1, 3) {
            true => self.tidy(),
            false => self.accepted(&Call::Settle { work }),
        }
    }

    /// A move of a present path or a beginning of it to a name of the same length that no path has: the paths stay as many and as long.
    fn a_move(&mut self, index: usize) -> Result<Call, String> {
        let known = Known::of(&self.store);
        let path = self.rng.pick(&known.paths).ok_or("it holds nothing")?;
        let all: Vec<&[u8]> = beginnings(path).collect();
        let at = self.rng.below(all.len());
        let above = match at {
            0 => &[][..],
            _ => all[at - 1],
        };
        // In front of the paths, between them and behind them.
        let letter = *self.rng.pick(b"!5m~").unwrap_or(&b'm') as char;
        let name = wide(&format!("{letter}-{index}"), WIDTHS[at]);
        Ok(Call::Move {
            from: all[at].to_vec(),
            to: [above, &name].concat(),
            work: self.work(),
        })
    }

    fn accepted(&mut self, call: &Call) -> Judged {
        let Some(made) = self.call(call)? else {
            return Ok(());
        };
        if let (Call::Tidy { .. }, Some(facts)) = (call, made.facts) {
            self.tried.used = self.tried.used.max(facts.used_after + 1);
        }
        match made.answer.number {
            0 => Ok(()),
            number => Err(format!("{} answers {number}", call.told())),
        }
    }

    /// Makes one call and judges it; a call that the subject lacks is left out.
    fn call(&mut self, call: &Call) -> Result<Option<Made>, String> {
        let stats = &mut self.tried.stats;
        tried(self.subject, self.rng, &mut self.store, call, stats)
    }
}

#[cfg(test)]
mod tests {
    use super::*;
    use crate::pack;
    use crate::path::well_formed;
    use std::collections::BTreeSet;

    #[test]
    fn the_paths_are_as_many_and_as_long_as_they_may_be() {
        for parting in Parting::ALL {
            let paths: BTreeSet<Vec<u8>> = (0..=NODES_MOST).map(|i| parting.path(i)).collect();
            assert_eq!(paths.len(), NODES_MOST + 1);
            let right = |path: &Vec<u8>| path.len() == PATH_LIMIT && well_formed(path);
            assert!(paths.iter().all(right), "{parting:?}");
        }
    }

    /// Packed, as a tidy may pack it, every store that is full of the longest rows needs at most a quarter of its nodes.
    #[test]
    fn the_longest_rows_fit_a_quarter_of_every_store() {
        for n in NODES_LEAST..=NODES_MOST {
            let row = |i| (Parting::First.path(i), vec![7; VALUE_LIMIT]);
            let table: Table = (0..n).map(row).collect();
            assert!(pack::image(&table, n / 4).is_some(), "{n} nodes");
        }
    }

    /// Rows of other lengths may leave more of each leaf empty.
    #[test]
    fn rows_of_any_length_fit_a_quarter_of_the_least_store() {
        let mut rng = Rng::new(6);
        for round in 0..2000 {
            let mut row = |i| {
                let length = rng.between(0, VALUE_LIMIT);
                (Parting::First.path(i), vec![7; length])
            };
            let table: Table = (0..NODES_LEAST).map(&mut row).collect();
            let image = pack::image(&table, NODES_LEAST / 4);
            assert!(image.is_some(), "round {round}");
        }
    }
}

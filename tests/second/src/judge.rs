// Drives a subject with random lists of calls, on made stores, on generated images and on
// damaged ones, and judges every single call by the contract.

use crate::calls::{self, Known};
use crate::contract;
use crate::feature::Feature;
use crate::generate;
use crate::limits::*;
use crate::mutate;
use crate::pack;
use crate::plain::{Answer, Call, Plain};
use crate::rng::Rng;
use crate::script::tried;
use crate::sound::judge;
use crate::stats::Stats;
use crate::subject::Subject;
use crate::words;

/// The most calls of a list on a made store, on a generated image and on a damaged one.
const MADE_CALLS: usize = 120;
const IMAGE_CALLS: usize = 16;
const DAMAGED_CALLS: usize = 6;

/// Judges the subject on this many lists of calls. The words of an error name the case, which
/// `run_case` repeats alone.
pub fn run(subject: &mut dyn Subject, seed: u64, cases: usize) -> Result<Stats, String> {
    let mut stats = Stats::default();
    for case in 0..cases as u64 {
        run_case(subject, seed, case, &mut stats)?;
    }
    Ok(stats)
}

pub fn run_case(
    subject: &mut dyn Subject,
    seed: u64,
    case: u64,
    stats: &mut Stats,
) -> Result<(), String> {
    let mut rng = Rng::new(seed ^ case.wrapping_mul(0xD134_2543_DE82_EF95));
    let mut session = Session {
        subject,
        stats,
        rng: &mut rng,
        plain: None,
    };
    let judged = session.play();
    judged.map_err(|what| format!("seed {seed}, case {case}: {what}"))
}

struct Session<'a> {
    subject: &'a mut dyn Subject,
    stats: &'a mut Stats,
    rng: &'a mut Rng,
    /// The plain map of a store that was made here: fed the calls and nothing of the store.
    plain: Option<Plain>,
}

type Judged = Result<(), String>;

/// A store to begin with, and how many calls it is good for.
struct Start {
    store: Vec<u8>,
    calls: usize,
    /// Go back to it now and then: a subject may pack what it is given, and the odd image
    /// would be met by the first call only.
    returns: bool,
}

impl Start {
    fn new(store: Vec<u8>, calls: usize, returns: bool) -> Start {
        Start {
            store,
            calls,
            returns,
        }
    }
}

impl Session<'_> {
    fn play(&mut self) -> Judged {
        let start = self.start()?;
        let mut store = start.store.clone();
        for index in 0..self.rng.between(0, start.calls) {
            if start.returns && self.rng.chance(1, 2) {
                store.copy_from_slice(&start.store);
            }
            self.one(&mut store, start.returns)
                .map_err(|what| format!("call {index}: {what}"))?;
        }
        Ok(())
    }

    fn start(&mut self) -> Result<Start, String> {
        let image = match self.rng.below(16) {
            0..=4 => return Ok(Start::new(self.made()?, MADE_CALLS, false)),
            5..=7 => generate::random(self.rng.word()),
            _ => {
                let feature = Feature::ALL[self.rng.below(Feature::ALL.len())];
                generate::preset(feature, self.rng.word())
            }
        };
        Ok(match self.rng.below(8) {
            0 => Start::new(self.damaged(&image), DAMAGED_CALLS, false),
            1 => Start::new(mutate::flip(&image, self.rng.word()), DAMAGED_CALLS, true),
            2 => Start::new(self.wreck(), DAMAGED_CALLS, false),
            _ => Start::new(image, IMAGE_CALLS, true),
        })
    }

    fn made(&mut self) -> Result<Vec<u8>, String> {
        let n = match self.rng.below(12) {
            0 => self.rng.between(NODES_LEAST, NODES_MOST),
            1..=4 => self.rng.between(NODES_LEAST, 70),
            _ => NODES_LEAST,
        };
        let mut store = self.rng.bytes(n * NODE);
        self.make(&mut store)?;
        self.plain = Some(Plain::new(n));
        if n < 70 && self.rng.chance(1, 3) {
            self.fill(&mut store, n)?;
        }
        Ok(store)
    }

    /// Puts about as many paths as the store takes, so that the last question is met.
    fn fill(&mut self, store: &mut [u8], n: usize) -> Judged {
        for _ in 0..n + 2 {
            let put = Call::Put {
                path: words::path(self.rng),
                value: words::value(self.rng),
                work: WORK_PER_NODE * n,
            };
            self.call(store, &put)?;
        }
        Ok(())
    }

    fn damaged(&mut self, image: &[u8]) -> Vec<u8> {
        let rule = mutate::any_rule(self.rng);
        let damaged = mutate::damage(rule, image, self.rng.word());
        damaged.unwrap_or_else(|| mutate::flip(image, self.rng.word()))
    }

    /// Bytes of a length that may be no store's.
    fn wreck(&mut self) -> Vec<u8> {
        let length = match self.rng.below(6) {
            0 => self.rng.below(3),
            1 => (NODES_LEAST - 1) * NODE,
            2 => (NODES_MOST + 1) * NODE,
            3 => NODES_LEAST * NODE,
            _ => NODES_LEAST * NODE + self.rng.between(1, NODE - 1),
        };
        self.rng.bytes(length)
    }

    fn make(&mut self, store: &mut [u8]) -> Judged {
        let before = store.to_vec();
        let (number, beside) = self.subject.make(store);
        let answer = Answer { number, beside };
        self.stats.count("make", answer);
        contract::check_make(&before, answer, store)
    }

    /// One call of any kind; on an odd image, which comes back, upkeep and calls of everything more often.
    fn one(&mut self, store: &mut [u8], odd: bool) -> Judged {
        match self.rng.below(40) {
            0 => {
                let mut other = self.wreck();
                self.make(&mut other)
            }
            1 | 2 => self.same(store),
            _ => {
                let known = Known::of(store);
                let call = match self.rng.below(12) {
                    0..=3 if odd => calls::upkeep(self.rng, &known),
                    4 if odd => calls::whole(self.rng, &known),
                    _ => calls::random(self.rng, &known),
                };
                self.call(store, &call)?;
                self.after_wipe(store, &call, &known)
            }
        }
    }

    /// Straight after a clear of everything, a next near what there was before it.
    fn after_wipe(&mut self, store: &mut [u8], call: &Call, before: &Known) -> Judged {
        if !call.clears_all() {
            return Ok(());
        }
        let next = calls::random_next(self.rng, before);
        self.call(store, &next)
    }

    /// Makes one call and judges it; a call that the subject lacks is left out.
    fn call(&mut self, store: &mut [u8], call: &Call) -> Judged {
        let Some(made) = tried(self.subject, self.rng, store, call, self.stats)? else {
            return Ok(());
        };
        self.as_plain(call, made.answer, &made.buffer)
            .map_err(|what| format!("{}: {what}", call.told()))
    }

    /// The whole list so far answers as the plain map does.
    fn as_plain(&mut self, call: &Call, answer: Answer, buffer: &[u8]) -> Judged {
        let expected = self.plain.as_mut().and_then(|plain| plain.step(call));
        match expected {
            Some(expected) if expected.answer != answer || expected.buffer != buffer => {
                Err(format!("{answer:?}, the plain map says {expected:?}"))
            }
            _ => Ok(()),
        }
    }

    fn same(&mut self, store: &mut [u8]) -> Judged {
        let mut other = self.other(store);
        let before = (store.to_vec(), other.clone());
        let swapped = self.rng.chance(1, 2);
        let (number, beside) = match swapped {
            true => self.subject.same(&mut other, store),
            false => self.subject.same(store, &mut other),
        };
        let answer = Answer { number, beside };
        self.stats.count("same", answer);
        contract::check_same((&before.0, store), (&before.1, &other), answer)
    }

    /// A store to compare with: the same map in another form, one path or value more or less,
    /// or something else.
    fn other(&mut self, store: &[u8]) -> Vec<u8> {
        let Ok(sound) = judge(store) else {
            return generate::random(self.rng.word());
        };
        let mut table = sound.table;
        match self.rng.below(6) {
            0 => return generate::random(self.rng.word()),
            1 => return self.wreck(),
            2 => return self.damaged(store),
            3 => drop(table.pop_first()),
            4 => table.values_mut().for_each(|value| value.clear()),
            _ => {}
        }
        let n = self.rng.between(table.len(), table.len() + 9);
        pack::image(&table, n.clamp(NODES_LEAST, NODES_MOST)).unwrap_or_default()
    }
}

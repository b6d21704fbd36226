// Drives a subject through the grid: in every corner an image, on it a move of every kind, flushes
// and heals, a clear of everything, and a few calls on what each move has left. Every call is judged
// by the contract.

use crate::calls::{self, Known};
use crate::corner::{mergeable, Corner};
use crate::cuts::{self, Hard};
use crate::limits::{LEVELS_MOST, NODE, WORK_PER_NODE};
use crate::moves::Kind;
use crate::mutate;
use crate::plain::{Answer, Call};
use crate::rng::Rng;
use crate::script::{tried, witnessed};
use crate::sound::judge;
use crate::stats::Stats;
use crate::subject::Subject;
use crate::whole::Unit;

/// How often a kind of move may fail to find a place in an image.
const ATTEMPTS: usize = 12;
/// The most calls on what a move has left.
const LATER: usize = 3;
/// How many flushes and heals an image gets.
const UPKEEP: usize = 8;

/// Judges the subject in every corner, this many times over, and on the images that are hard to
/// cut. The words of an error name the image.
pub fn run(subject: &mut dyn Subject, seed: u64, rounds: usize) -> Result<Stats, String> {
    let mut stats = Stats::default();
    for levels in 1..=LEVELS_MOST {
        for hard in [cuts::apart(levels), cuts::full(levels)].iter().flatten() {
            hard_moves(subject, &mut stats, hard)
                .map_err(|what| format!("hard to cut, {levels} levels: {what}"))?;
        }
    }
    for round in 0..rounds as u64 {
        for (index, corner) in Corner::all().into_iter().enumerate() {
            let case = round.wrapping_mul(1000) + index as u64;
            let mut rng = Rng::new(seed ^ case.wrapping_mul(0xD134_2543_DE82_EF95));
            let mut visit = Visit {
                subject,
                stats: &mut stats,
                image: corner.image(rng.word()),
                rng: &mut rng,
            };
            visit
                .all()
                .map_err(|what| format!("seed {seed}, round {round}, {corner:?}: {what}"))?;
        }
    }
    Ok(stats)
}

/// Both ways, and on to a third place.
fn hard_moves(subject: &mut dyn Subject, stats: &mut Stats, hard: &Hard) -> Judged {
    let [low, high] = &hard.ranges;
    let third = b"x\0".to_vec();
    for (from, to) in [(low, high), (high, low), (low, &third), (high, &third)] {
        let work = vec![0; WORK_PER_NODE * (hard.image.len() / NODE)];
        let call = Call::Move {
            from: from.clone(),
            to: to.clone(),
            work: work.len(),
        };
        if subject.capabilities().has(&call) {
            let made = witnessed(subject, &mut hard.image.clone(), &call, &work)?;
            stats.count_made(&call, &made);
        }
    }
    Ok(())
}

/// One image of a corner, in the hands of the subject.
struct Visit<'a> {
    subject: &'a mut dyn Subject,
    stats: &'a mut Stats,
    rng: &'a mut Rng,
    image: Vec<u8>,
}

type Judged = Result<(), String>;

impl Visit<'_> {
    fn all(&mut self) -> Judged {
        let known = Known::of(&self.image);
        for kind in Kind::ALL {
            self.aimed(*kind, &known)
                .map_err(|what| format!("{}: {what}", kind.name()))?;
        }
        let mergeable = judge(&self.image).map_or(Vec::new(), |sound| mergeable(&sound));
        for index in 0..UPKEEP {
            self.upkeep(index, &known, &mergeable)?;
        }
        self.wiped()?;
        self.damaged(&known)
    }

    /// A move of this kind, if the image offers one, and then some calls on the store that it
    /// leaves: a subject's own layout is met there.
    fn aimed(&mut self, kind: Kind, known: &Known) -> Judged {
        let Some(call) = (0..ATTEMPTS).find_map(|_| kind.aim(self.rng, known)) else {
            return Ok(());
        };
        let mut store = self.image.clone();
        let Some(answer) = self.call(&mut store, &call)? else {
            return Ok(());
        };
        self.stats.count_kind(kind, answer);
        if answer.accepted() {
            for _ in 0..self.rng.between(0, LATER) {
                self.later(&mut store)?;
            }
        }
        Ok(())
    }

    fn later(&mut self, store: &mut [u8]) -> Judged {
        let known = Known::of(store);
        let call = match self.rng.below(4) {
            0 => calls::random(self.rng, &known),
            1 => calls::upkeep(self.rng, &known),
            _ => {
                let kind = *self.rng.pick(Kind::ALL).unwrap_or(&Kind::Away);
                let aimed = kind.aim(self.rng, &known);
                aimed.unwrap_or_else(|| calls::random(self.rng, &known))
            }
        };
        self.call(store, &call).map(|_| ())
    }

    /// One of four on the image as it was: a flush where messages wait, a heal of any interior
    /// node, a heal that has something to merge, a number that no node has.
    fn upkeep(&mut self, index: usize, known: &Known, mergeable: &[u16]) -> Judged {
        let any = calls::interior(self.rng, known);
        let large = calls::large(self.rng, known);
        let mut or_any = |nodes: &[u16]| self.rng.pick(nodes).map_or(any, |i| u64::from(*i));
        let (waits, merges) = (or_any(&known.waiting), or_any(mergeable));
        let work = WORK_PER_NODE * known.n;
        let call = match (index % 4, self.rng.chance(1, 2)) {
            (0, _) => Call::Flush { node: waits, work },
            (1, _) => Call::Heal { node: any, work },
            (2, _) => Call::Heal { node: merges, work },
            (_, true) => Call::Flush { node: large, work },
            (_, false) => Call::Heal { node: large, work },
        };
        let mut store = self.image.clone();
        self.call(&mut store, &call).map(|_| ())
    }

    fn wiped(&mut self) -> Judged {
        let mut unit = Unit {
            subject: self.subject,
            stats: self.stats,
            rng: self.rng,
        };
        unit.try_on(&self.image)
    }

    /// A move, a heal and a clear of everything, of an image with one rule broken.
    fn damaged(&mut self, known: &Known) -> Judged {
        let rule = mutate::any_rule(self.rng);
        let damaged = mutate::damage(rule, &self.image, self.rng.word());
        let mut store = damaged.unwrap_or_else(|| mutate::flip(&self.image, self.rng.word()));
        if let Some(call) = Kind::Away.aim(self.rng, known) {
            self.call(&mut store, &call)?;
        }
        let work = WORK_PER_NODE * known.n;
        let node = calls::interior(self.rng, known);
        self.call(&mut store, &Call::Heal { node, work })?;
        self.call(&mut store, &calls::clear_all(work)).map(|_| ())
    }

    /// Makes one call and judges it; a call that the subject lacks is left out.
    fn call(&mut self, store: &mut [u8], call: &Call) -> Result<Option<Answer>, String> {
        let made = tried(self.subject, self.rng, store, call, self.stats)?;
        Ok(made.map(|made| made.answer))
    }
}

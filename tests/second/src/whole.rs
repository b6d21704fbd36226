// Clears of everything, on an image of every feature and on any other: as it is, full, and just after a move. Before it, steps of a
// listing of everything; after it, what is left is looked through in vain, filled again and moved about.

use crate::calls::{clear_all, Known};
use crate::contract::outcome_on;
use crate::feature::Feature;
use crate::generate;
use crate::limits::*;
use crate::moves::Kind;
use crate::plain::{Answer, Call, NO_PRESENT};
use crate::rng::Rng;
use crate::script::tried;
use crate::sound::{judge, Sound};
use crate::stats::Stats;
use crate::subject::{perform, Subject};
use crate::words;

/// How many steps of a listing of everything are made, and how many nexts on what a clear has left.
const STEPS: usize = 4;
/// How often a move may fail to find a place in an image.
const ATTEMPTS: usize = 12;

/// Judges the subject on an image of every feature, this many times over. The words of an error name the image.
pub fn run(subject: &mut dyn Subject, seed: u64, rounds: usize) -> Result<Stats, String> {
    let mut stats = Stats::default();
    for round in 0..rounds as u64 {
        let mut rng = Rng::new(seed ^ round.wrapping_mul(0xD134_2543_DE82_EF95));
        for feature in Feature::ALL {
            let image = generate::preset(*feature, rng.word());
            let mut unit = Unit {
                subject,
                stats: &mut stats,
                rng: &mut rng,
            };
            unit.try_on(&image).map_err(|what| {
                format!("seed {seed}, round {round}, {}: {what}", feature.name())
            })?;
        }
    }
    Ok(stats)
}

/// A subject in whose hands units are wiped.
pub struct Unit<'a> {
    pub subject: &'a mut dyn Subject,
    pub stats: &'a mut Stats,
    pub rng: &'a mut Rng,
}

type Judged = Result<(), String>;

fn judged(store: &[u8]) -> Result<Sound, String> {
    judge(store).map_err(|rule| format!("unsound: {}", rule.name()))
}

impl Unit<'_> {
    /// Clears a sound image as it is; then fills what is left, begins again in it, or clears the image once more just after a move.
    pub fn try_on(&mut self, image: &[u8]) -> Judged {
        let sound = judged(image)?;
        let (mut store, known) = (image.to_vec(), Known::of_sound(&sound));
        self.list_some(&mut store, &sound)?;
        self.wipe(&mut store, &known)?;
        match self.rng.below(3) {
            0 if known.n == NODES_LEAST => {
                self.fill(&mut store, known.n)?;
                self.wipe(&mut store, &known)
            }
            0 | 1 => self.begin_again(&mut store, known.n),
            _ => {
                store.copy_from_slice(image);
                self.move_away(&mut store, &known)?;
                self.wipe(&mut store, &known)
            }
        }
    }

    fn move_away(&mut self, store: &mut [u8], known: &Known) -> Judged {
        let aimed = (0..ATTEMPTS).find_map(|_| Kind::Away.aim(self.rng, known));
        aimed.map_or(Ok(()), |call| self.call(store, &call).map(|_| ()))
    }

    /// The first step of a listing of everything, and some later ones.
    fn list_some(&mut self, store: &mut [u8], sound: &Sound) -> Judged {
        let paths: Vec<Vec<u8>> = sound.table.keys().cloned().collect();
        let mut places = vec![Vec::new()];
        places.extend(paths.last().cloned());
        places.extend((1..STEPS).filter_map(|_| self.rng.pick(&paths).cloned()));
        for after in places {
            let next = self.next(Vec::new(), after);
            self.nothing_changes(store, sound, &next)?;
        }
        Ok(())
    }

    /// A clear of everything. Straight after it no next finds anything, and no move finds what it is to carry.
    fn wipe(&mut self, store: &mut [u8], before: &Known) -> Judged {
        let work = WORK_PER_NODE * before.n + self.rng.below(3);
        let Some(Answer::DONE) = self.call(store, &clear_all(work))? else {
            return Ok(());
        };
        let wiped = judged(store)?;
        let mut calls = vec![self.next(Vec::new(), Vec::new())];
        for _ in 1..STEPS {
            let (path, after) = (self.any_path(before), self.any_path(before));
            calls.push(self.next(path, after));
        }
        let from = words::near(self.rng, &before.paths);
        // A component that no random path has.
        let to = b"~\0".to_vec();
        calls.push(Call::Move { from, to, work });
        for call in &calls {
            let answer = self.nothing_changes(store, &wiped, call)?;
            if answer != Answer::refused(NO_PRESENT) {
                let told = call.told();
                return Err(format!("{told} after a clear of everything: {answer:?}"));
            }
        }
        Ok(())
    }

    /// Two paths, and a move of both.
    fn begin_again(&mut self, store: &mut [u8], n: usize) -> Judged {
        let work = WORK_PER_NODE * n;
        let put = |text: &[u8]| Call::Put {
            path: text.to_vec(),
            value: vec![7],
            work,
        };
        let (from, to) = (b"r1\0".to_vec(), b"r2\0".to_vec());
        let calls = [
            put(b"r1\0a\0"),
            put(b"r1\0b\0"),
            Call::Move { from, to, work },
            self.next(Vec::new(), b"r1\0".to_vec()),
        ];
        calls
            .iter()
            .try_for_each(|call| self.call(store, call).map(|_| ()))
    }

    /// As many paths as the store takes, and one more, which it refuses.
    fn fill(&mut self, store: &mut [u8], n: usize) -> Judged {
        for i in 0..=n {
            let put = Call::Put {
                path: format!("r{}\0p{i}\0", i % 3).into_bytes(),
                value: words::value(self.rng),
                work: WORK_PER_NODE * n,
            };
            self.call(store, &put)?;
        }
        Ok(())
    }

    /// A next whose buffer is long enough.
    fn next(&mut self, path: Vec<u8>, after: Vec<u8>) -> Call {
        let length = NEXT_BUFFER + self.rng.below(3) * self.rng.below(200);
        let buffer = self.rng.bytes(length);
        Call::Next {
            path,
            after,
            buffer,
        }
    }

    /// The empty path, one near what there was, or any other.
    fn any_path(&mut self, before: &Known) -> Vec<u8> {
        match self.rng.below(4) {
            0 => Vec::new(),
            1 => words::path(self.rng),
            _ => words::near(self.rng, &before.paths),
        }
    }

    /// Makes a call that must leave a sound store and its work area as they are, and compares what it answers and finds with the plain map's.
    fn nothing_changes(
        &mut self,
        store: &mut [u8],
        sound: &Sound,
        call: &Call,
    ) -> Result<Answer, String> {
        let expected = outcome_on(sound, call);
        if !self.subject.capabilities().has(call) {
            return Ok(expected.answer);
        }
        let (before, work) = (store.to_vec(), self.rng.bytes(call.work().unwrap_or(0)));
        let (mut work_after, mut buffer) = (work.clone(), call.buffer().to_vec());
        let answer = perform(self.subject, call, store, &mut work_after, &mut buffer);
        self.stats.count(call.name(), answer);
        if (answer, &buffer) != (expected.answer, &expected.buffer) {
            let told = call.told();
            return Err(format!(
                "{told}: {answer:?}, the plain map says {expected:?}"
            ));
        }
        match *store == before && work_after == work {
            true => Ok(answer),
            false => Err(format!("{}: bytes changed", call.told())),
        }
    }

    /// Makes one call and judges it; a call that the subject lacks is left out.
    fn call(&mut self, store: &mut [u8], call: &Call) -> Result<Option<Answer>, String> {
        let made = tried(self.subject, self.rng, store, call, self.stats)?;
        Ok(made.map(|made| made.answer))
    }
}

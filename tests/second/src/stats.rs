// What a run has tried: how many calls got each answer, with values and buffers of which lengths,
// and in which corners moves and heals were accepted and what they did there. A run that leaves
// something untried can tell what.

use crate::contract::{bound_changed, Facts};
use crate::corner::{Corner, Room};
use crate::limits::*;
use crate::moves::Kind;
use crate::plain::{Answer, Call, NO_BUFFER, NO_VALUE};
use crate::script::Made;
use crate::subject::Capabilities;
use std::collections::BTreeMap;
use std::ops::AddAssign;

/// Accepted moves; those onto themselves, which change nothing, are not counted.
#[derive(Clone, Copy, Debug, Default)]
pub struct Moves {
    pub accepted: usize,
    /// How many were in a store that holds them to the bound; how many of these broke it; the
    /// most nodes that one of them changed, and how many they changed in all.
    pub bounded: usize,
    pub over: usize,
    pub worst: usize,
    pub changed: usize,
}

impl Moves {
    fn one(facts: &Facts) -> Moves {
        let changed = facts.bound.map_or(0, |_| facts.changed);
        Moves {
            accepted: 1,
            bounded: facts.bound.is_some().into(),
            over: facts.bound.is_some_and(|most| changed > most).into(),
            worst: changed,
            changed,
        }
    }

    pub fn mean(&self) -> usize {
        self.changed.checked_div(self.bounded).unwrap_or(0)
    }
}

impl AddAssign for Moves {
    fn add_assign(&mut self, more: Moves) {
        self.accepted += more.accepted;
        self.bounded += more.bounded;
        self.over += more.over;
        self.worst = self.worst.max(more.worst);
        self.changed += more.changed;
    }
}

/// Accepted heals, and those that merged something: fewer nodes were in use after them.
#[derive(Clone, Copy, Debug, Default)]
pub struct Heals {
    pub accepted: usize,
    pub merged: usize,
}

impl Heals {
    fn one(facts: &Facts) -> Heals {
        Heals {
            accepted: 1,
            merged: (facts.used_after < facts.used_before).into(),
        }
    }
}

impl AddAssign for Heals {
    fn add_assign(&mut self, more: Heals) {
        self.accepted += more.accepted;
        self.merged += more.merged;
    }
}

/// Accepted flushes, and those of a node that messages waited in.
#[derive(Clone, Copy, Debug, Default)]
pub struct Flushes {
    pub accepted: usize,
    pub waited: usize,
}

impl Flushes {
    fn one(facts: &Facts) -> Flushes {
        Flushes {
            accepted: 1,
            waited: facts.waited.into(),
        }
    }
}

impl AddAssign for Flushes {
    fn add_assign(&mut self, more: Flushes) {
        self.accepted += more.accepted;
        self.waited += more.waited;
    }
}

#[derive(Clone, Debug, Default)]
pub struct Stats {
    pub calls: usize,
    pub answers: Counts,
    /// Those of them that name the empty path.
    pub empty: Counts,
    /// Puts of a value, and gets into a buffer, of a length that tells which limit the subject has.
    pub lengths: BTreeMap<(&'static str, usize, u32), usize>,
    /// The aimed moves of each kind.
    pub kinds: BTreeMap<(Kind, u32), usize>,
    pub moves: BTreeMap<Corner, Moves>,
    pub heals: BTreeMap<Corner, Heals>,
    pub flushes: BTreeMap<Corner, Flushes>,
    /// Accepted clears of the empty path.
    pub wipes: BTreeMap<Corner, usize>,
    /// Flushes and heals of a number of more than 32 bits.
    pub large: usize,
}

impl Stats {
    pub fn count(&mut self, name: &'static str, answer: Answer) {
        self.calls += 1;
        *self.answers.entry((name, answer.number)).or_default() += 1;
    }

    /// A call, and the check before it.
    pub fn count_made(&mut self, call: &Call, made: &Made) {
        self.count("check", made.checked);
        self.count(call.name(), made.answer);
        if call.names_empty_path() {
            let counted = (call.name(), made.answer.number);
            *self.empty.entry(counted).or_default() += 1;
        }
        if let Some(length) = telling_length(call) {
            let counted = (call.name(), length, made.answer.number);
            *self.lengths.entry(counted).or_default() += 1;
        }
        if let Call::Flush { node, .. } | Call::Heal { node, .. } = call {
            self.large += usize::from(*node > u64::from(u32::MAX));
        }
        match (call, made.facts.as_ref()) {
            (Call::Move { .. }, Some(facts)) => {
                *self.moves.entry(facts.corner).or_default() += Moves::one(facts);
            }
            (Call::Heal { .. }, Some(facts)) => {
                *self.heals.entry(facts.corner).or_default() += Heals::one(facts);
            }
            (Call::Flush { .. }, Some(facts)) => {
                *self.flushes.entry(facts.corner).or_default() += Flushes::one(facts);
            }
            (call, Some(facts)) if call.clears_all() => {
                *self.wipes.entry(facts.corner).or_default() += 1;
            }
            _ => {}
        }
    }

    pub fn count_kind(&mut self, kind: Kind, answer: Answer) {
        *self.kinds.entry((kind, answer.number)).or_default() += 1;
    }

    /// The moves at these levels in the corners that are wanted, as one.
    pub fn moves_at(&self, levels: u16, wanted: impl Fn(&Corner) -> bool) -> Moves {
        gathered(&self.moves, levels, wanted)
    }

    pub fn heals_at(&self, levels: u16, wanted: impl Fn(&Corner) -> bool) -> Heals {
        gathered(&self.heals, levels, wanted)
    }

    /// All that a whole run of a subject with these calls has to try and did not, in words.
    pub fn missing(&self, capabilities: Capabilities) -> Vec<String> {
        let mut missing = unmet(ANSWERS, &self.answers, capabilities, "");
        let of_empty = unmet(
            EMPTY_ANSWERS,
            &self.empty,
            capabilities,
            " of the empty path",
        );
        missing.extend(of_empty);
        missing.extend(self.missing_lengths(capabilities));
        if capabilities.clear {
            missing.extend(self.missing_wipes());
        }
        if capabilities.move_ {
            missing.extend(self.missing_moves());
        }
        if capabilities.heal {
            missing.extend(self.missing_heals());
        }
        if capabilities.flush {
            missing.extend(self.missing_flushes());
        }
        missing
    }

    fn missing_lengths(&self, capabilities: Capabilities) -> Vec<String> {
        let unmet = length_answers().filter(|(name, length, number)| {
            capabilities.named(name) && !self.lengths.contains_key(&(*name, *length, *number))
        });
        unmet
            .map(|(name, length, number)| {
                format!("{name} with {length} bytes never answered {number}")
            })
            .collect()
    }

    fn missing_moves(&self) -> Vec<String> {
        let unmet = |kind: &&Kind| !self.kinds.contains_key(&(**kind, kind.answer()));
        let kinds = Kind::ALL.iter().filter(unmet);
        let kinds = kinds.map(|kind| format!("no move {} was made", kind.name()));
        let corners = Corner::all().into_iter();
        let corners = corners.filter(|corner| !self.moves.contains_key(corner));
        kinds
            .chain(corners.map(|corner| format!("no move was accepted in {corner:?}")))
            .collect()
    }

    fn missing_heals(&self) -> Vec<String> {
        let merged = |corner: &Corner| self.heals.get(corner).is_some_and(|h| h.merged > 0);
        let corners = Corner::all().into_iter();
        let corners = corners.filter(|corner| corner.levels > LEAF_LEVEL && !merged(corner));
        let large = (self.large == 0).then(|| "no number of over 32 bits was healed".to_string());
        corners
            .map(|corner| format!("no heal merged anything in {corner:?}"))
            .chain(large)
            .collect()
    }

    fn missing_flushes(&self) -> Vec<String> {
        let waited = |corner: &Corner| self.flushes.get(corner).is_some_and(|f| f.waited > 0);
        let corners = Corner::all().into_iter();
        let corners = corners.filter(|corner| !corner.settled && !waited(corner));
        corners
            .map(|corner| format!("no message was flushed in {corner:?}"))
            .collect()
    }

    fn missing_wipes(&self) -> Vec<String> {
        let corners = Corner::all().into_iter();
        let corners = corners.filter(|corner| !self.wipes.contains_key(corner));
        corners
            .map(|corner| format!("no clear of everything was accepted in {corner:?}"))
            .collect()
    }

    /// The counts by answer, and those of moves, heals and flushes by levels.
    pub fn table(&self) -> String {
        let mut lines = vec![format!("{} calls, by answer:", self.calls)];
        lines.extend(counted(ANSWERS, &self.answers));
        lines.push("calls with an empty path, by answer:".into());
        lines.extend(counted(EMPTY_ANSWERS, &self.empty));
        lines.push("puts by the value's length and gets by the buffer's, by answer:".into());
        lines.extend(["put", "get"].map(|name| self.length_line(name)));
        lines.push("moves, by what they aimed at, by answer:".into());
        for ((kind, number), count) in &self.kinds {
            lines.push(format!("  {:<22}{number}: {count}", kind.name()));
        }
        let large = self.large;
        lines.push(format!("flushes and heals of over 32 bits: {large}"));
        lines.extend(self.rows());
        lines.join("\n")
    }

    /// How many calls of this name were made with each telling length and answered as they should.
    fn length_line(&self, name: &str) -> String {
        let of_name = length_answers().filter(|(other, ..)| *other == name);
        let counts = of_name.map(|counted| {
            let count = self.lengths.get(&counted).unwrap_or(&0);
            format!("{} bytes {}: {count}", counted.1, counted.2)
        });
        format!("  {name:<7}{}", counts.collect::<Vec<_>>().join("  "))
    }

    fn rows(&self) -> Vec<String> {
        let accepted = |name: &str, wanted: fn(&Corner) -> bool| {
            row(name, |levels| self.moves_at(levels, wanted).accepted)
        };
        let moves = |name: &str, count: fn(Moves) -> usize| {
            row(name, |levels| count(self.moves_at(levels, |_| true)))
        };
        let heals = |name: &str, count: fn(Heals) -> usize| {
            row(name, |levels| count(self.heals_at(levels, |_| true)))
        };
        let flushes = |name: &str, count: fn(Flushes) -> usize| {
            let all = |levels| gathered(&self.flushes, levels, |_| true);
            row(name, |levels| count(all(levels)))
        };
        vec![
            row("levels L", usize::from),
            accepted("moves accepted", |_| true),
            accepted("  settled", |corner| corner.settled),
            accepted("  messages wait", |corner| !corner.settled),
            accepted("  at most 3 free", |corner| corner.room == Room::Few),
            accepted("  12 L + 8 free", |corner| corner.room == Room::Just),
            accepted("  a pivot of 65 bytes", |corner| corner.wide),
            moves("  held to 16 L + 8", |moves| moves.bounded),
            moves("  over it", |moves| moves.over),
            moves("nodes changed, worst", |moves| moves.worst),
            moves("nodes changed, mean", |moves| moves.mean()),
            row("  10 L + 2", |levels| 10 * usize::from(levels) + 2),
            row("  16 L + 8", bound_changed),
            heals("heals accepted", |heals| heals.accepted),
            heals("  that merged", |heals| heals.merged),
            flushes("flushes accepted", |flushes| flushes.accepted),
            flushes("  of messages", |flushes| flushes.waited),
            row("clears of everything", |levels| {
                gathered(&self.wipes, levels, |_| true)
            }),
        ]
    }
}

impl AddAssign<&Stats> for Stats {
    fn add_assign(&mut self, more: &Stats) {
        self.calls += more.calls;
        self.large += more.large;
        add_all(&mut self.answers, &more.answers);
        add_all(&mut self.empty, &more.empty);
        add_all(&mut self.lengths, &more.lengths);
        add_all(&mut self.kinds, &more.kinds);
        add_all(&mut self.moves, &more.moves);
        add_all(&mut self.heals, &more.heals);
        add_all(&mut self.flushes, &more.flushes);
        add_all(&mut self.wipes, &more.wipes);
    }
}

fn add_all<K: Ord + Copy, V: AddAssign + Default + Copy>(
    counts: &mut BTreeMap<K, V>,
    more: &BTreeMap<K, V>,
) {
    for (key, count) in more {
        *counts.entry(*key).or_default() += *count;
    }
}

fn gathered<V: AddAssign + Default + Copy>(
    counts: &BTreeMap<Corner, V>,
    levels: u16,
    wanted: impl Fn(&Corner) -> bool,
) -> V {
    let mut sum = V::default();
    let wanted = |(corner, _): &(&Corner, &V)| corner.levels == levels && wanted(corner);
    counts
        .iter()
        .filter(wanted)
        .for_each(|(_, count)| sum += *count);
    sum
}

fn row(name: &str, count: impl Fn(u16) -> usize) -> String {
    let counts = (1..=LEVELS_MOST).map(|levels| format!("{:>7}", count(levels)));
    format!("{name:<24}{}", counts.collect::<String>())
}

/// The length of a put's value or of a get's buffer, where it tells which limit the subject has.
fn telling_length(call: &Call) -> Option<usize> {
    let length = match call {
        Call::Put { value, .. } => value.len(),
        Call::Get { buffer, .. } => buffer.len(),
        _ => return None,
    };
    TELLING_LENGTHS.contains(&length).then_some(length)
}

/// What a put and a get of each such length answer where nothing else is wrong.
fn length_answers() -> impl Iterator<Item = (&'static str, usize, u32)> {
    let put = |length: usize| if length <= VALUE_LIMIT { 0 } else { NO_VALUE };
    let get = |length: usize| if length < GET_BUFFER { NO_BUFFER } else { 0 };
    let puts = TELLING_LENGTHS.map(|length| ("put", length, put(length)));
    let gets = TELLING_LENGTHS.map(|length| ("get", length, get(length)));
    puts.into_iter().chain(gets)
}

/// How many calls of a name got each answer.
pub type Counts = BTreeMap<(&'static str, u32), usize>;
/// Names of calls, each with answers that it can give.
pub type Answers = &'static [(&'static str, &'static [u32])];

/// The answers that no such call gave, of the calls that a subject has.
fn unmet(answers: Answers, counts: &Counts, has: Capabilities, of: &str) -> Vec<String> {
    let mut unmet = Vec::new();
    for (name, numbers) in answers.iter().filter(|(name, _)| has.named(name)) {
        let never = numbers
            .iter()
            .filter(|number| !counts.contains_key(&(*name, **number)));
        unmet.extend(never.map(|number| format!("{name}{of} never answered {number}")));
    }
    unmet
}

/// The counts in words, a line for each call.
fn counted(answers: Answers, counts: &Counts) -> Vec<String> {
    let line = |(name, numbers): &(&'static str, &[u32])| {
        let count = |number: u32| counts.get(&(*name, number)).unwrap_or(&0);
        let counts = numbers.iter().map(|n| format!("{n}: {}", count(*n)));
        format!("  {name:<7}{}", counts.collect::<Vec<_>>().join("  "))
    };
    answers.iter().map(line).collect()
}

/// The answers that each call can give.
pub const ANSWERS: Answers = &[
    ("make", &[0, 1]),
    ("get", &[0, 1, 2, 3, 5, 8]),
    ("next", &[0, 1, 2, 3, 5, 8]),
    ("same", &[0, 1, 2]),
    ("check", &[0, 1, 2]),
    ("put", &[0, 1, 2, 3, 4, 10]),
    ("drop", &[0, 1, 2, 3]),
    ("clear", &[0, 1, 2, 3]),
    ("move", &[0, 1, 2, 3, 7, 8, 9]),
    ("settle", &[0, 1, 2]),
    ("tidy", &[0, 1, 2]),
    ("flush", &[0, 1, 2, 6]),
    ("heal", &[0, 1, 2, 6]),
];

/// The same of those with an empty path: clear and next take it, the others refuse it by 3. A next with an empty first path is refused so
/// for its second one.
pub const EMPTY_ANSWERS: Answers = &[
    ("get", &[1, 2, 3]),
    ("next", &[0, 1, 2, 3, 5, 8]),
    ("put", &[1, 2, 3]),
    ("drop", &[1, 2, 3]),
    ("clear", &[0, 1, 2]),
    ("move", &[1, 2, 3]),
];

// Random calls with arguments of every kind: right ones near what the store holds, and wrong
// ones of every question.

use crate::image;
use crate::limits::*;
use crate::moves::Kind;
use crate::plain::Call;
use crate::rng::Rng;
use crate::sound::{judge, Sound};
use crate::words;

/// What a caller may know of a store, to make calls that hit.
pub struct Known {
    pub n: usize,
    pub paths: Vec<Vec<u8>>,
    pub nodes: Vec<u16>,
    pub interior: Vec<u16>,
    /// The interior nodes that hold messages.
    pub waiting: Vec<u16>,
}

impl Known {
    pub fn of(store: &[u8]) -> Known {
        match judge(store) {
            Ok(sound) => Known::of_sound(&sound),
            Err(_) => Known {
                n: image::nodes_of(store.len()).unwrap_or(NODES_LEAST),
                paths: Vec::new(),
                nodes: vec![1],
                interior: vec![1],
                waiting: vec![1],
            },
        }
    }

    pub fn of_sound(sound: &Sound) -> Known {
        let walk = sound.tree.walk();
        let interior = walk.iter().filter(|v| v.node.is_interior());
        let waiting = walk.iter().filter(|v| !v.node.messages().is_empty());
        Known {
            n: sound.n,
            paths: sound.table.keys().cloned().collect(),
            nodes: sound.used.clone(),
            interior: interior.map(|v| v.node.number).collect(),
            waiting: waiting.map(|v| v.node.number).collect(),
        }
    }
}

pub fn random(rng: &mut Rng, known: &Known) -> Call {
    let work = work(rng, known.n);
    match rng.below(24) {
        0..=6 => Call::Put {
            path: path(rng, known),
            value: value(rng),
            work,
        },
        7 | 8 => Call::Drop {
            path: path(rng, known),
            work,
        },
        9 => Call::Clear {
            path: path(rng, known),
            work,
        },
        10..=12 => random_move(rng, known, work),
        13 => Call::Settle { work },
        14 => Call::Tidy { work },
        15 | 16 => Call::Flush {
            node: node(rng, known),
            work,
        },
        17 | 18 => Call::Heal {
            node: node(rng, known),
            work,
        },
        19..=21 => Call::Get {
            path: path(rng, known),
            buffer: get_buffer(rng),
        },
        _ => random_next(rng, known),
    }
}

/// A call of everything: a clear of the empty path, or a next with an empty first one.
pub fn whole(rng: &mut Rng, known: &Known) -> Call {
    match rng.chance(1, 2) {
        true => clear_all(work(rng, known.n)),
        false => next(rng, known, Vec::new()),
    }
}

/// A clear of the empty path.
pub fn clear_all(work: usize) -> Call {
    let path = Vec::new();
    Call::Clear { path, work }
}

/// A call that moves messages or nodes about: a flush where messages wait, a heal, a settle.
pub fn upkeep(rng: &mut Rng, known: &Known) -> Call {
    let work = work(rng, known.n);
    let number = |chosen: Option<&u16>| chosen.map_or(1, |number| u64::from(*number));
    match rng.below(8) {
        0 => Call::Settle { work },
        1..=4 => Call::Flush {
            node: number(rng.pick(&known.waiting)),
            work,
        },
        _ => Call::Heal {
            node: number(rng.pick(&known.interior)),
            work,
        },
    }
}

/// Aimed half the time: a random pair of paths is mostly one of an absent path.
fn random_move(rng: &mut Rng, known: &Known, work: usize) -> Call {
    let kind = rng.pick(Kind::ALL).filter(|_| rng.chance(1, 2));
    if let Some(call) = kind.and_then(|kind| kind.aim(rng, known)) {
        return call;
    }
    let from = path(rng, known);
    let to = match rng.below(8) {
        0 => from.clone(),
        1 => [&from[..], b"x\0"].concat(),
        2 => words::longest(rng),
        _ => path(rng, known),
    };
    Call::Move { from, to, work }
}

pub fn random_next(rng: &mut Rng, known: &Known) -> Call {
    let top = match rng.chance(1, 4) {
        true => Vec::new(),
        false => path(rng, known),
    };
    next(rng, known, top)
}

fn next(rng: &mut Rng, known: &Known, path: Vec<u8>) -> Call {
    let after = match rng.below(3) {
        0 => Vec::new(),
        1 => rng.pick(&known.paths).cloned().unwrap_or_default(),
        _ => self::path(rng, known),
    };
    Call::Next {
        path,
        after,
        buffer: buffer(rng, NEXT_BUFFER),
    }
}

/// The empty path is seldom: a clear of it leaves nothing for later calls to meet.
pub fn path(rng: &mut Rng, known: &Known) -> Vec<u8> {
    match rng.below(32) {
        0 | 1 if rng.chance(1, 8) => words::overlong(rng),
        0 | 1 => words::malformed(rng),
        2 => Vec::new(),
        3..=17 => words::near(rng, &known.paths),
        _ => words::path(rng),
    }
}

fn value(rng: &mut Rng) -> Vec<u8> {
    match rng.below(20) {
        0 => {
            let length = match rng.chance(1, 4) {
                true => words::TWO_BYTES + rng.below(VALUE_LIMIT + 1),
                false => words::too_long(rng),
            };
            rng.bytes(length)
        }
        _ => words::value(rng),
    }
}

/// A get's buffer: sometimes one that was long enough while values were shorter.
fn get_buffer(rng: &mut Rng) -> Vec<u8> {
    let length = match rng.below(16) {
        0 => rng.between(OLD_VALUE_LIMIT, GET_BUFFER - 1),
        1 | 2 => words::telling_length(rng),
        _ => return buffer(rng, GET_BUFFER),
    };
    rng.bytes(length)
}

/// A buffer that is long enough, mostly.
fn buffer(rng: &mut Rng, enough: usize) -> Vec<u8> {
    let length = match rng.below(16) {
        0 => enough - 1,
        1 => rng.below(enough),
        2 => words::TWO_BYTES + rng.below(enough),
        3..=8 => enough,
        _ => enough + rng.below(40),
    };
    rng.bytes(length)
}

/// A length of a work area that is long enough, mostly.
fn work(rng: &mut Rng, n: usize) -> usize {
    let enough = WORK_PER_NODE * n;
    match rng.below(24) {
        0 => enough - 1,
        1 => rng.below(enough),
        2..=14 => enough,
        _ => enough + rng.below(200),
    }
}

fn node(rng: &mut Rng, known: &Known) -> u64 {
    match rng.below(12) {
        0 => 0,
        1 => known.n as u64,
        2 => rng.word(),
        3 | 4 => large(rng, known),
        5 => rng.pick(&known.nodes).copied().unwrap_or(1).into(),
        6 => rng.below(known.n) as u64,
        _ => interior(rng, known),
    }
}

/// The number of an interior node, if there is one.
pub fn interior(rng: &mut Rng, known: &Known) -> u64 {
    rng.pick(&known.interior).copied().unwrap_or(1).into()
}

/// A number that no node has, and whose low 16 or 32 bits are an interior node's: a subject that
/// cuts it takes it for that node's.
pub fn large(rng: &mut Rng, known: &Known) -> u64 {
    let above = match rng.below(5) {
        0 => 1 << 16,
        1 => 1 << 32,
        2 => 1 << 63,
        3 => !0xFFFF_FFFF,
        _ => (rng.word() | 1) << 32,
    };
    above + interior(rng, known)
}

#[cfg(test)]
mod tests {
    use super::*;
    use crate::generate;
    use std::collections::BTreeMap;

    /// Every call that takes a path names the empty one, clear seldom and next often.
    #[test]
    fn the_empty_path_has_its_share() {
        let known = Known::of(&generate::random(3));
        let mut rng = Rng::new(8);
        let (mut made, mut empty) = (BTreeMap::new(), BTreeMap::new());
        for _ in 0..60_000 {
            let call = random(&mut rng, &known);
            *made.entry(call.name()).or_insert(0) += 1;
            *empty.entry(call.name()).or_insert(0) += usize::from(call.names_empty_path());
        }
        let percent = |name: &str| 100 * empty[name] / made[name];
        for name in ["put", "drop", "clear", "get"] {
            assert!((2..=5).contains(&percent(name)), "{name}: {empty:?}");
        }
        assert!((3..=12).contains(&percent("move")), "{empty:?}");
        assert!((20..=35).contains(&percent("next")), "{empty:?}");
    }

    #[test]
    fn calls_of_everything_are_clears_and_nexts() {
        let known = Known::of(&generate::random(3));
        let mut rng = Rng::new(9);
        let calls: Vec<Call> = (0..100).map(|_| whole(&mut rng, &known)).collect();
        assert!(calls.iter().all(Call::names_empty_path));
        let clears = calls.iter().filter(|call| call.clears_all()).count();
        assert!((30..=70).contains(&clears), "{clears}");
    }
}

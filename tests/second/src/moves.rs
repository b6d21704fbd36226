// Moves aimed at one image: each kind is a way in which from and to can lie to each other, to the
// map and to the limits of a path. The contract judges the answer; the kind only aims.

use crate::calls::Known;
use crate::limits::*;
use crate::path::{apart_or_equal, beginnings, well_formed};
use crate::plain::Call;
use crate::rng::Rng;
use crate::words;

macro_rules! kinds {
    ($($kind:ident $name:literal $number:literal),* $(,)?) => {
        #[derive(Clone, Copy, Debug, PartialEq, Eq, PartialOrd, Ord)]
        pub enum Kind { $($kind),* }

        impl Kind {
            pub const ALL: &'static [Kind] = &[$(Kind::$kind),*];

            pub fn name(self) -> &'static str {
                match self { $(Kind::$kind => $name),* }
            }

            /// What such a move answers on a sound image.
            pub fn answer(self) -> u32 {
                match self { $(Kind::$kind => $number),* }
            }
        }
    };
}

kinds! {
    Away "away" 0,
    Onto "onto rows" 0,
    Adjacent "adjacent" 0,
    Itself "onto itself" 0,
    Longest "to 64 bytes" 0,
    Deepest "to 8 components" 0,
    ShortWork "short work area" 1,
    BadFrom "malformed from" 3,
    BadTo "malformed to" 3,
    Empty "an empty path" 3,
    Under "under itself" 7,
    Over "over itself" 7,
    Absent "absent" 8,
    AbsentItself "absent, onto itself" 8,
    TooLong "to 65 bytes" 9,
    TooDeep "to 9 components" 9,
}

impl Kind {
    /// A move of this kind; none where the map offers none at this attempt.
    pub fn aim(self, rng: &mut Rng, known: &Known) -> Option<Call> {
        let enough = WORK_PER_NODE * known.n;
        let (from, to) = self.paths(rng, known)?;
        let work = match self {
            Kind::ShortWork => enough - 1,
            _ => enough + rng.below(3),
        };
        Some(Call::Move { from, to, work })
    }

    fn paths(self, rng: &mut Rng, known: &Known) -> Option<(Vec<u8>, Vec<u8>)> {
        let from = present(rng, known)?;
        match self {
            Kind::Away | Kind::ShortWork => fitting(known, from, away(rng, known)),
            Kind::Onto => fitting(known, from, present(rng, known)?),
            Kind::Adjacent => {
                let to = namesake(rng, &from)?;
                fitting(known, from, to)
            }
            Kind::Itself => Some((from.clone(), from)),
            Kind::BadFrom => Some((words::malformed(rng), from)),
            Kind::BadTo => Some((from, words::malformed(rng))),
            Kind::Empty => Some(match rng.below(3) {
                0 => (Vec::new(), from),
                1 => (from, Vec::new()),
                _ => (Vec::new(), Vec::new()),
            }),
            Kind::Under => under(rng, known, from),
            Kind::Over => over(rng, from),
            Kind::Absent => apart(absent(rng, known)?, from),
            Kind::AbsentItself => absent(rng, known).map(|path| (path.clone(), path)),
            Kind::Longest => to_length(rng, known, from, PATH_LIMIT),
            Kind::TooLong => to_length(rng, known, from, PATH_LIMIT + 1),
            Kind::Deepest => to_depth(rng, known, from, COMPONENTS),
            Kind::TooDeep => to_depth(rng, known, from, COMPONENTS + 1),
        }
    }
}

/// A present path or a beginning of one; the shorter, the more it carries.
fn present(rng: &mut Rng, known: &Known) -> Option<Vec<u8>> {
    let path = rng.pick(&known.paths)?;
    let all: Vec<&[u8]> = beginnings(path).collect();
    rng.pick(&all).map(|top| top.to_vec())
}

/// A well-formed path below which nothing is present.
fn absent(rng: &mut Rng, known: &Known) -> Option<Vec<u8>> {
    let path = words::near(rng, &known.paths);
    let name = [&path[..path.len() - 1], b"_\0"].concat();
    let nothing = !known.paths.iter().any(|p| p.starts_with(&name));
    (well_formed(&name) && nothing).then_some(name)
}

/// The two paths, if neither begins the other.
fn apart(from: Vec<u8>, to: Vec<u8>) -> Option<(Vec<u8>, Vec<u8>)> {
    (from != to && apart_or_equal(&from, &to)).then_some((from, to))
}

/// What a move carries: the longest and the deepest of the rests below from.
struct Tail {
    length: usize,
    depth: usize,
}

fn tail(known: &Known, from: &[u8]) -> Tail {
    let rests = || known.paths.iter().filter_map(|p| p.strip_prefix(from));
    Tail {
        length: rests().map(<[u8]>::len).max().unwrap_or(0),
        depth: rests().map(depth).max().unwrap_or(0),
    }
}

impl Tail {
    /// Does every path stay well formed below this one?
    fn fits(&self, to: &[u8]) -> bool {
        to.len() + self.length <= PATH_LIMIT && depth(to) + self.depth <= COMPONENTS
    }
}

fn depth(path: &[u8]) -> usize {
    path.iter().filter(|byte| **byte == 0).count()
}

/// The two paths, if they are apart and the second may take what is below the first.
fn fitting(known: &Known, from: Vec<u8>, to: Vec<u8>) -> Option<(Vec<u8>, Vec<u8>)> {
    let fits = tail(known, &from).fits(&to);
    apart(from, to).filter(|_| fits)
}

fn away(rng: &mut Rng, known: &Known) -> Vec<u8> {
    match rng.below(3) {
        0 => words::short(rng),
        1 => words::sized(rng, 2),
        _ => words::near(rng, &known.paths),
    }
}

/// The path with one byte more or less at the end of its last component, as r1 and r10.
fn namesake(rng: &mut Rng, path: &[u8]) -> Option<Vec<u8>> {
    let name = &path[..path.len() - 1];
    let namesake = match rng.below(3) {
        0 => [&name[..name.len() - 1], b"\0"].concat(),
        1 => [name, b"!\0"].concat(),
        _ => [name, b"0\0"].concat(),
    };
    well_formed(&namesake).then_some(namesake)
}

/// To a place below itself, a present one if there is any.
fn under(rng: &mut Rng, known: &Known, from: Vec<u8>) -> Option<(Vec<u8>, Vec<u8>)> {
    let inside = |p: &&Vec<u8>| p.len() > from.len() && p.starts_with(&from);
    let below: Vec<&Vec<u8>> = known.paths.iter().filter(inside).collect();
    let new = [&from[..], b"x\0"].concat();
    let to = rng.pick(&below).map_or(new, |p| p.to_vec());
    well_formed(&to).then_some((from, to))
}

/// To a proper beginning of itself.
fn over(rng: &mut Rng, from: Vec<u8>) -> Option<(Vec<u8>, Vec<u8>)> {
    let all: Vec<&[u8]> = beginnings(&from).collect();
    let to = rng.pick(&all[..all.len() - 1])?.to_vec();
    Some((from, to))
}

/// To a place where the longest path that is carried gets this length, and none gets too deep.
fn to_length(
    rng: &mut Rng,
    known: &Known,
    from: Vec<u8>,
    length: usize,
) -> Option<(Vec<u8>, Vec<u8>)> {
    let carried = tail(known, &from);
    let wanted = length.checked_sub(carried.length)?;
    if !(2..=PATH_LIMIT).contains(&wanted) {
        return None;
    }
    let to = words::sized(rng, wanted);
    let shallow = depth(&to) + carried.depth <= COMPONENTS;
    apart(from, to).filter(|_| shallow)
}

/// To a place where the deepest path that is carried gets so many components, and none gets too
/// long.
fn to_depth(
    rng: &mut Rng,
    known: &Known,
    from: Vec<u8>,
    components: usize,
) -> Option<(Vec<u8>, Vec<u8>)> {
    let carried = tail(known, &from);
    let wanted = components.checked_sub(carried.depth)?;
    if !(1..=COMPONENTS).contains(&wanted) {
        return None;
    }
    let to = words::of_depth(rng, wanted);
    let short = to.len() + carried.length <= PATH_LIMIT;
    apart(from, to).filter(|_| short)
}

#[cfg(test)]
mod tests {
    use super::*;
    use crate::feature::Feature;
    use crate::generate;
    use crate::plain::Plain;
    use crate::sound::judge;

    /// Each kind is met on an image with many paths, and answers as it says.
    #[test]
    fn kinds_hit_what_they_aim_at() {
        let mut rng = Rng::new(3);
        for kind in Kind::ALL {
            let mut met = 0;
            for seed in 0..8 {
                let image = generate::preset(Feature::DeepPath, seed);
                let sound = judge(&image).expect("it is sound");
                let known = Known::of(&image);
                for call in (0..20).filter_map(|_| kind.aim(&mut rng, &known)) {
                    let mut plain = Plain {
                        n: sound.n,
                        table: sound.table.clone(),
                    };
                    let outcome = plain.step(&call).expect("a move is answered");
                    assert_eq!(outcome.answer.number, kind.answer(), "{call:?}");
                    met += 1;
                }
            }
            assert!(met > 0, "{} is met", kind.name());
        }
    }
}

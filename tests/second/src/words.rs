// Random paths, values and other byte strings for generated images and calls.
// Few distinct components are used, so that paths meet, begin one another and collide often.

use crate::limits::*;
use crate::path::beginnings;
use crate::rng::Rng;

const COMPONENTS_USED: [&[u8]; 7] = [b"r1", b"a", b"r10", b"b", b"c7", b"!", b"~~"];
const WIDE: [&[u8; COMPONENT_LIMIT]; 3] = [
    b"aaaaaaaaaaaaaaaa",
    b"aaaaaaaaaaaaaaab",
    b"r1r1r1r1r1r1r1r1",
];

/// One more than a byte counts, and one more than two bytes do.
pub const ONE_BYTE: usize = 1 << 8;
pub const TWO_BYTES: usize = 1 << 16;

fn joined(components: &[&[u8]]) -> Vec<u8> {
    let mut path = Vec::new();
    for component in components {
        path.extend_from_slice(component);
        path.push(0);
    }
    path
}

/// A short path over few components.
pub fn short(rng: &mut Rng) -> Vec<u8> {
    let count = rng.between(1, 4);
    let components: Vec<&[u8]> = (0..count)
        .map(|_| COMPONENTS_USED[rng.below(COMPONENTS_USED.len())])
        .collect();
    joined(&components)
}

/// A path of exactly 64 bytes with components of exactly 16.
pub fn longest(rng: &mut Rng) -> Vec<u8> {
    let wide = |rng: &mut Rng| &WIDE[rng.below(WIDE.len())][..];
    let last = &wide(rng)[..12];
    joined(&[wide(rng), wide(rng), wide(rng), last])
}

/// A path of eight components.
pub fn deepest(rng: &mut Rng) -> Vec<u8> {
    let components: Vec<&[u8]> = (0..COMPONENTS)
        .map(|_| COMPONENTS_USED[rng.below(3)])
        .collect();
    joined(&components)
}

/// A path with a component of sixteen bytes somewhere.
pub fn wide(rng: &mut Rng) -> Vec<u8> {
    let first = COMPONENTS_USED[rng.below(COMPONENTS_USED.len())];
    joined(&[first, WIDE[rng.below(WIDE.len())]])
}

/// A path of exactly this length, 2 to 64, with as few components as that allows.
pub fn sized(rng: &mut Rng, length: usize) -> Vec<u8> {
    let count = length.div_ceil(COMPONENT_LIMIT + 1);
    let mut path = Vec::new();
    for i in 0..count {
        // Shared out evenly: no component is left without a byte.
        let width = (length - path.len()) / (count - i) - 1;
        let letter = *rng.pick(b"aqrz").unwrap_or(&b'q');
        path.extend(vec![letter; width]);
        path.push(0);
    }
    path
}

/// A path of so many components of one byte each.
pub fn of_depth(rng: &mut Rng, count: usize) -> Vec<u8> {
    let components: Vec<&[u8]> = (0..count)
        .map(|_| [&b"a"[..], b"b", b"q", b"!"][rng.below(4)])
        .collect();
    joined(&components)
}

/// Any well-formed path, most often a short one.
pub fn path(rng: &mut Rng) -> Vec<u8> {
    match rng.below(12) {
        0 => longest(rng),
        1 => deepest(rng),
        2 => wide(rng),
        _ => short(rng),
    }
}

/// A path, or often a beginning of one, near those of a map.
pub fn near(rng: &mut Rng, present: &[Vec<u8>]) -> Vec<u8> {
    let Some(path) = rng.pick(present).cloned() else {
        return self::path(rng);
    };
    let all: Vec<&[u8]> = beginnings(&path).collect();
    match rng.below(4) {
        0 => self::path(rng),
        1 => path,
        _ => rng.pick(&all).map_or(path.clone(), |p| p.to_vec()),
    }
}

/// A string that is no well-formed path.
pub fn malformed(rng: &mut Rng) -> Vec<u8> {
    let mut path = path(rng);
    let at = rng.below(path.len());
    match rng.below(9) {
        0 => path.clear(),
        1 => drop(path.pop()),
        2 => path[at] = *rng.pick(&[0x2F, 0x20, 0x7F, 0xFF, 0x80]).unwrap_or(&0x20),
        3 => path.insert(0, 0),
        4 => path.push(0),
        5 => path = joined(&[&[b'a'; COMPONENT_LIMIT + 1]]),
        6 => path = joined(&[&b"a"[..]; COMPONENTS + 1]),
        7 => path = joined(&[&WIDE[0][..], &WIDE[0][..], &WIDE[0][..], &WIDE[0][..13]]),
        _ => path = joined(&[&WIDE[0][..]; 9]),
    }
    path
}

/// A path with 65,536 bytes behind it: a subject that cuts its length to two bytes takes it for that path.
pub fn overlong(rng: &mut Rng) -> Vec<u8> {
    let mut path = path(rng);
    path.resize(path.len() + TWO_BYTES, b'a');
    path
}

/// A value that a store may hold.
pub fn value(rng: &mut Rng) -> Vec<u8> {
    let length = match rng.below(7) {
        0 => 0,
        1 => VALUE_LIMIT,
        2 => rng.below(VALUE_LIMIT + 1),
        3 => telling_length(rng).min(VALUE_LIMIT),
        _ => rng.between(1, 3),
    };
    rng.bytes(length)
}

/// A length about the limit of a value, or about what it was before.
pub fn telling_length(rng: &mut Rng) -> usize {
    TELLING_LENGTHS[rng.below(TELLING_LENGTHS.len())]
}

/// A length that no value may have and a node has room for: mostly a byte too many, sometimes one that a subject which cuts it to a byte
/// takes for a right one.
pub fn too_long(rng: &mut Rng) -> usize {
    match rng.below(4) {
        0 => ONE_BYTE + rng.below(VALUE_LIMIT + 1),
        1 => VALUE_LIMIT + rng.between(1, 300),
        _ => VALUE_LIMIT + 1,
    }
}

#[cfg(test)]
mod tests {
    use super::*;
    use crate::path::well_formed;

    #[test]
    fn paths_are_what_they_say() {
        let mut rng = Rng::new(7);
        for _ in 0..500 {
            assert!(well_formed(&path(&mut rng)));
            assert!(!well_formed(&malformed(&mut rng)));
            assert!(!well_formed(&overlong(&mut rng)));
            assert!(value(&mut rng).len() <= VALUE_LIMIT);
            assert!(too_long(&mut rng) > VALUE_LIMIT);
            let longest = longest(&mut rng);
            assert!(well_formed(&longest) && longest.len() == PATH_LIMIT);
            assert_eq!(beginnings(&deepest(&mut rng)).count(), COMPONENTS);
        }
        for length in 2..=PATH_LIMIT {
            let path = sized(&mut rng, length);
            assert!(well_formed(&path) && path.len() == length, "{length}");
        }
        for depth in 1..=COMPONENTS {
            let path = of_depth(&mut rng, depth);
            assert!(well_formed(&path) && beginnings(&path).count() == depth);
        }
    }
}

// Settled images that are hard to cut: the ends of two ranges lie strictly inside a node at every
// level, on four ways down that part at the root, or in one node that is full of long pivots. A
// move from one range to the other changes about as many nodes as it ever must.

use crate::contract::bound_free;
use crate::limits::*;
use crate::meaning;
use crate::path::owns;
use crate::tree::{Node, Pair, Tree};

/// An image and two ranges in it, each with a path: a move may go either way.
pub struct Hard {
    pub image: Vec<u8>,
    pub ranges: [Vec<u8>; 2],
}

/// The four ends lie on ways of their own, with neighbours on both sides at every level.
pub fn apart(levels: u16) -> Option<Hard> {
    Cuts::between(b"m\0", b"t\0", Cuts::around).image(levels)
}

/// The four ends lie in one first child after the other, whose parents have no room for an end.
pub fn full(levels: u16) -> Option<Hard> {
    let long =
        |last: u8| [b'm', b'n', b'o', last].map(|letter| [&[letter; 15][..], b"\0"].concat());
    let (from, to) = (long(b'p').concat(), long(b'q').concat());
    Cuts::between(&from, &to, Cuts::long_after).image(levels)
}

/// What a tree is grown from: the ranges, their ends, and the pivots of a node that owns some of
/// the ends, which depend on how deep it lies.
struct Cuts {
    ranges: [Vec<u8>; 2],
    ends: Vec<Vec<u8>>,
    pivots: Pivots,
}

type Pivots = fn(&[Vec<u8>], u8) -> Vec<Vec<u8>>;

impl Cuts {
    fn between(from: &[u8], to: &[u8], pivots: Pivots) -> Cuts {
        let past = |path: &[u8]| [path, &[0xFF]].concat();
        Cuts {
            ranges: [from.to_vec(), to.to_vec()],
            ends: vec![from.to_vec(), past(from), to.to_vec(), past(to)],
            pivots,
        }
    }

    /// On each side of every end, the closer the deeper.
    fn around(ends: &[Vec<u8>], depth: u8) -> Vec<Vec<u8>> {
        let step = 8 * depth;
        let below = |end: &Vec<u8>| {
            let zeros = end.iter().rev().take_while(|byte| **byte == 0).count();
            let mut below = end[..end.len() - zeros].to_vec();
            if let Some(last) = below.last_mut() {
                *last -= 1;
            }
            [&below[..], &[0x40 + step]].concat()
        };
        let above = |end: &Vec<u8>| [&end[..], &[0x7F - step]].concat();
        ends.iter()
            .flat_map(|end| [below(end), above(end)])
            .collect()
    }

    /// As many of 65 bytes as a node takes, all after the ends.
    fn long_after(_: &[Vec<u8>], depth: u8) -> Vec<Vec<u8>> {
        let most = (ENTRY_BYTES_LIMIT - CHILD_HEAD) / (CHILD_HEAD + PIVOT_LIMIT);
        let pivot =
            |i: usize| [&[0xF0 - 8 * depth, i as u8][..], &[0x55; PIVOT_LIMIT - 2]].concat();
        (0..most).map(pivot).collect()
    }

    /// The store has just as many free nodes as hold its moves to the bound.
    fn image(&self, levels: u16) -> Option<Hard> {
        let mut tree = Tree {
            levels,
            root: self.grow(levels, levels, ROOT_LOW, ROOT_HIGH),
        };
        let used = tree.walk().len();
        let n = (used + 1 + bound_free(levels)).max(NODES_LEAST);
        let numbers: Vec<u16> = (1..n as u16).collect();
        tree.number(&numbers);
        let mut image = vec![0; n * NODE];
        let live = meaning::table(&tree.root).len() as u16;
        tree.write(live, &mut image)?;
        Some(Hard {
            image,
            ranges: self.ranges.clone(),
        })
    }

    fn grow(&self, levels: u16, level: u16, low: &[u8], high: &[u8]) -> Node {
        if level <= LEAF_LEVEL {
            return self.leaf(low, high);
        }
        let inside = |string: &&Vec<u8>| &string[..] > low && owns(low, high, string);
        let ends: Vec<Vec<u8>> = self.ends.iter().filter(inside).cloned().collect();
        let mut pivots = vec![low.to_vec()];
        if !ends.is_empty() {
            let more = (self.pivots)(&ends, (levels - level) as u8);
            pivots.extend(more.iter().filter(inside).cloned());
        }
        pivots.sort_unstable();
        let highs = pivots.iter().skip(1).map(|pivot| &pivot[..]).chain([high]);
        let children = pivots.iter().zip(highs);
        let children = children.map(|(low, high)| self.grow(levels, level - 1, low, high));
        Node::interior(low, children.collect(), Vec::new())
    }

    /// Each range has its own path, and there are some beside them. The values are as long as they may be.
    fn leaf(&self, low: &[u8], high: &[u8]) -> Node {
        let [first, second] = &self.ranges;
        let mut paths = [b"a\0", &first[..], b"n\0", second, b"z\0"];
        paths.sort_unstable();
        let owned = paths.iter().filter(|path| owns(low, high, path));
        let pair = |path: &&[u8]| Pair {
            path: path.to_vec(),
            value: vec![7; VALUE_LIMIT],
        };
        Node::leaf(low, owned.map(pair).collect())
    }
}

/// The bytes of a child entry before its suffix.
const CHILD_HEAD: usize = ENTRY_HEAD + 2;

#[cfg(test)]
mod tests {
    use super::*;
    use crate::contract::move_bound_of;
    use crate::sound::judge;

    #[test]
    fn they_are_sound_and_held_to_the_bound() {
        for levels in 1..LEVELS_MOST {
            for hard in [apart(levels), full(levels)] {
                let hard = hard.expect("it fits");
                let sound = judge(&hard.image).unwrap_or_else(|rule| panic!("{}", rule.name()));
                assert!(move_bound_of(&sound).is_some() && sound.levels() == levels);
                assert!(hard
                    .ranges
                    .iter()
                    .all(|path| sound.table.contains_key(path)));
            }
        }
    }

    /// Every node on the way has its neighbours, or is full.
    #[test]
    fn they_are_wide() {
        let sound = |hard: Option<Hard>| judge(&hard.expect("it fits").image).expect("it is sound");
        let widths = |hard| {
            let sound = sound(hard);
            let walk = sound.tree.walk();
            let width = |level| {
                walk.iter()
                    .filter(|v| v.level == level)
                    .map(|v| v.node.children().len())
                    .max()
            };
            (2..=7)
                .map(|level| width(level).unwrap_or(0))
                .collect::<Vec<usize>>()
        };
        assert_eq!(widths(apart(7)), [3, 3, 3, 3, 3, 9]);
        assert_eq!(widths(full(7)), [15; 6]);
    }
}

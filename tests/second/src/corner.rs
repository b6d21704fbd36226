// The corners of the grid that moves and heals are tried in, each with images of its own, so that
// no combination is left to luck.

use crate::contract::bound_free;
use crate::feature;
use crate::generate;
use crate::limits::{LEAF_LEVEL, LEVELS_MOST};
use crate::plan::Plan;
use crate::rng::Rng;
use crate::sound::Sound;
use crate::upkeep::fitting_neighbours;

/// The most free nodes that are called few.
pub const FEW: usize = 3;

/// How many nodes are free in a store of this corner: few; too few to hold a move to the bound;
/// just enough for that; or more.
#[derive(Clone, Copy, Debug, PartialEq, Eq, PartialOrd, Ord)]
pub enum Room {
    Few,
    Short,
    Just,
    Plenty,
}

impl Room {
    pub const ALL: [Room; 4] = [Room::Few, Room::Short, Room::Just, Room::Plenty];

    pub fn of(levels: u16, free: usize) -> Room {
        let bound = bound_free(levels);
        match free {
            _ if free > bound => Room::Plenty,
            _ if free == bound => Room::Just,
            0..=FEW => Room::Few,
            _ => Room::Short,
        }
    }
}

/// The corners that moves and heals are tried in: how many levels, whether anything waits, how
/// much is free, and whether a pivot suffix has the greatest length.
#[derive(Clone, Copy, Debug, PartialEq, Eq, PartialOrd, Ord)]
pub struct Corner {
    pub levels: u16,
    pub settled: bool,
    pub room: Room,
    pub wide: bool,
}

impl Corner {
    pub fn new(levels: u16, settled: bool, room: Room, wide: bool) -> Corner {
        Corner {
            levels,
            settled,
            room,
            wide,
        }
    }

    /// The corner that a sound image lies in.
    pub fn of(sound: &Sound) -> Corner {
        let wide = sound.tree.walk().iter().any(feature::wide_pivot);
        let room = Room::of(sound.levels(), sound.free());
        Corner::new(sound.levels(), sound.settled(), room, wide)
    }

    /// Every corner that an image may lie in. A single leaf has no pivot and no message, and the
    /// smallest store leaves it plenty.
    pub fn all() -> Vec<Corner> {
        let mut all = vec![Corner::new(1, true, Room::Plenty, false)];
        for levels in 2..=LEVELS_MOST {
            for settled in [true, false] {
                for room in Room::ALL {
                    all.push(Corner::new(levels, settled, room, false));
                    all.push(Corner::new(levels, settled, room, true));
                }
            }
        }
        all
    }

    /// A sound image of this corner; for every other seed one with something to heal.
    pub fn image(self, seed: u64) -> Vec<u8> {
        let mut rng = Rng::new(seed);
        let heals = self.levels > LEAF_LEVEL && seed.is_multiple_of(2);
        let wanted = |_: &[u8], sound: &Sound| {
            let within = Corner::of(sound) == self && sound.table.len() >= 2;
            within && (!heals || !mergeable(sound).is_empty())
        };
        generate::attempts(&mut rng, |rng| Plan::grid(self, rng), wanted)
    }
}

/// The nodes that a heal has something to merge in.
pub fn mergeable(sound: &Sound) -> Vec<u16> {
    let walk = sound.tree.walk();
    let mergeable = walk.iter().filter(|v| fitting_neighbours(v).is_some());
    mergeable.map(|v| v.node.number).collect()
}

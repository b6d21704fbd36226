// Plans of generated images: how large a store, how deep and wide a tree, what waits in it and
// what is left free; at random, for a feature, or for a corner of the grid.

use crate::contract::bound_free;
use crate::corner::{Corner, Room, FEW};
use crate::feature::Feature;
use crate::limits::*;
use crate::rng::Rng;

/// What an image is to look like.
#[derive(Clone, Debug)]
pub struct Plan {
    pub n: usize,
    pub levels: u16,
    /// How many distinct paths may occur; at most n, so that the live count stays in bounds.
    pub paths: usize,
    /// How many nodes the tree may take; at least the levels.
    pub nodes: usize,
    /// How many nodes are to be free: the store is made so small, if it may be. Else it has n.
    pub free: Option<usize>,
    /// The fewest and the most children of a node, where its nodes and its bytes allow.
    pub fanout: (usize, usize),
    /// Pivot suffixes of 65 bytes wherever a node has room for one.
    pub wide_pivots: bool,
    /// The most messages of a node.
    pub messages: usize,
    /// How many leaves in eight are left empty.
    pub empty_leaves: usize,
    /// Values of this length only.
    pub value: Option<usize>,
    pub garbage: bool,
    pub shuffled: bool,
}

impl Plan {
    pub fn random(rng: &mut Rng) -> Plan {
        let n = match rng.below(8) {
            0..=3 => NODES_LEAST,
            4 | 5 => rng.between(NODES_LEAST, 80),
            6 => rng.between(NODES_LEAST, 300),
            _ => rng.between(NODES_LEAST, NODES_MOST),
        };
        Plan::of_nodes(n, rng)
    }

    /// Any plan for a store of n nodes.
    pub fn of_nodes(n: usize, rng: &mut Rng) -> Plan {
        let levels = rng.between(1, usize::from(LEVELS_MOST)) as u16;
        Plan {
            n,
            levels,
            paths: rng.between(1, n),
            nodes: rng.between(usize::from(levels), n - 1),
            free: None,
            fanout: (1, rng.between(1, 8)),
            wide_pivots: false,
            messages: *rng.pick(&[0, 3, 8, 60]).unwrap_or(&3),
            empty_leaves: 1,
            value: None,
            garbage: rng.chance(3, 4),
            shuffled: rng.chance(3, 4),
        }
    }

    /// A plan under which images that show the feature are common.
    pub fn showing(feature: Feature, rng: &mut Rng) -> Plan {
        let mut plan = Plan::random(rng);
        plan.paths = plan.paths.max(8);
        let deep = |plan: &mut Plan, levels: u16| {
            plan.levels = plan.levels.max(levels);
            plan.nodes = plan.n - 1;
            plan.fanout.1 = plan.fanout.1.max(4);
        };
        match feature {
            Feature::OneLeaf => plan.levels = 1,
            Feature::Settled => {
                plan.levels = plan.levels.max(2);
                plan.messages = 0;
            }
            Feature::EightLevels => plan.levels = LEVELS_MOST,
            Feature::OneChildChain => {
                deep(&mut plan, 3);
                plan.fanout = (1, 2);
            }
            Feature::FullInterior => {
                deep(&mut plan, 2);
                plan.messages = 400;
            }
            Feature::FullLeaf => {
                plan.levels = 1;
                plan.paths = plan.n;
                plan.value = Some(VALUE_LIMIT);
                plan.empty_leaves = 0;
            }
            Feature::SmallStore => plan.n = NODES_LEAST,
            Feature::LargeStore => {
                plan.n = NODES_MOST;
                plan.levels = 4;
                plan.nodes = NODES_MOST - 1;
                plan.fanout = (1, 10);
                plan.paths = plan.paths.max(200);
            }
            Feature::MoveBound => {
                plan.n = plan.n.max(120);
                plan.levels = plan.levels.clamp(2, 7);
                plan.nodes = plan
                    .nodes
                    .min(plan.n - 1 - 12 * usize::from(plan.levels) - 8);
                plan.messages = 0;
            }
            Feature::JustBound => {
                let levels = plan.levels.clamp(2, 7);
                plan = Plan::grid(Corner::new(levels, true, Room::Just, false), rng);
            }
            Feature::NoFreeNode => {
                let (levels, settled) = (plan.levels.max(2), rng.chance(1, 2));
                plan = Plan::grid(Corner::new(levels, settled, Room::Few, false), rng);
                plan.free = Some(0);
            }
            Feature::WidePivot => {
                deep(&mut plan, 2);
                plan.wide_pivots = true;
            }
            Feature::GarbageInFree => plan.garbage = true,
            Feature::ShuffledNumbers => {
                deep(&mut plan, 2);
                plan.shuffled = true;
            }
            Feature::EmptyValue => plan.value = Some(0),
            Feature::LongValue => plan.value = Some(VALUE_LIMIT),
            Feature::OldLimit => plan.value = Some(OLD_VALUE_LIMIT),
            Feature::FullTable => {
                plan.n = NODES_LEAST;
                plan.paths = NODES_LEAST;
                plan.levels = plan.levels.clamp(2, 3);
                plan.messages = 0;
                plan.empty_leaves = 0;
            }
            Feature::EmptyLeaf => {
                deep(&mut plan, 2);
                plan.empty_leaves = 4;
            }
            Feature::LongPath | Feature::WideComponent | Feature::DeepPath => {
                plan.messages = plan.messages.min(3);
                plan.paths = plan.n;
            }
            _ => {
                deep(&mut plan, 3);
                plan.messages = plan.messages.max(8);
            }
        }
        plan.nodes = plan.nodes.clamp(usize::from(plan.levels), plan.n - 1);
        plan.paths = plan.paths.min(plan.n);
        plan
    }

    /// A plan under which images of a corner of the grid are common.
    pub fn grid(corner: Corner, rng: &mut Rng) -> Plan {
        let bound = bound_free(corner.levels);
        let free = match corner.room {
            Room::Few => rng.between(0, FEW),
            Room::Short => *rng.pick(&[FEW + 1, bound / 2, bound - 1]).unwrap_or(&bound),
            Room::Just => bound,
            Room::Plenty => bound + rng.between(1, 300),
        };
        // Under 31 nodes of the tree the store could not be so small that few are left.
        let nodes = NODES_LEAST + usize::from(corner.levels) + rng.below(90);
        Plan {
            n: NODES_MOST,
            levels: corner.levels,
            paths: rng.between(8, 60),
            nodes,
            free: Some(free),
            fanout: match corner.levels {
                1..=3 => (8, 40),
                _ => (rng.between(1, 2), rng.between(3, 8)),
            },
            wide_pivots: corner.wide,
            messages: match corner.settled {
                true => 0,
                false => *rng.pick(&[2, 8, 60]).unwrap_or(&2),
            },
            empty_leaves: 1,
            value: None,
            garbage: rng.chance(3, 4),
            shuffled: rng.chance(3, 4),
        }
    }

    /// How many nodes the store gets for a tree of so many nodes that holds so many paths.
    pub fn size(&self, used: usize, live: usize) -> usize {
        let wanted = self.free.map_or(self.n, |free| used + 1 + free);
        wanted.max(live).clamp(NODES_LEAST, self.n)
    }
}

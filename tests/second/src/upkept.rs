// Changes of the examples by a flush or a heal, for a proof checker to compute on: right ones, as
// the simple stores make them, and wrong ones that a looser rule would let pass.

use crate::contract::changed_nodes;
use crate::examples::Example;
use crate::lazy::Lazy;
use crate::limits::*;
use crate::sound::{judge, Sound};
use crate::subject::Subject;
use crate::tree::Tree;
use crate::upkeep;
use crate::wrong;

/// Two examples, by their names, as the stores before and after upkeep of one node.
pub struct Change {
    pub name: &'static str,
    pub node: u64,
    pub before: &'static str,
    pub after: &'static str,
}

const fn change(
    name: &'static str,
    node: u64,
    before: &'static str,
    after: &'static str,
) -> Change {
    Change {
        name,
        node,
        before,
        after,
    }
}

#[rustfmt::skip]
pub const CHANGES: [Change; 11] = [
    change("flush_two_levels", 1, "two_levels", "two_levels_flushed"),
    change("flush_three_levels", 3, "three_levels", "three_levels_flushed"),
    change("flush_four_levels", 9, "four_levels", "four_levels_flushed"),
    change("flush_nothing", 1, "two_levels", "two_levels"),
    change("flush_raised", 1, "two_levels", "two_levels_raised"),
    change("flush_lifted", 1, "two_levels", "two_levels_lifted"),
    change("heal_two_levels", 1, "two_levels", "two_levels_healed"),
    change("heal_long_pivot", 4, "long_pivot", "long_pivot_healed"),
    change("heal_nothing_fits", 9, "long_pivot", "long_pivot"),
    change("heal_nothing", 1, "two_levels", "two_levels"),
    change("heal_level_between", 1, "two_levels", "two_levels_raised"),
];

/// What the rules of upkeep say of a change.
#[derive(Clone, Copy, Debug, PartialEq, Eq)]
pub struct Kept {
    /// Nothing waits in the node's level where it was: what the paper's sentence on flush says,
    /// without "its messages go down".
    pub none_waits: bool,
    pub flushed: bool,
    pub healed: bool,
    /// No node gains a message.
    pub none_gains: bool,
    /// How many nodes changed, node 0 too.
    pub changed: usize,
}

impl Change {
    pub fn kept(&self, examples: &[Example]) -> Option<Kept> {
        let image = |name: &str| examples.iter().find(|e| e.name == name).map(|e| &e.image);
        let (before, after) = (image(self.before)?, image(self.after)?);
        let (was, is) = (judge(before).ok()?, judge(after).ok()?);
        let node = was.tree.find(self.node)?;
        Some(Kept {
            none_waits: upkeep::none_waits(&node, &is).is_ok(),
            flushed: upkeep::flushed(self.node, &was, &is).is_ok(),
            healed: upkeep::healed(self.node, &was, &is).is_ok(),
            none_gains: upkeep::none_gains(&was, &is, LEAF_LEVEL).is_ok(),
            changed: changed_nodes(before, after),
        })
    }
}

/// The examples that the changes lead to.
pub fn examples(sound: &[Example]) -> Vec<Example> {
    let made = [
        flushed(sound, "two_levels", "two_levels_flushed", 1),
        flushed(sound, "three_levels", "three_levels_flushed", 3),
        flushed(sound, "four_levels", "four_levels_flushed", 9),
        healed(sound, "two_levels", "two_levels_healed", 1),
        healed(sound, "long_pivot", "long_pivot_healed", 4),
        seeming(
            sound,
            "two_levels_raised",
            "two_levels with a new node under the root, which keeps its messages: wrong as a \
             flush and as a heal",
            wrong::level_between,
        ),
        seeming(
            sound,
            "two_levels_lifted",
            "two_levels with a new root, which takes the messages: wrong as a flush",
            wrong::messages_lifted,
        ),
    ];
    made.into_iter().flatten().collect()
}

fn image(sound: &[Example], name: &str) -> Option<Vec<u8>> {
    let found = sound.iter().find(|example| example.name == name)?;
    Some(found.image.clone())
}

fn flushed(sound: &[Example], from: &str, name: &'static str, node: u64) -> Option<Example> {
    let mut image = image(sound, from)?;
    let mut work = vec![0; WORK_PER_NODE * NODES_LEAST];
    let (number, _) = Lazy::default().flush(&mut image, node, &mut work);
    (number == 0).then(|| Example {
        name,
        shows: format!("{from} after a flush of node {node}"),
        image,
    })
}

fn healed(sound: &[Example], from: &str, name: &'static str, node: u64) -> Option<Example> {
    let mut image = image(sound, from)?;
    let mut work = vec![0; WORK_PER_NODE * NODES_LEAST];
    let (number, _) = Lazy::default().heal(&mut image, node, &mut work);
    (number == 0).then(|| Example {
        name,
        shows: format!("{from} after a heal of node {node}"),
        image,
    })
}

/// two-levels with upkeep of its root that only seems to be done.
fn seeming(
    sound: &[Example],
    name: &'static str,
    shows: &str,
    tree: fn(&Sound) -> Option<Tree>,
) -> Option<Example> {
    let mut image = image(sound, "two_levels")?;
    let before = judge(&image).ok()?;
    let live = before.table.len() as u16;
    tree(&before)?.write(live, &mut image)?;
    Some(Example {
        name,
        shows: shows.to_string(),
        image,
    })
}

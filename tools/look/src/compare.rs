// What differs between an image before a call and after it, node by node and entry by entry.
// A node is changed when any of its 1,024 bytes differs, as in the paper's bound on a move.

use crate::spell;
use crate::survey::Survey;
use second::image::{self, Entry};
use std::collections::{BTreeMap, BTreeSet};

/// What became of one node, node 0 and free nodes counted.
#[derive(Clone, Copy, Debug, Default, PartialEq, Eq)]
pub struct Change {
    /// Any of its bytes differs.
    pub changed: bool,
    /// Reachable after, but not before.
    pub new: bool,
    /// Reachable before, but not after.
    pub gone: bool,
    /// Not a byte differs, and yet it lifts another prefix: its paths are other ones now.
    pub renamed: bool,
}

#[derive(Clone, Debug)]
pub struct Comparison {
    pub changes: BTreeMap<u16, Change>,
    /// The entries of a changed node that the other image has not in that node.
    pub fresh_before: BTreeSet<(u16, usize)>,
    pub fresh_after: BTreeSet<(u16, usize)>,
}

/// The numbers under a heading that no node stands under.
pub const NONE: &str = "none";

/// A heading, and which changes stand under it.
type Row = (&'static str, fn(&Change) -> bool);

impl Comparison {
    /// Of two images of one length.
    pub fn of(before: &Survey<'_>, after: &Survey<'_>) -> Comparison {
        let numbers = 0..before.n as u16;
        let changes = numbers.map(|number| (number, change(before, after, number)));
        Comparison {
            changes: changes.filter(|(_, c)| *c != Change::default()).collect(),
            fresh_before: fresh(before, after),
            fresh_after: fresh(after, before),
        }
    }

    pub fn of_node(&self, number: u16) -> Change {
        self.changes.get(&number).copied().unwrap_or_default()
    }

    fn numbers(&self, wanted: fn(&Change) -> bool) -> Vec<u16> {
        let chosen = self.changes.iter().filter(|(_, change)| wanted(change));
        chosen.map(|(number, _)| *number).collect()
    }

    /// Lines of words: a heading with the numbers of its nodes.
    pub fn words(&self) -> Vec<(&'static str, String)> {
        let rows: [Row; 4] = [
            ("changed (any byte differs)", |c| c.changed),
            ("new (reachable only after)", |c| c.new),
            ("gone (reachable only before)", |c| c.gone),
            ("not a byte changed, but other paths", |c| c.renamed),
        ];
        let told = rows.iter().map(|(heading, wanted)| {
            let numbers = self.numbers(*wanted);
            let listed = match numbers.is_empty() {
                true => NONE.into(),
                false => format!("{} ({})", spell::runs(&numbers), numbers.len()),
            };
            (*heading, listed)
        });
        told.collect()
    }
}

fn change(before: &Survey<'_>, after: &Survey<'_>, number: u16) -> Change {
    let changed = image::node(before.image, number) != image::node(after.image, number);
    let (was, is) = (before.node(number), after.node(number));
    Change {
        changed,
        new: was.is_none() && is.is_some(),
        gone: was.is_some() && is.is_none(),
        renamed: match (was, is) {
            (Some(was), Some(is)) => !changed && was.lifted() != is.lifted(),
            _ => false,
        },
    }
}

/// The entries of `here` that have no equal in the node of that number in `there`.
fn fresh(here: &Survey<'_>, there: &Survey<'_>) -> BTreeSet<(u16, usize)> {
    let mut fresh = BTreeSet::new();
    for node in &here.nodes {
        let Some(other) = there.node(node.number) else {
            continue;
        };
        let mut left: Vec<&Entry<'_>> = other.entries.iter().collect();
        for (at, entry) in node.entries.iter().enumerate() {
            match left.iter().position(|e| *e == entry) {
                Some(found) => drop(left.swap_remove(found)),
                None => drop(fresh.insert((node.number, at))),
            }
        }
    }
    fresh
}

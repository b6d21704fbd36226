// Upkeep's rules: what settle, tidy, flush and heal promise of the nodes, read off the trees
// before and after the call.

use crate::contract::Verdict;
use crate::limits::{ENTRY_BYTES_LIMIT, LEAF_LEVEL, PIVOT_LIMIT};
use crate::path::{lifted, overlap};
use crate::sound::Sound;
use crate::tree::{Body, Message, Node, Visit};
use std::collections::BTreeMap;

pub fn settled(after: &Sound) -> Verdict {
    match after.waiting {
        0 => Ok(()),
        waiting => Err(format!("{waiting} messages are left waiting")),
    }
}

/// Settled, and with node 0 at most a quarter of the nodes are in use.
pub fn tidied(after: &Sound) -> Verdict {
    settled(after)?;
    let used = after.used.len() + 1;
    let most = after.n / 4;
    if used <= most {
        return Ok(());
    }
    Err(format!("{used} nodes are in use after a tidy, over {most}"))
}

/// A flush, whole: no node of the flushed node's level that owns any of what it owned holds a
/// message; and its messages went down: its own number is no hiding place, in whatever level it
/// stands, and neither is a node beside or above it.
pub fn flushed(number: u64, before: &Sound, after: &Sound) -> Verdict {
    let Some(flushed) = before.tree.find(number) else {
        return Err(format!("node {number} was not there to be flushed"));
    };
    none_waits(&flushed, after)?;
    emptied(number, after)?;
    none_gains(before, after, flushed.level)
}

/// No node of this one's level that owns any of what it owned holds a message.
pub fn none_waits(flushed: &Visit<'_>, after: &Sound) -> Verdict {
    let range = (flushed.low, flushed.high);
    let concerned =
        |visit: &Visit<'_>| visit.level == flushed.level && overlap(range, (visit.low, visit.high));
    none_of(after.tree.walk().into_iter().filter(concerned))
}

/// The node of this number, where it is still reachable, holds no message.
fn emptied(number: u64, after: &Sound) -> Verdict {
    none_of(after.tree.find(number).into_iter())
}

fn none_of<'a>(mut visits: impl Iterator<Item = Visit<'a>>) -> Verdict {
    match visits.find(|visit| !visit.node.messages().is_empty()) {
        None => Ok(()),
        Some(visit) => Err(format!(
            "node {} holds a message after the flush",
            visit.node.number
        )),
    }
}

pub fn healed(number: u64, before: &Sound, after: &Sound) -> Verdict {
    let (Some(was), Some(is)) = (before.tree.find(number), after.tree.find(number)) else {
        return Err(format!("healed node {number} is not reachable"));
    };
    if (was.low, was.high) != (is.low, is.high) {
        return Err(format!("healed node {number} has another range"));
    }
    if was.level != is.level {
        return Err(format!("healed node {number} has another level"));
    }
    none_gains(before, after, LEAF_LEVEL)?;
    no_neighbours_fit(&is)
}

/// In the nodes of this level and above: what a node holds is, in order, a part of what the node
/// of that number held before, by full path. A node that was free held nothing.
pub fn none_gains(before: &Sound, after: &Sound, level: u16) -> Verdict {
    let walk = before.tree.walk();
    let was: BTreeMap<u16, &Node> = walk.iter().map(|v| (v.node.number, v.node)).collect();
    for visit in after.tree.walk().iter().filter(|v| v.level >= level) {
        let number = visit.node.number;
        let held = was.get(&number).map_or(&[][..], |node| node.messages());
        if !is_sublist(visit.node.messages(), held) {
            return Err(format!("node {number} gained a message"));
        }
    }
    Ok(())
}

fn is_sublist(part: &[Message], whole: &[Message]) -> bool {
    let mut whole = whole.iter();
    part.iter().all(|message| whole.any(|held| held == message))
}

fn no_neighbours_fit(healed: &Visit<'_>) -> Verdict {
    match fitting_neighbours(healed) {
        None => Ok(()),
        Some((left, right)) => Err(format!("children {left} and {right} would fit in one node")),
    }
}

/// Two neighbouring children that hold no message and would fit in one node.
pub fn fitting_neighbours(visit: &Visit<'_>) -> Option<(u16, u16)> {
    let children = visit.children();
    let mut pairs = children.windows(2);
    let fitting = pairs.find(|pair| join(&pair[0], &pair[1]).is_some())?;
    Some((fitting[0].node.number, fitting[1].node.number))
}

/// Two neighbours as one node with the left one's number; none unless both hold no message
/// and the entries, rewritten for the joined range, fit.
pub fn join(left: &Visit<'_>, right: &Visit<'_>) -> Option<Node> {
    let messages = left.node.messages().len() + right.node.messages().len();
    if messages > 0 {
        return None;
    }
    let joined = Node {
        number: left.node.number,
        low: left.low.to_vec(),
        body: joined_body(left.node, right.node),
    };
    fits(&joined, left.level, right.high).then_some(joined)
}

fn joined_body(left: &Node, right: &Node) -> Body {
    if left.is_interior() {
        Body::Interior {
            children: [left.children(), right.children()].concat(),
            messages: Vec::new(),
        }
    } else {
        Body::Leaf([left.pairs(), right.pairs()].concat())
    }
}

fn fits(node: &Node, level: u16, high: &[u8]) -> bool {
    let lifted = lifted(&node.low, high).len();
    let pivots_fit = |child: &Node| child.low.len() <= lifted + PIVOT_LIMIT;
    let visit = Visit {
        node,
        level,
        low: &node.low,
        high,
    };
    let bytes = visit.entry_bytes();
    node.children().iter().all(pivots_fit)
        && bytes.is_some_and(|bytes| bytes.len() <= ENTRY_BYTES_LIMIT)
}

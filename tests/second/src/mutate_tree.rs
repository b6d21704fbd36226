// Damage done to the tree in full and written again: strings that no sound node may hold,
// with the live count made right for what the damaged tree means.

use crate::limits::*;
use crate::meaning;
use crate::mutate::Site;
use crate::path::{owns, well_formed};
use crate::sound::Rule;
use crate::tree::{Body, Message, Node, Pair, Tree, Visit};
use crate::words;

type Damaged = Option<Vec<u8>>;

/// The image with this tree in place of its own, the live count following the tree.
fn written(site: &Site<'_>, tree: &Tree) -> Damaged {
    let live = meaning::table(&tree.root).len() as u16;
    let mut copy = site.image.to_vec();
    tree.write(live, &mut copy)?;
    Some(copy)
}

/// The image with one node of its tree changed.
fn changed(site: &Site<'_>, number: u16, act: impl Fn(&mut Node)) -> Damaged {
    let mut tree = site.sound.tree.clone();
    tree.root.for_each_mut(&mut |node| {
        if node.number == number {
            act(node);
        }
    });
    written(site, &tree)
}

fn any_leaf<'a>(site: &mut Site<'a>) -> Option<Visit<'a>> {
    site.any_visit(|v| !v.node.is_interior())
}

/// A string that begins with the node's lifted prefix, a path or something like one.
fn string_in(site: &mut Site<'_>, visit: &Visit<'_>) -> Vec<u8> {
    let present: Vec<Vec<u8>> = site.sound.table.keys().cloned().collect();
    let lifted = visit.lifted();
    match site.rng.below(6) {
        0 => words::path(site.rng),
        1 => words::near(site.rng, &present),
        2 => words::malformed(site.rng),
        3 => [lifted, &words::malformed(site.rng)].concat(),
        4 => [visit.low, &words::short(site.rng)].concat(),
        _ => [lifted, &words::short(site.rng)].concat(),
    }
}

/// New rows at the root until there is one more than nodes.
pub fn live_limit(site: &mut Site<'_>) -> Damaged {
    let mut tree = site.sound.tree.clone();
    let mut present = site.sound.table.clone();
    let mut new = Vec::new();
    while present.len() <= site.sound.n {
        let letter = |site: &mut Site<'_>| site.rng.between(0x30, 0x7E) as u8;
        let path = vec![letter(site), letter(site), 0];
        if present.insert(path.clone(), Vec::new()).is_none() {
            new.push(path);
        }
    }
    let value = Vec::new;
    match &mut tree.root.body {
        Body::Leaf(pairs) => {
            pairs.extend(new.into_iter().map(|path| Pair {
                path,
                value: value(),
            }));
            pairs.sort_by(|a, b| a.path.cmp(&b.path));
        }
        Body::Interior { messages, .. } => {
            messages.extend(new.into_iter().map(|path| Message::Put {
                path,
                value: value(),
            }));
        }
    }
    written(site, &tree)
}

/// A subtree's low pivot, in all the nodes that share it.
fn set_low(node: &mut Node, low: &[u8]) {
    node.low = low.to_vec();
    if let Body::Interior { children, .. } = &mut node.body {
        if let Some(first) = children.first_mut() {
            set_low(first, low);
        }
    }
}

/// A child's pivot, not the first one's, is made longer than a pivot may be.
pub fn pivot_length(site: &mut Site<'_>) -> Damaged {
    let visit = site.any_visit(|v| v.node.children().len() > 1)?;
    let at = site.rng.between(1, visit.node.children().len() - 1);
    let fill = *site.rng.pick(&[0, 1, b'~'])?;
    let mut low = visit.node.children()[at].low.clone();
    let longer = visit.lifted().len() + PIVOT_LIMIT + site.rng.between(1, 4);
    low.resize(longer, fill);
    changed(site, visit.node.number, |node| set_low_of(node, at, &low))
}

/// The first child begins after its parent does.
pub fn first_pivot(site: &mut Site<'_>) -> Damaged {
    let visit = site.any_visit(|v| v.node.is_interior())?;
    let fill = *site.rng.pick(&[0, 1, b'!'])?;
    let low = [visit.low, &[fill]].concat();
    changed(site, visit.node.number, |node| set_low_of(node, 0, &low))
}

fn set_low_of(node: &mut Node, at: usize, low: &[u8]) {
    if let Body::Interior { children, .. } = &mut node.body {
        if let Some(child) = children.get_mut(at) {
            set_low(child, low);
        }
    }
}

pub fn no_child(site: &mut Site<'_>) -> Damaged {
    let visit = site.any_visit(|v| v.node.is_interior())?;
    changed(site, visit.node.number, |node| {
        if let Body::Interior { children, .. } = &mut node.body {
            children.clear();
        }
    })
}

pub fn pair_well_formed(site: &mut Site<'_>) -> Damaged {
    let visit = any_leaf(site)?;
    let path = string_in(site, &visit);
    let right = owns(visit.low, visit.high, &path) && !well_formed(&path);
    right.then(|| with_pair(site, &visit, &path))?
}

pub fn pair_owned(site: &mut Site<'_>) -> Damaged {
    let visit = any_leaf(site)?;
    let path = string_in(site, &visit);
    let right = !owns(visit.low, visit.high, &path) && well_formed(&path);
    right.then(|| with_pair(site, &visit, &path))?
}

/// One more pair at its place in the order.
fn with_pair(site: &Site<'_>, visit: &Visit<'_>, path: &[u8]) -> Damaged {
    changed(site, visit.node.number, |node| {
        if let Body::Leaf(pairs) = &mut node.body {
            let at = pairs.partition_point(|p| p.path[..] < *path);
            let pair = Pair {
                path: path.to_vec(),
                value: vec![1],
            };
            pairs.insert(at, pair);
        }
    })
}

pub fn pair_value(site: &mut Site<'_>) -> Damaged {
    let visit = site.any_visit(|v| !v.node.pairs().is_empty())?;
    let at = site.rng.below(visit.node.pairs().len());
    let length = words::too_long(site.rng);
    let value = site.rng.bytes(length);
    changed(site, visit.node.number, |node| {
        if let Body::Leaf(pairs) = &mut node.body {
            if let Some(pair) = pairs.get_mut(at) {
                pair.value.clone_from(&value);
            }
        }
    })
}

/// One more message that breaks this rule, at any place among the others.
pub fn message(rule: Rule, site: &mut Site<'_>) -> Damaged {
    let visit = site.any_visit(|v| v.node.is_interior())?;
    let path = string_in(site, &visit);
    let value = match rule {
        Rule::PutValue => {
            let length = words::too_long(site.rng);
            site.rng.bytes(length)
        }
        _ => words::value(site.rng),
    };
    let message = match rule {
        Rule::ClearShape => Message::Clear { path },
        Rule::DropOwned | Rule::DropWellFormed => Message::Drop { path },
        _ => Message::Put { path, value },
    };
    let at = site.rng.between(0, visit.node.messages().len());
    changed(site, visit.node.number, |node| {
        if let Body::Interior { messages, .. } = &mut node.body {
            messages.insert(at, message.clone());
        }
    })
}

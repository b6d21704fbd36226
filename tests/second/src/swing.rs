// A move that changes few nodes: the tree is cut at both ends of both ranges, a new root joins the
// parts, and the part below `from` hangs where the part below `to` hung. Its inner nodes keep
// their bytes, because what they lift is all that changes in them. It does not always fit: a part
// begins with a pivot of up to 65 bytes, for which a node on the cut may have no room.

use crate::limits::*;
use crate::sound::Sound;
use crate::tree::{Body, Node, Tree};

/// The tree after the move, one level higher; none where a level or free nodes are lacking. What
/// waits in the root goes to the new one as it is: right if nothing does.
pub fn swung(sound: &Sound, from: &[u8], to: &[u8]) -> Option<Tree> {
    let levels = sound.levels() + 1;
    if levels > LEVELS_MOST {
        return None;
    }
    let mut root = sound.tree.root.clone();
    let waiting = root.take_messages();
    let mut parts = cut_at_ends(root, from, to);
    let mut carried = part_at(&mut parts, from, chain(sound.levels(), from))?;
    carried.for_each_mut(&mut |node| carry(node, from, to));
    part_at(&mut parts, to, carried)?;
    let mut tree = Tree {
        levels,
        root: Node::interior(ROOT_LOW, parts, waiting),
    };
    number_new(&mut tree, sound)?;
    Some(tree)
}

/// The parts of the tree between the four ends, rising.
fn cut_at_ends(root: Node, from: &[u8], to: &[u8]) -> Vec<Node> {
    let end = |path: &[u8]| [path, &[0xFF]].concat();
    let mut ends = [from.to_vec(), end(from), to.to_vec(), end(to)];
    ends.sort_unstable();
    let mut parts = Vec::new();
    let mut rest = root;
    for at in &ends {
        let (left, right) = cut(rest, at);
        parts.extend(left);
        // The root owns every end, so that something is right of each.
        rest = right.unwrap_or_else(|| Node::leaf(at, Vec::new()));
    }
    parts.push(rest);
    parts
}

/// The node's part before this string and its part from there on. The first keeps the number.
fn cut(mut node: Node, at: &[u8]) -> (Option<Node>, Option<Node>) {
    if at <= &node.low[..] {
        return (None, Some(node));
    }
    let right = match &mut node.body {
        Body::Leaf(pairs) => {
            let first = pairs.partition_point(|pair| &pair.path[..] < at);
            Body::Leaf(pairs.split_off(first))
        }
        Body::Interior { children, .. } => {
            let first = children.partition_point(|child| &child.low[..] < at);
            let mut right = children.split_off(first);
            let across = children.pop().map(|child| cut_below(child, at, &right));
            let (before, after) = across.unwrap_or((None, None));
            children.extend(before);
            right.splice(0..0, after);
            Body::Interior {
                children: right,
                messages: Vec::new(),
            }
        }
    };
    let right = Node {
        number: 0,
        low: at.to_vec(),
        body: right,
    };
    (Some(node), Some(right))
}

/// A child that begins before the string is cut there, unless the next one begins just there.
fn cut_below(child: Node, at: &[u8], later: &[Node]) -> (Option<Node>, Option<Node>) {
    match later.first() {
        Some(next) if next.low == at => (Some(child), None),
        _ => cut(child, at),
    }
}

/// Puts another part in the place of the one that begins there, and gives that one.
fn part_at(parts: &mut [Node], low: &[u8], other: Node) -> Option<Node> {
    let part = parts.iter_mut().find(|part| part.low == low)?;
    Some(std::mem::replace(part, other))
}

/// A subtree that holds nothing, of one node at each level.
fn chain(level: u16, low: &[u8]) -> Node {
    match level {
        0 | LEAF_LEVEL => Node::leaf(low, Vec::new()),
        _ => Node::interior(low, vec![chain(level - 1, low)], Vec::new()),
    }
}

/// Every string of the node with `to` in place of `from`.
fn carry(node: &mut Node, from: &[u8], to: &[u8]) {
    let carry = |string: &mut Vec<u8>| {
        if string.starts_with(from) {
            string.splice(..from.len(), to.iter().copied());
        }
    };
    carry(&mut node.low);
    if let Body::Leaf(pairs) = &mut node.body {
        pairs.iter_mut().for_each(|pair| carry(&mut pair.path));
    }
}

/// The nodes without a number get those of free nodes.
fn number_new(tree: &mut Tree, sound: &Sound) -> Option<()> {
    let mut free = (1..sound.n as u16).filter(|i| sound.used.binary_search(i).is_err());
    let mut enough = true;
    tree.root.for_each_mut(&mut |node| {
        if node.number == 0 {
            node.number = free.next().unwrap_or(0);
            enough &= node.number != 0;
        }
    });
    enough.then_some(())
}

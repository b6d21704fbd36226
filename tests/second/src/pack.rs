// The packed form of a map: a settled tree with leaves that are full, or filled so far, nodes numbered from 1 up.
// It is what the reference store rebuilds after every call, and what tests build by hand.

use crate::limits::*;
use crate::tree::{Node, Pair, Table, Tree};

/// A store of `n` nodes that holds this map and no message; none if it does not fit.
pub fn image(table: &Table, n: usize) -> Option<Vec<u8>> {
    image_filled(table, n, ENTRY_BYTES_LIMIT)
}

/// The same with leaves that hold at most so many bytes, counted with full paths.
pub fn image_filled(table: &Table, n: usize, most: usize) -> Option<Vec<u8>> {
    let mut tree = tree(table, most);
    let used = tree.walk().len();
    let numbers: Vec<u16> = (1..=used as u16).collect();
    tree.number(&numbers);
    let mut store = vec![0; n * NODE];
    tree.write(table.len() as u16, &mut store)?;
    Some(store)
}

fn tree(table: &Table, most: usize) -> Tree {
    let mut nodes = leaves(table, most);
    let mut levels = 1;
    while nodes.len() > 1 {
        nodes = parents(nodes);
        levels += 1;
    }
    let root = nodes.pop().unwrap_or(Node::leaf(ROOT_LOW, Vec::new()));
    Tree { levels, root }
}

/// Leaves filled one after the other, reckoned as if nothing were lifted; each begins at its
/// first path, the first leaf at the root's low pivot.
fn leaves(table: &Table, most: usize) -> Vec<Node> {
    let mut leaves = Vec::new();
    let mut low = ROOT_LOW.to_vec();
    let (mut pairs, mut room) = (Vec::new(), most);
    for (path, value) in table {
        let taken = ENTRY_HEAD + 2 + path.len() + value.len();
        if taken > room {
            leaves.push(Node::leaf(&low, std::mem::take(&mut pairs)));
            low.clone_from(path);
            room = most;
        }
        room -= taken;
        pairs.push(Pair {
            path: path.clone(),
            value: value.clone(),
        });
    }
    leaves.push(Node::leaf(&low, pairs));
    leaves
}

/// The level above, filled in the same way.
fn parents(nodes: Vec<Node>) -> Vec<Node> {
    let mut parents = Vec::new();
    let (mut children, mut room) = (Vec::<Node>::new(), ENTRY_BYTES_LIMIT);
    for node in nodes {
        let taken = ENTRY_HEAD + 2 + node.low.len();
        if taken > room {
            parents.push(parent(std::mem::take(&mut children)));
            room = ENTRY_BYTES_LIMIT;
        }
        room -= taken;
        children.push(node);
    }
    parents.push(parent(children));
    parents
}

fn parent(children: Vec<Node>) -> Node {
    let low = children.first().map_or(Vec::new(), |c| c.low.clone());
    Node::interior(&low, children, Vec::new())
}

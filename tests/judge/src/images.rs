// The images that are measured, all sound: full stores, settled and with messages waiting in the root, one under a clear of everything, one of
// the longest records, and trees of seven and eight levels.

use second::limits::*;
use second::path::well_formed;
use second::quarter::Parting;
use second::rng::Rng;
use second::sound;
use second::tree::{Body, Message, Node, Pair, Table, Tree, Visit};
use second::{meaning, pack, words};

/// A settled store of n nodes that holds n paths: "the store is full".
pub fn settled(n: usize) -> Vec<u8> {
    let mut rng = Rng::new(n as u64);
    let mut table = Table::new();
    while table.len() < n {
        table.insert(words::path(&mut rng), short_value(&mut rng));
    }
    pack::image(&table, n).expect("n paths fit n nodes")
}

/// The same with the longest paths and values.
pub fn longest(n: usize) -> Vec<u8> {
    let row = |index| (Parting::Second.path(index), vec![7; VALUE_LIMIT]);
    let table: Table = (0..n).map(row).collect();
    pack::image(&table, n).expect("n paths fit n nodes")
}

/// A value as it could be before values became longer, so that what is measured can be set beside older figures.
fn short_value(rng: &mut Rng) -> Vec<u8> {
    let length = match rng.below(6) {
        0 => 0,
        1 => OLD_VALUE_LIMIT,
        2 => rng.below(OLD_VALUE_LIMIT + 1),
        _ => rng.between(1, 3),
    };
    rng.bytes(length)
}

/// The same tree below a root that is full of puts and drops.
pub fn buffered(n: usize) -> Vec<u8> {
    full_root(&settled(n), |i, path| match i % 2 {
        0 => Message::Drop { path },
        _ => Message::Put {
            path,
            value: Vec::new(),
        },
    })
}

/// The same tree below a root in which a clear of everything waits, and then as many puts as fit.
pub fn cleared(n: usize) -> Vec<u8> {
    full_root(&settled(n), |i, path| match i {
        0 => Message::Clear { path: Vec::new() },
        _ => Message::Put {
            path,
            value: Vec::new(),
        },
    })
}

/// A packed image below a root that has it as its one child and is full of messages about paths that are present.
pub fn full_root(image: &[u8], message: impl Fn(usize, Vec<u8>) -> Message) -> Vec<u8> {
    let n = image.len() / NODE;
    let sound = sound::judge(image).expect("a packed image is sound");
    let mut tree = Tree {
        levels: sound.tree.levels + 1,
        root: Node::interior(ROOT_LOW, vec![sound.tree.root], Vec::new()),
    };
    let numbers: Vec<u16> = (1..=tree.walk().len() as u16).collect();
    tree.number(&numbers);
    let paths: Vec<Vec<u8>> = sound.table.into_keys().collect();
    let mut rng = Rng::new(n as u64 + 1);
    fill(&mut tree.root, tree.levels, ROOT_HIGH, |i| {
        message(i, rng.pick(&paths).cloned().unwrap_or_default())
    });
    written(tree, n)
}

/// Eight levels; on one way down every node has several children and is full of messages.
pub fn waiting() -> Vec<u8> {
    Spine {
        levels: 8,
        children: [0, 0, 70, 60, 60, 40, 25, 15, 10],
        full: true,
    }
    .image()
}

/// Eight levels; the nodes on one way down have as many children as 1,024 nodes allow, and the way goes by the last but one of them. A
/// walk that keeps something for each child it has passed keeps the most here.
pub fn deepest() -> Vec<u8> {
    Spine {
        levels: 8,
        children: [0, 0, 144, 144, 144, 39, 1, 1, 1],
        full: false,
    }
    .image()
}

/// Seven levels, as wide as they can be while a move is held to the bound: it has a level and free nodes left to go its own way.
pub fn roomy() -> Vec<u8> {
    Spine {
        levels: 7,
        children: [0, 0, 144, 144, 130, 14, 1, 1, 0],
        full: false,
    }
    .image()
}

/// A tree with one way down: how many children the node on it has at each level, and whether these nodes are full of messages.
struct Spine {
    levels: u16,
    children: [u8; 9],
    full: bool,
}

impl Spine {
    fn image(&self) -> Vec<u8> {
        let mut tree = Tree {
            levels: self.levels,
            root: self.node(self.levels, ROOT_LOW, ROOT_HIGH),
        };
        let numbers: Vec<u16> = (1..=tree.walk().len() as u16).collect();
        tree.number(&numbers);
        written(tree, NODES_MOST)
    }

    /// A node on the way. The last child's pivot is that of the one before and FF, so that the next node on the way lifts all it can.
    fn node(&self, level: u16, low: &[u8], high: &[u8]) -> Node {
        if level == 1 {
            return leaf(low);
        }
        let count = self.children[usize::from(level)];
        if count == 1 {
            let child = self.node(level - 1, low, high);
            return Node::interior(low, vec![child], Vec::new());
        }
        let pivot = |i: u8| match i {
            0 => low.to_vec(),
            _ => [low, &[if count < 80 { b'0' } else { 0 } + i]].concat(),
        };
        let mut children: Vec<Node> = (0..count - 2)
            .map(|i| chain(level - 1, &pivot(i)))
            .collect();
        let (way, past) = (pivot(count - 2), [&pivot(count - 2), &[0xFF][..]].concat());
        children.push(self.node(level - 1, &way, &past));
        children.push(chain(level - 1, &past));
        let mut node = Node::interior(low, children, Vec::new());
        if self.full {
            let path = [&way[..], &[0]].concat();
            fill(&mut node, level, high, |_| Message::Put {
                path: path.clone(),
                value: Vec::new(),
            });
        }
        node
    }
}

/// A node of one child at each level.
fn chain(level: u16, low: &[u8]) -> Node {
    match level {
        1 => leaf(low),
        _ => Node::interior(low, vec![chain(level - 1, low)], Vec::new()),
    }
}

/// A leaf with the path that its low pivot makes, where that is a path.
fn leaf(low: &[u8]) -> Node {
    let pair = Pair {
        path: [low, &[0]].concat(),
        value: Vec::new(),
    };
    let pairs = if well_formed(&pair.path) {
        vec![pair]
    } else {
        Vec::new()
    };
    Node::leaf(low, pairs)
}

/// Appends messages to an interior node until the next one has no room.
fn fill(node: &mut Node, level: u16, high: &[u8], mut message: impl FnMut(usize) -> Message) {
    for i in 0.. {
        let before = node.clone();
        let Body::Interior { messages, .. } = &mut node.body else {
            return;
        };
        messages.push(message(i));
        let visit = Visit {
            node,
            level,
            low: &node.low,
            high,
        };
        let length = visit.entry_bytes().map_or(usize::MAX, |bytes| bytes.len());
        if length > ENTRY_BYTES_LIMIT {
            *node = before;
            return;
        }
    }
}

fn written(tree: Tree, n: usize) -> Vec<u8> {
    let mut store = vec![0; n * NODE];
    let live = meaning::table(&tree.root).len() as u16;
    tree.write(live, &mut store).expect("the tree fits");
    sound::judge(&store).expect("the image is sound");
    store
}

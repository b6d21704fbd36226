// Small images of 32 nodes for a proof checker to compute on: sound ones, built by hand, that show
// the corners of the layout; those after upkeep of them; and damaged ones, each by another rule.

use crate::limits::*;
use crate::meaning;
use crate::mutate;
use crate::path::from_text;
use crate::sound::Rule;
use crate::tree::{Message, Node, Pair, Tree};
use crate::upkept;

pub struct Example {
    pub name: &'static str,
    pub shows: String,
    pub image: Vec<u8>,
}

const N: usize = NODES_LEAST;

/// All examples; those built first are what the others are made from.
pub fn all() -> Vec<Example> {
    let sound = sound_examples();
    let upkept = upkept::examples(&sound);
    let damaged: Vec<Example> = DAMAGES.iter().filter_map(|d| d.apply(&sound)).collect();
    sound.into_iter().chain(upkept).chain(damaged).collect()
}

fn sound_examples() -> Vec<Example> {
    let example = |name, shows: &str, image| Example {
        name,
        shows: shows.to_string(),
        image,
    };
    vec![
        example("made", "just made: the root is an empty leaf", made()),
        example("one_leaf", "a single leaf with pairs", one_leaf()),
        example(
            "two_levels",
            "messages of all kinds wait at the root, a clear of all before the last puts",
            two_levels(),
        ),
        example(
            "three_levels",
            "messages wait at two levels; clears at, under and above a lifted prefix; \
             an empty leaf, an only child, a pivot of 65 bytes",
            three_levels(),
        ),
        example(
            "long_pivot",
            "settled, with pivots longer than a path, as after a move",
            long_pivot(),
        ),
        example(
            "four_levels",
            "messages at three levels speak of the same paths; a one-child chain; \
             garbage in free nodes",
            four_levels(),
        ),
        example(
            "long_values",
            "values as long as they may be and as they could be before, in a leaf and waiting",
            long_values(),
        ),
    ]
}

/// A damage done to one of the sound examples.
struct Damage {
    name: &'static str,
    rule: Rule,
    from: &'static str,
}

const fn damage(name: &'static str, rule: Rule, from: &'static str) -> Damage {
    Damage { name, rule, from }
}

const DAMAGES: [Damage; 8] = [
    damage("bad_live_count", Rule::LiveCount, "two_levels"),
    damage("bad_reached_once", Rule::ReachedOnce, "two_levels"),
    damage("bad_pair_order", Rule::PairOrder, "one_leaf"),
    damage("bad_put_owned", Rule::PutOwned, "three_levels"),
    damage("bad_clear_shape", Rule::ClearShape, "two_levels"),
    damage("bad_node_zeros", Rule::NodeZeros, "long_pivot"),
    damage("bad_pair_value", Rule::PairValue, "long_values"),
    damage("bad_put_value", Rule::PutValue, "long_values"),
];

/// Of the damages that these seeds give, the one with the shortest print is taken.
const SEEDS: u64 = 20;

/// How many bytes of an image are printed: each node up to its last that is not zero.
fn printed_bytes(image: &[u8]) -> usize {
    let last = |node: &[u8]| node.iter().rposition(|b| *b != 0).map_or(0, |at| at + 1);
    image.chunks(NODE).map(last).sum()
}

impl Damage {
    fn apply(&self, sound: &[Example]) -> Option<Example> {
        let from = sound.iter().find(|e| e.name == self.from)?;
        let damaged = (0..SEEDS).filter_map(|seed| mutate::damage(self.rule, &from.image, seed));
        Some(Example {
            name: self.name,
            shows: format!("{} with {} broken", self.from, self.rule.name()),
            image: damaged.min_by_key(|image| printed_bytes(image))?,
        })
    }
}

fn path(text: &str) -> Vec<u8> {
    from_text(text.as_bytes())
}

/// The high end of the range of all below a path.
fn end(text: &str) -> Vec<u8> {
    [&path(text)[..], &[0xFF]].concat()
}

fn pair(text: &str, value: &[u8]) -> Pair {
    Pair {
        path: path(text),
        value: value.to_vec(),
    }
}

fn put(text: &str, value: &[u8]) -> Message {
    Message::Put {
        path: path(text),
        value: value.to_vec(),
    }
}

fn drop(text: &str) -> Message {
    Message::Drop { path: path(text) }
}

fn clear(text: &str) -> Message {
    Message::Clear { path: path(text) }
}

/// The clear with an empty suffix, in a node that lifts this.
fn clear_all(lifted: &[u8]) -> Message {
    Message::Clear {
        path: lifted.to_vec(),
    }
}

/// Writes the tree into a store of zeros, or of garbage where the tree is not.
fn written(levels: u16, root: Node, numbers: &[u16], garbage: &[u16]) -> Vec<u8> {
    let mut tree = Tree { levels, root };
    tree.number(numbers);
    let mut image = vec![0; N * NODE];
    for number in garbage {
        let from = usize::from(*number) * NODE;
        image[from..from + 12].copy_from_slice(&[9, 0, 2, 0, 7, 0, 0, 0, 255, 1, 0, 77]);
    }
    let live = meaning::table(&tree.root).len() as u16;
    // An example that does not fit leaves a store that no test takes for sound.
    let _ = tree.write(live, &mut image);
    image
}

fn made() -> Vec<u8> {
    written(1, Node::leaf(b"", vec![]), &[1], &[])
}

fn one_leaf() -> Vec<u8> {
    let pairs = vec![
        pair("a", &[1]),
        pair("r1", b""),
        pair("r1/c7/t1", &[10]),
        pair("r1/c7/t2", b""),
        pair("r10", &[255, 0, 33]),
    ];
    written(1, Node::leaf(b"", pairs), &[5], &[])
}

fn two_levels() -> Vec<u8> {
    let first = vec![pair("a", &[1]), pair("b/x", &[2])];
    let lifted = vec![pair("r1", b""), pair("r1/a", &[3]), pair("r1/c", &[4])];
    let last = vec![pair("r10", &[5]), pair("r2/x", &[6])];
    let children = vec![
        Node::leaf(b"", first),
        Node::leaf(&path("r1"), lifted),
        Node::leaf(&end("r1"), last),
    ];
    let messages = vec![
        put("a/z", &[7]),
        drop("r1/a"),
        clear("r2"),
        clear_all(b""),
        put("r1", &[9]),
        put("r1/b", &[7, 7]),
        put("r2/x", b""),
        put("r10/q", &[8]),
        drop("r10/q"),
        clear("b"),
        put("a", &[11]),
    ];
    let root = Node::interior(b"", children, messages);
    written(2, root, &[1, 2, 3, 4], &[])
}

/// 64 bytes: three components of sixteen and one of twelve.
const LONGEST: &str = "v234567890123456/v234567890123456/v234567890123456/v23456789012";

fn three_levels() -> Vec<u8> {
    let chain = Node::interior(
        b"",
        vec![Node::leaf(b"", vec![pair("a", &[1]), pair("b", &[2])])],
        vec![],
    );
    let root = Node::interior(
        b"",
        vec![chain, below_r1(), past_r1(), past_longest()],
        vec![
            put("a/x", &[9]),
            clear("r1/d"),
            drop("b"),
            put(LONGEST, &[10]),
        ],
    );
    let numbers = [3, 4, 5, 6, 7, 8, 9, 10, 12, 13, 14, 15, 16];
    written(3, root, &numbers, &[])
}

/// Lifts r1; a clear waits for exactly what its middle child lifts.
fn below_r1() -> Node {
    let children = vec![
        Node::leaf(&path("r1"), vec![pair("r1", &[1]), pair("r1/a", &[2])]),
        Node::leaf(
            &path("r1/c"),
            vec![pair("r1/c", &[3]), pair("r1/c/k", &[4])],
        ),
        Node::leaf(&end("r1/c"), vec![pair("r1/d", &[5]), pair("r1/d/e", &[6])]),
    ];
    let messages = vec![
        put("r1", &[7]),
        clear("r1/c"),
        put("r1/c/m", &[8]),
        drop("r1/a"),
    ];
    Node::interior(&path("r1"), children, messages)
}

/// A clear of t waits, shorter than the t/u that the second child lifts.
fn past_r1() -> Node {
    let children = vec![
        Node::leaf(&end("r1"), vec![pair("r10", &[1]), pair("s", b"")]),
        Node::leaf(&path("t/u"), vec![pair("t/u", &[2]), pair("t/u/a", &[2])]),
        Node::leaf(&end("t/u"), vec![pair("t/v", &[3]), pair("u", &[3])]),
    ];
    let messages = vec![put("t/u/a", &[3]), clear("t"), put("t/u/b", &[4])];
    Node::interior(&end("r1"), children, messages)
}

/// Its low pivot has 65 bytes; an empty clear waits, older than a put.
fn past_longest() -> Node {
    let low = end(LONGEST);
    let leaf = Node::leaf(&low, vec![]);
    Node::interior(&low, vec![leaf], vec![clear_all(b""), put("z", &[5])])
}

fn long_pivot() -> Vec<u8> {
    const TO: &str = "t234567890123456/t23456789012345";
    let rest = path("m234567890123456/m234567890123456/m2345678901234");
    let to = path(TO);
    let middle = [&to[..], &rest].concat();
    let past = [&middle[..], &[0xFF]].concat();
    let row = |rest: &str, value: u8| pair(&format!("{TO}/{rest}"), &[value]);
    let moved = Node::interior(
        &to,
        vec![
            Node::leaf(&to, vec![row("a", 1), row("b", 2)]),
            Node::leaf(&middle, vec![]),
            Node::leaf(&past, vec![row("x", 3), row("y/z", 4)]),
        ],
        vec![],
    );
    let only = |low: &[u8], pairs| Node::interior(low, vec![Node::leaf(low, pairs)], vec![]);
    let root = Node::interior(
        b"",
        vec![
            only(b"", vec![pair("a", &[5])]),
            moved,
            only(&end(TO), vec![pair("u", &[6])]),
        ],
        vec![],
    );
    written(3, root, &[9, 2, 3, 4, 5, 6, 7, 1, 8], &[])
}

fn four_levels() -> Vec<u8> {
    let low_leaves = vec![
        Node::leaf(b"", vec![pair("a", &[1]), pair("c", &[1])]),
        Node::leaf(&path("e"), vec![pair("e", &[1]), pair("g", &[1])]),
    ];
    let second = Node::interior(
        b"",
        low_leaves,
        vec![put("a", &[2]), put("c", &[2]), drop("g")],
    );
    let third = Node::interior(b"", vec![second], vec![drop("a"), put("e", &[3])]);
    let m = path("m");
    let in_m = Node::interior(
        &m,
        vec![Node::leaf(&m, vec![pair("m", &[1]), pair("m/x", &[1])])],
        vec![clear_all(&m), put("m/x", &[2])],
    );
    let past = Node::interior(
        &end("m"),
        vec![Node::leaf(&end("m"), vec![pair("n", &[1])])],
        vec![],
    );
    let right = Node::interior(
        &m,
        vec![in_m, past],
        vec![put("m/y", &[3]), clear("n"), put("n/o", &[3])],
    );
    let q = path("q");
    let chain = Node::interior(&q, vec![Node::leaf(&q, vec![pair("q", &[1])])], vec![]);
    let chain = Node::interior(&q, vec![chain], vec![put("q/r", &[3])]);
    let root = Node::interior(
        b"",
        vec![third, right, chain],
        vec![put("a", &[4]), drop("m/y"), put("c/d", &[4])],
    );
    let numbers = [31, 7, 30, 8, 29, 9, 28, 10, 27, 11, 26, 13, 25];
    written(4, root, &numbers, &[1, 12])
}

/// A put of the greatest length waits for a path with a shorter value.
fn long_values() -> Vec<u8> {
    let value = |length: usize| -> Vec<u8> { (1..=length as u8).collect() };
    let pairs = vec![
        pair("a", &value(OLD_VALUE_LIMIT)),
        pair("b", &value(OLD_VALUE_LIMIT + 1)),
        pair("c", &value(VALUE_LIMIT)),
    ];
    let messages = vec![
        put("a", &value(VALUE_LIMIT)),
        put("d", &value(OLD_VALUE_LIMIT)),
    ];
    let root = Node::interior(b"", vec![Node::leaf(b"", pairs)], messages);
    written(2, root, &[1, 2], &[])
}

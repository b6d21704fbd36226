// Small images to look at: a tree with messages waiting, one that was wiped, the same log before
// and after a move of a closure, one whose ends lie inside leaves, a large one before and after,
// unsound ones and a generated one. Built with tests/second's tree.

use second::feature::Feature;
use second::generate;
use second::image;
use second::limits::{ENTRY_HEAD, NODE, NODE_HEAD};
use second::meaning;
use second::mutate;
use second::path::from_text;
use second::sound::{judge, Rule};
use second::swing;
use second::tree::{Message, Node, Pair, Tree};

const N: usize = 32;

/// Where the live count stands.
const LIVE_AT: usize = 10;

/// Each with a file name.
pub fn all() -> Vec<(&'static str, Vec<u8>)> {
    let (before, after) = moved();
    let (large, large_after) = large();
    let (cut_before, cut_after) = cut();
    let unsound = mutate::damage(Rule::PutOwned, &waiting(), 3).unwrap_or_default();
    vec![
        ("waiting.img", waiting()),
        ("wiped.img", wiped()),
        ("refilled.img", refilled()),
        ("before.img", before),
        ("after.img", after),
        ("large.img", large),
        ("large-after.img", large_after),
        ("cut-before.img", cut_before),
        ("cut-after.img", cut_after),
        ("unsound.img", unsound),
        ("miscounted.img", miscounted()),
        ("unreadable.img", unreadable(waiting(), 7, 2)),
        (
            "generated.img",
            generate::preset(Feature::WaitingEverywhere, 2),
        ),
    ]
}

fn path(text: &str) -> Vec<u8> {
    from_text(text.as_bytes())
}

/// The end of the range of all below a path.
fn end(text: &str) -> Vec<u8> {
    [&path(text)[..], &[0xFF]].concat()
}

/// A leaf of records below one path, each with the bytes of a loss figure.
fn leaf(low: &[u8], top: &str, records: &[(&str, &[u8])]) -> Node {
    let pair = |(rest, value): &(&str, &[u8])| Pair {
        path: path(&format!("{top}{rest}")),
        value: value.to_vec(),
    };
    Node::leaf(low, records.iter().map(pair).collect())
}

fn put(text: &str, value: &[u8]) -> Message {
    let (path, value) = (path(text), value.to_vec());
    Message::Put { path, value }
}

fn image_of(root: Node, numbers: &[u16]) -> Vec<u8> {
    let mut image = vec![0; N * NODE];
    write(root, numbers, &mut image);
    image
}

fn write(root: Node, numbers: &[u16], image: &mut [u8]) {
    write_levels(3, root, numbers, image);
}

/// Writes over an image, so that nodes that are not in the tree keep their bytes.
fn write_levels(levels: u16, root: Node, numbers: &[u16], image: &mut [u8]) {
    let mut tree = Tree { levels, root };
    tree.number(numbers);
    let live = meaning::table(&tree.root).len() as u16;
    // Samples that did not fit would be unsound, which the tests would tell.
    let _ = tree.write(live, image);
}

/// The closure c7 of route r1, with four trays in two leaves. No byte in it names r1 or c7.
fn closure(top: &str, messages: Vec<Message>) -> Node {
    let low = path(top);
    let middle = path(&format!("{top}/t3"));
    let top = format!("{top}/");
    let first: [(&str, &[u8]); 4] = [
        ("t1/f1", &[0x0a]),
        ("t1/f2", &[0x0b]),
        ("t2/f1", &[0x1c]),
        ("t2/f2", &[]),
    ];
    let second: [(&str, &[u8]); 3] = [("t3/f1", &[0x2d]), ("t3/f2", &[0x2e]), ("t4/f1", &[0x3f])];
    let leaves = vec![leaf(&low, &top, &first), leaf(&middle, &top, &second)];
    Node::interior(&low, leaves, messages)
}

fn first_closures() -> Node {
    let records: [(&str, &[u8]); 3] = [
        ("c1/t1/f1", &[0x11]),
        ("c1/t1/f2", &[0x12]),
        ("c4/t1/f1", &[0x41]),
    ];
    Node::interior(b"", vec![leaf(b"", "r1/", &records)], vec![])
}

/// Three levels; newer messages wait above older records.
pub fn waiting() -> Vec<u8> {
    let drop = Message::Drop {
        path: path("r1/c7/t4/f1"),
    };
    let clear = Message::Clear {
        path: path("r2/c2"),
    };
    waiting_below(vec![
        put("r2/c5/t1/f1", &[0xa1]),
        drop,
        clear,
        put("r1/c4/t1/f1", &[0x42]),
    ])
}

/// The same log after a clear of the empty path, which waits in the root behind a put.
pub fn wiped() -> Vec<u8> {
    let everything = Message::Clear { path: Vec::new() };
    waiting_below(vec![put("r2/c5/t1/f1", &[0xa1]), everything])
}

/// The same with a record that was put after the clear.
pub fn refilled() -> Vec<u8> {
    let everything = Message::Clear { path: Vec::new() };
    waiting_below(vec![everything, put("r1/c4/t1/f1", &[0x42])])
}

/// Three levels, with these messages in the root.
fn waiting_below(messages: Vec<Message>) -> Vec<u8> {
    let in_closure = vec![
        put("r1/c7/t1/f2", &[0x77]),
        Message::Clear {
            path: path("r1/c7/t3"),
        },
        put("r1/c7/t3/f2", &[0x78]),
    ];
    let low = end("r1/c7");
    let rest: [(&str, &[u8]); 2] = [("r1/c8/t1/f1", &[0x81]), ("r1/c8/t1/f2", &[0x82])];
    let route: [(&str, &[u8]); 2] = [("c2/t1/f1", &[0x91]), ("c2/t2/f1", &[0x92])];
    let leaves = vec![leaf(&low, "", &rest), leaf(&path("r2"), "r2/", &route)];
    let last = Node::interior(
        &low,
        leaves,
        vec![Message::Drop {
            path: path("r1/c8/t1/f2"),
        }],
    );
    let root = Node::interior(
        b"",
        vec![first_closures(), closure("r1/c7", in_closure), last],
        messages,
    );
    image_of(root, &[1, 2, 3, 5, 6, 7, 9, 10, 11])
}

/// The log before and after the move of r1/c7 to r1/c9.
pub fn moved() -> (Vec<u8>, Vec<u8>) {
    let eighth: [(&str, &[u8]); 2] = [("r1/c8/t1/f1", &[0x81]), ("r1/c8/t1/f2", &[0x82])];
    let route: [(&str, &[u8]); 2] = [("r2/c2/t1/f1", &[0x91]), ("r2/c2/t2/f1", &[0x92])];
    let (past, next) = (end("r1/c7"), end("r1/c9"));
    let leaves = vec![leaf(&past, "", &eighth), leaf(&path("r2"), "", &route)];
    let last = Node::interior(&past, leaves, vec![]);
    let root = Node::interior(
        b"",
        vec![first_closures(), closure("r1/c7", vec![]), last],
        vec![],
    );
    let before = image_of(root, &[1, 2, 3, 5, 6, 7, 9, 10, 11]);

    let left = Node::interior(&past, vec![leaf(&past, "", &eighth)], vec![]);
    let right = Node::interior(&next, vec![leaf(&next, "", &route)], vec![]);
    let children = vec![first_closures(), left, closure("r1/c9", vec![]), right];
    let root = Node::interior(b"", children, vec![]);
    let mut after = before.clone();
    write(root, &[1, 2, 3, 9, 10, 5, 6, 7, 12, 11], &mut after);
    (before, after)
}

/// Node 0 counts a path too many; all else is sound.
pub fn miscounted() -> Vec<u8> {
    let mut image = waiting();
    let live = u16::from_le_bytes([image[LIVE_AT], image[LIVE_AT + 1]]) + 1;
    image[LIVE_AT..LIVE_AT + 2].copy_from_slice(&live.to_le_bytes());
    image
}

/// An entry of a node, counted from 1, has a kind that no entry has.
pub fn unreadable(mut image: Vec<u8>, number: u16, entry: usize) -> Vec<u8> {
    let mut at = usize::from(number) * NODE + NODE_HEAD;
    for _ in 1..entry {
        at += ENTRY_HEAD + usize::from(image::word(&image, at));
    }
    image[at + 2..at + 4].fill(0xFF);
    image
}

/// Two leaves: all below r1/k2 stands in the second, node 2.
pub fn halves() -> Vec<u8> {
    let leaves = vec![
        leaf(b"", "r1/", &[("k1/t1", &[0x11])]),
        leaf(
            &path("r1/k2/t1"),
            "r1/",
            &[("k2/t1", &[0x21]), ("k2/t2", &[0x22])],
        ),
    ];
    let mut image = vec![0; N * NODE];
    let root = Node::interior(b"", leaves, vec![]);
    write_levels(2, root, &[3, 1, 2], &mut image);
    image
}

/// The log before and after the move of r1/k2 to r1/k7, by the second program's own swing: the
/// leaf at each end of r1/k2 holds records of a neighbour too.
pub fn cut() -> (Vec<u8>, Vec<u8>) {
    let value: &[u8] = &[0x2a];
    let (first, second) = (["1/t1", "1/t2", "2/t1"], ["2/t2", "2/t3"]);
    let third = ["2/t5", "3/t1"];
    let leaf_of = |low: &str, records: &[&'static str]| {
        let low = if low.is_empty() {
            Vec::new()
        } else {
            path(low)
        };
        let records: Vec<_> = records.iter().map(|rest| (*rest, value)).collect();
        leaf(&low, "r1/k", &records)
    };
    let leaves = vec![
        leaf_of("", &first),
        leaf_of("r1/k2/t2", &second),
        leaf_of("r1/k2/t5", &third),
    ];
    let root = Node::interior(b"", leaves, vec![]);
    let mut before = vec![0; N * NODE];
    write_levels(2, root, &[4, 1, 2, 3], &mut before);
    let mut after = before.clone();
    let sound = judge(&before).ok();
    let tree = sound.and_then(|sound| swing::swung(&sound, &path("r1/k2"), &path("r1/k7")));
    // A move that did not fit would leave the image as it was, which the tests would tell.
    let _ = tree.and_then(|tree| tree.write(7, &mut after));
    (before, after)
}

/// Ten routes of ten closures of nine trays, a leaf each: 1,011 reachable nodes of 1,024. After
/// it, one tray in the middle has another record.
pub fn large() -> (Vec<u8>, Vec<u8>) {
    let numbers: Vec<u16> = (1..1024).rev().collect();
    let mut before = vec![0; 1024 * NODE];
    write_levels(4, routes(&[1]), &numbers, &mut before);
    let mut after = before.clone();
    write_levels(4, routes(&[2, 3]), &numbers, &mut after);
    (before, after)
}

fn routes(record: &[u8]) -> Node {
    let route = |r: usize| {
        let top = format!("r{r}");
        let low = if r == 0 { Vec::new() } else { path(&top) };
        let closures = (10..20).map(|c| {
            trays(
                &top,
                c,
                if c == 10 {
                    low.clone()
                } else {
                    path(&format!("{top}/c{c}"))
                },
                record,
            )
        });
        let newer = vec![put(&format!("{top}/c14/t5/f1"), &[0xee])];
        Node::interior(&low, closures.collect(), newer)
    };
    Node::interior(
        b"",
        (0..10).map(route).collect(),
        vec![put("r4/c12/t3/f2", &[0xcc])],
    )
}

fn trays(top: &str, closure: usize, low: Vec<u8>, record: &[u8]) -> Node {
    let tray = |t: usize| {
        let top = format!("{top}/c{closure}/t{t}");
        let low = if t == 1 { low.clone() } else { path(&top) };
        let value = if top == "r5/c15/t5" { record } else { &[7, 7] };
        leaf(&low, &top, &[("/f1", value)])
    };
    Node::interior(&low, (1..10).map(tray).collect(), vec![])
}

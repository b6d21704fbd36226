// The rules of flush and heal on small trees: what they must let pass, and the wrong images that
// look right to a rule that asks one level or one node alone.

use second::examples::all;
use second::limits::*;
use second::sound::{judge, Sound};
use second::tree::{Message, Node, Pair, Tree};
use second::upkeep::{fitting_neighbours, flushed, healed, none_waits};
use second::upkept::{Change, Kept, CHANGES};
use second::{meaning, wrong};

fn pair(path: &[u8], value: &[u8]) -> Pair {
    Pair {
        path: path.to_vec(),
        value: value.to_vec(),
    }
}

fn put(path: &[u8]) -> Message {
    Message::Put {
        path: path.to_vec(),
        value: vec![1],
    }
}

fn written(levels: u16, mut root: Node, numbers: &[u16]) -> Sound {
    let mut numbers = numbers.iter().copied();
    root.for_each_mut(&mut |node| node.number = numbers.next().expect("a number for each"));
    image_of(&Tree { levels, root })
}

fn image_of(tree: &Tree) -> Sound {
    let mut image = vec![0; NODES_LEAST * NODE];
    let live = meaning::table(&tree.root).len() as u16;
    tree.write(live, &mut image).expect("it fits");
    judge(&image).unwrap_or_else(|rule| panic!("unsound: {}", rule.name()))
}

/// Node 1 over the leaves 2 and 3, which would fit in one; a put of b waits in it.
fn waiting() -> Sound {
    let leaves = vec![
        Node::leaf(ROOT_LOW, vec![pair(b"a\0", &[1])]),
        Node::leaf(b"m\0", vec![pair(b"m\0", &[2])]),
    ];
    let root = Node::interior(ROOT_LOW, leaves, vec![put(b"b\0")]);
    written(2, root, &[1, 2, 3])
}

/// The paper's sentence on one level alone, which was all the rule once.
fn none_waits_in_level(before: &Sound, after: &Sound) -> bool {
    let node = before.tree.find(1).expect("it is there");
    none_waits(&node, after).is_ok()
}

#[test]
fn a_flush_by_raising_the_node_is_wrong() {
    let before = waiting();
    let after = image_of(&wrong::level_between(&before).expect("there is room"));
    let node = after.tree.find(1).expect("it is there");
    assert_eq!((node.level, node.node.messages().len()), (3, 1));
    assert_eq!(before.table, after.table);
    assert!(none_waits_in_level(&before, &after));
    let wrong = flushed(1, &before, &after).expect_err("it keeps its message");
    assert!(wrong.contains("node 1 holds a message"), "{wrong}");
}

#[test]
fn a_flush_into_a_new_root_is_wrong() {
    let before = waiting();
    let after = image_of(&wrong::messages_lifted(&before).expect("there is room"));
    let node = after.tree.find(1).expect("it is there");
    assert_eq!((node.level, node.node.messages().len()), (2, 0));
    assert_eq!(before.table, after.table);
    assert!(none_waits_in_level(&before, &after));
    let wrong = flushed(1, &before, &after).expect_err("the root gained it");
    assert!(wrong.contains("node 4 gained a message"), "{wrong}");
}

#[test]
fn a_heal_by_a_level_between_is_wrong() {
    let before = waiting();
    let after = image_of(&wrong::level_between(&before).expect("there is room"));
    let (was, is) = (before.tree.find(1), after.tree.find(1));
    let (was, is) = (was.expect("it was there"), is.expect("it is there"));
    assert_eq!((was.low, was.high), (is.low, is.high));
    assert!(fitting_neighbours(&was).is_some() && fitting_neighbours(&is).is_none());
    let wrong = healed(1, &before, &after).expect_err("it rose");
    assert!(wrong.contains("another level"), "{wrong}");
}

/// Node 1 over node 2, which is over the leaf 3; a put waits in each.
fn two_waiting() -> Sound {
    let leaf = Node::leaf(ROOT_LOW, vec![]);
    let middle = Node::interior(ROOT_LOW, vec![leaf], vec![put(b"a\0")]);
    let root = Node::interior(ROOT_LOW, vec![middle], vec![put(b"b\0")]);
    written(3, root, &[1, 2, 3])
}

/// The same with other messages in nodes 1 and 2.
fn held(root: &[&[u8]], middle: &[&[u8]], rows: &[&[u8]]) -> Sound {
    let messages = |paths: &[&[u8]]| paths.iter().map(|p| put(p)).collect::<Vec<_>>();
    let leaf = Node::leaf(ROOT_LOW, rows.iter().map(|p| pair(p, &[1])).collect());
    let middle = Node::interior(ROOT_LOW, vec![leaf], messages(middle));
    let root = Node::interior(ROOT_LOW, vec![middle], messages(root));
    written(3, root, &[1, 2, 3])
}

#[test]
fn a_flush_hands_down_and_nothing_up() {
    let before = two_waiting();
    let right = held(&[], &[b"a\0", b"b\0"], &[]);
    assert_eq!(flushed(1, &before, &right), Ok(()));
    let deeper = held(&[], &[], &[b"a\0", b"b\0"]);
    assert_eq!(flushed(1, &before, &deeper), Ok(()));
    let middle = held(&[b"b\0"], &[], &[b"a\0"]);
    assert_eq!(flushed(2, &before, &middle), Ok(()));
    let up = held(&[b"a\0", b"b\0"], &[], &[]);
    assert!(flushed(2, &before, &up).is_err(), "a went to the root");
    let twice = held(&[b"b\0", b"b\0"], &[], &[b"a\0"]);
    assert!(flushed(2, &before, &twice).is_err(), "b stands there twice");
}

#[test]
fn a_heal_may_drop_messages_and_gains_none() {
    let before = two_waiting();
    assert_eq!(healed(1, &before, &before), Ok(()));
    let settled = held(&[], &[], &[b"a\0", b"b\0"]);
    assert_eq!(healed(1, &before, &settled), Ok(()));
    let down = held(&[], &[b"a\0", b"b\0"], &[]);
    assert!(healed(1, &before, &down).is_err(), "node 2 gained b");
}

/// Two leaves that together take so many bytes: 26 pairs of 8 bytes and their values.
fn two_leaves(bytes: usize) -> Sound {
    let mut left = bytes - 26 * 8;
    let mut pairs: Vec<Pair> = Vec::new();
    for letter in b'a'..=b'z' {
        let length = left.min(VALUE_LIMIT);
        left -= length;
        pairs.push(pair(&[letter, 0], &vec![7; length]));
    }
    let right = pairs.split_off(13);
    let leaves = vec![Node::leaf(ROOT_LOW, pairs), Node::leaf(b"n\0", right)];
    written(2, Node::interior(ROOT_LOW, leaves, vec![]), &[1, 2, 3])
}

/// Two neighbours without messages; the right one lifts r, and has a pivot of this length, which
/// the joined node would not lift.
fn long_right_pivot(length: usize) -> Sound {
    let pivot = [&b"r\0"[..], &vec![b'p'; length - 2]].concat();
    let over = |low: &[u8], lows: &[&[u8]]| {
        let leaves = lows.iter().map(|low| Node::leaf(low, vec![])).collect();
        Node::interior(low, leaves, vec![])
    };
    let children = vec![
        over(ROOT_LOW, &[ROOT_LOW]),
        over(b"r\0", &[b"r\0", &pivot]),
        over(b"r\0\xFF", &[b"r\0\xFF"]),
    ];
    let root = Node::interior(ROOT_LOW, children, vec![]);
    written(3, root, &[1, 2, 3, 4, 5, 6, 7, 8])
}

#[test]
fn neighbours_fit_up_to_the_limits() {
    let fitting = |sound: Sound| fitting_neighbours(&sound.tree.root_visit());
    assert_eq!(fitting(two_leaves(ENTRY_BYTES_LIMIT)), Some((2, 3)));
    assert_eq!(fitting(two_leaves(ENTRY_BYTES_LIMIT + 1)), None);
    assert_eq!(fitting(long_right_pivot(PIVOT_LIMIT)), Some((2, 4)));
    assert_eq!(fitting(long_right_pivot(PIVOT_LIMIT + 1)), None);
}

fn kept(name: &str) -> Kept {
    let change: &Change = CHANGES.iter().find(|c| c.name == name).expect("a change");
    change
        .kept(&all())
        .expect("both images are there and sound")
}

#[test]
fn the_printed_changes_are_what_they_should_be() {
    let right = [
        "flush_two_levels",
        "flush_three_levels",
        "flush_four_levels",
    ];
    assert!(right.iter().all(|name| kept(name).flushed));
    let right = ["heal_two_levels", "heal_long_pivot", "heal_nothing_fits"];
    assert!(right.iter().all(|name| kept(name).healed));
    let wrong = ["flush_nothing", "flush_raised", "flush_lifted"];
    assert!(wrong.iter().all(|name| !kept(name).flushed));
    assert!(kept("flush_raised").none_waits && kept("flush_lifted").none_waits);
    let wrong = ["heal_nothing", "heal_level_between"];
    assert!(wrong.iter().all(|name| !kept(name).healed));
    assert!(kept("heal_long_pivot").changed > 0);
}

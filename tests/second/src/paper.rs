// The paper's table of thirteen cases, run on any subject that has the calls: each case gives
// what went wrong, in words.

use crate::generate;
use crate::limits::*;
use crate::path::common_beginning;
use crate::plain::Call;
use crate::plan::Plan;
use crate::rng::Rng;
use crate::script::Script;
use crate::subject::Subject;
use crate::tree::{Message, Node, Tree};
use std::fmt::Debug;

/// A case: tries a subject; the error says in words what went wrong.
pub type Case = fn(&mut dyn Subject) -> Result<(), String>;

/// The cases with the paper's numbers.
pub const CASES: [(u32, Case); 13] = [
    (1, nodes),
    (2, empty_path),
    (3, component_limit),
    (4, path_limit),
    (5, component_count),
    (6, moved_range),
    (7, clear_spares_namesakes),
    (8, move_replaces),
    (9, move_into_itself),
    (10, move_of_absent),
    (11, move_too_long),
    (12, waiting_clear),
    (13, full_table),
];

pub fn expect<T: PartialEq + Debug>(what: &str, found: T, expected: T) -> Result<(), String> {
    if found == expected {
        return Ok(());
    }
    Err(format!("{what}: {found:?}, expected {expected:?}"))
}

fn nodes(subject: &mut dyn Subject) -> Result<(), String> {
    for (n, number) in [(31, 1), (32, 0), (1024, 0), (1025, 1)] {
        let (found, _) = subject.make(&mut vec![0; n * NODE]);
        expect(&format!("make of {n} nodes"), found, number)?;
    }
    Ok(())
}

/// Put, drop, get and move refuse it; clear takes it, and next as its first one.
fn empty_path(subject: &mut dyn Subject) -> Result<(), String> {
    let mut script = Script::made(subject, 32)?;
    expect("put of r1/a", script.put("r1/a", &[1])?, 0)?;
    let (path, buffer) = (Vec::new(), vec![0; GET_BUFFER]);
    let get = Call::Get { path, buffer };
    expect("put", script.put("/", &[1])?, 3)?;
    expect("drop", script.drop("/")?, 3)?;
    expect("get", script.call(&get)?.0.number, 3)?;
    for (from, to) in [("/", "r2"), ("r1", "/"), ("/", "/")] {
        expect(&format!("move {from} {to}"), script.move_(from, to)?, 3)?;
    }
    expect("next", script.next("/")?, Some(b"r1\0a\0".to_vec()))?;
    expect("clear", script.clear("/")?, 0)?;
    expect("next after it", script.next("/")?, None)
}

/// Puts a path and expects it taken or refused with 3.
fn put_of(subject: &mut dyn Subject, text: &str, number: u32) -> Result<(), String> {
    let mut script = Script::made(subject, 32)?;
    expect(text, script.put(text, &[1])?, number)
}

fn component(length: usize) -> String {
    "c".repeat(length)
}

fn component_limit(subject: &mut dyn Subject) -> Result<(), String> {
    put_of(subject, &component(16), 0)?;
    put_of(subject, &component(17), 3)
}

fn path_limit(subject: &mut dyn Subject) -> Result<(), String> {
    let wide = component(16);
    let of = |last: usize| [&wide[..], &wide, &wide, &component(last)].join("/");
    put_of(subject, &of(12), 0)?;
    put_of(subject, &of(13), 3)
}

fn component_count(subject: &mut dyn Subject) -> Result<(), String> {
    put_of(subject, &["a"; 8].join("/"), 0)?;
    put_of(subject, &["a"; 9].join("/"), 3)
}

fn moved_range(_: &mut dyn Subject) -> Result<(), String> {
    let shared = common_beginning(b"r1\0", b"r1\0\xFF");
    expect("the common beginning", shared, 3)
}

fn clear_spares_namesakes(subject: &mut dyn Subject) -> Result<(), String> {
    let mut script = Script::made(subject, 32)?;
    for path in ["r1", "r1/a", "r10", "r10/a"] {
        expect(path, script.put(path, &[7])?, 0)?;
    }
    expect("clear", script.clear("r1")?, 0)?;
    for (path, stays) in [
        ("r1", false),
        ("r1/a", false),
        ("r10", true),
        ("r10/a", true),
    ] {
        expect(path, script.get(path)?.is_some(), stays)?;
    }
    Ok(())
}

fn move_replaces(subject: &mut dyn Subject) -> Result<(), String> {
    let mut script = Script::made(subject, 32)?;
    script.put("r1/a", &[1])?;
    script.put("r2/x", &[2])?;
    expect("move", script.move_("r1", "r2")?, 0)?;
    expect("r2/a", script.get("r2/a")?, Some(vec![1]))?;
    expect("r2/x", script.get("r2/x")?, None)?;
    expect("r1/a", script.get("r1/a")?, None)
}

fn move_into_itself(subject: &mut dyn Subject) -> Result<(), String> {
    let mut script = Script::made(subject, 32)?;
    script.put("r1/a", &[1])?;
    expect("move", script.move_("r1", "r1/x")?, 7)
}

fn move_of_absent(subject: &mut dyn Subject) -> Result<(), String> {
    let mut script = Script::made(subject, 32)?;
    script.put("r2/x", &[2])?;
    expect("move", script.move_("r1", "r2")?, 8)?;
    expect("r2/x", script.get("r2/x")?, Some(vec![2]))
}

fn move_too_long(subject: &mut dyn Subject) -> Result<(), String> {
    let wide = component(16);
    let path = ["a", &wide, &wide, &wide, &component(10)].join("/");
    let mut script = Script::made(subject, 32)?;
    script.put(&path, &[1])?;
    expect("move", script.move_("a", "bb")?, 9)
}

/// The messages wait in the root of an image made by hand, the root's buffer.
fn waiting_clear(subject: &mut dyn Subject) -> Result<(), String> {
    let put = |path: &[u8]| Message::Put {
        path: path.to_vec(),
        value: vec![1],
    };
    let clear = Message::Clear {
        path: b"r1\0".to_vec(),
    };
    let messages = vec![put(b"r1\0a\0"), clear, put(b"r1\0b\0")];
    let root = Node::interior(ROOT_LOW, vec![Node::leaf(ROOT_LOW, vec![])], messages);
    let mut tree = Tree { levels: 2, root };
    tree.number(&[1, 2]);
    let mut store = vec![0; 32 * NODE];
    tree.write(1, &mut store).ok_or("the image does not fit")?;
    let mut script = Script::on(subject, store);
    expect("r1/a", script.get("r1/a")?, None)?;
    expect("r1/b", script.get("r1/b")?, Some(vec![1]))
}

fn full_table(subject: &mut dyn Subject) -> Result<(), String> {
    let mut script = Script::made(subject, 32)?;
    for i in 0..32 {
        expect("put", script.put(&format!("p{i}"), &[i])?, 0)?;
    }
    expect("the 33rd path", script.put("q", &[1])?, 10)?;
    expect("a present path", script.put("p3", &[99])?, 0)?;
    expect("p3", script.get("p3")?, Some(vec![99]))
}

/// Every path of generated images, read one by one through the subject.
pub fn reads_all(subject: &mut dyn Subject, seed: u64) -> Result<(), String> {
    let mut rng = Rng::new(seed);
    let plan = Plan::random(&mut rng);
    let image = generate::by_plan(&plan, &mut rng);
    let mut script = Script::on(subject, image);
    for top in ["a", "r1", "b", "/"] {
        let mut after = Vec::new();
        while let Some(found) = script.next_after(top, &after)? {
            after = found;
        }
    }
    Ok(())
}

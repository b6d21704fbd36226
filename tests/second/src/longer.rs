// Longer values, request S-2, as cases in the form of `paper`: values of up to 48 bytes are taken, read, sound, carried and kept, and a byte
// more is refused. The request's numbers stand here once more, so that a wrong limit is not wrong everywhere.

use crate::calls::{clear_all, Known};
use crate::contract::check_same;
use crate::limits::{NODE, NODES_LEAST, ROOT_LOW, WORK_PER_NODE};
use crate::pack;
use crate::paper::{expect, Case};
use crate::path::from_text;
use crate::plain::{moved, Answer, Call};
use crate::script::Script;
use crate::subject::Subject;
use crate::tree::{Message, Node, Pair, Table, Tree};
use crate::words::{ONE_BYTE, TWO_BYTES};

/// The most bytes of a value, and the most that it could have before.
const MOST: usize = 48;
const OLD: usize = 32;

pub const CASES: [(&str, Case); 8] = [
    ("a put takes up to 48 bytes", put_takes),
    ("a put refuses 49 bytes and more", put_refuses),
    ("a put asks for the value in its turn", put_in_turn),
    ("a get's buffer holds 48 bytes", get_buffer),
    ("every call keeps longer values", every_call_keeps),
    ("a value of 48 bytes is sound", longest_is_sound),
    ("a value of 49 bytes is unsound", longer_is_unsound),
    ("an image of shorter values goes on", old_image),
];

/// All of them; an error names the case.
pub fn run(subject: &mut dyn Subject) -> Result<(), String> {
    for (name, case) in CASES {
        case(subject).map_err(|what| format!("{name}: {what}"))?;
    }
    Ok(())
}

/// A value of this length. Its bytes differ, so that one which is cut or shifted is told from it.
fn value(length: usize) -> Vec<u8> {
    (0..length).map(|at| (at % 251) as u8 + 1).collect()
}

/// Lengths about the limits, and such that are right where they are cut to one byte or to two.
fn too_long() -> impl Iterator<Item = usize> {
    let cut = [ONE_BYTE, TWO_BYTES].into_iter();
    let cut = cut.flat_map(|bytes| [bytes, bytes + OLD, bytes + MOST]);
    (MOST + 1..=MOST + 4).chain([2 * MOST]).chain(cut)
}

fn put_takes(subject: &mut dyn Subject) -> Result<(), String> {
    let mut script = Script::made(subject, NODES_LEAST)?;
    for length in 0..=MOST {
        let told = format!("{length} bytes");
        expect(&told, script.put("r1/a", &value(length))?, 0)?;
        expect(&told, script.get("r1/a")?, Some(value(length)))?;
    }
    Ok(())
}

fn put_refuses(subject: &mut dyn Subject) -> Result<(), String> {
    let mut script = Script::made(subject, NODES_LEAST)?;
    expect("put", script.put("r1/a", &value(OLD + 1))?, 0)?;
    for length in too_long() {
        for path in ["r1/a", "r1/b"] {
            let told = format!("put of {length} bytes to {path}");
            expect(&told, script.put(path, &value(length))?, 4)?;
        }
    }
    expect("r1/a", script.get("r1/a")?, Some(value(OLD + 1)))?;
    expect("r1/b", script.get("r1/b")?, None)
}

/// After the work area and the path, before the room.
fn put_in_turn(subject: &mut dyn Subject) -> Result<(), String> {
    let mut script = Script::made(subject, NODES_LEAST)?;
    for i in 0..NODES_LEAST {
        expect("put", script.put(&format!("p{i}"), &value(MOST))?, 0)?;
    }
    let short = Call::Put {
        path: b"q\0".to_vec(),
        value: value(MOST + 1),
        work: WORK_PER_NODE * NODES_LEAST - 1,
    };
    expect("short work area", script.call(&short)?.0.number, 1)?;
    expect("malformed", script.put("a//b", &value(MOST + 1))?, 3)?;
    expect("malformed", script.put("a//b", &value(MOST))?, 3)?;
    expect("new", script.put("q", &value(MOST + 1))?, 4)?;
    expect("new", script.put("q", &value(MOST))?, 10)?;
    expect("present", script.put("p3", &value(MOST + 1))?, 4)?;
    expect("present", script.put("p3", &value(OLD + 1))?, 0)?;
    expect("p3", script.get("p3")?, Some(value(OLD + 1)))
}

/// The number of a get into a buffer of this length.
fn number_of_get(script: &mut Script<'_>, path: &str, length: usize) -> Result<u32, String> {
    let (path, buffer) = (from_text(path.as_bytes()), vec![0xEE; length]);
    let (answer, _) = script.call(&Call::Get { path, buffer })?;
    Ok(answer.number)
}

/// However short the value is, and whether or not there is one.
fn get_buffer(subject: &mut dyn Subject) -> Result<(), String> {
    let mut script = Script::made(subject, NODES_LEAST)?;
    let present = [("e", 0), ("o", OLD), ("n", OLD + 1), ("m", MOST)];
    for (path, length) in present {
        expect(path, script.put(path, &value(length))?, 0)?;
    }
    let lengths = [0, 1].into_iter().chain(OLD - 1..=MOST + 1);
    for length in lengths.chain([64, 65, 300]) {
        let enough = length >= MOST;
        let told = format!("a buffer of {length} bytes");
        for (path, _) in present {
            let number = if enough { 0 } else { 5 };
            expect(&told, number_of_get(&mut script, path, length)?, number)?;
        }
        let absent = if enough { 8 } else { 5 };
        expect(&told, number_of_get(&mut script, "x", length)?, absent)?;
        expect(&told, number_of_get(&mut script, "/", length)?, 3)?;
    }
    Ok(())
}

/// One path for each length, through puts, moves and all upkeep, listed after each of them.
fn every_call_keeps(subject: &mut dyn Subject) -> Result<(), String> {
    let mut script = Script::made(subject, 2 * NODES_LEAST)?;
    let mut rows = Table::new();
    for length in 0..=MOST {
        let text = format!("r{}/p{length}", length % 3);
        expect(&text, script.put(&text, &value(length))?, 0)?;
        rows.insert(from_text(text.as_bytes()), value(length));
    }
    holds(&mut script, &rows)?;
    for (from, to) in [("r1", "r9"), ("r9", "a/b"), ("r2", "r1"), ("a", "r2")] {
        every_upkeep(&mut script, &rows)?;
        expect(from, script.move_(from, to)?, 0)?;
        rows = moved(
            &rows,
            &from_text(from.as_bytes()),
            &from_text(to.as_bytes()),
        );
        holds(&mut script, &rows)?;
        expect("put", script.put("r1/p", &value(MOST - 1))?, 0)?;
        rows.insert(b"r1\0p\0".to_vec(), value(MOST - 1));
    }
    every_upkeep(&mut script, &rows)
}

/// A flush and a heal of each interior node, then a settle and a tidy. A flush may take nodes away, whose numbers are then refused.
fn every_upkeep(script: &mut Script<'_>, rows: &Table) -> Result<(), String> {
    for node in Known::of(&script.store).interior {
        script.flush(node.into())?;
        script.heal(node.into())?;
    }
    holds(script, rows)?;
    expect("settle", script.settle()?, 0)?;
    expect("tidy", script.tidy()?, 0)?;
    holds(script, rows)
}

/// A listing of everything, with each value by get, is these rows.
fn holds(script: &mut Script<'_>, rows: &Table) -> Result<(), String> {
    let (mut listed, mut after) = (Table::new(), Vec::new());
    while let Some(path) = script.next_after("/", &after)? {
        let buffer = vec![0xEE; MOST];
        let get = Call::Get {
            path: path.clone(),
            buffer,
        };
        let (answer, buffer) = script.call(&get)?;
        listed.insert(path.clone(), buffer[..answer.beside as usize].to_vec());
        after = path;
    }
    match listed == *rows {
        true => Ok(()),
        false => Err("the listing is another one".into()),
    }
}

/// The path that the images hold.
const HELD: &[u8] = b"r1\0a\0";

/// An image of three levels with a value of this length: in its leaf, or waiting at the second or the third level; below a put that waits at
/// the third waits one of a byte.
fn image(level: u16, length: usize) -> Result<Vec<u8>, String> {
    let pair = Pair {
        path: HELD.to_vec(),
        value: value(length),
    };
    let put = |at: u16| Message::Put {
        path: HELD.to_vec(),
        value: value(if at == level { length } else { 1 }),
    };
    let waits = |at: u16| if at <= level { vec![put(at)] } else { vec![] };
    let pairs = if level == 1 { vec![pair] } else { vec![] };
    let middle = Node::interior(ROOT_LOW, vec![Node::leaf(ROOT_LOW, pairs)], waits(2));
    let root = Node::interior(ROOT_LOW, vec![middle], waits(3));
    let mut tree = Tree { levels: 3, root };
    tree.number(&[1, 2, 3]);
    let mut store = vec![0; NODES_LEAST * NODE];
    tree.write(1, &mut store).ok_or("the image does not fit")?;
    Ok(store)
}

/// Calls of each name that such an image accepts where it is sound.
fn calls() -> Vec<Call> {
    let work = WORK_PER_NODE * NODES_LEAST;
    let path = || HELD.to_vec();
    vec![
        Call::Get {
            path: path(),
            buffer: vec![0xEE; MOST],
        },
        Call::Next {
            path: Vec::new(),
            after: Vec::new(),
            buffer: vec![0xEE; 64],
        },
        Call::Put {
            path: b"r1\0b\0".to_vec(),
            value: value(MOST),
            work,
        },
        Call::Drop { path: path(), work },
        Call::Clear { path: path(), work },
        clear_all(work),
        Call::Move {
            from: path(),
            to: b"r2\0".to_vec(),
            work,
        },
        Call::Settle { work },
        Call::Tidy { work },
        Call::Flush { node: 1, work },
        Call::Flush { node: 2, work },
        Call::Heal { node: 1, work },
    ]
}

/// Every call on an image with a value of this length at each level answers so; check is judged with each.
fn answers(subject: &mut dyn Subject, length: usize, number: u32) -> Result<(), String> {
    for level in 1..=3 {
        let image = image(level, length)?;
        let told = |call: &str| format!("{call}, {length} bytes in level {level}");
        for call in calls() {
            let (answer, _) = Script::on(subject, image.clone()).call(&call)?;
            expect(&told(call.name()), answer.number, number)?;
        }
        let (mut first, mut second) = (image.clone(), image.clone());
        let (found, beside) = subject.same(&mut first, &mut second);
        expect(&told("same"), found, number)?;
        let answer = Answer {
            number: found,
            beside,
        };
        check_same((&image, &first), (&image, &second), answer)?;
    }
    Ok(())
}

fn longest_is_sound(subject: &mut dyn Subject) -> Result<(), String> {
    let mut lengths = [0, OLD - 1, OLD, OLD + 1, MOST - 1, MOST].into_iter();
    lengths.try_for_each(|length| answers(subject, length, 0))
}

fn longer_is_unsound(subject: &mut dyn Subject) -> Result<(), String> {
    let mut in_a_node = too_long().filter(|length| *length < TWO_BYTES);
    in_a_node.try_for_each(|length| answers(subject, length, 2))
}

/// Read, overwritten by longer values, and tidied.
fn old_image(subject: &mut dyn Subject) -> Result<(), String> {
    let row = |i: usize| (format!("r1\0p{i:02}\0").into_bytes(), value(OLD + i - 20));
    let mut rows: Table = (0..20).map(|i| row(i + 1)).collect();
    let store = pack::image(&rows, NODES_LEAST).ok_or("the image does not fit")?;
    let mut script = Script::on(subject, store);
    holds(&mut script, &rows)?;
    for i in 1..=20 {
        let (path, longer) = (format!("r1/p{i:02}"), value(MOST + i - 20));
        expect(&path, script.put(&path, &longer)?, 0)?;
        rows.insert(from_text(path.as_bytes()), longer);
    }
    holds(&mut script, &rows)?;
    expect("move", script.move_("r1", "r2")?, 0)?;
    rows = moved(&rows, b"r1\0", b"r2\0");
    every_upkeep(&mut script, &rows)
}

// Every call on stores of lengths near the least and the most, with work areas of just the length that is asked for, one byte less and
// one byte more, and buffers and values so too, and about what was asked for before values became longer: each is judged by the contract.

use second::calls::clear_all;
use second::contract::check_make;
use second::limits::*;
use second::plain::{Answer, Call};
use second::script::witnessed;
use second::stats::Stats;
use second::subject::Subject;

/// Whole nodes; one byte more and one byte less are tried too.
const NODES: [usize; 9] = [
    0,
    1,
    NODES_LEAST - 1,
    NODES_LEAST,
    NODES_LEAST + 1,
    64,
    NODES_MOST - 1,
    NODES_MOST,
    NODES_MOST + 1,
];

pub fn run(subject: &mut dyn Subject) -> Result<Stats, String> {
    let mut stats = Stats::default();
    for length in NODES.iter().flat_map(|nodes| near(nodes * NODE)) {
        on_length(subject, length, &mut stats)
            .map_err(|what| format!("a store of {length} bytes: {what}"))?;
    }
    Ok(stats)
}

/// The number, one less if it may be, and one more.
fn near(number: usize) -> impl Iterator<Item = usize> {
    number.saturating_sub(1)..=number + 1
}

fn on_length(subject: &mut dyn Subject, length: usize, stats: &mut Stats) -> Result<(), String> {
    let mut store = vec![0x5A; length];
    let before = store.clone();
    let (number, beside) = subject.make(&mut store);
    let answer = Answer { number, beside };
    check_make(&before, answer, &store)?;
    stats.count("make", answer);
    let work = WORK_PER_NODE * (length / NODE);
    let changes = near(work).flat_map(changes);
    let puts = TELLING_LENGTHS.map(|length| put(b"r1\0a\0", length, work));
    let gets = TELLING_LENGTHS.into_iter().flat_map(gets);
    let nexts = near(NEXT_BUFFER).flat_map(nexts);
    let mut calls = changes.chain(puts).chain(gets).chain(nexts);
    calls.try_for_each(|call| one(subject, &mut store, &call, stats))
}

fn one(
    subject: &mut dyn Subject,
    store: &mut [u8],
    call: &Call,
    stats: &mut Stats,
) -> Result<(), String> {
    let work = vec![0xC3; call.work().unwrap_or(0)];
    let made = witnessed(subject, store, call, &work)?;
    stats.count_made(call, &made);
    Ok(())
}

/// Of a path that is there, and of the empty one.
fn gets(length: usize) -> [Call; 2] {
    [&b"r1\0a\0"[..], b""].map(|path| Call::Get {
        path: path.to_vec(),
        buffer: vec![0xA5; length],
    })
}

fn nexts(length: usize) -> [Call; 2] {
    [&b"r1\0"[..], b""].map(|path| Call::Next {
        path: path.to_vec(),
        after: Vec::new(),
        buffer: vec![0xA5; length],
    })
}

/// A put of a value of this length.
fn put(path: &[u8], length: usize, work: usize) -> Call {
    Call::Put {
        path: path.to_vec(),
        value: vec![7; length],
        work,
    }
}

/// Every call that is lent a work area; the path a is there at the end.
fn changes(work: usize) -> Vec<Call> {
    let put = |path: &[u8]| put(path, VALUE_LIMIT, work);
    vec![
        put(b"r1\0b\0"),
        Call::Move {
            from: b"r1\0".to_vec(),
            to: b"r2\0".to_vec(),
            work,
        },
        Call::Drop {
            path: b"r2\0b\0".to_vec(),
            work,
        },
        Call::Clear {
            path: b"r2\0".to_vec(),
            work,
        },
        Call::Flush { node: 1, work },
        Call::Heal { node: 1, work },
        Call::Settle { work },
        Call::Tidy { work },
        put(b"r3\0c\0"),
        clear_all(work),
        put(b"r1\0a\0"),
    ]
}

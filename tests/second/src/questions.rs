// Every combination of what can be right and wrong with a call: each argument in each of its states, on a store of each state. Where
// several questions are a no, the first one gives the number; the contract judges it.

use crate::contract::check_same;
use crate::limits::*;
use crate::pack;
use crate::path::from_text;
use crate::plain::{Answer, Call};
use crate::script::witnessed;
use crate::stats::Stats;
use crate::subject::Subject;
use crate::tree::Table;

/// A path of 64 bytes and one of eight components; each with a beginning that can be made longer or deeper.
const LONG: &str = "r1/aaaaaaaaaaaaaaaa/aaaaaaaaaaaaaaaa/aaaaaaaaaaaaaaaa/aaaaaaaaa";
const DEEP: &str = "d/2/3/4/5/6/7/8";

/// Present, absent, the empty one, and malformed in several ways.
const PATHS: [&str; 8] = ["r1/a", "x", "r1", "/", "//", "/a", "a//b", "a/"];
const FROMS: [&str; 7] = ["r1", "r1/a", "d/2", "d", "x", "/", "r1/"];
const TOS: [&str; 9] = ["r1", "r1/a", "r1/a/b", "r2", "rr1", "x", "d/2/3", "/", "//"];

/// The lengths of values, and of a get's buffers: about the limit, and what tells it from the one before values became longer.
const VALUES: [usize; 4] = [0, OLD_VALUE_LIMIT + 1, VALUE_LIMIT, VALUE_LIMIT + 1];
const BUFFERS: [usize; 3] = [OLD_VALUE_LIMIT, GET_BUFFER - 1, GET_BUFFER];

/// Makes them all.
pub fn run(subject: &mut dyn Subject) -> Result<Stats, String> {
    let mut stats = Stats::default();
    let (stores, has) = (stores(), subject.capabilities());
    for call in calls().iter().filter(|call| has.has(call)) {
        on_each(subject, &stores, call, &mut stats)?;
    }
    for store in &stores {
        same_with_each(subject, store, &stores, &mut stats)?;
    }
    Ok(stats)
}

/// A store with room, a full one, an unsound one, one with a byte too many and one with a node too few, each with an interior root; and
/// one that holds nothing.
fn stores() -> Vec<Vec<u8>> {
    let named = ["r1/a", LONG, DEEP].map(String::from);
    let filled = (named.len()..NODES_LEAST).map(|i| format!("p{i}"));
    let row = |text: String| (from_text(text.as_bytes()), vec![7; VALUE_LIMIT]);
    let mut table: Table = named.into_iter().chain(filled).map(row).collect();
    let full = pack::image(&table, NODES_LEAST).unwrap_or_default();
    table.pop_last();
    let room = pack::image(&table, NODES_LEAST).unwrap_or_default();
    let mut unsound = room.clone();
    unsound[HEADER_BYTES - 2] -= 1;
    let odd = [&full[..], &[0]].concat();
    let short = full[NODE..].to_vec();
    let empty = pack::image(&Table::new(), NODES_LEAST).unwrap_or_default();
    vec![room, full, unsound, odd, short, empty]
}

fn on_each(
    subject: &mut dyn Subject,
    stores: &[Vec<u8>],
    call: &Call,
    stats: &mut Stats,
) -> Result<(), String> {
    let work = vec![0xC3; call.work().unwrap_or(0)];
    for store in stores {
        let made = witnessed(subject, &mut store.clone(), call, &work)?;
        stats.count_made(call, &made);
    }
    Ok(())
}

fn same_with_each(
    subject: &mut dyn Subject,
    store: &[u8],
    others: &[Vec<u8>],
    stats: &mut Stats,
) -> Result<(), String> {
    for other in others {
        let (mut a, mut b) = (store.to_vec(), other.clone());
        let (number, beside) = subject.same(&mut a, &mut b);
        let answer = Answer { number, beside };
        check_same((store, &a), (other, &b), answer)?;
        stats.count("same", answer);
    }
    Ok(())
}

fn calls() -> Vec<Call> {
    let area = WORK_PER_NODE * NODES_LEAST;
    let works = [area - 1, area, area + 5];
    let changes = works.iter().flat_map(|work| changes(*work));
    changes.chain(gets()).chain(nexts()).collect()
}

/// The paths as bytes.
fn paths(texts: &[&str]) -> Vec<Vec<u8>> {
    let path = |text: &&str| from_text(text.as_bytes());
    texts.iter().map(path).collect()
}

fn changes(work: usize) -> Vec<Call> {
    let mut calls = vec![Call::Settle { work }, Call::Tidy { work }];
    for path in paths(&PATHS) {
        calls.extend(VALUES.map(|length| Call::Put {
            path: path.clone(),
            value: vec![1; length],
            work,
        }));
        calls.push(Call::Drop {
            path: path.clone(),
            work,
        });
        calls.push(Call::Clear { path, work });
    }
    calls.extend(moves(work));
    calls.extend(nodes().flat_map(|node| [Call::Flush { node, work }, Call::Heal { node, work }]));
    calls
}

/// Each from with each to.
fn moves(work: usize) -> Vec<Call> {
    let (froms, tos) = (paths(&FROMS), paths(&TOS));
    let pairs = froms
        .iter()
        .flat_map(|from| tos.iter().map(move |to| (from, to)));
    let call = |(from, to): (&Vec<u8>, &Vec<u8>)| Call::Move {
        from: from.clone(),
        to: to.clone(),
        work,
    };
    pairs.map(call).collect()
}

/// The numbers of all nodes of the store, the first that is none's, and some that are a node's where they are cut.
fn nodes() -> impl Iterator<Item = u64> {
    let cut = [16, 32, 63]
        .into_iter()
        .flat_map(|bits| (0..4).map(move |low| (1 << bits) + low));
    (0..=NODES_LEAST as u64).chain(cut).chain([u64::MAX])
}

fn gets() -> Vec<Call> {
    let each = |path: Vec<u8>| {
        BUFFERS.map(|length| Call::Get {
            path: path.clone(),
            buffer: vec![0xA5; length],
        })
    };
    paths(&PATHS).into_iter().flat_map(each).collect()
}

fn nexts() -> Vec<Call> {
    let afters = paths(&PATHS);
    let pairs = paths(&PATHS)
        .into_iter()
        .flat_map(|path| afters.iter().map(move |a| (path.clone(), a.clone())));
    let each = |(path, after): (Vec<u8>, Vec<u8>)| {
        [NEXT_BUFFER - 1, NEXT_BUFFER].map(|length| Call::Next {
            path: path.clone(),
            after: after.clone(),
            buffer: vec![0xA5; length],
        })
    };
    pairs.flat_map(each).collect()
}

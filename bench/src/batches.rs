// What a list of calls costs as one batch, beside the same calls made one by one: a thousand puts into an empty store of 1,024 nodes, 250 steps of
// a listing with a get each, and a mixed list of a thousand. In passes over the reachable nodes of a full, settled store of that size.

use crate::{fnv, timed};
use judge::Library;
use second::batch::{most, piece, Batching};
use second::limits::*;
use second::plain::Call;
use second::rng::Rng;
use second::sound;
use second::subject::{perform, Subject};
use std::time::{Duration, Instant};

const NODES: usize = 1024;
const STEPS: usize = 250;
const CALLS: usize = 1000;
/// How often each list is made; the least time counts.
const ROUNDS: usize = 15;

pub fn print(full: &[u8]) {
    let judged = sound::judge(full).expect("the image is sound");
    let pass = timed(|| fnv(full, &judged.used)).as_secs_f64();
    let paths: Vec<Vec<u8>> = judged.table.keys().cloned().collect();
    let mut empty = vec![0; NODES * NODE];
    Library.make(&mut empty);
    println!("\nlists of calls, in passes   one by one     batch    ratio");
    for (name, store, calls) in [
        ("1,000 puts, empty store", &empty[..], puts(&paths)),
        ("250 nexts with a get each", full, listing(&paths)),
        ("1,000 mixed, full store", full, mixed(&paths)),
    ] {
        let alone = least(|| one_by_one(store, &calls));
        let together = least(|| in_a_batch(store, &calls));
        let passes = |time: Duration| time.as_secs_f64() / pass;
        let ratio = alone.as_secs_f64() / together.as_secs_f64();
        let (alone, together) = (passes(alone), passes(together));
        println!("{name:<28}{alone:>10.1}{together:>10.1}{ratio:>9.1}");
    }
}

fn least(mut run: impl FnMut() -> Duration) -> Duration {
    (0..ROUNDS).map(|_| run()).min().expect("some rounds")
}

fn one_by_one(image: &[u8], calls: &[Call]) -> Duration {
    let mut store = image.to_vec();
    let mut work = vec![0; WORK_PER_NODE * NODES];
    let mut buffer = [0; NEXT_BUFFER];
    let begun = Instant::now();
    for call in calls {
        perform(&mut Library, call, &mut store, &mut work, &mut buffer);
    }
    begun.elapsed()
}

fn in_a_batch(image: &[u8], calls: &[Call]) -> Duration {
    let mut store = image.to_vec();
    let mut work = vec![0; WORK_PER_NODE * NODES];
    let bytes = calls.iter().filter_map(piece).collect::<Vec<_>>().concat();
    let mut answers = vec![0; calls.iter().map(most).sum()];
    let begun = Instant::now();
    let done = Library.batch(&mut store, &mut work, &bytes, &mut answers);
    let took = begun.elapsed();
    assert_eq!((done.number, done.calls), (0, calls.len()));
    took
}

/// The paths in an order that is not theirs.
fn shuffled(paths: &[Vec<u8>]) -> Vec<Vec<u8>> {
    let mut paths = paths.to_vec();
    Rng::new(12).shuffle(&mut paths);
    paths
}

fn put(path: &[u8], byte: u8) -> Call {
    Call::Put {
        path: path.to_vec(),
        value: vec![byte; OLD_VALUE_LIMIT],
        work: 0,
    }
}

fn get(path: &[u8]) -> Call {
    Call::Get {
        path: path.to_vec(),
        buffer: Vec::new(),
    }
}

fn puts(paths: &[Vec<u8>]) -> Vec<Call> {
    shuffled(paths)
        .iter()
        .take(CALLS)
        .map(|path| put(path, 7))
        .collect()
}

/// The next of each path under its first component, and the value of what it finds.
fn listing(paths: &[Vec<u8>]) -> Vec<Call> {
    let step = |path: &Vec<u8>| {
        let top = path.iter().position(|byte| *byte == 0).expect("a path") + 1;
        let next = Call::Next {
            path: path[..top].to_vec(),
            after: path.clone(),
            buffer: Vec::new(),
        };
        [next, get(path)]
    };
    paths.iter().take(STEPS).flat_map(step).collect()
}

/// Gets, puts, drops and nexts; a move and an upkeep now and then.
fn mixed(paths: &[Vec<u8>]) -> Vec<Call> {
    let mut rng = Rng::new(13);
    let mut one = |index: usize| {
        let path = paths[rng.below(paths.len())].clone();
        match index % 100 {
            50 => Call::Settle { work: 0 },
            99 => Call::Move {
                from: path.clone(),
                to: [&path[..path.len() - 1], b"x\0"].concat(),
                work: 0,
            },
            k if k % 10 < 5 => get(&path),
            k if k % 10 < 8 => put(&path, k as u8),
            k if k % 10 < 9 => Call::Drop { path, work: 0 },
            _ => Call::Next {
                path: path[..path.iter().position(|b| *b == 0).expect("a path") + 1].to_vec(),
                after: path,
                buffer: Vec::new(),
            },
        }
    };
    (0..CALLS).map(&mut one).collect()
}

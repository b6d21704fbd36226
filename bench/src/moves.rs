// What a move costs: its time, and how many nodes it changes, where it carries 10, 100 and 500 paths, on a settled store and on one with
// a full root. Times are in passes over the reachable nodes of the store before it; the nodes stand beside 10 x L + 2, which a move on the
// settled store is proved to keep to.

use crate::{fnv, timed};
use judge::{images, Library};
use second::contract::changed_nodes;
use second::limits::*;
use second::subject::Subject;
use second::tree::{Message, Table};
use second::{pack, sound};
use std::time::{Duration, Instant};

const PATHS: usize = 1000;
/// The length of a value, but where the longest are moved.
const VALUE: usize = 12;
/// The most ranges that are moved, each to every place.
const RANGES: usize = 10;
/// How often each move is made; the least time counts.
const RUNS: usize = 5;

pub fn print() {
    println!("\nmoves, in passes         paths  levels  pass us    mean   worst | nodes changed: mean   worst  10 L + 2");
    for carried in [10, 100, 500] {
        let settled = packed(carried, VALUE);
        let waiting = images::full_root(&settled, |_, path| Message::Put {
            path,
            value: Vec::new(),
        });
        Moves::of(carried, &settled).print("settled");
        Moves::of(carried, &waiting).print("full root");
        Moves::of(carried, &packed(carried, VALUE_LIMIT)).print("settled, longest values");
    }
}

/// A range of the table.
fn range(index: usize) -> String {
    format!("g{index:03}\0")
}

/// A settled store of a thousand paths, so many to a range, each with a value of so many bytes.
fn packed(carried: usize, value: usize) -> Vec<u8> {
    let path = |i: usize| format!("{}c{}\0f{i}\0", range(i / carried), i % 7).into_bytes();
    let table: Table = (0..PATHS).map(|i| (path(i), vec![7; value])).collect();
    pack::image(&table, NODES_MOST).expect("it fits")
}

/// Moves from one image, each made on it anew.
struct Moves<'a> {
    image: &'a [u8],
    carried: usize,
    levels: u16,
    pass: Duration,
}

impl Moves<'_> {
    fn of(carried: usize, image: &[u8]) -> Moves<'_> {
        let sound = sound::judge(image).expect("the image is sound");
        Moves {
            image,
            carried,
            levels: sound.levels(),
            pass: timed(|| fnv(image, &sound.used)),
        }
    }

    fn print(&self, name: &str) {
        let made: Vec<(f64, usize)> = self.pairs().iter().map(|pair| self.made(pair)).collect();
        let count = made.len() as f64;
        let times = || made.iter().map(|(time, _)| *time);
        let nodes = || made.iter().map(|(_, nodes)| *nodes);
        println!(
            "{name:<24}{:6}{:8}{:9.1}{:8.2}{:8.2} |{:20.1}{:8}{:10}",
            self.carried,
            self.levels,
            self.pass.as_secs_f64() * 1e6,
            times().sum::<f64>() / count,
            times().fold(0.0, f64::max),
            nodes().sum::<usize>() as f64 / count,
            nodes().max().unwrap_or(0),
            10 * usize::from(self.levels) + 2
        );
    }

    /// Some ranges, each to a place before all others, beside itself, after all and deeper, and over the next range.
    fn pairs(&self) -> Vec<(String, String)> {
        let ranges = PATHS / self.carried;
        let to = |index: usize| {
            let beside = range(index).replace('\0', "m\0");
            let next = range((index + 1) % ranges);
            ["!\0".into(), beside, "h\0moved\0here\0".into(), next]
        };
        let step = ranges.div_ceil(RANGES);
        let moved = (0..ranges).step_by(step);
        moved
            .flat_map(|index| to(index).map(|to| (range(index), to)))
            .collect()
    }

    /// The passes that one move takes, and the nodes that it changes.
    fn made(&self, (from, to): &(String, String)) -> (f64, usize) {
        let mut work = vec![0; WORK_PER_NODE * NODES_MOST];
        let mut store = self.image.to_vec();
        let run = |_| {
            store.copy_from_slice(self.image);
            let begun = Instant::now();
            let (number, _) = Library.move_(&mut store, from.as_bytes(), to.as_bytes(), &mut work);
            let time = begun.elapsed();
            assert_eq!(number, 0, "the move is accepted");
            time
        };
        let least = (0..RUNS).map(run).min().expect("some runs");
        let passes = least.as_secs_f64() / self.pass.as_secs_f64();
        (passes, changed_nodes(self.image, &store))
    }
}

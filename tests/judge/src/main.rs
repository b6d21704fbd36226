// Judges the static library: `judge [long] [SEED [CASES]]`, or `judge stack` for the stack alone. By the paper's cases and those of longer
// values, every combination of arguments, lists of calls, every corner of the grid, clears of everything, full stores, some of them with the
// longest paths and values, the deepest images and the lengths that are just allowed; by reading whole images and changing every byte of
// small ones; by batches beside the same calls one by one; by paths that are NULL, arrays that overlap and arrays between guard pages; by
// filling stores to the last path; then the stack. It prints what was tried, and fails where anything was not. A failure names the seed and
// the case.
#![deny(warnings)]

use judge::guarded::Guarded;
use judge::nulls::Nulls;
use judge::{damage, deep, filling, lengths, moving, overlaps, reading, stack, Library};
use second::limits::{OLD_VALUE_LIMIT, VALUE_LIMIT};
use second::quarter::{self, Full, Parting};
use second::stats::{Moves, Stats};
use second::subject::Subject;
use second::{batches, grid, longer, paper, questions, whole};
use std::process::ExitCode;

const SEED: u64 = 20261115;
/// How many lists of calls are made; a round of the grid for each so many lists, one of reading, and one of clears of everything.
const CASES: usize = 2400;
const CASES_A_GRID: usize = 400;
const CASES_A_READING: usize = 800;
const CASES_A_WIPE: usize = 800;
/// How many lists of calls for each batch store, for each list on a deep image, and for each image with arrays that overlap.
const CASES_A_BATCH: usize = 4;
const CASES_A_DEEP_LIST: usize = 200;
const CASES_AN_OVERLAP: usize = 40;
/// How many lists of calls for each one that is made again between guard pages, and for each one with NULL for an empty path.
const CASES_A_GUARDED: usize = 8;
const CASES_A_NULL: usize = 40;
/// How many times as much a long run does.
const LONG: usize = 10;

fn main() -> ExitCode {
    let words: Vec<String> = std::env::args().skip(1).collect();
    let has = |word: &str| words.iter().any(|w| w == word);
    let judged = match has("stack") {
        true => stack_judged(),
        false => judged(&Extent::of(&words, has("long"))),
    };
    match judged {
        Ok(()) => ExitCode::SUCCESS,
        Err(what) => {
            eprintln!("{what}");
            ExitCode::FAILURE
        }
    }
}

/// How much is done.
struct Extent {
    seed: u64,
    cases: usize,
}

impl Extent {
    fn of(words: &[String], long: bool) -> Extent {
        let mut numbers = words.iter().filter_map(|word| word.parse().ok());
        let seed = numbers.next().unwrap_or(SEED);
        let cases = numbers.next().map_or(CASES, |count| count as usize);
        Extent {
            seed,
            cases: cases * if long { LONG } else { 1 },
        }
    }
}

fn judged(extent: &Extent) -> Result<(), String> {
    let &Extent { seed, cases } = extent;
    let stats = calls_judged(extent)?;
    println!("{}", stats.table());
    let images = reading::run(&mut Library, seed, cases.div_ceil(CASES_A_READING))?;
    println!("whole images read: {images:?}");
    let damaged = damage::run(&mut Library)?;
    println!("images with one byte changed: {damaged:?}");
    let batches = batches::run(&mut Library, seed, cases / CASES_A_BATCH)?;
    println!("batches: {batches:?}");
    let overlaps = overlaps::run(seed, cases.div_ceil(CASES_AN_OVERLAP))?;
    println!("calls with arrays that overlap: {overlaps}");
    for n in [32, 64, 1024] {
        println!("{n} nodes filled twice: {} calls", filling::run(n)?);
    }
    nulls_judged(seed, cases.div_ceil(CASES_A_NULL))?;
    guarded_judged(seed, cases.div_ceil(CASES_A_GUARDED))?;
    stack_judged()?;
    match &stats.missing(Library.capabilities())[..] {
        [] => Ok(()),
        // A short run may leave something out.
        _ if cases < CASES => Ok(()),
        missing => Err(format!("not tried:\n  {}", missing.join("\n  "))),
    }
}

/// Single calls, each judged by the contract.
fn calls_judged(extent: &Extent) -> Result<Stats, String> {
    let &Extent { seed, cases } = extent;
    for (number, case) in paper::CASES {
        case(&mut Library).map_err(|what| format!("the paper's case {number}: {what}"))?;
    }
    longer::run(&mut Library)?;
    let mut stats = questions::run(&mut Library)?;
    stats += &second::judge::run(&mut Library, seed, cases)?;
    stats += &grid::run(&mut Library, seed, cases.div_ceil(CASES_A_GRID))?;
    stats += &whole::run(&mut Library, seed, cases.div_ceil(CASES_A_WIPE))?;
    for n in [32, 64, 300, 1024] {
        stats += &moving::run(&mut Library, seed, n)?;
    }
    stats += &quarters_judged(seed)?;
    stats += &deep::run(&mut Library, seed, cases.div_ceil(CASES_A_DEEP_LIST))?;
    stats += &lengths::run(&mut Library)?;
    Ok(stats)
}

/// Stores full of paths of 64 bytes, with values of the greatest length and of what it was before. The least store has too few free nodes
/// to hold a move to the bound; in the others some must be held to it.
fn quarters_judged(seed: u64) -> Result<Stats, String> {
    let mut stats = Stats::default();
    for n in [32, 64, 1024] {
        for value in [VALUE_LIMIT, OLD_VALUE_LIMIT] {
            for parting in Parting::ALL {
                let full = Full { n, value, parting };
                stats += &quarter_judged(seed, full)?;
            }
        }
    }
    Ok(stats)
}

fn quarter_judged(seed: u64, full: Full) -> Result<Stats, String> {
    let quarter::Tried { stats, used } = quarter::run(&mut Library, seed, full)?;
    let mut moves = Moves::default();
    stats.moves.values().for_each(|more| moves += *more);
    let Moves { bounded, worst, .. } = moves;
    println!("{full:?}: {used} nodes after a tidy, {bounded} moves changed at most {worst}");
    match full.n > 32 && bounded == 0 {
        true => Err(format!("{full:?}: no move was held to the bound")),
        false => Ok(stats),
    }
}

/// Every combination of arguments and some lists of calls, with NULL for each path without a byte.
fn nulls_judged(seed: u64, cases: usize) -> Result<(), String> {
    let told = |what| format!("with NULL for an empty path: {what}");
    let mut stats = questions::run(&mut Nulls).map_err(told)?;
    stats += &second::judge::run(&mut Nulls, !seed, cases).map_err(told)?;
    let empty: usize = stats.empty.values().sum();
    println!("calls with NULL for an empty path: {empty}");
    Ok(())
}

/// Calls and batches between guard pages. A byte touched outside ends the run here by a signal.
fn guarded_judged(seed: u64, cases: usize) -> Result<(), String> {
    println!("between guard pages, seed {seed}, {cases} lists:");
    let mut guarded = Guarded::default();
    let mut stats = second::judge::run(&mut guarded, !seed, cases)?;
    stats += &lengths::run(&mut guarded)?;
    longer::run(&mut guarded)?;
    let full = Full {
        n: 32,
        value: VALUE_LIMIT,
        parting: Parting::First,
    };
    stats += &quarter::run(&mut guarded, !seed, full)?.stats;
    stats += &whole::run(&mut guarded, !seed, cases.div_ceil(CASES_A_WIPE))?;
    let read = reading::run(&mut guarded, !seed, cases.div_ceil(CASES_A_READING))?;
    let batches = batches::run(&mut guarded, !seed, cases / CASES_A_BATCH)?;
    let calls = stats.calls + read.calls;
    println!("  {calls} calls, {} batches", batches.batches);
    Ok(())
}

fn stack_judged() -> Result<(), String> {
    let worst = stack::run()?;
    println!("bytes of stack, worst: {worst:?}, at most {}", stack::LIMIT);
    Ok(())
}

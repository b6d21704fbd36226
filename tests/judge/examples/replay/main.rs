// Writes calls with the bytes that the library leaves to a file, for tests/targets to make them on another processor: `replay FILE
// [TIMES]`, TIMES as much. It has the paper's cases and those of longer values, every combination of arguments, lists of calls, every corner
// that the judge visits, batches, and every call on the deepest and widest images. Each call is judged while it is written, as in any run of
// the judge.
#![deny(warnings)]

mod recorder;

use judge::stack::{deep_images, some_paths, widest_nodes};
use judge::{lengths, moving};
use recorder::Recorder;
use second::batch::{self, Batching};
use second::batches::{self, Tried};
use second::calls::clear_all;
use second::limits::*;
use second::path::beginnings;
use second::plain::Call;
use second::rng::Rng;
use second::sound::{self, Sound};
use second::subject::{perform, Subject};
use second::{grid, longer, paper, questions};
use std::fs::File;
use std::io::{BufWriter, Write};
use std::process::ExitCode;

const SEED: u64 = 20261117;
/// How many lists of calls, and how many stores with batches.
const LISTS: usize = 60;
const BATCHES: usize = 24;
/// The most nodes of the stores but for the deep images, and how many the store has on which moves are tried.
const NODES: usize = 64;
/// How many of a deep image's paths are tried with each call.
const PATHS: usize = 3;

fn main() -> ExitCode {
    let words: Vec<String> = std::env::args().collect();
    let times = words.get(2).map_or(Some(1), |word| word.parse().ok());
    let (Some(name), Some(times)) = (words.get(1), times) else {
        eprintln!("usage: replay FILE [TIMES]");
        return ExitCode::from(2);
    };
    match write(name, times) {
        Ok(calls) => {
            println!("{name}: {calls} calls");
            ExitCode::SUCCESS
        }
        Err(what) => {
            eprintln!("{what}");
            ExitCode::FAILURE
        }
    }
}

/// Writes the file: how many calls it has.
fn write(name: &str, times: usize) -> Result<usize, String> {
    let file = File::create(name).map_err(|why| format!("{name}: {why}"))?;
    let mut recorder = Recorder::new(BufWriter::new(file), NODES);
    for (_, case) in paper::CASES {
        case(&mut recorder)?;
    }
    longer::run(&mut recorder)?;
    questions::run(&mut recorder)?;
    lengths::run(&mut recorder)?;
    second::judge::run(&mut recorder, SEED, LISTS * times)?;
    grid::run(&mut recorder, SEED, times)?;
    moving::run(&mut recorder, SEED, NODES)?;
    let mut rng = Rng::new(SEED);
    for _ in 0..BATCHES * times {
        batches::run_case(&mut recorder, &mut rng, &mut Tried::default())?;
    }
    recorder.nodes = NODES_MOST;
    for (image, store) in deep_images() {
        deep(&mut recorder, &store).map_err(|what| format!("{image}: {what}"))?;
    }
    let calls = recorder.calls;
    recorder.finish().map_err(|why| format!("{name}: {why}"))?;
    Ok(calls)
}

/// Every call on one image, and a batch of it, each on the image as it is.
fn deep<W: Write>(recorder: &mut Recorder<W>, image: &[u8]) -> Result<(), String> {
    let sound = sound::judge(image).map_err(|rule| rule.name().to_string())?;
    for call in deep_calls(&sound) {
        let mut store = image.to_vec();
        let mut work = vec![0; WORK_PER_NODE * sound.n];
        let mut buffer = call.buffer().to_vec();
        let answer = perform(recorder, &call, &mut store, &mut work, &mut buffer);
        accepted(answer.number, &call.told())?;
        let piece = batch::piece(&call).unwrap_or_default();
        let done = recorder.batch(&mut image.to_vec(), &mut work, &piece, &mut [0; 256]);
        accepted(done.number + u32::from(done.calls == 0), "batch")?;
    }
    accepted(recorder.check(&mut image.to_vec()).0, "check")?;
    accepted(
        recorder.same(&mut image.to_vec(), &mut image.to_vec()).0,
        "same",
    )?;
    accepted(recorder.make(&mut image.to_vec()).0, "make")
}

/// The first step of a listing below this path.
fn next(path: Vec<u8>) -> Call {
    Call::Next {
        path,
        after: Vec::new(),
        buffer: vec![0; NEXT_BUFFER],
    }
}

/// A refusal may end early, so every call must be accepted.
fn accepted(number: u32, call: &str) -> Result<(), String> {
    match number {
        0 => Ok(()),
        _ => Err(format!("{call} answers {number}")),
    }
}

/// The calls that take a path with each of some paths, clear and next with the empty one too, and those that take a node with each of the
/// widest nodes.
fn deep_calls(sound: &Sound) -> Vec<Call> {
    let work = WORK_PER_NODE * sound.n;
    let mut calls = vec![
        Call::Settle { work },
        Call::Tidy { work },
        clear_all(work),
        next(Vec::new()),
    ];
    for path in some_paths(sound).into_iter().take(PATHS) {
        let top = beginnings(&path).next().unwrap_or(&path).to_vec();
        let (value, to) = (vec![1; VALUE_LIMIT], b"~~~\0".to_vec());
        calls.push(Call::Get {
            path: path.clone(),
            buffer: vec![0; GET_BUFFER],
        });
        calls.push(next(top.clone()));
        calls.push(Call::Put {
            path: path.clone(),
            value,
            work,
        });
        calls.push(Call::Drop {
            path: path.clone(),
            work,
        });
        calls.push(Call::Clear { path: top, work });
        calls.push(Call::Move {
            from: path,
            to,
            work,
        });
    }
    for node in widest_nodes(sound) {
        calls.push(Call::Flush { node, work });
        calls.push(Call::Heal { node, work });
    }
    calls
}

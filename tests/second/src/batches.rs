// Random batches: lists of calls near what the store holds, some with bytes that do not read, with answers that fit or do not, on made,
// generated, damaged and random stores; short lists with every room for answers that tells; every kind of piece; and a list longer than
// two bytes can count. Each is judged by `batch`.

use crate::batch::{self, Batching, Handed, Judged, Trace};
use crate::calls::{self, Known};
use crate::contract::image_judged;
use crate::limits::*;
use crate::pieces::{self, laid, most, no_piece, piece, read};
use crate::plain::Call;
use crate::rng::Rng;
use crate::{generate, mutate, pack, tree::Table, words};

/// The most calls of a batch, and of one that is tried with every room.
const CALLS: usize = 60;
const CALLS_EVERY_ROOM: usize = 8;
/// Every room up to here is tried: a get and a next need less.
const ROOMS: usize = 80;
/// How many calls of a list there are for each of everything.
const CALLS_A_WHOLE: usize = 60;
/// So many that two bytes count neither the bytes of the calls nor those of the answers.
const LONG_CALLS: usize = 1000;

/// What was tried.
#[derive(Default, Debug)]
pub struct Tried {
    pub batches: usize,
    pub calls: usize,
    pub refused: usize,
    /// Stopped for room, and at bytes that are no piece.
    pub for_room: usize,
    pub at_no_piece: usize,
    /// Held to the bound on the messages in the root.
    pub bounded: usize,
    /// With a clear of everything among its calls.
    pub wiped: usize,
    /// Lists that were tried with every room.
    pub every_room: usize,
}

/// Judges so many stores with batches on them, and then every kind of piece and a long list.
pub fn run(subject: &mut dyn Batching, seed: u64, cases: usize) -> Result<Tried, String> {
    let mut tried = Tried::default();
    for case in 0..cases as u64 {
        let mut rng = Rng::new(seed ^ case.wrapping_mul(0xA076_1D64_78BD_642F));
        run_case(subject, &mut rng, &mut tried)
            .map_err(|what| format!("seed {seed}, batch {case}: {what}"))?;
    }
    every_kind(subject)?;
    tried.count(long_list(subject, seed)?);
    match cases < 100 || tried.whole() {
        true => Ok(tried),
        false => Err(format!("not tried: {tried:?}")),
    }
}

impl Tried {
    fn count(&mut self, judged: Judged) {
        self.batches += 1;
        self.calls += judged.done.calls;
        self.refused += usize::from(judged.done.number != 0);
        self.for_room += usize::from(judged.for_room);
        self.at_no_piece += usize::from(judged.at_no_piece);
        self.bounded += usize::from(judged.bounded);
        self.wiped += usize::from(judged.wiped);
    }

    fn whole(&self) -> bool {
        let seldom = [self.refused, self.for_room, self.at_no_piece, self.wiped];
        seldom.iter().all(|count| *count > 0) && self.bounded > 0 && self.every_room > 0
    }
}

/// One store: a few batches on it, each on what the last one left; or one short list with every room.
pub fn run_case(
    subject: &mut dyn Batching,
    rng: &mut Rng,
    tried: &mut Tried,
) -> Result<(), String> {
    let mut store = start(subject, rng);
    if rng.chance(1, 8) {
        return every_room(subject, rng, &store, tried);
    }
    for _ in 0..rng.between(1, 3) {
        let calls = bytes(subject, rng, &store, CALLS);
        let area = WORK_PER_NODE * store.len().div_ceil(NODE);
        let work = match rng.below(12) {
            0 => rng.below(area + 1),
            _ => area + rng.below(60),
        };
        let handed = Handed {
            calls: &calls,
            work: &rng.bytes(work),
            answers: &answers(rng, &calls),
        };
        tried.count(batch::check(subject, &mut store, &handed)?);
    }
    Ok(())
}

/// Room for answers: little, some, or enough for all.
fn answers(rng: &mut Rng, calls: &[u8]) -> Vec<u8> {
    let enough: usize = read(calls).0.iter().map(most).sum();
    let room = match rng.below(6) {
        0 => rng.below(ROOMS + 1),
        1 => rng.below(enough + 1),
        _ => enough + rng.below(ROOMS),
    };
    rng.bytes(room)
}

/// One list with every small room, and with every room at which one call more is made, one byte less and one more.
fn every_room(
    subject: &mut dyn Batching,
    rng: &mut Rng,
    store: &[u8],
    tried: &mut Tried,
) -> Result<(), String> {
    let Ok(sound) = image_judged(store) else {
        return Ok(());
    };
    let calls = bytes(subject, rng, store, CALLS_EVERY_ROOM);
    let work = rng.bytes(WORK_PER_NODE * sound.n);
    let trace = Trace::of(subject, store, sound, &calls)?;
    let mut rooms: Vec<usize> = (0..=ROOMS).collect();
    rooms.extend(trace.rooms().iter().flat_map(|room| room - 1..=room + 1));
    rooms.sort_unstable();
    rooms.dedup();
    for room in rooms {
        let handed = Handed {
            calls: &calls,
            work: &work,
            answers: &rng.bytes(room),
        };
        tried.count(trace.check(subject, &handed)?.0);
    }
    tried.every_room += 1;
    Ok(())
}

/// A store made just now, a generated image, one with a byte changed, or any bytes.
fn start(subject: &mut dyn Batching, rng: &mut Rng) -> Vec<u8> {
    match rng.below(10) {
        0..=3 => {
            let n = match rng.below(8) {
                0 => rng.between(NODES_LEAST, 300),
                _ => rng.between(NODES_LEAST, 64),
            };
            let mut store = rng.bytes(n * NODE);
            subject.make(&mut store);
            store
        }
        4 => mutate::flip(&generate::random(rng.word()), rng.word()),
        5 => {
            let length = rng.between(0, 40 * NODE);
            rng.bytes(length)
        }
        _ => generate::random(rng.word()),
    }
}

/// The bytes of a list of calls; sometimes with bytes behind them that do not read, sometimes damaged, so that any bytes are read.
fn bytes(subject: &mut dyn Batching, rng: &mut Rng, store: &[u8], most_calls: usize) -> Vec<u8> {
    let calls = list(subject, rng, store, most_calls);
    let mut bytes = calls.iter().filter_map(piece).collect::<Vec<_>>().concat();
    match rng.below(8) {
        0 | 1 => {
            bytes.extend(no_piece(rng));
            bytes.extend(laid(KIND_CLEAR, b"r1\0"));
        }
        2 => bytes.extend(rng.bytes(3)),
        3 if !bytes.is_empty() => {
            let at = rng.below(bytes.len());
            match rng.below(3) {
                0 => bytes.truncate(at),
                1 => bytes[at] = rng.word() as u8,
                _ => drop(bytes.remove(at)),
            }
        }
        _ => {}
    }
    bytes
}

/// Calls that hit: each is made after what the ones before it leave.
fn list(subject: &mut dyn Batching, rng: &mut Rng, store: &[u8], most_calls: usize) -> Vec<Call> {
    let mut after = store.to_vec();
    let mut calls = Vec::new();
    for _ in 0..rng.between(0, most_calls) {
        let known = Known::of(&after);
        let call = match rng.chance(1, CALLS_A_WHOLE) {
            true => calls::whole(rng, &known),
            false => calls::random(rng, &known),
        };
        if piece(&call).is_none() {
            continue;
        }
        batch::answered(subject, &mut after, &call);
        calls.push(call);
    }
    calls
}

/// Every kind of two bytes, with rests that some read: a batch ends in front of all that no call has.
fn every_kind(subject: &mut dyn Batching) -> Result<(), String> {
    let mut store = vec![0; NODES_LEAST * NODE];
    subject.make(&mut store);
    let moves = pieces::two(b"a\0", b"b\0").unwrap_or_default();
    let rests = [&[][..], &[1, 0], &moves];
    let kinds = 0..=u16::MAX;
    let mut pieces = kinds.flat_map(|kind| rests.map(|rest| laid(kind, rest)));
    pieces.try_for_each(|piece| behind_a_drop(subject, &mut store, &piece))
}

/// A drop, and behind it a piece that may read or not.
fn behind_a_drop(subject: &mut dyn Batching, store: &mut [u8], piece: &[u8]) -> Result<(), String> {
    let mut work = [0; WORK_PER_NODE * NODES_LEAST];
    let calls = [&laid(KIND_DROP, b"a\0")[..], piece].concat();
    let done = subject.batch(store, &mut work, &calls, &mut [0; ROOMS]);
    match (done.number, done.calls) == (0, read(&calls).0.len()) {
        true => Ok(()),
        false => Err(format!("a drop and the piece {piece:02x?}: {done:?}")),
    }
}

/// A list of over 65,536 bytes whose answers are as many: a number of two bytes counts neither.
fn long_list(subject: &mut dyn Batching, seed: u64) -> Result<Judged, String> {
    let mut rng = Rng::new(seed);
    let mut table = Table::new();
    while table.len() < NODES_LEAST {
        table.insert(words::longest(&mut rng), vec![7; VALUE_LIMIT]);
    }
    let mut store = pack::image(&table, NODES_LEAST).ok_or("the image does not fit")?;
    let next = |path: &Vec<u8>| Call::Next {
        path: path.clone(),
        after: Vec::new(),
        buffer: Vec::new(),
    };
    let calls: Vec<Call> = table.keys().cycle().take(LONG_CALLS).map(next).collect();
    let handed = Handed {
        calls: &calls.iter().filter_map(piece).collect::<Vec<_>>().concat(),
        work: &vec![1; WORK_PER_NODE * NODES_LEAST],
        answers: &rng.bytes(calls.iter().map(most).sum()),
    };
    let judged = batch::check(subject, &mut store, &handed)?;
    match handed.calls.len().min(judged.done.written) > usize::from(u16::MAX) {
        true => Ok(judged),
        false => Err(format!("the long list is too short: {:?}", judged.done)),
    }
}

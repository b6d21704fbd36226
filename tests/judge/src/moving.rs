// Moves on full stores, one after another, with puts, heals and settles between, then a clear of everything, and all of it once more:
// whatever layout the library has left, the next call is taken or refused by its rule alone, and the map is right. Generated images never
// come from the library itself; these do.

use second::calls::{self, Known};
use second::limits::*;
use second::moves::Kind;
use second::plain::Call;
use second::rng::Rng;
use second::script::{tried, Script};
use second::stats::Stats;
use second::subject::Subject;
use second::words;

/// The length of the values with which a store is filled, each time, and how many calls are made on it then.
const VALUES: [usize; 2] = [VALUE_LIMIT, 20];
const CALLS: usize = 80;

/// Fills a store of n nodes with n paths and moves them about, until everything is cleared.
pub fn run(subject: &mut dyn Subject, seed: u64, n: usize) -> Result<Stats, String> {
    let mut rng = Rng::new(seed ^ n as u64);
    let mut stats = Stats::default();
    let mut store = Script::made(subject, n)?.store;
    for (round, value) in VALUES.into_iter().enumerate() {
        fill(subject, &mut store, n, value)?;
        for index in 0..=CALLS {
            let call = match index < CALLS {
                true => next_call(&mut rng, &Known::of(&store)),
                false => calls::clear_all(WORK_PER_NODE * n),
            };
            tried(subject, &mut rng, &mut store, &call, &mut stats).map_err(|what| {
                format!("{n} nodes, seed {seed}, round {round}, call {index}: {what}")
            })?;
        }
    }
    Ok(stats)
}

/// Puts as many paths as the store has nodes, a few dozen below each of some closures, with values of this length.
fn fill(subject: &mut dyn Subject, store: &mut [u8], n: usize, value: usize) -> Result<(), String> {
    let mut work = vec![0; WORK_PER_NODE * n];
    for index in 0..n {
        let path = format!("r{}\0c{}\0f{index}\0", index % 3, index % 7);
        let (number, _) = subject.put(store, path.as_bytes(), &vec![7; value], &mut work);
        if number != 0 {
            return Err(format!("put of path {index} of {n} answers {number}"));
        }
    }
    Ok(())
}

/// Moves for the most part, some of them after a settle, which holds them to the bound; and puts, for the rows that a move has put an
/// end to.
fn next_call(rng: &mut Rng, known: &Known) -> Call {
    const MOVES: [Kind; 4] = [Kind::Away, Kind::Adjacent, Kind::Longest, Kind::Deepest];
    let work = WORK_PER_NODE * known.n;
    let put = |rng: &mut Rng| Call::Put {
        path: words::path(rng),
        value: words::value(rng),
        work,
    };
    match rng.below(16) {
        0..=2 => Call::Settle { work },
        3 | 4 => calls::upkeep(rng, known),
        5 => calls::random(rng, known),
        6 => Kind::Onto.aim(rng, known).unwrap_or_else(|| put(rng)),
        7..=9 => put(rng),
        _ => {
            let kind = MOVES[rng.below(MOVES.len())];
            kind.aim(rng, known).unwrap_or_else(|| put(rng))
        }
    }
}

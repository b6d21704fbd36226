// What writing costs: put, drop and clear amortised over a thousand calls on a full store, settle and tidy with a full buffer, and how
// many nodes a put changes; and a clear of the whole store beside that of one closure, with the first calls after it. Times are in passes
// over the reachable nodes of the store at the start.

use crate::{fnv, timed};
use judge::Library;
use second::limits::*;
use second::subject::Subject;
use second::tree::Table;
use second::{pack, sound};
use std::time::{Duration, Instant};

const CALLS: usize = 1000;
/// The closures of the full store that is cleared, with as many fibres each as fill it.
const CLOSURES: usize = 64;
const FIBRES: usize = NODES_MOST / CLOSURES;

/// Prints the line of a store that is full and settled, with puts of values of so many bytes.
pub fn print(name: &str, image: &[u8], value: usize) {
    let judged = sound::judge(image).expect("the image is sound");
    let used: Vec<u16> = judged.used.iter().copied().collect();
    let pass = timed(|| fnv(image, &used)).as_secs_f64();
    let paths: Vec<Vec<u8>> = judged.table.keys().cloned().collect();
    let in_passes = |time: Duration| time.as_secs_f64() / pass;

    let mut store = Writes::of(image);
    let mut changed = 0;
    let puts = store.calls(|store, index| {
        let before = store.image.clone();
        let begun = Instant::now();
        store.put(&paths[index * 7 % paths.len()], &vec![index as u8; value]);
        let time = begun.elapsed();
        let pairs = before.chunks(NODE).zip(store.image.chunks(NODE));
        changed += pairs.filter(|(old, new)| old != new).count();
        time
    });
    let drops = store.calls(|store, index| {
        let path = &paths[index * 7 % paths.len()];
        let begun = Instant::now();
        Library.drop(&mut store.image, path, &mut store.work);
        begun.elapsed()
    });
    let mut store = Writes::of(image);
    let clears = store.calls(|store, index| {
        let path = &paths[index * 7 % paths.len()];
        let first = path.iter().position(|byte| *byte == 0).expect("a path") + 1;
        let begun = Instant::now();
        store.clear(&path[..first]);
        begun.elapsed()
    });
    let mut store = Writes::of(image);
    (0..20).for_each(|index| store.put(&paths[index], &vec![1; value]));
    let waiting = store.image.clone();
    let settle = store.least(&waiting, |store| {
        Library.settle(&mut store.image, &mut store.work);
    });
    let tidy = store.least(&waiting, |store| {
        Library.tidy(&mut store.image, &mut store.work);
    });
    println!(
        "{name:<21} {:>7.1} {:>7.2} {:>7.2} {:>7.2} {:>8.2} {:>7.2} | {:>6.2}",
        pass * 1e6,
        in_passes(puts),
        in_passes(drops),
        in_passes(clears),
        in_passes(settle),
        in_passes(tidy),
        changed as f64 / CALLS as f64
    );
}

fn closure(index: usize) -> Vec<u8> {
    format!("r{}\0k{index:02}\0", index / 16).into_bytes()
}

fn fibre(index: usize) -> Vec<u8> {
    let fibre = format!("f{:02}\0", index % FIBRES);
    [closure(index / FIBRES), fibre.into_bytes()].concat()
}

/// Prints a clear of everything beside one of a closure, on a full store that is settled and on one where the most changes wait that calls leave.
pub fn print_clears() {
    println!("\nclears, in passes      pass us  a closure  everything   ratio | then the first get    next     put");
    let table: Table = (0..NODES_MOST).map(|i| (fibre(i), vec![7; 17])).collect();
    let settled = pack::image(&table, NODES_MOST).expect("it fits");
    print_clear("settled, n = 1024", &settled);
    let mut store = Writes::of(&settled);
    (0..8).for_each(|index| store.put(&fibre(index * 99), &[1; OLD_VALUE_LIMIT]));
    print_clear("8 puts wait, n = 1024", &store.image);
}

/// Each clear is made on the same image, the two kinds by turns; the calls after it on what the clear of everything leaves.
fn print_clear(name: &str, image: &[u8]) {
    let judged = sound::judge(image).expect("the image is sound");
    let pass = timed(|| fnv(image, &judged.used)).as_secs_f64();
    let in_passes = |time: Duration| time.as_secs_f64() / pass;
    let mut store = Writes::of(image);
    let cleared: Vec<usize> = (0..CLOSURES).step_by(8).collect();
    let (mut one, mut whole) = (0.0, 0.0);
    for index in &cleared {
        let path = closure(*index);
        one += in_passes(store.least(image, |store| store.clear(&path))) / cleared.len() as f64;
        whole += in_passes(store.least(image, |store| store.clear(&[]))) / cleared.len() as f64;
    }
    let (empty, path) = (store.image.clone(), fibre(0));
    let get = store.least(&empty, |store| {
        let (number, _) = Library.get(&mut store.image, &path, &mut [0; GET_BUFFER]);
        assert_eq!(number, 8, "no path is left");
    });
    let next = store.least(&empty, |store| {
        let (number, _) = Library.next(&mut store.image, &[], &[], &mut [0; NEXT_BUFFER]);
        assert_eq!(number, 8, "no path is left");
    });
    let put = store.least(&empty, |store| store.put(&path, &[1; OLD_VALUE_LIMIT]));
    let [get, next, put] = [get, next, put].map(in_passes);
    let (pass, ratio) = (pass * 1e6, whole / one);
    println!("{name:<21}{pass:>9.1}{one:>11.2}{whole:>12.2}{ratio:>8.2} |{get:>19.2}{next:>8.2}{put:>8.2}");
}

struct Writes {
    image: Vec<u8>,
    work: Vec<u8>,
}

impl Writes {
    fn of(image: &[u8]) -> Writes {
        Writes {
            image: image.to_vec(),
            work: vec![0; image.len() / NODE * 128],
        }
    }

    fn put(&mut self, path: &[u8], value: &[u8]) {
        Library.put(&mut self.image, path, value, &mut self.work);
    }

    fn clear(&mut self, path: &[u8]) {
        let (number, _) = Library.clear(&mut self.image, path, &mut self.work);
        assert_eq!(number, 0, "the clear is accepted");
    }

    /// The mean of a thousand calls.
    fn calls(&mut self, mut call: impl FnMut(&mut Writes, usize) -> Duration) -> Duration {
        let sum: Duration = (0..CALLS).map(|index| call(self, index)).sum();
        sum / CALLS as u32
    }

    /// The least of some runs from the same image.
    fn least(&mut self, from: &[u8], mut call: impl FnMut(&mut Writes)) -> Duration {
        let run = |_| {
            self.image.copy_from_slice(from);
            let begun = Instant::now();
            call(self);
            begun.elapsed()
        };
        (0..20).map(run).min().expect("some runs")
    }
}

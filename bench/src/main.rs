// Prints how long get, next, a whole listing and same take on full stores, beside the second program on the same images, how deep a stack the
// calls use, and what writing, moving and lists of calls cost. Times are in passes: one pass is a 64-bit FNV-1a, byte by byte, over the reachable nodes of
// the same image. Values have at most 32 bytes, as before request S-2, so that figures can be set beside older ones, but where it says `longest`.
#![deny(warnings)]

mod batches;
mod moves;
mod writes;

use judge::{images, stack, Library};
use second::limits::*;
use second::path::beginnings;
use second::subject::Subject;
use second::tree::Table;
use second::{meaning, plain, sound};
use std::hint::black_box;
use std::time::{Duration, Instant};

fn main() {
    let mut cases = Vec::new();
    for n in [64, 256, 1024] {
        cases.push(Case::of(format!("settled, n = {n}"), images::settled(n)));
        cases.push(Case::of(format!("full root, n = {n}"), images::buffered(n)));
    }
    cases.push(Case::of("longest, n = 1024".into(), images::longest(1024)));
    cases.push(Case::of("waiting, 8 levels".into(), images::waiting()));
    cases.push(Case::of("deepest, 8 levels".into(), images::deepest()));
    println!(
        "                             the library, in passes               | the second program, in passes"
    );
    println!(
        "image                 pass us     get    next   whole list    same | soundness     get    next"
    );
    for case in &mut cases {
        case.print_times();
    }
    println!("\nstack, in bytes           get    next");
    for case in &mut cases {
        case.print_stack();
    }
    match stack::run() {
        Ok(worst) => println!("worst of each call: {worst:?}"),
        Err(what) => println!("{what}"),
    }
    println!("\nwriting, in passes     pass us     put    drop   clear   settle    tidy | nodes a put changes");
    for n in [64, 256, 1024] {
        writes::print(&format!("n = {n}"), &images::settled(n), OLD_VALUE_LIMIT);
    }
    writes::print("longest, n = 1024", &images::longest(1024), VALUE_LIMIT);
    writes::print_clears();
    moves::print();
    batches::print(&images::settled(1024));
}

/// The least of many runs: other work on the machine only adds.
fn timed<T>(mut run: impl FnMut() -> T) -> Duration {
    let start = Instant::now();
    let mut least = Duration::MAX;
    while start.elapsed() < Duration::from_millis(200) {
        let begun = Instant::now();
        black_box(run());
        least = least.min(begun.elapsed());
    }
    least
}

/// The 64-bit FNV-1a of the reachable nodes.
fn fnv(store: &[u8], used: &[u16]) -> u64 {
    let nodes = used.iter().map(|i| usize::from(*i) * NODE);
    let bytes = nodes.flat_map(|at| &store[at..at + NODE]);
    bytes.fold(0xcbf2_9ce4_8422_2325, |hash, byte| {
        (hash ^ u64::from(*byte)).wrapping_mul(0x0000_0100_0000_01b3)
    })
}

/// An image with the last of its paths to ask for.
struct Case {
    name: String,
    store: Vec<u8>,
    used: Vec<u16>,
    table: Table,
    path: Vec<u8>,
}

impl Case {
    fn of(name: String, store: Vec<u8>) -> Case {
        let sound = sound::judge(&store).expect("the image is sound");
        let path = sound
            .table
            .keys()
            .last()
            .expect("a path is present")
            .clone();
        Case {
            name,
            store,
            used: sound.used,
            table: sound.table,
            path,
        }
    }

    fn print_times(&mut self) {
        let pass = timed(|| fnv(&self.store, &self.used));
        let passes = |took: Duration| took.as_secs_f64() / pass.as_secs_f64();
        let mut twin = self.store.clone();
        let library = [
            passes(timed(|| self.get())),
            passes(timed(|| self.next())),
            passes(timed(|| self.list())),
            passes(timed(|| self.same(&mut twin))),
        ];
        let second = [
            passes(timed(|| sound::judge(&self.store).is_ok())),
            passes(timed(|| self.second_get())),
            passes(timed(|| self.second_next())),
        ];
        let [get, next, list, same] = library;
        print!("{:<20}{:9.1}", self.name, pass.as_secs_f64() * 1e6);
        print!("{get:8.2}{next:8.2}{list:13.0}{same:8.1} | ");
        let [judged, get, next] = second;
        println!("{judged:9.2}{get:8.2}{next:8.2}");
    }

    fn print_stack(&mut self) {
        let get = stack::depth(|| self.get());
        let next = stack::depth(|| self.next());
        println!("{:<20}{get:9}{next:8}", self.name);
    }

    fn get(&mut self) {
        let mut buffer = [0; GET_BUFFER];
        let (number, _) = Library.get(&mut self.store, &self.path, &mut buffer);
        assert_eq!(number, 0, "the path is present");
    }

    /// The first path below the asked path's first component.
    fn next(&mut self) {
        let top = top(&self.path);
        let mut buffer = [0; NEXT_BUFFER];
        let (number, _) = Library.next(&mut self.store, top, &[], &mut buffer);
        assert_eq!(number, 0, "a path is below it");
    }

    /// All paths, by a next for each and one more for each first component.
    fn list(&mut self) {
        let mut tops: Vec<&[u8]> = self.table.keys().map(|path| top(path)).collect();
        tops.dedup();
        let mut listed = 0;
        for top in tops {
            let mut buffer = [0; NEXT_BUFFER];
            let mut after = Vec::new();
            while let (0, length) = Library.next(&mut self.store, top, &after, &mut buffer) {
                after = buffer[..length as usize].to_vec();
                listed += 1;
            }
        }
        assert_eq!(listed, self.table.len(), "every path is listed");
    }

    /// The store beside its twin: the longest way, since every path is in both.
    fn same(&mut self, twin: &mut [u8]) {
        let (number, verdict) = Library.same(&mut self.store, twin);
        assert_eq!((number, verdict), (0, 1), "the paths are the same");
    }

    /// What get does, by the second program: is the image sound, and a lookup down the tree.
    fn second_get(&self) -> Option<Vec<u8>> {
        sound::judge(&self.store).ok()?;
        meaning::lookup(&self.store, &self.path)
    }

    /// What next does: the soundness check makes the table, which is searched.
    fn second_next(&self) -> Option<Vec<u8>> {
        let sound = sound::judge(&self.store).ok()?;
        plain::next(&sound.table, top(&self.path), &[]).map(<[u8]>::to_vec)
    }
}

fn top(path: &[u8]) -> &[u8] {
    beginnings(path).next().unwrap_or(path)
}

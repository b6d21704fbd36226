// The contract's own edges that random lists seldom meet: the bound on a move, the bound on the messages
// in the root, a move onto itself, and what a checker must not mistake for an error.

use second::contract::{
    changed_nodes, check, check_answer, check_make, check_same, image_judged, waiting_bound, Held,
    Seen, WAITING_MOST,
};
use second::feature::Feature;
use second::generate;
use second::judge::{run, run_case};
use second::lazy::Lazy;
use second::limits::VALUE_LIMIT;
use second::pack;
use second::plain::{Answer, Call};
use second::reference::Reference;
use second::script::Script;
use second::sound::judge;
use second::stats::Stats;
use second::subject::{Capabilities, Numbers, Subject};
use second::tree::Table;

/// Where the rows below r1 are moved: so much longer a name that fewer of the longest rows fit a leaf, and packing shifts all later ones.
const TO: &[u8] = b"r1xx\0";

/// A store of many rows, settled, in which a move has enough free nodes.
fn large() -> Vec<u8> {
    let value = vec![1; VALUE_LIMIT];
    let row = |i: usize| (format!("r{}\0p{i}\0", i % 7).into_bytes(), value.clone());
    let table: Table = (0..1000).map(row).collect();
    pack::image(&table, 1024).expect("it fits")
}

fn seen_move(before: &[u8], after: &[u8], held: bool) -> Result<(), String> {
    let n = before.len() / 1024;
    let call = Call::Move {
        from: b"r1\0".to_vec(),
        to: TO.to_vec(),
        work: 128 * n,
    };
    let seen = Seen {
        store_before: before,
        call: &call,
        work_before: &vec![3; 128 * n],
        checked_before: check_answer(&image_judged(before)),
        checked_after: check_answer(&image_judged(after)),
        answer: Answer::DONE,
        buffer_after: &[],
        work_after: &vec![0; 128 * n],
        store_after: after,
    };
    let held = Held {
        move_bound: held,
        waiting_bound: false,
    };
    check(&seen, held)
}

#[test]
fn a_move_that_rebuilds_breaks_the_bound() {
    let before = large();
    let mut after = before.clone();
    let mut work = vec![3; 128 * 1024];
    Reference::default().move_(&mut after, b"r1\0", TO, &mut work);
    assert!(changed_nodes(&before, &after) > 40);
    assert!(seen_move(&before, &after, false).is_ok());
    let wrong = seen_move(&before, &after, true).expect_err("over the bound");
    assert!(wrong.contains("over 40"), "{wrong}");
}

#[test]
fn the_bound_counts_wiped_free_nodes() {
    let row = (b"r1\0a\0".to_vec(), vec![1]);
    let mut before = pack::image(&Table::from([row]), 32).expect("it fits");
    before[2 * 1024..].fill(7);
    let moved = ([TO, b"a\0"].concat(), vec![1]);
    let after = pack::image(&Table::from([moved]), 32).expect("it fits");
    assert_eq!(changed_nodes(&before, &after), 31);
    assert!(seen_move(&before, &after, true).is_err());
    let mut spared = before.clone();
    spared[..2 * 1024].copy_from_slice(&after[..2 * 1024]);
    assert!(seen_move(&before, &spared, true).is_ok());
}

#[test]
fn made_stores_are_empty_and_sound() {
    let made = pack::image(&Table::new(), 32).expect("it fits");
    let before = vec![9; 32 * 1024];
    assert!(check_make(&before, Answer::DONE, &made).is_ok());
    assert!(check_make(&before, Answer::DONE, &before).is_err());
    assert!(check_make(&before, Answer::refused(1), &before).is_err());
    let holds = pack::image(&Table::from([(b"a\0".to_vec(), vec![])]), 32).expect("it fits");
    assert!(check_make(&before, Answer::DONE, &holds).is_err());
    let short = vec![9; 31 * 1024];
    assert!(check_make(&short, Answer::refused(1), &short).is_ok());
}

#[test]
fn same_goes_by_paths() {
    let of = |value: &[u8], n| {
        let table = Table::from([(b"a\0".to_vec(), value.to_vec())]);
        pack::image(&table, n).expect("it fits")
    };
    let (a, b) = (of(b"1", 32), of(b"2", 40));
    let yes = Answer {
        number: 0,
        beside: 1,
    };
    assert!(check_same((&a, &a), (&b, &b), yes).is_ok());
    assert!(check_same((&a, &a), (&b, &b), Answer::DONE).is_err());
    let mut touched = b.clone();
    touched[20_000] = 1;
    assert!(check_same((&a, &a), (&b, &touched), yes).is_err());
    assert!(check_same((&a, &a), (&b[1..], &b[1..]), Answer::refused(1)).is_ok());
}

/// A store that lets every message wait is found by the put that leaves one too many.
#[test]
fn one_message_too_many_in_the_root_is_found() {
    let mut lazy = Lazy::default();
    let mut script = Script::on(&mut lazy, large());
    for put in 1..=WAITING_MOST + 1 {
        assert_eq!(script.put(&format!("r1/x{put}"), b"v"), Ok(0));
        let after = judge(&script.store).expect("sound");
        assert_eq!(waiting_bound(&after).is_ok(), put <= WAITING_MOST);
    }
}

/// A subject with the reading calls alone.
struct Reader(Reference);

impl Subject for Reader {
    fn capabilities(&self) -> Capabilities {
        Capabilities::READS
    }
    fn make(&mut self, store: &mut [u8]) -> Numbers {
        self.0.make(store)
    }
    fn get(&mut self, store: &mut [u8], path: &[u8], buffer: &mut [u8]) -> Numbers {
        self.0.get(store, path, buffer)
    }
    fn next(&mut self, store: &mut [u8], path: &[u8], after: &[u8], to: &mut [u8]) -> Numbers {
        self.0.next(store, path, after, to)
    }
    fn same(&mut self, a: &mut [u8], b: &mut [u8]) -> Numbers {
        self.0.same(a, b)
    }
    fn check(&mut self, store: &mut [u8]) -> Numbers {
        self.0.check(store)
    }
}

#[test]
fn a_subject_that_only_reads_is_judged() {
    let mut subject = Reader(Reference::default());
    let stats = run(&mut subject, 5, 60).unwrap_or_else(|what| panic!("{what}"));
    assert!(stats.answers.keys().all(|(name, _)| *name != "put"));
    assert!(stats.calls > 100);
}

/// The bound is met on generated images too, and a store that is held to it and rebuilds
/// everything is found by the random lists.
struct Bound(Reference);

impl Subject for Bound {
    fn capabilities(&self) -> Capabilities {
        Capabilities {
            move_: true,
            move_bound: true,
            ..Capabilities::READS
        }
    }
    fn make(&mut self, store: &mut [u8]) -> Numbers {
        self.0.make(store)
    }
    fn get(&mut self, store: &mut [u8], path: &[u8], buffer: &mut [u8]) -> Numbers {
        self.0.get(store, path, buffer)
    }
    fn next(&mut self, store: &mut [u8], path: &[u8], after: &[u8], to: &mut [u8]) -> Numbers {
        self.0.next(store, path, after, to)
    }
    fn same(&mut self, a: &mut [u8], b: &mut [u8]) -> Numbers {
        self.0.same(a, b)
    }
    fn check(&mut self, store: &mut [u8]) -> Numbers {
        self.0.check(store)
    }
    fn move_(&mut self, store: &mut [u8], from: &[u8], to: &[u8], work: &mut [u8]) -> Numbers {
        self.0.move_(store, from, to, work)
    }
}

#[test]
fn random_lists_meet_the_bound() {
    let mut stats = Stats::default();
    let mut subject = Bound(Reference::default());
    let found = (0..200).find_map(|case| run_case(&mut subject, 1, case, &mut stats).err());
    let wrong = found.expect("a rebuilding move is found");
    assert!(wrong.contains("nodes, over"), "{wrong}");
}

#[test]
fn presets_hold_rows_to_move() {
    let image = generate::preset(Feature::MoveBound, 3);
    let sound = judge(&image).expect("it is sound");
    assert!(sound.settled() && sound.table.len() >= 8);
}

// The judge of batches on the reference store's batches, which are right, and on its wrong ones, each of which it must find.

use second::batch::{Batching, Done, Handed, Trace};
use second::batches::{run, run_case, Tried};
use second::contract::image_judged;
use second::limits::*;
use second::listed::BatchFault;
use second::pieces::{laid, most, piece, two, ANSWER_HEAD};
use second::plain::Call;
use second::reference::Reference;
use second::rng::Rng;
use second::subject::Subject;

fn wrong(fault: BatchFault) -> Reference {
    Reference {
        fault: None,
        batch_fault: Some(fault),
    }
}

#[test]
fn right_batches_are_right() {
    let tried = run(&mut Reference::default(), 7, 120).unwrap_or_else(|what| panic!("{what}"));
    println!("{tried:?}");
}

#[test]
fn every_wrong_batch_is_found() {
    for fault in BatchFault::ALL {
        let mut rng = Rng::new(11);
        let mut tried = Tried::default();
        let found = (0..600)
            .find_map(|_| run_case(&mut wrong(*fault), &mut rng, &mut tried).err())
            .unwrap_or_else(|| panic!("{fault:?} was not found"));
        println!("{fault:?} after {} batches: {found}", tried.batches);
    }
}

fn get(path: &[u8]) -> Call {
    Call::Get {
        path: path.to_vec(),
        buffer: Vec::new(),
    }
}

fn put(path: &[u8]) -> Call {
    Call::Put {
        path: path.to_vec(),
        value: vec![1],
        work: 0,
    }
}

fn made() -> Vec<u8> {
    let mut store = vec![0; NODES_LEAST * NODE];
    Reference::default().make(&mut store);
    store
}

fn pieces(calls: &[Call]) -> Vec<u8> {
    calls
        .iter()
        .flat_map(|c| piece(c).expect("short"))
        .collect()
}

/// How a batch on an empty store must end with so much room.
fn judged(calls: &[u8], room: usize) -> Done {
    let sound = image_judged(&made()).expect("it is sound");
    let trace = Trace::of(&mut Reference::default(), &made(), sound, calls).expect("it is right");
    let handed = Handed {
        calls,
        work: &vec![9; WORK_PER_NODE * NODES_LEAST],
        answers: &vec![7; room],
    };
    let checked = trace.check(&mut Reference::default(), &handed);
    checked.expect("the reference store is right").0.done
}

/// The most that the answer of a get takes.
const GET_MOST: usize = ANSWER_HEAD + VALUE_LIMIT;
/// What it took before values became longer.
const OLD_GET_MOST: usize = ANSWER_HEAD + OLD_VALUE_LIMIT;

/// A get of an absent path writes 4 bytes and needs 52; with 10 bytes for answers it stops the batch, and the put is not made.
#[test]
fn a_call_that_might_not_fit_is_not_made() {
    let calls = pieces(&[get(b"p\0"), put(b"q\0")]);
    let ends = |room: usize| (judged(&calls, room).calls, judged(&calls, room).written);
    assert_eq!((most(&get(b"p\0")), GET_MOST), (52, 52));
    for room in [10, OLD_GET_MOST - 1, OLD_GET_MOST, GET_MOST - 1] {
        assert_eq!(ends(room), (0, 0), "{room}");
    }
    assert_eq!((ends(GET_MOST), ends(80)), ((2, 8), (2, 8)));
    let mut store = made();
    let mut work = vec![9; WORK_PER_NODE * NODES_LEAST];
    let mut late = wrong(BatchFault::StopsByOwnLength);
    let done = late.batch(&mut store, &mut work, &calls, &mut [0; 10]);
    assert_eq!((done.calls, done.written), (2, 8), "the other outcome");
}

/// With the room that a get needed before, one that needs the old room makes it, and the right one does not.
#[test]
fn a_get_needs_more_room_than_before() {
    let calls = pieces(&[get(b"p\0")]);
    let mut old = wrong(BatchFault::NeedsOldMostForGet);
    for room in OLD_GET_MOST..GET_MOST {
        let (mut store, mut work) = (made(), vec![9; WORK_PER_NODE * NODES_LEAST]);
        let done = old.batch(&mut store, &mut work, &calls, &mut vec![0; room]);
        assert_eq!((done.calls, judged(&calls, room).calls), (1, 0), "{room}");
    }
}

/// After the refused get there are 4 bytes less, and not 52: room for three answers of 4 more.
#[test]
fn the_room_falls_by_what_is_written() {
    let calls = pieces(&[get(b"p\0"), put(b"q\0"), put(b"r\0"), get(b"q\0")]);
    let calls_done = |room: usize| judged(&calls, room).calls;
    assert_eq!(calls_done(12 + GET_MOST - 1), 3);
    assert_eq!(calls_done(12 + GET_MOST), 4);
    assert_eq!(judged(&calls, 12 + GET_MOST).written, 4 + 4 + 4 + 5);
}

/// A value of the greatest length fills its room to the last byte.
#[test]
fn the_longest_value_fills_its_room() {
    let longest = Call::Put {
        path: b"q\0".to_vec(),
        value: vec![5; VALUE_LIMIT],
        work: 0,
    };
    let calls = pieces(&[longest, get(b"q\0")]);
    let done = judged(&calls, ANSWER_HEAD + GET_MOST);
    assert_eq!((done.calls, done.written), (2, ANSWER_HEAD + GET_MOST));
    assert_eq!(judged(&calls, ANSWER_HEAD + GET_MOST - 1).calls, 1);
}

fn next(path: &[u8], after: &[u8]) -> Call {
    Call::Next {
        path: path.to_vec(),
        after: after.to_vec(),
        buffer: Vec::new(),
    }
}

fn clear_all() -> Call {
    second::calls::clear_all(0)
}

/// A clear and a next of the empty path are calls like any other; a get of it is answered by 3, and so is a move.
#[test]
fn the_empty_path_in_a_batch() {
    let rename = Call::Move {
        from: Vec::new(),
        to: b"s\0".to_vec(),
        work: 0,
    };
    let list = [
        put(b"q\0"),
        put(b"r\0"),
        next(b"", b""),
        next(b"", b"q\0"),
        next(b"", b"r\0"),
        get(b""),
        put(b""),
        rename,
        clear_all(),
        next(b"", b""),
        put(b"s\0"),
        next(b"", b""),
    ];
    let done = judged(&pieces(&list), 1000);
    let found = 3 * b"q\0".len();
    assert_eq!((done.calls, done.written), (12, 12 * ANSWER_HEAD + found));
}

/// It needs the room of its call, and what it leaves is empty.
#[test]
fn a_clear_of_everything_needs_the_room_of_a_clear() {
    let calls = pieces(&[put(b"q\0"), clear_all(), next(b"", b"")]);
    let calls_done = |room: usize| judged(&calls, room).calls;
    assert_eq!((calls_done(7), calls_done(8), calls_done(75)), (1, 2, 2));
    assert_eq!((calls_done(76), judged(&calls, 76).written), (3, 12));
    assert_eq!(laid(KIND_CLEAR, &[]), pieces(&[clear_all()]));
}

#[test]
fn a_patch_is_no_piece_yet() {
    let rest = two(b"q\0", b"r\0").expect("short");
    let calls = [
        pieces(&[put(b"q\0")]),
        laid(0x0023, &rest),
        pieces(&[put(b"s\0")]),
    ]
    .concat();
    assert_eq!(judged(&calls, 100).calls, 1);
    let calls = [
        pieces(&[put(b"q\0")]),
        laid(0x0024, &rest),
        pieces(&[put(b"s\0")]),
    ]
    .concat();
    assert_eq!(judged(&calls, 100).calls, 3);
}

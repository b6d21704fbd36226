// The empty path: who takes it and who refuses it, that a clear of it leaves nothing, and that a store which is wrong about it is
// found, whichever way it is driven.

use second::generate;
use second::lazy::{Lazy, Slip};
use second::limits::*;
use second::plain::{Answer, Call, Plain};
use second::reference::{Fault, Reference};
use second::rng::Rng;
use second::script::Script;
use second::sound::judge;
use second::stats::Stats;
use second::whole::{run, Unit};
use second::words;
use second::{paper, questions};

const N: usize = NODES_LEAST;
const WORK: usize = WORK_PER_NODE * N;

/// The faults that are about the empty path alone.
const FAULTS: [Fault; 10] = [
    Fault::PutTakesEmptyPath,
    Fault::DropTakesEmptyPath,
    Fault::MoveTakesEmptyPath,
    Fault::GetTakesEmptyPath,
    Fault::ClearRefusesEmptyPath,
    Fault::ClearOfAllDropsOne,
    Fault::ClearOfAllDropsNone,
    Fault::NextRefusesEmptyPath,
    Fault::NextOfAllFindsNone,
    Fault::NextOfAllFindsFirstAlone,
];

fn wrong(fault: Fault) -> Reference {
    Reference {
        fault: Some(fault),
        batch_fault: None,
    }
}

/// A map of a few paths.
fn filled() -> Plain {
    let mut plain = Plain::new(N);
    for path in [&b"a\0"[..], b"r1\0", b"r1\0b\0", b"z\0"] {
        plain.table.insert(path.to_vec(), vec![7]);
    }
    plain
}

/// What the plain map answers on a copy of it.
fn answer(plain: &Plain, call: &Call) -> Answer {
    let outcome = plain.clone().step(call);
    outcome.expect("the plain map answers").answer
}

fn put(path: &[u8], value: usize, work: usize) -> Call {
    Call::Put {
        path: path.to_vec(),
        value: vec![1; value],
        work,
    }
}

fn rename(from: &[u8], to: &[u8]) -> Call {
    Call::Move {
        from: from.to_vec(),
        to: to.to_vec(),
        work: WORK,
    }
}

fn clear(path: &[u8], work: usize) -> Call {
    let path = path.to_vec();
    Call::Clear { path, work }
}

fn get(path: &[u8], buffer: usize) -> Call {
    Call::Get {
        path: path.to_vec(),
        buffer: vec![0; buffer],
    }
}

fn next(path: &[u8], after: &[u8], buffer: usize) -> Call {
    Call::Next {
        path: path.to_vec(),
        after: after.to_vec(),
        buffer: vec![0; buffer],
    }
}

/// Each with the questions before it and behind it.
#[test]
fn put_drop_get_and_move_refuse_it() {
    let path = Vec::new();
    let cases = [
        (put(b"", 1, WORK), 3),
        (put(b"", VALUE_LIMIT + 1, WORK), 3),
        (put(b"", 1, WORK - 1), 1),
        (Call::Drop { path, work: WORK }, 3),
        (get(b"", GET_BUFFER), 3),
        (get(b"", GET_BUFFER - 1), 3),
        (rename(b"", b"a\0"), 3),
        (rename(b"a\0", b""), 3),
        (rename(b"", b""), 3),
        (rename(b"x\0", b""), 3),
    ];
    for plain in [filled(), Plain::new(N)] {
        for (call, number) in &cases {
            assert_eq!(answer(&plain, call), Answer::refused(*number), "{call:?}");
        }
    }
}

#[test]
fn clear_takes_it_and_leaves_nothing() {
    let mut plain = filled();
    let short = answer(&plain, &clear(b"", WORK - 1));
    assert_eq!(short, Answer::refused(1));
    let bad = answer(&plain, &clear(b"\0", WORK));
    assert_eq!(bad, Answer::refused(3));
    plain.step(&clear(b"", WORK));
    assert_eq!(plain, Plain::new(N));
    assert_eq!(answer(&plain, &clear(b"", WORK)), Answer::DONE);
}

#[test]
fn next_takes_it_as_either_path() {
    let plain = filled();
    let found = |after: &[u8]| {
        let outcome = plain.clone().step(&next(b"", after, NEXT_BUFFER));
        let outcome = outcome.expect("it answers");
        outcome.buffer[..outcome.answer.beside as usize].to_vec()
    };
    let mut listed = Vec::new();
    let mut place = found(b"");
    while !place.is_empty() {
        listed.push(place.clone());
        place = found(&place);
    }
    assert!(listed.iter().eq(plain.table.keys()));
    for (call, number) in [
        (next(b"", b"z\0", NEXT_BUFFER), 8),
        (next(b"", b"\0", NEXT_BUFFER), 3),
        (next(b"", b"\0", NEXT_BUFFER - 1), 3),
        (next(b"", b"", NEXT_BUFFER - 1), 5),
    ] {
        assert_eq!(answer(&plain, &call), Answer::refused(number), "{call:?}");
    }
    let nothing = answer(&Plain::new(N), &next(b"", b"", NEXT_BUFFER));
    assert_eq!(nothing, Answer::refused(8));
}

/// Any next that passes the questions before 8.
#[test]
fn straight_after_a_clear_of_it_no_next_finds_anything() {
    let mut rng = Rng::new(5);
    for seed in 0..40 {
        let sound = judge(&generate::random(seed)).expect("it is sound");
        let mut plain = Plain {
            n: sound.n,
            table: sound.table.clone(),
        };
        plain.step(&clear(b"", WORK_PER_NODE * sound.n));
        let paths: Vec<Vec<u8>> = sound.table.into_keys().collect();
        for _ in 0..40 {
            let mut any = || match rng.chance(1, 4) {
                true => Vec::new(),
                false => words::near(&mut rng, &paths),
            };
            let (path, after) = (any(), any());
            let call = next(&path, &after, NEXT_BUFFER + rng.below(100));
            assert_eq!(answer(&plain, &call), Answer::refused(8), "{call:?}");
        }
    }
}

/// A listing of everything is the table, on any sound image.
#[test]
fn a_listing_of_everything_is_the_table() {
    for seed in 0..30 {
        let image = generate::random(seed);
        let sound = judge(&image).expect("it is sound");
        let mut lazy = Lazy::default();
        let mut script = Script::on(&mut lazy, image);
        let (mut listed, mut after) = (Vec::new(), Vec::new());
        while let Some(found) = script.next_after("/", &after).expect("it is right") {
            listed.push(found.clone());
            after = found;
        }
        assert!(listed.iter().eq(sound.table.keys()), "seed {seed}");
    }
}

#[test]
fn right_stores_are_wiped_right() {
    for stats in [
        run(&mut Reference::default(), 7, 2),
        run(&mut Lazy::default(), 7, 2),
    ] {
        let stats = stats.unwrap_or_else(|what| panic!("{what}"));
        println!("{}", stats.table());
        assert!(stats.empty[&("clear", 0)] > 60 && stats.answers[&("next", 8)] > 200);
        assert!(stats.answers[&("put", 10)] > 3 && stats.answers[&("move", 8)] > 60);
    }
}

/// Every combination of arguments finds each of them, and what holds of a clear and of a listing is found on one image of each feature.
#[test]
fn every_fault_is_found_by_aim() {
    for fault in FAULTS {
        let found = questions::run(&mut wrong(fault)).expect_err("it is found");
        println!("{fault:?}: {found}");
        let read = [
            Fault::ClearRefusesEmptyPath,
            Fault::ClearOfAllDropsOne,
            Fault::ClearOfAllDropsNone,
            Fault::NextRefusesEmptyPath,
            Fault::NextOfAllFindsNone,
            Fault::NextOfAllFindsFirstAlone,
        ];
        let wiped = run(&mut wrong(fault), 3, 1);
        assert_eq!(wiped.is_err(), read.contains(&fault), "{fault:?}");
    }
}

/// The paper's second case, as the request has it.
#[test]
fn the_second_case_finds_who_takes_it_and_must_not() {
    let (_, case) = paper::CASES[1];
    for fault in FAULTS {
        let of_many = [Fault::ClearOfAllDropsOne, Fault::NextOfAllFindsFirstAlone];
        let found = case(&mut wrong(fault)).is_err();
        assert_eq!(found, !of_many.contains(&fault), "{fault:?}");
    }
    assert_eq!(case(&mut Reference::default()), Ok(()));
}

/// Messages that outlive a clear of everything are found on the first images on which any wait.
#[test]
fn what_waits_is_cleared_too() {
    let slip = Some(Slip::ClearsAllUnderMessages);
    let (mut lazy, mut stats, mut rng) = (Lazy { slip }, Stats::default(), Rng::new(2));
    let mut unit = Unit {
        subject: &mut lazy,
        stats: &mut stats,
        rng: &mut rng,
    };
    let mut waits = 0;
    for seed in 0..60 {
        let image = generate::random(seed);
        let sound = judge(&image).expect("it is sound");
        let found = unit.try_on(&image).is_err();
        let waiting = sound.tree.root.messages();
        let put = |m: &second::tree::Message| sound.table.contains_key(m.path());
        if waiting.iter().any(put) {
            waits += 1;
            assert!(found, "seed {seed}");
        }
    }
    assert!(waits > 10, "{waits}");
}

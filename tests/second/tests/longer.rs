// Values of up to 48 bytes: right stores go through the request's cases, images of the time before stay sound and mean what they meant,
// and a store that is wrong about a value's length is found, whichever way it is driven.

use second::feature::Feature;
use second::generate;
use second::lazy::Lazy;
use second::limits::*;
use second::longer::{run, CASES};
use second::mutate;
use second::plain::{Answer, Call, Plain};
use second::questions;
use second::reference::{Fault, Reference};
use second::sound::{judge, Rule};
use second::wrong_limit::judged_by;

const WORK: usize = WORK_PER_NODE * NODES_LEAST;

/// The faults that are about a value's length alone.
const FAULTS: [Fault; 19] = [
    Fault::PutTakesLonger,
    Fault::PutRefusesLongest,
    Fault::PutHasOldLimit,
    Fault::PutCutsValue,
    Fault::GetTakesShorter,
    Fault::GetRefusesJustEnough,
    Fault::GetHasOldBuffer,
    Fault::GetCutsValue,
    Fault::PairMayBeLonger,
    Fault::WaitingMayBeLonger,
    Fault::PairMayNotBeLongest,
    Fault::WaitingMayNotBeLongest,
    Fault::PairHasOldLimit,
    Fault::WaitingHasOldLimit,
    Fault::MoveCutsValues,
    Fault::FlushCutsValues,
    Fault::HealCutsValues,
    Fault::SettleCutsValues,
    Fault::TidyCutsValues,
];

/// The request's own numbers.
#[test]
fn the_limit_is_48_and_was_32() {
    assert_eq!((VALUE_LIMIT, GET_BUFFER, OLD_VALUE_LIMIT), (48, 48, 32));
}

#[test]
fn right_stores_go_through_every_case() {
    run(&mut Reference::default()).unwrap_or_else(|what| panic!("{what}"));
    run(&mut Lazy::default()).unwrap_or_else(|what| panic!("{what}"));
}

/// Each fault is found by one of the cases at the least.
#[test]
fn every_fault_is_found_by_a_case() {
    for fault in FAULTS {
        let found = |case: &second::paper::Case| {
            let mut wrong = Reference {
                fault: Some(fault),
                batch_fault: None,
            };
            case(&mut wrong).is_err()
        };
        let by: Vec<&str> = CASES
            .iter()
            .filter(|(_, case)| found(case))
            .map(|(name, _)| *name)
            .collect();
        println!("{fault:?}: {by:?}");
        assert!(!by.is_empty(), "{fault:?}");
    }
}

/// Every combination of arguments finds all but those that only other images show.
#[test]
fn every_fault_of_an_argument_is_found_by_the_questions() {
    let images_only = [
        Fault::PairMayBeLonger,
        Fault::WaitingMayBeLonger,
        Fault::WaitingMayNotBeLongest,
        Fault::WaitingHasOldLimit,
    ];
    for fault in FAULTS {
        let mut wrong = Reference {
            fault: Some(fault),
            batch_fault: None,
        };
        let found = questions::run(&mut wrong);
        assert_eq!(found.is_ok(), images_only.contains(&fault), "{fault:?}");
    }
}

fn answer(plain: &Plain, call: &Call) -> Answer {
    let outcome = plain.clone().step(call);
    outcome.expect("the plain map answers").answer
}

#[test]
fn the_plain_map_asks_for_the_longer_lengths() {
    let mut plain = Plain::new(NODES_LEAST);
    for length in 0..=100 {
        let put = Call::Put {
            path: b"a\0".to_vec(),
            value: vec![7; length],
            work: WORK,
        };
        let number = if length <= 48 { 0 } else { 4 };
        assert_eq!(answer(&plain, &put), Answer::refused(number), "{length}");
        plain.step(&put);
        assert_eq!(plain.table[&b"a\0"[..]].len(), length.min(48));
        let get = Call::Get {
            path: b"a\0".to_vec(),
            buffer: vec![0; length],
        };
        let number = if length < 48 { 5 } else { 0 };
        assert_eq!(answer(&plain, &get).number, number, "{length}");
    }
}

/// Whatever image was sound with the old limit is sound, and has the table that it had.
#[test]
fn images_of_the_old_limit_stay_sound() {
    let old = |image: &[u8]| judged_by(OLD_VALUE_LIMIT, OLD_VALUE_LIMIT, image);
    let (mut both, mut new_alone) = (0, 0);
    for seed in 0..300 {
        let of_feature = generate::preset(Feature::OldLimit, seed);
        assert!(old(&of_feature).is_ok(), "seed {seed}");
        let any = generate::random(seed);
        let flipped = [mutate::flip(&of_feature, seed), mutate::flip(&any, seed)];
        for image in [of_feature, any].iter().chain(&flipped) {
            match (old(image), judge(image)) {
                (Ok(was), Ok(is)) => {
                    both += 1;
                    assert_eq!(was.table, is.table, "seed {seed}");
                }
                (Ok(_), Err(rule)) => panic!("seed {seed}: {}", rule.name()),
                (Err(_), Ok(_)) => new_alone += 1,
                (Err(_), Err(_)) => {}
            }
        }
    }
    println!("{both} sound as before, {new_alone} that were not");
    assert!(both > 300 && new_alone > 30, "{both} {new_alone}");
}

/// Damage by a long value is often by one byte alone: with a limit of one more the image would be sound.
#[test]
fn long_values_are_damage_by_a_byte() {
    let longer = VALUE_LIMIT + 1;
    for (rule, limits) in [
        (Rule::PairValue, (longer, VALUE_LIMIT)),
        (Rule::PutValue, (VALUE_LIMIT, longer)),
    ] {
        let (mut by_one, mut by_more) = (0, 0);
        for seed in 0..60 {
            let image = generate::random(seed);
            let Some(damaged) = mutate::damage(rule, &image, seed) else {
                continue;
            };
            assert_eq!(judge(&damaged).err(), Some(rule), "seed {seed}");
            match judged_by(limits.0, limits.1, &damaged) {
                Ok(_) => by_one += 1,
                Err(_) => by_more += 1,
            }
        }
        println!("{}: {by_one} by one byte, {by_more} by more", rule.name());
        assert!(by_one > 5 && by_more > 5, "{by_one} {by_more}");
    }
}

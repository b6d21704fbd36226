// The judge on the reference store, which meets the contract, and on each of its wrong
// variants, which the judge must find.

use second::corner::Corner;
use second::judge::{run, run_case};
use second::lazy::{Lazy, Slip};
use second::limits::{LEVELS_MOST, TELLING_LENGTHS};
use second::reference::{Fault, Reference};
use second::stats::{Stats, ANSWERS, EMPTY_ANSWERS};
use second::subject::Capabilities;
use second::{grid, questions};

const SEED: u64 = 2026;

#[test]
fn the_reference_store_meets_the_contract() {
    let mut subject = Reference::default();
    let stats = run(&mut subject, SEED, 250).unwrap_or_else(|what| panic!("{what}"));
    println!("{stats:?}");
    for (name, numbers) in ANSWERS {
        for number in *numbers {
            let met = stats.answers.contains_key(&(*name, *number));
            assert!(met, "{name} never answered {number}");
        }
    }
}

#[test]
fn every_fault_is_found() {
    for fault in Fault::ALL {
        let mut subject = Reference {
            fault: Some(*fault),
            batch_fault: None,
        };
        let mut stats = Stats::default();
        let found = (0..600)
            .find_map(|case| run_case(&mut subject, SEED, case, &mut stats).err())
            .unwrap_or_else(|| panic!("{fault:?} was not found"));
        println!("{fault:?} after {} calls: {found}", stats.calls);
    }
}

#[test]
fn a_store_that_lets_messages_wait_meets_the_contract() {
    let stats = run(&mut Lazy::default(), SEED, 150).unwrap_or_else(|what| panic!("{what}"));
    println!("{}", stats.table());
    assert!(stats.answers[&("flush", 0)] > 20);
}

/// The whole grid, four times over, with a store that mostly keeps the bound. The questions meet what is seldom.
#[test]
fn every_corner_is_tried() {
    let mut stats = run(&mut Lazy::default(), SEED, 250).unwrap_or_else(|what| panic!("{what}"));
    let corners = grid::run(&mut Lazy::default(), SEED, 4);
    stats += &corners.unwrap_or_else(|what| panic!("{what}"));
    stats += &questions::run(&mut Lazy::default()).unwrap_or_else(|what| panic!("{what}"));
    println!("{}", stats.table());
    assert_eq!(stats.missing(Capabilities::ALL), Vec::<String>::new());
    for levels in 1..LEVELS_MOST {
        let moves = stats.moves_at(levels, |_| true);
        assert!(moves.bounded > 10 * moves.over, "{levels}: {moves:?}");
    }
}

/// Every combination of arguments: each answer is met among them.
#[test]
fn every_question_is_asked_in_its_turn() {
    let stats = questions::run(&mut Reference::default()).unwrap_or_else(|what| panic!("{what}"));
    println!("{}", stats.table());
    for (name, numbers) in ANSWERS.iter().filter(|(name, _)| *name != "make") {
        for number in *numbers {
            let met = stats.answers.contains_key(&(*name, *number));
            assert!(met, "{name} never answered {number}");
        }
    }
    for (name, numbers) in EMPTY_ANSWERS {
        for number in *numbers {
            let met = stats.empty.contains_key(&(*name, *number));
            assert!(met, "{name} of the empty path never answered {number}");
        }
    }
}

/// A run that tries nothing misses everything.
#[test]
fn what_is_not_tried_is_missed() {
    let all = Stats::default().missing(Capabilities::ALL);
    let reads = Stats::default().missing(Capabilities::READS);
    assert!(all.len() > 3 * Corner::all().len());
    assert_eq!(reads.len(), 29 + TELLING_LENGTHS.len());
}

#[test]
fn every_natural_mistake_is_found() {
    for slip in Slip::ALL {
        let mut subject = Lazy { slip: Some(slip) };
        let mut stats = Stats::default();
        let found = (0..600)
            .find_map(|case| run_case(&mut subject, SEED, case, &mut stats).err())
            .unwrap_or_else(|| panic!("{slip:?} was not found"));
        println!("{slip:?} after {} calls: {found}", stats.calls);
    }
}

/// A longer run, for an idle machine: cargo test --release -- --ignored
#[test]
#[ignore]
fn many_lists_of_calls() {
    for seed in 1..=4 {
        run(&mut Reference::default(), seed, 1000).unwrap_or_else(|what| panic!("{what}"));
        run(&mut Lazy::default(), seed, 1000).unwrap_or_else(|what| panic!("{what}"));
    }
}

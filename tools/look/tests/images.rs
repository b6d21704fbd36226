// The text of images, the broken rules of damaged ones, and the lookup's decisions, each held
// against tests/second's own judgement.

use look::arguments::Moved;
use look::below::{self, Record};
use look::compare::Comparison;
use look::gap;
use look::moving::Moving;
use look::report::report;
use look::samples;
use look::survey::Survey;
use look::trace::{Ending, Trace};
use second::feature::Feature;
use second::limits::NODE;
use second::meaning;
use second::mutate::{damage, flip, waivable};
use second::path::beginnings;
use second::rng::Rng;
use second::sound::{judge, Rule};
use second::{examples, generate, words};
use std::collections::{BTreeMap, BTreeSet};

fn images() -> Vec<Vec<u8>> {
    let presets = [
        Feature::OneLeaf,
        Feature::SmallStore,
        Feature::WaitingEverywhere,
        Feature::ClearShort,
        Feature::ClearUnowned,
        Feature::EmptyLeaf,
        Feature::LongPath,
        Feature::LongPivot,
    ];
    let made = presets.iter().map(|f| generate::preset(*f, 11));
    made.chain((0..25).map(generate::random)).collect()
}

#[test]
fn a_small_image_is_written_whole() {
    let image = samples::waiting();
    let written = report("waiting.img", &Survey::take(&image));
    assert_eq!(written, include_str!("waiting.txt"));
}

#[test]
fn lifted_bytes_and_odd_bytes_are_set_apart() {
    let example = |name: &str| {
        let all = examples::all();
        all.into_iter()
            .find(|e| e.name == name)
            .map(|e| e.image)
            .unwrap_or_default()
    };
    let three = example("three_levels");
    let written = report("three", &Survey::take(&three));
    for line in [
        "clear [r1/]c",
        "[r1/c/]k",
        "lifts  r1/c/",
        "clear all that this node owns",
        "r1/‹FF›",
    ] {
        assert!(written.contains(line), "{line}\n{written}");
    }
    let four = example("four_levels");
    let written = report("four", &Survey::take(&four));
    assert!(written.starts_with("four: sound; 32 nodes: node 0, 13 reachable, 18 free; 4 levels"));
    assert!(
        written.ends_with("free nodes: 1-6, 12, 14-24 (18)\n"),
        "{written}"
    );
}

#[test]
fn a_clear_of_the_empty_path_is_told_as_one() {
    for (image, live, line) in [
        (
            samples::wiped(),
            0,
            "  message 2  clear /            everything  (newest)\n",
        ),
        (
            samples::refilled(),
            1,
            "  message 1  clear /            everything  (oldest)\n",
        ),
    ] {
        let written = report("wiped", &Survey::take(&image));
        assert!(written.contains(line), "{written}");
        assert_eq!(judge(&image).unwrap().table.len(), live);
    }
}

#[test]
fn samples_are_what_they_say() {
    for (name, image) in samples::all() {
        let is_sound = !["unsound.img", "miscounted.img", "unreadable.img"].contains(&name);
        assert_eq!(judge(&image).is_ok(), is_sound, "{name}");
    }
    assert!(judge(&samples::halves()).is_ok());
    let (before, after) = samples::moved();
    let renumbered = |path: Vec<u8>| match path.strip_prefix(b"r1\0c7\0") {
        Some(rest) => [&b"r1\0c9\0"[..], rest].concat(),
        None => path,
    };
    let rows = judge(&before).unwrap().table.into_iter();
    let moved: BTreeMap<_, _> = rows
        .map(|(path, value)| (renumbered(path), value))
        .collect();
    assert_eq!(judge(&after).unwrap().table, moved);
}

#[test]
fn the_records_below_a_path_are_the_tables() {
    for image in images() {
        let survey = Survey::take(&image);
        let table = judge(&image).unwrap().table;
        let mut tops: BTreeSet<&[u8]> = table.keys().flat_map(|path| beginnings(path)).collect();
        tops.insert(&[]);
        for top in tops {
            let records = below::records(&survey, top);
            let paths: Vec<&Vec<u8>> = records.iter().map(|record| &record.path).collect();
            let below = table
                .keys()
                .filter(|path| path.starts_with(top) && *path != top);
            assert_eq!(paths, below.collect::<Vec<_>>());
            assert_eq!(gap::below(&survey, top), None);
            shares_are_true(&survey, top, &records);
        }
    }
}

/// Each record's node lifts as much of the path above it as its share says. The empty path has
/// nothing to lift.
fn shares_are_true(survey: &Survey<'_>, top: &[u8], records: &[Record]) {
    let shares = below::shares(survey, top, records);
    if top.is_empty() {
        assert!(shares.is_empty());
        return;
    }
    let told: usize = shares.iter().map(|share| share.records).sum();
    assert_eq!(told, records.len());
    for record in records {
        let mut mine = shares.iter().filter(|s| s.nodes.contains(&record.node));
        let share = mine.next().expect("a share");
        let node = survey.node(record.node).expect("a node");
        assert!(record.path.starts_with(node.lifted()) && mine.next().is_none());
        assert_eq!(share.lifted, node.lifted().len().min(top.len()));
    }
}

#[test]
fn what_a_move_did_is_told() {
    let tell = |(before, after): (Vec<u8>, Vec<u8>), from: &str, to: &str| {
        let (was, is) = (Survey::take(&before), Survey::take(&after));
        let (from, to) = (from.into(), to.into());
        Moving::of([&was, &is], &Comparison::of(&was, &is), &Moved { from, to })
    };
    let whole = tell(samples::moved(), "r1/c7", "r1/c9").expect("a move");
    let told = "Of the 7 records that moved each keeps its bytes, in nodes 6-7. Nothing is copied";
    assert!(whole.records().starts_with(told), "{}", whole.records());
    let cut = tell(samples::cut(), "r1/k2", "r1/k7").expect("a move");
    let told = "Of the 4 records that moved 2 keep their bytes, in node 2, and 2 were written anew";
    assert!(cut.records().starts_with(told), "{}", cut.records());
    let why = "The leaf at each end of r1/k2 (nodes 1, 3) also held its neighbours' records";
    assert!(cut.records().contains(why), "{}", cut.records());
    let place = "is an empty leaf: the place that r1/k2 left.";
    assert!(
        cut.remains().concat().contains(place),
        "{:?}",
        cut.remains()
    );
    assert!(tell(samples::cut(), "r1/k2", "r1/k8").is_none());
    assert!(tell(samples::large(), "r1", "r2").is_none());
}

/// The nodes whose bytes the damage changed.
fn touched(before: &[u8], after: &[u8]) -> BTreeSet<u16> {
    let pairs = before.chunks(NODE).zip(after.chunks(NODE)).enumerate();
    pairs
        .filter(|(_, (a, b))| a != b)
        .map(|(i, _)| i as u16)
        .collect()
}

#[test]
fn every_rule_is_named_with_its_node() {
    let mut found: BTreeMap<&str, usize> = BTreeMap::new();
    for (seed, image) in images().iter().enumerate() {
        for rule in Rule::ALL {
            let Some(damaged) = damage(*rule, image, seed as u64) else {
                continue;
            };
            let survey = Survey::take(&damaged);
            let told = survey.findings.iter().find(|f| f.rule == *rule);
            let told = told.unwrap_or_else(|| panic!("{} in {:?}", rule.name(), survey.findings));
            let place = touched(image, &damaged);
            let node_named = *rule == Rule::StoreSize || place.contains(&told.node);
            assert!(node_named, "{}: {told:?} {place:?}", rule.name());
            if waivable(*rule) {
                let alone = survey.findings.iter().all(|f| f.rule == *rule);
                assert!(alone, "{}: {:?}", rule.name(), survey.findings);
            }
            *found.entry(rule.name()).or_default() += 1;
        }
    }
    assert_eq!(found.len(), Rule::ALL.len(), "{found:?}");
}

#[test]
fn soundness_agrees_with_the_second_program() {
    let mut rng = Rng::new(3);
    for (seed, image) in images().iter().enumerate() {
        assert!(Survey::take(image).sound());
        for more in 0..6 {
            let flipped = flip(image, (100 * seed + more) as u64);
            let survey = Survey::take(&flipped);
            let told = survey.findings.iter().map(|f| f.rule);
            match judge(&flipped) {
                Ok(_) => assert_eq!(told.count(), 0),
                Err(rule) => assert!(told.collect::<Vec<_>>().contains(&rule), "{}", rule.name()),
            }
            report("flipped", &survey);
            Trace::take(&survey, &words::path(&mut rng));
        }
    }
    for length in [0, 1, 32 * NODE - 1, 32 * NODE, 40 * NODE] {
        let noise = rng.bytes(length);
        assert!(!Survey::take(&noise).sound());
    }
}

#[test]
fn the_decision_is_the_second_programs_lookup() {
    let mut rng = Rng::new(5);
    let (mut present, mut absent) = (0, 0);
    for image in images() {
        let survey = Survey::take(&image);
        let paths: Vec<Vec<u8>> = judge(&image).unwrap().table.into_keys().collect();
        for _ in 0..60 {
            let path = words::near(&mut rng, &paths);
            let trace = Trace::take(&survey, &path);
            assert_eq!(trace.value, meaning::lookup(&image, &path));
            assert!(trace.decided.is_some());
            *(if trace.value.is_some() {
                &mut present
            } else {
                &mut absent
            }) += 1;
            pieces_are_the_path(&survey, &trace);
        }
    }
    assert!(present > 300 && absent > 300, "{present} {absent}");
}

/// The pieces make up the path, or, where a clear or no pair decides, a beginning of it.
fn pieces_are_the_path(survey: &Survey<'_>, trace: &Trace) {
    let whole = trace
        .pieces
        .iter()
        .flat_map(|p| p.bytes.clone())
        .collect::<Vec<u8>>();
    assert!(trace.path.starts_with(&whole));
    if trace.value.is_some() {
        assert_eq!(whole, trace.path);
    }
    for piece in &trace.pieces {
        let node = survey.node(piece.node).expect("a node on the way");
        let suffix = look::trace::suffix_of(&node.entries[piece.entry]);
        assert!(suffix.starts_with(&piece.bytes));
    }
    let last = trace.steps.last().expect("a step");
    assert_ne!(last.ending, Ending::Stopped);
}

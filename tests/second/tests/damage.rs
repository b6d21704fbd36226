// Damaged images: every rule can be broken, and is found broken under its own name.

use second::feature::Feature;
use second::generate;
use second::mutate::{breaks_alone, damage, flip};
use second::sound::{judge, Rule};
use std::collections::BTreeMap;

fn images() -> Vec<Vec<u8>> {
    let presets = [
        Feature::OneLeaf,
        Feature::SmallStore,
        Feature::WaitingEverywhere,
        Feature::ClearShort,
        Feature::EmptyLeaf,
        Feature::LongPath,
        Feature::LongPivot,
    ];
    let made = presets.iter().map(|f| generate::preset(*f, 11));
    made.chain((0..30).map(generate::random)).collect()
}

#[test]
fn every_rule_is_broken_alone() {
    let mut found: BTreeMap<&str, usize> = BTreeMap::new();
    for (seed, image) in images().iter().enumerate() {
        for rule in Rule::ALL {
            if let Some(damaged) = damage(*rule, image, seed as u64) {
                assert_eq!(judge(&damaged).err(), Some(*rule));
                assert!(breaks_alone(*rule, &damaged), "{}", rule.name());
                *found.entry(rule.name()).or_default() += 1;
            }
        }
    }
    println!("{found:?}");
    for rule in Rule::ALL {
        let count = found.get(rule.name()).copied().unwrap_or(0);
        assert!(count >= 3, "{} was broken {count} times", rule.name());
    }
}

#[test]
fn flipped_bits_are_judged_without_harm() {
    let (mut sound, mut unsound) = (0, 0);
    for (seed, image) in images().iter().enumerate() {
        for more in 0..20 {
            match judge(&flip(image, (100 * seed + more) as u64)) {
                Ok(_) => sound += 1,
                Err(_) => unsound += 1,
            }
        }
    }
    assert!(sound > 0 && unsound > 0, "{sound} {unsound}");
}

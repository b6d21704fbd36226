// The images made by hand: what they mean is written here once more, by hand, and the printed
// antt file has the shape that the proof side expects.

use second::examples::{all, Example};
use second::feature::Feature;
use second::path::from_text;
use second::sound::{judge, Sound};
use second::tree::Table;

fn example(name: &str) -> Example {
    let found = all().into_iter().find(|e| e.name == name);
    found.expect("there is such an example")
}

fn sound(example: &Example) -> Sound {
    judge(&example.image).unwrap_or_else(|rule| panic!("{}: {}", example.name, rule.name()))
}

fn table(rows: &[(&str, &[u8])]) -> Table {
    let row = |(path, value): &(&str, &[u8])| (from_text(path.as_bytes()), value.to_vec());
    rows.iter().map(row).collect()
}

fn shows(name: &str, feature: Feature) {
    let example = example(name);
    let shown = feature.shown_by(&example.image, &sound(&example));
    assert!(shown, "{name} shows {}", feature.name());
}

const LONGEST: &str = "v234567890123456/v234567890123456/v234567890123456/v23456789012";

#[test]
fn they_mean_what_they_should() {
    let rows = |name: &str| sound(&example(name)).table;
    assert_eq!(rows("made"), table(&[]));
    let two: &[(&str, &[u8])] = &[("a", &[11]), ("r1", &[9]), ("r1/b", &[7, 7]), ("r2/x", &[])];
    assert_eq!(rows("two_levels"), table(two));
    let three: &[(&str, &[u8])] = &[
        ("a", &[1]),
        ("a/x", &[9]),
        ("r1", &[7]),
        ("r1/c/m", &[8]),
        ("r10", &[1]),
        ("s", &[]),
        ("t/u/b", &[4]),
        ("u", &[3]),
        (LONGEST, &[10]),
        ("z", &[5]),
    ];
    assert_eq!(rows("three_levels"), table(three));
    let four: &[(&str, &[u8])] = &[
        ("a", &[4]),
        ("c", &[2]),
        ("c/d", &[4]),
        ("e", &[3]),
        ("m/x", &[2]),
        ("n/o", &[3]),
        ("q", &[1]),
        ("q/r", &[3]),
    ];
    assert_eq!(rows("four_levels"), table(four));
    let value = |length: u8| -> Vec<u8> { (1..=length).collect() };
    let long: &[(&str, &[u8])] = &[
        ("a", &value(48)),
        ("b", &value(33)),
        ("c", &value(48)),
        ("d", &value(32)),
    ];
    assert_eq!(rows("long_values"), table(long));
}

#[test]
fn they_show_their_corners() {
    shows("one_leaf", Feature::OneLeaf);
    for feature in [
        Feature::ClearAtPrefix,
        Feature::ClearShort,
        Feature::EmptySuffixPut,
        Feature::EmptyLeaf,
        Feature::FfPivot,
    ] {
        shows("three_levels", feature);
    }
    shows("long_pivot", Feature::LongPivot);
    shows("long_pivot", Feature::Settled);
    shows("four_levels", Feature::WaitingEverywhere);
    shows("four_levels", Feature::ClearAll);
    shows("four_levels", Feature::OneChildChain);
    shows("four_levels", Feature::GarbageInFree);
    shows("four_levels", Feature::ShuffledNumbers);
    shows("long_values", Feature::LongValue);
    shows("long_values", Feature::LongPut);
}

#[test]
fn damaged_ones_break_the_rule_they_name() {
    let damaged: Vec<Example> = all()
        .into_iter()
        .filter(|e| e.name.starts_with("bad_"))
        .collect();
    assert_eq!(damaged.len(), 8);
    for example in &damaged {
        let rule = judge(&example.image).expect_err("it is unsound");
        let name = rule.name().replace('-', "_");
        assert_eq!(format!("bad_{name}"), example.name);
    }
}

/// Reads a printed list of numbers back.
fn numbers(list: &str) -> Vec<u8> {
    let items = list.split(" ∷ ").take_while(|item| *item != "[]");
    items.map(|item| item.parse().expect("a byte")).collect()
}

/// The printed images, put together again as the proof side does, are the images.
#[test]
fn the_print_reads_back() {
    let file = second::antt::file();
    let line = |name: &str| {
        let start = format!("{name} = ");
        let mut lines = file.lines().filter_map(|l| l.strip_prefix(&start[..]));
        lines.next().expect("the name is defined").to_string()
    };
    for example in all() {
        let mut image = Vec::new();
        for part in line(example.name).split(" ++ ") {
            let words: Vec<&str> = part.split([' ', '(']).filter(|w| !w.is_empty()).collect();
            match words[..] {
                ["node", name] => {
                    let mut node = numbers(&line(name));
                    node.resize(1024, 0);
                    image.extend(node);
                }
                ["replicate", count, ..] => {
                    let count: usize = count.parse().expect("a count");
                    image.resize(image.len() + count * 1024, 0);
                }
                _ => panic!("unknown part {part}"),
            }
        }
        assert!(image == example.image, "{}", example.name);
    }
}

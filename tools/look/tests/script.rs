// The page's script says what the program says, of sound and of damaged images; its key names the
// marks that are there, and `Next change` goes to what changed. Relies on node, which runs the
// script in the small document beside this file: without node nothing is tried, and that is said.

use look::arguments::Moved;
use look::below;
use look::compare::Comparison;
use look::page::{self, Opening, Side};
use look::samples;
use look::spell;
use look::survey::Survey;
use look::way::{self, Asked};
use second::feature::Feature;
use second::generate;
use second::limits::{ENTRY_HEAD, NODE, NODE_HEAD};
use second::mutate::damage;
use second::path::beginnings;
use second::sound::{judge, Rule};
use std::collections::{BTreeMap, BTreeSet};
use std::io::Write;
use std::path::Path;
use std::process::{Command, Stdio};

/// The texts that a page shows, by file, path and kind; those before a path is typed have none.
type Shown = BTreeMap<(String, String, String), Vec<String>>;

/// Pages in files, and the paths that are typed into them.
#[derive(Default)]
struct Typed {
    lines: String,
}

impl Typed {
    fn page(&mut self, file: &str, page: &str, paths: &[String]) {
        let file = Path::new(env!("CARGO_TARGET_TMPDIR")).join(format!("script-{file}"));
        std::fs::write(&file, page).expect("a page is written");
        for path in paths {
            self.lines += &format!("{}\t{path}\n", file.display());
        }
    }

    /// None without node.
    fn show(self) -> Option<Shown> {
        let script = Path::new(env!("CARGO_MANIFEST_DIR")).join("tests/document.js");
        let piped = Command::new("node")
            .arg(script)
            .stdin(Stdio::piped())
            .stdout(Stdio::piped())
            .spawn();
        let Ok(mut node) = piped else {
            // Not by a macro, whose output a passing test keeps for itself.
            let _ = writeln!(std::io::stderr(), "script: no node here, nothing tried");
            return None;
        };
        let mut input = node.stdin.take().expect("a pipe");
        let writer = std::thread::spawn(move || input.write_all(self.lines.as_bytes()));
        let output = node.wait_with_output().expect("node ends");
        writer.join().expect("a writer").expect("lines are taken");
        assert!(output.status.success());
        Some(sorted(&String::from_utf8_lossy(&output.stdout)))
    }
}

fn sorted(output: &str) -> Shown {
    let mut shown = Shown::new();
    for line in output.lines() {
        let parts: Vec<&str> = line.split('\t').collect();
        let [file, path, kind, text] = parts[..] else {
            panic!("{line}");
        };
        let (_, file) = file.rsplit_once("script-").expect("a page of this test");
        let place = (file.into(), path.into(), kind.into());
        shown.entry(place).or_default().push(text.into());
    }
    shown
}

fn told<'s>(shown: &'s Shown, file: &str, path: &str, kind: &str) -> &'s [String] {
    let place = (file.into(), path.into(), kind.into());
    shown.get(&place).map_or(&[], |texts| texts)
}

/// The empty path, every path that is there, every beginning of one, and one that is not there.
fn paths_of(image: &[u8]) -> Vec<String> {
    let table = judge(image).expect("a sound image").table;
    let known = table.keys().flat_map(|path| beginnings(path));
    let mut paths: BTreeSet<String> = known.map(spell::path).collect();
    paths.insert("no/such/path".into());
    let first = spell::EMPTY_PATH.to_string();
    [first].into_iter().chain(paths).collect()
}

/// The answer without what each of the two adds to the entry that decides.
fn essence(answer: &str) -> String {
    let one = answer.replace("the value empty.", "the value -.");
    let one = one.replace(" What is below it is marked in the tree.", "");
    let one = one.replace("It is decided by", "Decided by");
    match one.split_once(" Decided by ") {
        None => one,
        Some((verdict, by)) => {
            let entry = by.split([':', ',', '.']).next().unwrap_or("");
            format!("{verdict} {}", entry.replace("the leaf ", ""))
        }
    }
}

/// Where the root's number stands, and in `samples::halves` the number of the root's second child.
const ROOT: usize = 6;
const LOST_CHILD: usize = 3 * NODE + NODE_HEAD + ENTRY_HEAD + 2 + ENTRY_HEAD;

/// The page's file, an image, and paths that it has, or had before it was damaged.
type Case = (String, Vec<u8>, Vec<String>);

/// A sound image, and what is left of it when one rule is broken.
fn break_rules(number: usize, image: &[u8]) -> Vec<Case> {
    let paths: Vec<String> = paths_of(image).into_iter().step_by(3).take(12).collect();
    let mut cases = vec![(format!("{number}.html"), image.to_vec(), paths.clone())];
    for rule in Rule::ALL {
        let damaged = damage(*rule, image, number as u64);
        let name = format!("{number}-{}.html", rule.name());
        cases.extend(damaged.map(|image| (name, image, paths.clone())));
    }
    cases
}

/// Entries that do not read, in leaves and in interior nodes, before what is asked for and behind.
fn cut_short() -> Vec<Case> {
    let (waiting, halves) = (samples::waiting(), samples::halves());
    let of_waiting = [
        (1, 2),
        (1, 6),
        (5, 1),
        (6, 3),
        (7, 1),
        (7, 2),
        (9, 3),
        (11, 1),
    ];
    let of_waiting = of_waiting.map(|place| (&waiting, place));
    let of_halves = [(2, 1), (2, 2)].map(|place| (&halves, place));
    let all = of_waiting.into_iter().chain(of_halves).enumerate();
    all.map(|(i, (image, (number, entry)))| {
        let damaged = samples::unreadable(image.clone(), number, entry);
        (format!("cut-short-{i}.html"), damaged, paths_of(image))
    })
    .collect()
}

/// Two bytes that are FF each: the number of the root, and of a child.
fn lead_nowhere() -> Vec<Case> {
    let halves = samples::halves();
    let damaged = [("lost.html", LOST_CHILD), ("rootless.html", ROOT)].map(|(name, at)| {
        let mut image = halves.clone();
        image[at..at + 2].fill(0xFF);
        (name.into(), image, paths_of(&halves))
    });
    damaged.into()
}

fn cases() -> Vec<Case> {
    let empty = generate::preset(Feature::EmptyLeaf, 11);
    let sound = [samples::waiting(), samples::cut().0, empty];
    let numbered = sound.iter().enumerate();
    let mut cases: Vec<Case> = numbered
        .flat_map(|(i, image)| break_rules(i, image))
        .collect();
    cases.extend(cut_short());
    cases.extend(lead_nowhere());
    let paths = paths_of(&samples::waiting());
    cases.push((
        "miscounted.html".into(),
        samples::miscounted(),
        paths.clone(),
    ));
    cases.push(("text.html".into(), b"no store".to_vec(), paths));
    for (name, image) in [
        ("wiped.html", samples::wiped()),
        ("refilled.html", samples::refilled()),
    ] {
        let paths = paths_of(&samples::waiting());
        cases.push((name.into(), image, paths));
    }
    cases
}

#[test]
fn each_answer_is_the_programs() {
    let (images, mut typed) = (cases(), Typed::default());
    for (file, image, paths) in &images {
        let survey = &Survey::take(image);
        typed.page(file, &page::one(&Side { name: "x", survey }, None), paths);
    }
    let Some(shown) = typed.show() else { return };
    let mut met: BTreeMap<&str, usize> = BTreeMap::new();
    for (file, image, paths) in &images {
        let survey = Survey::take(image);
        for path in paths {
            let bytes = spell::parse_asked(path).expect("a path");
            let asked = Asked::of(&survey, &bytes);
            let answer = way::answer(&survey, &asked);
            let page = told(&shown, file, path, "answer-a").concat();
            assert_eq!(essence(&page), essence(&answer), "{file} {path}");
            let shares = below::shares(&survey, &bytes, &asked.below);
            let wanted: Vec<String> = shares.iter().map(|share| share.words(&bytes)).collect();
            let page = told(&shown, file, path, "share-a");
            assert!(
                page == wanted || asked.trace.value.is_some(),
                "{file} {path} {page:?}"
            );
            count_words(&answer, &mut met);
        }
    }
    assert!(
        met.len() == WORDS.len() && met.values().all(|n| *n > 0),
        "{met:?}"
    );
}

const WORDS: [&str; 13] = [
    "has the value",
    "is absent",
    "below it, and no value of its own",
    "below it: the whole store",
    "no record below it: the store is empty",
    "so this cannot be told",
    "so whether there is more cannot be told",
    "so what is below it cannot be told",
    "was not read from entry",
    "leads to no node that can be read there",
    "node 0 leads to no root that can be read",
    "Every call but make refuses this image (2). What its bytes would say:",
    "Every call refuses this file (1).",
];

fn count_words(answer: &str, met: &mut BTreeMap<&str, usize>) {
    for words in WORDS.iter().filter(|words| answer.contains(**words)) {
        *met.entry(words).or_default() += 1;
    }
}

fn comparison(images: &(Vec<u8>, Vec<u8>), from: &str, to: &str) -> String {
    let (before, after) = (Survey::take(&images.0), Survey::take(&images.1));
    let side = |survey| Side { name: "x", survey };
    let (from, to) = (from.into(), to.into());
    let opening = Opening {
        path: None,
        moved: Some(&Moved { from, to }),
    };
    let comparison = Comparison::of(&before, &after);
    page::two(&[side(&before), side(&after)], &comparison, &opening)
}

#[test]
fn next_change_goes_to_each_change_and_nowhere_else() {
    let mut typed = Typed::default();
    let paths = ["r1/c7".to_string()];
    let moved = comparison(&samples::moved(), "r1/c7", "r1/c9");
    typed.page("moved.html", &moved, &paths);
    let cut = comparison(&samples::cut(), "r1/k2", "r1/k7");
    typed.page("cut.html", &cut, &paths);
    let Some(shown) = typed.show() else { return };
    let changes = told(&shown, "moved.html", "", "change").join(", ");
    let wanted = "Node 1 image-a, Node 9 image-a, Node 10 image-a, Free nodes image-a, \
                  Node 1 image-b, Node 9 image-b, Node 10 image-b, Node 12 image-b";
    assert_eq!(changes, wanted);
    let changes = told(&shown, "cut.html", "", "change");
    let (was, is) = samples::cut();
    let comparison = Comparison::of(&Survey::take(&was), &Survey::take(&is));
    for side in ["image-a", "image-b"] {
        assert!(changes.contains(&format!("Node 0 {side}")), "{changes:?}");
    }
    for name in changes.iter().filter(|name| name.starts_with("Node")) {
        let number = name.split(' ').nth(1).and_then(|n| n.parse().ok());
        assert!(
            comparison.of_node(number.expect("a number")).changed,
            "{name}"
        );
    }
}

/// Whether the key has a line with these words.
fn names(shown: &Shown, file: &str, path: &str, words: &str) -> bool {
    let key = told(shown, file, path, "key");
    key.iter().any(|line| line.contains(words))
}

#[test]
fn the_key_names_the_marks_that_are_there() {
    let mut typed = Typed::default();
    let image = samples::waiting();
    let survey = &Survey::take(&image);
    let one = page::one(&Side { name: "x", survey }, None);
    let asked = ["r1/c7", "r1/c7/t1/f2"].map(String::from);
    typed.page("key-one.html", &one, &asked);
    let moved = comparison(&samples::moved(), "r1/c7", "r1/c9");
    typed.page("key-two.html", &moved, &["r1/c7/t1/f1".into()]);
    let Some(shown) = typed.show() else { return };
    for (path, words, is_there) in [
        ("", "lifted", true),
        ("", "A pivot is", true),
        ("", "A message is", true),
        ("", "orange", false),
        ("", "red frame", false),
        ("", "gold", false),
        ("", "blue", false),
        ("r1/c7", "gold bar", true),
        ("r1/c7", "dark gold frame", false),
        ("r1/c7/t1/f2", "dark gold frame", true),
        ("r1/c7/t1/f2", "gold bar", false),
        ("r1/c7/t1/f2", "struck", true),
        ("r1/c7/t1/f2", "dashed", true),
    ] {
        let named = names(&shown, "key-one.html", path, words);
        assert_eq!(named, is_there, "{path} {words}");
    }
    let followed = "it is the record that is followed, or the newest message on it";
    assert!(names(&shown, "key-two.html", "r1/c7/t1/f1", followed));
    assert!(names(&shown, "key-two.html", "", "orange"));
}

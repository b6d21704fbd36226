// The page holds every reachable node once and nothing from outside; the command line keeps its
// statuses and says its errors in one line.

use look::arguments::Moved;
use look::compare::Comparison;
use look::page::{self, Opening, Side};
use look::samples;
use look::survey::Survey;
use second::feature::Feature;
use second::generate;
use second::mutate;
use second::sound::Rule;
use std::path::{Path, PathBuf};
use std::process::{Command, Output};

fn cards(page: &str, id: &str, number: u16) -> usize {
    page.matches(&format!(" id={id}{number} ")).count()
}

fn assert_each_node_once(page: &str, id: &str, survey: &Survey<'_>) {
    for number in 1..survey.n as u16 {
        let wanted = usize::from(survey.node(number).is_some());
        assert_eq!(cards(page, id, number), wanted, "node {number}");
    }
    assert_eq!(page.matches(&format!(" id={id}0>")).count(), 1);
}

fn assert_self_contained(page: &str) {
    for outside in ["http:", "https:", " src=", "url(", "@import", "<link"] {
        assert!(!page.contains(outside), "{outside}");
    }
}

#[test]
fn a_page_holds_each_reachable_node_once() {
    let images = [
        samples::waiting(),
        samples::large().0,
        generate::preset(Feature::WaitingEverywhere, 2),
        generate::preset(Feature::LongPivot, 2),
        generate::preset(Feature::EightLevels, 2),
    ];
    for image in images {
        let survey = Survey::take(&image);
        let side = Side {
            name: "<x>",
            survey: &survey,
        };
        let page = page::one(&side, None);
        assert_each_node_once(&page, "a", &survey);
        assert_self_contained(&page);
        assert!(page.contains("<h1>&lt;x&gt;</h1>"));
    }
}

#[test]
fn two_images_stand_side_by_side_with_what_changed() {
    let (before, after) = samples::moved();
    let (was, is) = (Survey::take(&before), Survey::take(&after));
    let comparison = Comparison::of(&was, &is);
    let told: Vec<String> = comparison
        .words()
        .into_iter()
        .map(|(_, numbers)| numbers)
        .collect();
    assert_eq!(told, ["1, 9-10, 12 (4)", "12 (1)", "none", "5-7 (3)"]);
    let changed = comparison.changes.values().filter(|c| c.changed).count();
    assert_eq!(changed, second::contract::changed_nodes(&before, &after));
    let sides = [
        Side {
            name: "b",
            survey: &was,
        },
        Side {
            name: "a",
            survey: &is,
        },
    ];
    let page = page::two(&sides, &comparison, &Opening::default());
    assert_each_node_once(&page, "a", &was);
    assert_each_node_once(&page, "b", &is);
    assert_self_contained(&page);
    assert_eq!(page.matches("moved from").count(), 1);
    assert!(page.contains("value=\"\"") && !page.contains("id=follow"));
}

#[test]
fn a_page_opens_at_its_path_and_follows_a_move() {
    let (before, after) = samples::moved();
    let (was, is) = (Survey::take(&before), Survey::take(&after));
    let side = |survey| Side { name: "x", survey };
    let page = page::one(&side(&was), Some("r1/c7/t1/f1"));
    assert!(page.contains("<input id=path list=paths") && page.contains("value=\"r1/c7/t1/f1\""));
    let moved = Moved {
        from: "r1/c7".into(),
        to: "r1/\"c9".into(),
    };
    let opening = Opening {
        path: Some("r1/c7"),
        moved: Some(&moved),
    };
    let sides = [side(&was), side(&is)];
    let page = page::two(&sides, &Comparison::of(&was, &is), &opening);
    assert!(page.contains("value=\"r1/c7\""));
    assert!(page.contains("data-from=\"r1/c7\" data-to=\"r1/&quot;c9\""));
}

fn look(arguments: &[&str]) -> Output {
    let program = env!("CARGO_BIN_EXE_look");
    Command::new(program)
        .args(arguments)
        .output()
        .expect("look runs")
}

/// One for each test, since tests run beside each other.
fn directory(name: &str) -> PathBuf {
    let directory = Path::new(env!("CARGO_TARGET_TMPDIR")).join(name);
    let _ = std::fs::remove_dir_all(&directory);
    std::fs::create_dir_all(&directory).expect("a directory");
    for (name, image) in samples::all() {
        std::fs::write(directory.join(name), image).expect("a sample");
    }
    std::fs::write(directory.join("short.img"), [0; 100]).expect("a file");
    directory
}

/// The name of a file in a directory of the test's own, where the samples are.
fn files(test: &str) -> impl Fn(&str) -> String {
    let directory = directory(test);
    move |name: &str| directory.join(name).to_string_lossy().into_owned()
}

fn expect(arguments: &[&str], status: i32, told: &str) {
    let output = look(arguments);
    let text = String::from_utf8_lossy(&output.stdout);
    assert_eq!(output.status.code(), Some(status), "{arguments:?}");
    assert!(text.contains(told), "{arguments:?}\n{text}");
}

fn expect_error(arguments: &[&str], told: &str) {
    let output = look(arguments);
    let error = String::from_utf8_lossy(&output.stderr);
    assert_eq!(output.status.code(), Some(2), "{arguments:?}");
    assert!(output.stdout.is_empty());
    let one_line = error.trim_end().lines().count() == 1;
    assert!(error.contains(told) && one_line, "{error}");
}

#[test]
fn the_status_tells_what_was_found() {
    let file = files("status");
    let (good, page) = (file("waiting.img"), file("page.html"));
    let (before, after) = (file("before.img"), file("after.img"));
    expect(&["--help"], 0, "usage:");
    expect(&[&good], 0, "free nodes");
    expect(&[&good, "r1/c7/t1/f2"], 0, "has the value 77");
    let dropped = "absent. It is decided by message 2 of node 1: drop";
    expect(&[&good, "r1/c7/t4/f1"], 1, dropped);
    expect(&[&good, "r9"], 1, "r9 is absent");
    expect(&[&good, "--html", &page], 0, "sound");
    let changed = "changed (any byte differs): 1, 9-10, 12 (4)";
    expect(&[&before, &after, "--html", &page], 0, changed);
    let (unsound, short) = (file("unsound.img"), file("short.img"));
    for (image, rule) in [(&unsound, "put-owned: node 9:"), (&short, "store-size:")] {
        expect(&[image], 1, rule);
        expect(&[image, "r1/c7"], 1, rule);
        expect(&[image, "--html", &page], 1, rule);
        expect(&[image, "r1/c7", "--html", &page], 1, rule);
    }
}

#[test]
fn a_closure_is_told_by_its_records() {
    let file = files("closure");
    let (good, page) = (file("waiting.img"), file("page.html"));
    let five = "r1/c7 has 5 records below it, and no value of its own.";
    expect(&[&good, "r1/c7"], 0, five);
    expect(&[&good, "r1/c7", "--html", &page], 0, five);
    expect(&[&good, "r1/c8"], 0, "r1/c8 has 1 record below it, and");
    expect(&[&good, "r2/c2"], 1, "r2/c2 is absent");
}

#[test]
fn the_empty_path_is_told_by_all_records() {
    let file = files("empty");
    let (good, page) = (file("waiting.img"), file("page.html"));
    let (wiped, refilled) = (file("wiped.img"), file("refilled.img"));
    let ten = "/ has 10 records below it: the whole store.\n";
    expect(
        &[&good, "/"],
        0,
        &format!("{ten}\nbelow it: 10 records\n  r1/c1"),
    );
    expect(&[&good, "/", "--html", &page], 0, ten);
    let written = std::fs::read_to_string(&page).expect("a page");
    assert!(written.contains("value=\"/\""));
    let none = "/ has no record below it: the store is empty.\n";
    expect(&[&wiped, "/"], 1, none);
    expect(&[&wiped, "/", "--html", &page], 1, none);
    expect(
        &[&refilled, "/"],
        0,
        "/ has 1 record below it: the whole store.\n",
    );
    let decided = "absent. It is decided by message 2 of node 1: clear / everything";
    expect(&[&wiped, "r1/c1/t1/f1"], 1, decided);
    let both = [&good[..], &wiped, "/", "--html", &page];
    expect(&both, 0, &format!("before: {ten}after: {none}"));
    expect_error(
        &[&good, &good, "--moved", "/", "r2", "--html", &page],
        "a component is empty",
    );
    expect_error(&[&good, "//"], "a component is empty");
}

#[test]
fn a_page_is_made_at_a_path() {
    let file = files("path");
    let (good, page) = (file("waiting.img"), file("page.html"));
    let (before, after) = (file("before.img"), file("after.img"));
    expect(
        &[&good, "r1/c7/t1/f2", "--html", &page],
        0,
        "has the value 77",
    );
    let written = std::fs::read_to_string(&page).expect("a page");
    assert!(written.contains("value=\"r1/c7/t1/f2\""));
    let hint = "gone.img is no file, so it was taken for a path";
    expect(&[&good, "gone.img", "--html", &page], 1, hint);
    let both = [&before[..], &after, "r1/c7/t1/f2", "--html", &page];
    expect(&both, 0, "after: r1/c7/t1/f2 is absent");
    let follow = [&both[..], &["--moved", "r1/c7", "r1/c9"]].concat();
    expect(&follow, 0, "before: r1/c7/t1/f2 has the value 0b");
    expect(&follow, 0, "after: r1/c9/t1/f2 has the value 0b");
}

#[test]
fn an_error_is_one_line() {
    let file = files("error");
    let (good, large, never) = (file("waiting.img"), file("large.img"), file("never.html"));
    let html = ["--html", &never];
    let with = |names: &[&str]| expect_error(&[names, &html].concat(), "");
    expect_error(&[], "no image");
    expect_error(&["/no/such/file"], "/no/such/file");
    expect_error(&["/"], "/: ");
    expect_error(&[&good, "r1//t1"], "a component is empty");
    expect_error(&[&good, "--html", "/no/such/page"], "/no/such/page");
    expect_error(&[&good, "a", "b"], "too many");
    expect_error(&[&good, "--moved", "r1", "r2"], "--moved needs two");
    let length = "no call changes a store's length";
    expect_error(&[&good, &large, html[0], html[1]], length);
    let no_file = "is no path: a component is empty (nor is it a file)";
    expect_error(&[&good, "/no/such/image", html[0], html[1]], no_file);
    let missing = "missing.img is no file";
    expect_error(&[&good, "missing.img", "r1", html[0], html[1]], missing);
    with(&[&good, &good, "--moved", "r1", "r//2"]);
    with(&[&good, &good, "r1", "r2"]);
    assert!(!Path::new(&never).exists());
}

/// Refused with status 2, and each file has the bytes that it had.
fn expect_untouched(arguments: &[&str], told: &str, files: &[&str]) {
    let read = |file: &&str| std::fs::read(file).ok();
    let before: Vec<_> = files.iter().map(read).collect();
    expect_error(arguments, told);
    let after: Vec<_> = files.iter().map(read).collect();
    assert!(before == after, "{arguments:?}");
}

#[test]
fn no_image_and_no_strange_file_is_written_over() {
    let file = files("over");
    let (before, after) = (file("before.img"), file("after.img"));
    let (strange, link) = (file("strange.html"), file("link.img"));
    std::fs::write(&strange, "<!DOCTYPE html>\n<html lang=en>").expect("a file");
    std::fs::hard_link(&before, &link).expect("a second name");
    let all = [&before[..], &after, &strange, &link];
    let no_page = "is there and is no page of look: it stays";
    expect_untouched(&["--html", &before, &after], no_page, &all);
    let image = "is an image, and no image is written over";
    expect_untouched(&[&before, "--html", &before], image, &all);
    expect_untouched(&[&before, "--html", &link], image, &all);
    expect_untouched(&[&before, &after, "--html", &after], image, &all);
    expect_untouched(&[&before, "--html", &after], no_page, &all);
    expect_untouched(&[&before, "--html", &strange], no_page, &all);
    expect_untouched(&[&before, "--html", &file("")], no_page, &all);
    expect_untouched(&[&before, "--html", "/dev/null"], no_page, &all);
    // A page may be replaced; but not where it is itself named as an image.
    let page = file("page.html");
    expect(&[&before, "--html", &page], 0, "sound");
    expect(&[&after, "--html", &page], 0, "sound");
    let written = std::fs::read_to_string(&page).expect("a page");
    assert!(written.starts_with(page::BEGINNING) && written.contains("<h1>after.img</h1>"));
    expect_untouched(&[&page, "--html", &page], image, &[&page]);
}

#[test]
fn a_full_disk_leaves_the_old_page() {
    let file = files("full");
    let (good, page) = (file("waiting.img"), file("page.html"));
    expect(&[&good, "--html", &page], 0, "sound");
    let old = std::fs::read(&page).expect("a page");
    // A limit on the size of files, which stands for a full disk: the write fails in the middle.
    let limited = "trap '' XFSZ; ulimit -f 4; exec \"$@\"";
    let output = Command::new("bash")
        .args(["-c", limited, "bash", env!("CARGO_BIN_EXE_look")])
        .args([&file("large.img"), "--html", &page])
        .output()
        .expect("bash runs");
    assert_eq!(output.status.code(), Some(2));
    assert!(String::from_utf8_lossy(&output.stderr).contains("page.html: "));
    assert!(std::fs::read(&page).expect("a page") == old);
    let left = std::fs::read_dir(file("")).expect("a directory");
    let names = left.map(|entry| entry.expect("an entry").file_name());
    assert!(names
        .into_iter()
        .all(|name| !name.to_string_lossy().ends_with(".new")));
}

#[test]
fn a_damaged_image_says_what_it_can() {
    let file = files("damaged");
    let page = file("page.html");
    let refused = "Every call but make refuses this image (2). What its bytes would say:";
    let (miscounted, unreadable) = (file("miscounted.img"), file("unreadable.img"));
    let unread = "node 7 was not read from entry 2 on, so";
    for (image, path, told) in [
        (
            &miscounted,
            "r1/c7",
            "r1/c7 has 5 records below it, and no value",
        ),
        (&miscounted, "r1/c7/t1/f2", "r1/c7/t1/f2 has the value 77."),
        (
            &unreadable,
            "r1/c7",
            "r1/c7 has no value of its own, and at least 5 records below it; node 7 was",
        ),
        (
            &unreadable,
            "r1/c7/t4",
            &format!("r1/c7/t4: {unread} this cannot be told."),
        ),
        (
            &unreadable,
            "r1/c7/t4/f1",
            "r1/c7/t4/f1 has no value of its own; node 7 was",
        ),
    ] {
        expect(&[image, path], 1, told);
        expect(&[image, path], 1, refused);
        expect(
            &[image, path, "--html", &page],
            1,
            &format!("{refused} {told}"),
        );
        let both = [image, image, path, "--html", &page];
        expect(&both, 1, &format!("before: {refused} {told}"));
    }
    let written = std::fs::read_to_string(&page).expect("a page");
    assert!(written.contains("<h3>Every call but make refuses this image (2)</h3>"));
}

#[test]
fn a_file_that_is_no_store_is_refused_by_1() {
    let file = files("no-store");
    let (text, empty, big) = (file("t.txt"), file("empty.img"), file("big.img"));
    std::fs::write(&text, "twenty-six bytes of text..").expect("a file");
    std::fs::write(&empty, "").expect("a file");
    std::fs::write(&big, vec![0; 2_000_000]).expect("a file");
    let page = file("page.html");
    for (image, size) in [
        (&text, "26 bytes are no store"),
        (&empty, "0 bytes are no store"),
        (&big, "more than 1048576 bytes are no store"),
    ] {
        let output = look(&[image, "r1"]);
        let told = String::from_utf8_lossy(&output.stdout).into_owned();
        assert_eq!(output.status.code(), Some(1));
        assert!(
            told.ends_with("Every call refuses this file (1).\n"),
            "{told}"
        );
        assert!(told.contains(size) && !told.contains("the way") && !told.contains("absent"));
        let refused = "Every call refuses this file (1).\n";
        expect(&[image, "r1", "--html", &page], 1, refused);
        let written = std::fs::read_to_string(&page).expect("a page");
        assert!(written.contains("<h3>Every call refuses this file (1)</h3>"));
    }
    let sizes = "has more than 1048576 bytes and";
    expect_error(&[&big, &text, "--html", &page], sizes);
}

#[test]
fn with_two_images_absent_in_both_is_1() {
    let file = files("both");
    let (before, after, page) = (file("before.img"), file("after.img"), file("page.html"));
    let with = |path| [&before[..], &after, path, "--html", &page].map(String::from);
    for (path, status) in [("r9", 1), ("r1/c7", 0), ("r1/c9", 0), ("r1/c7/t1/f9", 1)] {
        let words = with(path);
        let words: Vec<&str> = words.iter().map(|word| &word[..]).collect();
        expect(&words, status, "after: ");
    }
}

#[test]
fn a_closure_is_told_by_what_its_records_nodes_lift() {
    let file = files("lift");
    let cut = file("cut-before.img");
    let all = "node 2: all of r1/k2/ is lifted (2 records)\n";
    expect(&[&cut, "r1/k2"], 0, all);
    let none = "nodes 1, 3: nothing of it is lifted, r1/k2/ is stored with each record (2 records)";
    expect(&[&cut, "r1/k2"], 0, none);
}

/// The marks that are drawn on a page; each is in the key just where it is drawn.
fn marks(page: &str) -> Vec<&'static str> {
    let known = [
        ("<span class=l>", "are lifted"),
        ("<ol class=children>", "A <b>pivot</b> is"),
        ("<span class=f>", "dotted"),
        ("<span class=x>", "in a box"),
        (" fresh", "on orange"),
        (" faulty", "red frame"),
        (" changed new\"", "new (reachable only after)"),
        (" gone\"", "gone (reachable only before)"),
        (" renamed\"", "not a byte changed"),
    ];
    let (_, rest) = page.split_once("</style>").expect("a style");
    let (head, rest) = rest.split_once("<main").expect("images");
    let (key, drawn) = rest.rsplit_once("</ul>").unwrap_or(("", rest));
    let key = format!("{head}{key}");
    assert!(key.contains("A <b>message</b> is"));
    for (mark, words) in known {
        assert_eq!(drawn.contains(mark), key.contains(words), "{mark}");
    }
    let drawn_ones = known.iter().filter(|(mark, _)| drawn.contains(mark));
    drawn_ones.map(|(mark, _)| *mark).collect()
}

#[test]
fn the_key_has_the_marks_of_its_page_and_lifted_bytes_look_lifted() {
    let two = |(before, after): (Vec<u8>, Vec<u8>)| {
        let (was, is) = (Survey::take(&before), Survey::take(&after));
        let side = |survey| Side { name: "x", survey };
        let comparison = Comparison::of(&was, &is);
        page::two(&[side(&was), side(&is)], &comparison, &Opening::default())
    };
    let one = |image: Vec<u8>| {
        let survey = &Survey::take(&image);
        page::one(&Side { name: "x", survey }, None)
    };
    let cut = two(samples::cut());
    assert!(marks(&cut).contains(&" fresh") && marks(&cut).contains(&" renamed\""));
    assert!(!marks(&two(samples::moved())).contains(&" gone\""));
    assert!(marks(&two((samples::waiting(), samples::waiting()))).len() == 4);
    assert!(marks(&one(samples::unreadable(samples::waiting(), 1, 9))).len() == 4);
    let faulty = mutate::damage(Rule::PutOwned, &samples::waiting(), 3).expect("damage");
    assert!(marks(&one(faulty)).contains(&" faulty"));
    // No rule of the style gives lifted bytes another look in some node.
    let (style, _) = cut.split_once("</style>").expect("a style");
    let others = [".renamed .l", ".decides .l", ".new .l", ".changed .l"];
    assert!(others.iter().all(|rule| !style.contains(rule)));
}

// The paper's own table of cases and its example, and the corners of the line language.

use second::paper::{reads_all, CASES};
use second::program::{loaded, run, run_on, saved};
use second::reference::Reference;
use second::sound::judge;
use second::{generate, mutate, sound::Rule};

#[test]
fn the_thirteen_cases() {
    for (number, case) in CASES {
        if let Err(what) = case(&mut Reference::default()) {
            panic!("case {number}: {what}");
        }
    }
}

#[test]
fn listings_go_through() {
    for seed in 0..20 {
        reads_all(&mut Reference::default(), seed).expect("every step is right");
    }
}

fn printed(input: &[u8]) -> String {
    String::from_utf8(run(input)).expect("it prints text")
}

#[test]
fn the_example_session() {
    let input = b"put r1/c7/t1 0a\nput r1/c7/t2 -\nmove r1/c7 r1/c9\nget r1/c7/t1\nlist r1\n";
    let expected = "ok\nok\nok\nrefused 8\nr1/c9/t1 0a\nr1/c9/t2 -\nend\n";
    assert_eq!(printed(input), expected);
    let without_last_feed = &input[..input.len() - 1];
    assert_eq!(printed(without_last_feed), expected);
}

#[test]
fn bad_lines() {
    let bad: [&[u8]; 17] = [
        b"\n",
        b" get a\n",
        b"get a \n",
        b"get  a\n",
        b"get\n",
        b"get a b\n",
        b"Get a\n",
        b"settle now\n",
        b"put a\n",
        b"put a 0\n",
        b"put a 0g\n",
        b"put a 0a 0b\n",
        b"put a --\n",
        b"flush 1\n",
        b"get\ta\n",
        b"put / 0\n",
        b"settle\r\n",
    ];
    for line in bad {
        assert_eq!(printed(line), "bad\n", "{line:?}");
    }
}

#[test]
fn refused_lines() {
    let refused: [(&[u8], u32); 17] = [
        (b"get /\n", 3),
        (b"put / 0a\n", 3),
        (b"drop /\n", 3),
        (b"move / a\n", 3),
        (b"move a /\n", 3),
        (b"move / /\n", 3),
        (b"clear //\n", 3),
        (b"clear /a\n", 3),
        (b"list a//b\n", 3),
        (b"get a//b\n", 3),
        (b"get a\0b\n", 3),
        (b"get a\r\n", 3),
        (b"list a/\n", 3),
        (b"get a\n", 8),
        (b"move a a\n", 8),
        (b"move a a/b\n", 7),
        (b"put a/ 00\n", 3),
    ];
    for (line, number) in refused {
        assert_eq!(printed(line), format!("refused {number}\n"), "{line:?}");
    }
}

/// 48 bytes are taken and printed, 49 are refused, and so is whatever a line has room for; odd digits are bad before they are too many.
#[test]
fn long_values_in_lines() {
    let printed_of = |digits: usize| {
        let line = format!("put a {}\nget a\n", &"0A1bC2".repeat(50)[..digits]);
        printed(line.as_bytes())
    };
    for bytes in [1, 31, 32, 33, 47, 48] {
        let shown = &"0a1bc2".repeat(50)[..2 * bytes];
        assert_eq!(printed_of(2 * bytes), format!("ok\n{shown}\n"), "{bytes}");
        let odd = printed_of(2 * bytes - 1);
        assert_eq!(odd, "bad\nrefused 8\n", "{bytes}");
    }
    assert_eq!(printed_of(97), "bad\nrefused 8\n");
    for digits in [98, 100, 248] {
        let refused = "refused 4\nrefused 8\n";
        assert_eq!(printed_of(digits), refused, "{digits}");
    }
    for digits in [249, 250] {
        assert_eq!(printed_of(digits), "bad\nrefused 8\n", "{digits}");
    }
}

/// The longest line that is taken whole: a path of 64 bytes with a value of 48, as put and as list print it.
#[test]
fn the_longest_row_in_lines() {
    let wide = "c".repeat(16);
    let path = [&wide[..], &wide, &wide, &wide[..12]].join("/");
    let value = "5e".repeat(48);
    let input = format!("put {path} {value}\nsettle\ntidy\nget {path}\nlist /\n");
    let expected = format!("ok\nok\nok\n{value}\n{path} {value}\nend\n");
    assert_eq!(printed(input.as_bytes()), expected);
}

/// A lone / is the empty path: clear and list mean every path by it.
#[test]
fn a_lone_slash_means_everything() {
    assert_eq!(printed(b"clear /\nlist /\n"), "ok\nend\n");
    let filled = "put b/x -\nput a 00\nput a/b 01\n";
    let all = "a 00\na/b 01\nb/x -\nend\n";
    let input = format!("{filled}list /\nclear /\nlist /\nget a\nput a 02\nlist /\n");
    let expected = format!("ok\nok\nok\n{all}ok\nend\nrefused 8\nok\na 02\nend\n");
    assert_eq!(printed(input.as_bytes()), expected);
    let waiting = "settle\nput c 03\nmove a d\nclear /\nlist /\nmove d a\ntidy\nlist /\n";
    let printed_last = printed(format!("{filled}{waiting}").as_bytes());
    assert!(printed_last.ends_with("ok\nend\nrefused 8\nok\nend\n"));
}

/// Other texts of slashes alone, or with one too many, mean no path: the map stays.
#[test]
fn other_slashes_are_refused() {
    for text in ["//", "///", "/a", "a/", "//a", "a//"] {
        let input = format!("put a 00\nclear {text}\nlist {text}\nlist /\n");
        let expected = "ok\nrefused 3\nrefused 3\na 00\nend\n";
        assert_eq!(printed(input.as_bytes()), expected, "{text:?}");
    }
}

/// Every call refuses a path with a byte 00 in its text, and the map stays: it is not the empty path, nor the path up to the byte.
#[test]
fn a_byte_00_in_a_path_is_refused() {
    for text in ["\0", "a\0b", "a\0", "\0a", "a/b\0/c", "/\0", "\0/", "\0\0"] {
        let lines = [
            format!("put {text} 01"),
            format!("drop {text}"),
            format!("clear {text}"),
            format!("get {text}"),
            format!("list {text}"),
            format!("move {text} c"),
            format!("move a {text}"),
        ];
        let input = format!("put a 00\nput a/b 01\n{}\nlist /\n", lines.join("\n"));
        let expected = format!("ok\nok\n{}a 00\na/b 01\nend\n", "refused 3\n".repeat(7));
        assert_eq!(printed(input.as_bytes()), expected, "{text:?}");
    }
}

#[test]
fn lines_of_the_longest_length_are_taken() {
    let line = |length: usize| format!("get {}", "a".repeat(length - 4));
    assert_eq!(printed(line(255).as_bytes()), "refused 3\n");
    assert_eq!(printed(line(256).as_bytes()), "bad\n");
    assert_eq!(printed((line(255) + "\n").as_bytes()), "refused 3\n");
}

#[test]
fn what_lines_print() {
    assert_eq!(printed(b""), "");
    assert_eq!(printed(b"\n\n"), "bad\nbad\n");
    assert_eq!(printed(b"put a -\nget a"), "ok\n-\n");
    assert_eq!(printed(b"put a AbCd\nget a\n"), "ok\nabcd\n");
    assert_eq!(printed(b"list a\nsettle\ntidy\n"), "end\nok\nok\n");
    assert_eq!(
        printed(b"drop a\nclear a\nput a 00\nmove a a\n"),
        "ok\nok\nok\nok\n"
    );
}

#[test]
fn the_program_takes_64_paths() {
    let input: String = (0..65).map(|i| format!("put p{i} 01\n")).collect();
    assert_eq!(
        printed(input.as_bytes()),
        "ok\n".repeat(64) + "refused 10\n"
    );
    let again = input + "put p3 02\nget p3\n";
    assert!(printed(again.as_bytes()).ends_with("refused 10\nok\n02\n"));
}

/// Lines in two runs, with the image between them, print what they print in one.
#[test]
fn the_program_goes_on_with_an_image() {
    let (first, later) = (
        "put a/b 01\nput c -\n",
        "get a/b\nmove a d\nlist d\nput c 02\n",
    );
    let mut map = loaded(&generate::of_nodes(64, 5)).expect("it is sound");
    let before = map.clone();
    let mut whole = before.clone();
    let one = run_on(&mut whole, format!("clear a\n{first}{later}").as_bytes());
    let mut two = run_on(&mut map, format!("clear a\n{first}").as_bytes());
    let mut map = loaded(&saved(&map).expect("it fits")).expect("it is sound");
    two.extend(run_on(&mut map, later.as_bytes()));
    assert_eq!((one, whole), (two, map.clone()));
    assert_eq!(
        judge(&saved(&map).expect("it fits")).map(|s| s.table),
        Ok(map.table)
    );
}

#[test]
fn the_program_goes_on_with_sound_images_of_its_own_size_alone() {
    for seed in 0..20 {
        let image = generate::of_nodes(64, seed);
        assert!(loaded(&image).is_ok(), "{seed}");
        let damaged = mutate::damage(Rule::LiveCount, &image, seed).expect("a place");
        assert_eq!(loaded(&damaged).err(), Some(2), "{seed}");
    }
    assert_eq!(loaded(&generate::of_nodes(63, 1)).err(), Some(1));
    assert_eq!(loaded(&generate::of_nodes(64, 1)[1..]).err(), Some(1));
    assert_eq!(loaded(b"").err(), Some(1));
}

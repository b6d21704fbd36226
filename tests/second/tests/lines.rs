// Random scripts for the program: they have every shape of the empty path and of texts that are near it, with every word, and values of
// every length that tells; and a program that reads such a text or such a value wrong prints something else.

use second::limits::{OLD_VALUE_LIMIT, TELLING_LENGTHS, VALUE_LIMIT};
use second::lines::script;
use second::path::from_text;
use second::plain::Plain;
use second::program::{run_on, run_reading, run_readings, value};
use second::program::{Reading, Readings, ValueReading, PROGRAM_NODES};

const SCRIPTS: u64 = 200;

fn input(seed: u64) -> Vec<u8> {
    script(seed, Vec::new())
}

/// How many lines of all scripts are these words.
fn count(lines: &[Vec<u8>], wanted: impl Fn(&[&[u8]]) -> bool) -> usize {
    let fields = |line: &Vec<u8>| {
        let fields: Vec<&[u8]> = line.split(|b| *b == b' ').collect();
        wanted(&fields)
    };
    lines.iter().filter(|line| fields(line)).count()
}

fn all_lines() -> Vec<Vec<u8>> {
    let lines = |seed| -> Vec<Vec<u8>> {
        let input = input(seed);
        input.split(|b| *b == b'\n').map(<[u8]>::to_vec).collect()
    };
    (0..SCRIPTS).flat_map(lines).collect()
}

#[test]
fn every_word_meets_every_text_of_slashes_and_bytes_00() {
    let lines = all_lines();
    let texts: [&[u8]; 9] = [
        b"/", b"//", b"/a", b"a/", b"\0", b"a\0b", b"\0a", b"/\0", b"\0/",
    ];
    for text in texts {
        for word in [&b"drop"[..], b"clear", b"get", b"list"] {
            let met = count(&lines, |fields| fields == [word, text]);
            assert!(met > 0, "{word:?} {text:?}");
        }
        let put = |f: &[&[u8]]| f.len() == 3 && f[0] == b"put" && f[1] == text;
        let from = |f: &[&[u8]]| f.len() == 3 && f[0] == b"move" && f[1] == text;
        let to = |f: &[&[u8]]| f.len() == 3 && f[0] == b"move" && f[2] == text;
        for met in [count(&lines, put), count(&lines, from), count(&lines, to)] {
            assert!(met > 0, "{text:?}");
        }
    }
}

/// Whole clears are seldom enough that stores fill up: a list of everything is long, most often.
#[test]
fn everything_is_listed_often_and_cleared_seldom() {
    let lines = all_lines();
    let clears = count(&lines, |f| f[0] == b"clear");
    let wipes = count(&lines, |f| f == [&b"clear"[..], b"/"]);
    println!("{wipes} of {clears} clears");
    assert!(wipes > 60 && clears > 12 * wipes, "{wipes} of {clears}");
    let lists = count(&lines, |f| f == [&b"list"[..], b"/"]);
    let mut rows = 0;
    for seed in 0..SCRIPTS {
        let mut map = Plain::new(PROGRAM_NODES);
        run_on(&mut map, &input(seed));
        rows += map.table.len();
    }
    assert!(
        lists > 500 && rows > 10 * SCRIPTS as usize,
        "{lists} {rows}"
    );
}

/// Texts with a byte 00, or with a / at either end, read as the empty path, or the lone / not read so.
const MISREADINGS: [(&str, Reading); 5] = [
    ("a byte 00 ends the text", |text| {
        let end = text.iter().position(|b| *b == 0).unwrap_or(text.len());
        match end {
            0 => Vec::new(),
            _ => from_text(&text[..end]),
        }
    }),
    ("a byte 00 makes it the empty path", |text| {
        match text.contains(&0) {
            true => Vec::new(),
            false => from_text(text),
        }
    }),
    ("a / in front makes it the empty path", |text| match text {
        [b'/', ..] => Vec::new(),
        _ => from_text(text),
    }),
    ("slashes alone make it the empty path", |text| {
        match text.iter().all(|b| *b == b'/') {
            true => Vec::new(),
            false => from_text(text),
        }
    }),
    ("a lone / is malformed", |text| match text {
        b"/" => vec![0],
        _ => from_text(text),
    }),
];

#[test]
fn every_misreading_is_found() {
    for (name, reading) in MISREADINGS {
        let differs = |seed: &u64| {
            let (mut right, mut wrong) = (Plain::new(PROGRAM_NODES), Plain::new(PROGRAM_NODES));
            let input = input(*seed);
            run_on(&mut right, &input) != run_reading(&mut wrong, &input, reading)
        };
        let found = (0..SCRIPTS).find(differs);
        println!("{name}: script {found:?}");
        assert!(found.is_some(), "{name}");
    }
}

#[test]
fn values_of_every_telling_length_are_put() {
    let lines = all_lines();
    for length in TELLING_LENGTHS.into_iter().chain([VALUE_LIMIT + 2]) {
        let put = |f: &[&[u8]]| f.len() == 3 && f[0] == b"put" && f[2].len() == 2 * length;
        let met = count(&lines, put);
        assert!(met > 5, "{length} bytes: {met}");
    }
    let longest = |f: &[&[u8]]| f.len() == 3 && f[0] == b"put" && f[2].len() == 248;
    assert!(count(&lines, longest) > 0, "no line of 255 bytes");
}

/// The value's bytes, at most so many.
fn at_most(hex: &[u8], bytes: usize) -> Option<Vec<u8>> {
    let mut value = value(hex)?;
    value.truncate(bytes);
    Some(value)
}

/// The value, if it has at most so many bytes.
fn only_up_to(hex: &[u8], bytes: usize) -> Option<Vec<u8>> {
    value(hex).filter(|value| value.len() <= bytes)
}

/// Values whose length is misunderstood.
const MISREAD_VALUES: [(&str, ValueReading); 6] = [
    ("over 32 bytes are bad", |hex| {
        only_up_to(hex, OLD_VALUE_LIMIT)
    }),
    ("over 47 bytes are bad", |hex| {
        only_up_to(hex, VALUE_LIMIT - 1)
    }),
    ("over 48 bytes are bad", |hex| only_up_to(hex, VALUE_LIMIT)),
    ("32 bytes are kept", |hex| at_most(hex, OLD_VALUE_LIMIT)),
    ("47 bytes are kept", |hex| at_most(hex, VALUE_LIMIT - 1)),
    ("48 bytes are kept", |hex| at_most(hex, VALUE_LIMIT)),
];

#[test]
fn every_misread_value_is_found() {
    for (name, value) in MISREAD_VALUES {
        let differs = |seed: &u64| {
            let (mut right, mut wrong) = (Plain::new(PROGRAM_NODES), Plain::new(PROGRAM_NODES));
            let input = input(*seed);
            let path = from_text;
            let readings = Readings { path, value };
            run_on(&mut right, &input) != run_readings(&mut wrong, &input, readings)
        };
        let found = (0..SCRIPTS).find(differs);
        println!("{name}: script {found:?}");
        assert!(found.is_some(), "{name}");
    }
}

// Random scripts for the program: good lines near what the map holds, values about their limit, clears and lists of everything, near misses
// of every rule of the line language, long lines, bytes 00, stores filled to their last path, and a last line with or without its line
// feed. All follows from a seed.

use crate::limits::VALUE_LIMIT;
use crate::path::to_text;
use crate::rng::Rng;
use crate::words;

/// All that is read in one run of the program, near the paths that its store holds at first.
pub fn script(seed: u64, mut present: Vec<Vec<u8>>) -> Vec<u8> {
    let mut rng = Rng::new(seed);
    let mut input = Vec::new();
    if rng.chance(1, 4) {
        input.extend(filling(&mut rng, &mut present));
    }
    let count = match rng.below(8) {
        0 => rng.between(500, 2000),
        1 => rng.below(3),
        _ => rng.between(20, 200),
    };
    for _ in 0..count {
        input.extend(line(&mut rng, &mut present));
        input.push(b'\n');
    }
    if rng.chance(1, 3) {
        input.pop();
    }
    input
}

/// More different paths than a store of 64 nodes takes.
fn filling(rng: &mut Rng, present: &mut Vec<Vec<u8>>) -> Vec<u8> {
    let mut input = Vec::new();
    for i in 0..rng.between(60, 70) {
        let path = format!("f/{i:03}/{}", "x".repeat(rng.between(1, 16)));
        input.extend(format!("put {path} {}\n", hex(rng)).into_bytes());
        present.push(crate::path::from_text(path.as_bytes()));
    }
    input.extend(b"list f\n");
    input
}

fn line(rng: &mut Rng, present: &mut Vec<Vec<u8>>) -> Vec<u8> {
    let mut line = good(rng, present);
    match rng.below(12) {
        0 => miss(rng, &mut line),
        1 if rng.chance(1, 3) => line = long(rng),
        _ => {}
    }
    line.retain(|b| *b != b'\n');
    line
}

fn good(rng: &mut Rng, present: &mut Vec<Vec<u8>>) -> Vec<u8> {
    let path = text(rng, present);
    match rng.below(20) {
        0..=6 => [b"put ", &path[..], b" ", hex(rng).as_bytes()].concat(),
        7 => [b"drop ", &path[..]].concat(),
        8 => [b"clear ", &or_all(rng, CLEARS_A_WHOLE, path)[..]].concat(),
        9..=11 => [b"move ", &path[..], b" ", &text(rng, present)].concat(),
        12 => b"settle".to_vec(),
        13 => b"tidy".to_vec(),
        14..=16 => [b"list ", &or_all(rng, LISTS_A_WHOLE, path)[..]].concat(),
        _ => [b"get ", &path[..]].concat(),
    }
}

/// How many clears there are for each of everything, and how many lists. So few clears that a store fills up between two of them.
const CLEARS_A_WHOLE: usize = 24;
const LISTS_A_WHOLE: usize = 8;

/// The text, or once in so many times that of the empty path.
fn or_all(rng: &mut Rng, whole: usize, text: Vec<u8>) -> Vec<u8> {
    match rng.chance(1, whole) {
        true => to_text(b""),
        false => text,
    }
}

/// The empty path, and texts that are no path: a separator too many, a byte 00, a byte that no component may hold.
const ODD: [&[u8]; 12] = [
    b"/", b"//", b"a//b", b"/a", b"a/", b"a\0b", b"\0", b"a\0", b"\0a", b"/\0", b"\0/", b"a\x7F",
];

/// A path as text: most often a present one or near one, sometimes malformed.
fn text(rng: &mut Rng, present: &mut Vec<Vec<u8>>) -> Vec<u8> {
    if rng.chance(1, 20) {
        return rng.pick(&ODD).map_or(Vec::new(), |p| p.to_vec());
    }
    let path = if rng.chance(1, 20) {
        words::malformed(rng)
    } else {
        words::near(rng, present)
    };
    // The empty path would be near itself: a script that met it early would name little else.
    if present.len() < 200 && !path.is_empty() {
        present.push(path.clone());
    }
    to_text(&path)
}

/// Hexadecimal of either case, of few bytes, of about as many as a value may have or could have before, or of far too many that a line
/// has still room for; or a hyphen.
fn hex(rng: &mut Rng) -> String {
    let bytes = match rng.below(10) {
        0 => return "-".into(),
        1 => VALUE_LIMIT,
        2 => VALUE_LIMIT + 1,
        3 => words::telling_length(rng),
        4 if rng.chance(1, 3) => VALUE_LIMIT + rng.between(1, 40),
        _ => rng.between(1, 4),
    };
    let digits: String = rng
        .bytes(bytes)
        .iter()
        .map(|b| format!("{b:02x}"))
        .collect();
    if rng.chance(1, 2) {
        digits.to_uppercase()
    } else {
        digits
    }
}

/// One byte more, one less, or another one; two spaces, or a space at either end.
fn miss(rng: &mut Rng, line: &mut Vec<u8>) {
    let at = rng.below(line.len());
    let byte = *rng.pick(b" /-g0aA\0\r\x7F\xFF").unwrap_or(&b' ');
    match rng.below(6) {
        0 => line.insert(at, byte),
        1 => drop(line.remove(at)),
        2 => line[at] = byte,
        3 => line.push(b' '),
        4 => line.insert(0, b' '),
        _ => line.truncate(at),
    }
}

/// A line of nearly or more than 255 bytes, sometimes of very many: a path or a value that is far too long. With one of the two paths the
/// value's digits are even in number.
fn long(rng: &mut Rng) -> Vec<u8> {
    let length = match rng.below(4) {
        0 => 255,
        1 => 256,
        2 => rng.between(250, 520),
        _ => rng.between(4000, 70000),
    };
    let starts: [&[u8]; 3] = [b"get ", b"put p ", b"put pp "];
    let mut line = starts[rng.below(starts.len())].to_vec();
    line.resize(length, b'a');
    line
}

// The line language of the paper's program, with the plain map behind it: a function from all that is read to all that is printed, on
// a store just made or on the map of an image that it goes on with.

use crate::contract::image_judged;
use crate::limits::{GET_BUFFER, NODE, WORK_PER_NODE};
use crate::pack;
use crate::path::{below, empty_or_well_formed, from_text, to_text};
use crate::plain::{Call, Plain, NO_LENGTHS, NO_PATH};

/// The nodes of the program's store.
pub const PROGRAM_NODES: usize = 64;
const LINE_LIMIT: usize = 255;
const WORK: usize = WORK_PER_NODE * PROGRAM_NODES;

/// What the program prints for this input, on a store just made.
pub fn run(input: &[u8]) -> Vec<u8> {
    run_on(&mut Plain::new(PROGRAM_NODES), input)
}

/// The same on a store with this map, which is left as the lines leave it.
pub fn run_on(map: &mut Plain, input: &[u8]) -> Vec<u8> {
    run_reading(map, input, from_text)
}

/// How a path's text is read.
pub type Reading = fn(&[u8]) -> Vec<u8>;

/// The same with this reading of paths: with a wrong one it shows what lines find.
pub fn run_reading(map: &mut Plain, input: &[u8], path: Reading) -> Vec<u8> {
    run_readings(map, input, Readings { path, value })
}

/// How a value's hexadecimal is read; none where the line is bad.
pub type ValueReading = fn(&[u8]) -> Option<Vec<u8>>;

/// How the fields of a line are read.
#[derive(Clone, Copy)]
pub struct Readings {
    pub path: Reading,
    pub value: ValueReading,
}

/// The same with these readings of paths and of values.
pub fn run_readings(map: &mut Plain, input: &[u8], readings: Readings) -> Vec<u8> {
    let mut printed = Vec::new();
    for line in lines(input) {
        printed.extend(answer(map, line, readings));
    }
    printed
}

/// The map of an image that the program goes on with: a sound one of its own number of nodes. Any other is refused by 1, where its
/// length is another, or by 2.
pub fn loaded(image: &[u8]) -> Result<Plain, u32> {
    if image.len() != PROGRAM_NODES * NODE {
        return Err(NO_LENGTHS);
    }
    let sound = image_judged(image)?;
    Ok(Plain {
        n: sound.n,
        table: sound.table,
    })
}

/// An image of the map: settled, and packed as no library need pack it.
pub fn saved(map: &Plain) -> Option<Vec<u8>> {
    pack::image(&map.table, map.n)
}

/// The lines; what follows the last line feed is a line unless it is empty.
fn lines(input: &[u8]) -> Vec<&[u8]> {
    let mut lines: Vec<&[u8]> = input.split(|b| *b == b'\n').collect();
    if lines.last().is_some_and(|last| last.is_empty()) {
        lines.pop();
    }
    lines
}

enum Line {
    Acts(Call),
    Get(Vec<u8>),
    List(Vec<u8>),
}

fn answer(map: &mut Plain, line: &[u8], readings: Readings) -> Vec<u8> {
    match read(line, readings) {
        None => b"bad\n".to_vec(),
        Some(Line::Acts(call)) => act(map, &call),
        Some(Line::Get(path)) => get(map, path),
        Some(Line::List(path)) => list(map, &path),
    }
}

fn read(line: &[u8], Readings { path, value }: Readings) -> Option<Line> {
    if line.len() > LINE_LIMIT {
        return None;
    }
    let fields: Vec<&[u8]> = line.split(|b| *b == b' ').collect();
    if fields.iter().any(|field| field.is_empty()) {
        return None;
    }
    let work = WORK;
    Some(match fields[..] {
        [b"put", p, hex] => Line::Acts(Call::Put {
            path: path(p),
            value: value(hex)?,
            work,
        }),
        [b"drop", p] => Line::Acts(Call::Drop {
            path: path(p),
            work,
        }),
        [b"clear", p] => Line::Acts(Call::Clear {
            path: path(p),
            work,
        }),
        [b"move", from, to] => Line::Acts(Call::Move {
            from: path(from),
            to: path(to),
            work,
        }),
        [b"settle"] => Line::Acts(Call::Settle { work }),
        [b"tidy"] => Line::Acts(Call::Tidy { work }),
        [b"get", p] => Line::Get(path(p)),
        [b"list", p] => Line::List(path(p)),
        _ => return None,
    })
}

/// The right reading of a value's hexadecimal.
pub fn value(hex: &[u8]) -> Option<Vec<u8>> {
    if hex == b"-" {
        return Some(Vec::new());
    }
    if !hex.len().is_multiple_of(2) {
        return None;
    }
    hex.chunks(2)
        .map(|pair| Some(digit(pair[0])? * 16 + digit(pair[1])?))
        .collect()
}

fn digit(letter: u8) -> Option<u8> {
    match letter {
        b'0'..=b'9' => Some(letter - b'0'),
        b'a'..=b'f' => Some(letter - b'a' + 10),
        b'A'..=b'F' => Some(letter - b'A' + 10),
        _ => None,
    }
}

/// A value as the program prints it.
pub fn shown(value: &[u8]) -> String {
    if value.is_empty() {
        return "-".into();
    }
    value.iter().map(|b| format!("{b:02x}")).collect()
}

fn refused(number: u32) -> Vec<u8> {
    format!("refused {number}\n").into_bytes()
}

fn act(map: &mut Plain, call: &Call) -> Vec<u8> {
    match map.step(call) {
        Some(outcome) if !outcome.answer.accepted() => refused(outcome.answer.number),
        _ => b"ok\n".to_vec(),
    }
}

fn get(map: &mut Plain, path: Vec<u8>) -> Vec<u8> {
    let buffer = vec![0; GET_BUFFER];
    match map.step(&Call::Get { path, buffer }) {
        Some(outcome) if outcome.answer.accepted() => {
            let length = outcome.answer.beside as usize;
            let value = outcome.buffer.get(..length).unwrap_or(&[]);
            format!("{}\n", shown(value)).into_bytes()
        }
        Some(outcome) => refused(outcome.answer.number),
        None => Vec::new(),
    }
}

fn list(map: &Plain, path: &[u8]) -> Vec<u8> {
    if !empty_or_well_formed(path) {
        return refused(NO_PATH);
    }
    let mut printed = Vec::new();
    for (found, value) in map.table.iter().filter(|(p, _)| below(p, path)) {
        printed.extend(to_text(found));
        printed.extend(format!(" {}\n", shown(value)).into_bytes());
    }
    printed.extend(b"end\n");
    printed
}

// Bytes as text: a 00 is written /, and every byte that no path may hold in hexadecimal.
// The marks ‹ and › are no path characters, so what stands between them is never a path's own.

use second::limits::{COMPONENTS, COMPONENT_LIMIT, PATH_LIMIT};
use second::path::{from_text, well_formed};

/// One byte of a string, as it is written.
#[derive(Clone, Copy, Debug, PartialEq, Eq)]
pub enum Glyph {
    Character(char),
    Separator,
    Hexadecimal(u8),
}

pub fn glyphs(bytes: &[u8]) -> impl Iterator<Item = Glyph> + '_ {
    bytes.iter().map(|byte| match byte {
        0 => Glyph::Separator,
        0x2F => Glyph::Hexadecimal(0x2F),
        0x21..=0x7E => Glyph::Character(char::from(*byte)),
        other => Glyph::Hexadecimal(*other),
    })
}

/// Any string of bytes, its last 00 written too: `r1/c7/` and `r1/c7/‹FF›` are pivots.
pub fn string(bytes: &[u8]) -> String {
    if bytes.is_empty() {
        return "‹empty›".into();
    }
    letters(bytes)
}

fn letters(bytes: &[u8]) -> String {
    let written = glyphs(bytes).map(|glyph| match glyph {
        Glyph::Character(c) => c.to_string(),
        Glyph::Separator => "/".into(),
        Glyph::Hexadecimal(byte) => format!("‹{byte:02X}›"),
    });
    written.collect()
}

/// A path as the paper writes it, without its last 00; what is no path is written whole.
pub fn path(bytes: &[u8]) -> String {
    split(&[], bytes)
}

/// A path of which the front is lifted: `[r1/c7/]t1`.
pub fn split(lifted: &[u8], suffix: &[u8]) -> String {
    let rest = letters(shown_suffix(lifted, suffix));
    match lifted.is_empty() {
        true if suffix.is_empty() => "‹empty›".into(),
        true => rest,
        false => format!("[{}]{rest}", letters(lifted)),
    }
}

/// A pivot of which the front is lifted; its last 00 is written, since it need be no path.
pub fn split_pivot(lifted: &[u8], suffix: &[u8]) -> String {
    match lifted.is_empty() {
        true => string(suffix),
        false => format!("[{}]{}", letters(lifted), letters(suffix)),
    }
}

/// The part of a suffix that is written: all but the last 00 of a well-formed path.
pub fn shown_suffix<'a>(lifted: &[u8], suffix: &'a [u8]) -> &'a [u8] {
    match suffix.strip_suffix(&[0]) {
        Some(front) if well_formed(&[lifted, suffix].concat()) => front,
        _ => suffix,
    }
}

/// A value in hexadecimal, or - for the empty one.
pub fn value(bytes: &[u8]) -> String {
    if bytes.is_empty() {
        return "-".into();
    }
    hexadecimal(bytes)
}

pub fn hexadecimal(bytes: &[u8]) -> String {
    bytes.iter().map(|byte| format!("{byte:02x}")).collect()
}

/// Numbers with runs drawn together: `1-4, 7`.
pub fn runs(numbers: &[u16]) -> String {
    let mut runs: Vec<(u16, u16)> = Vec::new();
    for number in numbers {
        match runs.last_mut() {
            Some((_, last)) if *last + 1 == *number => *last = *number,
            _ => runs.push((*number, *number)),
        }
    }
    let written = runs.iter().map(|(from, to)| match from == to {
        true => from.to_string(),
        false => format!("{from}-{to}"),
    });
    written.collect::<Vec<_>>().join(", ")
}

/// Nodes by their numbers: `node 7`, `nodes 1-4, 7`.
pub fn nodes<'n>(numbers: impl IntoIterator<Item = &'n u16>) -> String {
    let numbers: Vec<u16> = numbers.into_iter().copied().collect();
    let word = if numbers.len() == 1 { "node" } else { "nodes" };
    format!("{word} {}", runs(&numbers))
}

/// `1 node`, `2 nodes`.
pub fn count(number: usize, one: &str, more: &str) -> String {
    match number {
        1 => format!("1 {one}"),
        _ => format!("{number} {more}"),
    }
}

/// The empty path in text form: every path is below it.
pub const EMPTY_PATH: &str = "/";

/// A path that is asked for, the empty one too, in text form.
pub fn asked(bytes: &[u8]) -> String {
    match bytes {
        [] => EMPTY_PATH.into(),
        _ => path(bytes),
    }
}

/// The bytes of a path that is asked for, or why it is none.
pub fn parse_asked(text: &str) -> Result<Vec<u8>, String> {
    match text {
        EMPTY_PATH => Ok(Vec::new()),
        _ => parse(text),
    }
}

/// The bytes of a path that can have a value, or why it is none.
pub fn parse(text: &str) -> Result<Vec<u8>, String> {
    let bytes = from_text(text.as_bytes());
    match well_formed(&bytes) {
        true => Ok(bytes),
        false => Err(format!("{text:?} is no path: {}", fault(text))),
    }
}

fn fault(text: &str) -> String {
    let parts: Vec<&str> = text.split('/').collect();
    let is_path_byte = |b: u8| (0x21..=0x7E).contains(&b);
    if parts.iter().any(|part| part.is_empty()) {
        return "a component is empty".into();
    }
    if !text.bytes().all(is_path_byte) {
        return "a component may hold the bytes 21 to 7E only".into();
    }
    if parts.iter().any(|part| part.len() > COMPONENT_LIMIT) {
        return format!("a component has more than {COMPONENT_LIMIT} bytes");
    }
    match parts.len() > COMPONENTS {
        true => format!("it has more than {COMPONENTS} components"),
        false => format!("it has more than {PATH_LIMIT} bytes, one counted after each component"),
    }
}

#[cfg(test)]
mod tests {
    use super::*;

    #[test]
    fn bytes_are_written_without_doubt() {
        assert_eq!(path(b"r1\0c7\0"), "r1/c7");
        assert_eq!(string(b"r1\0\xFF"), "r1/‹FF›");
        assert_eq!(string(b"a/b \0"), "a‹2F›b‹20›/");
        assert_eq!(split(b"r1\0c7\0", b"t1\0"), "[r1/c7/]t1");
        assert_eq!(split(b"r1\0c7\0", b""), "[r1/c7/]");
        assert_eq!(split_pivot(b"r1\0", b"c7\0\xFF"), "[r1/]c7/‹FF›");
        assert_eq!(string(b""), "‹empty›");
        assert_eq!((value(b""), value(b"\n")), ("-".into(), "0a".into()));
        assert_eq!(runs(&[1, 2, 3, 7, 9, 10]), "1-3, 7, 9-10");
    }

    #[test]
    fn a_malformed_path_is_told_why() {
        assert_eq!(parse("r1/c7").unwrap(), b"r1\0c7\0");
        assert_eq!(parse_asked("r1/c7").unwrap(), b"r1\0c7\0");
        assert_eq!(parse_asked("/").unwrap(), b"");
        assert_eq!((asked(b"r1\0"), asked(b"")), ("r1".into(), "/".into()));
        assert!(parse("/").is_err());
        assert!(["", "//", "/r1", "r1/"]
            .iter()
            .all(|text| parse_asked(text).is_err()));
        for (text, why) in [
            ("r1//t1", "empty"),
            ("r1/", "empty"),
            ("a b", "21 to 7E"),
            ("12345678901234567", "16 bytes"),
            ("1/2/3/4/5/6/7/8/9", "8 components"),
            (
                "1234567890123456/1234567890123456/1234567890123456/1234567890123",
                "64 bytes",
            ),
        ] {
            assert!(parse(text).unwrap_err().contains(why), "{text}");
        }
    }
}

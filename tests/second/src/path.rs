// Paths as byte strings: well-formedness, order, "below", ownership and the lifted prefix.
// The order of paths is the order of byte slices, which puts a beginning before its extension.

use crate::limits::{COMPONENTS, COMPONENT_LIMIT, PATH_LIMIT};

/// Is this a path that the store may hold?
pub fn well_formed(path: &[u8]) -> bool {
    let Some((&0, text)) = path.split_last() else {
        return false;
    };
    path.len() <= PATH_LIMIT
        && text.split(|b| *b == 0).count() <= COMPONENTS
        && text.split(|b| *b == 0).all(component_well_formed)
}

/// Is this a path that clear and next take? The empty one is: every path is below it.
pub fn empty_or_well_formed(path: &[u8]) -> bool {
    path.is_empty() || well_formed(path)
}

fn component_well_formed(component: &[u8]) -> bool {
    (1..=COMPONENT_LIMIT).contains(&component.len())
        && component
            .iter()
            .all(|b| (0x21..=0x7E).contains(b) && *b != 0x2F)
}

/// Is `path` below `top`? Every path is below itself.
pub fn below(path: &[u8], top: &[u8]) -> bool {
    path.starts_with(top)
}

/// Is neither path a proper beginning of the other?
pub fn apart_or_equal(a: &[u8], b: &[u8]) -> bool {
    a == b || !(a.starts_with(b) || b.starts_with(a))
}

/// Does a node with these pivots own the string?
pub fn owns(low: &[u8], high: &[u8], string: &[u8]) -> bool {
    low <= string && string < high
}

/// Do two nodes with these pivots own any string in common?
pub fn overlap(a: (&[u8], &[u8]), b: (&[u8], &[u8])) -> bool {
    a.0.max(b.0) < a.1.min(b.1)
}

/// The length of the longest common beginning.
pub fn common_beginning(a: &[u8], b: &[u8]) -> usize {
    a.iter().zip(b).take_while(|(x, y)| x == y).count()
}

/// The prefix that a node with these pivots leaves off every suffix in it.
pub fn lifted<'a>(low: &'a [u8], high: &[u8]) -> &'a [u8] {
    &low[..common_beginning(low, high)]
}

/// The bytes of a path written with `/` between its components; a lone `/` is the empty path.
/// A byte 00 in the text would read as a separator that nobody wrote. It becomes a `/`, which no
/// component may hold: such a text is a malformed path, and never the empty one.
pub fn from_text(text: &[u8]) -> Vec<u8> {
    if text == EMPTY_TEXT {
        return Vec::new();
    }
    let byte = |b: &u8| match *b {
        b'/' => 0,
        0 => b'/',
        other => other,
    };
    let mut path: Vec<u8> = text.iter().map(byte).collect();
    path.push(0);
    path
}

/// A path written with `/` between its components, the empty one as a lone `/`.
pub fn to_text(path: &[u8]) -> Vec<u8> {
    if path.is_empty() {
        return EMPTY_TEXT.to_vec();
    }
    let text = path.strip_suffix(&[0]).unwrap_or(path);
    text.iter()
        .map(|b| if *b == 0 { b'/' } else { *b })
        .collect()
}

/// How the empty path is written.
const EMPTY_TEXT: &[u8] = b"/";

/// The beginnings of a well-formed path that are well formed themselves, shortest first.
pub fn beginnings(path: &[u8]) -> impl Iterator<Item = &[u8]> {
    (0..path.len())
        .filter(|i| path[*i] == 0)
        .map(|i| &path[..=i])
}

#[cfg(test)]
mod tests {
    use super::*;

    #[test]
    fn malformed_paths_are_told() {
        for bad in [
            &b""[..],
            b"\0",
            b"a",
            b"a\0\0",
            b"\0a\0",
            b"a/\0",
            b" \0",
            b"\x7F\0",
        ] {
            assert!(!well_formed(bad), "{bad:?}");
            assert_eq!(empty_or_well_formed(bad), bad.is_empty(), "{bad:?}");
        }
        assert!(well_formed(b"!\0~\0") && empty_or_well_formed(b"!\0~\0"));
    }

    #[test]
    fn every_path_is_below_the_empty_one() {
        for path in [&b"a\0"[..], b"!\0~\0", b""] {
            assert!(below(path, b""), "{path:?}");
        }
        assert!(!below(b"", b"a\0"));
    }

    #[test]
    fn text_and_bytes_agree() {
        assert_eq!(from_text(b"r1/c7"), b"r1\0c7\0");
        assert_eq!(to_text(b"r1\0c7\0"), b"r1/c7");
    }

    #[test]
    fn a_lone_slash_alone_is_the_empty_path() {
        assert_eq!(from_text(b"/"), b"");
        assert_eq!(to_text(b""), b"/");
        for text in [&b""[..], b"//", b"///", b"/a", b"a/", b"//a", b"a//"] {
            assert!(!empty_or_well_formed(&from_text(text)), "{text:?}");
        }
    }

    #[test]
    fn a_byte_00_in_a_text_makes_a_malformed_path_that_is_not_empty() {
        for text in [
            &b"\0"[..],
            b"\0\0",
            b"a\0",
            b"\0a",
            b"a\0b",
            b"a/b\0",
            b"/\0",
            b"\0/",
        ] {
            let path = from_text(text);
            assert!(!empty_or_well_formed(&path), "{text:?}");
        }
    }

    #[test]
    fn ranges_overlap_as_intervals() {
        assert!(overlap((b"a", b"c"), (b"b", b"d")));
        assert!(!overlap((b"a", b"b"), (b"b", b"d")));
    }

    #[test]
    fn beginnings_are_the_paths_above() {
        let all: Vec<&[u8]> = beginnings(b"a\0bc\0").collect();
        assert_eq!(all, [&b"a\0"[..], b"a\0bc\0"]);
    }
}

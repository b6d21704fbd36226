// The bytes of an image: node 0, the other nodes and their entries, read as the paper lays
// them out. Nothing here asks whether an image is sound; that is for `sound`.

use crate::limits::*;

/// The number in two bytes, little-endian. Bytes past the end read as zero, so that no
/// offset can make a reader stop.
pub fn word(bytes: &[u8], at: usize) -> u16 {
    let low = bytes.get(at).copied().unwrap_or(0);
    let high = bytes.get(at + 1).copied().unwrap_or(0);
    u16::from_le_bytes([low, high])
}

/// How many nodes a store of this length has, if it is a length that a store may have.
pub fn nodes_of(length: usize) -> Option<usize> {
    let n = length / NODE;
    (length.is_multiple_of(NODE) && (NODES_LEAST..=NODES_MOST).contains(&n)).then_some(n)
}

/// The fields of node 0.
#[derive(Clone, Copy, Debug, PartialEq, Eq)]
pub struct Header {
    pub length: u16,
    pub kind: u16,
    pub n: u16,
    pub root: u16,
    pub levels: u16,
    pub live: u16,
}

impl Header {
    pub fn read(image: &[u8]) -> Header {
        Header {
            length: word(image, 0),
            kind: word(image, 2),
            n: word(image, 4),
            root: word(image, 6),
            levels: word(image, 8),
            live: word(image, 10),
        }
    }

    /// Node 0 of a store of `n` nodes, whole.
    pub fn node(n: usize, root: u16, levels: u16, live: u16) -> Vec<u8> {
        let mut node = Vec::with_capacity(NODE);
        for field in [HEADER_LENGTH, KIND_HEADER, n as u16, root, levels, live] {
            node.extend_from_slice(&field.to_le_bytes());
        }
        node.resize(NODE, 0);
        node
    }
}

/// The bytes of one node; none for a number that is no node's.
pub fn node(image: &[u8], number: u16) -> &[u8] {
    let from = usize::from(number) * NODE;
    image.get(from..from + NODE).unwrap_or(&[])
}

/// The bytes of a node's entries, as far as its length field says and the node goes.
pub fn entry_bytes(node: &[u8]) -> &[u8] {
    let end = NODE_HEAD + usize::from(word(node, 0));
    node.get(NODE_HEAD..end.min(node.len())).unwrap_or(&[])
}

/// A message with its suffix, as it stands in an entry.
#[derive(Clone, Copy, Debug, PartialEq, Eq)]
pub enum RawMessage<'a> {
    Put { suffix: &'a [u8], value: &'a [u8] },
    Drop { suffix: &'a [u8] },
    Clear { suffix: &'a [u8] },
}

#[derive(Clone, Copy, Debug, PartialEq, Eq)]
pub enum Entry<'a> {
    Pair { suffix: &'a [u8], value: &'a [u8] },
    Child { number: u16, suffix: &'a [u8] },
    Message(RawMessage<'a>),
}

/// Why an entry does not read.
#[derive(Clone, Copy, Debug, PartialEq, Eq)]
pub enum Unreadable {
    /// The bytes end before the entry does, or its rest is too short for its kind.
    Cut,
    /// The kind is none of an entry's.
    Kind,
    /// The suffix length says more than the entry holds.
    Suffix,
}

/// Reads the entry at the front; gives it with the bytes after it.
pub fn read_entry(bytes: &[u8]) -> Result<(Entry<'_>, &[u8]), Unreadable> {
    if bytes.len() < ENTRY_HEAD {
        return Err(Unreadable::Cut);
    }
    let end = ENTRY_HEAD + usize::from(word(bytes, 0));
    let rest = bytes.get(ENTRY_HEAD..end).ok_or(Unreadable::Cut)?;
    let entry = match word(bytes, 2) {
        KIND_PAIR => {
            let (suffix, value) = suffix_and_value(rest)?;
            Entry::Pair { suffix, value }
        }
        KIND_PUT => {
            let (suffix, value) = suffix_and_value(rest)?;
            Entry::Message(RawMessage::Put { suffix, value })
        }
        KIND_CHILD => Entry::Child {
            number: word(rest, 0),
            suffix: rest.get(2..).ok_or(Unreadable::Cut)?,
        },
        KIND_DROP => Entry::Message(RawMessage::Drop { suffix: rest }),
        KIND_CLEAR => Entry::Message(RawMessage::Clear { suffix: rest }),
        _ => return Err(Unreadable::Kind),
    };
    Ok((entry, &bytes[end..]))
}

fn suffix_and_value(rest: &[u8]) -> Result<(&[u8], &[u8]), Unreadable> {
    let after = rest.get(2..).ok_or(Unreadable::Cut)?;
    let length = usize::from(word(rest, 0));
    if length > after.len() {
        return Err(Unreadable::Suffix);
    }
    Ok(after.split_at(length))
}

/// All entries; they must fill the bytes exactly.
pub fn read_entries(mut bytes: &[u8]) -> Result<Vec<Entry<'_>>, Unreadable> {
    let mut entries = Vec::new();
    while !bytes.is_empty() {
        let (entry, after) = read_entry(bytes)?;
        entries.push(entry);
        bytes = after;
    }
    Ok(entries)
}

/// Appends an entry's bytes.
pub fn write_entry(entry: &Entry<'_>, out: &mut Vec<u8>) {
    match *entry {
        Entry::Pair { suffix, value } => write_suffixed(KIND_PAIR, suffix, value, out),
        Entry::Child { number, suffix } => {
            write_piece(KIND_CHILD, &[&number.to_le_bytes(), suffix], out)
        }
        Entry::Message(RawMessage::Put { suffix, value }) => {
            write_suffixed(KIND_PUT, suffix, value, out)
        }
        Entry::Message(RawMessage::Drop { suffix }) => write_piece(KIND_DROP, &[suffix], out),
        Entry::Message(RawMessage::Clear { suffix }) => write_piece(KIND_CLEAR, &[suffix], out),
    }
}

fn write_suffixed(kind: u16, suffix: &[u8], value: &[u8], out: &mut Vec<u8>) {
    let length = (suffix.len() as u16).to_le_bytes();
    write_piece(kind, &[&length, suffix, value], out);
}

fn write_piece(kind: u16, parts: &[&[u8]], out: &mut Vec<u8>) {
    let length: usize = parts.iter().map(|p| p.len()).sum();
    out.extend_from_slice(&(length as u16).to_le_bytes());
    out.extend_from_slice(&kind.to_le_bytes());
    for part in parts {
        out.extend_from_slice(part);
    }
}

/// A whole node from its entries' bytes, or none if they are too many.
pub fn node_of(level: u16, entries: &[u8]) -> Option<Vec<u8>> {
    if entries.len() > ENTRY_BYTES_LIMIT {
        return None;
    }
    let kind = if level == 1 { KIND_LEAF } else { KIND_INTERIOR };
    let mut node = Vec::with_capacity(NODE);
    for field in [entries.len() as u16, kind, level, 0] {
        node.extend_from_slice(&field.to_le_bytes());
    }
    node.extend_from_slice(entries);
    node.resize(NODE, 0);
    Some(node)
}

#[cfg(test)]
mod tests {
    use super::*;

    #[test]
    fn entries_read_back() {
        let entries = [
            Entry::Pair {
                suffix: b"a\0",
                value: b"",
            },
            Entry::Child {
                number: 7,
                suffix: b"",
            },
            Entry::Message(RawMessage::Put {
                suffix: b"",
                value: b"v",
            }),
            Entry::Message(RawMessage::Drop { suffix: b"d\0" }),
            Entry::Message(RawMessage::Clear { suffix: b"" }),
        ];
        let mut bytes = Vec::new();
        entries.iter().for_each(|e| write_entry(e, &mut bytes));
        assert_eq!(read_entries(&bytes).unwrap(), entries);
        assert_eq!(
            read_entries(&bytes[..bytes.len() - 1]),
            Err(Unreadable::Cut)
        );
    }

    #[test]
    fn unreadable_entries_are_told_apart() {
        assert_eq!(read_entry(&[0, 0, 1]), Err(Unreadable::Cut));
        assert_eq!(read_entry(&[1, 0, 0x10, 0, 9]), Err(Unreadable::Cut));
        assert_eq!(read_entry(&[0, 0, 0x30, 0]), Err(Unreadable::Kind));
        assert_eq!(read_entry(&[2, 0, 1, 0, 1, 0]), Err(Unreadable::Suffix));
    }
}

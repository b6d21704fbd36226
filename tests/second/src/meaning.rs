// What an image means, twice and in two ways: the lookup of one path goes down the raw bytes
// as the paper tells it; the whole table is made bottom up from the tree read in full.

use crate::image::{self, Entry, Header, RawMessage};
use crate::limits::{ROOT_HIGH, ROOT_LOW};
use crate::path::lifted;
use crate::tree::{Body, Message, Node, Table};

/// The value that a sound image gives a path.
pub fn lookup(image: &[u8], path: &[u8]) -> Option<Vec<u8>> {
    let header = Header::read(image);
    let place = Place {
        number: header.root,
        low: ROOT_LOW.to_vec(),
        high: ROOT_HIGH.to_vec(),
    };
    descend(image, &place, path, header.levels)
}

/// A node on the way down, with its pivots in full.
struct Place {
    number: u16,
    low: Vec<u8>,
    high: Vec<u8>,
}

fn descend(image: &[u8], place: &Place, path: &[u8], level: u16) -> Option<Vec<u8>> {
    let entries = image::read_entries(image::entry_bytes(image::node(image, place.number))).ok()?;
    let lifted = lifted(&place.low, &place.high);
    let rest = path.strip_prefix(lifted)?;
    if let Some(decided) = newest_word(&entries, rest) {
        return decided;
    }
    if level <= 1 {
        return pair_of(&entries, rest);
    }
    let child = owning_child(&entries, rest, lifted, &place.high)?;
    descend(image, &child, path, level - 1)
}

/// What the newest message that speaks of the path says, if any does.
fn newest_word(entries: &[Entry<'_>], rest: &[u8]) -> Option<Option<Vec<u8>>> {
    entries.iter().rev().find_map(|entry| match *entry {
        Entry::Message(RawMessage::Put { suffix, value }) if suffix == rest => {
            Some(Some(value.to_vec()))
        }
        Entry::Message(RawMessage::Drop { suffix }) if suffix == rest => Some(None),
        Entry::Message(RawMessage::Clear { suffix }) if rest.starts_with(suffix) => Some(None),
        _ => None,
    })
}

fn pair_of(entries: &[Entry<'_>], rest: &[u8]) -> Option<Vec<u8>> {
    entries.iter().find_map(|entry| match *entry {
        Entry::Pair { suffix, value } if suffix == rest => Some(value.to_vec()),
        _ => None,
    })
}

/// The last child whose pivot is not after the rest of the path.
fn owning_child(entries: &[Entry<'_>], rest: &[u8], lifted: &[u8], high: &[u8]) -> Option<Place> {
    let children: Vec<(u16, &[u8])> = entries
        .iter()
        .filter_map(|entry| match *entry {
            Entry::Child { number, suffix } => Some((number, suffix)),
            _ => None,
        })
        .collect();
    let at = children.iter().rposition(|(_, pivot)| *pivot <= rest)?;
    let (number, pivot) = children[at];
    let next = children.get(at + 1);
    Some(Place {
        number,
        low: [lifted, pivot].concat(),
        high: next.map_or(high.to_vec(), |(_, next)| [lifted, *next].concat()),
    })
}

/// The whole table of a node: its children's tables with its messages applied, oldest first.
pub fn table(node: &Node) -> Table {
    match &node.body {
        Body::Leaf(pairs) => pairs
            .iter()
            .map(|p| (p.path.clone(), p.value.clone()))
            .collect(),
        Body::Interior { children, messages } => {
            let mut rows = Table::new();
            children.iter().for_each(|child| rows.extend(table(child)));
            messages.iter().for_each(|m| apply(m, &mut rows));
            rows
        }
    }
}

fn apply(message: &Message, rows: &mut Table) {
    match message {
        Message::Put { path, value } => {
            rows.insert(path.clone(), value.clone());
        }
        Message::Drop { path } => {
            rows.remove(path);
        }
        Message::Clear { path } => {
            take_below(rows, path);
        }
    }
}

/// Takes the rows below a path out of the table and gives them.
pub fn take_below(rows: &mut Table, top: &[u8]) -> Table {
    let paths: Vec<Vec<u8>> = rows
        .range(top.to_vec()..)
        .map(|(path, _)| path)
        .take_while(|path| path.starts_with(top))
        .cloned()
        .collect();
    let taken = paths
        .into_iter()
        .filter_map(|path| rows.remove_entry(&path));
    taken.collect()
}

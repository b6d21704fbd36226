// The records below a path, as the bytes of any image tell them, and how much of the path the
// nodes lift in which they stand. It relies on a trace of each record; the page's script has the
// same rule (`recordsBelow`, `sharesOf`).

use crate::spell::{self, count};
use crate::survey::Survey;
use crate::trace::Trace;
use second::image::{Entry, RawMessage};
use second::path::overlap;
use std::collections::{BTreeMap, BTreeSet};

/// A record, and the entry that decides it.
#[derive(Clone, Debug, PartialEq, Eq)]
pub struct Record {
    pub path: Vec<u8>,
    pub node: u16,
    pub entry: usize,
}

/// The records in rising order, the one at the path itself left out.
pub fn records(survey: &Survey<'_>, path: &[u8]) -> Vec<Record> {
    let mut rows = candidates(survey, path);
    rows.remove(path);
    rows.into_iter()
        .filter_map(|row| record(survey, row))
        .collect()
}

/// Every path that a pair or a put names, in the nodes that own strings below the one asked for.
fn candidates(survey: &Survey<'_>, path: &[u8]) -> BTreeSet<Vec<u8>> {
    let end = [path, &[0xFF]].concat();
    let mut rows = BTreeSet::new();
    for node in &survey.nodes {
        if !overlap((&node.low, &node.high), (path, &end)) {
            continue;
        }
        let suffixes = node.entries.iter().filter_map(|entry| match *entry {
            Entry::Pair { suffix, .. } => Some(suffix),
            Entry::Message(RawMessage::Put { suffix, .. }) => Some(suffix),
            _ => None,
        });
        let full = suffixes.map(|suffix| [node.lifted(), suffix].concat());
        rows.extend(full.filter(|row| row.starts_with(path)));
    }
    rows
}

fn record(survey: &Survey<'_>, path: Vec<u8>) -> Option<Record> {
    let trace = Trace::take(survey, &path);
    let (node, entry) = trace.decider(survey)?;
    let node = node.number;
    trace
        .value
        .is_some()
        .then_some(Record { path, node, entry })
}

/// The records whose nodes lift equally much of a path that they lie below.
#[derive(Clone, Debug, PartialEq, Eq)]
pub struct Share {
    /// How many of the path's bytes are lifted.
    pub lifted: usize,
    pub nodes: BTreeSet<u16>,
    pub records: usize,
}

/// The most lifted first; none of the empty path, which has no bytes.
pub fn shares(survey: &Survey<'_>, path: &[u8], records: &[Record]) -> Vec<Share> {
    if path.is_empty() {
        return Vec::new();
    }
    let mut shares: BTreeMap<usize, Share> = BTreeMap::new();
    for record in records {
        let node = survey.node(record.node);
        let lifted = node.map_or(0, |n| n.lifted().len()).min(path.len());
        let share = shares.entry(lifted).or_insert(Share {
            lifted,
            nodes: BTreeSet::new(),
            records: 0,
        });
        share.nodes.insert(record.node);
        share.records += 1;
    }
    shares.into_values().rev().collect()
}

impl Share {
    pub fn words(&self, path: &[u8]) -> String {
        let (front, rest) = path.split_at(self.lifted);
        let (front, rest) = (spell::string(front), spell::string(rest));
        let told = match self.lifted {
            0 => format!("nothing of it is lifted, {rest} is stored with each record"),
            all if all == path.len() => format!("all of {front} is lifted"),
            _ => format!("{front} is lifted, {rest} is stored with each record"),
        };
        let records = count(self.records, "record", "records");
        format!("{}: {told} ({records})", spell::nodes(&self.nodes))
    }
}

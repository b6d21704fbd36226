// What a move did to the records that it moved: which keep their bytes, which were written anew
// and why. It relies on two sound images, of which the second holds what the move leaves of the
// first; of others it says nothing.

use crate::arguments::Moved;
use crate::compare::Comparison;
use crate::spell::{self, count};
use crate::survey::{SeenNode, Survey};
use crate::trace::Trace;
use second::path::overlap;
use second::plain;
use second::sound::judge;
use std::collections::BTreeSet;

/// Some of the records that moved, and the nodes in which they stood before and stand after.
#[derive(Clone, Debug, Default, PartialEq, Eq)]
pub struct Part {
    pub records: usize,
    pub before: BTreeSet<u16>,
    pub after: BTreeSet<u16>,
}

/// What a move left, and how.
#[derive(Clone, Debug)]
pub struct Moving {
    from: String,
    /// In nodes of which not a byte changed.
    pub kept: Part,
    /// In nodes that were written.
    pub written: Part,
    /// Whether each leaf that held the written ones also held records that did not move.
    shares_records: bool,
    /// Whether the whole store was written anew before it was cut.
    pub rebuilt: bool,
    /// The new leaf without entries in the place that was left.
    pub place: Option<u16>,
    /// The other new leaves without entries.
    pub empty: BTreeSet<u16>,
    /// The nodes that changed, but are free before and after.
    pub spent: Vec<u16>,
}

/// A path and the end of the range of all below it.
struct Range {
    low: Vec<u8>,
    high: Vec<u8>,
}

impl Range {
    fn of(text: &str) -> Option<Range> {
        let low = spell::parse(text).ok()?;
        let high = [&low[..], &[0xFF]].concat();
        Some(Range { low, high })
    }

    fn meets(&self, node: &SeenNode<'_>) -> bool {
        overlap((&self.low, &self.high), (&node.low, &node.high))
    }

    fn holds(&self, node: &SeenNode<'_>) -> bool {
        self.low <= node.low && node.high <= self.high
    }
}

impl Moving {
    pub fn of(sides: [&Survey<'_>; 2], changes: &Comparison, moved: &Moved) -> Option<Moving> {
        let [before, after] = sides;
        let (from, to) = (Range::of(&moved.from)?, Range::of(&moved.to)?);
        let (was, is) = (judge(before.image).ok()?, judge(after.image).ok()?);
        let is_the_move = plain::moved(&was.table, &from.low, &to.low) == is.table;
        if from.low == to.low || !is_the_move {
            return None;
        }
        let mut moving = Moving::leaves(sides, changes, &moved.from, [&from, &to]);
        for path in was.table.keys().filter(|path| path.starts_with(&from.low)) {
            let name = [&to.low, &path[from.low.len()..]].concat();
            let (stood, stands) = (decider(before, path)?, decider(after, &name)?);
            let is_kept = stood == stands && !changes.of_node(stood).changed;
            let part = if is_kept {
                &mut moving.kept
            } else {
                &mut moving.written
            };
            part.records += 1;
            part.before.insert(stood);
            part.after.insert(stands);
        }
        let leaves = moving
            .written
            .before
            .iter()
            .filter_map(|number| before.node(*number));
        moving.shares_records = leaves.into_iter().all(|leaf| holds_others(leaf, &from));
        (moving.kept.records + moving.written.records > 0).then_some(moving)
    }

    /// All but the records.
    fn leaves(
        sides: [&Survey<'_>; 2],
        changes: &Comparison,
        name: &str,
        ranges: [&Range; 2],
    ) -> Moving {
        let [before, after] = sides;
        let [from, _] = ranges;
        let mut leaves = before.nodes.iter().filter(|node| node.is_leaf());
        let is_new = |leaf: &&SeenNode<'_>| changes.of_node(leaf.number).changed;
        let bare = after
            .nodes
            .iter()
            .filter(|node| node.is_leaf() && node.entries.is_empty());
        let (place, empty): (Vec<_>, Vec<_>) =
            bare.filter(is_new).partition(|leaf| from.holds(leaf));
        let is_free = |number: &u16| sides.iter().all(|side| side.node(*number).is_none());
        let changed = changes
            .changes
            .iter()
            .filter(|(number, c)| **number > 0 && c.changed);
        Moving {
            from: name.into(),
            kept: Part::default(),
            written: Part::default(),
            shares_records: false,
            rebuilt: before.waiting() > 0 || leaves.any(|leaf| is_lost(leaf, changes, ranges)),
            place: place.first().map(|leaf| leaf.number),
            empty: empty.iter().map(|leaf| leaf.number).collect(),
            spent: changed.map(|(number, _)| *number).filter(is_free).collect(),
        }
    }

    /// How many keep their bytes, how many do not, and why.
    pub fn records(&self) -> String {
        let (kept, written) = (self.kept.records, self.written.records);
        let (still, anew) = (
            spell::nodes(&self.kept.after),
            spell::nodes(&self.written.after),
        );
        let all = count(kept + written, "record", "records");
        let told = match (kept, written) {
            (_, 0) => format!("Of the {all} that moved each keeps its bytes, in {still}."),
            (0, _) => format!("Of the {all} that moved each was written anew, in {anew}."),
            _ => format!(
                "Of the {all} that moved {kept} keep their bytes, in {still}, and {written} were \
                 written anew, in {anew}."
            ),
        };
        format!("{told} {}", self.reason())
    }

    fn reason(&self) -> String {
        let between = match self.kept.records {
            0 => "",
            _ => " Between the ends nothing is copied: only the pointers to it are new.",
        };
        let shared = match self.shares_records {
            true => "also held its neighbours' records",
            false => "also owned paths beside it",
        };
        let (leaves, from) = (spell::nodes(&self.written.before), &self.from);
        match self.written.before.len() {
            _ if self.rebuilt => "The whole store was written anew before it was cut, as is done \
                where messages wait, or where free nodes or levels are short."
                .into(),
            0 => "Nothing is copied: only the pointers to it are new.".into(),
            1 => format!(
                "One leaf ({leaves}) reached over an end of {from} and {shared}: it was cut there, \
                 and its part that moves was written anew.{between}"
            ),
            _ => format!(
                "The leaf at each end of {from} ({leaves}) {shared}: it was cut there, and its \
                 part that moves was written anew.{between}"
            ),
        }
    }

    /// What else a reader of the two images meets and wonders at.
    pub fn remains(&self) -> Vec<String> {
        let mut told = Vec::new();
        if let Some(place) = self.place {
            let from = &self.from;
            told.push(format!(
                "Node {place} is an empty leaf: the place that {from} left."
            ));
        }
        if !self.empty.is_empty() {
            let leaves = spell::nodes(&self.empty);
            told.push(format!(
                "Without entries: {leaves}, a side of a cut on which no record stood."
            ));
        }
        if !self.spent.is_empty() {
            let nodes = spell::nodes(&self.spent);
            told.push(format!(
                "Changed, but free before and after: {nodes}, written on the way and then cut \
                 further, so that nothing leads there."
            ));
        }
        told
    }
}

fn decider(survey: &Survey<'_>, path: &[u8]) -> Option<u16> {
    let trace = Trace::take(survey, path);
    trace.decider(survey).map(|(node, _)| node.number)
}

fn holds_others(leaf: &SeenNode<'_>, range: &Range) -> bool {
    let path = |suffix: &[u8]| [leaf.lifted(), suffix].concat();
    leaf.pairs()
        .any(|(_, suffix, _)| !path(suffix).starts_with(&range.low))
}

/// A leaf that no cut touches stays in the tree as it is, unless the store was rebuilt.
fn is_lost(leaf: &SeenNode<'_>, changes: &Comparison, [from, to]: [&Range; 2]) -> bool {
    let untouched = from.holds(leaf) || !(from.meets(leaf) || to.meets(leaf));
    let change = changes.of_node(leaf.number);
    untouched && (change.changed || change.gone)
}

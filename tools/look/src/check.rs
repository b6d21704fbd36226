// The rules of soundness for node 0 and for one node, each broken one told with its entry.
// What the rules ask is as in tests/second's `sound`; here every broken rule is told, not the
// first alone.

use crate::report;
use crate::spell;
use crate::survey::{Finding, SeenNode};
use second::image::{self, Entry, Header, RawMessage, Unreadable};
use second::limits::*;
use second::path::{owns, well_formed};
use second::sound::Rule;

pub fn store_size(length: usize) -> Finding {
    let size = report::size(length);
    let told = match length > NODES_MOST * NODE {
        true => size,
        false => format!(
            "{size}: {} nodes and {} bytes",
            length / NODE,
            length % NODE
        ),
    };
    Finding {
        rule: Rule::StoreSize,
        node: 0,
        entry: None,
        detail: told,
    }
}

/// Collects the findings of one node.
struct Findings {
    node: u16,
    found: Vec<Finding>,
}

impl Findings {
    fn of(node: u16) -> Findings {
        Findings {
            node,
            found: Vec::new(),
        }
    }

    fn ask(&mut self, rule: Rule, holds: bool, detail: impl FnOnce() -> String) {
        self.ask_entry(rule, None, holds, detail);
    }

    fn ask_entry(
        &mut self,
        rule: Rule,
        entry: Option<usize>,
        holds: bool,
        detail: impl FnOnce() -> String,
    ) {
        if !holds {
            let (node, detail) = (self.node, detail());
            self.found.push(Finding {
                rule,
                node,
                entry,
                detail,
            });
        }
    }
}

pub fn header(header: &Header, image: &[u8], n: usize) -> Vec<Finding> {
    let mut f = Findings::of(0);
    let said = |what: &str, told: u16| format!("{what} is {told}");
    f.ask(Rule::HeaderLength, header.length == HEADER_LENGTH, || {
        said("length", header.length)
    });
    f.ask(Rule::HeaderKind, header.kind == KIND_HEADER, || {
        format!("kind is {:04x}", header.kind)
    });
    f.ask(
        Rule::Levels,
        (1..=LEVELS_MOST).contains(&header.levels),
        || said("levels", header.levels),
    );
    f.ask(Rule::LiveLimit, usize::from(header.live) <= n, || {
        format!("live paths is {}, over {n}", header.live)
    });
    let dirty = dirty_byte(&image[HEADER_BYTES..NODE]);
    f.ask(Rule::HeaderZeros, dirty.is_none(), || {
        dirt(dirty, HEADER_BYTES)
    });
    f.ask(Rule::HeaderCount, usize::from(header.n) == n, || {
        format!("node 0 says {} nodes; the store has {n}", header.n)
    });
    f.ask(
        Rule::RootNumber,
        (1..n).contains(&usize::from(header.root)),
        || format!("root is {}; numbers go from 1 to {}", header.root, n - 1),
    );
    f.found
}

fn dirty_byte(bytes: &[u8]) -> Option<(usize, u8)> {
    let at = bytes.iter().position(|b| *b != 0)?;
    Some((at, bytes[at]))
}

fn dirt(found: Option<(usize, u8)>, base: usize) -> String {
    let (at, byte) = found.unwrap_or((0, 0));
    format!("byte {} of the node is {byte:02x}, not 00", base + at)
}

/// All that is asked of one reachable node but for where its children lead.
pub fn node(node: &SeenNode<'_>, bytes: &[u8]) -> Vec<Finding> {
    let mut f = Findings::of(node.number);
    layout(&mut f, node, bytes);
    unread(&mut f, node);
    match node.is_leaf() {
        true => leaf(&mut f, node),
        false => interior(&mut f, node),
    }
    f.found
}

fn layout(f: &mut Findings, node: &SeenNode<'_>, bytes: &[u8]) {
    let length = usize::from(image::word(bytes, 0));
    let (kind, level) = (image::word(bytes, 2), image::word(bytes, 4));
    let (wanted, word) = match node.is_leaf() {
        true => (KIND_LEAF, "a leaf"),
        false => (KIND_INTERIOR, "an interior node"),
    };
    f.ask(Rule::NodeLength, length <= ENTRY_BYTES_LIMIT, || {
        format!("the entries' length is {length}; they are not read")
    });
    f.ask(Rule::NodeKind, kind == wanted, || {
        format!(
            "kind is {kind:04x}; at level {} it is {word}, {wanted:04x}",
            node.level
        )
    });
    f.ask(Rule::NodeReserved, image::word(bytes, 6) == 0, || {
        format!("the u16 after the level is {}", image::word(bytes, 6))
    });
    let end = NODE_HEAD + length.min(ENTRY_BYTES_LIMIT);
    let dirty = dirty_byte(bytes.get(end..).unwrap_or(&[]));
    f.ask(Rule::NodeZeros, dirty.is_none(), || dirt(dirty, end));
    f.ask(Rule::NodeLevel, level == node.level, || {
        let place = match node.origin {
            Some(origin) => format!("under node {}", origin.parent),
            None => "as the root".into(),
        };
        format!(
            "its level says {level}; {place} it is at level {}",
            node.level
        )
    });
}

fn unread(f: &mut Findings, node: &SeenNode<'_>) {
    let at = node.entries.len();
    let (rule, why) = match node.unread {
        None => return,
        Some(Unreadable::Cut) => (
            Rule::EntryCut,
            "does not end with the entries' length, or is too short",
        ),
        Some(Unreadable::Kind) => (Rule::EntryKind, "has a kind that no entry has"),
        Some(Unreadable::Suffix) => (Rule::SuffixLength, "has a suffix longer than itself"),
    };
    f.ask_entry(rule, Some(at), false, || {
        format!("entry {} {why}; what follows is not read", at + 1)
    });
}

fn leaf(f: &mut Findings, node: &SeenNode<'_>) {
    let mut last: Option<Vec<u8>> = None;
    for (at, entry) in node.entries.iter().enumerate() {
        let Entry::Pair { suffix, value } = *entry else {
            f.ask_entry(Rule::LeafOnlyPairs, Some(at), false, || {
                format!("{} stands in a leaf", node.entry_name(at))
            });
            continue;
        };
        let path = [node.lifted(), suffix].concat();
        let shown = || {
            format!(
                "{}, {}",
                node.entry_name(at),
                spell::split(node.lifted(), suffix)
            )
        };
        value_limit(f, Rule::PairValue, at, value, &shown);
        if node.range_known {
            f.ask_entry(Rule::PairWellFormed, Some(at), well_formed(&path), || {
                format!("{}, is no well-formed path", shown())
            });
            let owned = owns(&node.low, &node.high, &path);
            f.ask_entry(Rule::PairOwned, Some(at), owned, || {
                not_owned(&shown(), node)
            });
        }
        let rises = last.as_ref().is_none_or(|last| *last < path);
        f.ask_entry(Rule::PairOrder, Some(at), rises, || {
            let before = spell::path(last.as_deref().unwrap_or(&[]));
            format!(
                "{}, does not come after {before}, the pair before it",
                shown()
            )
        });
        last = Some(path);
    }
}

fn value_limit(f: &mut Findings, rule: Rule, at: usize, value: &[u8], shown: &dyn Fn() -> String) {
    f.ask_entry(rule, Some(at), value.len() <= VALUE_LIMIT, || {
        format!("{}, has a value of {} bytes", shown(), value.len())
    });
}

fn not_owned(shown: &str, node: &SeenNode<'_>) -> String {
    let (low, high) = (spell::string(&node.low), spell::string(&node.high));
    format!("{shown}, is not owned: the node owns from {low} up to {high}")
}

fn interior(f: &mut Findings, node: &SeenNode<'_>) {
    let childless = node.unread.is_none() && node.children().next().is_none();
    let holds = !childless || too_long(f);
    f.ask(Rule::NoChild, holds, || "there is no child".into());
    let mut message_met = false;
    for (at, entry) in node.entries.iter().enumerate() {
        match entry {
            Entry::Pair { .. } => f.ask_entry(Rule::InteriorNoPairs, Some(at), false, || {
                format!("{} stands in an interior node", node.entry_name(at))
            }),
            Entry::Child { suffix, .. } => child(f, node, at, suffix, message_met),
            Entry::Message(raw) => {
                message_met = true;
                message(f, node, at, raw);
            }
        }
    }
    if node.range_known {
        pivots(f, node);
    }
}

/// Was the node's length no length? Its entries are not read then and nothing is asked of them.
fn too_long(f: &Findings) -> bool {
    f.found.iter().any(|found| found.rule == Rule::NodeLength)
}

fn child(f: &mut Findings, node: &SeenNode<'_>, at: usize, suffix: &[u8], late: bool) {
    let name = || node.entry_name(at);
    f.ask_entry(Rule::ChildrenFirst, Some(at), !late, || {
        format!("{} comes after a message", name())
    });
    f.ask_entry(
        Rule::PivotLength,
        Some(at),
        suffix.len() <= PIVOT_LIMIT,
        || format!("{} has a pivot suffix of {} bytes", name(), suffix.len()),
    );
}

fn pivots(f: &mut Findings, node: &SeenNode<'_>) {
    let mut last: Option<&[u8]> = None;
    for (at, _, suffix) in node.children() {
        let full = [node.lifted(), suffix].concat();
        let shown = || {
            let pivot = spell::split_pivot(node.lifted(), suffix);
            format!("{}, pivot {pivot}", node.entry_name(at))
        };
        match last {
            None => f.ask_entry(Rule::FirstPivot, Some(at), full == node.low, || {
                format!(
                    "{}, is not the node's low pivot {}",
                    shown(),
                    spell::string(&node.low)
                )
            }),
            Some(last) => f.ask_entry(Rule::PivotOrder, Some(at), last < suffix, || {
                format!("{}, does not come after the pivot before it", shown())
            }),
        }
        let owned = owns(&node.low, &node.high, &full);
        f.ask_entry(Rule::PivotOwned, Some(at), owned, || {
            not_owned(&shown(), node)
        });
        last = Some(suffix);
    }
}

/// The entries whose pivots are out of order or not owned: ranges that end at one mean nothing.
pub fn faulty_pivots(node: &SeenNode<'_>) -> Vec<usize> {
    let mut f = Findings::of(node.number);
    pivots(&mut f, node);
    let spoils = |rule| matches!(rule, Rule::PivotOrder | Rule::PivotOwned);
    f.found
        .iter()
        .filter(|x| spoils(x.rule))
        .filter_map(|x| x.entry)
        .collect()
}

fn message(f: &mut Findings, node: &SeenNode<'_>, at: usize, raw: &RawMessage<'_>) {
    let (suffix, value, word) = match *raw {
        RawMessage::Put { suffix, value } => (suffix, Some(value), "put"),
        RawMessage::Drop { suffix } => (suffix, None, "drop"),
        RawMessage::Clear { suffix } => (suffix, None, "clear"),
    };
    let path = [node.lifted(), suffix].concat();
    let shown = || {
        let path = spell::split(node.lifted(), suffix);
        format!("{}, {word} {path}", node.entry_name(at))
    };
    if let Some(value) = value {
        value_limit(f, Rule::PutValue, at, value, &shown);
    }
    if !node.range_known {
        return;
    }
    let no_path = || format!("{}, names no well-formed path", shown());
    let (formed, owned) = match raw {
        RawMessage::Put { .. } => (Rule::PutWellFormed, Rule::PutOwned),
        RawMessage::Drop { .. } => (Rule::DropWellFormed, Rule::DropOwned),
        RawMessage::Clear { .. } => {
            let fine = suffix.is_empty() || well_formed(&path);
            return f.ask_entry(Rule::ClearShape, Some(at), fine, no_path);
        }
    };
    f.ask_entry(formed, Some(at), well_formed(&path), no_path);
    let is_owned = owns(&node.low, &node.high, &path);
    f.ask_entry(owned, Some(at), is_owned, || not_owned(&shown(), node));
}

// Reads any bytes as an image, as far as they go: every node that can be reached, with its
// range, and every broken rule with the node and the entry where it is broken.
// It relies on tests/second for the bytes of nodes and entries, and on `check` for the rules.

use crate::check;
use crate::rules;
use crate::spell;
use second::image::{self, Entry, Header, RawMessage, Unreadable};
use second::limits::*;
use second::meaning;
use second::mutate::waivable;
use second::path::lifted;
use second::sound::Rule;
use second::tree::{Body, Message, Node, Pair};
use std::collections::BTreeMap;

/// A broken rule and where it is broken.
#[derive(Clone, Debug, PartialEq, Eq)]
pub struct Finding {
    pub rule: Rule,
    pub node: u16,
    /// The entry at fault, counted from 0.
    pub entry: Option<usize>,
    pub detail: String,
}

/// The entry of the parent that leads to a node.
#[derive(Clone, Copy, Debug, PartialEq, Eq)]
pub struct Origin {
    pub parent: u16,
    pub entry: usize,
}

#[derive(Clone, Debug)]
pub struct SeenNode<'a> {
    pub number: u16,
    /// The level that its place in the tree gives it, whatever its own bytes say.
    pub level: u16,
    pub low: Vec<u8>,
    pub high: Vec<u8>,
    /// False under a pivot that is itself at fault: ownership is not asked there.
    pub range_known: bool,
    /// None for the root.
    pub origin: Option<Origin>,
    /// The entries up to the first that does not read.
    pub entries: Vec<Entry<'a>>,
    /// Why the entry after those does not read, if there is one.
    pub unread: Option<Unreadable>,
    /// False where entries are left behind those: one does not read, or their length is none.
    pub read_to_end: bool,
}

#[derive(Clone, Debug)]
pub struct Survey<'a> {
    pub image: &'a [u8],
    /// 0 where the length is no store's; nothing is read then.
    pub n: usize,
    pub header: Header,
    /// Each before its children, left to right; the root is first.
    pub nodes: Vec<SeenNode<'a>>,
    /// In the paper's order.
    pub findings: Vec<Finding>,
    places: BTreeMap<u16, usize>,
}

/// The range and the place in the tree that a node is read for.
struct Task {
    number: u16,
    level: u16,
    low: Vec<u8>,
    high: Vec<u8>,
    range_known: bool,
    origin: Option<Origin>,
}

impl SeenNode<'_> {
    pub fn lifted(&self) -> &[u8] {
        lifted(&self.low, &self.high)
    }

    pub fn is_leaf(&self) -> bool {
        self.level == 1
    }

    /// The first entry that was not read, counted from 1.
    pub fn unread_from(&self) -> Option<usize> {
        (!self.read_to_end).then_some(self.entries.len() + 1)
    }

    /// Its entries that are messages, oldest first, with their places among the entries.
    pub fn messages(&self) -> impl Iterator<Item = (usize, RawMessage<'_>)> {
        self.entries
            .iter()
            .enumerate()
            .filter_map(|(at, entry)| match entry {
                Entry::Message(message) => Some((at, *message)),
                _ => None,
            })
    }

    pub fn children(&self) -> impl Iterator<Item = (usize, u16, &[u8])> {
        self.entries
            .iter()
            .enumerate()
            .filter_map(|(at, entry)| match entry {
                Entry::Child { number, suffix } => Some((at, *number, *suffix)),
                _ => None,
            })
    }

    pub fn pairs(&self) -> impl Iterator<Item = (usize, &[u8], &[u8])> {
        self.entries
            .iter()
            .enumerate()
            .filter_map(|(at, entry)| match entry {
                Entry::Pair { suffix, value } => Some((at, *suffix, *value)),
                _ => None,
            })
    }

    /// An entry's name: its kind, and its count among the node's entries of that kind.
    pub fn entry_name(&self, at: usize) -> String {
        let word = |entry: &Entry<'_>| match entry {
            Entry::Pair { .. } => "pair",
            Entry::Child { .. } => "child",
            Entry::Message(_) => "message",
        };
        let Some(kind) = self.entries.get(at).map(word) else {
            return format!("entry {}", at + 1);
        };
        let earlier = self.entries[..at].iter().filter(|e| word(e) == kind);
        format!("{kind} {}", earlier.count() + 1)
    }
}

impl<'a> Survey<'a> {
    pub fn take(image: &'a [u8]) -> Survey<'a> {
        let mut survey = Survey {
            image,
            n: image::nodes_of(image.len()).unwrap_or(0),
            header: Header::read(image),
            nodes: Vec::new(),
            findings: Vec::new(),
            places: BTreeMap::new(),
        };
        match survey.n {
            0 => survey.findings.push(check::store_size(image.len())),
            _ => survey.read(),
        }
        survey.sort_findings();
        survey
    }

    pub fn sound(&self) -> bool {
        self.findings.is_empty()
    }

    /// Who refuses the image, and by which number: make asks for the length alone.
    pub fn refusal(&self) -> Option<&'static str> {
        match (self.n, self.sound()) {
            (_, true) => None,
            (0, false) => Some("Every call refuses this file (1)"),
            (_, false) => Some("Every call but make refuses this image (2)"),
        }
    }

    pub fn node(&self, number: u16) -> Option<&SeenNode<'a>> {
        self.places.get(&number).map(|at| &self.nodes[*at])
    }

    /// The node that an entry leads to, if it is reached by this entry.
    pub fn child(&self, parent: &SeenNode<'_>, entry: usize) -> Option<&SeenNode<'a>> {
        let Some(Entry::Child { number, .. }) = parent.entries.get(entry) else {
            return None;
        };
        let origin = Origin {
            parent: parent.number,
            entry,
        };
        self.node(*number)
            .filter(|child| child.origin == Some(origin))
    }

    pub fn free(&self) -> Vec<u16> {
        let all = 1..self.n as u16;
        all.filter(|number| !self.places.contains_key(number))
            .collect()
    }

    pub fn waiting(&self) -> usize {
        self.nodes.iter().map(|node| node.messages().count()).sum()
    }

    /// The findings in one node.
    pub fn findings_in(&self, number: u16) -> impl Iterator<Item = &Finding> {
        self.findings.iter().filter(move |f| f.node == number)
    }

    fn read(&mut self) {
        self.findings = check::header(&self.header, self.image, self.n);
        if let Some(level) = self.root_level() {
            self.visit(Task {
                number: self.header.root,
                level,
                low: ROOT_LOW.to_vec(),
                high: ROOT_HIGH.to_vec(),
                range_known: true,
                origin: None,
            });
        }
        self.count_live();
        self.cross_check();
    }

    /// Node 0's levels; where those are out of bounds, what the root says of itself.
    fn root_level(&self) -> Option<u16> {
        let bounds = 1..=LEVELS_MOST;
        let own = image::word(image::node(self.image, self.header.root), 4);
        let is_node = (1..self.n).contains(&usize::from(self.header.root));
        let mut told = [self.header.levels, own].into_iter();
        told.find(|level| is_node && bounds.contains(level))
    }

    /// One node and all under it; the level falls, so the depth is at most eight.
    fn visit(&mut self, task: Task) {
        let bytes = image::node(self.image, task.number);
        let (entries, unread) = entries_of(bytes);
        let level = task.level;
        let node = SeenNode {
            number: task.number,
            level,
            low: task.low,
            high: task.high,
            range_known: task.range_known,
            origin: task.origin,
            read_to_end: unread.is_none() && has_length(bytes),
            entries,
            unread,
        };
        self.places.insert(node.number, self.nodes.len());
        self.nodes.push(node.clone());
        self.findings.extend(check::node(&node, bytes));
        if level > 1 {
            self.visit_children(&node);
        }
    }

    fn visit_children(&mut self, node: &SeenNode<'a>) {
        let faulty = check::faulty_pivots(node);
        let lifted = node.lifted().to_vec();
        let children: Vec<(usize, u16, &[u8])> = node.children().collect();
        for (i, (entry, number, suffix)) in children.iter().enumerate() {
            let origin = Origin {
                parent: node.number,
                entry: *entry,
            };
            if let Some(finding) = self.unreachable(*number, origin, node) {
                self.findings.push(finding);
                continue;
            }
            let next = children.get(i + 1);
            let ends_faulty = next.is_some_and(|(at, _, _)| faulty.contains(at));
            self.visit(Task {
                number: *number,
                level: node.level - 1,
                low: [&lifted, *suffix].concat(),
                high: next.map_or(node.high.clone(), |(_, _, s)| [&lifted, *s].concat()),
                range_known: node.range_known && !faulty.contains(entry) && !ends_faulty,
                origin: Some(origin),
            });
        }
    }

    /// Why a child entry leads to no node that may be read there.
    fn unreachable(&self, number: u16, origin: Origin, parent: &SeenNode<'_>) -> Option<Finding> {
        let finding = |rule, detail| Finding {
            rule,
            node: origin.parent,
            entry: Some(origin.entry),
            detail: format!("{} {detail}", parent.entry_name(origin.entry)),
        };
        if !(1..self.n).contains(&usize::from(number)) {
            let detail = format!(
                "leads to node {number}; numbers go from 1 to {}",
                self.n - 1
            );
            return Some(finding(Rule::ChildNumber, detail));
        }
        let before = self.node(number)?;
        let from = match before.origin {
            Some(first) => format!("from node {}", first.parent),
            None => "as the root".into(),
        };
        let detail = format!("leads to node {number}, which is reached before, {from}");
        Some(finding(Rule::ReachedOnce, detail))
    }

    /// Asked only where all else can be read, since else it says nothing.
    fn count_live(&mut self) {
        let readable = self.findings.iter().all(|f| waivable(f.rule));
        let Some(root) = self.nodes.first().filter(|_| readable) else {
            return;
        };
        let live = meaning::table(&self.tree(root)).len();
        let told = usize::from(self.header.live);
        if live != told {
            self.findings.push(Finding {
                rule: Rule::LiveCount,
                node: 0,
                entry: None,
                detail: format!("node 0 says {told} live paths; the tree holds {live}"),
            });
        }
    }

    fn tree(&self, node: &SeenNode<'_>) -> Node {
        let lifted = node.lifted();
        let full = |suffix: &[u8]| [lifted, suffix].concat();
        let body = if node.is_leaf() {
            let pairs = node.pairs().map(|(_, suffix, value)| Pair {
                path: full(suffix),
                value: value.to_vec(),
            });
            Body::Leaf(pairs.collect())
        } else {
            let children = node.children();
            let nodes = children.filter_map(|(at, _, _)| self.child(node, at));
            let messages = node.messages().map(|(_, raw)| Message::full(&raw, lifted));
            Body::Interior {
                children: nodes.map(|child| self.tree(child)).collect(),
                messages: messages.collect(),
            }
        };
        Node {
            number: node.number,
            low: node.low.clone(),
            body,
        }
    }

    /// The second program has the last word: a rule that only it finds broken is told too.
    fn cross_check(&mut self) {
        if let (true, Err(rule)) = (self.sound(), second::sound::judge(self.image)) {
            self.findings.push(Finding {
                rule,
                node: 0,
                entry: None,
                detail: "told by tests/second; the node is not known".into(),
            });
        }
    }

    fn sort_findings(&mut self) {
        let places = &self.places;
        self.findings.sort_by_key(|f| {
            let node = places.get(&f.node).map_or(0, |at| at + 1);
            (rules::place(f.rule), node, f.entry)
        });
    }
}

/// The entries as far as they read. A length over the limit is no length, so none are read.
fn entries_of(node: &[u8]) -> (Vec<Entry<'_>>, Option<Unreadable>) {
    let mut entries = Vec::new();
    let mut left = match has_length(node) {
        true => image::entry_bytes(node),
        false => &[],
    };
    while !left.is_empty() {
        match image::read_entry(left) {
            Ok((entry, after)) => {
                entries.push(entry);
                left = after;
            }
            Err(why) => return (entries, Some(why)),
        }
    }
    (entries, None)
}

fn has_length(node: &[u8]) -> bool {
    usize::from(image::word(node, 0)) <= ENTRY_BYTES_LIMIT
}

/// The range of a node in words.
pub fn range_words(node: &SeenNode<'_>) -> String {
    let lifted = node.lifted();
    let part = |pivot: &[u8]| spell::split_pivot(lifted, &pivot[lifted.len()..]);
    let told = format!("from {} up to {}", part(&node.low), part(&node.high));
    match whole(node) {
        Some([]) => format!("{told}: everything"),
        Some(path) => format!("{told}: exactly all below {}", spell::path(path)),
        None => told,
    }
}

/// The path, or the empty string, below which a node owns everything and nothing else.
pub fn whole<'n>(node: &'n SeenNode<'_>) -> Option<&'n [u8]> {
    let front = node.high.strip_suffix(&[0xFF])?;
    let is_path = front.is_empty() || second::path::well_formed(front);
    (front == node.low && is_path).then_some(front)
}

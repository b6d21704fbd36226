// Soundness, with each of the paper's rules under a name of its own.
// `judge` takes any bytes and says the first broken rule that it meets; free nodes are not read.

use crate::image::{self, Entry, Header, RawMessage, Unreadable};
use crate::limits::*;
use crate::meaning;
use crate::path::{lifted, owns, well_formed};
use crate::tree::{Body, Message, Node, Pair, Table, Tree};

macro_rules! rules {
    ($($rule:ident $name:literal),* $(,)?) => {
        /// The rules of soundness.
        #[derive(Clone, Copy, Debug, PartialEq, Eq, PartialOrd, Ord)]
        pub enum Rule { $($rule),* }

        impl Rule {
            pub const ALL: &'static [Rule] = &[$(Rule::$rule),*];

            pub fn name(self) -> &'static str {
                match self { $(Rule::$rule => $name),* }
            }
        }
    };
}

rules! {
    StoreSize "store-size",
    HeaderLength "header-length",
    HeaderKind "header-kind",
    HeaderCount "header-count",
    HeaderZeros "header-zeros",
    RootNumber "root-number",
    Levels "levels",
    LiveLimit "live-limit",
    LiveCount "live-count",
    ReachedOnce "reached-once",
    NodeLength "node-length",
    NodeLevel "node-level",
    NodeKind "node-kind",
    NodeReserved "node-reserved",
    NodeZeros "node-zeros",
    EntryCut "entry-cut",
    EntryKind "entry-kind",
    SuffixLength "suffix-length",
    LeafOnlyPairs "leaf-only-pairs",
    PairWellFormed "pair-well-formed",
    PairOrder "pair-order",
    PairOwned "pair-owned",
    PairValue "pair-value",
    InteriorNoPairs "interior-no-pairs",
    ChildrenFirst "children-first",
    NoChild "no-child",
    ChildNumber "child-number",
    PivotLength "pivot-length",
    FirstPivot "first-pivot",
    PivotOrder "pivot-order",
    PivotOwned "pivot-owned",
    PutWellFormed "put-well-formed",
    PutOwned "put-owned",
    PutValue "put-value",
    DropWellFormed "drop-well-formed",
    DropOwned "drop-owned",
    ClearShape "clear-shape",
}

impl Rule {
    pub fn named(name: &str) -> Option<Rule> {
        Rule::ALL.iter().copied().find(|rule| rule.name() == name)
    }
}

/// What is known of a sound image.
#[derive(Clone, Debug)]
pub struct Sound {
    pub n: usize,
    pub tree: Tree,
    pub table: Table,
    /// The numbers of the reachable nodes, rising; node 0 is not among them.
    pub used: Vec<u16>,
    /// How many messages wait in all.
    pub waiting: usize,
}

impl Sound {
    pub fn levels(&self) -> u16 {
        self.tree.levels
    }

    pub fn settled(&self) -> bool {
        self.waiting == 0
    }

    /// How many nodes from 1 up are not reachable.
    pub fn free(&self) -> usize {
        self.n - 1 - self.used.len()
    }
}

/// Is the image sound? If not, the first broken rule met.
pub fn judge(image: &[u8]) -> Result<Sound, Rule> {
    judge_waiving(image, None)
}

/// The same with one rule not asked, to see that an image breaks that rule alone. The rules
/// without which nothing could be read, or reading might not end, are asked all the same.
pub fn judge_waiving(image: &[u8], waived: Option<Rule>) -> Result<Sound, Rule> {
    let n = image::nodes_of(image.len()).ok_or(Rule::StoreSize)?;
    let mut judge = Judge {
        image,
        n,
        waived,
        reached: vec![false; n],
    };
    let header = Header::read(image);
    judge.header(&header)?;
    let root = judge.node(header.root, header.levels, ROOT_LOW, ROOT_HIGH)?;
    let table = meaning::table(&root);
    judge.require(Rule::LiveCount, table.len() == usize::from(header.live))?;
    let levels = header.levels;
    Ok(judge.verdict(Tree { levels, root }, table))
}

struct Judge<'a> {
    image: &'a [u8],
    n: usize,
    waived: Option<Rule>,
    reached: Vec<bool>,
}

/// Two pivots, the range that a node owns.
#[derive(Clone, Copy)]
struct Range<'a> {
    low: &'a [u8],
    high: &'a [u8],
}

/// The entries of an interior node: its children's numbers with their pivot suffixes, and its
/// messages, oldest first.
struct Parts<'e> {
    places: Vec<(u16, &'e [u8])>,
    messages: Vec<RawMessage<'e>>,
}

impl Judge<'_> {
    fn require(&self, rule: Rule, holds: bool) -> Result<(), Rule> {
        if holds || self.waived == Some(rule) {
            Ok(())
        } else {
            Err(rule)
        }
    }

    fn header(&self, header: &Header) -> Result<(), Rule> {
        let rest = &self.image[HEADER_BYTES..NODE];
        self.require(Rule::HeaderLength, header.length == HEADER_LENGTH)?;
        self.require(Rule::HeaderKind, header.kind == KIND_HEADER)?;
        self.require(Rule::HeaderCount, usize::from(header.n) == self.n)?;
        self.require(Rule::HeaderZeros, all_zero(rest))?;
        demand(Rule::RootNumber, self.is_node(header.root))?;
        demand(Rule::Levels, (1..=LEVELS_MOST).contains(&header.levels))?;
        self.require(Rule::LiveLimit, usize::from(header.live) <= self.n)
    }

    fn is_node(&self, number: u16) -> bool {
        (1..self.n).contains(&usize::from(number))
    }

    /// One node and all under it; `level` falls, so the depth is at most the levels.
    fn node(&mut self, number: u16, level: u16, low: &[u8], high: &[u8]) -> Result<Node, Rule> {
        self.reach(number)?;
        let image = self.image;
        let bytes = image::node(image, number);
        self.layout(bytes, level)?;
        let entries = image::read_entries(image::entry_bytes(bytes)).map_err(unreadable)?;
        let range = Range { low, high };
        let body = if level == 1 {
            Body::Leaf(self.leaf(&entries, range)?)
        } else {
            self.interior(&entries, range, level)?
        };
        let low = low.to_vec();
        Ok(Node { number, low, body })
    }

    fn reach(&mut self, number: u16) -> Result<(), Rule> {
        let reached = self.reached.get_mut(usize::from(number));
        let before = reached.map(|r| std::mem::replace(r, true));
        demand(Rule::ReachedOnce, before == Some(false))
    }

    fn layout(&self, node: &[u8], level: u16) -> Result<(), Rule> {
        let length = usize::from(image::word(node, 0));
        let kind = if level == 1 { KIND_LEAF } else { KIND_INTERIOR };
        demand(Rule::NodeLength, length <= ENTRY_BYTES_LIMIT)?;
        self.require(Rule::NodeLevel, image::word(node, 4) == level)?;
        self.require(Rule::NodeKind, image::word(node, 2) == kind)?;
        self.require(Rule::NodeReserved, image::word(node, 6) == 0)?;
        self.require(Rule::NodeZeros, all_zero(&node[NODE_HEAD + length..]))
    }

    fn leaf(&self, entries: &[Entry<'_>], range: Range<'_>) -> Result<Vec<Pair>, Rule> {
        let lifted = lifted(range.low, range.high);
        let mut pairs: Vec<Pair> = Vec::new();
        for entry in entries {
            let Entry::Pair { suffix, value } = *entry else {
                return Err(Rule::LeafOnlyPairs);
            };
            let path = [lifted, suffix].concat();
            let rises = pairs.last().is_none_or(|last| last.path < path);
            self.require(Rule::PairWellFormed, well_formed(&path))?;
            self.require(Rule::PairOrder, rises)?;
            self.require(Rule::PairOwned, owns(range.low, range.high, &path))?;
            self.require(Rule::PairValue, value.len() <= VALUE_LIMIT)?;
            let value = value.to_vec();
            pairs.push(Pair { path, value });
        }
        Ok(pairs)
    }

    fn interior(
        &mut self,
        entries: &[Entry<'_>],
        range: Range<'_>,
        level: u16,
    ) -> Result<Body, Rule> {
        let lifted = lifted(range.low, range.high);
        let Parts {
            places,
            messages: raws,
        } = self.split(entries)?;
        let pivots: Vec<Vec<u8>> = places
            .iter()
            .map(|(_, suffix)| [lifted, *suffix].concat())
            .collect();
        self.places(&places)?;
        self.pivots(&pivots, range)?;
        let messages = self.messages(&raws, range)?;
        let mut children = Vec::new();
        for (i, (number, _)) in places.iter().enumerate() {
            let high = pivots.get(i + 1).map_or(range.high, |next| next);
            children.push(self.node(*number, level - 1, &pivots[i], high)?);
        }
        Ok(Body::Interior { children, messages })
    }

    /// The children and then the messages, and nothing else.
    fn split<'e>(&self, entries: &[Entry<'e>]) -> Result<Parts<'e>, Rule> {
        let mut places = Vec::new();
        let mut messages = Vec::new();
        for entry in entries {
            match *entry {
                Entry::Pair { .. } => return Err(Rule::InteriorNoPairs),
                Entry::Child { number, suffix } => {
                    self.require(Rule::ChildrenFirst, messages.is_empty())?;
                    places.push((number, suffix));
                }
                Entry::Message(message) => messages.push(message),
            }
        }
        Ok(Parts { places, messages })
    }

    fn places(&self, places: &[(u16, &[u8])]) -> Result<(), Rule> {
        self.require(Rule::NoChild, !places.is_empty())?;
        for (number, suffix) in places {
            demand(Rule::ChildNumber, self.is_node(*number))?;
            self.require(Rule::PivotLength, suffix.len() <= PIVOT_LIMIT)?;
        }
        Ok(())
    }

    fn pivots(&self, pivots: &[Vec<u8>], range: Range<'_>) -> Result<(), Rule> {
        let first = pivots.first().map_or(range.low, |first| first);
        self.require(Rule::FirstPivot, first == range.low)?;
        let rising = pivots.windows(2).all(|pair| pair[0] < pair[1]);
        self.require(Rule::PivotOrder, rising)?;
        let owned = pivots.iter().all(|p| owns(range.low, range.high, p));
        self.require(Rule::PivotOwned, owned)
    }

    fn messages(&self, raws: &[RawMessage<'_>], range: Range<'_>) -> Result<Vec<Message>, Rule> {
        let lifted = lifted(range.low, range.high);
        let mut messages = Vec::new();
        for raw in raws {
            let message = Message::full(raw, lifted);
            self.message(&message, lifted, range)?;
            messages.push(message);
        }
        Ok(messages)
    }

    fn message(&self, message: &Message, lifted: &[u8], range: Range<'_>) -> Result<(), Rule> {
        let owned = owns(range.low, range.high, message.path());
        match message {
            Message::Put { path, value } => {
                self.require(Rule::PutWellFormed, well_formed(path))?;
                self.require(Rule::PutOwned, owned)?;
                self.require(Rule::PutValue, value.len() <= VALUE_LIMIT)
            }
            Message::Drop { path } => {
                self.require(Rule::DropWellFormed, well_formed(path))?;
                self.require(Rule::DropOwned, owned)
            }
            Message::Clear { path } => {
                let all = path.len() == lifted.len();
                self.require(Rule::ClearShape, all || well_formed(path))
            }
        }
    }

    fn verdict(&self, tree: Tree, table: Table) -> Sound {
        let used = (1..self.n).filter(|i| self.reached[*i]);
        let waiting = tree.walk().iter().map(|v| v.node.messages().len()).sum();
        Sound {
            n: self.n,
            used: used.map(|i| i as u16).collect(),
            tree,
            table,
            waiting,
        }
    }
}

fn demand(rule: Rule, holds: bool) -> Result<(), Rule> {
    if holds {
        Ok(())
    } else {
        Err(rule)
    }
}

fn all_zero(bytes: &[u8]) -> bool {
    bytes.iter().all(|b| *b == 0)
}

fn unreadable(why: Unreadable) -> Rule {
    match why {
        Unreadable::Cut => Rule::EntryCut,
        Unreadable::Kind => Rule::EntryKind,
        Unreadable::Suffix => Rule::SuffixLength,
    }
}

#[cfg(test)]
mod tests {
    use super::*;
    use crate::rng::Rng;

    #[test]
    fn random_bytes_are_judged_without_harm() {
        let mut rng = Rng::new(1);
        for _ in 0..50 {
            let mut image = rng.bytes(32 * NODE);
            let _ = judge(&image);
            let header = Header::node(32, 1, 1 + rng.below(8) as u16, 3);
            image[..NODE].copy_from_slice(&header);
            let _ = judge(&image);
            assert!(judge(&image[..rng.below(2000)]).is_err());
        }
    }

    #[test]
    fn every_rule_has_one_name() {
        let mut names: Vec<&str> = Rule::ALL.iter().map(|rule| rule.name()).collect();
        names.sort_unstable();
        names.dedup();
        assert_eq!(names.len(), Rule::ALL.len());
        assert_eq!(Rule::named("live-count"), Some(Rule::LiveCount));
    }
}

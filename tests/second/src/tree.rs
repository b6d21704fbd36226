// The tree that an image holds, owned and with every string in full: lifted prefixes are put
// back when a node is read and taken off again when it is written.

use crate::image::{self, Entry, Header, RawMessage};
use crate::limits::*;
use crate::path::lifted;
use std::collections::BTreeMap;

/// The rows of a map: each path with its value.
pub type Table = BTreeMap<Vec<u8>, Vec<u8>>;

/// A message in full. A clear of all that its node owns is the clear of the lifted prefix:
/// every string that the node owns begins with that.
#[derive(Clone, Debug, PartialEq, Eq)]
pub enum Message {
    Put { path: Vec<u8>, value: Vec<u8> },
    Drop { path: Vec<u8> },
    Clear { path: Vec<u8> },
}

#[derive(Clone, Debug, PartialEq, Eq)]
pub struct Pair {
    pub path: Vec<u8>,
    pub value: Vec<u8>,
}

#[derive(Clone, Debug, PartialEq, Eq)]
pub struct Node {
    pub number: u16,
    pub low: Vec<u8>,
    pub body: Body,
}

#[derive(Clone, Debug, PartialEq, Eq)]
pub enum Body {
    Leaf(Vec<Pair>),
    Interior {
        children: Vec<Node>,
        messages: Vec<Message>,
    },
}

#[derive(Clone, Debug, PartialEq, Eq)]
pub struct Tree {
    pub levels: u16,
    pub root: Node,
}

/// A node met on a walk, with its level and its two pivots.
#[derive(Clone, Copy, Debug)]
pub struct Visit<'a> {
    pub node: &'a Node,
    pub level: u16,
    pub low: &'a [u8],
    pub high: &'a [u8],
}

impl Node {
    pub fn leaf(low: &[u8], pairs: Vec<Pair>) -> Node {
        Node {
            number: 0,
            low: low.to_vec(),
            body: Body::Leaf(pairs),
        }
    }

    pub fn interior(low: &[u8], children: Vec<Node>, messages: Vec<Message>) -> Node {
        Node {
            number: 0,
            low: low.to_vec(),
            body: Body::Interior { children, messages },
        }
    }

    pub fn messages(&self) -> &[Message] {
        match &self.body {
            Body::Leaf(_) => &[],
            Body::Interior { messages, .. } => messages,
        }
    }

    /// Leaves the node without messages and gives those that it held.
    pub fn take_messages(&mut self) -> Vec<Message> {
        match &mut self.body {
            Body::Leaf(_) => Vec::new(),
            Body::Interior { messages, .. } => std::mem::take(messages),
        }
    }

    pub fn children(&self) -> &[Node] {
        match &self.body {
            Body::Leaf(_) => &[],
            Body::Interior { children, .. } => children,
        }
    }

    pub fn pairs(&self) -> &[Pair] {
        match &self.body {
            Body::Leaf(pairs) => pairs,
            Body::Interior { .. } => &[],
        }
    }

    pub fn is_interior(&self) -> bool {
        matches!(self.body, Body::Interior { .. })
    }

    /// This node and all under it, each before its children, left to right, to be changed.
    pub fn for_each_mut(&mut self, act: &mut dyn FnMut(&mut Node)) {
        act(self);
        if let Body::Interior { children, .. } = &mut self.body {
            children
                .iter_mut()
                .for_each(|child| child.for_each_mut(act));
        }
    }
}

impl<'a> Visit<'a> {
    /// The children with their own pivots.
    pub fn children(&self) -> Vec<Visit<'a>> {
        let children = self.node.children();
        let highs = children.iter().skip(1).map(|c| &c.low[..]);
        children
            .iter()
            .zip(highs.chain([self.high]))
            .map(|(node, high)| Visit {
                node,
                level: self.level.saturating_sub(1),
                low: &node.low,
                high,
            })
            .collect()
    }

    pub fn lifted(&self) -> &'a [u8] {
        lifted(self.low, self.high)
    }

    /// The bytes of the node's entries; none if a string in it lacks the lifted prefix.
    pub fn entry_bytes(&self) -> Option<Vec<u8>> {
        let lifted = self.lifted();
        let mut bytes = Vec::new();
        for pair in self.node.pairs() {
            let suffix = pair.path.strip_prefix(lifted)?;
            let value = &pair.value;
            image::write_entry(&Entry::Pair { suffix, value }, &mut bytes);
        }
        for child in self.node.children() {
            let suffix = child.low.strip_prefix(lifted)?;
            let number = child.number;
            image::write_entry(&Entry::Child { number, suffix }, &mut bytes);
        }
        for message in self.node.messages() {
            image::write_entry(&Entry::Message(message.raw(lifted)?), &mut bytes);
        }
        Some(bytes)
    }
}

impl Message {
    pub fn path(&self) -> &[u8] {
        match self {
            Message::Put { path, .. } | Message::Drop { path } | Message::Clear { path } => path,
        }
    }

    /// The message as it stands in a node that lifts this prefix.
    pub fn raw(&self, lifted: &[u8]) -> Option<RawMessage<'_>> {
        let suffix = self.path().strip_prefix(lifted)?;
        Some(match self {
            Message::Put { value, .. } => RawMessage::Put { suffix, value },
            Message::Drop { .. } => RawMessage::Drop { suffix },
            Message::Clear { .. } => RawMessage::Clear { suffix },
        })
    }

    /// The message in full, read in a node that lifts this prefix.
    pub fn full(raw: &RawMessage<'_>, lifted: &[u8]) -> Message {
        let path = |suffix: &[u8]| [lifted, suffix].concat();
        match *raw {
            RawMessage::Put { suffix, value } => Message::Put {
                path: path(suffix),
                value: value.to_vec(),
            },
            RawMessage::Drop { suffix } => Message::Drop { path: path(suffix) },
            RawMessage::Clear { suffix } => Message::Clear { path: path(suffix) },
        }
    }
}

impl Tree {
    pub fn root_visit(&self) -> Visit<'_> {
        Visit {
            node: &self.root,
            level: self.levels,
            low: &self.root.low,
            high: ROOT_HIGH,
        }
    }

    /// All nodes, each before its children, left to right.
    pub fn walk(&self) -> Vec<Visit<'_>> {
        let mut met = Vec::new();
        let mut ahead = vec![self.root_visit()];
        while let Some(visit) = ahead.pop() {
            met.push(visit);
            ahead.extend(visit.children().into_iter().rev());
        }
        met
    }

    pub fn find(&self, number: u64) -> Option<Visit<'_>> {
        self.walk()
            .into_iter()
            .find(|v| u64::from(v.node.number) == number)
    }

    /// Gives the nodes these numbers, in the order of the walk.
    pub fn number(&mut self, numbers: &[u16]) {
        let mut numbers = numbers.iter().copied();
        self.root.for_each_mut(&mut |node| {
            node.number = numbers.next().unwrap_or(0);
        });
    }

    /// Writes node 0 and the tree's nodes over the store and leaves its other nodes alone.
    /// None, and the store half written, if a node does not fit or has a number out of range.
    pub fn write(&self, live: u16, store: &mut [u8]) -> Option<()> {
        let n = store.len() / NODE;
        let header = Header::node(n, self.root.number, self.levels, live);
        store.get_mut(..NODE)?.copy_from_slice(&header);
        for visit in self.walk() {
            let bytes = image::node_of(visit.level, &visit.entry_bytes()?)?;
            let from = usize::from(visit.node.number) * NODE;
            store.get_mut(from..from + NODE)?.copy_from_slice(&bytes);
        }
        Some(())
    }
}

// A second simple store, which lets messages wait as a real one does: what is put, dropped or
// cleared goes to the root's buffer, and a flush hands it down; a move of a settled store swings.
// Where that has no room it leaves what the reference store packs, so that it is not held to the
// bound on moves. It can make the mistakes that look natural.

use crate::contract::move_bound_of;
use crate::image::Header;
use crate::path::{lifted, overlap, owns};
use crate::plain::Call;
use crate::reference::Reference;
use crate::sound::{judge, Sound};
use crate::subject::{perform, Capabilities, Numbers, Subject};
use crate::swing::swung;
use crate::tree::{Body, Message, Node, Pair, Tree};

/// A natural mistake.
#[derive(Clone, Copy, Debug, PartialEq, Eq)]
pub enum Slip {
    /// A flush forgets a clear that is shorter than what the child lifts.
    ForgetsShortClears,
    /// A flush hands a clear to the child that owns its path and to no other.
    ClearsOneChild,
    /// A flush puts messages before the older ones of the child.
    HandsDownAsOldest,
    /// A flush hands the newest message down first.
    HandsDownReversed,
    /// A heal joins two children with the messages that wait in them.
    MergesBuffers,
    /// A move swings while messages wait in the root.
    SwingsUnderMessages,
    /// A clear of everything leaves the root's messages over a tree that holds nothing.
    ClearsAllUnderMessages,
}

impl Slip {
    pub const ALL: [Slip; 7] = [
        Slip::ForgetsShortClears,
        Slip::ClearsOneChild,
        Slip::HandsDownAsOldest,
        Slip::HandsDownReversed,
        Slip::MergesBuffers,
        Slip::SwingsUnderMessages,
        Slip::ClearsAllUnderMessages,
    ];
}

#[derive(Clone, Copy, Debug, Default)]
pub struct Lazy {
    pub slip: Option<Slip>,
}

impl Lazy {
    fn slips(&self, slip: Slip) -> bool {
        self.slip == Some(slip)
    }

    /// The reference store asks the questions and cleans the work area; an accepted call then
    /// gets the lazy form of the same map, if there is one.
    fn act(&self, store: &mut [u8], work: &mut [u8], call: Call) -> Numbers {
        let before = store.to_vec();
        let answer = perform(&mut Reference::default(), &call, store, work, &mut []);
        if answer.accepted() {
            let live = Header::read(store).live;
            if let Some(form) = self.form(&before, &call, live) {
                store.copy_from_slice(&form);
            }
        }
        (answer.number, answer.beside)
    }

    fn form(&self, before: &[u8], call: &Call, live: u16) -> Option<Vec<u8>> {
        let sound = judge(before).ok()?;
        let written = |tree: Tree| {
            let mut store = before.to_vec();
            tree.write(live, &mut store).map(|_| store)
        };
        match call {
            Call::Flush { node, .. } => written(self.flushed(&sound.tree, *node)),
            Call::Heal { node, .. } if self.slips(Slip::MergesBuffers) => {
                merged(&sound.tree, *node).and_then(written)
            }
            Call::Move { from, to, .. } if from != to => self.moved(&sound, from, to, written),
            call if call.clears_all() && self.slips(Slip::ClearsAllUnderMessages) => {
                written(emptied_below(&sound))
            }
            _ => {
                let message = message_of(call)?;
                let grown = with_root_buffer(&sound)?;
                let flushed = self.flushed(&grown, u64::from(grown.root.number));
                written(holding(grown, &message)).or_else(|| written(holding(flushed, &message)))
            }
        }
    }

    /// The swung form of a store that nothing waits in, where its move is held to the bound.
    fn moved(
        &self,
        sound: &Sound,
        from: &[u8],
        to: &[u8],
        written: impl Fn(Tree) -> Option<Vec<u8>>,
    ) -> Option<Vec<u8>> {
        let swings = match self.slips(Slip::SwingsUnderMessages) {
            true => sound.waiting == sound.tree.root.messages().len(),
            false => move_bound_of(sound).is_some(),
        };
        if !swings {
            return None;
        }
        swung(sound, from, to).and_then(written)
    }

    fn flushed(&self, tree: &Tree, number: u64) -> Tree {
        let mut flushed = tree.clone();
        let Some(high) = tree.find(number).map(|v| v.high.to_vec()) else {
            return flushed;
        };
        flushed.root.for_each_mut(&mut |node| {
            if u64::from(node.number) == number {
                self.hand_down(node, &high);
            }
        });
        flushed
    }

    fn hand_down(&self, node: &mut Node, high: &[u8]) {
        let Body::Interior { children, messages } = &mut node.body else {
            return;
        };
        let mut messages = std::mem::take(messages);
        if self.slips(Slip::HandsDownReversed) {
            messages.reverse();
        }
        let lows: Vec<Vec<u8>> = children.iter().map(|c| c.low.clone()).collect();
        for (i, child) in children.iter_mut().enumerate() {
            let high = lows.get(i + 1).map_or(high, |next| next);
            let handed = messages.iter();
            let handed = handed.filter_map(|m| self.for_child(m, &lows[i], high));
            self.deliver(child, handed.collect());
        }
    }

    /// What of a message concerns the child with these pivots.
    fn for_child(&self, message: &Message, low: &[u8], high: &[u8]) -> Option<Message> {
        let Message::Clear { path } = message else {
            return owns(low, high, message.path()).then(|| message.clone());
        };
        if self.slips(Slip::ClearsOneChild) && !owns(low, high, path) {
            return None;
        }
        let lifted = lifted(low, high);
        if lifted.starts_with(path) {
            let short = lifted.len() > path.len();
            let path = lifted.to_vec();
            let forgotten = short && self.slips(Slip::ForgetsShortClears);
            return (!forgotten).then_some(Message::Clear { path });
        }
        let end = [&path[..], &[0xFF]].concat();
        let concerned = path.starts_with(lifted) && overlap((path, &end), (low, high));
        concerned.then(|| message.clone())
    }

    fn deliver(&self, child: &mut Node, handed: Vec<Message>) {
        match &mut child.body {
            Body::Leaf(pairs) => handed.iter().for_each(|m| apply(m, pairs)),
            Body::Interior { messages, .. } if self.slips(Slip::HandsDownAsOldest) => {
                messages.splice(0..0, handed);
            }
            Body::Interior { messages, .. } => messages.extend(handed),
        }
    }
}

fn apply(message: &Message, pairs: &mut Vec<Pair>) {
    match message {
        Message::Put { path, value } => {
            pairs.retain(|p| p.path != *path);
            let at = pairs.partition_point(|p| p.path < *path);
            let (path, value) = (path.clone(), value.clone());
            pairs.insert(at, Pair { path, value });
        }
        Message::Drop { path } => pairs.retain(|p| p.path != *path),
        Message::Clear { path } => pairs.retain(|p| !p.path.starts_with(path)),
    }
}

fn message_of(call: &Call) -> Option<Message> {
    let path = |path: &[u8]| path.to_vec();
    match call {
        Call::Put { path: p, value, .. } => Some(Message::Put {
            path: path(p),
            value: value.clone(),
        }),
        Call::Drop { path: p, .. } => Some(Message::Drop { path: path(p) }),
        Call::Clear { path: p, .. } => Some(Message::Clear { path: path(p) }),
        _ => None,
    }
}

/// The tree with an interior root: a leaf gets one over it.
fn with_root_buffer(sound: &Sound) -> Option<Tree> {
    let mut tree = sound.tree.clone();
    if tree.root.is_interior() {
        return Some(tree);
    }
    let number = (1..sound.n as u16).find(|i| sound.used.binary_search(i).is_err())?;
    let mut root = Node::interior(b"", vec![tree.root], Vec::new());
    root.number = number;
    tree = Tree {
        levels: tree.levels + 1,
        root,
    };
    Some(tree)
}

fn holding(mut tree: Tree, message: &Message) -> Tree {
    if let Body::Interior { messages, .. } = &mut tree.root.body {
        messages.push(message.clone());
    }
    tree
}

/// The root with its messages, and no pair anywhere below.
fn emptied_below(sound: &Sound) -> Tree {
    let mut tree = sound.tree.clone();
    tree.root.for_each_mut(&mut |node| match &mut node.body {
        Body::Leaf(pairs) => pairs.clear(),
        Body::Interior { messages, .. } if node.number != sound.tree.root.number => {
            messages.clear()
        }
        Body::Interior { .. } => {}
    });
    tree
}

/// The first two children made one, their messages too; none where no message waits in them.
fn merged(tree: &Tree, number: u64) -> Option<Tree> {
    let visit = tree.find(number)?;
    let [left, right, ..] = visit.node.children() else {
        return None;
    };
    let messages = [left.messages(), right.messages()].concat();
    if messages.is_empty() {
        return None;
    }
    let children = [left.children(), right.children()].concat();
    let mut joined = Node::interior(&left.low, children, messages);
    joined.number = left.number;
    let mut merged = tree.clone();
    merged.root.for_each_mut(&mut |node| match &mut node.body {
        Body::Interior { children, .. } if u64::from(node.number) == number => {
            children.splice(0..2, [joined.clone()]);
        }
        _ => {}
    });
    Some(merged)
}

#[rustfmt::skip]
impl Subject for Lazy {
    fn capabilities(&self) -> Capabilities {
        Capabilities { move_bound: false, waiting_bound: false, ..Capabilities::ALL }
    }

    fn make(&mut self, store: &mut [u8]) -> Numbers {
        Reference::default().make(store)
    }

    fn get(&mut self, store: &mut [u8], path: &[u8], buffer: &mut [u8]) -> Numbers {
        Reference::default().get(store, path, buffer)
    }

    fn next(&mut self, store: &mut [u8], path: &[u8], after: &[u8], buffer: &mut [u8]) -> Numbers {
        Reference::default().next(store, path, after, buffer)
    }

    fn same(&mut self, a: &mut [u8], b: &mut [u8]) -> Numbers {
        Reference::default().same(a, b)
    }

    fn check(&mut self, store: &mut [u8]) -> Numbers {
        Reference::default().check(store)
    }

    fn put(&mut self, store: &mut [u8], path: &[u8], value: &[u8], work: &mut [u8]) -> Numbers {
        let (path, value) = (path.to_vec(), value.to_vec());
        let call = Call::Put { path, value, work: work.len() };
        self.act(store, work, call)
    }

    fn drop(&mut self, store: &mut [u8], path: &[u8], work: &mut [u8]) -> Numbers {
        let call = Call::Drop { path: path.to_vec(), work: work.len() };
        self.act(store, work, call)
    }

    fn clear(&mut self, store: &mut [u8], path: &[u8], work: &mut [u8]) -> Numbers {
        let call = Call::Clear { path: path.to_vec(), work: work.len() };
        self.act(store, work, call)
    }

    fn move_(&mut self, store: &mut [u8], from: &[u8], to: &[u8], work: &mut [u8]) -> Numbers {
        let (from, to) = (from.to_vec(), to.to_vec());
        let call = Call::Move { from, to, work: work.len() };
        self.act(store, work, call)
    }

    fn settle(&mut self, store: &mut [u8], work: &mut [u8]) -> Numbers {
        Reference::default().settle(store, work)
    }

    fn tidy(&mut self, store: &mut [u8], work: &mut [u8]) -> Numbers {
        Reference::default().tidy(store, work)
    }

    fn flush(&mut self, store: &mut [u8], node: u64, work: &mut [u8]) -> Numbers {
        self.act(store, work, Call::Flush { node, work: work.len() })
    }

    fn heal(&mut self, store: &mut [u8], node: u64, work: &mut [u8]) -> Numbers {
        self.act(store, work, Call::Heal { node, work: work.len() })
    }
}

// Makes sound images from a seed, with waiting messages, odd pivots and garbage in free nodes:
// what a store may meet, whether or not any store would leave it.

use crate::feature::Feature;
use crate::limits::*;
use crate::meaning;
use crate::path::{beginnings, lifted, owns};
use crate::plan::Plan;
use crate::rng::Rng;
use crate::sound::{self, Sound};
use crate::tree::{Message, Node, Pair, Tree, Visit};
use crate::words;

/// Any sound image.
pub fn random(seed: u64) -> Vec<u8> {
    let mut rng = Rng::new(seed);
    let plan = Plan::random(&mut rng);
    by_plan(&plan, &mut rng)
}

/// Any sound image of n nodes.
pub fn of_nodes(n: usize, seed: u64) -> Vec<u8> {
    let mut rng = Rng::new(seed);
    let plan = Plan::of_nodes(n, &mut rng);
    by_plan(&plan, &mut rng)
}

const ATTEMPTS: usize = 500;

/// A sound image that shows the feature.
pub fn preset(feature: Feature, seed: u64) -> Vec<u8> {
    let mut rng = Rng::new(seed);
    let shown = |image: &[u8], sound: &Sound| feature.shown_by(image, sound);
    attempts(&mut rng, |rng| Plan::showing(feature, rng), shown)
}

/// The first image by such a plan that is as wanted; after so many attempts, any.
pub fn attempts(
    rng: &mut Rng,
    plan: impl Fn(&mut Rng) -> Plan,
    wanted: impl Fn(&[u8], &Sound) -> bool,
) -> Vec<u8> {
    let mut image = Vec::new();
    for _ in 0..ATTEMPTS {
        let plan = plan(rng);
        image = by_plan(&plan, rng);
        if sound::judge(&image).is_ok_and(|sound| wanted(&image, &sound)) {
            break;
        }
    }
    image
}

pub fn by_plan(plan: &Plan, rng: &mut Rng) -> Vec<u8> {
    let paths = universe(plan, rng);
    let mut grower = Grower { plan, rng, paths };
    let root = grower.grow(ROOT_LOW, ROOT_HIGH, plan.levels, plan.nodes);
    let levels = plan.levels;
    finish(plan, Tree { levels, root }, rng)
}

/// The distinct paths of an image, rising.
fn universe(plan: &Plan, rng: &mut Rng) -> Vec<Vec<u8>> {
    let mut paths: Vec<Vec<u8>> = Vec::new();
    while paths.len() < plan.paths {
        paths.push(words::path(rng));
        if paths.len() == plan.paths {
            paths.sort_unstable();
            paths.dedup();
        }
    }
    paths
}

/// Numbers the nodes and writes the image.
fn finish(plan: &Plan, mut tree: Tree, rng: &mut Rng) -> Vec<u8> {
    let live = meaning::table(&tree.root).len();
    let n = plan.size(tree.walk().len(), live);
    let mut numbers: Vec<u16> = (1..n as u16).collect();
    if plan.shuffled {
        rng.shuffle(&mut numbers);
    }
    tree.number(&numbers);
    let mut image = match plan.garbage {
        true => rng.bytes(n * NODE),
        false => vec![0; n * NODE],
    };
    let written = tree.write(live as u16, &mut image);
    debug_assert!(written.is_some(), "a generated tree fits its image");
    image
}

struct Grower<'a> {
    plan: &'a Plan,
    rng: &'a mut Rng,
    paths: Vec<Vec<u8>>,
}

impl Grower<'_> {
    /// A subtree for this range of at most `nodes` nodes, which are at least `level`.
    fn grow(&mut self, low: &[u8], high: &[u8], level: u16, nodes: usize) -> Node {
        if level <= 1 {
            return self.leaf(low, high);
        }
        let least = usize::from(level) - 1;
        let (fewest, most) = self.plan.fanout;
        let most = ((nodes - 1) / least).clamp(1, most);
        let wanted = self.rng.between(fewest.min(most), most);
        let pivots = self.pivots(low, high, wanted);
        let share = (nodes - 1) / pivots.len();
        let mut children = Vec::new();
        for (i, pivot) in pivots.iter().enumerate() {
            let high = pivots.get(i + 1).map_or(high, |next| next);
            children.push(self.grow(pivot, high, level - 1, share));
        }
        let mut node = Node::interior(low, children, Vec::new());
        let room = ENTRY_BYTES_LIMIT.saturating_sub(length(&node, level, high));
        let messages = self.messages(low, high, room);
        if let crate::tree::Body::Interior { messages: held, .. } = &mut node.body {
            *held = messages;
        }
        node
    }

    fn leaf(&mut self, low: &[u8], high: &[u8]) -> Node {
        let mut pairs = Vec::new();
        if self.rng.chance(self.plan.empty_leaves, 8) {
            return Node::leaf(low, pairs);
        }
        let lifted = lifted(low, high).len();
        let mut room = ENTRY_BYTES_LIMIT;
        for path in self.owned(low, high) {
            let value = self.value();
            let taken = ENTRY_HEAD + 2 + path.len() - lifted + value.len();
            if taken <= room && (self.plan.empty_leaves == 0 || self.rng.chance(7, 8)) {
                room -= taken;
                pairs.push(Pair { path, value });
            }
        }
        Node::leaf(low, pairs)
    }

    fn value(&mut self) -> Vec<u8> {
        match self.plan.value {
            Some(length) => self.rng.bytes(length),
            None => words::value(self.rng),
        }
    }

    /// The image's paths that a node with these pivots owns, rising.
    fn owned(&self, low: &[u8], high: &[u8]) -> Vec<Vec<u8>> {
        let owned = self.paths.iter().filter(|p| owns(low, high, p));
        owned.cloned().collect()
    }

    /// Up to `wanted` pivots, the first of them the low one.
    fn pivots(&mut self, low: &[u8], high: &[u8], wanted: usize) -> Vec<Vec<u8>> {
        let lifted = lifted(low, high);
        let owned = self.owned(low, high);
        let taken = |pivot: &[u8]| ENTRY_HEAD + 2 + pivot.len() - lifted.len();
        let mut pivots = vec![low.to_vec()];
        let mut room = ENTRY_BYTES_LIMIT - taken(low);
        for _ in 0..4 * wanted {
            for pivot in self.pivot_choice(lifted, &owned) {
                let new = owns(low, high, &pivot) && !pivots.contains(&pivot);
                let fits = new && pivot.len() <= lifted.len() + PIVOT_LIMIT;
                if fits && taken(&pivot) <= room && pivots.len() < wanted {
                    room -= taken(&pivot);
                    pivots.push(pivot);
                }
            }
        }
        pivots.sort_unstable();
        pivots
    }

    /// Some strings that might be pivots here; the two ends of a moved range come together.
    fn pivot_choice(&mut self, lifted: &[u8], owned: &[Vec<u8>]) -> Vec<Vec<u8>> {
        let rng = &mut *self.rng;
        if self.plan.wide_pivots && rng.chance(1, 4) {
            return vec![[lifted, &words::longest(rng), &[0xFF]].concat()];
        }
        let path = rng.pick(owned).cloned().unwrap_or_else(|| words::path(rng));
        let all: Vec<&[u8]> = beginnings(&path).collect();
        let top = rng.pick(&all).map_or(&path[..], |top| top);
        match rng.below(8) {
            0..=2 => vec![top.to_vec(), [top, &[0xFF]].concat()],
            3 => vec![path],
            4 => vec![path[..rng.between(1, path.len())].to_vec()],
            5 => vec![[lifted, &words::longest(rng)].concat()],
            6 => vec![[&words::longest(rng)[..], &[0xFF]].concat()],
            _ => vec![[lifted, &rng.bytes(3)].concat()],
        }
    }

    fn messages(&mut self, low: &[u8], high: &[u8], mut room: usize) -> Vec<Message> {
        let lifted = lifted(low, high);
        let owned = self.owned(low, high);
        let wanted = self.rng.between(self.plan.messages / 2, self.plan.messages);
        let mut messages = Vec::new();
        for _ in 0..wanted {
            let Some(message) = self.message(low, high, lifted, &owned) else {
                continue;
            };
            let taken = message_length(&message, lifted);
            if taken <= room {
                room -= taken;
                messages.push(message);
            }
        }
        messages
    }

    fn message(
        &mut self,
        low: &[u8],
        high: &[u8],
        lifted: &[u8],
        owned: &[Vec<u8>],
    ) -> Option<Message> {
        let known = self.rng.pick(owned).cloned();
        match self.rng.below(20) {
            0 => Some(Message::Clear {
                path: lifted.to_vec(),
            }),
            1..=3 => {
                let path = words::near(self.rng, owned);
                path.starts_with(lifted).then_some(Message::Clear { path })
            }
            4..=6 => {
                let path = words::near(self.rng, owned);
                owns(low, high, &path).then_some(Message::Drop { path })
            }
            7 => {
                let path = owned.first().cloned()?;
                let value = self.value();
                Some(Message::Put { path, value })
            }
            _ => {
                let value = self.value();
                known.map(|path| Message::Put { path, value })
            }
        }
    }
}

fn length(node: &Node, level: u16, high: &[u8]) -> usize {
    let visit = Visit {
        node,
        level,
        low: &node.low,
        high,
    };
    visit.entry_bytes().map_or(0, |bytes| bytes.len())
}

fn message_length(message: &Message, lifted: &[u8]) -> usize {
    let suffix = message.path().len() - lifted.len();
    let value = match message {
        Message::Put { value, .. } => 2 + value.len(),
        _ => 0,
    };
    ENTRY_HEAD + suffix + value
}

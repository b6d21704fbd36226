// The features that generated images are asked for, each with a name and a test whether a
// sound image shows it. They are the corners of the paper's layout.

use crate::contract;
use crate::image;
use crate::limits::*;
use crate::path::{beginnings, owns, well_formed};
use crate::sound::Sound;
use crate::tree::{Message, Visit};

macro_rules! features {
    ($($feature:ident $name:literal),* $(,)?) => {
        #[derive(Clone, Copy, Debug, PartialEq, Eq, PartialOrd, Ord)]
        pub enum Feature { $($feature),* }

        impl Feature {
            pub const ALL: &'static [Feature] = &[$(Feature::$feature),*];

            pub fn name(self) -> &'static str {
                match self { $(Feature::$feature => $name),* }
            }
        }
    };
}

features! {
    OneLeaf "one-leaf",
    Settled "settled",
    EightLevels "eight-levels",
    WaitingEverywhere "waiting-everywhere",
    ClearAll "clear-all",
    ClearRoot "clear-root",
    ClearShort "clear-short",
    ClearAtPrefix "clear-at-prefix",
    ClearUnowned "clear-unowned",
    EmptySuffixPut "empty-suffix-put",
    FfPivot "ff-pivot",
    LongPivot "long-pivot",
    WidePivot "wide-pivot",
    EmptyLeaf "empty-leaf",
    OneChildChain "one-child-chain",
    FullInterior "full-interior",
    FullLeaf "full-leaf",
    SmallStore "small-store",
    LargeStore "large-store",
    ShuffledNumbers "shuffled-numbers",
    GarbageInFree "garbage-in-free",
    EmptyValue "empty-value",
    LongValue "long-value",
    LongPut "long-put",
    OldLimit "old-limit",
    LongPath "long-path",
    WideComponent "wide-component",
    DeepPath "deep-path",
    FullTable "full-table",
    MoveBound "move-bound",
    JustBound "just-bound",
    NoFreeNode "no-free-node",
}

impl Feature {
    pub fn named(name: &str) -> Option<Feature> {
        Feature::ALL.iter().copied().find(|f| f.name() == name)
    }

    /// Does this sound image show the feature?
    pub fn shown_by(self, image: &[u8], sound: &Sound) -> bool {
        let walk = sound.tree.walk();
        let node = |test: fn(&Visit<'_>) -> bool| walk.iter().any(test);
        match self {
            Feature::OneLeaf => sound.levels() == 1 && sound.table.len() >= 3,
            Feature::Settled => sound.levels() > 1 && sound.settled(),
            Feature::EightLevels => sound.levels() == LEVELS_MOST,
            Feature::WaitingEverywhere => waiting_everywhere(sound, &walk),
            Feature::ClearAll => node(clears_all),
            Feature::ClearRoot => clears(&sound.tree.root_visit()).any(|path| path.is_empty()),
            Feature::ClearShort => node(clears_above_child),
            Feature::ClearAtPrefix => node(clears_at_child),
            Feature::ClearUnowned => node(clears_unowned),
            Feature::EmptySuffixPut => node(puts_at_prefix),
            Feature::FfPivot => node(ff_pivot),
            Feature::LongPivot => node(|v| v.low.len() > PIVOT_LIMIT),
            Feature::WidePivot => node(wide_pivot),
            Feature::EmptyLeaf => {
                sound.levels() > 1 && node(|v| v.level == 1 && v.node.pairs().is_empty())
            }
            Feature::OneChildChain => node(one_child_chain),
            Feature::FullInterior => node(|v| v.node.is_interior() && entry_length(v) >= 1000),
            Feature::FullLeaf => node(|v| v.level == 1 && entry_length(v) >= 960),
            Feature::SmallStore => sound.n == NODES_LEAST,
            Feature::LargeStore => sound.n == NODES_MOST && sound.used.len() >= 100,
            Feature::ShuffledNumbers => {
                walk.windows(2).any(|w| w[0].node.number > w[1].node.number)
            }
            Feature::GarbageInFree => free_nodes(sound).any(|i| dirty(image, i)),
            Feature::EmptyValue => sound.table.values().any(|v| v.is_empty()),
            Feature::LongValue => sound.table.values().any(|v| v.len() == VALUE_LIMIT),
            Feature::LongPut => node(puts_longest),
            Feature::OldLimit => longest_value(sound) == OLD_VALUE_LIMIT,
            Feature::LongPath => sound.table.keys().any(|p| p.len() == PATH_LIMIT),
            Feature::WideComponent => sound.table.keys().any(|p| has_wide(p)),
            Feature::DeepPath => sound.table.keys().any(|p| depth(p) == COMPONENTS),
            Feature::FullTable => sound.table.len() == sound.n,
            Feature::MoveBound => sound.levels() > 1 && bounded(sound) && sound.table.len() >= 8,
            Feature::JustBound => {
                bounded(sound) && sound.free() == contract::bound_free(sound.levels())
            }
            Feature::NoFreeNode => sound.free() == 0,
        }
    }
}

fn waiting_everywhere(sound: &Sound, walk: &[Visit<'_>]) -> bool {
    let waits = |level: u16| {
        walk.iter()
            .any(|v| v.level == level && !v.node.messages().is_empty())
    };
    sound.levels() > 2 && (2..=sound.levels()).all(waits)
}

fn clears<'a>(visit: &Visit<'a>) -> impl Iterator<Item = &'a [u8]> {
    visit.node.messages().iter().filter_map(|m| match m {
        Message::Clear { path } => Some(&path[..]),
        _ => None,
    })
}

/// A clear of all the node owns, where something is lifted.
fn clears_all(visit: &Visit<'_>) -> bool {
    let lifted = visit.lifted();
    !lifted.is_empty() && clears(visit).any(|path| path == lifted)
}

/// A clear shorter than the prefix that a child lifts: it clears the whole child.
fn clears_above_child(visit: &Visit<'_>) -> bool {
    let children = visit.children();
    clears(visit).any(|path| {
        let above = |prefix: &[u8]| prefix.starts_with(path) && prefix.len() > path.len();
        !path.is_empty() && children.iter().any(|child| above(child.lifted()))
    })
}

fn clears_at_child(visit: &Visit<'_>) -> bool {
    let children = visit.children();
    clears(visit).any(|path| !path.is_empty() && children.iter().any(|c| c.lifted() == path))
}

fn clears_unowned(visit: &Visit<'_>) -> bool {
    clears(visit).any(|path| path != visit.lifted() && !owns(visit.low, visit.high, path))
}

/// A put whose suffix is empty, because the lifted prefix is its path.
fn puts_at_prefix(visit: &Visit<'_>) -> bool {
    let lifted = visit.lifted();
    let put = |m: &Message| matches!(m, Message::Put { path, .. } if path == lifted);
    visit.node.messages().iter().any(put)
}

/// A put of a value of the greatest length, which still waits.
fn puts_longest(visit: &Visit<'_>) -> bool {
    let longest =
        |m: &Message| matches!(m, Message::Put { value, .. } if value.len() == VALUE_LIMIT);
    visit.node.messages().iter().any(longest)
}

/// The length of the longest value, of those too that nobody reads any more.
fn longest_value(sound: &Sound) -> usize {
    let walk = sound.tree.walk();
    let pairs = walk.iter().flat_map(|v| v.node.pairs());
    let puts = walk.iter().flat_map(|v| v.node.messages());
    let of_put = |m: &Message| match m {
        Message::Put { value, .. } => value.len(),
        _ => 0,
    };
    let lengths = pairs.map(|pair| pair.value.len()).chain(puts.map(of_put));
    lengths.max().unwrap_or(0)
}

/// The end of a moved range: a path of 64 bytes followed by FF.
fn ff_pivot(visit: &Visit<'_>) -> bool {
    let Some((0xFF, path)) = visit.low.split_last() else {
        return false;
    };
    path.len() == PATH_LIMIT && well_formed(path)
}

/// A child whose pivot suffix has the greatest length.
pub fn wide_pivot(visit: &Visit<'_>) -> bool {
    let lifted = visit.lifted().len();
    let mut children = visit.node.children().iter();
    children.any(|child| child.low.len() == lifted + PIVOT_LIMIT)
}

fn one_child_chain(visit: &Visit<'_>) -> bool {
    let only = |children: &[crate::tree::Node]| children.len() == 1;
    let children = visit.node.children();
    only(children) && only(children[0].children())
}

fn entry_length(visit: &Visit<'_>) -> usize {
    visit.entry_bytes().map_or(0, |bytes| bytes.len())
}

/// Is a move on this image held to the bound on changed nodes?
fn bounded(sound: &Sound) -> bool {
    contract::move_bound_of(sound).is_some()
}

fn free_nodes(sound: &Sound) -> impl Iterator<Item = u16> + '_ {
    (1..sound.n as u16).filter(|i| sound.used.binary_search(i).is_err())
}

fn dirty(image: &[u8], number: u16) -> bool {
    image::node(image, number).iter().any(|b| *b != 0)
}

fn has_wide(path: &[u8]) -> bool {
    path.split(|b| *b == 0).any(|c| c.len() == COMPONENT_LIMIT)
}

fn depth(path: &[u8]) -> usize {
    beginnings(path).count()
}

// Damages sound images: for each rule of soundness a way to break that rule and, as far as
// the rule allows, no other. A damage that finds no place in an image gives none.

use crate::image::{self, Header};
use crate::limits::*;
use crate::rng::Rng;
use crate::sound::{judge, judge_waiving, Rule, Sound};
use crate::tree::Visit;
use crate::{mutate_bytes as bytes, mutate_tree as tree};

const ATTEMPTS: usize = 60;

/// The image with this rule broken; none where it has no place for that damage.
pub fn damage(rule: Rule, image: &[u8], seed: u64) -> Option<Vec<u8>> {
    let sound = judge(image).ok()?;
    let mut rng = Rng::new(seed);
    let mut site = Site {
        image,
        sound: &sound,
        rng: &mut rng,
    };
    (0..ATTEMPTS)
        .filter_map(|_| attempt(rule, &mut site))
        .find(|damaged| breaks_alone(rule, damaged))
}

/// A rule to break: any one, and more often one on the length of a value, for which the damage has to be by a byte to tell the limit.
pub fn any_rule(rng: &mut Rng) -> Rule {
    match rng.below(8) {
        0 => Rule::PairValue,
        1 => Rule::PutValue,
        _ => Rule::ALL[rng.below(Rule::ALL.len())],
    }
}

/// Is this rule the one reported, and with it waived none?
pub fn breaks_alone(rule: Rule, damaged: &[u8]) -> bool {
    let first = judge(damaged).err() == Some(rule);
    first && (!waivable(rule) || judge_waiving(damaged, Some(rule)).is_ok())
}

/// May the rule be broken while all else can still be read and is as it should be?
pub fn waivable(rule: Rule) -> bool {
    !matches!(
        rule,
        Rule::StoreSize
            | Rule::RootNumber
            | Rule::Levels
            | Rule::ReachedOnce
            | Rule::NodeLength
            | Rule::EntryCut
            | Rule::EntryKind
            | Rule::SuffixLength
            | Rule::LeafOnlyPairs
            | Rule::InteriorNoPairs
            | Rule::ChildNumber
            | Rule::PivotOrder
            | Rule::PivotOwned
    )
}

/// Where damage is done: a sound image and what is known of it.
pub struct Site<'a> {
    pub image: &'a [u8],
    pub sound: &'a Sound,
    pub rng: &'a mut Rng,
}

impl<'a> Site<'a> {
    /// A copy of the image with one word written over.
    pub fn with_word(&self, at: usize, word: u16) -> Option<Vec<u8>> {
        let mut copy = self.image.to_vec();
        copy.get_mut(at..at + 2)?
            .copy_from_slice(&word.to_le_bytes());
        Some(copy)
    }

    /// A copy with one byte made something that is not zero.
    pub fn with_dirt(&mut self, at: usize) -> Option<Vec<u8>> {
        let mut copy = self.image.to_vec();
        *copy.get_mut(at)? = self.rng.between(1, 255) as u8;
        Some(copy)
    }

    /// Any word, the small ones more often.
    pub fn any_word(&mut self) -> u16 {
        match self.rng.below(3) {
            0 => self.rng.below(12) as u16,
            1 => self.rng.below(1200) as u16,
            _ => self.rng.word() as u16,
        }
    }

    /// A random node of those wanted.
    pub fn any_visit(&mut self, wanted: fn(&Visit<'_>) -> bool) -> Option<Visit<'a>> {
        let sound: &'a Sound = self.sound;
        let mut walk = sound.tree.walk();
        walk.retain(wanted);
        self.rng.pick(&walk).copied()
    }

    /// Where a reachable node's bytes begin.
    pub fn any_node(&mut self) -> Option<usize> {
        let number = *self.rng.pick(&self.sound.used)?;
        Some(usize::from(number) * NODE)
    }
}

fn attempt(rule: Rule, site: &mut Site<'_>) -> Option<Vec<u8>> {
    match rule {
        Rule::StoreSize => store_size(site),
        Rule::HeaderLength => header_word(site, 0),
        Rule::HeaderKind => header_word(site, 2),
        Rule::HeaderCount => header_word(site, 4),
        Rule::RootNumber => header_word(site, 6),
        Rule::Levels => header_word(site, 8),
        Rule::HeaderZeros => {
            let at = site.rng.between(HEADER_BYTES, NODE - 1);
            site.with_dirt(at)
        }
        Rule::LiveCount => live_count(site),
        Rule::LiveLimit => tree::live_limit(site),
        Rule::NodeLength => node_word(site, 0),
        Rule::NodeKind => node_word(site, 2),
        Rule::NodeLevel => node_word(site, 4),
        Rule::NodeReserved => node_word(site, 6),
        Rule::NodeZeros => node_zeros(site),
        Rule::ReachedOnce => bytes::reached_once(site),
        Rule::EntryCut => bytes::entry_cut(site),
        Rule::EntryKind => bytes::entry_kind(site),
        Rule::SuffixLength => bytes::suffix_length(site),
        Rule::LeafOnlyPairs => bytes::leaf_only_pairs(site),
        Rule::InteriorNoPairs => bytes::interior_no_pairs(site),
        Rule::ChildNumber => bytes::child_number(site),
        Rule::ChildrenFirst => bytes::children_first(site),
        Rule::PairOrder => bytes::pair_order(site),
        Rule::PivotOrder => bytes::pivot_order(site),
        Rule::PivotOwned => bytes::pivot_owned(site),
        Rule::PivotLength => tree::pivot_length(site),
        Rule::FirstPivot => tree::first_pivot(site),
        Rule::NoChild => tree::no_child(site),
        Rule::PairWellFormed => tree::pair_well_formed(site),
        Rule::PairOwned => tree::pair_owned(site),
        Rule::PairValue => tree::pair_value(site),
        Rule::PutWellFormed
        | Rule::PutOwned
        | Rule::PutValue
        | Rule::DropWellFormed
        | Rule::DropOwned
        | Rule::ClearShape => tree::message(rule, site),
    }
}

fn store_size(site: &mut Site<'_>) -> Option<Vec<u8>> {
    let mut copy = site.image.to_vec();
    let odd = site.rng.between(1, NODE - 1);
    let length = match site.rng.below(3) {
        0 => copy.len() - odd,
        1 => copy.len() + odd,
        _ => (NODES_LEAST - 1) * NODE,
    };
    copy.resize(length, 0);
    Some(copy)
}

fn header_word(site: &mut Site<'_>, at: usize) -> Option<Vec<u8>> {
    let word = site.any_word();
    site.with_word(at, word)
}

/// One more or one less, still at most n.
fn live_count(site: &mut Site<'_>) -> Option<Vec<u8>> {
    let live = Header::read(site.image).live;
    let wrong = match site.rng.chance(1, 2) {
        true => live.checked_sub(1)?,
        false => live + 1,
    };
    site.with_word(HEADER_BYTES - 2, wrong)
}

fn node_word(site: &mut Site<'_>, at: usize) -> Option<Vec<u8>> {
    let base = site.any_node()?;
    let word = site.any_word();
    site.with_word(base + at, word)
}

fn node_zeros(site: &mut Site<'_>) -> Option<Vec<u8>> {
    let base = site.any_node()?;
    let end = NODE_HEAD + usize::from(image::word(site.image, base));
    let spare = NODE.checked_sub(end + 1)?;
    let at = end + site.rng.below(spare + 1);
    site.with_dirt(base + at)
}

/// The image with one to four bits turned, most often where they mean something.
pub fn flip(image: &[u8], seed: u64) -> Vec<u8> {
    let mut rng = Rng::new(seed);
    let mut copy = image.to_vec();
    for _ in 0..rng.between(1, 4) {
        let node = rng.below(image.len() / NODE);
        let at = match rng.below(4) {
            0 => rng.below(HEADER_BYTES),
            1 => rng.below(image.len()),
            2 => node * NODE + rng.below(NODE_HEAD),
            _ => node * NODE + rng.below(100),
        };
        if let Some(byte) = copy.get_mut(at) {
            *byte ^= 1 << rng.below(8);
        }
    }
    copy
}

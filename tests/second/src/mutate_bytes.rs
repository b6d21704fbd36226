// Damage done to the bytes of one node: its entries are taken as they stand, changed, moved
// or cut, and put back. Nothing else in the image is touched.

use crate::image::{self, Entry, Unreadable};
use crate::limits::*;
use crate::mutate::Site;
use crate::tree::Visit;

type Damaged = Option<Vec<u8>>;

/// Where each entry of a node begins, counted from the node's first byte.
fn starts(node: &[u8]) -> Vec<usize> {
    let mut starts = Vec::new();
    let all = image::entry_bytes(node);
    let mut left = all;
    while let Ok((_, after)) = image::read_entry(left) {
        starts.push(NODE_HEAD + all.len() - left.len());
        left = after;
    }
    starts
}

/// Each entry's own bytes.
fn pieces(node: &[u8]) -> Vec<Vec<u8>> {
    let starts = starts(node);
    let end = NODE_HEAD + image::entry_bytes(node).len();
    let ends = starts.iter().skip(1).copied().chain([end]);
    let spans = starts.iter().zip(ends);
    spans.map(|(from, to)| node[*from..to].to_vec()).collect()
}

/// The image with a node's entries replaced by these.
fn with_pieces(site: &Site<'_>, visit: &Visit<'_>, pieces: &[Vec<u8>]) -> Damaged {
    let node = image::node_of(visit.level, &pieces.concat())?;
    let base = usize::from(visit.node.number) * NODE;
    let mut copy = site.image.to_vec();
    copy.get_mut(base..base + NODE)?.copy_from_slice(&node);
    Some(copy)
}

fn bytes_of<'a>(site: &Site<'a>, visit: &Visit<'_>) -> &'a [u8] {
    image::node(site.image, visit.node.number)
}

/// A random entry of the node that is wanted: where it begins in the image.
fn any_entry(
    site: &mut Site<'_>,
    visit: &Visit<'_>,
    wanted: fn(&Entry<'_>) -> bool,
) -> Option<usize> {
    let node = bytes_of(site, visit);
    let mut starts = starts(node);
    let is_wanted = |at: &usize| image::read_entry(&node[*at..]).is_ok_and(|(e, _)| wanted(&e));
    starts.retain(is_wanted);
    let at = site.rng.pick(&starts)?;
    Some(usize::from(visit.node.number) * NODE + at)
}

fn is_child(entry: &Entry<'_>) -> bool {
    matches!(entry, Entry::Child { .. })
}

fn has_suffix_length(entry: &Entry<'_>) -> bool {
    let put = matches!(entry, Entry::Message(image::RawMessage::Put { .. }));
    put || matches!(entry, Entry::Pair { .. })
}

/// A later child is made to lead to a node that is reached before it.
pub fn reached_once(site: &mut Site<'_>) -> Damaged {
    let walk = site.sound.tree.walk();
    let late = site.rng.between(1, walk.len().checked_sub(1)?);
    let early = walk[site.rng.below(late)].node.number;
    let number = walk.get(late)?.node.number;
    for visit in &walk {
        let node = bytes_of(site, visit);
        for at in starts(node) {
            let entry = image::read_entry(&node[at..]).map(|(e, _)| e);
            if matches!(entry, Ok(Entry::Child { number: found, .. }) if found == number) {
                let base = usize::from(visit.node.number) * NODE;
                return site.with_word(base + at + ENTRY_HEAD, early);
            }
        }
    }
    None
}

pub fn entry_cut(site: &mut Site<'_>) -> Damaged {
    let visit = site.any_visit(|_| true)?;
    let mut pieces = pieces(bytes_of(site, &visit));
    match site.rng.below(3) {
        0 => pieces.push(vec![0; site.rng.between(1, ENTRY_HEAD - 1)]),
        1 => drop(pieces.last_mut()?.pop()),
        _ => {
            let last = pieces.last_mut()?;
            let longer = image::word(last, 0).checked_add(1 + site.any_word() % 50)?;
            last[..2].copy_from_slice(&longer.to_le_bytes());
        }
    }
    with_pieces(site, &visit, &pieces)
}

pub fn entry_kind(site: &mut Site<'_>) -> Damaged {
    let visit = site.any_visit(|_| true)?;
    let at = any_entry(site, &visit, |_| true)?;
    let kind = site.any_word();
    let probe = [&[0, 0], &kind.to_le_bytes()[..]].concat();
    let unknown = image::read_entry(&probe) == Err(Unreadable::Kind);
    unknown.then(|| site.with_word(at + 2, kind))?
}

pub fn suffix_length(site: &mut Site<'_>) -> Damaged {
    let visit = site.any_visit(|_| true)?;
    let at = any_entry(site, &visit, has_suffix_length)?;
    let most = image::word(site.image, at).checked_sub(2)?;
    let length = most.checked_add(1 + site.any_word() % 100)?;
    site.with_word(at + ENTRY_HEAD, length)
}

pub fn leaf_only_pairs(site: &mut Site<'_>) -> Damaged {
    let visit = site.any_visit(|v| !v.node.is_interior())?;
    let at = any_entry(site, &visit, |_| true)?;
    let kinds = [KIND_CHILD, KIND_PUT, KIND_DROP, KIND_CLEAR];
    let kind = *site.rng.pick(&kinds)?;
    site.with_word(at + 2, kind)
}

pub fn interior_no_pairs(site: &mut Site<'_>) -> Damaged {
    let visit = site.any_visit(|v| v.node.is_interior())?;
    let at = any_entry(site, &visit, has_suffix_length)?;
    site.with_word(at + 2, KIND_PAIR)
}

pub fn child_number(site: &mut Site<'_>) -> Damaged {
    let visit = site.any_visit(|v| v.node.is_interior())?;
    let at = any_entry(site, &visit, is_child)?;
    let number = match site.rng.below(3) {
        0 => 0,
        1 => site.sound.n as u16,
        _ => site.any_word(),
    };
    site.with_word(at + ENTRY_HEAD, number)
}

/// A message is moved to a place before a child.
pub fn children_first(site: &mut Site<'_>) -> Damaged {
    let visit = site.any_visit(|v| !v.node.messages().is_empty())?;
    let mut pieces = pieces(bytes_of(site, &visit));
    let children = visit.node.children().len();
    let from = site.rng.between(children, pieces.len() - 1);
    let message = pieces.remove(from);
    pieces.insert(site.rng.below(children), message);
    with_pieces(site, &visit, &pieces)
}

/// Two neighbouring pairs change places.
pub fn pair_order(site: &mut Site<'_>) -> Damaged {
    let visit = site.any_visit(|v| v.node.pairs().len() > 1)?;
    let mut pieces = pieces(bytes_of(site, &visit));
    let at = site.rng.below(pieces.len() - 1);
    pieces.swap(at, at + 1);
    with_pieces(site, &visit, &pieces)
}

/// A child gets the pivot of the one before it, or one changes places with it.
pub fn pivot_order(site: &mut Site<'_>) -> Damaged {
    let visit = site.any_visit(|v| v.node.children().len() > 1)?;
    let mut pieces = pieces(bytes_of(site, &visit));
    let children = visit.node.children().len();
    let at = site.rng.between(1, children - 1);
    if at + 1 < children && site.rng.chance(1, 2) {
        pieces.swap(at, at + 1);
    } else {
        let number = visit.node.children()[at].number;
        let suffix = pieces[at - 1][ENTRY_HEAD + 2..].to_vec();
        pieces[at] = child_piece(number, &suffix);
    }
    with_pieces(site, &visit, &pieces)
}

/// The last child gets the node's own high pivot, or one after it.
pub fn pivot_owned(site: &mut Site<'_>) -> Damaged {
    let visit = site.any_visit(|v| v.node.children().len() > 1)?;
    let mut pieces = pieces(bytes_of(site, &visit));
    let last = visit.node.children().len() - 1;
    let more = site.rng.below(2);
    let tail = site.rng.bytes(more);
    let high = visit.high.strip_prefix(visit.lifted())?;
    let suffix = [high, &tail].concat();
    pieces[last] = child_piece(visit.node.children()[last].number, &suffix);
    with_pieces(site, &visit, &pieces)
}

fn child_piece(number: u16, suffix: &[u8]) -> Vec<u8> {
    let mut piece = Vec::new();
    image::write_entry(&Entry::Child { number, suffix }, &mut piece);
    piece
}

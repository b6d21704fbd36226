// Upkeep that only seems to be done: the root with another level. Each tree keeps the map, and the
// letter of a rule that looks at one level or at one node alone. And the wrong ways with the empty
// path: a call that takes it and must not, refuses it and must not, or does not mean every path.

use crate::fault::Fault;
use crate::limits::{LEVELS_MOST, ROOT_LOW};
use crate::plain::{Call, NO_APART, NO_PATH, NO_PRESENT};
use crate::sound::Sound;
use crate::tree::{Body, Node, Table, Tree};

/// A new node between the root and its children. The root keeps its number and its messages and
/// rises a level: flushed, no node of its old level holds one; healed, it has no neighbours left.
pub fn level_between(sound: &Sound) -> Option<Tree> {
    let (mut tree, new) = room_for_level(sound)?;
    let Body::Interior { children, .. } = &mut tree.root.body else {
        return None;
    };
    let mut between = Node::interior(ROOT_LOW, std::mem::take(children), Vec::new());
    between.number = new;
    children.push(between);
    tree.levels += 1;
    Some(tree)
}

/// A new root that takes the old one's messages: none is left in the old one's level.
pub fn messages_lifted(sound: &Sound) -> Option<Tree> {
    let (mut tree, new) = room_for_level(sound)?;
    let waiting = tree.root.take_messages();
    let mut root = Node::interior(ROOT_LOW, vec![tree.root], waiting);
    root.number = new;
    let levels = tree.levels + 1;
    Some(Tree { levels, root })
}

/// The tree and a free number, if it may grow.
fn room_for_level(sound: &Sound) -> Option<(Tree, u16)> {
    let free = (1..sound.n as u16).find(|i| sound.used.binary_search(i).is_err())?;
    (sound.levels() < LEVELS_MOST).then(|| (sound.tree.clone(), free))
}

/// The table that a store with this fault leaves where a call names the empty path, or the number
/// that it refuses it by; none where it is right.
pub fn with_empty_path(fault: Fault, call: &Call, table: &Table) -> Option<Result<Table, u32>> {
    if !call.names_empty_path() {
        return None;
    }
    let mut left = table.clone();
    match (fault, call) {
        (Fault::PutTakesEmptyPath, Call::Put { path, value, .. }) => {
            left.insert(path.clone(), value.clone());
        }
        (Fault::DropTakesEmptyPath, Call::Drop { .. }) => {}
        // Every path is below the empty one, so that the next question is a no.
        (Fault::MoveTakesEmptyPath, Call::Move { from, to, .. }) if from != to => {
            return Some(Err(NO_APART));
        }
        (Fault::MoveTakesEmptyPath, Call::Move { .. }) => {}
        (Fault::ClearRefusesEmptyPath, Call::Clear { .. }) => return Some(Err(NO_PATH)),
        (Fault::ClearOfAllDropsOne, Call::Clear { .. }) => drop(left.pop_first()),
        (Fault::ClearOfAllDropsNone, Call::Clear { .. }) => {}
        _ => return None,
    }
    Some(Ok(left))
}

/// The number that a store with this fault refuses a read of the empty path by, and should not.
pub fn no_read(fault: Fault, call: &Call) -> Option<u32> {
    if !call.names_empty_path() {
        return None;
    }
    match (fault, call) {
        (Fault::GetTakesEmptyPath, Call::Get { .. }) => Some(NO_PRESENT),
        (Fault::NextRefusesEmptyPath, Call::Next { .. }) => Some(NO_PATH),
        (Fault::NextOfAllFindsNone, Call::Next { .. }) => Some(NO_PRESENT),
        (Fault::NextOfAllFindsFirstAlone, Call::Next { after, .. }) => {
            (!after.is_empty()).then_some(NO_PRESENT)
        }
        _ => None,
    }
}

// The wrong ways with the limit of a value: a byte off, or still the one that it was before values became longer; in what a put takes, in
// the buffer that a get asks for, in what is sound, and in what the calls keep of a value that they carry.

use crate::fault::Fault;
use crate::limits::*;
use crate::plain::{Call, Plain};
use crate::sound::{judge_waiving, Rule, Sound};
use crate::tree::{Body, Message, Node, Table};

/// The answer of a put to a store with this fault, and its step; none where it is right. The other questions are asked in their turn,
/// with a stand-in for the value that is refused or taken.
pub fn put(fault: Fault, call: &Call, plain: &mut Plain) -> Option<u32> {
    let Call::Put { path, value, work } = call else {
        return None;
    };
    let kept = kept(fault, value)?;
    let stand_in = match kept {
        Ok(_) => Vec::new(),
        Err(Refused) => vec![0; VALUE_LIMIT + 1],
    };
    let (path, work) = (path.clone(), *work);
    let asked = Call::Put {
        path: path.clone(),
        value: stand_in,
        work,
    };
    let number = plain.step(&asked)?.answer.number;
    if let (0, Ok(kept)) = (number, kept) {
        plain.table.insert(path, kept.to_vec());
    }
    Some(number)
}

struct Refused;

/// What a store with this fault keeps of a value; none where it is right.
fn kept(fault: Fault, value: &[u8]) -> Option<Result<&[u8], Refused>> {
    let length = value.len();
    match fault {
        Fault::PutTakesLonger if length == VALUE_LIMIT + 1 => Some(Ok(value)),
        Fault::PutRefusesLongest if length == VALUE_LIMIT => Some(Err(Refused)),
        Fault::PutHasOldLimit if length > OLD_VALUE_LIMIT => Some(Err(Refused)),
        Fault::PutCutsValue if length <= VALUE_LIMIT => {
            Some(Ok(&value[..length.min(OLD_VALUE_LIMIT)]))
        }
        _ => None,
    }
}

/// The shortest buffer that a get of a store with this fault takes.
pub fn least_buffer(fault: Option<Fault>) -> usize {
    match fault {
        Some(Fault::GetTakesShorter) => GET_BUFFER - 1,
        Some(Fault::GetRefusesJustEnough) => GET_BUFFER + 1,
        Some(Fault::GetHasOldBuffer) => OLD_VALUE_LIMIT,
        _ => GET_BUFFER,
    }
}

/// The longest value of a pair, and of a waiting put, that is sound to a store with this fault.
fn longest_sound(fault: Option<Fault>) -> (usize, usize) {
    match fault {
        Some(Fault::PairMayBeLonger) => (VALUE_LIMIT + 1, VALUE_LIMIT),
        Some(Fault::WaitingMayBeLonger) => (VALUE_LIMIT, VALUE_LIMIT + 1),
        Some(Fault::PairMayNotBeLongest) => (VALUE_LIMIT - 1, VALUE_LIMIT),
        Some(Fault::WaitingMayNotBeLongest) => (VALUE_LIMIT, VALUE_LIMIT - 1),
        Some(Fault::PairHasOldLimit) => (OLD_VALUE_LIMIT, VALUE_LIMIT),
        Some(Fault::WaitingHasOldLimit) => (VALUE_LIMIT, OLD_VALUE_LIMIT),
        _ => (VALUE_LIMIT, VALUE_LIMIT),
    }
}

/// Is the image sound to a store with this fault?
pub fn judged(fault: Option<Fault>, image: &[u8]) -> Result<Sound, Rule> {
    let (of_pair, of_put) = longest_sound(fault);
    judged_by(of_pair, of_put, image)
}

/// Is the image sound with these limits of a pair's value and of a waiting put's? At most one may be over the right one.
pub fn judged_by(of_pair: usize, of_put: usize, image: &[u8]) -> Result<Sound, Rule> {
    let waived = match (of_pair > VALUE_LIMIT, of_put > VALUE_LIMIT) {
        (true, _) => Some(Rule::PairValue),
        (_, true) => Some(Rule::PutValue),
        _ => None,
    };
    let sound = judge_waiving(image, waived)?;
    let walk = sound.tree.walk();
    let mut pairs = walk.iter().flat_map(|visit| visit.node.pairs());
    if pairs.any(|pair| pair.value.len() > of_pair) {
        return Err(Rule::PairValue);
    }
    let mut messages = walk.iter().flat_map(|visit| visit.node.messages());
    let over = |m: &Message| matches!(m, Message::Put { value, .. } if value.len() > of_put);
    match messages.any(over) {
        true => Err(Rule::PutValue),
        false => Ok(sound),
    }
}

/// Does a store with this fault keep only the front of the values that such a call carries?
pub fn cuts(fault: Fault, call: &Call) -> bool {
    matches!(
        (fault, call),
        (Fault::MoveCutsValues, Call::Move { .. })
            | (Fault::FlushCutsValues, Call::Flush { .. })
            | (Fault::HealCutsValues, Call::Heal { .. })
            | (Fault::SettleCutsValues, Call::Settle { .. })
            | (Fault::TidyCutsValues, Call::Tidy { .. })
    )
}

/// Every value with as many bytes as it could have before.
pub fn cut_table(table: &mut Table) {
    let cut = |value: &mut Vec<u8>| value.truncate(OLD_VALUE_LIMIT);
    table.values_mut().for_each(cut);
}

/// The same in the leaves of a tree; what waits stays as it is.
pub fn cut_pairs(root: &mut Node) {
    root.for_each_mut(&mut |node| {
        if let Body::Leaf(pairs) = &mut node.body {
            let values = pairs.iter_mut().map(|pair| &mut pair.value);
            values.for_each(|value| value.truncate(OLD_VALUE_LIMIT));
        }
    });
}

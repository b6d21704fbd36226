// The contract of one call, judged from outside: the image before, the call, its answer, and
// what it left in buffer, work area and store. Whatever is wrong is told in words.

use crate::corner::Corner;
use crate::image;
use crate::limits::{LEVELS_MOST, NODE, WORK_PER_NODE};
use crate::plain::{self, Answer, Call, Outcome, Plain};
use crate::sound::{self, Sound};
use crate::subject::Capabilities;
use crate::upkeep;

/// One call as it was seen.
#[derive(Clone, Copy, Debug)]
pub struct Seen<'a> {
    pub store_before: &'a [u8],
    pub call: &'a Call,
    pub work_before: &'a [u8],
    /// What check answered of the store before the call and after it.
    pub checked_before: Answer,
    pub checked_after: Answer,
    pub answer: Answer,
    pub buffer_after: &'a [u8],
    pub work_after: &'a [u8],
    pub store_after: &'a [u8],
}

/// Which promises the subject is held to beyond those of every call.
#[derive(Clone, Copy, Debug)]
pub struct Held {
    /// The bound on the nodes that a move changes.
    pub move_bound: bool,
    /// The bound on the messages that a put, drop or clear leaves in the root.
    pub waiting_bound: bool,
}

impl Held {
    pub fn by(capabilities: Capabilities) -> Held {
        Held {
            move_bound: capabilities.move_bound,
            waiting_bound: capabilities.waiting_bound,
        }
    }
}

/// The most messages that wait in the root after a put, drop or clear, or after a batch whose last change is one of them. The
/// paper does not ask for it: each costs the next call time.
pub const WAITING_MOST: usize = 8;

pub type Verdict = Result<(), String>;

/// What an accepted call was seen to do to the nodes of its store, for counts of what was tried.
#[derive(Clone, Copy, Debug)]
pub struct Facts {
    /// The corner of the image before it.
    pub corner: Corner,
    /// The most nodes that a move on that image may change, and those that this call changed.
    pub bound: Option<usize>,
    pub changed: usize,
    /// The nodes in use.
    pub used_before: usize,
    pub used_after: usize,
    /// Did messages wait in the node that was flushed or healed?
    pub waited: bool,
}

/// Judges one call on one store.
pub fn check(seen: &Seen<'_>, held: Held) -> Verdict {
    examine(seen, held).map(|_| ())
}

/// The same, with facts of an accepted call that may write nodes.
pub fn examine(seen: &Seen<'_>, held: Held) -> Result<Option<Facts>, String> {
    let judged = image_judged(seen.store_before);
    let checked = check_answer(&judged);
    equal("answer of check", &seen.checked_before, &checked)?;
    let asked = ask_of_bytes(seen, judged);
    let expected = match &asked {
        Err(number) => Outcome {
            answer: Answer::refused(*number),
            buffer: seen.call.buffer().to_vec(),
        },
        Ok(before) => outcome_on(before, seen.call),
    };
    equal("answer", &seen.answer, &expected.answer)?;
    same_bytes("buffer", seen.buffer_after, &expected.buffer)?;
    let n = seen.store_before.len() / NODE;
    let work = plain::work_after(n, expected.answer, seen.work_before);
    same_bytes("work area", seen.work_after, &work)?;
    match asked {
        Ok(before) if expected.answer.accepted() => accepted(seen, &before, held),
        _ => unchanged("store of a refused call", seen),
    }
}

/// Not a byte of the store changed, and check answers as before.
fn unchanged(what: &str, seen: &Seen<'_>) -> Result<Option<Facts>, String> {
    same_bytes(what, seen.store_after, seen.store_before)?;
    let (found, before) = (&seen.checked_after, &seen.checked_before);
    equal("answer of check after the call", found, before).map(|_| None)
}

/// Questions 1 and 2, of a store alone.
pub fn image_judged(store: &[u8]) -> Result<Sound, u32> {
    image::nodes_of(store.len()).ok_or(plain::NO_LENGTHS)?;
    sound::judge(store).map_err(|_| plain::NO_SOUND)
}

/// The answer that check must give of a store that was judged so.
pub fn check_answer(judged: &Result<Sound, u32>) -> Answer {
    match judged {
        Ok(sound) => live_answer(sound),
        Err(number) => Answer::refused(*number),
    }
}

fn live_answer(sound: &Sound) -> Answer {
    Answer {
        number: 0,
        beside: sound.table.len() as u32,
    }
}

/// Questions 1 and 2, of the store and the work area.
fn ask_of_bytes(seen: &Seen<'_>, judged: Result<Sound, u32>) -> Result<Sound, u32> {
    let area = WORK_PER_NODE * (seen.store_before.len() / NODE);
    match seen.call.work() {
        Some(_) if seen.work_before.len() < area => Err(plain::NO_LENGTHS),
        _ => judged,
    }
}

/// The answer and the buffer that a call must give on a sound image.
pub fn outcome_on(before: &Sound, call: &Call) -> Outcome {
    let mut plain = Plain {
        n: before.n,
        table: before.table.clone(),
    };
    plain.step(call).unwrap_or_else(|| Outcome {
        answer: node_answer(before, call),
        buffer: Vec::new(),
    })
}

/// Question 6: is the number that of a reachable interior node?
fn node_answer(before: &Sound, call: &Call) -> Answer {
    let (Call::Flush { node, .. } | Call::Heal { node, .. }) = call else {
        return Answer::DONE;
    };
    match before.tree.find(*node) {
        Some(visit) if visit.node.is_interior() => Answer::DONE,
        _ => Answer::refused(plain::NO_NODE),
    }
}

fn accepted(seen: &Seen<'_>, before: &Sound, held: Held) -> Result<Option<Facts>, String> {
    let stays = match seen.call {
        Call::Move { from, to, .. } => from == to,
        call => call.only_reads(),
    };
    if stays {
        return unchanged("store", seen);
    }
    let after = sound::judge(seen.store_after)
        .map_err(|rule| format!("the store is unsound after the call: {}", rule.name()))?;
    let checked = live_answer(&after);
    equal(
        "answer of check after the call",
        &seen.checked_after,
        &checked,
    )?;
    map_follows(seen.call, before, &after)?;
    let facts = Facts {
        corner: Corner::of(before),
        bound: move_bound_of(before),
        changed: changed_nodes(seen.store_before, seen.store_after),
        used_before: before.used.len(),
        used_after: after.used.len(),
        waited: messages_wait(before, seen.call),
    };
    layout_follows(seen.call, before, &after)?;
    match seen.call {
        Call::Move { .. } if held.move_bound => move_bound(&facts)?,
        call if held.waiting_bound && call.adds_message() => waiting_bound(&after)?,
        _ => {}
    }
    Ok(Some(facts))
}

/// Do messages wait in the node that the call names?
fn messages_wait(before: &Sound, call: &Call) -> bool {
    let (Call::Flush { node, .. } | Call::Heal { node, .. }) = call else {
        return false;
    };
    let named = before.tree.find(*node);
    named.is_some_and(|visit| !visit.node.messages().is_empty())
}

/// The table after the call is the one that the plain map's step leaves.
fn map_follows(call: &Call, before: &Sound, after: &Sound) -> Verdict {
    let mut plain = Plain {
        n: before.n,
        table: before.table.clone(),
    };
    plain.step(call);
    if plain.table == after.table {
        return Ok(());
    }
    let (found, expected) = (after.table.len(), plain.table.len());
    Err(format!(
        "the map after the call is not the rule's: it has {found} rows, the rule's {expected}"
    ))
}

/// What a call promises of the nodes themselves.
fn layout_follows(call: &Call, before: &Sound, after: &Sound) -> Verdict {
    match call {
        Call::Settle { .. } => upkeep::settled(after),
        Call::Tidy { .. } => upkeep::tidied(after),
        Call::Flush { node, .. } => upkeep::flushed(*node, before, after),
        Call::Heal { node, .. } => upkeep::healed(*node, before, after),
        _ => Ok(()),
    }
}

/// How many nodes must be free in a store of these levels for a move to be held to the bound.
pub fn bound_free(levels: u16) -> usize {
    12 * usize::from(levels) + 8
}

/// How many nodes a move may change that is held to the bound.
pub fn bound_changed(levels: u16) -> usize {
    16 * usize::from(levels) + 8
}

/// How many nodes a move on this store may change, if it is held to any number: the store is
/// settled, with enough levels and free nodes left.
pub fn move_bound_of(before: &Sound) -> Option<usize> {
    let levels = before.levels();
    let held = before.settled() && levels < LEVELS_MOST && before.free() >= bound_free(levels);
    held.then_some(bound_changed(levels))
}

fn move_bound(facts: &Facts) -> Verdict {
    let changed = facts.changed;
    match facts.bound {
        Some(most) if changed > most => {
            Err(format!("the move changed {changed} nodes, over {most}"))
        }
        _ => Ok(()),
    }
}

/// Few enough messages wait in the root.
pub fn waiting_bound(after: &Sound) -> Verdict {
    let waiting = after.tree.root_visit().node.messages().len();
    if waiting <= WAITING_MOST {
        return Ok(());
    }
    Err(format!(
        "{waiting} messages wait in the root, over {WAITING_MOST}"
    ))
}

/// How many nodes, node 0 too, have any byte that differs.
pub fn changed_nodes(before: &[u8], after: &[u8]) -> usize {
    let pairs = before.chunks(NODE).zip(after.chunks(NODE));
    pairs.filter(|(a, b)| a != b).count()
}

/// Judges make.
pub fn check_make(before: &[u8], answer: Answer, after: &[u8]) -> Verdict {
    let expected = plain::make(before.len());
    equal("answer of make", &answer, &expected)?;
    if !expected.accepted() {
        return same_bytes("store of a refused make", after, before);
    }
    let made = sound::judge(after)
        .map_err(|rule| format!("the made store is unsound: {}", rule.name()))?;
    if made.table.is_empty() {
        Ok(())
    } else {
        Err("the made store is not empty".into())
    }
}

/// The answer that same must give.
pub fn same_answer(a: &[u8], b: &[u8]) -> Answer {
    if image::nodes_of(a.len()).is_none() || image::nodes_of(b.len()).is_none() {
        return Answer::refused(plain::NO_LENGTHS);
    }
    match (sound::judge(a), sound::judge(b)) {
        (Ok(a), Ok(b)) => Answer {
            number: 0,
            beside: plain::same(&a.table, &b.table).into(),
        },
        _ => Answer::refused(plain::NO_SOUND),
    }
}

/// Judges same: each store as it was before and as it is after.
pub fn check_same(a: (&[u8], &[u8]), b: (&[u8], &[u8]), answer: Answer) -> Verdict {
    equal("answer of same", &answer, &same_answer(a.0, b.0))?;
    same_bytes("first store of same", a.1, a.0)?;
    same_bytes("second store of same", b.1, b.0)
}

fn equal<T: PartialEq + std::fmt::Debug>(what: &str, found: &T, expected: &T) -> Verdict {
    if found == expected {
        return Ok(());
    }
    Err(format!("{what}: {found:?}, expected {expected:?}"))
}

fn same_bytes(what: &str, found: &[u8], expected: &[u8]) -> Verdict {
    if found.len() != expected.len() {
        return Err(format!("{what}: its length changed"));
    }
    let differ = found.iter().zip(expected).position(|(a, b)| a != b);
    match differ {
        None => Ok(()),
        Some(at) => Err(format!(
            "{what}: byte {at} is {}, expected {}",
            found[at], expected[at]
        )),
    }
}

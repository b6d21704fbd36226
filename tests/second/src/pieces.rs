// Calls as bytes, as docs/FORMAT.md has a batch: how a call is written as a piece, which bytes read as one, and how many bytes its
// answer may take. Relies on nothing of a store.

use crate::limits::*;
use crate::plain::Call;
use crate::rng::Rng;

/// The kinds of the pieces that no message has.
const KIND_MOVE: u16 = 0x0024;
const KIND_GET: u16 = 0x0030;
const KIND_NEXT: u16 = 0x0031;
const KIND_SETTLE: u16 = 0x0040;
const KIND_TIDY: u16 = 0x0041;
const KIND_FLUSH: u16 = 0x0042;
const KIND_HEAL: u16 = 0x0043;

/// No piece has it: it is kept for a message to come.
const KIND_TO_COME: u16 = 0x0023;

/// All kinds that read.
pub const KINDS: [u16; 10] = [
    KIND_PUT,
    KIND_DROP,
    KIND_CLEAR,
    KIND_MOVE,
    KIND_GET,
    KIND_NEXT,
    KIND_SETTLE,
    KIND_TIDY,
    KIND_FLUSH,
    KIND_HEAL,
];

/// The bytes of a piece before its rest: length, kind.
const PIECE_HEAD: usize = 4;
/// The bytes of an answer before what was found: length, number.
pub const ANSWER_HEAD: usize = 4;

/// The most bytes that the answer of a call may take.
pub fn most(call: &Call) -> usize {
    match call {
        Call::Get { .. } => ANSWER_HEAD + VALUE_LIMIT,
        Call::Next { .. } => ANSWER_HEAD + PATH_LIMIT,
        _ => ANSWER_HEAD,
    }
}

/// A call as a piece of a batch; one that two bytes of length or of a node number do not hold is none.
pub fn piece(call: &Call) -> Option<Vec<u8>> {
    let (kind, rest) = match call {
        Call::Put { path, value, .. } => (KIND_PUT, two(path, value)?),
        Call::Drop { path, .. } => (KIND_DROP, path.clone()),
        Call::Clear { path, .. } => (KIND_CLEAR, path.clone()),
        Call::Move { from, to, .. } => (KIND_MOVE, two(from, to)?),
        Call::Get { path, .. } => (KIND_GET, path.clone()),
        Call::Next { path, after, .. } => (KIND_NEXT, two(path, after)?),
        Call::Settle { .. } => (KIND_SETTLE, Vec::new()),
        Call::Tidy { .. } => (KIND_TIDY, Vec::new()),
        Call::Flush { node, .. } => (KIND_FLUSH, u16::try_from(*node).ok()?.to_le_bytes().into()),
        Call::Heal { node, .. } => (KIND_HEAL, u16::try_from(*node).ok()?.to_le_bytes().into()),
    };
    let whole = u16::try_from(rest.len()).is_ok();
    whole.then(|| laid(kind, &rest))
}

/// A piece of any kind.
pub fn laid(kind: u16, rest: &[u8]) -> Vec<u8> {
    let length = (rest.len() as u16).to_le_bytes();
    [&length[..], &kind.to_le_bytes(), rest].concat()
}

/// The rest of a piece that holds two strings.
pub fn two(first: &[u8], second: &[u8]) -> Option<Vec<u8>> {
    let length = u16::try_from(first.len()).ok()?.to_le_bytes();
    Some([&length[..], first, second].concat())
}

/// The calls of a batch: those in front of the first bytes that do not read. And these bytes.
pub fn read(bytes: &[u8]) -> (Vec<Call>, &[u8]) {
    let mut calls = Vec::new();
    let mut left = bytes;
    while let Some((call, later)) = first(left) {
        calls.push(call);
        left = later;
    }
    (calls, left)
}

fn first(bytes: &[u8]) -> Option<(Call, &[u8])> {
    let (length, kind) = (word(bytes, 0)?, word(bytes, 2)?);
    let (rest, later) = bytes[PIECE_HEAD..].split_at_checked(length.into())?;
    Some((call_of(kind, rest)?, later))
}

/// A call as it stands in a piece: no work area and no buffer are lent to it there.
fn call_of(kind: u16, rest: &[u8]) -> Option<Call> {
    let (work, buffer, path) = (0, Vec::new(), rest.to_vec());
    Some(match kind {
        KIND_PUT => {
            let (path, value) = parted(rest)?;
            Call::Put { path, value, work }
        }
        KIND_MOVE => {
            let (from, to) = parted(rest)?;
            Call::Move { from, to, work }
        }
        KIND_NEXT => {
            let (path, after) = parted(rest)?;
            Call::Next {
                path,
                after,
                buffer,
            }
        }
        KIND_DROP => Call::Drop { path, work },
        KIND_CLEAR => Call::Clear { path, work },
        KIND_GET => Call::Get { path, buffer },
        KIND_SETTLE if rest.is_empty() => Call::Settle { work },
        KIND_TIDY if rest.is_empty() => Call::Tidy { work },
        KIND_FLUSH => {
            let node = node(rest)?;
            Call::Flush { node, work }
        }
        KIND_HEAL => {
            let node = node(rest)?;
            Call::Heal { node, work }
        }
        _ => return None,
    })
}

fn parted(rest: &[u8]) -> Option<(Vec<u8>, Vec<u8>)> {
    let length = word(rest, 0)?;
    let (first, second) = rest[2..].split_at_checked(length.into())?;
    Some((first.to_vec(), second.to_vec()))
}

fn node(rest: &[u8]) -> Option<u64> {
    let bytes = rest.try_into().ok()?;
    Some(u16::from_le_bytes(bytes).into())
}

fn word(bytes: &[u8], at: usize) -> Option<u16> {
    let two = bytes.get(at..at + 2)?;
    Some(u16::from_le_bytes([two[0], two[1]]))
}

/// Bytes that are no piece, whatever stands behind them: the batch ends in front of them.
pub fn no_piece(rng: &mut Rng) -> Vec<u8> {
    match rng.below(8) {
        0 => rng.bytes(3),
        1..=3 => no_kind(rng),
        4 => laid(KIND_SETTLE, &[0]),
        5 => laid(KIND_FLUSH, &[1]),
        6 => laid(KIND_MOVE, &[4, 0, b'r', b'1', 0]),
        _ => laid(KIND_PUT, &[0]),
    }
}

/// A whole piece but for its kind, which no call has: most often one beside those that read, a message's or an entry's.
fn no_kind(rng: &mut Rng) -> Vec<u8> {
    const NEAR: [u16; 9] = [
        0x0001, 0x0010, 0x001F, 0x0025, 0x0032, 0x003F, 0x0044, 0x2000, 0x2400,
    ];
    let kind = match rng.below(4) {
        0 => KIND_TO_COME,
        1 | 2 => *rng.pick(&NEAR).unwrap_or(&KIND_TO_COME),
        _ => rng.word() as u16,
    };
    let kind = if KINDS.contains(&kind) {
        KIND_TO_COME
    } else {
        kind
    };
    let rest = match rng.below(4) {
        0 => Vec::new(),
        1 => vec![1, 0],
        2 => b"r1\0".to_vec(),
        _ => two(b"r1\0", b"r2\0").unwrap_or_default(),
    };
    laid(kind, &rest)
}

#[cfg(test)]
mod tests {
    use super::*;
    use crate::calls::{self, Known};
    use crate::generate;

    /// The call without what a batch lends it.
    fn bare(call: &Call) -> Call {
        let mut call = call.clone();
        match &mut call {
            Call::Get { buffer, .. } | Call::Next { buffer, .. } => buffer.clear(),
            Call::Put { work, .. }
            | Call::Drop { work, .. }
            | Call::Clear { work, .. }
            | Call::Move { work, .. }
            | Call::Settle { work }
            | Call::Tidy { work }
            | Call::Flush { work, .. }
            | Call::Heal { work, .. } => *work = 0,
        }
        call
    }

    #[test]
    fn what_is_written_reads_back() {
        let known = Known::of(&generate::random(3));
        let mut rng = Rng::new(4);
        for _ in 0..500 {
            let written: Vec<Call> = (0..5).map(|_| calls::random(&mut rng, &known)).collect();
            let whole = written.iter().filter(|call| piece(call).is_some());
            let whole: Vec<Call> = whole.map(bare).collect();
            let mut bytes: Vec<u8> = whole.iter().flat_map(|c| piece(c).unwrap()).collect();
            let behind = no_piece(&mut rng);
            bytes.extend(&behind);
            assert_eq!(read(&bytes), (whole, &behind[..]));
        }
    }

    #[test]
    fn the_lengths_of_format() {
        let reads = |kind: u16, rest: &[u8]| read(&laid(kind, rest)).0.len() == 1;
        for kind in KINDS {
            let lengths: Vec<usize> = (0..4).filter(|i| reads(kind, &vec![0; *i])).collect();
            let expected: &[usize] = match kind {
                KIND_PUT | KIND_MOVE | KIND_NEXT => &[2, 3],
                KIND_SETTLE | KIND_TIDY => &[0],
                KIND_FLUSH | KIND_HEAL => &[2],
                _ => &[0, 1, 2, 3],
            };
            assert_eq!(lengths, expected, "{kind:04x}");
        }
        let mut cut = laid(KIND_DROP, b"r1\0");
        cut.pop();
        assert_eq!(read(&cut), (Vec::new(), &cut[..]));
        assert!(!reads(KIND_PUT, &[2, 0, b'a']) && reads(KIND_PUT, &[1, 0, b'a']));
    }

    #[test]
    fn other_kinds_do_not_read() {
        for kind in (0..=u16::MAX).filter(|kind| !KINDS.contains(kind)) {
            let rests = [&[][..], &[1, 0], b"r1\0", &[2, 0, b'a', 0, b'b', 0]];
            assert!(rests
                .iter()
                .all(|rest| read(&laid(kind, rest)).0.is_empty()));
        }
        assert!(!KINDS.contains(&KIND_TO_COME) && KIND_MOVE == 0x0024);
    }
}

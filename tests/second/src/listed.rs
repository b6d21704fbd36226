// Batches of the reference store, right or wrong, so that the judge of batches can be seen to find what is wrong. Relies on `pieces`
// for the reading of calls.

use crate::batch::{answer_bytes, lent, Batching, Done};
use crate::contract::image_judged;
use crate::limits::*;
use crate::pieces::{laid, most, read, ANSWER_HEAD};
use crate::plain::{Call, NO_LENGTHS, NO_PATH};
use crate::reference::Reference;
use crate::subject::perform;

/// A way for a batch to be wrong.
#[derive(Clone, Copy, Debug, PartialEq, Eq)]
pub enum BatchFault {
    /// It makes a call whose answer fits by its own length.
    StopsByOwnLength,
    /// It takes the most of each answer made from the room, and not its own length.
    RoomFallsByMost,
    /// It needs the room of a next for every call.
    NeedsMostForAll,
    /// It makes a get where there is room for the longest value of the time before values became longer.
    NeedsOldMostForGet,
    /// It makes one call the less where the answers just fit.
    LeavesOneByte,
    /// It stops at the first refusal.
    StopsAtRefusal,
    /// It reads the kind 0023 as a move.
    ReadsPatchAsMove,
    /// It passes over a piece that does not read.
    PassesOverNoPiece,
    /// It writes behind the answers.
    WritesBehindAnswers,
    /// It leaves the work area as it was.
    WorkLeftDirty,
    /// It counts the calls that were accepted.
    CountsAcceptedAlone,
    /// It ends in front of a clear of the empty path, a piece without a rest.
    EndsAtEmptyClear,
    /// It refuses the empty path whatever the call.
    RefusesEmptyPath,
}

impl BatchFault {
    #[rustfmt::skip]
    pub const ALL: &'static [BatchFault] = &[
        BatchFault::StopsByOwnLength, BatchFault::RoomFallsByMost, BatchFault::NeedsMostForAll,
        BatchFault::NeedsOldMostForGet, BatchFault::LeavesOneByte, BatchFault::StopsAtRefusal,
        BatchFault::ReadsPatchAsMove, BatchFault::PassesOverNoPiece,
        BatchFault::WritesBehindAnswers, BatchFault::WorkLeftDirty, BatchFault::CountsAcceptedAlone,
        BatchFault::EndsAtEmptyClear, BatchFault::RefusesEmptyPath,
    ];
}

/// The kind that is kept for a message to come, and a move's, as bytes of a piece.
const PATCH: u8 = 0x23;
const MOVE: u8 = 0x24;

impl Reference {
    fn errs(&self, fault: BatchFault) -> bool {
        self.batch_fault == Some(fault)
    }

    /// The calls that it reads.
    fn list(&self, bytes: &[u8]) -> Vec<Call> {
        let (mut calls, left) = read(bytes);
        if self.errs(BatchFault::EndsAtEmptyClear) {
            return calls.into_iter().take_while(|c| !c.clears_all()).collect();
        }
        let Some((head, later)) = left.split_at_checked(4) else {
            return calls;
        };
        let length = usize::from(u16::from_le_bytes([head[0], head[1]]));
        let Some((rest, later)) = later.split_at_checked(length) else {
            return calls;
        };
        if self.errs(BatchFault::ReadsPatchAsMove) && head[2..] == [PATCH, 0] {
            calls.extend(read(&laid(MOVE.into(), rest)).0);
            calls.extend(read(later).0);
        }
        if self.errs(BatchFault::PassesOverNoPiece) {
            calls.extend(read(later).0);
        }
        calls
    }

    fn fits(&self, room: usize, call: &Call, answer: &[u8]) -> bool {
        match self.batch_fault {
            Some(BatchFault::StopsByOwnLength) => answer.len() <= room,
            Some(BatchFault::NeedsMostForAll) => ANSWER_MOST <= room,
            // An answer that does not fit even so is not written.
            Some(BatchFault::NeedsOldMostForGet) => old_most(call).max(answer.len()) <= room,
            Some(BatchFault::LeavesOneByte) => most(call) < room,
            _ => most(call) <= room,
        }
    }

    /// Makes call after call while the answers fit.
    fn make_all(&mut self, store: &mut [u8], calls: &[Call], answers: &mut [u8]) -> Done {
        let mut done = Done::refused(0);
        let mut room = answers.len();
        for call in calls {
            let mut after = store.to_vec();
            let answer = self.answer(&mut after, call);
            if !self.fits(room, call, &answer) {
                break;
            }
            store.copy_from_slice(&after);
            answers[done.written..][..answer.len()].copy_from_slice(&answer);
            let accepted = answer[2..4] == [0, 0];
            done.written += answer.len();
            done.calls += usize::from(accepted || !self.errs(BatchFault::CountsAcceptedAlone));
            room -= match self.errs(BatchFault::RoomFallsByMost) {
                true => most(call),
                false => answer.len(),
            };
            if self.errs(BatchFault::StopsAtRefusal) && !accepted {
                break;
            }
        }
        done
    }

    /// The answer of a call by itself.
    fn answer(&mut self, store: &mut [u8], call: &Call) -> Vec<u8> {
        if self.errs(BatchFault::RefusesEmptyPath) && call.names_empty_path() {
            return answer_bytes(NO_PATH, &[]);
        }
        let n = store.len() / NODE;
        let (mut work, mut buffer) = (vec![0; WORK_PER_NODE * n], [0; NEXT_BUFFER]);
        let answer = perform(self, &lent(call, n), store, &mut work, &mut buffer);
        answer_bytes(answer.number, &buffer[..answer.beside as usize])
    }
}

/// The most that any answer takes.
const ANSWER_MOST: usize = ANSWER_HEAD + PATH_LIMIT;

/// The most that an answer took before values became longer.
fn old_most(call: &Call) -> usize {
    match call {
        Call::Get { .. } => ANSWER_HEAD + OLD_VALUE_LIMIT,
        _ => most(call),
    }
}

impl Batching for Reference {
    fn batch(
        &mut self,
        store: &mut [u8],
        work: &mut [u8],
        calls: &[u8],
        answers: &mut [u8],
    ) -> Done {
        let area = WORK_PER_NODE * (store.len() / NODE);
        match image_judged(store) {
            _ if work.len() < area => return Done::refused(NO_LENGTHS),
            Err(number) => return Done::refused(number),
            Ok(_) => {}
        }
        let done = self.make_all(store, &self.list(calls), answers);
        let behind = answers.get_mut(done.written);
        if let Some(byte) = behind.filter(|_| self.errs(BatchFault::WritesBehindAnswers)) {
            *byte ^= 1;
        }
        if !self.errs(BatchFault::WorkLeftDirty) {
            work[..area].fill(0);
        }
        done
    }
}

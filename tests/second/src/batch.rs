// A batch judged from outside: which of its calls it must make, what it must answer and what it must leave, by the plain map and
// by the same calls made one by one; and whether it did. The bytes of calls and answers are those of docs/FORMAT.md.

use crate::contract::{image_judged, outcome_on, waiting_bound};
use crate::limits::*;
use crate::pieces;
use crate::plain::{Call, Plain, NO_LENGTHS};
use crate::script::checked;
use crate::sound::Sound;
use crate::subject::{perform, Subject};
use std::rc::Rc;

pub use crate::pieces::{most, piece, ANSWER_HEAD};

/// What a batch answers: a number, how many calls were done, how many bytes of answers written.
#[derive(Clone, Copy, Debug, PartialEq, Eq)]
pub struct Done {
    pub number: u32,
    pub calls: usize,
    pub written: usize,
}

impl Done {
    pub fn refused(number: u32) -> Done {
        Done {
            number,
            calls: 0,
            written: 0,
        }
    }
}

/// A store that also takes its calls as a list.
pub trait Batching: Subject {
    fn batch(
        &mut self,
        store: &mut [u8],
        work: &mut [u8],
        calls: &[u8],
        answers: &mut [u8],
    ) -> Done;
}

/// The bytes of an answer: what was found in the buffer stands behind length and number.
pub fn answer_bytes(number: u32, found: &[u8]) -> Vec<u8> {
    let head = [found.len() as u16, number as u16].map(u16::to_le_bytes);
    [&head.concat()[..], found].concat()
}

/// The bytes of the answer that a call gives by itself, on this store: it is lent a work area that
/// is long enough, and a buffer of 64 bytes.
pub fn answered(subject: &mut dyn Subject, store: &mut [u8], call: &Call) -> Vec<u8> {
    let mut work = vec![0; work_area(store)];
    let mut buffer = [0; NEXT_BUFFER];
    let answer = perform(subject, call, store, &mut work, &mut buffer);
    let found = match call {
        Call::Get { .. } | Call::Next { .. } => answer.beside as usize,
        _ => 0,
    };
    answer_bytes(answer.number, &buffer[..found])
}

/// How many bytes of a work area the calls on a store need.
fn work_area(store: &[u8]) -> usize {
    WORK_PER_NODE * (store.len() / NODE)
}

/// The call as a batch makes it: with a work area that is long enough, and a buffer of 64 bytes.
pub fn lent(call: &Call, n: usize) -> Call {
    let mut call = call.clone();
    match &mut call {
        Call::Put { work, .. }
        | Call::Drop { work, .. }
        | Call::Clear { work, .. }
        | Call::Move { work, .. }
        | Call::Settle { work }
        | Call::Tidy { work }
        | Call::Flush { work, .. }
        | Call::Heal { work, .. } => *work = WORK_PER_NODE * n,
        Call::Get { buffer, .. } | Call::Next { buffer, .. } => *buffer = vec![0; NEXT_BUFFER],
    }
    call
}

/// A batch as it is handed over.
pub struct Handed<'a> {
    pub calls: &'a [u8],
    pub work: &'a [u8],
    pub answers: &'a [u8],
}

/// A batch that went as it must.
#[derive(Clone, Copy, Debug)]
pub struct Judged {
    pub done: Done,
    /// Was it held to the bound on the messages in the root?
    pub bounded: bool,
    /// Did it stop for room, or in front of bytes that do not read?
    pub for_room: bool,
    pub at_no_piece: bool,
    /// Was a clear of everything among its calls?
    pub wiped: bool,
}

/// A batch, judged. Questions 1 and 2 are asked first, of the store as it is handed over.
pub fn check(
    subject: &mut dyn Batching,
    store: &mut Vec<u8>,
    handed: &Handed,
) -> Result<Judged, String> {
    let enough = handed.work.len() >= work_area(store);
    match image_judged(store) {
        _ if !enough => refused(subject, store, handed, NO_LENGTHS),
        Err(number) => refused(subject, store, handed, number),
        Ok(sound) => {
            let trace = Trace::of(subject, store, sound, handed.calls)?;
            let (judged, left) = trace.check(subject, handed)?;
            *store = left;
            Ok(judged)
        }
    }
}

/// A batch that must be refused changes nothing.
fn refused(
    subject: &mut dyn Batching,
    store: &mut [u8],
    handed: &Handed,
    number: u32,
) -> Result<Judged, String> {
    let before = store.to_vec();
    let (mut work, mut answers) = (handed.work.to_vec(), handed.answers.to_vec());
    let done = subject.batch(store, &mut work, handed.calls, &mut answers);
    let expected = Done::refused(number);
    if done != expected {
        return Err(format!("batch: {done:?}, expected {expected:?}"));
    }
    if *store != before || work != handed.work || answers != handed.answers {
        return Err("batch: refused, and bytes changed".into());
    }
    Ok(Judged {
        done,
        bounded: false,
        for_room: false,
        at_no_piece: false,
        wiped: false,
    })
}

/// A store after some calls of a list.
struct State {
    bytes: Vec<u8>,
    sound: Sound,
}

/// A list of calls on a sound store, made one by one by batches of one call each: every answer, by the plain map, and every state.
/// Which of the calls a batch makes follows from it, for any room for answers.
pub struct Trace {
    calls: Vec<Call>,
    unread: bool,
    /// For each call.
    answers: Vec<Vec<u8>>,
    /// The first is the store as it is handed over; then one for each call.
    states: Vec<Rc<State>>,
}

impl Trace {
    pub fn of(
        subject: &mut dyn Batching,
        store: &[u8],
        sound: Sound,
        bytes: &[u8],
    ) -> Result<Trace, String> {
        let (calls, left) = pieces::read(bytes);
        let state = State {
            bytes: store.to_vec(),
            sound,
        };
        let mut trace = Trace {
            unread: !left.is_empty(),
            answers: Vec::new(),
            states: vec![Rc::new(state)],
            calls,
        };
        for i in 0..trace.calls.len() {
            trace.step(subject, i)?;
        }
        trace.agrees(subject)?;
        Ok(trace)
    }

    fn last(&self) -> &Rc<State> {
        self.states.last().expect("there is always a first one")
    }

    fn step(&mut self, subject: &mut dyn Batching, i: usize) -> Result<(), String> {
        let before = Rc::clone(self.last());
        let call = lent(&self.calls[i], before.sound.n);
        let outcome = outcome_on(&before.sound, &call);
        let found = &outcome.buffer[..outcome.answer.beside as usize];
        self.answers
            .push(answer_bytes(outcome.answer.number, found));
        if call.only_reads() {
            self.states.push(before);
            return Ok(());
        }
        let mut bytes = before.bytes.clone();
        make_one(subject, &mut bytes, &self.calls[i], self.is_followed(i));
        let sound = image_judged(&bytes)
            .map_err(|number| format!("a batch of one left a store that is refused by {number}"))?;
        let mut plain = plain_of(&before.sound);
        plain.step(&call);
        if plain.table != sound.table {
            return Err(format!("a batch of {} left another map", call.told()));
        }
        self.states.push(Rc::new(State { bytes, sound }));
        Ok(())
    }

    /// Whether a later call of the list, made or not, changes what the root holds: only a change that none follows is held to
    /// the bound on the messages there.
    fn is_followed(&self, i: usize) -> bool {
        self.calls[i + 1..].iter().any(changes_root)
    }

    /// The calls made by themselves answer the same and leave the same map. Which nodes there are may differ, and with it the
    /// number of a flush or a heal.
    fn agrees(&self, subject: &mut dyn Batching) -> Result<(), String> {
        let mut alone = self.states[0].bytes.clone();
        for (call, expected) in self.calls.iter().zip(&self.answers) {
            let answer = answered(subject, &mut alone, call);
            let upkeep = matches!(call, Call::Flush { .. } | Call::Heal { .. });
            if answer != *expected && !upkeep {
                return Err(format!("{} by itself answers {answer:?}", call.told()));
            }
        }
        match image_judged(&alone) {
            Ok(sound) if sound.table == self.last().sound.table => Ok(()),
            _ => Err("the calls by themselves leave another map".into()),
        }
    }

    /// How many calls a batch makes with so much room for answers: call after call exactly while the room left is at least the
    /// most that the next answer can take. The room falls by each answer's own length.
    pub fn made(&self, room: usize) -> usize {
        let mut left = room;
        for (i, (call, answer)) in self.calls.iter().zip(&self.answers).enumerate() {
            if left < most(call) {
                return i;
            }
            left -= answer.len();
        }
        self.calls.len()
    }

    /// For each call the least room with which it is made, if those before it are: with one byte less the batch stops there.
    pub fn rooms(&self) -> Vec<usize> {
        let mut written = 0;
        let mut rooms = Vec::new();
        for (call, answer) in self.calls.iter().zip(&self.answers) {
            rooms.push(written + most(call));
            written += answer.len();
        }
        rooms
    }

    /// Makes the batch on the store as it is handed over, and judges all that it leaves.
    pub fn check(
        &self,
        subject: &mut dyn Batching,
        handed: &Handed,
    ) -> Result<(Judged, Vec<u8>), String> {
        let calls = self.made(handed.answers.len());
        let bytes = self.answers[..calls].concat();
        let expected = Done {
            number: 0,
            calls,
            written: bytes.len(),
        };
        let mut store = self.states[0].bytes.clone();
        let (mut work, mut answers) = (handed.work.to_vec(), handed.answers.to_vec());
        let done = subject.batch(&mut store, &mut work, handed.calls, &mut answers);
        let told = |what: &str| {
            let room = handed.answers.len();
            format!("batch of {}, room {room}: {what}", self.calls.len())
        };
        if done != expected {
            return Err(told(&format!("answers {done:?}, expected {expected:?}")));
        }
        if answers[..bytes.len()] != bytes[..] {
            return Err(told("other answers than the plain map's"));
        }
        if answers[bytes.len()..] != handed.answers[bytes.len()..] {
            return Err(told("bytes behind the answers changed"));
        }
        self.left(subject, handed, calls, (&mut store, &work))
            .map_err(|what| told(&what))?;
        let judged = Judged {
            done,
            bounded: self.is_bounded(calls),
            for_room: calls < self.calls.len(),
            at_no_piece: calls == self.calls.len() && self.unread,
            wiped: self.calls[..calls].iter().any(Call::clears_all),
        };
        Ok((judged, store))
    }

    /// Work area and store are as they must be after so many calls.
    fn left(
        &self,
        subject: &mut dyn Batching,
        handed: &Handed,
        calls: usize,
        (store, work): (&mut [u8], &[u8]),
    ) -> Result<(), String> {
        let area = work_area(store);
        if work[..area].iter().any(|byte| *byte != 0) || work[area..] != handed.work[area..] {
            return Err("the work area is not as it must be".into());
        }
        let state = &self.states[calls];
        if *store != state.bytes {
            return Err("other bytes than by batches of one call".into());
        }
        let answer = checked(subject, store)?;
        if (answer.number, answer.beside as usize) != (0, state.sound.table.len()) {
            return Err(format!("check answers {answer:?} after it"));
        }
        match self.is_bounded(calls) {
            true => waiting_bound(&state.sound),
            false => Ok(()),
        }
    }

    /// Whether a batch that makes so many calls is held to the bound on the messages in the root: its last change is a put, drop
    /// or clear that was made and accepted.
    fn is_bounded(&self, calls: usize) -> bool {
        let last = self.calls.iter().rposition(|call| !call.only_reads());
        last.is_some_and(|i| {
            let accepted = self.answers[i][2..ANSWER_HEAD] == [0, 0];
            i < calls && self.calls[i].adds_message() && accepted
        })
    }
}

fn plain_of(sound: &Sound) -> Plain {
    Plain {
        n: sound.n,
        table: sound.table.clone(),
    }
}

/// Whether a call fills or empties the root itself; a flush or a heal may do neither.
fn changes_root(call: &Call) -> bool {
    let empties = matches!(
        call,
        Call::Move { .. } | Call::Settle { .. } | Call::Tidy { .. }
    );
    empties || call.adds_message()
}

/// A batch of one call. Where a change follows it in its list, a refused one follows it here: no path of a drop is empty.
fn make_one(subject: &mut dyn Batching, store: &mut [u8], call: &Call, followed: bool) {
    let mut work = vec![0; work_area(store)];
    let mut bytes = piece(call).unwrap_or_default();
    if followed {
        bytes.extend(pieces::laid(KIND_DROP, &[]));
    }
    let mut answers = vec![0; most(call) + ANSWER_HEAD];
    subject.batch(store, &mut work, &bytes, &mut answers);
}

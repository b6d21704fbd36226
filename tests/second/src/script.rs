// A store in the hands of one subject, for lists of calls written by hand: each call is made,
// judged by the contract, and gives its answer.

use crate::contract::{self, Facts, Held, Seen};
use crate::limits::*;
use crate::path::from_text;
use crate::plain::{Answer, Call};
use crate::rng::Rng;
use crate::stats::Stats;
use crate::subject::{perform, Subject};

/// One call as it went: its answer, the buffer after it, and what it did to the nodes; and what check answered before it.
pub struct Made {
    pub checked: Answer,
    pub answer: Answer,
    pub buffer: Vec<u8>,
    pub facts: Option<Facts>,
}

/// Makes one call of the subject on a store, with a work area of these bytes, and judges it. A check is made before it and after
/// it, and judged too.
pub fn witnessed(
    subject: &mut dyn Subject,
    store: &mut [u8],
    call: &Call,
    work: &[u8],
) -> Result<Made, String> {
    let store_before = store.to_vec();
    let mut work_after = work.to_vec();
    let mut buffer = call.buffer().to_vec();
    let checked_before = checked(subject, store)?;
    let answer = perform(subject, call, store, &mut work_after, &mut buffer);
    let checked_after = checked(subject, store)?;
    let seen = Seen {
        store_before: &store_before,
        call,
        work_before: work,
        checked_before,
        checked_after,
        answer,
        buffer_after: &buffer,
        work_after: &work_after,
        store_after: store,
    };
    let facts = contract::examine(&seen, Held::by(subject.capabilities()));
    Ok(Made {
        checked: checked_before,
        answer,
        facts: facts.map_err(|what| format!("{}: {what}", call.told()))?,
        buffer,
    })
}

/// The same with a work area of random bytes, counted; a call that the subject lacks is left out.
pub fn tried(
    subject: &mut dyn Subject,
    rng: &mut Rng,
    store: &mut [u8],
    call: &Call,
    stats: &mut Stats,
) -> Result<Option<Made>, String> {
    if !subject.capabilities().has(call) {
        return Ok(None);
    }
    let work = rng.bytes(call.work().unwrap_or(0));
    let made = witnessed(subject, store, call, &work)?;
    stats.count_made(call, &made);
    Ok(Some(made))
}

/// What check answers of a store. It writes nothing.
pub fn checked(subject: &mut dyn Subject, store: &mut [u8]) -> Result<Answer, String> {
    let before = store.to_vec();
    let (number, beside) = subject.check(store);
    match store == before {
        true => Ok(Answer { number, beside }),
        false => Err("check changed the store".into()),
    }
}

pub struct Script<'a> {
    pub subject: &'a mut dyn Subject,
    pub store: Vec<u8>,
}

impl<'a> Script<'a> {
    /// On a store of `n` nodes just made, whatever `make` answers.
    pub fn made(subject: &'a mut dyn Subject, n: usize) -> Result<Script<'a>, String> {
        let mut store = vec![0xA5; n * NODE];
        let before = store.clone();
        let (number, beside) = subject.make(&mut store);
        contract::check_make(&before, Answer { number, beside }, &store)?;
        Ok(Script { subject, store })
    }

    /// On an image as it stands.
    pub fn on(subject: &'a mut dyn Subject, store: Vec<u8>) -> Script<'a> {
        Script { subject, store }
    }

    fn work(&self) -> usize {
        WORK_PER_NODE * (self.store.len() / NODE)
    }

    /// The call's answer and its buffer, judged.
    pub fn call(&mut self, call: &Call) -> Result<(Answer, Vec<u8>), String> {
        let work = vec![0x5A; call.work().unwrap_or(0)];
        let made = witnessed(self.subject, &mut self.store, call, &work)?;
        Ok((made.answer, made.buffer))
    }

    fn number(&mut self, call: &Call) -> Result<u32, String> {
        self.call(call).map(|(answer, _)| answer.number)
    }

    pub fn put(&mut self, text: &str, value: &[u8]) -> Result<u32, String> {
        let (path, value, work) = (from_text(text.as_bytes()), value.to_vec(), self.work());
        self.number(&Call::Put { path, value, work })
    }

    pub fn drop(&mut self, text: &str) -> Result<u32, String> {
        let (path, work) = (from_text(text.as_bytes()), self.work());
        self.number(&Call::Drop { path, work })
    }

    pub fn clear(&mut self, text: &str) -> Result<u32, String> {
        let (path, work) = (from_text(text.as_bytes()), self.work());
        self.number(&Call::Clear { path, work })
    }

    pub fn move_(&mut self, from: &str, to: &str) -> Result<u32, String> {
        let (from, to) = (from_text(from.as_bytes()), from_text(to.as_bytes()));
        let work = self.work();
        self.number(&Call::Move { from, to, work })
    }

    pub fn settle(&mut self) -> Result<u32, String> {
        let work = self.work();
        self.number(&Call::Settle { work })
    }

    pub fn tidy(&mut self) -> Result<u32, String> {
        let work = self.work();
        self.number(&Call::Tidy { work })
    }

    pub fn flush(&mut self, node: u64) -> Result<u32, String> {
        let work = self.work();
        self.number(&Call::Flush { node, work })
    }

    pub fn heal(&mut self, node: u64) -> Result<u32, String> {
        let work = self.work();
        self.number(&Call::Heal { node, work })
    }

    /// The first path below this one, or none.
    pub fn next(&mut self, text: &str) -> Result<Option<Vec<u8>>, String> {
        self.next_after(text, &[])
    }

    /// The first that is greater than the second path.
    pub fn next_after(&mut self, text: &str, after: &[u8]) -> Result<Option<Vec<u8>>, String> {
        self.found(&Call::Next {
            path: from_text(text.as_bytes()),
            after: after.to_vec(),
            buffer: vec![0xEE; NEXT_BUFFER],
        })
    }

    /// The value, or none where the path is absent.
    pub fn get(&mut self, text: &str) -> Result<Option<Vec<u8>>, String> {
        let path = from_text(text.as_bytes());
        let buffer = vec![0xEE; GET_BUFFER];
        self.found(&Call::Get { path, buffer })
    }

    /// What a get or a next finds.
    fn found(&mut self, call: &Call) -> Result<Option<Vec<u8>>, String> {
        let (answer, buffer) = self.call(call)?;
        let length = answer.beside as usize;
        Ok(answer.accepted().then(|| buffer[..length].to_vec()))
    }
}

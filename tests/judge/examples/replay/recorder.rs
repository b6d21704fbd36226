// Writes calls to a file as they are made: what each call was given, what it answered and the bytes that it left. tests/targets/replay.c
// reads the file on another machine, makes the same calls there and compares every byte. The layout stands at `Recorder::one`.

use judge::Library;
use second::batch::{Batching, Done};
use second::limits::NODE;
use second::subject::{Capabilities, Numbers, Subject};
use std::io::{Result, Write};

/// The calls in the order of their numbers in the file.
#[derive(Clone, Copy)]
pub enum Kind {
    Make,
    Get,
    Next,
    Same,
    Put,
    Drop,
    Clear,
    Move,
    Settle,
    Tidy,
    Flush,
    Heal,
    Batch,
    Check,
}

/// The number that ends the file.
const END: u8 = 0xFF;

/// How many arrays a call may be given, and the most bytes of each: the store, another store, the work area, the buffer or the answers of
/// a batch, the path or the calls of a batch, and the second path or the value.
const ARRAYS: usize = 6;
const MOST: [usize; ARRAYS] = [
    1028 << 10,
    1028 << 10,
    256 << 10,
    128 << 10,
    128 << 10,
    128 << 10,
];

/// Equal bytes between two differences are written too where they are fewer: a new difference costs about as much. So many times the same
/// byte are a difference of its own.
const GAP: usize = 4;
const RUN: usize = 8;

/// What a call is given; an array that it does not take is empty.
struct Given<'a> {
    store: &'a mut [u8],
    other: &'a mut [u8],
    work: &'a mut [u8],
    buffer: &'a mut [u8],
    first: &'a [u8],
    second: &'a [u8],
    node: u64,
}

impl<'a> Given<'a> {
    fn on(store: &'a mut [u8]) -> Given<'a> {
        Given {
            store,
            other: &mut [],
            work: &mut [],
            buffer: &mut [],
            first: &[],
            second: &[],
            node: 0,
        }
    }

    fn arrays(&self) -> [&[u8]; ARRAYS] {
        [
            self.store,
            self.other,
            self.work,
            self.buffer,
            self.first,
            self.second,
        ]
    }

    /// Makes the call: the answer as C gets it.
    fn make(&mut self, kind: Kind) -> u64 {
        let numbers = match kind {
            Kind::Make => Library.make(self.store),
            Kind::Get => Library.get(self.store, self.first, self.buffer),
            Kind::Next => Library.next(self.store, self.first, self.second, self.buffer),
            Kind::Same => Library.same(self.store, self.other),
            Kind::Put => Library.put(self.store, self.first, self.second, self.work),
            Kind::Drop => Library.drop(self.store, self.first, self.work),
            Kind::Clear => Library.clear(self.store, self.first, self.work),
            Kind::Move => Library.move_(self.store, self.first, self.second, self.work),
            Kind::Settle => Library.settle(self.store, self.work),
            Kind::Tidy => Library.tidy(self.store, self.work),
            Kind::Flush => Library.flush(self.store, self.node, self.work),
            Kind::Heal => Library.heal(self.store, self.node, self.work),
            Kind::Check => Library.check(self.store),
            Kind::Batch => {
                return together(Library.batch(self.store, self.work, self.first, self.buffer))
            }
        };
        u64::from(numbers.0) | u64::from(numbers.1) << 32
    }
}

/// A batch's answer as include/splicelog.h takes it apart.
fn together(done: Done) -> u64 {
    u64::from(done.number) | (done.calls as u64) << 8 | (done.written as u64) << 36
}

/// The library, with a file to which its calls are written.
pub struct Recorder<W: Write> {
    file: W,
    /// What the reader of the file has in its arrays.
    held: [Vec<u8>; ARRAYS],
    /// Calls on larger stores are made and not written: the file would be large.
    pub nodes: usize,
    pub calls: usize,
    failed: Result<()>,
}

impl<W: Write> Recorder<W> {
    pub fn new(file: W, nodes: usize) -> Recorder<W> {
        Recorder {
            file,
            held: MOST.map(|most| vec![0; most]),
            nodes,
            calls: 0,
            failed: Ok(()),
        }
    }

    /// Ends the file.
    pub fn finish(mut self) -> Result<()> {
        self.failed?;
        self.file.write_all(&[END])?;
        self.file.flush()
    }

    /// One call: its kind, the length of each array with its differences to what the reader holds, the node, the answer, and the
    /// differences of each array after the call. A number is in base 128, lowest digit first, with the high bit in all but the last byte.
    fn one(&mut self, kind: Kind, given: &mut Given<'_>) -> Result<u64> {
        let fits = given
            .arrays()
            .iter()
            .zip(MOST)
            .all(|(array, most)| array.len() <= most);
        assert!(fits, "the reader has room for every array");
        self.file.write_all(&[kind as u8])?;
        for (held, array) in self.held.iter_mut().zip(given.arrays()) {
            number(&mut self.file, array.len() as u64)?;
            differences(&mut self.file, held, array)?;
        }
        number(&mut self.file, given.node)?;
        let answer = given.make(kind);
        number(&mut self.file, answer)?;
        for (held, array) in self.held.iter_mut().zip(given.arrays()) {
            differences(&mut self.file, held, array)?;
        }
        Ok(answer)
    }

    fn made(&mut self, kind: Kind, mut given: Given<'_>) -> u64 {
        if given.store.len().max(given.other.len()) > self.nodes * NODE || self.failed.is_err() {
            return given.make(kind);
        }
        self.calls += 1;
        match self.one(kind, &mut given) {
            Ok(answer) => answer,
            Err(why) => {
                self.failed = Err(why);
                u64::MAX
            }
        }
    }

    fn numbers(&mut self, kind: Kind, given: Given<'_>) -> Numbers {
        let answer = self.made(kind, given);
        (answer as u32, (answer >> 32) as u32)
    }
}

fn number(file: &mut impl Write, mut value: u64) -> Result<()> {
    while value > 0x7F {
        file.write_all(&[value as u8 | 0x80])?;
        value >>= 7;
    }
    file.write_all(&[value as u8])
}

/// What differs between the front of `held` and the array: for each difference how many bytes are skipped, twice how many differ, and
/// these; or one more than that and the one byte that they all are. A difference of no bytes ends them. Then `held` has the array's bytes.
fn differences(file: &mut impl Write, held: &mut [u8], array: &[u8]) -> Result<()> {
    let mut from = 0;
    while let Some(start) = (from..array.len()).find(|i| held[*i] != array[*i]) {
        let run = run_of(&array[start..]);
        number(file, (start - from) as u64)?;
        if run < RUN {
            from = end_of(held, array, start);
            number(file, 2 * (from - start) as u64)?;
            file.write_all(&array[start..from])?;
        } else {
            from = start + run;
            number(file, 2 * run as u64 + 1)?;
            file.write_all(&array[start..=start])?;
        }
    }
    held[..array.len()].copy_from_slice(array);
    file.write_all(&[0, 0])
}

/// How often the first byte stands there.
fn run_of(bytes: &[u8]) -> usize {
    bytes.iter().take_while(|byte| **byte == bytes[0]).count()
}

/// Where a difference ends: in front of more than GAP equal bytes or of RUN times the same one.
fn end_of(held: &[u8], array: &[u8], start: usize) -> usize {
    let begins_run = |at: usize| run_of(&array[at..array.len().min(at + RUN)]) == RUN;
    let (mut end, mut at) = (start + 1, start + 1);
    while at < array.len() && at <= end + GAP && !begins_run(at) {
        if held[at] != array[at] {
            end = at + 1;
        }
        at += 1;
    }
    end
}

impl<W: Write> Subject for Recorder<W> {
    fn capabilities(&self) -> Capabilities {
        Library.capabilities()
    }

    fn make(&mut self, store: &mut [u8]) -> Numbers {
        self.numbers(Kind::Make, Given::on(store))
    }

    fn get(&mut self, store: &mut [u8], path: &[u8], buffer: &mut [u8]) -> Numbers {
        let given = Given {
            first: path,
            buffer,
            ..Given::on(store)
        };
        self.numbers(Kind::Get, given)
    }

    fn next(&mut self, store: &mut [u8], path: &[u8], after: &[u8], buffer: &mut [u8]) -> Numbers {
        let given = Given {
            first: path,
            second: after,
            buffer,
            ..Given::on(store)
        };
        self.numbers(Kind::Next, given)
    }

    fn same(&mut self, store: &mut [u8], other: &mut [u8]) -> Numbers {
        self.numbers(
            Kind::Same,
            Given {
                other,
                ..Given::on(store)
            },
        )
    }

    fn check(&mut self, store: &mut [u8]) -> Numbers {
        self.numbers(Kind::Check, Given::on(store))
    }

    fn put(&mut self, store: &mut [u8], path: &[u8], value: &[u8], work: &mut [u8]) -> Numbers {
        let given = Given {
            first: path,
            second: value,
            work,
            ..Given::on(store)
        };
        self.numbers(Kind::Put, given)
    }

    fn drop(&mut self, store: &mut [u8], path: &[u8], work: &mut [u8]) -> Numbers {
        self.numbers(
            Kind::Drop,
            Given {
                first: path,
                work,
                ..Given::on(store)
            },
        )
    }

    fn clear(&mut self, store: &mut [u8], path: &[u8], work: &mut [u8]) -> Numbers {
        self.numbers(
            Kind::Clear,
            Given {
                first: path,
                work,
                ..Given::on(store)
            },
        )
    }

    fn move_(&mut self, store: &mut [u8], from: &[u8], to: &[u8], work: &mut [u8]) -> Numbers {
        let given = Given {
            first: from,
            second: to,
            work,
            ..Given::on(store)
        };
        self.numbers(Kind::Move, given)
    }

    fn settle(&mut self, store: &mut [u8], work: &mut [u8]) -> Numbers {
        self.numbers(
            Kind::Settle,
            Given {
                work,
                ..Given::on(store)
            },
        )
    }

    fn tidy(&mut self, store: &mut [u8], work: &mut [u8]) -> Numbers {
        self.numbers(
            Kind::Tidy,
            Given {
                work,
                ..Given::on(store)
            },
        )
    }

    fn flush(&mut self, store: &mut [u8], node: u64, work: &mut [u8]) -> Numbers {
        self.numbers(
            Kind::Flush,
            Given {
                node,
                work,
                ..Given::on(store)
            },
        )
    }

    fn heal(&mut self, store: &mut [u8], node: u64, work: &mut [u8]) -> Numbers {
        self.numbers(
            Kind::Heal,
            Given {
                node,
                work,
                ..Given::on(store)
            },
        )
    }
}

impl<W: Write> Batching for Recorder<W> {
    fn batch(
        &mut self,
        store: &mut [u8],
        work: &mut [u8],
        calls: &[u8],
        answers: &mut [u8],
    ) -> Done {
        let given = Given {
            first: calls,
            buffer: answers,
            work,
            ..Given::on(store)
        };
        let answer = self.made(Kind::Batch, given);
        Done {
            number: (answer & 0xFF) as u32,
            calls: (answer >> 8 & 0xFFF_FFFF) as usize,
            written: (answer >> 36) as usize,
        }
    }
}

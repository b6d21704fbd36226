// The library with every slice beside a page that nobody may touch, behind it or in front of it, or at an odd address, and what is only
// read on pages that nobody may write: a call that reads or writes one byte outside its slices, writes where it may only read, or needs an
// even address ends the run by a signal. Relies on mmap and mprotect of the C library that Rust's own links.

use crate::Library;
use second::batch::{Batching, Done};
use second::subject::{Capabilities, Numbers, Subject};
use std::ffi::{c_int, c_void};

const PAGE: usize = 4096;
/// The bytes between the two guard pages: more than the longest slice, a store of one node too many.
const ROOM: usize = 2 << 20;

const PROT_NONE: c_int = 0;
const PROT_READ: c_int = 1;
const PROT_WRITE: c_int = 2;
const MAP_PRIVATE: c_int = 0x02;
const MAP_ANONYMOUS: c_int = 0x20;

extern "C" {
    fn mmap(
        at: *mut c_void,
        length: usize,
        may: c_int,
        how: c_int,
        file: c_int,
        from: i64,
    ) -> *mut c_void;
    fn mprotect(at: *mut c_void, length: usize, may: c_int) -> c_int;
}

/// Pages between two guard pages, for one slice at a time.
struct Pages {
    first: *mut u8,
}

impl Pages {
    fn new() -> Pages {
        let whole = ROOM + 2 * PAGE;
        // SAFETY: new pages at a place that the system chooses.
        let at = unsafe {
            mmap(
                std::ptr::null_mut(),
                whole,
                PROT_NONE,
                MAP_PRIVATE | MAP_ANONYMOUS,
                -1,
                0,
            )
        };
        assert!(at as isize != -1, "mmap gives pages");
        // SAFETY: the first page is within them.
        let first = unsafe { at.cast::<u8>().add(PAGE) };
        Pages { first }
    }

    fn allow(&mut self, may: c_int) {
        // SAFETY: these pages are this value's own.
        let done = unsafe { mprotect(self.first.cast(), ROOM, may) };
        assert_eq!(done, 0, "mprotect takes its own pages");
    }

    /// A copy of the bytes at this place.
    fn hold(&mut self, bytes: &[u8], place: Place, may: c_int) -> &mut [u8] {
        assert!(bytes.len() < ROOM);
        self.allow(PROT_READ | PROT_WRITE);
        let at = match place {
            Place::Last => ROOM - bytes.len(),
            Place::First => 0,
            Place::Odd => 1,
        };
        // SAFETY: the bytes lie between the guard pages, which are lent to this call alone.
        let held = unsafe { std::slice::from_raw_parts_mut(self.first.add(at), bytes.len()) };
        held.copy_from_slice(bytes);
        self.allow(may);
        held
    }
}

/// Where a slice lies between its guard pages: it ends at the one behind, begins at the one in front, or begins a byte later.
#[derive(Clone, Copy)]
enum Place {
    Last,
    First,
    Odd,
}

impl Place {
    fn next(self) -> Place {
        match self {
            Place::Last => Place::First,
            Place::First => Place::Odd,
            Place::Odd => Place::Last,
        }
    }
}

/// The library, with its arguments held so, in each call at the next place.
pub struct Guarded {
    store: Pages,
    work: Pages,
    first: Pages,
    second: Pages,
    buffer: Pages,
    place: Place,
}

impl Default for Guarded {
    fn default() -> Guarded {
        Guarded {
            store: Pages::new(),
            work: Pages::new(),
            first: Pages::new(),
            second: Pages::new(),
            buffer: Pages::new(),
            place: Place::Odd,
        }
    }
}

const READ: c_int = PROT_READ;
const BOTH: c_int = PROT_READ | PROT_WRITE;

impl Guarded {
    /// A call that is lent a work area, with two strings that it reads.
    fn write(
        &mut self,
        (store, work): (&mut [u8], &mut [u8]),
        (first, second): (&[u8], &[u8]),
        call: impl Fn(&mut [u8], &[u8], &[u8], &mut [u8]) -> Numbers,
    ) -> Numbers {
        self.place = self.place.next();
        let held = self.store.hold(store, self.place, BOTH);
        let lent = self.work.hold(work, self.place, BOTH);
        let first = self.first.hold(first, self.place, READ);
        let second = self.second.hold(second, self.place, READ);
        let answer = call(held, first, second, lent);
        store.copy_from_slice(held);
        work.copy_from_slice(lent);
        answer
    }

    /// A call that only reads its store, with two strings and a buffer.
    fn read(
        &mut self,
        (store, buffer): (&[u8], &mut [u8]),
        (first, second): (&[u8], &[u8]),
        call: impl Fn(&mut [u8], &[u8], &mut [u8], &mut [u8]) -> Numbers,
    ) -> Numbers {
        self.place = self.place.next();
        let held = self.store.hold(store, self.place, READ);
        let first = self.first.hold(first, self.place, READ);
        let second = self.second.hold(second, self.place, READ);
        let lent = self.buffer.hold(buffer, self.place, BOTH);
        let answer = call(held, first, second, lent);
        buffer.copy_from_slice(lent);
        answer
    }
}

#[rustfmt::skip]
impl Subject for Guarded {
    fn capabilities(&self) -> Capabilities {
        Library.capabilities()
    }

    fn make(&mut self, store: &mut [u8]) -> Numbers {
        self.write((store, &mut []), (&[], &[]), |store, _, _, _| Library.make(store))
    }

    fn get(&mut self, store: &mut [u8], path: &[u8], buffer: &mut [u8]) -> Numbers {
        self.read((store, buffer), (path, &[]), |store, path, _, buffer| Library.get(store, path, buffer))
    }

    fn next(&mut self, store: &mut [u8], path: &[u8], after: &[u8], buffer: &mut [u8]) -> Numbers {
        let next = |store: &mut [u8], path: &[u8], after: &mut [u8], buffer: &mut [u8]| Library.next(store, path, after, buffer);
        self.read((store, buffer), (path, after), next)
    }

    fn same(&mut self, a: &mut [u8], b: &mut [u8]) -> Numbers {
        self.read((a, &mut []), (&[], b), |a, _, b, _| Library.same(a, b))
    }

    fn check(&mut self, store: &mut [u8]) -> Numbers {
        self.read((store, &mut []), (&[], &[]), |store, _, _, _| Library.check(store))
    }

    fn put(&mut self, store: &mut [u8], path: &[u8], value: &[u8], work: &mut [u8]) -> Numbers {
        self.write((store, work), (path, value), |store, path, value, work| Library.put(store, path, value, work))
    }

    fn drop(&mut self, store: &mut [u8], path: &[u8], work: &mut [u8]) -> Numbers {
        self.write((store, work), (path, &[]), |store, path, _, work| Library.drop(store, path, work))
    }

    fn clear(&mut self, store: &mut [u8], path: &[u8], work: &mut [u8]) -> Numbers {
        self.write((store, work), (path, &[]), |store, path, _, work| Library.clear(store, path, work))
    }

    fn move_(&mut self, store: &mut [u8], from: &[u8], to: &[u8], work: &mut [u8]) -> Numbers {
        self.write((store, work), (from, to), |store, from, to, work| Library.move_(store, from, to, work))
    }

    fn settle(&mut self, store: &mut [u8], work: &mut [u8]) -> Numbers {
        self.write((store, work), (&[], &[]), |store, _, _, work| Library.settle(store, work))
    }

    fn tidy(&mut self, store: &mut [u8], work: &mut [u8]) -> Numbers {
        self.write((store, work), (&[], &[]), |store, _, _, work| Library.tidy(store, work))
    }

    fn flush(&mut self, store: &mut [u8], node: u64, work: &mut [u8]) -> Numbers {
        self.write((store, work), (&[], &[]), |store, _, _, work| Library.flush(store, node, work))
    }

    fn heal(&mut self, store: &mut [u8], node: u64, work: &mut [u8]) -> Numbers {
        self.write((store, work), (&[], &[]), |store, _, _, work| Library.heal(store, node, work))
    }
}

impl Batching for Guarded {
    fn batch(
        &mut self,
        store: &mut [u8],
        work: &mut [u8],
        calls: &[u8],
        answers: &mut [u8],
    ) -> Done {
        self.place = self.place.next();
        let held = self.store.hold(store, self.place, BOTH);
        let lent = self.work.hold(work, self.place, BOTH);
        let calls = self.first.hold(calls, self.place, READ);
        let told = self.buffer.hold(answers, self.place, BOTH);
        let done = Library.batch(held, lent, calls, told);
        store.copy_from_slice(held);
        work.copy_from_slice(lent);
        answers.copy_from_slice(told);
        done
    }
}

// The store's static library as a Rust type: the functions of include/splicelog.h, each wrapped in a safe method, so that the second
// program can judge it. The library takes any bytes, so a wrapper has nothing to test; it only takes the answer apart.

pub mod batches;
pub mod damage;
pub mod deep;
pub mod filling;
pub mod guarded;
pub mod images;
pub mod lengths;
pub mod moving;
pub mod nulls;
pub mod overlaps;
mod raw;
pub mod reading;
pub mod stack;

use raw::{alone, apart, Text};
use second::subject::{Capabilities, Numbers, Subject};

extern "C" {
    fn splicelog_make(store: *mut u8, store_len: usize) -> u32;
    pub(crate) fn splicelog_same(
        store: *const u8,
        store_len: usize,
        other: *const u8,
        other_len: usize,
    ) -> u64;
    fn splicelog_check(store: *const u8, store_len: usize) -> u64;
    fn splicelog_settle(store: *mut u8, store_len: usize, work: *mut u8, work_len: usize) -> u32;
    fn splicelog_tidy(store: *mut u8, store_len: usize, work: *mut u8, work_len: usize) -> u32;
    fn splicelog_flush(
        store: *mut u8,
        store_len: usize,
        work: *mut u8,
        work_len: usize,
        node: usize,
    ) -> u32;
    fn splicelog_heal(
        store: *mut u8,
        store_len: usize,
        work: *mut u8,
        work_len: usize,
        node: usize,
    ) -> u32;
}

/// A node number as C passes it: the judge runs on x86-64, where no bit of it is lost.
fn whole(node: u64) -> usize {
    const { assert!(usize::BITS == u64::BITS) };
    node as usize
}

/// The library.
pub struct Library;

impl Subject for Library {
    fn capabilities(&self) -> Capabilities {
        Capabilities::ALL
    }

    fn make(&mut self, store: &mut [u8]) -> Numbers {
        // SAFETY: each pointer comes with the length of its own slice, and a slice that is written is lent to this call alone.
        alone(unsafe { splicelog_make(store.as_mut_ptr(), store.len()) })
    }

    fn get(&mut self, store: &mut [u8], path: &[u8], buffer: &mut [u8]) -> Numbers {
        raw::get(store, Text::of(path), buffer)
    }

    fn next(&mut self, store: &mut [u8], path: &[u8], after: &[u8], buffer: &mut [u8]) -> Numbers {
        raw::next(store, Text::of(path), Text::of(after), buffer)
    }

    fn same(&mut self, a: &mut [u8], b: &mut [u8]) -> Numbers {
        // SAFETY: as above.
        apart(unsafe { splicelog_same(a.as_ptr(), a.len(), b.as_ptr(), b.len()) })
    }

    fn check(&mut self, store: &mut [u8]) -> Numbers {
        // SAFETY: as above.
        apart(unsafe { splicelog_check(store.as_ptr(), store.len()) })
    }

    fn put(&mut self, store: &mut [u8], path: &[u8], value: &[u8], work: &mut [u8]) -> Numbers {
        raw::put(store, Text::of(path), Text::of(value), work)
    }

    fn drop(&mut self, store: &mut [u8], path: &[u8], work: &mut [u8]) -> Numbers {
        raw::drop(store, Text::of(path), work)
    }

    fn clear(&mut self, store: &mut [u8], path: &[u8], work: &mut [u8]) -> Numbers {
        raw::clear(store, Text::of(path), work)
    }

    fn move_(&mut self, store: &mut [u8], from: &[u8], to: &[u8], work: &mut [u8]) -> Numbers {
        raw::move_(store, Text::of(from), Text::of(to), work)
    }

    fn settle(&mut self, store: &mut [u8], work: &mut [u8]) -> Numbers {
        // SAFETY: as above.
        alone(unsafe {
            splicelog_settle(
                store.as_mut_ptr(),
                store.len(),
                work.as_mut_ptr(),
                work.len(),
            )
        })
    }

    fn tidy(&mut self, store: &mut [u8], work: &mut [u8]) -> Numbers {
        // SAFETY: as above.
        alone(unsafe {
            splicelog_tidy(
                store.as_mut_ptr(),
                store.len(),
                work.as_mut_ptr(),
                work.len(),
            )
        })
    }

    fn flush(&mut self, store: &mut [u8], node: u64, work: &mut [u8]) -> Numbers {
        // SAFETY: as above.
        alone(unsafe {
            splicelog_flush(
                store.as_mut_ptr(),
                store.len(),
                work.as_mut_ptr(),
                work.len(),
                whole(node),
            )
        })
    }

    fn heal(&mut self, store: &mut [u8], node: u64, work: &mut [u8]) -> Numbers {
        // SAFETY: as above.
        alone(unsafe {
            splicelog_heal(
                store.as_mut_ptr(),
                store.len(),
                work.as_mut_ptr(),
                work.len(),
                whole(node),
            )
        })
    }
}

// The library's batch, for the second program to judge.

use crate::Library;
use second::batch::{Batching, Done};

impl Batching for Library {
    fn batch(
        &mut self,
        store: &mut [u8],
        work: &mut [u8],
        calls: &[u8],
        answers: &mut [u8],
    ) -> Done {
        // SAFETY: each pointer comes with the length of its own slice, and a slice that is written is lent to this call alone.
        let answer = unsafe {
            splicelog_batch(
                store.as_mut_ptr(),
                store.len(),
                work.as_mut_ptr(),
                work.len(),
                calls.as_ptr(),
                calls.len(),
                answers.as_mut_ptr(),
                answers.len(),
            )
        };
        // As include/splicelog.h takes it apart.
        Done {
            number: (answer & 0xFF) as u32,
            calls: (answer >> 8 & 0xFFF_FFFF) as usize,
            written: (answer >> 36) as usize,
        }
    }
}

extern "C" {
    fn splicelog_batch(
        store: *mut u8,
        store_len: usize,
        work: *mut u8,
        work_len: usize,
        calls: *const u8,
        calls_len: usize,
        answers: *mut u8,
        answers_len: usize,
    ) -> u64;
}

// The calls of include/splicelog.h that take paths, safe to make with any bytes: a string goes as a pointer and a length. The library takes
// any bytes, so there is nothing to test here; an answer is only taken apart.

use second::subject::Numbers;
use std::marker::PhantomData;

extern "C" {
    fn splicelog_get(
        store: *const u8,
        store_len: usize,
        path: *const u8,
        path_len: usize,
        buffer: *mut u8,
        buffer_len: usize,
    ) -> u64;
    fn splicelog_next(
        store: *const u8,
        store_len: usize,
        path: *const u8,
        path_len: usize,
        after: *const u8,
        after_len: usize,
        buffer: *mut u8,
        buffer_len: usize,
    ) -> u64;
    fn splicelog_put(
        store: *mut u8,
        store_len: usize,
        work: *mut u8,
        work_len: usize,
        path: *const u8,
        path_len: usize,
        value: *const u8,
        value_len: usize,
    ) -> u32;
    fn splicelog_drop(
        store: *mut u8,
        store_len: usize,
        work: *mut u8,
        work_len: usize,
        path: *const u8,
        path_len: usize,
    ) -> u32;
    fn splicelog_clear(
        store: *mut u8,
        store_len: usize,
        work: *mut u8,
        work_len: usize,
        path: *const u8,
        path_len: usize,
    ) -> u32;
    fn splicelog_move(
        store: *mut u8,
        store_len: usize,
        work: *mut u8,
        work_len: usize,
        from: *const u8,
        from_len: usize,
        to: *const u8,
        to_len: usize,
    ) -> u32;
}

/// The number in the low 32 bits, what stands beside it in the high 32.
pub fn apart(answer: u64) -> Numbers {
    (answer as u32, (answer >> 32) as u32)
}

/// A number with nothing beside it.
pub fn alone(number: u32) -> Numbers {
    (number, 0)
}

/// A string as C passes it.
#[derive(Clone, Copy)]
pub struct Text<'a> {
    start: *const u8,
    length: usize,
    bytes: PhantomData<&'a [u8]>,
}

impl<'a> Text<'a> {
    pub fn of(bytes: &'a [u8]) -> Text<'a> {
        Text {
            start: bytes.as_ptr(),
            length: bytes.len(),
            bytes: PhantomData,
        }
    }

    /// The same, but no bytes go as NULL.
    pub fn or_null(bytes: &'a [u8]) -> Text<'a> {
        let mut text = Text::of(bytes);
        if bytes.is_empty() {
            text.start = std::ptr::null();
        }
        text
    }
}

pub fn get(store: &[u8], path: Text<'_>, buffer: &mut [u8]) -> Numbers {
    // SAFETY: each pointer comes with the length of its own slice, and a slice that is written is lent to this call alone.
    apart(unsafe {
        splicelog_get(
            store.as_ptr(),
            store.len(),
            path.start,
            path.length,
            buffer.as_mut_ptr(),
            buffer.len(),
        )
    })
}

pub fn next(store: &[u8], path: Text<'_>, after: Text<'_>, buffer: &mut [u8]) -> Numbers {
    // SAFETY: as above.
    apart(unsafe {
        splicelog_next(
            store.as_ptr(),
            store.len(),
            path.start,
            path.length,
            after.start,
            after.length,
            buffer.as_mut_ptr(),
            buffer.len(),
        )
    })
}

pub fn put(store: &mut [u8], path: Text<'_>, value: Text<'_>, work: &mut [u8]) -> Numbers {
    // SAFETY: as above.
    alone(unsafe {
        splicelog_put(
            store.as_mut_ptr(),
            store.len(),
            work.as_mut_ptr(),
            work.len(),
            path.start,
            path.length,
            value.start,
            value.length,
        )
    })
}

pub fn drop(store: &mut [u8], path: Text<'_>, work: &mut [u8]) -> Numbers {
    // SAFETY: as above.
    alone(unsafe {
        splicelog_drop(
            store.as_mut_ptr(),
            store.len(),
            work.as_mut_ptr(),
            work.len(),
            path.start,
            path.length,
        )
    })
}

pub fn clear(store: &mut [u8], path: Text<'_>, work: &mut [u8]) -> Numbers {
    // SAFETY: as above.
    alone(unsafe {
        splicelog_clear(
            store.as_mut_ptr(),
            store.len(),
            work.as_mut_ptr(),
            work.len(),
            path.start,
            path.length,
        )
    })
}

pub fn move_(store: &mut [u8], from: Text<'_>, to: Text<'_>, work: &mut [u8]) -> Numbers {
    // SAFETY: as above.
    alone(unsafe {
        splicelog_move(
            store.as_mut_ptr(),
            store.len(),
            work.as_mut_ptr(),
            work.len(),
            from.start,
            from.length,
            to.start,
            to.length,
        )
    })
}

// The library with NULL for every path, and every value, that has no byte: include/splicelog.h allows it, and it must be the empty path
// as a pointer to no byte is.

use crate::raw::{self, Text};
use crate::Library;
use second::subject::{Capabilities, Numbers, Subject};

/// The library, called so. What takes no path is left out.
pub struct Nulls;

#[rustfmt::skip]
impl Subject for Nulls {
    fn capabilities(&self) -> Capabilities {
        Capabilities { settle: false, tidy: false, flush: false, heal: false, ..Library.capabilities() }
    }

    fn make(&mut self, store: &mut [u8]) -> Numbers {
        Library.make(store)
    }

    fn same(&mut self, a: &mut [u8], b: &mut [u8]) -> Numbers {
        Library.same(a, b)
    }

    fn check(&mut self, store: &mut [u8]) -> Numbers {
        Library.check(store)
    }

    fn get(&mut self, store: &mut [u8], path: &[u8], buffer: &mut [u8]) -> Numbers {
        raw::get(store, Text::or_null(path), buffer)
    }

    fn next(&mut self, store: &mut [u8], path: &[u8], after: &[u8], buffer: &mut [u8]) -> Numbers {
        raw::next(store, Text::or_null(path), Text::or_null(after), buffer)
    }

    fn put(&mut self, store: &mut [u8], path: &[u8], value: &[u8], work: &mut [u8]) -> Numbers {
        raw::put(store, Text::or_null(path), Text::or_null(value), work)
    }

    fn drop(&mut self, store: &mut [u8], path: &[u8], work: &mut [u8]) -> Numbers {
        raw::drop(store, Text::or_null(path), work)
    }

    fn clear(&mut self, store: &mut [u8], path: &[u8], work: &mut [u8]) -> Numbers {
        raw::clear(store, Text::or_null(path), work)
    }

    fn move_(&mut self, store: &mut [u8], from: &[u8], to: &[u8], work: &mut [u8]) -> Numbers {
        raw::move_(store, Text::or_null(from), Text::or_null(to), work)
    }
}

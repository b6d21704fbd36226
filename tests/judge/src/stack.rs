// How many bytes of stack a call uses: the bytes below the caller are painted, the call is made, and the lowest byte that has changed
// tells. On a thread of its own, whose stack is large enough and touched by nobody else. And the test: no call on the deepest and widest
// images takes more than 32 KiB.

use crate::{images, Library};
use second::batch::{piece, Batching};
use second::limits::*;
use second::path::beginnings;
use second::plain::Call;
use second::sound::{self, Sound};
use second::subject::Subject;
use std::collections::BTreeMap;

const THREAD: usize = 4 << 20;
const PAINTED: usize = 1 << 20;
/// The caller's own frame lies here, and is not painted.
const NEAR: usize = 4096;
const PAINT: u8 = 0xC3;

/// The most bytes of stack that a call may take.
pub const LIMIT: usize = 32 << 10;

/// At most this many bytes were used, counted from the caller; at least 4,096 is said.
pub fn depth(call: impl FnOnce() + Send) -> usize {
    std::thread::scope(|scope| {
        let thread = std::thread::Builder::new().stack_size(THREAD);
        let painted = thread.spawn_scoped(scope, || painted(call));
        painted.map_or(PAINTED, |thread| thread.join().unwrap_or(PAINTED))
    })
}

#[inline(never)]
fn painted(call: impl FnOnce()) -> usize {
    let here = 0u8;
    let top = std::hint::black_box(&raw const here).cast_mut();
    for below in NEAR..PAINTED {
        // SAFETY: these bytes lie in this thread's stack, which is longer, and below every frame in use.
        unsafe { top.sub(below).write_volatile(PAINT) };
    }
    call();
    let changed = |below: &usize| {
        // SAFETY: as above; they were written there.
        unsafe { top.sub(*below).read_volatile() != PAINT }
    };
    (NEAR..PAINTED).rev().find(changed).unwrap_or(NEAR)
}

/// The most that each call takes, on every image. An error names the call that takes more than the limit.
pub fn run() -> Result<BTreeMap<&'static str, usize>, String> {
    let mut worst = BTreeMap::new();
    for (name, store) in deep_images() {
        let case = Case::of(store);
        for (call, make) in CALLS {
            let bytes = case.worst(*make);
            if bytes > LIMIT {
                return Err(format!(
                    "{call} on {name} takes {bytes} bytes of stack, over {LIMIT}"
                ));
            }
            let most = worst.entry(*call).or_insert(0);
            *most = bytes.max(*most);
        }
    }
    Ok(worst)
}

/// Deep, wide and full: where a call that keeps something for each level, child or message keeps the most.
pub fn deep_images() -> Vec<(&'static str, Vec<u8>)> {
    vec![
        ("the deepest image", images::deepest()),
        ("the deepest image with room", images::roomy()),
        ("the image full of messages", images::waiting()),
        ("a full settled store", images::settled(NODES_MOST)),
        (
            "a full store with a full root",
            images::buffered(NODES_MOST),
        ),
        (
            "a full store under a clear of everything",
            images::cleared(NODES_MOST),
        ),
    ]
}

type Make = fn(&mut Called<'_>) -> u32;

/// Each call, and how it is made. Every one is accepted, since a refusal may end early.
const CALLS: &[(&str, Make)] = &[
    ("make", |c| Library.make(c.store).0),
    ("get", |c| {
        Library.get(c.store, c.path, &mut [0; GET_BUFFER]).0
    }),
    ("next", |c| {
        Library.next(c.store, c.top, &[], &mut [0; NEXT_BUFFER]).0
    }),
    ("next of everything", |c| {
        Library.next(c.store, &[], &[], &mut [0; NEXT_BUFFER]).0
    }),
    ("same", |c| Library.same(c.store, c.other).0),
    ("check", |c| Library.check(c.store).0),
    ("put", |c| {
        Library.put(c.store, c.path, &[1; VALUE_LIMIT], c.work).0
    }),
    ("drop", |c| Library.drop(c.store, c.path, c.work).0),
    ("clear", |c| Library.clear(c.store, c.top, c.work).0),
    ("clear of everything", |c| {
        Library.clear(c.store, &[], c.work).0
    }),
    ("move", |c| {
        Library.move_(c.store, c.path, b"~~~\0", c.work).0
    }),
    ("settle", |c| Library.settle(c.store, c.work).0),
    ("tidy", |c| Library.tidy(c.store, c.work).0),
    ("flush", |c| Library.flush(c.store, c.node, c.work).0),
    ("heal", |c| Library.heal(c.store, c.node, c.work).0),
    ("batch", |c| {
        let calls = c.list();
        Library.batch(c.store, c.work, &calls, &mut [0; 256]).number
    }),
];

/// What a call is given: a present path, its first component, and an interior node.
struct Called<'a> {
    store: &'a mut [u8],
    other: &'a mut [u8],
    work: &'a mut [u8],
    path: &'a [u8],
    top: &'a [u8],
    node: u64,
}

impl Called<'_> {
    /// The call that takes most, as a batch: on the image as it is.
    fn list(&self) -> Vec<u8> {
        let call = Call::Move {
            from: self.path.to_vec(),
            to: b"~~~\0".to_vec(),
            work: 0,
        };
        piece(&call).unwrap_or_default()
    }
}

/// An image with the arguments that its calls are tried with.
struct Case {
    store: Vec<u8>,
    paths: Vec<Vec<u8>>,
    nodes: Vec<u64>,
}

impl Case {
    fn of(store: Vec<u8>) -> Case {
        let sound = sound::judge(&store).expect("the image is sound");
        Case {
            paths: some_paths(&sound),
            nodes: widest_nodes(&sound),
            store,
        }
    }

    /// The most over the paths and nodes. The first call is not counted: what it costs the dynamic linker is not the library's.
    fn worst(&self, make: Make) -> usize {
        let tried = || self.paths.iter().zip(self.nodes.iter().cycle());
        let once = |(path, node): (&Vec<u8>, &u64)| self.once(make, path, *node);
        let _ = tried().next().map(once);
        tried().map(once).max().unwrap_or(0)
    }

    fn once(&self, make: Make, path: &[u8], node: u64) -> usize {
        let (mut store, mut other) = (self.store.clone(), self.store.clone());
        let mut work = vec![0; WORK_PER_NODE * (store.len() / NODE)];
        let mut called = Called {
            store: &mut store,
            other: &mut other,
            work: &mut work,
            path,
            top: beginnings(path).next().unwrap_or(path),
            node,
        };
        let mut number = 0;
        let bytes = depth(|| number = make(&mut called));
        assert_eq!(number, 0, "the call is accepted");
        bytes
    }
}

/// The first, the last and the longest path: one of them lies on the way down that has the widest nodes.
pub fn some_paths(sound: &Sound) -> Vec<Vec<u8>> {
    let paths: Vec<&Vec<u8>> = sound.table.keys().collect();
    let longest = paths.iter().max_by_key(|path| path.len());
    let some = [paths.first(), paths.last(), longest];
    let some: Vec<Vec<u8>> = some.iter().flatten().map(|path| path.to_vec()).collect();
    // So many that every node below is tried with one of them.
    some.iter().cycle().take(2 * NODES_TRIED).cloned().collect()
}

/// How many of the interior nodes are tried.
const NODES_TRIED: usize = 6;

/// The interior nodes with the most entries.
pub fn widest_nodes(sound: &Sound) -> Vec<u64> {
    let walk = sound.tree.walk();
    let mut nodes: Vec<_> = walk.iter().filter(|v| v.node.is_interior()).collect();
    let entries = |v: &&second::tree::Visit<'_>| v.node.children().len() + v.node.messages().len();
    nodes.sort_by_key(|v| std::cmp::Reverse(entries(v)));
    let widest = nodes.iter().take(NODES_TRIED);
    widest.map(|v| u64::from(v.node.number)).collect()
}

// Every number that the paper and the requests after it fix, named once.
// The other modules use these names only, so that a wrong limit is wrong in one place.

/// The whole length of a path, its 00 bytes counted.
pub const PATH_LIMIT: usize = 64;
/// The length of one component.
pub const COMPONENT_LIMIT: usize = 16;
/// How many components a path may have.
pub const COMPONENTS: usize = 8;
/// The length of a value.
pub const VALUE_LIMIT: usize = 48;
/// What it was before values became longer. No rule has it any more: images of that time are still
/// met, and a store that has it left somewhere is wrong there.
pub const OLD_VALUE_LIMIT: usize = 32;
/// The lengths that tell which limit a store has: for values, and for the buffers that they go to.
pub const TELLING_LENGTHS: [usize; 6] = [
    OLD_VALUE_LIMIT - 1,
    OLD_VALUE_LIMIT,
    OLD_VALUE_LIMIT + 1,
    VALUE_LIMIT - 1,
    VALUE_LIMIT,
    VALUE_LIMIT + 1,
];
/// The length of a pivot suffix in a child entry.
pub const PIVOT_LIMIT: usize = 65;

/// The bytes of one node.
pub const NODE: usize = 1024;
/// The bytes of a node before its entries: length, kind, level, zero.
pub const NODE_HEAD: usize = 8;
/// The most bytes that a node's entries may take.
pub const ENTRY_BYTES_LIMIT: usize = NODE - NODE_HEAD;
/// The bytes of an entry before its rest: length, kind.
pub const ENTRY_HEAD: usize = 4;
/// The least and the most nodes of a store, node 0 counted.
pub const NODES_LEAST: usize = 32;
pub const NODES_MOST: usize = 1024;
/// The most levels of a tree, and the level of its leaves.
pub const LEVELS_MOST: u16 = 8;
pub const LEAF_LEVEL: u16 = 1;
/// The work area's bytes for each node of the store.
pub const WORK_PER_NODE: usize = 128;

/// What node 0's length field says, and where its own bytes end.
pub const HEADER_LENGTH: u16 = 8;
pub const HEADER_BYTES: usize = 12;

/// The buffers that get and next need.
pub const GET_BUFFER: usize = VALUE_LIMIT;
pub const NEXT_BUFFER: usize = PATH_LIMIT;

/// The kinds of pieces.
pub const KIND_HEADER: u16 = 0x0100;
pub const KIND_LEAF: u16 = 0x0001;
pub const KIND_INTERIOR: u16 = 0x0002;
pub const KIND_PAIR: u16 = 0x0001;
pub const KIND_CHILD: u16 = 0x0010;
pub const KIND_PUT: u16 = 0x0020;
pub const KIND_DROP: u16 = 0x0021;
pub const KIND_CLEAR: u16 = 0x0022;

/// The root's pivots: it owns every string from the empty one up to the byte FF.
pub const ROOT_LOW: &[u8] = &[];
pub const ROOT_HIGH: &[u8] = &[0xFF];

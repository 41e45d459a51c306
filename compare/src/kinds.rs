//! The four kinds of tree, and what the original makes of each.
//!
//! `oracle::paper` has the two older ones. The free-space trees go through the
//! original's own functions over their shapes, with the questions around them
//! that it does not ask (1, 15, 18, 19 and 21), in the same order as there. 12 is
//! asked here of all four kinds: `oracle::paper` has it as document 01 does.

use crate::free;
use oracle::ag_btree::{self, Shape};
use oracle::alloc_btree::{encode_free_extent, Order};
use oracle::bare::{self, Header, WalkAnswer, Walked};
use oracle::error::{Error, Result};
use oracle::refusal::Outcome;
use oracle::sample::Random;
use oracle::{paper, Geometry, Tree};

/// The places of a stack that 12 asks for.
pub const STACK_PLACES: usize = 18;

/// Those that it asked for in document 01.
pub fn larger_stack(g: &Geometry, kind: Kind, levels: u32) -> usize {
    2 * levels as usize * node_capacity(g, kind)
}

/// Every block size with every number of levels.
pub fn sizes_and_levels() -> impl Iterator<Item = (u64, u32)> {
    (9..=16).flat_map(|bits| (1..=9).map(move |levels| (1 << bits, levels)))
}

/// No places, and those around 18 and around document 01's.
pub fn stacks_around(larger: usize) -> [usize; 6] {
    let least = STACK_PLACES;
    [0, least - 1, least, least + 1, larger - 1, larger]
}

/// Places that 12 takes: just enough, some more, or document 01's.
pub fn enough(r: &mut Random, g: &Geometry, kind: Kind, levels: u32) -> usize {
    let larger = larger_stack(g, kind, levels);
    let more = STACK_PLACES + r.below(60) as usize;
    r.pick(&[STACK_PLACES, STACK_PLACES, STACK_PLACES + 1, more, larger])
}

#[derive(Debug, Clone, Copy, PartialEq, Eq)]
pub enum Kind {
    /// On version 5 alone.
    Older(Tree),
    /// On both versions.
    Free(Order),
}

impl Kind {
    pub const RMAP: Kind = Kind::Older(Tree::Rmap);
    pub const REFCOUNT: Kind = Kind::Older(Tree::Refcount);
    pub const BY_BLOCK: Kind = Kind::Free(Order::ByBlock);
    pub const BY_SIZE: Kind = Kind::Free(Order::ByCount);

    /// By their numbers in the interface.
    pub const ALL: [Kind; 4] = [Kind::RMAP, Kind::REFCOUNT, Kind::BY_BLOCK, Kind::BY_SIZE];
    pub const OLDER: [Kind; 2] = [Kind::RMAP, Kind::REFCOUNT];
    pub const FREE: [Kind; 2] = [Kind::BY_BLOCK, Kind::BY_SIZE];

    /// As the interface takes it.
    pub fn number(self) -> u32 {
        let at = Kind::ALL.iter().position(|&k| k == self);
        at.expect("one of the four") as u32
    }

    pub fn shape(self) -> Shape {
        match self {
            Kind::Older(tree) => tree.shape(),
            Kind::Free(order) => order.shape(),
        }
    }

    pub fn record_len(self) -> usize {
        self.shape().record_len
    }

    /// The keys of one node entry.
    pub fn keys_len(self) -> usize {
        self.shape().keys_per_entry() * self.shape().key_len
    }

    /// Keys and pointer of one node entry.
    pub fn entry_len(self) -> usize {
        self.keys_len() + ag_btree::PTR_LEN
    }

    /// Another kind: of the older two the other one, of the others any.
    pub fn other(self, r: &mut Random) -> Kind {
        match self {
            Kind::RMAP => Kind::REFCOUNT,
            Kind::REFCOUNT => Kind::RMAP,
            _ => {
                let others = Kind::ALL.into_iter().filter(|&k| k != self);
                r.pick(&others.collect::<Vec<_>>())
            }
        }
    }
}

/// Version 4 for every other free-space tree.
pub fn some_version(r: &mut Random, kind: Kind, g: &mut Geometry) {
    if matches!(kind, Kind::Free(_)) && g.version == 5 && r.below(2) == 0 {
        g.version = 4;
    }
}

/// The bytes of a block header.
pub fn header_len(g: &Geometry) -> usize {
    match g.version {
        5 => ag_btree::V5_HEADER_LEN,
        _ => ag_btree::V4_HEADER_LEN,
    }
}

pub fn node_capacity(g: &Geometry, kind: Kind) -> usize {
    (g.block_size as usize - header_len(g)) / kind.entry_len()
}

/// Where pointer i of a node stands.
pub fn pointer(g: &Geometry, kind: Kind, i: usize) -> usize {
    header_len(g) + node_capacity(g, kind) * kind.keys_len() + ag_btree::PTR_LEN * i
}

/// The original's refusal by 5 has no values; put them in.
fn with_crc_values<T>(o: Outcome<T>, b: &[u8]) -> Outcome<T> {
    match o {
        Outcome::Refused(mut r) if r.number == 5 => {
            let stored = b[52..56].try_into().expect("4 bytes");
            let values = [bare::block_crc(b), u32::from_le_bytes(stored)].map(u64::from);
            r.values = Some(values.into());
            Outcome::Refused(r)
        }
        other => other,
    }
}

pub fn parse_block(g: &Geometry, kind: Kind, b: &[u8], block: u32, level: u16) -> Outcome<Header> {
    let order = match kind {
        Kind::Older(tree) => return paper::parse_block(g, tree, b, block, level),
        Kind::Free(order) => order,
    };
    if !paper::geometry_holds(g) {
        return Outcome::paper(1);
    }
    let r = ag_btree::parse_block(b, &g.superblock(), order.shape(), g.agno, block, level);
    with_crc_values(Outcome::from_rust(r), b).map(|n| Header {
        level: n.level,
        records: n.numrecs,
        body: n.body,
        capacity: n.maxrecs,
    })
}

pub fn plan(g: &Geometry, kind: Kind, records: u64) -> Outcome<Vec<u64>> {
    let order = match kind {
        Kind::Older(tree) => return paper::plan(g, tree, records),
        Kind::Free(order) => order,
    };
    if !paper::geometry_holds(g) {
        return Outcome::paper(1);
    }
    let sb = g.superblock();
    let r = ag_btree::plan(order.shape(), sb.blocksize, sb.is_v5(), records as usize);
    Outcome::from_rust(r.map(|v| v.into_iter().map(|n| n as u64).collect()))
}

/// The original alone: the built blocks one after another, root last.
pub fn bare_build(g: &Geometry, kind: Kind, list: &[u8], blocks: &[u32]) -> Outcome<Vec<u8>> {
    let order = match kind {
        Kind::Older(tree) => return bare::build(g, tree, list, blocks),
        Kind::Free(order) => order,
    };
    let (sb, shape) = (g.superblock(), order.shape());
    let built = ag_btree::build(
        &sb,
        shape,
        g.agno,
        &free::extents(list),
        blocks,
        encode_free_extent,
        // A key is the record.
        |b, at, below| encode_free_extent(b, at, &below[0]),
    );
    Outcome::from_rust(built.map(|all| {
        let mut out = Vec::with_capacity(all.len() * sb.blocksize as usize);
        for b in &all {
            out.extend_from_slice(&b.bytes);
        }
        out
    }))
}

/// `room` is the length of the lent output.
pub fn build(
    g: &Geometry,
    kind: Kind,
    list: &[u8],
    blocks: &[u32],
    room: usize,
) -> Outcome<Vec<u8>> {
    let order = match kind {
        Kind::Older(tree) => return paper::build(g, tree, list, blocks, room),
        Kind::Free(order) => order,
    };
    if !paper::geometry_holds(g) {
        return Outcome::paper(1);
    }
    if let Some(number) = free::refused(order, list) {
        return Outcome::paper(number);
    }
    match bare_build(g, kind, list, blocks) {
        Outcome::Accepted(out) if out.len() > room => Outcome::paper(18),
        other => other,
    }
}

/// The original over an image, with nothing that could be too short.
pub fn bare_walk(g: &Geometry, kind: Kind, image: &[u8], root: u32, levels: u32) -> WalkAnswer {
    match kind {
        Kind::Older(tree) => bare::walk_blocks(g, tree, image, root, levels),
        Kind::Free(_) => walk_blocks(g, kind, image, root, levels, &paper::Lent::PLENTY),
    }
}

pub fn walk_blocks(
    g: &Geometry,
    kind: Kind,
    image: &[u8],
    root: u32,
    levels: u32,
    lent: &paper::Lent,
) -> WalkAnswer {
    let refused = |number: u8, visits: u64| WalkAnswer {
        visits,
        outcome: Outcome::paper(number),
    };
    if !paper::geometry_holds(g) {
        return refused(1, 0);
    }
    let short = lent.stack_places < STACK_PLACES || lent.scratch_places < lent.block_places;
    if (1..=9).contains(&levels) && short {
        return refused(12, 0);
    }
    let order = match kind {
        Kind::Older(tree) => {
            let stack_places = usize::MAX;
            let lent = &paper::Lent {
                stack_places,
                ..*lent
            };
            return paper::walk_blocks(g, tree, image, root, levels, lent);
        }
        Kind::Free(order) => order,
    };
    // 15 comes after a block passed 4 to 10. The original has no such question,
    // so the walk goes on and is stopped at the next block; what it says of that
    // next block is put aside.
    let room = lent.record_bytes / kind.record_len();
    let (mut visits, mut records) = (0, 0);
    let (mut last, mut full_at) = (None, None);
    let read = |n: u32| -> Result<Vec<u8>> {
        if full_at.is_some() {
            return Err(Error::ListFull);
        }
        visits += 1;
        let b = bare::block_of(image, g.block_size, n).ok_or(Error::OutsideImage(n))?;
        last = Some(b);
        if b[4..6] == [0, 0] {
            records += usize::from(b[6]) * 256 + usize::from(b[7]);
        }
        if visits > lent.block_places as u64 || records > room {
            full_at = Some(visits);
        }
        Ok(b.to_vec())
    };
    let copy = |b: &[u8], at: usize| -> [u8; 8] { b[at..at + 8].try_into().expect("8 bytes") };
    let (sb, shape) = (g.superblock(), order.shape());
    let r = ag_btree::walk_blocks(&sb, shape, g.agno, root, levels, read, copy);
    let r = r.map(|(records, blocks)| Walked {
        records: records.into_flattened(),
        blocks,
    });
    let outcome = with_crc_values(Outcome::from_rust(r), last.unwrap_or_default());
    match full_at {
        // The block that filled the lists itself failed: its own number stands.
        Some(at) if !matches!(outcome.number(), Some(4..=10)) => refused(15, at),
        _ => WalkAnswer { visits, outcome },
    }
}

//! Neighbours on a level, by their definition: the original writes all ones
//! for both and looks at neither, so bytes 8 to 15 of a block, and with them
//! its check, are measured against this module. The part `links` of the
//! comparison changes single links.

use crate::blocks::{geometry, seal};
use crate::kinds::{self, header_len, pointer, Kind};
use crate::sequence;
use crate::tally::Tally;
use crate::trees::{self, Room};
use oracle::ag_btree::reach::stamp;
use oracle::bare::Walked;
use oracle::refusal::Outcome;
use oracle::sample::Random;
use oracle::Geometry;

/// The walks that are noted by what they say of the links.
pub const LINKED: &str = "walk_linked, of those done";

/// What a block names where it has no neighbour.
pub const NONE: u32 = u32::MAX;

/// Where a block names the one before it, and the one after.
const SIDES: [usize; 2] = [8, 12];

/// The number at a place, of 4 bytes.
pub fn be32(b: &[u8], at: usize) -> u32 {
    u32::from_be_bytes(b[at..at + 4].try_into().expect("4 bytes"))
}

pub fn put(b: &mut [u8], at: usize, n: u32) {
    b[at..at + 4].copy_from_slice(&n.to_be_bytes());
}

/// Block n of an image.
pub fn block<'a>(g: &Geometry, image: &'a [u8], n: u32) -> &'a [u8] {
    let size = g.block_size as usize;
    &image[n as usize * size..][..size]
}

/// The blocks that a block names before and after it.
pub fn named(b: &[u8]) -> [u32; 2] {
    SIDES.map(|at| be32(b, at))
}

/// Put both into a block, and its check anew.
fn name(g: &Geometry, b: &mut [u8], siblings: [u32; 2]) {
    SIDES
        .into_iter()
        .zip(siblings)
        .for_each(|(at, n)| put(b, at, n));
    seal(g, b);
}

/// The blocks that each block of a level is to name: the one before it and the
/// one after.
fn neighbours(level: &[u32]) -> Vec<[u32; 2]> {
    let before = [NONE].into_iter().chain(level.iter().copied());
    let after = level.iter().copied().skip(1).chain([NONE]);
    before.zip(after).map(|(b, a)| [b, a]).collect()
}

/// Put its neighbours into each block of a built tree, and the check anew. The
/// blocks have their numbers by level, leaves first.
pub fn link(g: &Geometry, plan: &[u64], numbers: &[u32], built: &mut [u8]) {
    let mut blocks = built.chunks_exact_mut(g.block_size as usize);
    let mut rest = numbers;
    for &n in plan {
        let (level, above) = rest.split_at(n as usize);
        rest = above;
        for due in neighbours(level) {
            let b = blocks.next().expect("a block of the plan");
            assert_eq!(named(b), [NONE; 2], "the original names none");
            name(g, b, due);
        }
    }
    assert!(rest.is_empty() && blocks.next().is_none());
}

/// The original's build, linked, with the geometry's last sequence number.
pub fn build(
    g: &Geometry,
    kind: Kind,
    list: &[u8],
    numbers: &[u32],
    room: usize,
) -> Outcome<Vec<u8>> {
    build_at(g, sequence::last_lsn(g), kind, list, numbers, room)
}

/// The same with another number.
pub fn build_at(
    g: &Geometry,
    last: u64,
    kind: Kind,
    list: &[u8],
    numbers: &[u32],
    room: usize,
) -> Outcome<Vec<u8>> {
    kinds::build(g, kind, list, numbers, room).map(|mut built| {
        let n = (list.len() / kind.record_len()) as u64;
        let plan = kinds::plan(g, kind, n).accepted().expect("a plan");
        sequence::number(g, last, &mut built);
        link(g, &plan, numbers, &mut built);
        built
    })
}

/// The blocks of a walk by level. Its list has them leaves first, those of a
/// level in the order met, and each block's level is the one that it states:
/// question 9.
fn levels<'a>(g: &Geometry, image: &[u8], list: &'a [u32]) -> Vec<&'a [u32]> {
    let stated = |n: u32| &block(g, image, n)[4..6];
    list.chunk_by(|&a, &b| stated(a) == stated(b)).collect()
}

/// Is every level of a walked tree linked: does each of its blocks, in the
/// order met, name the one before it and the one after?
pub fn linked(g: &Geometry, image: &[u8], list: &[u32]) -> bool {
    levels(g, image, list).into_iter().all(|level| {
        let met = level.iter().map(|&n| named(block(g, image, n)));
        met.eq(neighbours(level))
    })
}

/// Link the blocks of an image in the order in which a walk met them.
fn relink(g: &Geometry, image: &mut [u8], list: &[u32]) {
    let size = g.block_size as usize;
    for level in levels(g, image, list) {
        for (&n, due) in level.iter().zip(neighbours(level)) {
            let b = &mut image[n as usize * size..][..size];
            name(g, b, due);
        }
    }
}

/// A tree in an image, with room for its walk.
struct Stored {
    g: Geometry,
    kind: Kind,
    image: Vec<u8>,
    /// Its blocks, leaves first.
    at: Vec<u32>,
    levels: u32,
    room: Room,
}

/// A built tree of n records; none where the geometry is refused.
fn stored(r: &mut Random, g: Geometry, kind: Kind, n: usize, tally: &mut Tally) -> Option<Stored> {
    let size = g.block_size as usize;
    let list = trees::list(r, kind, n);
    let plan = kinds::plan(&g, kind, n as u64).accepted()?;
    let total = plan.iter().sum::<u64>() as usize;
    let most = total + r.below(4) as usize;
    let at = trees::numbers(r, total, most);
    let built = trees::one_build(&g, kind, &list, &at, total * size, tally)?;
    let mut image = vec![0; most * size];
    for (&n, b) in at.iter().zip(built.chunks_exact(size)) {
        image[n as usize * size..][..size].copy_from_slice(b);
    }
    let levels = plan.len() as u32;
    let room = Room {
        stack: kinds::enough(r, &g, kind, levels),
        scratch: total,
        blocks: total,
        bytes: list.len(),
    };
    Some(Stored {
        g,
        kind,
        image,
        at,
        levels,
        room,
    })
}

impl Stored {
    fn block(&mut self, n: u32) -> &mut [u8] {
        let size = self.g.block_size as usize;
        &mut self.image[n as usize * size..][..size]
    }

    /// Change a number of a block, and put its check right.
    fn change(&mut self, n: u32, at: usize, to: u32) {
        let g = self.g;
        let b = self.block(n);
        put(b, at, to);
        seal(&g, b);
    }

    /// The walks; what they gave, where they were done.
    fn walk(&self, tally: &mut Tally) -> Option<(Walked, bool)> {
        let root = *self.at.last().expect("a root");
        let Stored { g, kind, image, .. } = self;
        trees::one_walk(g, *kind, image, root, self.levels, self.room, tally)
    }
}

/// A tree that is linked, then with each link of some of its blocks in turn
/// changed to another number: the walk as before, and not linked.
fn single_links(r: &mut Random, t: &mut Stored, blocks: &[u32], tally: &mut Tally) {
    let (whole, linked) = t.walk(tally).expect("a whole tree is walked");
    assert!(linked, "a whole tree is linked");
    for &n in blocks {
        for at in SIDES {
            let was = be32(t.block(n), at);
            let other = r.pick(&t.at);
            for to in [r.next() as u32, NONE, n, other, was ^ 1 << r.below(32)] {
                if to == was {
                    continue;
                }
                t.change(n, at, to);
                let (walked, linked) = t.walk(tally).expect("a link is no question of the walk");
                assert!(walked == whole && !linked, "block {n}: {was} made {to}");
            }
            t.change(n, at, was);
        }
    }
}

/// Two pointers of a node, exchanged: the order in which the walk meets the
/// blocks is another, and the tree is linked once its links go by that.
fn other_order(r: &mut Random, t: &mut Stored, tally: &mut Tally) {
    let (g, kind) = (t.g, t.kind);
    let root = *t.at.last().expect("a root");
    let b = t.block(root);
    let n = u64::from(b[6]) * 256 + u64::from(b[7]);
    let pointer = |i: u64| pointer(&g, kind, i as usize);
    let i = r.below(n);
    let j = (i + 1 + r.below(n - 1)) % n;
    let (x, y) = (be32(b, pointer(i)), be32(b, pointer(j)));
    t.change(root, pointer(i), y);
    t.change(root, pointer(j), x);
    let (walked, linked) = t.walk(tally).expect("the order is no question of the walk");
    assert!(!linked, "pointers {i} and {j} of the root exchanged");
    relink(&g, &mut t.image, &walked.blocks);
    let (again, linked) = t.walk(tally).expect("a link is no question of the walk");
    assert!(again == walked && linked, "linked as met");
}

/// Nine levels: below the root each has two blocks, side by side, and each node
/// of them one child.
fn tall(kind: Kind, version: u64) -> Stored {
    let g = Geometry {
        version,
        ..Geometry::v5(512)
    };
    let at: Vec<u32> = (0..17).collect();
    let mut image = vec![0; at.len() * 512];
    for (&n, b) in at.iter().zip(image.chunks_exact_mut(512)) {
        let level = n as u16 / 2;
        let children = match level {
            0 => vec![],
            8 => vec![14, 15],
            _ => vec![n - 2],
        };
        for (i, &child) in children.iter().enumerate() {
            put(b, pointer(&g, kind, i), child);
        }
        let records = children.len() as u16;
        stamp(b, &g.superblock(), kind.shape(), g.agno, n, level, records);
    }
    relink(&g, &mut image, &at);
    let room = Room {
        stack: kinds::STACK_PLACES,
        scratch: at.len(),
        blocks: at.len(),
        bytes: 0,
    };
    Stored {
        g,
        kind,
        image,
        at,
        levels: 9,
        room,
    }
}

/// Trees in so many geometries.
pub fn links_of(r: &mut Random, of: &[Kind], times: u64, tally: &mut Tally) {
    for _ in 0..times {
        let mut g = geometry(r, false);
        g.version = 5;
        let kind = r.pick(of);
        kinds::some_version(r, kind, &mut g);
        let leaf = (g.block_size as usize - header_len(&g)) / kind.record_len();
        let leaves = r.pick(&[1, 3, 10, 30]);
        let n = r.below(leaves * leaf as u64 + 1) as usize;
        let Some(mut t) = stored(r, g, kind, n, tally) else {
            continue;
        };
        let all = t.at.clone();
        single_links(r, &mut t, &all, tally);
        if t.levels > 1 {
            other_order(r, &mut t, tally);
        }
    }
}

/// As many levels as a walk takes.
pub fn tall_links(r: &mut Random, of: &[Kind], version: u64, tally: &mut Tally) {
    for &kind in of {
        let mut t = tall(kind, version);
        let all = t.at.clone();
        single_links(r, &mut t, &all, tally);
    }
}

pub fn links(r: &mut Random, scale: u64, tally: &mut Tally) {
    links_of(r, &Kind::OLDER, 1000 * scale, tally);
    // A built tree of five levels: the upper three, some of the nodes below
    // them, and some of all blocks.
    let mut g = Geometry::v5(512);
    g.agblocks = 2000;
    let mut t = stored(r, g, Kind::RMAP, 19 * 1001, tally).expect("a tree");
    assert_eq!(t.levels, 5);
    let mut some = t.at[1001 + 80..].to_vec();
    some.extend((0..30 * scale).map(|_| r.pick(&t.at)));
    single_links(r, &mut t, &some, tally);
    tall_links(r, &Kind::OLDER, 5, tally);
    tally.met_both(LINKED);
}

//! CRC32C, and the calls on blocks and trees.

use crate::geometry::{Geometry, Kind};
use crate::group::Root;
use crate::question::{answer, Refusal, WalkRefusal};
use crate::raw;

/// What a block names as its sibling where there is none: at both ends of a
/// level.
pub const NO_SIBLING: u32 = u32::MAX;

/// The places that the stack of a [`walk`], a [`walk_linked`] or a [`lookup`] has
/// to have: a block and its next child for each of nine levels, whatever the
/// levels, the kind and the block size of the tree. A [`walk_textbook`] has none.
///
/// ```
/// use kf::{Geometry, Kind, Lent, Question, Tree, STACK_PLACES};
/// // Blocks of 65,536 bytes, in which a node has room for 8,185 children.
/// let g = Geometry::new(5, 65_536, 2, 0, [7; 16]);
/// let image = Tree::build(&g, Kind::Refcount, &[], &[0]).unwrap();
/// let walk = |places| {
///     let (mut stack, mut scratch, mut blocks) = (vec![9; places], [9], [9]);
///     let lent = Lent::new(&mut stack, &mut scratch, &mut blocks, &mut []);
///     let walked = kf::walk(&g, Kind::Refcount, &image, 0, 1, lent);
///     (walked, stack)
/// };
/// // All of the stack that was lent is zero afterwards.
/// let (walked, stack) = walk(STACK_PLACES + 2);
/// assert_eq!((walked.unwrap().visits, stack), (1, vec![0; 20]));
/// assert_eq!(walk(STACK_PLACES).0.unwrap().visits, 1);
/// // One place fewer is refused by 12, which touches nothing.
/// let (refused, stack) = walk(STACK_PLACES - 1);
/// assert_eq!(refused.unwrap_err().refusal.question(), Some(Question::Scratch));
/// assert_eq!(stack, [9; 17]);
/// ```
pub const STACK_PLACES: usize = 18;

/// CRC32C of the bytes, four at a step.
///
/// ```
/// assert_eq!(kf::crc32c(b"123456789"), 0xE306_9283);
/// ```
pub fn crc32c(bytes: &[u8]) -> u32 {
    // SAFETY: a slice of bytes, which the call reads.
    unsafe { raw::kf_crc32c(bytes.as_ptr(), bytes.len()) }
}

/// CRC32C of the bytes, one at a step: the same as [`crc32c`] on every input.
///
/// ```
/// let block: Vec<u8> = (0..=255).collect();
/// for from in 0..8 {
///     assert_eq!(kf::crc32c_singly(&block[from..]), kf::crc32c(&block[from..]));
/// }
/// assert_eq!(kf::crc32c_singly(b"123456789"), 0xE306_9283);
/// ```
pub fn crc32c_singly(bytes: &[u8]) -> u32 {
    // SAFETY: a slice of bytes, which the call reads.
    unsafe { raw::kf_crc32c_singly(bytes.as_ptr(), bytes.len()) }
}

/// What a checked block says of itself.
#[derive(Debug, Clone, Copy, PartialEq, Eq)]
#[non_exhaustive]
pub struct Header {
    /// The records or entries that the block has.
    pub numrecs: u16,
    /// How many records or entries the block has room for.
    pub maxrecs: usize,
    /// The block that it names before it on its level, or [`NO_SIBLING`].
    pub leftsib: u32,
    /// The block that it names after it on its level, or [`NO_SIBLING`].
    pub rightsib: u32,
}

/// Is it block `block` of the group's tree, at level `level`? Questions 1 to 8,
/// 30, 9 and 10. The siblings are handed back and not asked about;
/// [`walk_linked`] asks.
///
/// ```
/// use kf::{check_block, Geometry, Kind, Values, NO_SIBLING};
/// let g = Geometry::new(5, 512, 100, 0, [7; 16]);
/// // A tree of no records is one block.
/// let mut out = [0; 512];
/// kf::build(&g, Kind::Rmap, &[], &[9], &mut out).unwrap();
/// let header = check_block(&g, Kind::Rmap, 9, 0, &out).unwrap();
/// assert_eq!((header.numrecs, header.maxrecs), (0, 19));
/// // Alone on its level.
/// assert_eq!((header.leftsib, header.rightsib), (NO_SIBLING, NO_SIBLING));
/// // The same bytes are no block 8: the address is wrong.
/// let refusal = check_block(&g, Kind::Rmap, 8, 0, &out).unwrap_err();
/// assert_eq!(refusal.number, 8);
/// assert_eq!(refusal.values, Some(Values::new(8, 9)));
/// ```
pub fn check_block(
    g: &Geometry,
    kind: Kind,
    block: u32,
    level: u16,
    bytes: &[u8],
) -> Result<Header, Refusal> {
    let mut said = [0; 4];
    let (high, low) = g.uuid_halves();
    // SAFETY: a slice that the call reads, and four numbers that it writes.
    let n = unsafe {
        raw::kf_check_block(
            g.version,
            g.blocksize,
            g.agblocks,
            g.agno,
            high,
            low,
            g.last_lsn,
            kind.number(),
            block,
            level,
            bytes.as_ptr(),
            bytes.len(),
            &mut said,
        )
    };
    let header = Header {
        numrecs: said[0] as u16,
        maxrecs: said[1] as usize,
        leftsib: said[2] as u32,
        rightsib: said[3] as u32,
    };
    answer(n, &said, header)
}

/// The blocks of a tree, by level.
#[derive(Debug, Clone, Copy, PartialEq, Eq)]
#[non_exhaustive]
pub struct Plan {
    blocks: [u64; 9],
    levels: usize,
    /// The blocks of all levels.
    pub total: u64,
}

impl Plan {
    /// The blocks of each level, leaves first.
    pub fn levels(&self) -> &[u64] {
        &self.blocks[..self.levels]
    }

    /// Where the tree begins that is built at these numbers; none where they are
    /// not as many as planned.
    ///
    /// ```
    /// use kf::{plan, Geometry, Kind, Root};
    /// let g = Geometry::new(5, 512, 100, 0, [7; 16]);
    /// let p = plan(&g, Kind::Rmap, 50).unwrap();
    /// assert_eq!(p.root(&[5, 2, 8, 4]), Some(Root::new(4, 2, 4)));
    /// assert_eq!(p.root(&[5, 2, 8]), None);
    /// ```
    pub fn root(&self, numbers: &[u32]) -> Option<Root> {
        let blocks = u32::try_from(self.total).ok()?;
        match numbers {
            // The root is built last.
            [.., root] if numbers.len() as u64 == self.total => {
                Some(Root::new(*root, self.levels as u32, blocks))
            }
            _ => None,
        }
    }
}

/// How many blocks each level of a tree of so many records has. Questions 1
/// and 16.
///
/// ```
/// use kf::{plan, Geometry, Kind};
/// let g = Geometry::new(5, 4096, 0, 0, [0; 16]);
/// let p = plan(&g, Kind::Rmap, 15_289).unwrap();
/// assert_eq!(p.levels(), [92, 2, 1]);
/// assert_eq!(p.total, 95);
/// ```
pub fn plan(g: &Geometry, kind: Kind, records: u64) -> Result<Plan, Refusal> {
    let mut said = [0; 4];
    let mut blocks = [0; 9];
    let (high, low) = g.uuid_halves();
    // SAFETY: nine and four numbers. The call writes the four, and the nine
    // unless it refuses.
    let n = unsafe {
        raw::kf_plan(
            g.version,
            g.blocksize,
            g.agblocks,
            g.agno,
            high,
            low,
            g.last_lsn,
            kind.number(),
            records,
            &mut blocks,
            &mut said,
        )
    };
    let plan = Plan {
        blocks,
        levels: said[0] as usize,
        total: said[1],
    };
    answer(n, &said, plan)
}

/// What a build wrote.
#[derive(Debug, Clone, Copy, PartialEq, Eq)]
#[non_exhaustive]
pub struct Built {
    /// The number of blocks.
    pub blocks: usize,
    /// The bytes of them all.
    pub bytes: usize,
}

/// Lays a list out afresh as a tree. `numbers` are the numbers in the group of
/// the planned blocks, leaves first; the blocks stand one after another in
/// `out`, root last. Each names the one before it on its level and the one
/// after, [`NO_SIBLING`] at both ends, and on version 5 has the geometry's last
/// sequence number. Questions 1, 3, 19, 20 or 21, 16, 17 and 18.
///
/// ```
/// use kf::{build, Geometry, Kind, Rmap};
/// let g = Geometry::new(5, 512, 100, 0, [7; 16]);
/// let r = Rmap { startblock: 4, blockcount: 2, owner: 7, offset: 0 };
/// let mut out = [0; 512];
/// let built = build(&g, Kind::Rmap, &r.to_bytes(), &[9], &mut out).unwrap();
/// assert_eq!((built.blocks, built.bytes), (1, 512));
/// assert_eq!(out[56..80], r.to_bytes());
/// // The one block of its level has no sibling.
/// assert_eq!(out[8..16], [0xFF; 8]);
/// assert_eq!(build(&g, Kind::Rmap, &r.to_bytes(), &[], &mut out).unwrap_err().number, 17);
/// ```
pub fn build(
    g: &Geometry,
    kind: Kind,
    list: &[u8],
    numbers: &[u32],
    out: &mut [u8],
) -> Result<Built, Refusal> {
    let mut said = [0; 4];
    let (high, low) = g.uuid_halves();
    // SAFETY: two slices that the call reads, one that it writes, and four
    // numbers that it writes.
    let n = unsafe {
        raw::kf_build(
            g.version,
            g.blocksize,
            g.agblocks,
            g.agno,
            high,
            low,
            g.last_lsn,
            kind.number(),
            list.as_ptr(),
            list.len(),
            numbers.as_ptr(),
            numbers.len(),
            out.as_mut_ptr(),
            out.len(),
            &mut said,
        )
    };
    let built = Built {
        blocks: said[0] as usize,
        bytes: said[1] as usize,
    };
    answer(n, &said, built)
}

/// What a walk is lent: a stack of [`STACK_PLACES`] places or more, as many
/// places of scratch as the block list has, and the two lists.
#[derive(Debug)]
#[non_exhaustive]
pub struct Lent<'a> {
    /// The blocks that are due.
    pub stack: &'a mut [u32],
    /// The blocks visited, each with its level.
    pub scratch: &'a mut [u64],
    /// Gets the blocks by level, leaves first.
    pub blocks: &'a mut [u32],
    /// Gets the bytes of the records.
    pub records: &'a mut [u8],
}

impl<'a> Lent<'a> {
    /// The four, as given; the walk asks whether stack and scratch are long
    /// enough (question 12).
    pub fn new(
        stack: &'a mut [u32],
        scratch: &'a mut [u64],
        blocks: &'a mut [u32],
        records: &'a mut [u8],
    ) -> Lent<'a> {
        Lent {
            stack,
            scratch,
            blocks,
            records,
        }
    }
}

/// What a textbook walk is lent: what a [`walk`] is, but no stack.
#[derive(Debug)]
#[non_exhaustive]
pub struct WalkLists<'a> {
    /// The blocks visited, each with its level.
    pub scratch: &'a mut [u64],
    /// Gets the blocks by level, leaves first.
    pub blocks: &'a mut [u32],
    /// Gets the bytes of the records.
    pub records: &'a mut [u8],
}

impl<'a> WalkLists<'a> {
    /// The three, as given; the walk asks whether the scratch is long enough
    /// (question 12).
    pub fn new(
        scratch: &'a mut [u64],
        blocks: &'a mut [u32],
        records: &'a mut [u8],
    ) -> WalkLists<'a> {
        WalkLists {
            scratch,
            blocks,
            records,
        }
    }
}

/// What a finished walk gave.
#[derive(Debug, Clone, Copy, PartialEq, Eq)]
#[non_exhaustive]
pub struct Walked {
    /// The blocks read, which is the length of the block list.
    pub visits: usize,
    /// The number of records.
    pub records: usize,
    /// The bytes of the records.
    pub bytes: usize,
}

type WalkCall = unsafe extern "C" fn(
    u16,
    u32,
    u32,
    u32,
    u64,
    u64,
    u64,
    u32,
    *const u8,
    usize,
    u32,
    u32,
    *mut u32,
    usize,
    *mut u64,
    usize,
    *mut u32,
    usize,
    *mut u8,
    usize,
    *mut [u64; 4],
) -> u32;

/// What a walk of a tree of the kind came to, with its fourth figure.
fn walk_answer(kind: Kind, n: u32, said: &[u64; 4]) -> Result<(Walked, u64), WalkRefusal> {
    let walked = Walked {
        visits: said[0] as usize,
        records: said[1] as usize,
        bytes: said[2] as usize,
    };
    answer(n, said, (walked, said[3]))
        .map_err(|refusal| WalkRefusal::new(kind, refusal, said[2] as usize))
}

/// A walk by one of the two calls on a stack, with its fourth figure.
fn walk_by(
    f: WalkCall,
    g: &Geometry,
    kind: Kind,
    image: &[u8],
    root: u32,
    levels: u32,
    lent: Lent<'_>,
) -> Result<(Walked, u64), WalkRefusal> {
    let mut said = [0; 4];
    let (high, low) = g.uuid_halves();
    // SAFETY: a slice that the call reads, four that it writes, which do not
    // overlap, and four numbers that it writes.
    let n = unsafe {
        f(
            g.version,
            g.blocksize,
            g.agblocks,
            g.agno,
            high,
            low,
            g.last_lsn,
            kind.number(),
            image.as_ptr(),
            image.len(),
            root,
            levels,
            lent.stack.as_mut_ptr(),
            lent.stack.len(),
            lent.scratch.as_mut_ptr(),
            lent.scratch.len(),
            lent.blocks.as_mut_ptr(),
            lent.blocks.len(),
            lent.records.as_mut_ptr(),
            lent.records.len(),
            &mut said,
        )
    };
    walk_answer(kind, n, &said)
}

/// Reads a tree of so many levels from its root. The image is the group, block
/// n at n times the block size. Questions 1, 11 and 12, then at each block 13,
/// 14, 3 to 8, 30, 9, 10 and 15.
///
/// ```
/// use kf::{build, walk, Geometry, Kind, Lent, Rmap, STACK_PLACES};
/// let g = Geometry::new(5, 512, 2, 0, [7; 16]);
/// let list = Rmap { startblock: 4, blockcount: 2, owner: 7, offset: 0 }.to_bytes();
/// let mut image = [0; 1024];
/// build(&g, Kind::Rmap, &list, &[1], &mut image[512..]).unwrap();
/// let (mut stack, mut scratch) = ([0; STACK_PLACES], [0; 4]);
/// let (mut blocks, mut records) = ([0; 4], [0; 96]);
/// let lent = Lent::new(&mut stack, &mut scratch, &mut blocks, &mut records);
/// let walked = walk(&g, Kind::Rmap, &image, 1, 1, lent).unwrap();
/// assert_eq!((walked.visits, walked.records, walked.bytes), (1, 1, 24));
/// assert_eq!(blocks[0], 1);
/// assert_eq!(records[..24], list);
/// ```
pub fn walk(
    g: &Geometry,
    kind: Kind,
    image: &[u8],
    root: u32,
    levels: u32,
    lent: Lent<'_>,
) -> Result<Walked, WalkRefusal> {
    walk_by(raw::kf_walk, g, kind, image, root, levels, lent).map(|(walked, _)| walked)
}

/// The same walk, which refuses and leaves what [`walk`] does, and is every
/// level of the tree linked? A level is, where each of its blocks, in the order
/// met, names the one before it and the one after, [`NO_SIBLING`] at both ends;
/// a block met twice is judged at each meeting. The tree of a [`build`] is
/// linked.
///
/// ```
/// use kf::{build, plan, walk_linked, Geometry, Kind, Lent, Rmap, STACK_PLACES};
/// let g = Geometry::new(5, 512, 9, 0, [7; 16]);
/// let list: Vec<u8> = (0..50)
///     .flat_map(|i| Rmap { startblock: 8 * i, blockcount: 2, owner: 7, offset: 0 }.to_bytes())
///     .collect();
/// // Three leaves of up to 19 records, and the root.
/// assert_eq!(plan(&g, Kind::Rmap, 50).unwrap().levels(), [3, 1]);
/// let numbers: [u32; 4] = [5, 2, 8, 4];
/// let mut built = [0; 4 * 512];
/// build(&g, Kind::Rmap, &list, &numbers, &mut built).unwrap();
/// // Store each block at its number.
/// let mut image = [0; 9 * 512];
/// for (n, block) in numbers.iter().zip(built.chunks(512)) {
///     image[512 * *n as usize..][..512].copy_from_slice(block);
/// }
///
/// let records_of = |image: &[u8]| {
///     let (mut stack, mut scratch) = ([0; STACK_PLACES], [0; 4]);
///     let (mut blocks, mut records) = ([0; 4], vec![0; 50 * 24]);
///     let lent = Lent::new(&mut stack, &mut scratch, &mut blocks, &mut records);
///     let (walked, linked) = walk_linked(&g, Kind::Rmap, image, 4, 2, lent).unwrap();
///     assert_eq!((walked.visits, walked.records), (4, 50));
///     (records, linked)
/// };
/// assert_eq!(records_of(&image), (list.clone(), true));
///
/// // The middle leaf names another block as the one after it, and its CRC is
/// // put right again: the same records, no longer linked.
/// let leaf = &mut image[2 * 512..][..512];
/// leaf[12..16].copy_from_slice(&5u32.to_be_bytes());
/// leaf[52..56].fill(0);
/// let crc = kf::crc32c(leaf);
/// leaf[52..56].copy_from_slice(&crc.to_le_bytes());
/// assert_eq!(records_of(&image), (list, false));
/// ```
pub fn walk_linked(
    g: &Geometry,
    kind: Kind,
    image: &[u8],
    root: u32,
    levels: u32,
    lent: Lent<'_>,
) -> Result<(Walked, bool), WalkRefusal> {
    walk_by(raw::kf_walk_linked, g, kind, image, root, levels, lent)
        .map(|(walked, linked)| (walked, linked == 1))
}

/// The walk as textbooks have it, for a caller who has no stack to lend: one
/// routine reads a block, another its children from left to right, each calling
/// the other. It gives, refuses and leaves what [`walk`] does on the same image
/// with a stack of [`STACK_PLACES`] places or more. Questions 1, 11 and 12 (the
/// scratch alone, of as many places as the block list or more), then at each
/// block 13, 14, 3 to 8, 30, 9, 10 and 15.
///
/// Its calls go as deep as the tree has levels, however many children a block
/// has, so that it takes little of the machine's stack ([`raw`](crate::raw) says
/// how much).
///
/// ```
/// use kf::{build, walk_textbook, Geometry, Kind, Question, Rmap, WalkLists};
/// let g = Geometry::new(5, 512, 9, 0, [7; 16]);
/// let list: Vec<u8> = (0..50)
///     .flat_map(|i| Rmap { startblock: 8 * i, blockcount: 2, owner: 7, offset: 0 }.to_bytes())
///     .collect();
/// // Three leaves and the root, one after another.
/// let mut image = [0; 4 * 512];
/// build(&g, Kind::Rmap, &list, &[0, 1, 2, 3], &mut image).unwrap();
/// let (mut scratch, mut blocks, mut records) = ([9; 5], [9; 5], vec![9; 50 * 24 + 1]);
/// let lists = WalkLists::new(&mut scratch, &mut blocks, &mut records);
/// let walked = walk_textbook(&g, Kind::Rmap, &image, 3, 2, lists).unwrap();
/// assert_eq!((walked.visits, walked.records, walked.bytes), (4, 50, 1200));
/// // The scratch is zero, and what lies past the results stays.
/// assert_eq!((scratch, blocks), ([0; 5], [0, 1, 2, 3, 9]));
/// assert!(records[..1200] == list && records[1200] == 9);
///
/// // Fewer places of scratch than of the block list are refused by 12, which
/// // touches nothing.
/// let lists = WalkLists::new(&mut scratch[..4], &mut blocks, &mut records);
/// let refused = walk_textbook(&g, Kind::Rmap, &image, 3, 2, lists).unwrap_err();
/// assert_eq!(refused.refusal.question(), Some(Question::Scratch));
/// assert_eq!(blocks, [0, 1, 2, 3, 9]);
///
/// // Refused later, here by a damaged leaf, it leaves all zero.
/// image[512] ^= 1;
/// let lists = WalkLists::new(&mut scratch, &mut blocks, &mut records);
/// let refused = walk_textbook(&g, Kind::Rmap, &image, 3, 2, lists).unwrap_err();
/// assert_eq!((refused.refusal.question(), refused.visits), (Some(Question::Magic), 3));
/// assert!(blocks == [0; 5] && records.iter().all(|&b| b == 0));
/// ```
pub fn walk_textbook(
    g: &Geometry,
    kind: Kind,
    image: &[u8],
    root: u32,
    levels: u32,
    lists: WalkLists<'_>,
) -> Result<Walked, WalkRefusal> {
    let mut said = [0; 4];
    let (high, low) = g.uuid_halves();
    // SAFETY: a slice that the call reads, three that it writes, which do not
    // overlap, and four numbers that it writes.
    let n = unsafe {
        raw::kf_walk_textbook(
            g.version,
            g.blocksize,
            g.agblocks,
            g.agno,
            high,
            low,
            g.last_lsn,
            kind.number(),
            image.as_ptr(),
            image.len(),
            root,
            levels,
            lists.scratch.as_mut_ptr(),
            lists.scratch.len(),
            lists.blocks.as_mut_ptr(),
            lists.blocks.len(),
            lists.records.as_mut_ptr(),
            lists.records.len(),
            &mut said,
        )
    };
    walk_answer(kind, n, &said).map(|(walked, _)| walked)
}

/// How many records of the reverse map lie over each of the block numbers
/// `asked`, in one descent from the root; `answers[i]` is that of `asked[i]`.
/// Gives the visits. The image is the group, block n at n times the block size.
/// Questions 1, 11, 12 (the stack alone, of [`STACK_PLACES`] places or more) and
/// 29, then at each block 13, 14, 3 to 8, 30, 9 and 10.
///
/// A child of a node is skipped where none of the numbers lies from its low
/// key's start to its high key's start, both included. The root is visited
/// always. An answer counts the records of the leaves visited.
///
/// These are all records over the block where three things hold: [`walk`] reads
/// the tree, its records pass 20 ([`check_rmaps`](crate::check_rmaps)), and its
/// keys are those of the records under them. No block is then visited more often
/// than by the walk. That is proved, and the tree of a [`build`] is so. A lookup
/// asks about neither records nor keys. Where records are out of order or keys are
/// others, a block that a record holds can be answered 0, so there 0 does not say
/// that a block is free.
///
/// ```
/// use kf::{build, lookup, Geometry, Kind, Question, Rmap, STACK_PLACES};
/// let g = Geometry::new(5, 512, 9, 0, [7; 16]);
/// // 50 records: blocks 8 and 9, 16 and 17, .., 400 and 401.
/// let list: Vec<u8> = (1..=50)
///     .flat_map(|i| Rmap { startblock: 8 * i, blockcount: 2, owner: 7, offset: 0 }.to_bytes())
///     .collect();
/// // Three leaves and the root, one after another; a walk visits all four.
/// let mut image = [0; 4 * 512];
/// build(&g, Kind::Rmap, &list, &[0, 1, 2, 3], &mut image).unwrap();
/// let (mut stack, mut answers) = ([0; STACK_PLACES], [0; 4]);
///
/// // Inside records of the first leaf and between them: the root and that leaf.
/// let asked = [8, 9, 10, 17];
/// let visits = lookup(&g, &image, 3, 2, &asked, &mut stack, &mut answers).unwrap();
/// assert_eq!((visits, answers), (2, [1, 1, 0, 1]));
/// // Before all records and after them: the root alone.
/// let visits = lookup(&g, &image, 3, 2, &[7, 402], &mut stack, &mut answers).unwrap();
/// // What lies past the answers stays.
/// assert_eq!((visits, answers), (1, [0, 0, 0, 1]));
///
/// // They have to ascend, and each has to have its place.
/// let refused = lookup(&g, &image, 3, 2, &[9, 8], &mut stack, &mut answers).unwrap_err();
/// assert_eq!(refused.refusal.question(), Some(Question::Asked));
/// let refused = lookup(&g, &image, 3, 2, &[7, 8, 9], &mut stack, &mut answers[..2]);
/// assert_eq!(refused.unwrap_err().refusal.number, 29);
/// // That touched nothing.
/// assert_eq!(answers, [0, 0, 0, 1]);
/// ```
pub fn lookup(
    g: &Geometry,
    image: &[u8],
    root: u32,
    levels: u32,
    asked: &[u32],
    stack: &mut [u32],
    answers: &mut [u64],
) -> Result<usize, WalkRefusal> {
    let mut said = [0; 4];
    let (high, low) = g.uuid_halves();
    // SAFETY: two slices that the call reads, two that it writes, which do not
    // overlap, and four numbers that it writes.
    let n = unsafe {
        raw::kf_lookup(
            g.version,
            g.blocksize,
            g.agblocks,
            g.agno,
            high,
            low,
            g.last_lsn,
            image.as_ptr(),
            image.len(),
            root,
            levels,
            asked.as_ptr(),
            asked.len(),
            stack.as_mut_ptr(),
            stack.len(),
            answers.as_mut_ptr(),
            answers.len(),
            &mut said,
        )
    };
    answer(n, &said, said[0] as usize)
        .map_err(|refusal| WalkRefusal::new(Kind::Rmap, refusal, said[2] as usize))
}

#[cfg(test)]
mod tests {
    use super::*;
    use crate::question::{Question, Values};
    use alloc::vec;
    use alloc::vec::Vec;

    const KINDS: [Kind; 4] = [Kind::Rmap, Kind::Refcount, Kind::ByBlock, Kind::BySize];

    /// A block of no records, number 3 of its group, built at this number.
    fn block_at(g: &Geometry, kind: Kind, lsn: u64) -> Vec<u8> {
        let mut out = vec![0xA5; 512];
        build(&g.with_last_lsn(lsn), kind, &[], &[3], &mut out).unwrap();
        out
    }

    /// The check put right after a change.
    fn seal(block: &mut [u8]) {
        block[52..56].fill(0);
        let crc = crc32c(block);
        block[52..56].copy_from_slice(&crc.to_le_bytes());
    }

    /// Numbers on both sides of each bound, as last one and as a block's.
    const NUMBERS: [u64; 12] = [
        0,
        1,
        2,
        (1 << 32) - 1,
        1 << 32,
        (1 << 32) + 1,
        (1 << 33) - 1,
        (1 << 63) - 1,
        1 << 63,
        (1 << 63) + 1,
        u64::MAX - 1,
        u64::MAX,
    ];

    #[test]
    fn no_block_is_newer_than_the_log() {
        let g = Geometry::new(5, 512, 9, 2, [7; 16]);
        for kind in KINDS {
            for found in NUMBERS {
                let block = block_at(&g, kind, found);
                assert_eq!(block[24..32], found.to_be_bytes());
                for last in NUMBERS {
                    let checked = check_block(&g.with_last_lsn(last), kind, 3, 0, &block);
                    let refused = Refusal::new(Question::Sequence, Some(Values::new(last, found)));
                    let due = if found > last { Some(refused) } else { None };
                    assert_eq!(checked.err(), due, "{kind} {found} under {last}");
                }
            }
        }
    }

    /// The halves are no numbers of their own.
    #[test]
    fn by_all_64_bits() {
        let g = Geometry::new(5, 512, 9, 2, [7; 16]);
        let by = |found, last| {
            let block = block_at(&g, Kind::Rmap, found);
            let checked = check_block(&g.with_last_lsn(last), Kind::Rmap, 3, 0, &block);
            checked.err().map(|refusal| refusal.number)
        };
        // The upper half alone is above, then the lower half alone.
        assert_eq!(by(0x0000_0002_0000_0001, 0x0000_0001_0000_0009), Some(30));
        assert_eq!(by(0x0000_0001_0000_0009, 0x0000_0002_0000_0001), None);
    }

    /// After 8 and before 9.
    #[test]
    fn in_its_place() {
        let g = Geometry::new(5, 512, 9, 2, [7; 16]).with_last_lsn(4);
        let block = block_at(&g, Kind::Rmap, 5);
        let number = |n, level, block: &[u8]| {
            let checked = check_block(&g, Kind::Rmap, n, level, block);
            checked.err().map(|refusal| refusal.number)
        };
        assert_eq!(number(3, 0, &block), Some(30));
        assert_eq!(number(4, 0, &block), Some(8));
        assert_eq!(number(3, 1, &block), Some(30));
        // More records than fit.
        let mut full = block.clone();
        full[6..8].fill(0xFF);
        seal(&mut full);
        assert_eq!(number(3, 0, &full), Some(30));
        full[24..32].copy_from_slice(&4u64.to_be_bytes());
        seal(&mut full);
        assert_eq!(number(3, 1, &full), Some(9));
        assert_eq!(number(3, 0, &full), Some(10));
    }

    /// A block of version 4 has records where the number would be.
    #[test]
    fn not_on_version_4() {
        let g = Geometry::new(4, 512, 9, 2, [7; 16]);
        for kind in [Kind::ByBlock, Kind::BySize] {
            let mut block = block_at(&g, kind, 0);
            assert_eq!(block, block_at(&g, kind, u64::MAX));
            block[16..].fill(0xFF);
            assert!(check_block(&g, kind, 3, 0, &block).is_ok());
        }
    }

    /// That its records pass 20 is a premise of what is proved of a lookup, besides
    /// the keys: here the keys are theirs, and a block that a record holds gets 0.
    #[test]
    fn a_lookup_among_records_out_of_order() {
        use crate::records::Rmap;
        let g = Geometry::new(5, 512, 9, 2, [7; 16]);
        let extent = |startblock| Rmap {
            startblock,
            blockcount: 1,
            owner: 7,
            offset: 0,
        };
        // Leaf 0, leaf 1 and the root, block 2.
        let list: Vec<u8> = (0..21).flat_map(|i| extent(9 * i).to_bytes()).collect();
        let mut image = [0; 3 * 512];
        build(&g, Kind::Rmap, &list, &[0, 1, 2], &mut image).unwrap();
        // Leaf 0 holds 10/1, then 2/1; the root has 10 as the start of both its keys.
        let (leaf, rest) = image.split_at_mut(512);
        leaf[6..8].copy_from_slice(&2u16.to_be_bytes());
        leaf[56..80].copy_from_slice(&extent(10).to_bytes());
        leaf[80..104].copy_from_slice(&extent(2).to_bytes());
        seal(leaf);
        let root = &mut rest[512..];
        for key in [56, 76] {
            root[key..key + 4].copy_from_slice(&10u32.to_be_bytes());
        }
        seal(root);

        let (mut stack, mut scratch) = ([0; STACK_PLACES], [0; 3]);
        let (mut blocks, mut records) = ([0; 3], [0; 24 * 24]);
        let lent = Lent::new(&mut stack, &mut scratch, &mut blocks, &mut records);
        let walked = walk(&g, Kind::Rmap, &image, 2, 2, lent).unwrap();
        assert_eq!(blocks, [0, 1, 2]);
        let refused = crate::check_rmaps(&records[..walked.bytes]).unwrap_err();
        assert_eq!(refused.number, 20);
        let mut answers = [9; 2];
        lookup(&g, &image, 2, 2, &[2], &mut stack, &mut answers).unwrap();
        assert_eq!(answers, [0, 9]);
        // With a number beside it by which the leaf is visited, it is counted.
        lookup(&g, &image, 2, 2, &[2, 10], &mut stack, &mut answers).unwrap();
        assert_eq!(answers, [1, 1]);
    }

    /// A plan goes by the number no more than by the UUID.
    #[test]
    fn planned_under_any() {
        let g = Geometry::new(5, 512, 9, 2, [7; 16]);
        for kind in KINDS {
            for last in NUMBERS {
                let planned = plan(&g.with_last_lsn(last), kind, 1000);
                assert_eq!(planned, plan(&g, kind, 1000));
            }
        }
    }
}

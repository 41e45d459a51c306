//! The library's calls: the number and the figures of each, just as they come.

use crate::machine::{given, lent, Call};
use crate::sequence;
use kf::raw;
use oracle::rmap::Rmap;
use oracle::Geometry;

pub struct Said {
    pub number: u32,
    pub figures: [u64; 4],
}

const BEFORE: [u64; 4] = [0x5A5A_5A5A_5A5A_5A5A; 4];

fn said(f: impl FnOnce(&mut [u64; 4]) -> u32) -> Said {
    let mut figures = BEFORE;
    let number = f(&mut figures);
    Said { number, figures }
}

/// As the interface takes a geometry.
#[derive(Clone, Copy)]
pub struct G {
    version: u16,
    blocksize: u32,
    agblocks: u32,
    agno: u32,
    high: u64,
    low: u64,
    last_lsn: u64,
}

pub fn g(g: &Geometry) -> G {
    let n = u128::from_be_bytes(g.meta_uuid);
    G {
        version: u16::try_from(g.version).expect("a version of 16 bits"),
        blocksize: u32::try_from(g.block_size).expect("a block size of 32 bits"),
        agblocks: g.agblocks,
        agno: g.agno,
        high: (n >> 64) as u64,
        low: n as u64,
        last_lsn: sequence::last_lsn(g),
    }
}

impl G {
    /// The same with another last sequence number.
    pub fn at(self, last_lsn: u64) -> G {
        G { last_lsn, ..self }
    }

    /// Its seven numbers as the words of a call.
    fn words(&self) -> [u64; 7] {
        let four = [
            u32::from(self.version),
            self.blocksize,
            self.agblocks,
            self.agno,
        ];
        let [version, blocksize, agblocks, agno] = four.map(u64::from);
        let G {
            high,
            low,
            last_lsn,
            ..
        } = *self;
        [version, blocksize, agblocks, agno, high, low, last_lsn]
    }
}

pub fn crc32c(b: &[u8]) -> u32 {
    kf::crc32c(b)
}

pub fn crc32c_singly(b: &[u8]) -> u32 {
    kf::crc32c_singly(b)
}

pub fn check_rmaps(b: &[u8]) -> u32 {
    // SAFETY: here and below slices by pointer and length, and figures.
    unsafe { raw::kf_check_rmaps(b.as_ptr(), b.len()) }
}

pub fn check_refcounts(b: &[u8]) -> u32 {
    unsafe { raw::kf_check_refcounts(b.as_ptr(), b.len()) }
}

pub fn check_by_block(b: &[u8]) -> u32 {
    unsafe { raw::kf_check_by_block(b.as_ptr(), b.len()) }
}

pub fn check_by_size(b: &[u8]) -> u32 {
    unsafe { raw::kf_check_by_size(b.as_ptr(), b.len()) }
}

pub fn same_extents(by_block: &[u8], by_size: &[u8]) -> Said {
    said(|s| unsafe {
        raw::kf_same_extents(
            by_block.as_ptr(),
            by_block.len(),
            by_size.as_ptr(),
            by_size.len(),
            s,
        )
    })
}

pub fn check_block(g: &G, kind: u32, block: u32, level: u16, b: &[u8]) -> Said {
    said(|s| unsafe {
        raw::kf_check_block(
            g.version,
            g.blocksize,
            g.agblocks,
            g.agno,
            g.high,
            g.low,
            g.last_lsn,
            kind,
            block,
            level,
            b.as_ptr(),
            b.len(),
            s,
        )
    })
}

pub fn plan(g: &G, kind: u32, records: u64, levels: &mut [u64; 9]) -> Said {
    said(|s| unsafe {
        raw::kf_plan(
            g.version,
            g.blocksize,
            g.agblocks,
            g.agno,
            g.high,
            g.low,
            g.last_lsn,
            kind,
            records,
            levels,
            s,
        )
    })
}

pub fn build(g: &G, kind: u32, list: &[u8], numbers: &[u32], out: &mut [u8]) -> Said {
    said(|s| unsafe {
        raw::kf_build(
            g.version,
            g.blocksize,
            g.agblocks,
            g.agno,
            g.high,
            g.low,
            g.last_lsn,
            kind,
            list.as_ptr(),
            list.len(),
            numbers.as_ptr(),
            numbers.len(),
            out.as_mut_ptr(),
            out.len(),
            s,
        )
    })
}

/// Which walk: the one without and the one with the question whether the tree
/// is linked, and the one of two routines that call each other.
#[derive(Debug, Clone, Copy, PartialEq, Eq)]
pub enum Walk {
    Plain,
    Linked,
    Textbook,
}

impl Walk {
    pub const ALL: [Walk; 3] = [Walk::Plain, Walk::Linked, Walk::Textbook];
    /// Those that are lent a stack.
    pub const ON_STACK: [Walk; 2] = [Walk::Plain, Walk::Linked];

    pub fn name(self) -> &'static str {
        match self {
            Walk::Plain => "walk",
            Walk::Linked => "walk_linked",
            Walk::Textbook => "walk_textbook",
        }
    }

    /// The fourth figure of a walk that is done; only the linked one has it.
    pub fn says(self, linked: bool) -> u64 {
        u64::from(self == Walk::Linked && linked)
    }
}

/// A walk; the textbook walk is not given the stack.
#[allow(clippy::too_many_arguments)]
pub fn walk(
    w: Walk,
    g: &G,
    kind: u32,
    image: &[u8],
    root: u32,
    levels: u32,
    stack: &mut [u32],
    scratch: &mut [u64],
    blocks: &mut [u32],
    records: &mut [u8],
) -> Said {
    let f = match w {
        Walk::Plain => raw::kf_walk,
        Walk::Linked => raw::kf_walk_linked,
        Walk::Textbook => {
            return walk_textbook(g, kind, image, root, levels, scratch, blocks, records)
        }
    };
    said(|s| unsafe {
        f(
            g.version,
            g.blocksize,
            g.agblocks,
            g.agno,
            g.high,
            g.low,
            g.last_lsn,
            kind,
            image.as_ptr(),
            image.len(),
            root,
            levels,
            stack.as_mut_ptr(),
            stack.len(),
            scratch.as_mut_ptr(),
            scratch.len(),
            blocks.as_mut_ptr(),
            blocks.len(),
            records.as_mut_ptr(),
            records.len(),
            s,
        )
    })
}

#[allow(clippy::too_many_arguments)]
fn walk_textbook(
    g: &G,
    kind: u32,
    image: &[u8],
    root: u32,
    levels: u32,
    scratch: &mut [u64],
    blocks: &mut [u32],
    records: &mut [u8],
) -> Said {
    said(|s| unsafe {
        raw::kf_walk_textbook(
            g.version,
            g.blocksize,
            g.agblocks,
            g.agno,
            g.high,
            g.low,
            g.last_lsn,
            kind,
            image.as_ptr(),
            image.len(),
            root,
            levels,
            scratch.as_mut_ptr(),
            scratch.len(),
            blocks.as_mut_ptr(),
            blocks.len(),
            records.as_mut_ptr(),
            records.len(),
            s,
        )
    })
}

pub fn lookup(
    g: &G,
    image: &[u8],
    root: u32,
    levels: u32,
    asked: &[u32],
    stack: &mut [u32],
    answers: &mut [u64],
) -> Said {
    said(|s| unsafe {
        raw::kf_lookup(
            g.version,
            g.blocksize,
            g.agblocks,
            g.agno,
            g.high,
            g.low,
            g.last_lsn,
            image.as_ptr(),
            image.len(),
            root,
            levels,
            asked.as_ptr(),
            asked.len(),
            stack.as_mut_ptr(),
            stack.len(),
            answers.as_mut_ptr(),
            answers.len(),
            s,
        )
    })
}

/// The figures of a call, and the bytes of the machine's stack that it took.
fn measured(function: *const (), mut parameters: Vec<u64>) -> (Said, usize) {
    let mut figures = BEFORE;
    parameters.push(figures.as_mut_ptr() as u64);
    let call = Call {
        function,
        parameters,
    };
    // SAFETY: the callers below give each function the words of its parameters,
    // slices by pointer and length, and figures.
    let (number, taken) = unsafe { call.measured() };
    (Said { number, figures }, taken)
}

/// As `walk`, on a stack of the machine that is measured.
#[allow(clippy::too_many_arguments)]
pub fn measured_walk(
    w: Walk,
    g: &G,
    kind: u32,
    image: &[u8],
    root: u32,
    levels: u32,
    stack: &mut [u32],
    scratch: &mut [u64],
    blocks: &mut [u32],
    records: &mut [u8],
) -> (Said, usize) {
    let function = match w {
        Walk::Plain => raw::kf_walk as *const (),
        Walk::Linked => raw::kf_walk_linked as *const (),
        Walk::Textbook => raw::kf_walk_textbook as *const (),
    };
    let mut words = g.words().to_vec();
    words.push(kind.into());
    words.extend(given(image));
    words.extend([root, levels].map(u64::from));
    if w != Walk::Textbook {
        words.extend(lent(stack));
    }
    words.extend(lent(scratch));
    words.extend(lent(blocks));
    words.extend(lent(records));
    measured(function, words)
}

/// As `lookup`, on a stack of the machine that is measured.
pub fn measured_lookup(
    g: &G,
    image: &[u8],
    root: u32,
    levels: u32,
    asked: &[u32],
    stack: &mut [u32],
    answers: &mut [u64],
) -> (Said, usize) {
    let mut words = g.words().to_vec();
    words.extend(given(image));
    words.extend([root, levels].map(u64::from));
    words.extend(given(asked));
    words.extend(lent(stack));
    words.extend(lent(answers));
    measured(raw::kf_lookup as *const (), words)
}

/// Which edit of the reverse map.
#[derive(Debug, Clone, Copy, PartialEq, Eq)]
pub enum Edit {
    Insert,
    InsertShared,
    Remove,
}

impl Edit {
    pub const ALL: [Edit; 3] = [Edit::Insert, Edit::InsertShared, Edit::Remove];

    pub fn name(self) -> &'static str {
        match self {
            Edit::Insert => "insert",
            Edit::InsertShared => "insert_shared",
            Edit::Remove => "remove",
        }
    }
}

pub fn edit(e: Edit, old: &[u8], x: Rmap, new: &mut [u8]) -> Said {
    let f = match e {
        Edit::Insert => raw::kf_insert,
        Edit::InsertShared => raw::kf_insert_shared,
        Edit::Remove => raw::kf_remove,
    };
    said(|s| unsafe {
        f(
            old.as_ptr(),
            old.len(),
            x.startblock,
            x.blockcount,
            x.owner as u64,
            x.offset,
            new.as_mut_ptr(),
            new.len(),
            s,
        )
    })
}

pub fn release(old: &[u8], start: u32, count: u32, new: &mut [u8], free: &mut [u8]) -> Said {
    said(|s| unsafe {
        raw::kf_release(
            old.as_ptr(),
            old.len(),
            start,
            count,
            new.as_mut_ptr(),
            new.len(),
            free.as_mut_ptr(),
            free.len(),
            s,
        )
    })
}

pub fn let_go(
    map: &[u8],
    counts: &[u8],
    x: Rmap,
    new_map: &mut [u8],
    new_counts: &mut [u8],
    free: &mut [u8],
) -> Said {
    said(|s| unsafe {
        raw::kf_let_go(
            map.as_ptr(),
            map.len(),
            counts.as_ptr(),
            counts.len(),
            x.startblock,
            x.blockcount,
            x.owner as u64,
            x.offset,
            new_map.as_mut_ptr(),
            new_map.len(),
            new_counts.as_mut_ptr(),
            new_counts.len(),
            free.as_mut_ptr(),
            free.len(),
            s,
        )
    })
}

pub fn take_held(
    map: &[u8],
    counts: &[u8],
    x: Rmap,
    new_map: &mut [u8],
    new_counts: &mut [u8],
) -> Said {
    said(|s| unsafe {
        raw::kf_take_held(
            map.as_ptr(),
            map.len(),
            counts.as_ptr(),
            counts.len(),
            x.startblock,
            x.blockcount,
            x.owner as u64,
            x.offset,
            new_map.as_mut_ptr(),
            new_map.len(),
            new_counts.as_mut_ptr(),
            new_counts.len(),
            s,
        )
    })
}

/// Why a block of an extent that is let go is free, held or staging.
pub fn explain(map: &[u8], counts: &[u8], x: Rmap, block: u32) -> Said {
    said(|s| unsafe {
        raw::kf_explain(
            map.as_ptr(),
            map.len(),
            counts.as_ptr(),
            counts.len(),
            x.startblock,
            x.blockcount,
            x.owner as u64,
            x.offset,
            block,
            s,
        )
    })
}

/// The changes of a sheet.
pub fn read_sheet(sheet: &[u8], changes: &mut [u8]) -> Said {
    said(|s| unsafe {
        raw::kf_read_sheet(
            sheet.as_ptr(),
            sheet.len(),
            changes.as_mut_ptr(),
            changes.len(),
            s,
        )
    })
}

/// The sheet of a list of changes.
pub fn write_sheet(changes: &[u8], sheet: &mut [u8]) -> Said {
    said(|s| unsafe {
        raw::kf_write_sheet(
            changes.as_ptr(),
            changes.len(),
            sheet.as_mut_ptr(),
            sheet.len(),
            s,
        )
    })
}

/// As `read_sheet`, on a stack of the machine that is measured.
pub fn measured_read_sheet(sheet: &[u8], changes: &mut [u8]) -> (Said, usize) {
    let words = [given(sheet), lent(changes)].concat();
    measured(raw::kf_read_sheet as *const (), words)
}

/// As `write_sheet`, on a stack of the machine that is measured.
pub fn measured_write_sheet(changes: &[u8], sheet: &mut [u8]) -> (Said, usize) {
    let words = [given(changes), lent(sheet)].concat();
    measured(raw::kf_write_sheet as *const (), words)
}

//! The functions of the two archives as C sees them. `kf.h` says the same;
//! `docs/INTERFACE.md` of the repository has the figures of each call, and
//! `docs/QUESTIONS.md` what their answers mean.
//!
//! A slice passes as a pointer and the number of its elements. Every call but
//! the two of CRC32C answers 0 where it was done, else the number of the first
//! question that failed. `said: *mut [u64; 4]` is written whole, refused or
//! not. `levels: *mut [u64; 9]` of a plan is written whole, or by a refusal not
//! at all. `kind` is one of the four `KF_KIND_..`; pass no other: today any
//! other number is taken for [`KF_KIND_REFCOUNT`].
//!
//! # Safety
//!
//! Every function here is unsafe for one reason: it takes pointers, and cannot
//! look where they point. Numbers, and the bytes that are read, may be any.
//!
//! ## Duties of a caller
//!
//! - No pointer is null, and each is aligned for its element: at 4 for `u32`,
//!   at 8 for `u64` and for the arrays.
//! - It is valid for as many elements as its length says, or as the array has,
//!   until the call returns: for reads where it is `*const`, for reads and
//!   writes where it is `*mut`. The bytes of a slice are `isize::MAX` at most.
//! - Until the call returns nobody else writes what the call reads, nor reads
//!   or writes what it writes.
//! - What a call writes overlaps nothing else that it is given: no other slice,
//!   nor `said`, nor `levels`; and these two do not overlap each other. Slices
//!   that are only read may overlap.
//! - An empty slice is a length of 0 with a pointer that is neither null nor
//!   misaligned, as that of an empty Rust slice is; it need not point to an
//!   element.
//! - The stack has room for the call: 8 KiB are enough, for [`kf_walk_textbook`]
//!   12 KiB, the red zone of System V, which calls use, included. (Read off the
//!   archives and measured, not proved.)
//!
//! # What is proved
//!
//! Each function of the archives is, on every input, where the duties are kept:
//! it returns, reads and writes nothing but what it is given, and answers and
//! writes what its contract says. This module is not: it is trusted to declare
//! the functions as the archives have them. `tests/interface.rs` holds its
//! names and parameters against the Rattle source and `kf.h`. That `rustc` and
//! the Rattle back end mean the same by `extern "C"` is trusted too.

/// The kind of the reverse map's tree.
pub const KF_KIND_RMAP: u32 = 0;
/// The kind of the shared counts' tree.
pub const KF_KIND_REFCOUNT: u32 = 1;
/// The kind of the tree of free space by block.
pub const KF_KIND_BY_BLOCK: u32 = 2;
/// The kind of the tree of free space by size.
pub const KF_KIND_BY_SIZE: u32 = 3;

/// [`kf_explain`]: the block is free now.
pub const KF_BLOCK_FREE: u64 = 0;
/// [`kf_explain`]: the block is still held.
pub const KF_BLOCK_HELD: u64 = 1;
/// [`kf_explain`]: the block is staging.
pub const KF_BLOCK_STAGING: u64 = 2;

/// [`kf_explain`]: no record decides.
pub const KF_LIST_NONE: u64 = 0;
/// [`kf_explain`]: the deciding record stands in the reverse map.
pub const KF_LIST_MAP: u64 = 1;
/// [`kf_explain`]: the deciding record stands in the shared counts.
pub const KF_LIST_COUNTS: u64 = 2;

/// The kind of a change that is a first take, as [`kf_insert`] makes it.
pub const KF_CHANGE_FIRST_TAKE: u32 = 1;
/// The kind of a change that is a let go, as [`kf_let_go`] makes it.
pub const KF_CHANGE_LET_GO: u32 = 2;
/// The kind of a change that is a take of held blocks, as [`kf_take_held`] makes
/// it.
pub const KF_CHANGE_TAKE_HELD: u32 = 3;

#[allow(clippy::too_many_arguments)]
extern "C" {
    /// CRC32C of the bytes, four at a step. It answers the CRC.
    ///
    /// # Safety
    ///
    /// The [duties of a caller](self#duties-of-a-caller).
    /// Reads `bytes`; writes nothing.
    pub fn kf_crc32c(bytes: *const u8, bytes_len: usize) -> u32;

    /// CRC32C of the bytes, one at a step: the same as [`kf_crc32c`] on every
    /// input.
    ///
    /// # Safety
    ///
    /// The [duties of a caller](self#duties-of-a-caller).
    /// Reads `bytes`; writes nothing.
    pub fn kf_crc32c_singly(bytes: *const u8, bytes_len: usize) -> u32;

    /// Is it an accepted reverse map?
    ///
    /// # Safety
    ///
    /// The [duties of a caller](self#duties-of-a-caller).
    /// Reads `list`; writes nothing.
    pub fn kf_check_rmaps(list: *const u8, list_len: usize) -> u32;

    /// Are they accepted shared counts?
    ///
    /// # Safety
    ///
    /// The [duties of a caller](self#duties-of-a-caller).
    /// Reads `list`; writes nothing.
    pub fn kf_check_refcounts(list: *const u8, list_len: usize) -> u32;

    /// Are they accepted free extents by block?
    ///
    /// # Safety
    ///
    /// The [duties of a caller](self#duties-of-a-caller).
    /// Reads `list`; writes nothing.
    pub fn kf_check_by_block(list: *const u8, list_len: usize) -> u32;

    /// Are they accepted free extents by size?
    ///
    /// # Safety
    ///
    /// The [duties of a caller](self#duties-of-a-caller).
    /// Reads `list`; writes nothing.
    pub fn kf_check_by_size(list: *const u8, list_len: usize) -> u32;

    /// Do the list by block and the list by size hold the same extents, equally
    /// often?
    ///
    /// # Safety
    ///
    /// The [duties of a caller](self#duties-of-a-caller).
    /// Reads `by_block` and `by_size`; writes `said`.
    pub fn kf_same_extents(
        by_block: *const u8,
        by_block_len: usize,
        by_size: *const u8,
        by_size_len: usize,
        said: *mut [u64; 4],
    ) -> u32;

    /// Is it block `block` of the group's tree, at level `level`?
    ///
    /// # Safety
    ///
    /// The [duties of a caller](self#duties-of-a-caller).
    /// Reads `bytes`; writes `said`.
    pub fn kf_check_block(
        version: u16,
        blocksize: u32,
        agblocks: u32,
        agno: u32,
        uuid_high: u64,
        uuid_low: u64,
        last_lsn: u64,
        kind: u32,
        block: u32,
        level: u16,
        bytes: *const u8,
        bytes_len: usize,
        said: *mut [u64; 4],
    ) -> u32;

    /// How many blocks each level of a tree of so many records has.
    ///
    /// # Safety
    ///
    /// The [duties of a caller](self#duties-of-a-caller).
    /// Reads no slice; writes `said`, and `levels` whole unless it refuses.
    pub fn kf_plan(
        version: u16,
        blocksize: u32,
        agblocks: u32,
        agno: u32,
        uuid_high: u64,
        uuid_low: u64,
        last_lsn: u64,
        kind: u32,
        records: u64,
        levels: *mut [u64; 9],
        said: *mut [u64; 4],
    ) -> u32;

    /// Lays a list out as the blocks of a fresh tree.
    ///
    /// # Safety
    ///
    /// The [duties of a caller](self#duties-of-a-caller).
    /// Reads `list` and `numbers`; writes `out` and `said`.
    pub fn kf_build(
        version: u16,
        blocksize: u32,
        agblocks: u32,
        agno: u32,
        uuid_high: u64,
        uuid_low: u64,
        last_lsn: u64,
        kind: u32,
        list: *const u8,
        list_len: usize,
        numbers: *const u32,
        numbers_len: usize,
        out: *mut u8,
        out_len: usize,
        said: *mut [u64; 4],
    ) -> u32;

    /// Reads a tree of so many levels from its root.
    ///
    /// # Safety
    ///
    /// The [duties of a caller](self#duties-of-a-caller).
    /// Reads `image`; writes `stack`, `scratch`, `blocks`, `records` and `said`.
    pub fn kf_walk(
        version: u16,
        blocksize: u32,
        agblocks: u32,
        agno: u32,
        uuid_high: u64,
        uuid_low: u64,
        last_lsn: u64,
        kind: u32,
        image: *const u8,
        image_len: usize,
        root: u32,
        levels: u32,
        stack: *mut u32,
        stack_len: usize,
        scratch: *mut u64,
        scratch_len: usize,
        blocks: *mut u32,
        blocks_len: usize,
        records: *mut u8,
        records_len: usize,
        said: *mut [u64; 4],
    ) -> u32;

    /// The walk of [`kf_walk`], and whether every level of the tree is linked.
    ///
    /// # Safety
    ///
    /// The [duties of a caller](self#duties-of-a-caller).
    /// Reads `image`; writes `stack`, `scratch`, `blocks`, `records` and `said`.
    pub fn kf_walk_linked(
        version: u16,
        blocksize: u32,
        agblocks: u32,
        agno: u32,
        uuid_high: u64,
        uuid_low: u64,
        last_lsn: u64,
        kind: u32,
        image: *const u8,
        image_len: usize,
        root: u32,
        levels: u32,
        stack: *mut u32,
        stack_len: usize,
        scratch: *mut u64,
        scratch_len: usize,
        blocks: *mut u32,
        blocks_len: usize,
        records: *mut u8,
        records_len: usize,
        said: *mut [u64; 4],
    ) -> u32;

    /// The walk of [`kf_walk`] by two routines that call each other, without a
    /// stack that is lent.
    ///
    /// # Safety
    ///
    /// The [duties of a caller](self#duties-of-a-caller).
    /// Reads `image`; writes `scratch`, `blocks`, `records` and `said`.
    pub fn kf_walk_textbook(
        version: u16,
        blocksize: u32,
        agblocks: u32,
        agno: u32,
        uuid_high: u64,
        uuid_low: u64,
        last_lsn: u64,
        kind: u32,
        image: *const u8,
        image_len: usize,
        root: u32,
        levels: u32,
        scratch: *mut u64,
        scratch_len: usize,
        blocks: *mut u32,
        blocks_len: usize,
        records: *mut u8,
        records_len: usize,
        said: *mut [u64; 4],
    ) -> u32;

    /// How many records of the reverse map lie over each of the block numbers
    /// `asked`, in one descent from the root.
    ///
    /// # Safety
    ///
    /// The [duties of a caller](self#duties-of-a-caller).
    /// Reads `image` and `asked`; writes `stack`, `answers` and `said`.
    pub fn kf_lookup(
        version: u16,
        blocksize: u32,
        agblocks: u32,
        agno: u32,
        uuid_high: u64,
        uuid_low: u64,
        last_lsn: u64,
        image: *const u8,
        image_len: usize,
        root: u32,
        levels: u32,
        asked: *const u32,
        asked_len: usize,
        stack: *mut u32,
        stack_len: usize,
        answers: *mut u64,
        answers_len: usize,
        said: *mut [u64; 4],
    ) -> u32;

    /// A first take: puts an extent of which no block is held into the reverse
    /// map.
    ///
    /// # Safety
    ///
    /// The [duties of a caller](self#duties-of-a-caller).
    /// Reads `old`; writes `new_map` and `said`.
    pub fn kf_insert(
        old: *const u8,
        old_len: usize,
        startblock: u32,
        blockcount: u32,
        owner: u64,
        offset: u64,
        new_map: *mut u8,
        new_map_len: usize,
        said: *mut [u64; 4],
    ) -> u32;

    /// Puts an extent whose blocks others may hold into the reverse map. Leaves
    /// the counts alone; [`kf_take_held`] is the call for held blocks.
    ///
    /// # Safety
    ///
    /// The [duties of a caller](self#duties-of-a-caller).
    /// Reads `old`; writes `new_map` and `said`.
    pub fn kf_insert_shared(
        old: *const u8,
        old_len: usize,
        startblock: u32,
        blockcount: u32,
        owner: u64,
        offset: u64,
        new_map: *mut u8,
        new_map_len: usize,
        said: *mut [u64; 4],
    ) -> u32;

    /// Takes an extent out of the reverse map. Leaves the counts alone;
    /// [`kf_let_go`] is the whole letting go.
    ///
    /// # Safety
    ///
    /// The [duties of a caller](self#duties-of-a-caller).
    /// Reads `old`; writes `new_map` and `said`.
    pub fn kf_remove(
        old: *const u8,
        old_len: usize,
        startblock: u32,
        blockcount: u32,
        owner: u64,
        offset: u64,
        new_map: *mut u8,
        new_map_len: usize,
        said: *mut [u64; 4],
    ) -> u32;

    /// Lowers the owners over an extent, and tells its blocks that no shared
    /// record lay over.
    ///
    /// # Safety
    ///
    /// The [duties of a caller](self#duties-of-a-caller).
    /// Reads `counts`; writes `new_counts`, `free_extents` and `said`.
    pub fn kf_release(
        counts: *const u8,
        counts_len: usize,
        startblock: u32,
        blockcount: u32,
        new_counts: *mut u8,
        new_counts_len: usize,
        free_extents: *mut u8,
        free_extents_len: usize,
        said: *mut [u64; 4],
    ) -> u32;

    /// The whole letting go: an extent leaves the reverse map, and the owners over
    /// it are lowered; its blocks that no shared record lay over are told.
    ///
    /// # Safety
    ///
    /// The [duties of a caller](self#duties-of-a-caller).
    /// Reads `map` and `counts`; writes `new_map`, `new_counts`, `free_extents`
    /// and `said`.
    pub fn kf_let_go(
        map: *const u8,
        map_len: usize,
        counts: *const u8,
        counts_len: usize,
        startblock: u32,
        blockcount: u32,
        owner: u64,
        offset: u64,
        new_map: *mut u8,
        new_map_len: usize,
        new_counts: *mut u8,
        new_counts_len: usize,
        free_extents: *mut u8,
        free_extents_len: usize,
        said: *mut [u64; 4],
    ) -> u32;

    /// Takes an extent whose blocks are all held: it goes into the reverse map,
    /// and the counts over it are raised.
    ///
    /// # Safety
    ///
    /// The [duties of a caller](self#duties-of-a-caller).
    /// Reads `map` and `counts`; writes `new_map`, `new_counts` and `said`.
    pub fn kf_take_held(
        map: *const u8,
        map_len: usize,
        counts: *const u8,
        counts_len: usize,
        startblock: u32,
        blockcount: u32,
        owner: u64,
        offset: u64,
        new_map: *mut u8,
        new_map_len: usize,
        new_counts: *mut u8,
        new_counts_len: usize,
        said: *mut [u64; 4],
    ) -> u32;

    /// Why a block of an extent is free now, still held or staging when the extent
    /// is let go, and where the record that decides stands.
    ///
    /// # Safety
    ///
    /// The [duties of a caller](self#duties-of-a-caller).
    /// Reads `map` and `counts`; writes `said`.
    pub fn kf_explain(
        map: *const u8,
        map_len: usize,
        counts: *const u8,
        counts_len: usize,
        startblock: u32,
        blockcount: u32,
        owner: u64,
        offset: u64,
        block: u32,
        said: *mut [u64; 4],
    ) -> u32;

    /// Reads a sheet: its changes, one after another.
    ///
    /// # Safety
    ///
    /// The [duties of a caller](self#duties-of-a-caller).
    /// Reads `sheet`; writes `changes` and `said`.
    pub fn kf_read_sheet(
        sheet: *const u8,
        sheet_len: usize,
        changes: *mut u8,
        changes_len: usize,
        said: *mut [u64; 4],
    ) -> u32;

    /// Writes the sheet of a list of changes.
    ///
    /// # Safety
    ///
    /// The [duties of a caller](self#duties-of-a-caller).
    /// Reads `changes`; writes `sheet` and `said`.
    pub fn kf_write_sheet(
        changes: *const u8,
        changes_len: usize,
        sheet: *mut u8,
        sheet_len: usize,
        said: *mut [u64; 4],
    ) -> u32;
}

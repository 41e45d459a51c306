//! The calls on lists.

use crate::question::{answer, Refusal};
use crate::raw;
use crate::records::Rmap;
use crate::why::Why;

/// Is it an accepted reverse map? Questions 19 and 20.
///
/// ```
/// assert_eq!(kf::check_rmaps(&[0; 25]).unwrap_err().number, 19);
/// // A record of no blocks.
/// assert_eq!(kf::check_rmaps(&[0; 24]).unwrap_err().number, 20);
/// let r = kf::Rmap { startblock: 4, blockcount: 2, owner: 7, offset: 0 };
/// assert!(kf::check_rmaps(&r.to_bytes()).is_ok());
/// ```
pub fn check_rmaps(list: &[u8]) -> Result<(), Refusal> {
    // SAFETY: a slice of bytes, which the call reads.
    let n = unsafe { raw::kf_check_rmaps(list.as_ptr(), list.len()) };
    answer(n, &[0; 4], ())
}

/// Are they accepted shared counts? Questions 19 and 21.
///
/// ```
/// let alone = [0, 0, 0, 4, 0, 0, 0, 1, 0, 0, 0, 1]; // one owner shares with none
/// assert_eq!(kf::check_refcounts(&alone).unwrap_err().number, 21);
/// let shared = [0, 0, 0, 4, 0, 0, 0, 1, 0, 0, 0, 2];
/// assert!(kf::check_refcounts(&shared).is_ok());
/// ```
pub fn check_refcounts(list: &[u8]) -> Result<(), Refusal> {
    // SAFETY: a slice of bytes, which the call reads.
    let n = unsafe { raw::kf_check_refcounts(list.as_ptr(), list.len()) };
    answer(n, &[0; 4], ())
}

/// Are they accepted free extents by block: does none start before the one in
/// front of it ends? Questions 19 and 21.
///
/// ```
/// let a = kf::FreeExtent { startblock: 4, blockcount: 2 };
/// let b = kf::FreeExtent { startblock: 6, blockcount: 1 };
/// assert!(kf::check_by_block(&[a.to_bytes(), b.to_bytes()].concat()).is_ok());
/// let overlapping = kf::FreeExtent { startblock: 5, ..b };
/// let list = [a.to_bytes(), overlapping.to_bytes()].concat();
/// assert_eq!(kf::check_by_block(&list).unwrap_err().number, 21);
/// assert_eq!(kf::check_by_block(&list[1..]).unwrap_err().number, 19);
/// ```
pub fn check_by_block(list: &[u8]) -> Result<(), Refusal> {
    // SAFETY: a slice of bytes, which the call reads.
    let n = unsafe { raw::kf_check_by_block(list.as_ptr(), list.len()) };
    answer(n, &[0; 4], ())
}

/// Are they accepted free extents by size: do they ascend strictly by count,
/// then start? Questions 19 and 21. Whether they overlap is not asked.
///
/// ```
/// let a = kf::FreeExtent { startblock: 4, blockcount: 2 };
/// let b = kf::FreeExtent { startblock: 6, blockcount: 1 };
/// assert!(kf::check_by_size(&[b.to_bytes(), a.to_bytes()].concat()).is_ok());
/// let list = [a.to_bytes(), b.to_bytes()].concat();
/// assert_eq!(kf::check_by_size(&list).unwrap_err().number, 21);
/// assert_eq!(kf::check_by_size(&list[1..]).unwrap_err().number, 19);
/// ```
pub fn check_by_size(list: &[u8]) -> Result<(), Refusal> {
    // SAFETY: a slice of bytes, which the call reads.
    let n = unsafe { raw::kf_check_by_size(list.as_ptr(), list.len()) };
    answer(n, &[0; 4], ())
}

/// Do a list of free extents by block and one by size hold the same extents,
/// equally often? Questions 19 and 21 on the first, then 19 and 21 on the
/// second. Nothing is lent: each extent of either is searched in the other.
///
/// ```
/// let a = kf::FreeExtent { startblock: 4, blockcount: 2 };
/// let b = kf::FreeExtent { startblock: 9, blockcount: 1 };
/// let by_block = [a.to_bytes(), b.to_bytes()].concat();
/// let by_size = [b.to_bytes(), a.to_bytes()].concat();
/// assert_eq!(kf::same_extents(&by_block, &by_size), Ok(true));
/// assert_eq!(kf::same_extents(&by_block, &by_size[8..]), Ok(false));
/// assert_eq!(kf::same_extents(&by_size, &by_size).unwrap_err().number, 21);
/// ```
pub fn same_extents(by_block: &[u8], by_size: &[u8]) -> Result<bool, Refusal> {
    let mut said = [0; 4];
    // SAFETY: two slices that the call reads, and four numbers that it writes.
    let n = unsafe {
        raw::kf_same_extents(
            by_block.as_ptr(),
            by_block.len(),
            by_size.as_ptr(),
            by_size.len(),
            &mut said,
        )
    };
    answer(n, &said, said[0] == 1)
}

type Edit = unsafe extern "C" fn(
    *const u8,
    usize,
    u32,
    u32,
    u64,
    u64,
    *mut u8,
    usize,
    *mut [u64; 4],
) -> u32;

fn edit(f: Edit, old: &[u8], x: &Rmap, new: &mut [u8]) -> Result<usize, Refusal> {
    let mut said = [0; 4];
    // SAFETY: a slice that the call reads, one that it writes, and four
    // numbers that it writes.
    let n = unsafe {
        f(
            old.as_ptr(),
            old.len(),
            x.startblock,
            x.blockcount,
            x.owner as u64,
            x.offset,
            new.as_mut_ptr(),
            new.len(),
            &mut said,
        )
    };
    answer(n, &said, said[0] as usize)
}

/// Takes an extent of which no block is held: the reverse map `old` with `x` in
/// it goes to `new`, and its length in bytes comes back. Questions 19, 20, 22,
/// 23 and 26.
///
/// ```
/// use kf::{insert, Rmap};
/// let a = Rmap { startblock: 0, blockcount: 4, owner: 7, offset: 0 };
/// let b = Rmap { startblock: 4, blockcount: 4, owner: 7, offset: 4 };
/// let mut new = [0; 48];
/// let n = insert(&a.to_bytes(), &b, &mut new).unwrap();
/// // The two are joined.
/// let both = Rmap { blockcount: 8, ..a };
/// assert_eq!(new[..n], both.to_bytes());
/// assert_eq!(insert(&a.to_bytes(), &a, &mut new).unwrap_err().number, 23);
/// // An extent that would run into the next record is refused too.
/// let early = Rmap { startblock: 2, owner: 9, ..a };
/// assert_eq!(insert(&b.to_bytes(), &early, &mut new).unwrap_err().number, 23);
/// ```
pub fn insert(old: &[u8], x: &Rmap, new: &mut [u8]) -> Result<usize, Refusal> {
    edit(raw::kf_insert, old, x, new)
}

/// Takes an extent whose blocks others may hold. Questions 19, 20, 22, 23 and
/// 26. The shared counts are left alone, and may then no longer agree with the
/// reverse map: [`take_held`] is the call for held blocks.
///
/// ```
/// use kf::{insert_shared, Rmap};
/// let a = Rmap { startblock: 0, blockcount: 4, owner: 7, offset: 0 };
/// let b = Rmap { owner: 9, ..a };
/// let mut new = [0; 48];
/// let n = insert_shared(&a.to_bytes(), &b, &mut new).unwrap();
/// assert_eq!(new[..n], [a.to_bytes(), b.to_bytes()].concat());
/// ```
pub fn insert_shared(old: &[u8], x: &Rmap, new: &mut [u8]) -> Result<usize, Refusal> {
    edit(raw::kf_insert_shared, old, x, new)
}

/// Takes an extent out of the reverse map: `old` without `x` goes to `new`, and
/// its length in bytes comes back. The file offset of `x` is not asked about: it
/// chooses where several records contain it. The shared counts are left alone:
/// [`let_go`] does both. Questions 19, 20, 22, 24 and 26.
///
/// ```
/// use kf::{remove, Rmap};
/// let a = Rmap { startblock: 0, blockcount: 8, owner: 7, offset: 0 };
/// let hole = Rmap { startblock: 2, blockcount: 3, owner: 7, offset: 2 };
/// let mut new = [0; 48];
/// let n = remove(&a.to_bytes(), &hole, &mut new).unwrap();
/// let before = Rmap { blockcount: 2, ..a };
/// let after = Rmap { startblock: 5, blockcount: 3, owner: 7, offset: 5 };
/// assert_eq!(new[..n], [before.to_bytes(), after.to_bytes()].concat());
/// ```
pub fn remove(old: &[u8], x: &Rmap, new: &mut [u8]) -> Result<usize, Refusal> {
    edit(raw::kf_remove, old, x, new)
}

/// The lengths in bytes of what a release wrote.
#[derive(Debug, Clone, Copy, PartialEq, Eq)]
#[non_exhaustive]
pub struct Released {
    /// Of the new shared counts.
    pub counts: usize,
    /// Of the free extents.
    pub free: usize,
}

/// Lowers the owners over an extent by one; the blocks of it that no shared record met
/// go to `free`, as longest runs. Questions 19, 21, 22, 25 and 26.
///
/// ```
/// // Blocks 10 to 14 have two owners; 8 to 17 are let go.
/// let counts = [0, 0, 0, 10, 0, 0, 0, 5, 0, 0, 0, 2];
/// let (mut new, mut free) = ([0; 36], [0; 16]);
/// let r = kf::release(&counts, 8, 10, &mut new, &mut free).unwrap();
/// assert_eq!((r.counts, r.free), (0, 16));
/// assert_eq!(free, [0, 0, 0, 8, 0, 0, 0, 2, 0, 0, 0, 15, 0, 0, 0, 3]);
/// ```
pub fn release(
    counts: &[u8],
    startblock: u32,
    blockcount: u32,
    new: &mut [u8],
    free: &mut [u8],
) -> Result<Released, Refusal> {
    let mut said = [0; 4];
    // SAFETY: a slice that the call reads, two that it writes, which do not
    // overlap, and four numbers that it writes.
    let n = unsafe {
        raw::kf_release(
            counts.as_ptr(),
            counts.len(),
            startblock,
            blockcount,
            new.as_mut_ptr(),
            new.len(),
            free.as_mut_ptr(),
            free.len(),
            &mut said,
        )
    };
    let released = Released {
        counts: said[0] as usize,
        free: said[1] as usize,
    };
    answer(n, &said, released)
}

/// The lengths in bytes of what a letting go wrote.
#[derive(Debug, Clone, Copy, PartialEq, Eq)]
#[non_exhaustive]
pub struct LetGone {
    /// Of the new reverse map.
    pub map: usize,
    /// Of the new shared counts.
    pub counts: usize,
    /// Of the free extents.
    pub free: usize,
}

/// What a letting go is lent: room for both new lists and the free extents.
#[derive(Debug)]
#[non_exhaustive]
pub struct NewLists<'a> {
    /// Gets the new reverse map.
    pub map: &'a mut [u8],
    /// Gets the new shared counts.
    pub counts: &'a mut [u8],
    /// Gets the free extents.
    pub free: &'a mut [u8],
}

impl<'a> NewLists<'a> {
    /// The three, as given; the call asks whether they are long enough
    /// (question 26).
    pub fn new(map: &'a mut [u8], counts: &'a mut [u8], free: &'a mut [u8]) -> NewLists<'a> {
        NewLists { map, counts, free }
    }
}

/// The whole letting go: `x` leaves the reverse map, the owners over it are
/// lowered, and its blocks that no shared record met before go to `free`. Where
/// the counts agree with the reverse map nobody holds these any more; no call
/// asks whether they agree. The file offset of `x` is not asked about: it chooses
/// where several records contain it. Questions 19, 20, 22 and 24, then 19, 21 and
/// 25, then 26.
///
/// ```
/// use kf::{let_go, NewLists, Rmap};
/// let a = Rmap { startblock: 4, blockcount: 2, owner: 7, offset: 0 };
/// let (mut map, mut counts, mut free) = ([0; 24], [0; 12], [0; 8]);
/// let new = NewLists::new(&mut map, &mut counts, &mut free);
/// let gone = let_go(&a.to_bytes(), &[], &a, new).unwrap();
/// assert_eq!((gone.map, gone.counts, gone.free), (0, 0, 8));
/// assert_eq!(free, [0, 0, 0, 4, 0, 0, 0, 2]);
/// ```
pub fn let_go(map: &[u8], counts: &[u8], x: &Rmap, new: NewLists<'_>) -> Result<LetGone, Refusal> {
    let mut said = [0; 4];
    // SAFETY: two slices that the call reads, three that it writes, which do
    // not overlap, and four numbers that it writes.
    let n = unsafe {
        raw::kf_let_go(
            map.as_ptr(),
            map.len(),
            counts.as_ptr(),
            counts.len(),
            x.startblock,
            x.blockcount,
            x.owner as u64,
            x.offset,
            new.map.as_mut_ptr(),
            new.map.len(),
            new.counts.as_mut_ptr(),
            new.counts.len(),
            new.free.as_mut_ptr(),
            new.free.len(),
            &mut said,
        )
    };
    let gone = LetGone {
        map: said[0] as usize,
        counts: said[1] as usize,
        free: said[2] as usize,
    };
    answer(n, &said, gone)
}

/// The lengths in bytes of what a take of held blocks wrote.
#[derive(Debug, Clone, Copy, PartialEq, Eq)]
#[non_exhaustive]
pub struct TakenHeld {
    /// Of the new reverse map.
    pub map: usize,
    /// Of the new shared counts.
    pub counts: usize,
}

/// Takes an extent whose blocks are all held: `x` goes into the reverse map
/// beside the records that are there, and the owners over it are raised.
/// Questions 19 and 20, then 19 and 21, then 22, 23, 25, 27, 28 and 26.
///
/// ```
/// use kf::{take_held, Rmap};
/// let a = Rmap { startblock: 4, blockcount: 2, owner: 7, offset: 0 };
/// let b = Rmap { owner: 9, ..a };
/// let (mut map, mut counts) = ([0; 48], [0; 12]);
/// let taken = take_held(&a.to_bytes(), &[], &b, &mut map, &mut counts).unwrap();
/// assert_eq!((taken.map, taken.counts), (48, 12));
/// assert_eq!(counts, [0, 0, 0, 4, 0, 0, 0, 2, 0, 0, 0, 2]);
/// ```
pub fn take_held(
    map: &[u8],
    counts: &[u8],
    x: &Rmap,
    new_map: &mut [u8],
    new_counts: &mut [u8],
) -> Result<TakenHeld, Refusal> {
    let mut said = [0; 4];
    // SAFETY: two slices that the call reads, two that it writes, which do not
    // overlap, and four numbers that it writes.
    let n = unsafe {
        raw::kf_take_held(
            map.as_ptr(),
            map.len(),
            counts.as_ptr(),
            counts.len(),
            x.startblock,
            x.blockcount,
            x.owner as u64,
            x.offset,
            new_map.as_mut_ptr(),
            new_map.len(),
            new_counts.as_mut_ptr(),
            new_counts.len(),
            &mut said,
        )
    };
    let taken = TakenHeld {
        map: said[0] as usize,
        counts: said[1] as usize,
    };
    answer(n, &said, taken)
}

/// Why a block of `x` is free now, still held or staging when `x` is let go. The
/// lists and `x` are those of [`let_go`], and are only read; the answer borrows the
/// record that decides from whichever of the two lists holds it. Questions 19, 20,
/// 22 and 24, then 19, 21 and 25, then 31; 25 is not asked of a block under a staging
/// record.
///
/// A block under a staging record is staging, by the first of them. Any other is
/// still held exactly where a shared record lies over it: by the first record of the
/// reverse map over it, other than the one that [`let_go`] cuts (an equal duplicate
/// is another), else by the shared record. Else it is free now.
///
/// [`let_go`], unless 26 stops it, tells a block that is free now as free, and one
/// that is still held not; where one is staging it answers 25. Where the counts agree
/// with the reverse map, nobody holds a free block after it, and the shared record
/// never decides; no call asks whether they agree.
///
/// ```
/// use kf::{explain, Cause, Question, Refcount, Rmap};
/// let a = Rmap { startblock: 100, blockcount: 8, owner: 131, offset: 0 };
/// let b = Rmap { startblock: 102, blockcount: 4, owner: 132, offset: 0 };
/// let shared = Refcount { startblock: 102, blockcount: 4, refcount: 2 };
/// let (map, counts) = ([a.to_bytes(), b.to_bytes()].concat(), shared.to_bytes());
/// let why = explain(&map, &counts, &a, 103).unwrap();
/// assert_eq!(why.cause, Cause::Held(b));
/// assert_eq!(why.to_string(), "block 103 is still held: inode 132 holds blocks 102 to 105");
/// // The record's bytes are those in the list.
/// assert_eq!(why.record.as_ptr(), map[24..].as_ptr());
/// assert_eq!(why.record, b.to_bytes());
/// assert_eq!(explain(&map, &counts, &a, 106).unwrap().cause, Cause::Free);
/// let refusal = explain(&map, &counts, &a, 108).unwrap_err();
/// assert_eq!(refusal.question(), Some(Question::NotInExtent));
/// ```
pub fn explain<'a>(
    map: &'a [u8],
    counts: &'a [u8],
    x: &Rmap,
    block: u32,
) -> Result<Why<'a>, Refusal> {
    let mut said = [0; 4];
    // SAFETY: two slices that the call reads, and four numbers that it writes.
    let n = unsafe {
        raw::kf_explain(
            map.as_ptr(),
            map.len(),
            counts.as_ptr(),
            counts.len(),
            x.startblock,
            x.blockcount,
            x.owner as u64,
            x.offset,
            block,
            &mut said,
        )
    };
    answer(n, &said, ())?;
    Ok(Why::from_figures(map, counts, block, &said))
}

//! Records from and to their bytes, and lists of them.

use core::fmt;
use core::iter::FusedIterator;
use core::slice::ChunksExact;

/// The bytes of a reverse-map record.
pub const RMAP: usize = 24;
/// The bytes of a record of the shared counts.
pub const REFCOUNT: usize = 12;
/// The bytes of a free extent.
pub const FREE_EXTENT: usize = 8;

/// Bits 0 to 53 of an offset, which are the file offset.
const FILE_OFFSET: u64 = (1 << 54) - 1;
/// The bit of a start that marks a staging record.
const STAGING: u32 = 1 << 31;

/// `N` bytes of a record, from `at` on.
pub(crate) fn field<const N: usize>(record: &[u8], at: usize) -> [u8; N] {
    let mut bytes = [0; N];
    bytes.copy_from_slice(&record[at..at + N]);
    bytes
}

/// A reverse-map record, or an extent taken or let go.
///
/// ```
/// use kf::Rmap;
/// let r = Rmap { startblock: 4, blockcount: 2, owner: 131, offset: (1 << 61) | 9 };
/// assert_eq!(Rmap::from_bytes(&r.to_bytes()), r);
/// assert_eq!((r.end(), r.file_offset()), (6, 9));
/// assert!(r.is_unwritten() && !r.is_attr_fork() && !r.is_reserved());
/// ```
#[derive(Debug, Clone, Copy, PartialEq, Eq, Hash)]
pub struct Rmap {
    /// The first block, by its number in the group.
    pub startblock: u32,
    /// The number of blocks.
    pub blockcount: u32,
    /// The owner: an inode's number or, below 0, a reserved owner.
    pub owner: i64,
    /// The file offset in bits 0 to 53, the flags above.
    pub offset: u64,
}

impl Rmap {
    /// The record that the bytes are, as on disk.
    pub fn from_bytes(bytes: &[u8; RMAP]) -> Rmap {
        Rmap {
            startblock: u32::from_be_bytes(field(bytes, 0)),
            blockcount: u32::from_be_bytes(field(bytes, 4)),
            owner: i64::from_be_bytes(field(bytes, 8)),
            offset: u64::from_be_bytes(field(bytes, 16)),
        }
    }

    /// The bytes of the record, as on disk.
    pub fn to_bytes(&self) -> [u8; RMAP] {
        let mut bytes = [0; RMAP];
        bytes[..4].copy_from_slice(&self.startblock.to_be_bytes());
        bytes[4..8].copy_from_slice(&self.blockcount.to_be_bytes());
        bytes[8..16].copy_from_slice(&self.owner.to_be_bytes());
        bytes[16..].copy_from_slice(&self.offset.to_be_bytes());
        bytes
    }

    /// The block after its last.
    pub const fn end(&self) -> u64 {
        self.startblock as u64 + self.blockcount as u64
    }

    /// The file offset in blocks: bits 0 to 53 of the offset.
    pub const fn file_offset(&self) -> u64 {
        self.offset & FILE_OFFSET
    }

    /// The flags: bits 54 to 63 of the offset, in place.
    pub const fn flags(&self) -> u64 {
        self.offset & !FILE_OFFSET
    }

    /// Is the extent unwritten (bit 61)?
    pub const fn is_unwritten(&self) -> bool {
        (self.offset >> 61) & 1 == 1
    }

    /// Is it a block of a file's extent map (bit 62)?
    pub const fn is_bmbt_block(&self) -> bool {
        (self.offset >> 62) & 1 == 1
    }

    /// Is it of a file's attribute fork (bit 63)?
    pub const fn is_attr_fork(&self) -> bool {
        self.offset >> 63 == 1
    }

    /// Is the owner reserved: below 0, such as the group's own metadata?
    pub const fn is_reserved(&self) -> bool {
        self.owner < 0
    }
}

/// A record of the shared counts: a shared record, or a staging one.
///
/// ```
/// use kf::Refcount;
/// let r = Refcount { startblock: (1 << 31) | 4, blockcount: 2, refcount: 1 };
/// assert_eq!(Refcount::from_bytes(&r.to_bytes()), r);
/// assert!(r.is_staging());
/// assert_eq!((r.block(), r.end()), (4, 6));
/// ```
#[derive(Debug, Clone, Copy, PartialEq, Eq, Hash)]
pub struct Refcount {
    /// The first block, as on disk: bit 31 marks a staging record.
    pub startblock: u32,
    /// The number of blocks.
    pub blockcount: u32,
    /// The number of owners.
    pub refcount: u32,
}

impl Refcount {
    /// The record that the bytes are, as on disk.
    pub fn from_bytes(bytes: &[u8; REFCOUNT]) -> Refcount {
        Refcount {
            startblock: u32::from_be_bytes(field(bytes, 0)),
            blockcount: u32::from_be_bytes(field(bytes, 4)),
            refcount: u32::from_be_bytes(field(bytes, 8)),
        }
    }

    /// The bytes of the record, as on disk.
    pub fn to_bytes(&self) -> [u8; REFCOUNT] {
        let mut bytes = [0; REFCOUNT];
        bytes[..4].copy_from_slice(&self.startblock.to_be_bytes());
        bytes[4..8].copy_from_slice(&self.blockcount.to_be_bytes());
        bytes[8..].copy_from_slice(&self.refcount.to_be_bytes());
        bytes
    }

    /// The first block, by its number in the group: the start without bit 31.
    pub const fn block(&self) -> u32 {
        self.startblock & !STAGING
    }

    /// The block after its last.
    pub const fn end(&self) -> u64 {
        self.block() as u64 + self.blockcount as u64
    }

    /// Is it a staging record: blocks set aside for copy-on-write?
    pub const fn is_staging(&self) -> bool {
        self.startblock & STAGING != 0
    }
}

/// Free blocks: a record of the free-space trees, or blocks that are free again.
///
/// ```
/// use kf::FreeExtent;
/// let x = FreeExtent { startblock: 4, blockcount: 2 };
/// assert_eq!(FreeExtent::from_bytes(&x.to_bytes()), x);
/// assert_eq!(x.end(), 6);
/// ```
#[derive(Debug, Clone, Copy, PartialEq, Eq, Hash)]
pub struct FreeExtent {
    /// The first block, by its number in the group.
    pub startblock: u32,
    /// The number of blocks.
    pub blockcount: u32,
}

impl FreeExtent {
    /// The free extent that the bytes are, as on disk.
    pub fn from_bytes(bytes: &[u8; FREE_EXTENT]) -> FreeExtent {
        FreeExtent {
            startblock: u32::from_be_bytes(field(bytes, 0)),
            blockcount: u32::from_be_bytes(field(bytes, 4)),
        }
    }

    /// The bytes of the free extent, as on disk.
    pub fn to_bytes(&self) -> [u8; FREE_EXTENT] {
        let mut bytes = [0; FREE_EXTENT];
        bytes[..4].copy_from_slice(&self.startblock.to_be_bytes());
        bytes[4..].copy_from_slice(&self.blockcount.to_be_bytes());
        bytes
    }

    /// The block after its last.
    pub const fn end(&self) -> u64 {
        self.startblock as u64 + self.blockcount as u64
    }
}

/// The records of a list, in order; made by [`rmaps`], [`refcounts`] and
/// [`free_extents`], and of a list of changes by [`changes`](crate::changes).
///
/// Bytes after the last whole record are not read; question 19 asks about them,
/// of changes 33, and [`Records::remainder`] gives them.
pub struct Records<'a, R> {
    chunks: ChunksExact<'a, u8>,
    read: fn(&[u8]) -> R,
}

impl<'a, R> Records<'a, R> {
    /// The records of a list, each of so many bytes, which `read` is given.
    pub(crate) fn of(list: &'a [u8], len: usize, read: fn(&[u8]) -> R) -> Records<'a, R> {
        Records {
            chunks: list.chunks_exact(len),
            read,
        }
    }

    /// The bytes after the last whole record: none in an accepted list.
    ///
    /// ```
    /// assert_eq!(kf::rmaps(&[0; 25]).remainder(), [0]);
    /// ```
    pub fn remainder(&self) -> &'a [u8] {
        self.chunks.remainder()
    }
}

impl<R> Iterator for Records<'_, R> {
    type Item = R;

    fn next(&mut self) -> Option<R> {
        self.chunks.next().map(self.read)
    }

    fn size_hint(&self) -> (usize, Option<usize>) {
        self.chunks.size_hint()
    }

    fn nth(&mut self, n: usize) -> Option<R> {
        self.chunks.nth(n).map(self.read)
    }
}

impl<R> DoubleEndedIterator for Records<'_, R> {
    fn next_back(&mut self) -> Option<R> {
        self.chunks.next_back().map(self.read)
    }

    fn nth_back(&mut self, n: usize) -> Option<R> {
        self.chunks.nth_back(n).map(self.read)
    }
}

impl<R> ExactSizeIterator for Records<'_, R> {}

impl<R> FusedIterator for Records<'_, R> {}

impl<R> Clone for Records<'_, R> {
    fn clone(&self) -> Self {
        Records {
            chunks: self.chunks.clone(),
            read: self.read,
        }
    }
}

impl<R: fmt::Debug> fmt::Debug for Records<'_, R> {
    fn fmt(&self, f: &mut fmt::Formatter<'_>) -> fmt::Result {
        f.debug_list().entries(self.clone()).finish()
    }
}

/// The records of a reverse map.
///
/// ```
/// use kf::{rmaps, Rmap};
/// let a = Rmap { startblock: 0, blockcount: 4, owner: 7, offset: 0 };
/// let b = Rmap { startblock: 8, ..a };
/// let list = [a.to_bytes(), b.to_bytes()].concat();
/// assert_eq!(rmaps(&list).len(), 2);
/// assert!(rmaps(&list).eq([a, b]));
/// assert_eq!(rmaps(&list).next_back(), Some(b));
/// ```
pub fn rmaps(list: &[u8]) -> Records<'_, Rmap> {
    Records::of(list, RMAP, |bytes| Rmap::from_bytes(&field(bytes, 0)))
}

/// The records of shared counts.
///
/// ```
/// let list = [0, 0, 0, 4, 0, 0, 0, 1, 0, 0, 0, 2];
/// let shared = kf::Refcount { startblock: 4, blockcount: 1, refcount: 2 };
/// assert!(kf::refcounts(&list).eq([shared]));
/// ```
pub fn refcounts(list: &[u8]) -> Records<'_, Refcount> {
    Records::of(list, REFCOUNT, |bytes| {
        Refcount::from_bytes(&field(bytes, 0))
    })
}

/// The free extents of a list: of a free-space tree, or what a release or a let
/// go wrote.
///
/// ```
/// let free = [0, 0, 0, 8, 0, 0, 0, 2];
/// let x = kf::FreeExtent { startblock: 8, blockcount: 2 };
/// assert!(kf::free_extents(&free).eq([x]));
/// ```
pub fn free_extents(list: &[u8]) -> Records<'_, FreeExtent> {
    Records::of(list, FREE_EXTENT, |bytes| {
        FreeExtent::from_bytes(&field(bytes, 0))
    })
}

#[cfg(test)]
mod tests {
    use super::*;
    use alloc::format;
    use alloc::vec::Vec;

    /// Each byte of a record, at each of its values, comes back.
    #[test]
    fn there_and_back() {
        for at in 0..RMAP {
            for value in 0..=255 {
                let mut bytes = [0x5A; RMAP];
                bytes[at] = value;
                let r = Rmap::from_bytes(&bytes);
                assert_eq!(r.to_bytes(), bytes);
                assert_eq!(r.flags() | r.file_offset(), r.offset);
                assert_eq!(r.flags() & r.file_offset(), 0);
                let bytes: [u8; REFCOUNT] = field(&bytes, 0);
                let r = Refcount::from_bytes(&bytes);
                assert_eq!(r.to_bytes(), bytes);
                assert_eq!(r.block() | u32::from(r.is_staging()) << 31, r.startblock);
                let bytes: [u8; FREE_EXTENT] = field(&bytes, 0);
                assert_eq!(FreeExtent::from_bytes(&bytes).to_bytes(), bytes);
            }
        }
    }

    #[test]
    fn fields() {
        let bytes: Vec<u8> = (0..24).collect();
        let rmap = Rmap {
            startblock: 0x0001_0203,
            blockcount: 0x0405_0607,
            owner: 0x0809_0A0B_0C0D_0E0F,
            offset: 0x1011_1213_1415_1617,
        };
        assert!(rmaps(&bytes).eq([rmap]));
        let refcount = Refcount {
            startblock: 0x0001_0203,
            blockcount: 0x0405_0607,
            refcount: 0x0809_0A0B,
        };
        assert_eq!(refcounts(&bytes).next(), Some(refcount));
        let free = FreeExtent {
            startblock: 0x0001_0203,
            blockcount: 0x0405_0607,
        };
        assert_eq!(free_extents(&bytes).next(), Some(free));
    }

    /// The largest numbers do not overflow.
    #[test]
    fn all_ones() {
        let r = Rmap::from_bytes(&[0xFF; RMAP]);
        assert_eq!(r.end(), 2 * u64::from(u32::MAX));
        assert!(r.is_reserved() && r.is_unwritten());
        assert!(r.is_bmbt_block() && r.is_attr_fork());
        assert_eq!(r.file_offset(), (1 << 54) - 1);
        let r = Refcount::from_bytes(&[0xFF; REFCOUNT]);
        assert!(r.is_staging());
        assert_eq!((r.block(), r.end()), ((1 << 31) - 1, (3 << 31) - 2));
        let x = FreeExtent::from_bytes(&[0xFF; FREE_EXTENT]);
        assert_eq!(x.end(), 2 * u64::from(u32::MAX));
    }

    /// Each flag is its bit and no other.
    #[test]
    fn flags() {
        for bit in 0..64 {
            let r = Rmap {
                startblock: 0,
                blockcount: 1,
                owner: 7,
                offset: 1 << bit,
            };
            assert_eq!(r.is_unwritten(), bit == 61);
            assert_eq!(r.is_bmbt_block(), bit == 62);
            assert_eq!(r.is_attr_fork(), bit == 63);
            assert_eq!(r.flags() == 0, bit < 54);
            assert!(!r.is_reserved());
        }
    }

    #[test]
    fn lists() {
        let bytes: Vec<u8> = (0..100).collect();
        let all: Vec<Rmap> = rmaps(&bytes).collect();
        assert_eq!(all.len(), 4);
        assert_eq!(rmaps(&bytes).remainder(), [96, 97, 98, 99]);
        assert_eq!(all[3].to_bytes(), bytes[72..96]);
        assert!(rmaps(&bytes).rev().eq(all.iter().rev().copied()));
        assert_eq!(rmaps(&bytes).nth(2), Some(all[2]));
        assert_eq!(rmaps(&bytes).nth_back(2), Some(all[1]));
        let mut records = rmaps(&bytes);
        assert_eq!((records.len(), records.size_hint()), (4, (4, Some(4))));
        records.next();
        records.next_back();
        assert_eq!(records.len(), 2);
        assert!(records.clone().eq(records.by_ref()));
        assert_eq!((records.next(), records.next()), (None, None));
        assert_eq!(refcounts(&bytes).len(), 8);
        assert_eq!(free_extents(&bytes).len(), 12);
        let one = FreeExtent {
            startblock: 1,
            blockcount: 2,
        };
        assert_eq!(
            format!("{:?}", free_extents(&one.to_bytes())),
            "[FreeExtent { startblock: 1, blockcount: 2 }]"
        );
    }
}

//! What tells a group and a tree apart from others.

use crate::raw::{KF_KIND_BY_BLOCK, KF_KIND_BY_SIZE, KF_KIND_REFCOUNT, KF_KIND_RMAP};
use crate::records::{FREE_EXTENT, REFCOUNT, RMAP};
use core::fmt;

/// What every call on blocks is given of a volume and its group.
///
/// ```
/// let g = kf::Geometry::new(5, 4096, 1 << 20, 3, [7; 16]);
/// assert_eq!((g.blocksize, g.agno), (4096, 3));
/// ```
#[derive(Debug, Clone, Copy, PartialEq, Eq, Hash)]
#[non_exhaustive]
pub struct Geometry {
    /// The version of XFS: 4 or 5.
    pub version: u16,
    /// The block size in bytes.
    pub blocksize: u32,
    /// The blocks of a group.
    pub agblocks: u32,
    /// The group's number.
    pub agno: u32,
    /// The volume's UUID, as its blocks have it.
    pub meta_uuid: [u8; 16],
    /// The volume's last sequence number, which is that of the last record in its
    /// log: build writes it into blocks of version 5, and no block of a tree that is
    /// read may have a higher one.
    pub last_lsn: u64,
}

impl Geometry {
    /// A geometry as given; the calls ask whether it is valid (question 1). What a
    /// later version may know of a volume besides will come by a `with_..`.
    ///
    /// The last sequence number is 0 until [`Geometry::with_last_lsn`] gives it;
    /// until then each block of a version 5 volume that has a higher one is refused
    /// by 30.
    pub const fn new(
        version: u16,
        blocksize: u32,
        agblocks: u32,
        agno: u32,
        meta_uuid: [u8; 16],
    ) -> Geometry {
        Geometry {
            version,
            blocksize,
            agblocks,
            agno,
            meta_uuid,
            last_lsn: 0,
        }
    }

    /// The same volume, with its last sequence number.
    ///
    /// That is the number of the last record in its log. It is not that of the log's
    /// head, where the next record would begin: `xfs_repair -n` refuses trees that
    /// were built with it. After a change of the UUID, or where the log was zeroed,
    /// it is the superblock's own, bytes 240 to 247. `docs/DIFFERENCES.md` of the
    /// repository has what was tried.
    ///
    /// ```
    /// use kf::{check_block, Geometry, Kind, Question, Tree, Values};
    /// let g = Geometry::new(5, 512, 9, 0, [7; 16]).with_last_lsn(0x1_0000_0032);
    /// let block = Tree::build(&g, Kind::Rmap, &[], &[4]).unwrap();
    /// // The blocks that are built have the number; they read back under it and
    /// // under any higher one.
    /// assert_eq!(block[24..32], g.last_lsn.to_be_bytes());
    /// for last in [g.last_lsn, g.last_lsn + 1, u64::MAX] {
    ///     assert!(check_block(&g.with_last_lsn(last), Kind::Rmap, 4, 0, &block).is_ok());
    /// }
    /// // A block that is newer than the log is refused.
    /// let older = g.with_last_lsn(g.last_lsn - 1);
    /// let refusal = check_block(&older, Kind::Rmap, 4, 0, &block).unwrap_err();
    /// assert_eq!(refusal.question(), Some(Question::Sequence));
    /// assert_eq!(refusal.values, Some(Values::new(0x1_0000_0031, 0x1_0000_0032)));
    /// ```
    pub const fn with_last_lsn(mut self, last_lsn: u64) -> Geometry {
        self.last_lsn = last_lsn;
        self
    }

    /// The same volume, another group.
    ///
    /// ```
    /// let g = kf::Geometry::new(5, 4096, 1 << 20, 0, [7; 16]);
    /// assert_eq!(g.with_agno(3), kf::Geometry::new(5, 4096, 1 << 20, 3, [7; 16]));
    /// ```
    pub const fn with_agno(mut self, agno: u32) -> Geometry {
        self.agno = agno;
        self
    }

    /// Does question 1 accept the block size? Any other is refused before lent
    /// memory is asked about, so that none has to be taken for it.
    pub(crate) fn has_blocksize(&self) -> bool {
        self.blocksize.is_power_of_two() && (512..=65_536).contains(&self.blocksize)
    }

    /// The UUID as the interface takes it: two big-endian numbers.
    pub(crate) fn uuid_halves(&self) -> (u64, u64) {
        let n = u128::from_be_bytes(self.meta_uuid);
        ((n >> 64) as u64, n as u64)
    }
}

/// Which tree of a group. Version 5 has all four, version 4 the two of free
/// space.
#[derive(Debug, Clone, Copy, PartialEq, Eq, Hash)]
#[non_exhaustive]
pub enum Kind {
    /// The reverse map.
    Rmap,
    /// The shared counts.
    Refcount,
    /// Free space by block (bnobt): the free extents by their starts.
    ByBlock,
    /// Free space by size (cntbt): the same extents by their counts, then starts.
    BySize,
}

impl Kind {
    /// The bytes of a record of such a tree.
    ///
    /// ```
    /// assert_eq!(kf::Kind::Rmap.record_len(), kf::RMAP);
    /// assert_eq!(kf::Kind::Refcount.record_len(), kf::REFCOUNT);
    /// assert_eq!(kf::Kind::ByBlock.record_len(), kf::FREE_EXTENT);
    /// assert_eq!(kf::Kind::BySize.record_len(), kf::FREE_EXTENT);
    /// ```
    pub const fn record_len(self) -> usize {
        match self {
            Kind::Rmap => RMAP,
            Kind::Refcount => REFCOUNT,
            Kind::ByBlock | Kind::BySize => FREE_EXTENT,
        }
    }

    /// As the interface takes it.
    pub(crate) const fn number(self) -> u32 {
        match self {
            Kind::Rmap => KF_KIND_RMAP,
            Kind::Refcount => KF_KIND_REFCOUNT,
            Kind::ByBlock => KF_KIND_BY_BLOCK,
            Kind::BySize => KF_KIND_BY_SIZE,
        }
    }
}

impl fmt::Display for Kind {
    fn fmt(&self, f: &mut fmt::Formatter<'_>) -> fmt::Result {
        f.write_str(match self {
            Kind::Rmap => "reverse map",
            Kind::Refcount => "shared counts",
            Kind::ByBlock => "free space by block",
            Kind::BySize => "free space by size",
        })
    }
}

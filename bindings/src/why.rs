//! Why a block of an extent that is let go is free now, still held or staging.

use crate::raw;
use crate::records::{field, Refcount, Rmap};
use crate::words::{Blocks, Owner};
use core::fmt;

/// What decides about a block of an extent that is let go, with the record that
/// does.
///
/// It prints as the cause alone; [`Why`] prints as a whole sentence.
#[derive(Debug, Clone, Copy, PartialEq, Eq, Hash)]
#[non_exhaustive]
pub enum Cause {
    /// Free now: no shared record lies over the block.
    Free,
    /// Still held: the first record of the reverse map over the block, other than
    /// the one that a let go cuts.
    Held(Rmap),
    /// Still held by the shared counts alone: a shared record lies over the block,
    /// and the reverse map has no record over it but the one cut. In lists that
    /// agree there is always another.
    Shared(Refcount),
    /// Staging: the block lies under a staging record, so that a let go is refused
    /// (25).
    Staging(Refcount),
}

impl fmt::Display for Cause {
    fn fmt(&self, f: &mut fmt::Formatter<'_>) -> fmt::Result {
        match self {
            Cause::Free => f.write_str("no shared record lies over it"),
            Cause::Held(r) => write!(f, "{} holds {}", Owner(r.owner), Blocks::from(r)),
            Cause::Shared(r) => write!(
                f,
                "the shared counts tell {} owners of {}, \
                 and the reverse map has no other record over it",
                r.refcount,
                Blocks::from(r)
            ),
            Cause::Staging(r) => {
                let are = if r.blockcount == 1 { "is" } else { "are" };
                write!(f, "{} {are} set aside for copy-on-write", Blocks::from(r))
            }
        }
    }
}

/// Why a block of an extent that is let go is free now, still held or staging, in
/// words that can be shown to a person. Made by [`explain`](crate::explain) and
/// [`Group::why`](crate::Group::why).
#[derive(Debug, Clone, Copy, PartialEq, Eq, Hash)]
#[non_exhaustive]
pub struct Why<'a> {
    /// The block, by its number in the group.
    pub block: u32,
    /// What decides.
    pub cause: Cause,
    /// The bytes of the deciding record, a part of the list that holds it; empty
    /// where the block is free.
    pub record: &'a [u8],
}

impl<'a> Why<'a> {
    /// From the figures of a call that was done on the two lists.
    pub(crate) fn from_figures(
        map: &'a [u8],
        counts: &'a [u8],
        block: u32,
        said: &[u64; 4],
    ) -> Why<'a> {
        let [state, list, begin, len] = *said;
        // The record stands whole in its list, and has 24 bytes in the reverse map
        // and 12 in the counts: that is proved (`explainFigures`, `EveryWhy`). So
        // neither a cut nor the reading of a record goes past an end.
        let cut = |list: &'a [u8]| &list[begin as usize..][..len as usize];
        let (cause, record) = match list {
            raw::KF_LIST_MAP => {
                let record = cut(map);
                (Cause::Held(Rmap::from_bytes(&field(record, 0))), record)
            }
            raw::KF_LIST_COUNTS => {
                let record = cut(counts);
                let count = Refcount::from_bytes(&field(record, 0));
                let cause = match state {
                    raw::KF_BLOCK_STAGING => Cause::Staging(count),
                    _ => Cause::Shared(count),
                };
                (cause, record)
            }
            _ => (Cause::Free, &[][..]),
        };
        Why {
            block,
            cause,
            record,
        }
    }
}

impl fmt::Display for Why<'_> {
    fn fmt(&self, f: &mut fmt::Formatter<'_>) -> fmt::Result {
        let Why { block, cause, .. } = self;
        match cause {
            Cause::Free => write!(f, "block {block} is free now"),
            Cause::Held(_) | Cause::Shared(_) => {
                write!(f, "block {block} is still held: {cause}")
            }
            Cause::Staging(_) => write!(f, "block {block} is staging: {cause}"),
        }
    }
}

#[cfg(test)]
mod tests {
    use super::*;
    use alloc::string::ToString;

    fn said(cause: Cause) -> [alloc::string::String; 2] {
        let why = Why {
            block: 103,
            cause,
            record: &[],
        };
        [cause.to_string(), why.to_string()]
    }

    #[test]
    fn sentences() {
        assert_eq!(
            said(Cause::Free),
            ["no shared record lies over it", "block 103 is free now"]
        );
        let held = Rmap {
            startblock: 102,
            blockcount: 4,
            owner: 132,
            offset: 7,
        };
        assert_eq!(
            said(Cause::Held(held)),
            [
                "inode 132 holds blocks 102 to 105",
                "block 103 is still held: inode 132 holds blocks 102 to 105"
            ]
        );
        let one = Rmap {
            startblock: 103,
            blockcount: 1,
            owner: -5,
            offset: 0,
        };
        assert_eq!(
            said(Cause::Held(one))[1],
            "block 103 is still held: reserved owner -5 holds block 103"
        );
        let count = Refcount {
            startblock: 100,
            blockcount: 10,
            refcount: 3,
        };
        assert_eq!(
            said(Cause::Shared(count))[1],
            "block 103 is still held: the shared counts tell 3 owners of blocks 100 to 109, \
             and the reverse map has no other record over it"
        );
        // Bit 31 of the start is no part of the block number.
        let staging = |startblock: u32, blockcount| {
            Cause::Staging(Refcount {
                startblock: (1 << 31) | startblock,
                blockcount,
                refcount: 1,
            })
        };
        assert_eq!(
            said(staging(102, 2)),
            [
                "blocks 102 to 103 are set aside for copy-on-write",
                "block 103 is staging: blocks 102 to 103 are set aside for copy-on-write"
            ]
        );
        assert_eq!(
            said(staging(103, 1))[1],
            "block 103 is staging: block 103 is set aside for copy-on-write"
        );
    }

    /// Records that no accepted list has print too.
    #[test]
    fn any_record_prints() {
        let none = Rmap {
            startblock: 0,
            blockcount: 0,
            owner: 7,
            offset: 0,
        };
        assert_eq!(said(Cause::Held(none))[0], "inode 7 holds 0 blocks from 0");
        let most = Rmap {
            startblock: u32::MAX,
            blockcount: u32::MAX,
            ..none
        };
        assert_eq!(
            said(Cause::Held(most))[0],
            "inode 7 holds blocks 4294967295 to 8589934589"
        );
    }

    /// Each figure goes to its place: the list, where the record begins, its length.
    #[test]
    fn figures() {
        let map: alloc::vec::Vec<u8> = (0..72).collect();
        let counts: alloc::vec::Vec<u8> = (100..136).collect();
        let of = |said| Why::from_figures(&map, &counts, 9, &said);
        let free = of([0, 0, 0, 0]);
        assert_eq!((free.block, free.cause), (9, Cause::Free));
        assert!(free.record.is_empty());
        let held = of([1, 1, 24, 24]);
        assert_eq!(held.record.as_ptr(), map[24..].as_ptr());
        assert_eq!(held.record, &map[24..48]);
        let record = Rmap::from_bytes(&field(&map, 24));
        assert_eq!(held.cause, Cause::Held(record));
        let shared = of([1, 2, 12, 12]);
        assert_eq!(shared.record.as_ptr(), counts[12..].as_ptr());
        assert_eq!(shared.record, &counts[12..24]);
        let count = Refcount::from_bytes(&field(&counts, 12));
        assert_eq!(shared.cause, Cause::Shared(count));
        let staging = of([2, 2, 24, 12]);
        assert_eq!(staging.record, &counts[24..]);
        let count = Refcount::from_bytes(&field(&counts, 24));
        assert_eq!(staging.cause, Cause::Staging(count));
    }
}

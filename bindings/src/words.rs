//! How blocks and owners are said to people.

use crate::records::{FreeExtent, Refcount, Rmap};
use core::fmt;

/// `block 7`, `blocks 7 to 9`, or `0 blocks from 7`.
pub(crate) struct Blocks {
    first: u32,
    end: u64,
}

impl From<&Rmap> for Blocks {
    fn from(r: &Rmap) -> Blocks {
        Blocks {
            first: r.startblock,
            end: r.end(),
        }
    }
}

impl From<&Refcount> for Blocks {
    fn from(r: &Refcount) -> Blocks {
        Blocks {
            first: r.block(),
            end: r.end(),
        }
    }
}

impl From<&FreeExtent> for Blocks {
    fn from(x: &FreeExtent) -> Blocks {
        Blocks {
            first: x.startblock,
            end: x.end(),
        }
    }
}

impl fmt::Display for Blocks {
    fn fmt(&self, f: &mut fmt::Formatter<'_>) -> fmt::Result {
        let first = self.first;
        match self.end.saturating_sub(u64::from(first)) {
            0 => write!(f, "0 blocks from {first}"),
            1 => write!(f, "block {first}"),
            _ => write!(f, "blocks {first} to {}", self.end - 1),
        }
    }
}

/// `inode 131`, or `reserved owner -5`.
pub(crate) struct Owner(pub(crate) i64);

impl fmt::Display for Owner {
    fn fmt(&self, f: &mut fmt::Formatter<'_>) -> fmt::Result {
        let called = if self.0 < 0 {
            "reserved owner"
        } else {
            "inode"
        };
        write!(f, "{called} {}", self.0)
    }
}

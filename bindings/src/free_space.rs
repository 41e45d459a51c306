//! Free space over vectors: the lists of both trees.

use crate::geometry::{Geometry, Kind};
use crate::group::{Root, Tree};
use crate::lent;
use crate::question::{Refusal, WalkRefusal};
use crate::records::{free_extents, FreeExtent};
use alloc::vec::Vec;
use core::fmt;

/// The free extents of a group, as its two free-space trees hold them: a list by
/// block and a list by size.
///
/// ```
/// use kf::{FreeExtent, FreeSpace, Geometry, Kind, Root, Tree};
/// # use std::error::Error;
/// # fn main() -> Result<(), Box<dyn Error>> {
/// let long = FreeExtent { startblock: 4, blockcount: 9 };
/// let short = FreeExtent { startblock: 20, blockcount: 2 };
/// let free = FreeSpace::from_iter([short, long]);
/// assert!(free.same_extents()?);
///
/// // Free-space trees are on version 4 too; each of the two is one block here.
/// let g = Geometry::new(4, 512, 64, 0, [0; 16]);
/// let mut image = Tree::build(&g, Kind::ByBlock, &free.by_block, &[0])?;
/// image.extend(Tree::build(&g, Kind::BySize, &free.by_size, &[1])?);
/// let (by_block, by_size) = (Root::new(0, 1, 1), Root::new(1, 1, 1));
/// assert_eq!(FreeSpace::walk(&g, &image, by_block, by_size)?, free);
/// # Ok(())
/// # }
/// ```
#[derive(Clone, Default, PartialEq, Eq)]
#[non_exhaustive]
pub struct FreeSpace {
    /// The bytes of the list by block.
    pub by_block: Vec<u8>,
    /// The bytes of the list by size.
    pub by_size: Vec<u8>,
}

impl FreeSpace {
    /// The two lists, as given; the calls ask whether they are accepted.
    ///
    /// ```
    /// use kf::{FreeExtent, FreeSpace};
    /// let a = FreeExtent { startblock: 4, blockcount: 2 };
    /// let free = FreeSpace::new(a.to_bytes().to_vec(), a.to_bytes().to_vec());
    /// assert_eq!(free, FreeSpace::from_iter([a]));
    /// ```
    pub const fn new(by_block: Vec<u8>, by_size: Vec<u8>) -> FreeSpace {
        FreeSpace { by_block, by_size }
    }

    /// Reads both free-space trees of a group, the one by block first;
    /// [`Tree::walk`] says how, and gives the blocks of a tree and whether it is
    /// linked besides. What the walks accept are blocks:
    /// [`FreeSpace::same_extents`] asks about the lists.
    ///
    /// ```
    /// use kf::{FreeSpace, Geometry, Kind, Root, Tree};
    /// let g = Geometry::new(5, 512, 9, 0, [7; 16]);
    /// // No block is free: two trees of no records.
    /// let mut image = Tree::build(&g, Kind::ByBlock, &[], &[0]).unwrap();
    /// image.extend(Tree::build(&g, Kind::BySize, &[], &[1]).unwrap());
    /// let (by_block, by_size) = (Root::new(0, 1, 1), Root::new(1, 1, 1));
    /// let free = FreeSpace::walk(&g, &image, by_block, by_size);
    /// assert_eq!(free, Ok(FreeSpace::default()));
    /// // Exchanged they are refused.
    /// let refused = FreeSpace::walk(&g, &image, by_size, by_block).unwrap_err();
    /// assert_eq!(
    ///     refused.to_string(),
    ///     "free space by block: wrong magic number (4): \
    ///      expected 0x41423342, found 0x41423343, after 1 visit",
    /// );
    /// ```
    pub fn walk(
        g: &Geometry,
        image: &[u8],
        by_block: Root,
        by_size: Root,
    ) -> Result<FreeSpace, WalkRefusal> {
        let by_block = Tree::walk(g, Kind::ByBlock, image, by_block)?.records;
        let by_size = Tree::walk(g, Kind::BySize, image, by_size)?.records;
        Ok(FreeSpace::new(by_block, by_size))
    }

    /// Do both lists hold the same extents, equally often, as
    /// [`same_extents`](crate::same_extents) says? Questions 19 and 21 on the list
    /// by block, then 19 and 21 on the list by size.
    ///
    /// ```
    /// use kf::{FreeExtent, FreeSpace, Question};
    /// let a = FreeExtent { startblock: 4, blockcount: 9 };
    /// let mut free = FreeSpace::from_iter([a]);
    /// assert_eq!(free.same_extents(), Ok(true));
    /// // One list has an extent that the other does not.
    /// free.by_size.clear();
    /// assert_eq!(free.same_extents(), Ok(false));
    /// // Free twice.
    /// let refusal = FreeSpace::from_iter([a, a]).same_extents().unwrap_err();
    /// assert_eq!(refusal.question(), Some(Question::ExtentOrder));
    /// ```
    pub fn same_extents(&self) -> Result<bool, Refusal> {
        lent::same_extents(&self.by_block, &self.by_size)
    }
}

/// Both lists of the extents, which come in any order; the calls ask whether they
/// are accepted.
///
/// ```
/// use kf::{free_extents, FreeExtent, FreeSpace};
/// let a = FreeExtent { startblock: 4, blockcount: 9 };
/// let b = FreeExtent { startblock: 20, blockcount: 2 };
/// let free = FreeSpace::from_iter([b, a]);
/// assert!(free_extents(&free.by_block).eq([a, b]));
/// assert!(free_extents(&free.by_size).eq([b, a]));
/// ```
impl FromIterator<FreeExtent> for FreeSpace {
    fn from_iter<I: IntoIterator<Item = FreeExtent>>(extents: I) -> FreeSpace {
        let mut extents: Vec<FreeExtent> = extents.into_iter().collect();
        let bytes = |list: &[FreeExtent]| list.iter().flat_map(|x| x.to_bytes()).collect();
        extents.sort_unstable_by_key(|x| (x.startblock, x.blockcount));
        let by_block = bytes(&extents);
        extents.sort_unstable_by_key(|x| (x.blockcount, x.startblock));
        FreeSpace::new(by_block, bytes(&extents))
    }
}

impl fmt::Debug for FreeSpace {
    fn fmt(&self, f: &mut fmt::Formatter<'_>) -> fmt::Result {
        f.debug_struct("FreeSpace")
            .field("by_block", &free_extents(&self.by_block))
            .field("by_size", &free_extents(&self.by_size))
            .finish()
    }
}

#[cfg(test)]
mod tests {
    use super::*;
    use crate::records::FREE_EXTENT;
    use crate::{check_by_block, check_by_size, Question};
    use alloc::{format, vec};

    fn extent(startblock: u32, blockcount: u32) -> FreeExtent {
        FreeExtent {
            startblock,
            blockcount,
        }
    }

    fn list(extents: &[FreeExtent]) -> Vec<u8> {
        extents.iter().flat_map(|x| x.to_bytes()).collect()
    }

    /// Every list of up to three extents of a small world: by block it is accepted
    /// where it is in order and nothing overlaps, by size where it is in order, and
    /// two accepted lists are the same where both, sorted, are.
    #[test]
    fn a_small_world() {
        let world = [extent(0, 1), extent(0, 2), extent(1, 1), extent(2, 2)];
        let mut lists = vec![vec![]];
        for from in 0.. {
            let Some(next) = lists.get(from).cloned() else {
                break;
            };
            if next.len() < 3 {
                lists.extend(world.iter().map(|&x| [&next[..], &[x]].concat()));
            }
        }
        assert_eq!(lists.len(), 1 + 4 + 16 + 64);
        let sorted = |l: &Vec<FreeExtent>| {
            let mut l = l.clone();
            l.sort_unstable_by_key(|x| (x.startblock, x.blockcount));
            l
        };
        let (mut yes, mut no) = (0, 0);
        for l in &lists {
            let apart = |w: &[FreeExtent]| w[0].end() <= u64::from(w[1].startblock);
            let by_block = l.windows(2).all(apart);
            assert_eq!(check_by_block(&list(l)).is_ok(), by_block, "{l:?}");
            let key = |x: &FreeExtent| (x.blockcount, x.startblock);
            let by_size = l.windows(2).all(|w| key(&w[0]) < key(&w[1]));
            assert_eq!(check_by_size(&list(l)).is_ok(), by_size, "{l:?}");
            for m in lists.iter().filter(|_| by_block) {
                let free = FreeSpace::new(list(l), list(m));
                match free.same_extents() {
                    Ok(same) => {
                        assert_eq!(same, sorted(l) == sorted(m), "{free:?}");
                        *if same { &mut yes } else { &mut no } += 1;
                    }
                    Err(refusal) => {
                        assert_eq!(refusal.question(), Some(Question::ExtentOrder));
                        assert!(check_by_size(&free.by_size).is_err(), "{free:?}");
                    }
                }
            }
        }
        // Ten lists by block, each with one by size of the fifteen.
        assert_eq!((yes, no), (10, 10 * 14));
    }

    #[test]
    fn refused() {
        let last = extent((1 << 31) - 1, 1);
        let number = |by_block: &[u8], by_size: &[u8]| {
            let free = FreeSpace::new(by_block.to_vec(), by_size.to_vec());
            free.same_extents().err().map(|refusal| refusal.number)
        };
        let good = list(&[last]);
        assert_eq!(number(&good, &good), None);
        for bad in [extent(4, 0), extent(1 << 31, 1), extent(u32::MAX, u32::MAX)] {
            let bad = list(&[bad]);
            assert_eq!(number(&bad, &good), Some(21));
            assert_eq!(number(&good, &bad), Some(21));
            // The list by block is asked about first.
            assert_eq!(number(&bad, &good[1..]), Some(21));
            assert_eq!(number(&good[1..], &bad), Some(19));
        }
        assert_eq!(number(&good, &good[1..]), Some(19));
    }

    /// Trees of several levels on both versions come back, and are the same.
    #[test]
    fn built_and_walked() {
        let extents: Vec<FreeExtent> = (0..5000).map(|i| extent(20 * i, 1 + i % 17)).collect();
        let free = FreeSpace::from_iter(extents.iter().rev().copied());
        assert_eq!(free.by_block, list(&extents));
        assert_eq!(free.same_extents(), Ok(true));
        for version in [4, 5] {
            let g = Geometry::new(version, 512, 4000, 0, [7; 16]);
            let (mut image, mut roots) = (vec![], vec![]);
            for (kind, list) in [
                (Kind::ByBlock, &free.by_block),
                (Kind::BySize, &free.by_size),
            ] {
                let plan = Tree::plan(&g, kind, list).unwrap();
                let from = (image.len() / 512) as u32;
                let numbers: Vec<u32> = (from..from + plan.total as u32).collect();
                image.extend(Tree::build(&g, kind, list, &numbers).unwrap());
                let root = plan.root(&numbers).unwrap();
                assert_eq!(root.levels, 3);
                // The header has no number of blocks.
                let root = Root::new(root.root, root.levels, u32::MAX);
                let tree = Tree::walk(&g, kind, &image, root).unwrap();
                assert!(tree.blocks == numbers && tree.linked);
                roots.push(root);
            }
            let walked = FreeSpace::walk(&g, &image, roots[0], roots[1]);
            assert_eq!(walked.as_ref(), Ok(&free));
            let refused = FreeSpace::walk(&g, &image, roots[1], roots[0]).unwrap_err();
            assert_eq!(refused.refusal.question(), Some(Question::Magic));
            assert_eq!((refused.kind, refused.visits), (Kind::ByBlock, 1));
        }
    }

    #[test]
    fn printed() {
        let free = FreeSpace::from_iter([extent(4, 2)]);
        let one = "[FreeExtent { startblock: 4, blockcount: 2 }]";
        assert_eq!(
            format!("{free:?}"),
            format!("FreeSpace {{ by_block: {one}, by_size: {one} }}")
        );
        assert_eq!(free.by_block.len(), FREE_EXTENT);
    }
}

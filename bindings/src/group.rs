//! The same calls over vectors that size themselves.
//!
//! How much longer a list can get is a law of the library:
//! `crates/groups/specs/Room.antt` of the repository states it, and
//! `crates/list_calls/specs/Room.antt` that with so much room no call answers 26
//! (`Never26`). Both are proved. That the sizes below are those of the law is
//! checked by tests.

use crate::geometry::{Geometry, Kind};
use crate::lent::{self, Lent, NewLists, Plan, WalkLists, Walked, STACK_PLACES};
use crate::question::{Question, Refusal, WalkRefusal};
use crate::records::{
    free_extents, refcounts, rmaps, FreeExtent, Records, Refcount, Rmap, FREE_EXTENT, REFCOUNT,
    RMAP,
};
use crate::why::Why;
use alloc::vec;
use alloc::vec::Vec;
use core::{fmt, mem};

#[cfg(test)]
pub(crate) mod tests;

/// Where a tree begins, as the group's header has it.
#[derive(Debug, Clone, Copy, PartialEq, Eq, Hash)]
#[non_exhaustive]
pub struct Root {
    /// The number of the root in the group (`agf_rmap_root`,
    /// `agf_refcount_root`, `agf_bno_root`, `agf_cnt_root`).
    pub root: u32,
    /// The levels (`agf_rmap_level`, `agf_refcount_level`, `agf_bno_level`,
    /// `agf_cnt_level`).
    pub levels: u32,
    /// The most blocks that the tree may have (`agf_rmap_blocks`,
    /// `agf_refcount_blocks`). The header has no such number of each free-space
    /// tree: `u32::MAX` will do.
    pub blocks: u32,
}

impl Root {
    /// The three, as given.
    ///
    /// ```
    /// let root = kf::Root::new(8, 2, 25);
    /// assert_eq!((root.root, root.levels, root.blocks), (8, 2, 25));
    /// ```
    pub const fn new(root: u32, levels: u32, blocks: u32) -> Root {
        Root {
            root,
            levels,
            blocks,
        }
    }
}

/// The bytes of records that a walk first has room for: at least a block. Tests
/// go past it with small trees.
const FIRST_ROOM: usize = if cfg!(test) { 1 << 16 } else { 64 << 20 };

/// A tree that was walked.
#[derive(Debug, Clone, PartialEq, Eq)]
#[non_exhaustive]
pub struct Tree {
    /// Its blocks by level, leaves first.
    pub blocks: Vec<u32>,
    /// The bytes of its records.
    pub records: Vec<u8>,
    /// Whether every level is linked.
    pub linked: bool,
}

/// The lists of a tree that a textbook walk read.
#[derive(Debug, Clone, PartialEq, Eq)]
#[non_exhaustive]
pub struct TreeLists {
    /// Its blocks by level, leaves first.
    pub blocks: Vec<u32>,
    /// The bytes of its records.
    pub records: Vec<u8>,
}

/// What a lookup found.
#[derive(Debug, Clone, PartialEq, Eq)]
#[non_exhaustive]
pub struct LookedUp {
    /// How many of the records read lie over each number asked, in the order
    /// asked.
    pub holders: Vec<u64>,
    /// The blocks visited; one met twice counts twice.
    pub visits: usize,
}

impl Tree {
    /// Reads a tree from its root, as [`walk_linked`](crate::walk_linked) does,
    /// and never answers 12. The image is the group, block n at n times the
    /// block size.
    ///
    /// There is room for `root.blocks` blocks, but for no more than the image
    /// has and no more than a walk visits, max(agblocks, 64); a tree that comes
    /// to no block twice has no more than these. A tree of more is refused by
    /// 15, or by 13 where it has more than a walk visits. The room is taken by
    /// and by, so that a wrong number of blocks takes no more memory than about
    /// 64 MiB or twice the tree.
    ///
    /// ```
    /// use kf::{build, Geometry, Kind, Rmap, Root, Tree};
    /// let g = Geometry::new(5, 512, 9, 0, [7; 16]);
    /// let list: Vec<u8> = (0..50)
    ///     .flat_map(|i| Rmap { startblock: 8 * i, blockcount: 2, owner: 7, offset: 0 }.to_bytes())
    ///     .collect();
    /// // Three leaves and the root, one after another in an image of four blocks.
    /// let numbers = [0, 1, 2, 3];
    /// let mut image = [0; 4 * 512];
    /// build(&g, Kind::Rmap, &list, &numbers, &mut image).unwrap();
    /// let tree = Tree::walk(&g, Kind::Rmap, &image, Root::new(3, 2, 4)).unwrap();
    /// assert_eq!((tree.blocks, tree.records), (numbers.to_vec(), list.clone()));
    /// assert!(tree.linked);
    /// // The same with room for three blocks.
    /// let refused = Tree::walk(&g, Kind::Rmap, &image, Root::new(3, 2, 3)).unwrap_err();
    /// assert_eq!((refused.refusal.number, refused.visits), (15, 4));
    /// // Block 1 of a copy that is newer than the volume's log.
    /// let newer = g.with_last_lsn(9);
    /// let mut copy = image;
    /// build(&newer, Kind::Rmap, &list, &numbers, &mut copy).unwrap();
    /// image[512..1024].copy_from_slice(&copy[512..1024]);
    /// let root = Root::new(3, 2, 4);
    /// assert!(Tree::walk(&newer, Kind::Rmap, &image, root).is_ok());
    /// let refused = Tree::walk(&g.with_last_lsn(8), Kind::Rmap, &image, root).unwrap_err();
    /// assert_eq!(
    ///     refused.to_string(),
    ///     "reverse map: the block's sequence number is above the volume's last one (30): \
    ///      expected 8 at most, found 9, after 3 visits",
    /// );
    /// ```
    pub fn walk(g: &Geometry, kind: Kind, image: &[u8], root: Root) -> Result<Tree, WalkRefusal> {
        let (lists, linked) = TreeLists::walk(g, image, root, |on| {
            let mut stack = [0; STACK_PLACES];
            let lent = Lent::new(&mut stack, on.scratch, on.blocks, on.records);
            lent::walk_linked(g, kind, image, root.root, root.levels, lent)
        })?;
        Ok(Tree {
            blocks: lists.blocks,
            records: lists.records,
            linked,
        })
    }

    /// Reads a tree from its root, as [`walk_textbook`](crate::walk_textbook)
    /// does, with the room that [`Tree::walk`] has, and never answers 12: the same
    /// lists or the same refusal. It does not say whether the tree is linked.
    ///
    /// ```
    /// use kf::{build, Geometry, Kind, Rmap, Root, Tree};
    /// let g = Geometry::new(5, 512, 9, 0, [7; 16]);
    /// let list: Vec<u8> = (0..50)
    ///     .flat_map(|i| Rmap { startblock: 8 * i, blockcount: 2, owner: 7, offset: 0 }.to_bytes())
    ///     .collect();
    /// let mut image = [0; 4 * 512];
    /// build(&g, Kind::Rmap, &list, &[0, 1, 2, 3], &mut image).unwrap();
    /// let root = Root::new(3, 2, 4);
    /// let lists = Tree::walk_textbook(&g, Kind::Rmap, &image, root).unwrap();
    /// assert_eq!((&lists.blocks[..], &lists.records), (&[0, 1, 2, 3][..], &list));
    /// let tree = Tree::walk(&g, Kind::Rmap, &image, root).unwrap();
    /// assert_eq!((tree.blocks, tree.records), (lists.blocks, lists.records));
    /// // A damaged leaf is refused by both alike.
    /// image[512] ^= 1;
    /// let refused = Tree::walk_textbook(&g, Kind::Rmap, &image, root).unwrap_err();
    /// assert_eq!((refused.refusal.number, refused.visits), (4, 3));
    /// assert_eq!(Tree::walk(&g, Kind::Rmap, &image, root), Err(refused));
    /// ```
    pub fn walk_textbook(
        g: &Geometry,
        kind: Kind,
        image: &[u8],
        root: Root,
    ) -> Result<TreeLists, WalkRefusal> {
        let (lists, ()) = TreeLists::walk(g, image, root, |on| {
            lent::walk_textbook(g, kind, image, root.root, root.levels, on)
                .map(|walked| (walked, ()))
        })?;
        Ok(lists)
    }

    /// Counts the records of the reverse map over each of the block numbers
    /// `asked`, in one descent from the root, as [`lookup`](crate::lookup) does;
    /// it never answers 12, and 29 only where the numbers do not ascend strictly.
    /// No list of blocks or records is made, so that `root.blocks` is not asked
    /// about.
    ///
    /// An answer goes by the keys in the nodes, and no question asks about these
    /// or about the records. Where keys are not those of the records under them, or
    /// records are out of order, an answer can be too low, so that 0 does not say
    /// that a block is free. [`lookup`](crate::lookup) says when all records are
    /// counted.
    ///
    /// ```
    /// use kf::{build, Geometry, Kind, Rmap, Root, Tree};
    /// let g = Geometry::new(5, 512, 9, 0, [7; 16]);
    /// // Inode 7 has blocks 8 and 9, 16 and 17, .., 400 and 401; inode 8 shares one.
    /// let extent = |i: u32| Rmap { startblock: 8 * i, blockcount: 2, owner: 7, offset: 0 };
    /// let mut extents: Vec<Rmap> = (1..=50).map(extent).collect();
    /// extents.insert(2, Rmap { startblock: 17, blockcount: 1, owner: 8, offset: 0 });
    /// let list: Vec<u8> = extents.iter().flat_map(|r| r.to_bytes()).collect();
    /// let mut image = [0; 4 * 512];
    /// build(&g, Kind::Rmap, &list, &[0, 1, 2, 3], &mut image).unwrap();
    ///
    /// let root = Root::new(3, 2, 4);
    /// let found = Tree::lookup(&g, &image, root, &[7, 16, 17, 18]).unwrap();
    /// assert_eq!(found.holders, [0, 1, 2, 0]);
    /// // The root and one leaf of the three.
    /// assert_eq!(found.visits, 2);
    ///
    /// let refused = Tree::lookup(&g, &image, root, &[17, 17]).unwrap_err();
    /// assert_eq!(refused.refusal.number, 29);
    /// ```
    pub fn lookup(
        g: &Geometry,
        image: &[u8],
        root: Root,
        asked: &[u32],
    ) -> Result<LookedUp, WalkRefusal> {
        let mut stack = [0; STACK_PLACES];
        let mut holders = vec![0; asked.len()];
        let visits = lent::lookup(
            g,
            image,
            root.root,
            root.levels,
            asked,
            &mut stack,
            &mut holders,
        )?;
        Ok(LookedUp { holders, visits })
    }

    /// The blocks of a fresh tree of a list of the kind, by level. Questions 1
    /// and 16.
    ///
    /// ```
    /// use kf::{Geometry, Kind, Tree};
    /// let g = Geometry::new(5, 512, 9, 0, [7; 16]);
    /// // A tree of no records is one block.
    /// assert_eq!(Tree::plan(&g, Kind::Rmap, &[]).unwrap().total, 1);
    /// // 57 free extents fill a leaf, and 62 on version 4.
    /// let list = [0; 58 * kf::FREE_EXTENT];
    /// assert_eq!(Tree::plan(&g, Kind::ByBlock, &list).unwrap().levels(), [2, 1]);
    /// let g = Geometry::new(4, 512, 9, 0, [7; 16]);
    /// assert_eq!(Tree::plan(&g, Kind::ByBlock, &list).unwrap().levels(), [1]);
    /// ```
    pub fn plan(g: &Geometry, kind: Kind, list: &[u8]) -> Result<Plan, Refusal> {
        lent::plan(g, kind, (list.len() / kind.record_len()) as u64)
    }

    /// The blocks of a fresh tree of a list of the kind, one after another, root
    /// last. `numbers` are their numbers in the group, leaves first, as many as
    /// [`Tree::plan`] says. On version 5 each has the geometry's last sequence
    /// number. Questions 1, 3, 19, 20 or 21, 16 and 17.
    ///
    /// ```
    /// use kf::{check_block, FreeExtent, Geometry, Kind, Question, Tree};
    /// let g = Geometry::new(5, 512, 9, 0, [7; 16]);
    /// let list = FreeExtent { startblock: 4, blockcount: 2 }.to_bytes();
    /// let block = Tree::build(&g, Kind::ByBlock, &list, &[8]).unwrap();
    /// assert!(check_block(&g, Kind::ByBlock, 8, 0, &block).is_ok());
    /// let refusal = Tree::build(&g, Kind::ByBlock, &list, &[7, 8]).unwrap_err();
    /// assert_eq!(refusal.question(), Some(Question::BlockNumbers));
    /// // As the list of another kind it is refused.
    /// let refusal = Tree::build(&g, Kind::Refcount, &list, &[8]).unwrap_err();
    /// assert_eq!(refusal.question(), Some(Question::ListLength));
    /// ```
    pub fn build(
        g: &Geometry,
        kind: Kind,
        list: &[u8],
        numbers: &[u32],
    ) -> Result<Vec<u8>, Refusal> {
        // Where the plan is refused or has another number of blocks, 17 or a
        // question before it refuses the build, so that nothing has to be lent.
        let blocks = match Tree::plan(g, kind, list) {
            Ok(plan) if plan.total == numbers.len() as u64 => numbers.len(),
            _ => 0,
        };
        let mut out = vec![0; blocks * g.blocksize as usize];
        let built = lent::build(g, kind, list, numbers, &mut out)?;
        out.truncate(built.bytes);
        Ok(out)
    }
}

impl TreeLists {
    /// The lists of a walk, and what it says besides. `walk` is made on lists that
    /// it is lent, again with longer ones where these are too short.
    fn walk<T>(
        g: &Geometry,
        image: &[u8],
        root: Root,
        walk: impl Fn(WalkLists<'_>) -> Result<(Walked, T), WalkRefusal>,
    ) -> Result<(TreeLists, T), WalkRefusal> {
        // Any other block size is refused before memory is asked about.
        if !g.has_blocksize() {
            return TreeLists::walk_in(0, 0, &walk);
        }
        let size = g.blocksize as usize;
        let limit = root.blocks.min(g.agblocks.max(64)) as usize;
        let most = limit.min(image.len() / size);
        let mut room = most.min(FIRST_ROOM / size);
        loop {
            match TreeLists::walk_in(room, size, &walk) {
                // Only 15 goes by the room: every other refusal is the same with more.
                Err(full) if full.refusal.question() == Some(Question::Full) && room < most => {
                    room = most.min(2 * room);
                }
                walked => return walked,
            }
        }
    }

    /// The same with room for so many blocks, each of records alone.
    fn walk_in<T>(
        room: usize,
        size: usize,
        walk: impl Fn(WalkLists<'_>) -> Result<(Walked, T), WalkRefusal>,
    ) -> Result<(TreeLists, T), WalkRefusal> {
        let (mut scratch, mut blocks) = (vec![0; room], vec![0; room]);
        // No longer than the image, so the product does not overflow.
        let mut records = vec![0; room * size];
        let (walked, said) = walk(WalkLists::new(&mut scratch, &mut blocks, &mut records))?;
        blocks.truncate(walked.visits);
        records.truncate(walked.bytes);
        // Most of the room was for blocks that are not there: it is given back.
        if records.len() < records.capacity() / 2 {
            blocks.shrink_to_fit();
            records.shrink_to_fit();
        }
        Ok((TreeLists { blocks, records }, said))
    }
}

/// How many shared records meet the extent.
///
/// In accepted counts both the starts as on disk and the ends ascend, and a
/// staging record starts, as on disk, where no good extent reaches; so two
/// searches tell. Of counts that are not accepted and of an extent that is not
/// good the number means nothing, but then 21 or 22 refuses, asked before 26.
fn met(counts: &[u8], x: &Rmap) -> usize {
    let start = u64::from(x.startblock);
    let begun = first_not(counts, |r| u64::from(r.startblock) < x.end());
    let ended = first_not(counts, |r| {
        u64::from(r.startblock) + u64::from(r.blockcount) <= start
    });
    begun.saturating_sub(ended)
}

/// How many records stand before the first for which `before` does not hold.
fn first_not(counts: &[u8], before: impl Fn(Refcount) -> bool) -> usize {
    let records = refcounts(counts);
    let (mut low, mut high) = (0, records.len());
    while low < high {
        let middle = low + (high - low) / 2;
        match records.clone().nth(middle) {
            Some(r) if before(r) => low = middle + 1,
            _ => high = middle,
        }
    }
    low
}

/// The reverse map and the shared counts of a group, edited together.
///
/// Its calls size what they lend by themselves, so that none answers 26, and
/// keep it for the next: a group takes about twice the memory of its lists. A
/// refusal changes nothing. By how much a list can get longer is proved
/// (`crates/groups/specs/Room.antt` of the repository); that as much is lent is
/// this crate's part, which is tested.
///
/// ```
/// use kf::{FreeExtent, Group, Refcount, Rmap};
/// # fn main() -> Result<(), kf::Refusal> {
/// let mut group = Group::default();
/// // Inode 131 takes eight blocks, and inode 132 shares four of them.
/// let first = Rmap { startblock: 100, blockcount: 8, owner: 131, offset: 0 };
/// let clone = Rmap { startblock: 102, blockcount: 4, owner: 132, offset: 0 };
/// group.take(&first)?;
/// group.take_held(&clone)?;
/// let shared = Refcount { startblock: 102, blockcount: 4, refcount: 2 };
/// assert!(group.refcounts().eq([shared]));
/// // Let go, the four are still held.
/// let free = group.let_go(&first)?;
/// let before = FreeExtent { startblock: 100, blockcount: 2 };
/// let after = FreeExtent { startblock: 106, blockcount: 2 };
/// assert_eq!(free, [before, after]);
/// assert!(group.rmaps().eq([clone]));
/// assert_eq!(group.refcounts().len(), 0);
/// # Ok(())
/// # }
/// ```
#[derive(Default)]
pub struct Group {
    /// The bytes of the reverse map.
    pub map: Vec<u8>,
    /// The bytes of the shared counts.
    pub counts: Vec<u8>,
    spare: Spare,
}

/// What edits write to. An edit that is done exchanges it with the old lists, so
/// that the next one takes no memory where the lists stay about as long.
#[derive(Default)]
struct Spare {
    map: Vec<u8>,
    counts: Vec<u8>,
    free: Vec<u8>,
}

/// So many bytes of a vector; what they hold means nothing. Where it has to be
/// taken anew it gets a sixteenth more, so that a list that grows by a record
/// at a time does not take a new one at each.
fn lend(spare: &mut Vec<u8>, len: usize) -> &mut [u8] {
    if spare.capacity() < len {
        *spare = Vec::new();
        spare.reserve_exact(len + len / 16);
    }
    spare.resize(len, 0);
    spare
}

/// What was written, cut to its length, in place of the list.
fn replace(list: &mut Vec<u8>, spare: &mut Vec<u8>, len: usize) {
    spare.truncate(len);
    mem::swap(list, spare);
}

impl Clone for Group {
    fn clone(&self) -> Group {
        Group::new(self.map.clone(), self.counts.clone())
    }
}

impl PartialEq for Group {
    fn eq(&self, other: &Group) -> bool {
        (&self.map, &self.counts) == (&other.map, &other.counts)
    }
}

impl Eq for Group {}

impl fmt::Debug for Group {
    fn fmt(&self, f: &mut fmt::Formatter<'_>) -> fmt::Result {
        f.debug_struct("Group")
            .field("map", &self.rmaps())
            .field("counts", &self.refcounts())
            .finish_non_exhaustive()
    }
}

impl Group {
    /// The group of a reverse map and shared counts; the calls ask whether they are
    /// accepted.
    ///
    /// ```
    /// use kf::{Group, Rmap};
    /// let a = Rmap { startblock: 4, blockcount: 2, owner: 131, offset: 0 };
    /// let group = Group::new(a.to_bytes().to_vec(), vec![]);
    /// assert!(group.rmaps().eq([a]));
    /// ```
    pub const fn new(map: Vec<u8>, counts: Vec<u8>) -> Group {
        let spare = Spare {
            map: Vec::new(),
            counts: Vec::new(),
            free: Vec::new(),
        };
        Group { map, counts, spare }
    }

    /// Reads the trees of both lists, the reverse map first; [`Tree::walk`] says
    /// how, and gives the blocks of a tree and whether it is linked besides. What
    /// the walks accept are blocks: the lists are asked about by the calls that
    /// edit or build them.
    ///
    /// ```
    /// use kf::{Geometry, Group, Kind, Rmap, Root, Tree};
    /// let g = Geometry::new(5, 512, 9, 0, [7; 16]);
    /// let mut group = Group::default();
    /// group.take(&Rmap { startblock: 4, blockcount: 2, owner: 131, offset: 0 }).unwrap();
    /// // Block 0 is the tree of the map, block 1 that of the counts.
    /// let mut image = Tree::build(&g, Kind::Rmap, &group.map, &[0]).unwrap();
    /// image.extend(Tree::build(&g, Kind::Refcount, &group.counts, &[1]).unwrap());
    /// let (map, counts) = (Root::new(0, 1, 1), Root::new(1, 1, 1));
    /// assert_eq!(Group::walk(&g, &image, map, counts), Ok(group));
    /// // Exchanged they are refused, with words for people.
    /// let refused = Group::walk(&g, &image, counts, map).unwrap_err();
    /// assert_eq!(
    ///     refused.to_string(),
    ///     "reverse map: wrong magic number (4): \
    ///      expected 0x524d4233, found 0x52334643, after 1 visit",
    /// );
    /// ```
    pub fn walk(g: &Geometry, image: &[u8], map: Root, counts: Root) -> Result<Group, WalkRefusal> {
        let map = Tree::walk(g, Kind::Rmap, image, map)?;
        let counts = Tree::walk(g, Kind::Refcount, image, counts)?;
        Ok(Group::new(map.records, counts.records))
    }

    /// The records of the reverse map.
    ///
    /// ```
    /// assert_eq!(kf::Group::default().rmaps().len(), 0);
    /// ```
    pub fn rmaps(&self) -> Records<'_, Rmap> {
        rmaps(&self.map)
    }

    /// The records of the shared counts.
    ///
    /// ```
    /// assert_eq!(kf::Group::default().refcounts().len(), 0);
    /// ```
    pub fn refcounts(&self) -> Records<'_, Refcount> {
        refcounts(&self.counts)
    }

    /// Takes an extent of which no block is held, as
    /// [`insert`](crate::insert) does. Questions 19, 20, 22 and 23.
    ///
    /// ```
    /// use kf::{Group, Question, Rmap};
    /// let mut group = Group::default();
    /// let a = Rmap { startblock: 4, blockcount: 2, owner: 131, offset: 0 };
    /// group.take(&a).unwrap();
    /// assert_eq!(group.map, a.to_bytes());
    /// let refusal = group.take(&a).unwrap_err();
    /// assert_eq!(refusal.question(), Some(Question::Overlap));
    /// assert_eq!(group.map, a.to_bytes());
    /// ```
    pub fn take(&mut self, x: &Rmap) -> Result<(), Refusal> {
        let new = lend(&mut self.spare.map, self.map.len() + RMAP);
        let taken = lent::insert(&self.map, x, new)?;
        replace(&mut self.map, &mut self.spare.map, taken);
        Ok(())
    }

    /// Takes an extent whose blocks are all held, as
    /// [`take_held`](crate::take_held) does, and raises the owners over it.
    /// Questions 19 and 20, then 19 and 21, then 22, 23, 25, 27 and 28.
    ///
    /// ```
    /// use kf::{Group, Question, Refcount, Rmap};
    /// let mut group = Group::default();
    /// let a = Rmap { startblock: 4, blockcount: 2, owner: 131, offset: 0 };
    /// let b = Rmap { owner: 132, ..a };
    /// let refusal = group.take_held(&b).unwrap_err();
    /// assert_eq!(refusal.question(), Some(Question::Unheld));
    /// group.take(&a).unwrap();
    /// group.take_held(&b).unwrap();
    /// assert!(group.rmaps().eq([a, b]));
    /// let shared = Refcount { startblock: 4, blockcount: 2, refcount: 2 };
    /// assert!(group.refcounts().eq([shared]));
    /// ```
    pub fn take_held(&mut self, x: &Rmap) -> Result<(), Refusal> {
        // Two more where the extent cuts a record at each of its ends, and one for
        // each gap; where it cuts one there is no gap on that side, so that in all
        // it is one more than shared records met at most.
        let more = met(&self.counts, x) + 1;
        let map = lend(&mut self.spare.map, self.map.len() + RMAP);
        let counts = lend(&mut self.spare.counts, self.counts.len() + more * REFCOUNT);
        let taken = lent::take_held(&self.map, &self.counts, x, map, counts)?;
        replace(&mut self.map, &mut self.spare.map, taken.map);
        replace(&mut self.counts, &mut self.spare.counts, taken.counts);
        Ok(())
    }

    /// Lets an extent go, as [`let_go`](crate::let_go) does: the blocks of it that
    /// no shared record met before, as longest runs, ascending. Where the counts
    /// agree with the reverse map nobody holds these any more; no call asks
    /// whether they agree. The file offset of `x` is not asked about: it chooses
    /// where several records contain it. Questions 19, 20, 22 and 24, then 19, 21
    /// and 25.
    ///
    /// ```
    /// use kf::{FreeExtent, Group, Question, Rmap};
    /// let mut group = Group::default();
    /// let a = Rmap { startblock: 4, blockcount: 8, owner: 131, offset: 0 };
    /// group.take(&a).unwrap();
    /// // The middle goes, and the map has a record more.
    /// let hole = Rmap { startblock: 6, blockcount: 3, owner: 131, offset: 2 };
    /// let free = group.let_go(&hole).unwrap();
    /// assert_eq!(free, [FreeExtent { startblock: 6, blockcount: 3 }]);
    /// assert_eq!(group.rmaps().len(), 2);
    /// let refusal = group.let_go(&hole).unwrap_err();
    /// assert_eq!(refusal.question(), Some(Question::Missing));
    /// ```
    pub fn let_go(&mut self, x: &Rmap) -> Result<Vec<FreeExtent>, Refusal> {
        let most = met(&self.counts, x) + 1;
        let new = NewLists::new(
            lend(&mut self.spare.map, self.map.len() + RMAP),
            lend(&mut self.spare.counts, self.counts.len() + 2 * REFCOUNT),
            lend(&mut self.spare.free, most * FREE_EXTENT),
        );
        let gone = lent::let_go(&self.map, &self.counts, x, new)?;
        replace(&mut self.map, &mut self.spare.map, gone.map);
        replace(&mut self.counts, &mut self.spare.counts, gone.counts);
        Ok(free_extents(&self.spare.free[..gone.free]).collect())
    }

    /// Why a block of `x` is free now, still held or staging when `x` is let go, as
    /// [`explain`](crate::explain) says it: what [`Group::let_go`] would make of the
    /// block, asked before it. The answer borrows the record that decides, and prints
    /// as a sentence. Questions 19, 20, 22 and 24, then 19, 21 and 25, then 31; 25 is
    /// not asked of a block under a staging record.
    ///
    /// ```
    /// use kf::{Cause, Group, Question, Rmap};
    /// let mut group = Group::default();
    /// let a = Rmap { startblock: 100, blockcount: 8, owner: 131, offset: 0 };
    /// let b = Rmap { startblock: 102, blockcount: 4, owner: 132, offset: 0 };
    /// group.take(&a).unwrap();
    /// group.take_held(&b).unwrap();
    /// // Should inode 131 let its extent go, inode 132 still holds block 103.
    /// let why = group.why(&a, 103).unwrap();
    /// assert_eq!(why.cause, Cause::Held(b));
    /// assert_eq!(why.to_string(), "block 103 is still held: inode 132 holds blocks 102 to 105");
    /// assert_eq!(why.record, b.to_bytes());
    /// let why = group.why(&a, 107).unwrap();
    /// assert_eq!(why.to_string(), "block 107 is free now");
    /// assert!(why.record.is_empty());
    /// // Block 108 is past the extent.
    /// let refusal = group.why(&a, 108).unwrap_err();
    /// assert_eq!(refusal.question(), Some(Question::NotInExtent));
    /// assert_eq!(refusal.to_string(), "the block does not lie in the extent (31)");
    /// ```
    pub fn why(&self, x: &Rmap, block: u32) -> Result<Why<'_>, Refusal> {
        lent::explain(&self.map, &self.counts, x, block)
    }
}

//! What the vectors lend is enough, whatever they are given; and an explanation is
//! what a let go comes to.

use super::*;
use crate::{
    check_refcounts, check_rmaps, crc32c, insert, let_go, take_held, Cause, Question, Values,
};
use alloc::collections::BTreeSet;
use alloc::format;
use alloc::string::ToString;

/// Marsaglia's xorshift: numbers that are the same at each run.
pub(crate) struct Random(pub(crate) u64);

impl Random {
    pub(crate) fn below(&mut self, n: u64) -> u64 {
        self.0 ^= self.0 << 13;
        self.0 ^= self.0 >> 7;
        self.0 ^= self.0 << 17;
        (self.0 >> 16) % n
    }
}

#[derive(Debug, Clone, Copy)]
enum Edit {
    Take,
    TakeHeld,
    LetGo,
}

const EDITS: [Edit; 3] = [Edit::Take, Edit::TakeHeld, Edit::LetGo];

/// The edit by the vectors.
fn by_vectors(group: &mut Group, edit: Edit, x: &Rmap) -> Result<Vec<FreeExtent>, Refusal> {
    match edit {
        Edit::Take => group.take(x).map(|()| vec![]),
        Edit::TakeHeld => group.take_held(x).map(|()| vec![]),
        Edit::LetGo => group.let_go(x),
    }
}

/// The edit by the call itself, on far more memory than it can need.
fn by_call(group: &Group, edit: Edit, x: &Rmap) -> Result<(Group, Vec<FreeExtent>), Refusal> {
    let plenty = 2 * (group.map.len() + group.counts.len()) + 1024;
    let (mut map, mut counts, mut free) = (vec![0; plenty], vec![0; plenty], vec![0; plenty]);
    let (m, c, f) = match edit {
        Edit::Take => {
            counts[..group.counts.len()].copy_from_slice(&group.counts);
            (insert(&group.map, x, &mut map)?, group.counts.len(), 0)
        }
        Edit::TakeHeld => {
            let t = take_held(&group.map, &group.counts, x, &mut map, &mut counts)?;
            (t.map, t.counts, 0)
        }
        Edit::LetGo => {
            let new = NewLists::new(&mut map, &mut counts, &mut free);
            let t = let_go(&group.map, &group.counts, x, new)?;
            (t.map, t.counts, t.free)
        }
    };
    map.truncate(m);
    counts.truncate(c);
    Ok((Group::new(map, counts), free_extents(&free[..f]).collect()))
}

/// By how many records each list grew, at most, and how many free extents there
/// were beyond the shared records met.
#[derive(Debug, Default, PartialEq)]
struct Growth {
    map: usize,
    counts_let_go: usize,
    /// Beyond the shared records met.
    counts_take_held: usize,
    free: usize,
    /// The numbers that were answered.
    refused: BTreeSet<u32>,
}

impl Growth {
    fn most(&self) -> [usize; 4] {
        [
            self.map,
            self.counts_let_go,
            self.counts_take_held,
            self.free,
        ]
    }
}

/// Both ways come to the same, and a refusal changes nothing. The group after
/// it, if it was done.
fn compared(group: &Group, edit: Edit, x: &Rmap, growth: &mut Growth) -> Option<Group> {
    let mut new = group.clone();
    match (by_vectors(&mut new, edit, x), by_call(group, edit, x)) {
        (Err(refusal), Err(by_call)) => {
            assert_eq!(refusal, by_call, "{edit:?} {x:?} {group:?}");
            assert_eq!(new, *group);
            growth.refused.insert(refusal.number);
            None
        }
        (Ok(free), Ok((wanted, wanted_free))) => {
            assert_eq!(
                (&new, &free),
                (&wanted, &wanted_free),
                "{edit:?} {x:?} {group:?}"
            );
            let meets = |r: &Refcount| {
                !r.is_staging()
                    && u64::from(r.block()) < x.end()
                    && u64::from(x.startblock) < r.end()
            };
            let shared = group.refcounts().filter(meets).count();
            // A first take does not ask about the counts.
            if !matches!(edit, Edit::Take) {
                assert_eq!(met(&group.counts, x), shared, "{x:?} {group:?}");
            }
            let more = |new: &[u8], old: &[u8], len: usize| {
                (new.len() / len).saturating_sub(old.len() / len)
            };
            let counts = more(&new.counts, &group.counts, REFCOUNT);
            growth.map = growth.map.max(more(&new.map, &group.map, RMAP));
            match edit {
                Edit::Take => assert_eq!(new.counts, group.counts),
                Edit::TakeHeld => {
                    growth.counts_take_held =
                        growth.counts_take_held.max(counts.saturating_sub(shared));
                }
                Edit::LetGo => {
                    growth.counts_let_go = growth.counts_let_go.max(counts);
                    growth.free = growth.free.max(free.len().saturating_sub(shared));
                }
            }
            Some(new)
        }
        (a, b) => panic!("{edit:?} {x:?} {group:?}: {a:?}, by the call {b:?}"),
    }
}

/// What the lists can grow by, in the order of `Growth`; each is met.
const MOST: [usize; 4] = [1, 2, 1, 1];

/// The extents over the first blocks, each of three holders; the second is the
/// first at another place of the file.
fn extents(blocks: u32) -> Vec<Rmap> {
    let mut all = vec![];
    for (owner, offset) in [(1, 0), (1, 100), (2, 0)] {
        for startblock in 0..blocks {
            for blockcount in 1..=blocks - startblock {
                let offset = offset + u64::from(startblock);
                all.push(Rmap {
                    startblock,
                    blockcount,
                    owner,
                    offset,
                });
            }
        }
    }
    all
}

/// Every group that a history over so many blocks comes to, and every edit on it.
fn all_histories(blocks: u32, counts: Vec<u8>, growth: &mut Growth) -> usize {
    let extents = extents(blocks);
    let mut due = vec![Group::new(vec![], counts)];
    let mut seen = BTreeSet::new();
    while let Some(group) = due.pop() {
        if !seen.insert((group.map.clone(), group.counts.clone())) {
            continue;
        }
        for edit in EDITS {
            due.extend(
                extents
                    .iter()
                    .filter_map(|x| compared(&group, edit, x, growth)),
            );
        }
    }
    seen.len()
}

#[test]
fn every_history_over_three_blocks() {
    let mut growth = Growth::default();
    // Each block has any of the sets of three holders; how the records are cut
    // makes more of them.
    assert!(all_histories(3, vec![], &mut growth) > 512);
    assert_eq!(growth.most(), MOST);
    assert!(growth.refused.iter().eq(&[23, 24, 27]));
}

/// A let go and a take of held blocks are refused where block 1 is met.
#[test]
fn every_history_beside_staging() {
    let staging = Refcount {
        startblock: (1 << 31) | 1,
        blockcount: 1,
        refcount: 1,
    };
    let mut growth = Growth::default();
    assert!(all_histories(3, staging.to_bytes().to_vec(), &mut growth) > 20);
    assert!(growth.refused.iter().eq(&[23, 24, 25, 27]));
}

#[test]
fn long_histories() {
    let mut random = Random(0x9E37_79B9_7F4A_7C15);
    let mut growth = Growth::default();
    for _ in 0..10 {
        let mut group = Group::default();
        for _ in 0..1000 {
            let startblock = random.below(40) as u32;
            let offset = 1000 * random.below(2) + u64::from(startblock);
            let x = Rmap {
                startblock,
                blockcount: 1 + random.below(12) as u32,
                owner: random.below(5) as i64 - 1,
                offset,
            };
            let edit = EDITS[random.below(3) as usize];
            if let Some(new) = compared(&group, edit, &x, &mut growth) {
                group = new;
            }
        }
        assert!(check_rmaps(&group.map).is_ok());
        assert!(check_refcounts(&group.counts).is_ok());
    }
    assert_eq!(growth.most(), MOST);
}

/// Many shared records and gaps under one extent.
#[test]
fn many_records_met() {
    let mut group = Group::default();
    let long = Rmap {
        startblock: 0,
        blockcount: 21,
        owner: 1,
        offset: 0,
    };
    group.take(&long).unwrap();
    for i in 0..10 {
        let startblock = 2 * i + 1;
        let one = Rmap {
            startblock,
            blockcount: 1,
            owner: 2,
            offset: 0,
        };
        group.take_held(&one).unwrap();
    }
    assert_eq!(group.refcounts().len(), 10);
    // Eleven gaps become records.
    let mut raised = group.clone();
    raised.take_held(&Rmap { owner: 3, ..long }).unwrap();
    assert_eq!(raised.refcounts().len(), 21);
    // Eleven gaps become free.
    assert_eq!(group.let_go(&long).unwrap().len(), 11);
    assert_eq!(group.refcounts().len(), 0);
}

/// Whatever the bytes and the extent are: no panic, and never 18 or 26.
#[test]
fn any_bytes() {
    let mut random = Random(42);
    let ends = [
        0,
        1,
        2,
        1 << 30,
        (1 << 31) - 1,
        1 << 31,
        u32::MAX - 1,
        u32::MAX,
    ];
    let mut growth = Growth::default();
    for _ in 0..20_000 {
        let mut end = || ends[random.below(8) as usize];
        let x = Rmap {
            startblock: end(),
            blockcount: end(),
            owner: 7,
            offset: 0,
        };
        let mut group = Group::default();
        // Half of them with a map that holds every block, so that the counts are
        // asked about.
        let all = Rmap {
            startblock: 0,
            blockcount: 1 << 31,
            owner: 5,
            offset: 0,
        };
        let map = if end() > 1 << 30 { all } else { x };
        group.map.extend(map.to_bytes());
        for _ in 0..end().min(2) {
            let r = Refcount {
                startblock: end(),
                blockcount: end(),
                refcount: end(),
            };
            group.counts.extend(r.to_bytes());
        }
        if random.below(4) == 0 {
            group.map.truncate(random.below(25) as usize);
            group.counts.truncate(random.below(25) as usize);
        }
        for edit in EDITS {
            compared(&group, edit, &x, &mut growth);
            let owner = 5;
            compared(&group, edit, &Rmap { owner, ..x }, &mut growth);
        }
        for block in ends {
            as_let_go(&group, &x, block);
            as_let_go(&group, &Rmap { owner: 5, ..x }, block);
        }
        let blocksize = ends[random.below(8) as usize];
        for blocksize in [512, blocksize] {
            let g = Geometry::new(4 + random.below(3) as u16, blocksize, 9, 0, [0; 16]);
            for (kind, list) in [
                (Kind::Rmap, &group.map),
                (Kind::Refcount, &group.counts),
                (Kind::ByBlock, &group.counts),
                (Kind::BySize, &group.counts),
            ] {
                for numbers in [&[][..], &[1], &[1, 2]] {
                    let answer = Tree::build(&g, kind, list, numbers);
                    assert_ne!(answer.map_err(|r| r.number), Err(18));
                }
            }
        }
    }
    // By the lists, the extent and what the map holds; never 26.
    let numbers = [19, 20, 21, 22, 23, 24, 25, 27, 28];
    assert!(growth.refused.iter().eq(&numbers), "{:?}", growth.refused);
}

/// An empty record ends where an empty extent starts, and does not start before
/// the extent ends.
#[test]
fn ended_and_not_begun() {
    let r = Refcount {
        startblock: 5,
        blockcount: 0,
        refcount: 2,
    };
    let x = Rmap {
        startblock: 5,
        blockcount: 0,
        owner: 7,
        offset: 0,
    };
    assert_eq!(met(&r.to_bytes(), &x), 0);
}

/// Whatever the geometry and the root are: no panic, and never 12.
#[test]
fn any_root() {
    let sizes = [0, 1, 511, 512, 513, 1024, 65_536, 65_537, 1 << 20, u32::MAX];
    let image = vec![0xA5; 4096];
    for version in [0, 4, 5, u16::MAX] {
        for blocksize in sizes {
            for (agblocks, blocks) in [(0, 0), (1, 1), (u32::MAX, u32::MAX)] {
                for levels in [0, 1, 9, 10, u32::MAX] {
                    for kind in [Kind::Rmap, Kind::Refcount, Kind::ByBlock, Kind::BySize] {
                        let g = Geometry::new(version, blocksize, agblocks, 0, [7; 16]);
                        let root = Root::new(0, levels, blocks);
                        let refused = Tree::walk(&g, kind, &image, root).unwrap_err();
                        let older = matches!(kind, Kind::Rmap | Kind::Refcount);
                        let wanted = match (version, blocksize, levels) {
                            (4 | 5, 512 | 1024 | 65_536, 0 | 10..) => 11,
                            (4 | 5, 65_536, _) => 14,
                            (4, 512 | 1024, _) if older => 3,
                            (4 | 5, 512 | 1024, _) => 4,
                            _ => 1,
                        };
                        assert_eq!(refused.refusal.number, wanted, "{g:?} {root:?}");
                        assert_eq!(refused.kind, kind);
                        let textbook = Tree::walk_textbook(&g, kind, &image, root);
                        assert_eq!(textbook, Err(refused));
                        if kind == Kind::Rmap {
                            let looked = Tree::lookup(&g, &image, root, &[1, 2]);
                            assert_eq!(looked, Err(refused));
                        }
                    }
                }
            }
        }
    }
}

/// A build has as many blocks as the plan says, and the walk needs no more room
/// than these.
#[test]
fn built_and_walked() {
    let g = Geometry::new(5, 512, 4000, 0, [7; 16]);
    let mut group = Group::default();
    for i in 0..2000u32 {
        let r = Rmap {
            startblock: 2 * i,
            blockcount: 1,
            owner: 7,
            offset: 0,
        };
        group.map.extend(r.to_bytes());
        let r = Refcount {
            startblock: 2 * i,
            blockcount: 1,
            refcount: 2,
        };
        group.counts.extend(r.to_bytes());
    }
    let (mut image, mut roots) = (vec![], vec![]);
    for (kind, list) in [(Kind::Rmap, &group.map), (Kind::Refcount, &group.counts)] {
        let plan = Tree::plan(&g, kind, list).unwrap();
        let from = (image.len() / 512) as u32;
        let numbers: Vec<u32> = (from..from + plan.total as u32).collect();
        let too_few = Tree::build(&g, kind, list, &numbers[1..]).unwrap_err();
        assert_eq!(too_few.question(), Some(Question::BlockNumbers));
        image.extend(Tree::build(&g, kind, list, &numbers).unwrap());
        roots.push(plan.root(&numbers).unwrap());
    }
    assert_eq!(Group::walk(&g, &image, roots[0], roots[1]), Ok(group));
}

/// A tree of more blocks than a walk first has room for, with the right number
/// of blocks, with a wrong one, and with too few.
#[test]
fn more_than_the_first_room() {
    let g = Geometry::new(5, 512, 10_000, 0, [7; 16]);
    let records = (0..10_000).flat_map(|i| {
        let r = Rmap {
            startblock: 2 * i,
            blockcount: 1,
            owner: 7,
            offset: 0,
        };
        r.to_bytes()
    });
    let map: Vec<u8> = records.collect();
    let plan = Tree::plan(&g, Kind::Rmap, &map).unwrap();
    let numbers: Vec<u32> = (0..plan.total as u32).collect();
    assert!(numbers.len() * 512 > 4 * FIRST_ROOM);
    let image = Tree::build(&g, Kind::Rmap, &map, &numbers).unwrap();
    let root = plan.root(&numbers).unwrap();
    for blocks in [root.blocks, u32::MAX] {
        let root = Root::new(root.root, root.levels, blocks);
        let tree = Tree::walk(&g, Kind::Rmap, &image, root).unwrap();
        assert!(tree.records == map && tree.blocks == numbers && tree.linked);
        let lists = Tree::walk_textbook(&g, Kind::Rmap, &image, root).unwrap();
        assert!(lists.records == map && lists.blocks == numbers);
    }
    let refused_by = |image: &[u8], root| {
        let refused = Tree::walk(&g, Kind::Rmap, image, root).unwrap_err();
        let textbook = Tree::walk_textbook(&g, Kind::Rmap, image, root);
        assert_eq!(textbook, Err(refused));
        refused.refusal.question()
    };
    let short = Root::new(root.root, root.levels, root.blocks - 1);
    assert_eq!(refused_by(&image, short), Some(Question::Full));
    // A damaged leaf is refused as the call on lent memory refuses it.
    let mut damaged = image.clone();
    damaged[400 * 512] ^= 1;
    assert_eq!(refused_by(&damaged, root), Some(Question::Magic));
}

/// Whatever bit of a small tree is another: both walks give the same lists or
/// the same refusal, and each question that a bit can fail is met.
#[test]
fn walked_by_both_with_a_bit_changed() {
    let g = Geometry::new(5, 512, 9, 3, [7; 16]);
    let records = (0..40).flat_map(|i| {
        let r = Rmap {
            startblock: 4 * i,
            blockcount: 2,
            owner: 7,
            offset: 0,
        };
        r.to_bytes()
    });
    let map: Vec<u8> = records.collect();
    let mut image = Tree::build(&g, Kind::Rmap, &map, &[0, 1, 2, 3]).unwrap();
    let root = Root::new(3, 2, 4);
    let seal = |block: &mut [u8]| {
        block[52..56].fill(0);
        let crc = crc32c(block);
        block[52..56].copy_from_slice(&crc.to_le_bytes());
    };
    let mut met = BTreeSet::new();
    for i in 0..image.len() {
        for bit in 0..8 {
            for sealed in [false, true] {
                let before = image.clone();
                image[i] ^= 1 << bit;
                if sealed {
                    let from = i / 512 * 512;
                    seal(&mut image[from..][..512]);
                }
                let walked = Tree::walk(&g, Kind::Rmap, &image, root);
                let lists = Tree::walk_textbook(&g, Kind::Rmap, &image, root);
                met.insert(walked.as_ref().map_or_else(|r| r.refusal.number, |_| 0));
                let walked = walked.map(|tree| (tree.blocks, tree.records));
                let lists = lists.map(|lists| (lists.blocks, lists.records));
                assert_eq!(walked, lists, "bit {bit} of byte {i}");
                image = before;
            }
        }
    }
    // Of the root's pointers one can be outside (14); claiming more entries, it has
    // more children than there is room for (15).
    let numbers = [0, 4, 5, 6, 7, 8, 9, 10, 14, 15, 30];
    assert!(met.iter().eq(&numbers), "{met:?}");
}

/// Trees of several levels and block sizes: each answer is what counting over
/// the walk gives, the visits are no more than the walk's, and the stack that is
/// lent is enough.
#[test]
fn looked_up_as_counted() {
    let mut random = Random(7);
    for (blocksize, n) in [(512, 0), (512, 19), (512, 4000), (1024, 900), (4096, 500)] {
        let g = Geometry::new(5, blocksize, 4000, 0, [7; 16]);
        let mut records: Vec<Rmap> = (0..n)
            .map(|i| Rmap {
                startblock: random.below(3 * n) as u32,
                blockcount: 1 + random.below(if i % 50 == 0 { n } else { 4 }) as u32,
                owner: i as i64,
                offset: 0,
            })
            .collect();
        records.sort_by_key(|r| (r.startblock, r.owner));
        let map: Vec<u8> = records.iter().flat_map(|r| r.to_bytes()).collect();
        let plan = Tree::plan(&g, Kind::Rmap, &map).unwrap();
        let numbers: Vec<u32> = (0..plan.total as u32).collect();
        let image = Tree::build(&g, Kind::Rmap, &map, &numbers).unwrap();
        let root = plan.root(&numbers).unwrap();
        let last = 4 * n as u32 + 2;
        let mut fewer = false;
        for (from, step) in [(0, 1), (0, 7), (last / 2, last as usize), (u32::MAX, 1)] {
            let mut asked: Vec<u32> = (from..last).step_by(step).collect();
            asked.push(u32::MAX);
            let found = Tree::lookup(&g, &image, root, &asked).unwrap();
            let counted = asked.iter().map(|&a| {
                let over = |r: &&Rmap| r.startblock <= a && u64::from(a) < r.end();
                records.iter().filter(over).count() as u64
            });
            assert!(counted.eq(found.holders), "{n} records at {blocksize}");
            assert!((1..=numbers.len()).contains(&found.visits));
            fewer |= found.visits < numbers.len();
        }
        assert_eq!(fewer, numbers.len() > 1);
        // The root's block check, also where nothing is asked.
        let found = Tree::lookup(&g, &image, root, &[]).unwrap();
        assert_eq!((found.holders, found.visits), (vec![], 1));
        for asked in [[5, 5], [6, 5]] {
            let refused = Tree::lookup(&g, &image, root, &asked).unwrap_err();
            assert_eq!(refused.refusal.question(), Some(Question::Asked));
            assert_eq!((refused.kind, refused.visits), (Kind::Rmap, 0));
        }
    }
}

/// A damaged leaf is refused where it is read, and skipped where no number lies
/// between its keys.
#[test]
fn looked_up_in_a_damaged_tree() {
    let g = Geometry::new(5, 512, 9, 0, [7; 16]);
    let records = (0..57).flat_map(|i| {
        let r = Rmap {
            startblock: 4 * i,
            blockcount: 2,
            owner: 7,
            offset: 0,
        };
        r.to_bytes()
    });
    let map: Vec<u8> = records.collect();
    let mut image = Tree::build(&g, Kind::Rmap, &map, &[0, 1, 2, 3]).unwrap();
    image[512] ^= 1;
    let root = Root::new(3, 2, 4);
    // The middle leaf has the records from 4 x 19 to 4 x 37, so blocks 76 to 149.
    for asked in [[75, 150], [0, 226]] {
        assert!(Tree::lookup(&g, &image, root, &asked).is_ok());
    }
    for asked in [[0, 76], [149, 300]] {
        let refused = Tree::lookup(&g, &image, root, &asked).unwrap_err();
        assert_eq!(refused.refusal.question(), Some(Question::Magic));
        let before = usize::from(asked[0] == 0);
        assert_eq!(refused.visits, 2 + before);
    }
}

/// Trees that are built with a number read back under it and any higher one, and
/// are refused at the root under any lower one. A plan and the lists are the same
/// under each.
#[test]
fn read_back_under_the_same_number_or_a_higher() {
    let records = (0..57).flat_map(|i| {
        let r = Rmap {
            startblock: 4 * i,
            blockcount: 2,
            owner: 7,
            offset: 0,
        };
        r.to_bytes()
    });
    let map: Vec<u8> = records.collect();
    let (numbers, root) = ([0, 1, 2, 3], Root::new(3, 2, 4));
    for lsn in [1, 1 << 32, (1 << 63) - 1, 1 << 63, u64::MAX] {
        let g = Geometry::new(5, 512, 9, 3, [7; 16]).with_last_lsn(lsn);
        let image = Tree::build(&g, Kind::Rmap, &map, &numbers).unwrap();
        for last in [lsn, lsn.saturating_add(1), u64::MAX] {
            let g = g.with_last_lsn(last);
            let tree = Tree::walk(&g, Kind::Rmap, &image, root).unwrap();
            assert!(tree.records == map && tree.blocks == numbers && tree.linked);
            let lists = Tree::walk_textbook(&g, Kind::Rmap, &image, root).unwrap();
            assert!(lists.records == map && lists.blocks == numbers);
            let found = Tree::lookup(&g, &image, root, &[1, 2, 76]).unwrap();
            assert_eq!((found.holders, found.visits), (vec![1, 0, 1], 3));
        }
        for last in [lsn - 1, 0] {
            let g = g.with_last_lsn(last);
            let values = Some(Values::new(last, lsn));
            let refusal = Refusal::new(Question::Sequence, values);
            let due = WalkRefusal::new(Kind::Rmap, refusal, 1);
            assert_eq!(Tree::walk(&g, Kind::Rmap, &image, root), Err(due));
            assert_eq!(Tree::walk_textbook(&g, Kind::Rmap, &image, root), Err(due));
            assert_eq!(Tree::lookup(&g, &image, root, &[1]), Err(due));
        }
    }
}

/// One block of a tree is newer than the log: refused where it is read.
#[test]
fn a_newer_block_in_a_tree() {
    let list: Vec<u8> = (0..150)
        .flat_map(|i| {
            let x = FreeExtent {
                startblock: 4 * i,
                blockcount: 2,
            };
            x.to_bytes()
        })
        .collect();
    let (numbers, root) = ([0, 1, 2, 3], Root::new(3, 2, 4));
    for version in [4, 5] {
        let old = Geometry::new(version, 512, 9, 3, [7; 16]).with_last_lsn(1 << 40);
        let new = old.with_last_lsn((1 << 40) + 1);
        let image = Tree::build(&old, Kind::ByBlock, &list, &numbers).unwrap();
        let newer = Tree::build(&new, Kind::ByBlock, &list, &numbers).unwrap();
        // Version 4 has no such number.
        assert_eq!(image == newer, version == 4);
        for (n, visits) in [(0, 2), (1, 3), (2, 4), (3, 1)] {
            let mut image = image.clone();
            image[n * 512..][..512].copy_from_slice(&newer[n * 512..][..512]);
            let walked = Tree::walk(&old, Kind::ByBlock, &image, root);
            let textbook = Tree::walk_textbook(&old, Kind::ByBlock, &image, root);
            assert!(Tree::walk(&new, Kind::ByBlock, &image, root).is_ok());
            if version == 4 {
                assert!(walked.is_ok() && textbook.is_ok());
                continue;
            }
            let values = Some(Values::new(old.last_lsn, new.last_lsn));
            let refusal = Refusal::new(Question::Sequence, values);
            let due = WalkRefusal::new(Kind::ByBlock, refusal, visits);
            assert_eq!(walked, Err(due));
            assert_eq!(textbook, Err(due));
        }
    }
}

/// An explanation comes to what a let go of the same extent does: free or not, 25
/// where the block is staging, the same refusal but for 31, which a let go does not
/// ask.
fn as_let_go(group: &Group, x: &Rmap, block: u32) {
    let said = || format!("block {block} of {x:?} in {group:?}");
    let is_staging = |why: &Why| matches!(why.cause, Cause::Staging(_));
    match (group.why(x, block), group.clone().let_go(x)) {
        (Ok(why), Ok(free)) => {
            let over = |f: &FreeExtent| f.startblock <= block && u64::from(block) < f.end();
            let is_free = free.iter().any(over);
            assert_eq!(why.cause == Cause::Free, is_free, "{}", said());
            assert!(!is_staging(&why), "{}", said());
        }
        (Ok(why), Err(gone)) => {
            assert_eq!((is_staging(&why), gone.number), (true, 25), "{}", said());
        }
        (Err(refusal), Ok(_)) => assert_eq!(refusal.number, 31, "{}", said()),
        (Err(refusal), Err(gone)) => {
            let numbers = (refusal.number, gone.number);
            assert!(refusal == gone || numbers == (31, 25), "{}", said());
        }
    }
}

fn rmap(startblock: u32, blockcount: u32, owner: i64, offset: u64) -> Rmap {
    Rmap {
        startblock,
        blockcount,
        owner,
        offset,
    }
}

fn shared(startblock: u32, blockcount: u32, refcount: u32) -> Refcount {
    Refcount {
        startblock,
        blockcount,
        refcount,
    }
}

fn staging(startblock: u32, blockcount: u32) -> Refcount {
    shared((1 << 31) | startblock, blockcount, 1)
}

fn group_of(map: &[Rmap], counts: &[Refcount]) -> Group {
    Group::new(
        map.iter().flat_map(|r| r.to_bytes()).collect(),
        counts.iter().flat_map(|r| r.to_bytes()).collect(),
    )
}

/// The cause, and the place of the deciding record in its list, 0 where none
/// decides; or the number of the refusal. The part handed back is looked at: its
/// bytes are the record's, and they are the list's own, not a copy.
fn named(group: &Group, x: &Rmap, block: u32) -> Result<(Cause, usize), u32> {
    let why = group.why(x, block).map_err(|refusal| refusal.number)?;
    assert_eq!(why.block, block);
    let (list, record) = match why.cause {
        Cause::Free => (&group.map, vec![]),
        Cause::Held(r) => (&group.map, r.to_bytes().to_vec()),
        Cause::Shared(r) | Cause::Staging(r) => (&group.counts, r.to_bytes().to_vec()),
    };
    assert_eq!(why.record, record);
    if record.is_empty() {
        return Ok((why.cause, 0));
    }
    let at = why.record.as_ptr() as usize - list.as_ptr() as usize;
    assert_eq!(&list[at..][..record.len()], record);
    assert_eq!(at % record.len(), 0);
    Ok((why.cause, at / record.len()))
}

/// Inode 131 lets 100/8 go. Inode 132 shares 102/4, and before it stand records of
/// other blocks; so places in the two lists differ.
#[test]
fn why_a_block_is_held_or_free() {
    let (a, b) = (rmap(100, 8, 131, 0), rmap(102, 4, 132, 0));
    let own = rmap(0, 4, -3, 0);
    let counts = [shared(50, 2, 2), shared(102, 4, 2), shared(200, 1, 3)];
    let group = group_of(&[own, a, b, rmap(300, 1, 7, 0)], &counts);
    for block in 100..108 {
        let held = (102..106).contains(&block);
        let due = if held {
            (Cause::Held(b), 2)
        } else {
            (Cause::Free, 0)
        };
        assert_eq!(named(&group, &a, block), Ok(due), "{block}");
    }
    for block in [0, 99, 108, 200, (1 << 31) - 1, 1 << 31, u32::MAX] {
        assert_eq!(named(&group, &a, block), Err(31), "{block}");
    }
    // The file offset chooses, and is not asked about.
    let elsewhere = Rmap { offset: 9, ..a };
    assert_eq!(named(&group, &elsewhere, 103), Ok((Cause::Held(b), 2)));
    // A part of the extent, and the clone's own extent: there inode 131 holds on.
    let part = rmap(104, 3, 131, 4);
    assert_eq!(named(&group, &part, 105), Ok((Cause::Held(b), 2)));
    assert_eq!(named(&group, &part, 106), Ok((Cause::Free, 0)));
    assert_eq!(named(&group, &part, 103), Err(31));
    assert_eq!(named(&group, &b, 103), Ok((Cause::Held(a), 1)));
}

/// The first of many decides, a reserved owner as any other.
#[test]
fn why_by_the_first_of_many() {
    let own = rmap(2, 5, -3, 0);
    let (a, b, c) = (rmap(0, 8, 131, 0), rmap(4, 2, 132, 0), rmap(4, 4, 133, 0));
    let group = group_of(&[a, own, b, c], &[shared(0, 8, 4)]);
    assert_eq!(named(&group, &a, 5), Ok((Cause::Held(own), 1)));
    assert_eq!(
        group.why(&a, 5).unwrap().to_string(),
        "block 5 is still held: reserved owner -3 holds blocks 2 to 6"
    );
    assert_eq!(named(&group, &a, 7), Ok((Cause::Held(c), 3)));
    assert_eq!(named(&group, &c, 7), Ok((Cause::Held(a), 0)));
}

/// The counts tell other owners, and the reverse map has none.
#[test]
fn why_by_the_count_alone() {
    let a = rmap(100, 8, 131, 0);
    let counts = [shared(50, 2, 2), shared(100, 4, 3)];
    let group = group_of(&[a], &counts);
    assert_eq!(named(&group, &a, 103), Ok((Cause::Shared(counts[1]), 1)));
    assert_eq!(
        group.why(&a, 103).unwrap().to_string(),
        "block 103 is still held: the shared counts tell 3 owners of blocks 100 to 103, \
         and the reverse map has no other record over it"
    );
    assert_eq!(named(&group, &a, 104), Ok((Cause::Free, 0)));
    // Held by the map alone is free: the counts decide.
    let group = group_of(&[a, rmap(104, 1, 132, 0)], &counts);
    assert_eq!(named(&group, &a, 104), Ok((Cause::Free, 0)));
}

/// A block under a staging record gets it, and 25 is for the blocks beside it.
#[test]
fn why_beside_staging() {
    let (a, b) = (rmap(100, 8, 131, 0), rmap(102, 4, 132, 0));
    let inside = staging(103, 2);
    let outside = staging(110, 1);
    let shares = shared(102, 4, 2);
    let group = group_of(&[a, b], &[shares, inside, outside]);
    assert_eq!(named(&group, &a, 103), Ok((Cause::Staging(inside), 1)));
    assert_eq!(named(&group, &a, 104), Ok((Cause::Staging(inside), 1)));
    assert_eq!(
        group.why(&a, 104).unwrap().to_string(),
        "block 104 is staging: blocks 103 to 104 are set aside for copy-on-write"
    );
    // Held, free, or outside the extent.
    for block in [102, 105, 106, 108] {
        assert_eq!(named(&group, &a, block), Err(25), "{block}");
    }
    // Under a staging record, but outside: 31, whether the extent meets another
    // such record or not.
    assert_eq!(named(&group, &a, 110), Err(31));
    let group = group_of(&[a, b], &[shares, outside]);
    assert_eq!(named(&group, &a, 110), Err(31));
    assert_eq!(named(&group, &a, 103), Ok((Cause::Held(b), 1)));
}

/// The record cut is left out by its place: an equal one is another.
#[test]
fn why_by_an_equal_record() {
    let a = rmap(100, 8, 131, 0);
    let counts = [shared(100, 8, 2)];
    let group = group_of(&[a, a], &counts);
    assert_eq!(named(&group, &a, 103), Ok((Cause::Held(a), 1)));
    assert_eq!(
        named(&group_of(&[a], &counts), &a, 103),
        Ok((Cause::Shared(counts[0]), 0))
    );
}

/// Of several that contain the extent the first that lines up is cut, so that one
/// before it decides; where none lines up, the first is cut.
#[test]
fn why_by_the_record_before_the_one_cut() {
    let (a, b) = (rmap(0, 8, 131, 0), rmap(0, 8, 131, 9));
    let group = group_of(&[a, b], &[shared(0, 8, 2)]);
    let x = |offset| rmap(2, 3, 131, offset);
    assert_eq!(named(&group, &x(11), 3), Ok((Cause::Held(a), 0)));
    assert_eq!(named(&group, &x(2), 3), Ok((Cause::Held(b), 1)));
    assert_eq!(named(&group, &x(50), 3), Ok((Cause::Held(b), 1)));
    // Blocks of an extent map always line up: the first is cut.
    let bmbt = 1 << 62;
    let (a, b) = (rmap(0, 8, 131, bmbt), rmap(0, 8, 131, bmbt | 9));
    let group = group_of(&[a, b], &[shared(0, 8, 2)]);
    assert_eq!(named(&group, &x(bmbt | 11), 3), Ok((Cause::Held(b), 1)));
}

/// The questions in their order: each input fails one of them and all after it.
#[test]
fn why_is_refused_in_order() {
    let (a, b) = (rmap(100, 8, 131, 0), rmap(100, 8, 132, 0));
    let (out_of_order, good) = ([b, a], [a, b]);
    let (bad, meets) = ([shared(0, 1, 1)], [staging(100, 1)]);
    let no_extent = rmap(100, 0, 131, 0);
    let missing = rmap(100, 8, 133, 0);
    let refused = |group: &Group, x: &Rmap| group.why(x, 200).unwrap_err().number;
    let mut group = group_of(&out_of_order, &bad);
    group.map.push(0);
    assert_eq!(refused(&group, &no_extent), 19);
    group.map.pop();
    assert_eq!(refused(&group, &no_extent), 20);
    let mut group = group_of(&good, &bad);
    group.counts.push(0);
    assert_eq!(refused(&group, &no_extent), 22);
    assert_eq!(refused(&group, &missing), 24);
    assert_eq!(refused(&group, &a), 19);
    group.counts.pop();
    assert_eq!(refused(&group, &a), 21);
    assert_eq!(refused(&group_of(&good, &meets), &a), 25);
    assert_eq!(refused(&group_of(&good, &[]), &a), 31);
}

/// Records of both lists over a few blocks, accepted. Half of the counts agree with
/// the map, and some have staging records behind them.
fn small_group(random: &mut Random) -> (Group, bool) {
    let mut map: Vec<Rmap> = (0..random.below(6))
        .map(|_| {
            let startblock = random.below(8) as u32;
            let offset = u64::from(startblock) + 100 * random.below(2);
            let blockcount = 1 + random.below(6) as u32;
            rmap(startblock, blockcount, random.below(3) as i64 - 1, offset)
        })
        .collect();
    map.sort_by_key(|r| (r.startblock, r.owner as u64, r.offset));
    let agree = random.below(2) == 0;
    let mut counts: Vec<Refcount> = vec![];
    for block in 0..16 {
        let over = |r: &&Rmap| r.startblock <= block && u64::from(block) < r.end();
        let holders = map.iter().filter(over).count() as u32;
        let owners = if agree {
            holders
        } else {
            random.below(4) as u32
        };
        match counts.last_mut() {
            Some(c) if c.end() == u64::from(block) && c.refcount == owners => c.blockcount += 1,
            _ if owners >= 2 => counts.push(shared(block, 1, owners)),
            _ => {}
        }
    }
    if random.below(4) == 0 {
        counts.push(staging(random.below(8) as u32, 1 + random.below(3) as u32));
    }
    (group_of(&map, &counts), agree)
}

/// The words of docs/QUESTIONS.md as a program, for accepted lists and good extents.
fn by_the_words(group: &Group, x: &Rmap, block: u32) -> Result<(Cause, usize), u32> {
    let contains = |r: &Rmap| {
        (r.owner, r.flags()) == (x.owner, x.flags())
            && r.startblock <= x.startblock
            && x.end() <= r.end()
    };
    let lines_up = |r: &Rmap| {
        let ahead = u64::from(x.startblock) - u64::from(r.startblock);
        x.is_reserved() || x.is_bmbt_block() || r.file_offset() + ahead == x.file_offset()
    };
    let cut = group
        .rmaps()
        .position(|r| contains(&r) && lines_up(&r))
        .or_else(|| group.rmaps().position(|r| contains(&r)))
        .ok_or(24u32)?;
    let over = |start: u32, end: u64| start <= block && u64::from(block) < end;
    let count_over = |is_staging: bool| {
        let mut counts = group.refcounts().enumerate();
        counts.find(|(_, r)| r.is_staging() == is_staging && over(r.block(), r.end()))
    };
    let staged = count_over(true);
    let meets = |r: &Refcount| {
        r.is_staging() && u64::from(r.block()) < x.end() && u64::from(x.startblock) < r.end()
    };
    if staged.is_none() && group.refcounts().any(|r| meets(&r)) {
        return Err(25);
    }
    if !over(x.startblock, x.end()) {
        return Err(31);
    }
    if let Some((i, r)) = staged {
        return Ok((Cause::Staging(r), i));
    }
    let Some((i, r)) = count_over(false) else {
        return Ok((Cause::Free, 0));
    };
    let mut others = group.rmaps().enumerate().filter(|(i, _)| *i != cut);
    match others.find(|(_, r)| over(r.startblock, r.end())) {
        Some((i, r)) => Ok((Cause::Held(r), i)),
        None => Ok((Cause::Shared(r), i)),
    }
}

/// Each block of each record, and of parts of it, in small groups: the explanation
/// is that of the words, and what a let go comes to.
#[test]
fn why_of_each_block_of_small_groups() {
    let mut random = Random(0x5DEE_CE66_D1CE_4E5B);
    let mut met = BTreeSet::new();
    for _ in 0..400 {
        let (group, agree) = small_group(&mut random);
        let mut extents: Vec<Rmap> = group.rmaps().collect();
        for r in group.rmaps() {
            let ahead = random.below(u64::from(r.blockcount)) as u32;
            let left = u64::from(r.blockcount - ahead);
            let offset = r.offset + u64::from(ahead) * random.below(2);
            let count = 1 + random.below(left) as u32;
            extents.push(rmap(r.startblock + ahead, count, r.owner, offset));
            extents.push(rmap(r.startblock, r.blockcount + 3, r.owner, r.offset));
        }
        for x in &extents {
            let mut after = group.clone();
            let gone = after.let_go(x).is_ok();
            for block in (0..16).chain([(1 << 31) - 1, 1 << 31, u32::MAX]) {
                as_let_go(&group, x, block);
                let said = named(&group, x, block);
                let context = || format!("block {block} of {x:?} in {group:?}");
                assert_eq!(said, by_the_words(&group, x, block), "{}", context());
                let over = |r: &Rmap| r.startblock <= block && u64::from(block) < r.end();
                let holders = after.rmaps().filter(over).count();
                let (kind, agreeing) = match said {
                    Ok((Cause::Free, _)) => ("free", holders == 0),
                    Ok((Cause::Held(_), _)) => ("held", holders > 0),
                    Ok((Cause::Shared(_), _)) => ("shared", false),
                    Ok((Cause::Staging(_), _)) => ("staging", !gone),
                    Err(24) => ("24", !gone),
                    Err(25) => ("25", !gone),
                    Err(31) => ("31", true),
                    Err(n) => panic!("{n}: {}", context()),
                };
                // What is more in lists that agree.
                assert!(agreeing || !agree, "{kind}: {}", context());
                met.insert((kind, agree));
            }
        }
    }
    // Each is met in lists that agree and in others, but for the count alone.
    let kinds = ["free", "held", "staging", "24", "25", "31"];
    let due = kinds.iter().flat_map(|&kind| [(kind, false), (kind, true)]);
    let mut due: BTreeSet<(&str, bool)> = due.collect();
    due.insert(("shared", false));
    assert_eq!(met, due);
}

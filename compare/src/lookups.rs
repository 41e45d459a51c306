//! Lookups. The original has no such call: the answer, the figures and all lent
//! memory are compared with the definition here, over the original's block
//! check, and on whole trees with counting over the records of its walk.

use crate::blocks::{geometry, seal};
use crate::edits::{bytes, expect, same};
use crate::kinds::{self, Kind, STACK_PLACES};
use crate::lent::{hex, Lent};
use crate::library;
use crate::links::{self, be32, put};
use crate::sequence;
use crate::tally::{differ, Tally};
use crate::trees;
use oracle::ag_btree::reach::stamp;
use oracle::bare::{self, Walked};
use oracle::refusal::Outcome;
use oracle::rmap::Rmap;
use oracle::sample::Random;
use oracle::{paper, Geometry, Tree};

/// Every answer that a lookup can have.
pub const ANSWERS: [u32; 16] = [0, 1, 3, 4, 5, 6, 7, 8, 9, 10, 11, 12, 13, 14, 29, 30];

/// The lookups of `stacks`, by what became of them.
const STACKS: &str = "lookup, stack";

/// The lookups of whole trees that are noted by their visits.
const VISITS: &str = "lookup of a whole tree, visits";

/// A lookup, with how much it is lent.
#[derive(Clone)]
pub struct Lookup {
    pub g: Geometry,
    pub last_lsn: u64,
    pub image: Vec<u8>,
    pub root: u32,
    pub levels: u32,
    pub asked: Vec<u32>,
    /// Places of the stack.
    pub stack: usize,
    /// Places for answers.
    pub answers: usize,
}

/// What a lookup leaves in its stack and its answers.
#[derive(Debug, Clone, PartialEq, Eq)]
pub enum Left {
    /// Both as they were.
    Untouched,
    /// Both zero throughout.
    Zero,
    /// The stack zero, and the answers from the front of their places.
    Found(Vec<u64>),
}

/// What a lookup is to come to.
#[derive(Debug, Clone, PartialEq, Eq)]
pub struct Due {
    pub number: u32,
    pub figures: [u64; 4],
    pub left: Left,
    /// The blocks that passed 13, as they were met.
    pub visited: Vec<u32>,
}

/// How many records or entries a block claims.
fn claimed(b: &[u8]) -> usize {
    usize::from(b[6]) * 256 + usize::from(b[7])
}

fn claim(b: &mut [u8], n: usize) {
    b[6..8].copy_from_slice(&(n as u16).to_be_bytes());
}

/// Where the keys of child i begin in a node: a low key and a high key of 20
/// bytes, each with its start in front.
fn keys(i: usize) -> usize {
    56 + 40 * i
}

/// The starts of the two keys of child i.
fn starts(b: &[u8], i: usize) -> [u32; 2] {
    [be32(b, keys(i)), be32(b, keys(i) + 20)]
}

/// Where the pointer to child i is: behind room for the keys of a full node.
fn pointer(g: &Geometry, i: usize) -> usize {
    keys(paper::node_capacity(g, Tree::Rmap) as usize) + 4 * i
}

/// How many of the records lie over a block.
pub fn holders(records: &[Rmap], block: u32) -> u64 {
    let over = |r: &&Rmap| {
        let (start, count) = (u64::from(r.startblock), u64::from(r.blockcount));
        (start..start + count).contains(&u64::from(block))
    };
    records.iter().filter(over).count() as u64
}

/// The records under a block. In each node the keys of each child have to be
/// theirs, by their starts: the first record's, and the furthest block.
pub fn under(g: &Geometry, image: &[u8], block: u32, level: u16) -> Vec<Rmap> {
    let b = links::block(g, image, block);
    let n = claimed(b);
    if level == 0 {
        return bare::rmap_list(&b[56..][..24 * n]);
    }
    let mut all = vec![];
    for i in 0..n {
        let below = under(g, image, be32(b, pointer(g, i)), level - 1);
        let furthest = below.iter().map(|r| r.startblock + r.blockcount - 1).max();
        if let (Some(first), Some(furthest)) = (below.first(), furthest) {
            let theirs = [first.startblock, furthest];
            assert_eq!(starts(b, i), theirs, "block {block}: keys of child {i}");
        }
        all.extend(below);
    }
    all
}

struct Descent<'a> {
    of: &'a Lookup,
    visited: Vec<u32>,
    records: Vec<Rmap>,
}

impl Descent<'_> {
    /// A block that is due, and what is under it, from left to right.
    fn visit(&mut self, block: u32, level: u16) -> Outcome<()> {
        let Lookup {
            g,
            last_lsn,
            image,
            asked,
            ..
        } = self.of;
        if self.visited.len() >= g.agblocks.max(64) as usize {
            return Outcome::paper(13);
        }
        self.visited.push(block);
        let size = g.block_size as usize;
        let from = image.get(block as usize * size..);
        let Some(b) = from.and_then(|b| b.get(..size)) else {
            return Outcome::paper(14);
        };
        let n = match sequence::parse_block(g, *last_lsn, Kind::RMAP, b, block, level) {
            Outcome::Accepted(header) => usize::from(header.records),
            refused => return refused.map(|_| ()),
        };
        if level == 0 {
            self.records.extend(bare::rmap_list(&b[56..][..24 * n]));
            return Outcome::Accepted(());
        }
        for i in 0..n {
            let [low, high] = starts(b, i);
            // All numbers asked, not those alone that passed the keys above.
            if asked.iter().any(|&a| low <= a && a <= high) {
                match self.visit(be32(b, pointer(g, i)), level - 1) {
                    Outcome::Accepted(()) => (),
                    refused => return refused,
                }
            }
        }
        Outcome::Accepted(())
    }
}

impl Lookup {
    /// The question that fails before a block is looked at.
    fn early(&self) -> Option<u8> {
        let ascend = self.asked.windows(2).all(|w| w[0] < w[1]);
        if !paper::geometry_holds(&self.g) {
            Some(1)
        } else if !(1..=9).contains(&self.levels) {
            Some(11)
        } else if self.stack < STACK_PLACES {
            Some(12)
        } else if !ascend || self.answers < self.asked.len() {
            Some(29)
        } else {
            None
        }
    }

    /// The definition.
    pub fn due(&self) -> Due {
        if let Some(number) = self.early() {
            return Due {
                number: number.into(),
                figures: [0; 4],
                left: Left::Untouched,
                visited: vec![],
            };
        }
        let mut descent = Descent {
            of: self,
            visited: vec![],
            records: vec![],
        };
        let outcome = descent.visit(self.root, self.levels as u16 - 1);
        let Descent {
            visited, records, ..
        } = descent;
        let visits = visited.len() as u64;
        let (number, mut figures) = expect(&outcome, |()| [visits, 0, 0, 0]);
        let left = match number {
            0 => Left::Found(self.asked.iter().map(|&a| holders(&records, a)).collect()),
            _ => {
                figures[2] = visits;
                Left::Zero
            }
        };
        Due {
            number,
            figures,
            left,
            visited,
        }
    }

    pub fn input(&self) -> String {
        format!(
            "lookup {:?} last {} root {} levels {} stack {} answers {} asked {:?} image {}",
            self.g,
            self.last_lsn,
            self.root,
            self.levels,
            self.stack,
            self.answers,
            self.asked,
            hex(&self.image)
        )
    }

    fn block(&mut self, n: u32) -> &mut [u8] {
        let size = self.g.block_size as usize;
        &mut self.image[n as usize * size..][..size]
    }
}

/// A lookup beside its definition.
pub fn one(l: &Lookup, tally: &mut Tally) -> Due {
    let due = l.due();
    let input = || l.input();
    let mut stack = Lent::<u32>::new(l.stack);
    let mut answers = Lent::<u64>::new(l.answers);
    let got = library::lookup(
        &library::g(&l.g).at(l.last_lsn),
        &l.image,
        l.root,
        l.levels,
        &l.asked,
        stack.part(),
        answers.part(),
    );
    same("lookup", &got, (due.number, due.figures), &input);
    let (s, a) = match &due.left {
        Left::Untouched => (stack.untouched(), answers.untouched()),
        Left::Zero => (stack.zero(), answers.zero()),
        Left::Found(found) => (stack.zero(), answers.holds(found)),
    };
    bytes("lookup", "stack", s, &input);
    bytes("lookup", "answers", a, &input);
    tally.add("lookup", got.number);
    due
}

/// A lookup of a whole tree: each answer is what counting over the records of
/// the original's walk gives, and no block is visited more often than by it. The
/// visits are the definition's: of the call their number is seen.
pub fn one_whole(l: &Lookup, walked: &Walked, tally: &mut Tally) -> Due {
    let due = one(l, tally);
    let list = bare::rmap_list(&walked.records);
    let counted: Vec<u64> = l.asked.iter().map(|&a| holders(&list, a)).collect();
    if due.left != Left::Found(counted.clone()) {
        let (found, counted) = (format!("{:?}", due.left), format!("{counted:?}"));
        differ("lookup", "answers", &found, &counted, &l.input());
    }
    let times = |list: &[u32], b: u32| list.iter().filter(|&&x| x == b).count();
    for &b in &due.visited {
        let (here, walk) = (times(&due.visited, b), times(&walked.blocks, b));
        assert!(here <= walk, "block {b}: {here} visits, {walk} of the walk");
    }
    let how = match due.visited.len() == walked.blocks.len() {
        true => "as many as the walk's",
        false => "fewer",
    };
    tally.note(VISITS, how);
    due
}

/// A built tree of so many records in an image, with plenty lent and no number
/// asked, and its blocks, leaves first; none where the geometry is refused.
fn stored(r: &mut Random, g: Geometry, n: usize) -> Option<(Lookup, Vec<u32>, Vec<u8>)> {
    let size = g.block_size as usize;
    let list = trees::list(r, Kind::RMAP, n);
    let plan = paper::plan(&g, Tree::Rmap, n as u64).accepted()?;
    let total = plan.iter().sum::<u64>() as usize;
    let most = total + r.below(3) as usize;
    let at = trees::numbers(r, total, most);
    let built = links::build(&g, Kind::RMAP, &list, &at, total * size).accepted()?;
    let mut image = vec![0x5A; most * size];
    for (&n, b) in at.iter().zip(built.chunks_exact(size)) {
        image[n as usize * size..][..size].copy_from_slice(b);
    }
    let levels = plan.len() as u32;
    let l = Lookup {
        g,
        last_lsn: sequence::last_lsn(&g),
        image,
        root: at[total - 1],
        levels,
        asked: vec![],
        stack: kinds::enough(r, &g, Kind::RMAP, levels),
        answers: 0,
    };
    Some((l, at, list))
}

/// Where to ask: the starts and ends of the records and of the keys that the
/// blocks have.
fn marks(l: &Lookup) -> Vec<u32> {
    let cap = paper::node_capacity(&l.g, Tree::Rmap) as usize;
    let mut out = vec![0];
    for b in l.image.chunks_exact(l.g.block_size as usize) {
        let n = claimed(b);
        if b[4..6] == [0, 0] {
            for r in bare::rmap_list(&b[56..]).iter().take(n) {
                out.extend([r.startblock, r.startblock.wrapping_add(r.blockcount)]);
            }
        } else {
            out.extend((0..n.min(cap)).flat_map(|i| starts(b, i)));
        }
    }
    out
}

/// Each once, ascending.
fn sorted(mut numbers: Vec<u32>) -> Vec<u32> {
    numbers.sort_unstable();
    numbers.dedup();
    numbers
}

/// Up to so many numbers, ascending: around the marks and the bounds, and any.
fn ascending(r: &mut Random, marks: &[u32], most: usize) -> Vec<u32> {
    let any = |_| match r.below(8) {
        0..=4 => r.pick(marks).wrapping_add(r.pick(&[0, 0, 1, u32::MAX])),
        5 => {
            let most = r.pick(marks);
            r.below(1 + u64::from(most)) as u32
        }
        6 => r.pick(&[0, 1, (1 << 31) - 1, 1 << 31, u32::MAX - 1, u32::MAX]),
        _ => r.next() as u32,
    };
    sorted((0..most).map(any).collect())
}

/// Ask about some numbers, with just as many places for answers, or a few more.
fn ask(r: &mut Random, l: &mut Lookup, marks: &[u32]) {
    let most = r.pick(&[0, 1, 1, 2, 3, 5, 10, 40]);
    l.asked = ascending(r, marks, most);
    l.answers = l.asked.len() + r.pick(&[0, 0, 0, 1, 5]);
}

/// A number for the start of a key or of a record.
fn other_start(r: &mut Random, marks: &[u32]) -> u32 {
    match r.below(4) {
        0 => r.pick(&[0, 1, u32::MAX - 1, u32::MAX]),
        1 => r.next() as u32,
        _ => r.pick(marks).wrapping_add(r.pick(&[0, 1, u32::MAX])),
    }
}

/// For record i of a leaf another count, or another start and count.
fn other_record(r: &mut Random, b: &mut [u8], i: usize, count_alone: bool, marks: &[u32]) {
    let at = 56 + 24 * i;
    if count_alone {
        put(b, at + 4, r.pick(&[0, 1, u32::MAX]));
    } else {
        put(b, at, other_start(r, marks));
        put(b, at + 4, other_start(r, marks));
    }
}

/// For child i of a node keys with nothing between their starts, or one of its
/// two starts another.
fn other_keys(r: &mut Random, b: &mut [u8], i: usize, nothing: bool, marks: &[u32]) {
    if nothing {
        let [low, high] = starts(b, i);
        put(b, keys(i), high.max(1));
        put(b, keys(i) + 20, low.min(high.max(1) - 1));
    } else {
        let side = r.pick(&[0, 20]);
        put(b, keys(i) + side, other_start(r, marks));
    }
}

/// Damage to one block: a bit; or, with the check put right again, a byte of its
/// header or how many it claims; or, of some or all that it holds, the keys or
/// the pointer of a child, or the numbers of a record, which then can fail 20.
fn damage(r: &mut Random, l: &mut Lookup, at: &[u32], marks: &[u32]) {
    let g = l.g;
    // The root is read always, any other block not always.
    let n = if r.below(3) == 0 { l.root } else { r.pick(at) };
    let outside = (l.image.len() / g.block_size as usize) as u32;
    let to = r.pick(&[n, at[0], at[at.len() / 2], l.root, outside, u32::MAX]);
    let b = l.block(n);
    let leaf = b[4..6] == [0, 0];
    let capacity = (b.len() - 56) / if leaf { 24 } else { 44 };
    let all = r.below(3) == 0;
    match r.below(8) {
        0 => {
            let i = r.below(b.len() as u64) as usize;
            b[i] ^= 1 << r.below(8);
            return;
        }
        1 => b[r.below(56) as usize] = r.next() as u8,
        2 => claim(b, r.below(capacity as u64 + 2) as usize),
        how => {
            let count = claimed(b).min(capacity);
            for i in 0..count {
                if !all && r.below(count as u64) != 0 {
                    continue;
                }
                match (leaf, how) {
                    (true, _) => other_record(r, b, i, how == 3, marks),
                    (false, 3) => put(b, pointer(&g, i), to),
                    (false, _) => other_keys(r, b, i, how == 4, marks),
                }
            }
        }
    }
    seal(&g, b);
}

/// One to three of these: another root, other levels, another geometry, a shorter
/// image, less lent, numbers that do not ascend.
fn otherwise(r: &mut Random, l: &mut Lookup) {
    for _ in 0..r.pick(&[1, 1, 2, 3]) {
        let size = l.g.block_size.clamp(512, 65536);
        let blocks = l.image.len() as u64 / size;
        let asked = l.asked.len() as u64;
        match r.below(12) {
            0 => l.root = r.below(blocks + 2) as u32,
            1 => l.root = r.pick(&[u32::MAX, blocks as u32, 1 << 31]),
            2 => l.levels = l.levels.wrapping_add(1),
            3 => l.levels = l.levels.wrapping_sub(1),
            4 => l.levels = r.pick(&[0, 10, u32::MAX, 9]),
            5 => l.g.version = 4,
            6 => l.g.agno ^= 1,
            7 => l.g = geometry(r, true),
            8 => {
                let less = r.below(size + 1) as usize;
                l.image.truncate(l.image.len().saturating_sub(less));
            }
            9 => {
                let any = r.below(STACK_PLACES as u64 + 1) as usize;
                l.stack = r.pick(&[STACK_PLACES - 1, any]);
            }
            10 => {
                let any = r.below(asked + 1);
                l.answers = r.pick(&[asked.saturating_sub(1), any]) as usize;
            }
            _ if asked < 2 => {
                l.asked = r.pick(&[[7, 7], [7, 6], [u32::MAX, 0]]).to_vec();
                l.answers = 3;
            }
            _ => {
                let i = r.below(asked - 1) as usize;
                match r.below(2) {
                    0 => l.asked.swap(i, i + 1),
                    _ => l.asked[i + 1] = l.asked[i],
                }
            }
        }
    }
}

/// Any keys for child i of a node: with all numbers between their starts, with
/// one, with some, or with none.
fn any_keys(r: &mut Random, b: &mut [u8], i: usize) {
    let [low, high] = match r.below(4) {
        0 => [0, u32::MAX],
        1 => [r.below(12) as u32; 2],
        _ => [r.below(12) as u32, r.below(16) as u32],
    };
    put(b, keys(i), low);
    put(b, keys(i) + 20, high);
}

/// Nodes that share their children: far more visits than blocks. Block n is at
/// level n, and all pointers of it are to n - 1.
fn shared(r: &mut Random) -> Lookup {
    let mut g = Geometry::v5(512);
    g.agblocks = r.pick(&[0, 63, 64, 65, 200]);
    g.meta_uuid = r.bytes(16).try_into().expect("16 bytes");
    let levels = 2 + r.below(8) as u32;
    let cap = paper::node_capacity(&g, Tree::Rmap);
    let mut image = vec![0; 512 * levels as usize];
    for (b, level) in image.chunks_exact_mut(512).zip(0..) {
        let n = match (level, levels) {
            (0, _) => r.below(4),
            (_, ..5) => 1 + r.below(cap),
            _ => 1 + r.below(3),
        };
        for i in 0..n as usize {
            if level == 0 {
                put(b, 56 + 24 * i, r.below(12) as u32);
                put(b, 56 + 24 * i + 4, r.below(12) as u32);
            } else {
                any_keys(r, b, i);
                put(b, pointer(&g, i), level - 1);
            }
        }
        let (sb, shape) = (g.superblock(), Tree::Rmap.shape());
        stamp(b, &sb, shape, g.agno, level, level as u16, n as u16);
        seal(&g, b);
    }
    let most = r.below(9);
    let asked = sorted((0..most).map(|_| r.below(16) as u32).collect());
    Lookup {
        g,
        last_lsn: sequence::last_lsn(&g),
        image,
        root: levels - 1,
        levels,
        answers: asked.len() + r.below(3) as usize,
        asked,
        stack: kinds::enough(r, &g, Kind::RMAP, levels),
    }
}

/// A lookup in a tree of a few blocks of 512 bytes, mostly damaged or otherwise
/// asked.
pub fn small(r: &mut Random) -> Lookup {
    if r.below(5) == 0 {
        return shared(r);
    }
    let mut g = Geometry::v5(512);
    g.agblocks = r.pick(&[0, 70]);
    g.agno = r.below(3) as u32;
    g.meta_uuid = r.bytes(16).try_into().expect("16 bytes");
    let n = r.below(80) as usize;
    let (mut l, at, _) = stored(r, g, n).expect("a tree");
    let about = marks(&l);
    match r.below(4) {
        0 => ask(r, &mut l, &about),
        1 => {
            ask(r, &mut l, &about);
            otherwise(r, &mut l);
        }
        _ => {
            damage(r, &mut l, &at, &about);
            let about = marks(&l);
            ask(r, &mut l, &about);
        }
    }
    l
}

/// Every number up to the last end and past it, alone and all together.
fn each_number(r: &mut Random, tally: &mut Tally) {
    let mut g = Geometry::v5(512);
    g.agblocks = 100;
    let n = r.below(90) as usize;
    let (mut l, _, list) = stored(r, g, n).expect("a tree");
    let walked = walk(&l).expect("a whole tree is walked");
    assert!(walked.records == list, "the walk gives what was built");
    l.answers = 1;
    let last = marks(&l).into_iter().max().unwrap_or(0);
    for a in (0..=last.min(600) + 2).chain([last, u32::MAX]) {
        l.asked = vec![a];
        one_whole(&l, &walked, tally);
    }
    l.asked = (0..=last.min(600) + 2).collect();
    l.answers = l.asked.len();
    one_whole(&l, &walked, tally);
}

/// The original's walk, where it goes to the end.
fn walk(l: &Lookup) -> Option<Walked> {
    bare::walk_blocks(&l.g, Tree::Rmap, &l.image, l.root, l.levels)
        .outcome
        .accepted()
}

/// A geometry, and of how many records a tree in it is to be.
fn to_store(r: &mut Random) -> (Geometry, usize) {
    let mut g = geometry(r, false);
    g.version = 5;
    if r.below(2) == 0 {
        g.block_size = 512;
    }
    let n = trees::sizes(r, &g, Kind::RMAP);
    let plan = paper::plan(&g, Tree::Rmap, n as u64).accepted();
    // As many blocks as the tree has, fewer or more. It has at most 26, and the
    // limit is 64 or more: `at_the_limit` has a tree that comes to it.
    let total = plan.unwrap_or_default().iter().sum::<u64>() as u32;
    g.agblocks = match r.below(4) {
        0 => 0,
        1 => total,
        2 => total.saturating_sub(1),
        _ => g.agblocks.max(total),
    };
    if !paper::geometry_holds(&g) {
        g.agno = 0;
    }
    (g, n)
}

/// A tree of so many records, built by both sides and stored, looked up in
/// whole, otherwise asked and damaged.
fn built(r: &mut Random, g: Geometry, n: usize, tally: &mut Tally) -> (Lookup, Vec<u32>) {
    let (mut l, at, list) = stored(r, g, n).expect("a tree");
    let size = g.block_size as usize;
    trees::one_build(&g, Kind::RMAP, &list, &at, at.len() * size, tally);
    let about = marks(&l);
    let walked = walk(&l).expect("a whole tree is walked");
    for _ in 0..4 {
        ask(r, &mut l, &about);
        one_whole(&l, &walked, tally);
    }
    for _ in 0..3 {
        let mut other = l.clone();
        otherwise(r, &mut other);
        one(&other, tally);
    }
    for _ in 0..4 {
        let mut hurt = l.clone();
        for _ in 0..r.pick(&[1, 1, 3]) {
            damage(r, &mut hurt, &at, &about);
        }
        let about = marks(&hurt);
        ask(r, &mut hurt, &about);
        one(&hurt, tally);
    }
    (l, at)
}

/// Blocks past 4,096 bytes: a tree of two levels; then its root has as many
/// children as it has room for, the leaves again and again, each with keys that
/// have few numbers between their starts.
fn large(r: &mut Random, size: u64, tally: &mut Tally) {
    let mut g = Geometry::v5(size);
    g.agblocks = 2000;
    let leaf = (size - 56) / 24;
    let n = leaf + 1 + r.below(2 * leaf);
    let (mut l, at) = built(r, g, n as usize, tally);
    assert_eq!(l.levels, 2);
    let about = marks(&l);
    let full = paper::node_capacity(&g, Tree::Rmap) as usize;
    let b = l.block(l.root);
    for i in 0..full {
        let low = r.pick(&about);
        put(b, keys(i), low);
        put(b, keys(i) + 20, low.saturating_add(r.below(3) as u32));
        put(b, pointer(&g, i), r.pick(&at[..at.len() - 1]));
    }
    claim(b, full);
    seal(&g, b);
    let (last, to) = (be32(b, keys(full - 1)), be32(b, pointer(&g, full - 1)));
    for most in [5, 40] {
        l.asked = ascending(r, &about, most);
        l.asked = sorted([&l.asked[..], &[last]].concat());
        l.answers = l.asked.len();
        let due = one(&l, tally);
        assert_eq!((due.number, due.visited.last()), (0, Some(&to)));
    }
}

/// Five levels: many numbers spread over all leaves, and all in a few.
fn five_levels(r: &mut Random, tally: &mut Tally) {
    let mut g = Geometry::v5(512);
    g.agblocks = 2000;
    let (mut l, _, _) = stored(r, g, 19 * 1001).expect("a tree");
    assert_eq!(l.levels, 5);
    let walked = walk(&l).expect("a whole tree is walked");
    for (from, step) in [(0, 120), (7, 121), (20_000, 1), (57_000, 1), (70_000, 9)] {
        l.asked = (0..500).map(|i| from + step * i).collect();
        l.answers = l.asked.len();
        one_whole(&l, &walked, tally);
    }
    at_the_limit(&mut l, &walked, tally);
}

/// The start of the first record of each leaf, so that no child is skipped: as
/// many blocks may be visited as the tree has, then one fewer.
fn at_the_limit(l: &mut Lookup, walked: &Walked, tally: &mut Tally) {
    let blocks = walked.blocks.len();
    assert!(blocks > 65, "the limit is 64 or more");
    let first = |&n: &u32| {
        let b = links::block(&l.g, &l.image, n);
        (b[4..6] == [0, 0]).then(|| be32(b, 56))
    };
    l.asked = sorted(walked.blocks.iter().filter_map(first).collect());
    l.answers = l.asked.len() + 2;
    // In group 0 no address goes by agblocks.
    assert_eq!(l.g.agno, 0);
    l.g.agblocks = blocks as u32;
    let due = one_whole(l, walked, tally);
    assert_eq!((due.number, due.figures), (0, [blocks as u64, 0, 0, 0]));
    l.g.agblocks -= 1;
    let due = one(l, tally);
    let visits = blocks as u64 - 1;
    assert_eq!((due.number, due.figures), (13, [0, 0, visits, 0]));
    assert_eq!(due.left, Left::Zero);
}

/// A tree whose nodes have one block as every child: the two highest have two, all
/// others one. Its one record lies over blocks 0 to 4, and all keys start at 0.
pub fn folded(size: u64, levels: u32) -> Lookup {
    let g = Geometry::v5(size);
    let mut image = trees::folded(&g, Kind::RMAP, &trees::few_children(levels));
    put(&mut image, 60, 5);
    seal(&g, &mut image[..size as usize]);
    Lookup {
        g,
        last_lsn: sequence::last_lsn(&g),
        image,
        root: levels - 1,
        levels,
        asked: vec![0, 4, 5],
        stack: STACK_PLACES,
        answers: 4,
    }
}

/// Every block size and number of levels, with stacks as those of the walks'
/// `stacks`: 12 refuses those below 18, and on any other the lookup comes to the
/// same.
fn stacks(tally: &mut Tally) {
    for (size, levels) in kinds::sizes_and_levels() {
        let mut l = folded(size, levels);
        let larger = kinds::larger_stack(&l.g, Kind::RMAP, levels);
        for stack in kinds::stacks_around(larger) {
            l.stack = stack;
            let found = one(&l, tally).number == 0;
            assert_eq!(found, stack >= STACK_PLACES, "{}", l.input());
            tally.note(STACKS, trees::stack_kind(stack, larger));
        }
    }
    tally.met_ways(STACKS, 3);
}

pub fn lookups(r: &mut Random, scale: u64, tally: &mut Tally) {
    for _ in 0..6_000 * scale {
        let (g, n) = to_store(r);
        built(r, g, n, tally);
    }
    for _ in 0..3_000 * scale {
        let mut l = shared(r);
        one(&l, tally);
        otherwise(r, &mut l);
        one(&l, tally);
    }
    for _ in 0..100 * scale {
        each_number(r, tally);
    }
    for size in [16_384, 65_536] {
        for _ in 0..10 * scale {
            large(r, size, tally);
        }
    }
    five_levels(r, tally);
    stacks(tally);
    tally.met_both(VISITS);
    tally.met_all("lookup", &ANSWERS);
}

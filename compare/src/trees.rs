//! Plans, built trees and walks.

use crate::blocks::{geometry, seal};
use crate::edits::{bytes, expect, same};
use crate::free;
use crate::kinds::{self, header_len, pointer, Kind, STACK_PLACES};
use crate::lent::{hex, Lent};
use crate::library::{self, Walk};
use crate::links;
use crate::lists;
use crate::sequence;
use crate::tally::{differ, Tally};
use oracle::ag_btree::reach::stamp;
use oracle::bare::{self, WalkAnswer, Walked};
use oracle::paper;
use oracle::refusal::Outcome;
use oracle::sample::Random;
use oracle::{Geometry, Tree};

/// The walks of `stacks`, by what became of them.
pub const STACKS: &str = "walk, stack";

/// The images whose walk 12 refuses, by what becomes of the textbook walk.
pub const TEXTBOOK: &str = "walk_textbook, where 12 refuses the walk";

fn one_plan(g: &Geometry, kind: Kind, records: u64, tally: &mut Tally) {
    let input = || format!("{g:?} {kind:?} records {records}");
    let want = kinds::plan(g, kind, records);
    let lent: [u64; 9] = std::array::from_fn(|i| 0x5A5A_5A5A + i as u64);
    let mut levels = lent;
    let got = library::plan(&library::g(g), kind.number(), records, &mut levels);
    same(
        "plan",
        &got,
        expect(&want, |v| [v.len() as u64, v.iter().sum(), 0, 0]),
        &input,
    );
    // Zeros past the last level; a refusal leaves what was lent.
    let due = want.accepted().map_or(lent.to_vec(), |mut v| {
        v.resize(9, 0);
        v
    });
    if levels[..] != due[..] {
        let (l, o) = (format!("{levels:?}"), format!("{due:?}"));
        differ("plan", "levels", &l, &o, &input());
    }
    tally.add_tree("plan", kind, g, got.number);
}

pub fn plans(r: &mut Random, scale: u64, tally: &mut Tally) {
    plans_of(r, &Kind::OLDER, 50_000 * scale, tally);
}

pub fn plans_of(r: &mut Random, of: &[Kind], times: u64, tally: &mut Tally) {
    // The worked ones and their neighbours.
    for &kind in of {
        for size in [512u64, 1024, 2048, 4096, 8192, 16384, 32768, 65536] {
            for version in [4, 5] {
                let g = Geometry {
                    version,
                    ..Geometry::v5(size)
                };
                let leaf = (size as usize - header_len(&g)) / kind.record_len();
                let node = kinds::node_capacity(&g, kind);
                let mut full = leaf as u64;
                one_plan(&g, kind, 0, tally);
                for _ in 0..12 {
                    for n in [full - 1, full, full.saturating_add(1)] {
                        one_plan(&g, kind, n, tally);
                    }
                    full = full.saturating_mul(node as u64);
                }
                one_plan(&g, kind, u64::MAX, tally);
            }
        }
    }
    for _ in 0..times {
        let bad = r.below(20) == 0;
        let mut g = geometry(r, bad);
        let bits = r.below(65);
        let n = if bits == 0 {
            0
        } else {
            r.next() >> (64 - bits)
        };
        let kind = r.pick(of);
        kinds::some_version(r, kind, &mut g);
        one_plan(&g, kind, n, tally);
    }
}

/// A list of n records that is accepted; of the reverse map some that overlap,
/// reserved owners and flags.
pub fn list(r: &mut Random, kind: Kind, n: usize) -> Vec<u8> {
    let tree = match kind {
        Kind::Older(tree) => tree,
        Kind::Free(order) => return bare::free_bytes(&free::accepted_list(r, order, n)),
    };
    match tree {
        Tree::Rmap => {
            let wide = 3 * n as u64 + 10;
            let mut list = Vec::new();
            while list.len() < n {
                let mut x = lists::rmap(r, false);
                x.startblock = r.below(wide) as u32;
                if r.below(20) == 0 {
                    x.blockcount = 1 + r.below(wide) as u32;
                }
                if lists::good(&x) {
                    list.push(x);
                }
            }
            list.sort_by_key(lists::key);
            bare::rmap_bytes(&list)
        }
        Tree::Refcount => {
            let mut list = Vec::new();
            let mut at = 0u32;
            let shared = n - (n * r.below(5) as usize) / 10;
            for i in 0..n {
                if i == shared {
                    at = 0;
                }
                at += r.below(3) as u32;
                let count = 1 + r.below(4) as u32;
                list.push(lists::Count {
                    start: at | if i < shared { 0 } else { lists::STAGING },
                    count,
                    owners: if i < shared { 2 + r.below(3) as u32 } else { 1 },
                });
                at += count;
            }
            lists::count_bytes(&list)
        }
    }
}

/// A build beside the original's with the links and the sequence number put in;
/// what it wrote.
pub fn one_build(
    g: &Geometry,
    kind: Kind,
    list: &[u8],
    numbers: &[u32],
    room: usize,
    tally: &mut Tally,
) -> Option<Vec<u8>> {
    one_build_at(g, sequence::last_lsn(g), kind, list, numbers, room, tally)
}

/// The same with another number.
pub fn one_build_at(
    g: &Geometry,
    last: u64,
    kind: Kind,
    list: &[u8],
    numbers: &[u32],
    room: usize,
    tally: &mut Tally,
) -> Option<Vec<u8>> {
    let input = || {
        format!(
            "build {g:?} last {last} {kind:?} room {room} numbers {numbers:?} list {}",
            hex(list)
        )
    };
    let want = links::build_at(g, last, kind, list, numbers, room);
    let mut out = Lent::<u8>::new(room);
    let at = library::g(g).at(last);
    let got = library::build(&at, kind.number(), list, numbers, out.part());
    same(
        "build",
        &got,
        expect(&want, |v| {
            [v.len() as u64 / g.block_size, v.len() as u64, 0, 0]
        }),
        &input,
    );
    let left = want.accepted();
    let due = left.as_deref().unwrap_or_default();
    bytes("build", "output", out.holds(due), &input);
    tally.add_tree("build", kind, g, got.number);
    left
}

/// How many records a tree to try has: around full leaves and full nodes.
pub fn sizes(r: &mut Random, g: &Geometry, kind: Kind) -> usize {
    // Block sizes past the largest are for question 1 alone.
    let size = g.block_size.min(4096) as usize;
    // On version 4 an older tree is refused, whatever its size.
    let header = match kind {
        Kind::Older(_) => 56,
        Kind::Free(_) => header_len(g),
    };
    let leaf = size.saturating_sub(header) / kind.record_len();
    let node = size.saturating_sub(header) / kind.entry_len();
    let around = |n: usize, r: &mut Random| (n + r.below(3) as usize).saturating_sub(1);
    match r.below(16) {
        0 => 0,
        1 => 1,
        2..=5 => around(leaf, r),
        6..=9 => around(leaf * (1 + r.below(5) as usize), r),
        10 | 11 => r.below(6 * leaf as u64 + 1) as usize,
        12 if g.block_size <= 1024 => around(leaf * node, r),
        13 if g.block_size <= 512 => around(leaf * node * 2, r),
        _ => r.below(3 * leaf as u64 + 1) as usize,
    }
}

/// Distinct numbers below `most`, not in order.
pub fn numbers(r: &mut Random, n: usize, most: usize) -> Vec<u32> {
    let mut all: Vec<u32> = (0..most as u32).collect();
    for i in 0..n {
        let j = i + r.below((most - i) as u64) as usize;
        all.swap(i, j);
    }
    all.truncate(n);
    all
}

fn planned(g: &Geometry, kind: Kind, n: usize) -> Vec<u64> {
    kinds::plan(g, kind, n as u64)
        .accepted()
        .unwrap_or_default()
}

/// What is to be built: geometry, kind, list and block numbers, right or not,
/// and the bytes that the planned blocks take.
pub fn to_build(r: &mut Random, of: &[Kind]) -> (Geometry, Kind, Vec<u8>, Vec<u32>, usize) {
    let bad = r.below(50) == 0;
    let mut g = geometry(r, bad);
    let kind = r.pick(of);
    kinds::some_version(r, kind, &mut g);
    let n = sizes(r, &g, kind);
    let mut list = list(r, kind, n);
    match r.below(20) {
        0 if !list.is_empty() => {
            let at = r.below(list.len() as u64) as usize;
            list[at] ^= 1 << r.below(8);
        }
        1 => list.truncate(list.len().saturating_sub(1 + r.below(11) as usize)),
        2 => list.push(0),
        _ => (),
    }
    let total = planned(&g, kind, list.len() / kind.record_len())
        .iter()
        .sum::<u64>() as usize;
    let mut given = match r.below(12) {
        0 => total + 1,
        1 => total.saturating_sub(1),
        2 => 0,
        _ => total,
    };
    if given > 100_000 {
        given = 3;
    }
    let mut at: Vec<u32> = (0..given).map(|_| r.next() as u32).collect();
    if r.below(10) == 0 && given > 1 {
        at[0] = at[1];
    }
    let exact = (total.min(100_000) as u64 * g.block_size.min(65536)) as usize;
    (g, kind, list, at, exact)
}

pub fn builds(r: &mut Random, scale: u64, tally: &mut Tally) {
    builds_of(r, &Kind::OLDER, 15_000 * scale, tally);
}

pub fn builds_of(r: &mut Random, of: &[Kind], times: u64, tally: &mut Tally) {
    for _ in 0..times {
        let (g, kind, list, at, exact) = to_build(r, of);
        let room = match r.below(8) {
            0 => exact.saturating_sub(1),
            1 => exact.saturating_sub(r.below(exact as u64 + 1) as usize),
            2 => 0,
            3 => exact + 1 + r.below(600) as usize,
            _ => exact,
        };
        one_build(&g, kind, &list, &at, room, tally);
    }
}

/// What a walk is lent, in places and bytes.
#[derive(Debug, Clone, Copy)]
pub struct Room {
    pub stack: usize,
    pub scratch: usize,
    pub blocks: usize,
    pub bytes: usize,
}

impl Room {
    pub fn lent(&self) -> paper::Lent {
        paper::Lent {
            record_bytes: self.bytes,
            block_places: self.blocks,
            stack_places: self.stack,
            scratch_places: self.scratch,
        }
    }
}

/// The walks of an image: what those on the stack gave, where they were done, and
/// whether the tree is linked.
pub fn one_walk(
    g: &Geometry,
    kind: Kind,
    image: &[u8],
    root: u32,
    levels: u32,
    room: Room,
    tally: &mut Tally,
) -> Option<(Walked, bool)> {
    let last = sequence::last_lsn(g);
    one_walk_at(g, last, kind, image, root, levels, room, tally)
}

/// The same under another last sequence number.
#[allow(clippy::too_many_arguments)]
pub fn one_walk_at(
    g: &Geometry,
    last: u64,
    kind: Kind,
    image: &[u8],
    root: u32,
    levels: u32,
    room: Room,
    tally: &mut Tally,
) -> Option<(Walked, bool)> {
    let lent = room.lent();
    let due = |lent: &paper::Lent| {
        let walk = |image: &[u8]| kinds::walk_blocks(g, kind, image, root, levels, lent);
        sequence::walked(g, last, image, walk)
    };
    let want = due(&lent);
    let linked = match &want.outcome {
        Outcome::Accepted(w) => links::linked(g, image, &w.blocks),
        _ => false,
    };
    // Lent no stack, the textbook walk comes to what the others do on a long one.
    let without = match room.stack {
        0..STACK_PLACES => {
            let stack_places = usize::MAX;
            Some(due(&paper::Lent {
                stack_places,
                ..lent
            }))
        }
        _ => None,
    };
    let textbook = without.as_ref().unwrap_or(&want);
    for w in Walk::ALL {
        let want = match w {
            Walk::Textbook => textbook,
            _ => &want,
        };
        let input = || {
            format!(
                "{} {g:?} last {last} {kind:?} root {root} levels {levels} {room:?} image {}",
                w.name(),
                hex(image)
            )
        };
        let mut m = Memory::new(room);
        let at = library::g(g).at(last);
        let got = m.walk(w, &at, kind, image, root, levels);
        let due = walk_figures(want, kind, w.says(linked));
        same(w.name(), &got, due, &input);
        for (what, r) in m.left(w, want) {
            bytes(w.name(), what, r, &input);
        }
        tally.add_tree(w.name(), kind, g, got.number);
    }
    if want.outcome.number() == Some(12) {
        let how = match textbook.outcome.number() {
            Some(12) => "refused by 12 for its scratch",
            _ => "goes on",
        };
        tally.note(TEXTBOOK, how);
    }
    let walked = want.outcome.accepted()?;
    tally.note(links::LINKED, if linked { "linked" } else { "not linked" });
    Some((walked, linked))
}

/// Number and figures of a walk; `last` is the fourth of one that is done.
pub fn walk_figures(a: &WalkAnswer, kind: Kind, last: u64) -> (u32, [u64; 4]) {
    let width = kind.record_len() as u64;
    let mut due = expect(&a.outcome, |w| {
        let n = w.records.len() as u64;
        [w.blocks.len() as u64, n / width, n, last]
    });
    if due.0 != 0 {
        due.1[2] = a.visits;
    }
    due
}

/// What a walk is lent.
#[derive(PartialEq)]
pub struct Memory {
    stack: Lent<u32>,
    scratch: Lent<u64>,
    blocks: Lent<u32>,
    records: Lent<u8>,
}

impl Memory {
    pub fn new(room: Room) -> Memory {
        Memory {
            stack: Lent::new(room.stack),
            scratch: Lent::new(room.scratch),
            blocks: Lent::new(room.blocks),
            records: Lent::new(room.bytes),
        }
    }

    pub fn walk(
        &mut self,
        w: Walk,
        g: &library::G,
        kind: Kind,
        image: &[u8],
        root: u32,
        levels: u32,
    ) -> library::Said {
        library::walk(
            w,
            g,
            kind.number(),
            image,
            root,
            levels,
            self.stack.part(),
            self.scratch.part(),
            self.blocks.part(),
            self.records.part(),
        )
    }

    /// The same walk, with what it takes of the machine's stack.
    pub fn measured(
        &mut self,
        w: Walk,
        g: &library::G,
        kind: Kind,
        image: &[u8],
        root: u32,
        levels: u32,
    ) -> (library::Said, usize) {
        library::measured_walk(
            w,
            g,
            kind.number(),
            image,
            root,
            levels,
            self.stack.part(),
            self.scratch.part(),
            self.blocks.part(),
            self.records.part(),
        )
    }

    /// Is all of it as a walk with that answer leaves it?
    pub fn left(&self, w: Walk, a: &WalkAnswer) -> [(&'static str, Result<(), String>); 4] {
        let (s, c, b, o) = (&self.stack, &self.scratch, &self.blocks, &self.records);
        let (s, c, b, o) = match &a.outcome {
            Outcome::Accepted(w) => {
                assert_eq!(a.visits as usize, w.blocks.len());
                let (b, o) = (b.holds(&w.blocks), o.holds(&w.records));
                (s.zero(), c.zero(), b, o)
            }
            Outcome::Refused(r)
                if matches!(r.number, 11 | 12) || (r.number == 1 && a.visits == 0) =>
            {
                (s.untouched(), c.untouched(), b.untouched(), o.untouched())
            }
            _ => (s.zero(), c.zero(), b.zero(), o.zero()),
        };
        let s = match w {
            Walk::Textbook => self.stack.untouched(),
            _ => s,
        };
        [("stack", s), ("scratch", c), ("blocks", b), ("records", o)]
    }
}

pub fn walks(r: &mut Random, scale: u64, tally: &mut Tally) {
    walks_of(r, &Kind::OLDER, 8_000 * scale, tally);
    shared_children(r, &Kind::OLDER, 300 * scale, tally);
    stacks(r, &Kind::OLDER, tally);
    tally.met_ways(STACKS, 3);
    tally.met_both(links::LINKED);
    tally.met_both(TEXTBOOK);
}

/// Trees built, stored, then walked whole, damaged or with less memory.
pub fn walks_of(r: &mut Random, of: &[Kind], times: u64, tally: &mut Tally) {
    for _ in 0..times {
        let mut g = geometry(r, false);
        g.version = 5;
        if !paper::geometry_holds(&g) {
            continue;
        }
        if r.below(2) == 0 {
            g.block_size = 512;
        }
        let kind = r.pick(of);
        kinds::some_version(r, kind, &mut g);
        let n = sizes(r, &g, kind);
        let list = list(r, kind, n);
        let plan = planned(&g, kind, n);
        let total = plan.iter().sum::<u64>() as usize;
        let most = total + r.below(4) as usize;
        let at = numbers(r, total, most);
        let Some(out) = one_build(&g, kind, &list, &at, total * g.block_size as usize, tally)
        else {
            continue;
        };
        // A limit above the blocks of the tree, and at and below them where they
        // are more than 64, as they are in some trees of shared counts.
        g.agblocks = match r.below(4) {
            0 => 0,
            1 => total as u32,
            2 => (total as u32).saturating_sub(1),
            _ => g.agblocks.max(total as u32),
        };
        // The address goes by agblocks: seal the blocks anew where it changed.
        let size = g.block_size as usize;
        let mut image = r.bytes(size).repeat(most);
        let address = |g: &Geometry, n: u32| {
            (u64::from(g.agno) * u64::from(g.agblocks) + u64::from(n)) * g.block_size / 512
        };
        if !paper::geometry_holds(&g) {
            g.agno = 0;
        }
        for (i, &n) in at.iter().enumerate() {
            let mut b = out[i * size..(i + 1) * size].to_vec();
            if g.version == 5 {
                b[16..24].copy_from_slice(&address(&g, n).to_be_bytes());
                b[48..52].copy_from_slice(&g.agno.to_be_bytes());
            }
            seal(&g, &mut b);
            image[n as usize * size..][..size].copy_from_slice(&b);
        }
        let root = *at.last().expect("a root");
        let levels = plan.len() as u32;
        let plenty = Room {
            stack: kinds::enough(r, &g, kind, levels),
            scratch: total + 2,
            blocks: total + 1,
            bytes: list.len() + r.below(40) as usize,
        };
        let whole = one_walk(&g, kind, &image, root, levels, plenty, tally);
        assert!(
            whole.is_none_or(|(_, linked)| linked),
            "a built tree is linked"
        );
        // Less memory.
        let mut room = plenty;
        match r.below(8) {
            0 => room.stack = STACK_PLACES - 1,
            1 => room.stack = r.below(STACK_PLACES as u64) as usize,
            2 => (room.blocks, room.scratch) = (total, total),
            3 => (room.blocks, room.scratch) = (total, total - 1),
            4 => room.blocks = r.below(total as u64) as usize,
            5 => room.bytes = list.len(),
            6 => room.bytes = list.len().saturating_sub(1),
            _ => room.bytes = r.below(list.len() as u64 + 1) as usize,
        }
        one_walk(&g, kind, &image, root, levels, room, tally);
        // Another root, other levels, another kind, another geometry.
        let (mut g2, mut kind2, mut root2, mut levels2) = (g, kind, root, levels);
        match r.below(9) {
            0 => root2 = r.below(most as u64 + 2) as u32,
            1 => root2 = r.pick(&[u32::MAX, most as u32, 1 << 31]),
            2 => levels2 = levels + 1,
            3 => levels2 = levels - 1,
            4 => levels2 = r.pick(&[0, 10, u32::MAX, 9]),
            5 => kind2 = kind.other(r),
            6 => g2.version = 9 - g.version,
            7 => g2.agno ^= 1,
            _ => g2 = geometry(r, true),
        }
        let room = plenty;
        one_walk(&g2, kind2, &image, root2, levels2, room, tally);
        // A shorter image.
        let short = image.len() - r.below(size as u64 + 1) as usize;
        one_walk(&g, kind, &image[..short], root, levels, plenty, tally);
        // Damage: a byte; or a field or a pointer, sealed again.
        for _ in 0..3 {
            let mut image = image.clone();
            let n = at[r.below(total as u64) as usize] as usize;
            let b = &mut image[n * size..][..size];
            match r.below(8) {
                0 => {
                    let i = r.below(size as u64) as usize;
                    b[i] ^= 1 << r.below(8);
                }
                1..=3 => {
                    let i = r.below(header_len(&g) as u64) as usize;
                    b[i] = r.next() as u8;
                    seal(&g, b);
                }
                _ => {
                    // Every pointer of a node to one block, to the node, or anywhere.
                    let to = r.pick(&[n as u32, at[0], at[total / 2], root, most as u32, u32::MAX]);
                    let all = r.below(2) == 0;
                    if b[4..6] != [0, 0] {
                        let count = usize::from(b[6]) * 256 + usize::from(b[7]);
                        for i in 0..count {
                            if all || r.below(count as u64) == 0 {
                                links::put(b, pointer(&g, kind, i), to);
                            }
                        }
                    } else if all {
                        let most = (size - header_len(&g)) / kind.record_len();
                        let n = r.below(most as u64 + 2) as u16;
                        b[6..8].copy_from_slice(&n.to_be_bytes());
                    }
                    seal(&g, b);
                }
            }
            let mut room = plenty;
            room.blocks += 100;
            room.scratch += 100;
            room.bytes += 3000;
            one_walk(&g, kind, &image, root, levels, room, tally);
        }
    }
}

/// A tree whose nodes have one block as every child: block n is at level n, holds
/// `counts[n]` records or entries, and all its pointers are to n - 1.
pub fn folded(g: &Geometry, kind: Kind, counts: &[usize]) -> Vec<u8> {
    let size = g.block_size as usize;
    let mut image = vec![0; size * counts.len()];
    for ((b, &n), level) in image.chunks_exact_mut(size).zip(counts).zip(0..) {
        for i in 0..if level == 0 { 0 } else { n } {
            links::put(b, pointer(g, kind, i), level - 1);
        }
        let (sb, l) = (g.superblock(), level as u16);
        stamp(b, &sb, kind.shape(), g.agno, level, l, n as u16);
    }
    image
}

/// For `folded`: the two highest nodes have two children, all others one, and the
/// leaf one record.
pub fn few_children(levels: u32) -> Vec<usize> {
    let count = |level| 1 + usize::from(level > 0 && level + 3 > levels);
    (0..levels).map(count).collect()
}

/// Does 12 take a stack, and did it in document 01?
pub fn stack_kind(stack: usize, larger: usize) -> &'static str {
    match stack {
        0..STACK_PLACES => "refused",
        _ if stack < larger => "taken, refused by document 01",
        _ => "taken, and by document 01",
    }
}

/// Every block size and number of levels, with no stack, with stacks around 18
/// places and around document 01's: 12 refuses those below 18, and on any other the
/// walk comes to the same, as the textbook walk does with any.
pub fn stacks(r: &mut Random, of: &[Kind], tally: &mut Tally) {
    for &kind in of {
        for (size, levels) in kinds::sizes_and_levels() {
            let mut g = Geometry::v5(size);
            g.agno = r.below(3) as u32;
            kinds::some_version(r, kind, &mut g);
            let image = folded(&g, kind, &few_children(levels));
            let larger = kinds::larger_stack(&g, kind, levels);
            for stack in kinds::stacks_around(larger) {
                let room = Room {
                    stack,
                    scratch: 64,
                    blocks: 64,
                    bytes: 100,
                };
                let walked = one_walk(&g, kind, &image, levels - 1, levels, room, tally);
                assert_eq!(walked.is_some(), stack >= STACK_PLACES, "{room:?}");
                tally.note(STACKS, stack_kind(stack, larger));
            }
        }
    }
}

/// Nodes that share their children: far more visits than blocks.
pub fn shared_children(r: &mut Random, of: &[Kind], times: u64, tally: &mut Tally) {
    for _ in 0..times {
        let mut g = geometry(r, false);
        (g.version, g.block_size, g.agno) = (5, 512, 0);
        g.agblocks = r.pick(&[0, 63, 64, 65, 200]);
        let kind = r.pick(of);
        kinds::some_version(r, kind, &mut g);
        let levels = 2 + r.below(4) as u32;
        let cap = kinds::node_capacity(&g, kind);
        let counts: Vec<usize> = (0..levels)
            .map(|level| match level {
                0 => 1,
                _ => 1 + r.below(cap as u64) as usize,
            })
            .collect();
        let image = folded(&g, kind, &counts);
        let room = Room {
            stack: kinds::enough(r, &g, kind, levels),
            scratch: 300,
            blocks: r.pick(&[300, 300, 64, 65, 30]),
            bytes: r.pick(&[8000, 8000, 500]),
        };
        let shared = one_walk(&g, kind, &image, levels - 1, levels, room, tally);
        // A block met twice can't name two blocks before it.
        if let Some((w, linked)) = shared {
            assert_eq!(linked, w.blocks.len() == levels as usize, "{:?}", w.blocks);
        }
    }
}

/// A walk over a small image, with what it is lent.
pub struct SmallWalk {
    pub g: Geometry,
    pub last_lsn: u64,
    pub kind: Kind,
    pub image: Vec<u8>,
    pub root: u32,
    pub levels: u32,
    pub stack: usize,
    pub scratch: usize,
    pub blocks: usize,
    pub bytes: usize,
}

impl SmallWalk {
    pub fn room(&self) -> Room {
        Room {
            stack: self.stack,
            scratch: self.scratch,
            blocks: self.blocks,
            bytes: self.bytes,
        }
    }

    /// What the walk is to come to with so much lent.
    pub fn due(&self, lent: &paper::Lent) -> WalkAnswer {
        sequence::walked(&self.g, self.last_lsn, &self.image, |image| {
            kinds::walk_blocks(&self.g, self.kind, image, self.root, self.levels, lent)
        })
    }
}

/// A tree of a few blocks of 512 bytes, mostly damaged in some way.
pub fn small_walk(r: &mut Random, of: &[Kind]) -> SmallWalk {
    let mut g = Geometry::v5(512);
    g.agblocks = r.pick(&[0, 70]);
    g.agno = r.below(3) as u32;
    g.meta_uuid = r.bytes(16).try_into().expect("16 bytes");
    let kind = r.pick(of);
    kinds::some_version(r, kind, &mut g);
    let n = r.below(80) as usize;
    let list = list(r, kind, n);
    let plan = planned(&g, kind, n);
    let total = plan.iter().sum::<u64>() as usize;
    let most = total + 1;
    let at = numbers(r, total, most);
    let out = links::build(&g, kind, &list, &at, total * 512)
        .accepted()
        .expect("a tree");
    let mut image = vec![0x5A; most * 512];
    for (b, &n) in out.chunks_exact(512).zip(&at) {
        image[n as usize * 512..][..512].copy_from_slice(b);
    }
    let mut root = at[total - 1];
    let mut levels = plan.len() as u32;
    let mut w = SmallWalk {
        g,
        last_lsn: sequence::last_lsn(&g),
        kind,
        stack: kinds::enough(r, &g, kind, levels),
        scratch: total + 1,
        blocks: total + 1,
        bytes: list.len() + r.below(30) as usize,
        image: vec![],
        root,
        levels,
    };
    let hurt = at[r.below(total as u64) as usize] as usize * 512;
    match r.below(26) {
        0 => w.g.version = 9 - g.version,
        1 => w.g.version = 7,
        2 => levels = r.pick(&[0, 10]),
        3 => w.stack = r.pick(&[0, STACK_PLACES - 1]),
        4 => w.scratch = total,
        5 => root = most as u32,
        6 => image.truncate(image.len() - 600),
        7 => w.blocks = total - 1,
        8 => w.bytes = (list.len() / 2).saturating_sub(1),
        9 => levels += 1,
        10..=18 => {
            let fields = [0, 4, 5, 6, 7, 16, 23, 33, 48, 51];
            // Those of version 4 end with the siblings.
            let i = r.pick(&fields[..if g.version == 5 { 10 } else { 5 }]);
            image[hurt + i] ^= 1 << r.below(3);
            seal(&g, &mut image[hurt..hurt + 512]);
        }
        19 => image[hurt + r.below(512) as usize] ^= 4,
        20 | 21 => {
            // A tree of three levels whose nodes have one block as every child.
            (levels, root) = (3, 2);
            let children = r.pick(&[2, 9]);
            image = folded(&g, kind, &[1, children, children]);
            (w.blocks, w.scratch, w.bytes) = (100, 100, 2400);
        }
        22 | 23 => {
            // A link to another block of the tree, to none or anywhere.
            let i = hurt + r.pick(&[8, 12]);
            let any = r.next() as u32;
            let to = r.pick(&[at[0], root, links::NONE, any]);
            links::put(&mut image, i, to);
            seal(&g, &mut image[hurt..hurt + 512]);
        }
        _ => (),
    }
    (w.image, w.root, w.levels) = (image, root, levels);
    w
}

//! The last sequence number of a volume's log, by its definition: the original's
//! geometry has no such number, it writes none into a block and asks nothing about
//! it. So bytes 24 to 31 of a built block, and with them its check, are measured
//! against this module, and so is 30. The part `sequence` of the comparison reads
//! blocks and trees under last numbers around theirs.

use crate::blocks::{self, geometry, seal};
use crate::kinds::{self, header_len, pointer, Kind};
use crate::links::{self, be32};
use crate::lookups::{self, Lookup};
use crate::tally::Tally;
use crate::trees::{self, SmallWalk};
use crate::vectors;
use oracle::ag_btree::reach::stamp;
use oracle::bare::{self, Header, WalkAnswer};
use oracle::paper;
use oracle::refusal::{Outcome, Refusal};
use oracle::sample::Random;
use oracle::Geometry;
use std::collections::{BTreeMap, BTreeSet};

/// Where a block of version 5 has its number.
const AT: std::ops::Range<usize> = 24..32;

/// The last number that goes with a geometry, which has none of its own: by three
/// bits of the UUID one at a bound, else eight bytes of the UUID as they are. So
/// geometries are drawn as if there were none, and all parts meet various ones.
pub fn last_lsn(g: &Geometry) -> u64 {
    match g.meta_uuid[0] & 7 {
        0 => 0,
        1 => 1,
        2 => (1 << 32) - 1,
        3 => 1 << 32,
        4 => 1 << 63,
        5 => u64::MAX,
        _ => be64(&g.meta_uuid, 8),
    }
}

fn be64(b: &[u8], at: usize) -> u64 {
    u64::from_be_bytes(b[at..at + 8].try_into().expect("8 bytes"))
}

/// The number of a block; on version 4 it has none.
pub fn number_of(g: &Geometry, b: &[u8]) -> Option<u64> {
    (g.version == 5 && b.len() >= header_len(g)).then(|| be64(b, AT.start))
}

/// The number of a block that is newer than the log.
fn newer(g: &Geometry, last: u64, b: &[u8]) -> Option<u64> {
    number_of(g, b).filter(|&n| n > last)
}

/// Put a number into a block, and its check anew; on version 4 nothing.
fn put(g: &Geometry, b: &mut [u8], n: u64) {
    if g.version == 5 {
        b[AT].copy_from_slice(&n.to_be_bytes());
        seal(g, b);
    }
}

/// Put the last number into each block of a built tree, and its check anew.
pub fn number(g: &Geometry, last: u64, built: &mut [u8]) {
    for b in built.chunks_exact_mut(g.block_size as usize) {
        assert_eq!(number_of(g, b).unwrap_or(0), 0, "the original writes none");
        put(g, b, last);
    }
}

/// A stamped block, which has any bytes where its number is, gets 0 there where
/// they are above the geometry's, so that what comes after 30 is asked. Its check is
/// not put right.
pub fn not_newer(g: &Geometry, b: &mut [u8]) {
    if newer(g, last_lsn(g), b).is_some() {
        b[AT].fill(0);
    }
}

fn refused<T>(last: u64, found: u64) -> Outcome<T> {
    Outcome::Refused(Refusal {
        values: Some((last, found)),
        ..Refusal::paper(30)
    })
}

/// What a block check is to come to: the original's, and 30 where all that is asked
/// before it held.
pub fn parse_block(
    g: &Geometry,
    last: u64,
    kind: Kind,
    b: &[u8],
    block: u32,
    level: u16,
) -> Outcome<Header> {
    let told = kinds::parse_block(g, kind, b, block, level);
    let asked = match &told {
        Outcome::Accepted(_) => true,
        refused => matches!(refused.number(), Some(9 | 10)),
    };
    match newer(g, last, b) {
        Some(found) if asked => refused(last, found),
        _ => told,
    }
}

/// What a walk of an image is to come to; `walk` is the original's, which does not
/// ask 30. It is given an image in which each newer block has a level that no walk
/// expects and no other block has, so that 9 refuses it: 9 is the next that the
/// original asks. A block whose check is wrong does not come so far, and stays as
/// it is.
pub fn walked(
    g: &Geometry,
    last: u64,
    image: &[u8],
    walk: impl Fn(&[u8]) -> WalkAnswer,
) -> WalkAnswer {
    if g.version != 5 || !paper::geometry_holds(g) {
        return walk(image);
    }
    let size = g.block_size as usize;
    let level = |b: &[u8]| u64::from(b[4]) * 256 + u64::from(b[5]);
    let checked = |b: &[u8]| b[52..56] == bare::block_crc(b).to_le_bytes();
    let of = |b: &[u8]| newer(g, last, b).filter(|_| checked(b));
    let found: Vec<Option<u64>> = image.chunks_exact(size).map(of).collect();
    if found.iter().all(Option::is_none) {
        return walk(image);
    }
    let taken: BTreeSet<u64> = image.chunks_exact(size).map(level).collect();
    let mut marks = (0x8000..=0xFFFF).filter(|n| !taken.contains(n));
    let mut of_mark = BTreeMap::new();
    let mut marked = image.to_vec();
    for (b, found) in marked.chunks_exact_mut(size).zip(found) {
        if let Some(found) = found {
            let mark = marks.next().expect("fewer newer blocks than levels");
            b[4..6].copy_from_slice(&(mark as u16).to_be_bytes());
            seal(g, b);
            of_mark.insert(mark, found);
        }
    }
    let told = walk(&marked);
    let by_mark = match &told.outcome {
        Outcome::Refused(r) if r.number == 9 => {
            let (_, level) = r.values.expect("9 has two values");
            of_mark.get(&level).copied()
        }
        _ => None,
    };
    match by_mark {
        Some(found) => WalkAnswer {
            outcome: refused(last, found),
            ..told
        },
        None => told,
    }
}

/// The last numbers under which blocks and trees are read; others besides are any.
const LASTS: [u64; 8] = [
    0,
    1,
    (1 << 32) - 1,
    1 << 32,
    (1 << 63) - 1,
    1 << 63,
    u64::MAX - 1,
    u64::MAX,
];

const LOW: u64 = (1 << 32) - 1;

/// Numbers of a block around a last one, as far as there are such.
fn around(last: u64) -> Vec<(&'static str, u64)> {
    let (high, low) = (last >> 32, last & LOW);
    let all = [
        ("equal", Some(last)),
        ("one below", last.checked_sub(1)),
        ("one above", last.checked_add(1)),
        ("0", Some(0)),
        ("2^63 - 1", Some((1 << 63) - 1)),
        ("2^63", Some(1 << 63)),
        ("2^64 - 1", Some(u64::MAX)),
        (
            "upper half alone above",
            (high < LOW && low > 0).then(|| (high + 1) << 32 | (low - 1)),
        ),
        (
            "lower half alone above",
            (high > 0 && low < LOW).then(|| (high - 1) << 32 | (low + 1)),
        ),
    ];
    let there = |(way, n): (_, Option<u64>)| n.map(|n| (way, n));
    all.into_iter().filter_map(there).collect()
}

/// A field of a block that is wrong besides: its place, and the question about it.
/// Those before 30 are answered first, those after it are not asked of a newer
/// block.
const FIELDS: [(&str, std::ops::Range<usize>, u32); 8] = [
    ("nothing else", 0..0, 0),
    ("magic", 0..4, 4),
    ("crc", 52..56, 5),
    ("uuid", 32..48, 6),
    ("owner", 48..52, 7),
    ("address", 16..24, 8),
    ("level", 4..6, 9),
    ("records", 6..8, 10),
];

const NEWER: &str = "sequence, a block's number, refused by 30";
const NOT_NEWER: &str = "sequence, a block's number, not refused";
const FOUR: &str = "sequence, such bytes of a block of version 4, not asked";
const BESIDES: &str = "sequence, a newer block, wrong besides";
const OTHERWISE: &str = "sequence, a block that is not newer, wrong besides";

/// A geometry of a version that question 1 accepts.
pub fn good_geometry(r: &mut Random, version: u64) -> Geometry {
    loop {
        let g = Geometry {
            version,
            ..geometry(r, false)
        };
        if paper::geometry_holds(&g) {
            return g;
        }
    }
}

/// Blocks of each kind on each version, with numbers around the last one, and with
/// each other field wrong.
fn single_blocks(r: &mut Random, tally: &mut Tally) {
    for kind in Kind::ALL {
        for version in [4, 5] {
            let any = [r.next(), r.next() >> r.below(64)];
            for last in LASTS.into_iter().chain(any) {
                for (way, n) in around(last) {
                    for field in FIELDS {
                        one_block(r, kind, version, last, (way, n), field, tally);
                    }
                }
            }
        }
    }
}

fn one_block(
    r: &mut Random,
    kind: Kind,
    version: u64,
    last: u64,
    (way, n): (&'static str, u64),
    (besides, at, question): (&'static str, std::ops::Range<usize>, u32),
    tally: &mut Tally,
) {
    let g = good_geometry(r, version);
    let (block, level) = (r.next() as u32, r.pick(&[0, 0, 1, 8]));
    let place = match level {
        0 => kind.record_len(),
        _ => kind.entry_len(),
    };
    let mut b = r.bytes(512);
    let records = r.below(((512 - header_len(&g)) / place) as u64 + 1) as u16;
    let (sb, shape) = (g.superblock(), kind.shape());
    stamp(&mut b, &sb, shape, g.agno, block, level, records);
    // On version 4 these are bytes of records or keys.
    b[AT].copy_from_slice(&n.to_be_bytes());
    seal(&g, &mut b);
    if !at.is_empty() {
        let field = &mut b[at.clone()];
        match question {
            10 => field.fill(0xFF),
            _ => field[r.below(at.len() as u64) as usize] ^= 1 << r.below(8),
        }
        if question != 5 {
            seal(&g, &mut b);
        }
    }
    let number = blocks::one_at(&g, last, kind, block, level, &b, tally);
    let older = matches!(kind, Kind::Older(_));
    let due = match (version, question) {
        (4, _) if older => 3,
        // The header ends with the siblings.
        (4, 5..=8) => 0,
        (5, 0 | 9 | 10) if n > last => 30,
        _ => question,
    };
    assert_eq!(number, due, "{kind:?} version {version} {way} {besides}");
    match (version, n > last) {
        (4, above) => {
            if above && !older {
                tally.note(FOUR, way);
            }
        }
        (_, true) if question == 0 => tally.note(NEWER, way),
        (_, false) if question == 0 => tally.note(NOT_NEWER, way),
        (_, true) => tally.note(BESIDES, besides),
        (_, false) => tally.note(OTHERWISE, besides),
    }
}

/// A tree in an image, built with a number.
pub struct Built {
    pub w: SmallWalk,
    /// Its blocks in the order in which a walk meets them.
    pub met: Vec<u32>,
    pub list: Vec<u8>,
    pub lsn: u64,
}

/// The blocks under a block, itself first, as a walk meets them.
fn in_order(g: &Geometry, kind: Kind, image: &[u8], block: u32) -> Vec<u32> {
    let b = links::block(g, image, block);
    let mut met = vec![block];
    if b[4..6] != [0, 0] {
        for i in 0..usize::from(b[6]) * 256 + usize::from(b[7]) {
            met.extend(in_order(g, kind, image, be32(b, pointer(g, kind, i))));
        }
    }
    met
}

/// A tree of so many levels, one to three, by `build`, which is given geometry, list,
/// block numbers and the length of the output.
pub fn built(
    r: &mut Random,
    kind: Kind,
    version: u64,
    levels: u64,
    lsn: u64,
    build: impl FnOnce(&Geometry, &[u8], &[u32], usize) -> Option<Vec<u8>>,
) -> Built {
    let mut g = Geometry::v5(512);
    g.version = version;
    (g.agblocks, g.agno) = (r.pick(&[70, 200]), r.below(3) as u32);
    g.meta_uuid = r.bytes(16).try_into().expect("16 bytes");
    let leaf = ((512 - header_len(&g)) / kind.record_len()) as u64;
    let node = kinds::node_capacity(&g, kind) as u64;
    let n = match levels {
        1 => r.below(leaf + 1),
        2 => leaf + 1 + r.below(3 * leaf),
        _ => leaf * node + 1 + r.below(leaf),
    } as usize;
    let list = trees::list(r, kind, n);
    let plan = kinds::plan(&g, kind, n as u64).accepted().expect("a plan");
    assert_eq!(plan.len() as u64, levels);
    let total = plan.iter().sum::<u64>() as usize;
    let most = total + r.below(3) as usize;
    let at = trees::numbers(r, total, most);
    let out = build(&g, &list, &at, total * 512).expect("a tree");
    let mut image = r.bytes(512).repeat(most);
    for (b, &n) in out.chunks_exact(512).zip(&at) {
        image[n as usize * 512..][..512].copy_from_slice(b);
    }
    let root = at[total - 1];
    let met = in_order(&g, kind, &image, root);
    assert_eq!(met.len(), total, "a walk meets each block once");
    let w = SmallWalk {
        g,
        last_lsn: lsn,
        kind,
        image,
        root,
        levels: levels as u32,
        stack: kinds::enough(r, &g, kind, levels as u32),
        scratch: total + 2,
        blocks: total + 1,
        bytes: list.len() + r.below(30) as usize,
    };
    Built { w, met, list, lsn }
}

/// Numbers to ask a reverse map about: around the starts of its records, and any.
pub fn some_numbers(r: &mut Random, list: &[u8]) -> Vec<u32> {
    let mut asked: BTreeSet<u32> = [r.next() as u32].into();
    let records = (list.len() / 24) as u64;
    for _ in 0..r.below(6).min(records) {
        let i = r.below(records) as usize;
        asked.insert(be32(list, 24 * i).wrapping_add(r.below(3) as u32));
    }
    asked.into_iter().collect()
}

impl Built {
    fn block(&mut self, n: u32) -> &mut [u8] {
        &mut self.w.image[n as usize * 512..][..512]
    }

    /// Bytes 24 to 31 of a block are another number, and its check is put right; on
    /// version 4 they are bytes of records or keys.
    pub fn renumber(&mut self, n: u32, to: u64) {
        let g = self.w.g;
        let b = self.block(n);
        b[AT].copy_from_slice(&to.to_be_bytes());
        seal(&g, b);
    }

    /// The lookup of some numbers, of a reverse map.
    pub fn asked(&self, asked: Vec<u32>) -> Lookup {
        let w = &self.w;
        Lookup {
            g: w.g,
            last_lsn: w.last_lsn,
            image: w.image.clone(),
            root: w.root,
            levels: w.levels,
            answers: asked.len() + 1,
            asked,
            stack: w.stack,
        }
    }

    /// All walks under a last number, on lent memory and over vectors, come to this:
    /// a refusal with its figures, or the tree as it was built.
    fn walks(&mut self, last: u64, due: Option<[u64; 3]>, tally: &mut Tally) {
        self.w.last_lsn = last;
        let w = &self.w;
        let told = w.due(&w.room().lent());
        let said = trees::walk_figures(&told, w.kind, 0);
        match due {
            Some([expected, found, visits]) => {
                assert_eq!(said, (30, [expected, found, visits, 0]));
            }
            None => assert_eq!(said.0, 0),
        }
        let (g, image, room) = (&w.g, &w.image, w.room());
        trees::one_walk_at(g, last, w.kind, image, w.root, w.levels, room, tally);
        vectors::one_walk(w, tally);
    }

    /// A lookup in a reverse map, likewise; it visits what it has to. The blocks that
    /// it visited, and its answer.
    fn lookup(&self, asked: Vec<u32>, tally: &mut Tally) -> (Vec<u32>, u32, [u64; 4]) {
        let l = self.asked(asked);
        let due = lookups::one(&l, tally);
        vectors::one_lookup(l, tally);
        (due.visited, due.number, due.figures)
    }
}

const UNDER: &str = "sequence, a built tree, read under";
const LOWER: &str = "sequence, a built tree of version 5, refused under";
const SINGLE: &str = "sequence, a single newer block in a tree, refused by 30";
const SINGLE_FOUR: &str = "sequence, such bytes in a tree of version 4, not asked";
const LOOKED_UP: &str = "sequence, lookups in a tree with a single newer block";

/// A built tree reads back under its number and any higher one; on version 5 it is
/// refused at its root under any lower one, on version 4 under none.
fn under_other_numbers(r: &mut Random, t: &mut Built, tally: &mut Tally) {
    let (lsn, version) = (t.lsn, t.w.g.version);
    let any = |r: &mut Random, n: u64| r.next() % n.max(1);
    let higher = lsn.saturating_add(any(r, u64::MAX - lsn).saturating_add(1));
    for (how, last) in [
        ("the same number", Some(lsn)),
        ("one higher", lsn.checked_add(1)),
        ("any higher", (lsn < u64::MAX).then_some(higher)),
        ("2^64 - 1", Some(u64::MAX)),
    ] {
        let Some(last) = last else { continue };
        t.walks(last, None, tally);
        if t.w.kind == Kind::RMAP {
            let asked = some_numbers(r, &t.list);
            assert_eq!(t.lookup(asked, tally).1, 0);
        }
        tally.note(UNDER, how);
    }
    let (high, low) = (lsn >> 32, lsn & LOW);
    for (how, last) in [
        ("one lower", lsn.checked_sub(1)),
        ("any lower", (lsn > 0).then(|| any(r, lsn))),
        ("0", (lsn > 0).then_some(0)),
        (
            "one with a lower upper half and a higher lower half",
            (high > 0 && low < LOW).then(|| (high - 1) << 32 | (low + 1)),
        ),
    ] {
        let Some(last) = last else { continue };
        if version == 4 {
            t.walks(last, None, tally);
            continue;
        }
        t.walks(last, Some([last, lsn, 1]), tally);
        if t.w.kind == Kind::RMAP {
            let (visited, number, figures) = t.lookup(some_numbers(r, &t.list), tally);
            assert_eq!((number, figures), (30, [last, lsn, 1, 0]));
            assert_eq!(visited, [t.w.root]);
        }
        tally.note(LOWER, how);
    }
}

/// A single block of a tree is newer than the log: 30 with the visits so far; a
/// lookup that skips it does not ask. On version 4 such bytes are records or keys.
fn newer_blocks(r: &mut Random, t: &mut Built, tally: &mut Tally) {
    if t.lsn == u64::MAX {
        return;
    }
    let g = t.w.g;
    let met = t.met.clone();
    // The root, the first node below it, the first leaf, the last, and any.
    let leaf = met
        .iter()
        .position(|&n| links::block(&g, &t.w.image, n)[4..6] == [0, 0]);
    let mut at = vec![0, 1, leaf.expect("a leaf"), met.len() - 1];
    at.extend((0..3).map(|_| r.below(met.len() as u64) as usize));
    at.retain(|&i| i < met.len());
    for i in at {
        let n = met[i];
        let last = match r.below(2) {
            0 => t.lsn,
            _ => t.lsn + r.next() % (u64::MAX - t.lsn),
        };
        let found = match r.below(3) {
            0 => last + 1,
            1 => u64::MAX,
            _ => last + 1 + r.next() % (u64::MAX - last),
        };
        let was = t.block(n).to_vec();
        let level = was[5];
        t.renumber(n, found);
        let how = match (i, level) {
            (0, _) => "the root",
            (_, 0) => "a leaf",
            _ => "an inner node",
        };
        if g.version == 4 {
            t.walks(last, None, tally);
            tally.note(SINGLE_FOUR, how);
        } else {
            t.walks(last, Some([last, found, i as u64 + 1]), tally);
            tally.note(SINGLE, how);
        }
        if t.w.kind == Kind::RMAP {
            let (visited, number, figures) = t.lookup(some_numbers(r, &t.list), tally);
            let visits = visited.len() as u64;
            if visited.contains(&n) {
                assert_eq!((number, figures), (30, [last, found, visits, 0]));
                assert_eq!(visited.last(), Some(&n));
                tally.note(LOOKED_UP, "refused by 30");
            } else {
                assert_eq!((number, figures), (0, [visits, 0, 0, 0]));
                tally.note(LOOKED_UP, "done, the block skipped");
            }
        }
        t.block(n).copy_from_slice(&was);
    }
}

/// Trees of each kind on each version that has it.
fn some_trees(r: &mut Random, times: u64, tally: &mut Tally) {
    for kind in Kind::ALL {
        for version in [4, 5] {
            if version == 4 && matches!(kind, Kind::Older(_)) {
                continue;
            }
            for i in 0..times {
                // Those of three levels are long.
                let levels = if i % 8 == 0 { 3 } else { 1 + r.below(2) };
                let any = r.next() >> r.below(64);
                let lsn = if r.below(3) == 0 { any } else { r.pick(&LASTS) };
                let mut t = built(r, kind, version, levels, lsn, |g, list, at, room| {
                    trees::one_build_at(g, lsn, kind, list, at, room, tally)
                });
                under_other_numbers(r, &mut t, tally);
                newer_blocks(r, &mut t, tally);
            }
        }
    }
}

pub fn sequence(r: &mut Random, scale: u64, tally: &mut Tally) {
    // Each by itself, so that what it has to meet is not met elsewhere.
    let mut mine = Tally::default();
    for _ in 0..5 * scale {
        single_blocks(r, &mut mine);
    }
    mine.met_all("check_block", &[0, 3, 4, 5, 6, 7, 8, 9, 10, 30]);
    mine.met_ways(NEWER, 5);
    mine.met_ways(NOT_NEWER, 7);
    mine.met_ways(FOUR, 5);
    for what in [BESIDES, OTHERWISE] {
        mine.met_ways(what, FIELDS.len() - 1);
    }
    tally.take(mine);

    let mut mine = Tally::default();
    some_trees(r, 80 * scale, &mut mine);
    mine.met_all("build", &[0]);
    for call in [
        "walk",
        "walk_linked",
        "walk_textbook",
        "lookup",
        "Tree::walk",
        "Tree::walk_textbook",
        "Tree::lookup",
    ] {
        mine.met_all(call, &[0, 30]);
    }
    for call in ["walk", "walk_linked", "walk_textbook"] {
        mine.met_all_free(call, 4, &[0]);
        mine.met_all_free(call, 5, &[0, 30]);
    }
    mine.met_ways(UNDER, 4);
    mine.met_ways(LOWER, 4);
    mine.met_ways(SINGLE, 3);
    mine.met_ways(SINGLE_FOUR, 3);
    mine.met_both(LOOKED_UP);
    tally.take(mine);
}

//! Cases with the original's answers, or a definition's where it has no such
//! call or figure, for the program `replay`.
//!
//! A case is 34 numbers of 4 bytes, big-endian, then bytes:
//!
//! | number | |
//! |---|---|
//! | 0 | the call: 1 crc32c, 2 check_rmaps, 3 check_refcounts, 4 check_block, 5 plan, 6 build, 7 walk, 8 insert, 9 insert_shared, 10 remove, 11 release, 12 let_go, 13 a walk over blocks that are given one by one, 14 take_held, 15 crc32c_singly, 16 walk_linked, 17 a walk_linked over blocks that are given one by one, 18 lookup, 19 check_by_block, 20 check_by_size, 21 same_extents, 22 walk_textbook, 23 a walk_textbook over blocks that are given one by one, 24 explain, 25 read_sheet, 26 write_sheet; 0 after the last case |
//! | 1 | the answer |
//! | 2 to 9 | the four figures, high half first |
//! | 10 to 13 | version, block size, agblocks, agno |
//! | 14 to 17 | the UUID |
//! | 18 | the kind: 0 to 3 |
//! | 19 | start, block or root |
//! | 20 | count, level or levels |
//! | 21, 22 | owner; the records of a plan; in 21 the blocks that a walk of 13, 17 or 23 is given |
//! | 23, 24 | offset |
//! | 25, 26 | bytes of the two inputs |
//! | 27, 28, 29 | bytes of the three outputs; of a walk (7, 13, 16, 17, 22 and 23) 29 is 1 where it leaves stack and scratch zero, 0 where they are untouched, of a lookup the same of its stack |
//! | 30, 31 | of a walk: places of the stack, of a textbook walk 0, and of the scratch; of a lookup in 30 those of the stack; of explain in 30 the block asked |
//! | 32, 33 | the last sequence number, high half first; 0 for a call without a geometry |
//!
//! Then the inputs, then what each output holds afterwards, all of it: outputs
//! are lent filled with the byte 0xA5. The second input of a build is its
//! block numbers, that of a lookup the numbers asked; the inputs of same_extents
//! are the list by block and the list by size; read_sheet has a sheet and
//! write_sheet a list of changes for its only one. The first output of a
//! lookup is its answers, 8 bytes each. What a plan and a walk leave in the nine places and in the
//! block list, lent filled so too, stands where an input would: the first of
//! a plan, the second of a walk. After the inputs of 13, 17 and 23 come the blocks,
//! each as its place in the image and its bytes.

use crate::blocks;
use crate::edits::{due, expect};
use crate::free;
use crate::held;
use crate::kinds::{self, Kind};
use crate::library::{Edit, Walk};
use crate::links;
use crate::lists;
use crate::lookups::{self, Due, Left, Lookup};
use crate::real;
use crate::sequence;
use crate::sheets::{self, BLOCK, CHANGE};
use crate::textbook;
use crate::trees;
use crate::why;
use oracle::ag_btree::reach::stamp;
use oracle::alloc_btree::Order;
use oracle::refusal::Outcome;
use oracle::rmap::Rmap;
use oracle::sample::Random;
use oracle::{bare, paper, Geometry};
use std::collections::{BTreeMap, BTreeSet};

const FILL: u8 = 0xA5;

/// The calls by their number in a case.
const CALLS: [&str; 27] = [
    "end",
    "crc32c",
    "check_rmaps",
    "check_refcounts",
    "check_block",
    "plan",
    "build",
    "walk",
    "insert",
    "insert_shared",
    "remove",
    "release",
    "let_go",
    "walk of real blocks",
    "take_held",
    "crc32c_singly",
    "walk_linked",
    "walk_linked of real blocks",
    "lookup",
    "check_by_block",
    "check_by_size",
    "same_extents",
    "walk_textbook",
    "walk_textbook of real blocks",
    "explain",
    "read_sheet",
    "write_sheet",
];

/// A textbook walk; the next is one of real blocks.
const TEXTBOOK: u32 = 22;

/// The numbers of a case.
const HEAD: usize = 34;

struct Case {
    head: [u32; HEAD],
    body: Vec<u8>,
}

fn halves(n: u64) -> [u32; 2] {
    [(n >> 32) as u32, n as u32]
}

impl Case {
    fn new(call: u32, (number, figures): (u32, [u64; 4])) -> Case {
        let mut c = Case {
            head: [0; HEAD],
            body: vec![],
        };
        c.head[0] = call;
        c.head[1] = number;
        for (i, f) in figures.into_iter().enumerate() {
            c.head[2 + 2 * i..4 + 2 * i].copy_from_slice(&halves(f));
        }
        c
    }

    fn geometry(mut self, g: &Geometry, last: u64, kind: Kind) -> Case {
        self.head[10..14].copy_from_slice(&[
            g.version as u32,
            g.block_size as u32,
            g.agblocks,
            g.agno,
        ]);
        for i in 0..4 {
            let w = g.meta_uuid[4 * i..4 * i + 4].try_into().expect("4 bytes");
            self.head[14 + i] = u32::from_be_bytes(w);
        }
        self.head[18] = kind.number();
        self.head[32..].copy_from_slice(&halves(last));
        self
    }

    fn two(mut self, a: u32, b: u32) -> Case {
        self.head[19..21].copy_from_slice(&[a, b]);
        self
    }

    fn extent(mut self, x: Rmap) -> Case {
        self.head[19..21].copy_from_slice(&[x.startblock, x.blockcount]);
        self.head[21..23].copy_from_slice(&halves(x.owner as u64));
        self.head[23..25].copy_from_slice(&halves(x.offset));
        self
    }

    /// The inputs, which come before the outputs.
    fn given(mut self, a: &[u8], b: &[u8]) -> Case {
        self.head[25..27].copy_from_slice(&[a.len() as u32, b.len() as u32]);
        self.body.extend(a);
        self.body.extend(b);
        self
    }

    /// Output i has `room` bytes and begins with `result`.
    fn output(mut self, i: usize, room: usize, result: &[u8]) -> Case {
        assert!(result.len() <= room);
        self.head[27 + i] = room as u32;
        self.body.extend(result);
        self.body.extend(vec![FILL; room - result.len()]);
        self
    }
}

#[derive(Default)]
struct Cases {
    all: Vec<Case>,
    seen: BTreeMap<(u32, u32), usize>,
}

impl Cases {
    /// Are there not yet `most` cases of the call with that answer? Those refused by
    /// 30 come last (`sequence_cases`).
    fn wants(&self, call: u32, number: u32, most: usize) -> bool {
        number != 30 && self.seen.get(&(call, number)).is_none_or(|&n| n < most)
    }

    fn add(&mut self, c: Case) {
        *self.seen.entry((c.head[0], c.head[1])).or_default() += 1;
        self.all.push(c);
    }

    /// Add it where there are not yet `most` of the call with that answer.
    fn add_wanted(&mut self, c: Case, most: usize) {
        if self.wants(c.head[0], c.head[1], most) {
            self.add(c);
        }
    }
}

fn number_bytes(list: &[u32]) -> Vec<u8> {
    list.iter().flat_map(|n| n.to_be_bytes()).collect()
}

fn list_cases(r: &mut Random, cases: &mut Cases) {
    let mut forms = |b: &[u8]| {
        for call in [1, 15] {
            cases.add(Case::new(call, (crc32c::crc32c(b), [0; 4])).given(b, &[]));
        }
    };
    for n in [0, 1, 3, 9, 32, 100] {
        let b = r.bytes(n);
        forms(&b);
        // Whole words, and bytes after them, where they begin anywhere.
        if n == 100 {
            for (from, n) in [(1, 4), (2, 5), (3, 7), (5, 8)] {
                forms(&b[from..][..n]);
            }
        }
    }
    let bad = Rmap {
        startblock: 0,
        blockcount: 0,
        owner: 0,
        offset: 0,
    };
    let list_answer = |n: Option<u8>| match n {
        Some(22) => 0,
        n => u32::from(n.expect("an empty extent is refused")),
    };
    for _ in 0..2000 {
        let mut b = bare::rmap_bytes(&lists::rmaps(r));
        if r.below(20) == 0 {
            b.push(7);
        }
        let n = list_answer(paper::insert(&b, bad, 0).number());
        if cases.wants(2, n, 6) {
            cases.add(Case::new(2, (n, [0; 4])).given(&b, &[]));
        }
        let mut b = lists::count_bytes(&lists::counts(r));
        if r.below(20) == 0 {
            b.push(7);
        }
        let n = list_answer(paper::release(&b, 0, 0, 0, 0).number());
        if cases.wants(3, n, 6) {
            cases.add(Case::new(3, (n, [0; 4])).given(&b, &[]));
        }
    }
}

fn edit_cases(r: &mut Random, cases: &mut Cases) {
    let mut accepted = 0;
    for _ in 0..20_000 {
        let list = lists::rmaps(r);
        let mut old = bare::rmap_bytes(&list);
        if r.below(100) == 0 {
            old.push(1);
        }
        let x = lists::extent(r, &list);
        for (e, call) in Edit::ALL.into_iter().zip(8..) {
            let room = match r.below(4) {
                0 => r.below(old.len() as u64 + 25) as usize,
                _ => old.len() + r.below(30) as usize,
            };
            let o = due(e, &old, x, room);
            let said = expect(&o, |v| [v.len() as u64, 0, 0, 0]);
            // Five more are refused by 23 that the original accepts.
            let ahead = e == Edit::Insert
                && said.0 == 23
                && paper::insert(&old, x, room).number().is_none();
            let most = match said.0 {
                0 => 30,
                _ if ahead => 10,
                _ => 5,
            };
            if cases.wants(call, said.0, most) {
                accepted += u32::from(ahead);
                let new = o.accepted().unwrap_or_default();
                let c = Case::new(call, said).extent(x).given(&old, &[]);
                cases.add(c.output(0, room, &new));
            }
        }
        let c = lists::counts(r);
        let mut old = lists::count_bytes(&c);
        if r.below(100) == 0 {
            old.push(1);
        }
        let (start, count) = lists::run(r, &c);
        let (room, free_room) = match r.below(4) {
            0 => (r.below(old.len() as u64 + 25) as usize, 24),
            1 => (old.len() + 24, r.below(40) as usize),
            _ => (old.len() + 24, 80),
        };
        let o = paper::release(&old, start, count, room, free_room);
        let said = expect(&o, |v| [v.counts.len() as u64, v.free.len() as u64, 0, 0]);
        if cases.wants(11, said.0, if said.0 == 0 { 40 } else { 5 }) {
            let (n, f) = o
                .accepted()
                .map_or((vec![], vec![]), |v| (v.counts, v.free));
            let c = Case::new(11, said).two(start, count).given(&old, &[]);
            cases.add(c.output(0, room, &n).output(1, free_room, &f));
        }
        // The whole letting go.
        let map = bare::rmap_bytes(&list);
        let room = [
            map.len() + r.below(30) as usize,
            old.len() + r.below(30) as usize,
            r.below(60) as usize,
        ];
        let o = paper::let_go(&map, &old, x, room[0], room[1], room[2]);
        let said = expect(&o, |v| {
            let r = &v.released;
            [
                v.rmap.len() as u64,
                r.counts.len() as u64,
                r.free.len() as u64,
                0,
            ]
        });
        if cases.wants(12, said.0, if said.0 == 0 { 30 } else { 5 }) {
            let left = match o.accepted() {
                None => [vec![], vec![], vec![]],
                Some(v) => [v.rmap, v.released.counts, v.released.free],
            };
            let mut c = Case::new(12, said).extent(x).given(&map, &old);
            for i in 0..3 {
                c = c.output(i, room[i], &left[i]);
            }
            cases.add(c);
        }
    }
    println!("inserts refused by 23 that the original accepts: {accepted}");
}

fn held_cases(r: &mut Random, cases: &mut Cases) {
    for _ in 0..20_000 {
        let (map, counts, x, room) = held::take(r);
        let (number, figures, left) = held::said(held::due(&map, &counts, x, room));
        if cases.wants(14, number, if number == 0 { 30 } else { 5 }) {
            let c = Case::new(14, (number, figures)).extent(x);
            let c = c.given(&map, &counts).output(0, room[0], &left[0]);
            cases.add(c.output(1, room[1], &left[1]));
        }
    }
}

fn block_cases(r: &mut Random, cases: &mut Cases) {
    for _ in 0..4000 {
        let bad = r.below(10) == 0;
        let g = blocks::geometry(r, bad);
        let kind = r.pick(&Kind::OLDER);
        let (block, level, b) = blocks::block(r, &g, kind, 512);
        let c = block_case(&g, sequence::last_lsn(&g), kind, block, level, &b);
        cases.add_wanted(c, 4);
        let bits = r.below(65);
        let n = if bits == 0 {
            0
        } else {
            r.next() >> (64 - bits)
        };
        cases.add_wanted(plan_case(&g, kind, n), 12);
    }
}

fn block_case(g: &Geometry, last: u64, kind: Kind, block: u32, level: u16, b: &[u8]) -> Case {
    let o = sequence::parse_block(g, last, kind, b, block, level);
    let said = expect(&o, |h| blocks::header_figures(h, b));
    let c = Case::new(4, said).geometry(g, last, kind);
    c.two(block, u32::from(level)).given(b, &[])
}

fn plan_case(g: &Geometry, kind: Kind, records: u64) -> Case {
    let o = kinds::plan(g, kind, records);
    let said = expect(&o, |v| [v.len() as u64, v.iter().sum(), 0, 0]);
    let levels = match o.accepted() {
        Some(mut v) => {
            v.resize(9, 0);
            v.iter().flat_map(|n| n.to_be_bytes()).collect()
        }
        None => vec![FILL; 9 * 8],
    };
    let mut c = Case::new(5, said).geometry(g, sequence::last_lsn(g), kind);
    c.head[21..23].copy_from_slice(&halves(records));
    c.given(&levels, &[])
}

fn build_cases(r: &mut Random, cases: &mut Cases) {
    for _ in 0..3000 {
        let c = build_case(r, &Kind::OLDER);
        let most = if c.head[1] == 0 { 8 } else { 2 };
        cases.add_wanted(c, most);
    }
}

fn build_case(r: &mut Random, of: &[Kind]) -> Case {
    let mut g = blocks::geometry(r, false);
    g.block_size = 512;
    if r.below(20) == 0 {
        g = blocks::geometry(r, true);
    }
    let kind = r.pick(of);
    kinds::some_version(r, kind, &mut g);
    let n = r.below(90) as usize;
    let mut list = trees::list(r, kind, n);
    match r.below(16) {
        0 if !list.is_empty() => {
            let at = r.below(list.len() as u64) as usize;
            list[at] ^= 1 << r.below(8);
        }
        1 => list.push(0),
        _ => (),
    }
    let total = kinds::plan(&g, kind, n as u64)
        .accepted()
        .map_or(1, |p| p.iter().sum::<u64>()) as usize;
    let given = if r.below(10) == 0 { total + 1 } else { total };
    let numbers: Vec<u32> = (0..given).map(|_| r.next() as u32).collect();
    let mut room = total * 512 + r.below(20) as usize;
    if r.below(10) == 0 {
        room -= 1 + r.below(20).min(room as u64 - 1) as usize;
    }
    built_case(&g, sequence::last_lsn(&g), kind, &list, &numbers, room)
}

fn built_case(
    g: &Geometry,
    last: u64,
    kind: Kind,
    list: &[u8],
    numbers: &[u32],
    room: usize,
) -> Case {
    let o = links::build_at(g, last, kind, list, numbers, room);
    let said = expect(&o, |v| {
        [v.len() as u64 / g.block_size, v.len() as u64, 0, 0]
    });
    let c = Case::new(6, said).geometry(g, last, kind);
    let c = c.given(list, &number_bytes(numbers));
    c.output(0, room, &o.accepted().unwrap_or_default())
}

/// Each walk by both calls, as far as each still wants its answer.
fn walk_cases(r: &mut Random, cases: &mut Cases) {
    let mut done = BTreeMap::new();
    for _ in 0..3000 {
        let w = trees::small_walk(r, &Kind::OLDER);
        let (a, linked) = walked(&w);
        for (walk, call) in Walk::ON_STACK.into_iter().zip([7, 16]) {
            let said = trees::walk_figures(&a, w.kind, walk.says(linked));
            let wanted = match (&a.outcome, walk) {
                // Of trees of several blocks, as many of each kind.
                (Outcome::Accepted(walked), Walk::Linked) if w.levels > 1 => {
                    let n: &mut u32 = done.entry(link_kind(linked, &walked.blocks)).or_default();
                    *n += 1;
                    *n <= 2
                }
                (Outcome::Accepted(_), Walk::Linked) => false,
                (Outcome::Accepted(_), Walk::Plain) => cases.wants(call, 0, 4),
                _ => cases.wants(call, said.0, 1),
            };
            if wanted {
                cases.add(walk_case(call, said, &w, &a.outcome));
            }
        }
    }
    assert!(
        done.len() == 3 && done.values().all(|&n| n >= 2),
        "{done:?}"
    );
    let by: Vec<&str> = done.into_keys().collect();
    println!("walk_linked, of those done two each: {}", by.join("; "));
}

/// What the original makes of a walk, with 30, and whether the tree is linked.
fn walked(w: &trees::SmallWalk) -> (bare::WalkAnswer, bool) {
    let a = w.due(&w.room().lent());
    let linked = match &a.outcome {
        Outcome::Accepted(walked) => links::linked(&w.g, &w.image, &walked.blocks),
        _ => false,
    };
    (a, linked)
}

/// Why a walk's tree is linked or not.
fn link_kind(linked: bool, blocks: &[u32]) -> &'static str {
    let twice = (1..blocks.len()).any(|i| blocks[..i].contains(&blocks[i]));
    match (linked, twice) {
        (true, _) => "linked",
        (_, true) => "not linked, a block met twice",
        _ => "not linked, a wrong link",
    }
}

fn walk_case(
    call: u32,
    said: (u32, [u64; 4]),
    w: &trees::SmallWalk,
    outcome: &Outcome<bare::Walked>,
) -> Case {
    let early = matches!(said.0, 1 | 11 | 12);
    let (list, records) = match outcome {
        Outcome::Accepted(a) => (a.blocks.clone(), a.records.clone()),
        _ if early => (vec![], vec![]),
        _ => (vec![0; w.blocks], vec![0; w.bytes]),
    };
    let mut places = number_bytes(&list);
    places.resize(4 * w.blocks, FILL);
    let c = Case::new(call, said).geometry(&w.g, w.last_lsn, w.kind);
    let c = c.two(w.root, w.levels).given(&w.image, &places);
    let mut c = c.output(0, w.bytes, &records);
    let stack = if call == TEXTBOOK { 0 } else { w.stack };
    c.head[29..32].copy_from_slice(&[u32::from(!early), stack as u32, w.scratch as u32]);
    c
}

/// What a lookup shows that was done, or refused by 29.
fn lookup_kind(l: &Lookup, due: &Due) -> Option<&'static str> {
    let seen = &due.visited;
    let twice = (1..seen.len()).any(|i| seen[..i].contains(&seen[i]));
    let Left::Found(found) = &due.left else {
        return match l.asked.windows(2).all(|w| w[0] < w[1]) {
            true => Some("fewer places than numbers"),
            false => Some("numbers that do not ascend"),
        };
    };
    let most = found.iter().max().copied().unwrap_or(0);
    match (l.levels, found.len()) {
        (2.., 0) => Some("no number asked"),
        (2.., 3..) if twice && most > 1 => Some("a block met twice"),
        (2.., 1..) if seen.len() == 1 => Some("all children skipped"),
        (2.., 3..) if seen.len() > 2 && !twice && most > 1 => Some("some of several blocks"),
        (1, 3..) if most > 1 => Some("one leaf"),
        _ => None,
    }
}

fn lookup_cases(r: &mut Random, cases: &mut Cases) {
    let mut shown: BTreeMap<&str, u32> = BTreeMap::new();
    for _ in 0..6000 {
        let l = lookups::small(r);
        let due = l.due();
        let wanted = match due.number {
            0 | 29 => lookup_kind(&l, &due).is_some_and(|kind| {
                let n = shown.entry(kind).or_default();
                *n += 1;
                *n <= if due.number == 0 { 2 } else { 1 }
            }),
            // Where it can be, past the root, so that there are answers to make zero.
            n => {
                let past = matches!(n, 1 | 3 | 11 | 12) || due.visited.len() > 1;
                past && !l.asked.is_empty() && cases.wants(18, n, 1)
            }
        };
        if wanted {
            cases.add(lookup_case(&l, &due));
        }
    }
    assert_eq!(shown.len(), 7, "{shown:?}");
    let by: Vec<&str> = shown.into_keys().collect();
    println!(
        "lookup, done two each, refused by 29 one: {}",
        by.join("; ")
    );
    for n in lookups::ANSWERS.into_iter().filter(|&n| n != 30) {
        assert!(cases.seen.contains_key(&(18, n)), "no lookup answers {n}");
    }
}

fn lookup_case(l: &Lookup, due: &Due) -> Case {
    let answers: Vec<u64> = match &due.left {
        Left::Untouched => vec![],
        Left::Zero => vec![0; l.answers],
        Left::Found(found) => found.clone(),
    };
    let answers: Vec<u8> = answers.iter().flat_map(|n| n.to_be_bytes()).collect();
    let c = Case::new(18, (due.number, due.figures)).geometry(&l.g, l.last_lsn, Kind::RMAP);
    let c = c.two(l.root, l.levels);
    let c = c.given(&l.image, &number_bytes(&l.asked));
    let mut c = c.output(0, 8 * l.answers, &answers);
    c.head[29] = u32::from(due.left != Left::Untouched);
    c.head[30] = l.stack as u32;
    c
}

/// Trees of real volumes: each of their blocks checked, and the walk as far
/// as the group's image is small.
fn real_cases(files: &[String], cases: &mut Cases) {
    let trees = files
        .iter()
        .flat_map(|f| real::read(f).into_iter().map(move |t| (f, t)));
    for (file, t) in trees {
        let name = real::file_name(file);
        for (n, b) in &t.stored {
            let level = u16::from(b[4]) * 256 + u16::from(b[5]);
            let c = block_case(&t.g, t.last_lsn, t.kind, *n, level, b);
            assert_eq!(c.head[1], 0, "a block of a real volume is good");
            cases.add(c);
        }
        if let Some(last) = too_long(&t) {
            println!("{name} {:?}: not walked, blocks up to {last}", t.kind);
            continue;
        }
        for (walk, call) in Walk::ON_STACK.into_iter().zip([13, 17]) {
            cases.add(real_walk(walk, call, &t));
        }
    }
}

/// The last block of a tree whose image is too long for a program's stack.
fn too_long(t: &real::RealTree) -> Option<u32> {
    let last = t.stored.iter().map(|s| s.0).max().expect("a block");
    let len = (u64::from(last) + 1) * t.g.block_size;
    (len > 1460 * 2048).then_some(last)
}

/// The walk of a real tree, under its last number.
fn real_walk(walk: Walk, call: u32, t: &real::RealTree) -> Case {
    let image = t.image();
    let linked = links::linked(&t.g, &image, &t.blocks);
    let a = sequence::walked(&t.g, t.last_lsn, &image, |image| {
        kinds::bare_walk(&t.g, t.kind, image, t.root, t.levels)
    });
    let said = trees::walk_figures(&a, t.kind, walk.says(linked));
    // What was printed of the tree, or zeros.
    let (list, records) = match &a.outcome {
        Outcome::Accepted(w) => {
            assert!(w.blocks == t.blocks && w.records == t.records);
            (t.blocks.clone(), t.records.clone())
        }
        _ => (vec![0; t.blocks.len()], vec![0; t.records.len()]),
    };
    let c = Case::new(call, said).geometry(&t.g, t.last_lsn, t.kind);
    let c = c.two(t.root, t.levels);
    let mut c = c.given(&[], &number_bytes(&list));
    for (n, b) in &t.stored {
        let place = n * t.g.block_size as u32;
        c.body.extend(place.to_be_bytes());
        c.body.extend(b);
    }
    let mut c = c.output(0, records.len(), &records);
    let stack = match walk {
        Walk::Textbook => 0,
        _ => kinds::STACK_PLACES,
    };
    c.head[21] = t.stored.len() as u32;
    c.head[29..32].copy_from_slice(&[1, stack as u32, t.blocks.len() as u32]);
    c
}

/// Nine levels, walked by both calls and looked up in, with stacks of 17, 18 and 19
/// places and of as many as document 01 asked for.
fn stack_cases(cases: &mut Cases) {
    let mut l = lookups::folded(512, 9);
    let larger = kinds::larger_stack(&l.g, Kind::RMAP, l.levels);
    for stack in [17, 18, 19, larger] {
        l.stack = stack;
        let w = trees::SmallWalk {
            g: l.g,
            last_lsn: l.last_lsn,
            kind: Kind::RMAP,
            image: l.image.clone(),
            root: l.root,
            levels: l.levels,
            stack,
            scratch: 40,
            blocks: 40,
            bytes: 100,
        };
        let (a, linked) = walked(&w);
        for (walk, call) in Walk::ON_STACK.into_iter().zip([7, 16]) {
            let said = trees::walk_figures(&a, w.kind, walk.says(linked));
            cases.add(walk_case(call, said, &w, &a.outcome));
        }
        cases.add(lookup_case(&l, &l.due()));
    }
}

/// Lists of free extents: of each answer some, and of two lists those that say yes
/// and no, with as many extents and with more or fewer, and those of which either
/// is refused.
fn free_list_cases(r: &mut Random, cases: &mut Cases) {
    let mut shown = BTreeMap::new();
    for _ in 0..4000 {
        let [by_block, by_size] = free::two_lists(r, 9);
        let refused = |order, list| free::refused(order, list).map_or(0, u32::from);
        let first = refused(Order::ByBlock, &by_block);
        let second = refused(Order::ByCount, &by_size);
        for (call, number, list) in [(19, first, &by_block), (20, second, &by_size)] {
            let c = Case::new(call, (number, [0; 4])).given(list, &[]);
            cases.add_wanted(c, 4);
        }
        let said = free::due(&by_block, &by_size);
        let as_many = by_block.len() == by_size.len();
        if by_block.is_empty() || by_size.is_empty() {
            continue;
        }
        let way = (said, first, second, said.0 == 0 && as_many);
        let n: &mut u32 = shown.entry(way).or_default();
        *n += 1;
        if *n <= 2 {
            cases.add(Case::new(21, said).given(&by_block, &by_size));
        }
    }
    // Three are done; each list is good, or refused by 19 or 21.
    assert_eq!(shown.len(), 3 + 8, "{shown:?}");
}

/// The free-space trees: of each call one for each answer, on each version where the
/// block check gives it or where it is done; of checks, plans and builds that are
/// done one for each kind, of walk_linked one that is linked and one that is not.
fn free_tree_cases(r: &mut Random, cases: &mut Cases) {
    let mut shown = BTreeSet::new();
    let mut show = |c: Case| {
        let [call, number, version, kind, fourth] = [0, 1, 10, 18, 9].map(|i| c.head[i]);
        let by = match (number, call) {
            (0, 7 | 16) => [version, fourth],
            (0, _) => [version, kind],
            (2..=10, _) => [version, 0],
            _ => [0; 2],
        };
        if number != 30 && shown.insert((call, number, by)) {
            cases.add(c);
        }
    };
    let of = &Kind::FREE;
    for _ in 0..12_000 {
        let bad = r.below(10) == 0;
        let mut g = blocks::geometry(r, bad);
        let kind = r.pick(of);
        kinds::some_version(r, kind, &mut g);
        let (block, level, b) = blocks::block(r, &g, kind, 512);
        show(block_case(
            &g,
            sequence::last_lsn(&g),
            kind,
            block,
            level,
            &b,
        ));
        let n = r.next() >> r.below(64);
        show(plan_case(&g, kind, n));
        show(build_case(r, of));
    }
    for _ in 0..6000 {
        let w = trees::small_walk(r, of);
        let (a, linked) = walked(&w);
        for (walk, call) in Walk::ON_STACK.into_iter().zip([7, 16]) {
            let said = trees::walk_figures(&a, w.kind, walk.says(linked));
            // Of trees of several blocks; refused by what goes by the kind, by the one
            // call, since both refuse alike.
            let wanted = match said.0 {
                0 => w.levels > 1,
                4..=10 | 12 | 15 => walk == Walk::Plain,
                _ => false,
            };
            if wanted {
                show(walk_case(call, said, &w, &a.outcome));
            }
        }
    }
}

/// A tree whose nodes have one block as every child, its leaf with any records, as a
/// textbook walk is lent memory for it.
fn folded_walk(r: &mut Random, version: u64, kind: Kind, counts: &[usize]) -> trees::SmallWalk {
    let mut g = Geometry::v5(512);
    g.version = version;
    (g.agblocks, g.agno) = (9, 3);
    g.meta_uuid = r.bytes(16).try_into().expect("16 bytes");
    let mut image = trees::folded(&g, kind, counts);
    let records = r.bytes(counts[0] * kind.record_len());
    image[kinds::header_len(&g)..][..records.len()].copy_from_slice(&records);
    blocks::seal(&g, &mut image[..512]);
    let levels = counts.len() as u32;
    trees::SmallWalk {
        g,
        last_lsn: sequence::last_lsn(&g),
        kind,
        image,
        root: levels - 1,
        levels,
        // Not lent: with as many the other walks come to the same.
        stack: kinds::STACK_PLACES,
        scratch: 5,
        blocks: 4,
        bytes: 2 * records.len() + 7,
    }
}

/// Textbook walks with each of their answers: where it can be, refused past the root;
/// those done meet a block twice, on either version, and through nine levels. Then
/// those of real trees.
fn textbook_cases(files: &[String], cases: &mut Cases) {
    let mut r = Random(2027);
    let mut add = |number: u32, w: &trees::SmallWalk| {
        let (a, _) = walked(w);
        let said = trees::walk_figures(&a, w.kind, 0);
        assert_eq!(said.0, number, "a textbook walk");
        cases.add(walk_case(TEXTBOOK, said, w, &a.outcome));
    };
    // The root has the leaf twice.
    let two = [2, 2];
    for (version, kind) in [(5, Kind::RMAP), (4, Kind::BY_BLOCK), (5, Kind::BY_SIZE)] {
        add(0, &folded_walk(&mut r, version, kind, &two));
    }
    let mut w = folded_walk(&mut r, 5, Kind::REFCOUNT, &trees::few_children(9));
    (w.scratch, w.blocks, w.bytes) = (32, 31, 4 * 12);
    add(0, &w);

    let mut leaf = |kind| folded_walk(&mut r, 5, kind, &[1]);
    let mut w = leaf(Kind::RMAP);
    w.g.version = 6;
    add(1, &w);
    let mut w = leaf(Kind::REFCOUNT);
    w.g.version = 4;
    add(3, &w);
    let mut w = leaf(Kind::BY_BLOCK);
    w.levels = 10;
    add(11, &w);
    let mut w = leaf(Kind::BY_SIZE);
    w.scratch = w.blocks - 1;
    add(12, &w);

    // A byte of the leaf is another, and its check is put right but for 5.
    let fields = [(4, 0), (5, 511), (6, 32), (7, 51), (8, 23), (9, 5), (10, 6)];
    for ((number, at), kind) in fields.into_iter().zip(Kind::ALL.into_iter().cycle()) {
        let mut w = folded_walk(&mut r, 5, kind, &two);
        w.image[at] ^= 1;
        if number != 5 {
            blocks::seal(&w.g, &mut w.image[..512]);
        }
        add(number, &w);
    }
    // 91 visits, of which 64 are made.
    let mut w = folded_walk(&mut r, 5, Kind::BY_SIZE, &[1, 9, 9]);
    (w.scratch, w.blocks, w.bytes) = (65, 65, 65 * 8);
    add(13, &w);
    // The second child is past the image.
    let mut w = folded_walk(&mut r, 4, Kind::BY_SIZE, &two);
    links::put(&mut w.image[512..], kinds::pointer(&w.g, w.kind, 1), 2);
    add(14, &w);
    // The second leaf is a block more than there is room for, or has a record more.
    let mut w = folded_walk(&mut r, 5, Kind::RMAP, &two);
    (w.scratch, w.blocks) = (2, 2);
    add(15, &w);
    let mut w = folded_walk(&mut r, 4, Kind::BY_BLOCK, &two);
    w.bytes = 4 * 8 - 1;
    add(15, &w);
    for n in textbook::ANSWERS.into_iter().filter(|&n| n != 30) {
        let of = (TEXTBOOK, n);
        assert!(cases.seen.contains_key(&of), "no textbook walk answers {n}");
    }

    for t in files.iter().flat_map(|f| real::read(f)) {
        if too_long(&t).is_none() {
            cases.add(real_walk(Walk::Textbook, TEXTBOOK + 1, &t));
        }
    }
}

/// The calls of the walks by their numbers in a case: of an image, and of real blocks.
const WALKS: [(Walk, u32, u32); 3] = [
    (Walk::Plain, 7, 13),
    (Walk::Linked, 16, 17),
    (Walk::Textbook, TEXTBOOK, TEXTBOOK + 1),
];

/// Blocks and trees around the last sequence number. Of blocks of each kind those
/// that 30 refuses, those with a number that is not above the last one, and those
/// with another field wrong; of version 4 one with all ones at its place. Trees that
/// are built with a number, read under a higher one, and read with a newer leaf. A
/// real tree under one below its newest block's.
fn sequence_cases(files: &[String], cases: &mut Cases) {
    let r = &mut Random(2028);
    let last = 0x0000_0007_0000_0032;
    for kind in Kind::ALL {
        // The number, what is added to the block number and the level asked for, and
        // the answer.
        for (lsn, block_more, level_more, number) in [
            (last + 1, 0, 0, 30),
            (u64::MAX, 0, 0, 30),
            (0x0000_0008_0000_0031, 0, 0, 30),
            (last, 0, 0, 0),
            (0x0000_0006_0000_0033, 0, 0, 0),
            (last + 1, 1, 0, 8),
            (last + 1, 0, 1, 30),
        ] {
            let (g, mut b) = (sequence::good_geometry(r, 5), r.bytes(512));
            let (block, level, n) = (r.below(1000) as u32, r.below(3) as u16, 2);
            stamp(
                &mut b,
                &g.superblock(),
                kind.shape(),
                g.agno,
                block,
                level,
                n,
            );
            b[24..32].copy_from_slice(&u64::to_be_bytes(lsn));
            blocks::seal(&g, &mut b);
            let (block, level) = (block + block_more, level + level_more);
            let c = block_case(&g, last, kind, block, level, &b);
            assert_eq!(c.head[1], number, "{kind:?} {lsn:#x}");
            cases.add(c);
        }
    }
    for kind in Kind::FREE {
        let (g, mut b) = (sequence::good_geometry(r, 4), vec![0xFF; 512]);
        stamp(&mut b, &g.superblock(), kind.shape(), g.agno, 9, 0, 2);
        let c = block_case(&g, 0, kind, 9, 0, &b);
        assert_eq!(c.head[1], 0, "{kind:?} of version 4");
        cases.add(c);
    }

    let tree = |r: &mut Random, kind, version, cases: &mut Cases| {
        sequence::built(r, kind, version, 2, last, |g, list, at, room| {
            cases.add(built_case(g, last, kind, list, at, room));
            links::build_at(g, last, kind, list, at, room).accepted()
        })
    };
    let add = |(walk, call, _): (Walk, u32, u32), w: &trees::SmallWalk, cases: &mut Cases| {
        let (a, linked) = walked(w);
        let said = trees::walk_figures(&a, w.kind, walk.says(linked));
        cases.add(walk_case(call, said, w, &a.outcome));
        (said.0, a.visits)
    };
    let kinds = [Kind::BY_SIZE, Kind::REFCOUNT, Kind::BY_BLOCK];
    for (of, kind) in WALKS.into_iter().zip(kinds) {
        // The log has gone on since the tree was built.
        let mut t = tree(r, kind, 5, cases);
        t.w.last_lsn = last + 1;
        assert_eq!(add(of, &t.w, cases).0, 0);
        // Then its last leaf is newer than that.
        let leaf = *t.met.last().expect("a leaf");
        t.renumber(leaf, last + 2);
        assert_eq!(add(of, &t.w, cases), (30, t.met.len() as u64));
    }
    let mut t = tree(r, Kind::RMAP, 5, cases);
    t.w.last_lsn = u64::MAX;
    let first = |n: u32| links::be32(links::block(&t.w.g, &t.w.image, n), 56);
    let (low, high) = (first(t.met[1]), first(t.met[t.met.len() - 1]));
    let l = t.asked(vec![low, high]);
    let due = l.due();
    assert_eq!(due.number, 0);
    cases.add(lookup_case(&l, &due));
    t.w.last_lsn = last;
    t.renumber(t.met[t.met.len() - 1], 1 << 63);
    let l = t.asked(vec![low, high]);
    let due = l.due();
    assert!(due.number == 30 && due.visited.len() > 2, "{due:?}");
    cases.add(lookup_case(&l, &due));

    // On version 4 the same bytes are a record, and any number is the last.
    let mut t = tree(r, Kind::BY_SIZE, 4, cases);
    t.w.last_lsn = 0;
    t.renumber(t.met[1], u64::MAX);
    for of in WALKS {
        assert_eq!(add(of, &t.w, cases).0, 0);
    }

    // Where it can be, one that is refused past its root.
    let trees = files.iter().flat_map(|f| real::read(f).into_iter());
    let short = trees.filter(|t| too_long(t).is_none());
    let below = |t: real::RealTree| t.newest().map(|n| t.at(n - 1));
    let real: Vec<_> = short.filter_map(below).collect();
    let past = |t: &&real::RealTree| real_walk(Walk::Plain, 13, t).head[7] > 1;
    if let Some(t) = real.iter().find(past).or(real.first()) {
        for (walk, _, call) in WALKS {
            let c = real_walk(walk, call, t);
            assert_eq!(c.head[1], 30, "one below its newest block's");
            cases.add(c);
        }
    }
    for call in [4, 7, 16, 18, TEXTBOOK] {
        assert!(cases.seen.contains_key(&(call, 30)), "no {call} by 30");
    }
}

/// Explanations with each of their answers, and in each way that it comes about, at
/// least five times.
fn why_cases(cases: &mut Cases) {
    const CALL: u32 = 24;
    const LEAST: usize = 5;
    let r = &mut Random(2029);
    let mut shown: BTreeMap<_, usize> = BTreeMap::new();
    for _ in 0..20_000 {
        let (map, counts, x) = why::pair(r);
        let step = why::Step::new(&map, &counts, x);
        let block = r.pick(&why::around(&map, &counts, x));
        let (said, ways) = (step.said(block), step.ways(block));
        let few = |way| shown.get(way).is_none_or(|&n| n < LEAST);
        if !ways.iter().any(few) && !cases.wants(CALL, said.0, LEAST) {
            continue;
        }
        for way in ways {
            *shown.entry(way).or_default() += 1;
        }
        let mut c = Case::new(CALL, said).extent(x).given(&map, &counts);
        c.head[30] = block;
        cases.add(c);
    }
    for n in why::ANSWERS {
        assert!(!cases.wants(CALL, n, LEAST), "explain, few answer {n}");
    }
    let ways: usize = why::WAYS.iter().map(|w| w.1).sum();
    assert!(shown.len() == ways && shown.values().all(|&n| n >= LEAST));
    for ((what, how), n) in shown {
        println!("{what}: {how} {n}");
    }
}

/// The rule that a sheet breaks once a byte is another, where that stands and what it is,
/// with fresh CRCs. The sheet has a block of 15 changes and one of two.
const BROKEN: [(&str, usize, u8); 16] = [
    ("place", BLOCK + 7, 2),
    ("place", BLOCK + 4, 1),
    ("no change in a block", BLOCK + 9, 0),
    ("more than 15 changes in a block", BLOCK + 9, 16),
    ("more than 15 changes in a block", BLOCK + 8, 1),
    ("a short block before the last", 9, 14),
    ("the mark before the last block", 10, 1),
    ("no mark in the last block", BLOCK + 10, 0),
    ("a mark above 1", BLOCK + 10, 2),
    ("zeros of the header", BLOCK + 11, 1),
    ("zeros of the header", 31, 0x80),
    ("kind", BLOCK + 32 + 3, 0),
    ("kind", BLOCK + 64 + 3, 4),
    ("kind", 32, 1),
    ("zeros of a change", BLOCK + 64 + 7, 1),
    ("an unused change", 2 * BLOCK - 1, 1),
];

/// Sheets read and lists of changes written, with each answer: those that are done with
/// an output that is just long enough or longer, and each rule broken.
fn sheet_cases(cases: &mut Cases) {
    const READ: u32 = 25;
    const WRITE: u32 = 26;
    let r = &mut Random(2030);
    let mut add = |call, input: &[u8], room: usize, number: u32, why: Option<&str>| {
        let made = match call {
            READ => sheets::read(input),
            _ => sheets::write(input),
        };
        let (told, figures, left) = sheets::said(&made, room);
        let for_what = made.as_ref().err().map(|refused| refused.why);
        assert_eq!((told, for_what), (number, why));
        let c = Case::new(call, (told, figures)).given(input, &[]);
        cases.add(c.output(0, room, left));
    };
    for n in [1, 15, 16, 31] {
        let list = sheets::changes(r, n);
        let sheet = sheets::write(&list).expect("good changes");
        add(READ, &sheet, list.len(), 0, None);
        add(WRITE, &list, sheet.len(), 0, None);
    }
    // A block of 15 and one of two.
    let list = sheets::changes(r, 17);
    let sheet = sheets::write(&list).expect("good changes");
    for (call, input, exact) in [(READ, &sheet, list.len()), (WRITE, &list, sheet.len())] {
        add(call, input, exact + 37, 0, None);
        add(call, input, exact - 1, 26, None);
        add(call, input, 0, 26, None);
    }

    let room = list.len();
    let alone = Some("the CRC alone");
    for at in [BLOCK - 1, BLOCK] {
        let mut sheet = sheet.clone();
        sheet[at] ^= 1;
        add(READ, &sheet, room, 32, alone);
    }
    let mut reversed = sheet.clone();
    reversed[BLOCK..][..4].reverse();
    add(READ, &reversed, room, 32, alone);
    for n in [BLOCK - 1, BLOCK + 1] {
        add(READ, &sheet[..n], room, 32, Some("the length"));
    }
    let with = |at: usize, byte: u8| {
        let mut sheet = sheet.clone();
        sheet[at] = byte;
        sheets::seal(&mut sheet);
        sheet
    };
    let mut two = with(7, 1);
    two[BLOCK + 40] ^= 1;
    let why = "the CRC, another rule broken in an earlier block";
    add(READ, &two, room, 32, Some(why));

    add(READ, &[], room, 33, Some("no block"));
    for (why, at, byte) in BROKEN {
        add(READ, &with(at, byte), room, 33, Some(why));
    }
    let cut = Some("no mark in the last block");
    add(READ, &sheet[..BLOCK], room, 33, cut);
    let glued = [&sheet[..], &sheet].concat();
    let short = Some("a short block before the last");
    add(READ, &glued, 2 * room, 33, short);

    let room = sheet.len();
    add(WRITE, &[], room, 33, Some("no change"));
    let length = Some("the length");
    add(WRITE, &list[..CHANGE + 1], room, 33, length);
    add(WRITE, &list[..CHANGE - 1], room, 33, length);
    let last = list.len() - CHANGE;
    for (why, at, byte) in [
        ("kind", 3, 0),
        ("kind", last + 3, 4),
        ("kind", last, 1),
        ("zeros of a change", last + 4, 1),
        ("zeros of a change", 7, 0x80),
    ] {
        let mut list = list.clone();
        list[at] = byte;
        add(WRITE, &list, room, 33, Some(why));
    }
}

/// `sample FILE [CASE ..]`.
pub fn sample(words: &[String]) {
    let (file, real) = words.split_first().expect("a file to write");
    let mut r = Random(2026);
    let mut cases = Cases::default();
    list_cases(&mut r, &mut cases);
    block_cases(&mut r, &mut cases);
    edit_cases(&mut r, &mut cases);
    build_cases(&mut r, &mut cases);
    walk_cases(&mut r, &mut cases);
    held_cases(&mut r, &mut cases);
    real_cases(real, &mut cases);
    lookup_cases(&mut r, &mut cases);
    free_list_cases(&mut r, &mut cases);
    free_tree_cases(&mut r, &mut cases);
    stack_cases(&mut cases);
    textbook_cases(real, &mut cases);
    sequence_cases(real, &mut cases);
    why_cases(&mut cases);
    sheet_cases(&mut cases);
    let mut out = Vec::new();
    for c in &cases.all {
        out.extend(number_bytes(&c.head));
        out.extend(&c.body);
    }
    out.extend([0; 4 * HEAD]);
    std::fs::write(file, &out).unwrap_or_else(|e| panic!("{file}: {e}"));
    for (call, name) in (0..).zip(CALLS).skip(1) {
        let mine = cases.seen.iter().filter(|(k, _)| k.0 == call);
        let by: Vec<String> = match call {
            // Its answer is the check itself.
            1 | 15 => vec![format!("{} checks", mine.count())],
            _ => mine.map(|(k, n)| format!("{}: {n}", k.1)).collect(),
        };
        println!("{call} {name}   {}", by.join(", "));
    }
    println!("{} cases, {} bytes", cases.all.len(), out.len());
}

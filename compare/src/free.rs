//! Free extents: question 21 on lists by block and by size, whether two lists
//! hold the same extents, and the two free-space trees on both versions.
//!
//! The original checks no list of these and compares no two: the answers are
//! held against the definitions here. Of the trees it has all (`kinds`).

use crate::blocks;
use crate::edits::same;
use crate::kinds::Kind;
use crate::lent::hex;
use crate::library;
use crate::links;
use crate::lists::END;
use crate::tally::{differ, Tally};
use crate::trees;
use crate::vectors;
use oracle::alloc_btree::{decode_free_extent, FreeExtent, Order};
use oracle::bare;
use oracle::sample::Random;
use std::collections::BTreeSet;

/// The bytes of a free extent.
const LEN: usize = 8;

/// The extents of a list. Bytes past the last whole one are left out.
pub fn extents(list: &[u8]) -> Vec<FreeExtent> {
    list.chunks_exact(LEN)
        .map(|b| decode_free_extent(b, 0))
        .collect()
}

fn extent(startblock: u32, blockcount: u32) -> FreeExtent {
    FreeExtent {
        startblock,
        blockcount,
    }
}

/// By start, then count.
fn start(x: &FreeExtent) -> (u32, u32) {
    (x.startblock, x.blockcount)
}

/// By count, then start.
fn size(x: &FreeExtent) -> (u32, u32) {
    (x.blockcount, x.startblock)
}

/// Question 21 on free extents.
fn accepted(order: Order, list: &[FreeExtent]) -> bool {
    let good = |x: &FreeExtent| x.blockcount > 0 && x.end() <= END;
    let follows = |w: &[FreeExtent]| match order {
        Order::ByBlock => w[0].end() <= u64::from(w[1].startblock),
        Order::ByCount => size(&w[0]) < size(&w[1]),
    };
    list.iter().all(good) && list.windows(2).all(follows)
}

/// Questions 19 and 21: the number of the one that fails.
pub fn refused(order: Order, list: &[u8]) -> Option<u8> {
    if !list.len().is_multiple_of(LEN) {
        return Some(19);
    }
    (!accepted(order, &extents(list))).then_some(21)
}

/// A list of n extents that is accepted; by size some overlap.
pub fn accepted_list(r: &mut Random, order: Order, n: usize) -> Vec<FreeExtent> {
    match order {
        Order::ByBlock => line(r, 0, n),
        Order::ByCount => {
            let mut list = BTreeSet::new();
            while list.len() < n {
                let start = r.below(3 * n as u64 + 10) as u32;
                list.insert((1 + r.below(9) as u32, start));
            }
            list.iter().map(|&(n, start)| extent(start, n)).collect()
        }
    }
}

/// Extents one after another from about `at`, touching or with gaps, as far as
/// they end in time.
fn line(r: &mut Random, mut at: u64, n: usize) -> Vec<FreeExtent> {
    let mut list = Vec::new();
    for _ in 0..n {
        at += if r.below(2) == 0 { 0 } else { r.below(4) };
        if at >= END {
            break;
        }
        let count = (1 + r.below(6)).min(END - at);
        list.push(extent(at as u32, count as u32));
        at += count;
    }
    list
}

/// Extents by block, from a low start or just below the last end.
fn some(r: &mut Random, most: u64) -> Vec<FreeExtent> {
    let base = match r.below(4) {
        0 => END - 1 - r.below(4 * most),
        _ => r.below(6),
    };
    let n = r.below(most) as usize;
    line(r, base, n)
}

/// One rule broken, or none after all.
fn hurt(r: &mut Random, list: &mut Vec<FreeExtent>) {
    if list.is_empty() {
        return;
    }
    let i = r.below(list.len() as u64) as usize;
    let x = list[i];
    match r.below(9) {
        0 => list[i].blockcount = 0,
        1 => list[i].blockcount += 1 + r.below(3) as u32,
        2 => list[i].startblock = x.startblock.wrapping_sub(1),
        3 => list[i].startblock += 1,
        4 => list[i].blockcount = u32::MAX - r.below(3) as u32,
        5 => list[i].startblock = r.next() as u32,
        // Up to the last end, or one past it.
        6 => list[i].blockcount = (END - u64::from(x.startblock).min(END) + r.below(2)) as u32,
        // Twice.
        7 => list.insert(i, x),
        _ => list.swap(i, 0),
    }
}

/// Both checks of a list.
fn one_list(list: &[u8], tally: &mut Tally) {
    type Check = fn(&[u8]) -> u32;
    let checks: [(&str, Check, Order); 2] = [
        ("check_by_block", library::check_by_block, Order::ByBlock),
        ("check_by_size", library::check_by_size, Order::ByCount),
    ];
    for (name, check, order) in checks {
        let (got, want) = (check(list), refused(order, list).map_or(0, u32::from));
        if got != want {
            let (got, want) = (got.to_string(), want.to_string());
            differ(name, "answer", &got, &want, &hex(list));
        }
        tally.add(name, got);
    }
}

/// Every list of up to so many of the extents.
fn all_lists(of: &[FreeExtent], most: usize) -> Vec<Vec<FreeExtent>> {
    let mut all = vec![vec![]];
    let mut last = all.clone();
    for _ in 0..most {
        let longer = |list: &Vec<FreeExtent>| -> Vec<Vec<FreeExtent>> {
            of.iter().map(|&x| [&list[..], &[x]].concat()).collect()
        };
        last = last.iter().flat_map(longer).collect();
        all.extend_from_slice(&last);
    }
    all
}

/// The extents of a small world, counts of 0 among them.
fn world(starts: u32, counts: u32) -> Vec<FreeExtent> {
    let of = |start| (0..=counts).map(move |n| extent(start, n));
    (0..starts).flat_map(of).collect()
}

pub fn lists(r: &mut Random, scale: u64, tally: &mut Tally) {
    // Low, and around the last end.
    let end = END as u32;
    let mut high = Vec::new();
    for start in [end - 2, end - 1, end, u32::MAX] {
        high.extend([0, 1, 2, 3, end, u32::MAX].map(|n| extent(start, n)));
    }
    for (world, most) in [(world(4, 3), 3), (high, 2)] {
        for list in all_lists(&world, most) {
            one_list(&bare::free_bytes(&list), tally);
        }
    }
    for _ in 0..100_000 * scale {
        let mut list = some(r, 9);
        if r.below(2) == 0 {
            list.sort_by_key(size);
        }
        if r.below(3) == 0 {
            hurt(r, &mut list);
        }
        let mut b = bare::free_bytes(&list);
        if r.below(4) == 0 && !b.is_empty() {
            let i = r.below(b.len() as u64) as usize;
            b[i] ^= 1 << r.below(8);
        }
        if r.below(50) == 0 {
            b.truncate(r.below(b.len() as u64 + 1) as usize);
        }
        one_list(&b, tally);
    }
    for call in ["check_by_block", "check_by_size"] {
        tally.met_all(call, &[0, 19, 21]);
    }
}

/// What is to be said of two lists: the first question that fails, or whether
/// both, sorted, are one and the same list.
pub fn due(by_block: &[u8], by_size: &[u8]) -> (u32, [u64; 4]) {
    let number = refused(Order::ByBlock, by_block).or_else(|| refused(Order::ByCount, by_size));
    if let Some(n) = number {
        return (n.into(), [0; 4]);
    }
    let sorted = |list: &[u8]| {
        let mut list = extents(list);
        list.sort_unstable();
        list
    };
    (0, [u64::from(sorted(by_block) == sorted(by_size)), 0, 0, 0])
}

const SAME: &str = "same_extents, of those done";
const REFUSED: &str = "same_extents, refused";

fn one_same(by_block: &[u8], by_size: &[u8], tally: &mut Tally) {
    let input = || format!("by block {} by size {}", hex(by_block), hex(by_size));
    let got = library::same_extents(by_block, by_size);
    let want = due(by_block, by_size);
    same("same_extents", &got, want, &input);
    tally.add("same_extents", got.number);
    match (got.number, refused(Order::ByBlock, by_block)) {
        (0, _) if got.figures[0] == 1 => tally.note(SAME, "the same"),
        (0, _) if by_block.len() == by_size.len() => tally.note(SAME, "not the same, as many"),
        (0, _) => tally.note(SAME, "not the same, more or fewer"),
        (19, Some(_)) => tally.note(REFUSED, "the list by block by 19"),
        (_, Some(_)) => tally.note(REFUSED, "the list by block by 21"),
        (19, None) => tally.note(REFUSED, "the list by size by 19"),
        (_, None) => tally.note(REFUSED, "the list by size by 21"),
    }
    // Over vectors.
    let free = kf::FreeSpace::new(by_block.to_vec(), by_size.to_vec());
    let said = match free.same_extents() {
        Ok(yes) => (0, [u64::from(yes), 0, 0, 0]),
        Err(refusal) => (refusal.number, [0; 4]),
    };
    if said != want {
        let (say, told) = (format!("{said:?}"), format!("{want:?}"));
        differ("FreeSpace::same_extents", "answer", &say, &told, &input());
    }
    tally.add("FreeSpace::same_extents", said.0);
}

/// Two lists of the same extents, mostly with something changed in one of them.
pub fn two_lists(r: &mut Random, most: u64) -> [Vec<u8>; 2] {
    let list = some(r, most);
    let mut two = [list.clone(), list];
    two[1].sort_by_key(size);
    let side = r.below(2) as usize;
    let changed = &mut two[side];
    match r.below(8) {
        // One less, or one more where there is a place for it.
        0 if !changed.is_empty() => {
            changed.remove(r.below(changed.len() as u64) as usize);
        }
        1 if side == 0 => {
            let end = changed.last().map_or(0, FreeExtent::end);
            let n = (END - end).min(1 + r.below(3));
            changed.push(extent(end as u32, n as u32));
        }
        // One over another: by block that is refused, by size not.
        1 | 2 if !changed.is_empty() => {
            let i = r.below(changed.len() as u64) as usize;
            let (x, n) = (changed[i], 1 + r.below(4) as u32);
            changed.push(extent(x.startblock, x.blockcount + n));
            changed.sort_by_key(if side == 0 { start } else { size });
        }
        3 | 4 => {
            hurt(r, changed);
            // In order again, so that not 21 but no is the answer.
            if r.below(2) == 0 {
                changed.sort_by_key(if side == 0 { start } else { size });
            }
        }
        // Something is wrong with both.
        5 if r.below(4) == 0 => two.iter_mut().for_each(|list| hurt(r, list)),
        _ => (),
    }
    let mut two = two.map(|list| bare::free_bytes(&list));
    for list in &mut two {
        if r.below(20) == 0 {
            list.truncate(r.below(list.len() as u64 + 1) as usize);
        }
    }
    two
}

pub fn sameness(r: &mut Random, scale: u64, tally: &mut Tally) {
    // Every list beside every other.
    for (world, most) in [(world(3, 2), 2), (world(2, 2)[1..].to_vec(), 3)] {
        let lists: Vec<Vec<u8>> = all_lists(&world, most)
            .iter()
            .map(|list| bare::free_bytes(list))
            .collect();
        for by_block in &lists {
            for by_size in &lists {
                one_same(by_block, by_size, tally);
            }
        }
    }
    for i in 0..100_000 * scale {
        let [by_block, by_size] = two_lists(r, if i % 100 == 0 { 400 } else { 9 });
        one_same(&by_block, &by_size, tally);
    }
    tally.met_all("same_extents", &[0, 19, 21]);
    tally.met_ways(SAME, 3);
    tally.met_ways(REFUSED, 4);
}

/// The free-space trees through all that the older ones go through.
pub fn trees(r: &mut Random, scale: u64, tally: &mut Tally) {
    let of = &Kind::FREE;
    blocks::blocks_of(r, of, 80_000 * scale, tally);
    blocks::each_as_each(r, 5_000 * scale, tally);
    trees::plans_of(r, of, 25_000 * scale, tally);
    trees::builds_of(r, of, 8_000 * scale, tally);
    trees::walks_of(r, of, 5_000 * scale, tally);
    trees::shared_children(r, of, 300 * scale, tally);
    trees::stacks(r, of, tally);
    links::links_of(r, of, 500 * scale, tally);
    for version in [4, 5] {
        links::tall_links(r, of, version, tally);
    }
    for _ in 0..3_000 * scale {
        vectors::build(r, of, tally);
        vectors::walk(r, of, tally);
    }
    for version in [4, 5] {
        tally.met_all_free("plan", version, &[0, 1, 16]);
        tally.met_all_free("build", version, &[0, 1, 17, 18, 19, 21]);
    }
    // On version 4 a block is asked 4, 9 and 10 alone, and 3 refuses none.
    let four = [0, 1, 4, 9, 10, 11, 12, 13, 14, 15];
    let five = [0, 1, 4, 5, 6, 7, 8, 9, 10, 11, 12, 13, 14, 15, 30];
    for call in ["walk", "walk_linked", "walk_textbook"] {
        tally.met_all_free(call, 4, &four);
        tally.met_all_free(call, 5, &five);
    }
    tally.met_both(trees::TEXTBOOK);
    tally.met_all_free("check_block", 4, &[0, 1, 2, 4, 9, 10]);
    tally.met_all_free("check_block", 5, &[0, 1, 2, 4, 5, 6, 7, 8, 9, 10, 30]);
}

//! Lists of records to try the calls on: around every boundary that a
//! question has.

use oracle::rmap::{Rmap, OFF_BMBT_BLOCK, OFF_UNWRITTEN};
use oracle::sample::Random;

pub const END: u64 = 1 << 31;
pub const FILE: u64 = 1 << 54;

/// The order of question 20.
pub fn key(r: &Rmap) -> (u32, u64, u64) {
    (r.startblock, r.owner as u64, r.offset & !OFF_UNWRITTEN)
}

/// Owners on both sides of 0 as signed, and at the ends.
pub const OWNERS: [i64; 8] = [7, 9, 7, 128, i64::MAX, -3, -1, i64::MIN];

fn flags(r: &mut Random) -> u64 {
    match r.below(12) {
        0..=5 => 0,
        6 => OFF_UNWRITTEN,
        7 => OFF_BMBT_BLOCK,
        8 => 1 << 63,
        9 => OFF_BMBT_BLOCK | OFF_UNWRITTEN,
        10 => 1 << (54 + r.below(10)),
        _ => r.next() & !(FILE - 1),
    }
}

/// A start near 0 or near the last end.
fn start(r: &mut Random, high: bool) -> u32 {
    if high {
        (END - 1 - r.below(24)) as u32
    } else {
        r.below(24) as u32
    }
}

fn count(r: &mut Random) -> u32 {
    1 + r.below(8) as u32
}

/// A record; its file offset mostly goes with its start, so that neighbours
/// continue one another.
pub fn rmap(r: &mut Random, high: bool) -> Rmap {
    let startblock = start(r, high);
    let mut blockcount = count(r);
    if u64::from(startblock) + u64::from(blockcount) > END && r.below(16) != 0 {
        blockcount = (END - u64::from(startblock)) as u32;
    }
    let file = match r.below(16) {
        0..=9 => u64::from(startblock % 64),
        10 | 11 => r.below(4),
        12 => FILE - 1 - r.below(9),
        13 => FILE - u64::from(blockcount),
        14 => FILE - u64::from(blockcount) - r.below(2),
        _ => r.below(FILE),
    };
    Rmap {
        startblock,
        blockcount: if r.below(300) == 0 { 0 } else { blockcount },
        owner: r.pick(&OWNERS),
        offset: (file % FILE) | flags(r),
    }
}

/// Does question 20's first part hold of it?
pub fn good(x: &Rmap) -> bool {
    oracle::paper::extent_good(x)
}

/// A list: mostly accepted, now and then with a bad record, out of order, or
/// not whole records.
pub fn rmaps(r: &mut Random) -> Vec<Rmap> {
    let n = r.below(9) as usize;
    let high = r.below(8) == 0;
    let mut list = Vec::new();
    while list.len() < n {
        let x = rmap(r, high);
        if good(&x) || r.below(200) == 0 {
            list.push(x);
            if r.below(10) == 0 {
                list.push(x);
            }
        }
    }
    // Chains: a record that continues the one before.
    if r.below(2) == 0 {
        for i in 1..list.len() {
            if r.below(2) == 0 {
                let p = list[i - 1];
                let end = u64::from(p.startblock) + u64::from(p.blockcount);
                let x = Rmap {
                    startblock: end as u32,
                    owner: p.owner,
                    offset: p.offset.wrapping_add(u64::from(p.blockcount)),
                    ..list[i]
                };
                if good(&x) {
                    list[i] = x;
                }
            }
        }
    }
    list.sort_by_key(key);
    if r.below(60) == 0 && list.len() > 1 {
        let i = r.below(list.len() as u64 - 1) as usize;
        list.swap(i, i + 1);
    }
    list
}

/// An extent for an edit of the list: any, or one that has to do with a
/// record of it.
pub fn extent(r: &mut Random, list: &[Rmap]) -> Rmap {
    if list.is_empty() || r.below(6) == 0 {
        let high = r.below(8) == 0;
        return rmap(r, high);
    }
    let w = list[r.below(list.len() as u64) as usize];
    let (start, end) = (
        u64::from(w.startblock),
        u64::from(w.startblock) + u64::from(w.blockcount),
    );
    let mut x = w;
    match r.below(8) {
        // a part of it
        0..=3 => {
            let a = start + r.below(u64::from(w.blockcount.max(1)));
            let e = a + 1 + r.below((end - a).max(1));
            x.startblock = a as u32;
            x.blockcount = (e - a) as u32;
            x.offset = w.offset.wrapping_add(a - start);
        }
        // behind it
        4 | 5 => {
            x.startblock = end as u32;
            x.blockcount = count(r);
            x.offset = w.offset.wrapping_add(u64::from(w.blockcount));
        }
        // before it
        6 => {
            let n = 1 + r.below(4);
            x.startblock = start.saturating_sub(n) as u32;
            x.blockcount = n as u32;
            x.offset = w.offset.wrapping_sub(n);
        }
        // between two: what lies after it up to the next
        _ => {
            x.startblock = end as u32;
            let next = list.iter().map(|r| u64::from(r.startblock));
            if let Some(n) = next.filter(|&n| n > end).min() {
                x.blockcount = (n - end) as u32;
            }
            x.offset = w.offset.wrapping_add(u64::from(w.blockcount));
        }
    }
    // Near misses.
    match r.below(24) {
        0 => x.owner = r.pick(&OWNERS),
        1 => x.offset ^= 1 << (54 + r.below(10)),
        2 => x.offset = x.offset.wrapping_add(1),
        3 => x.blockcount = x.blockcount.wrapping_add(1),
        4 => x.startblock = x.startblock.wrapping_sub(1),
        5 => x.offset = (x.offset & !(FILE - 1)) | (FILE - u64::from(x.blockcount) - r.below(2)),
        6 => x.blockcount = 0,
        7 => x.blockcount = (END - u64::from(x.startblock).min(END)) as u32 + r.below(2) as u32,
        _ => (),
    }
    x
}

/// A shared count as stored: bit 31 of the start marks staging.
#[derive(Debug, Clone, Copy, PartialEq, Eq)]
pub struct Count {
    pub start: u32,
    pub count: u32,
    pub owners: u32,
}

pub const STAGING: u32 = 1 << 31;

pub fn count_bytes(list: &[Count]) -> Vec<u8> {
    let mut out = Vec::with_capacity(list.len() * 12);
    for c in list {
        out.extend(c.start.to_be_bytes());
        out.extend(c.count.to_be_bytes());
        out.extend(c.owners.to_be_bytes());
    }
    out
}

/// The counts of whole records.
pub fn count_list(bytes: &[u8]) -> Vec<Count> {
    let word = |b: &[u8]| u32::from_be_bytes([b[0], b[1], b[2], b[3]]);
    bytes
        .chunks_exact(12)
        .map(|c| Count {
            start: word(c),
            count: word(&c[4..]),
            owners: word(&c[8..]),
        })
        .collect()
}

/// Records one after another from about `at`, touching or with gaps.
pub fn line(r: &mut Random, at: u64, n: u64, staging: bool) -> Vec<Count> {
    let mut list = Vec::new();
    let mut at = at;
    for _ in 0..n {
        at += if r.below(2) == 0 { 0 } else { r.below(4) };
        let mut count = 1 + r.below(6);
        if at >= END {
            break;
        }
        if at + count > END && r.below(20) != 0 {
            count = END - at;
        }
        list.push(Count {
            start: at as u32 | if staging { STAGING } else { 0 },
            count: count as u32,
            owners: if staging {
                1
            } else {
                r.pick(&[2, 2, 3, 3, 3, 4, u32::MAX])
            },
        });
        at += count;
    }
    list
}

/// Counts: mostly accepted, now and then with one rule broken.
pub fn counts(r: &mut Random) -> Vec<Count> {
    let base = if r.below(8) == 0 {
        END - 1 - r.below(30)
    } else {
        r.below(6)
    };
    let n = r.below(8);
    let mut list = line(r, base, n, false);
    if r.below(2) == 0 {
        let n = r.below(4);
        let base = if r.below(3) == 0 {
            base
        } else {
            base + r.below(40)
        };
        let more = line(r, base, n, true);
        list.extend(more);
    }
    if !list.is_empty() && r.below(24) == 0 {
        break_rule(r, &mut list);
    }
    list
}

/// Of a list that is not empty one record changed, mostly so that 21 fails.
pub fn break_rule(r: &mut Random, list: &mut [Count]) {
    let i = r.below(list.len() as u64) as usize;
    match r.below(8) {
        0 => list[i].count = 0,
        1 => list[i].owners = r.below(2) as u32,
        2 => list[i].owners = 2,
        3 => list[i].start ^= STAGING,
        4 => list[i].count += 1 + r.below(3) as u32,
        5 => list.swap(i, 0),
        6 => list[i].count = u32::MAX - r.below(3) as u32,
        _ => list[i].start = r.next() as u32,
    }
}

/// Start and count of a release.
pub fn run(r: &mut Random, list: &[Count]) -> (u32, u32) {
    if list.is_empty() || r.below(6) == 0 {
        return match r.below(4) {
            0 => ((END - 1 - r.below(6)) as u32, 1 + r.below(8) as u32),
            1 => (r.next() as u32, r.next() as u32),
            _ => (r.below(40) as u32, r.below(20) as u32),
        };
    }
    let w = list[r.below(list.len() as u64) as usize];
    let at = u64::from(w.start & !STAGING);
    let start = match r.below(4) {
        0 => at,
        1 => at + r.below(u64::from(w.count.max(1))),
        2 => (at + u64::from(w.count)) & 0xFFFF_FFFF,
        _ => at.saturating_sub(r.below(5)),
    };
    let count = match r.below(6) {
        0 => u64::from(w.count),
        1 => 1,
        2 => r.below(40),
        3 => END.saturating_sub(start) + r.below(2),
        _ => 1 + r.below(10),
    };
    (start as u32, count as u32)
}

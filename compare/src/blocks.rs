//! CRC32C, and the check of single blocks.

use crate::edits::{expect, same};
use crate::kinds::{self, header_len, Kind};
use crate::lent::hex;
use crate::library;
use crate::links;
use crate::sequence;
use crate::tally::{differ, Tally};
use oracle::ag_btree::reach::stamp;
use oracle::sample::Random;
use oracle::{bare, Geometry};

type Form = fn(&[u8]) -> u32;

/// Both forms on the same bytes, beside the original's.
fn forms(b: &[u8], tally: &mut Tally) {
    let want = crc32c::crc32c(b);
    let forms: [(&str, Form); 2] = [
        ("crc32c", library::crc32c),
        ("crc32c_singly", library::crc32c_singly),
    ];
    for (name, form) in forms {
        let got = form(b);
        if got != want {
            differ(name, "answer", &got.to_string(), &want.to_string(), &hex(b));
        }
        tally.add(name, 0);
    }
}

pub fn crcs(r: &mut Random, scale: u64, tally: &mut Tally) {
    for i in 0..20_000 * scale {
        let n = if i < 600 { i } else { r.below(600) };
        let mut b = r.bytes(n as usize);
        match r.below(4) {
            0 => b.fill(0),
            1 => b.fill(0xFF),
            _ => (),
        }
        forms(&b, tally);
    }
    // Every short length, wherever the bytes begin in a word of memory.
    let all = r.bytes(8 + 8 + 300);
    let word = (8 - all.as_ptr() as usize % 8) % 8;
    for from in 0..8 {
        for n in 0..=300 {
            forms(&all[word + from..][..n], tally);
        }
    }
    for _ in 0..200 * scale {
        let n = r.below(1 << 18) as usize;
        let from = r.below(8) as usize;
        forms(&r.bytes(from + n)[from..], tally);
    }
}

/// A geometry; `bad` in some of the ways that question 1 refuses.
pub fn geometry(r: &mut Random, bad: bool) -> Geometry {
    let mut g = Geometry {
        version: 5,
        block_size: r.pick(&[512, 512, 512, 512, 1024, 1024, 2048, 4096]),
        agblocks: r.pick(&[0, 1, 64, 65, 100, 1000, 1 << 20, u32::MAX]),
        agno: r.pick(&[0, 1, 2, 3, 77]),
        meta_uuid: r.bytes(16).try_into().expect("16 bytes"),
    };
    if r.below(12) == 0 {
        g.version = 4;
    }
    // The largest group of a volume that 64 bits address.
    if r.below(12) == 0 {
        g.agblocks = u32::MAX - r.below(2) as u32;
        let most = ((1u128 << 64) / u128::from(g.block_size) - (1 << 32)) / u128::from(g.agblocks);
        g.agno = u32::try_from(most).unwrap_or(u32::MAX);
        if r.below(2) == 0 {
            g.agno = g.agno.saturating_add(1);
        }
    }
    if bad {
        match r.below(4) {
            0 => g.version = r.pick(&[0, 3, 6, 20, 21, 0x0105, 65535]),
            1 => g.block_size = r.pick(&[0, 1, 256, 511, 513, 536, 1000, 131_072, 1 << 31]),
            2 => (g.agblocks, g.agno) = (u32::MAX, u32::MAX),
            _ => {
                g.block_size = 65536;
                g.agblocks = u32::MAX;
                g.agno = 65534 + r.below(4) as u32;
            }
        }
    }
    g
}

/// Put the check into a block; on version 4 it has none.
pub fn seal(g: &Geometry, b: &mut [u8]) {
    if g.version == 5 && b.len() >= 56 {
        let crc = bare::block_crc(b);
        b[52..56].copy_from_slice(&crc.to_le_bytes());
    }
}

/// The checks that are noted by the siblings handed back.
const SIBLINGS: &str = "check_block, of those done";

fn one(g: &Geometry, kind: Kind, block: u32, level: u16, b: &[u8], tally: &mut Tally) {
    one_at(g, sequence::last_lsn(g), kind, block, level, b, tally);
}

/// A block check under a last sequence number; its answer.
pub fn one_at(
    g: &Geometry,
    last: u64,
    kind: Kind,
    block: u32,
    level: u16,
    b: &[u8],
    tally: &mut Tally,
) -> u32 {
    let input = || {
        format!(
            "{g:?} last {last} {kind:?} block {block} level {level} bytes {}",
            hex(b)
        )
    };
    let want = sequence::parse_block(g, last, kind, b, block, level);
    // Any number above 3 is the counts.
    let number = match kind {
        Kind::REFCOUNT if block & 1 == 1 => u32::MAX,
        _ => kind.number(),
    };
    let got = library::check_block(&library::g(g).at(last), number, block, level, b);
    let due = expect(&want, |h| header_figures(h, b));
    same("check_block", &got, due, &input);
    tally.add_tree("check_block", kind, g, got.number);
    if got.number == 0 {
        let how = match links::named(b) {
            [links::NONE, links::NONE] => "no sibling named",
            _ => "siblings named",
        };
        tally.note(SIBLINGS, how);
    }
    got.number
}

/// The figures of a good block. The original hands no siblings back: they are
/// those that the bytes have.
pub fn header_figures(h: &bare::Header, b: &[u8]) -> [u64; 4] {
    let [left, right] = links::named(b);
    [
        u64::from(h.records),
        h.capacity as u64,
        u64::from(left),
        u64::from(right),
    ]
}

/// A block with its number and level: stamped, then mostly damaged. It has
/// `len` bytes, or a few.
pub fn block(r: &mut Random, g: &Geometry, kind: Kind, len: usize) -> (u32, u16, Vec<u8>) {
    let block = r.pick(&[0, 1, 2, 77, u32::MAX, u32::MAX - 1]);
    let level = r.pick(&[0, 0, 1, 1, 2, 8, 9, 65535]);
    let len = match r.below(12) {
        0 => r.below(70) as usize,
        1 => 56 + r.below(60) as usize,
        2 => len + 1,
        _ => len,
    };
    let place = if level == 0 {
        kind.record_len()
    } else {
        kind.entry_len()
    };
    let capacity = len.saturating_sub(header_len(g)) / place;
    let mut b = r.bytes(1).repeat(len);
    let records = match r.below(6) {
        0 => capacity,
        1 => capacity + 1,
        2 => 65535,
        _ => r.below(capacity as u64 + 1) as usize,
    };
    // An older tree, which version 4 does not have, is stamped as on version 5.
    let shape = kind.shape();
    let (version, magic) = match (g.version, shape.magic_v4) {
        (4, Some(magic)) => (4, magic),
        _ => (5, shape.magic_v5),
    };
    let stamped = Geometry { version, ..*g };
    if len >= header_len(&stamped) {
        let at = stamped.superblock();
        let n = records.min(65535) as u16;
        stamp(&mut b, &at, shape, g.agno, block, level, n);
        // Siblings of any number.
        if r.below(2) == 0 {
            b[8..16].copy_from_slice(&r.bytes(8));
        }
        sequence::not_newer(&stamped, &mut b);
        seal(&stamped, &mut b);
    } else if len >= 8 {
        b[..4].copy_from_slice(&magic.to_be_bytes());
        b[4..6].copy_from_slice(&level.to_be_bytes());
    }
    // Damage: anywhere, or a field, with the check put right again.
    match r.below(8) {
        0 if len > 0 => {
            let at = r.below(len as u64) as usize;
            b[at] ^= 1 << r.below(8);
        }
        1..=5 if len > 0 => {
            let at = r.below(header_len(&stamped).min(len) as u64) as usize;
            b[at] = r.next() as u8;
            seal(&stamped, &mut b);
        }
        _ => (),
    }
    (block, level, b)
}

pub fn blocks(r: &mut Random, scale: u64, tally: &mut Tally) {
    blocks_of(r, &Kind::OLDER, 150_000 * scale, tally);
}

pub fn blocks_of(r: &mut Random, of: &[Kind], times: u64, tally: &mut Tally) {
    for i in 0..times {
        let bad = r.below(40) == 0;
        let mut g = geometry(r, bad);
        let kind = r.pick(of);
        kinds::some_version(r, kind, &mut g);
        let len = match g.block_size {
            n if n > 4096 || i % 100 == 0 => 65536,
            n => n as usize,
        };
        let (block, level, b) = block(r, &g, kind, len);
        one(&g, kind, block, level, &b, tally);
        if r.below(10) == 0 {
            let other = r.pick(of);
            one(&g, other, block ^ 1, level ^ 1, &b, tally);
        }
    }
    tally.met_both(SIBLINGS);
}

/// Blocks of every kind, read as each kind on each version.
pub fn each_as_each(r: &mut Random, times: u64, tally: &mut Tally) {
    for _ in 0..times {
        let mut g = geometry(r, false);
        let kind = r.pick(&Kind::ALL);
        kinds::some_version(r, kind, &mut g);
        let (block, level, b) = block(r, &g, kind, 512);
        for version in [4, 5] {
            for other in Kind::ALL {
                one(&Geometry { version, ..g }, other, block, level, &b, tally);
            }
        }
    }
}

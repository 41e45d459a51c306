//! Sheets as the layout has them, there and back; each refusal; and changes made
//! as the calls make them.

use super::*;
use crate::group::tests::Random;
use crate::{crc32c, read_sheet, write_sheet};
use alloc::collections::BTreeSet;
use alloc::format;
use alloc::string::{String, ToString};

/// Any change: its record is not asked about.
fn any(random: &mut Random) -> Change {
    let x = Rmap {
        startblock: random.below(1 << 32) as u32,
        blockcount: random.below(1 << 32) as u32,
        owner: (random.below(1 << 40) << 24 | random.below(1 << 24)) as i64,
        offset: random.below(1 << 40) << 24 | random.below(1 << 24),
    };
    match random.below(3) {
        0 => Change::First(x),
        1 => Change::LetGo(x),
        _ => Change::Held(x),
    }
}

fn some(random: &mut Random, n: usize) -> Vec<Change> {
    (0..n).map(|_| any(random)).collect()
}

/// The CRC of a block put right.
fn stamp(block: &mut [u8]) {
    let crc = crc32c(&block[4..SHEET_BLOCK]);
    block[..4].copy_from_slice(&crc.to_le_bytes());
}

/// The sheet of a list as the layout says, written here.
fn laid_out(changes: &[Change]) -> Vec<u8> {
    let mut sheet = Vec::new();
    let parts = changes.chunks(SHEET_BLOCK_CHANGES);
    let last = parts.len() - 1;
    for (place, part) in parts.enumerate() {
        let mut block = [0; SHEET_BLOCK];
        block[4..8].copy_from_slice(&(place as u32).to_be_bytes());
        block[8..10].copy_from_slice(&(part.len() as u16).to_be_bytes());
        block[10] = u8::from(place == last);
        for (i, change) in part.iter().enumerate() {
            block[32 + 32 * i..][..32].copy_from_slice(&change.to_bytes());
        }
        stamp(&mut block);
        sheet.extend(block);
    }
    sheet
}

fn number<T>(read: Result<T, Refusal>) -> u32 {
    read.map_or_else(|refusal| refusal.number, |_| 0)
}

#[test]
fn fields() {
    let bytes: Vec<u8> = (0..CHANGE as u8).collect();
    let mut bytes: [u8; CHANGE] = field(&bytes, 0);
    bytes[..8].copy_from_slice(&[0, 0, 0, 1, 0, 0, 0, 0]);
    let x = Rmap {
        startblock: 0x0809_0A0B,
        blockcount: 0x0C0D_0E0F,
        owner: 0x1011_1213_1415_1617,
        offset: 0x1819_1A1B_1C1D_1E1F,
    };
    let kinds = [Change::First(x), Change::LetGo(x), Change::Held(x)];
    for (kind, change) in (1..).zip(kinds) {
        bytes[3] = kind;
        assert_eq!(Change::from_bytes(&bytes), Some(change));
        assert_eq!(change.to_bytes(), bytes);
        assert_eq!((change.kind(), change.extent()), (kind.into(), &x));
    }
}

/// Each byte of a change at each of its values: what is a change comes back, and
/// what is none is refused by the library too.
#[test]
fn every_byte() {
    let mut sheet = [0; SHEET_BLOCK];
    for kind in 1..=3 {
        for at in 0..CHANGE {
            for value in 0..=255 {
                let mut bytes = [0x5A; CHANGE];
                bytes[..8].copy_from_slice(&[0, 0, 0, kind, 0, 0, 0, 0]);
                bytes[at] = value;
                let due = match Change::from_bytes(&bytes) {
                    Some(change) => {
                        assert_eq!(change.to_bytes(), bytes);
                        0
                    }
                    None => 33,
                };
                assert_eq!(number(write_sheet(&bytes, &mut sheet)), due, "{bytes:?}");
            }
        }
    }
}

#[test]
fn words() {
    let x = Rmap {
        startblock: 40,
        blockcount: 8,
        owner: 131,
        offset: 0,
    };
    let said = |x| Change::First(x).to_string();
    assert_eq!(said(x), "inode 131 takes blocks 40 to 47");
    let of = |offset| said(Rmap { offset, ..x });
    assert_eq!(of(9), "inode 131 takes blocks 40 to 47 at file offset 9");
    for (bit, flag) in [
        (54, "other flags"),
        (60, "other flags"),
        (61, "unwritten"),
        (62, "extent map"),
        (63, "attribute fork"),
    ] {
        assert_eq!(of(1 << bit), format!("{} ({flag})", said(x)));
    }
    // Numbers that no accepted list has.
    let most = Change::LetGo(Rmap::from_bytes(&[0xFF; 24]));
    assert_eq!(
        most.to_string(),
        "reserved owner -1 lets go of blocks 4294967295 to 8589934589 \
         at file offset 18014398509481983 (attribute fork, extent map, unwritten, other flags)"
    );
    let none = Rmap { blockcount: 0, ..x };
    assert_eq!(
        Change::Held(none).to_string(),
        "inode 131 takes held 0 blocks from 40"
    );
}

/// There and back, around every bound of a block.
#[test]
fn there_and_back() {
    let mut random = Random(1);
    for n in [1, 2, 14, 15, 16, 29, 30, 31, 45, 46, 150, 151] {
        for _ in 0..10 {
            let changes = some(&mut random, n);
            let sheet = Sheet::write(&changes).unwrap();
            assert_eq!(sheet, laid_out(&changes), "{n} changes");
            assert_eq!(Sheet::read(&sheet), Ok(changes));
        }
    }
}

/// What is lent is what is needed: one byte less is refused, and left as it was.
#[test]
fn room() {
    let mut random = Random(2);
    for n in [1, 14, 15, 16, 30, 31] {
        let changes = some(&mut random, n);
        let list: Vec<u8> = changes.iter().flat_map(Change::to_bytes).collect();
        let sheet = laid_out(&changes);
        let mut short = vec![7; sheet.len() - 1];
        assert_eq!(number(write_sheet(&list, &mut short)), 26);
        assert_eq!(short, vec![7; sheet.len() - 1]);
        let mut long = vec![7; sheet.len() + 1];
        assert_eq!(write_sheet(&list, &mut long), Ok(sheet.len()));
        assert_eq!((&long[..sheet.len()], long[sheet.len()]), (&sheet[..], 7));
        let mut short = vec![7; list.len() - 1];
        assert_eq!(number(read_sheet(&sheet, &mut short)), 26);
        assert_eq!(short, vec![7; list.len() - 1]);
        let mut long = vec![7; list.len() + 1];
        assert_eq!(read_sheet(&sheet, &mut long), Ok(list.len()));
        assert_eq!((&long[..list.len()], long[list.len()]), (&list[..], 7));
    }
}

/// Damage that no CRC was made for: 32, wherever it is.
#[test]
fn damaged() {
    let sheet = laid_out(&some(&mut Random(3), 31));
    for at in 0..sheet.len() {
        let mut damaged = sheet.clone();
        damaged[at] ^= 1 << (at % 8);
        assert_eq!(number(Sheet::read(&damaged)), 32, "byte {at}");
    }
    for len in 0..sheet.len() {
        let due = match (len, len % SHEET_BLOCK) {
            // No block, or whole ones of which none is the last.
            (0, _) | (_, 0) => 33,
            _ => 32,
        };
        assert_eq!(number(Sheet::read(&sheet[..len])), due, "{len} bytes");
    }
    let longer = [&sheet[..], &[0]].concat();
    assert_eq!(number(Sheet::read(&longer)), 32);
    assert_eq!(number(Sheet::read(&[0; SHEET_BLOCK])), 32);
}

/// Each rule broken, with a right CRC.
#[test]
fn rules() {
    // Three blocks, the last with one change.
    let sheet = laid_out(&some(&mut Random(4), 31));
    let altered = |place: usize, at: usize, value: u8| {
        let mut sheet = sheet.clone();
        let block = &mut sheet[place * SHEET_BLOCK..][..SHEET_BLOCK];
        assert_ne!(block[at], value, "block {place}, byte {at}");
        block[at] = value;
        stamp(block);
        sheet
    };
    let mut breaks = vec![
        // The place.
        (0, 7, 1),
        (1, 7, 0),
        (1, 4, 1),
        (2, 5, 1),
        // The number of changes: too few and too many, and short in the middle.
        (0, 9, 0),
        (0, 9, 14),
        (0, 9, 16),
        (0, 8, 1),
        (2, 9, 0),
        (2, 9, 2),
        // The mark of the last block.
        (0, 10, 1),
        (1, 10, 1),
        (2, 10, 0),
        (2, 10, 2),
        // The kind, and zeros behind it.
        (0, 32, 1),
        (0, 35, 0),
        (1, 35 + 14 * 32, 4),
        (2, 35, 0),
        (2, 36, 1),
        (1, 39 + 7 * 32, 1),
        // An unused change.
        (2, 64, 1),
        (2, 67, 1),
        (2, 511, 1),
    ];
    breaks.extend((11..32).map(|at| (at % 3, at, 1)));
    for (place, at, value) in breaks {
        let broken = altered(place, at, value);
        assert_eq!(number(Sheet::read(&broken)), 33, "block {place}, byte {at}");
        // A wrong CRC in any block is told before.
        for other in 0..3 {
            let mut both = broken.clone();
            both[other * SHEET_BLOCK + 200] ^= 1;
            assert_eq!(number(Sheet::read(&both)), 32);
        }
    }
    // The record is not asked about.
    for at in 40..64 {
        let other = altered(2, at, sheet[2 * SHEET_BLOCK + at] ^ 1);
        assert_eq!(number(Sheet::read(&other)), 0, "byte {at}");
    }
    // Blocks exchanged, left out and repeated.
    let block = |i: usize| &sheet[i * SHEET_BLOCK..][..SHEET_BLOCK];
    for blocks in [
        &[1, 0, 2][..],
        &[0, 2],
        &[1, 2],
        &[0, 1, 1, 2],
        &[0, 1, 2, 2],
    ] {
        let other: Vec<u8> = blocks.iter().flat_map(|&i| block(i)).copied().collect();
        assert_eq!(number(Sheet::read(&other)), 33, "{blocks:?}");
    }
}

/// As many changes as a sheet holds, and one more.
#[test]
fn most_blocks() {
    let change = Change::First(Rmap {
        startblock: 4,
        blockcount: 2,
        owner: 131,
        offset: 0,
    });
    let mut changes = vec![change; SHEET_BLOCKS * SHEET_BLOCK_CHANGES];
    let mut sheet = Sheet::write(&changes).unwrap();
    assert_eq!(sheet.len(), SHEET_BLOCKS * SHEET_BLOCK);
    assert_eq!(Sheet::read(&sheet).as_ref(), Ok(&changes));
    changes.push(change);
    assert_eq!(number(Sheet::write(&changes)), 33);
    // A block more: refused by 33, unless a CRC is wrong.
    let at = sheet.len() - SHEET_BLOCK;
    sheet[at + 10] = 0;
    stamp(&mut sheet[at..]);
    let mut block = [0; SHEET_BLOCK];
    block[4..11].copy_from_slice(&[0, 1, 0, 0, 0, 1, 1]);
    block[32..64].copy_from_slice(&change.to_bytes());
    stamp(&mut block);
    sheet.extend(block);
    assert_eq!(number(Sheet::read(&sheet)), 33);
    *sheet.last_mut().unwrap() = 1;
    assert_eq!(number(Sheet::read(&sheet)), 32);
}

/// Bytes of every kind, with right CRCs, near a sheet and far from one: what is
/// read is what the writer writes.
#[test]
fn hostile_bytes() {
    let mut random = Random(5);
    let mut answers = BTreeSet::new();
    for round in 0..3000 {
        let n = 1 + random.below(33) as usize;
        let mut sheet = match round % 3 {
            0 => {
                let len = random.below(1600) as usize;
                (0..len).map(|_| random.below(256) as u8).collect()
            }
            _ => laid_out(&some(&mut random, n)),
        };
        for _ in 0..random.below(3) {
            if !sheet.is_empty() {
                // Often in the header or in the first change.
                let at = random.below(sheet.len() as u64) as usize;
                let at = if random.below(2) == 0 { at } else { at % 48 };
                sheet[at] = [0, 1, 2, 15, 16, 255][random.below(6) as usize];
            }
        }
        if random.below(8) != 0 {
            sheet.chunks_exact_mut(SHEET_BLOCK).for_each(stamp);
        }
        let read = Sheet::read(&sheet);
        answers.insert(number(read.clone()));
        if let Ok(changes) = read {
            assert_eq!(Sheet::write(&changes), Ok(sheet));
            // They are made, whatever they ask for.
            let mut group = Group::default();
            assert_eq!(group.apply(&changes).len(), changes.len());
        }
    }
    assert_eq!(answers, BTreeSet::from([0, 32, 33]));
}

/// The same by the calls themselves.
fn by_calls(group: &mut Group, changes: &[Change]) -> Vec<Applied> {
    let refused = Applied::Refused;
    changes
        .iter()
        .map(|change| match change.kind() {
            1 => group
                .take(change.extent())
                .map_or_else(refused, |()| Applied::Taken),
            2 => group
                .let_go(change.extent())
                .map_or_else(refused, Applied::LetGo),
            3 => group
                .take_held(change.extent())
                .map_or_else(refused, |()| Applied::Taken),
            kind => panic!("kind {kind}"),
        })
        .collect()
}

/// Histories on few blocks, so that all is met: what came of each change, the
/// group after it, and nothing changed by one that was refused.
#[test]
fn applied_as_by_the_calls() {
    let mut random = Random(6);
    let mut answers = BTreeSet::new();
    let (mut freed, mut kept) = (0, 0);
    for _ in 0..200 {
        let mut changes = Vec::new();
        for _ in 0..40 {
            let startblock = random.below(24) as u32;
            let x = Rmap {
                startblock,
                blockcount: random.below(6) as u32,
                owner: [-5, 7, 8, 9][random.below(4) as usize],
                offset: u64::from(startblock),
            };
            // What goes is often what was taken.
            let again = random.below(1 + changes.len() as u64) as usize;
            let taken = changes.get(again).map_or(x, |c: &Change| *c.extent());
            changes.push(match random.below(6) {
                0 | 1 => Change::First(x),
                2 | 3 => Change::Held(x),
                4 => Change::LetGo(x),
                _ => Change::LetGo(taken),
            });
        }
        let (mut group, mut other, mut one) = Default::default();
        let applied = Group::apply(&mut group, &changes);
        assert_eq!(applied, by_calls(&mut other, &changes));
        assert_eq!(group, other);
        for (change, due) in changes.iter().zip(&applied) {
            let before = Group::clone(&one);
            assert_eq!(one.make(change), *due);
            match due {
                Applied::Refused(refusal) => {
                    answers.insert(refusal.number);
                    assert_eq!(due.refusal(), Some(refusal));
                    assert_eq!(one, before);
                }
                Applied::LetGo(free) if free.is_empty() => kept += 1,
                Applied::LetGo(free) => {
                    freed += 1;
                    assert_eq!(due.free(), free);
                }
                Applied::Taken => assert_eq!((due.refusal(), due.free()), (None, &[][..])),
            }
        }
        assert_eq!(one, group);
        // The same from a sheet.
        let read = Sheet::read(&Sheet::write(&changes).unwrap()).unwrap();
        let mut group = Group::default();
        assert_eq!(group.apply(&read), applied);
    }
    assert_eq!(answers, BTreeSet::from([22, 23, 24, 27]));
    assert!(freed > 100 && kept > 10, "{freed} {kept}");
}

/// A list that is not accepted refuses every change, and stays.
#[test]
fn on_a_broken_list() {
    let mut random = Random(7);
    let changes = some(&mut random, 31);
    let mut group = Group::new(vec![0; 25], vec![]);
    let applied = group.apply(&changes);
    for (applied, change) in applied.iter().zip(&changes) {
        assert_eq!(applied.refusal().map(|r| r.number), Some(19), "{change}");
    }
    assert_eq!(group.map, [0; 25]);
}

#[test]
fn outcomes_in_words() {
    let x = Change::First(Rmap {
        startblock: 40,
        blockcount: 8,
        owner: 131,
        offset: 0,
    });
    let clone = Rmap {
        startblock: 43,
        blockcount: 2,
        owner: 132,
        offset: 0,
    };
    let gone = Change::LetGo(*x.extent());
    let changes = [x, x, Change::Held(clone), gone, gone, Change::LetGo(clone)];
    let mut group = Group::default();
    let said: Vec<String> = group
        .apply(&changes)
        .iter()
        .map(Applied::to_string)
        .collect();
    assert_eq!(
        said,
        [
            "taken",
            "refused: a held block or a clashing record is in the way of the take (23)",
            "taken",
            "let go; free again: blocks 40 to 42, blocks 45 to 47",
            "refused: no record of the extent's owner and flags contains it (24)",
            "let go; free again: blocks 43 to 44",
        ]
    );
}

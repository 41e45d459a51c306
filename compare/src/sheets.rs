//! Sheets of changes. The original has none: both calls are held against the
//! request's words over the bytes, with the original's CRC32C. What was written is
//! read back and what was read is written anew, and no two sheets that are read have
//! the same changes. The layer over vectors is held against the same reference.

use crate::edits::{bytes, same};
use crate::histories::{self, history};
use crate::lent::{hex, Lent};
use crate::library::{self, Said};
use crate::lists;
use crate::tally::{differ, Tally};
use crate::textbook;
use crate::vectors::extent;
use kf::{Change, Sheet};
use oracle::bare;
use oracle::rmap::Rmap;
use oracle::sample::Random;
use std::collections::HashMap;

/// The bytes of a block.
pub const BLOCK: usize = 512;
/// The bytes of a change, on a sheet and in a list.
pub const CHANGE: usize = 32;
/// The bytes of a block before its changes.
const HEADER: usize = 32;
/// The changes that a block has room for.
pub const IN_BLOCK: usize = 15;
const MOST_BLOCKS: usize = 65_536;
/// As many as these blocks have room for.
const MOST_CHANGES: usize = 983_040;

/// A refusal that is not for room: its number, and what it is for.
#[derive(Debug, Clone, Copy, PartialEq, Eq)]
pub struct Refused {
    pub number: u32,
    pub why: &'static str,
}

/// A big-endian number.
fn number(b: &[u8]) -> u64 {
    b.iter().fold(0, |n, &x| n << 8 | u64::from(x))
}

fn zero(b: &[u8]) -> bool {
    b.iter().all(|&x| x == 0)
}

/// The CRC that a block is to have, as stored.
fn crc(block: &[u8]) -> [u8; 4] {
    crc32c::crc32c(&block[4..]).to_le_bytes()
}

/// The rule that a change breaks.
fn of_change(change: &[u8]) -> Option<&'static str> {
    match number(&change[..4]) {
        1..=3 if zero(&change[4..8]) => None,
        1..=3 => Some("zeros of a change"),
        _ => Some("kind"),
    }
}

/// The rule other than its CRC that a block breaks, at a place among so many.
fn of_block(b: &[u8], place: usize, blocks: usize) -> Option<&'static str> {
    let last = place + 1 == blocks;
    let changes = number(&b[8..10]) as usize;
    if number(&b[4..8]) != place as u64 {
        return Some("place");
    }
    match changes {
        0 => return Some("no change in a block"),
        1..IN_BLOCK if !last => return Some("a short block before the last"),
        1..=IN_BLOCK => (),
        _ => return Some("more than 15 changes in a block"),
    }
    match (b[10], last) {
        (0, false) | (1, true) => (),
        (0, true) => return Some("no mark in the last block"),
        (1, false) => return Some("the mark before the last block"),
        _ => return Some("a mark above 1"),
    }
    if !zero(&b[11..HEADER]) {
        return Some("zeros of the header");
    }
    let (used, unused) = b[HEADER..].split_at(changes * CHANGE);
    let broken = used.chunks_exact(CHANGE).find_map(of_change);
    broken.or((!zero(unused)).then_some("an unused change"))
}

/// The changes of a sheet.
pub fn read(sheet: &[u8]) -> Result<Vec<u8>, Refused> {
    let refused = |number, why| Err(Refused { number, why });
    if !sheet.len().is_multiple_of(BLOCK) {
        return refused(32, "the length");
    }
    let blocks: Vec<&[u8]> = sheet.chunks(BLOCK).collect();
    let of = |(place, b): (usize, &&[u8])| of_block(b, place, blocks.len());
    let broken = || blocks.iter().enumerate().position(|x| of(x).is_some());
    if let Some(bad) = blocks.iter().position(|b| b[..4] != crc(b)) {
        let why = match broken() {
            None => "the CRC alone",
            Some(place) if place < bad => "the CRC, another rule broken in an earlier block",
            Some(place) if place == bad => "the CRC, another rule broken in the same block",
            Some(_) => "the CRC, another rule broken in a later block",
        };
        return refused(32, why);
    }
    match blocks.len() {
        0 => return refused(33, "no block"),
        1..=MOST_BLOCKS => (),
        _ => return refused(33, "more than 65,536 blocks"),
    }
    if let Some(why) = blocks.iter().enumerate().find_map(of) {
        return refused(33, why);
    }
    let used = |b: &&[u8]| b[HEADER..][..number(&b[8..10]) as usize * CHANGE].to_vec();
    Ok(blocks.iter().flat_map(used).collect())
}

/// The sheet of a list of changes.
pub fn write(changes: &[u8]) -> Result<Vec<u8>, Refused> {
    let refused = |why| Err(Refused { number: 33, why });
    if changes.is_empty() {
        return refused("no change");
    }
    if !changes.len().is_multiple_of(CHANGE) {
        return refused("the length");
    }
    if changes.len() / CHANGE > MOST_CHANGES {
        return refused("more than 983,040 changes");
    }
    if let Some(why) = changes.chunks(CHANGE).find_map(of_change) {
        return refused(why);
    }
    let parts: Vec<&[u8]> = changes.chunks(IN_BLOCK * CHANGE).collect();
    let mut sheet = Vec::new();
    for (place, part) in parts.iter().enumerate() {
        let mut b = vec![0; 4];
        b.extend((place as u32).to_be_bytes());
        b.extend(((part.len() / CHANGE) as u16).to_be_bytes());
        b.push(u8::from(place + 1 == parts.len()));
        b.resize(HEADER, 0);
        b.extend(*part);
        b.resize(BLOCK, 0);
        seal(&mut b);
        sheet.extend(b);
    }
    Ok(sheet)
}

/// Put the CRC of each block right.
pub fn seal(sheet: &mut [u8]) {
    for b in sheet.chunks_exact_mut(BLOCK) {
        let stored = crc(b);
        b[..4].copy_from_slice(&stored);
    }
}

/// What the layer over vectors makes of an input, where it can be given it.
type ByLayer = fn(&[u8]) -> Option<Result<Vec<u8>, u32>>;

/// A call, and the reference beside it.
pub struct Call {
    name: &'static str,
    library: fn(&[u8], &mut [u8]) -> Said,
    /// The same on a stack of the machine that is measured.
    measured: fn(&[u8], &mut [u8]) -> (Said, usize),
    reference: fn(&[u8]) -> Result<Vec<u8>, Refused>,
    /// This one takes what it hands back, and has to hand the input back.
    back: &'static Call,
    /// The call of the layer over vectors.
    layer: (&'static str, ByLayer),
    /// The answers that it has, what each is noted under, and in how many ways it comes
    /// about.
    answers: &'static [(u32, &'static str, usize)],
}

pub static READ: Call = Call {
    name: "read_sheet",
    library: library::read_sheet,
    measured: library::measured_read_sheet,
    reference: read,
    back: &WRITE,
    layer: ("Sheet::read", read_by_layer),
    answers: &[
        (0, "read_sheet, of those done, the output", 2),
        (26, "read_sheet, refused by 26, the output", 3),
        (32, "read_sheet, refused by 32", 5),
        (33, "read_sheet, refused by 33", 13),
    ],
};

pub static WRITE: Call = Call {
    name: "write_sheet",
    library: library::write_sheet,
    measured: library::measured_write_sheet,
    reference: write,
    back: &READ,
    layer: ("Sheet::write", write_by_layer),
    answers: &[
        (0, "write_sheet, of those done, the output", 2),
        (26, "write_sheet, refused by 26, the output", 3),
        (33, "write_sheet, refused by 33", 5),
    ],
};

/// The kind of a change as stored, and its extent.
pub type Step = (u32, Rmap);

fn steps(list: &[u8]) -> Vec<Step> {
    let step = |c: &[u8]| (number(&c[..4]) as u32, bare::rmap_list(&c[8..])[0]);
    list.chunks_exact(CHANGE).map(step).collect()
}

pub fn list(steps: &[Step]) -> Vec<u8> {
    let change = |&(kind, x): &Step| {
        let record = bare::rmap_bytes(&[x]);
        [&kind.to_be_bytes()[..], &[0; 4], &record].concat()
    };
    steps.iter().flat_map(change).collect()
}

/// The layer's change of a step.
fn change_of(&(kind, x): &Step) -> Change {
    match kind {
        1 => Change::First(extent(x)),
        2 => Change::LetGo(extent(x)),
        _ => Change::Held(extent(x)),
    }
}

fn read_by_layer(sheet: &[u8]) -> Option<Result<Vec<u8>, u32>> {
    let read = Sheet::read(sheet).map_err(|refusal| refusal.number);
    Some(read.map(|changes| {
        let step = |c: &Change| {
            let (kind, x) = match c {
                Change::First(x) => (1, x),
                Change::LetGo(x) => (2, x),
                Change::Held(x) => (3, x),
                _ => panic!("no kind of a sheet: {c:?}"),
            };
            let x = Rmap {
                startblock: x.startblock,
                blockcount: x.blockcount,
                owner: x.owner,
                offset: x.offset,
            };
            (kind, x)
        };
        list(&changes.iter().map(step).collect::<Vec<Step>>())
    }))
}

/// It is given changes, and no other bytes.
fn write_by_layer(list: &[u8]) -> Option<Result<Vec<u8>, u32>> {
    let whole = list.len().is_multiple_of(CHANGE);
    if !whole || list.chunks(CHANGE).any(|c| of_change(c).is_some()) {
        return None;
    }
    let changes: Vec<Change> = steps(list).iter().map(change_of).collect();
    Some(Sheet::write(&changes).map_err(|refusal| refusal.number))
}

/// Number, figures, and what the output begins with, where so many bytes are lent.
pub fn said(made: &Result<Vec<u8>, Refused>, room: usize) -> (u32, [u64; 4], &[u8]) {
    match made {
        Err(refused) => (refused.number, [0; 4], &[]),
        Ok(b) if room < b.len() => (26, [0; 4], &[]),
        Ok(b) => (0, [b.len() as u64, 0, 0, 0], b),
    }
}

/// An input that is printed; of a long one its ends.
fn shown(b: &[u8]) -> String {
    const MOST: usize = 16 * BLOCK;
    match b.len() {
        0..=MOST => hex(b),
        n => format!(
            "{n} bytes, {} .. {}",
            hex(&b[..BLOCK]),
            hex(&b[n - BLOCK..])
        ),
    }
}

impl Call {
    /// The call on an input, with each of these lent: bytes more or fewer than it comes
    /// to, or, where it is refused, than the input has.
    pub fn on(&self, input: &[u8], rooms: &[isize], met: &mut Met) {
        let made = (self.reference)(input);
        let exact = made.as_ref().map_or(input.len(), Vec::len);
        for room in rooms {
            let room = exact.saturating_add_signed(*room);
            let told = || format!("{room} lent, {}", shown(input));
            let (number, figures, left) = said(&made, room);
            let mut lent = Lent::<u8>::new(room);
            let got = (self.library)(input, lent.part());
            same(self.name, &got, (number, figures), &told);
            bytes(self.name, "output", lent.holds(left), &told);
            met.tally.add(self.name, got.number);
            let how = match (&made, room) {
                (Err(refused), _) => refused.why,
                (_, 0) => "of no byte",
                (_, n) if n + 1 == exact => "one byte short",
                (_, n) if n < exact => "shorter",
                (_, n) if n == exact => "just long enough",
                _ => "longer",
            };
            let mut answers = self.answers.iter();
            let noted = answers.find(|a| a.0 == number).expect("one that it has");
            met.tally.note(noted.1, how);
        }
        let (name, layer) = self.layer;
        if let Some(got) = layer(input) {
            let due = made.as_ref().map_err(|refused| refused.number);
            if got.as_ref().map_err(|&n| n) != due {
                let say = |o: Result<&Vec<u8>, u32>| o.map_or_else(|n| n.to_string(), |b| shown(b));
                let got = say(got.as_ref().map_err(|&n| n));
                differ(name, "result", &got, &say(due), &shown(input));
            }
            met.tally.add(name, got.err().unwrap_or(0));
        }
        if let Ok(out) = made {
            self.came_back(input, &out, met);
        }
    }

    /// The call on a stack of the machine that is measured: it comes to the same, and takes
    /// no more than kf.h says.
    fn on_a_measured_stack(&self, input: &[u8], tally: &mut Tally) {
        let made = (self.reference)(input);
        let room = made.as_ref().map_or(input.len(), Vec::len);
        let (number, figures, left) = said(&made, room);
        let mut lent = Lent::<u8>::new(room);
        let (got, taken) = (self.measured)(input, lent.part());
        let told = || format!("measured, {room} lent, {}", shown(input));
        same(self.name, &got, (number, figures), &told);
        bytes(self.name, "output", lent.holds(left), &told);
        tally.add(self.name, got.number);
        let enough = textbook::enough(self.name);
        assert!(taken <= enough, "{} took {taken} bytes", self.name);
        tally.measure(TAKEN, self.name, taken as u64);
    }

    /// Each of its answers was met, in each way.
    fn all_met(&self, tally: &Tally) {
        let numbers: Vec<u32> = self.answers.iter().map(|a| a.0).collect();
        tally.met_all(self.name, &numbers);
        for (_, what, ways) in self.answers {
            tally.met_ways(what, *ways);
        }
        let of_layer = numbers.into_iter().filter(|&n| n != 26);
        tally.met_all(self.layer.0, &of_layer.collect::<Vec<u32>>());
    }

    /// What the call made of an input is taken by the other one, which has to make the
    /// input of it again.
    fn came_back(&self, input: &[u8], out: &[u8], met: &mut Met) {
        let back = self.back;
        let mut lent = Lent::<u8>::new(input.len());
        let got = (back.library)(out, lent.part());
        let told = || format!("of what {} made of {}", self.name, shown(input));
        let figures = [input.len() as u64, 0, 0, 0];
        same(back.name, &got, (0, figures), &told);
        bytes(back.name, "output", lent.holds(input), &told);
        met.tally.add(back.name, got.number);
        let (sheet, changes) = match self.name == READ.name {
            true => (input, out),
            false => (out, input),
        };
        met.accepted(sheet, changes);
    }
}

/// The bytes of the machine's stack that a call took.
const TAKEN: &str = "machine's stack, sheets, bytes";

/// What was met so far.
#[derive(Default)]
pub struct Met {
    pub tally: Tally,
    /// The changes of the sheets that were read, and their sheets.
    sheets: HashMap<Vec<u8>, Vec<u8>>,
}

impl Met {
    /// A sheet was read as these changes: no other is.
    fn accepted(&mut self, sheet: &[u8], changes: &[u8]) {
        match self.sheets.get(changes) {
            None => {
                self.sheets.insert(changes.to_vec(), sheet.to_vec());
            }
            Some(other) if other == sheet => (),
            Some(other) => {
                let what = "two sheets of the same changes";
                differ(
                    "read_sheet",
                    what,
                    &shown(sheet),
                    &shown(other),
                    &shown(changes),
                );
            }
        }
    }

    /// A sheet is read with as much lent as it needs, and with none.
    fn read(&mut self, sheet: &[u8]) {
        READ.on(sheet, &[0, isize::MIN], self);
    }

    /// The same once the CRCs of its blocks are right.
    fn read_sealed(&mut self, mut sheet: Vec<u8>) {
        seal(&mut sheet);
        self.read(&sheet);
    }

    fn write(&mut self, changes: &[u8]) {
        WRITE.on(changes, &[0, isize::MIN], self);
    }
}

/// Bytes lent around what is needed: as many, one more and one fewer, none, some fewer
/// and many more.
const AROUND: [isize; 6] = [0, 1, -1, isize::MIN, -20, 3000];

/// A change of any kind: its record is any bytes, at the bounds, or one of a map.
fn change(r: &mut Random) -> Vec<u8> {
    let kind = 1 + r.below(3) as u32;
    let record = match r.below(8) {
        0 => vec![0; 24],
        1 => vec![0xFF; 24],
        2 | 3 => (0..24).map(|_| r.pick(&[0, 1, 0x7F, 0x80, 0xFF])).collect(),
        4 | 5 => r.bytes(24),
        n => bare::rmap_bytes(&[lists::rmap(r, n == 6)]),
    };
    [&kind.to_be_bytes()[..], &[0; 4], &record].concat()
}

/// So many changes.
pub fn changes(r: &mut Random, n: usize) -> Vec<u8> {
    (0..n).flat_map(|_| change(r)).collect()
}

/// The sheet of so many changes.
fn sheet(r: &mut Random, n: usize) -> Vec<u8> {
    write(&changes(r, n)).expect("good changes")
}

/// The blocks of a sheet, which may be put together otherwise.
fn blocks(sheet: &[u8]) -> Vec<Vec<u8>> {
    sheet.chunks(BLOCK).map(<[u8]>::to_vec).collect()
}

/// Every byte of a sheet is each of several others, its old CRC kept and a fresh one.
fn each_byte(r: &mut Random, sheet: &[u8], met: &mut Met) {
    for at in 0..sheet.len() {
        let was = sheet[at];
        let bits = (0..8).map(|bit| was ^ 1 << bit);
        let others = [0, 0xFF, !was, was.wrapping_add(1), r.next() as u8];
        for other in bits.chain(others).filter(|&x| x != was) {
            let mut sheet = sheet.to_vec();
            sheet[at] = other;
            met.read(&sheet);
            met.read_sealed(sheet);
        }
    }
}

/// What the fields of a block at a place, with so many changes, are set to in turn, each
/// by where it begins.
fn fields(place: u32, changes: u16) -> Vec<(usize, Vec<u8>)> {
    let mut all = Vec::new();
    let places = [
        place.wrapping_sub(1),
        place + 1,
        place.swap_bytes(),
        place + 0x100,
        place + 0x1_0000,
        u32::MAX,
    ];
    all.extend(places.map(|n| (4, n.to_be_bytes().to_vec())));
    let numbers = [0, 1, 2, 13, 14, 15, 16, 17, 255, 256, 271, u16::MAX];
    let near = [changes - 1, changes + 1, changes.swap_bytes()];
    all.extend(numbers.map(|n| (8, n.to_be_bytes().to_vec())));
    all.extend(near.map(|n| (8, n.to_be_bytes().to_vec())));
    all.extend([0, 1, 2, 3, 128, 255].map(|mark| (10, vec![mark])));
    for at in 11..HEADER {
        all.extend([1, 128, 255].map(|x| (at, vec![x])));
    }
    for i in 0..IN_BLOCK {
        let at = HEADER + i * CHANGE;
        let kinds = [
            0,
            1,
            2,
            3,
            4,
            5,
            0x101,
            0x1_0001,
            0x100_0000,
            0x200_0000,
            0x300_0000,
            0x100_0001,
            u32::MAX,
        ];
        all.extend(kinds.map(|k| (at, k.to_be_bytes().to_vec())));
        all.extend((4..CHANGE).map(|byte| (at + byte, vec![1])));
        all.extend([(at + 4, vec![0xFF; 4]), (at, vec![0; CHANGE])]);
        all.push((at, [&[0, 0, 0, 2][..], &[0; 28]].concat()));
    }
    all
}

/// Each field of each block is set to each of these, with fresh CRCs; then any bit of the
/// sheet is another, so that the CRC of a block is wrong besides.
fn each_field(r: &mut Random, sheet: &[u8], met: &mut Met) {
    for (place, block) in sheet.chunks(BLOCK).enumerate() {
        let changes = number(&block[8..10]) as u16;
        for (at, field) in fields(place as u32, changes) {
            let mut sheet = sheet.to_vec();
            sheet[place * BLOCK + at..][..field.len()].copy_from_slice(&field);
            seal(&mut sheet);
            met.read(&sheet);
            let any = r.below(sheet.len() as u64) as usize;
            sheet[any] ^= 1 << r.below(8);
            met.read(&sheet);
        }
    }
}

/// The CRC of each block is stored otherwise, or is one of other bytes.
fn other_crcs(sheet: &[u8], met: &mut Met) {
    for place in 0..sheet.len() / BLOCK {
        let b = &sheet[place * BLOCK..][..BLOCK];
        let good = crc32c::crc32c(&b[4..]);
        let unset = [&[0; 4], &b[4..]].concat();
        for stored in [
            good.to_be_bytes(),
            (!good).to_le_bytes(),
            good.wrapping_add(1).to_le_bytes(),
            good.rotate_left(16).to_le_bytes(),
            crc32c::crc32c(&unset).to_le_bytes(),
            crc32c::crc32c(b).to_le_bytes(),
            crc32c::crc32c(&b[8..]).to_le_bytes(),
            crc32c::crc32c(&b[..BLOCK - 4]).to_le_bytes(),
            [0; 4],
            [0xFF; 4],
        ] {
            let mut sheet = sheet.to_vec();
            sheet[place * BLOCK..][..4].copy_from_slice(&stored);
            met.read(&sheet);
        }
    }
}

/// Its blocks in other numbers and orders, as they are, with their places put right, and
/// with their marks put right besides.
fn other_orders(sheet: &[u8], other: &[u8], met: &mut Met) {
    let (mine, theirs) = (blocks(sheet), blocks(other));
    let n = mine.len();
    let mut orders = Vec::new();
    for i in 0..n {
        orders.push(mine[..i].to_vec());
        orders.push(mine[i..].to_vec());
        orders.push([&mine[..i], &mine[i + 1..]].concat());
        orders.push([&mine[..=i], &mine[i..]].concat());
        orders.push([&mine[..=i], &theirs[..], &mine[i + 1..]].concat());
        orders.push([&mine[..i], &theirs[..1], &mine[i + 1..]].concat());
        for j in 0..i {
            let mut swapped = mine.clone();
            swapped.swap(i, j);
            orders.push(swapped);
        }
    }
    orders.push([&mine[..], &mine].concat());
    orders.push([&mine[..], &[vec![0; BLOCK]]].concat());
    orders.push([&mine[..], &[vec![0xFF; BLOCK]]].concat());
    for order in orders {
        let mut sheet = order.concat();
        met.read(&sheet);
        met.read_sealed(sheet.clone());
        for (place, b) in sheet.chunks_mut(BLOCK).enumerate() {
            b[4..8].copy_from_slice(&(place as u32).to_be_bytes());
        }
        met.read_sealed(sheet.clone());
        for (place, b) in sheet.chunks_mut(BLOCK).enumerate() {
            b[10] = u8::from(place + 1 == order.len());
        }
        met.read_sealed(sheet);
    }
}

/// A sheet cut at every length, and with more behind it.
fn sheet_lengths(r: &mut Random, sheet: &[u8], met: &mut Met) {
    for n in 0..sheet.len() {
        met.read(&sheet[..n]);
    }
    let more = [sheet, &r.bytes(2 * BLOCK + 3)].concat();
    let zeros = [sheet, &vec![0; 2 * BLOCK + 3]].concat();
    for n in sheet.len()..=more.len() {
        met.read(&more[..n]);
        met.read(&zeros[..n]);
    }
}

/// Lists of every length up to so many changes and one byte more.
fn list_lengths(r: &mut Random, n: usize, met: &mut Met) {
    let list = [changes(r, n), vec![0]].concat();
    for n in 0..=list.len() {
        met.write(&list[..n]);
    }
}

/// Each change of a list is set to what the first change of a block is, and has each bit
/// of its kind and zeros changed.
fn list_fields(r: &mut Random, n: usize, met: &mut Met) {
    let list = changes(r, n);
    let first = HEADER..HEADER + CHANGE;
    let of_first = fields(0, 1)
        .into_iter()
        .filter(|(at, _)| first.contains(at));
    let of_first: Vec<(usize, Vec<u8>)> = of_first.collect();
    for at in (0..list.len()).step_by(CHANGE) {
        for (from, field) in &of_first {
            let mut list = list.clone();
            list[at + from - HEADER..][..field.len()].copy_from_slice(field);
            met.write(&list);
        }
        for bit in 0..64 {
            let mut list = list.clone();
            list[at + bit / 8] ^= 1 << (bit % 8);
            met.write(&list);
        }
    }
}

/// A sheet with nothing wrong, one thing or several, and with the CRC of each block, of
/// one or of none put right.
fn any_sheet(r: &mut Random) -> Vec<u8> {
    let n = 1 + r.below(50) as usize;
    let mut sheet = sheet(r, n);
    for _ in 0..r.below(4) {
        let blocks = (sheet.len() / BLOCK) as u64;
        if blocks == 0 {
            break;
        }
        let place = r.below(blocks) as usize;
        let at = place * BLOCK;
        match r.below(8) {
            0 | 1 => sheet[at + r.below(BLOCK as u64) as usize] = r.next() as u8,
            2 | 3 => {
                let fields = fields(place as u32, sheet[at + 9].clamp(1, 15).into());
                let (from, field) = &fields[r.below(fields.len() as u64) as usize];
                sheet[at + from..][..field.len()].copy_from_slice(field);
            }
            4 => sheet.truncate(at + BLOCK),
            5 => sheet.extend_from_within(at..at + BLOCK),
            6 => sheet.copy_within(at..at + BLOCK, r.below(blocks) as usize * BLOCK),
            _ if r.below(2) == 0 => sheet.push(0),
            _ => sheet.truncate(sheet.len() - 1),
        }
    }
    let blocks = (sheet.len() / BLOCK).max(1) as u64;
    match r.below(6) {
        0 => (),
        1 => {
            let rest = &mut sheet[r.below(blocks) as usize * BLOCK..];
            let one = rest.len().min(BLOCK);
            seal(&mut rest[..one]);
        }
        _ => seal(&mut sheet),
    }
    sheet
}

/// A list of changes with nothing wrong, or one thing.
fn any_list(r: &mut Random) -> Vec<u8> {
    let n = 1 + r.below(50) as usize;
    let mut list = changes(r, n);
    let at = r.below(n as u64) as usize * CHANGE;
    match r.below(6) {
        0 => list[at + r.below(8) as usize] ^= 1 << r.below(8),
        1 => list[at..][..4].copy_from_slice(&(r.below(6) as u32).to_be_bytes()),
        2 => list.truncate(list.len() - r.below(40).min(list.len() as u64) as usize),
        3 => list.extend(vec![0; r.below(40) as usize]),
        _ => (),
    }
    list
}

/// The same bytes where they begin anywhere in a word of memory.
fn anywhere(r: &mut Random, b: &[u8], mut f: impl FnMut(&[u8])) {
    let from = r.below(8) as usize;
    f(&[&vec![0xA5; from], b].concat()[from..]);
}

/// As many changes and blocks as there may be, one fewer and one more.
fn longest(r: &mut Random, met: &mut Met) {
    let mut list = changes(r, MOST_CHANGES + 1);
    WRITE.on(&list, &[0, 3 << 20], met);
    let last = MOST_CHANGES * CHANGE;
    list.truncate(last);
    WRITE.on(&list, &[0, 1, -1, isize::MIN], met);
    WRITE.on(&list[..last - CHANGE], &[0, -1], met);
    WRITE.on(&list[..last - 1], &[3 << 20], met);
    let mut sheet = write(&list).expect("as many as there may be");
    assert_eq!(sheet.len(), MOST_BLOCKS * BLOCK);
    READ.on(&sheet, &[0, 1, -1, isize::MIN], met);
    // The last change is none.
    list[last - CHANGE + 3] = 4;
    WRITE.on(&list, &[3 << 20], met);

    // The last CRC is wrong, then the last mark alone.
    let end = sheet.len();
    sheet[end - 1] ^= 1;
    met.read(&sheet);
    sheet[end - 1] ^= 1;
    sheet[end - BLOCK + 10] = 0;
    seal(&mut sheet[end - BLOCK..]);
    met.read(&sheet);
    // A block more, with all else right; then its CRC is wrong, then the first one.
    let mut more = write(&changes(r, 1)).expect("a change");
    more[4..8].copy_from_slice(&(MOST_BLOCKS as u32).to_be_bytes());
    seal(&mut more);
    sheet.extend(more);
    met.read(&sheet);
    for at in [end + BLOCK - 1, BLOCK - 1] {
        sheet[at] ^= 1;
        met.read(&sheet);
        sheet[at] ^= 1;
    }
}

pub fn sheets(r: &mut Random, scale: u64, tally: &mut Tally) {
    let mut met = Met::default();
    for n in 1..=50 {
        for _ in 0..10 * scale {
            let list = changes(r, n);
            WRITE.on(&list, &AROUND, &mut met);
            READ.on(&write(&list).expect("good changes"), &AROUND, &mut met);
        }
    }
    // One block, two with the second short, and three.
    for n in [1, 15, 22, 37] {
        let sheet = sheet(r, n);
        each_byte(r, &sheet, &mut met);
        sheet_lengths(r, &sheet, &mut met);
    }
    for n in [1, 4, 14, 15, 16, 22, 29, 30, 31, 45, 50] {
        let (mine, theirs) = (sheet(r, n), sheet(r, n));
        each_field(r, &mine, &mut met);
        other_crcs(&mine, &mut met);
        other_orders(&mine, &theirs, &mut met);
    }
    list_lengths(r, 33, &mut met);
    for n in [1, 2, 15, 16, 31] {
        list_fields(r, n, &mut met);
    }
    for _ in 0..50_000 * scale {
        let sheet = any_sheet(r);
        anywhere(r, &sheet, |sheet| met.read(sheet));
        let list = any_list(r);
        anywhere(r, &list, |list| met.write(list));
    }
    for _ in 0..10_000 * scale {
        history(r, &mut met);
    }
    for n in [1, 15, 16, 31, 15_000] {
        let list = changes(r, n);
        let sheet = write(&list).expect("good changes");
        let bad_crc = [&sheet[..sheet.len() - 1], &[!sheet[sheet.len() - 1]]].concat();
        let short = &sheet[..sheet.len() - BLOCK];
        for sheet in [&sheet, &bad_crc, short] {
            READ.on_a_measured_stack(sheet, &mut met.tally);
        }
        for list in [&list[..], &list[..list.len() - 1]] {
            WRITE.on_a_measured_stack(list, &mut met.tally);
        }
    }
    longest(r, &mut met);
    READ.all_met(&met.tally);
    WRITE.all_met(&met.tally);
    met.tally.met_all(histories::APPLY, &histories::ANSWERS);
    met.tally.met_ways(histories::MADE, 3);
    met.tally.met_both(histories::AGREE);
    tally.take(met.tally);
}

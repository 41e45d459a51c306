//! Why a block stays held. The original has no such call: the questions before
//! 31 are those of its letting go, and which record decides is document 02's words
//! over the records. Each answer is held against the library's own letting go of the
//! same extent besides, and the layer over vectors against the same reference.

use crate::edits::agreeing;
use crate::lent::hex;
use crate::library;
use crate::lists::{self, Count, END, FILE, STAGING};
use crate::tally::{differ, Tally};
use crate::vectors::extent;
use kf::{Cause, Group};
use oracle::rmap::{Rmap, OFF_BMBT_BLOCK, OFF_UNWRITTEN};
use oracle::sample::Random;
use oracle::{bare, paper};
use std::collections::BTreeSet;
use std::ops::Range;

/// The answers that the call has.
pub const ANSWERS: [u32; 8] = [0, 19, 20, 21, 22, 24, 25, 31];

/// What decides about a block: the record at a place of a list, or none.
#[derive(Debug, Clone, Copy, PartialEq, Eq)]
pub enum Why {
    Free,
    HeldInMap(usize),
    HeldInCounts(usize),
    Staging(usize),
}

impl Why {
    /// The figures of the call.
    pub fn figures(self) -> [u64; 4] {
        let at = |state, list, i: usize, len: u64| [state, list, i as u64 * len, len];
        match self {
            Why::Free => [0; 4],
            Why::HeldInMap(i) => at(1, 1, i, 24),
            Why::HeldInCounts(i) => at(1, 2, i, 12),
            Why::Staging(i) => at(2, 2, i, 12),
        }
    }

    pub fn name(self) -> &'static str {
        match self {
            Why::Free => "free",
            Why::HeldInMap(_) => "held by a record",
            Why::HeldInCounts(_) => "held by a count alone",
            Why::Staging(_) => "staging",
        }
    }
}

/// From the start up to the end, which is not among them.
fn blocks(start: u32, count: u32) -> Range<u64> {
    u64::from(start)..u64::from(start) + u64::from(count)
}

fn of_record(x: &Rmap) -> Range<u64> {
    blocks(x.startblock, x.blockcount)
}

fn of_count(c: &Count) -> Range<u64> {
    blocks(c.start & !STAGING, c.count)
}

/// Does the extent continue a record that it lies in, where that goes by the file
/// offset?
fn lines_up(record: &Rmap, x: &Rmap) -> bool {
    let skipped = u64::from(x.startblock) - u64::from(record.startblock);
    x.owner < 0
        || x.offset & OFF_BMBT_BLOCK != 0
        || record.offset % FILE + skipped == x.offset % FILE
}

/// A letting go of an extent, before it is made.
pub struct Step {
    x: Rmap,
    map: Vec<Rmap>,
    counts: Vec<Count>,
    /// Is the reverse map whole records?
    whole: bool,
    /// The question by which the whole letting go is refused, not for room.
    refused: Option<u32>,
    /// The records that contain the extent, by their places, and which of them is cut.
    containing: Vec<usize>,
    cut: Option<usize>,
}

impl Step {
    pub fn new(map: &[u8], counts: &[u8], x: Rmap) -> Step {
        const MOST: usize = usize::MAX;
        let refused = paper::let_go(map, counts, x, MOST, MOST, MOST).number();
        let whole = map.len().is_multiple_of(24);
        let map = bare::rmap_list(map);
        let (all, flags) = (of_record(&x), x.offset / FILE);
        let contains = |r: &Rmap| {
            let its = of_record(r);
            its.start <= all.start
                && all.end <= its.end
                && (r.owner, r.offset / FILE) == (x.owner, flags)
        };
        let containing: Vec<usize> = (0..map.len()).filter(|&i| contains(&map[i])).collect();
        let lined = containing.iter().find(|&&i| lines_up(&map[i], &x));
        let cut = lined.or(containing.first()).copied();
        Step {
            x,
            map,
            counts: lists::count_list(counts),
            whole,
            refused: refused.map(u32::from),
            containing,
            cut,
        }
    }

    fn place_of_count(&self, staging: bool, block: u32) -> Option<usize> {
        let over = |c: &Count| of_count(c).contains(&block.into());
        let is = |c: &Count| (c.start >= STAGING) == staging && over(c);
        self.counts.iter().position(is)
    }

    /// The first record over a block other than the one cut.
    fn place_of_other(&self, block: u32) -> Option<usize> {
        let over = |i: &usize| of_record(&self.map[*i]).contains(&block.into());
        (0..self.map.len()).find(|i| Some(*i) != self.cut && over(i))
    }

    /// What decides about a block, or the number of the first question that fails.
    pub fn why(&self, block: u32) -> Result<Why, u32> {
        let staging = self.place_of_count(true, block);
        match self.refused {
            Some(25) if staging.is_some() => (),
            Some(n) => return Err(n),
            None => (),
        }
        if !of_record(&self.x).contains(&block.into()) {
            return Err(31);
        }
        if let Some(i) = staging {
            return Ok(Why::Staging(i));
        }
        let Some(count) = self.place_of_count(false, block) else {
            return Ok(Why::Free);
        };
        let other = self.place_of_other(block);
        Ok(other.map_or(Why::HeldInCounts(count), Why::HeldInMap))
    }

    /// The bytes of the record that decides.
    fn part(&self, why: Why) -> Vec<u8> {
        match why {
            Why::Free => vec![],
            Why::HeldInMap(i) => bare::rmap_bytes(&[self.map[i]]),
            Why::HeldInCounts(i) | Why::Staging(i) => lists::count_bytes(&[self.counts[i]]),
        }
    }

    /// Number and figures of the call.
    pub fn said(&self, block: u32) -> (u32, [u64; 4]) {
        match self.why(block) {
            Ok(why) => (0, why.figures()),
            Err(n) => (n, [0; 4]),
        }
    }
}

/// The blocks to ask about: those of the extent, of a long one its ends and where a
/// record begins or ends; beside it, at the bounds, and under staging records.
pub fn around(map: &[u8], counts: &[u8], x: Rmap) -> Vec<u32> {
    let (records, counts) = (bare::rmap_list(map), lists::count_list(counts));
    let ends = |b: Range<u64>| {
        [
            b.start.wrapping_sub(1),
            b.start,
            b.end.wrapping_sub(1),
            b.end,
        ]
    };
    let all = of_record(&x);
    let mut asked = BTreeSet::from([0, END - 1, END, u32::MAX.into()]);
    asked.extend(ends(all.clone()));
    for c in counts.iter().filter(|c| c.start >= STAGING) {
        asked.extend([of_count(c).start, of_count(c).end.wrapping_sub(1)]);
    }
    if all.end - all.start <= 64 {
        asked.extend(all);
    } else {
        let records = records.iter().map(of_record);
        let counts = counts.iter().map(of_count);
        let ends = records.chain(counts).flat_map(ends);
        asked.extend(ends.filter(|b| all.contains(b)));
    }
    let numbers = asked.into_iter().map(u32::try_from);
    numbers.filter_map(Result::ok).collect()
}

/// What the library's letting go of an extent comes to, with room enough.
struct Gone {
    number: u32,
    free: Vec<Range<u64>>,
}

impl Gone {
    fn new(map: &[u8], counts: &[u8], x: Rmap) -> Gone {
        let mut new_map = vec![0; map.len() + 24];
        let mut new_counts = vec![0; counts.len() + 24];
        let mut free = vec![0; 8 * (counts.len() / 12 + 1)];
        let said = library::let_go(map, counts, x, &mut new_map, &mut new_counts, &mut free);
        let word = |b: &[u8]| u32::from_be_bytes([b[0], b[1], b[2], b[3]]);
        let free = free[..said.figures[2] as usize].chunks_exact(8);
        Gone {
            number: said.number,
            free: free.map(|e| blocks(word(e), word(&e[4..]))).collect(),
        }
    }

    /// Does it answer so for that block?
    fn agrees(&self, x: &Rmap, block: u32, number: u32, state: u64) -> bool {
        let inside = of_record(x).contains(&block.into());
        let free = self.free.iter().any(|e| e.contains(&block.into()));
        match (self.number, inside) {
            (0, true) => number == 0 && state == u64::from(!free),
            (0, false) => number == 31,
            (25, true) => number == 25 || (number == 0 && state == 2),
            (25, false) => number == 25 || number == 31,
            (n, _) => number == n,
        }
    }
}

/// Does the layer over vectors say the same of a block, with the record in its list? And
/// by which number.
fn over_vectors(group: &Group, step: &Step, block: u32) -> (bool, u32) {
    let count = |i: usize| {
        let c = step.counts[i];
        kf::Refcount {
            startblock: c.start,
            blockcount: c.count,
            refcount: c.owners,
        }
    };
    match (group.why(&extent(step.x), block), step.why(block)) {
        (Err(refusal), due) => (due == Err(refusal.number), refusal.number),
        (Ok(_), Err(_)) => (false, 0),
        (Ok(got), Ok(why)) => {
            let (cause, list) = match why {
                Why::Free => (Cause::Free, &group.map),
                Why::HeldInMap(i) => (Cause::Held(extent(step.map[i])), &group.map),
                Why::HeldInCounts(i) => (Cause::Shared(count(i)), &group.counts),
                Why::Staging(i) => (Cause::Staging(count(i)), &group.counts),
            };
            let [_, _, from, len] = why.figures().map(|n| n as usize);
            let there = len == 0 || got.record.as_ptr() == list[from..].as_ptr();
            let record = got.record == step.part(why);
            (
                got.block == block && got.cause == cause && record && there,
                0,
            )
        }
    }
}

/// The blocks asked of one letting go, each beside the reference and beside what
/// the letting go itself comes to.
pub fn one(map: &[u8], counts: &[u8], x: Rmap, asked: &[u32], tally: &mut Tally) {
    let step = Step::new(map, counts, x);
    let gone = Gone::new(map, counts, x);
    let group = Group::new(map.to_vec(), counts.to_vec());
    for &block in asked {
        let input = || {
            format!(
                "{x:?} block {block} map {} counts {}",
                hex(map),
                hex(counts)
            )
        };
        let say = |(number, figures): (u32, [u64; 4])| format!("{number} {figures:?}");
        let got = library::explain(map, counts, x, block);
        let (said, told) = ((got.number, got.figures), step.said(block));
        if said != told {
            differ("explain", "answer", &say(said), &say(told), &input());
        }
        if !gone.agrees(&x, block, got.number, got.figures[0]) {
            let other = format!("let_go {}, free {:?}", gone.number, gone.free);
            differ("explain", "beside let_go", &say(said), &other, &input());
        }
        if let Ok(why) = step.why(block) {
            let list = if got.figures[1] == 1 { map } else { counts };
            let [from, len] = [2, 3].map(|i| got.figures[i] as usize);
            let (part, record) = (&list[from..from + len], step.part(why));
            if part != record {
                differ("explain", "record", &hex(part), &hex(&record), &input());
            }
        }
        let (same, number) = over_vectors(&group, &step, block);
        if !same {
            let layer = format!("{:?}", group.why(&extent(x), block));
            differ("Group::why", "result", &layer, &say(told), &input());
        }
        tally.add("explain", got.number);
        tally.add("Group::why", number);
        for (what, how) in step.ways(block) {
            tally.note(what, how);
        }
    }
}

pub const DONE: &str = "explain, of those done";
const CUT: &str = "explain, of those done, the record cut is";
const NAMED: &str = "explain, of those held by a record, it is";
const LENGTH: &str = "explain, refused by 19";
const OUTSIDE: &str = "explain, refused by 31";

/// How many ways each of these comes about in.
pub const WAYS: [(&str, usize); 5] = [(DONE, 4), (CUT, 3), (NAMED, 3), (LENGTH, 2), (OUTSIDE, 3)];

impl Step {
    /// In which ways the answer for a block comes about.
    pub fn ways(&self, block: u32) -> Vec<(&'static str, &'static str)> {
        let why = match self.why(block) {
            Err(19) if self.whole => return vec![(LENGTH, "the counts")],
            Err(19) => return vec![(LENGTH, "the reverse map")],
            Err(31) => {
                let staging = self.place_of_count(true, block).is_some();
                let how = match (staging, self.refused) {
                    (false, _) => "no staging record over the block",
                    (_, None) => "under a staging record",
                    _ => "under a staging record, another meets the extent",
                };
                return vec![(OUTSIDE, how)];
            }
            Err(_) => return vec![],
            Ok(why) => why,
        };
        let cut = self.cut.expect("24 holds");
        let how = match (self.containing[0] == cut, lines_up(&self.map[cut], &self.x)) {
            (true, true) => "the first that contains the extent, lining up",
            (true, false) => "the first, none lines up",
            _ => "a later one, lining up",
        };
        let mut ways = vec![(DONE, why.name()), (CUT, how)];
        if let Why::HeldInMap(i) = why {
            let how = match (self.map[i] == self.map[cut], i < cut) {
                (true, _) => "an equal of the one cut",
                (_, true) => "before the one cut",
                _ => "behind the one cut",
            };
            ways.push((NAMED, how));
        }
        ways
    }

    /// Does another record than the one cut lie over a block?
    pub fn other(&self, block: u32) -> bool {
        self.place_of_other(block).is_some()
    }
}

/// Records over few blocks, of few owners: many over the same ones, with file offsets
/// that line up or do not, and some twice.
fn crowd(r: &mut Random, base: u64) -> Vec<Rmap> {
    let mut list = Vec::new();
    for _ in 0..r.below(8) {
        let start = r.below(14);
        let count = 1 + r.below(10).min(END - base - start - 1);
        let flags = match r.below(10) {
            0 => OFF_BMBT_BLOCK,
            1 => OFF_UNWRITTEN,
            _ => 0,
        };
        let x = Rmap {
            startblock: (base + start) as u32,
            blockcount: if r.below(400) == 0 { 0 } else { count as u32 },
            owner: r.pick(&[7, 7, 7, 9, -3]),
            offset: (start + r.pick(&[0, 0, 0, 1, 5])) | flags,
        };
        list.push(x);
        if r.below(4) == 0 {
            list.push(x);
        }
    }
    list.sort_by_key(lists::key);
    if r.below(60) == 0 && list.len() > 1 {
        let i = r.below(list.len() as u64 - 1) as usize;
        list.swap(i, i + 1);
    }
    list
}

/// A part of a record, its file offset lining up or not, or nearly that.
fn part_of(r: &mut Random, list: &[Rmap]) -> Rmap {
    let Some(&w) = list.get(r.below(list.len().max(1) as u64) as usize) else {
        return lists::rmap(r, false);
    };
    let skipped = r.below(w.blockcount.max(1).into());
    let left = (u64::from(w.blockcount).max(1)) - skipped;
    let mut x = Rmap {
        startblock: w.startblock + skipped as u32,
        blockcount: 1 + r.below(left) as u32,
        offset: w.offset + skipped + r.pick(&[0, 0, 0, 1, 4, 9]),
        ..w
    };
    match r.below(40) {
        0 => x.owner = 9,
        1 => x.blockcount = 0,
        2 => x.blockcount += 1,
        3 => x.offset ^= OFF_UNWRITTEN,
        4 => x.blockcount = (END + r.below(2)) as u32 - x.startblock,
        _ => (),
    }
    x
}

/// A reverse map, counts that agree with it or do not, and an extent.
pub fn pair(r: &mut Random) -> (Vec<u8>, Vec<u8>, Rmap) {
    let crowded = r.below(4) != 0;
    let base = if r.below(8) == 0 { END - 20 } else { 0 };
    let list = match crowded {
        true => crowd(r, base),
        false => lists::rmaps(r),
    };
    let mut c = match r.below(5) {
        0..=2 => agreeing(&list),
        3 => agreeing(&crowd(r, base)),
        _ => lists::counts(r),
    };
    if r.below(3) == 0 {
        c.retain(|c| c.start < STAGING);
        let at = base + r.below(16);
        let n = 1 + r.below(3);
        c.extend(lists::line(r, at, n, true));
    }
    if !c.is_empty() && r.below(40) == 0 {
        lists::break_rule(r, &mut c);
    }
    let x = match crowded {
        true => part_of(r, &list),
        false => lists::extent(r, &list),
    };
    let (mut map, mut counts) = (bare::rmap_bytes(&list), lists::count_bytes(&c));
    match r.below(100) {
        0 => map.push(0),
        1 => counts.push(0),
        2 => map.truncate(map.len().saturating_sub(1)),
        3 => counts.truncate(counts.len().saturating_sub(1)),
        _ => (),
    }
    (map, counts, x)
}

/// No record, or any one of some.
fn up_to_one<T: Copy>(of: &[T]) -> Vec<Vec<T>> {
    let one = of.iter().map(|&x| vec![x]);
    [vec![]].into_iter().chain(one).collect()
}

/// A small world: all reverse maps of up to two records, with up to one shared count and
/// one staging record, all extents, and the blocks in it.
fn small_world(tally: &mut Tally) {
    let mut records = Vec::new();
    for (startblock, blockcount) in [(0, 1), (0, 2), (1, 1), (1, 2)] {
        for (owner, offset) in [
            (7, startblock.into()),
            (7, 5),
            (9, startblock.into()),
            (9, 5),
        ] {
            records.push(Rmap {
                startblock,
                blockcount,
                owner,
                offset,
            });
        }
    }
    let mut maps = up_to_one(&records);
    for &a in &records {
        maps.extend(records.iter().map(|&b| vec![a, b]));
    }
    let lies = [(0, 1), (0, 2), (1, 1), (1, 2), (2, 1), (2, 2)];
    let counts = |bit, owners| {
        let record = |(start, count)| Count {
            start: start | bit,
            count,
            owners,
        };
        up_to_one(&lies.map(record))
    };
    for map in maps.iter().map(|m| bare::rmap_bytes(m)) {
        for shared in counts(0, 2) {
            for staging in counts(STAGING, 1) {
                let counts = lists::count_bytes(&[&shared[..], &staging].concat());
                for &x in &records {
                    one(&map, &counts, x, &[0, 1, 2, 3], tally);
                }
            }
        }
    }
}

pub fn explanations(r: &mut Random, scale: u64, tally: &mut Tally) {
    small_world(tally);
    for _ in 0..100_000 * scale {
        let (map, counts, x) = pair(r);
        one(&map, &counts, x, &around(&map, &counts, x), tally);
    }
    for call in ["explain", "Group::why"] {
        tally.met_all(call, &ANSWERS);
    }
    for (what, ways) in WAYS {
        tally.met_ways(what, ways);
    }
}

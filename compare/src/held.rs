//! A take of blocks that others hold. The original has none: the reverse map
//! is compared with its `insert_shared`, the counts with the definition, over
//! the places between all starts and ends.

use crate::edits::{agreeing, rooms};
use crate::lent::Lent;
use crate::library::{self, Said};
use crate::lists::{self, Count, STAGING};
use crate::tally::{differ, Tally};
use oracle::bare;
use oracle::paper;
use oracle::rmap::Rmap;
use oracle::sample::Random;

/// The owners of the record over a place, 0 where there is none.
pub fn owners(list: &[Count], place: u64) -> u64 {
    list.iter()
        .find(|c| u64::from(c.start) <= place && place < u64::from(c.start) + u64::from(c.count))
        .map_or(0, |c| u64::from(c.owners))
}

/// One owner more from `s` up to `e`, 2 where no record lies; equals joined.
fn raise(list: &[Count], s: u64, e: u64) -> Vec<Count> {
    let mut ends: Vec<u64> = vec![s, e];
    for c in list {
        let start = u64::from(c.start);
        ends.extend([start, start + u64::from(c.count)]);
    }
    ends.sort_unstable();
    ends.dedup();
    let mut out: Vec<Count> = Vec::new();
    for w in ends.windows(2) {
        let n = match owners(list, w[0]) {
            n if w[0] < s || e <= w[0] => n,
            0 => 2,
            n => n + 1,
        };
        if n == 0 {
            continue;
        }
        let (start, count, n) = (w[0] as u32, (w[1] - w[0]) as u32, n as u32);
        match out.last_mut() {
            Some(l) if u64::from(l.start) + u64::from(l.count) == w[0] && l.owners == n => {
                l.count += count;
            }
            _ => out.push(Count {
                start,
                count,
                owners: n,
            }),
        }
    }
    out
}

/// Both new lists, or the number of the first question that fails.
pub fn due(map: &[u8], counts: &[u8], x: Rmap, room: [usize; 2]) -> Result<[Vec<u8>; 2], u32> {
    let new_map = paper::insert_shared(map, x, usize::MAX);
    let of_map = new_map.number();
    let of_counts = paper::release(counts, 0, 1, usize::MAX, usize::MAX).number();
    let of_lists = |n: &u8| *n < 22;
    if let Some(n) = of_map
        .filter(of_lists)
        .or(of_counts.filter(of_lists))
        .or(of_map)
    {
        return Err(n.into());
    }
    let list = lists::count_list(counts);
    let (s, e) = (
        u64::from(x.startblock),
        u64::from(x.startblock) + u64::from(x.blockcount),
    );
    let over = |start: u32, count: u32| {
        let start = u64::from(start);
        s < start + u64::from(count) && start < e
    };
    if list
        .iter()
        .any(|c| c.start >= STAGING && over(c.start - STAGING, c.count))
    {
        return Err(25);
    }
    let mut reach = s;
    for r in bare::rmap_list(map) {
        if u64::from(r.startblock) <= reach {
            reach = reach.max(u64::from(r.startblock) + u64::from(r.blockcount));
        }
    }
    if reach < e {
        return Err(27);
    }
    if list
        .iter()
        .any(|c| c.start < STAGING && c.owners == u32::MAX && over(c.start, c.count))
    {
        return Err(28);
    }
    let new_counts = lists::count_bytes(&raise(&list, s, e));
    let new_map = new_map.accepted().expect("no question failed");
    if room[0] < new_map.len() || room[1] < new_counts.len() {
        return Err(26);
    }
    Ok([new_map, new_counts])
}

/// Number, figures, and what both outputs begin with.
pub fn said(due: Result<[Vec<u8>; 2], u32>) -> (u32, [u64; 4], [Vec<u8>; 2]) {
    match due {
        Err(n) => (n, [0; 4], [vec![], vec![]]),
        Ok(new) => (0, [new[0].len() as u64, new[1].len() as u64, 0, 0], new),
    }
}

fn one(map: &[u8], counts: &[u8], x: Rmap, room: [usize; 2], tally: &mut Tally) {
    let input = || format!("take_held {x:?} rooms {room:?} map {map:02x?} counts {counts:02x?}");
    let (number, figures, left) = said(due(map, counts, x, room));
    let mut lent = room.map(Lent::<u8>::new);
    let [a, b] = &mut lent;
    let got: Said = library::take_held(map, counts, x, a.part(), b.part());
    if (got.number, got.figures) != (number, figures) {
        let library = format!("{} {:?}", got.number, got.figures);
        let definition = format!("{number} {figures:?}");
        differ("take_held", "answer", &library, &definition, &input());
    }
    for (l, due) in lent.iter().zip(&left) {
        if let Err(found) = l.holds(due) {
            differ(
                "take_held",
                "bytes",
                &found,
                &format!("{due:02x?}"),
                &input(),
            );
        }
    }
    tally.add("take_held", got.number);
}

/// A reverse map, counts, an extent, and the bytes lent for both new lists.
pub fn take(r: &mut Random) -> (Vec<u8>, Vec<u8>, Rmap, [usize; 2]) {
    let list = lists::rmaps(r);
    let mut map = bare::rmap_bytes(&list);
    let mut c = if r.below(3) != 0 {
        agreeing(&list)
    } else {
        lists::counts(r)
    };
    if r.below(10) == 0 {
        let more = lists::counts(r);
        c.extend(more.into_iter().filter(|c| c.start >= STAGING));
    }
    if r.below(8) == 0 {
        if let Some(c) = c.iter_mut().find(|c| c.start < STAGING) {
            c.owners = u32::MAX - r.below(2) as u32;
        }
    }
    let mut counts = lists::count_bytes(&c);
    match r.below(150) {
        0 => map.push(0),
        1 => counts.push(0),
        _ => (),
    }
    let mut x = lists::extent(r, &list);
    if r.below(2) == 0 {
        // Another owner over a part of a record.
        if let Some(&h) = list.get(r.below(list.len().max(1) as u64) as usize) {
            x = Rmap {
                owner: h.owner.wrapping_add(1 + r.below(3) as i64),
                ..h
            };
        }
    }
    let exact = due(&map, &counts, x, [usize::MAX; 2])
        .map_or([map.len(), counts.len()], |n| [n[0].len(), n[1].len()]);
    let mut room = exact.map(|n| n + r.below(20) as usize);
    if r.below(4) == 0 {
        let i = r.below(2) as usize;
        room[i] = rooms(r, exact[i]);
    }
    (map, counts, x, room)
}

pub fn takes(r: &mut Random, scale: u64, tally: &mut Tally) {
    for _ in 0..500_000 * scale {
        let (map, counts, x, room) = take(r);
        one(&map, &counts, x, room, tally);
    }
}

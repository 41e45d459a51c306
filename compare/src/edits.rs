//! Lists: accepted or not, edits of the reverse map, releases, and the whole
//! letting go.

use crate::lent::{hex, Lent};
use crate::library::{self, Edit, Said};
use crate::lists::{self, Count, STAGING};
use crate::tally::{differ, Tally};
use oracle::bare;
use oracle::paper;
use oracle::refusal::Outcome;
use oracle::rmap::{Rmap, OFF_BMBT_BLOCK, OFF_UNWRITTEN};
use oracle::sample::Random;

/// Number and figures that the original's outcome has; `figures` are those of
/// a result.
pub fn expect<T>(o: &Outcome<T>, figures: impl FnOnce(&T) -> [u64; 4]) -> (u32, [u64; 4]) {
    match o {
        Outcome::Accepted(v) => (0, figures(v)),
        Outcome::Refused(r) => {
            let (e, f) = r.values.unwrap_or((0, 0));
            (u32::from(r.number), [e, f, 0, 0])
        }
        Outcome::Unmapped(s) => panic!("a refusal of the original with no number: {s}"),
    }
}

/// Compare number and figures.
pub fn same(call: &'static str, got: &Said, want: (u32, [u64; 4]), input: &dyn Fn() -> String) {
    if (got.number, got.figures) != want {
        let say = |n: u32, f: &[u64; 4]| format!("{n} {f:?}");
        differ(
            call,
            "answer",
            &say(got.number, &got.figures),
            &say(want.0, &want.1),
            &input(),
        );
    }
}

/// Compare what lent memory holds.
pub fn bytes(call: &'static str, what: &str, r: Result<(), String>, input: &dyn Fn() -> String) {
    if let Err(e) = r {
        differ(call, what, &e, "", &input());
    }
}

/// Is a block of the extent held? If one is, then its first one or one that a
/// record starts with.
fn held(old: &[u8], x: Rmap) -> bool {
    let over = |b: u32, r: &Rmap| {
        r.startblock <= b && u64::from(b) < u64::from(r.startblock) + u64::from(r.blockcount)
    };
    let list = bare::rmap_list(old);
    list.iter()
        .map(|r| r.startblock)
        .chain([x.startblock])
        .filter(|&b| over(b, &x))
        .any(|b| list.iter().any(|r| over(b, r)))
}

/// What `insert` is to come to: where 19, 20 and 22 hold and a block of the
/// extent is held, 23. The original, which looks at one record only, answers
/// for the rest.
fn first_take(old: &[u8], x: Rmap, room: usize) -> Outcome<Vec<u8>> {
    let told = paper::insert(old, x, room);
    match told.number() {
        Some(19 | 20 | 22) => told,
        _ if held(old, x) => Outcome::paper(23),
        _ => told,
    }
}

/// What an edit is to come to.
pub fn due(e: Edit, old: &[u8], x: Rmap, room: usize) -> Outcome<Vec<u8>> {
    match e {
        Edit::Insert => first_take(old, x, room),
        Edit::InsertShared => paper::insert_shared(old, x, room),
        Edit::Remove => paper::remove(old, x, room),
    }
}

fn one_edit(e: Edit, old: &[u8], x: Rmap, room: usize, tally: &mut Tally) {
    let input = || format!("{e:?} {x:?} room {room} old {}", hex(old));
    let want = due(e, old, x, room);
    let mut new = Lent::<u8>::new(room);
    let got = library::edit(e, old, x, new.part());
    same(
        e.name(),
        &got,
        expect(&want, |v| [v.len() as u64, 0, 0, 0]),
        &input,
    );
    let left = want.accepted().unwrap_or_default();
    bytes(e.name(), "new list", new.holds(&left), &input);
    tally.add(e.name(), got.number);
    if e == Edit::Insert && got.number == 23 {
        tally.ahead(match paper::insert(old, x, room).number() {
            None => "accepts",
            Some(26) => "refuses by 26",
            _ => "refuses by 23",
        });
    }
}

/// Rooms around a length: just enough, one short, none, more.
pub fn rooms(r: &mut Random, exact: usize) -> usize {
    match r.below(8) {
        0..=2 => exact,
        3 => exact.saturating_sub(1),
        4 => exact.saturating_sub(r.below(30) as usize),
        5 => 0,
        _ => exact + 1 + r.below(50) as usize,
    }
}

/// Every list of up to two records of a small world, and every extent of it;
/// then lists around every boundary.
pub fn edits(r: &mut Random, scale: u64, tally: &mut Tally) {
    let mut world = Vec::new();
    for startblock in 0..4 {
        for blockcount in 1..3 {
            for owner in [7, -3] {
                for offset in [0, 1, 2, OFF_BMBT_BLOCK, OFF_UNWRITTEN | 1] {
                    world.push(Rmap {
                        startblock,
                        blockcount,
                        owner,
                        offset,
                    });
                }
            }
        }
    }
    let mut all: Vec<Vec<Rmap>> = vec![vec![]];
    all.extend(world.iter().map(|&a| vec![a]));
    for &a in &world {
        for &b in &world {
            all.push(vec![a, b]);
        }
    }
    for list in &all {
        let old = bare::rmap_bytes(list);
        for &x in &world {
            for e in Edit::ALL {
                one_edit(e, &old, x, old.len() + 24, tally);
            }
        }
        // The same with just enough room, and one byte less.
        let x = world[r.below(world.len() as u64) as usize];
        for e in Edit::ALL {
            let n = due(e, &old, x, usize::MAX)
                .accepted()
                .map_or(0, |v| v.len());
            one_edit(e, &old, x, n, tally);
            one_edit(e, &old, x, n.saturating_sub(1), tally);
        }
    }
    for _ in 0..500_000 * scale {
        let list = lists::rmaps(r);
        let mut old = bare::rmap_bytes(&list);
        if r.below(100) == 0 {
            old.extend(r.bytes(1).repeat(1 + r.below(23) as usize));
        }
        let x = lists::extent(r, &list);
        for e in Edit::ALL {
            let n = due(e, &old, x, usize::MAX)
                .accepted()
                .map_or(old.len(), |v| v.len());
            one_edit(e, &old, x, rooms(r, n), tally);
        }
    }
    // Longer lists.
    for _ in 0..2000 * scale {
        let n = 20 + r.below(200) as usize;
        let mut list: Vec<Rmap> = (0..n)
            .map(|_| {
                let mut x = lists::rmap(r, false);
                x.startblock = r.below(400) as u32;
                x
            })
            .filter(lists::good)
            .collect();
        list.sort_by_key(lists::key);
        let old = bare::rmap_bytes(&list);
        for _ in 0..10 {
            let x = lists::extent(r, &list);
            for e in Edit::ALL {
                one_edit(e, &old, x, old.len() + 24, tally);
            }
        }
    }
}

fn one_release(
    old: &[u8],
    (start, count): (u32, u32),
    room: usize,
    free_room: usize,
    tally: &mut Tally,
) {
    let input = || {
        format!(
            "release {start} {count} rooms {room} {free_room} old {}",
            hex(old)
        )
    };
    let want = paper::release(old, start, count, room, free_room);
    let (mut new, mut free) = (Lent::<u8>::new(room), Lent::<u8>::new(free_room));
    let got = library::release(old, start, count, new.part(), free.part());
    same(
        "release",
        &got,
        expect(&want, |v| {
            [v.counts.len() as u64, v.free.len() as u64, 0, 0]
        }),
        &input,
    );
    let (counts, extents) = want
        .accepted()
        .map_or((vec![], vec![]), |v| (v.counts, v.free));
    bytes("release", "new counts", new.holds(&counts), &input);
    bytes("release", "free extents", free.holds(&extents), &input);
    tally.add("release", got.number);
}

pub fn releases(r: &mut Random, scale: u64, tally: &mut Tally) {
    // A small world: up to two shared counts and one staging record.
    let mut world = Vec::new();
    for start in 0..5 {
        for count in 1..4 {
            for owners in [2, 3] {
                world.push(Count {
                    start,
                    count,
                    owners,
                });
            }
        }
    }
    let mut all: Vec<Vec<Count>> = vec![vec![]];
    all.extend(world.iter().map(|&a| vec![a]));
    for &a in &world {
        for &b in &world {
            all.push(vec![a, b]);
            let staged = Count {
                start: b.start | STAGING,
                count: b.count,
                owners: 1,
            };
            all.push(vec![a, staged]);
        }
    }
    for list in &all {
        let old = lists::count_bytes(list);
        for start in 0..7 {
            for count in 0..8 {
                one_release(&old, (start, count), old.len() + 24, 24, tally);
            }
        }
    }
    for _ in 0..1_000_000 * scale {
        let list = lists::counts(r);
        let mut old = lists::count_bytes(&list);
        if r.below(100) == 0 {
            let n = 1 + r.below(11) as usize;
            old.extend(r.bytes(n));
        }
        let run = lists::run(r, &list);
        let (n, f) = paper::release(&old, run.0, run.1, usize::MAX, usize::MAX)
            .accepted()
            .map_or((old.len(), 8), |v| (v.counts.len(), v.free.len()));
        one_release(&old, run, rooms(r, n), rooms(r, f), tally);
    }
}

fn one_let_go(map: &[u8], counts: &[u8], x: Rmap, room: [usize; 3], tally: &mut Tally) {
    let input = || {
        format!(
            "let_go {x:?} rooms {room:?} map {} counts {}",
            hex(map),
            hex(counts)
        )
    };
    let want = paper::let_go(map, counts, x, room[0], room[1], room[2]);
    let mut lent = room.map(Lent::<u8>::new);
    let [a, b, c] = &mut lent;
    let got = library::let_go(map, counts, x, a.part(), b.part(), c.part());
    same(
        "let_go",
        &got,
        expect(&want, |v| {
            let r = &v.released;
            [
                v.rmap.len() as u64,
                r.counts.len() as u64,
                r.free.len() as u64,
                0,
            ]
        }),
        &input,
    );
    let left = match want.accepted() {
        None => [vec![], vec![], vec![]],
        Some(v) => [v.rmap, v.released.counts, v.released.free],
    };
    for ((l, due), what) in lent
        .iter()
        .zip(&left)
        .zip(["map", "counts", "free extents"])
    {
        bytes("let_go", what, l.holds(due), &input);
    }
    tally.add("let_go", got.number);
}

/// Shared counts that agree with a reverse map: a record of n owners over
/// each longest run of blocks that n records, two or more, lie over.
pub fn agreeing(list: &[Rmap]) -> Vec<Count> {
    let mut at = std::collections::BTreeMap::new();
    for x in list {
        for b in x.startblock..x.startblock.saturating_add(x.blockcount) {
            *at.entry(b).or_insert(0u32) += 1;
        }
    }
    let mut out: Vec<Count> = Vec::new();
    for (start, owners) in at {
        if owners < 2 {
            continue;
        }
        match out.last_mut() {
            Some(l) if l.start + l.count == start && l.owners == owners => l.count += 1,
            _ => out.push(Count {
                start,
                count: 1,
                owners,
            }),
        }
    }
    out
}

pub fn lets_go(r: &mut Random, scale: u64, tally: &mut Tally) {
    for _ in 0..500_000 * scale {
        let list = lists::rmaps(r);
        let mut map = bare::rmap_bytes(&list);
        let mut c = if r.below(2) == 0 {
            agreeing(&list)
        } else {
            lists::counts(r)
        };
        if r.below(10) == 0 {
            let more = lists::counts(r);
            c.extend(more.into_iter().filter(|c| c.start >= STAGING));
        }
        let mut counts = lists::count_bytes(&c);
        match r.below(150) {
            0 => map.push(0),
            1 => counts.push(0),
            _ => (),
        }
        let x = lists::extent(r, &list);
        let m = usize::MAX;
        let exact = paper::let_go(&map, &counts, x, m, m, m).accepted().map_or(
            [map.len(), counts.len(), 8],
            |v| {
                let r = &v.released;
                [v.rmap.len(), r.counts.len(), r.free.len()]
            },
        );
        let mut room = exact.map(|n| n + r.below(20) as usize);
        if r.below(4) == 0 {
            let i = r.below(3) as usize;
            room[i] = rooms(r, exact[i]);
        }
        one_let_go(&map, &counts, x, room, tally);
    }
}

/// Questions 19 to 21 by themselves.
pub fn accepted_lists(r: &mut Random, scale: u64, tally: &mut Tally) {
    for _ in 0..300_000 * scale {
        let mut b = bare::rmap_bytes(&lists::rmaps(r));
        if r.below(4) == 0 && !b.is_empty() {
            let i = r.below(b.len() as u64) as usize;
            b[i] ^= 1 << r.below(8);
        }
        if r.below(50) == 0 {
            b.truncate(r.below(b.len() as u64 + 1) as usize);
        }
        // No extent is worse than question 22's, which comes right after.
        let bad = Rmap {
            startblock: 0,
            blockcount: 0,
            owner: 0,
            offset: 0,
        };
        let want = match paper::insert(&b, bad, 0).number() {
            Some(22) => 0,
            Some(n) => u32::from(n),
            None => panic!("an empty extent was taken"),
        };
        let got = library::check_rmaps(&b);
        if got != want {
            differ(
                "check_rmaps",
                "answer",
                &got.to_string(),
                &want.to_string(),
                &hex(&b),
            );
        }
        tally.add("check_rmaps", got);

        let mut b = lists::count_bytes(&lists::counts(r));
        if r.below(4) == 0 && !b.is_empty() {
            let i = r.below(b.len() as u64) as usize;
            b[i] ^= 1 << r.below(8);
        }
        if r.below(50) == 0 {
            b.truncate(r.below(b.len() as u64 + 1) as usize);
        }
        let want = match paper::release(&b, 0, 0, 0, 0).number() {
            Some(22) => 0,
            Some(n) => u32::from(n),
            None => panic!("an empty extent was let go"),
        };
        let got = library::check_refcounts(&b);
        if got != want {
            differ(
                "check_refcounts",
                "answer",
                &got.to_string(),
                &want.to_string(),
                &hex(&b),
            );
        }
        tally.add("check_refcounts", got);
    }
}

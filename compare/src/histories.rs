//! Histories of changes through a sheet, over vectors: `kf::Sheet` and
//! `kf::Group::apply`. Each change is held against the same edit by the original and the
//! definitions (`vectors`).

use crate::edits::agreeing;
use crate::free;
use crate::held;
use crate::lent::hex;
use crate::lists;
use crate::sheets::{list, write, Met, Step, READ, WRITE};
use crate::tally::differ;
use crate::vectors::{let_go_due, take_due, take_held_due, Left};
use kf::{Applied, Group, Sheet};
use oracle::bare;
use oracle::rmap::Rmap;
use oracle::sample::Random;
use std::slice;

/// A change for lists as they are: mostly a take of blocks near them, a part of a record
/// let go, or one that another owner takes too.
fn next(r: &mut Random, map: &[u8]) -> Step {
    let records = bare::rmap_list(map);
    let kind = 1 + r.below(3) as u32;
    if records.is_empty() || r.below(5) == 0 {
        return (kind, lists::extent(r, &records));
    }
    let w = r.pick(&records);
    let blocks = u64::from(w.blockcount.max(1));
    let skipped = r.below(blocks);
    let part = Rmap {
        startblock: w.startblock.wrapping_add(skipped as u32),
        blockcount: 1 + r.below(blocks - skipped) as u32,
        offset: w.offset.wrapping_add(skipped),
        ..w
    };
    let x = match kind {
        1 => Rmap {
            startblock: r.below(64) as u32,
            blockcount: 1 + r.below(4) as u32,
            owner: r.pick(&lists::OWNERS),
            offset: r.below(64),
        },
        2 => part,
        _ => Rmap {
            owner: w.owner.wrapping_add(1 + r.below(3) as i64),
            offset: r.below(64),
            ..part
        },
    };
    (kind, x)
}

fn due(&(kind, x): &Step, map: &[u8], counts: &[u8]) -> Result<Left, u32> {
    match kind {
        1 => take_due(map, counts, x),
        2 => let_go_due(map, counts, x),
        _ => take_held_due(map, counts, x),
    }
}

/// Did the layer make of a change what is due?
fn as_due(got: &Applied, kind: u32, due: &Result<Vec<u8>, u32>) -> bool {
    match (got.refusal(), due) {
        (Some(refusal), Err(n)) => refusal.number == *n,
        (None, Ok(free)) if kind == 2 => {
            let free = free::extents(free).into_iter().map(|x| kf::FreeExtent {
                startblock: x.startblock,
                blockcount: x.blockcount,
            });
            *got == Applied::LetGo(free.collect())
        }
        (None, Ok(_)) => *got == Applied::Taken,
        _ => false,
    }
}

/// Do the counts agree with the map, and are the blocks freed those of the extent that
/// no record lies over? So it is everywhere if it is where something begins or ends.
fn agree(x: Rmap, [map, counts, freed]: &Left) -> bool {
    let blocks = |start: u32, count: u32| u64::from(start)..u64::from(start) + u64::from(count);
    let of_record = |x: &Rmap| blocks(x.startblock, x.blockcount);
    let (map, counts) = (bare::rmap_list(map), lists::count_list(counts));
    let records = map.iter().map(of_record);
    let freed = free::extents(freed).into_iter();
    let freed: Vec<_> = freed.map(|x| blocks(x.startblock, x.blockcount)).collect();
    let ends = counts.iter().map(|c| blocks(c.start, c.count));
    let ends = ends.chain(records.clone()).chain(freed.clone());
    let mut places = ends.chain([of_record(&x)]).flat_map(|b| [b.start, b.end]);
    places.all(|at| {
        let holders = records.clone().filter(|b| b.contains(&at)).count() as u64;
        let shared = if holders < 2 { 0 } else { holders };
        let free = of_record(&x).contains(&at) && holders == 0;
        held::owners(&counts, at) == shared && freed.iter().any(|b| b.contains(&at)) == free
    })
}

/// Each change that it is given counts as a call.
pub const APPLY: &str = "Group::apply";
/// The answers that a change has.
pub const ANSWERS: [u32; 10] = [0, 19, 20, 21, 22, 23, 24, 25, 27, 28];
pub const MADE: &str = "Group::apply, of the changes of a sheet";
pub const AGREE: &str = "Group::apply, after each change the lists still agree";

/// A history of changes through a sheet: written, read back, and made at once and one by
/// one. What comes of each, and both lists after it, are those of the same edits.
pub fn history(r: &mut Random, met: &mut Met) {
    let (map, counts, agreed) = match r.below(8) {
        0 | 1 => (vec![], vec![], true),
        2 => {
            let (map, counts, ..) = held::take(r);
            (map, counts, false)
        }
        _ => {
            let records = lists::rmaps(r);
            let counts = lists::count_bytes(&agreeing(&records));
            (bare::rmap_bytes(&records), counts, true)
        }
    };
    let first = Group::new(map, counts);
    let mut lists = vec![(first.map.clone(), first.counts.clone())];
    let (mut steps, mut told) = (Vec::new(), Vec::new());
    for _ in 0..1 + r.below(40) {
        let (map, counts) = lists.last().expect("the first");
        let step = next(r, map);
        let due = due(&step, map, counts);
        steps.push(step);
        match due {
            Err(n) => {
                lists.push((map.clone(), counts.clone()));
                told.push(Err(n));
            }
            Ok(left) => {
                if agreed {
                    assert!(agree(step.1, &left), "{first:?} {steps:?} {left:02x?}");
                    let freed = !left[2].is_empty();
                    let how = if freed {
                        "blocks freed"
                    } else {
                        "no block freed"
                    };
                    met.tally.note(AGREE, how);
                }
                let [map, counts, free] = left;
                lists.push((map, counts));
                told.push(Ok(free));
            }
        }
    }
    let changes = list(&steps);
    WRITE.on(&changes, &[0], met);
    let sheet = write(&changes).expect("good changes");
    READ.on(&sheet, &[0], met);
    let read = Sheet::read(&sheet).expect("a good sheet");

    let (mut whole, mut group) = (first.clone(), first.clone());
    let all = whole.apply(&read);
    assert_eq!(all.len(), steps.len(), "of each change one");
    for (i, (change, (map, counts))) in read.iter().zip(&lists[1..]).enumerate() {
        let one = group.apply(slice::from_ref(change));
        let same = |got| as_due(got, steps[i].0, &told[i]);
        if !same(&all[i]) || !same(&one[0]) || (&group.map, &group.counts) != (map, counts) {
            differ(
                APPLY,
                "result",
                &format!("{:?} {:?} {group:?}", all[i], one[0]),
                &format!("{:?} map {} counts {}", told[i], hex(map), hex(counts)),
                &format!("{first:?}, change {i} of {read:?}"),
            );
        }
        let number = *told[i].as_ref().err().unwrap_or(&0);
        for _ in 0..2 {
            met.tally.add(APPLY, number);
        }
    }
    let (map, counts) = &lists[steps.len()];
    if (&whole.map, &whole.counts) != (map, counts) {
        let left = format!("map {} counts {}", hex(map), hex(counts));
        let input = format!("{first:?} {read:?}");
        differ(APPLY, "lists", &format!("{whole:?}"), &left, &input);
    }
    let done = told.iter().filter(|t| t.is_ok()).count();
    let how = match done {
        0 => "none made",
        n if n == steps.len() => "all made",
        _ => "some made",
    };
    met.tally.note(MADE, how);
}

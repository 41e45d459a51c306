//! The layer over vectors, `kf::Group` and `kf::Tree`, beside the original with
//! as much memory as it may want (a walk with what the layer has room for): the
//! same lists, blocks and free extents, or the same refusal, which is never 12,
//! 18 or 26. A lookup is held against its definition.

use crate::edits;
use crate::held;
use crate::kinds::{Kind, STACK_PLACES};
use crate::lent::hex;
use crate::library::Edit;
use crate::links;
use crate::lookups::{self, Lookup};
use crate::sequence;
use crate::tally::{differ, Tally};
use crate::trees::{self, SmallWalk};
use kf::{Group, Refusal, Root};
use oracle::alloc_btree::Order;
use oracle::paper;
use oracle::refusal::Outcome;
use oracle::rmap::Rmap;
use oracle::sample::Random;
use oracle::{Geometry, Tree};

const MOST: usize = usize::MAX;

pub fn kind(kind: Kind) -> kf::Kind {
    match kind {
        Kind::Older(Tree::Rmap) => kf::Kind::Rmap,
        Kind::Older(Tree::Refcount) => kf::Kind::Refcount,
        Kind::Free(Order::ByBlock) => kf::Kind::ByBlock,
        Kind::Free(Order::ByCount) => kf::Kind::BySize,
    }
}

pub fn geometry(g: &Geometry) -> kf::Geometry {
    kf::Geometry::new(
        u16::try_from(g.version).expect("a version of 16 bits"),
        u32::try_from(g.block_size).expect("a block size of 32 bits"),
        g.agblocks,
        g.agno,
        g.meta_uuid,
    )
    .with_last_lsn(sequence::last_lsn(g))
}

pub fn extent(x: Rmap) -> kf::Rmap {
    kf::Rmap {
        startblock: x.startblock,
        blockcount: x.blockcount,
        owner: x.owner,
        offset: x.offset,
    }
}

/// What an edit of a group leaves: both lists and the bytes of the free extents.
pub type Left = [Vec<u8>; 3];

/// What a first take is to come to, or the number of the question that refuses it.
pub fn take_due(map: &[u8], counts: &[u8], x: Rmap) -> Result<Left, u32> {
    let due = edits::due(Edit::Insert, map, x, MOST);
    match due.number() {
        Some(n) => Err(n.into()),
        None => Ok([due.accepted().expect("a map"), counts.to_vec(), vec![]]),
    }
}

/// The same of a take of held blocks.
pub fn take_held_due(map: &[u8], counts: &[u8], x: Rmap) -> Result<Left, u32> {
    held::due(map, counts, x, [MOST; 2]).map(|[map, counts]| [map, counts, vec![]])
}

/// The same of a let go.
pub fn let_go_due(map: &[u8], counts: &[u8], x: Rmap) -> Result<Left, u32> {
    let due = paper::let_go(map, counts, x, MOST, MOST, MOST);
    match due.number() {
        Some(n) => Err(n.into()),
        None => {
            let v = due.accepted().expect("both lists");
            Ok([v.rmap, v.released.counts, v.released.free])
        }
    }
}

/// One edit of a group: what the layer makes of it, and what it is to come to.
fn edited(
    call: &'static str,
    group: &Group,
    got: Result<Left, Refusal>,
    due: Result<Left, u32>,
    x: Rmap,
    tally: &mut Tally,
) {
    let got = got.map_err(|refusal| refusal.number);
    let number = got.as_ref().err().copied().unwrap_or(0);
    if got != due || number == 26 {
        let (map, counts) = (hex(&group.map), hex(&group.counts));
        differ(
            call,
            "result",
            &format!("{got:02x?}"),
            &format!("{due:02x?}"),
            &format!("{x:?} map {map} counts {counts}"),
        );
    }
    tally.add(call, number);
}

/// By the call `f` of the layer, which changes nothing where it refuses.
fn by(
    group: &Group,
    f: impl FnOnce(&mut Group) -> Result<Vec<kf::FreeExtent>, Refusal>,
) -> Result<Left, Refusal> {
    let mut new = group.clone();
    match f(&mut new) {
        Ok(free) => {
            let free = free.iter().flat_map(|x| x.to_bytes()).collect();
            Ok([new.map, new.counts, free])
        }
        Err(refusal) => {
            assert!(new == *group, "a refusal changed the group: {refusal}");
            Err(refusal)
        }
    }
}

/// Notes whether a list took all of the room that it had.
fn room(what: &'static str, taken: usize, had: usize, tally: &mut Tally) {
    assert!(taken <= had, "{what}: {taken} of {had}");
    tally.note(what, if taken == had { "taken" } else { "not taken" });
}

const ROOMS: [&str; 4] = [
    "vectors, all room of a new map",
    "vectors, all room of lowered counts",
    "vectors, all room of raised counts",
    "vectors, all room of free extents",
];

fn edits_of(map: Vec<u8>, counts: Vec<u8>, x: Rmap, tally: &mut Tally) {
    let group = Group::new(map, counts);
    let (map, counts, y) = (&group.map, &group.counts, &extent(x));
    let met = group
        .refcounts()
        .filter(|r| !r.is_staging() && u64::from(r.block()) < y.end())
        .filter(|r| u64::from(y.startblock) < r.end())
        .count();

    let took = by(&group, |g| g.take(y).map(|()| vec![]));
    let due = take_due(map, counts, x);
    edited("Group::take", &group, took, due, x, tally);

    let held = by(&group, |g| g.take_held(y).map(|()| vec![]));
    if let Ok([_, raised, _]) = &held {
        room(ROOMS[2], raised.len(), counts.len() + (met + 1) * 12, tally);
    }
    let due = take_held_due(map, counts, x);
    edited("Group::take_held", &group, held, due, x, tally);

    let gone = by(&group, |g| g.let_go(y));
    if let Ok([left, lowered, free]) = &gone {
        room(ROOMS[0], left.len(), map.len() + 24, tally);
        room(ROOMS[1], lowered.len(), counts.len() + 24, tally);
        room(ROOMS[3], free.len(), (met + 1) * 8, tally);
    }
    let due = let_go_due(map, counts, x);
    edited("Group::let_go", &group, gone, due, x, tally);
}

pub fn build(r: &mut Random, of: &[Kind], tally: &mut Tally) {
    let (g, tree, list, numbers, _) = trees::to_build(r, of);
    let got = kf::Tree::build(&geometry(&g), kind(tree), &list, &numbers);
    let got = got.map_err(|refusal| refusal.number);
    let due = links::build(&g, tree, &list, &numbers, MOST);
    let due = match due.number() {
        Some(n) => Err(n.into()),
        None => Ok(due.accepted().expect("blocks")),
    };
    if got != due {
        let input = format!("{g:?} {tree:?} numbers {numbers:?} list {}", hex(&list));
        let say = |o: &Result<Vec<u8>, u32>| format!("{o:02x?}");
        differ("Tree::build", "result", &say(&got), &say(&due), &input);
    }
    tally.add("Tree::build", got.err().unwrap_or(0));
}

pub fn walk(r: &mut Random, of: &[Kind], tally: &mut Tally) {
    one_walk(&trees::small_walk(r, of), tally);
}

/// A walk by each of the two calls.
pub fn one_walk(w: &SmallWalk, tally: &mut Tally) {
    // What the layer has room for.
    let size = w.g.block_size as usize;
    let limit = w.g.agblocks.max(64) as usize;
    let most = w.blocks.min(limit).min(w.image.len() / size);
    let lent = paper::Lent {
        record_bytes: most * size,
        block_places: most,
        ..paper::Lent::PLENTY
    };
    let due = w.due(&lent);
    let due = match due.outcome {
        Outcome::Accepted(v) => {
            let linked = links::linked(&w.g, &w.image, &v.blocks);
            Ok((v.blocks, v.records, linked))
        }
        refused => Err(refused_by(&refused, due.visits)),
    };
    let root = Root::new(w.root, w.levels, w.blocks as u32);
    let g = &geometry(&w.g).with_last_lsn(w.last_lsn);
    let by_walk = kf::Tree::walk(g, kind(w.kind), &w.image, root)
        .map(|t| (t.blocks, t.records, t.linked))
        .map_err(why);
    // This one does not say whether the tree is linked.
    let linked = due.as_ref().is_ok_and(|d| d.2);
    let textbook = kf::Tree::walk_textbook(g, kind(w.kind), &w.image, root)
        .map(|t| (t.blocks, t.records, linked))
        .map_err(why);
    for (call, got) in [("Tree::walk", by_walk), ("Tree::walk_textbook", textbook)] {
        if got != due {
            let (say, image) = (format!("{got:02x?}"), hex(&w.image));
            let input = format!(
                "{:?} last {} {:?} root {} levels {} blocks {} image {image}",
                w.g, w.last_lsn, w.kind, w.root, w.levels, w.blocks
            );
            differ(call, "result", &say, &format!("{due:02x?}"), &input);
        }
        tally.add(call, got.err().map_or(0, |(n, ..)| n));
    }
}

/// The number of a refused walk or lookup, its two values and its visits.
type Why = (u32, [u64; 2], usize);

fn why(refused: kf::WalkRefusal) -> Why {
    let values = refused.refusal.values;
    let two = values.map_or([0; 2], |v| [v.expected, v.found]);
    (refused.refusal.number, two, refused.visits)
}

/// The same as it is due.
fn refused_by<T>(outcome: &Outcome<T>, visits: u64) -> Why {
    let (number, [expected, found, ..]) = edits::expect(outcome, |_| [0; 4]);
    (number, [expected, found], visits as usize)
}

fn lookup(r: &mut Random, tally: &mut Tally) {
    one_lookup(lookups::small(r), tally);
}

/// A lookup, with what the layer lends.
pub fn one_lookup(mut l: Lookup, tally: &mut Tally) {
    // The layer lends as many places of the stack as 12 asks for, and a place for
    // each number.
    l.stack = STACK_PLACES;
    l.answers = l.asked.len();
    let root = Root::new(l.root, l.levels, 0);
    let g = geometry(&l.g).with_last_lsn(l.last_lsn);
    let got = kf::Tree::lookup(&g, &l.image, root, &l.asked)
        .map(|found| (found.holders, found.visits))
        .map_err(why);
    let due = l.due();
    let visits = due.visited.len();
    let due = match due.left {
        lookups::Left::Found(answers) => Ok((answers, visits)),
        _ => Err((due.number, [due.figures[0], due.figures[1]], visits)),
    };
    if got != due {
        let (say, told) = (format!("{got:?}"), format!("{due:?}"));
        differ("Tree::lookup", "result", &say, &told, &l.input());
    }
    tally.add("Tree::lookup", got.err().map_or(0, |(n, ..)| n));
}

pub fn vectors(r: &mut Random, scale: u64, tally: &mut Tally) {
    for _ in 0..200_000 * scale {
        let (map, counts, x, _) = held::take(r);
        edits_of(map, counts, x, tally);
    }
    for what in ROOMS {
        tally.met_both(what);
    }
    for _ in 0..5_000 * scale {
        build(r, &Kind::OLDER, tally);
        walk(r, &Kind::OLDER, tally);
    }
    for _ in 0..5_000 * scale {
        lookup(r, tally);
    }
    let lends: Vec<u32> = lookups::ANSWERS.into_iter().filter(|&n| n != 12).collect();
    tally.met_all("Tree::lookup", &lends);
}

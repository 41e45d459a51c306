//! The textbook walk where its two routines go deepest: through nine levels of
//! full nodes, in a thread with a small stack too, and through small images with
//! any pointers. How much of the machine's stack the walks and a lookup take is
//! measured on the way.

use crate::blocks::seal;
use crate::kinds::{self, header_len, pointer, Kind, STACK_PLACES};
use crate::lent::Lent;
use crate::library::{self, Said, Walk};
use crate::links;
use crate::lookups::{self, Lookup};
use crate::sequence;
use crate::tally::Tally;
use crate::trees::{self, Memory, Room, SmallWalk};
use oracle::ag_btree::reach::stamp;
use oracle::sample::Random;
use oracle::Geometry;
use std::thread;

/// Every answer that a walk can have.
pub const ANSWERS: [u32; 16] = [0, 1, 3, 4, 5, 6, 7, 8, 9, 10, 11, 12, 13, 14, 15, 30];

/// The levels that a tree has at most.
const LEVELS: u32 = 9;

/// The bytes of the machine's stack that calls took at most, with their parameters.
const TAKEN: &str = "machine's stack over nine levels, bytes";

/// Those that kf.h says are enough.
pub fn enough(call: &str) -> usize {
    match call {
        "walk_textbook" => 12 * 1024,
        _ => 8 * 1024,
    }
}

/// The walks of images with any pointers, by what the blocks met were.
const MET: &str = "walk_textbook with any pointers, of those done";

/// The same in a thread with the smallest stack that there is.
fn on_a_small_stack<T: Send>(f: impl FnOnce() -> T + Send) -> T {
    let small = thread::Builder::new().stack_size(1);
    thread::scope(|s| {
        let made = small.spawn_scoped(s, f).expect("a thread");
        made.join().expect("the thread ends")
    })
}

/// So much of the machine's stack a call took.
fn took(call: &'static str, bytes: usize, tally: &mut Tally) {
    assert!(bytes <= enough(call), "{call} took {bytes} bytes");
    tally.measure(TAKEN, call, bytes as u64);
}

/// What a call said, as one value.
fn said(s: Said) -> (u32, [u64; 4]) {
    (s.number, s.figures)
}

/// A tree from its root in an image, block n at level n.
struct Deep {
    g: Geometry,
    kind: Kind,
    image: Vec<u8>,
    levels: u32,
}

impl Deep {
    fn new(g: Geometry, kind: Kind, counts: &[usize]) -> Deep {
        Deep {
            g,
            kind,
            image: trees::folded(&g, kind, counts),
            levels: counts.len() as u32,
        }
    }

    /// Nine levels, every node full.
    fn full(g: Geometry, kind: Kind) -> Deep {
        let mut counts = [kinds::node_capacity(&g, kind); LEVELS as usize];
        counts[0] = 1;
        Deep::new(g, kind, &counts)
    }

    fn walk(&self, room: Room, tally: &mut Tally) -> bool {
        let (g, root) = (&self.g, self.levels - 1);
        trees::one_walk(g, self.kind, &self.image, root, self.levels, room, tally).is_some()
    }

    /// Each walk on a stack that is measured, and in a thread with a small one: it
    /// comes to the same.
    fn on_other_stacks(&self, room: Room, tally: &mut Tally) {
        let Deep { g, kind, image, .. } = self;
        let (root, levels) = (self.levels - 1, self.levels);
        let at = &library::g(g);
        for w in Walk::ALL {
            let mut m = [(); 3].map(|()| Memory::new(room));
            let [a, b, c] = &mut m;
            let due = said(a.walk(w, at, *kind, image, root, levels));
            let (deep, taken) = b.measured(w, at, *kind, image, root, levels);
            took(w.name(), taken, tally);
            let small = on_a_small_stack(|| c.walk(w, at, *kind, image, root, levels));
            assert_eq!(said(deep), due, "{w:?} {g:?} {kind:?} {room:?}: measured");
            assert_eq!(said(small), due, "{w:?} {g:?} {kind:?} {room:?}: small");
            assert!(*a == *b && *a == *c, "{w:?} {g:?} {kind:?} {room:?}: left");
            for _ in 0..3 {
                tally.add_tree(w.name(), *kind, g, due.0);
            }
        }
    }

    /// The same of a lookup by which no child is skipped: all keys start at 0.
    fn lookup(&self, tally: &mut Tally) {
        let l = Lookup {
            g: self.g,
            last_lsn: sequence::last_lsn(&self.g),
            image: self.image.clone(),
            root: self.levels - 1,
            levels: self.levels,
            asked: vec![0, 4, 5],
            stack: STACK_PLACES,
            answers: 4,
        };
        let due = lookups::one(&l, tally);
        let mut stack = Lent::<u32>::new(l.stack);
        let mut answers = Lent::<u64>::new(l.answers);
        let (got, taken) = library::measured_lookup(
            &library::g(&l.g).at(l.last_lsn),
            &l.image,
            l.root,
            l.levels,
            &l.asked,
            stack.part(),
            answers.part(),
        );
        assert_eq!(said(got), (due.number, due.figures), "{}", l.input());
        tally.add("lookup", due.number);
        took("lookup", taken, tally);
    }
}

/// The versions that have the kind.
fn versions(kind: Kind) -> &'static [u64] {
    match kind {
        Kind::Older(_) => &[5],
        Kind::Free(_) => &[4, 5],
    }
}

/// Nine levels of full nodes: the leaf is met again and again until 13, or until 15
/// where a list is shorter. Nodes of 65,536 bytes have up to 8,185 children, which is
/// more than are visited; at 512 bytes the walk goes up and down again.
fn full_nodes(tally: &mut Tally) {
    for size in [65_536, 512] {
        for kind in Kind::ALL {
            for &version in versions(kind) {
                for agblocks in [5000, 64, 0] {
                    // A check of so many large blocks takes long: of one kind.
                    if size == 65_536 && agblocks == 5000 && kind != Kind::REFCOUNT {
                        continue;
                    }
                    let g = Geometry {
                        version,
                        agblocks,
                        ..Geometry::v5(size)
                    };
                    full_tree(&Deep::full(g, kind), tally);
                }
            }
        }
    }
}

fn full_tree(t: &Deep, tally: &mut Tally) {
    let limit = t.g.agblocks.max(64) as usize;
    let record = t.kind.record_len();
    let plenty = Room {
        stack: STACK_PLACES,
        scratch: limit,
        blocks: limit,
        bytes: limit * record,
    };
    let blocks = |blocks| Room { blocks, ..plenty };
    let bytes = |bytes| Room { bytes, ..plenty };
    let mut rooms = vec![
        plenty,
        blocks(0),
        blocks(5),
        blocks(8),
        blocks(9),
        blocks(63),
    ];
    rooms.extend([
        bytes(0),
        bytes(record - 1),
        bytes(record),
        bytes(20 * record),
    ]);
    for room in rooms {
        assert!(!t.walk(room, tally), "{room:?}");
        t.on_other_stacks(room, tally);
    }
    // Too short a stack for the others.
    let stack = STACK_PLACES - 1;
    assert!(!t.walk(Room { stack, ..plenty }, tally));
    if t.kind == Kind::RMAP {
        t.lookup(tally);
    }
}

/// Trees that are read to the end: nine levels with few children, and a node with as
/// many as it has room for.
fn whole_trees(tally: &mut Tally) {
    for size in [65_536, 512] {
        for kind in Kind::ALL {
            for &version in versions(kind) {
                let mut g = Geometry {
                    version,
                    ..Geometry::v5(size)
                };
                whole_tree(&Deep::new(g, kind, &trees::few_children(LEVELS)), tally);
                let cap = kinds::node_capacity(&g, kind);
                g.agblocks = cap as u32 + 1;
                // The most children that a node of any kind has, and any at 512.
                if size == 512 || kind == Kind::REFCOUNT {
                    whole_tree(&Deep::new(g, kind, &[1, cap]), tally);
                }
            }
        }
    }
}

fn whole_tree(t: &Deep, tally: &mut Tally) {
    let limit = t.g.agblocks.max(64) as usize;
    let room = Room {
        stack: STACK_PLACES,
        scratch: limit + 2,
        blocks: limit + 1,
        bytes: limit * t.kind.record_len() + 7,
    };
    assert!(t.walk(room, tally), "{room:?}");
    t.on_other_stacks(room, tally);
    if t.kind == Kind::RMAP {
        t.lookup(tally);
    }
}

/// A small image: one to three blocks of each level at any numbers. A pointer is
/// mostly to a block of the level below, which other nodes have too; else to any
/// block, so that there are cycles, which the levels stop, or outside. Some blocks
/// are damaged, and some of the rest is otherwise asked or lent.
fn any_image(r: &mut Random) -> SmallWalk {
    let size = r.pick(&[512, 512, 512, 1024]);
    let mut g = Geometry::v5(size as u64);
    g.agblocks = r.pick(&[0, 64, 65, 70, 200]);
    g.agno = r.below(3) as u32;
    g.meta_uuid = r.bytes(16).try_into().expect("16 bytes");
    let kind = r.pick(&Kind::ALL);
    kinds::some_version(r, kind, &mut g);

    let levels = 1 + r.below(u64::from(LEVELS)) as u32;
    let mut level_of = Vec::new();
    for level in 0..levels {
        let most = r.pick(&[1, 1, 2, 3]);
        level_of.extend(vec![level; most]);
    }
    let total = level_of.len();
    let most = total + r.below(3) as usize;
    let at = trees::numbers(r, total, most);
    let of = |level: u32| -> Vec<u32> {
        let mine = level_of.iter().zip(&at).filter(|(l, _)| **l == level);
        mine.map(|(_, n)| *n).collect()
    };
    let mut image = r.bytes(most * size);
    let strange = r.pick(&[0, 0, 0, 3, 12]);
    for (&level, &n) in level_of.iter().zip(&at) {
        let b = &mut image[n as usize * size..][..size];
        let count = match level {
            0 => r.below(((size - header_len(&g)) / kind.record_len()) as u64 + 1) as usize,
            _ => {
                let cap = kinds::node_capacity(&g, kind);
                r.pick(&[0, 1, 1, 1, 2, 2, 3, cap]).min(cap)
            }
        };
        for i in 0..if level == 0 { 0 } else { count } {
            let to = match r.below(100) {
                p if p >= strange => r.pick(&of(level - 1)),
                0 => r.pick(&[most as u32, u32::MAX, 1 << 31]),
                _ => r.pick(&at),
            };
            links::put(b, pointer(&g, kind, i), to);
        }
        stamp(
            b,
            &g.superblock(),
            kind.shape(),
            g.agno,
            n,
            level as u16,
            count as u16,
        );
        sequence::not_newer(&g, b);
        seal(&g, b);
    }

    let mut w = SmallWalk {
        g,
        last_lsn: sequence::last_lsn(&g),
        kind,
        root: r.pick(&of(levels - 1)),
        levels,
        stack: STACK_PLACES,
        scratch: 210,
        blocks: 200 + r.below(10) as usize,
        bytes: 200 * size,
        image,
    };
    otherwise(r, &mut w, &at);
    w
}

/// Damage to a block, with its check put right or not; or another root, other levels,
/// another geometry or kind, a shorter image, less lent; or nothing.
fn otherwise(r: &mut Random, w: &mut SmallWalk, at: &[u32]) {
    let (g, size) = (w.g, w.g.block_size as usize);
    let hurt = r.pick(at) as usize * size;
    let b = &mut w.image[hurt..][..size];
    match r.below(24) {
        0 | 1 => b[r.below(size as u64) as usize] ^= 1 << r.below(8),
        2..=8 => {
            let i = r.below(header_len(&g) as u64) as usize;
            b[i] ^= 1 << r.below(8);
            seal(&g, b);
        }
        9 => {
            b[6..8].copy_from_slice(&(r.next() as u16).to_be_bytes());
            seal(&g, b);
        }
        10 => w.root = r.pick(at),
        11 => w.root = r.pick(&[at.len() as u32 + 3, u32::MAX]),
        12 => w.levels = r.pick(&[w.levels + 1, w.levels - 1, 0, 10, u32::MAX]),
        13 => w.g.version = r.pick(&[9 - g.version, 9 - g.version, 6]),
        14 => w.kind = w.kind.other(r),
        15 => w
            .image
            .truncate(w.image.len() - 1 - r.below(2 * size as u64) as usize % size),
        16 => w.stack = r.below(STACK_PLACES as u64) as usize,
        17 => w.scratch = r.below(w.blocks as u64) as usize,
        18 => (w.stack, w.scratch) = (STACK_PLACES - 1, w.blocks - 1),
        19 => w.blocks = r.below(20) as usize,
        20 => w.bytes = r.below(4 * size as u64) as usize,
        _ => (),
    }
}

/// Small images with any pointers.
fn any_images(r: &mut Random, times: u64, tally: &mut Tally) {
    for _ in 0..times {
        let w = any_image(r);
        let room = w.room();
        let walked = trees::one_walk(&w.g, w.kind, &w.image, w.root, w.levels, room, tally);
        if let Some((walked, _)) = walked {
            let blocks = walked.blocks;
            let twice = (1..blocks.len()).any(|i| blocks[..i].contains(&blocks[i]));
            let how = match (w.levels, twice) {
                (LEVELS, true) => "nine levels, a block met twice",
                (LEVELS, false) => "nine levels, each block once",
                (_, true) => "fewer levels, a block met twice",
                (_, false) => "fewer levels, each block once",
            };
            tally.note(MET, how);
        }
    }
    tally.met_ways(MET, 4);
    tally.met_all("walk_textbook", &ANSWERS);
}

pub fn textbook(r: &mut Random, scale: u64, tally: &mut Tally) {
    // Each by itself, so that what it has to meet is not met elsewhere.
    let mut mine = Tally::default();
    full_nodes(&mut mine);
    mine.met_all("walk_textbook", &[13, 15]);
    whole_trees(&mut mine);
    mine.met_all("walk_textbook", &[0, 13, 15]);
    tally.take(mine);
    let mut mine = Tally::default();
    any_images(r, 10_000 * scale, &mut mine);
    mine.met_both(trees::TEXTBOOK);
    tally.take(mine);
}

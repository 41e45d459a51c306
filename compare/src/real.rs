//! Trees of real volumes: the walk gives the records and blocks that another
//! tool printed, and so does the original; a lookup counts the records printed.
//!
//! A `.case` file has a geometry and blocks in hex, its `.expect` what was
//! printed of them; where there is none, the original's walk stands for it. The trees
//! are `rmap`, `refcount`, `bno` (free space by block) and `cnt` (by size); each has
//! to be linked, by the siblings printed, and is refused as any other kind. Of the
//! first two each block of every extent is explained, and the records of the first go
//! on a sheet and come back; the last two have to hold the same extents. Where a case
//! does not have the number of the log's last record, the last sequence number is taken
//! to be that of the newest block in it, of all trees. A tree is read under it and under
//! the highest one alike, and on version 5 is refused under one below its newest
//! block's. An `.ops` file is a history. Each file is named with the calls that were
//! made for it, and a file that gives rise to none is an error.

use crate::free;
use crate::kinds::{self, Kind};
use crate::library::{self, Walk};
use crate::links;
use crate::lists::{count_bytes, Count, STAGING};
use crate::lookups::{self, Lookup};
use crate::sequence;
use crate::sheets::{self, Met, BLOCK, READ, WRITE};
use crate::tally::Tally;
use crate::trees::{walk_figures, Memory, Room};
use crate::vectors::extent;
use crate::why::{self, Step, Why};
use oracle::alloc_btree::FreeExtent;
use oracle::bare::{WalkAnswer, Walked};
use oracle::refusal::Outcome;
use oracle::rmap::{Rmap, OFF_ATTR_FORK, OFF_BMBT_BLOCK, OFF_UNWRITTEN};
use oracle::{bare, Geometry, Tree};
use std::fs;

/// A tree of a volume, and what it holds.
#[derive(Clone)]
pub struct RealTree {
    pub g: Geometry,
    /// The number of the log's last record that the case has, else the highest of a block
    /// in it; on version 4 there is none.
    pub last_lsn: u64,
    pub kind: Kind,
    pub root: u32,
    pub levels: u32,
    /// Number and bytes.
    pub stored: Vec<(u32, Vec<u8>)>,
    /// By level, leaves first.
    pub blocks: Vec<u32>,
    pub records: Vec<u8>,
    /// Number, and the blocks before and after it.
    pub siblings: Vec<[u32; 3]>,
    /// Are the last three what was printed?
    printed: bool,
}

fn number<T: std::str::FromStr>(w: &str) -> T {
    w.parse().unwrap_or_else(|_| panic!("no number: {w}"))
}

fn unhex(s: &str) -> Vec<u8> {
    (0..s.len() / 2)
        .map(|i| u8::from_str_radix(&s[2 * i..2 * i + 2], 16).expect("hex"))
        .collect()
}

/// The names of the kinds, by their numbers.
const NAMES: [&str; 4] = ["rmap", "refcount", "bno", "cnt"];

fn kind(name: &str) -> Kind {
    let at = NAMES.iter().position(|n| *n == name);
    Kind::ALL[at.unwrap_or_else(|| panic!("no kind of tree: {name}"))]
}

fn name(kind: Kind) -> &'static str {
    NAMES[kind.number() as usize]
}

/// The trees of a case.
pub fn read(case: &str) -> Vec<RealTree> {
    let text = fs::read_to_string(case).unwrap_or_else(|e| panic!("{case}: {e}"));
    let expect = case
        .strip_suffix(".case")
        .expect("a .case file")
        .to_string()
        + ".expect";
    let expect = fs::read_to_string(expect).ok();
    let mut g = Geometry::v5(512);
    let mut last = None;
    let mut all: Vec<RealTree> = Vec::new();
    for line in text.lines().filter(|l| !l.starts_with('#')) {
        let w: Vec<&str> = line.split_whitespace().collect();
        match w[..] {
            ["version", n] => g.version = number(n),
            ["blocksize", n] => g.block_size = number(n),
            ["agblocks", n] => g.agblocks = number(n),
            ["agno", n] => g.agno = number(n),
            ["uuid", h] => g.meta_uuid = unhex(h).try_into().expect("16 bytes"),
            ["lsn", n] => last = Some(number(n)),
            // The blocks of the group, of which no tree says anything.
            ["length", _] => (),
            ["tree", name, "root", root, "levels", levels] => all.push(RealTree {
                g,
                last_lsn: 0,
                kind: kind(name),
                root: number(root),
                levels: number(levels),
                stored: vec![],
                blocks: vec![],
                records: vec![],
                siblings: vec![],
                printed: expect.is_some(),
            }),
            ["block", n, h] => {
                let t = all.last_mut().expect("a tree");
                t.stored.push((number(n), unhex(h)));
            }
            _ => panic!("{case}: {line}"),
        }
    }
    let newest = all.iter().filter_map(RealTree::newest).max();
    let last = last.or(newest).unwrap_or(0);
    for t in &mut all {
        t.last_lsn = last;
        if !t.printed {
            t.read_by_the_original();
        }
    }
    let mut at = None;
    for line in expect
        .iter()
        .flat_map(|e| e.lines())
        .filter(|l| !l.starts_with('#'))
    {
        let w: Vec<&str> = line.split_whitespace().collect();
        match w[0] {
            "tree" => at = all.iter().position(|t| name(t.kind) == w[1]),
            "level" => {
                let t = &mut all[at.expect("a tree")];
                t.blocks.extend(w[2..].iter().map(|n| number::<u32>(n)));
            }
            "sib" => {
                let t = &mut all[at.expect("a tree")];
                t.siblings.push([1, 2, 3].map(|i| number(w[i])));
            }
            "rec" => {
                let t = &mut all[at.expect("a tree")];
                match t.kind {
                    Kind::Older(Tree::Rmap) => {
                        let flag = |i: usize, f: u64| if w[i] == "1" { f } else { 0 };
                        let r = Rmap {
                            startblock: number(w[1]),
                            blockcount: number(w[2]),
                            owner: number(w[3]),
                            offset: number::<u64>(w[4])
                                | flag(5, OFF_UNWRITTEN)
                                | flag(6, OFF_ATTR_FORK)
                                | flag(7, OFF_BMBT_BLOCK),
                        };
                        t.records.extend(bare::rmap_bytes(&[r]));
                    }
                    Kind::Older(Tree::Refcount) => {
                        let staging = if w[4] == "1" { STAGING } else { 0 };
                        let c = Count {
                            start: number::<u32>(w[1]) | staging,
                            count: number(w[2]),
                            owners: number(w[3]),
                        };
                        t.records.extend(count_bytes(&[c]));
                    }
                    Kind::Free(_) => {
                        let x = FreeExtent {
                            startblock: number(w[1]),
                            blockcount: number(w[2]),
                        };
                        t.records.extend(bare::free_bytes(&[x]));
                    }
                }
            }
            _ => (),
        }
    }
    all
}

impl RealTree {
    /// The number of its newest block; on version 4 it has none.
    pub fn newest(&self) -> Option<u64> {
        let numbers = self
            .stored
            .iter()
            .map(|(_, b)| sequence::number_of(&self.g, b));
        numbers.flatten().max()
    }

    /// Takes what the original's walk gives for what it holds.
    fn read_by_the_original(&mut self) {
        let image = self.image();
        let a = kinds::bare_walk(&self.g, self.kind, &image, self.root, self.levels);
        let a = a.outcome.accepted().expect("the original walks it");
        let named = |&n: &u32| {
            let [left, right] = links::named(links::block(&self.g, &image, n));
            [n, left, right]
        };
        self.siblings = a.blocks.iter().map(named).collect();
        (self.blocks, self.records) = (a.blocks, a.records);
    }

    /// The same under another last number.
    pub fn at(&self, last_lsn: u64) -> RealTree {
        RealTree {
            last_lsn,
            ..self.clone()
        }
    }

    /// The group's image up to its last block; other blocks are zero.
    pub fn image(&self) -> Vec<u8> {
        let size = self.g.block_size as usize;
        let last = self.stored.iter().map(|s| s.0).max().expect("a block") as usize;
        let mut image = vec![0; (last + 1) * size];
        for (n, b) in &self.stored {
            image[*n as usize * size..][..size].copy_from_slice(b);
        }
        image
    }
}

/// The lists of a group as a history goes on, over vectors, the blocks freed by a step,
/// and all changes and freed blocks so far.
#[derive(Default)]
struct Group {
    lists: kf::Group,
    free: Vec<u8>,
    made: Made,
    steps: Vec<sheets::Step>,
    freed: Vec<u8>,
}

/// The calls that a history has made.
#[derive(Default)]
struct Made {
    insert: u32,
    take_held: u32,
    let_go: u32,
}

impl Group {
    fn take(&mut self, x: Rmap) {
        let done = self.lists.take(&extent(x));
        done.unwrap_or_else(|why| panic!("insert {x:?}: {why}"));
        self.made.insert += 1;
        self.steps.push((1, x));
    }

    fn share(&mut self, x: Rmap) {
        let done = self.lists.take_held(&extent(x));
        done.unwrap_or_else(|why| panic!("take_held {x:?}: {why}"));
        self.made.take_held += 1;
        self.steps.push((3, x));
    }

    fn go(&mut self, x: Rmap) {
        let done = self.lists.let_go(&extent(x));
        let free = done.unwrap_or_else(|why| panic!("let_go {x:?}: {why}"));
        self.free.extend(free.iter().flat_map(|x| x.to_bytes()));
        self.made.let_go += 1;
        self.steps.push((2, x));
    }

    /// The changes made so far go on a sheet, and those that come back from it are made
    /// on empty lists: they leave the same lists, and have freed the same blocks. The
    /// blocks of the sheet, and the calls.
    fn through_a_sheet(&self, what: &str) -> (usize, u32) {
        let changes = sheets::list(&self.steps);
        let sheet = sheets::write(&changes).expect("good changes");
        let mut met = Met::default();
        WRITE.on(&changes, &[0], &mut met);
        READ.on(&sheet, &[0], &mut met);
        let read = kf::Sheet::read(&sheet).expect("a good sheet");
        let mut lists = kf::Group::default();
        let applied = lists.apply(&read);
        assert!(applied.iter().all(|a| a.refusal().is_none()), "{what}");
        let free = applied.iter().flat_map(|a| a.free());
        let freed: Vec<u8> = free.flat_map(|x| x.to_bytes()).collect();
        assert!(lists == self.lists && freed == self.freed, "{what}");
        let calls = met.tally.calls() as usize + applied.len();
        (sheet.len() / BLOCK, calls as u32)
    }
}

/// A history of a real volume, of first takes, takes of held blocks and lets
/// go: after every step the lists and the blocks freed are those of the
/// volume, and so they are when all changes went through a sheet. First takes go through `insert`, those too that the file calls
/// `take_shared`; takes of held blocks through `take_held`.
fn history(file: &str, name: &str) -> u32 {
    let text = fs::read_to_string(file).unwrap_or_else(|e| panic!("{file}: {e}"));
    let steps: Vec<&str> = text.split("step ").skip(1).collect();
    let mut g = Group::default();
    for step in &steps {
        let mut due = Group::default();
        g.free.clear();
        for line in step.lines().skip(1) {
            let w: Vec<&str> = line.split_whitespace().collect();
            let given = || Rmap {
                startblock: number(w[1]),
                blockcount: number(w[2]),
                owner: number(w[3]),
                offset: number(w[4]),
            };
            match w[0] {
                "go" => g.go(given()),
                "take" | "take_shared" => g.take(given()),
                "share" => g.share(given()),
                "free" => {
                    due.free.extend(number::<u32>(w[1]).to_be_bytes());
                    due.free.extend(number::<u32>(w[2]).to_be_bytes());
                }
                "rmap" => due.lists.map.extend(bare::rmap_bytes(&[given()])),
                "refc" => due.lists.counts.extend(count_bytes(&[Count {
                    start: number(w[1]),
                    count: number(w[2]),
                    owners: number(w[3]),
                }])),
                _ => panic!("{file}: {line}"),
            }
        }
        let at = step.lines().next().unwrap_or_default();
        let (now, due_now) = (&g.lists, &due.lists);
        assert!(now.map == due_now.map, "{file}: step {at}: the map");
        assert!(
            now.counts == due_now.counts,
            "{file}: step {at}: the counts"
        );
        assert!(g.free == due.free, "{file}: step {at}: the blocks freed");
        g.freed.extend(&g.free);
    }
    let (m, (blocks, calls)) = (&g.made, g.through_a_sheet(file));
    println!(
        "{name}: {} steps, insert {}, take_held {}, let_go {}, lists and freed blocks as in the volume, and so all at once through a sheet of {blocks} blocks",
        steps.len(),
        m.insert,
        m.take_held,
        m.let_go
    );
    m.insert + m.take_held + m.let_go + calls
}

/// The walks of a tree, read as one of a kind, with as many places and bytes
/// as the tree has, beside the original's: its answer.
fn walks(what: &str, t: &RealTree, kind: Kind, image: &[u8], linked: bool) -> WalkAnswer {
    let a = sequence::walked(&t.g, t.last_lsn, image, |image| {
        kinds::bare_walk(&t.g, kind, image, t.root, t.levels)
    });
    for w in Walk::ALL {
        let mut m = Memory::new(Room {
            stack: kinds::STACK_PLACES,
            scratch: t.blocks.len(),
            blocks: t.blocks.len(),
            bytes: t.records.len(),
        });
        let g = library::g(&t.g).at(t.last_lsn);
        let said = m.walk(w, &g, kind, image, t.root, t.levels);
        let due = walk_figures(&a, kind, w.says(linked));
        assert_eq!((said.number, said.figures), due, "{what} {w:?}");
        for (part, r) in m.left(w, &a) {
            assert!(r.is_ok(), "{what} {w:?} {part}: {r:?}");
        }
    }
    a
}

/// Lookups in a reverse map, whose keys have to be theirs: at each start, last block and end of the records
/// printed and beside them, all together, by hundreds and each alone. The answers
/// are counted over the records printed.
fn lookups_of(what: &str, t: &RealTree, image: &[u8], walked: &Walked) -> u64 {
    let mut asked = vec![0, u32::MAX];
    for r in bare::rmap_list(&t.records) {
        let end = r.startblock + r.blockcount;
        asked.extend([r.startblock.saturating_sub(1), r.startblock]);
        asked.extend([end - 1, end, end + 1]);
    }
    asked.sort_unstable();
    asked.dedup();
    assert!(walked.records == t.records, "{what}: counted over these");
    let under = lookups::under(&t.g, image, t.root, t.levels as u16 - 1);
    assert!(
        bare::rmap_bytes(&under) == t.records,
        "{what}: keys' records"
    );
    let mut l = Lookup {
        g: t.g,
        last_lsn: t.last_lsn,
        image: image.to_vec(),
        root: t.root,
        levels: t.levels,
        asked: vec![],
        stack: kinds::STACK_PLACES,
        answers: asked.len(),
    };
    let mut tally = Tally::default();
    for size in [asked.len(), 100, 1] {
        for part in asked.chunks(size) {
            l.asked = part.to_vec();
            lookups::one_whole(&l, walked, &mut tally);
        }
    }
    // All together no child is skipped, so that the newest block is met.
    l.asked = asked;
    l.last_lsn = u64::MAX;
    lookups::one_whole(&l, walked, &mut tally);
    if let Some(newest) = t.newest() {
        l.last_lsn = newest - 1;
        let due = lookups::one(&l, &mut tally);
        assert_eq!(due.number, 30, "{what}: one below its newest block's");
        assert_eq!(due.figures[..2], [newest - 1, newest], "{what}");
    }
    tally.calls()
}

/// The check of a block of a tree under a last number.
fn checked(t: &RealTree, last: u64, n: u32, b: &[u8]) -> library::Said {
    let level = u16::from(b[4]) * 256 + u16::from(b[5]);
    let g = library::g(&t.g).at(last);
    library::check_block(&g, t.kind.number(), n, level, b)
}

/// A tree: its records, blocks and siblings are those printed, and it is linked,
/// under the last number and under the highest; under one below its newest block's,
/// and as any other kind, it is refused.
fn one_tree(case: &str, t: &RealTree) -> u32 {
    let what = format!("{case} {}", name(t.kind));
    let image = t.image();
    let a = walks(&what, t, t.kind, &image, true).outcome.accepted();
    let a = a.expect("the original walks it");
    assert!(a.blocks == t.blocks && a.records == t.records, "{what}");
    assert!(links::linked(&t.g, &image, &t.blocks), "{what}: linked");
    assert_eq!(t.siblings.len(), t.blocks.len(), "{what}: siblings printed");
    let mut checks = 0;
    for &[n, left, right] in &t.siblings {
        let b = links::block(&t.g, &image, n);
        let due = [left, right].map(u64::from);
        for last in [t.last_lsn, u64::MAX] {
            let said = checked(t, last, n, b);
            assert_eq!((said.number, &said.figures[2..]), (0, &due[..]), "{what}");
            checks += 1;
        }
        if let Some(lsn) = sequence::number_of(&t.g, b) {
            let said = checked(t, lsn - 1, n, b);
            let due = (30, [lsn - 1, lsn, 0, 0]);
            assert_eq!((said.number, said.figures), due, "{what}");
            checks += 1;
        }
    }
    let mut walked = 2;
    let highest = walks(&what, &t.at(u64::MAX), t.kind, &image, true);
    assert!(highest.outcome == Outcome::Accepted(a.clone()), "{what}");
    let newest = match t.newest() {
        Some(newest) => {
            walked += 1;
            let below = walks(&what, &t.at(newest - 1), t.kind, &image, false);
            let values = (newest - 1, newest);
            let Outcome::Refused(r) = below.outcome else {
                panic!("{what}: read under one below its newest block's");
            };
            assert_eq!((r.number, r.values), (30, Some(values)), "{what}");
            format!("newest block {newest:#x}, under one below refused by 30")
        }
        None => "no sequence numbers".to_string(),
    };
    let looked = match t.kind {
        Kind::RMAP => lookups_of(&what, t, &image, &a),
        _ => 0,
    };
    let mut refused = Vec::new();
    for kind in Kind::ALL.into_iter().filter(|&k| k != t.kind) {
        let due = match kind {
            Kind::Older(_) if t.g.version == 4 => 3,
            _ => 4,
        };
        let other = walks(&what, t, kind, &image, false);
        assert_eq!(other.outcome.number(), Some(due), "{what}");
        refused.push(format!("{} by {due}", name(kind)));
    }
    let (n, count) = (a.blocks.len(), a.records.len() / t.kind.record_len());
    let walked = (walked + Kind::ALL.len() - 1) * Walk::ALL.len();
    let lookups = match looked {
        0 => String::new(),
        n => format!(", lookups {n}, keys theirs"),
    };
    let by = match t.printed {
        true => "as printed",
        false => "as the original reads them",
    };
    println!(
        "{what}: walks {walked}, block checks {checks}{lookups}; blocks {n}, records {count} and siblings {by}, linked; last number {:#x}, {newest}; refused as {}",
        t.last_lsn,
        refused.join(", ")
    );
    walked as u32 + checks + looked as u32
}

/// Both free-space trees: each list is accepted in its order, and they hold the
/// same extents, but not with one less in either.
fn free_space(case: &str, trees: &[RealTree]) -> u32 {
    let list = |kind| trees.iter().find(|t| t.kind == kind).map(|t| &t.records);
    let (Some(bno), Some(cnt)) = (list(Kind::BY_BLOCK), list(Kind::BY_SIZE)) else {
        return 0;
    };
    assert_eq!(library::check_by_block(bno), 0, "{case} bno");
    assert_eq!(library::check_by_size(cnt), 0, "{case} cnt");
    for (bno, cnt, yes) in [
        (&bno[..], &cnt[..], 1),
        (&bno[8..], cnt, 0),
        (bno, &cnt[8..], 0),
    ] {
        let said = library::same_extents(bno, cnt);
        let due = (0, [yes, 0, 0, 0]);
        assert_eq!((said.number, said.figures), due, "{case}");
        assert_eq!(free::due(bno, cnt), due, "{case}");
    }
    println!(
        "{case} bno and cnt: both accepted, the same extents, with one less not; same_extents 3"
    );
    5
}

/// Every extent of the reverse map, one at a time from the lists as they are: each of
/// its blocks, and the one on either side, is explained. In lists that Linux wrote a
/// free block has no other holder, and none is held by a count alone.
fn explained(case: &str, trees: &[RealTree]) -> u32 {
    let list = |kind| trees.iter().find(|t| t.kind == kind);
    let (Some(map), Some(counts)) = (list(Kind::RMAP), list(Kind::REFCOUNT)) else {
        return 0;
    };
    let mut tally = Tally::default();
    let (mut extents, mut made, mut inside, mut other_holders) = (0, 0, 0, 0);
    for x in bare::rmap_list(&map.records) {
        let (start, end) = (x.startblock, x.startblock + x.blockcount);
        let asked: Vec<u32> = (start.saturating_sub(1)..=end).collect();
        why::one(&map.records, &counts.records, x, &asked, &mut tally);
        let step = Step::new(&map.records, &counts.records, x);
        for block in start..end {
            inside += 1;
            match step.why(block) {
                Ok(Why::Free) => other_holders += u32::from(step.other(block)),
                Ok(Why::HeldInCounts(_)) => assert!(!counts.printed, "{case}: {block}"),
                _ => (),
            }
        }
        extents += 1;
        made += asked.len();
    }
    assert!(other_holders == 0 || !counts.printed, "{case}");
    println!(
        "{case} rmap and refcount: extents {extents}, explain {made} and Group::why as many: {}, refused by 31 {}; free with another holder {other_holders}",
        tally.ways(why::DONE),
        made - inside,
    );
    tally.calls() as u32
}

/// Every record of the reverse map as a change of each kind: the changes go on a sheet, and
/// come back from it.
fn on_a_sheet(case: &str, trees: &[RealTree]) -> u32 {
    let Some(map) = trees.iter().find(|t| t.kind == Kind::RMAP) else {
        return 0;
    };
    let records = bare::rmap_list(&map.records);
    let kinds = |&x: &Rmap| [1, 2, 3].map(|kind| (kind, x));
    let steps: Vec<sheets::Step> = records.iter().flat_map(kinds).collect();
    let changes = sheets::list(&steps);
    let sheet = sheets::write(&changes).expect("good changes");
    let mut met = Met::default();
    WRITE.on(&changes, &[0], &mut met);
    READ.on(&sheet, &[0], &mut met);
    println!(
        "{case} rmap on a sheet: changes {}, blocks {}, written and read back, over vectors too",
        steps.len(),
        sheet.len() / BLOCK
    );
    met.tally.calls() as u32
}

/// The name of a file without its folder.
pub fn file_name(path: &str) -> &str {
    path.rsplit('/').next().unwrap_or(path)
}

pub fn real(files: &[String]) {
    assert!(!files.is_empty(), "no case and no history is given");
    let mut all = 0;
    for file in files {
        let name = file_name(file);
        let calls: u32 = if file.ends_with(".ops") {
            history(file, name)
        } else {
            let trees = read(file);
            let calls: u32 = trees.iter().map(|t| one_tree(name, t)).sum();
            calls + free_space(name, &trees) + explained(name, &trees) + on_a_sheet(name, &trees)
        };
        assert!(calls > 0, "{file} made no call");
        all += calls;
    }
    println!("all: {} files, {all} calls, no difference", files.len());
}

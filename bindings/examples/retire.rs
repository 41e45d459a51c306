//! `retire CASE OWNER`: lets all extents of an owner go from the group of a case
//! file and prints what is free again, and why the rest stays held; then builds the
//! reverse map and the shared counts afresh in a copy of the image and walks them
//! back. The case file is left as it is, and so are the free-space trees.
//!
//! Walks, edits, causes, plans and builds are the proved library's. Which extents
//! go, which records it is given to explain a block, that none of the free blocks
//! is held, which blocks the trees get and that they are stored there is this
//! program's.

use kf::{FreeExtent, Geometry, Group, Kind, Question, Rmap, Root, Tree};
use std::error::Error;
use std::io::{self, Write};
use std::process::ExitCode;
use std::time::{Duration, Instant};

mod case;
mod causes;
use case::Case;
use causes::{ascending, held_in_words, Near};

fn main() -> ExitCode {
    case::main("retire CASE OWNER", 2..=2, |args, out| {
        retire(args, out, Progress::every(Duration::from_secs(1)))
    })
}

/// Says how far it is, once in a while, beside what is printed.
struct Progress {
    every: Duration,
    last: Instant,
    out: Box<dyn Write>,
}

impl Progress {
    fn every(every: Duration) -> Progress {
        Progress {
            every,
            last: Instant::now(),
            out: Box::new(io::stderr()),
        }
    }

    fn say(&mut self, what: std::fmt::Arguments) -> io::Result<()> {
        if self.last.elapsed() >= self.every {
            writeln!(self.out, "{what}")?;
            self.last = Instant::now();
        }
        Ok(())
    }
}

fn retire(
    args: &[String],
    out: &mut dyn Write,
    mut progress: Progress,
) -> Result<(), Box<dyn Error>> {
    let owner: i64 = args[1]
        .parse()
        .map_err(|e| format!("owner `{}`: {e}", args[1]))?;
    if owner < 0 {
        return Err("an owner below 0 is reserved: the group's own blocks are no release".into());
    }
    let case = Case::read(&args[0])?;

    // Group::walk would give the two lists; the blocks of the old trees are
    // wanted too.
    let (g, image) = (&case.geometry, &case.image);
    progress.say(format_args!("walking the old trees"))?;
    let old_map = Tree::walk(g, Kind::Rmap, image, case.root(Kind::Rmap)?)?;
    let old_counts = Tree::walk(g, Kind::Refcount, image, case.root(Kind::Refcount)?)?;
    let mut group = Group::new(old_map.records, old_counts.records);

    let gone = let_all_go(&mut group, owner, out, &mut progress)?;
    if let Some(words) = held_in_words(&group, &gone.free) {
        return Err(words.into());
    }

    progress.say(format_args!("building both trees"))?;
    let old = [
        (Kind::Rmap, old_map.blocks),
        (Kind::Refcount, old_counts.blocks),
    ];
    let (copy, roots) = build_both(g, image, &group, &old, &gone.free, out)?;

    progress.say(format_args!("walking the fresh trees"))?;
    if Group::walk(g, &copy, roots[0], roots[1])? != group {
        return Err("the walks returned other lists than were built".into());
    }
    let (map, counts) = (group.rmaps().len(), group.refcounts().len());
    writeln!(
        out,
        "walked back the same: reverse map {map} records, shared counts {counts} records"
    )?;
    match gone.refused {
        0 => Ok(()),
        n => Err(format!("{n} extents of the owner stayed").into()),
    }
}

/// What came of letting all extents of an owner go.
struct Gone {
    free: Vec<FreeExtent>,
    refused: usize,
}

/// Lets all extents of an owner go, one after another, and prints each, with the
/// causes of blocks that are not free below it. A refusal changes nothing and does
/// not end it.
fn let_all_go(
    group: &mut Group,
    owner: i64,
    out: &mut dyn Write,
    progress: &mut Progress,
) -> Result<Gone, Box<dyn Error>> {
    let extents: Vec<Rmap> = group.rmaps().filter(|r| r.owner == owner).collect();
    let mut gone = Gone {
        free: Vec::new(),
        refused: 0,
    };
    for (i, x) in extents.iter().enumerate() {
        let (done, all) = (i - gone.refused, extents.len());
        progress.say(format_args!("{done} of {all} extents let go"))?;
        write!(out, "{}/{}: ", x.startblock, x.blockcount)?;
        let near = Near::of(group, x);
        match group.let_go(x) {
            Ok(free) => {
                let said = if free.is_empty() {
                    "all blocks still held"
                } else {
                    "free"
                };
                write!(out, "{said}")?;
                for f in &free {
                    write!(out, " {}/{}", f.startblock, f.blockcount)?;
                }
                writeln!(out)?;
                print_causes(&near, x, out)?;
                gone.free.extend(free);
            }
            Err(refusal) => {
                writeln!(out, "{refusal}")?;
                if refusal.question() == Some(Question::Staging) {
                    print_causes(&near, x, out)?;
                }
                gone.refused += 1;
            }
        }
    }
    let (done, refused) = (extents.len() - gone.refused, gone.refused);
    let blocks: u64 = gone.free.iter().map(|f| u64::from(f.blockcount)).sum();
    writeln!(
        out,
        "extents let go {done}, refused {refused}; blocks free again {blocks}"
    )?;
    Ok(gone)
}

/// Why blocks of an extent are not free, a run of them in each line.
fn print_causes(near: &Near, x: &Rmap, out: &mut dyn Write) -> Result<(), Box<dyn Error>> {
    for run in near.causes(x)? {
        let (start, count) = (run.start, run.end - run.start);
        writeln!(out, "  {start}/{count} {}: {}", run.state(), run.cause)?;
    }
    Ok(())
}

/// Builds both trees in a copy of the image, and says where they begin.
///
/// They go where the old ones lay. Should one need more blocks than its old one
/// has, blocks that are free again are used. A tool that writes volumes maps
/// these to the tree's owner first, gives the old blocks that are left over back
/// to the group, and plans again, since both change the reverse map.
fn build_both(
    g: &Geometry,
    image: &[u8],
    group: &Group,
    old: &[(Kind, Vec<u32>); 2],
    free: &[FreeExtent],
    out: &mut dyn Write,
) -> Result<(Vec<u8>, [Root; 2]), Box<dyn Error>> {
    let in_old = |n: &u32| old.iter().any(|(_, blocks)| blocks.contains(n));
    let mut spare = ascending(free)
        .into_iter()
        .flat_map(|x| x.startblock..x.startblock + x.blockcount)
        .filter(|n| *n < g.agblocks && !in_old(n));
    let mut copy = image.to_vec();
    let mut build = |kind: Kind, list: &[u8], blocks: &[u32]| -> Result<Root, Box<dyn Error>> {
        let plan = Tree::plan(g, kind, list)?;
        let numbers = numbers(plan.total.try_into()?, blocks, &mut spare)
            .map_err(|e| format!("{kind}: {e}"))?;
        let built = Tree::build(g, kind, list, &numbers)?;
        for (&n, block) in numbers.iter().zip(built.chunks_exact(g.blocksize as usize)) {
            case::put(&mut copy, n, block)?;
        }
        let (now, before) = (numbers.len(), blocks.len());
        let left = before.saturating_sub(now);
        writeln!(
            out,
            "{kind}: built in blocks {now}, before {before}, left over {left}"
        )?;
        let root = plan.root(&numbers).ok_or("other numbers than planned")?;
        Ok(root)
    };
    let map = build(old[0].0, &group.map, &old[0].1)?;
    let counts = build(old[1].0, &group.counts, &old[1].1)?;
    Ok((copy, [map, counts]))
}

/// So many block numbers: the old tree's, then spare ones.
fn numbers(
    planned: usize,
    old: &[u32],
    spare: &mut dyn Iterator<Item = u32>,
) -> Result<Vec<u32>, String> {
    let numbers: Vec<u32> = old.iter().copied().chain(spare).take(planned).collect();
    match numbers.len() {
        n if n < planned => Err(format!("{planned} blocks are needed, {n} are there")),
        _ => Ok(numbers),
    }
}

#[cfg(test)]
mod tests {
    use super::*;
    use causes::{held, Run};
    use kf::{Cause, Refcount};
    use std::sync::{Arc, Mutex};

    const SMALL: &str = concat!(env!("CARGO_MANIFEST_DIR"), "/data/v5-1024-small.case");

    fn seldom() -> Progress {
        Progress::every(Duration::from_secs(3600))
    }

    fn printed(case: &str, owner: &str) -> Vec<String> {
        let case = format!("{}/data/{case}", env!("CARGO_MANIFEST_DIR"));
        let mut out = Vec::new();
        retire(&[case, owner.to_string()], &mut out, seldom()).unwrap();
        let out = String::from_utf8(out).unwrap();
        out.lines().map(String::from).collect()
    }

    /// 31 extents, all but one of them shared.
    #[test]
    fn a_clone() {
        let lines = printed("v5-1024-small.case", "81986");
        assert_eq!(lines.len(), 1 + 2 * 30 + 4);
        assert_eq!(lines[0], "8223/1: free 8223/1");
        let held = |n: u32| {
            [
                format!("{n}/1: all blocks still held"),
                format!("  {n}/1 still held: inode 81985 holds blocks 8256 to 8315"),
            ]
        };
        for i in 0..30 {
            assert_eq!(lines[2 * i + 1..][..2], held(8256 + 2 * i as u32));
        }
        assert_eq!(
            lines[61..],
            [
                "extents let go 31, refused 0; blocks free again 1",
                "reverse map: built in blocks 3, before 4, left over 1",
                "shared counts: built in blocks 1, before 1, left over 0",
                "walked back the same: reverse map 59 records, shared counts 6 records",
            ]
        );
    }

    /// One extent, of which every other block is shared.
    #[test]
    fn the_first_of_the_holders() {
        let lines = printed("v5-1024-small.case", "81985");
        let free: Vec<String> = (0..30).map(|i| format!("{}/1", 8257 + 2 * i)).collect();
        assert_eq!(lines[0], format!("8256/60: free {}", free.join(" ")));
        for i in 0..30 {
            let n = 8256 + 2 * i;
            assert_eq!(
                lines[1 + i],
                format!("  {n}/1 still held: inode 81986 holds block {n}")
            );
        }
        assert_eq!(
            lines[31],
            "extents let go 1, refused 0; blocks free again 30"
        );
    }

    #[test]
    fn many_extents() {
        let lines = printed("v5-2048.case", "65602");
        // 700 of the extents are a block of the file that was cloned.
        let causes = lines.iter().filter(|line| line.starts_with("  "));
        assert!(causes
            .clone()
            .all(|line| line.ends_with(" holds blocks 32 to 1431")));
        assert_eq!(causes.count(), 700);
        assert_eq!(
            lines[707 + 700..],
            [
                "extents let go 707, refused 0; blocks free again 7",
                "reverse map: built in blocks 13, before 25, left over 12",
                "shared counts: built in blocks 1, before 7, left over 6",
                "walked back the same: reverse map 923 records, shared counts 140 records",
            ]
        );
    }

    #[test]
    fn an_owner_of_nothing() {
        let lines = printed("v5-1024-small.case", "1");
        assert_eq!(lines[0], "extents let go 0, refused 0; blocks free again 0");
        assert_eq!(
            lines[3],
            "walked back the same: reverse map 90 records, shared counts 30 records"
        );
    }

    /// The refused extent stays, and the next one goes.
    #[test]
    fn a_refusal_does_not_end_it() {
        let a = Rmap {
            startblock: 4,
            blockcount: 2,
            owner: 131,
            offset: 0,
        };
        let b = Rmap { startblock: 8, ..a };
        let staging = Refcount {
            startblock: (1 << 31) | 5,
            blockcount: 1,
            refcount: 1,
        };
        let map = [a.to_bytes(), b.to_bytes()].concat();
        let mut group = Group::new(map, staging.to_bytes().to_vec());
        let mut out = Vec::new();
        let gone = let_all_go(&mut group, 131, &mut out, &mut seldom()).unwrap();
        assert_eq!((gone.free.len(), gone.refused), (1, 1));
        assert!(group.rmaps().eq([a]));
        assert_eq!(
            String::from_utf8(out).unwrap(),
            "4/2: the extent meets a staging record (25)\n  \
             5/1 staging: block 5 is set aside for copy-on-write\n\
             8/2: free 8/2\n\
             extents let go 1, refused 1; blocks free again 2\n"
        );
    }

    fn rmap(startblock: u32, blockcount: u32, owner: i64) -> Rmap {
        Rmap {
            startblock,
            blockcount,
            owner,
            offset: 0,
        }
    }

    fn shared(startblock: u32, blockcount: u32, refcount: u32) -> Refcount {
        Refcount {
            startblock,
            blockcount,
            refcount,
        }
    }

    fn group_of(map: &[Rmap], counts: &[Refcount]) -> Group {
        Group::new(
            map.iter().flat_map(|r| r.to_bytes()).collect(),
            counts.iter().flat_map(|r| r.to_bytes()).collect(),
        )
    }

    /// The causes are those that the library gives for each block, from the whole
    /// lists.
    fn as_for_each_block(group: &Group, x: &Rmap) -> Vec<Run> {
        let runs = Near::of(group, x).causes(x).unwrap();
        for block in x.startblock..x.startblock + x.blockcount {
            let of_block = |run: &&Run| run.start <= block && block < run.end;
            let found: Vec<Cause> = runs.iter().filter(of_block).map(|run| run.cause).collect();
            let due = match group.why(x, block) {
                Ok(why) if why.cause == Cause::Free => vec![],
                Ok(why) => vec![why.cause],
                // Beside a staging record.
                Err(refusal) if refusal.question() == Some(Question::Staging) => vec![],
                Err(refusal) => panic!("block {block} of {x:?}: {refusal}"),
            };
            assert_eq!(found, due, "block {block} of {x:?} in {group:?}");
        }
        runs
    }

    /// The extent of one inode, with all that can be beside it.
    #[test]
    fn causes_in_runs() {
        let x = rmap(100, 30, 131);
        let map = [
            rmap(90, 13, 130),
            x,
            rmap(101, 5, 132),
            rmap(108, 4, 133),
            rmap(110, 30, -5),
        ];
        // A run ends with its record or where a block is free, not where the counts
        // change.
        let counts = [
            shared(95, 7, 2),
            shared(102, 2, 3),
            shared(108, 5, 3),
            shared(113, 5, 2),
            shared(120, 1, 2),
        ];
        let run = |start, end, cause| Run { start, end, cause };
        assert_eq!(
            as_for_each_block(&group_of(&map, &counts), &x),
            [
                run(100, 103, Cause::Held(map[0])),
                run(103, 104, Cause::Held(map[2])),
                run(108, 112, Cause::Held(map[3])),
                run(112, 118, Cause::Held(map[4])),
                run(120, 121, Cause::Held(map[4])),
            ]
        );
        // With fewer records the counts alone are left, up to where one begins.
        assert_eq!(
            as_for_each_block(&group_of(&[x, map[3]], &counts), &x),
            [
                run(100, 102, Cause::Shared(counts[0])),
                run(102, 104, Cause::Shared(counts[1])),
                run(108, 112, Cause::Held(map[3])),
                run(112, 113, Cause::Shared(counts[2])),
                run(113, 118, Cause::Shared(counts[3])),
                run(120, 121, Cause::Shared(counts[4])),
            ]
        );
        let later = rmap(115, 1, 132);
        assert_eq!(
            as_for_each_block(&group_of(&[x, later], &counts[3..4]), &x),
            [
                run(113, 115, Cause::Shared(counts[3])),
                run(115, 116, Cause::Held(later)),
                run(116, 118, Cause::Shared(counts[3])),
            ]
        );
        // Staging records, of which two lie in the extent in part.
        let staging = |start: u32, count| shared((1 << 31) | start, count, 1);
        let staged = [counts[1], staging(98, 3), staging(110, 2), staging(129, 4)];
        assert_eq!(
            as_for_each_block(&group_of(&map, &staged), &x),
            [
                run(100, 101, Cause::Staging(staged[1])),
                run(110, 112, Cause::Staging(staged[2])),
                run(129, 130, Cause::Staging(staged[3])),
            ]
        );
        assert_eq!(as_for_each_block(&group_of(&map, &[]), &x), []);
    }

    /// Every extent of real groups, none of them let go.
    #[test]
    fn causes_of_real_extents() {
        for name in ["v5-1024-small.case", "v5-2048.case"] {
            let path = format!("{}/data/{name}", env!("CARGO_MANIFEST_DIR"));
            let case = Case::read(&path).unwrap();
            let root = |kind| case.root(kind).unwrap();
            let (map, counts) = (root(Kind::Rmap), root(Kind::Refcount));
            let group = Group::walk(&case.geometry, &case.image, map, counts).unwrap();
            let mut held = 0;
            for x in group.rmaps().filter(|x| !x.is_reserved()) {
                let runs = as_for_each_block(&group, &x);
                held += runs.iter().map(|run| run.end - run.start).sum::<u32>();
            }
            // Each block that is shared stays held by each of its owners' letting go.
            let counts = group.refcounts().filter(|r| !r.is_staging());
            assert_eq!(held, counts.map(|r| r.blockcount * r.refcount).sum::<u32>());
        }
    }

    #[test]
    fn spare_blocks() {
        let mut spare = 20..22;
        assert_eq!(numbers(1, &[5, 6], &mut spare), Ok(vec![5]));
        assert_eq!(numbers(3, &[5, 6], &mut spare), Ok(vec![5, 6, 20]));
        assert_eq!(
            numbers(2, &[7], &mut spare).and_then(|_| numbers(2, &[8], &mut spare)),
            Err("2 blocks are needed, 1 are there".to_string())
        );
    }

    /// The counts do not tell that another holds 4/2 too.
    #[test]
    fn a_held_block_is_not_free() {
        let a = Rmap {
            startblock: 4,
            blockcount: 2,
            owner: 131,
            offset: 0,
        };
        let b = Rmap { owner: 132, ..a };
        let map = [a.to_bytes(), b.to_bytes()].concat();
        let mut group = Group::new(map, vec![]);
        let gone = let_all_go(&mut group, 131, &mut Vec::new(), &mut seldom()).unwrap();
        let x = FreeExtent {
            startblock: 4,
            blockcount: 2,
        };
        assert_eq!(gone.free, [x]);
        assert_eq!(held(&group, &gone.free), Some((x, b)));
        assert_eq!(held(&Group::default(), &gone.free), None);
        // Free extents on both sides of a record, and one that it ends in.
        let at = |startblock, blockcount| FreeExtent {
            startblock,
            blockcount,
        };
        assert_eq!(held(&group, &[at(6, 9), at(0, 4)]), None);
        assert_eq!(held(&group, &[at(7, 9), at(5, 1)]), Some((at(5, 1), b)));
        // Told twice: the shorter one, which comes later, does not hide the other.
        let twice = [at(0, 9), at(1, 2)];
        assert_eq!(held(&group, &twice), Some((at(0, 9), b)));
    }

    /// The whole of it on a group whose lists do not agree: the count over the
    /// first shared block is gone.
    #[test]
    fn lists_that_do_not_agree() {
        let case = Case::read(SMALL).unwrap();
        let root = case.root(Kind::Refcount).unwrap();
        let tree = Tree::walk(&case.geometry, Kind::Refcount, &case.image, root).unwrap();
        let (kind, fewer) = (Kind::Refcount, &tree.records[12..]);
        let built = Tree::build(&case.geometry, kind, fewer, &tree.blocks).unwrap();
        let hex: String = built.iter().map(|b| format!("{b:02x}")).collect();
        let text = std::fs::read_to_string(SMALL).unwrap();
        let lines: Vec<String> = text
            .lines()
            .map(
                |line| match line.split_whitespace().collect::<Vec<_>>()[..] {
                    ["block", n, _] if n == tree.blocks[0].to_string() => {
                        format!("block {n} {hex}")
                    }
                    _ => line.to_string(),
                },
            )
            .collect();
        let file = std::env::temp_dir().join(format!("kf-{}.case", std::process::id()));
        std::fs::write(&file, lines.join("\n")).unwrap();
        let args = [file.display().to_string(), "81986".to_string()];
        let error = retire(&args, &mut Vec::new(), seldom()).unwrap_err();
        std::fs::remove_file(&file).unwrap();
        assert_eq!(
            error.to_string(),
            "the shared counts do not agree with the reverse map: 8256/1 would be free, \
             and owner 81985 holds 8256/60"
        );
    }

    /// The trees get blocks of the group only.
    #[test]
    fn blocks_past_the_group() {
        let g = Geometry::new(5, 512, 40, 0, [7; 16]);
        // More records than one leaf holds, so that three blocks are wanted.
        let records = (0..30).flat_map(|i| {
            let r = Rmap {
                startblock: 8 * i,
                blockcount: 2,
                owner: 131,
                offset: 0,
            };
            r.to_bytes()
        });
        let group = Group::new(records.collect(), vec![]);
        let old = [(Kind::Rmap, vec![5]), (Kind::Refcount, vec![6])];
        let at = |startblock, blockcount| FreeExtent {
            startblock,
            blockcount,
        };
        let mut out = Vec::new();
        let free = [at(5, 3), at(39, 9)];
        let (image, roots) = build_both(&g, &[], &group, &old, &free, &mut out).unwrap();
        assert_eq!(image.len(), 40 * 512);
        assert_eq!(roots, [Root::new(39, 2, 3), Root::new(6, 1, 1)]);
        assert_eq!(
            Group::walk(&g, &image, roots[0], roots[1]),
            Ok(group.clone())
        );
        let free = [at(2147483640, 4)];
        let error = build_both(&g, &[], &group, &old, &free, &mut out).unwrap_err();
        assert_eq!(
            error.to_string(),
            "reverse map: 3 blocks are needed, 1 are there"
        );
    }

    #[test]
    fn progress() {
        #[derive(Clone, Default)]
        struct Shared(Arc<Mutex<Vec<u8>>>);
        impl Write for Shared {
            fn write(&mut self, bytes: &[u8]) -> io::Result<usize> {
                self.0.lock().unwrap().write(bytes)
            }
            fn flush(&mut self) -> io::Result<()> {
                Ok(())
            }
        }
        let said = Shared::default();
        let always = Progress {
            out: Box::new(said.clone()),
            ..Progress::every(Duration::ZERO)
        };
        retire(&[SMALL, "81986"].map(String::from), &mut Vec::new(), always).unwrap();
        let said = String::from_utf8(said.0.lock().unwrap().clone()).unwrap();
        let lines: Vec<&str> = said.lines().collect();
        assert_eq!(lines.len(), 31 + 3);
        assert_eq!(lines[0], "walking the old trees");
        assert_eq!(lines[31], "30 of 31 extents let go");
        assert_eq!(lines[33], "walking the fresh trees");
    }

    #[test]
    fn no_owner() {
        let error = |owner: &str| {
            let args = [SMALL, owner].map(String::from);
            let error = retire(&args, &mut Vec::new(), seldom()).unwrap_err();
            error.to_string()
        };
        assert!(error("none").starts_with("owner `none`: "));
        assert!(error("-5").starts_with("an owner below 0 is reserved"));
    }
}

//! `all_groups CASE...`: walks the reverse map and the shared counts of each group
//! of a volume, one case file a group, on all cores, and prints a line for each, in
//! the order given.
//! (Those in `data` are of different volumes: each group has its geometry with it.
//! That of version 4 has neither tree.)
//!
//! The walks are the proved library's; the threads are this program's.

use kf::{Group, Kind};
use std::error::Error;
use std::io::Write;
use std::process::ExitCode;
use std::sync::atomic::{AtomicUsize, Ordering};
use std::thread;

mod case;
use case::Case;

fn main() -> ExitCode {
    case::main("all_groups CASE...", 1..=usize::MAX, run)
}

/// Walks the two trees of one group.
fn report(case: &Case) -> Result<String, Box<dyn Error>> {
    let (map, counts) = (case.root(Kind::Rmap)?, case.root(Kind::Refcount)?);
    let agno = case.geometry.agno;
    let group = Group::walk(&case.geometry, &case.image, map, counts)
        .map_err(|refused| format!("group {agno}: {refused}"))?;
    Ok(format!(
        "group {agno}: reverse map {} records, shared counts {} records",
        group.rmaps().len(),
        group.refcounts().len()
    ))
}

fn run(args: &[String], out: &mut dyn Write) -> Result<(), Box<dyn Error>> {
    let cores = thread::available_parallelism().map_or(1, |n| n.get());
    let next = AtomicUsize::new(0);

    // Each thread takes the next group until there are none. This is safe since
    // calls share nothing: the library keeps nothing between calls and takes no
    // memory of its own, and each call writes only vectors of its own thread.
    let work = || {
        let mut done = Vec::new();
        loop {
            let i = next.fetch_add(1, Ordering::Relaxed);
            let Some(path) = args.get(i) else {
                return done;
            };
            let line = Case::read(path).and_then(|case| report(&case));
            done.push((i, line.map_err(|e| e.to_string())));
        }
    };
    let mut reports = thread::scope(|scope| {
        let threads: Vec<_> = (0..cores.min(args.len()))
            .map(|_| scope.spawn(work))
            .collect();
        let mut all = Vec::new();
        for thread in threads {
            all.extend(thread.join().map_err(|_| "a thread panicked")?);
        }
        Ok::<_, &str>(all)
    })?;
    reports.sort_by_key(|(i, _)| *i);

    let failed = reports.iter().filter(|(_, line)| line.is_err()).count();
    for (_, line) in reports {
        writeln!(out, "{}", line.unwrap_or_else(|why| why))?;
    }
    if failed > 0 {
        return Err(format!("{failed} of {} groups could not be read", args.len()).into());
    }
    Ok(())
}

#[cfg(test)]
mod tests {
    use super::*;
    use kf::Tree;

    const SMALL: &str = concat!(env!("CARGO_MANIFEST_DIR"), "/data/v5-1024-small.case");
    const LARGE: &str = concat!(env!("CARGO_MANIFEST_DIR"), "/data/v5-2048.case");

    #[test]
    fn in_the_order_given() {
        let small = "group 2: reverse map 90 records, shared counts 30 records";
        let large = "group 1: reverse map 1630 records, shared counts 700 records";
        let args: Vec<String> = (0..10)
            .map(|i| if i % 3 == 0 { LARGE } else { SMALL }.to_string())
            .collect();
        let mut out = Vec::new();
        run(&args, &mut out).unwrap();
        let out = String::from_utf8(out).unwrap();
        assert_eq!(out.lines().count(), 10);
        for (i, line) in out.lines().enumerate() {
            assert_eq!(line, if i % 3 == 0 { large } else { small });
        }
    }

    /// Eight groups of one volume, each with the lists of a real group, built at
    /// the blocks of that group's trees.
    #[test]
    fn a_volume() {
        let real = Case::read(SMALL).unwrap();
        let dir = std::env::temp_dir().join(format!("kf-volume-{}", std::process::id()));
        std::fs::create_dir_all(&dir).unwrap();
        let mut args = Vec::new();
        for agno in 0..8 {
            let file = dir.join(format!("{agno}.case"));
            std::fs::write(&file, with_agno(&real, agno)).unwrap();
            args.push(file.display().to_string());
        }
        let mut out = Vec::new();
        run(&args, &mut out).unwrap();
        std::fs::remove_dir_all(&dir).unwrap();
        let due: String = (0..8)
            .map(|n| format!("group {n}: reverse map 90 records, shared counts 30 records\n"))
            .collect();
        assert_eq!(String::from_utf8(out).unwrap(), due);
    }

    /// A case file of the same lists in another group.
    fn with_agno(case: &Case, agno: u32) -> String {
        let (old, g) = (&case.geometry, case.geometry.with_agno(agno));
        let hex = |b: &[u8]| -> String { b.iter().map(|b| format!("{b:02x}")).collect() };
        let mut text = format!(
            "version {}\nblocksize {}\nagblocks {}\nagno {agno}\nuuid {}\n",
            g.version,
            g.blocksize,
            g.agblocks,
            hex(&g.meta_uuid)
        );
        let tree = |kind| Tree::walk(old, kind, &case.image, case.root(kind).unwrap()).unwrap();
        for (name, kind) in [("rmap", Kind::Rmap), ("refcount", Kind::Refcount)] {
            let Tree {
                records, blocks, ..
            } = tree(kind);
            let plan = Tree::plan(&g, kind, &records).unwrap();
            let numbers = &blocks[..plan.total as usize];
            let root = plan.root(numbers).unwrap();
            text += &format!("tree {name} root {} levels {}\n", root.root, root.levels);
            let built = Tree::build(&g, kind, &records, numbers).unwrap();
            for (n, block) in numbers.iter().zip(built.chunks(g.blocksize as usize)) {
                text += &format!("block {n} {}\n", hex(block));
            }
        }
        text
    }

    #[test]
    fn a_group_that_cannot_be_read() {
        let args = ["none.case", SMALL].map(String::from);
        let mut out = Vec::new();
        let error = run(&args, &mut out).unwrap_err();
        assert_eq!(error.to_string(), "1 of 2 groups could not be read");
        let out = String::from_utf8(out).unwrap();
        let lines: Vec<&str> = out.lines().collect();
        assert!(lines[0].starts_with("none.case: "));
        assert!(lines[1].starts_with("group 2: "));
    }

    /// The leaf 8202 names another magic number.
    #[test]
    fn a_group_that_is_refused() {
        let text = std::fs::read_to_string(SMALL).unwrap();
        let text = text.replace("block 8202 524d4233", "block 8202 524d4234");
        let case = Case::parse("changed", &text).unwrap();
        assert_eq!(
            report(&case).unwrap_err().to_string(),
            "group 2: reverse map: wrong magic number (4): \
             expected 0x524d4233, found 0x524d4234, after 3 visits"
        );
    }
}

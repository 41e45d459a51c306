//! `holders CASE BLOCK ..`: says of each block how many records of the reverse
//! map lie over it.
//!
//! All are looked up together, in one descent that reads only those leaves whose
//! keys say that they may have such a record. The lookup is the proved
//! library's; what is printed is this program's.

use kf::{Kind, Tree};
use std::error::Error;
use std::io::Write;
use std::process::ExitCode;

mod case;
use case::Case;

fn main() -> ExitCode {
    case::main("holders CASE BLOCK ..", 2..=usize::MAX, run)
}

fn run(args: &[String], out: &mut dyn Write) -> Result<(), Box<dyn Error>> {
    let case = Case::read(&args[0])?;
    let root = case.root(Kind::Rmap)?;
    let mut asked: Vec<u32> = Vec::new();
    for word in &args[1..] {
        let block = word.parse();
        asked.push(block.map_err(|_| format!("`{word}` is no block number"))?);
    }
    // A lookup wants them ascending, each once.
    asked.sort_unstable();
    asked.dedup();
    let found = Tree::lookup(&case.geometry, &case.image, root, &asked)?;

    for (block, holders) in asked.iter().zip(&found.holders) {
        writeln!(out, "block {block}: {holders}")?;
    }
    writeln!(out, "visits {} of {} blocks", found.visits, root.blocks)?;
    Ok(())
}

#[cfg(test)]
mod tests {
    use super::*;
    use kf::rmaps;

    fn path(case: &str) -> String {
        format!("{}/data/{case}", env!("CARGO_MANIFEST_DIR"))
    }

    fn printed(case: &str, blocks: &[&str]) -> Result<Vec<String>, String> {
        let mut args = vec![path(case)];
        args.extend(blocks.iter().map(|b| b.to_string()));
        let mut out = Vec::new();
        run(&args, &mut out).map_err(|e| e.to_string())?;
        let out = String::from_utf8(out).unwrap();
        Ok(out.lines().map(String::from).collect())
    }

    /// Blocks of the first leaf, in any order; one of them is shared.
    #[test]
    fn a_real_tree() {
        let lines = printed("v5-1024-small.case", &["8256", "8210", "7", "8199", "7"]);
        assert_eq!(
            lines.unwrap(),
            [
                "block 7: 1",
                "block 8199: 1",
                "block 8210: 0",
                "block 8256: 4",
                "visits 2 of 4 blocks",
            ]
        );
    }

    #[test]
    fn words_that_are_wrong() {
        let error = printed("v5-1024-small.case", &["7", "x"]).unwrap_err();
        assert_eq!(error, "`x` is no block number");
    }

    /// Several hundred blocks, as a page of an index wants them: the same as
    /// counting over the whole walk.
    #[test]
    fn as_counted_over_the_walk() {
        let case = Case::read(&path("v5-2048.case")).unwrap();
        let root = case.root(Kind::Rmap).unwrap();
        let (g, image) = (&case.geometry, &case.image);
        let tree = Tree::walk(g, Kind::Rmap, image, root).unwrap();
        let last = rmaps(&tree.records).map(|r| r.end()).max().unwrap() as u32;
        let mut visits = vec![];
        for (from, to, step) in [(0, last + 2, 100), (0, last + 2, 1), (1300, 1400, 1)] {
            let asked: Vec<u32> = (from..to).step_by(step).collect();
            let found = Tree::lookup(g, image, root, &asked).unwrap();
            for (&block, &holders) in asked.iter().zip(&found.holders) {
                let over = |r: &kf::Rmap| r.startblock <= block && u64::from(block) < r.end();
                let counted = rmaps(&tree.records).filter(over).count();
                assert_eq!(holders, counted as u64, "block {block}");
            }
            visits.push(found.visits);
        }
        // Of 25 blocks.
        assert_eq!(visits, [23, 25, 4]);
    }
}

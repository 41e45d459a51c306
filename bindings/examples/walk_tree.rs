//! `walk_tree CASE`: walks the reverse map of a case file, on a stack and as
//! textbooks have it, and prints what the tree is and its first records.
//!
//! Both walks are the proved library's; what is printed is this program's.

use kf::{rmaps, Kind, Tree};
use std::error::Error;
use std::io::Write;
use std::process::ExitCode;

mod case;
use case::Case;

fn main() -> ExitCode {
    case::main("walk_tree CASE", 1..=1, run)
}

fn run(args: &[String], out: &mut dyn Write) -> Result<(), Box<dyn Error>> {
    let case = Case::read(&args[0])?;
    let root = case.root(Kind::Rmap)?;
    let tree = Tree::walk(&case.geometry, Kind::Rmap, &case.image, root)?;
    let lists = Tree::walk_textbook(&case.geometry, Kind::Rmap, &case.image, root)?;
    if (&lists.blocks, &lists.records) != (&tree.blocks, &tree.records) {
        return Err("the textbook walk gives other lists".into());
    }

    let records = rmaps(&tree.records);
    let linked = if tree.linked { "linked" } else { "not linked" };
    writeln!(out, "levels {}", root.levels)?;
    writeln!(out, "blocks {}", tree.blocks.len())?;
    writeln!(out, "records {}", records.len())?;
    writeln!(out, "{linked}")?;
    writeln!(out, "the textbook walk gives the same")?;

    for r in records.take(10) {
        let (start, last) = (r.startblock, r.end().saturating_sub(1));
        write!(out, "blocks {start} to {last}, owner {}", r.owner)?;
        if !r.is_reserved() && !r.is_bmbt_block() {
            write!(out, ", file offset {}", r.file_offset())?;
        }
        let words = [
            (r.is_unwritten(), ", unwritten"),
            (r.is_attr_fork(), ", attribute fork"),
            (r.is_bmbt_block(), ", of the file's extent map"),
        ];
        for (_, word) in words.iter().filter(|(is, _)| *is) {
            write!(out, "{word}")?;
        }
        writeln!(out)?;
    }
    Ok(())
}

#[cfg(test)]
mod tests {
    use super::*;

    fn printed(case: &str) -> Vec<String> {
        let case = format!("{}/data/{case}", env!("CARGO_MANIFEST_DIR"));
        let mut out = Vec::new();
        run(&[case], &mut out).unwrap();
        let out = String::from_utf8(out).unwrap();
        out.lines().map(String::from).collect()
    }

    /// As xfs_db prints the records.
    #[test]
    fn a_real_tree() {
        let lines = printed("v5-1024-small.case");
        assert_eq!(
            lines,
            [
                "levels 2",
                "blocks 4",
                "records 90",
                "linked",
                "the textbook walk gives the same",
                "blocks 0 to 1, owner -3",
                "blocks 2 to 3, owner -5",
                "blocks 4 to 5, owner -6",
                "blocks 6 to 6, owner -5",
                "blocks 7 to 7, owner -8",
                "blocks 8 to 8199, owner -4",
                "blocks 8200 to 8209, owner -5",
                "blocks 8211 to 8211, owner 81993, file offset 0, attribute fork",
                "blocks 8212 to 8212, owner 81992, file offset 0, attribute fork",
                "blocks 8213 to 8216, owner 81991, file offset 5, attribute fork",
            ]
        );
    }

    #[test]
    fn a_real_tree_of_more_blocks() {
        let lines = printed("v5-2048.case");
        assert_eq!(
            lines[..5],
            [
                "levels 2",
                "blocks 25",
                "records 1630",
                "linked",
                "the textbook walk gives the same",
            ]
        );
    }

    #[test]
    fn case_files_that_are_wrong() {
        let head = "version 5\nblocksize 4\nagblocks 2\nagno 0\n";
        let error = |line: &str| {
            let text = format!("{head}tree rmap root 0 levels 1\n{line}");
            Case::parse("a.case", &text).err().map(|e| e.to_string())
        };
        assert_eq!(error("block 1 00112233"), None);
        let wrong = [
            ("version x", "`x` is no number, or too large"),
            ("version 65536", "`65536` is no number, or too large"),
            ("uuid 00", "a UUID has 16 bytes"),
            ("block 0 0g", "bytes are two hexadecimal digits each"),
            ("block 0 001", "bytes are two hexadecimal digits each"),
            ("block 0 0011", "block 0 has 2 bytes, not 4"),
            ("block 2 00112233", "block 2 is not in the group"),
            (
                "blocks 1 2",
                "`blocks` or what follows it is not understood",
            ),
        ];
        for (line, why) in wrong {
            assert_eq!(error(line), Some(format!("a.case, line 6: {why}")));
        }
        let case = Case::parse("a.case", head).unwrap();
        let error = case.root(Kind::Rmap).unwrap_err();
        assert_eq!(error.to_string(), "a.case: no tree rmap");
    }
}

//! `free_space CASE`: walks both free-space trees of a case file, checks the
//! extents of each, and says whether both hold the same ones, how many blocks are
//! free and which the longest run is.
//!
//! Walks and checks are the proved library's, and so is what is the same; the
//! sum is this program's.

use kf::{check_by_block, check_by_size, free_extents, same_extents, Kind, Tree};
use std::error::Error;
use std::io::Write;
use std::process::ExitCode;

mod case;
use case::Case;

fn main() -> ExitCode {
    case::main("free_space CASE", 1..=1, run)
}

fn run(args: &[String], out: &mut dyn Write) -> Result<(), Box<dyn Error>> {
    report(&Case::read(&args[0])?, out)
}

fn report(case: &Case, out: &mut dyn Write) -> Result<(), Box<dyn Error>> {
    let mut walk = |kind| -> Result<Vec<u8>, Box<dyn Error>> {
        let tree = Tree::walk(&case.geometry, kind, &case.image, case.root(kind)?)?;
        let (blocks, extents) = (tree.blocks.len(), free_extents(&tree.records).len());
        let linked = if tree.linked { "linked" } else { "not linked" };
        writeln!(out, "{kind}: blocks {blocks}, extents {extents}, {linked}")?;
        Ok(tree.records)
    };
    let (by_block, by_size) = (walk(Kind::ByBlock)?, walk(Kind::BySize)?);

    // `same_extents` asks this too, but does not say of which list.
    check_by_block(&by_block).map_err(|e| format!("{}: {e}", Kind::ByBlock))?;
    check_by_size(&by_size).map_err(|e| format!("{}: {e}", Kind::BySize))?;
    if !same_extents(&by_block, &by_size)? {
        return Err("the two trees do not hold the same extents".into());
    }
    writeln!(out, "both hold the same extents")?;

    let free: u64 = free_extents(&by_block)
        .map(|x| u64::from(x.blockcount))
        .sum();
    writeln!(out, "free blocks {free}")?;
    // The last by size is the longest, of equals the one furthest out.
    if let Some(x) = free_extents(&by_size).next_back() {
        let (first, last) = (x.startblock, x.end() - 1);
        writeln!(out, "longest run: blocks {first} to {last}")?;
    }
    Ok(())
}

#[cfg(test)]
mod tests {
    use super::*;
    use kf::{FreeExtent, Geometry};

    fn read(case: &str) -> Case {
        Case::read(&format!("{}/data/{case}", env!("CARGO_MANIFEST_DIR"))).unwrap()
    }

    fn printed(case: &Case) -> Result<String, String> {
        let mut out = Vec::new();
        report(case, &mut out).map_err(|e| e.to_string())?;
        Ok(String::from_utf8(out).unwrap())
    }

    /// As xfs_db prints the records.
    #[test]
    fn real_trees() {
        assert_eq!(
            printed(&read("v5-1024-small.case")).unwrap(),
            "free space by block: blocks 1, extents 7, linked\n\
             free space by size: blocks 1, extents 7, linked\n\
             both hold the same extents\n\
             free blocks 7986\n\
             longest run: blocks 8408 to 16383\n"
        );
        assert_eq!(
            printed(&read("v5-2048.case")).unwrap(),
            "free space by block: blocks 3, extents 386, linked\n\
             free space by size: blocks 3, extents 386, linked\n\
             both hold the same extents\n\
             free blocks 7025\n\
             longest run: blocks 4180 to 10239\n"
        );
    }

    #[test]
    fn real_trees_of_version_4() {
        assert_eq!(
            printed(&read("v4-1024.case")).unwrap(),
            "free space by block: blocks 6, extents 473, linked\n\
             free space by size: blocks 6, extents 473, linked\n\
             both hold the same extents\n\
             free blocks 30987\n\
             longest run: blocks 3274 to 32767\n"
        );
    }

    /// The tree by size of a small group, with other extents.
    fn with_by_size(change: impl Fn(&mut Vec<FreeExtent>)) -> Case {
        let mut case = read("v5-1024-small.case");
        let (g, kind) = (&case.geometry, Kind::BySize);
        let root = case.root(kind).unwrap();
        let tree = Tree::walk(g, kind, &case.image, root).unwrap();
        let mut extents: Vec<FreeExtent> = free_extents(&tree.records).collect();
        change(&mut extents);
        let list: Vec<u8> = extents.iter().flat_map(|x| x.to_bytes()).collect();
        let block = leaf(g, root.root, &list);
        case::put(&mut case.image, root.root, &block).unwrap();
        case
    }

    /// A leaf of any records, in order or not: their bytes in a built one, and its
    /// CRC put right.
    fn leaf(g: &Geometry, number: u32, list: &[u8]) -> Vec<u8> {
        let accepted: Vec<FreeExtent> = (1..)
            .map(|blockcount| FreeExtent {
                startblock: 0,
                blockcount,
            })
            .take(list.len() / 8)
            .collect();
        let accepted: Vec<u8> = accepted.iter().flat_map(|x| x.to_bytes()).collect();
        let mut block = Tree::build(g, Kind::BySize, &accepted, &[number]).unwrap();
        block[56..][..list.len()].copy_from_slice(list);
        block[52..56].fill(0);
        let crc = kf::crc32c(&block);
        block[52..56].copy_from_slice(&crc.to_le_bytes());
        block
    }

    #[test]
    fn trees_that_do_not_hold_the_same() {
        let same = with_by_size(|_| ());
        assert!(printed(&same).is_ok());
        let differ = "the two trees do not hold the same extents";
        let one_less = with_by_size(|list| {
            list.pop();
        });
        assert_eq!(printed(&one_less).unwrap_err(), differ);
        // As many, and as many blocks.
        let moved = with_by_size(|list| list[6].startblock -= 1);
        assert_eq!(printed(&moved).unwrap_err(), differ);
    }

    #[test]
    fn lists_that_are_refused() {
        let exchanged = with_by_size(|list| list.swap(5, 6));
        assert_eq!(
            printed(&exchanged).unwrap_err(),
            "free space by size: a record of the shared counts or a free extent \
             is bad or out of order (21)"
        );
    }
}

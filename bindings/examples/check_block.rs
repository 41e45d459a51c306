//! `check_block CASE`: checks the root of the reverse map in a case file and
//! prints its header; then takes the volume's log to have ended before the block
//! was written, then changes a bit of the block, and prints why each is refused.
//!
//! The check is the proved library's; what is cut out of the image is this
//! program's.

use kf::{check_block, Kind, NO_SIBLING};
use std::error::Error;
use std::io::Write;
use std::process::ExitCode;

mod case;
use case::Case;

fn main() -> ExitCode {
    case::main("check_block CASE", 1..=1, run)
}

fn run(args: &[String], out: &mut dyn Write) -> Result<(), Box<dyn Error>> {
    let case = Case::read(&args[0])?;
    let root = case.root(Kind::Rmap)?;
    // The leaves are at level 0, the root is at the last.
    let (number, level) = (root.root, root.levels.saturating_sub(1).try_into()?);

    // A block is cut out of the image at its number times the block size.
    let size = case.geometry.blocksize as usize;
    let block = case.image.get(number as usize * size..).unwrap_or_default();
    let mut block = block.get(..size).ok_or("the root is not there")?.to_vec();

    let header = check_block(&case.geometry, Kind::Rmap, number, level, &block)?;
    let (has, room) = (header.numrecs, header.maxrecs);
    let entries = if level == 0 { "records" } else { "entries" };
    writeln!(out, "block {number} is at level {level}")?;
    writeln!(out, "{has} {entries}, room for {room}")?;
    let sibling = |n| match n {
        NO_SIBLING => "none".to_string(),
        n => format!("block {n}"),
    };
    let (left, right) = (sibling(header.leftsib), sibling(header.rightsib));
    writeln!(out, "siblings: {left} before it, {right} after it")?;

    // A block that is newer than the log is refused.
    let lsn = block[24..32].iter().fold(0, |n, &b| n << 8 | u64::from(b));
    let ended = lsn.checked_sub(1).ok_or("the root is of no log")?;
    let older = case.geometry.with_last_lsn(ended);
    match check_block(&older, Kind::Rmap, number, level, &block) {
        Err(refusal) => writeln!(out, "with a log that ended before it: {refusal}")?,
        Ok(_) => return Err("a block newer than the log was accepted".into()),
    }

    // One bit changed, and the block is refused.
    if let Some(last) = block.last_mut() {
        *last ^= 1;
    }
    match check_block(&case.geometry, Kind::Rmap, number, level, &block) {
        Err(refusal) => writeln!(out, "with its last bit changed: {refusal}")?,
        Ok(_) => return Err("a changed block was accepted".into()),
    }
    Ok(())
}

#[test]
fn a_real_block() {
    let case = concat!(env!("CARGO_MANIFEST_DIR"), "/data/v5-1024-small.case");
    let mut out = Vec::new();
    run(&[case.to_string()], &mut out).unwrap();
    assert_eq!(
        String::from_utf8(out).unwrap(),
        "block 8201 is at level 1\n\
         3 entries, room for 22\n\
         siblings: none before it, none after it\n\
         with a log that ended before it: \
         the block's sequence number is above the volume's last one (30): \
         expected 4294967345 at most, found 4294967346\n\
         with its last bit changed: \
         wrong CRC32C (5): expected 0x77dc5647, found 0x85b7d544\n"
    );
}

#[test]
fn no_such_file() {
    let error = run(&["no.case".to_string()], &mut Vec::new()).unwrap_err();
    assert!(error.to_string().starts_with("no.case: "));
}

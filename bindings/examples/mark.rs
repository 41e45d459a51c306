//! `mark CASE SHEET`: makes the changes of a sheet on the group of a case file, one
//! after another, and prints what came of each: done or refused, and why; after a
//! let go what is free again, and why the rest stays held. A summary ends it. Both
//! files are left as they are.
//!
//! A refused change changes nothing, and the next one is made: that is no error. A
//! sheet that is refused is one, and then no change is made.
//!
//! Walks, the reading of the sheet, changes and causes are the proved library's.
//! Which records it is given to explain a block, that none of the free blocks is
//! held, what is still free at the end and where a sheet is damaged is this
//! program's.

use kf::{
    crc32c, Applied, Cause, Change, FreeExtent, Group, Kind, Question, Refusal, Sheet, SHEET_BLOCK,
    SHEET_BLOCKS,
};
use std::collections::{BTreeMap, HashMap};
use std::error::Error;
use std::fmt::Display;
use std::fs::File;
use std::io::{self, Read, Write};
use std::ops::Range;
use std::process::ExitCode;

mod case;
mod causes;
use case::Case;
use causes::{ascending, held_in_words, Near, Run};

fn main() -> ExitCode {
    case::main("mark CASE SHEET", 2..=2, run)
}

fn run(args: &[String], out: &mut dyn Write) -> Result<(), Box<dyn Error>> {
    let (case, path) = (Case::read(&args[0])?, &args[1]);
    let named = |e: &dyn Display| format!("{path}: {e}");
    let sheet = read(path).map_err(|e| named(&e))?;
    let changes = changes(&sheet).map_err(|e| named(&e))?;
    let (map, counts) = (case.root(Kind::Rmap)?, case.root(Kind::Refcount)?);
    let mut group = Group::walk(&case.geometry, &case.image, map, counts)?;
    mark(&mut group, &changes, out)
}

/// The bytes of a file, which is no longer than a sheet can be.
fn read(path: &str) -> io::Result<Vec<u8>> {
    let most = SHEET_BLOCKS * SHEET_BLOCK;
    let mut bytes = Vec::new();
    File::open(path)?
        .take(most as u64 + 1)
        .read_to_end(&mut bytes)?;
    if bytes.len() > most {
        return Err(io::Error::other(format!(
            "longer than a sheet can be, {SHEET_BLOCKS} blocks of {SHEET_BLOCK} bytes"
        )));
    }
    Ok(bytes)
}

/// The changes of a sheet, or why there are none.
fn changes(sheet: &[u8]) -> Result<Vec<Change>, String> {
    Sheet::read(sheet).map_err(|refusal| match refusal.question() {
        Some(Question::SheetCrc) => format!("{refusal}: {}", damage(sheet)),
        _ => refusal.to_string(),
    })
}

/// Where a sheet is damaged: 32 does not say.
fn damage(sheet: &[u8]) -> String {
    let (blocks, len) = (sheet.chunks_exact(SHEET_BLOCK), sheet.len());
    if !blocks.remainder().is_empty() {
        return format!("{len} bytes are no whole blocks");
    }
    let wrong = |block: &[u8]| block[..4] != crc32c(&block[4..]).to_le_bytes();
    let places: Vec<usize> = (0..)
        .zip(blocks)
        .filter_map(|(place, block)| wrong(block).then_some(place))
        .collect();
    match places[..] {
        [] => "no block".to_string(),
        [place] => format!("the block at place {place}"),
        [first, ..] => format!("{} blocks, first that at place {first}", places.len()),
    }
}

/// Makes the changes, and prints each with what came of it, and the summary. Where
/// a block that was told as free is held the lists do not agree, and it ends: what
/// came of the rest would mean nothing.
fn mark(group: &mut Group, changes: &[Change], out: &mut dyn Write) -> Result<(), Box<dyn Error>> {
    let mut marked = Marked::before(group);
    let width = changes.len().to_string().len();
    for (number, change) in (1..).zip(changes) {
        let near = match change {
            Change::LetGo(x) => Some(Near::of(group, x)),
            _ => None,
        };
        let applied = group.make(change);
        let mark = match applied.refusal() {
            Some(refusal) => format!("refused {}", refusal.number),
            None => "done".to_string(),
        };
        writeln!(out, "{number:>width$}  {mark:10}  {change}")?;
        let indent = width + "  refused 23    ".len();
        if let Some(refusal) = applied.refusal() {
            writeln!(out, "{:indent$}{}", "", said(refusal))?;
        }
        let free: Vec<Span> = applied.free().iter().map(span).collect();
        if !free.is_empty() {
            print_spans("free again:", &free, "", indent, out)?;
        }
        if let Some(near) = near.filter(|_| is_explained(&applied)) {
            for (state, spans, cause) in by_owner(&near.causes(change.extent())?) {
                let (head, tail) = (format!("{state}:"), format!(" ({cause})"));
                print_spans(&head, &spans, &tail, indent, out)?;
            }
        }
        if let Some(words) = held_in_words(group, applied.free()) {
            return Err(format!("change {number}: {words}").into());
        }
        marked.add(&applied);
    }
    marked.print(group, out)
}

/// Blocks, up to one that is no longer among them.
type Span = Range<u64>;

fn span(x: &FreeExtent) -> Span {
    x.startblock.into()..x.end()
}

/// Has a let go causes to tell: was it done, or refused by a staging record?
fn is_explained(applied: &Applied) -> bool {
    match applied.refusal() {
        Some(refusal) => refusal.question() == Some(Question::Staging),
        None => true,
    }
}

/// The question's words; its number stands in the line above them.
fn said(refusal: &Refusal) -> String {
    match refusal.question() {
        Some(question) => question.to_string(),
        None => refusal.to_string(),
    }
}

/// What runs of blocks are, and why. Those that are each a whole record of one owner
/// stand together, at the place of the first: a clone can have very many.
fn by_owner(runs: &[Run]) -> Vec<(&'static str, Vec<Span>, String)> {
    let mut places = HashMap::new();
    let mut out: Vec<(_, Vec<Span>, String)> = Vec::new();
    for run in runs {
        let span: Span = run.start.into()..run.end.into();
        let place = match run.cause {
            Cause::Held(r) if span == (r.startblock.into()..r.end()) => {
                *places.entry(r.owner).or_insert(out.len())
            }
            _ => out.len(),
        };
        match (out.get_mut(place), run.cause) {
            (Some((_, spans, cause)), Cause::Held(r)) => {
                let owner = if r.is_reserved() {
                    "reserved owner"
                } else {
                    "inode"
                };
                spans.push(span);
                *cause = format!("{owner} {} holds each", r.owner);
            }
            _ => out.push((run.state(), vec![span], run.cause.to_string())),
        }
    }
    out
}

/// Prints `head 4, 7 to 9 tail`, in lines of about 100 characters.
fn print_spans(
    head: &str,
    spans: &[Span],
    tail: &str,
    indent: usize,
    out: &mut dyn Write,
) -> io::Result<()> {
    let mut line = format!("{:indent$}{head}", "");
    for (i, span) in spans.iter().enumerate() {
        let (first, last) = (span.start, span.end - 1);
        let mut word = first.to_string();
        if first < last {
            word += &format!(" to {last}");
        }
        word += if i + 1 < spans.len() { "," } else { tail };
        if i > 0 && line.len() + 1 + word.len() > 100 {
            writeln!(out, "{line}")?;
            line = format!("{:1$}", "", indent + head.len());
        }
        line += " ";
        line += &word;
    }
    writeln!(out, "{line}")
}

/// What is counted for the summary.
struct Marked {
    /// The records of both lists before the first change.
    before: [usize; 2],
    changes: usize,
    /// How many were refused, by the number of the question.
    refused: BTreeMap<u32, (usize, Refusal)>,
    free: Vec<FreeExtent>,
}

impl Marked {
    fn before(group: &Group) -> Marked {
        Marked {
            before: [group.rmaps().len(), group.refcounts().len()],
            changes: 0,
            refused: BTreeMap::new(),
            free: Vec::new(),
        }
    }

    fn add(&mut self, applied: &Applied) {
        self.changes += 1;
        self.free.extend(applied.free());
        if let Some(refusal) = applied.refusal() {
            let counted = self.refused.entry(refusal.number);
            counted.or_insert((0, *refusal)).0 += 1;
        }
    }

    fn print(&self, group: &Group, out: &mut dyn Write) -> Result<(), Box<dyn Error>> {
        let all = self.changes;
        let refused: usize = self.refused.values().map(|(n, _)| n).sum();
        writeln!(out)?;
        writeln!(
            out,
            "changes {all}: done {}, refused {refused}",
            all - refused
        )?;
        for (number, (n, refusal)) in &self.refused {
            writeln!(out, "  by {number:2}: {n} ({})", said(refusal))?;
        }
        let free: Vec<Span> = ascending(&self.free).iter().map(span).collect();
        let left = still_free(&free, group);
        let (again, still) = (blocks_of(&free), blocks_of(&left));
        writeln!(out, "blocks free again {again}, still free {still}")?;
        if still > 0 {
            print_spans("still free:", &left, "", 2, out)?;
        }
        let after = [group.rmaps().len(), group.refcounts().len()];
        for (i, kind) in [Kind::Rmap, Kind::Refcount].iter().enumerate() {
            writeln!(
                out,
                "{kind}: records {}, before {}",
                after[i], self.before[i]
            )?;
        }
        Ok(())
    }
}

fn blocks_of(spans: &[Span]) -> u64 {
    spans.iter().map(|span| span.end - span.start).sum()
}

/// The blocks of ascending spans that no record of the reverse map lies over, as
/// longest runs.
fn still_free(spans: &[Span], group: &Group) -> Vec<Span> {
    let mut out: Vec<Span> = Vec::new();
    let mut records = group.rmaps().peekable();
    // The first block that is not looked at yet.
    let mut from = 0;
    for span in spans {
        from = from.max(span.start);
        while from < span.end {
            let next = records.peek().map_or(span.end, |r| r.startblock.into());
            let until = next.min(span.end);
            if from < until {
                match out.last_mut() {
                    Some(last) if last.end == from => last.end = until,
                    _ => out.push(from..until),
                }
                from = until;
            } else if let Some(r) = records.next() {
                from = from.max(r.end());
            }
        }
    }
    out
}

#[cfg(test)]
mod tests {
    use super::*;
    use kf::{Refcount, Rmap};

    const CASE: &str = concat!(env!("CARGO_MANIFEST_DIR"), "/data/v5-1024-small.case");
    const SHEET: &str = concat!(env!("CARGO_MANIFEST_DIR"), "/data/v5-1024-small.sheet");

    fn rmap(startblock: u32, blockcount: u32, owner: i64, offset: u64) -> Rmap {
        Rmap {
            startblock,
            blockcount,
            owner,
            offset,
        }
    }

    /// What the sheet in `data` says.
    fn written_out() -> [Change; 19] {
        const UNWRITTEN: u64 = 1 << 61;
        const EXTENT_MAP: u64 = 1 << 62;
        const ATTR_FORK: u64 = 1 << 63;
        [
            Change::First(rmap(9000, 16, 81994, 0)),
            Change::Held(rmap(9004, 4, 81995, 0)),
            Change::LetGo(rmap(9000, 16, 81994, 0)),
            Change::First(rmap(9000, 4, 81996, 0)),
            Change::LetGo(rmap(8256, 1, 81986, 0)),
            Change::Held(rmap(8256, 4, 81994, 16)),
            Change::LetGo(rmap(8256, 16, 81985, 0)),
            Change::First(rmap(8300, 4, 81994, 20)),
            Change::Held(rmap(8336, 4, 81994, 20)),
            Change::LetGo(rmap(8317, 1, 81989, 1)),
            Change::LetGo(rmap(8317, 1, 81989, UNWRITTEN | 1)),
            Change::First(rmap(9100, 0, 81996, 4)),
            Change::LetGo(rmap(8223, 1, 81986, EXTENT_MAP)),
            Change::LetGo(rmap(8396, 12, 81993, ATTR_FORK | 1)),
            Change::First(rmap(8396, 4, 81994, ATTR_FORK | 1)),
            Change::First(rmap(8223, 1, -5, 0)),
            Change::Held(rmap(8272, 4, 81985, 16)),
            Change::LetGo(rmap(9004, 4, 81995, 0)),
            Change::First(rmap(9200, 8, 81997, 0)),
        ]
    }

    #[test]
    fn the_sheet_is_the_list() {
        let sheet = std::fs::read(SHEET).unwrap();
        assert_eq!(sheet.len(), 2 * SHEET_BLOCK);
        assert_eq!(Sheet::write(&written_out()).as_ref(), Ok(&sheet));
        assert_eq!(changes(&sheet), Ok(written_out().to_vec()));
    }

    #[test]
    fn a_sheet_marked() {
        let mut out = Vec::new();
        run(&[CASE, SHEET].map(String::from), &mut out).unwrap();
        let printed = String::from_utf8(out).unwrap();
        let lines: Vec<&str> = printed.lines().collect();
        assert_eq!(
            lines,
            [
                " 1  done        inode 81994 takes blocks 9000 to 9015",
                " 2  done        inode 81995 takes held blocks 9004 to 9007",
                " 3  done        inode 81994 lets go of blocks 9000 to 9015",
                "                  free again: 9000 to 9003, 9008 to 9015",
                "                  still held: 9004 to 9007 (inode 81995 holds blocks 9004 to 9007)",
                " 4  done        inode 81996 takes blocks 9000 to 9003",
                " 5  done        inode 81986 lets go of block 8256",
                "                  still held: 8256 (inode 81985 holds blocks 8256 to 8315)",
                " 6  done        inode 81994 takes held blocks 8256 to 8259 at file offset 16",
                " 7  done        inode 81985 lets go of blocks 8256 to 8271",
                "                  free again: 8261, 8263, 8265, 8267, 8269, 8271",
                "                  still held: 8256 (inode 81987 holds block 8256)",
                "                  still held: 8257 to 8259 (inode 81994 holds blocks 8256 to 8259)",
                "                  still held: 8260, 8262, 8264, 8266, 8268, 8270 (inode 81986 holds each)",
                " 8  refused 23  inode 81994 takes blocks 8300 to 8303 at file offset 20",
                "                  a held block or a clashing record is in the way of the take",
                " 9  refused 27  inode 81994 takes held blocks 8336 to 8339 at file offset 20",
                "                  a block of the extent is not held",
                "10  refused 24  inode 81989 lets go of block 8317 at file offset 1",
                "                  no record of the extent's owner and flags contains it",
                "11  done        inode 81989 lets go of block 8317 at file offset 1 (unwritten)",
                "                  free again: 8317",
                "12  refused 22  inode 81996 takes 0 blocks from 9100 at file offset 4",
                "                  the extent is empty, ends past block 2,147,483,648 or ends past file offset 2^54",
                "13  done        inode 81986 lets go of block 8223 (extent map)",
                "                  free again: 8223",
                "14  done        inode 81993 lets go of blocks 8396 to 8407 at file offset 1 (attribute fork)",
                "                  free again: 8396 to 8407",
                "15  done        inode 81994 takes blocks 8396 to 8399 at file offset 1 (attribute fork)",
                "16  done        reserved owner -5 takes block 8223",
                "17  refused 23  inode 81985 takes held blocks 8272 to 8275 at file offset 16",
                "                  a held block or a clashing record is in the way of the take",
                "18  done        inode 81995 lets go of blocks 9004 to 9007",
                "                  free again: 9004 to 9007",
                "19  done        inode 81997 takes blocks 9200 to 9207",
                "",
                "changes 19: done 14, refused 5",
                "  by 22: 1 (the extent is empty, ends past block 2,147,483,648 or ends past file offset 2^54)",
                "  by 23: 2 (a held block or a clashing record is in the way of the take)",
                "  by 24: 1 (no record of the extent's owner and flags contains it)",
                "  by 27: 1 (a block of the extent is not held)",
                "blocks free again 36, still free 27",
                "  still free: 8261, 8263, 8265, 8267, 8269, 8271, 8317, 8400 to 8407, 9004 to 9015",
                "reverse map: records 91, before 90",
                "shared counts: records 25, before 30",
            ]
        );
    }

    fn printed(group: &mut Group, changes: &[Change]) -> Result<Vec<String>, String> {
        let mut out = Vec::new();
        mark(group, changes, &mut out).map_err(|e| e.to_string())?;
        let out = String::from_utf8(out).unwrap();
        Ok(out.lines().map(String::from).collect())
    }

    fn group_of(map: &[Rmap], counts: &[Refcount]) -> Group {
        Group::new(
            map.iter().flat_map(|r| r.to_bytes()).collect(),
            counts.iter().flat_map(|r| r.to_bytes()).collect(),
        )
    }

    /// Of runs that are each a record of one owner there is one line, of any other
    /// its own; and a staging record, which refuses a let go, is told.
    #[test]
    fn causes() {
        let x = rmap(4, 9, 131, 0);
        let count = |startblock, refcount| Refcount {
            startblock,
            blockcount: 2,
            refcount,
        };
        let changes = [Change::LetGo(x)];
        let map = [
            x,
            rmap(5, 2, 132, 0),
            rmap(8, 2, -5, 0),
            rmap(11, 2, 132, 9),
        ];
        let counts = [count(5, 2), count(8, 2), count(11, 2)];
        let lines = printed(&mut group_of(&map, &counts), &changes).unwrap();
        assert_eq!(
            lines[..4],
            [
                "1  done        inode 131 lets go of blocks 4 to 12",
                "                 free again: 4, 7, 10",
                "                 still held: 5 to 6, 11 to 12 (inode 132 holds each)",
                "                 still held: 8 to 9 (reserved owner -5 holds blocks 8 to 9)",
            ]
        );
        // A record that reaches further, of the same owner, and a count alone.
        let map = [x, map[1], rmap(8, 2, 132, 3), rmap(11, 3, 132, 9)];
        let counts = [counts[0], count(8, 2), counts[2]];
        let near = Near::of(&group_of(&map, &counts), &x);
        let held = by_owner(&near.causes(&x).unwrap());
        assert_eq!(held.len(), 2);
        assert_eq!(held[0].1, [5..7, 8..10]);
        assert_eq!(held[1].2, "inode 132 holds blocks 11 to 13");
        let near = Near::of(&group_of(&map[..1], &counts[..1]), &x);
        let held = by_owner(&near.causes(&x).unwrap());
        assert_eq!(held.len(), 1);
        assert!(held[0].2.starts_with("the shared counts tell 2 owners"));
        let mut staging = group_of(&[x], &[count(1 << 31 | 5, 1)]);
        let lines = printed(&mut staging, &changes).unwrap();
        assert_eq!(
            lines,
            [
                "1  refused 25  inode 131 lets go of blocks 4 to 12",
                "                 the extent meets a staging record",
                "                 staging: 5 to 6 (blocks 5 to 6 are set aside for copy-on-write)",
                "",
                "changes 1: done 0, refused 1",
                "  by 25: 1 (the extent meets a staging record)",
                "blocks free again 0, still free 0",
                "reverse map: records 1, before 1",
                "shared counts: records 1, before 1",
            ]
        );
    }

    /// Long lists of blocks are wrapped.
    #[test]
    fn many_runs() {
        let mut out = Vec::new();
        let spans: Vec<Span> = (0..30).map(|i| 8257 + 2 * i..8258 + 2 * i).collect();
        print_spans("free again:", &spans, " (so)", 4, &mut out).unwrap();
        let out = String::from_utf8(out).unwrap();
        let lines: Vec<&str> = out.lines().collect();
        assert_eq!(lines.len(), 3);
        assert!(lines.iter().all(|line| line.len() <= 100));
        assert!(lines[0].starts_with("    free again: 8257, 8259, "));
        assert!(lines[1].starts_with("                8285, "));
        assert!(lines[2].ends_with(" 8315 (so)"));
    }

    /// The counts do not tell that another holds the blocks too.
    #[test]
    fn lists_that_do_not_agree() {
        let (x, y) = (rmap(4, 2, 131, 0), rmap(4, 2, 132, 0));
        let changes = [Change::First(rmap(9, 1, 131, 0)), Change::LetGo(x)];
        assert_eq!(
            printed(&mut group_of(&[x, y], &[]), &changes),
            Err(
                "change 2: the shared counts do not agree with the reverse map: \
                 4/2 would be free, and owner 132 holds 4/2"
                    .to_string()
            )
        );
    }

    #[test]
    fn free_at_the_end() {
        let map = [
            rmap(0, 3, 7, 0),
            rmap(2, 8, 8, 0),
            rmap(4, 1, 7, 4),
            rmap(12, 2, 7, 0),
            rmap(20, 9, 7, 0),
        ];
        let group = group_of(&map, &[]);
        let left = |spans: &[Span]| still_free(spans, &group);
        let (all, inner, outer) = (0..30, 10..12, 29..31);
        assert_eq!(left(&[all]), [10..12, 14..20, 29..30]);
        assert_eq!(left(&[1..5, 5..11, 11..13, 13..14]), [inner]);
        assert_eq!(left(&[14..15, 15..16, 18..25]), [14..16, 18..20]);
        assert_eq!(left(&[outer, 40..41]), [29..31, 40..41]);
        assert_eq!(left(&[]), []);
        assert_eq!(
            still_free(&[3..4, 4..6, 7..9], &Group::default()),
            [3..6, 7..9]
        );
    }

    /// A sheet that is refused is told in words.
    #[test]
    fn refused_sheets() {
        let sheet = std::fs::read(SHEET).unwrap();
        let (crc, rule) = (
            "a block of the sheet has a wrong CRC32C, or the last one is not whole (32)",
            "the sheet or the list of changes is empty or breaks a rule (33)",
        );
        let refused = |sheet: &[u8]| changes(sheet).unwrap_err();
        let mut damaged = sheet.clone();
        damaged[600] ^= 1;
        assert_eq!(refused(&damaged), format!("{crc}: the block at place 1"));
        damaged[6] ^= 1;
        assert_eq!(
            refused(&damaged),
            format!("{crc}: 2 blocks, first that at place 0")
        );
        assert_eq!(
            refused(&sheet[..1000]),
            format!("{crc}: 1000 bytes are no whole blocks")
        );
        assert_eq!(refused(&[]), rule);
        assert_eq!(refused(&sheet[..512]), rule);
        assert_eq!(refused(&sheet[512..]), rule);
    }

    #[test]
    fn files() {
        let error = |case: &str, sheet: &str| {
            let mut out = Vec::new();
            let error = run(&[case, sheet].map(String::from), &mut out).unwrap_err();
            assert!(out.is_empty());
            error.to_string()
        };
        // A case file is no sheet, and a sheet no case file.
        let case = std::fs::metadata(CASE).unwrap().len();
        assert_eq!(
            error(CASE, CASE),
            format!(
                "{CASE}: a block of the sheet has a wrong CRC32C, or the last one is not \
                 whole (32): {case} bytes are no whole blocks"
            )
        );
        assert!(error(SHEET, SHEET).starts_with(SHEET));
        let none = format!("{SHEET}.none");
        assert!(error(CASE, &none).starts_with(&none));
        // One that has no end.
        assert_eq!(
            error(CASE, "/dev/zero"),
            "/dev/zero: longer than a sheet can be, 65536 blocks of 512 bytes"
        );
    }

    /// Bytes of the sheet altered, with right CRCs: marked or refused, in words.
    #[test]
    fn altered_sheets() {
        let case = Case::read(CASE).unwrap();
        let root = |kind| case.root(kind).unwrap();
        let (map, counts) = (root(Kind::Rmap), root(Kind::Refcount));
        let group = Group::walk(&case.geometry, &case.image, map, counts).unwrap();
        let sheet = std::fs::read(SHEET).unwrap();
        let (mut marked, mut refused) = (0, 0);
        for at in (4..sheet.len()).filter(|at| at % SHEET_BLOCK >= 4) {
            for by in [1, 0x80, 0xFF] {
                let mut sheet = sheet.clone();
                sheet[at] ^= by;
                for block in sheet.chunks_exact_mut(SHEET_BLOCK) {
                    let crc = crc32c(&block[4..]).to_le_bytes();
                    block[..4].copy_from_slice(&crc);
                }
                match changes(&sheet) {
                    Ok(changes) => {
                        printed(&mut group.clone(), &changes).unwrap();
                        marked += 1;
                    }
                    Err(_) => refused += 1,
                }
            }
        }
        // Among them every byte of the 19 records.
        assert!(marked >= 3 * 19 * 24, "{marked}");
        assert!(refused > 0);
        assert_eq!(marked + refused, 3 * 2 * 508);
    }
}

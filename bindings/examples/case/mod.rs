//! Case files: a group's geometry and the blocks of its trees, as text. The
//! examples read them in place of a volume; `data/README.md` has the format.

use kf::{Geometry, Kind, Root};
use std::error::Error;
use std::fs;
use std::io::{self, Write};
use std::ops::RangeInclusive;
use std::process::ExitCode;
use std::str::FromStr;

/// What an example does with its words and where it prints.
pub type Run = fn(&[String], &mut dyn Write) -> Result<(), Box<dyn Error>>;

/// Runs an example on the words of the command line. An error is printed by
/// its text, and the exit code is 1; it is 2 where the number of words is not one
/// of `words`.
pub fn main(usage: &str, words: RangeInclusive<usize>, run: Run) -> ExitCode {
    let args: Vec<String> = std::env::args().skip(1).collect();
    if !words.contains(&args.len()) {
        eprintln!("usage: {usage}");
        return ExitCode::from(2);
    }
    let mut out = io::stdout().lock();
    match run(&args, &mut out).and_then(|()| Ok(out.flush()?)) {
        Ok(()) => ExitCode::SUCCESS,
        Err(error) => {
            eprintln!("{error}");
            ExitCode::FAILURE
        }
    }
}

/// A group as a case file has it. The file says nothing of the volume's log: the
/// last sequence number is taken to be that of the newest block in the file, so
/// that none is newer.
pub struct Case {
    pub geometry: Geometry,
    /// The blocks at their places, zeros between them.
    pub image: Vec<u8>,
    /// The name of each tree, and where it begins.
    trees: Vec<(String, Root)>,
    path: String,
}

impl Case {
    /// Reads a case file.
    pub fn read(path: &str) -> Result<Case, Box<dyn Error>> {
        let text = fs::read_to_string(path).map_err(|e| format!("{path}: {e}"))?;
        Case::parse(path, &text)
    }

    /// Reads the text of a case file.
    pub fn parse(path: &str, text: &str) -> Result<Case, Box<dyn Error>> {
        let mut case = Case {
            geometry: Geometry::new(0, 0, 0, 0, [0; 16]),
            image: Vec::new(),
            trees: Vec::new(),
            path: path.to_string(),
        };
        for (i, line) in text.lines().enumerate() {
            case.line(line)
                .map_err(|e| format!("{path}, line {}: {e}", i + 1))?;
        }
        Ok(case)
    }

    /// Where the tree of a kind begins. A case file has no group header, so the
    /// blocks are those that it lists for the tree.
    pub fn root(&self, kind: Kind) -> Result<Root, Box<dyn Error>> {
        let wanted = match kind {
            Kind::Rmap => "rmap",
            Kind::Refcount => "refcount",
            Kind::ByBlock => "bno",
            Kind::BySize => "cnt",
            _ => return Err(format!("no case file has trees of the kind {kind}").into()),
        };
        let tree = self.trees.iter().find(|(name, _)| name == wanted);
        let (_, root) = tree.ok_or_else(|| format!("{}: no tree {wanted}", self.path))?;
        Ok(*root)
    }

    fn line(&mut self, line: &str) -> Result<(), String> {
        let g = &mut self.geometry;
        match line.split_whitespace().collect::<Vec<_>>()[..] {
            [] => {}
            [first, ..] if first.starts_with('#') => {}
            ["version", n] => g.version = number(n)?,
            ["blocksize", n] => g.blocksize = number(n)?,
            ["agblocks", n] => g.agblocks = number(n)?,
            ["agno", n] => g.agno = number(n)?,
            ["uuid", h] => {
                let uuid = hex(h)?;
                g.meta_uuid = uuid.try_into().map_err(|_| "a UUID has 16 bytes")?;
            }
            ["tree", name, "root", root, "levels", levels] => {
                let root = Root::new(number(root)?, number(levels)?, 0);
                self.trees.push((name.to_owned(), root));
            }
            ["block", n, h] => {
                self.store(number(n)?, &hex(h)?)?;
                let (_, root) = self.trees.last_mut().ok_or("a block before any tree")?;
                root.blocks += 1;
            }
            [first, ..] => return Err(format!("`{first}` or what follows it is not understood")),
        }
        Ok(())
    }

    fn store(&mut self, n: u32, bytes: &[u8]) -> Result<(), String> {
        let size = self.geometry.blocksize as usize;
        if bytes.len() != size {
            return Err(format!("block {n} has {} bytes, not {size}", bytes.len()));
        }
        if n >= self.geometry.agblocks {
            return Err(format!("block {n} is not in the group"));
        }
        // A block of version 4 has no sequence number.
        if let (5, Some(lsn)) = (self.geometry.version, bytes.get(24..32)) {
            let lsn = lsn.iter().fold(0, |n, &b| n << 8 | u64::from(b));
            self.geometry.last_lsn = self.geometry.last_lsn.max(lsn);
        }
        put(&mut self.image, n, bytes)
    }
}

/// Stores a block at its number in an image, which gets as long as it has to be.
pub fn put(image: &mut Vec<u8>, n: u32, block: &[u8]) -> Result<(), String> {
    let at = n as usize * block.len();
    let end = at + block.len();
    if image.len() < end {
        let none = |_| format!("block {n}: no memory for an image as long as that");
        image.try_reserve(end - image.len()).map_err(none)?;
        image.resize(end, 0);
    }
    image[at..end].copy_from_slice(block);
    Ok(())
}

fn number<N: FromStr>(word: &str) -> Result<N, String> {
    let error = |_| format!("`{word}` is no number, or too large");
    word.parse().map_err(error)
}

fn hex(word: &str) -> Result<Vec<u8>, String> {
    let digit = |c: &u8| char::from(*c).to_digit(16);
    let pair = |pair: &[u8]| match pair {
        [high, low] => Some((digit(high)? * 16 + digit(low)?) as u8),
        _ => None,
    };
    let bytes: Option<Vec<u8>> = word.as_bytes().chunks(2).map(pair).collect();
    bytes.ok_or_else(|| "bytes are two hexadecimal digits each".to_string())
}

//! The library beside the Rust original.
//!
//! `compare [--seed N] [--scale N] [PART ..]` gives both the same inputs and
//! stops at the first difference, with the input printed. It names each part
//! that it ran, with the calls that it made, and counts the calls by their
//! answer. `compare bench` times both, `compare real CASE ..` walks the trees
//! of real volumes and follows their histories, `compare sample FILE` writes
//! cases with the original's answers for the program `replay`.

mod bench;
mod blocks;
mod edits;
mod free;
mod held;
mod histories;
mod kinds;
mod lent;
mod library;
mod links;
mod lists;
mod lookups;
mod machine;
mod real;
mod sample;
mod sequence;
mod sheets;
mod tally;
mod textbook;
mod trees;
mod vectors;
mod why;

use oracle::sample::Random;
use tally::Tally;

/// A part of the comparison: its name, what it tries, and how.
struct Part {
    name: &'static str,
    tries: &'static str,
    run: fn(&mut Random, u64, &mut Tally),
}

/// In this order: a part's seed goes by its place.
const PARTS: [Part; 20] = [
    Part {
        name: "crc",
        tries:
            "by words and singly: up to 599 bytes, 0 to 300 at each of eight offsets, up to 262,150",
        run: blocks::crcs,
    },
    Part {
        name: "lists",
        tries: "reverse maps and shared counts, accepted or not",
        run: edits::accepted_lists,
    },
    Part {
        name: "blocks",
        tries: "blocks stamped, then mostly damaged",
        run: blocks::blocks,
    },
    Part {
        name: "plans",
        tries: "full trees and one record more or fewer, then any number",
        run: trees::plans,
    },
    Part {
        name: "builds",
        tries: "lists, block numbers and outputs that fit or do not",
        run: trees::builds,
    },
    Part {
        name: "walks",
        tries: "trees built, stored, then walked whole, damaged or with less memory",
        run: trees::walks,
    },
    Part {
        name: "edits",
        tries: "lists of up to two records of a small world, around the bounds, and long ones",
        run: edits::edits,
    },
    Part {
        name: "releases",
        tries: "counts of up to two records of a small world, and around the bounds",
        run: edits::releases,
    },
    Part {
        name: "lets_go",
        tries: "a reverse map and shared counts, agreeing or not",
        run: edits::lets_go,
    },
    Part {
        name: "takes_held",
        tries: "a reverse map and shared counts, agreeing or not",
        run: held::takes,
    },
    Part {
        name: "links",
        tries:
            "trees built, stored, then walked with each link in turn changed, and in another order",
        run: links::links,
    },
    Part {
        name: "vectors",
        tries: "the layer over vectors: both lists edited, trees built, walked and looked up in",
        run: vectors::vectors,
    },
    Part {
        name: "lookups",
        tries: "trees built, stored, then looked up in whole, damaged or otherwise asked",
        run: lookups::lookups,
    },
    Part {
        name: "free_lists",
        tries: "free extents by block and by size: all lists of up to three of a small world, and around the last end",
        run: free::lists,
    },
    Part {
        name: "free_trees",
        tries: "free-space trees on both versions: blocks, plans, builds, walks, links, over vectors, and as other kinds",
        run: free::trees,
    },
    Part {
        name: "same",
        tries: "two lists of free extents: of a small world each beside each, and with something changed",
        run: free::sameness,
    },
    Part {
        name: "textbook",
        tries: "nine levels of full nodes, also on a small stack of the machine, and images with any pointers",
        run: textbook::textbook,
    },
    Part {
        name: "sequence",
        tries: "blocks and trees with sequence numbers around the volume's last one, and single newer blocks",
        run: sequence::sequence,
    },
    Part {
        name: "why",
        tries: "an extent of a reverse map and shared counts, agreeing or not, and each of its blocks and others",
        run: why::explanations,
    },
    Part {
        name: "sheets",
        tries: "sheets of up to 65,537 blocks and lists of changes, written and read back, each byte and field changed",
        run: sheets::sheets,
    },
];

/// Run a part, and say its name and its calls. A part that makes none has
/// compared nothing.
fn run(part: &Part, random: &mut Random, scale: u64, tally: &mut Tally) {
    let before = tally.calls();
    (part.run)(random, scale, tally);
    let made = tally.calls() - before;
    assert!(made > 0, "{} made no call", part.name);
    println!("part {:<10} {made:>9}   {}", part.name, part.tries);
}

fn main() {
    let mut words: Vec<String> = std::env::args().skip(1).collect();
    let mut number = |name: &str, other: u64| -> u64 {
        match words.iter().position(|w| w == name) {
            None => other,
            Some(i) => {
                let n = words.get(i + 1).and_then(|w| w.parse().ok());
                words.drain(i..(i + 2).min(words.len()));
                n.unwrap_or_else(|| panic!("{name} takes a number"))
            }
        }
    };
    let seed = number("--seed", 1);
    let scale = number("--scale", 1);
    match words.first().map(String::as_str) {
        Some("bench") => return bench::bench(&words[1..]),
        Some("real") => return real::real(&words[1..]),
        Some("sample") => return sample::sample(&words[1..]),
        _ => (),
    }
    for w in &words {
        assert!(PARTS.iter().any(|p| p.name == w), "no part {w}");
    }
    let mut tally = Tally::default();
    for (i, part) in PARTS.iter().enumerate() {
        if words.is_empty() || words.iter().any(|w| w == part.name) {
            let mut random = Random(seed * 1000 + i as u64);
            run(part, &mut random, scale, &mut tally);
        }
    }
    tally.print();
}

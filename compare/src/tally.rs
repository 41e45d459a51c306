//! Counts of the calls made, by their answer.

use crate::kinds::Kind;
use oracle::Geometry;
use std::collections::{BTreeMap, BTreeSet};

#[derive(Default)]
pub struct Tally {
    counts: BTreeMap<(&'static str, u32), u64>,
    noted: BTreeMap<&'static str, BTreeMap<&'static str, u64>>,
    /// The most of something that was measured.
    measured: BTreeMap<&'static str, BTreeMap<&'static str, u64>>,
    /// The answers met on free-space trees, by call and version.
    free: BTreeMap<(&'static str, u64), BTreeSet<u32>>,
}

impl Tally {
    pub fn add(&mut self, call: &'static str, number: u32) {
        *self.counts.entry((call, number)).or_default() += 1;
    }

    /// A call on a tree.
    pub fn add_tree(&mut self, call: &'static str, kind: Kind, g: &Geometry, number: u32) {
        self.add(call, number);
        if matches!(kind, Kind::Free(_)) {
            let met = self.free.entry((call, g.version)).or_default();
            met.insert(number);
        }
    }

    /// One more of some calls, `what`, that came out in one of several ways.
    pub fn note(&mut self, what: &'static str, how: &'static str) {
        *self.noted.entry(what).or_default().entry(how).or_default() += 1;
    }

    /// So much of something was measured of one of several; the most is kept.
    pub fn measure(&mut self, what: &'static str, of: &'static str, n: u64) {
        let measured = self.measured.entry(what).or_default();
        let most = measured.entry(of).or_default();
        *most = n.max(*most);
    }

    /// What another has counted besides.
    pub fn take(&mut self, other: Tally) {
        for (k, n) in other.counts {
            *self.counts.entry(k).or_default() += n;
        }
        for (what, by) in other.noted {
            let mine = self.noted.entry(what).or_default();
            for (how, n) in by {
                *mine.entry(how).or_default() += n;
            }
        }
        for (what, by) in other.measured {
            for (of, n) in by {
                self.measure(what, of, n);
            }
        }
        for (k, met) in other.free {
            self.free.entry(k).or_default().extend(met);
        }
    }

    /// An `insert` refused by 23: what the original does with it.
    pub fn ahead(&mut self, original: &'static str) {
        self.note("insert by 23, the original", original);
    }

    /// Both of two ways were met, or the run has not compared what it should.
    pub fn met_both(&self, what: &str) {
        self.met_ways(what, 2);
    }

    /// The same of several ways.
    pub fn met_ways(&self, what: &str, ways: usize) {
        let met = self.noted.get(what).map_or(0, BTreeMap::len);
        assert_eq!(met, ways, "{what}: not all ways were met");
    }

    /// The ways in which some calls came out, each with how often.
    pub fn ways(&self, what: &str) -> String {
        self.noted.get(what).map_or(String::new(), said)
    }

    /// The call was met with each of these answers and with no other, or the run
    /// has not compared what it should.
    pub fn met_all(&self, call: &str, answers: &[u32]) {
        let met = self.counts.keys().filter(|k| k.0 == call).map(|k| k.1);
        let met: Vec<u32> = met.collect();
        assert_eq!(
            met, answers,
            "{call}: the answers met, and those that it has"
        );
    }

    /// The same of a call on free-space trees of a version.
    pub fn met_all_free(&self, call: &'static str, version: u64, answers: &[u32]) {
        let met = self.free.get(&(call, version)).into_iter().flatten();
        assert!(
            met.eq(answers),
            "{call} on version {version}: not these answers were met: {answers:?}"
        );
    }

    /// The calls made so far.
    pub fn calls(&self) -> u64 {
        self.counts.values().sum()
    }

    /// One line for each call: how often in all, and how often with each
    /// number (0 is done).
    pub fn print(&self) {
        let mut calls: Vec<&str> = self.counts.keys().map(|k| k.0).collect();
        calls.dedup();
        for call in calls {
            let mine: Vec<(u32, u64)> = self
                .counts
                .iter()
                .filter(|(k, _)| k.0 == call)
                .map(|(k, &n)| (k.1, n))
                .collect();
            let total: u64 = mine.iter().map(|m| m.1).sum();
            let by: Vec<String> = mine.iter().map(|(k, n)| format!("{k}: {n}")).collect();
            println!("{call:<16} {total:>9}   {}", by.join(", "));
        }
        for (what, by) in self.noted.iter().chain(&self.measured) {
            println!("{what}: {}", said(by));
        }
        println!("{:<16} {:>9}   no difference", "all", self.calls());
    }
}

fn said(by: &BTreeMap<&str, u64>) -> String {
    let by: Vec<String> = by.iter().map(|(k, n)| format!("{k} {n}")).collect();
    by.join(", ")
}

/// The end: a difference, with the input.
pub fn differ(call: &str, what: &str, library: &str, original: &str, input: &str) -> ! {
    println!("DIFFERENCE in {call}: {what}");
    println!("library:  {library}");
    println!("original: {original}");
    println!("input: {input}");
    std::process::exit(1)
}

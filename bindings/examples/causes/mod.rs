//! Why blocks of an extent that is let go are not free, in runs; and whether blocks
//! that were told as free are held. A cause is the proved library's; which records it
//! is given for it is this module's.

use kf::{Cause, FreeExtent, Group, Refcount, Refusal, Rmap};

/// The records of both lists that meet an extent, in order, as they are before it
/// goes. No other decides about its blocks.
pub struct Near {
    map: Vec<Rmap>,
    counts: Vec<Refcount>,
}

/// Neighbouring blocks of an extent that have the same cause.
#[derive(Debug, PartialEq)]
pub struct Run {
    pub start: u32,
    /// The block after its last.
    pub end: u32,
    pub cause: Cause,
}

impl Run {
    /// What the blocks are, in words.
    pub fn state(&self) -> &'static str {
        match self.cause {
            Cause::Staging(_) => "staging",
            _ => "still held",
        }
    }
}

impl Near {
    pub fn of(group: &Group, x: &Rmap) -> Near {
        let meets =
            |start: u32, end: u64| u64::from(start) < x.end() && u64::from(x.startblock) < end;
        let mut near = Near {
            map: Vec::new(),
            counts: group
                .refcounts()
                .filter(|r| meets(r.block(), r.end()))
                .collect(),
        };
        // An extent of which no block stays held has nothing to explain.
        if !near.counts.is_empty() {
            near.map
                .extend(group.rmaps().filter(|r| meets(r.startblock, r.end())));
        }
        near
    }

    /// Why blocks of the extent are still held or, where it meets staging records, so
    /// that it cannot go, staging.
    ///
    /// What decides about a block are the records over it, and those that contain the
    /// extent are among them. The library is given these alone, so that a cause costs
    /// the same in a long list as in a short one; and it is asked once for all blocks
    /// up to the next where the answer can be another.
    pub fn causes(&self, x: &Rmap) -> Result<Vec<Run>, Refusal> {
        let refused = self.counts.iter().any(|r| r.is_staging());
        let mut runs: Vec<Run> = Vec::new();
        let (mut later, mut over) = (self.map.iter().peekable(), Vec::new());
        for count in self.counts.iter().filter(|r| r.is_staging() == refused) {
            // Both ends lie in the extent, which ends by 2^31, or 22 had refused it.
            let mut block = count.block().max(x.startblock);
            let end = count.end().min(x.end()) as u32;
            while block < end {
                while let Some(r) = later.next_if(|r| r.startblock <= block) {
                    over.push(r);
                }
                over.retain(|r| u64::from(block) < r.end());
                let map = over.iter().flat_map(|r| r.to_bytes()).collect();
                let cause = Group::new(map, count.to_bytes().to_vec())
                    .why(x, block)?
                    .cause;
                // A record that begins later stands behind the one that decides; where
                // none of the map decides, it may.
                let until = match (cause, later.peek()) {
                    (Cause::Held(r), _) => r.end(),
                    (_, Some(r)) => u64::from(r.startblock),
                    (_, None) => u64::from(end),
                };
                let until = until.min(u64::from(end)) as u32;
                match runs.last_mut() {
                    Some(run) if (run.end, run.cause) == (block, cause) => run.end = until,
                    _ => runs.push(Run {
                        start: block,
                        end: until,
                        cause,
                    }),
                }
                block = until;
            }
        }
        Ok(runs)
    }
}

/// A free extent of which a block is held, and a record that holds it. What is
/// free goes by the shared counts, and no call asks whether they agree with the
/// reverse map; a block that is held must not be given to another.
pub fn held(group: &Group, free: &[FreeExtent]) -> Option<(FreeExtent, Rmap)> {
    let free = ascending(free);
    group.rmaps().find_map(|r| {
        // The first that ends behind the start of the record is the first that can
        // meet it.
        let i = free.partition_point(|x| x.end() <= u64::from(r.startblock));
        let x = *free.get(i)?;
        (u64::from(x.startblock) < r.end()).then_some((x, r))
    })
}

/// The same in words: the lists do not agree.
pub fn held_in_words(group: &Group, free: &[FreeExtent]) -> Option<String> {
    let (x, r) = held(group, free)?;
    Some(format!(
        "the shared counts do not agree with the reverse map: {}/{} would be free, \
         and owner {} holds {}/{}",
        x.startblock, x.blockcount, r.owner, r.startblock, r.blockcount
    ))
}

/// The same blocks in extents that ascend, of which none overlaps another. From
/// lists that do not agree a block can be told as free twice.
pub fn ascending(free: &[FreeExtent]) -> Vec<FreeExtent> {
    let mut all = free.to_vec();
    all.sort_by_key(|x| x.startblock);
    let mut out: Vec<FreeExtent> = Vec::new();
    for x in all {
        match out.last_mut() {
            Some(last) if u64::from(x.startblock) < last.end() => {
                // Both end by 2^31, or 22 had refused them.
                let end = last.end().max(x.end()) as u32;
                last.blockcount = end - last.startblock;
            }
            _ => out.push(x),
        }
    }
    out
}

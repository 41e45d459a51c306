//! Both sides on the same inputs in one run, from bytes to bytes, in processor
//! time of the calling thread, the shortest of several runs.

use crate::free;
use crate::kinds::{self, Kind};
use crate::library::{self, Edit, Walk};
use crate::links;
use crate::lists::{self, Count};
use crate::sheets::{self, BLOCK, CHANGE};
use crate::vectors as layer;
use crate::why::Why;
use oracle::alloc_btree::FreeExtent;
use oracle::refusal::Outcome;
use oracle::rmap::Rmap;
use oracle::sample::{self, Image};
use oracle::timing::best;
use oracle::{bare, set_backend, Backend, Geometry};
use std::time::Duration;

const TIMES: usize = 15;

struct Row {
    what: String,
    size: String,
    library: Duration,
    original: Duration,
}

fn ms(d: Duration) -> f64 {
    d.as_secs_f64() * 1e3
}

fn print(rows: &[Row]) {
    println!("| call | size | library, ms | original, ms | ratio | growth |");
    println!("|---|---|---:|---:|---:|---:|");
    let mut last: Option<&Row> = None;
    for r in rows {
        let ratio = match ms(r.library) / ms(r.original) {
            x if x < 0.1 => format!("{x:.4}"),
            x => format!("{x:.2}"),
        };
        // How the library's time grew from the row before, where the call is
        // the same.
        let growth = match last {
            Some(l) if l.what == r.what => format!("{:.2}", ms(r.library) / ms(l.library)),
            _ => String::new(),
        };
        println!(
            "| {} | {} | {:.3} | {:.3} | {ratio} | {growth} |",
            r.what,
            r.size,
            ms(r.library),
            ms(r.original)
        );
        last = Some(r);
    }
}

fn row<A, B>(
    what: &str,
    size: String,
    library: impl FnMut() -> A,
    original: impl FnMut() -> B,
) -> Row {
    let (l, _) = best(TIMES, library);
    let (o, _) = best(TIMES, original);
    eprintln!("{what}, {size}: {:.3} {:.3}", ms(l), ms(o));
    Row {
        what: what.to_string(),
        size,
        library: l,
        original: o,
    }
}

/// A number with its thousands apart.
fn apart(n: usize) -> String {
    match n {
        0..1000 => n.to_string(),
        _ => format!("{},{:03}", apart(n / 1000), n % 1000),
    }
}

/// The checks of so many parts of the bytes, together.
fn fold(bytes: &[u8], size: usize, crc: fn(&[u8]) -> u32) -> u32 {
    bytes.chunks_exact(size).fold(0, |x, c| x ^ crc(c))
}

fn crc(rows: &mut Vec<Row>) {
    let mut r = sample::Random(1);
    let all = r.bytes(4096 * 4096);
    for n in [2048, 4096] {
        let part = &all[..n * 4096];
        rows.push(row(
            "CRC32C of 4,096 bytes",
            format!("{n} times"),
            || fold(part, 4096, library::crc32c),
            || fold(part, 4096, crc32c::crc32c),
        ));
        let told = fold(part, 4096, crc32c::crc32c);
        assert_eq!(fold(part, 4096, library::crc32c), told);
    }
}

/// A call by each form of the check: the library's two, and the original with
/// slicing by four, with one table, and with the processor's instruction.
struct Forms {
    what: String,
    size: String,
    words: Duration,
    singly: Option<Duration>,
    original: [Duration; 3],
}

const FORMS: [Backend; 3] = [Backend::Slice4, Backend::Bytewise, Backend::Sse42];

fn by_forms<A>(mut original: impl FnMut() -> A) -> [Duration; 3] {
    FORMS.map(|b| {
        set_backend(b);
        best(TIMES, &mut original).0
    })
}

fn check_forms(rows: &mut Vec<Forms>) {
    let mut r = sample::Random(1);
    let all = r.bytes(4096 * 4096);
    for size in [4096, 512, 64] {
        rows.push(Forms {
            what: format!("CRC32C of {} bytes", apart(size)),
            size: format!("{} times", all.len() / size),
            words: best(TIMES, || fold(&all, size, library::crc32c)).0,
            singly: Some(best(TIMES, || fold(&all, size, library::crc32c_singly)).0),
            original: by_forms(|| fold(&all, size, crc32c::crc32c)),
        });
        let told = fold(&all, size, crc32c::crc32c);
        assert_eq!(fold(&all, size, library::crc32c), told);
        assert_eq!(fold(&all, size, library::crc32c_singly), told);
    }
}

fn tree_forms(rows: &mut Vec<Forms>) {
    let n = 1_000_000;
    for size in [4096, 512] {
        let s = tree_image(n, size);
        let mut lent = Lent::of(&s);
        let mut out = vec![0; s.image.bytes.len()];
        rows.push(Forms {
            what: format!("block check at {}", apart(size)),
            size: format!("{} leaves", s.leaves),
            words: best(TIMES, || s.check_library()).0,
            singly: None,
            original: by_forms(|| s.check_original()),
        });
        rows.push(Forms {
            what: format!("walk at {}", apart(size)),
            size: format!("{n} records"),
            words: best(TIMES, || s.walk_library(&mut lent)).0,
            singly: None,
            original: by_forms(|| s.walk_original()),
        });
        assert!(lent.records == s.list);
        rows.push(Forms {
            what: format!("build at {}", apart(size)),
            size: format!("{n} records"),
            words: best(TIMES, || s.build_library(&mut out)).0,
            singly: None,
            original: by_forms(|| s.build_original()),
        });
        assert!(out == s.image.bytes);
    }
}

fn print_forms(rows: &[Forms]) {
    println!(
        "| call | size | library, by words | library, singly | original, by words | original, singly \
         | original, instruction | by words, ratio | singly / by words |"
    );
    println!("|---|---|---:|---:|---:|---:|---:|---:|---:|");
    for r in rows {
        let [words, singly, instruction] = r.original.map(ms);
        let own = r.singly.map_or(String::new(), |d| format!("{:.3}", ms(d)));
        // Where the library has no such call singly, the original's.
        let gain = r.singly.map_or(singly / words, |d| ms(d) / ms(r.words));
        println!(
            "| {} | {} | {:.3} | {own} | {words:.3} | {singly:.3} | {instruction:.3} | {:.2} | {gain:.2} |",
            r.what,
            r.size,
            ms(r.words),
            ms(r.words) / words
        );
    }
}

/// The last sequence number of the log, as a volume has it after some use.
const LAST_LSN: u64 = 0x0000_0001_0000_0032;

/// A tree of so many records, at a block size.
struct Sample {
    size: usize,
    g: Geometry,
    kind: Kind,
    list: Vec<u8>,
    image: Image,
    leaves: usize,
}

fn tree_image(n: usize, size: usize) -> Sample {
    rmap_tree(&sample::rmaps(n), size)
}

fn rmap_tree(records: &[Rmap], size: usize) -> Sample {
    tree_of(Kind::RMAP, 5, bare::rmap_bytes(records), size)
}

/// The list laid out over blocks 0, 1, 2 and so on, in a group that holds no
/// others.
fn tree_of(kind: Kind, version: u64, list: Vec<u8>, size: usize) -> Sample {
    let mut g = Geometry {
        version,
        agno: 3,
        meta_uuid: *b"0123456789abcdef",
        ..Geometry::v5(size as u64)
    };
    let n = (list.len() / kind.record_len()) as u64;
    let plan = kinds::plan(&g, kind, n).accepted().expect("a plan");
    let total = plan.iter().sum::<u64>() as u32;
    g.agblocks = total;
    let blocks: Vec<u32> = (0..total).collect();
    let bytes = links::build_at(&g, LAST_LSN, kind, &list, &blocks, usize::MAX);
    let image = Image {
        bytes: bytes.accepted().expect("a tree"),
        root: total - 1,
        levels: plan.len() as u32,
        blocks,
    };
    Sample {
        size,
        g,
        kind,
        list,
        image,
        leaves: plan[0] as usize,
    }
}

impl Sample {
    /// As the library is given the geometry.
    fn at(&self) -> library::G {
        library::g(&self.g).at(LAST_LSN)
    }

    fn leaf(&self, i: usize) -> &[u8] {
        &self.image.bytes[i * self.size..][..self.size]
    }

    fn check_library(&self) {
        let g = self.at();
        for i in 0..self.leaves {
            let said = library::check_block(&g, self.kind.number(), i as u32, 0, self.leaf(i));
            assert_eq!(said.number, 0);
        }
    }

    fn check_original(&self) {
        let sb = self.g.superblock();
        let shape = self.kind.shape();
        for i in 0..self.leaves {
            let b = self.leaf(i);
            let r = oracle::ag_btree::parse_block(b, &sb, shape, self.g.agno, i as u32, 0);
            assert!(r.is_ok());
        }
    }

    fn walk_library(&self, lent: &mut Lent) {
        self.walk_by(Walk::Plain, lent);
    }

    fn walk_by(&self, w: Walk, lent: &mut Lent) {
        let im = &self.image;
        let r = library::walk(
            w,
            &self.at(),
            self.kind.number(),
            &im.bytes,
            im.root,
            im.levels,
            &mut lent.stack,
            &mut lent.scratch,
            &mut lent.blocks,
            &mut lent.records,
        );
        assert_eq!((r.number, r.figures[3]), (0, w.says(true)));
    }

    fn walk_original(&self) -> bare::WalkAnswer {
        let im = &self.image;
        let a = kinds::bare_walk(&self.g, self.kind, &im.bytes, im.root, im.levels);
        assert!(a.outcome.number().is_none());
        a
    }

    fn build_library(&self, out: &mut [u8]) {
        let g = self.at();
        let kind = self.kind.number();
        let said = library::build(&g, kind, &self.list, &self.image.blocks, out);
        assert_eq!(said.number, 0);
    }

    fn build_original(&self) -> Outcome<Vec<u8>> {
        kinds::bare_build(&self.g, self.kind, &self.list, &self.image.blocks)
    }
}

/// What a walk is lent.
struct Lent {
    stack: Vec<u32>,
    scratch: Vec<u64>,
    blocks: Vec<u32>,
    records: Vec<u8>,
}

impl Lent {
    fn of(s: &Sample) -> Lent {
        Lent::on(s, kinds::STACK_PLACES)
    }

    /// The same with so many places of the stack.
    fn on(s: &Sample, places: usize) -> Lent {
        Lent {
            stack: vec![0; places],
            scratch: vec![0; s.image.blocks.len()],
            blocks: vec![0; s.image.blocks.len()],
            records: vec![0; s.list.len()],
        }
    }
}

fn trees(rows: &mut Vec<Row>) {
    let made = [1_000_000, 2_000_000].map(|n| tree_image(n, 4096));
    for s in &made {
        rows.push(row(
            "block check",
            format!("{} leaves of 4,096", s.leaves),
            || s.check_library(),
            || s.check_original(),
        ));
    }
    walks_and_builds("reverse map", &made, rows);
}

fn walks_and_builds(what: &str, made: &[Sample], rows: &mut Vec<Row>) {
    let records = |s: &Sample| format!("{} records", s.list.len() / s.kind.record_len());
    for s in made {
        let mut lent = Lent::of(s);
        rows.push(row(
            &format!("walk, {what} at {}", apart(s.size)),
            records(s),
            || s.walk_library(&mut lent),
            || s.walk_original(),
        ));
        let a = s.walk_original().outcome.accepted();
        let a = a.expect("the original walks it");
        assert!(lent.records == s.list && lent.records == a.records && lent.blocks == a.blocks);
    }
    for s in made {
        let mut out = vec![0; s.image.bytes.len()];
        rows.push(row(
            &format!("build, {what} at {}", apart(s.size)),
            records(s),
            || s.build_library(&mut out),
            || s.build_original(),
        ));
        assert!(out == s.image.bytes);
    }
}

/// Free extents, no two of which touch: extent i at block (most + 1) i, 1 to `most`
/// long.
fn free_list(n: usize, most: u32) -> Vec<FreeExtent> {
    (0..n)
        .map(|i| FreeExtent {
            startblock: (most + 1) * i as u32,
            blockcount: 1 + (i.wrapping_mul(0x9E37_79B9) >> 16) as u32 % most,
        })
        .collect()
}

/// Trees of free space by block.
fn free_trees(rows: &mut Vec<Row>) {
    let sizes = [1_000_000, 2_000_000];
    for version in [5, 4] {
        let made = sizes.map(|n| {
            let list = bare::free_bytes(&free_list(n, 7));
            tree_of(Kind::BY_BLOCK, version, list, 4096)
        });
        walks_and_builds(&format!("free space, version {version}"), &made, rows);
    }
}

/// Whether two lists hold the same extents, by turns with sorting a copy of the one
/// by size and holding it against the other, in Rust. The original has no such call.
fn sameness() {
    println!("| the same extents | library, ms | sorted copy, ms | ratio | growth |");
    println!("|---|---:|---:|---:|---:|");
    let mut last = None;
    let few = [(1_000_000, 7), (2_000_000, 7)];
    let many = [(500_000, 2000), (1_000_000, 2000)];
    for (n, most) in few.into_iter().chain(many) {
        let mut list = free_list(n, most);
        let by_block = bare::free_bytes(&list);
        list.sort_by_key(|x| (x.blockcount, x.startblock));
        let by_size = bare::free_bytes(&list);
        let mut least = [Duration::MAX; 2];
        for _ in 0..TIMES {
            let (d, said) = best(1, || library::same_extents(&by_block, &by_size));
            assert_eq!((said.number, said.figures), (0, [1, 0, 0, 0]));
            least[0] = least[0].min(d);
            let (d, same) = best(1, || {
                let mut sorted = free::extents(&by_size);
                sorted.sort_unstable();
                sorted == free::extents(&by_block)
            });
            assert!(same);
            least[1] = least[1].min(d);
        }
        let [call, copy] = least.map(ms);
        let growth = last.filter(|&(_, m)| m == most);
        let growth = growth.map_or(String::new(), |(l, _)| format!("{:.2}", call / l));
        println!(
            "| {n} in each list, of {} sizes | {call:.3} | {copy:.3} | {:.2} | {growth} |",
            apart(most as usize),
            call / copy
        );
        last = Some((call, most));
    }
}

/// The walk without and with the question whether the tree is linked, of the
/// library, by turns. The original has no such call.
fn linked() {
    println!("| reverse map | walk, ms | walk_linked, ms | ratio |");
    println!("|---|---:|---:|---:|");
    for (n, size) in [(1_000_000, 4096), (2_000_000, 4096), (1_000_000, 512)] {
        let s = tree_image(n, size);
        let mut lent = Walk::ON_STACK.map(|_| Lent::of(&s));
        let mut least = [Duration::MAX; 2];
        for _ in 0..TIMES {
            for (i, w) in Walk::ON_STACK.into_iter().enumerate() {
                let (d, ()) = best(1, || s.walk_by(w, &mut lent[i]));
                least[i] = least[i].min(d);
            }
        }
        let [a, b] = &lent;
        assert!(a.records == s.list && b.records == s.list && a.blocks == b.blocks);
        let [plain, with] = least.map(ms);
        println!(
            "| {n} records at {} | {plain:.3} | {with:.3} | {:.2} |",
            apart(size),
            with / plain
        );
    }
}

/// The library's walk on a stack, its textbook walk and the original's, by turns.
fn textbook() {
    println!(
        "| reverse map | walk, ms | walk_textbook, ms | original, ms | textbook / walk | textbook / original |"
    );
    println!("|---|---:|---:|---:|---:|---:|");
    for (n, size) in [(1_000_000, 4096), (2_000_000, 4096), (1_000_000, 512)] {
        let s = tree_image(n, size);
        let walks = [Walk::Plain, Walk::Textbook];
        let mut lent = walks.map(|_| Lent::of(&s));
        let mut least = [Duration::MAX; 3];
        for _ in 0..TIMES {
            for (i, w) in walks.into_iter().enumerate() {
                let (d, ()) = best(1, || s.walk_by(w, &mut lent[i]));
                least[i] = least[i].min(d);
            }
            let (d, a) = best(1, || s.walk_original());
            least[2] = least[2].min(d);
            let a = a.outcome.accepted().expect("the original walks it");
            let same = |l: &Lent| l.records == a.records && l.blocks == a.blocks;
            assert!(lent.iter().all(same));
        }
        let [walk, textbook, original] = least.map(ms);
        println!(
            "| {n} records at {} | {walk:.3} | {textbook:.3} | {original:.3} | {:.2} | {:.2} |",
            apart(size),
            textbook / walk,
            textbook / original
        );
    }
}

/// The library's walk on 18 places of the stack and on as many as document 01 asks
/// for, by turns.
fn stacks() {
    println!("| tree | places of document 01 | walk on 18, ms | walk on those, ms | ratio |");
    println!("|---|---:|---:|---:|---:|");
    let counts = |n: usize| {
        let list = bare::refcount_bytes(&sample::counts(n));
        tree_of(Kind::REFCOUNT, 5, list, 65_536)
    };
    let made = [
        ("reverse map", tree_image(1_000_000, 4096)),
        ("reverse map", tree_image(1_000_000, 512)),
        ("shared counts", counts(1_000_000)),
        ("shared counts", counts(10_000)),
    ];
    for (what, s) in &made {
        let larger = kinds::larger_stack(&s.g, s.kind, s.image.levels);
        let mut lent = [kinds::STACK_PLACES, larger].map(|places| Lent::on(s, places));
        let mut least = [Duration::MAX; 2];
        for _ in 0..TIMES {
            for (lent, least) in lent.iter_mut().zip(&mut least) {
                let (d, ()) = best(1, || s.walk_library(lent));
                *least = d.min(*least);
            }
        }
        let [a, b] = &lent;
        assert!(a.records == s.list && b.records == s.list && a.blocks == b.blocks);
        let [few, many] = least.map(ms);
        println!(
            "| {what}, {} records at {} | {} | {few:.3} | {many:.3} | {:.2} |",
            apart(s.list.len() / s.kind.record_len()),
            apart(s.size),
            apart(larger),
            few / many
        );
    }
}

/// How many of the records lie over each number, by differences: at the first
/// number that a record lies over there is one more, at the first past it one
/// less. The starts ascend, so the first is found by going on; the other, where
/// the record lies over any, by halves.
fn counted(records: &[u8], asked: &[u32]) -> Vec<u64> {
    let number = |b: &[u8]| u32::from_be_bytes(b.try_into().expect("4 bytes"));
    let mut more = vec![0i64; asked.len() + 1];
    let mut from = 0;
    for r in records.chunks_exact(24) {
        let start = number(&r[..4]);
        let end = u64::from(start) + u64::from(number(&r[4..8]));
        from += asked[from..].iter().take_while(|&&a| a < start).count();
        if asked.get(from).is_some_and(|&a| u64::from(a) < end) {
            let over = asked[from..].partition_point(|&a| u64::from(a) < end);
            more[from] += 1;
            more[from + over] -= 1;
        }
    }
    let mut n = 0;
    let sum = |m: &i64| {
        n += m;
        n as u64
    };
    more[..asked.len()].iter().map(sum).collect()
}

/// Numbers looked up together, by turns with a whole walk and counting over its
/// records: the library's, and the original's, which has no lookup.
fn print_lookup(what: &str, s: &Sample, asked: &[u32]) {
    let (g, im) = (s.at(), &s.image);
    let mut lent = Lent::of(s);
    let mut stack = lent.stack.clone();
    let mut answers = vec![0; asked.len()];
    let mut least = [Duration::MAX; 3];
    let mut visits = [0; 2];
    for _ in 0..TIMES {
        let (lookup, said) = best(1, || {
            let b = &im.bytes;
            library::lookup(&g, b, im.root, im.levels, asked, &mut stack, &mut answers)
        });
        assert_eq!(said.number, 0);
        let (walk, walked) = best(1, || {
            s.walk_library(&mut lent);
            counted(&lent.records, asked)
        });
        let (other, (original, blocks)) = best(1, || {
            let a = s.walk_original().outcome.accepted();
            let a = a.expect("the original walks it");
            (counted(&a.records, asked), a.blocks.len())
        });
        assert!(answers == walked && answers == original);
        visits = [said.figures[0], blocks as u64];
        for (least, d) in least.iter_mut().zip([lookup, walk, other]) {
            *least = d.min(*least);
        }
    }
    let [lookup, walk, other] = least.map(ms);
    println!(
        "| {what} | {lookup:.3} | {} | {walk:.3} | {} | {other:.3} | {:.4} | {:.4} |",
        visits[0],
        visits[1],
        lookup / walk,
        lookup / other
    );
}

fn lookups() {
    let (n, size) = (1_000_000, 4096);
    println!(
        "| 500 numbers, {n} records at {} | lookup, ms | visits | walk and count, ms | visits \
         | original, walk and count, ms | lookup / walk | lookup / original |",
        apart(size)
    );
    println!("|---|---:|---:|---:|---:|---:|---:|---:|");
    // Record i starts at 8 i, so one leaf has the records over the second 500.
    let s = tree_image(n, size);
    let asked = |step: usize| -> Vec<u32> { (0..500).map(|i| i * step as u32).collect() };
    print_lookup("spread over all", &s, &asked(8 * n / 500));
    print_lookup("in one leaf", &s, &asked(2));
    // So many owners of the same blocks.
    let all = |owner| Rmap {
        startblock: 0,
        blockcount: 1000,
        owner,
        offset: 0,
    };
    let records: Vec<Rmap> = (1..).map(all).take(n).collect();
    let s = rmap_tree(&records, size);
    print_lookup("all records over all", &s, &asked(2));
}

fn original_edit(e: Edit, old: &[u8], x: Rmap) -> Outcome<Vec<u8>> {
    match e {
        Edit::Insert => bare::insert(old, x),
        Edit::InsertShared => bare::insert_shared(old, x),
        Edit::Remove => bare::remove(old, x),
    }
}

fn edits(rows: &mut Vec<Row>) {
    for e in Edit::ALL {
        for n in [100_000, 200_000] {
            let list = sample::rmaps(n);
            let old = bare::rmap_bytes(&list);
            let x = match e {
                Edit::Remove => {
                    let cut = *list[n / 2..]
                        .iter()
                        .find(|r| r.blockcount > 4)
                        .expect("a record to cut");
                    Rmap {
                        startblock: cut.startblock + 1,
                        blockcount: 1,
                        offset: cut.offset + 1,
                        ..cut
                    }
                }
                _ => Rmap {
                    startblock: 8 * (n as u32 / 2) + 7,
                    blockcount: 1,
                    owner: 7,
                    offset: 0,
                },
            };
            let mut new = vec![0; old.len() + 24];
            rows.push(row(
                e.name(),
                format!("{n} records"),
                || assert_eq!(library::edit(e, &old, x, &mut new).number, 0),
                || original_edit(e, &old, x),
            ));
            let told = original_edit(e, &old, x).accepted().expect("an edit");
            let said = library::edit(e, &old, x, &mut new);
            assert!(new[..said.figures[0] as usize] == told[..]);
        }
    }
}

fn same_release(old: &[u8], start: u32, count: u32, new: &mut [u8], free: &mut [u8]) {
    let told = bare::release(old, start, count)
        .accepted()
        .expect("a release");
    let said = library::release(old, start, count, new, free);
    assert!(new[..said.figures[0] as usize] == told.counts[..]);
    assert!(free[..said.figures[1] as usize] == told.free[..]);
}

fn releases(rows: &mut Vec<Row>) {
    for all in [false, true] {
        for n in [100_000usize, 200_000] {
            let old = bare::refcount_bytes(&sample::counts(n));
            let (start, count) = if all {
                (0, 8 * n as u32)
            } else {
                (8 * (n as u32 / 2) + 1, 2)
            };
            let mut new = vec![0; old.len() + 24];
            let mut free = vec![0; 8 * (n + 1)];
            let what = if all {
                "release of all records"
            } else {
                "release, one record cut"
            };
            rows.push(row(
                what,
                format!("{n} records"),
                || {
                    assert_eq!(
                        library::release(&old, start, count, &mut new, &mut free).number,
                        0
                    )
                },
                || bare::release(&old, start, count),
            ));
            same_release(&old, start, count, &mut new, &mut free);
        }
    }
    // Side by side with as many owners: any release joins the whole list.
    for n in [100_000usize, 200_000] {
        let old = bare::refcount_bytes(&sample::counts_side_by_side(n));
        let mut new = vec![0; old.len() + 24];
        let mut free = vec![0; 64];
        let (l, _) = best(TIMES, || {
            assert_eq!(library::release(&old, 5, 1, &mut new, &mut free).number, 0);
        });
        same_release(&old, 5, 1, &mut new, &mut free);
        // The original moves the rest of the list at each join.
        let (o, _) = best(1, || bare::release(&old, 5, 1));
        rows.push(Row {
            what: "release, all records join".to_string(),
            size: format!("{n} records"),
            library: l,
            original: o,
        });
    }
}

fn lets_go(rows: &mut Vec<Row>) {
    for n in [100_000usize, 200_000] {
        let list = sample::rmaps(n);
        let map = bare::rmap_bytes(&list);
        let counts = bare::refcount_bytes(&sample::counts(n));
        let x = list[n / 2 + 3];
        let mut new = [
            vec![0; map.len() + 24],
            vec![0; counts.len() + 24],
            vec![0; 800],
        ];
        rows.push(row(
            "the whole letting go",
            format!("{n} and {n} records"),
            || {
                let [a, b, c] = &mut new;
                assert_eq!(library::let_go(&map, &counts, x, a, b, c).number, 0);
            },
            || {
                (
                    bare::remove(&map, x),
                    bare::release(&counts, x.startblock, x.blockcount),
                )
            },
        ));
        let [a, b, c] = &mut new;
        let said = library::let_go(&map, &counts, x, a, b, c);
        let told = bare::remove(&map, x).accepted().expect("a removal");
        assert!(a[..said.figures[0] as usize] == told[..]);
        let told = bare::release(&counts, x.startblock, x.blockcount)
            .accepted()
            .expect("a release");
        assert!(b[..said.figures[1] as usize] == told.counts[..]);
        assert!(c[..said.figures[2] as usize] == told.free[..]);
    }
}

/// The shortest of several runs of both, by turns.
fn by_turns(
    mut one: impl FnMut() -> Duration,
    mut other: impl FnMut() -> Duration,
) -> [Duration; 2] {
    let mut least = [Duration::MAX; 2];
    for _ in 0..TIMES {
        least = [least[0].min(one()), least[1].min(other())];
    }
    least
}

fn once<A>(f: impl FnMut() -> A) -> Duration {
    best(1, f).0
}

fn print_vectors(what: &str, size: &str, [lent, vectors]: [Duration; 2]) {
    let (a, b) = (ms(lent), ms(vectors));
    println!("| {what} | {size} | {a:.3} | {b:.3} | {:.2} |", b / a);
}

/// The layer over vectors beside the same calls of the library on memory that
/// is lent again and again.
fn vectors() {
    println!("| call | size | lent, ms | vectors, ms | ratio |");
    println!("|---|---|---:|---:|---:|");
    for (n, size) in [(1_000_000, 4096), (1_000_000, 512)] {
        tree_vectors(n, size);
    }
    for n in [100_000, 1_000_000] {
        edit_vectors(n);
    }
}

fn tree_vectors(n: usize, size: usize) {
    let s = tree_image(n, size);
    let g = layer::geometry(&s.g).with_last_lsn(LAST_LSN);
    let (im, kind) = (&s.image, kf::Kind::Rmap);
    let records = format!("{n} records at {}", apart(size));

    let root = kf::Root::new(im.root, im.levels, im.blocks.len() as u32);
    let mut lent = Lent::of(&s);
    let times = by_turns(
        || once(|| s.walk_by(Walk::Linked, &mut lent)),
        || once(|| kf::Tree::walk(&g, kind, &im.bytes, root).is_ok()),
    );
    let tree = kf::Tree::walk(&g, kind, &im.bytes, root).expect("a tree");
    assert!(tree.records == lent.records && tree.blocks == lent.blocks && tree.linked);
    print_vectors("`walk_linked`, `Tree::walk`", &records, times);

    let build = || kf::Tree::build(&g, kind, &s.list, &im.blocks);
    let mut out = vec![0; im.bytes.len()];
    let times = by_turns(
        || once(|| s.build_library(&mut out)),
        || once(|| build().is_ok()),
    );
    assert!(build().expect("blocks") == out);
    print_vectors("`build`, `Tree::build`", &records, times);
}

fn edit_vectors(n: usize) {
    let list = sample::rmaps(n);
    let map = &bare::rmap_bytes(&list);
    let counts = &bare::refcount_bytes(&sample::counts(n));
    let size = format!("{n} and {n} records");
    let x = list[n / 2 + 3];
    let other = Rmap { owner: 7, ..x };
    // One group, put back before each call: its vectors are there already, as is
    // what the other side is lent.
    let mut g = kf::Group::default();
    let back = |g: &mut kf::Group| {
        g.map.clone_from(map);
        g.counts.clone_from(counts);
    };
    let mut new = [
        vec![0; map.len() + 24],
        vec![0; counts.len() + 120],
        vec![0; 800],
    ];

    let times = by_turns(
        || {
            let [a, b, _] = &mut new;
            once(|| library::take_held(map, counts, other, a, b).number)
        },
        || {
            back(&mut g);
            once(|| g.take_held(&layer::extent(other)).is_ok())
        },
    );
    assert!(g.map == new[0][..g.map.len()] && g.counts == new[1][..g.counts.len()]);
    print_vectors("`take_held`, `Group::take_held`", &size, times);

    let times = by_turns(
        || {
            let [a, b, c] = &mut new;
            once(|| library::let_go(map, counts, x, a, b, c).number)
        },
        || {
            back(&mut g);
            once(|| g.let_go(&layer::extent(x)).is_ok())
        },
    );
    assert!(g.map == new[0][..g.map.len()] && g.counts == new[1][..g.counts.len()]);
    print_vectors("`let_go`, `Group::let_go`", &size, times);
}

/// So many records, two of different owners at each eighth block, and shared counts over
/// the last so many of the pairs. The last record is a block longer than the other one
/// over its blocks.
fn shared_lists(n: usize, shared: usize) -> (Vec<Rmap>, Vec<u8>) {
    let record = |i: usize| Rmap {
        startblock: 8 * (i / 2) as u32,
        blockcount: 4 + u32::from(i == n - 1),
        owner: 128 + (i % 2) as i64,
        offset: i as u64 * 31,
    };
    let count = |i: usize| Count {
        start: 8 * i as u32,
        count: 4,
        owners: 2,
    };
    let counts: Vec<Count> = (n / 2 - shared..n / 2).map(count).collect();
    ((0..n).map(record).collect(), lists::count_bytes(&counts))
}

/// An extent of one owner, and over all its blocks but the first single blocks of
/// another, of which no two join, under one shared count.
fn scattered_lists(n: usize) -> (Vec<Rmap>, Vec<u8>) {
    let whole = Rmap {
        startblock: 0,
        blockcount: n as u32,
        owner: 128,
        offset: 0,
    };
    let block = |i: usize| Rmap {
        startblock: i as u32,
        blockcount: 1,
        owner: 129,
        offset: 2 * i as u64,
    };
    let count = Count {
        start: 1,
        count: n as u32 - 1,
        owners: 2,
    };
    let list = std::iter::once(whole).chain((1..n).map(block)).collect();
    (list, lists::count_bytes(&[count]))
}

/// A block of an extent explained by turns with the whole letting go of that extent.
fn why_row(what: &str, size: &str, times: u32, map: &[u8], counts: &[u8], asked: Asked) {
    let Asked { x, block, why } = asked;
    let mut new = [map.len() + 24, counts.len() + 24, 16].map(|n| vec![0; n]);
    let [a, b, c] = &mut new;
    let least = by_turns(
        || {
            once(|| {
                for _ in 0..times {
                    let said = library::explain(map, counts, x, block);
                    assert_eq!((said.number, said.figures), (0, why.figures()));
                }
            })
        },
        || {
            once(|| {
                for _ in 0..times {
                    assert_eq!(library::let_go(map, counts, x, a, b, c).number, 0);
                }
            })
        },
    );
    let [explain, let_go] = least.map(ms);
    let ratio = explain / let_go;
    println!("| {what} | {size} | {explain:.3} | {let_go:.3} | {ratio:.2} |");
}

/// A block of an extent that is let go, and what decides about it.
struct Asked {
    x: Rmap,
    block: u32,
    why: Why,
}

/// Explanations beside the whole letting go of the same extent, both of the library. The
/// original has no such call.
fn why() {
    println!("| the block | records and counts | explain, ms | let_go, ms | ratio |");
    println!("|---|---|---:|---:|---:|");
    let of = |n, shared, times| match times {
        1 => format!("{n} and {shared}"),
        _ => format!("{n} and {shared}, {times} times"),
    };
    let sizes = [(1_000_000, 500_000, 1), (1_000_000, 1, 1)];
    let small = [(1_000, 500, 1_000), (1_000, 1, 1_000)];
    for (n, shared, times) in sizes.into_iter().chain(small) {
        let (list, counts) = shared_lists(n, shared);
        let map = bare::rmap_bytes(&list);
        let x = list[n - 1];
        let last = x.startblock + x.blockcount - 1;
        // No record of its owner lines up with this one.
        let off = Rmap {
            offset: x.offset + 1,
            ..x
        };
        let held = Why::HeldInMap(n - 2);
        for (what, x, block, why) in [
            ("held by a record", x, last - 1, held),
            ("held by a record, no offset lines up", off, last - 1, held),
            ("free", x, last, Why::Free),
        ] {
            let size = of(n, shared, times);
            why_row(what, &size, times, &map, &counts, Asked { x, block, why });
        }
    }
    for (n, times) in [(1_000_000, 1), (1_000, 1_000)] {
        let (list, counts) = scattered_lists(n);
        let map = bare::rmap_bytes(&list);
        let asked = Asked {
            x: list[0],
            block: n as u32 - 1,
            why: Why::HeldInMap(n - 1),
        };
        let what = "held by the last of many records in the extent";
        why_row(what, &of(n, 1, times), times, &map, &counts, asked);
    }
}

/// Sheets written and read, by turns with the CRC32C of their blocks alone: the library's,
/// and the original's, which has no sheets.
fn sheet_calls() {
    println!("| call | changes | library, ms | its CRC32C alone, ms | original's CRC32C alone, ms | library / its CRC32C | library / original's CRC32C | growth |");
    println!("|---|---|---:|---:|---:|---:|---:|---:|");
    let r = &mut sample::Random(1);
    let made = [15_000, 30_000].map(|n| {
        let list = sheets::changes(r, n);
        let sheet = sheets::write(&list).expect("good changes");
        (list, sheet)
    });
    type Call = fn(&[u8], &mut [u8]) -> library::Said;
    let calls: [(&str, Call); 2] = [
        ("read_sheet", library::read_sheet),
        ("write_sheet", library::write_sheet),
    ];
    for (i, (name, call)) in calls.into_iter().enumerate() {
        let mut last = None;
        for (list, sheet) in &made {
            let (given, due) = [(sheet, list), (list, sheet)][i];
            let mut out = vec![0; due.len()];
            let crcs = |f: fn(&[u8]) -> u32| {
                let checked = sheet.chunks_exact(BLOCK).map(|b| f(&b[4..]));
                checked.fold(0, |x, crc| x ^ crc)
            };
            let mut least = [Duration::MAX; 3];
            for _ in 0..TIMES {
                let now = [
                    once(|| assert_eq!(call(given, &mut out).number, 0)),
                    once(|| crcs(library::crc32c)),
                    once(|| crcs(crc32c::crc32c)),
                ];
                least = [0, 1, 2].map(|i| now[i].min(least[i]));
            }
            assert!(out == *due && crcs(library::crc32c) == crcs(crc32c::crc32c));
            let [all, own, original] = least.map(ms);
            let growth = last.map_or(String::new(), |l| format!("{:.2}", all / l));
            println!(
                "| {name} | {} | {all:.3} | {own:.3} | {original:.3} | {:.2} | {:.2} | {growth} |",
                apart(list.len() / CHANGE),
                all / own,
                all / original
            );
            last = Some(all);
        }
    }
}

/// A part of the table of calls.
type Part = fn(&mut Vec<Row>);

/// The tables beside it.
const OTHER_PARTS: [&str; 10] = [
    "forms",
    "linked",
    "textbook",
    "stacks",
    "lookups",
    "vectors",
    "free_trees",
    "same",
    "why",
    "sheets",
];

/// All of it, or the parts named.
pub fn bench(words: &[String]) {
    let parts: [(&str, Part); 5] = [
        ("crc", crc),
        ("trees", trees),
        ("edits", edits),
        ("releases", releases),
        ("lets_go", lets_go),
    ];
    for w in words {
        assert!(
            OTHER_PARTS.contains(&w.as_str()) || parts.iter().any(|(n, _)| n == w),
            "no part {w}"
        );
    }
    let wanted = |name: &str| words.is_empty() || words.iter().any(|w| w == name);
    if wanted("forms") {
        let mut rows = Vec::new();
        check_forms(&mut rows);
        tree_forms(&mut rows);
        print_forms(&rows);
    }
    // Four bytes at a step, as the library.
    set_backend(Backend::Slice4);
    let mut rows = Vec::new();
    for (name, f) in parts {
        if wanted(name) {
            f(&mut rows);
        }
    }
    if !rows.is_empty() {
        print(&rows);
    }
    if wanted("linked") {
        linked();
    }
    if wanted("textbook") {
        textbook();
    }
    if wanted("stacks") {
        stacks();
    }
    if wanted("lookups") {
        lookups();
    }
    if wanted("vectors") {
        vectors();
    }
    if wanted("free_trees") {
        let mut rows = Vec::new();
        free_trees(&mut rows);
        print(&rows);
    }
    if wanted("same") {
        sameness();
    }
    if wanted("why") {
        why();
    }
    if wanted("sheets") {
        sheet_calls();
    }
}

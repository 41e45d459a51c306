//! XFS group trees from Rust: the reverse map, the shared counts, free space by
//! block and by size, and the blocks that hold them. The library behind it is
//! proved; what this crate adds is said
//! [below](#what-is-proved-and-what-this-crate-is-trusted-for), and so is
//! [what a caller has to see to](#what-a-caller-has-to-see-to).
//!
//! It checks blocks, walks trees, counts the records over each of many blocks,
//! takes extents and lets them go, says which blocks are free again, why a block
//! stays held and whether both free-space trees hold the same extents, reads and
//! writes sheets of changes and makes these, and plans trees and builds them afresh.
//! It reads no superblock or group header, keeps no cache and writes no image: its
//! caller does.
//!
//! # Building
//!
//! In the repository's folder `tools/staticlib` proves the library and writes
//! `libtree_calls.a` and `liblist_calls.a` to `target/staticlib`. Then, in this
//! folder,
//!
//! ```sh
//! cargo test
//! ```
//!
//! Where the two archives are elsewhere, the environment variable
//! `KF_LIB_DIR` names their folder, from this one on where it is not absolute.
//! They are compiled for x86-64 with the calling convention of System V, and
//! both need `memset`. No crate of a registry is needed. The crate is `no_std` and
//! takes its vectors from `alloc`. A C program includes `kf.h` and links the
//! same two.
//!
//! # A group, from its trees and back
//!
//! A [`Group`] has the reverse map and the shared counts of a group in vectors,
//! and sizes what its calls need by itself.
//!
//! ```
//! use kf::{FreeExtent, Geometry, Group, Kind, Rmap, Root, Tree};
//! # use std::error::Error;
//! # fn main() -> Result<(), Box<dyn Error>> {
//! // From the volume's superblock and the last record of its log; group 0.
//! let g = Geometry::new(5, 512, 64, 0, [7; 16]).with_last_lsn(0x1_0000_0032);
//!
//! // A new group: inode 131 takes eight blocks, inode 132 shares four of them.
//! let mut group = Group::default();
//! let first = Rmap { startblock: 40, blockcount: 8, owner: 131, offset: 0 };
//! group.take(&first)?;
//! group.take_held(&Rmap { startblock: 42, blockcount: 4, owner: 132, offset: 0 })?;
//!
//! // Build both trees and store their blocks; each of the two is one block here.
//! let mut image = vec![0; 64 * 512];
//! let trees = [(Kind::Rmap, &group.map, 5), (Kind::Refcount, &group.counts, 6)];
//! for (kind, list, number) in trees {
//!     assert_eq!(Tree::plan(&g, kind, list)?.total, 1);
//!     let block = Tree::build(&g, kind, list, &[number])?;
//!     image[512 * number as usize..][..512].copy_from_slice(&block);
//! }
//!
//! // Walk them back; root, levels and blocks are in the group's header.
//! let (map, counts) = (Root::new(5, 1, 1), Root::new(6, 1, 1));
//! assert_eq!(Group::walk(&g, &image, map, counts)?, group);
//!
//! // What will become of block 43 when inode 131 lets its extent go, and why?
//! assert_eq!(
//!     group.why(&first, 43)?.to_string(),
//!     "block 43 is still held: inode 132 holds blocks 42 to 45",
//! );
//!
//! // Let go what inode 131 has: the blocks that nobody shares are free again.
//! let free = group.let_go(&first)?;
//! let before = FreeExtent { startblock: 40, blockcount: 2 };
//! let after = FreeExtent { startblock: 46, blockcount: 2 };
//! assert_eq!(free, [before, after]);
//!
//! // A refusal says why, and changes nothing.
//! let refusal = group.let_go(&first).unwrap_err();
//! assert_eq!(
//!     refusal.to_string(),
//!     "no record of the extent's owner and flags contains it (24)",
//! );
//! # Ok(())
//! # }
//! ```
//!
//! A [`FreeSpace`] has the free extents of a group, as both free-space trees hold
//! them. A [`Change`] is a take or a let go to be made, and [`Sheet`] reads and
//! writes lists of them; [`Group::apply`] makes them and says what came of each.
//!
//! The folder `examples` has seven programs on trees of real volumes:
//! `check_block`, `walk_tree`, `holders` (how many hold each of many blocks),
//! `free_space` (whether both free-space trees hold the same extents, and what is
//! free), `retire` (lets all extents of an owner go, says why blocks stay held and
//! builds the reverse map and the shared counts afresh), `mark` (makes the changes
//! of a sheet, and says what came of each) and `all_groups` (on all cores).
//!
//! ```sh
//! cargo run --example retire data/v5-1024-small.case 81986
//! cargo run --example mark data/v5-1024-small.case data/v5-1024-small.sheet
//! ```
//!
//! # Lists, answers, lent memory
//!
//! A list of records is its bytes as on disk ([`RMAP`] of them for a
//! reverse-map record, [`REFCOUNT`] for a record of the shared counts,
//! [`FREE_EXTENT`] for a free extent); [`rmaps`], [`refcounts`] and
//! [`free_extents`] read it. A list of changes has [`CHANGE`] bytes for each, and
//! [`changes`] reads it. Beside [`Group`], [`FreeSpace`], [`Tree`] and [`Sheet`]
//! stand the calls of the library as they are: such a call reads the lists that it
//! is given and writes into memory that the caller lends; it takes none of its own.
//!
//! | over vectors | on lent memory |
//! |---|---|
//! | [`Group::walk`], [`FreeSpace::walk`], [`Tree::walk`] | [`walk`], [`walk_linked`] |
//! | [`Tree::walk_textbook`] | [`walk_textbook`] |
//! | [`Tree::lookup`] | [`lookup`] |
//! | [`Tree::plan`], [`Tree::build`] | [`plan`], [`build`] |
//! | [`Group::take`] | [`insert`] |
//! | [`Group::take_held`] | [`take_held`] |
//! | [`Group::let_go`] | [`let_go`] |
//! | [`Group::why`] | [`explain`] |
//! | [`Group::make`], [`Group::apply`] | [`insert`], [`let_go`] or [`take_held`], by the kind of the change |
//! | [`Sheet::read`] | [`read_sheet`] |
//! | [`Sheet::write`] | [`write_sheet`] |
//! | [`FreeSpace::same_extents`] | [`same_extents`] |
//! | | [`check_block`], [`check_rmaps`], [`check_refcounts`], [`check_by_block`], [`check_by_size`] |
//! | | [`insert_shared`], [`remove`], [`release`]: one list of the two |
//! | | [`crc32c`], [`crc32c_singly`] |
//!
//! Every call but the two of CRC32C answers with a result or a refusal: a
//! [`Refusal`], or a [`WalkRefusal`] with one in it. Its number says which of the
//! library's questions failed; all questions before it held. [`Question`]
//! has all numbers with their texts; `docs/QUESTIONS.md` of the repository has
//! each in full, the order in which each call asks, and the words used here. A
//! refused call on lent memory writes nothing, but a [`walk`], a [`walk_linked`],
//! a [`walk_textbook`] or a [`lookup`] that had begun, which leaves zeros. Past a
//! result nothing is written.
//!
//! No call keeps anything, so calls on memory of their own may run at the same
//! time.
//!
//! # What is proved, and what this crate is trusted for
//!
//! Proved is the library in the two archives. Each of its calls, on every
//! input, ends, reads and writes nothing but what it was given, and comes to
//! the answer and the bytes that its contract says; the definitions that the
//! contracts go by are in `crates/*/specs` of the repository, among them the
//! law of how much longer a list can get (`crates/groups/specs/Room.antt`).
//!
//! This crate is ordinary Rust, tested and not proved. It is trusted
//!
//! - to declare the functions of the archives as they are ([`raw`]);
//! - to hand each call the pointers and lengths of slices that are there. That
//!   what is written overlaps nothing else follows from Rust's borrows;
//! - to read the answer and the figures of a call as `kf.h` says, and to cut the
//!   record of a [`Why`] out of its list by them;
//! - to turn records and changes into bytes and bytes into them ([`Rmap`],
//!   [`Refcount`], [`FreeExtent`], [`Change`], [`Records`]);
//! - in [`Group`] and [`Tree`], to lend as much as the law says, to replace a
//!   list only where the call was done, and to cut the results to their lengths;
//! - in [`Sheet`], to lend as much as the blocks hold, and in [`Group::apply`], to
//!   make the call of each change's kind, in order;
//! - to sort the extents that a [`FreeSpace`] is made of;
//! - for the texts of [`Question`], and for those of [`Cause`], [`Why`], [`Change`]
//!   and [`Applied`].
//!
//! Under both lie what made the archives (the Rattle kit), `memset` of the C
//! library, which both archives call, the Rust compiler and the linker.
//!
//! # What a caller has to see to
//!
//! No call asks about these, and no type keeps them.
//!
//! - The volume's log is clean: the volume was unmounted, or its log was replayed.
//!   Some groups copied from volumes in use were accepted by every question, and in
//!   some a let go told blocks as free that others held (`docs/INTERFACE.md` of the
//!   repository has the figures).
//! - The geometry, its last sequence number included, the root and the image are
//!   those of the group.
//! - The reverse map and the shared counts agree: a shared record of n owners lies
//!   over a block exactly where n records of the reverse map, two or more, do. What a
//!   let go says is free goes by the counts. Takes and lets go keep lists that agree
//!   (that is proved); [`insert_shared`], [`remove`] and [`release`] by themselves do
//!   not. The example `retire` looks whether a block that it was told is free is
//!   held.
//! - A tree that is looked up in is as [`lookup`] says.
//!
//! Nor does a call ask whether the free extents are the blocks that no record of the
//! reverse map lies over.

#![no_std]
#![warn(missing_docs)]

extern crate alloc;

mod free_space;
mod geometry;
mod group;
mod lent;
mod question;
pub mod raw;
mod records;
mod sheet;
mod why;
mod words;

pub use free_space::FreeSpace;
pub use geometry::{Geometry, Kind};
pub use group::{Group, LookedUp, Root, Tree, TreeLists};
pub use lent::{
    build, check_block, check_by_block, check_by_size, check_refcounts, check_rmaps, crc32c,
    crc32c_singly, explain, insert, insert_shared, let_go, lookup, plan, read_sheet, release,
    remove, same_extents, take_held, walk, walk_linked, walk_textbook, write_sheet, Built, Header,
    Lent, LetGone, NewLists, Plan, Released, TakenHeld, WalkLists, Walked, NO_SIBLING,
    STACK_PLACES,
};
pub use question::{Question, Refusal, Values, WalkRefusal};
pub use records::{
    free_extents, refcounts, rmaps, FreeExtent, Records, Refcount, Rmap, FREE_EXTENT, REFCOUNT,
    RMAP,
};
pub use sheet::{
    changes, Applied, Change, Sheet, CHANGE, SHEET_BLOCK, SHEET_BLOCKS, SHEET_BLOCK_CHANGES,
};
pub use why::{Cause, Why};

//! The calls of the library on memory that the caller lends, one function for
//! each.

mod lists;
mod sheets;
mod trees;

pub use lists::{
    check_by_block, check_by_size, check_refcounts, check_rmaps, explain, insert, insert_shared,
    let_go, release, remove, same_extents, take_held, LetGone, NewLists, Released, TakenHeld,
};
pub use sheets::{read_sheet, write_sheet};
pub use trees::{
    build, check_block, crc32c, crc32c_singly, lookup, plan, walk, walk_linked, walk_textbook,
    Built, Header, Lent, Plan, WalkLists, Walked, NO_SIBLING, STACK_PLACES,
};

//! Changes, the sheets that hold them, and a group on which they are made.

use crate::group::Group;
use crate::lent;
use crate::question::{Question, Refusal};
use crate::raw;
use crate::records::{field, FreeExtent, Records, Rmap};
use crate::words::{Blocks, Owner};
use alloc::vec;
use alloc::vec::Vec;
use core::fmt;

#[cfg(test)]
mod tests;

/// The bytes of a change.
pub const CHANGE: usize = 32;
/// The bytes of a sheet's block.
pub const SHEET_BLOCK: usize = 512;
/// The most changes of a sheet's block.
pub const SHEET_BLOCK_CHANGES: usize = 15;
/// The most blocks of a sheet.
pub const SHEET_BLOCKS: usize = 65_536;

/// A change of a group: an extent that is taken or let go.
///
/// It prints as what it asks for, in words that can be shown to a person; a file
/// offset and flags are told where there are any.
///
/// ```
/// use kf::{Change, Rmap};
/// let x = Rmap { startblock: 40, blockcount: 8, owner: 131, offset: 0 };
/// let change = Change::First(x);
/// assert_eq!(Change::from_bytes(&change.to_bytes()), Some(change));
/// assert_eq!((change.kind(), change.extent()), (1, &x));
/// assert_eq!(change.to_string(), "inode 131 takes blocks 40 to 47");
///
/// let one = Rmap { blockcount: 1, offset: (1 << 61) | 9, ..x };
/// assert_eq!(
///     Change::LetGo(one).to_string(),
///     "inode 131 lets go of block 40 at file offset 9 (unwritten)",
/// );
/// let clone = Rmap { owner: 132, ..x };
/// assert_eq!(Change::Held(clone).to_string(), "inode 132 takes held blocks 40 to 47");
/// ```
#[derive(Debug, Clone, Copy, PartialEq, Eq, Hash)]
#[non_exhaustive]
pub enum Change {
    /// A first take, of blocks that nobody holds ([`Group::take`]).
    First(Rmap),
    /// A let go ([`Group::let_go`]).
    LetGo(Rmap),
    /// A take of held blocks ([`Group::take_held`]).
    Held(Rmap),
}

impl Change {
    /// The change that the bytes are, if they are one: the kind is 1, 2 or 3, and
    /// zeros stand between it and the record. The record may be any.
    ///
    /// ```
    /// use kf::Change;
    /// let mut bytes = [0; kf::CHANGE];
    /// assert_eq!(Change::from_bytes(&bytes), None);
    /// bytes[3] = 2;
    /// assert!(matches!(Change::from_bytes(&bytes), Some(Change::LetGo(_))));
    /// bytes[7] = 1;
    /// assert_eq!(Change::from_bytes(&bytes), None);
    /// ```
    pub fn from_bytes(bytes: &[u8; CHANGE]) -> Option<Change> {
        if bytes[4..8] != [0; 4] {
            return None;
        }
        let x = Rmap::from_bytes(&field(bytes, 8));
        match u32::from_be_bytes(field(bytes, 0)) {
            raw::KF_CHANGE_FIRST_TAKE => Some(Change::First(x)),
            raw::KF_CHANGE_LET_GO => Some(Change::LetGo(x)),
            raw::KF_CHANGE_TAKE_HELD => Some(Change::Held(x)),
            _ => None,
        }
    }

    /// The bytes of the change, as in a list of changes and on a sheet.
    pub fn to_bytes(&self) -> [u8; CHANGE] {
        let mut bytes = [0; CHANGE];
        bytes[..4].copy_from_slice(&self.kind().to_be_bytes());
        bytes[8..].copy_from_slice(&self.extent().to_bytes());
        bytes
    }

    /// Its kind: 1 for a first take, 2 for a let go, 3 for a take of held blocks.
    pub const fn kind(&self) -> u32 {
        match self {
            Change::First(_) => raw::KF_CHANGE_FIRST_TAKE,
            Change::LetGo(_) => raw::KF_CHANGE_LET_GO,
            Change::Held(_) => raw::KF_CHANGE_TAKE_HELD,
        }
    }

    /// The extent that is taken or let go.
    pub const fn extent(&self) -> &Rmap {
        match self {
            Change::First(x) | Change::LetGo(x) | Change::Held(x) => x,
        }
    }
}

impl fmt::Display for Change {
    fn fmt(&self, f: &mut fmt::Formatter<'_>) -> fmt::Result {
        let x = self.extent();
        let does = match self {
            Change::First(_) => "takes",
            Change::LetGo(_) => "lets go of",
            Change::Held(_) => "takes held",
        };
        write!(f, "{} {does} {}", Owner(x.owner), Blocks::from(x))?;
        if x.file_offset() != 0 {
            write!(f, " at file offset {}", x.file_offset())?;
        }
        // Bits 54 to 60 have no names here.
        let named = [
            (x.is_attr_fork(), "attribute fork"),
            (x.is_bmbt_block(), "extent map"),
            (x.is_unwritten(), "unwritten"),
            (x.flags() << 3 != 0, "other flags"),
        ];
        let mut before = " (";
        for (_, flag) in named.iter().filter(|(set, _)| *set) {
            write!(f, "{before}{flag}")?;
            before = ", ";
        }
        f.write_str(if x.flags() == 0 { "" } else { ")" })
    }
}

/// The changes of a list, [`CHANGE`] bytes each; none for bytes that are no change
/// ([`Change::from_bytes`]), which what [`read_sheet`](crate::read_sheet) wrote does
/// not have.
///
/// ```
/// use kf::{changes, Change, Rmap};
/// let a = Change::First(Rmap { startblock: 40, blockcount: 8, owner: 131, offset: 0 });
/// let list = [a.to_bytes(), [0; kf::CHANGE]].concat();
/// assert!(changes(&list).eq([Some(a), None]));
/// ```
pub fn changes(list: &[u8]) -> Records<'_, Option<Change>> {
    Records::of(list, CHANGE, |bytes| Change::from_bytes(&field(bytes, 0)))
}

/// Reads and writes sheets: lists of changes in blocks of [`SHEET_BLOCK`] bytes,
/// each with a CRC of its own. A sheet is its bytes; the type has no value.
///
/// What is written reads back as the same changes, and a sheet that is read is the
/// only one of its changes. Both are proved of the calls (`WrittenReads` and
/// `OnlySheet` of `crates/sheets/specs/Claims.antt` of the repository).
///
/// ```
/// use kf::{Change, FreeExtent, Group, Question, Rmap, Sheet};
/// # fn main() -> Result<(), kf::Refusal> {
/// let x = Rmap { startblock: 40, blockcount: 8, owner: 131, offset: 0 };
/// let changes = [
///     Change::First(x),
///     Change::Held(Rmap { startblock: 42, blockcount: 4, owner: 132, offset: 0 }),
///     Change::LetGo(x),
/// ];
/// let sheet = Sheet::write(&changes)?;
/// assert_eq!(sheet.len(), kf::SHEET_BLOCK);
///
/// // Who gets it reads the changes and makes them.
/// let read = Sheet::read(&sheet)?;
/// assert_eq!(read, changes);
/// let mut group = Group::default();
/// let applied = group.apply(&read);
/// let before = FreeExtent { startblock: 40, blockcount: 2 };
/// let after = FreeExtent { startblock: 46, blockcount: 2 };
/// assert_eq!(applied[2].free(), [before, after]);
///
/// // Damage is found.
/// let mut damaged = sheet;
/// damaged[40] ^= 1;
/// let refusal = Sheet::read(&damaged).unwrap_err();
/// assert_eq!(refusal.question(), Some(Question::SheetCrc));
/// # Ok(())
/// # }
/// ```
#[derive(Debug)]
pub enum Sheet {}

impl Sheet {
    /// The changes of a sheet, as [`read_sheet`](crate::read_sheet) reads them;
    /// never refused by 26. Questions 32 and 33.
    ///
    /// ```
    /// use kf::{Change, Rmap, Sheet};
    /// let change = Change::First(Rmap { startblock: 4, blockcount: 2, owner: 7, offset: 0 });
    /// let sheet = Sheet::write(&[change]).unwrap();
    /// assert_eq!(Sheet::read(&sheet).unwrap(), [change]);
    /// assert_eq!(
    ///     Sheet::read(&sheet[..511]).unwrap_err().to_string(),
    ///     "a block of the sheet has a wrong CRC32C, or the last one is not whole (32)",
    /// );
    /// // The same block twice: neither is at the place of the other.
    /// assert_eq!(
    ///     Sheet::read(&sheet.repeat(2)).unwrap_err().to_string(),
    ///     "the sheet or the list of changes is empty or breaks a rule (33)",
    /// );
    /// ```
    pub fn read(sheet: &[u8]) -> Result<Vec<Change>, Refusal> {
        // A sheet of more blocks is refused by 33, if not by 32, so that no more has
        // to be lent.
        let blocks = (sheet.len() / SHEET_BLOCK).min(SHEET_BLOCKS);
        let mut list = vec![0; blocks * SHEET_BLOCK_CHANGES * CHANGE];
        let n = lent::read_sheet(sheet, &mut list)?;
        // Each of an accepted sheet is a change: the writer takes them, which is proved
        // (`ReadWrites`). If one were not, that would be a rule broken.
        let read: Option<Vec<Change>> = changes(&list[..n]).collect();
        read.ok_or(Refusal::new(Question::SheetRule, None))
    }

    /// The sheet of the changes, as [`write_sheet`](crate::write_sheet) writes it;
    /// never refused by 26. 33 refuses no changes at all, and more than the
    /// [`SHEET_BLOCKS`] blocks of a sheet hold, [`SHEET_BLOCK_CHANGES`] each.
    ///
    /// ```
    /// use kf::{Change, Question, Rmap, Sheet};
    /// let change = Change::LetGo(Rmap { startblock: 4, blockcount: 2, owner: 7, offset: 0 });
    /// assert_eq!(Sheet::write(&[change; 15]).unwrap().len(), 512);
    /// assert_eq!(Sheet::write(&[change; 16]).unwrap().len(), 1024);
    /// let refusal = Sheet::write(&[]).unwrap_err();
    /// assert_eq!(refusal.question(), Some(Question::SheetRule));
    /// ```
    pub fn write(changes: &[Change]) -> Result<Vec<u8>, Refusal> {
        let list: Vec<u8> = changes.iter().flat_map(Change::to_bytes).collect();
        // More blocks are refused by 33, asked before 26.
        let blocks = changes
            .len()
            .div_ceil(SHEET_BLOCK_CHANGES)
            .min(SHEET_BLOCKS);
        let mut sheet = vec![0; blocks * SHEET_BLOCK];
        let n = lent::write_sheet(&list, &mut sheet)?;
        sheet.truncate(n);
        Ok(sheet)
    }
}

/// What came of a change. It prints in words that can be shown to a person.
///
/// ```
/// use kf::{Applied, FreeExtent, Question, Refusal};
/// assert_eq!(Applied::Taken.to_string(), "taken");
/// let free = vec![
///     FreeExtent { startblock: 40, blockcount: 2 },
///     FreeExtent { startblock: 47, blockcount: 1 },
/// ];
/// assert_eq!(
///     Applied::LetGo(free).to_string(),
///     "let go; free again: blocks 40 to 41, block 47",
/// );
/// assert_eq!(Applied::LetGo(vec![]).to_string(), "let go; all blocks still held");
/// assert_eq!(
///     Applied::Refused(Refusal::new(Question::Unheld, None)).to_string(),
///     "refused: a block of the extent is not held (27)",
/// );
/// ```
#[derive(Debug, Clone, PartialEq, Eq, Hash)]
#[non_exhaustive]
#[must_use = "the change may be refused"]
pub enum Applied {
    /// The extent was taken, first or beside its holders.
    Taken,
    /// The extent was let go, and these blocks of it are free again, as
    /// [`Group::let_go`] tells them.
    LetGo(Vec<FreeExtent>),
    /// The change was refused: nothing changed.
    Refused(Refusal),
}

impl Applied {
    /// Why the change was refused, if it was.
    ///
    /// ```
    /// use kf::{Change, Group, Question, Rmap};
    /// let x = Rmap { startblock: 40, blockcount: 8, owner: 131, offset: 0 };
    /// let applied = Group::default().make(&Change::LetGo(x));
    /// let refusal = applied.refusal().unwrap();
    /// assert_eq!(refusal.question(), Some(Question::Missing));
    /// ```
    pub const fn refusal(&self) -> Option<&Refusal> {
        match self {
            Applied::Refused(refusal) => Some(refusal),
            Applied::Taken | Applied::LetGo(_) => None,
        }
    }

    /// The blocks that are free again, as longest runs, ascending; none of a take or
    /// a refusal.
    ///
    /// ```
    /// use kf::{Applied, FreeExtent};
    /// let x = FreeExtent { startblock: 40, blockcount: 2 };
    /// assert_eq!(Applied::LetGo(vec![x]).free(), [x]);
    /// assert_eq!(Applied::Taken.free(), []);
    /// ```
    pub fn free(&self) -> &[FreeExtent] {
        match self {
            Applied::LetGo(free) => free,
            Applied::Taken | Applied::Refused(_) => &[],
        }
    }
}

impl fmt::Display for Applied {
    fn fmt(&self, f: &mut fmt::Formatter<'_>) -> fmt::Result {
        match self {
            Applied::Taken => f.write_str("taken"),
            Applied::LetGo(free) if free.is_empty() => f.write_str("let go; all blocks still held"),
            Applied::LetGo(free) => {
                let mut before = "let go; free again:";
                for x in free {
                    write!(f, "{before} {}", Blocks::from(x))?;
                    before = ",";
                }
                Ok(())
            }
            Applied::Refused(refusal) => write!(f, "refused: {refusal}"),
        }
    }
}

/// Changes, made on the group.
impl Group {
    /// Makes a change, and says what came of it: a first take by [`Group::take`], a
    /// let go by [`Group::let_go`], a take of held blocks by [`Group::take_held`],
    /// with the questions of that call. A refused one changes nothing.
    ///
    /// ```
    /// use kf::{Applied, Change, Group, Rmap};
    /// let mut group = Group::default();
    /// let x = Rmap { startblock: 40, blockcount: 8, owner: 131, offset: 0 };
    /// assert_eq!(group.make(&Change::First(x)), Applied::Taken);
    /// assert_eq!(
    ///     group.make(&Change::First(x)).to_string(),
    ///     "refused: a held block or a clashing record is in the way of the take (23)",
    /// );
    /// // Between two changes, what would become of a block?
    /// assert_eq!(group.why(&x, 43).unwrap().to_string(), "block 43 is free now");
    /// let gone = group.make(&Change::LetGo(x));
    /// assert_eq!(gone.to_string(), "let go; free again: blocks 40 to 47");
    /// assert_eq!(group, Group::default());
    /// ```
    pub fn make(&mut self, change: &Change) -> Applied {
        let made = match change {
            Change::First(x) => self.take(x).map(|()| Applied::Taken),
            Change::LetGo(x) => self.let_go(x).map(Applied::LetGo),
            Change::Held(x) => self.take_held(x).map(|()| Applied::Taken),
        };
        made.unwrap_or_else(Applied::Refused)
    }

    /// Makes changes one after another, each on the lists that the last accepted one
    /// left, and says what came of each: [`Group::make`] on every one. A refused
    /// change does not end it.
    ///
    /// That is a history. From lists that are accepted and agree, the history
    /// statement holds for the changes of every sheet that is read (`SheetHistory` of
    /// `crates/sheet_histories/specs/SheetHistory.antt` of the repository).
    ///
    /// ```
    /// use kf::{Applied, Change, FreeExtent, Group, Question, Rmap};
    /// let mut group = Group::default();
    /// let x = Rmap { startblock: 40, blockcount: 8, owner: 131, offset: 0 };
    /// let clone = Rmap { owner: 132, ..x };
    /// let applied = group.apply(&[
    ///     Change::First(x),
    ///     Change::First(clone),
    ///     Change::Held(clone),
    ///     Change::LetGo(x),
    /// ]);
    /// let refusal = applied[1].refusal().unwrap();
    /// assert_eq!(refusal.question(), Some(Question::Overlap));
    /// assert_eq!(applied[0], Applied::Taken);
    /// assert_eq!(applied[2], Applied::Taken);
    /// assert_eq!(applied[3], Applied::LetGo(vec![]));
    /// assert!(group.rmaps().eq([clone]));
    /// ```
    #[must_use = "changes may be refused"]
    pub fn apply(&mut self, changes: &[Change]) -> Vec<Applied> {
        changes.iter().map(|change| self.make(change)).collect()
    }
}

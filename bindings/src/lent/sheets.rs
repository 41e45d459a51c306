//! The calls on sheets.

use crate::question::{answer, Refusal};
use crate::raw;

/// Reads a sheet: its changes go to `changes`, [`CHANGE`](crate::CHANGE) bytes
/// each, and their length in bytes comes back. Questions 32, 33 and 26.
///
/// 32 is asked of all blocks before 33 of any. The records of the changes are not
/// asked about. 26 is never the answer where `changes` has
/// 480 bytes for each block of the sheet, [`CHANGE`](crate::CHANGE) times
/// [`SHEET_BLOCK_CHANGES`](crate::SHEET_BLOCK_CHANGES).
///
/// ```
/// use kf::{changes, read_sheet, write_sheet, Change, Question, Rmap};
/// let a = Change::First(Rmap { startblock: 40, blockcount: 8, owner: 131, offset: 0 });
/// let b = Change::LetGo(Rmap { startblock: 42, blockcount: 4, owner: 131, offset: 2 });
/// let mut sheet = [0; 512];
/// write_sheet(&[a.to_bytes(), b.to_bytes()].concat(), &mut sheet).unwrap();
///
/// let mut list = [0; 480];
/// let n = read_sheet(&sheet, &mut list).unwrap();
/// assert_eq!(n, 64);
/// assert!(changes(&list[..n]).eq([Some(a), Some(b)]));
///
/// // A refusal leaves what was lent as it was.
/// let mut short = [7; 63];
/// let refusal = read_sheet(&sheet, &mut short).unwrap_err();
/// assert_eq!(refusal.question(), Some(Question::Room));
/// assert_eq!(short, [7; 63]);
/// // A block that is not whole, a damaged one, and no block.
/// assert_eq!(read_sheet(&sheet[1..], &mut list).unwrap_err().number, 32);
/// sheet[100] ^= 1;
/// let refusal = read_sheet(&sheet, &mut list).unwrap_err();
/// assert_eq!(refusal.question(), Some(Question::SheetCrc));
/// let refusal = read_sheet(&[], &mut list).unwrap_err();
/// assert_eq!(refusal.question(), Some(Question::SheetRule));
/// ```
pub fn read_sheet(sheet: &[u8], changes: &mut [u8]) -> Result<usize, Refusal> {
    let mut said = [0; 4];
    // SAFETY: a slice that the call reads, one that it writes, and four numbers
    // that it writes.
    let n = unsafe {
        raw::kf_read_sheet(
            sheet.as_ptr(),
            sheet.len(),
            changes.as_mut_ptr(),
            changes.len(),
            &mut said,
        )
    };
    answer(n, &said, said[0] as usize)
}

/// Writes the sheet of a list of changes, [`CHANGE`](crate::CHANGE) bytes each, to
/// `sheet`, and its length in bytes comes back. Questions 33 and 26.
///
/// It is the only sheet of these changes, and reads back as they are. A sheet of n
/// changes has n / 15 blocks, rounded up, of
/// [`SHEET_BLOCK`](crate::SHEET_BLOCK) bytes.
///
/// ```
/// use kf::{crc32c, write_sheet, Change, Question, Rmap};
/// let a = Change::First(Rmap { startblock: 40, blockcount: 8, owner: 131, offset: 0 });
/// let mut sheet = [7; 520];
/// assert_eq!(write_sheet(&a.to_bytes(), &mut sheet), Ok(512));
/// // The CRC; the first block, of one change, which is the last; the change.
/// assert_eq!(sheet[..4], crc32c(&sheet[4..512]).to_le_bytes());
/// assert_eq!(sheet[4..11], [0, 0, 0, 0, 0, 1, 1]);
/// assert_eq!(sheet[32..64], a.to_bytes());
/// // Past the sheet nothing is written.
/// assert_eq!(sheet[512..], [7; 8]);
///
/// // No change, and half of one.
/// let refusal = write_sheet(&[], &mut sheet).unwrap_err();
/// assert_eq!(refusal.question(), Some(Question::SheetRule));
/// assert_eq!(write_sheet(&a.to_bytes()[16..], &mut sheet).unwrap_err().number, 33);
/// // Sixteen changes are two blocks.
/// let refusal = write_sheet(&a.to_bytes().repeat(16), &mut sheet).unwrap_err();
/// assert_eq!(refusal.question(), Some(Question::Room));
/// ```
pub fn write_sheet(changes: &[u8], sheet: &mut [u8]) -> Result<usize, Refusal> {
    let mut said = [0; 4];
    // SAFETY: a slice that the call reads, one that it writes, and four numbers
    // that it writes.
    let n = unsafe {
        raw::kf_write_sheet(
            changes.as_ptr(),
            changes.len(),
            sheet.as_mut_ptr(),
            sheet.len(),
            &mut said,
        )
    };
    answer(n, &said, said[0] as usize)
}

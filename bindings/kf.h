/* The C interface of the group trees. Link target/staticlib/libtree_calls.a and target/staticlib/liblist_calls.a, made by
 * `tools/staticlib`. Both need one function of the C library, memset. bindings/examples/let_go.c and
 * sheet.c are examples.
 *
 * A slice passes as a pointer and the number of its elements. Every call but the two of CRC32C answers KF_DONE where it was done, else the
 * number of the first question that failed, and writes the four figures of `said` whole where it has them. docs/QUESTIONS.md says each
 * number's question, and what the words below mean; the numbers in brackets below are the questions of a call, in the order in which they are
 * asked. docs/INTERFACE.md has the figures of all calls in one table. A list of records is its bytes as on disk.
 *
 * A call keeps nothing: it reads and writes what it is given and no other memory but its stack, so calls on memory of their own may run at
 * the same time.
 *
 * A geometry is its seven numbers: the version (4 or 5), the block size in bytes, the blocks of a group, the group's number, the 16 bytes
 * of the volume's UUID as two big-endian numbers, and the volume's last sequence number. That is the number of the last record in its log, not
 * that of the log's head; docs/QUESTIONS.md, "Words", has more.
 *
 * A caller's duties. A call cannot look whether they are kept; where one is not, nothing is said of what it does.
 *   - No pointer is null, and each is aligned for its element: at 4 for uint32_t, at 8 for uint64_t.
 *   - It points to memory of at least as many elements as the length says, which stays there until the call returns. Their bytes are
 *     PTRDIFF_MAX at most. `said` has KF_FIGURES elements and `levels` of kf_plan has KF_LEVELS; no length is passed for them.
 *   - Until the call returns, nobody else writes what it reads (a pointer to const), nor reads or writes what it writes (any other pointer).
 *   - What a call writes overlaps nothing else that it is given: no other slice, nor `said`, nor `levels`; and these two do not overlap each
 *     other. Slices that are only read may overlap.
 *   - An empty slice is a length of 0 with a pointer that is neither null nor misaligned. It need not point to an element: the address of
 *     any object of the element's type will do.
 *   - The stack has room for the call: 8 KiB are enough, for kf_walk_textbook 12 KiB, the red zone of System V, which calls use, included. (Read
 *     off the archives and measured, not proved. No call calls itself, but the two routines of kf_walk_textbook call each other, as deep as the tree
 *     has levels.)
 * Nothing is asked of numbers, of bytes that are read, nor of what lent memory holds before the call.
 *
 * What else is the caller's to see to, since no call asks.
 *   - The volume's log is clean: the volume was unmounted, or its log was replayed. Some groups copied from volumes in use were accepted by
 *     every question, and in some a let go told blocks as free that others held (docs/INTERFACE.md has the figures).
 *   - Geometry, root and image are those of the group.
 *   - The reverse map and the shared counts agree: what a let go says is free goes by the shared counts, and no call asks whether they agree
 *     with the reverse map.
 *   - A tree that is looked up in is as the words above kf_lookup say.
 *
 * What is proved. Each function of the two archives, on every input, where the duties are kept: it returns, reads and writes nothing but what
 * it is given, and answers and writes what its contract says (`ensures` in crates/tree_calls/src and crates/list_calls/src).
 * What is not. That this header declares those functions: it is trusted for names, parameters, constants and words. bindings/tests/interface.rs
 * holds names and parameters against the Rattle source and the Rust declarations, constants against the Rust crate and docs/INTERFACE.md, the
 * questions' numbers against docs/QUESTIONS.md and the Rattle source; nothing but reading holds the words. That a C compiler passes parameters
 * as the Rattle back end takes them, which is the calling convention of x86-64 System V. That memset, which both archives call, does what C says.
 * That a caller keeps its duties, and sees to the rest. */
#ifndef KF_H
#define KF_H

#include <stddef.h>
#include <stdint.h>

#ifdef __cplusplus
extern "C" {
#endif

#define KF_GEOMETRY \
    uint16_t version, uint32_t blocksize, uint32_t agblocks, uint32_t agno, uint64_t uuid_high, uint64_t uuid_low, \
        uint64_t last_lsn

/* The kinds of tree: the reverse map, the shared counts, free space by block and free space by size. Version 4 has the last two alone. Pass no
 * other: today any other number is taken for KF_KIND_REFCOUNT, and the next kinds of tree will get 4 and up. */
#define KF_KIND_RMAP 0u
#define KF_KIND_REFCOUNT 1u
#define KF_KIND_BY_BLOCK 2u
#define KF_KIND_BY_SIZE 3u

/* The bytes of a reverse-map record, of a record of the shared counts and of a free extent. */
#define KF_RMAP_BYTES 24u
#define KF_REFCOUNT_BYTES 12u
#define KF_FREE_EXTENT_BYTES 8u

/* The most levels that a tree has, which are the places of a plan, and the figures of an answer. */
#define KF_LEVELS 9u
#define KF_FIGURES 4u

/* The places of the stack that kf_walk, kf_walk_linked and kf_lookup are lent, whatever the levels, the kind and the block size. The textbook walk
 * is lent none. */
#define KF_STACK_PLACES 18u

/* What a block names as its sibling where there is none: at both ends of a level. */
#define KF_NO_SIBLING 0xFFFFFFFFu

/* What kf_explain says of a block, in its first figure: free now, still held or staging. */
#define KF_BLOCK_FREE 0u
#define KF_BLOCK_HELD 1u
#define KF_BLOCK_STAGING 2u

/* The list that holds the deciding record, in its second figure: none where the block is free, else the reverse map or the shared counts. */
#define KF_LIST_NONE 0u
#define KF_LIST_MAP 1u
#define KF_LIST_COUNTS 2u

/* The bytes of a change, and those of a sheet's block; the most changes of a block, and the most blocks of a sheet. */
#define KF_CHANGE_BYTES 32u
#define KF_SHEET_BLOCK_BYTES 512u
#define KF_SHEET_BLOCK_CHANGES 15u
#define KF_SHEET_BLOCKS 65536u

/* The kinds of change: a first take, as kf_insert makes it, a let go, as kf_let_go does, and a take of held blocks, as kf_take_held does. */
#define KF_CHANGE_FIRST_TAKE 1u
#define KF_CHANGE_LET_GO 2u
#define KF_CHANGE_TAKE_HELD 3u

/* Answers: the work was done, or the number of the question that failed. docs/QUESTIONS.md has each question in full. */
enum kf_answer {
    KF_DONE = 0,
    /* Is the geometry valid? */
    KF_Q_BAD_GEOMETRY = 1,
    /* Is the buffer as long as a block header: 56 bytes on version 5, 16 on version 4? */
    KF_Q_SHORT_BUFFER = 2,
    /* Has a volume of this version such a tree? */
    KF_Q_NO_TREE = 3,
    /* Are the first four bytes the magic number of the tree: on version 5 0x524D4233 for the reverse map, 0x52334643 for the shared counts,
     * 0x41423342 for free space by block and 0x41423343 for free space by size, on version 4 0x41425442 and 0x41425443 for the last two? */
    KF_Q_MAGIC = 4,
    /* Is the CRC right? */
    KF_Q_CRC = 5,
    /* Are bytes 32 to 47 the volume's UUID? */
    KF_Q_UUID = 6,
    /* Does the block name this group as its owning group? */
    KF_Q_OWNING_GROUP = 7,
    /* Does the block name the address at which it is looked for? */
    KF_Q_ADDRESS = 8,
    /* Is the block at the level at which it is looked for? */
    KF_Q_LEVEL = 9,
    /* Do the records or entries that the block claims fit its buffer? */
    KF_Q_RECORDS = 10,
    /* Are the levels of the tree 1 to 9? */
    KF_Q_LEVELS = 11,
    /* Has the stack at least 18 places, and the scratch at least as many places as the block list? */
    KF_Q_SCRATCH = 12,
    /* Were fewer than max(agblocks, 64) blocks visited before this one? */
    KF_Q_VISITS = 13,
    /* Does the block lie whole in the image? */
    KF_Q_OUTSIDE = 14,
    /* Do the block and, of a leaf, its records still fit the block list and the record list? */
    KF_Q_FULL = 15,
    /* Would the tree have at most 9 levels? */
    KF_Q_PLAN_LEVELS = 16,
    /* Are there exactly as many block numbers as the plan has blocks? */
    KF_Q_BLOCK_NUMBERS = 17,
    /* Is the output at least as long as the planned blocks? */
    KF_Q_OUTPUT = 18,
    /* Is the length of the list a multiple of its record's: 24 for the reverse map, 12 for the shared counts, 8 for free extents? */
    KF_Q_LIST_LENGTH = 19,
    /* Is it an accepted reverse map? */
    KF_Q_RMAP_ORDER = 20,
    /* Are they accepted shared counts or free extents? */
    KF_Q_EXTENT_ORDER = 21,
    /* Is the extent good? */
    KF_Q_EXTENT = 22,
    /* Is nothing in the way of a take? */
    KF_Q_OVERLAP = 23,
    /* Does a record of the extent's owner and flags contain it? */
    KF_Q_MISSING = 24,
    /* Is the extent clear of staging records? */
    KF_Q_STAGING = 25,
    /* Do all new lists, and the free extents, fit what was lent for them? */
    KF_Q_ROOM = 26,
    /* Is every block of the extent held? */
    KF_Q_UNHELD = 27,
    /* Has each shared record over the extent fewer than 4,294,967,295 owners, so that one more can be told? */
    KF_Q_OWNERS = 28,
    /* Do the block numbers asked ascend strictly, and are there at least as many places for answers? */
    KF_Q_ASKED = 29,
    /* On version 5: is the block's sequence number at most the volume's last one? */
    KF_Q_SEQUENCE = 30,
    /* Does the block lie in the extent? */
    KF_Q_NOT_IN_EXTENT = 31,
    /* Is the length of the sheet a multiple of 512, and the CRC of each of its blocks right? */
    KF_Q_SHEET_CRC = 32,
    /* Does the sheet, or the list of changes, keep every other rule? */
    KF_Q_SHEET_RULE = 33
};

/* CRC32C of the bytes, four at a step from four tables. It answers the CRC. */
uint32_t kf_crc32c(const uint8_t *bytes, size_t bytes_len);
/* CRC32C of the bytes, one at a step from one table: the same as kf_crc32c on every input. */
uint32_t kf_crc32c_singly(const uint8_t *bytes, size_t bytes_len);

/* Is it an accepted reverse map (19, 20)? */
uint32_t kf_check_rmaps(const uint8_t *list, size_t list_len);
/* Are they accepted shared counts (19, 21)? */
uint32_t kf_check_refcounts(const uint8_t *list, size_t list_len);
/* Are they accepted free extents by block (19, 21)? */
uint32_t kf_check_by_block(const uint8_t *list, size_t list_len);
/* Are they accepted free extents by size (19, 21)? */
uint32_t kf_check_by_size(const uint8_t *list, size_t list_len);

/* Do the list by block and the list by size hold the same extents, equally often (19, 21 of the first, then 19, 21 of the second)?
 * said: 1 if they do, else 0, then 0, 0, 0; refused: zeros. */
uint32_t kf_same_extents(const uint8_t *by_block, size_t by_block_len, const uint8_t *by_size, size_t by_size_len, uint64_t said[KF_FIGURES]);

/* Is it block `block` of the group's tree, at level `level` (1 to 8, 30, 9 and 10)?
 * said: records or entries, how many fit, the block named before it on its level, the one named after it (KF_NO_SIBLING: none); refused:
 * expected, found (zeros where they are no numbers), 0, 0. The siblings are not asked about; kf_walk_linked asks. */
uint32_t kf_check_block(KF_GEOMETRY, uint32_t kind, uint32_t block, uint16_t level,
                        const uint8_t *bytes, size_t bytes_len, uint64_t said[KF_FIGURES]);

/* The blocks of each level of a tree of so many records, leaves first (1, 16). Nine places are written, 0 past the last level; a refusal
 * leaves all nine as they were.
 * said: levels, blocks of all levels, 0, 0; refused: zeros. */
uint32_t kf_plan(KF_GEOMETRY, uint32_t kind, uint64_t records, uint64_t levels[KF_LEVELS], uint64_t said[KF_FIGURES]);

/* The blocks of a fresh tree of the list, one after another, root last; `numbers` are the planned blocks' numbers in the group, leaves first
 * (1, 3, 19, 20 or 21, 16, 17, 18). Each block names the one before it on its level and the one after, KF_NO_SIBLING at both ends, and on
 * version 5 has the geometry's last sequence number. A refusal leaves `out` as it was, and nothing is written past the last block.
 * said: blocks, bytes, 0, 0; refused: zeros. */
uint32_t kf_build(KF_GEOMETRY, uint32_t kind, const uint8_t *list, size_t list_len, const uint32_t *numbers, size_t numbers_len,
                  uint8_t *out, size_t out_len, uint64_t said[KF_FIGURES]);

/* The records of a tree of so many levels, from its root, and its blocks by level, leaves first. The image is the group, block n at n times
 * the block size. The stack takes KF_STACK_PLACES places, the scratch as many as `blocks` (1, 11, 12; then at each block 13, 14, 3 to 8, 30, 9
 * and 10, 15). A refusal by 1, 11 or 12 touches none of the four; any other leaves all four zero. A finished walk leaves the stack and the scratch
 * zero, all that was lent of them, and the lists past the result as they were.
 * said: visits, records, bytes of records, 0; refused: expected, found, visits, 0. */
uint32_t kf_walk(KF_GEOMETRY, uint32_t kind, const uint8_t *image, size_t image_len, uint32_t root, uint32_t levels,
                 uint32_t *stack, size_t stack_len, uint64_t *scratch, size_t scratch_len,
                 uint32_t *blocks, size_t blocks_len, uint8_t *records, size_t records_len, uint64_t said[KF_FIGURES]);

/* The same walk, which refuses and leaves what kf_walk does, and is every level of the tree linked? A level is, where each of its blocks, in
 * the order met, names the one before it and the one after, KF_NO_SIBLING at both ends. A block met twice is judged at each meeting.
 * said: visits, records, bytes of records, 1 if every level is linked, else 0; refused: expected, found, visits, 0. */
uint32_t kf_walk_linked(KF_GEOMETRY, uint32_t kind, const uint8_t *image, size_t image_len, uint32_t root, uint32_t levels,
                        uint32_t *stack, size_t stack_len, uint64_t *scratch, size_t scratch_len,
                        uint32_t *blocks, size_t blocks_len, uint8_t *records, size_t records_len, uint64_t said[KF_FIGURES]);

/* The walk as textbooks have it, for a caller who has no stack to lend: one routine reads a block, another its children from left to right, each
 * calling the other, the level falling. It answers, says and leaves what kf_walk does on the same image with a stack of KF_STACK_PLACES places or
 * more. The scratch takes as many places as `blocks`, and 12 asks for nothing else (1, 11, 12; then at each block 13, 14, 3 to 8, 30, 9 and 10,
 * 15). A refusal by 1, 11 or 12 touches none of the three; any other leaves all three zero. A finished walk leaves the scratch zero, all that was
 * lent of it, and the lists past the result as they were. What the machine's stack has to have room for goes by the levels alone, which are nine at
 * most: the children of a block are read one after another by the one call that has them.
 * said: visits, records, bytes of records, 0; refused: expected, found, visits, 0. */
uint32_t kf_walk_textbook(KF_GEOMETRY, uint32_t kind, const uint8_t *image, size_t image_len, uint32_t root, uint32_t levels,
                          uint64_t *scratch, size_t scratch_len,
                          uint32_t *blocks, size_t blocks_len, uint8_t *records, size_t records_len, uint64_t said[KF_FIGURES]);

/* How many records of the reverse map lie over each of the block numbers `asked`, in one descent from the root: `answers[i]` is that of
 * `asked[i]`. The image and the stack are as for kf_walk; there is no scratch (1, 11, 12, 29; then at each block 13, 14, 3 to 8, 30, 9
 * and 10). In a node a child is skipped where none of all the numbers lies from its low key's start to its high key's start, both included;
 * the root is visited always, also with no number asked. An answer counts the records of the leaves visited by their bytes as they are: start
 * <= number < start + count. These are all records over the block where three things hold: kf_walk reads the tree, its records pass 20
 * (kf_check_rmaps), and its keys are those of the records under them. No block is then visited more often than by the walk. A lookup asks about
 * neither records nor keys. Where records are out of order or keys are others, a block that a record holds can be answered 0, so there 0 does
 * not say that a block is free. A refusal by 1, 11, 12 or 29 touches neither stack nor answers; any other leaves both zero. A finished lookup
 * leaves the stack zero, and the answers past the numbers as they were.
 * said: visits, 0, 0, 0; refused: expected, found, visits, 0. */
uint32_t kf_lookup(KF_GEOMETRY, const uint8_t *image, size_t image_len, uint32_t root, uint32_t levels,
                   const uint32_t *asked, size_t asked_len, uint32_t *stack, size_t stack_len,
                   uint64_t *answers, size_t answers_len, uint64_t said[KF_FIGURES]);

/* The edits below read the old lists and write new ones beside them. A refusal leaves what was lent for these as it was, and what lies past a
 * new list stays. 26 is never the answer with room for
 *   - the records of the old reverse map, and 1 more;
 *   - in kf_release and kf_let_go the records of the old counts, and 2 more;
 *   - in kf_take_held the records of the old counts, and as many more as the lesser of 2 + gaps and 1 + met: met are the shared records that have
 *     a block in common with the extent, gaps the longest runs of its blocks that none of them lies over;
 *   - 1 + met free extents.
 * That is proved (`Never26` of crates/list_calls/specs/Room.antt). */

/* A first take: an extent of which no block is held goes into the reverse map `old`, and the new one to `new_map` (19, 20, 22, 23, 26).
 * said: bytes of the new reverse map, 0, 0, 0; refused: zeros. */
uint32_t kf_insert(const uint8_t *old, size_t old_len, uint32_t startblock, uint32_t blockcount, uint64_t owner, uint64_t offset,
                   uint8_t *new_map, size_t new_map_len, uint64_t said[KF_FIGURES]);

/* A take of an extent whose blocks others may hold: it goes into the reverse map `old`, unless a record clashes with it, and the new one to
 * `new_map` (19, 20, 22, 23, 26). It leaves the shared counts alone, which may then no longer agree with the reverse map: kf_take_held is the
 * call for held blocks.
 * said: bytes of the new reverse map, 0, 0, 0; refused: zeros. */
uint32_t kf_insert_shared(const uint8_t *old, size_t old_len, uint32_t startblock, uint32_t blockcount, uint64_t owner, uint64_t offset,
                          uint8_t *new_map, size_t new_map_len, uint64_t said[KF_FIGURES]);

/* A removal: an extent that a record of its owner and flags contains leaves the reverse map `old`, and the new one goes to `new_map` (19, 20,
 * 22, 24, 26). The file offset is not asked about: it chooses where several records contain the extent. It leaves the shared counts alone:
 * kf_let_go is the whole letting go.
 * said: bytes of the new reverse map, 0, 0, 0; refused: zeros. */
uint32_t kf_remove(const uint8_t *old, size_t old_len, uint32_t startblock, uint32_t blockcount, uint64_t owner, uint64_t offset,
                   uint8_t *new_map, size_t new_map_len, uint64_t said[KF_FIGURES]);

/* Owners lowered by one over an extent, and its blocks that no shared record lay over (19, 21, 22, 25, 26).
 * said: bytes of the new counts, bytes of the free extents, 0, 0; refused: zeros. */
uint32_t kf_release(const uint8_t *counts, size_t counts_len, uint32_t startblock, uint32_t blockcount,
                    uint8_t *new_counts, size_t new_counts_len, uint8_t *free_extents, size_t free_extents_len, uint64_t said[KF_FIGURES]);

/* The whole letting go: both lists at once, and the blocks of the extent that no shared record lay over (19, 20, 22, 24, then 19, 21, 25, then
 * 26). Where the counts agree with the reverse map, nobody holds these any more. The file offset is not asked about: it chooses where several
 * records contain the extent.
 * said: bytes of the new reverse map, of the new counts and of the free extents, 0; refused: zeros. */
uint32_t kf_let_go(const uint8_t *map, size_t map_len, const uint8_t *counts, size_t counts_len,
                   uint32_t startblock, uint32_t blockcount, uint64_t owner, uint64_t offset,
                   uint8_t *new_map, size_t new_map_len, uint8_t *new_counts, size_t new_counts_len,
                   uint8_t *free_extents, size_t free_extents_len, uint64_t said[KF_FIGURES]);

/* A take of blocks that others hold: the extent goes into the reverse map, and the owners of its blocks are raised (19, 20, then 19, 21, then
 * 22, 23, 25, 27, 28, 26).
 * said: bytes of the new reverse map and of the new counts, 0, 0; refused: zeros. */
uint32_t kf_take_held(const uint8_t *map, size_t map_len, const uint8_t *counts, size_t counts_len,
                      uint32_t startblock, uint32_t blockcount, uint64_t owner, uint64_t offset,
                      uint8_t *new_map, size_t new_map_len, uint8_t *new_counts, size_t new_counts_len, uint64_t said[KF_FIGURES]);

/* Why a block of an extent is free now, still held or staging when the extent is let go. The lists and the extent are those of kf_let_go, and
 * are only read (19, 20, 22, 24, then 19, 21, then 25, then 31). 25 is not asked of a block under a staging record, in the extent or outside.
 *   - A block under a staging record is staging, and the first such record decides.
 *   - Any other is still held exactly where a shared record lies over it. The first record of the reverse map over the block decides, other
 *     than the one that kf_let_go cuts: at another place of the list, even with the same bytes. Where there is none, the shared record decides.
 *   - Else the block is free now, and no record decides.
 * kf_let_go, unless 26 stops it, tells a block that is free now as free, and one that is still held not; where one is staging it answers 25.
 * Where the counts agree with the reverse map, nobody holds a free block after it, and the shared record never decides.
 * said: KF_BLOCK_FREE, KF_BLOCK_HELD or KF_BLOCK_STAGING; KF_LIST_NONE, KF_LIST_MAP or KF_LIST_COUNTS, for the list of the deciding record;
 * where the record begins in that list, in bytes; its bytes (0 and 0 where none decides); refused: zeros. */
uint32_t kf_explain(const uint8_t *map, size_t map_len, const uint8_t *counts, size_t counts_len,
                    uint32_t startblock, uint32_t blockcount, uint64_t owner, uint64_t offset, uint32_t block, uint64_t said[KF_FIGURES]);

/* Sheets of changes. A change has KF_CHANGE_BYTES bytes: its kind in bytes 0 to 3 (KF_CHANGE_..), zeros in 4 to 7, and a reverse-map record, the
 * extent, in 8 to 31. In a list of changes they stand one after another. A sheet is blocks of KF_SHEET_BLOCK_BYTES bytes, 1 to KF_SHEET_BLOCKS of
 * them, and of each block
 *   - bytes 0 to 3 are CRC32C of bytes 4 to 511, lowest byte first;
 *   - bytes 4 to 7 are its place: 0 for the first block, 1 for the next, and so on;
 *   - bytes 8 and 9 are the number of its changes, 1 to KF_SHEET_BLOCK_CHANGES; only the last block may be short of these;
 *   - byte 10 is 1 in the last block, and 0 in any other;
 *   - bytes 11 to 31 are zero;
 *   - bytes 32 to 511 are its changes, and zeros in place of unused ones.
 * Place, number and kind are big-endian, as a record's numbers are; the CRC alone is not. The two calls do not look at the records: a bad extent is
 * refused by 22 when its change is made.
 * What kf_write_sheet writes kf_read_sheet reads back as the same changes, where there is room for them, and a sheet that it reads is the only one
 * of its changes (crates/sheets/specs/Claims.antt). The changes of such a sheet are a history: from a reverse map and counts that are accepted and
 * agree, what is proved of histories holds for them (crates/sheet_histories/specs/SheetHistory.antt). */

/* Reads a sheet: its changes go to `changes`, one after another (32, 33, 26). 32 is asked of all blocks before 33 of any. A length of 0 is refused by
 * 33; any other that is no multiple of KF_SHEET_BLOCK_BYTES by 32; too many blocks by 33. A refusal leaves `changes` as they were, and what lies past
 * the changes stays. 26 is never the answer with room for KF_SHEET_BLOCK_CHANGES changes for each block of the sheet.
 * said: bytes of the changes, 0, 0, 0; refused: zeros. */
uint32_t kf_read_sheet(const uint8_t *sheet, size_t sheet_len, uint8_t *changes, size_t changes_len, uint64_t said[KF_FIGURES]);

/* Writes the sheet of a list of changes, in as few blocks as hold them (33, 26). 33 refuses a list that is empty, of which the length is no multiple
 * of KF_CHANGE_BYTES, that has more changes than KF_SHEET_BLOCKS blocks hold, or in which a change has another kind or no zeros behind it. A refusal
 * leaves `sheet` as it was, and what lies past the sheet stays. 26 is never the answer with room for (n + 14) / 15 blocks, n being the changes.
 * said: bytes of the sheet, 0, 0, 0; refused: zeros. */
uint32_t kf_write_sheet(const uint8_t *changes, size_t changes_len, uint8_t *sheet, size_t sheet_len, uint64_t said[KF_FIGURES]);

#ifdef __cplusplus
}
#endif

#endif

/* An extent is taken, taken once more by another owner, and let go by both, with the cause of a block that stays held; then the reverse map is
 * built as a tree, read back and looked up in. The calls are the proved library's; what is lent to them, and what is made of their answers, is this program's.
 * Compile it in the repository's folder, as C99 or later, or as C++11 or later:
 *
 *   cc -std=c99 -Wall -Wextra -pedantic -I bindings bindings/examples/let_go.c \
 *       target/staticlib/libtree_calls.a target/staticlib/liblist_calls.a -o let_go
 *   c++ -x c++ -std=c++11 -Wall -Wextra -pedantic -I bindings bindings/examples/let_go.c -x none \
 *       target/staticlib/libtree_calls.a target/staticlib/liblist_calls.a -o let_go
 */
#include <stdio.h>
#include <stdlib.h>
#include <string.h>

#include "kf.h"

#define VERSION 5
#define BLOCKSIZE 512u
#define AGBLOCKS 100u
#define AGNO 0u
#define UUID_HIGH 0x0102030405060708u
#define UUID_LOW 0x090A0B0C0D0E0F10u
/* The volume's last sequence number, that of the last record in its log, when the tree is built, and when it is read: the log has gone on. */
#define LSN_BUILT 0x0000000100000032u
#define LSN_READ 0x0000000100000040u
#define GEOMETRY(last_lsn) VERSION, BLOCKSIZE, AGBLOCKS, AGNO, UUID_HIGH, UUID_LOW, last_lsn

/* The reserved owner of the blocks that every group has (-3 as a signed number). */
#define OWN_FS 0xFFFFFFFFFFFFFFFDu

/* A list of records, or memory lent for one. */
struct list {
    uint8_t *bytes;
    size_t len;
};

static void *room(size_t size)
{
    /* malloc(0) may be null, which no slice may be */
    void *p = malloc(size > 0 ? size : 1);
    if (p == NULL) {
        fprintf(stderr, "no memory\n");
        exit(1);
    }
    return p;
}

static struct list lend(size_t len)
{
    struct list l;
    l.bytes = (uint8_t *)room(len);
    l.len = len;
    return l;
}

/* The new list in place of the old one: `said` has its length. */
static void replace(struct list *old, struct list new_list, uint64_t len)
{
    free(old->bytes);
    new_list.len = (size_t)len;
    *old = new_list;
}

/* Every answer is looked at: another one than expected ends the program. */
static void expect(const char *what, uint32_t answer, uint32_t expected)
{
    printf("%s: %lu\n", what, (unsigned long)answer);
    if (answer != expected) {
        fprintf(stderr, "%s: expected %lu\n", what, (unsigned long)expected);
        exit(1);
    }
}

static void must(int so, const char *what)
{
    if (!so) {
        fprintf(stderr, "not so: %s\n", what);
        exit(1);
    }
}

static void put_be32(uint8_t *p, uint32_t n)
{
    p[0] = (uint8_t)(n >> 24);
    p[1] = (uint8_t)(n >> 16);
    p[2] = (uint8_t)(n >> 8);
    p[3] = (uint8_t)n;
}

static uint32_t be32(const uint8_t *p)
{
    return (uint32_t)p[0] << 24 | (uint32_t)p[1] << 16 | (uint32_t)p[2] << 8 | (uint32_t)p[3];
}

static uint64_t be64(const uint8_t *p)
{
    return (uint64_t)be32(p) << 32 | be32(p + 4);
}

static void put_rmap(uint8_t *p, uint32_t start, uint32_t count, uint64_t owner, uint64_t offset)
{
    put_be32(p, start);
    put_be32(p + 4, count);
    put_be32(p + 8, (uint32_t)(owner >> 32));
    put_be32(p + 12, (uint32_t)owner);
    put_be32(p + 16, (uint32_t)(offset >> 32));
    put_be32(p + 20, (uint32_t)offset);
}

static void print_lists(const struct list *map, const struct list *counts)
{
    printf("  records: %lu, shared counts: %lu\n", (unsigned long)(map->len / KF_RMAP_BYTES),
           (unsigned long)(counts->len / KF_REFCOUNT_BYTES));
}

/* A first take: the new reverse map has at most one record more. */
static void take(struct list *map, uint32_t start, uint32_t count, uint64_t owner, uint32_t expected)
{
    uint64_t said[KF_FIGURES];
    struct list new_map = lend(map->len + KF_RMAP_BYTES);
    uint32_t answer = kf_insert(map->bytes, map->len, start, count, owner, 0, new_map.bytes, new_map.len, said);
    expect("insert", answer, expected);
    if (answer == KF_DONE)
        replace(map, new_map, said[0]);
    else
        free(new_map.bytes);
}

/* A take of held blocks: at most one record more in the reverse map, and in the counts one more than shared records are met, of which there are no
 * more than records. */
static void take_held(struct list *map, struct list *counts, uint32_t start, uint32_t count, uint64_t owner)
{
    uint64_t said[KF_FIGURES];
    size_t most = counts->len / KF_REFCOUNT_BYTES + 1;
    struct list new_map = lend(map->len + KF_RMAP_BYTES);
    struct list new_counts = lend(counts->len + most * KF_REFCOUNT_BYTES);
    uint32_t answer = kf_take_held(map->bytes, map->len, counts->bytes, counts->len, start, count, owner, 0,
                                   new_map.bytes, new_map.len, new_counts.bytes, new_counts.len, said);
    expect("take_held", answer, KF_DONE);
    replace(map, new_map, said[0]);
    replace(counts, new_counts, said[1]);
}

/* The whole letting go: at most one record more in the reverse map, two in the counts, and one free extent more than shared records met. Gives
 * back the number of free extents. */
static size_t let_go(struct list *map, struct list *counts, uint32_t start, uint32_t count, uint64_t owner)
{
    uint64_t said[KF_FIGURES];
    size_t i, found;
    struct list new_map = lend(map->len + KF_RMAP_BYTES);
    struct list new_counts = lend(counts->len + 2 * KF_REFCOUNT_BYTES);
    struct list free_extents = lend((counts->len / KF_REFCOUNT_BYTES + 1) * KF_FREE_EXTENT_BYTES);
    uint32_t answer = kf_let_go(map->bytes, map->len, counts->bytes, counts->len, start, count, owner, 0, new_map.bytes, new_map.len,
                                new_counts.bytes, new_counts.len, free_extents.bytes, free_extents.len, said);
    expect("let_go", answer, KF_DONE);
    replace(map, new_map, said[0]);
    replace(counts, new_counts, said[1]);
    found = (size_t)(said[2] / KF_FREE_EXTENT_BYTES);
    for (i = 0; i < found; i++) {
        const uint8_t *extent = free_extents.bytes + i * KF_FREE_EXTENT_BYTES;
        printf("  free: %lu blocks from %lu\n", (unsigned long)be32(extent + 4), (unsigned long)be32(extent));
    }
    if (found == 0)
        printf("  nothing is free\n");
    free(free_extents.bytes);
    return found;
}

/* Why a block of an extent is free now or still held when the extent is let go. The deciding record is read where it stands in its list; these lists
 * agree, so that it is one of the reverse map, and have no staging records. */
static void explain(const struct list *map, const struct list *counts, uint32_t start, uint32_t count, uint64_t owner, uint32_t block,
                    uint32_t expected)
{
    uint64_t said[KF_FIGURES];
    const uint8_t *record;

    expect("explain", kf_explain(map->bytes, map->len, counts->bytes, counts->len, start, count, owner, 0, block, said), expected);
    if (expected != KF_DONE)
        return;
    if (said[0] == KF_BLOCK_FREE) {
        must(said[1] == KF_LIST_NONE && said[2] == 0 && said[3] == 0, "no record decides");
        printf("  block %lu is free now\n", (unsigned long)block);
        return;
    }
    must(said[0] == KF_BLOCK_HELD && said[1] == KF_LIST_MAP, "a record of the reverse map decides");
    must(said[3] == KF_RMAP_BYTES && said[2] + said[3] <= map->len, "it stands whole in the list");
    record = map->bytes + said[2];
    printf("  block %lu is still held: owner %lu holds %lu blocks from %lu\n", (unsigned long)block, (unsigned long)be64(record + 8),
           (unsigned long)be32(record + 4), (unsigned long)be32(record));
}

/* The reverse map as a tree of one block, number 5 of the group, checked, read back and looked up in. */
static void store_and_read(const struct list *map)
{
    uint64_t said[KF_FIGURES], levels[KF_LEVELS], answers[3];
    const uint32_t numbers[1] = {5}, asked[3] = {3, 4, 40};
    struct list built, image, records, again;
    uint32_t stack[KF_STACK_PLACES], *blocks;
    uint64_t *scratch;
    size_t i;

    expect("plan", kf_plan(GEOMETRY(LSN_BUILT), KF_KIND_RMAP, map->len / KF_RMAP_BYTES, levels, said), KF_DONE);
    must(said[0] == 1 && said[1] == 1 && levels[0] == 1, "the tree is one block");

    built = lend(BLOCKSIZE);
    expect("build", kf_build(GEOMETRY(LSN_BUILT), KF_KIND_RMAP, map->bytes, map->len, numbers, 1, built.bytes, built.len, said), KF_DONE);
    must(said[0] == 1 && said[1] == BLOCKSIZE, "one block was built");

    expect("check_block", kf_check_block(GEOMETRY(LSN_READ), KF_KIND_RMAP, numbers[0], 0, built.bytes, built.len, said), KF_DONE);
    must(said[0] == map->len / KF_RMAP_BYTES, "the block has the map's records");
    must(said[2] == KF_NO_SIBLING && said[3] == KF_NO_SIBLING, "it has no siblings");
    expect("check_block of another number", kf_check_block(GEOMETRY(LSN_READ), KF_KIND_RMAP, 6, 0, built.bytes, built.len, said), KF_Q_ADDRESS);
    printf("  expected address %lu, found %lu\n", (unsigned long)said[0], (unsigned long)said[1]);

    /* A block that is newer than the log is refused. */
    expect("check_block with an older log",
           kf_check_block(GEOMETRY(LSN_BUILT - 1), KF_KIND_RMAP, numbers[0], 0, built.bytes, built.len, said), KF_Q_SEQUENCE);
    must(said[0] == LSN_BUILT - 1 && said[1] == LSN_BUILT, "the log's last number and the block's are told");

    /* The group up to this block: block n at n times the block size. */
    image = lend((numbers[0] + 1) * BLOCKSIZE);
    memset(image.bytes, 0, image.len);
    memcpy(image.bytes + numbers[0] * BLOCKSIZE, built.bytes, BLOCKSIZE);

    scratch = (uint64_t *)room(1 * sizeof *scratch);
    blocks = (uint32_t *)room(1 * sizeof *blocks);
    records = lend(BLOCKSIZE);
    expect("walk_linked",
           kf_walk_linked(GEOMETRY(LSN_READ), KF_KIND_RMAP, image.bytes, image.len, numbers[0], 1, stack, KF_STACK_PLACES, scratch, 1, blocks, 1,
                          records.bytes, records.len, said),
           KF_DONE);
    must(said[0] == 1 && blocks[0] == numbers[0], "it met the one block");
    must(said[2] == map->len && memcmp(records.bytes, map->bytes, map->len) == 0, "the records are the map's");
    must(said[3] == 1, "the tree is linked");
    for (i = 0; i < (size_t)said[1]; i++) {
        const uint8_t *record = records.bytes + i * KF_RMAP_BYTES;
        printf("  record: %lu blocks from %lu\n", (unsigned long)be32(record + 4), (unsigned long)be32(record));
    }

    /* The same with no stack lent. */
    again = lend(BLOCKSIZE);
    expect("walk_textbook",
           kf_walk_textbook(GEOMETRY(LSN_READ), KF_KIND_RMAP, image.bytes, image.len, numbers[0], 1, scratch, 1, blocks, 1,
                            again.bytes, again.len, said),
           KF_DONE);
    must(said[0] == 1 && blocks[0] == numbers[0], "it met the one block too");
    must(said[2] == map->len && memcmp(again.bytes, records.bytes, map->len) == 0, "it gave the same records");

    /* How many records lie over each of some blocks, which have to ascend. */
    expect("lookup",
           kf_lookup(GEOMETRY(LSN_READ), image.bytes, image.len, numbers[0], 1, asked, 3, stack, KF_STACK_PLACES, answers, 3, said),
           KF_DONE);
    must(said[0] == 1, "it read the one block");
    for (i = 0; i < 3; i++)
        printf("  records over block %lu: %lu\n", (unsigned long)asked[i], (unsigned long)answers[i]);

    free(built.bytes);
    free(image.bytes);
    free(records.bytes);
    free(again.bytes);
    free(scratch);
    free(blocks);
}

int main(void)
{
    /* Blocks 0 to 3 are the group's own, and nothing is shared. */
    struct list map = lend(KF_RMAP_BYTES), counts = lend(0);
    put_rmap(map.bytes, 0, 4, OWN_FS, 0);
    expect("check_rmaps", kf_check_rmaps(map.bytes, map.len), KF_DONE);
    expect("check_refcounts", kf_check_refcounts(counts.bytes, counts.len), KF_DONE);

    /* Inode 131 takes blocks 40 to 49. A second first take is refused: they are held. */
    take(&map, 40, 10, 131, KF_DONE);
    take(&map, 40, 10, 132, KF_Q_OVERLAP);
    print_lists(&map, &counts);

    /* Inode 132 takes them beside it. */
    take_held(&map, &counts, 40, 10, 132);
    print_lists(&map, &counts);

    /* The first lets them go, and 132 holds them still; then it lets them go too. Block 50 is not among them. */
    explain(&map, &counts, 40, 10, 131, 43, KF_DONE);
    must(let_go(&map, &counts, 40, 10, 131) == 0, "nothing is free while inode 132 holds the blocks");
    print_lists(&map, &counts);
    explain(&map, &counts, 40, 10, 132, 43, KF_DONE);
    explain(&map, &counts, 40, 10, 132, 50, KF_Q_NOT_IN_EXTENT);
    must(let_go(&map, &counts, 40, 10, 132) == 1, "one extent is free again");
    print_lists(&map, &counts);

    store_and_read(&map);

    free(map.bytes);
    free(counts.bytes);
    return 0;
}

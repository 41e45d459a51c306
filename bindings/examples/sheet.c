/* The changes of examples/let_go.c written on a sheet, which is one block, and read back; a damaged sheet and a list of no change are refused.
 * The calls are the proved library's; what is lent to them, and what is made of their answers, is this program's.
 * Compile it in the repository's folder, as C99 or later, or as C++11 or later:
 *
 *   cc -std=c99 -Wall -Wextra -pedantic -I bindings bindings/examples/sheet.c \
 *       target/staticlib/libtree_calls.a target/staticlib/liblist_calls.a -o sheet
 *   c++ -x c++ -std=c++11 -Wall -Wextra -pedantic -I bindings bindings/examples/sheet.c -x none \
 *       target/staticlib/libtree_calls.a target/staticlib/liblist_calls.a -o sheet
 */
#include <stdio.h>
#include <stdlib.h>
#include <string.h>

#include "kf.h"

#define CHANGES 4u

/* Every answer is looked at: another one than expected ends the program. */
static void expect(const char *what, uint32_t answer, uint32_t expected)
{
    printf("%s: %lu\n", what, (unsigned long)answer);
    if (answer != expected) {
        fprintf(stderr, "%s: expected %lu\n", what, (unsigned long)expected);
        exit(1);
    }
}

static void must(int so, const char *what)
{
    if (!so) {
        fprintf(stderr, "not so: %s\n", what);
        exit(1);
    }
}

static void put_be32(uint8_t *p, uint32_t n)
{
    p[0] = (uint8_t)(n >> 24);
    p[1] = (uint8_t)(n >> 16);
    p[2] = (uint8_t)(n >> 8);
    p[3] = (uint8_t)n;
}

static void put_rmap(uint8_t *p, uint32_t start, uint32_t count, uint64_t owner, uint64_t offset)
{
    put_be32(p, start);
    put_be32(p + 4, count);
    put_be32(p + 8, (uint32_t)(owner >> 32));
    put_be32(p + 12, (uint32_t)owner);
    put_be32(p + 16, (uint32_t)(offset >> 32));
    put_be32(p + 20, (uint32_t)offset);
}

int main(void)
{
    static const uint32_t kinds[CHANGES] = {KF_CHANGE_FIRST_TAKE, KF_CHANGE_TAKE_HELD, KF_CHANGE_LET_GO, KF_CHANGE_LET_GO};
    static const uint64_t owners[CHANGES] = {131, 132, 131, 132};
    uint8_t changes[CHANGES * KF_CHANGE_BYTES];
    uint8_t sheet[KF_SHEET_BLOCK_BYTES];
    uint8_t again[KF_SHEET_BLOCK_CHANGES * KF_CHANGE_BYTES];
    uint64_t said[KF_FIGURES];
    size_t i;

    for (i = 0; i < CHANGES; i++) {
        uint8_t *change = changes + i * KF_CHANGE_BYTES;
        put_be32(change, kinds[i]);
        put_be32(change + 4, 0);
        put_rmap(change + 8, 40, 10, owners[i], 0);
    }
    expect("write_sheet", kf_write_sheet(changes, sizeof changes, sheet, sizeof sheet, said), KF_DONE);
    must(said[0] == KF_SHEET_BLOCK_BYTES, "the sheet is one block");

    expect("read_sheet", kf_read_sheet(sheet, sizeof sheet, again, sizeof again, said), KF_DONE);
    must(said[0] == sizeof changes && memcmp(again, changes, sizeof changes) == 0, "the changes are the same");
    printf("  changes: %lu\n", (unsigned long)(said[0] / KF_CHANGE_BYTES));

    sheet[100] ^= 1;
    expect("read_sheet of a damaged one", kf_read_sheet(sheet, sizeof sheet, again, sizeof again, said), KF_Q_SHEET_CRC);
    must(said[0] == 0 && memcmp(again, changes, sizeof changes) == 0, "a refusal writes no change");
    expect("write_sheet of no change", kf_write_sheet(changes, 0, sheet, sizeof sheet, said), KF_Q_SHEET_RULE);
    return 0;
}

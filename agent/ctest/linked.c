/*
 * Linked sections from C: the maps of one, and the question by address over all of them; one map and several,
 * of both versions, damaged ones, bytes after the last, and lists that are too short.
 */
#include "rows.h"
#include "tally.h"
#include "treskibben.h"

#include <inttypes.h>
#include <stddef.h>
#include <stdio.h>
#include <stdlib.h>
#include <string.h>

/* The answer lies in memory as agent/src/ffi/linked.rs has it. An array of -1 elements is an error. */
#define AT(field, at)                                                                              \
    typedef char answer_##field[offsetof(treskibben_linked_answer, field) == (at) &&               \
                                        sizeof(((treskibben_linked_answer *)0)->field) == 8        \
                                    ? 1                                                            \
                                    : -1]

typedef char whole_answer[sizeof(treskibben_linked_answer) == 48 ? 1 : -1];
AT(number, 0);
AT(place, 8);
AT(map, 16);
AT(index, 24);
AT(function, 32);
AT(sharing, 40);

/* What stands in a list before a call, the most numbers that one has here, the most maps and the most bytes. */
#define BEFORE UINT64_C(0xa5a55a5ac3c33c3c)
enum { MOST = 16, MOST_MAPS = 4, MOST_BYTES = 1024 };

static const uint8_t row_c[16] = {3};
static const uint8_t row_c_1[16] = {1};
static const uint8_t row_d[16] = {2};
static const uint8_t zeros[16] = {0};

/* Two functions at 0x1000 and 0x800, with records at 0x1020, 0x1020 and 0x820 in this order. */
static const uint8_t sharing[136] = {
    /* header: version 3, two functions, no constants, three records */
    3, 0, 0, 0, 2, 0, 0, 0, 0, 0, 0, 0, 3, 0, 0, 0,
    /* functions: address 0x1000 with two records, 0x800 with one */
    0, 0x10, 0, 0, 0, 0, 0, 0, 8, 0, 0, 0, 0, 0, 0, 0, 2, 0, 0, 0, 0, 0, 0, 0,
    0, 8, 0, 0, 0, 0, 0, 0, 8, 0, 0, 0, 0, 0, 0, 0, 1, 0, 0, 0, 0, 0, 0, 0,
    /* records: IDs 1 to 3 at offset 0x20 each, without locations and live-outs */
    1, 0, 0, 0, 0, 0, 0, 0, 0x20, 0, 0, 0, 0, 0, 0, 0, 0, 0, 0, 0, 0, 0, 0, 0,
    2, 0, 0, 0, 0, 0, 0, 0, 0x20, 0, 0, 0, 0, 0, 0, 0, 0, 0, 0, 0, 0, 0, 0, 0,
    3, 0, 0, 0, 0, 0, 0, 0, 0x20, 0, 0, 0, 0, 0, 0, 0, 0, 0, 0, 0, 0, 0, 0, 0,
};

/* Some bytes, and the same with one of them set, unless `byte` is KEPT. */
struct piece {
    const uint8_t *bytes;
    size_t length;
    size_t at;
    int byte;
};
enum { KEPT = -1 };

#define WHOLE(row) {row, sizeof row, 0, KEPT}
#define CUT(row, length) {row, length, 0, KEPT}
#define SET(row, at, byte) {row, sizeof row, at, byte}
#define C WHOLE(row_c)
#define C_1 WHOLE(row_c_1)
#define H WHOLE(row_h)
#define H_1 WHOLE(row_h_1)
#define S WHOLE(sharing)

/* Joins pieces up to the first without bytes, and gives how many bytes they have. */
static size_t join(uint8_t *section, const struct piece *pieces)
{
    size_t length = 0;
    size_t i;

    for (i = 0; i < MOST_MAPS && pieces[i].bytes != NULL; i++) {
        memcpy(section + length, pieces[i].bytes, pieces[i].length);
        if (pieces[i].byte != KEPT) {
            section[length + pieces[i].at] = (uint8_t)pieces[i].byte;
        }
        length += pieces[i].length;
    }
    return length;
}

/* A linked section, the room of a list, the answer, and what is written. */
struct cut {
    struct piece pieces[MOST_MAPS];
    size_t room;
    uint64_t answer[3];
    uint64_t written[2 * MOST_MAPS];
};

static const struct cut cuts[] = {
    /* one map: as the check has it */
    {{C}, 2, {0, 0, 1}, {0, 16}},
    {{C}, 5, {0, 0, 1}, {0, 16}},
    {{C_1}, 2, {0, 0, 1}, {0, 16}},
    {{H}, 2, {0, 0, 1}, {0, 152}},
    {{WHOLE(row_d)}, 2, {2, 0, 0}, {0}},
    {{SET(row_c, 3, 9)}, 2, {3, 3, 0}, {0}},
    {{CUT(row_h, 151)}, 2, {4, 40, 0}, {0}},
    {{SET(row_c, 12, 1)}, 2, {5, 12, 0}, {0}},
    {{SET(row_h, 56, 9)}, 2, {6, 56, 0}, {0}},
    {{SET(row_h, 56, 5)}, 2, {7, 56, 0}, {0}},
    {{CUT(row_c, 15)}, 2, {1, 0, 0}, {0}},
    {{CUT(row_c, 0)}, 2, {1, 0, 0}, {0}},
    /* several, of either version */
    {{C, C}, 4, {0, 0, 2}, {0, 16, 16, 16}},
    {{H, H}, 4, {0, 0, 2}, {0, 152, 152, 152}},
    {{H, H}, 16, {0, 0, 2}, {0, 152, 152, 152}},
    {{H, C}, 4, {0, 0, 2}, {0, 152, 152, 16}},
    {{C, H_1, H}, 6, {0, 0, 3}, {0, 16, 16, 112, 128, 152}},
    {{C, C_1, C, C_1}, 8, {0, 0, 4}, {0, 16, 16, 16, 32, 16, 48, 16}},
    /* a list that is too short, after the maps' own refusals */
    {{C}, 1, {24, 0, 0}, {0}},
    {{C}, 0, {24, 0, 0}, {0}},
    {{C, C}, 3, {24, 0, 0}, {0}},
    {{H, H}, 2, {24, 0, 0}, {0}},
    {{H, H, H}, 5, {24, 0, 0}, {0}},
    {{C, SET(row_c, 3, 9)}, 0, {3, 19, 0}, {0}},
    /* a fault in a later map, at its place in the whole */
    {{C, CUT(zeros, 1)}, 4, {1, 16, 0}, {0}},
    {{C, CUT(row_c, 15)}, 4, {1, 16, 0}, {0}},
    {{C, WHOLE(zeros)}, 4, {2, 16, 0}, {0}},
    {{H, WHOLE(row_d)}, 4, {2, 152, 0}, {0}},
    {{H, SET(row_h, 2, 1)}, 4, {3, 154, 0}, {0}},
    {{H, CUT(row_h, 151)}, 4, {4, 192, 0}, {0}},
    {{H, SET(row_h, 12, 2)}, 4, {5, 164, 0}, {0}},
    {{H, SET(row_h, 56, 9)}, 4, {6, 208, 0}, {0}},
    {{H, H, SET(row_h, 56, 5)}, 6, {7, 360, 0}, {0}},
    {{SET(row_h, 56, 9), SET(row_c, 3, 9)}, 4, {6, 56, 0}, {0}},
};

/* A linked section, an address, and the six fields of the answer. */
struct looked {
    struct piece pieces[MOST_MAPS];
    uint64_t address;
    uint64_t answer[6];
};

static const struct looked lookups[] = {
    /* one map: as the question of one section has it */
    {{H}, 0x1020, {0, 0, 0, 0, 0, 1}},
    {{H}, 0x1021, {10, 0, 0, 0, 0, 0}},
    {{S}, 0x1020, {0, 0, 0, 0, 0, 2}},
    {{S}, 0x820, {0, 0, 0, 2, 1, 1}},
    {{C}, 0, {10, 0, 0, 0, 0, 0}},
    /* several: the first map that has it, and all records that share it */
    {{H, H}, 0x1020, {0, 0, 0, 0, 0, 2}},
    {{C, H}, 0x1020, {0, 0, 1, 0, 0, 1}},
    {{H, S}, 0x1020, {0, 0, 0, 0, 0, 3}},
    {{S, H, S}, 0x1020, {0, 0, 0, 0, 0, 5}},
    {{H, S}, 0x820, {0, 0, 1, 2, 1, 1}},
    {{C, H, S, S}, 0x820, {0, 0, 2, 2, 1, 2}},
    {{H, H}, 0x1021, {10, 0, 0, 0, 0, 0}},
    {{C, C, C}, 0, {10, 0, 0, 0, 0, 0}},
    /* version 1, whether or not the address is found: the first such map */
    {{H_1}, 0x1020, {27, 0, 0, 0, 0, 0}},
    {{H, H_1}, 0x1020, {27, 152, 0, 0, 0, 0}},
    {{C, C_1, H_1}, 0, {27, 16, 0, 0, 0, 0}},
    /* a fault in any map, which comes before 27 */
    {{C, CUT(zeros, 1)}, 0, {1, 16, 0, 0, 0, 0}},
    {{H, SET(row_h, 56, 9)}, 0x1020, {6, 208, 0, 0, 0, 0}},
    {{H_1, SET(row_c, 3, 9)}, 0x1020, {3, 115, 0, 0, 0, 0}},
    {{SET(row_c, 3, 9), H_1}, 0x1020, {3, 3, 0, 0, 0, 0}},
};

/* Cuts a linked section into a list, of which nothing but what is written changes; the section stays too. */
static int passes_cut(size_t number, const struct cut *row)
{
    uint8_t section[MOST_BYTES], kept[MOST_BYTES];
    uint64_t list[MOST], after[MOST];
    treskibben_answer answer;
    size_t length, i;

    length = join(section, row->pieces);
    memcpy(kept, section, length);
    for (i = 0; i < MOST; i++) {
        list[i] = BEFORE;
        after[i] = i < 2 * row->answer[2] ? row->written[i] : BEFORE;
    }
    answer = treskibben_linked_maps(section, length, list, row->room);
    if (answer.number == row->answer[0] && answer.place == row->answer[1] &&
        answer.value == row->answer[2] && memcmp(list, after, sizeof list) == 0 &&
        memcmp(section, kept, length) == 0) {
        return 1;
    }
    fprintf(stderr, "cut %u: %" PRIu64 " at %" PRIu64 ", value %" PRIu64 "\n", (unsigned)number,
            answer.number, answer.place, answer.value);
    return 0;
}

/* Looks an address up over all maps. */
static int passes_lookup(size_t number, const struct looked *row)
{
    uint8_t section[MOST_BYTES];
    treskibben_linked_answer answer;
    size_t length;

    length = join(section, row->pieces);
    answer = treskibben_linked_find(section, length, row->address);
    if (memcmp(&answer, row->answer, sizeof answer) == 0) {
        return 1;
    }
    fprintf(stderr, "lookup %u: %" PRIu64 " at %" PRIu64 ", map %" PRIu64 "\n", (unsigned)number,
            answer.number, answer.place, answer.map);
    return 0;
}

/* The most bytes that a section has, all of them maps, and one map more. */
static int passes_longest(void)
{
    enum { MAPS = 1048576 };
    uint8_t *section = malloc((MAPS + 1) * sizeof row_c);
    uint64_t *list = malloc(2 * MAPS * sizeof *list);
    treskibben_answer all, more;
    treskibben_linked_answer found;
    size_t i;
    int right;

    if (section == NULL || list == NULL) {
        free(list);
        free(section);
        return 0;
    }
    for (i = 0; i <= MAPS; i++) {
        memcpy(section + i * sizeof row_c, row_c, sizeof row_c);
    }
    more = treskibben_linked_maps(section, (MAPS + 1) * sizeof row_c, list, 2 * MAPS);
    all = treskibben_linked_maps(section, MAPS * sizeof row_c, list, 2 * MAPS);
    found = treskibben_linked_find(section, (MAPS + 1) * sizeof row_c, 0);
    right = all.number == 0 && all.value == MAPS && more.number == 1 && more.place == 0 &&
            more.value == 0 && found.number == 1 && found.place == 0;
    for (i = 0; i < MAPS; i++) {
        right = right && list[2 * i] == i * sizeof row_c && list[2 * i + 1] == sizeof row_c;
    }
    free(list);
    free(section);
    if (!right) {
        fprintf(stderr, "longest: %" PRIu64 " at %" PRIu64 ", value %" PRIu64 "\n", all.number,
                all.place, all.value);
    }
    return right;
}

int main(void)
{
    const size_t count_cuts = sizeof cuts / sizeof cuts[0];
    const size_t count_lookups = sizeof lookups / sizeof lookups[0];
    size_t passed = 0;
    size_t i;

    for (i = 0; i < count_cuts; i++) {
        passed += (size_t)passes_cut(i, &cuts[i]);
    }
    for (i = 0; i < count_lookups; i++) {
        passed += (size_t)passes_lookup(i, &lookups[i]);
    }
    passed += (size_t)passes_longest();
    return tally(passed, count_cuts + count_lookups + 1);
}

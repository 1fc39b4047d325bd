/*
 * Asks questions of the library from C: on row H, on a section that is refused, and on one whose
 * every field has bits of its own; and on row H and such a section in version 1.
 */
#include "rows.h"
#include "tally.h"
#include "treskibben.h"

#include <inttypes.h>
#include <stdio.h>
#include <stdlib.h>
#include <string.h>

/* The structs lie in memory as those of the library do: C99 has no other static assertion. */
#define SIZE(type, size) typedef char whole_##type[sizeof(treskibben_##type) == (size) ? 1 : -1]
#define FIELD(type, field, at, width)                                                              \
    typedef char type##_##field[offsetof(treskibben_##type, field) == (at) &&                      \
                                        sizeof(((treskibben_##type *)0)->field) == (width)         \
                                    ? 1                                                            \
                                    : -1]

SIZE(answer, 24);
FIELD(answer, number, 0, 8);
FIELD(answer, place, 8, 8);
FIELD(answer, value, 16, 8);
SIZE(find_answer, 40);
FIELD(find_answer, number, 0, 8);
FIELD(find_answer, place, 8, 8);
FIELD(find_answer, index, 16, 8);
FIELD(find_answer, function, 24, 8);
FIELD(find_answer, sharing, 32, 8);
SIZE(record_answer, 32);
FIELD(record_answer, number, 0, 8);
FIELD(record_answer, place, 8, 8);
FIELD(record_answer, first, 16, 8);
FIELD(record_answer, length, 24, 8);
SIZE(location_answer, 40);
FIELD(location_answer, number, 0, 8);
FIELD(location_answer, place, 8, 8);
FIELD(location_answer, constant, 16, 8);
FIELD(location_answer, offset, 24, 4);
FIELD(location_answer, size, 28, 2);
FIELD(location_answer, dwarf_register, 30, 2);
FIELD(location_answer, kind, 32, 1);
FIELD(location_answer, content, 33, 1);
SIZE(live_out_answer, 24);
FIELD(live_out_answer, number, 0, 8);
FIELD(live_out_answer, place, 8, 8);
FIELD(live_out_answer, dwarf_register, 16, 2);
FIELD(live_out_answer, size, 18, 1);

/* Row C and one zero byte: 9 at 16, whatever is asked. */
static const uint8_t row_e[17] = {3};

/* Three functions, the first of them without records, whose records meet at 2^64 - 1. */
static const uint8_t fields[192] = {
    /* header: version 3, three functions, one constant, two records */
    3, 0, 0, 0, 3, 0, 0, 0, 1, 0, 0, 0, 2, 0, 0, 0,
    /* functions: addresses 2^64 - 1, 2^64 - 2 and 2^64 - 1 */
    255, 255, 255, 255, 255, 255, 255, 255, 8, 0, 0, 0, 0, 0, 0, 0, 0, 0, 0, 0, 0, 0, 0, 0,
    254, 255, 255, 255, 255, 255, 255, 255, 8, 0, 0, 0, 0, 0, 0, 0, 1, 0, 0, 0, 0, 0, 0, 0,
    255, 255, 255, 255, 255, 255, 255, 255, 8, 0, 0, 0, 0, 0, 0, 0, 1, 0, 0, 0, 0, 0, 0, 0,
    /* constant 0xfedcba9876543210 */
    0x10, 0x32, 0x54, 0x76, 0x98, 0xba, 0xdc, 0xfe,
    /* record: ID 1, offset 1, flags, no locations, zeros, one live-out of register 0xabcd */
    1, 0, 0, 0, 0, 0, 0, 0, 1, 0, 0, 0, 0, 0, 0, 0, 0, 0, 1, 0, 0xcd, 0xab, 0, 0xef,
    /* record: ID 2, offset 0, flags, four locations */
    2, 0, 0, 0, 0, 0, 0, 0, 0, 0, 0, 0, 0, 0, 4, 0,
    /* Direct 0x1234 - 2^31, Constant -2, ConstIndex 0, Register 3 */
    2, 0, 0x65, 0x87, 0x34, 0x12, 0, 0, 0, 0, 0, 128,
    4, 0, 4, 0, 0, 0, 0, 0, 254, 255, 255, 255,
    5, 0, 8, 0, 0, 0, 0, 0, 0, 0, 0, 0,
    1, 0, 8, 0, 3, 0, 0, 0, 0, 0, 0, 0,
    /* zeros, no live-outs, padding */
    0, 0, 0, 0, 0, 0, 0, 0,
};

/* Version 1: two functions, and two of three records at one offset. Where the first record is of the
 * first function, its address is over 2^64 - 1. */
static const uint8_t fields_1[160] = {
    /* header: version 1, two functions, one constant, three records */
    1, 0, 0, 0, 2, 0, 0, 0, 1, 0, 0, 0, 3, 0, 0, 0,
    /* functions: addresses 2^64 - 1 and 0 */
    255, 255, 255, 255, 255, 255, 255, 255, 8, 0, 0, 0, 0, 0, 0, 0,
    0, 0, 0, 0, 0, 0, 0, 0, 8, 0, 0, 0, 0, 0, 0, 0,
    /* constant 0xfedcba9876543210 */
    0x10, 0x32, 0x54, 0x76, 0x98, 0xba, 0xdc, 0xfe,
    /* record: ID 1, offset 2^32 - 1, flags, no locations, zeros, one live-out of register 0xabcd */
    1, 0, 0, 0, 0, 0, 0, 0, 255, 255, 255, 255, 0, 0, 0, 0, 0, 0, 1, 0, 0xcd, 0xab, 0, 0xef,
    /* record: ID 2, offset 1, flags, four locations */
    2, 0, 0, 0, 0, 0, 0, 0, 1, 0, 0, 0, 0, 0, 4, 0,
    /* Direct 0x1234 - 2^31, Constant -2, ConstIndex 0, of sizes 0xee, 0 and 255; Register 3 with size
     * and offset of no slot */
    2, 0xee, 0x34, 0x12, 0, 0, 0, 128,
    4, 0, 0, 0, 254, 255, 255, 255,
    5, 255, 0, 0, 0, 0, 0, 0,
    1, 1, 3, 0, 255, 255, 255, 255,
    /* zeros, no live-outs, padding */
    0, 0, 0, 0, 0, 0, 0, 0,
    /* record: ID 3, offset 1, flags, no locations, zeros, no live-outs, padding */
    3, 0, 0, 0, 0, 0, 0, 0, 1, 0, 0, 0, 0, 0, 0, 0, 0, 0, 0, 0, 0, 0, 0, 0,
};

enum question { FIND, FIND_IN, RECORD, LOCATION, LIVE_OUT };

/* A question and its answer: number, place and the other fields in the order of the struct. */
struct row {
    const uint8_t *bytes;
    size_t length;
    enum question question;
    uint64_t asked[2];
    uint64_t answer[8];
};

#define ON_H row_h, sizeof row_h
#define ON_E row_e, sizeof row_e
#define ON_FIELDS fields, sizeof fields
#define ON_H_1 row_h_1, sizeof row_h_1
#define ON_FIELDS_1 fields_1, sizeof fields_1
#define MINUS(n) ((uint64_t)0 - (n))

static const struct row rows[] = {
    {ON_H, FIND, {0x1020, 0}, {0, 0, 0, 0, 1, 0, 0, 0}},
    {ON_H, FIND, {0x1021, 0}, {10, 0, 0, 0, 0, 0, 0, 0}},
    {ON_H, FIND_IN, {0, 0x20}, {27, 0, 0, 0, 0, 0, 0, 0}},
    {ON_H, FIND_IN, {1, 0x21}, {27, 0, 0, 0, 0, 0, 0, 0}},
    {ON_H, RECORD, {0, 0}, {0, 0, 40, 112, 0, 0, 0, 0}},
    {ON_H, RECORD, {1, 0}, {10, 0, 0, 0, 0, 0, 0, 0}},
    {ON_H, LOCATION, {0, 0}, {0, 0, 0, 0, 8, 0, 4, 0}},
    {ON_H, LOCATION, {0, 1}, {0, 0, 0, 0, 8, 0, 4, 0}},
    {ON_H, LOCATION, {0, 2}, {0, 0, 0, 0, 8, 0, 4, 0}},
    {ON_H, LOCATION, {0, 3}, {0, 0, 0, 8, 8, 7, 3, 2}},
    {ON_H, LOCATION, {0, 4}, {0, 0, 0, 8, 8, 7, 3, 2}},
    {ON_H, LOCATION, {0, 5}, {0, 0, 0, 8, 8, 7, 3, 2}},
    {ON_H, LOCATION, {0, 6}, {0, 0, 0, 16, 8, 7, 3, 2}},
    {ON_H, LOCATION, {0, 7}, {11, 0, 0, 0, 0, 0, 0, 0}},
    {ON_H, LOCATION, {1, 7}, {10, 0, 0, 0, 0, 0, 0, 0}},
    {ON_H, LIVE_OUT, {0, 0}, {11, 0, 0, 0, 0, 0, 0, 0}},
    {ON_H, LIVE_OUT, {1, 0}, {10, 0, 0, 0, 0, 0, 0, 0}},
    {ON_E, FIND, {0, 0}, {9, 16, 0, 0, 0, 0, 0, 0}},
    {ON_E, FIND_IN, {0, 0}, {9, 16, 0, 0, 0, 0, 0, 0}},
    {ON_E, RECORD, {0, 0}, {9, 16, 0, 0, 0, 0, 0, 0}},
    {ON_E, LOCATION, {0, 0}, {9, 16, 0, 0, 0, 0, 0, 0}},
    {ON_E, LIVE_OUT, {0, 0}, {9, 16, 0, 0, 0, 0, 0, 0}},
    {ON_FIELDS, FIND, {MINUS(1), 0}, {0, 0, 0, 1, 2, 0, 0, 0}},
    {ON_FIELDS, FIND, {MINUS(2), 0}, {10, 0, 0, 0, 0, 0, 0, 0}},
    {ON_FIELDS, RECORD, {0, 0}, {0, 0, 96, 24, 0, 0, 0, 0}},
    {ON_FIELDS, RECORD, {1, 0}, {0, 0, 120, 72, 0, 0, 0, 0}},
    {ON_FIELDS, RECORD, {(uint64_t)1 << 32, 0}, {10, 0, 0, 0, 0, 0, 0, 0}},
    {ON_FIELDS, LOCATION, {1, 0}, {0, 0, 0, MINUS(0x80000000), 0x8765, 0x1234, 2, 0}},
    {ON_FIELDS, LOCATION, {1, 1}, {0, 0, MINUS(2), MINUS(2), 4, 0, 4, 0}},
    {ON_FIELDS, LOCATION, {1, 2}, {0, 0, 0xfedcba9876543210, 0, 8, 0, 5, 0}},
    {ON_FIELDS, LOCATION, {1, 3}, {0, 0, 0, 0, 8, 3, 1, 1}},
    {ON_FIELDS, LOCATION, {1, MINUS(1)}, {11, 0, 0, 0, 0, 0, 0, 0}},
    {ON_FIELDS, LIVE_OUT, {0, 0}, {0, 0, 0xabcd, 0xef, 0, 0, 0, 0}},
    {ON_FIELDS, LIVE_OUT, {0, 1}, {11, 0, 0, 0, 0, 0, 0, 0}},
    {ON_H_1, FIND_IN, {0, 0x20}, {0, 0, 0, 0, 1, 0, 0, 0}},
    {ON_H_1, FIND_IN, {0, 0x21}, {10, 0, 0, 0, 0, 0, 0, 0}},
    {ON_H_1, FIND_IN, {0, 0x1020}, {10, 0, 0, 0, 0, 0, 0, 0}},
    {ON_H_1, FIND_IN, {1, 0x20}, {10, 0, 0, 0, 0, 0, 0, 0}},
    {ON_H_1, FIND_IN, {0, ((uint64_t)1 << 32) + 0x20}, {10, 0, 0, 0, 0, 0, 0, 0}},
    {ON_H_1, FIND_IN, {(uint64_t)1 << 32, 0x20}, {10, 0, 0, 0, 0, 0, 0, 0}},
    {ON_H_1, FIND, {0x1020, 0}, {27, 0, 0, 0, 0, 0, 0, 0}},
    {ON_H_1, FIND, {0x20, 0}, {27, 0, 0, 0, 0, 0, 0, 0}},
    {ON_H_1, RECORD, {0, 0}, {0, 0, 32, 80, 0, 0, 0, 0}},
    {ON_H_1, LOCATION, {0, 2}, {0, 0, 0, 0, 8, 0, 4, 0}},
    {ON_H_1, LOCATION, {0, 6}, {0, 0, 0, 16, 8, 7, 3, 2}},
    {ON_H_1, LIVE_OUT, {0, 0}, {11, 0, 0, 0, 0, 0, 0, 0}},
    {ON_FIELDS_1, FIND_IN, {0, 1}, {0, 0, 1, 0, 2, 0, 0, 0}},
    {ON_FIELDS_1, FIND_IN, {1, 1}, {0, 0, 1, 1, 2, 0, 0, 0}},
    {ON_FIELDS_1, FIND_IN, {2, 1}, {10, 0, 0, 0, 0, 0, 0, 0}},
    {ON_FIELDS_1, FIND_IN, {0, 0xffffffff}, {0, 0, 0, 0, 1, 0, 0, 0}},
    {ON_FIELDS_1, FIND_IN, {0, MINUS(1)}, {10, 0, 0, 0, 0, 0, 0, 0}},
    {ON_FIELDS_1, RECORD, {1, 0}, {0, 0, 80, 56, 0, 0, 0, 0}},
    {ON_FIELDS_1, RECORD, {2, 0}, {0, 0, 136, 24, 0, 0, 0, 0}},
    {ON_FIELDS_1, RECORD, {3, 0}, {10, 0, 0, 0, 0, 0, 0, 0}},
    {ON_FIELDS_1, LOCATION, {1, 0}, {0, 0, 0, MINUS(0x80000000), 0xee, 0x1234, 2, 0}},
    {ON_FIELDS_1, LOCATION, {1, 1}, {0, 0, MINUS(2), MINUS(2), 0, 0, 4, 0}},
    {ON_FIELDS_1, LOCATION, {1, 2}, {0, 0, 0xfedcba9876543210, 0, 255, 0, 5, 0}},
    {ON_FIELDS_1, LOCATION, {1, 3}, {0, 0, 0, MINUS(1), 1, 3, 1, 1}},
    {ON_FIELDS_1, LOCATION, {1, 4}, {11, 0, 0, 0, 0, 0, 0, 0}},
    {ON_FIELDS_1, LIVE_OUT, {0, 0}, {0, 0, 0xabcd, 0xef, 0, 0, 0, 0}},
};

/* Writes an answer's first fields, which all have, and gives where the others go. */
static uint64_t *begin(uint64_t *out, uint64_t number, uint64_t place)
{
    out[0] = number;
    out[1] = place;
    return out + 2;
}

/* Asks the row's question, and writes all fields in the order of the struct. */
static void ask(const struct row *row, const uint8_t *bytes, uint64_t *out)
{
    const uint64_t one = row->asked[0], two = row->asked[1];

    if (row->question == FIND || row->question == FIND_IN) {
        treskibben_find_answer answer =
            row->question == FIND ? treskibben_find(bytes, row->length, one)
                                  : treskibben_find_in_function(bytes, row->length, one, two);
        out = begin(out, answer.number, answer.place);
        out[0] = answer.index;
        out[1] = answer.function;
        out[2] = answer.sharing;
    } else if (row->question == RECORD) {
        treskibben_record_answer answer = treskibben_record(bytes, row->length, one);
        out = begin(out, answer.number, answer.place);
        out[0] = answer.first;
        out[1] = answer.length;
    } else if (row->question == LOCATION) {
        treskibben_location_answer answer = treskibben_location(bytes, row->length, one, two);
        out = begin(out, answer.number, answer.place);
        out[0] = answer.constant;
        out[1] = (uint64_t)(int64_t)answer.offset;
        out[2] = answer.size;
        out[3] = answer.dwarf_register;
        out[4] = answer.kind;
        out[5] = answer.content;
    } else {
        treskibben_live_out_answer answer = treskibben_live_out(bytes, row->length, one, two);
        out = begin(out, answer.number, answer.place);
        out[0] = answer.dwarf_register;
        out[1] = answer.size;
    }
}

/* Asks on a copy of the row's bytes, which has no byte to spare and must stay as it is. */
static int passes(size_t number, const struct row *row)
{
    uint64_t answer[8] = {0};
    uint8_t *copy = malloc(row->length);
    int same;
    size_t i;

    if (copy == NULL) {
        fprintf(stderr, "row %zu: no memory\n", number);
        return 0;
    }
    memcpy(copy, row->bytes, row->length);
    ask(row, copy, answer);
    same = memcmp(copy, row->bytes, row->length) == 0;
    free(copy);
    if (same && memcmp(answer, row->answer, sizeof answer) == 0) {
        return 1;
    }
    fprintf(stderr, "row %zu: bytes %s; fields and what is expected:", number,
            same ? "unchanged" : "changed");
    for (i = 0; i < 8; i++) {
        fprintf(stderr, " %" PRIx64 " (%" PRIx64 ")", answer[i], row->answer[i]);
    }
    fprintf(stderr, "\n");
    return 0;
}

int main(void)
{
    size_t count = sizeof rows / sizeof rows[0];
    size_t passed = 0;
    size_t i;

    for (i = 0; i < count; i++) {
        passed += (size_t)passes(i, &rows[i]);
    }
    return tally(passed, count);
}

/*
 * Converts sections and listings by the library from C: rows C and H both ways and in both versions,
 * refusals, and outputs that are longer than the result, exactly as long, and too short.
 */
#include "rows.h"
#include "tally.h"
#include "treskibben.h"

#include <inttypes.h>
#include <stdio.h>
#include <stdlib.h>
#include <string.h>

static const uint8_t row_c[16] = {3};
static const uint8_t row_c_listing[1] = {6};
static const uint8_t row_c_1[16] = {1};
static const uint8_t row_c_1_listing[3] = {7, 1, 6};

/* Row C and one zero byte: 9 at 16. */
static const uint8_t row_e[17] = {3};

static const uint8_t row_h_listing[109] = {
    /* function: address 0x1000, stack size 24, one record */
    1, 0, 0x10, 0, 0, 0, 0, 0, 0, 24, 0, 0, 0, 0, 0, 0, 0, 1, 0, 0, 0, 0, 0, 0, 0,
    /* record: ID 7, offset 0x20 */
    3, 7, 0, 0, 0, 0, 0, 0, 0, 0x20, 0, 0, 0,
    /* three constants of 0 */
    4, 4, 8, 0, 0, 0, 0, 0, 0, 0,
    4, 4, 8, 0, 0, 0, 0, 0, 0, 0,
    4, 4, 8, 0, 0, 0, 0, 0, 0, 0,
    /* RSP+8 and RSP+8, RSP+8 and RSP+16 */
    4, 3, 8, 0, 7, 0, 8, 0, 0, 0,
    4, 3, 8, 0, 7, 0, 8, 0, 0, 0,
    4, 3, 8, 0, 7, 0, 8, 0, 0, 0,
    4, 3, 8, 0, 7, 0, 16, 0, 0, 0,
    /* end */
    6,
};

static const uint8_t row_h_1_listing[111] = {
    /* version 1 */
    7, 1,
    /* function: address 0x1000, stack size 24, no count */
    1, 0, 0x10, 0, 0, 0, 0, 0, 0, 24, 0, 0, 0, 0, 0, 0, 0, 0, 0, 0, 0, 0, 0, 0, 0,
    /* record: ID 7, offset 0x20 */
    3, 7, 0, 0, 0, 0, 0, 0, 0, 0x20, 0, 0, 0,
    /* three constants of 0 */
    4, 4, 8, 0, 0, 0, 0, 0, 0, 0,
    4, 4, 8, 0, 0, 0, 0, 0, 0, 0,
    4, 4, 8, 0, 0, 0, 0, 0, 0, 0,
    /* RSP+8 and RSP+8, RSP+8 and RSP+16 */
    4, 3, 8, 0, 7, 0, 8, 0, 0, 0,
    4, 3, 8, 0, 7, 0, 8, 0, 0, 0,
    4, 3, 8, 0, 7, 0, 8, 0, 0, 0,
    4, 3, 8, 0, 7, 0, 16, 0, 0, 0,
    /* end */
    6,
};

/* Listings that break the grammar. */
static const uint8_t unknown_kind[2] = {8, 6};
static const uint8_t version_3[3] = {7, 3, 6};
static const uint8_t second_version[5] = {7, 1, 7, 1, 6};
static const uint8_t version_after_constant[12] = {2, 0, 0, 0, 0, 0, 0, 0, 0, 7, 1, 6};
static const uint8_t second_end[2] = {6, 6};
/* Whole, but without an end. */
static const uint8_t constant[9] = {2, 1, 1, 1, 1, 1, 1, 1, 1};
static const uint8_t function_after_constant[35] = {
    2, 0, 0, 0, 0, 0, 0, 0, 0,
    1, 0, 0, 0, 0, 0, 0, 0, 0, 0, 0, 0, 0, 0, 0, 0, 0, 0, 0, 0, 0, 0, 0, 0, 0,
    6,
};

/* Listings that keep it and whose section would be refused: a record that no function has, and a
 * location of kind 9. */
static const uint8_t stray_record[14] = {3, 7, 0, 0, 0, 0, 0, 0, 0, 0, 0, 0, 0, 6};
static const uint8_t kind_9[49] = {
    1, 0, 0, 0, 0, 0, 0, 0, 0, 0, 0, 0, 0, 0, 0, 0, 0, 1, 0, 0, 0, 0, 0, 0, 0,
    3, 7, 0, 0, 0, 0, 0, 0, 0, 0, 0, 0, 0,
    4, 9, 0, 0, 0, 0, 0, 0, 0, 0,
    6,
};

/* Listings of version 1: a record, which no function has to count; a location of kind 9, in size 255 and
 * in size 256; and that with a function before it whose count is not 0. */
static const uint8_t stray_record_1[16] = {7, 1, 3, 7, 0, 0, 0, 0, 0, 0, 0, 0, 0, 0, 0, 6};
static const uint8_t stray_section_1[40] = {
    1, 0, 0, 0, 0, 0, 0, 0, 0, 0, 0, 0, 1, 0, 0, 0,
    7, 0, 0, 0, 0, 0, 0, 0, 0, 0, 0, 0, 0, 0, 0, 0, 0, 0, 0, 0, 0, 0, 0, 0,
};
static const uint8_t kind_9_1[26] = {
    7, 1, 3, 7, 0, 0, 0, 0, 0, 0, 0, 0, 0, 0, 0, 4, 9, 255, 0, 0, 0, 0, 0, 0, 0, 6,
};
static const uint8_t size_256[26] = {
    7, 1, 3, 7, 0, 0, 0, 0, 0, 0, 0, 0, 0, 0, 0, 4, 9, 0, 1, 0, 0, 0, 0, 0, 0, 6,
};
static const uint8_t counted_1[51] = {
    7, 1, 1, 0, 0, 0, 0, 0, 0, 0, 0, 0, 0, 0, 0, 0, 0, 0, 0, 0, 0, 0, 0, 0, 0, 0, 1,
    3, 7, 0, 0, 0, 0, 0, 0, 0, 0, 0, 0, 0, 4, 9, 0, 1, 0, 0, 0, 0, 0, 0, 6,
};

typedef treskibben_answer (*conversion)(const uint8_t *, size_t, uint8_t *, size_t);

/* An input, how long the output is, and the answer with the bytes that are written. */
struct row {
    conversion convert;
    const uint8_t *input;
    size_t length;
    size_t room;
    uint64_t number;
    uint64_t place;
    const uint8_t *written;
    size_t value;
};

#define TO_LISTING(bytes) treskibben_to_listing, bytes, sizeof bytes
#define TO_SECTION(bytes) treskibben_to_section, bytes, sizeof bytes
#define TO_SECTION_OF_FIRST(bytes, length) treskibben_to_section, bytes, length
#define WRITTEN(bytes) 0, 0, bytes, sizeof bytes
#define REFUSED(number, place) number, place, NULL, 0

static const struct row rows[] = {
    {TO_LISTING(row_c), 1, WRITTEN(row_c_listing)},
    {TO_LISTING(row_c), 40, WRITTEN(row_c_listing)},
    {TO_LISTING(row_c), 0, REFUSED(24, 0)},
    {TO_SECTION(row_c_listing), 16, WRITTEN(row_c)},
    {TO_SECTION(row_c_listing), 40, WRITTEN(row_c)},
    {TO_SECTION(row_c_listing), 15, REFUSED(24, 0)},
    {TO_LISTING(row_h), 109, WRITTEN(row_h_listing)},
    {TO_LISTING(row_h), 300, WRITTEN(row_h_listing)},
    {TO_LISTING(row_h), 108, REFUSED(24, 0)},
    {TO_LISTING(row_h), 0, REFUSED(24, 0)},
    {TO_SECTION(row_h_listing), 152, WRITTEN(row_h)},
    {TO_SECTION(row_h_listing), 300, WRITTEN(row_h)},
    {TO_SECTION(row_h_listing), 151, REFUSED(24, 0)},
    {TO_SECTION(row_h_listing), 0, REFUSED(24, 0)},
    {TO_LISTING(row_c_1), 3, WRITTEN(row_c_1_listing)},
    {TO_LISTING(row_c_1), 2, REFUSED(24, 0)},
    {TO_SECTION(row_c_1_listing), 16, WRITTEN(row_c_1)},
    {TO_SECTION(row_c_1_listing), 15, REFUSED(24, 0)},
    {TO_LISTING(row_h_1), 111, WRITTEN(row_h_1_listing)},
    {TO_LISTING(row_h_1), 300, WRITTEN(row_h_1_listing)},
    {TO_LISTING(row_h_1), 110, REFUSED(24, 0)},
    {TO_SECTION(row_h_1_listing), 112, WRITTEN(row_h_1)},
    {TO_SECTION(row_h_1_listing), 300, WRITTEN(row_h_1)},
    {TO_SECTION(row_h_1_listing), 111, REFUSED(24, 0)},
    /* The section's own refusal, which comes before 24. */
    {TO_LISTING(row_e), 40, REFUSED(9, 16)},
    {TO_LISTING(row_e), 0, REFUSED(9, 16)},
    /* The grammar, which comes before all but the listing's length. */
    {TO_SECTION(unknown_kind), 40, REFUSED(22, 0)},
    {TO_SECTION(second_end), 40, REFUSED(22, 1)},
    {TO_SECTION(version_3), 40, REFUSED(22, 0)},
    {TO_SECTION(second_version), 40, REFUSED(22, 2)},
    {TO_SECTION(version_after_constant), 40, REFUSED(22, 9)},
    {TO_SECTION_OF_FIRST(row_c_1_listing, 1), 40, REFUSED(22, 0)},
    {TO_SECTION_OF_FIRST(row_c_1_listing, 2), 40, REFUSED(22, 2)},
    {TO_SECTION_OF_FIRST(counted_1, 50), 40, REFUSED(22, 50)},
    /* What only version 1 refuses, which comes before the section's refusal and after the grammar. */
    {TO_SECTION(counted_1), 100, REFUSED(28, 2)},
    {TO_SECTION(size_256), 100, REFUSED(28, 15)},
    {TO_SECTION(size_256), 0, REFUSED(28, 15)},
    {TO_SECTION(function_after_constant), 100, REFUSED(22, 9)},
    {TO_SECTION_OF_FIRST(constant, 8), 100, REFUSED(22, 0)},
    {TO_SECTION_OF_FIRST(constant, 9), 100, REFUSED(22, 9)},
    {TO_SECTION_OF_FIRST(row_h_listing, 0), 100, REFUSED(22, 0)},
    {TO_SECTION_OF_FIRST(row_h_listing, 108), 300, REFUSED(22, 108)},
    {TO_SECTION_OF_FIRST(row_h_listing, 107), 300, REFUSED(22, 98)},
    {TO_SECTION_OF_FIRST(row_h_listing, 107), 0, REFUSED(22, 98)},
    /* The refusal of the section that is not written. */
    {TO_SECTION(stray_record), 100, REFUSED(5, 12)},
    {TO_SECTION(stray_record), 0, REFUSED(5, 12)},
    {TO_SECTION(kind_9), 200, REFUSED(6, 56)},
    {TO_SECTION(kind_9_1), 200, REFUSED(6, 32)},
    {TO_SECTION(stray_record_1), 40, WRITTEN(stray_section_1)},
};

/* Bytes before and after an output, and the most that an output has. */
enum { GUARD = 16, MOST = 300 };

/* The output and its guards before the call: no two bytes near one another are equal. */
static void fill(uint8_t *bytes, size_t length)
{
    size_t i;

    for (i = 0; i < length; i++) {
        bytes[i] = (uint8_t)(0xa5 + 7 * i);
    }
}

static int fails(size_t number, const char *what)
{
    fprintf(stderr, "row %zu: %s\n", number, what);
    return 0;
}

/* Converts a copy of the row's input, which has no byte to spare and must stay as it is. */
static int passes(size_t number, const struct row *row)
{
    uint8_t output[GUARD + MOST + GUARD], expected[sizeof output];
    uint8_t *copy = malloc(row->length + (row->length == 0));
    treskibben_answer answer;
    int same;

    if (copy == NULL) {
        return fails(number, "no memory");
    }
    memcpy(copy, row->input, row->length);
    fill(output, sizeof output);
    fill(expected, sizeof expected);
    if (row->written != NULL) {
        memcpy(expected + GUARD, row->written, row->value);
    }
    answer = row->convert(copy, row->length, output + GUARD, row->room);
    same = memcmp(copy, row->input, row->length) == 0;
    free(copy);
    if (answer.number != row->number || answer.place != row->place || answer.value != row->value) {
        fprintf(stderr, "number %" PRIu64 ", place %" PRIu64 ", value %" PRIu64 " in ",
                answer.number, answer.place, answer.value);
        return fails(number, "a wrong answer");
    }
    if (!same) {
        return fails(number, "the input is changed");
    }
    if (memcmp(output, expected, sizeof output) != 0) {
        return fails(number, "a wrong byte in the output or beside it");
    }
    return 1;
}

int main(void)
{
    size_t count = sizeof rows / sizeof rows[0];
    size_t passed = 0;
    size_t i;

    for (i = 0; i < count; i++) {
        passed += (size_t)passes(i, &rows[i]);
    }
    return tally(passed, count);
}

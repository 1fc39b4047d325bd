/*
 * Address indexes from C: filled, looked up one address at a time and many, and handed to the move of a
 * thread; right ones, wrong ones, lists that are too short, and a section of version 1.
 */
#include "moves.h"
#include "rows.h"
#include "tally.h"
#include "treskibben.h"

#include <inttypes.h>
#include <stdio.h>
#include <stdlib.h>
#include <string.h>

/* What stands in a list before a call, and the most numbers that one has here. */
#define BEFORE UINT64_C(0xa5a55a5ac3c33c3c)
enum { MOST = 32 };

/* Row C, and row C and one zero byte: 9 at 16, whatever is asked. */
static const uint8_t row_c[16] = {3};
static const uint8_t row_e[17] = {3};

/* Three functions and four records at 0x208, 0x100, 0x208 and 2^64 - 1 in section order. */
static const uint8_t mixed[184] = {
    /* header: version 3, three functions, no constants, four records */
    3, 0, 0, 0, 3, 0, 0, 0, 0, 0, 0, 0, 4, 0, 0, 0,
    /* functions: address 0x200 with one record, 0x100 with two, 2^64 - 1 with one */
    0, 2, 0, 0, 0, 0, 0, 0, 8, 0, 0, 0, 0, 0, 0, 0, 1, 0, 0, 0, 0, 0, 0, 0,
    0, 1, 0, 0, 0, 0, 0, 0, 8, 0, 0, 0, 0, 0, 0, 0, 2, 0, 0, 0, 0, 0, 0, 0,
    255, 255, 255, 255, 255, 255, 255, 255, 8, 0, 0, 0, 0, 0, 0, 0, 1, 0, 0, 0, 0, 0, 0, 0,
    /* records: IDs 1 to 4 at offsets 8, 0, 0x108 and 0, without locations and live-outs */
    1, 0, 0, 0, 0, 0, 0, 0, 8, 0, 0, 0, 0, 0, 0, 0, 0, 0, 0, 0, 0, 0, 0, 0,
    2, 0, 0, 0, 0, 0, 0, 0, 0, 0, 0, 0, 0, 0, 0, 0, 0, 0, 0, 0, 0, 0, 0, 0,
    3, 0, 0, 0, 0, 0, 0, 0, 8, 1, 0, 0, 0, 0, 0, 0, 0, 0, 0, 0, 0, 0, 0, 0,
    4, 0, 0, 0, 0, 0, 0, 0, 0, 0, 0, 0, 0, 0, 0, 0, 0, 0, 0, 0, 0, 0, 0, 0,
};

#define LAST UINT64_C(0xffffffffffffffff)
#define RIGHT 0x100, 1, 0x208, 0, 0x208, 2, LAST, 3

#define ON_C row_c, sizeof row_c
#define ON_E row_e, sizeof row_e
#define ON_H row_h, sizeof row_h
#define ON_H_1 row_h_1, sizeof row_h_1
#define ON_MIXED mixed, sizeof mixed

/* A list to be filled: its room, the answer, and what is written. */
struct filled {
    const uint8_t *bytes;
    size_t length;
    size_t room;
    uint64_t answer[3];
    uint64_t written[8];
};

static const struct filled fills[] = {
    {ON_C, 0, {0, 0, 0}, {0}},          {ON_C, 4, {0, 0, 0}, {0}},
    {ON_H, 2, {0, 0, 2}, {0x1020, 0}},  {ON_H, 3, {0, 0, 2}, {0x1020, 0}},
    {ON_H, 1, {24, 0, 0}, {0}},         {ON_H, 0, {24, 0, 0}, {0}},
    {ON_MIXED, 8, {0, 0, 8}, {RIGHT}},  {ON_MIXED, 20, {0, 0, 8}, {RIGHT}},
    {ON_MIXED, 7, {24, 0, 0}, {0}},     {ON_MIXED, 4, {24, 0, 0}, {0}},
    {ON_E, 0, {9, 16, 0}, {0}},         {ON_E, 8, {9, 16, 0}, {0}},
    {ON_H_1, 0, {27, 0, 0}, {0}},       {ON_H_1, 8, {27, 0, 0}, {0}},
};

/* An index, an address and the five fields of the answer. */
struct looked {
    const uint8_t *bytes;
    size_t length;
    size_t count;
    uint64_t index[10];
    uint64_t address;
    uint64_t answer[5];
};

static const struct looked lookups[] = {
    {ON_MIXED, 8, {RIGHT}, 0x100, {0, 0, 1, 1, 1}},
    {ON_MIXED, 8, {RIGHT}, 0x208, {0, 0, 0, 0, 2}},
    {ON_MIXED, 8, {RIGHT}, LAST, {0, 0, 3, 2, 1}},
    {ON_MIXED, 8, {RIGHT}, 0x200, {10, 0, 0, 0, 0}},
    {ON_MIXED, 8, {RIGHT}, 0, {10, 0, 0, 0, 0}},
    {ON_MIXED, 7, {RIGHT}, 0x100, {29, 0, 0, 0, 0}},
    {ON_MIXED, 6, {RIGHT}, 0x100, {29, 0, 0, 0, 0}},
    {ON_MIXED, 0, {RIGHT}, 0x100, {29, 0, 0, 0, 0}},
    {ON_MIXED, 9, {RIGHT, 0}, 0x100, {29, 0, 0, 0, 0}},
    {ON_MIXED, 10, {RIGHT, LAST, 3}, 0x100, {29, 0, 0, 0, 0}},
    {ON_MIXED, 8, {0x100, 1, 0x208, 2, 0x208, 0, LAST, 3}, 0x100, {29, 0, 0, 0, 0}},
    {ON_MIXED, 8, {0x100, 1, 0x208, 0, 0x208, 0, LAST, 3}, 0x208, {29, 0, 0, 0, 0}},
    {ON_MIXED, 8, {0x208, 0, 0x100, 1, 0x208, 2, LAST, 3}, 0x200, {29, 0, 0, 0, 0}},
    {ON_MIXED, 8, {0x100, 1, 0x208, 0, 0x208, 2, LAST, 4}, 0x200, {29, 0, 0, 0, 0}},
    {ON_H, 2, {0x1020, 0}, 0x1020, {0, 0, 0, 0, 1}},
    {ON_H, 2, {0x1020, 0}, 0x1021, {10, 0, 0, 0, 0}},
    {ON_H, 2, {0x1021, 0}, 0x1021, {29, 0, 0, 0, 0}},
    {ON_C, 0, {0}, 0, {10, 0, 0, 0, 0}},
    {ON_C, 2, {0}, 0, {29, 0, 0, 0, 0}},
    {ON_E, 2, {0}, 0, {9, 16, 0, 0, 0}},
    {ON_H_1, 0, {0}, 0x20, {27, 0, 0, 0, 0}},
    {ON_H_1, 2, {0x1020, 0}, 0x1020, {27, 0, 0, 0, 0}},
};

/* Fills a list, of which nothing but what is written changes. */
static int passes_fill(const struct filled *row)
{
    uint64_t list[MOST], after[MOST];
    treskibben_answer answer;
    size_t i;

    for (i = 0; i < MOST; i++) {
        list[i] = BEFORE;
        after[i] = i < row->answer[2] ? row->written[i] : BEFORE;
    }
    answer = treskibben_fill_index(row->bytes, row->length, list, row->room);
    return passed("filled", row->answer, answer, memcmp(list, after, sizeof list) == 0);
}

/* Looks an address up; the index stays as it is. */
static int passes_lookup(size_t number, const struct looked *row)
{
    uint64_t index[10];
    treskibben_find_answer answer;
    int same;

    memcpy(index, row->index, sizeof index);
    answer = treskibben_find_by_index(row->bytes, row->length, index, row->count, row->address);
    same = memcmp(index, row->index, sizeof index) == 0;
    if (same && memcmp(&answer, row->answer, sizeof answer) == 0) {
        return 1;
    }
    fprintf(stderr, "lookup %u: %" PRIu64 " at %" PRIu64 "\n", (unsigned)number, answer.number,
            answer.place);
    return 0;
}

/* Looks all addresses up that `lookups` has for the mixed section and its right index, into a list with
 * `room` for numbers, of which nothing but what is written changes. */
static int passes_all(const uint8_t *bytes, size_t length, size_t count, size_t room,
                      const uint64_t *expected)
{
    static const uint64_t index[8] = {RIGHT};
    uint64_t addresses[5], list[MOST], after[MOST];
    treskibben_answer answer;
    size_t i;

    for (i = 0; i < MOST; i++) {
        list[i] = BEFORE;
        after[i] = i < expected[2] ? lookups[i / 5].answer[i % 5] : BEFORE;
    }
    for (i = 0; i < 5; i++) {
        addresses[i] = lookups[i].address;
    }
    answer = treskibben_find_all_by_index(bytes, length, index, count, addresses, 5, list, room);
    return passed("all", expected, answer, memcmp(list, after, sizeof list) == 0);
}

/* An array of answers can be lent as the list. */
static int passes_as_answers(void)
{
    static const uint64_t index[2] = {0x1020, 0}, addresses[2] = {0x1021, 0x1020};
    static const uint64_t expected[3] = {0, 0, 10};
    treskibben_find_answer answers[2];
    treskibben_answer answer;
    int right;

    answer = treskibben_find_all_by_index(ON_H, index, 2, addresses, 2, (uint64_t *)answers, 10);
    right = answers[0].number == 10 && answers[0].sharing == 0 && answers[1].number == 0 &&
            answers[1].index == 0 && answers[1].sharing == 1;
    return passed("as answers", expected, answer, right);
}

/* Moves row I's frame, or one at an RSP, with an index of `count` numbers. */
static int passes_thread(const uint8_t *bytes, size_t length, uint64_t rsp, size_t numbers,
                         size_t count, size_t old_count, const uint64_t *expected)
{
    static const uint64_t index[4] = {0x1020, 0, 0, 0}, old_start = 0x50000, new_start = 0x90000;
    const uint64_t list[2] = {0x1020, 9};
    uint8_t image[24], after[24];
    uint64_t registers[TRESKIBBEN_REGISTERS];
    treskibben_answer answer;
    int moved = expected[0] == 0 && numbers == 2;

    put(image, 7);
    put(image + 8, old_start);
    put(image + 16, old_start + 0x4e20);
    put(after, 7);
    put(after + 8, moved ? new_start : old_start);
    put(after + 16, (moved ? new_start : old_start) + 0x4e20);
    fill_registers(registers, 1);
    put_pointers(registers, TRESKIBBEN_AMD64, 0, rsp);
    answer = treskibben_thread_by_index(bytes, length, image, sizeof image, 0x7000, &old_start,
                                        old_count, &new_start, 1, TRESKIBBEN_AMD64, list, numbers,
                                        registers, TRESKIBBEN_REGISTERS * (numbers / 2), index, count);
    return passed("thread", expected, answer, memcmp(image, after, sizeof image) == 0);
}

static size_t threads(void)
{
    static const uint64_t moved[3] = {0, 0, 2}, none[3] = {0, 0, 0}, outside[3] = {16, 0, 0};
    static const uint64_t table[3] = {14, 0, 0}, version[3] = {27, 0, 0}, wrong[3] = {29, 0, 0};
    static const uint64_t list[3] = {25, 0, 0}, cut[3] = {4, 40, 0}, nowhere[3] = {10, 0, 0};
    size_t passed = 0;

    passed += (size_t)passes_thread(ON_H, 0x7000, 2, 2, 1, moved);
    passed += (size_t)passes_thread(ON_H, 0x7000, 0, 2, 1, none);
    passed += (size_t)passes_thread(ON_H, 0x7001, 2, 2, 1, outside);
    passed += (size_t)passes_thread(ON_H, 0x7000, 1, 2, 1, list);
    passed += (size_t)passes_thread(ON_H, 0x7000, 2, 0, 1, wrong);
    passed += (size_t)passes_thread(ON_H, 0x7000, 2, 1, 1, wrong);
    passed += (size_t)passes_thread(ON_H, 0x7000, 1, 3, 1, wrong);
    passed += (size_t)passes_thread(ON_H, 0x7000, 0, 4, 1, wrong);
    passed += (size_t)passes_thread(ON_H, 0x7000, 2, 4, 0, table);
    passed += (size_t)passes_thread(ON_H_1, 0x7000, 1, 2, 1, version);
    passed += (size_t)passes_thread(ON_H_1, 0x7000, 1, 2, 0, table);
    passed += (size_t)passes_thread(row_h, sizeof row_h - 1, 0x7000, 1, 4, 0, cut);
    passed += (size_t)passes_thread(ON_C, 0x7000, 0, 0, 1, none);
    passed += (size_t)passes_thread(ON_C, 0x7000, 2, 0, 1, nowhere);
    passed += (size_t)passes_thread(ON_C, 0x7000, 2, 2, 1, wrong);
    return passed;
}

int main(void)
{
    static const uint64_t all[3] = {0, 0, 25}, room[3] = {24, 0, 0}, wrong[3] = {29, 0, 0};
    static const uint64_t version[3] = {27, 0, 0}, after[3] = {9, 16, 0};
    const size_t count_fills = sizeof fills / sizeof fills[0];
    const size_t count_lookups = sizeof lookups / sizeof lookups[0];
    size_t passed = 0;
    size_t i;

    for (i = 0; i < count_fills; i++) {
        passed += (size_t)passes_fill(&fills[i]);
    }
    for (i = 0; i < count_lookups; i++) {
        passed += (size_t)passes_lookup(i, &lookups[i]);
    }
    passed += (size_t)passes_all(ON_MIXED, 8, 25, all);
    passed += (size_t)passes_all(ON_MIXED, 8, 30, all);
    passed += (size_t)passes_all(ON_MIXED, 8, 24, room);
    passed += (size_t)passes_all(ON_MIXED, 8, 0, room);
    passed += (size_t)passes_all(ON_MIXED, 7, 0, wrong);
    passed += (size_t)passes_all(ON_H_1, 8, 0, version);
    passed += (size_t)passes_all(ON_E, 7, 0, after);
    passed += (size_t)passes_as_answers();
    passed += threads();
    return tally(passed, count_fills + count_lookups + 8 + 15);
}

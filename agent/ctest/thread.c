/*
 * Moves whole threads from C: lists of row I's frame that are accepted, refused in each order, and as
 * long as a list may be.
 */
#include "moves.h"
#include "rows.h"
#include "tally.h"
#include "treskibben.h"

#include <stdio.h>
#include <stdlib.h>
#include <string.h>

/* Slots on the short stack, bytes of a frame's extent, and the most frames of a list. */
enum { SLOTS = 9, EXTENT = 24, MOST = 4096 };

#define FIRST UINT64_C(0x7000)
#define OLD UINT64_C(0x50000)
#define NEW UINT64_C(0x90000)
#define DERIVED UINT64_C(0x4e20) /* how far the second slot points behind its base */

/* Row I's frame, and one at an address that no record has. Their functions are not read. */
#define HERE 0x1020, 9
#define NOWHERE 0x1021, 0

/* A list on the short stack: how many numbers of frames and of registers are lent, the frames, their RSPs, the
 * answer, and whether the first frame is moved. */
struct row {
    const char *name;
    size_t length, registers;
    uint64_t list[8];
    uint64_t rsp[4];
    uint64_t answer[3];
    int moved;
};

static const struct row rows[] = {
    {"none", 0, 0, {0}, {0}, {0, 0, 0}, 0},
    {"one", 2, 32, {HERE}, {0x7000}, {0, 0, 2}, 1},
    {"two", 4, 64, {HERE, HERE}, {0x7000, 0x7018}, {0, 0, 4}, 1},
    {"two, the other first", 4, 64, {HERE, HERE}, {0x7018, 0x7000}, {0, 0, 4}, 1},
    {"three", 6, 96, {HERE, HERE, HERE}, {0x7030, 0x7000, 0x7018}, {0, 0, 6}, 1},
    {"one number", 1, 32, {HERE}, {0x7000}, {25, 0, 0}, 0},
    {"one number, no registers", 1, 0, {HERE}, {0x7000}, {25, 0, 0}, 0},
    {"three numbers", 3, 32, {HERE, NOWHERE}, {0x7000}, {25, 0, 0}, 0},
    {"three numbers, registers of two", 3, 64, {HERE, HERE}, {0x7000, 0x7018}, {25, 0, 0}, 0},
    {"no frame and a register", 0, 1, {0}, {0x7000}, {25, 0, 0}, 0},
    {"no frame and its registers", 0, 32, {0}, {0x7000}, {25, 0, 0}, 0},
    {"no registers", 2, 0, {HERE}, {0x7000}, {25, 0, 0}, 0},
    {"31 registers", 2, 31, {NOWHERE}, {0x7000}, {25, 0, 0}, 0},
    {"33 registers", 2, 33, {HERE}, {0x7000}, {25, 0, 0}, 0},
    {"registers of two frames", 2, 64, {HERE}, {0x7000, 0x7018}, {25, 0, 0}, 0},
    {"registers of one frame", 4, 32, {HERE, HERE}, {0x7000, 0x7018}, {25, 0, 0}, 0},
    {"63 registers", 4, 63, {HERE, NOWHERE}, {0x7000, 0x7018}, {25, 0, 0}, 0},
    {"no record", 4, 64, {HERE, NOWHERE}, {0x7000, 0x7000}, {10, 1, 0}, 0},
    {"no record first", 4, 64, {NOWHERE, HERE}, {0x7000, 0x7008}, {10, 0, 0}, 0},
    {"a base of no object first", 4, 64, {HERE, NOWHERE}, {0x7008, 0x7000}, {21, 0, 0}, 0},
    {"outside", 6, 96, {HERE, HERE, HERE}, {0x7000, 0x7018, 0x7031}, {16, 2, 0}, 0},
    {"outside, and one twice", 6, 96, {HERE, HERE, HERE}, {0x7000, 0x7000, 0x6fff}, {16, 2, 0}, 0},
    {"one twice", 4, 64, {HERE, HERE}, {0x7000, 0x7000}, {26, 1, 0}, 0},
    {"one byte shared", 4, 64, {HERE, HERE}, {0x7000, 0x7017}, {26, 1, 0}, 0},
    {"shared with the first of three", 6, 96, {HERE, HERE, HERE}, {0x7000, 0x7030, 0x7017},
     {26, 2, 0}, 0},
    {"two shared", 8, 128, {HERE, HERE, HERE, HERE}, {0x7018, 0x7000, 0x7019, 0x7000}, {26, 2, 0}, 0},
};

static const uint64_t old_start = OLD, new_start = NEW;

/* A frame's slots: the first is no pair's, the others are a base and what is derived from it. */
static void put_frame(uint8_t *bytes, uint64_t base)
{
    put(bytes, 7);
    put(bytes + 8, base);
    put(bytes + 16, base + DERIVED);
}

/* Moves a row's list on a stack with one frame and zeros; the list and the registers must stay as they are. */
static int passes(const struct row *row)
{
    uint8_t image[8 * SLOTS] = {0}, after[8 * SLOTS] = {0};
    uint64_t list[8], registers[2][4 * TRESKIBBEN_REGISTERS];
    treskibben_answer answer;
    size_t i;
    int same;

    memcpy(list, row->list, sizeof list);
    fill_registers(registers[0], 8);
    for (i = 0; i < 8; i++) {
        put_pointers(registers[0] + TRESKIBBEN_REGISTERS * i, TRESKIBBEN_AMD64, 0, row->rsp[i % 4]);
    }
    put_frame(image, OLD);
    put_frame(after, row->moved ? NEW : OLD);
    answer = treskibben_thread(row_h, sizeof row_h, image, sizeof image, FIRST, &old_start, 1,
                               &new_start, 1, TRESKIBBEN_AMD64, list, row->length, registers[0],
                               row->registers);
    same = memcmp(image, after, sizeof image) == 0 && memcmp(list, row->list, sizeof list) == 0 &&
           memcmp(registers[0], registers[1], sizeof registers[0]) == 0;
    return passed(row->name, row->answer, answer, same);
}

/* Moves as many frames as there may be and one more, from arrays of frames and of their registers: `more`
 * numbers are lent beside those of the `count` frames, and the frame at `bad` is at no record. */
static int passes_with(size_t count, size_t more, size_t bad, const uint64_t *expected)
{
    static uint8_t image[EXTENT * (MOST + 1)], after[EXTENT * (MOST + 1)];
    static treskibben_frame frames[MOST + 2];
    static uint64_t registers[MOST + 1][TRESKIBBEN_REGISTERS];
    treskibben_answer answer;
    char name[64];
    size_t i;

    fill_registers(registers[0], MOST + 1);
    for (i = 0; i <= MOST; i++) {
        put_frame(image + EXTENT * i, OLD);
        put_frame(after + EXTENT * i, expected[0] == 0 && i < count ? NEW : OLD);
        frames[i].address = i == bad ? 0x1021 : 0x1020;
        frames[i].function = i;
        put_pointers(registers[i], TRESKIBBEN_AMD64, 0, FIRST + EXTENT * i);
    }
    answer = treskibben_thread(row_h, sizeof row_h, image, sizeof image, FIRST, &old_start, 1,
                               &new_start, 1, TRESKIBBEN_AMD64, (const uint64_t *)frames,
                               2 * count + more, registers[0], TRESKIBBEN_REGISTERS * count);
    sprintf(name, "%u frames and %u numbers", (unsigned)count, (unsigned)more);
    return passed(name, expected, answer, memcmp(image, after, sizeof image) == 0);
}

/* What all frames share is refused first, whatever the list. */
static int passes_before(size_t length, size_t old_count, uint64_t first, uint64_t number)
{
    const uint64_t list[2] = {NOWHERE}, expected[3] = {number, number == 4 ? 40 : 0, 0};
    uint8_t image[8 * SLOTS] = {0}, after[8 * SLOTS] = {0};
    uint64_t registers[TRESKIBBEN_REGISTERS] = {0};
    treskibben_answer answer;

    answer = treskibben_thread(row_h, length, image, sizeof image, first, &old_start, old_count,
                               &new_start, 1, TRESKIBBEN_AMD64, list, 1, registers, 31);
    return passed("before the list", expected, answer, memcmp(image, after, sizeof image) == 0);
}

int main(void)
{
    static const uint64_t most[3] = {0, 0, 2 * MOST}, less[3] = {0, 0, 2 * MOST - 2};
    static const uint64_t long_list[3] = {25, 0, 0}, last[3] = {10, MOST - 1, 0};
    const size_t count = sizeof rows / sizeof rows[0] + 8;
    size_t passed = 0;
    size_t i;

    for (i = 0; i < sizeof rows / sizeof rows[0]; i++) {
        passed += (size_t)passes(&rows[i]);
    }
    passed += (size_t)passes_with(MOST - 1, 0, MOST - 1, less);
    passed += (size_t)passes_with(MOST, 0, MOST, most);
    passed += (size_t)passes_with(MOST, 0, MOST - 1, last);
    passed += (size_t)passes_with(MOST, 1, 0, long_list);
    passed += (size_t)passes_with(MOST + 1, 0, 0, long_list);
    passed += (size_t)passes_before(sizeof row_h - 1, 0, (uint64_t)0 - 72, 4);
    passed += (size_t)passes_before(sizeof row_h, 0, (uint64_t)0 - 72, 13);
    passed += (size_t)passes_before(sizeof row_h, 0, (uint64_t)0 - 73, 14);
    return tally(passed, count);
}

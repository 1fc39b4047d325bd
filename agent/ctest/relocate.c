/*
 * Moves frames from C: the worked rows I to L, and those beside them that are refused or at a limit.
 */
#include "moves.h"
#include "rows.h"
#include "tally.h"
#include "treskibben.h"

#include <stdio.h>
#include <stdlib.h>
#include <string.h>

/* The frame lies in memory as that of the library does: C99 has no other static assertion. */
#define FIELD(field, at)                                                                           \
    typedef char frame_##field[offsetof(treskibben_frame, field) == (at) &&                        \
                                       sizeof(((treskibben_frame *)0)->field) == 8                 \
                                   ? 1                                                             \
                                   : -1]

typedef char whole_frame[sizeof(treskibben_frame) == 16 ? 1 : -1];
FIELD(address, 0);
FIELD(function, 8);

/* Where the first pair of row H stands, and the bytes of a location and of a pair. */
enum { PAIRS = 92, LOCATION = 12, PAIR = 24, LAST_OFFSET = 136, SLOTS = 3 };

/* What fills the slot that no pair has. */
#define OTHER UINT64_C(0xeeeeeeeeeeeeeeee)

/* A row: what differs from row I, and the answer and the slots after it. */
struct row {
    const char *name;
    int exchanged;       /* whether the pairs are */
    int8_t last_offset;  /* of the second derived slot */
    uint64_t slots[2];   /* at RSP + 8 and RSP + 16 */
    uint64_t new_start;  /* of the object at 0x50000 */
    size_t old_count, new_count;
    uint64_t first;
    treskibben_frame frame;
    uint64_t rsp;
    uint64_t answer[3];
    uint64_t after[2];
};

/* A frame of version 3 and its RSP. The function is not read: there is none of this number. */
#define FRAME(address, rsp) {address, 9}, rsp
#define AT_I 0x7000, FRAME(0x1020, 0x7000)

static const struct row rows[] = {
    {"I", 0, 16, {0x50000, 0x54e20}, 0x90000, 1, 1, AT_I, {0, 0, 2}, {0x90000, 0x94e20}},
    {"J", 1, 16, {0x50000, 0x54e20}, 0x90000, 1, 1, AT_I, {0, 0, 2}, {0x90000, 0x94e20}},
    {"K", 0, 16, {0x50000, 0x4b1e0}, 0x90000, 1, 1, AT_I, {0, 0, 2}, {0x90000, 0x8b1e0}},
    {"L", 0, 16, {0x50000, 0x4ffe0}, 0x10, 1, 1, AT_I, {0, 0, 2}, {0x10, (uint64_t)0 - 16}},
    {"base 0", 0, 16, {0, 0x54e20}, 0x90000, 1, 1, AT_I, {0, 0, 2}, {0, 0x54e20}},
    {"base 0x50008", 0, 16, {0x50008, 0x54e20}, 0x90000, 1, 1, AT_I, {21, 0, 0}, {0x50008, 0x54e20}},
    {"no table", 0, 16, {0x50000, 0x54e20}, 0x90000, 0, 0, AT_I, {21, 0, 0}, {0x50000, 0x54e20}},
    {"offset 17", 0, 17, {0x50000, 0x54e20}, 0x90000, 1, 1, AT_I, {19, 1, 0}, {0x50000, 0x54e20}},
    {"offset -1", 0, -1, {0x50000, 0x54e20}, 0x90000, 1, 1, AT_I, {19, 1, 0}, {0x50000, 0x54e20}},
    {"offset 12", 0, 12, {0x50000, 0x54e20}, 0x90000, 1, 1, AT_I, {20, 1, 0}, {0x50000, 0x54e20}},
    {"fewer old", 0, 16, {0x50000, 0x54e20}, 0x90000, 0, 1, AT_I, {14, 0, 0}, {0x50000, 0x54e20}},
    {"fewer new", 0, 16, {0x50000, 0x54e20}, 0x90000, 1, 0, AT_I, {14, 0, 0}, {0x50000, 0x54e20}},
    {"new start 0", 0, 16, {0x50000, 0x54e20}, 0, 1, 1, AT_I, {14, 0, 0}, {0x50000, 0x54e20}},
    {"no record", 0, 16, {0x50000, 0x54e20}, 0x90000, 1, 1, 0x7000, FRAME(0x1021, 0x7000),
     {10, 0, 0}, {0x50000, 0x54e20}},
    {"RSP above", 0, 16, {0x50000, 0x54e20}, 0x90000, 1, 1, 0x7000, FRAME(0x1020, 0x7001),
     {16, 0, 0}, {0x50000, 0x54e20}},
    {"RSP below", 0, 16, {0x50000, 0x54e20}, 0x90000, 1, 1, 0x7000, FRAME(0x1020, 0x6fff),
     {16, 0, 0}, {0x50000, 0x54e20}},
    {"top", 0, 16, {0x50000, 0x54e20}, 0x90000, 1, 1, (uint64_t)0 - 25,
     FRAME(0x1020, (uint64_t)0 - 25), {0, 0, 2}, {0x90000, 0x94e20}},
    {"past the top", 0, 16, {0x50000, 0x54e20}, 0x90000, 1, 1, (uint64_t)0 - 24,
     FRAME(0x1020, (uint64_t)0 - 24), {13, 0, 0}, {0x50000, 0x54e20}},
};

static void put_slots(uint8_t *image, const uint64_t *slots)
{
    put(image, OTHER);
    put(image + 8, slots[0]);
    put(image + 16, slots[1]);
}

/* A frame's registers of which no pair here is one: what they hold before a move and after it. */
static void put_both(uint64_t registers[2][TRESKIBBEN_REGISTERS], uint64_t rsp)
{
    fill_registers(registers[0], 2);
    put_pointers(registers[0], TRESKIBBEN_AMD64, 0, rsp);
    put_pointers(registers[1], TRESKIBBEN_AMD64, 0, rsp);
}

/* Moves the row's frame; the section and the registers must stay as they are. */
static int passes(const struct row *row)
{
    static const uint64_t old_start = 0x50000;
    uint8_t section[sizeof row_h], copy[sizeof row_h], image[8 * SLOTS], after[8 * SLOTS];
    uint64_t registers[2][TRESKIBBEN_REGISTERS];
    treskibben_answer answer;
    int same;

    memcpy(section, row_h, sizeof section);
    memset(section + LAST_OFFSET, row->last_offset < 0 ? 255 : 0, 4);
    section[LAST_OFFSET] = (uint8_t)row->last_offset;
    if (row->exchanged) {
        memcpy(copy, section + PAIRS, PAIR);
        memcpy(section + PAIRS, section + PAIRS + PAIR, PAIR);
        memcpy(section + PAIRS + PAIR, copy, PAIR);
    }
    memcpy(copy, section, sizeof copy);
    put_slots(image, row->slots);
    put_slots(after, row->after);
    put_both(registers, row->rsp);
    answer = treskibben_relocate(section, sizeof section, image, sizeof image, row->first,
                                 &old_start, row->old_count, &row->new_start, row->new_count,
                                 TRESKIBBEN_AMD64, row->frame, registers[0], TRESKIBBEN_REGISTERS);
    same = memcmp(image, after, sizeof image) == 0 && memcmp(section, copy, sizeof copy) == 0 &&
           memcmp(registers[0], registers[1], sizeof registers[0]) == 0;
    return passed(row->name, row->answer, answer, same);
}

/* Row I with `count` pairs, all of them the first one of row H; without any, nothing is moved. */
static int passes_with(size_t count, uint64_t number)
{
    static const uint64_t old_start = 0x50000, new_start = 0x90000, slots[2] = {0x50000, 0x54e20};
    static const treskibben_frame frame = {0x1020, 9};
    const size_t locations = 3 + 2 * count, length = PAIRS + PAIR * count + LOCATION;
    const uint64_t moved[2] = {count > 0 && number == 0 ? new_start : slots[0], slots[1]};
    const uint64_t expected[3] = {number, 0, number == 0 ? count : 0};
    uint8_t *section = calloc(length, 1), image[8 * SLOTS], after[8 * SLOTS];
    uint64_t registers[2][TRESKIBBEN_REGISTERS];
    treskibben_answer answer;
    char name[32];
    size_t i;

    if (section == NULL) {
        fprintf(stderr, "no memory\n");
        return 0;
    }
    memcpy(section, row_h, PAIRS);
    section[54] = (uint8_t)locations;
    section[55] = (uint8_t)(locations >> 8);
    for (i = 0; i < count; i++) {
        memcpy(section + PAIRS + PAIR * i, row_h + PAIRS, PAIR);
    }
    put_slots(image, slots);
    put_slots(after, moved);
    put_both(registers, 0x7000);
    answer = treskibben_relocate(section, length, image, sizeof image, 0x7000, &old_start, 1,
                                 &new_start, 1, TRESKIBBEN_AMD64, frame, registers[0],
                                 TRESKIBBEN_REGISTERS);
    free(section);
    sprintf(name, "%u pairs", (unsigned)count);
    return passed(name, expected, answer, memcmp(image, after, sizeof image) == 0);
}

/* Row I with other sizes and offsets of pair 1: how many pointers it is, and how it is refused. */
struct wide {
    uint16_t sizes[2];
    uint8_t offsets[2];
    uint64_t slots[2];
    uint64_t answer[3];
    uint64_t after[2];
};

static const struct wide wides[] = {
    {{16, 16}, {8, 8}, {0x50000, 0}, {0, 0, 3}, {0x90000, 0}},
    {{16, 16}, {8, 8}, {0x50000, 0x50000}, {0, 0, 3}, {0x90000, 0x90000}},
    {{16, 16}, {8, 8}, {0x50000, 0x54e20}, {21, 1, 0}, {0x50000, 0x54e20}},
    {{16, 16}, {8, 4}, {0x50000, 0}, {20, 1, 0}, {0x50000, 0}},
    {{16, 16}, {8, 9}, {0x50000, 0}, {19, 1, 0}, {0x50000, 0}},
    {{24, 24}, {8, 8}, {0x50000, 0}, {19, 1, 0}, {0x50000, 0}},
    {{2040, 2040}, {8, 8}, {0x50000, 0}, {19, 1, 0}, {0x50000, 0}},
    {{2048, 2048}, {8, 8}, {0x50000, 0}, {17, 0, 0}, {0x50000, 0}},
    {{2056, 2056}, {8, 8}, {0x50000, 0}, {18, 1, 0}, {0x50000, 0}},
    {{0, 0}, {8, 8}, {0x50000, 0}, {18, 1, 0}, {0x50000, 0}},
    {{17, 17}, {8, 8}, {0x50000, 0}, {18, 1, 0}, {0x50000, 0}},
    {{16, 8}, {8, 8}, {0x50000, 0}, {18, 1, 0}, {0x50000, 0}},
    {{8, 16}, {8, 8}, {0x50000, 0}, {18, 1, 0}, {0x50000, 0}},
};

static int passes_wide(const struct wide *wide)
{
    static const uint64_t old_start = 0x50000, new_start = 0x90000;
    static const treskibben_frame frame = {0x1020, 9};
    uint8_t section[sizeof row_h], image[8 * SLOTS], after[8 * SLOTS];
    uint64_t registers[2][TRESKIBBEN_REGISTERS];
    treskibben_answer answer;
    char name[32];
    size_t i;

    memcpy(section, row_h, sizeof section);
    for (i = 0; i < 2; i++) {
        uint8_t *location = section + PAIRS + PAIR + LOCATION * i;

        location[2] = (uint8_t)wide->sizes[i];
        location[3] = (uint8_t)(wide->sizes[i] >> 8);
        location[8] = wide->offsets[i];
    }
    put_slots(image, wide->slots);
    put_slots(after, wide->after);
    put_both(registers, 0x7000);
    answer = treskibben_relocate(section, sizeof section, image, sizeof image, 0x7000, &old_start, 1,
                                 &new_start, 1, TRESKIBBEN_AMD64, frame, registers[0],
                                 TRESKIBBEN_REGISTERS);
    sprintf(name, "sizes %u and %u", (unsigned)wide->sizes[0], (unsigned)wide->sizes[1]);
    return passed(name, wide->answer, answer, memcmp(image, after, sizeof image) == 0);
}

int main(void)
{
    size_t count = sizeof rows / sizeof rows[0] + sizeof wides / sizeof wides[0] + 5;
    size_t passed = 0;
    size_t i;

    for (i = 0; i < sizeof rows / sizeof rows[0]; i++) {
        passed += (size_t)passes(&rows[i]);
    }
    for (i = 0; i < sizeof wides / sizeof wides[0]; i++) {
        passed += (size_t)passes_wide(&wides[i]);
    }
    passed += (size_t)passes_with(0, 0);
    passed += (size_t)passes_with(1, 0);
    passed += (size_t)passes_with(255, 0);
    passed += (size_t)passes_with(256, 0);
    passed += (size_t)passes_with(257, 17);
    return tally(passed, count);
}

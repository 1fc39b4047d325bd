/*
 * Moves frames and whole threads of version 1 from C: row I's frame by function and offset, those beside
 * it that are refused, and lists of them.
 */
#include "moves.h"
#include "rows.h"
#include "tally.h"
#include "treskibben.h"

#include <stdio.h>
#include <string.h>

/* Where row H has what the rows change: its number of records, the stack size, the record and its length,
 * and the sizes of the last pair's locations. */
enum { RECORDS = 12, STACK_SIZE = 24, RECORD = 32, RECORD_LENGTH = 80 };
enum { BASE_SIZE = 89, DERIVED_SIZE = 97 };

/* Slots on the stack, of which the first three are row I's frame. */
enum { SLOTS = 6 };

#define FIRST UINT64_C(0x7000)
#define OLD UINT64_C(0x50000)
#define NEW UINT64_C(0x90000)
#define DERIVED UINT64_C(0x4e20) /* how far the second slot points behind its base */
#define HIGH ((uint64_t)1 << 32)

/* What differs from row H: the sizes of the last pair's locations, how many times the record stands
 * there, and whether the stack size is not known. */
struct section {
    uint8_t base_size, derived_size;
    uint8_t records;
    int unknown;
};

#define AS_H {8, 8, 1, 0}

/* A frame and its RSP, the answer to its move, and whether it is moved. */
struct row {
    const char *name;
    struct section section;
    treskibben_frame frame;
    uint64_t rsp;
    uint64_t answer[3];
    int moved;
};

static const struct row rows[] = {
    {"I", AS_H, {0x20, 0}, 0x7000, {0, 0, 2}, 1},
    {"base size 0", {0, 8, 1, 0}, {0x20, 0}, 0x7000, {0, 0, 2}, 1},
    {"derived size 0", {8, 0, 1, 0}, {0x20, 0}, 0x7000, {0, 0, 2}, 1},
    {"sizes 0", {0, 0, 1, 0}, {0x20, 0}, 0x7000, {0, 0, 2}, 1},
    {"base size 16", {16, 8, 1, 0}, {0x20, 0}, 0x7000, {18, 1, 0}, 0},
    {"derived size 255", {8, 255, 1, 0}, {0x20, 0}, 0x7000, {18, 1, 0}, 0},
    {"another offset", AS_H, {0x21, 0}, 0x7000, {10, 0, 0}, 0},
    {"an address", AS_H, {0x1020, 0}, 0x7000, {10, 0, 0}, 0},
    {"an offset of 33 bits", AS_H, {HIGH + 0x20, 0}, 0x7000, {10, 0, 0}, 0},
    {"no such function", AS_H, {0x20, 1}, 0x7000, {10, 0, 0}, 0},
    {"a function of 33 bits", AS_H, {0x20, HIGH}, 0x7000, {10, 0, 0}, 0},
    {"two records", {8, 8, 2, 0}, {0x20, 0}, 0x7000, {15, 0, 0}, 0},
    {"two records, no such function", {8, 8, 2, 0}, {0x20, 1}, 0x7000, {10, 0, 0}, 0},
    {"stack size unknown", {8, 8, 1, 1}, {0x20, 0}, 0x7000, {16, 0, 0}, 0},
    {"outside", AS_H, {0x20, 0}, 0x6fff, {16, 0, 0}, 0},
    {"base of no object", AS_H, {0x20, 0}, 0x7008, {21, 0, 0}, 0},
};

/* Row I's frame, and one of a function that isn't there. */
#define HERE 0x20, 0
#define NOWHERE 0x20, 1

/* A list of frames and how many numbers of it are lent, their RSPs, the answer, and whether they are moved. As
 * many registers are lent as two numbers make frames. */
struct list {
    const char *name;
    size_t length;
    uint64_t numbers[6];
    uint64_t rsp[3];
    uint64_t answer[3];
    int moved;
};

static const struct list lists[] = {
    {"none", 0, {0}, {0}, {0, 0, 0}, 0},
    {"one", 2, {HERE}, {0x7000}, {0, 0, 2}, 1},
    {"two", 4, {HERE, HERE}, {0x7018, 0x7000}, {0, 0, 4}, 1},
    {"one number", 1, {HERE}, {0x7000}, {25, 0, 0}, 0},
    {"three numbers", 3, {HERE, HERE}, {0x7000, 0x7018}, {25, 0, 0}, 0},
    {"five numbers", 5, {HERE, HERE, 0}, {0x7000, 0x7018}, {25, 0, 0}, 0},
    {"no such function", 4, {HERE, NOWHERE}, {0x7000, 0x7000}, {10, 1, 0}, 0},
    {"no such function first", 4, {NOWHERE, HERE}, {0x7000, 0x7008}, {10, 0, 0}, 0},
    {"outside", 6, {HERE, HERE, HERE}, {0x7000, 0x7018, 0x7019}, {16, 2, 0}, 0},
    {"one twice", 4, {HERE, HERE}, {0x7000, 0x7000}, {26, 1, 0}, 0},
    {"one byte shared", 4, {HERE, HERE}, {0x7000, 0x7017}, {26, 1, 0}, 0},
};

static const uint64_t old_start = OLD, new_start = NEW;

/* Writes the section, and gives its length. */
static size_t build(uint8_t *bytes, const struct section *section)
{
    memcpy(bytes, row_h_1, sizeof row_h_1);
    memcpy(bytes + sizeof row_h_1, row_h_1 + RECORD, RECORD_LENGTH);
    bytes[RECORDS] = section->records;
    bytes[BASE_SIZE] = section->base_size;
    bytes[DERIVED_SIZE] = section->derived_size;
    if (section->unknown) {
        memset(bytes + STACK_SIZE, 255, 8);
    }
    return RECORD + (size_t)RECORD_LENGTH * section->records;
}

/* The stack with row I's frame and zeros. */
static void put_stack(uint8_t *image, uint64_t base)
{
    memset(image, 0, 8 * SLOTS);
    put(image, 7);
    put(image + 8, base);
    put(image + 16, base + DERIVED);
}

static int passes(const struct row *row)
{
    uint8_t section[sizeof row_h_1 + RECORD_LENGTH], image[8 * SLOTS], after[8 * SLOTS];
    const size_t length = build(section, &row->section);
    uint64_t registers[TRESKIBBEN_REGISTERS];
    treskibben_answer answer;

    put_stack(image, OLD);
    put_stack(after, row->moved ? NEW : OLD);
    fill_registers(registers, 1);
    put_pointers(registers, TRESKIBBEN_AMD64, 0, row->rsp);
    answer = treskibben_relocate(section, length, image, sizeof image, FIRST, &old_start, 1,
                                 &new_start, 1, TRESKIBBEN_AMD64, row->frame, registers,
                                 TRESKIBBEN_REGISTERS);
    return passed(row->name, row->answer, answer, memcmp(image, after, sizeof image) == 0);
}

static int list_passes(const struct list *list)
{
    uint8_t image[8 * SLOTS], after[8 * SLOTS];
    uint64_t registers[3 * TRESKIBBEN_REGISTERS];
    treskibben_answer answer;
    size_t i;

    put_stack(image, OLD);
    put_stack(after, list->moved ? NEW : OLD);
    fill_registers(registers, 3);
    for (i = 0; i < 3; i++) {
        put_pointers(registers + TRESKIBBEN_REGISTERS * i, TRESKIBBEN_AMD64, 0, list->rsp[i]);
    }
    answer = treskibben_thread(row_h_1, sizeof row_h_1, image, sizeof image, FIRST, &old_start, 1,
                               &new_start, 1, TRESKIBBEN_AMD64, list->numbers, list->length,
                               registers, TRESKIBBEN_REGISTERS * (list->length / 2));
    return passed(list->name, list->answer, answer, memcmp(image, after, sizeof image) == 0);
}

int main(void)
{
    const size_t frames = sizeof rows / sizeof rows[0], threads = sizeof lists / sizeof lists[0];
    size_t passed = 0;
    size_t i;

    for (i = 0; i < frames; i++) {
        passed += (size_t)passes(&rows[i]);
    }
    for (i = 0; i < threads; i++) {
        passed += (size_t)list_passes(&lists[i]);
    }
    return tally(passed, frames + threads);
}

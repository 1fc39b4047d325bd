/*
 * Moves frames of both machines from C, one by one and as threads: each machine's registers on the other's
 * section, and numbers that are no machine.
 */
#include "moves.h"
#include "rows.h"
#include "tally.h"
#include "treskibben.h"

#include <stdio.h>
#include <string.h>

/* Where the register of row H's first pair stands, the bytes of a location, and the same of version 1. */
enum { REGISTER = 96, LOCATION = 12, REGISTER_1 = 74, LOCATION_1 = 8, SLOTS = 3 };

#define FIRST UINT64_C(0x7000)
#define ABOVE 16 /* how far the frame pointer is above the stack pointer */
#define OLD UINT64_C(0x50000)
#define NEW UINT64_C(0x90000)

/* A call: the machine, the register of all four slots and of the last alone, the first address of the
 * image, whether the section is cut, and the answer. */
struct row {
    uint64_t machine;
    uint8_t reg, last;
    uint64_t first;
    int cut;
    uint64_t answer[3];
};

#define MOVED {0, 0, 2}
#define FORM(pair) {18, pair, 0}

static const struct row rows[] = {
    {TRESKIBBEN_AMD64, 7, 7, FIRST, 0, MOVED},
    {TRESKIBBEN_AMD64, 6, 7, FIRST, 0, MOVED},
    {TRESKIBBEN_AMD64, 7, 6, FIRST, 0, MOVED},
    {TRESKIBBEN_AMD64, 7, 29, FIRST, 0, FORM(1)},
    {TRESKIBBEN_AMD64, 7, 31, FIRST, 0, FORM(1)},
    {TRESKIBBEN_AMD64, 29, 7, FIRST, 0, FORM(0)},
    {TRESKIBBEN_AMD64, 31, 31, FIRST, 0, FORM(0)},
    {TRESKIBBEN_AARCH64, 31, 31, FIRST, 0, MOVED},
    {TRESKIBBEN_AARCH64, 29, 31, FIRST, 0, MOVED},
    {TRESKIBBEN_AARCH64, 31, 29, FIRST, 0, MOVED},
    {TRESKIBBEN_AARCH64, 31, 6, FIRST, 0, FORM(1)},
    {TRESKIBBEN_AARCH64, 31, 7, FIRST, 0, FORM(1)},
    {TRESKIBBEN_AARCH64, 6, 31, FIRST, 0, FORM(0)},
    {TRESKIBBEN_AARCH64, 7, 7, FIRST, 0, FORM(0)},
    {TRESKIBBEN_AARCH64, 30, 31, FIRST, 0, FORM(0)},
    {2, 7, 7, FIRST, 0, {33, 0, 0}},
    {2, 31, 31, UINT64_MAX, 0, {33, 0, 0}},
    {3, 7, 7, FIRST, 0, {33, 0, 0}},
    {256, 7, 7, FIRST, 0, {33, 0, 0}},
    {(uint64_t)1 << 32, 7, 7, FIRST, 0, {33, 0, 0}},
    {((uint64_t)1 << 32) + 1, 31, 31, FIRST, 0, {33, 0, 0}},
    {UINT64_MAX, 7, 7, FIRST, 0, {33, 0, 0}},
    {2, 7, 7, FIRST, 1, {4, 0, 0}},
    {UINT64_MAX, 7, 7, UINT64_MAX, 1, {4, 0, 0}},
    {TRESKIBBEN_AARCH64, 31, 31, UINT64_MAX, 0, {13, 0, 0}},
};

/* The calls: of one frame, of a thread, and of a thread with an index, which version 1 has none of. */
enum { FRAME, THREAD, THREAD_BY_INDEX, CALLS };

static const uint64_t old_start = OLD, new_start = NEW, index_of_h[2] = {0x1020, 0};

static treskibben_answer call(int which, const struct row *row, const uint8_t *section, size_t length,
                              uint8_t *image, uint64_t address, uint64_t *registers)
{
    const size_t bytes = 8 * SLOTS;
    treskibben_frame frame;

    frame.address = address;
    frame.function = 0;
    if (which == FRAME) {
        return treskibben_relocate(section, length, image, bytes, row->first, &old_start, 1,
                                   &new_start, 1, row->machine, frame, registers,
                                   TRESKIBBEN_REGISTERS);
    }
    if (which == THREAD) {
        return treskibben_thread(section, length, image, bytes, row->first, &old_start, 1, &new_start,
                                 1, row->machine, (const uint64_t *)&frame, 2, registers,
                                 TRESKIBBEN_REGISTERS);
    }
    return treskibben_thread_by_index(section, length, image, bytes, row->first, &old_start, 1,
                                      &new_start, 1, row->machine, (const uint64_t *)&frame, 2,
                                      registers, TRESKIBBEN_REGISTERS, index_of_h, 2);
}

static void put_slots(uint8_t *image, uint64_t base)
{
    put(image, 7);
    put(image + 8, base);
    put(image + 16, base + 0x4e20);
}

/* The section with the row's registers: row H, or the same as version 1 has it. Slots are counted from a
 * frame pointer by offsets that are less by so much as it is above. Gives the section's length. */
static size_t build(uint8_t *section, const struct row *row, int older)
{
    static const int slots[4] = {8, 8, 8, 16};
    const size_t length = older ? sizeof row_h_1 : sizeof row_h;
    const size_t step = older ? LOCATION_1 : LOCATION;
    uint8_t *at = section + (older ? REGISTER_1 : REGISTER);
    size_t i, byte;

    memcpy(section, older ? row_h_1 : row_h, length);
    for (i = 0; i < 4; i++, at += step) {
        const uint8_t reg = i == 3 ? row->last : row->reg;
        const uint32_t offset = (uint32_t)(slots[i] - (reg == 6 || reg == 29 ? ABOVE : 0));

        at[0] = reg;
        for (byte = 0; byte < 4; byte++) {
            at[(older ? 2 : 4) + byte] = (uint8_t)(offset >> 8 * byte);
        }
    }
    return length - (row->cut ? 1 : 0);
}

/* A frame is judged by itself: in a thread its place is its position, 0. A cut section has the refusal of
 * its record, whose first byte is the place; version 1 has no index. */
static int passes(const struct row *row, int which, int older)
{
    uint8_t section[sizeof row_h], image[8 * SLOTS], after[8 * SLOTS];
    const size_t length = build(section, row, older);
    uint64_t expected[3], registers[2][TRESKIBBEN_REGISTERS];
    treskibben_answer answer;
    char name[64];
    int same;

    memcpy(expected, row->answer, sizeof expected);
    if (which != FRAME && expected[0] == 18) {
        expected[1] = 0;
    }
    if (expected[0] == 4) {
        expected[1] = older ? 32 : 40;
    }
    if (which == THREAD_BY_INDEX && older && (expected[0] == 0 || expected[0] == 18)) {
        expected[0] = 27;
        expected[1] = expected[2] = 0;
    }
    put_slots(image, OLD);
    put_slots(after, expected[0] == 0 ? NEW : OLD);
    sprintf(name, "machine %lx, registers %u and %u, call %d", (unsigned long)row->machine,
            (unsigned)row->reg, (unsigned)row->last, which);
    fill_registers(registers[0], 2);
    put_pointers(registers[0], row->machine, FIRST + ABOVE, FIRST);
    put_pointers(registers[1], row->machine, FIRST + ABOVE, FIRST);
    answer = call(which, row, section, length, image, older ? 0x20 : 0x1020, registers[0]);
    same = memcmp(image, after, sizeof image) == 0 &&
           memcmp(registers[0], registers[1], sizeof registers[0]) == 0;
    return passed(name, expected, answer, same);
}

int main(void)
{
    const size_t count = sizeof rows / sizeof rows[0];
    size_t passed = 0;
    size_t i;

    for (i = 0; i < count; i++) {
        int which;

        for (which = FRAME; which < CALLS; which++) {
            passed += (size_t)passes(&rows[i], which, 0);
            passed += (size_t)passes(&rows[i], which, 1);
        }
    }
    return tally(passed, 2 * CALLS * count);
}

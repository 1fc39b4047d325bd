/*
 * Moves pointers in registers from C: every register on both machines and in both versions, the forms that are
 * none, lists of registers of every length, pairs of memory and register in any mix, and threads of frames with
 * their own.
 */
#include "moves.h"
#include "pairs.h"
#include "rows.h"
#include "tally.h"
#include "treskibben.h"

#include <stdio.h>
#include <string.h>

enum { SLOTS = 3 };

#define FIRST UINT64_C(0x7000)
#define OLD UINT64_C(0x50000)
#define NEW UINT64_C(0x90000)
#define DISTANCE UINT64_C(0x4e20)

static const uint64_t old_starts[2] = {OLD, 0x60000}, new_starts[2] = {NEW, 0x30000};

/* What a move is lent: the image, as words, and the registers, with room for one more. */
struct lent {
    uint64_t words[SLOTS];
    uint64_t registers[TRESKIBBEN_REGISTERS + 1];
};

static void begin(struct lent *lent, uint64_t machine)
{
    static const uint64_t words[SLOTS] = {7, OLD, OLD + DISTANCE};

    memcpy(lent->words, words, sizeof words);
    fill_registers(lent->registers, 1);
    lent->registers[TRESKIBBEN_REGISTERS] = OLD;
    put_pointers(lent->registers, machine, 0, FIRST);
}

/* Moves row I's frame on what is lent, with so many registers, and compares it with `after`. */
static int moves(const char *name, const struct location *locations, int older, uint64_t machine,
                 size_t registers, struct lent *lent, const struct lent *after, const uint64_t *expected)
{
    uint8_t section[sizeof row_h], image[8 * SLOTS], images[8 * SLOTS];
    const size_t length = build(section, locations, older);
    treskibben_frame frame;
    treskibben_answer answer;
    size_t i;
    int same;

    frame.address = older ? 0x20 : 0x1020;
    frame.function = 0;
    for (i = 0; i < SLOTS; i++) {
        put(image + 8 * i, lent->words[i]);
        put(images + 8 * i, after->words[i]);
    }
    answer = treskibben_relocate(section, length, image, sizeof image, FIRST, old_starts, 2,
                                 new_starts, 2, machine, frame, lent->registers, registers);
    same = memcmp(image, images, sizeof image) == 0 &&
           memcmp(lent->registers, after->registers, sizeof after->registers) == 0;
    return passed(name, expected, answer, same);
}

/* Whether a register is a slot on a machine. */
static int is_slot(uint64_t machine, unsigned reg)
{
    return machine == TRESKIBBEN_AMD64 ? reg < 16 && reg != 6 && reg != 7
                                       : reg < 32 && reg != 29 && reg != 31;
}

/* The pairs (register, register) and (register, stack pointer + 16), where the register is a slot. */
static int passes_register(uint64_t machine, unsigned reg, int older)
{
    const uint8_t sp = stack_pointers[machine];
    const struct location own = {REGISTER, 8, (uint8_t)reg, 0}, memory = {MEMORY, 8, sp, 16};
    const int slot = is_slot(machine, reg);
    const uint64_t expected[3] = {slot ? 0 : 18, 0, slot ? 2 : 0};
    struct location locations[LOCATIONS];
    struct lent lent, after;
    char name[48];

    locations[0] = locations[1] = locations[2] = own;
    locations[3] = memory;
    begin(&lent, machine);
    if (slot) {
        lent.registers[reg] = OLD;
    }
    after = lent;
    if (slot) {
        after.registers[reg] = NEW;
        after.words[2] = NEW + DISTANCE;
    }
    sprintf(name, "register %u of machine %u", reg, (unsigned)machine);
    return moves(name, locations, older, machine, TRESKIBBEN_REGISTERS, &lent, &after, expected);
}

/* A second pair in RBX, or in X3, and how it is answered in each version. */
struct form {
    struct location base, derived;
    uint64_t answers[2]; /* of version 3 and of version 1 */
};

#define RBX {REGISTER, 8, 3, 0}

static const struct form forms[] = {
    {RBX, RBX, {0, 0}},
    {{REGISTER, 0, 3, 0}, {REGISTER, 0, 3, 0}, {18, 0}},
    {{REGISTER, 0, 3, 0}, RBX, {18, 0}},
    {RBX, {REGISTER, 0, 3, 0}, {18, 0}},
    {{REGISTER, 16, 3, 0}, {REGISTER, 16, 3, 0}, {18, 18}},
    {RBX, {REGISTER, 16, 3, 0}, {18, 18}},
    {{REGISTER, 4, 3, 0}, {REGISTER, 4, 3, 0}, {18, 18}},
    {RBX, {REGISTER, 8, 3, 1}, {18, 18}},
    {{REGISTER, 8, 3, 8}, RBX, {18, 18}},
    {{DIRECT, 8, 3, 0}, RBX, {18, 18}},
    {RBX, {DIRECT, 8, 3, 0}, {18, 18}},
    {RBX, {CONSTANT, 8, 3, 0}, {18, 18}},
    {{CONSTANT, 8, 3, 0}, RBX, {18, 18}},
    {RBX, {MEMORY, 8, 3, 16}, {18, 18}},
};

/* The first pair is the slot above the stack pointer's own. */
static int passes_form(const struct form *form, uint64_t machine, int older)
{
    const uint8_t sp = stack_pointers[machine];
    const struct location memory = {MEMORY, 8, sp, 8};
    const uint64_t number = form->answers[older];
    const uint64_t expected[3] = {number, number == 0 ? 0 : 1, number == 0 ? 2 : 0};
    struct location locations[LOCATIONS];
    struct lent lent, after;

    locations[0] = locations[1] = memory;
    locations[2] = form->base;
    locations[3] = form->derived;
    begin(&lent, machine);
    lent.registers[3] = OLD;
    after = lent;
    if (number == 0) {
        after.words[1] = after.registers[3] = NEW;
    }
    return moves("a form", locations, older, machine, TRESKIBBEN_REGISTERS, &lent, &after, expected);
}

/* Two pairs of AMD64 in a mix: what RBX and R12 hold, the answer, and what they and the last slot hold then. */
struct mix {
    const char *name;
    struct location locations[LOCATIONS];
    uint64_t rbx, r12;
    uint64_t answer[3];
    uint64_t after[3];
};

#define R12 {REGISTER, 8, 12, 0}
#define SLOT {MEMORY, 8, 7, 16}
#define BASE {MEMORY, 8, 7, 8}
#define LAST (OLD + DISTANCE)
#define MOVED (NEW + DISTANCE)

static const struct mix mixes[] = {
    {"base in memory", {BASE, R12, BASE, SLOT}, 1, OLD + 8, {0, 0, 2}, {1, NEW + 8, MOVED}},
    {"base in a register", {RBX, R12, RBX, SLOT}, OLD, 5, {0, 0, 2}, {OLD, NEW - OLD + 5, MOVED}},
    {"a base that is derived", {RBX, R12, R12, RBX}, OLD, 0x60000, {0, 0, 2},
     {OLD - 0x30000, 0x60000 + NEW - OLD, LAST}},
    {"one derived twice", {RBX, R12, BASE, R12}, OLD, OLD + 1, {0, 0, 2}, {OLD, NEW + 1, LAST}},
    {"one derived from two", {RBX, R12, BASE, R12}, 0x60000, OLD, {20, 1, 0}, {0x60000, OLD, LAST}},
    {"a base of 0", {RBX, R12, RBX, SLOT}, 0, 9, {0, 0, 2}, {0, 9, LAST}},
    {"no object", {BASE, SLOT, RBX, RBX}, OLD + 8, 0, {21, 1, 0}, {OLD + 8, 0, LAST}},
    {"outside", {RBX, RBX, RBX, {MEMORY, 8, 7, 17}}, OLD, 0, {19, 1, 0}, {OLD, 0, LAST}},
    {"an offset of register 12", {RBX, RBX, RBX, {MEMORY, 8, 7, 12}}, OLD, 0, {0, 0, 2},
     {NEW, 0, 0}},
    {"wider than a register", {RBX, RBX, {MEMORY, 16, 7, 8}, R12}, OLD, 0, {18, 1, 0}, {OLD, 0, LAST}},
};

static int passes_mix(const struct mix *mix)
{
    struct lent lent, after;

    begin(&lent, TRESKIBBEN_AMD64);
    lent.registers[3] = mix->rbx;
    lent.registers[12] = mix->r12;
    after = lent;
    after.registers[3] = mix->after[0];
    after.registers[12] = mix->after[1];
    after.words[2] = mix->after[2];
    if (mix->locations[3].offset == 12) {
        /* The slot lies across two words. */
        const uint64_t old = lent.words[1] >> 32 | lent.words[2] << 32, moved = old + NEW - OLD;

        after.words[1] = (lent.words[1] & UINT32_MAX) | moved << 32;
        after.words[2] = (lent.words[2] & ~(uint64_t)UINT32_MAX) | moved >> 32;
    }
    return moves(mix->name, mix->locations, 0, TRESKIBBEN_AMD64, TRESKIBBEN_REGISTERS, &lent, &after,
                 mix->answer);
}

/* A list of another length is refused before the frame is looked at, whatever it holds. */
static int passes_length(size_t length, int older)
{
    static const struct location locations[LOCATIONS] = {RBX, RBX, RBX, SLOT};
    const uint64_t expected[3] = {length == 32 ? 0 : 25, 0, length == 32 ? 2 : 0};
    struct lent lent, after;

    begin(&lent, TRESKIBBEN_AMD64);
    lent.registers[3] = OLD;
    after = lent;
    if (length == 32) {
        after.registers[3] = NEW;
        after.words[2] = MOVED;
    }
    return moves("a length", locations, older, TRESKIBBEN_AMD64, length, &lent, &after, expected);
}

/* Two frames on one stack, the second with an RBX that is `other`: each is moved with its own registers, or
 * none is. */
static int passes_thread(uint64_t other, int by_index, const uint64_t *expected)
{
    static const struct location locations[LOCATIONS] = {RBX, R12, RBX, RBX};
    static const uint64_t frames[4] = {0x1020, 0, 0x1020, 0}, index[2] = {0x1020, 0};
    uint8_t section[sizeof row_h], image[48] = {0}, after[48] = {0};
    uint64_t registers[2][2 * TRESKIBBEN_REGISTERS];
    const size_t length = build(section, locations, 0);
    uint64_t *own = registers[0], *then = registers[1] + TRESKIBBEN_REGISTERS;
    treskibben_answer answer;
    int same;

    fill_registers(registers[0], 2);
    put_pointers(own, TRESKIBBEN_AMD64, 0, FIRST);
    put_pointers(own + TRESKIBBEN_REGISTERS, TRESKIBBEN_AMD64, 0, FIRST + 24);
    own[3] = OLD;
    own[12] = OLD + 1;
    own[TRESKIBBEN_REGISTERS + 3] = other;
    own[TRESKIBBEN_REGISTERS + 12] = other + 2;
    memcpy(registers[1], registers[0], sizeof registers[0]);
    if (expected[0] == 0) {
        registers[1][3] = NEW;
        registers[1][12] = NEW + 1;
        then[3] = 0x30000;
        then[12] = 0x30002;
    }
    answer = by_index
                 ? treskibben_thread_by_index(section, length, image, sizeof image, FIRST, old_starts, 2,
                                              new_starts, 2, TRESKIBBEN_AMD64, frames, 4, own, 64,
                                              index, 2)
                 : treskibben_thread(section, length, image, sizeof image, FIRST, old_starts, 2,
                                     new_starts, 2, TRESKIBBEN_AMD64, frames, 4, own, 64);
    same = memcmp(registers[0], registers[1], sizeof registers[0]) == 0 &&
           memcmp(image, after, sizeof image) == 0;
    return passed("thread", expected, answer, same);
}

int main(void)
{
    static const uint64_t both[3] = {0, 0, 4}, second[3] = {21, 1, 0};
    const size_t count_forms = sizeof forms / sizeof forms[0];
    const size_t count_mixes = sizeof mixes / sizeof mixes[0];
    size_t passed = 0, count = 0, i;
    uint64_t machine;
    unsigned reg;
    int older;

    for (older = 0; older < 2; older++) {
        for (machine = 0; machine < 2; machine++) {
            for (reg = 0; reg < 256; reg++, count++) {
                passed += (size_t)passes_register(machine, reg, older);
            }
            for (i = 0; i < count_forms; i++, count++) {
                passed += (size_t)passes_form(&forms[i], machine, older);
            }
        }
        for (i = 0; i <= TRESKIBBEN_REGISTERS + 1; i++, count++) {
            passed += (size_t)passes_length(i, older);
        }
    }
    for (i = 0; i < count_mixes; i++, count++) {
        passed += (size_t)passes_mix(&mixes[i]);
    }
    for (i = 0; i < 2; i++, count += 2) {
        passed += (size_t)passes_thread(0x60000, (int)i, both);
        passed += (size_t)passes_thread(0x60008, (int)i, second);
    }
    return tally(passed, count);
}

/*
 * The bench controller from C: row I's frame is moved alone and as a thread, each way to break the profile is
 * 50 at its record, sections of 64 records pass and of 65 don't, and the refusals come in their order. A
 * refusal must leave all that is lent as it was, and what isn't 50 is what the call without the controller
 * answers and leaves.
 */
#include "moves.h"
#include "pairs.h"
#include "rows.h"
#include "tally.h"
#include "treskibben.h"

#include <stdio.h>
#include <string.h>

enum { SLOTS = 3, MOST_RECORDS = 64, RECORDS = MOST_RECORDS + 2 };

/* Where row H's record begins, its bytes, and where its instruction offset and its third constant are in it. */
enum { RECORD = 40, RECORD_LENGTH = sizeof row_h - RECORD, OFFSET = 8, THIRD = 40 };

#define FIRST UINT64_C(0x7000)
#define OLD UINT64_C(0x50000)
#define NEW UINT64_C(0x90000)
#define DISTANCE UINT64_C(0x4e20)

/* The editions: one for the product, one of AArch64, one of version 1, one that is retired, and one of a single
 * pointer. */
enum { RIGHT = 1, AARCH64, VERSION_1, RETIRED, FEW };

/* All that a call is lent. Lists have room for one number more. */
struct call {
    treskibben_editions store;
    uint64_t edition;
    uint8_t section[RECORD + RECORDS * RECORD_LENGTH];
    size_t length;
    uint8_t image[8 * SLOTS];
    uint64_t first;
    uint64_t old_start, new_start;
    size_t old_count;
    uint64_t machine;
    uint64_t frame[2];
    uint64_t registers[TRESKIBBEN_REGISTERS + 1];
    size_t registers_length;
};

static treskibben_editions make(treskibben_editions store, uint64_t most, uint64_t machine,
                                uint64_t version_1, uint64_t version_3)
{
    const treskibben_settings settings = {most, machine, version_1, version_3};

    return treskibben_edition_make(store, settings).store;
}

/* The locations of row H's pairs. */
static const struct location row_h_pairs[LOCATIONS] = {
    {MEMORY, 8, 7, 8}, {MEMORY, 8, 7, 8}, {MEMORY, 8, 7, 8}, {MEMORY, 8, 7, 16}};

/* Row I, for a section of so many records like row H's, each one byte behind the one before. */
static void begin(struct call *call, size_t records)
{
    static const uint64_t words[SLOTS] = {7, OLD, OLD + DISTANCE};
    uint8_t one[sizeof row_h];
    size_t i;

    memset(call, 0, sizeof *call);
    call->store = make(call->store, 256, 0, 0, 1);
    call->store = make(call->store, 256, 1, 1, 1);
    call->store = make(call->store, 256, 0, 1, 0);
    call->store = make(call->store, 256, 0, 0, 1);
    call->store = make(call->store, 1, 0, 0, 1);
    call->store = treskibben_edition_retire(call->store, RETIRED).store;
    call->edition = RIGHT;
    build(one, row_h_pairs, 0);
    memcpy(call->section, one, RECORD);
    call->section[12] = call->section[32] = (uint8_t)records;
    for (i = 0; i < records; i++) {
        uint8_t *const record = call->section + RECORD + i * RECORD_LENGTH;

        memcpy(record, one + RECORD, RECORD_LENGTH);
        record[OFFSET] = (uint8_t)(0x20 + i);
    }
    call->length = RECORD + records * RECORD_LENGTH;
    for (i = 0; i < SLOTS; i++) {
        put(call->image + 8 * i, words[i]);
    }
    call->first = FIRST;
    call->old_start = OLD;
    call->new_start = NEW;
    call->old_count = 1;
    call->frame[0] = 0x1020;
    fill_registers(call->registers, 1);
    put_pointers(call->registers, 0, 0, FIRST);
    put_pointers(call->registers, 1, 0, FIRST);
    call->registers_length = TRESKIBBEN_REGISTERS;
}

/* The move of the frame, and of a thread of it alone, by the controller or without it. */
static treskibben_answer move(struct call *call, int thread, int controlled)
{
    treskibben_answer (*const one)(treskibben_editions, uint64_t, const uint8_t *, size_t, uint8_t *,
                                   size_t, uint64_t, const uint64_t *, size_t, const uint64_t *,
                                   size_t, uint64_t, treskibben_frame, uint64_t *, size_t) =
        controlled ? treskibben_controller_relocate : treskibben_edition_relocate;
    treskibben_answer (*const many)(treskibben_editions, uint64_t, const uint8_t *, size_t, uint8_t *,
                                    size_t, uint64_t, const uint64_t *, size_t, const uint64_t *,
                                    size_t, uint64_t, const uint64_t *, size_t, uint64_t *, size_t) =
        controlled ? treskibben_controller_thread : treskibben_edition_thread;
    const treskibben_frame frame = {call->frame[0], call->frame[1]};

    if (thread) {
        return many(call->store, call->edition, call->section, call->length, call->image,
                    sizeof call->image, call->first, &call->old_start, call->old_count,
                    &call->new_start, 1, call->machine, call->frame, 2, call->registers,
                    call->registers_length);
    }
    return one(call->store, call->edition, call->section, call->length, call->image,
               sizeof call->image, call->first, &call->old_start, call->old_count, &call->new_start,
               1, call->machine, frame, call->registers, call->registers_length);
}

/* Whether the frame, and the thread of it, is answered so, and moved where it is accepted. In a thread the
 * place of a frame's own refusal is its position, 0. */
static int answers(const char *name, const struct call *call, const uint64_t *expected)
{
    int thread;

    for (thread = 0; thread < 2; thread++) {
        const int own = expected[0] >= 10 && expected[0] <= 21;
        const uint64_t told[3] = {expected[0], thread && own ? 0 : expected[1], expected[2]};
        struct call copy, after, base;
        treskibben_answer answer, plain;

        memcpy(&copy, call, sizeof copy);
        memcpy(&after, call, sizeof after);
        memcpy(&base, call, sizeof base);
        if (expected[0] == 0) {
            put(after.image + 8, NEW);
            put(after.image + 16, NEW + DISTANCE);
        }
        answer = move(&copy, thread, 1);
        if (!passed(name, told, answer, memcmp(&copy, &after, sizeof copy) == 0)) {
            return 0;
        }
        plain = move(&base, thread, 0);
        if (expected[0] != 50 && !passed(name, told, plain, memcmp(&base, &after, sizeof base) == 0)) {
            return 0;
        }
    }
    return 1;
}

/* Whether the section is checked so. */
static int checks(const char *name, const struct call *call, uint64_t number, uint64_t place)
{
    const uint64_t expected[3] = {number, place, 0};
    struct call copy;
    treskibben_answer answer;

    memcpy(&copy, call, sizeof copy);
    answer = treskibben_controller_check(copy.section, copy.length);
    return passed(name, expected, answer, memcmp(&copy, call, sizeof copy) == 0);
}

/* Sections of up to 66 records: number 64 is a breach. */
static int passes_records(void)
{
    size_t records;

    for (records = 1; records <= RECORDS; records++) {
        const int kept = records <= MOST_RECORDS;
        const uint64_t expected[3] = {kept ? 0 : 50, kept ? 0 : MOST_RECORDS, kept ? 2 : 0};
        struct call call;

        begin(&call, records);
        if (!answers("records", &call, expected) ||
            !checks("records", &call, expected[0], expected[1])) {
            return 0;
        }
    }
    return 1;
}

/* Ways to break the profile in one record. */
enum breach {
    NO_STATEPOINT,
    LIVE_OUT,
    OTHER_POINTER,
    STACK_POINTER,
    SIZES,
    POINTERS_17,
    EQUAL,
    FALLING,
    BREACHES
};

static void break_by(struct call *call, size_t number, enum breach breach)
{
    uint8_t *const record = call->section + RECORD + number * RECORD_LENGTH;
    uint8_t *const pair = record + PAIRS - RECORD;

    switch (breach) {
    case NO_STATEPOINT: record[THIRD] = REGISTER; break;
    /* The live-out stands where the padding after none was. */
    case LIVE_OUT: record[RECORD_LENGTH - 6] = 1; break;
    case OTHER_POINTER: pair[4] = 31; break;
    case STACK_POINTER: pair[0] = REGISTER, pair[8] = 0; break;
    case SIZES: pair[2] = 16; break;
    case POINTERS_17: pair[2] = pair[LOCATION + 2] = 128; break;
    case EQUAL: record[OFFSET]--; break;
    case FALLING: record[OFFSET] = 1; break;
    case BREACHES: break;
    }
}

/* Each breach in each record but the first, which is the frame's, and with each other one in a later record. */
static int passes_breaches(void)
{
    enum { COUNT = 4 };
    size_t number, later;
    int one, two;

    for (number = 1; number < COUNT; number++) {
        for (later = number; later < COUNT; later++) {
            for (one = 0; one < BREACHES; one++) {
                for (two = 0; two < BREACHES; two++) {
                    const uint64_t expected[3] = {50, number, 0};
                    struct call call;

                    begin(&call, COUNT);
                    break_by(&call, number, (enum breach)one);
                    if (later > number) {
                        break_by(&call, later, (enum breach)two);
                    }
                    if (!answers("a breach", &call, expected) ||
                        !checks("a breach", &call, 50, number)) {
                        return 0;
                    }
                }
            }
        }
    }
    return 1;
}

/* The first record's own breaches, at 0; 16 pointers are none, and slots outside or in each other's way are not
 * either. */
static int passes_first_record(void)
{
    static const uint64_t breach[3] = {50, 0, 0}, outside[3] = {19, 0, 0}, collision[3] = {20, 1, 0};
    struct call call;
    int one;

    for (one = 0; one < EQUAL; one++) {
        begin(&call, 1);
        break_by(&call, 0, (enum breach)one);
        if (!answers("a breach", &call, breach) || !checks("a breach", &call, 50, 0)) {
            return 0;
        }
    }
    begin(&call, 1);
    call.section[PAIRS + 2] = call.section[PAIRS + LOCATION + 2] = 120;
    if (!answers("16 pointers", &call, outside) || !checks("16 pointers", &call, 0, 0)) {
        return 0;
    }
    begin(&call, 1);
    call.section[PAIRS + 3 * LOCATION + 8] = 12;
    return answers("a collision", &call, collision) && checks("a collision", &call, 0, 0);
}

/* What is changed of row I, with a breach of record 1 or without, and what is answered. */
struct row {
    const char *name;
    uint64_t edition;
    int older, cut, broken;
    uint64_t machine;
    int top, table;
    size_t registers_length;
    uint64_t address;
    uint64_t expected[3];
};

static const struct row rows[] = {
    {"row I", RIGHT, 0, 0, 0, 0, 0, 0, 32, 0x1020, {0, 0, 2}},
    {"31 first", RETIRED, 0, 1, 1, 1, 1, 1, 31, 0, {31, 0, 0}},
    {"31 of edition 0", 0, 1, 0, 1, 2, 1, 1, 31, 0, {31, 0, 0}},
    {"31 of a wide edition", UINT64_C(0x100000001), 0, 0, 0, 0, 0, 0, 32, 0x1020, {31, 0, 0}},
    {"4 before 50", RIGHT, 0, 1, 1, 1, 1, 1, 31, 0, {4, 152, 0}},
    {"4 before 33", AARCH64, 0, 1, 0, 0, 1, 1, 31, 0, {4, 152, 0}},
    {"the version", RIGHT, 1, 0, 0, 0, 1, 1, 31, 0, {50, 0, 0}},
    {"the version, allowed", VERSION_1, 1, 0, 0, 0, 0, 0, 32, 0x20, {50, 0, 0}},
    {"the machine", RIGHT, 0, 0, 1, 1, 1, 1, 31, 0, {50, 0, 0}},
    {"the machine, allowed", AARCH64, 0, 0, 0, 1, 0, 0, 32, 0x1020, {50, 0, 0}},
    {"no machine", RIGHT, 0, 0, 0, 2, 0, 0, 32, 0x1020, {50, 0, 0}},
    {"no machine", RIGHT, 0, 0, 1, UINT64_C(0x100000000), 0, 0, 32, 0x1020, {50, 0, 0}},
    {"no machine", RIGHT, 0, 0, 0, UINT64_MAX, 0, 0, 32, 0x1020, {50, 0, 0}},
    {"50 before 33", AARCH64, 0, 0, 1, 0, 1, 1, 31, 0, {50, 1, 0}},
    {"50 before 33", VERSION_1, 0, 0, 1, 0, 1, 1, 31, 0, {50, 1, 0}},
    {"50 before 13", RIGHT, 0, 0, 1, 0, 1, 1, 31, 0, {50, 1, 0}},
    {"50 before 17", FEW, 0, 0, 1, 0, 0, 0, 32, 0x1020, {50, 1, 0}},
    {"33 of AMD64", AARCH64, 0, 0, 0, 0, 1, 1, 31, 0, {33, 0, 0}},
    {"33 of version 3", VERSION_1, 0, 0, 0, 0, 1, 1, 31, 0, {33, 0, 0}},
    {"13", FEW, 0, 0, 0, 0, 1, 1, 31, 0, {13, 0, 0}},
    {"14", FEW, 0, 0, 0, 0, 0, 1, 31, 0, {14, 0, 0}},
    {"25", FEW, 0, 0, 0, 0, 0, 0, 31, 0, {25, 0, 0}},
    {"25", FEW, 0, 0, 0, 0, 0, 0, 33, 0, {25, 0, 0}},
    {"10", FEW, 0, 0, 0, 0, 0, 0, 32, 0x101f, {10, 0, 0}},
    {"17", FEW, 0, 0, 0, 0, 0, 0, 32, 0x1020, {17, 0, 0}},
};

static int passes(const struct row *row)
{
    struct call call;

    begin(&call, 2);
    call.edition = row->edition;
    if (row->broken) {
        break_by(&call, 1, NO_STATEPOINT);
    }
    if (row->older) {
        call.length = build(call.section, row_h_pairs, 1);
    }
    call.length -= (size_t)row->cut;
    call.machine = row->machine;
    call.first = row->top ? UINT64_MAX - 23 : FIRST;
    call.old_count = row->table ? 0 : 1;
    call.registers_length = row->registers_length;
    call.frame[0] = row->address;
    return answers(row->name, &call, row->expected);
}

/* The check of sections that have no record, or are none. */
static int passes_check(void)
{
    struct call call;
    int holds;

    begin(&call, 2);
    holds = checks("two records", &call, 0, 0);
    call.length--;
    holds = checks("a cut section", &call, 4, 152) && holds;
    call.length = 0;
    holds = checks("no bytes", &call, 1, 0) && holds;
    memset(call.section, 0, sizeof call.section);
    call.length = 16;
    holds = checks("version 0", &call, 2, 0) && holds;
    call.section[0] = 1;
    holds = checks("version 1", &call, 50, 0) && holds;
    call.section[0] = 3;
    return checks("no records", &call, 0, 0) && holds;
}

int main(void)
{
    static int (*const others[])(void) = {passes_records, passes_breaches, passes_first_record,
                                          passes_check};
    size_t passed = 0, count = 0, i;

    for (i = 0; i < sizeof rows / sizeof rows[0]; i++, count++) {
        passed += (size_t)passes(&rows[i]);
    }
    for (i = 0; i < sizeof others / sizeof others[0]; i++, count++) {
        passed += (size_t)others[i]();
    }
    return tally(passed, count);
}

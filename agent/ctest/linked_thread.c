/*
 * Threads over linked sections from C: row I's frame by a map that stands behind others, two frames by two maps,
 * records that two maps share, maps of version 1, and what is refused of the whole. All frames move or none
 * does, and on one map the call is treskibben_edition_thread.
 */
#include "moves.h"
#include "rows.h"
#include "tally.h"
#include "treskibben.h"

#include <stdio.h>
#include <string.h>

enum { FRAMES = 2, SLOTS = 3 * FRAMES, MOST_MAPS = 3, MOST_BYTES = 512 };

#define FIRST UINT64_C(0x7000)
#define OLD UINT64_C(0x50000)
#define NEW UINT64_C(0x90000)
#define DISTANCE UINT64_C(0x4e20)
#define NO_MACHINE UINT64_C(2)

static const uint8_t row_c[16] = {3};

/* The editions of the store, by their numbers. The second is retired. */
enum edition { NONE, OWN, RETIRED, ARM, ONE_POINTER, OLDER };

static const treskibben_settings made[] = {
    {256, TRESKIBBEN_AMD64, 0, 1}, {256, TRESKIBBEN_AMD64, 1, 1}, {256, TRESKIBBEN_AARCH64, 1, 1},
    {1, TRESKIBBEN_AMD64, 1, 1}, {256, TRESKIBBEN_AMD64, 1, 0},
};

static treskibben_editions store_of_all(void)
{
    treskibben_editions store = TRESKIBBEN_EDITIONS_EMPTY;
    size_t i;

    for (i = 0; i < sizeof made / sizeof made[0]; i++) {
        store = treskibben_edition_make(store, made[i]).store;
    }
    return treskibben_edition_retire(store, RETIRED).store;
}

/* A map: row C, or row H in version 3 at 0x1000 or 0x2000, in version 1, with a location of no kind, or with its
 * last slot outside the extent. */
enum map { END, C, H, H_2, H_1, BAD, OUTSIDE };

static size_t add(uint8_t *section, size_t length, enum map map)
{
    const uint8_t *row = map == C ? row_c : map == H_1 ? row_h_1 : row_h;
    const size_t size = map == C ? sizeof row_c : map == H_1 ? sizeof row_h_1 : sizeof row_h;

    memcpy(section + length, row, size);
    switch (map) {
    case H_2: section[length + 17] = 0x20; break;
    case BAD: section[length + 56] = 9; break;
    case OUTSIDE: section[length + 136] = 17; break;
    default: break;
    }
    return length + size;
}

/* All that a call is lent: row I's image, twice, for two frames. */
struct call {
    treskibben_editions store;
    uint64_t edition;
    uint8_t section[MOST_BYTES];
    size_t length;
    uint8_t image[8 * SLOTS];
    uint64_t first;
    uint64_t olds[1], news[1];
    size_t old_count;
    uint64_t machine;
    treskibben_frame frames[FRAMES];
    size_t frames_length;
    uint64_t registers[TRESKIBBEN_REGISTERS * FRAMES];
    size_t registers_length;
};

/* What is changed beside the edition, the machine, the maps and the addresses. */
enum change { NOTHING, TOP, TABLE, ODD, FEW_REGISTERS, NO_START, PAST, OVERLAP };

static void change(struct call *call, enum change how)
{
    switch (how) {
    case NOTHING: break;
    case TOP: call->first = UINT64_MAX - 8 * SLOTS + 1; break;
    case TABLE: call->old_count = 0; break;
    case ODD: call->frames_length--; break;
    case FEW_REGISTERS: call->registers_length--; break;
    case NO_START: put(call->image + 32, OLD + 8); break;
    case PAST: call->registers[TRESKIBBEN_REGISTERS + 7] = FIRST + 25; break;
    case OVERLAP: call->registers[TRESKIBBEN_REGISTERS + 7] = FIRST + 16; break;
    }
}

/* The numbers of the edition and of the machine, the maps, the addresses of the frames up to the first 0, the
 * change, and number, place and value of the answer. */
struct row {
    const char *name;
    uint64_t edition, machine;
    enum map maps[MOST_MAPS];
    uint64_t addresses[FRAMES];
    enum change how;
    uint64_t answer[3];
};

#define AMD64 TRESKIBBEN_AMD64
#define AARCH64 TRESKIBBEN_AARCH64

static const struct row rows[] = {
    {"one map", OWN, AMD64, {H}, {0x1020}, NOTHING, {0, 0, 2}},
    {"an empty map before", OWN, AMD64, {C, H}, {0x1020}, NOTHING, {0, 0, 2}},
    {"an empty map behind", OWN, AMD64, {H, C}, {0x1020}, NOTHING, {0, 0, 2}},
    {"no frames", OWN, AMD64, {C, H}, {0}, NOTHING, {0, 0, 0}},
    {"two frames by one map", OWN, AMD64, {C, H}, {0x1020, 0x1020}, NOTHING, {0, 0, 4}},
    {"two frames by two maps", OWN, AMD64, {H, C, H_2}, {0x1020, 0x2020}, NOTHING, {0, 0, 4}},
    {"the later map's first", OWN, AMD64, {H, C, H_2}, {0x2020, 0x1020}, NOTHING, {0, 0, 4}},
    /* of the edition, and of the maps */
    {"edition 0", NONE, AMD64, {C, H}, {0x1020}, NOTHING, {31, 0, 0}},
    {"a retired edition", RETIRED, AMD64, {C, H}, {0x1020}, NOTHING, {31, 0, 0}},
    {"an unknown edition", 99, AMD64, {C, BAD}, {0x1020}, TOP, {31, 0, 0}},
    {"a map at fault", OWN, AMD64, {H, C, BAD}, {0x1020}, NOTHING, {6, 224, 0}},
    {"a map at fault before 27", OWN, AMD64, {H_1, BAD}, {0x1020}, NOTHING, {6, 168, 0}},
    {"version 1 second", OWN, AMD64, {H, H_1}, {0x1020}, NOTHING, {27, 152, 0}},
    {"version 1 alone", OLDER, AMD64, {H_1}, {0x20}, NOTHING, {27, 0, 0}},
    {"27 before 33", ARM, AMD64, {C, H_1, H_1}, {0x1020}, NOTHING, {27, 16, 0}},
    {"an edition of version 1", OLDER, AMD64, {C, H}, {0x1020}, NOTHING, {33, 0, 0}},
    {"another machine's edition", ARM, AMD64, {C, H}, {0x1020}, NOTHING, {33, 0, 0}},
    {"another machine", OWN, AARCH64, {C, H}, {0x1020}, NOTHING, {33, 0, 0}},
    {"machine 2", OWN, NO_MACHINE, {C, H}, {0x1020}, NOTHING, {33, 0, 0}},
    {"27 before machine 2", OWN, NO_MACHINE, {C, H_1}, {0x1020}, NOTHING, {27, 16, 0}},
    {"33 before 13", OWN, NO_MACHINE, {C, H}, {0x1020}, TOP, {33, 0, 0}},
    /* of what all frames share */
    {"13", OWN, AMD64, {C, H}, {0x1021}, TOP, {13, 0, 0}},
    {"14", OWN, AMD64, {C, H}, {0x1021}, TABLE, {14, 0, 0}},
    {"25, an odd list", OWN, AMD64, {C, H}, {0x1021}, ODD, {25, 0, 0}},
    {"25, few registers", OWN, AMD64, {C, H}, {0x1021}, FEW_REGISTERS, {25, 0, 0}},
    /* of a frame: 10 and 15 over all maps, the rest as in its own */
    {"10", OWN, AMD64, {C, H, H_2}, {0x2020, 0x1021}, NOTHING, {10, 1, 0}},
    {"15 in two maps", OWN, AMD64, {H, H}, {0x1020}, NOTHING, {15, 0, 0}},
    {"15 of the second", OWN, AMD64, {H, H_2, H}, {0x2020, 0x1020}, NOTHING, {15, 1, 0}},
    {"not asked for, shared", OWN, AMD64, {H, H_2, H}, {0x2020}, NOTHING, {0, 0, 2}},
    {"15 before 19", OWN, AMD64, {OUTSIDE, H}, {0x1020}, NOTHING, {15, 0, 0}},
    {"17 by the edition", ONE_POINTER, AMD64, {C, H}, {0x1020}, NOTHING, {17, 0, 0}},
    {"19 by the own map", OWN, AMD64, {H_2, OUTSIDE}, {0x2020, 0x1020}, NOTHING, {19, 1, 0}},
    {"another map's fault", OWN, AMD64, {H_2, OUTSIDE}, {0x2020}, NOTHING, {0, 0, 2}},
    {"16 of the second", OWN, AMD64, {H, H_2}, {0x1020, 0x2020}, PAST, {16, 1, 0}},
    {"21 of the second", OWN, AMD64, {H, H_2}, {0x1020, 0x2020}, NO_START, {21, 1, 0}},
    {"21 of the second's map first", OWN, AMD64, {H_2, H}, {0x1020, 0x2020}, NO_START, {21, 1, 0}},
    {"26", OWN, AMD64, {H, H_2}, {0x1020, 0x2020}, OVERLAP, {26, 1, 0}},
};

static void begin(struct call *call, const struct row *row)
{
    size_t i;

    memset(call, 0, sizeof *call);
    call->store = store_of_all();
    call->edition = row->edition;
    for (i = 0; i < MOST_MAPS && row->maps[i] != END; i++) {
        call->length = add(call->section, call->length, row->maps[i]);
    }
    call->first = FIRST;
    call->olds[0] = OLD;
    call->news[0] = NEW;
    call->old_count = 1;
    call->machine = row->machine;
    fill_registers(call->registers, FRAMES);
    for (i = 0; i < FRAMES; i++) {
        put(call->image + 24 * i, 7);
        put(call->image + 24 * i + 8, OLD);
        put(call->image + 24 * i + 16, OLD + DISTANCE);
        put_pointers(call->registers + TRESKIBBEN_REGISTERS * i, AMD64, 0, FIRST + 24 * i);
        call->frames[i].address = row->addresses[i];
        if (row->addresses[i] != 0) {
            call->frames_length += 2;
            call->registers_length += TRESKIBBEN_REGISTERS;
        }
    }
    if (row->how == OVERLAP) {
        /* The slots of both frames are 0, so that neither is refused by itself. */
        memset(call->image, 0, sizeof call->image);
    }
    change(call, row->how);
}

static treskibben_answer move_linked(struct call *call)
{
    return treskibben_edition_linked_thread(
        call->store, call->edition, call->section, call->length, call->image, sizeof call->image,
        call->first, call->olds, call->old_count, call->news, 1, call->machine,
        (const uint64_t *)call->frames, call->frames_length, call->registers,
        call->registers_length);
}

static treskibben_answer move_plain(struct call *call)
{
    return treskibben_edition_thread(
        call->store, call->edition, call->section, call->length, call->image, sizeof call->image,
        call->first, call->olds, call->old_count, call->news, 1, call->machine,
        (const uint64_t *)call->frames, call->frames_length, call->registers,
        call->registers_length);
}

/* Moves the frames of a row, and sees that the image and all else that is lent are those of the move or as they
 * were. */
static int passes(const struct row *row)
{
    struct call call, after;
    treskibben_answer answer;
    size_t i;

    begin(&call, row);
    memcpy(&after, &call, sizeof after);
    for (i = 0; row->answer[0] == 0 && 2 * i < row->answer[2]; i++) {
        put(after.image + 24 * i + 8, NEW);
        put(after.image + 24 * i + 16, NEW + DISTANCE);
    }
    answer = move_linked(&call);
    return passed(row->name, row->answer, answer, memcmp(&call, &after, sizeof call) == 0);
}

/* The frames of a row by this one map, plain, and over this map behind row C: the same answer, the same image and
 * the same registers. */
static int passes_plain(const struct row *row, enum map map)
{
    struct call plain, linked;
    treskibben_answer one, other;
    uint64_t expected[3];
    struct row own = *row;

    own.maps[0] = map;
    own.maps[1] = END;
    begin(&plain, &own);
    own.maps[0] = C;
    own.maps[1] = map;
    own.maps[2] = END;
    begin(&linked, &own);
    one = move_plain(&plain);
    other = move_linked(&linked);
    expected[0] = one.number;
    expected[1] = one.place;
    expected[2] = one.value;
    return passed(row->name, expected, other,
                  memcmp(plain.image, linked.image, sizeof plain.image) == 0 &&
                      memcmp(plain.registers, linked.registers, sizeof plain.registers) == 0);
}

int main(void)
{
    const size_t count = sizeof rows / sizeof rows[0];
    size_t passed_rows = 0, all = 0, i;

    for (i = 0; i < count; i++) {
        passed_rows += (size_t)passes(&rows[i]);
        all++;
        /* What is no refusal of the maps is the same on one map. */
        if (rows[i].answer[0] == 0 || rows[i].answer[0] == 31 || rows[i].answer[0] > 9) {
            passed_rows += (size_t)passes_plain(&rows[i], H);
            all++;
        }
    }
    return tally(passed_rows, all);
}

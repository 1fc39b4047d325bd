/*
 * Explains whole frames and threads from C, in both versions and on both machines: row I and frames with registers,
 * null pairs and pairs of several pointers, lists of rows that are just long enough and too short, and refused
 * frames and threads. Numbers beyond the rows must stay, and so must all that is lent beside them.
 */
#include "moves.h"
#include "pairs.h"
#include "rows.h"
#include "tally.h"
#include "treskibben.h"

#include <stdio.h>
#include <string.h>

/* The structs lie in memory as the rows do: C99 has no other static assertion. */
#define SIZE(type, size) typedef char whole_##type[sizeof(treskibben_##type) == (size) ? 1 : -1]
#define FIELD(type, field, at, width)                                                              \
    typedef char type##_##field[offsetof(treskibben_##type, field) == (at) &&                      \
                                        sizeof(((treskibben_##type *)0)->field) == (width)         \
                                    ? 1                                                            \
                                    : -1]

SIZE(explained_slot, 56);
FIELD(explained_slot, kind, 0, 8);
FIELD(explained_slot, slot, 8, 8);
FIELD(explained_slot, content, 16, 8);
FIELD(explained_slot, reason, 24, 8);
FIELD(explained_slot, pair, 32, 8);
FIELD(explained_slot, old_base, 40, 8);
FIELD(explained_slot, new_base, 48, 8);
SIZE(explained_pointer, 8 * TRESKIBBEN_ROW);
FIELD(explained_pointer, frame, 0, 8);
FIELD(explained_pointer, pair, 8, 8);
FIELD(explained_pointer, base, 16, 56);
FIELD(explained_pointer, derived, 72, 56);

/* Slots of a frame, frames of a thread, and the most pointers of both. */
enum { SLOTS = 3, FRAMES = 2, POINTERS = 6 };

#define FIRST UINT64_C(0x7000)
#define OLD UINT64_C(0x50000)
#define NEW UINT64_C(0x90000)
#define OTHER_OLD UINT64_C(0x60000)
#define OTHER_NEW UINT64_C(0x10)
#define DISTANCE UINT64_C(0x4e20)
#define BEFORE UINT64_C(0x5555aaaa5555aaaa)

/* All that a call is lent, for one frame or two that follow each other on the stack. */
struct call {
    treskibben_editions store;
    uint64_t edition;
    uint8_t section[sizeof row_h];
    size_t length;
    uint8_t image[8 * SLOTS * FRAMES];
    uint64_t first;
    uint64_t olds[2], news[2];
    size_t old_count;
    uint64_t machine;
    treskibben_frame frames[FRAMES];
    size_t frames_length;
    uint64_t registers[FRAMES][TRESKIBBEN_REGISTERS];
    size_t registers_length;
};

/* Edition 1 is of 256 pointers and both versions on the machine. Locations from RSP are from its own stack pointer.
 * Both frames have the same words and the same content of register 3. */
static void begin(struct call *call, const struct location *locations, const uint64_t *words,
                  uint64_t rbx, int older, uint64_t machine)
{
    const treskibben_settings settings = {256, machine, 1, 1};
    struct location own[LOCATIONS];
    size_t i;

    memset(call, 0, sizeof *call);
    call->store = treskibben_edition_make(treskibben_editions_empty(), settings).store;
    call->edition = 1;
    for (i = 0; i < LOCATIONS; i++) {
        own[i] = locations[i];
        if (own[i].kind == MEMORY) {
            own[i].reg = stack_pointers[machine];
        }
    }
    call->length = build(call->section, own, older);
    for (i = 0; i < SLOTS * FRAMES; i++) {
        put(call->image + 8 * i, words[i % SLOTS]);
    }
    call->first = FIRST;
    call->olds[0] = OLD;
    call->olds[1] = OTHER_OLD;
    call->news[0] = NEW;
    call->news[1] = OTHER_NEW;
    call->old_count = 2;
    call->machine = machine;
    fill_registers(call->registers[0], FRAMES);
    for (i = 0; i < FRAMES; i++) {
        call->frames[i].address = older ? 0x20 : 0x1020;
        call->registers[i][3] = rbx;
        put_pointers(call->registers[i], machine, 0, FIRST + 8 * SLOTS * i);
    }
    call->frames_length = 2 * FRAMES;
    call->registers_length = FRAMES * TRESKIBBEN_REGISTERS;
}

/* Explains the first frame, or both as a thread, to a list of so many numbers. */
static treskibben_answer explain(struct call *call, int thread, uint64_t *rows, size_t room)
{
    if (thread) {
        return treskibben_edition_explain_thread(
            call->store, call->edition, call->section, call->length, call->image,
            sizeof call->image, call->first, call->olds, call->old_count, call->news, 2,
            call->machine, (const uint64_t *)call->frames, call->frames_length, call->registers[0],
            call->registers_length, rows, room);
    }
    return treskibben_edition_explain_frame(
        call->store, call->edition, call->section, call->length, call->image, sizeof call->image,
        call->first, call->olds, call->old_count, call->news, 2, call->machine, call->frames[0],
        call->registers[0], call->registers_length / FRAMES, rows, room);
}

/* Whether a call with a list of so many numbers is answered so, writes these pointers where it is accepted, and
 * nothing else. */
static int tells(const char *name, const struct call *call, int thread, size_t room,
                 const uint64_t *expected, const treskibben_explained_pointer *pointers)
{
    uint64_t rows[TRESKIBBEN_ROW * POINTERS], after[TRESKIBBEN_ROW * POINTERS];
    struct call own;
    treskibben_answer answer;
    size_t i;

    for (i = 0; i < TRESKIBBEN_ROW * POINTERS; i++) {
        rows[i] = after[i] = BEFORE;
    }
    memcpy(after, pointers, 8 * (size_t)expected[2]);
    memcpy(&own, call, sizeof own);
    answer = explain(&own, thread, rows, room);
    return passed(name, expected, answer,
                  memcmp(rows, after, sizeof rows) == 0 && memcmp(&own, call, sizeof own) == 0);
}

#define AT(offset) {MEMORY, 8, 7, offset}
#define WIDE(offset) {MEMORY, 16, 7, offset}
#define RBX {REGISTER, 8, 3, 0}
#define NOTHING(reg) {CONSTANT, 8, reg, 0}

#define NO_SLOT {0, 0, 0, 0, 0, 0, 0}
#define IN_MEMORY(at, content, ...) {TRESKIBBEN_SLOT_MEMORY, FIRST + (at), content, __VA_ARGS__}
#define IN_RBX(content, ...) {TRESKIBBEN_SLOT_REGISTER, 3, content, __VA_ARGS__}
#define ONLY_BASE TRESKIBBEN_REASON_ONLY_BASE, 0, 0, 0
#define NULL_BASE TRESKIBBEN_REASON_NULL_BASE, 0, 0, 0
#define MOVED(pair) TRESKIBBEN_REASON_MOVED, pair, OLD, NEW
#define OTHER_MOVED(pair) TRESKIBBEN_REASON_MOVED, pair, OTHER_OLD, OTHER_NEW

/* A frame and the rows of its pointers. */
struct row {
    const char *name;
    struct location locations[LOCATIONS];
    uint64_t words[SLOTS], rbx;
    size_t count;
    treskibben_explained_pointer pointers[POINTERS / FRAMES];
    int newer; /* whether the pairs are version 3's alone */
};

static const struct row rows[] = {
    {"row I", {AT(8), AT(8), AT(8), AT(16)}, {7, OLD, OLD + DISTANCE}, 1, 2,
     {{0, 0, IN_MEMORY(8, OLD, MOVED(0)), IN_MEMORY(8, OLD, MOVED(0))},
      {0, 1, IN_MEMORY(8, OLD, MOVED(0)), IN_MEMORY(16, OLD + DISTANCE, MOVED(1))}}, 0},
    {"one base", {AT(8), AT(16), AT(8), AT(16)}, {7, OLD, 3}, 1, 2,
     {{0, 0, IN_MEMORY(8, OLD, ONLY_BASE), IN_MEMORY(16, 3, MOVED(0))},
      {0, 1, IN_MEMORY(8, OLD, ONLY_BASE), IN_MEMORY(16, 3, MOVED(0))}}, 0},
    {"null bases", {AT(8), AT(16), AT(8), RBX}, {7, 0, OLD}, OLD, 2,
     {{0, 0, IN_MEMORY(8, 0, ONLY_BASE), IN_MEMORY(16, OLD, NULL_BASE)},
      {0, 1, IN_MEMORY(8, 0, ONLY_BASE), IN_RBX(OLD, NULL_BASE)}}, 0},
    {"a register", {RBX, RBX, RBX, AT(16)}, {7, 8, OTHER_OLD}, OTHER_OLD, 2,
     {{0, 0, IN_RBX(OTHER_OLD, OTHER_MOVED(0)), IN_RBX(OTHER_OLD, OTHER_MOVED(0))},
      {0, 1, IN_RBX(OTHER_OLD, OTHER_MOVED(0)), IN_MEMORY(16, OTHER_OLD, OTHER_MOVED(1))}}, 0},
    {"null pairs", {NOTHING(3), NOTHING(7), NOTHING(0), NOTHING(0)}, {7, 8, 9}, 1, 2,
     {{0, 0, NO_SLOT, NO_SLOT}, {0, 1, NO_SLOT, NO_SLOT}}, 0},
    {"several pointers", {NOTHING(3), NOTHING(7), WIDE(0), WIDE(8)}, {OLD, OTHER_OLD, 5}, 1, 3,
     {{0, 0, NO_SLOT, NO_SLOT},
      {0, 1, IN_MEMORY(0, OLD, ONLY_BASE), IN_MEMORY(8, OTHER_OLD, MOVED(1))},
      {0, 1, IN_MEMORY(8, OTHER_OLD, MOVED(1)), IN_MEMORY(16, 5, OTHER_MOVED(1))}}, 1},
};

/* The rows of both frames: those of the second are those of the first, but for its position and its place on the
 * stack. */
static void of_both(const struct row *row, treskibben_explained_pointer *both)
{
    size_t i, j;

    for (i = 0; i < row->count; i++) {
        treskibben_explained_pointer *const second = &both[row->count + i];
        treskibben_explained_slot *const slots[2] = {&second->base, &second->derived};

        both[i] = *second = row->pointers[i];
        second->frame = 1;
        for (j = 0; j < 2; j++) {
            slots[j]->slot += slots[j]->kind == TRESKIBBEN_SLOT_MEMORY ? 8 * SLOTS : 0;
        }
    }
}

/* A frame, or a thread of it twice, with lists that are long enough and lists that are not. */
static int passes(const struct row *row, int thread, int older, uint64_t machine)
{
    static const uint64_t too_short[3] = {24, 0, 0};
    const size_t numbers = TRESKIBBEN_ROW * row->count * (thread ? FRAMES : 1);
    const uint64_t expected[3] = {0, 0, numbers};
    treskibben_explained_pointer both[POINTERS];
    struct call call;

    begin(&call, row->locations, row->words, row->rbx, older, machine);
    of_both(row, both);
    return tells(row->name, &call, thread, TRESKIBBEN_ROW * POINTERS, expected, both) &
           tells(row->name, &call, thread, numbers, expected, both) &
           tells(row->name, &call, thread, numbers - 1, too_short, both) &
           tells(row->name, &call, thread, numbers - TRESKIBBEN_ROW, too_short, both) &
           tells(row->name, &call, thread, 0, too_short, both);
}

/* What is changed of row I, so that it is refused. */
enum change {
    UNKNOWN,
    CUT,
    MACHINE,
    TOP,
    TABLE,
    LESS_REGISTERS,
    ADDRESS,
    RSP,
    FORM,
    ONE_POINTER,
    OUTSIDE,
    COLLISION,
    NO_START
};

/* The number and the place for a frame; for a thread, where the second frame is changed if only one is, the place
 * is a position. That of a cut section is its record, which stands at 40, and at 32 in version 1. */
static const struct {
    enum change change;
    uint64_t number, place, position;
} refusals[] = {
    {UNKNOWN, 31, 0, 0},   {CUT, 4, 40, 40},  {MACHINE, 33, 0, 0}, {TOP, 13, 0, 0},
    {TABLE, 14, 0, 0},     {LESS_REGISTERS, 25, 0, 0},             {ADDRESS, 10, 0, 1},
    {RSP, 16, 0, 1},       {FORM, 18, 1, 0},  {ONE_POINTER, 17, 0, 0},
    {OUTSIDE, 19, 1, 0},   {COLLISION, 20, 1, 0},                  {NO_START, 21, 0, 1},
};

static void make(struct call *call, enum change change, size_t frame, int older)
{
    uint8_t *const last = call->section + (older ? PAIRS_1 + 3 * LOCATION_1 : PAIRS + 3 * LOCATION);

    switch (change) {
    case UNKNOWN: call->edition = 2; break;
    case CUT: call->length--; break;
    case MACHINE: call->machine = 2; break;
    case TOP: call->first = UINT64_MAX - 47; break;
    case TABLE: call->old_count--; break;
    case LESS_REGISTERS: call->registers_length -= 2; break;
    case ADDRESS: call->frames[frame].address++; break;
    case RSP: put_pointers(call->registers[frame], call->machine, 0, FIRST + 8 * SLOTS + 1); break;
    case FORM: last[0] = DIRECT; break;
    case ONE_POINTER: call->store.places[0].settings.most = 1; break;
    case OUTSIDE: last[older ? 4 : 8] = 17; break;
    case COLLISION: last[older ? 4 : 8] = 12; break;
    case NO_START: put(call->image + 8 * SLOTS * frame + 8, OLD + 8); break;
    }
}

/* A refusal comes before 24, and writes nothing. */
static int passes_refusal(size_t nth, int thread, int older, uint64_t machine)
{
    const uint64_t number = refusals[nth].number;
    const uint64_t place = thread ? refusals[nth].position : refusals[nth].place;
    const uint64_t expected[3] = {number, number == 4 && older ? 32 : place, 0};
    struct call call;
    char name[32];

    begin(&call, rows[0].locations, rows[0].words, rows[0].rbx, older, machine);
    make(&call, refusals[nth].change, (size_t)thread, older);
    sprintf(name, "refusal %u", (unsigned)number);
    return tells(name, &call, thread, TRESKIBBEN_ROW * POINTERS, expected, rows[0].pointers) &
           tells(name, &call, thread, 0, expected, rows[0].pointers);
}

/* Extents that share a byte, a list that is odd, and one of no frames. */
static int passes_threads(int older, uint64_t machine)
{
    static const uint64_t shared[3] = {26, 1, 0}, odd[3] = {25, 0, 0}, none[3] = {0, 0, 0};
    const size_t room = TRESKIBBEN_ROW * POINTERS;
    struct call call;
    int holds;

    begin(&call, rows[0].locations, rows[0].words, rows[0].rbx, older, machine);
    put_pointers(call.registers[1], machine, 0, FIRST);
    holds = tells("one frame twice", &call, 1, room, shared, rows[0].pointers);
    holds &= tells("one frame twice, no room", &call, 1, 0, shared, rows[0].pointers);
    call.frames_length--;
    holds &= tells("an odd list", &call, 1, room, odd, rows[0].pointers);
    call.frames_length = call.registers_length = 0;
    holds &= tells("no frames", &call, 1, room, none, rows[0].pointers);
    return holds & tells("no frames, no room", &call, 1, 0, none, rows[0].pointers);
}

int main(void)
{
    size_t passed = 0, count = 0, i;
    uint64_t machine;
    int older, thread;

    for (older = 0; older < 2; older++) {
        for (machine = 0; machine < 2; machine++) {
            for (thread = 0; thread < 2; thread++) {
                for (i = 0; i < sizeof rows / sizeof rows[0]; i++) {
                    if (!older || !rows[i].newer) {
                        passed += (size_t)passes(&rows[i], thread, older, machine);
                        count++;
                    }
                }
                for (i = 0; i < sizeof refusals / sizeof refusals[0]; i++, count++) {
                    passed += (size_t)passes_refusal(i, thread, older, machine);
                }
            }
            passed += (size_t)passes_threads(older, machine);
            count++;
        }
    }
    return tally(passed, count);
}

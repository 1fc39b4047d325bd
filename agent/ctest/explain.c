/*
 * Asks from C why slots move or do not, in both versions and on both machines: row I's slots and the bytes beside
 * them, each reason, registers and addresses of the same number, and refused frames. What is lent must stay as it
 * is, and the move of row I's frame leaves what the reasons say.
 */
#include "moves.h"
#include "pairs.h"
#include "rows.h"
#include "tally.h"
#include "treskibben.h"

#include <stdio.h>
#include <string.h>

/* The answer lies in memory as that of the library does: C99 has no other static assertion. */
#define FIELD(field, at)                                                                           \
    typedef char reason_##field[offsetof(treskibben_reason, field) == (at) &&                      \
                                        sizeof(((treskibben_reason *)0)->field) == 8               \
                                    ? 1                                                            \
                                    : -1]

typedef char whole_reason[sizeof(treskibben_reason) == 48 ? 1 : -1];
FIELD(reason, 0);
FIELD(number, 8);
FIELD(place, 16);
FIELD(pair, 24);
FIELD(old_base, 32);
FIELD(new_base, 40);

enum { SLOTS = 3, FIELDS = 6, WORDS = 3 };

#define FIRST UINT64_C(0x7000)
#define OLD UINT64_C(0x50000)
#define NEW UINT64_C(0x90000)
#define OTHER_OLD UINT64_C(0x60000)
#define OTHER_NEW UINT64_C(0x10)
#define DISTANCE UINT64_C(0x4e20)

/* All that a call is lent. Lists have room for one number more. */
struct call {
    uint8_t section[sizeof row_h];
    size_t length;
    uint8_t image[8 * SLOTS];
    size_t image_length;
    uint64_t first;
    uint64_t olds[2], news[2];
    size_t old_count, new_count;
    uint64_t machine;
    treskibben_frame frame;
    uint64_t registers[TRESKIBBEN_REGISTERS + 1];
    size_t registers_length;
};

/* Locations from RSP are from the machine's own stack pointer. */
static void begin(struct call *call, const struct location *locations, const uint64_t *words,
                  uint64_t rbx, int older, uint64_t machine)
{
    struct location own[LOCATIONS];
    size_t i;

    memset(call, 0, sizeof *call);
    for (i = 0; i < LOCATIONS; i++) {
        own[i] = locations[i];
        if (own[i].kind == MEMORY) {
            own[i].reg = stack_pointers[machine];
        }
    }
    call->length = build(call->section, own, older);
    for (i = 0; i < SLOTS; i++) {
        put(call->image + 8 * i, words[i]);
    }
    call->image_length = sizeof call->image;
    call->first = FIRST;
    call->olds[0] = OLD;
    call->olds[1] = OTHER_OLD;
    call->news[0] = NEW;
    call->news[1] = OTHER_NEW;
    call->old_count = call->new_count = 2;
    call->machine = machine;
    call->frame.address = older ? 0x20 : 0x1020;
    fill_registers(call->registers, 1);
    call->registers[3] = rbx;
    put_pointers(call->registers, machine, 0, FIRST);
    call->registers_length = TRESKIBBEN_REGISTERS;
}

/* Whether the slot is answered so, field by field, and all that is lent stays as it is; if not, says so. */
static int tells(const char *name, const struct call *call, int in_register, uint64_t asked,
                 const uint64_t *expected)
{
    treskibben_reason (*const explain)(const uint8_t *, size_t, const uint8_t *, size_t, uint64_t,
                                       const uint64_t *, size_t, const uint64_t *, size_t, uint64_t,
                                       treskibben_frame, const uint64_t *, size_t, uint64_t) =
        in_register ? treskibben_explain_register : treskibben_explain_address;
    struct call copy;
    treskibben_reason told;

    memcpy(&copy, call, sizeof copy);
    told = explain(copy.section, copy.length, copy.image, copy.image_length, copy.first, copy.olds,
                   copy.old_count, copy.news, copy.new_count, copy.machine, copy.frame,
                   copy.registers, copy.registers_length, asked);
    if (told.reason == expected[0] && told.number == expected[1] && told.place == expected[2] &&
        told.pair == expected[3] && told.old_base == expected[4] && told.new_base == expected[5] &&
        memcmp(&copy, call, sizeof copy) == 0) {
        return 1;
    }
    fprintf(stderr,
            "%s, %s %" PRIx64 ": reason %" PRIu64 ", refused %" PRIu64 " at %" PRIu64 ", pair %" PRIu64
            ", base %" PRIx64 " to %" PRIx64 ", what is lent %s\n",
            name, in_register ? "register" : "address", asked, told.reason, told.number, told.place,
            told.pair, told.old_base, told.new_base,
            memcmp(&copy, call, sizeof copy) == 0 ? "right" : "wrong");
    return 0;
}

/* A slot of a frame with two pairs, and what is told of it. */
struct row {
    const char *name;
    struct location locations[LOCATIONS];
    uint64_t words[WORDS], rbx;
    int in_register;
    uint64_t asked;
    uint64_t expected[FIELDS];
    int newer; /* whether the pairs are version 3's alone */
};

#define AT(offset) {MEMORY, 8, 7, offset}
#define WIDE(offset) {MEMORY, 16, 7, offset}
#define RBX {REGISTER, 8, 3, 0}
#define R8 {REGISTER, 8, 8, 0}
#define NOTHING(reg) {CONSTANT, 8, reg, 0}

#define ROW_I {AT(8), AT(8), AT(8), AT(16)}, {7, OLD, OLD + DISTANCE}, 1
#define ONE_BASE {AT(8), AT(16), AT(8), AT(16)}, {7, OLD, OLD + DISTANCE}, 1
#define NULL_BASES {AT(8), AT(16), AT(8), RBX}, {7, 0, OLD}, OLD
#define IN_RBX {RBX, RBX, RBX, AT(16)}, {7, 8, OTHER_OLD}, OTHER_OLD
#define BY_RBX {RBX, R8, RBX, R8}, {7, 8, 9}, OLD
#define OF_SEVERAL {NOTHING(3), NOTHING(7), WIDE(0), WIDE(8)}, {OLD, OTHER_OLD, 5}, OLD

#define UNLISTED {TRESKIBBEN_REASON_UNLISTED, 0, 0, 0, 0, 0}
#define ONLY_BASE {TRESKIBBEN_REASON_ONLY_BASE, 0, 0, 0, 0, 0}
#define NULL_BASE {TRESKIBBEN_REASON_NULL_BASE, 0, 0, 0, 0, 0}
#define MOVED(pair) {TRESKIBBEN_REASON_MOVED, 0, 0, pair, OLD, NEW}
#define OTHER_MOVED(pair) {TRESKIBBEN_REASON_MOVED, 0, 0, pair, OTHER_OLD, OTHER_NEW}

static const struct row rows[] = {
    {"row I", ROW_I, 0, 0x7008, MOVED(0), 0},
    {"row I", ROW_I, 0, 0x7010, MOVED(1), 0},
    {"row I, no pair's", ROW_I, 0, 0x7000, UNLISTED, 0},
    {"row I, beside", ROW_I, 0, 0x7007, UNLISTED, 0},
    {"row I, beside", ROW_I, 0, 0x7009, UNLISTED, 0},
    {"row I, beside", ROW_I, 0, 0x700f, UNLISTED, 0},
    {"row I, beside", ROW_I, 0, 0x7011, UNLISTED, 0},
    {"row I, beyond", ROW_I, 0, 0x7018, UNLISTED, 0},
    {"row I, far below", ROW_I, 0, 0, UNLISTED, 0},
    {"row I, an offset", ROW_I, 0, 8, UNLISTED, 0},
    {"row I, the top", ROW_I, 0, UINT64_MAX, UNLISTED, 0},
    {"row I, a wrapped address", ROW_I, 0, UINT64_C(0x100007008), UNLISTED, 0},
    {"row I, an address as a register", ROW_I, 1, 0x7008, UNLISTED, 0},
    {"only a base", ONE_BASE, 0, 0x7008, ONLY_BASE, 0},
    {"derived twice", ONE_BASE, 0, 0x7010, MOVED(0), 0},
    {"base 0", NULL_BASES, 0, 0x7008, ONLY_BASE, 0},
    {"derived from 0", NULL_BASES, 0, 0x7010, NULL_BASE, 0},
    {"derived from 0", NULL_BASES, 1, 3, NULL_BASE, 0},
    {"in a register", IN_RBX, 1, 3, OTHER_MOVED(0), 0},
    {"from a register", IN_RBX, 0, 0x7010, OTHER_MOVED(1), 0},
    {"an address as a register", IN_RBX, 0, 3, UNLISTED, 0},
    {"another register", IN_RBX, 1, 2, UNLISTED, 0},
    {"wider numbers", IN_RBX, 1, 35, UNLISTED, 0},
    {"wider numbers", IN_RBX, 1, 0x103, UNLISTED, 0},
    {"wider numbers", IN_RBX, 1, 0x10003, UNLISTED, 0},
    {"wider numbers", IN_RBX, 1, UINT64_C(0x100000003), UNLISTED, 0},
    {"only a base in a register", BY_RBX, 1, 3, ONLY_BASE, 0},
    {"derived twice in a register", BY_RBX, 1, 8, MOVED(0), 0},
    {"a null pair's number", OF_SEVERAL, 1, 3, UNLISTED, 1},
    {"the first of several", OF_SEVERAL, 0, 0x7000, ONLY_BASE, 1},
    {"a base and derived", OF_SEVERAL, 0, 0x7008, MOVED(1), 1},
    {"the second of a pair", OF_SEVERAL, 0, 0x7010, OTHER_MOVED(1), 1},
    {"inside of several", OF_SEVERAL, 0, 0x700c, UNLISTED, 1},
};

static int passes(const struct row *row, int older, uint64_t machine)
{
    struct call call;

    begin(&call, row->locations, row->words, row->rbx, older, machine);
    return tells(row->name, &call, row->in_register, row->asked, row->expected);
}

static const struct row row_i = {"row I", ROW_I, 0, 0, UNLISTED, 0};

static void begin_row_i(struct call *call, int older, uint64_t machine)
{
    begin(call, row_i.locations, row_i.words, row_i.rbx, older, machine);
}

/* On a stack at 0 a slot has a register's number: the two are told apart. */
static int passes_same_numbers(int older, uint64_t machine)
{
    static const struct location locations[LOCATIONS] = {AT(8), AT(8), RBX, RBX};
    static const uint64_t words[WORDS] = {7, OLD, 9}, unlisted[FIELDS] = UNLISTED;
    static const uint64_t slot[FIELDS] = MOVED(0), own[FIELDS] = OTHER_MOVED(1);
    struct call call;

    begin(&call, locations, words, OTHER_OLD, older, machine);
    call.first = 0;
    put_pointers(call.registers, machine, 0, 0);
    return tells("stack at 0", &call, 0, 8, slot) && tells("stack at 0", &call, 1, 8, unlisted) &&
           tells("stack at 0", &call, 1, 3, own) && tells("stack at 0", &call, 0, 3, unlisted);
}

/* What is changed of row I, so that its frame is refused. */
enum change {
    CUT,
    MACHINE,
    CUT_AND_MACHINE,
    TOP,
    TABLE,
    TABLE_OF_0,
    REGISTERS_31,
    REGISTERS_33,
    NO_REGISTERS,
    ADDRESS,
    CONSTANTS,
    RSP,
    FORM,
    OUTSIDE,
    COLLISION,
    NO_START
};

/* The number and the place; that of a cut section is its record, which stands at 40, and at 32 in version 1. */
static const struct {
    enum change change;
    uint64_t number, place;
} refusals[] = {
    {CUT, 4, 40},          {MACHINE, 33, 0},      {CUT_AND_MACHINE, 4, 40},
    {TOP, 13, 0},          {TABLE, 14, 0},        {TABLE_OF_0, 14, 0},
    {REGISTERS_31, 25, 0}, {REGISTERS_33, 25, 0}, {NO_REGISTERS, 25, 0},
    {ADDRESS, 10, 0},      {CONSTANTS, 12, 0},    {RSP, 16, 0},
    {FORM, 18, 1},         {OUTSIDE, 19, 1},      {COLLISION, 20, 1},
    {NO_START, 21, 0},
};

static void make(struct call *call, enum change change, int older)
{
    uint8_t *const last = call->section + (older ? PAIRS_1 + 3 * LOCATION_1 : PAIRS + 3 * LOCATION);

    switch (change) {
    case CUT: call->length--; break;
    case MACHINE: call->machine = 2; break;
    case CUT_AND_MACHINE: call->length--, call->machine = UINT64_MAX; break;
    case TOP: call->first = UINT64_MAX - 23; break;
    case TABLE: call->old_count--; break;
    case TABLE_OF_0: call->news[1] = 0; break;
    case REGISTERS_31: call->registers_length = 31; break;
    case REGISTERS_33: call->registers_length = 33; break;
    case NO_REGISTERS: call->registers_length = 0; break;
    case ADDRESS: call->frame.address++; break;
    case CONSTANTS: call->section[older ? 64 : 80] = REGISTER; break;
    case RSP: put_pointers(call->registers, call->machine, 0, FIRST + 1); break;
    case FORM: last[0] = DIRECT; break;
    case OUTSIDE: last[older ? 4 : 8] = 17; break;
    case COLLISION: last[older ? 4 : 8] = 12; break;
    case NO_START: put(call->image + 8, OLD + 8); break;
    }
}

/* A refusal is told of every slot, listed or not. */
static int passes_refusal(size_t nth, int older, uint64_t machine)
{
    const uint64_t number = refusals[nth].number;
    const uint64_t place = number == 4 && older ? 32 : refusals[nth].place;
    const uint64_t expected[FIELDS] = {TRESKIBBEN_REASON_REFUSED, number, place, 0, 0, 0};
    struct call call;
    char name[32];

    begin_row_i(&call, older, machine);
    make(&call, refusals[nth].change, older);
    sprintf(name, "refusal %u", (unsigned)number);
    return tells(name, &call, 0, 0x7008, expected) && tells(name, &call, 0, 0x7000, expected) &&
           tells(name, &call, 0, UINT64_MAX, expected) && tells(name, &call, 1, 3, expected) &&
           tells(name, &call, 1, UINT64_MAX, expected);
}

/* Every register of row I's frame is unlisted. */
static int passes_registers(int older, uint64_t machine)
{
    static const uint64_t unlisted[FIELDS] = UNLISTED;
    struct call call;
    uint64_t number;

    begin_row_i(&call, older, machine);
    for (number = 0; number < 2 * TRESKIBBEN_REGISTERS; number++) {
        if (!tells("row I", &call, 1, number, unlisted)) {
            return 0;
        }
    }
    return 1;
}

/* The move of row I's frame: both of its slots are moved by NEW - OLD, as told, and nothing else. */
static int passes_move(int older, uint64_t machine)
{
    static const uint64_t expected[3] = {0, 0, 2};
    struct call call, after;
    treskibben_answer answer;

    begin_row_i(&call, older, machine);
    memcpy(&after, &call, sizeof after);
    put(after.image + 8, OLD + NEW - OLD);
    put(after.image + 16, OLD + DISTANCE + NEW - OLD);
    answer = treskibben_relocate(call.section, call.length, call.image, call.image_length, call.first,
                                 call.olds, call.old_count, call.news, call.new_count, call.machine,
                                 call.frame, call.registers, call.registers_length);
    return passed("the move of row I", expected, answer, memcmp(&call, &after, sizeof call) == 0);
}

int main(void)
{
    size_t passed = 0, count = 0, i;
    uint64_t machine;
    int older;

    for (older = 0; older < 2; older++) {
        for (machine = 0; machine < 2; machine++) {
            for (i = 0; i < sizeof rows / sizeof rows[0]; i++) {
                if (!older || !rows[i].newer) {
                    passed += (size_t)passes(&rows[i], older, machine);
                    count++;
                }
            }
            for (i = 0; i < sizeof refusals / sizeof refusals[0]; i++, count++) {
                passed += (size_t)passes_refusal(i, older, machine);
            }
            passed += (size_t)passes_same_numbers(older, machine);
            passed += (size_t)passes_registers(older, machine);
            passed += (size_t)passes_move(older, machine);
            count += 3;
        }
    }
    return tally(passed, count);
}

/*
 * Restores from C that name an edition: row I's frame alone, as a thread without an index and with one, and the
 * reasons of its slots, in both versions and under editions that allow it, that don't, and that are none. What
 * an edition refuses stands in its place among the other refusals, and a refusal leaves all that is lent.
 */
#include "moves.h"
#include "rows.h"
#include "tally.h"
#include "treskibben.h"

#include <stdio.h>
#include <string.h>

enum { SLOTS = 3 };

#define FIRST UINT64_C(0x7000)
#define OLD UINT64_C(0x50000)
#define NEW UINT64_C(0x90000)
#define DISTANCE UINT64_C(0x4e20)
#define NO_MACHINE UINT64_C(2)

/* The editions of the store, by their numbers. The second is retired. */
enum edition { NONE, WORKED, RETIRED, BOTH, ARM, ONE_POINTER, OLDER, NEXT };

static const treskibben_settings made[] = {
    {256, TRESKIBBEN_AMD64, 0, 1}, {256, TRESKIBBEN_AMD64, 1, 1}, {256, TRESKIBBEN_AMD64, 1, 1},
    {256, TRESKIBBEN_AARCH64, 1, 1}, {1, TRESKIBBEN_AMD64, 1, 1}, {2, TRESKIBBEN_AMD64, 1, 0},
};

static treskibben_editions store_of_all(void)
{
    treskibben_editions store = TRESKIBBEN_EDITIONS_EMPTY;
    size_t i;

    for (i = 0; i < sizeof made / sizeof made[0]; i++) {
        store = treskibben_edition_make(store, made[i]).store;
    }
    return treskibben_edition_retire(store, RETIRED).store;
}

/* All that a call is lent. */
struct call {
    treskibben_editions store;
    uint64_t edition;
    uint8_t section[sizeof row_h];
    size_t length;
    uint8_t image[8 * SLOTS];
    uint64_t first;
    uint64_t olds[1], news[1];
    size_t old_count;
    uint64_t machine;
    treskibben_frame frame;
    uint64_t registers[TRESKIBBEN_REGISTERS];
    size_t registers_length;
    uint64_t index[2];
};

static void begin(struct call *call, int older)
{
    memset(call, 0, sizeof *call);
    call->store = store_of_all();
    call->edition = BOTH;
    call->length = older ? sizeof row_h_1 : sizeof row_h;
    memcpy(call->section, older ? row_h_1 : row_h, call->length);
    put(call->image, 7);
    put(call->image + 8, OLD);
    put(call->image + 16, OLD + DISTANCE);
    call->first = FIRST;
    call->olds[0] = OLD;
    call->news[0] = NEW;
    call->old_count = 1;
    call->machine = TRESKIBBEN_AMD64;
    call->frame.address = older ? 0x20 : 0x1020;
    fill_registers(call->registers, 1);
    put_pointers(call->registers, TRESKIBBEN_AMD64, 0, FIRST);
    call->registers_length = TRESKIBBEN_REGISTERS;
    call->index[0] = 0x1020;
}

static treskibben_answer move_frame(struct call *call)
{
    return treskibben_edition_relocate(
        call->store, call->edition, call->section, call->length, call->image, sizeof call->image,
        call->first, call->olds, call->old_count, call->news, 1, call->machine, call->frame,
        call->registers, call->registers_length);
}

static treskibben_answer move_thread(struct call *call)
{
    return treskibben_edition_thread(
        call->store, call->edition, call->section, call->length, call->image, sizeof call->image,
        call->first, call->olds, call->old_count, call->news, 1, call->machine,
        (const uint64_t *)&call->frame, 2, call->registers, call->registers_length);
}

static treskibben_answer move_by_index(struct call *call)
{
    return treskibben_edition_thread_by_index(
        call->store, call->edition, call->section, call->length, call->image, sizeof call->image,
        call->first, call->olds, call->old_count, call->news, 1, call->machine,
        (const uint64_t *)&call->frame, 2, call->registers, call->registers_length, call->index, 2);
}

/* What is changed of row I beside its edition and its machine. */
enum change { NOTHING, CUT, TOP, TABLE, FEW_REGISTERS, ELSEWHERE, OUTSIDE, NO_START, WRONG_INDEX };

static void change(struct call *call, enum change how, int older)
{
    switch (how) {
    case NOTHING: break;
    case CUT: call->length--; break;
    case TOP: call->first = UINT64_MAX - 23; break;
    case TABLE: call->old_count = 0; break;
    case FEW_REGISTERS: call->registers_length = 31; break;
    case ELSEWHERE: call->frame.address++; break;
    case OUTSIDE: call->section[older ? 100 : 136] = 17; break;
    case NO_START: put(call->image + 8, OLD + 8); break;
    case WRONG_INDEX: call->index[1] = 1; break;
    }
}

/* The numbers of the edition and of the machine, the change, and the number and place of the frame's answer. The
 * place of a cut section is its record, which stands at 40, and at 32 in version 1. */
struct row {
    const char *name;
    uint64_t edition, machine;
    enum change how;
    int versions; /* 1 version 1, 2 version 3, 3 both */
    uint64_t number, place;
};

#define AMD64 TRESKIBBEN_AMD64
#define AARCH64 TRESKIBBEN_AARCH64

static const struct row rows[] = {
    {"the worked rows' edition", WORKED, AMD64, NOTHING, 2, 0, 0},
    {"an edition of both versions", BOTH, AMD64, NOTHING, 3, 0, 0},
    {"an edition of two pointers", OLDER, AMD64, NOTHING, 1, 0, 0},
    {"edition 0", NONE, AMD64, NOTHING, 3, 31, 0},
    {"a retired edition", RETIRED, AMD64, NOTHING, 3, 31, 0},
    {"the next edition", NEXT, AMD64, NOTHING, 3, 31, 0},
    {"a wider number", UINT64_C(0x100000003), AMD64, NOTHING, 3, 31, 0},
    {"the last number", UINT64_MAX, AMD64, NOTHING, 3, 31, 0},
    {"31 before the section's", RETIRED, AMD64, CUT, 3, 31, 0},
    {"31 before 33", RETIRED, NO_MACHINE, NOTHING, 3, 31, 0},
    {"31 before 13", RETIRED, AMD64, TOP, 3, 31, 0},
    {"31 before 25", NONE, AMD64, FEW_REGISTERS, 3, 31, 0},
    {"version 1 not allowed", WORKED, AMD64, NOTHING, 1, 33, 0},
    {"version 3 not allowed", OLDER, AMD64, NOTHING, 2, 33, 0},
    {"another machine's edition", ARM, AMD64, NOTHING, 3, 33, 0},
    {"another machine", BOTH, AARCH64, NOTHING, 3, 33, 0},
    {"no machine", BOTH, NO_MACHINE, NOTHING, 3, 33, 0},
    {"a machine by wider numbers", BOTH, UINT64_C(0x100000000), NOTHING, 3, 33, 0},
    {"the section's before 33", ARM, AMD64, CUT, 3, 4, 40},
    {"33 before 13", ARM, AMD64, TOP, 3, 33, 0},
    {"33 before 14", BOTH, AARCH64, TABLE, 3, 33, 0},
    {"33 before 25", BOTH, NO_MACHINE, FEW_REGISTERS, 3, 33, 0},
    {"13", BOTH, AMD64, TOP, 3, 13, 0},
    {"14", BOTH, AMD64, TABLE, 3, 14, 0},
    {"25", BOTH, AMD64, FEW_REGISTERS, 3, 25, 0},
    {"one pointer", ONE_POINTER, AMD64, NOTHING, 3, 17, 0},
    {"33 before 17", ONE_POINTER, AARCH64, NOTHING, 3, 33, 0},
    {"13 before 17", ONE_POINTER, AMD64, TOP, 3, 13, 0},
    {"25 before 17", ONE_POINTER, AMD64, FEW_REGISTERS, 3, 25, 0},
    {"10 before 17", ONE_POINTER, AMD64, ELSEWHERE, 3, 10, 0},
    {"17 before 19", ONE_POINTER, AMD64, OUTSIDE, 3, 17, 0},
    {"17 before 21", ONE_POINTER, AMD64, NO_START, 3, 17, 0},
    {"19", BOTH, AMD64, OUTSIDE, 3, 19, 1},
    {"21", BOTH, AMD64, NO_START, 3, 21, 0},
};

/* Whether a refusal comes before the index is tested. */
static int before_index(uint64_t number)
{
    return number == 31 || number == 33 || number == 13 || number == 14 ||
           (number > 0 && number < 10);
}

/* Makes one call of row I, and sees that it is answered so, and that image and registers are those of the move
 * or as they were. */
static int moves(const char *name, const struct call *call, treskibben_answer (*move)(struct call *),
                 uint64_t number, uint64_t place)
{
    const uint64_t expected[3] = {number, place, number == 0 ? 2 : 0};
    struct call own, after;
    treskibben_answer answer;

    memcpy(&own, call, sizeof own);
    memcpy(&after, call, sizeof after);
    if (number == 0) {
        put(after.image + 8, NEW);
        put(after.image + 16, NEW + DISTANCE);
    }
    answer = move(&own);
    return passed(name, expected, answer, memcmp(&own, &after, sizeof own) == 0);
}

/* The reason of the slot at RSP + 16, and of a register: moved by the second pair, and unlisted; or refused. */
static int tells(const char *name, const struct call *call, uint64_t number, uint64_t place)
{
    struct call own;
    treskibben_reason slot, reg;
    int refused = number != 0;

    memcpy(&own, call, sizeof own);
    slot = treskibben_edition_explain_address(
        own.store, own.edition, own.section, own.length, own.image, sizeof own.image, own.first,
        own.olds, own.old_count, own.news, 1, own.machine, own.frame, own.registers,
        own.registers_length, FIRST + 16);
    reg = treskibben_edition_explain_register(
        own.store, own.edition, own.section, own.length, own.image, sizeof own.image, own.first,
        own.olds, own.old_count, own.news, 1, own.machine, own.frame, own.registers,
        own.registers_length, 3);
    if (slot.number == number && slot.place == place && reg.number == number && reg.place == place &&
        slot.reason == (refused ? TRESKIBBEN_REASON_REFUSED : TRESKIBBEN_REASON_MOVED) &&
        slot.pair == !refused && slot.old_base == (refused ? 0 : OLD) &&
        slot.new_base == (refused ? 0 : NEW) &&
        reg.reason == (refused ? TRESKIBBEN_REASON_REFUSED : TRESKIBBEN_REASON_UNLISTED) &&
        reg.pair == 0 && reg.old_base == 0 && reg.new_base == 0 &&
        memcmp(&own, call, sizeof own) == 0) {
        return 1;
    }
    fprintf(stderr, "%s: reasons %" PRIu64 " and %" PRIu64 ", refused %" PRIu64 " at %" PRIu64 "\n",
            name, slot.reason, reg.reason, slot.number, slot.place);
    return 0;
}

static int passes(const struct row *row, int older)
{
    const uint64_t place = row->number == 4 && older ? 32 : row->place;
    /* A thread tells the position of a frame, and not its pair. */
    const uint64_t position = row->number < 10 ? place : 0;
    const int indexed = !older || before_index(row->number);
    struct call call;

    begin(&call, older);
    call.edition = row->edition;
    call.machine = row->machine;
    change(&call, row->how, older);
    return moves(row->name, &call, move_frame, row->number, place) &
           moves(row->name, &call, move_thread, row->number, position) &
           moves(row->name, &call, move_by_index, indexed ? row->number : 27,
                 indexed ? position : 0) &
           tells(row->name, &call, row->number, place);
}

/* An index that is not the section's: 29 after 14, and before 25. */
static int passes_wrong_index(uint64_t edition, enum change how, uint64_t number)
{
    struct call call;

    begin(&call, 0);
    call.edition = edition;
    change(&call, how, 0);
    change(&call, WRONG_INDEX, 0);
    return moves("another section's index", &call, move_by_index, number, 0);
}

/* Every place of a store is looked at: the edition stands in the last one. A place whose settings are none has
 * no edition, and of a number that stands twice the first is read. */
static int passes_places(void)
{
    struct call call;
    int holds;

    begin(&call, 0);
    memset(&call.store, 0, sizeof call.store);
    call.edition = UINT32_MAX;
    holds = moves("an empty store", &call, move_frame, 31, 0);
    call.store.places[63].number = UINT32_MAX;
    call.store.places[63].settings = made[0];
    holds &= moves("the last place", &call, move_frame, 0, 0);
    call.store.places[5] = call.store.places[63];
    call.store.places[5].settings.most = 1;
    holds &= moves("twice, the first", &call, move_frame, 17, 0);
    call.store.places[5].settings.most = 0;
    holds &= moves("twice, the first is none", &call, move_frame, 0, 0);
    call.store.places[63].settings.version_3 = 2;
    holds &= moves("settings that are none", &call, move_frame, 31, 0);
    return holds;
}

int main(void)
{
    size_t passed = 0, count = 0, i;
    int older;

    for (older = 0; older < 2; older++) {
        for (i = 0; i < sizeof rows / sizeof rows[0]; i++) {
            if (rows[i].versions & (older ? 1 : 2)) {
                passed += (size_t)passes(&rows[i], older);
                count++;
            }
        }
    }
    passed += (size_t)passes_wrong_index(BOTH, NOTHING, 29);
    passed += (size_t)passes_wrong_index(BOTH, FEW_REGISTERS, 29);
    passed += (size_t)passes_wrong_index(BOTH, TABLE, 14);
    passed += (size_t)passes_wrong_index(ARM, NOTHING, 33);
    passed += (size_t)passes_wrong_index(RETIRED, NOTHING, 31);
    passed += (size_t)passes_places();
    return tally(passed, count + 6);
}

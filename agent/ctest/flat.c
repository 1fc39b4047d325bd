/*
 * Flat sections from C: the worked section of docs/FLAT.md, whose bytes are written out, its check, the
 * lookup and every question, and a section that is refused.
 */
#include "tally.h"
#include "treskibben.h"

#include <inttypes.h>
#include <stdio.h>
#include <stdlib.h>
#include <string.h>

/* The structs lie in memory as those of the library do: C99 has no other static assertion. */
#define SIZE(type, size)                                                                           \
    typedef char whole_##type[sizeof(treskibben_flat_##type) == (size) ? 1 : -1]
#define FIELD(type, field, at, width)                                                              \
    typedef char type##_##field[offsetof(treskibben_flat_##type, field) == (at) &&                 \
                                        sizeof(((treskibben_flat_##type *)0)->field) == (width)    \
                                    ? 1                                                            \
                                    : -1]

SIZE(find_answer, 32);
FIELD(find_answer, number, 0, 8);
FIELD(find_answer, place, 8, 8);
FIELD(find_answer, frame, 16, 8);
FIELD(find_answer, record, 24, 8);
SIZE(frame_answer, 48);
FIELD(frame_answer, number, 0, 8);
FIELD(frame_answer, place, 8, 8);
FIELD(frame_answer, address, 16, 8);
FIELD(frame_answer, function_size, 24, 4);
FIELD(frame_answer, stack_size, 28, 4);
FIELD(frame_answer, flags, 32, 2);
FIELD(frame_answer, base_register, 34, 2);
FIELD(frame_answer, num_registers, 36, 2);
FIELD(frame_answer, register_index, 38, 2);
FIELD(frame_answer, num_records, 40, 2);
FIELD(frame_answer, record_index, 42, 2);
SIZE(register_answer, 24);
FIELD(register_answer, number, 0, 8);
FIELD(register_answer, place, 8, 8);
FIELD(register_answer, dwarf_register, 16, 2);
FIELD(register_answer, offset, 18, 2);
FIELD(register_answer, size, 20, 1);
FIELD(register_answer, flags, 21, 1);
SIZE(record_answer, 40);
FIELD(record_answer, number, 0, 8);
FIELD(record_answer, place, 8, 8);
FIELD(record_answer, id, 16, 8);
FIELD(record_answer, offset, 24, 4);
FIELD(record_answer, num_locations, 28, 2);
FIELD(record_answer, location_index, 30, 2);
FIELD(record_answer, num_live_outs, 32, 2);
FIELD(record_answer, live_out_index, 34, 2);
FIELD(record_answer, call_size, 36, 1);
FIELD(record_answer, flags, 37, 1);
SIZE(location_answer, 24);
FIELD(location_answer, number, 0, 8);
FIELD(location_answer, place, 8, 8);
FIELD(location_answer, offset, 16, 4);
FIELD(location_answer, dwarf_register, 20, 2);
FIELD(location_answer, kind, 22, 1);

static const uint8_t worked[236] = {
    /* header: version 2, offsets 32, 40, 96, 120, 188 and 228, padding */
    2, 0, 0, 0, 32, 0, 0, 0, 40, 0, 0, 0, 96, 0, 0, 0,
    120, 0, 0, 0, 188, 0, 0, 0, 228, 0, 0, 0, 0, 0, 0, 0,
    /* constant 0xfedcba9876543210 */
    0x10, 0x32, 0x54, 0x76, 0x98, 0xba, 0xdc, 0xfe,
    /* frame: 0x401000, sizes 64 and 24, flags 9, base 6, registers 2 from 0, records 2 from 0 */
    0, 0x10, 0x40, 0, 0, 0, 0, 0, 64, 0, 0, 0, 24, 0, 0, 0, 9, 0, 6, 0, 2, 0, 0, 0, 2, 0, 0, 0,
    /* frame: 0x402000, sizes 128 and 56, flags 6, base 3, registers 2 from 1, records 2 from 1 */
    0, 0x20, 0x40, 0, 0, 0, 0, 0, 128, 0, 0, 0, 56, 0, 0, 0, 6, 0, 3, 0, 2, 0, 1, 0, 2, 0, 1, 0,
    /* frame registers: 6 at -16, 3 at -24, 12 at 16, and padding */
    6, 0, 0xf0, 0xff, 8, 1, 3, 0, 0xe8, 0xff, 8, 1, 12, 0, 16, 0, 4, 0, 0, 0, 0, 0, 0, 0,
    /* record: ID 7 at 0x10, call 5, flags 1, locations 3 from 0, live-outs 2 from 0 */
    7, 0, 0, 0, 0, 0, 0, 0, 0x10, 0, 0, 0, 5, 1, 3, 0, 0, 0, 2, 0, 0, 0,
    /* record: ID 8 at 0x20, call 2, flags 0, locations 2 from 3, live-outs 0 from 2 */
    8, 0, 0, 0, 0, 0, 0, 0, 0x20, 0, 0, 0, 2, 0, 2, 0, 3, 0, 0, 0, 2, 0,
    /* record: ID 2^64 - 1 at 0x10, call 255, flags 1, locations 1 from 4, live-outs 1 from 1 */
    255, 255, 255, 255, 255, 255, 255, 255, 0x10, 0, 0, 0, 255, 1, 1, 0, 4, 0, 1, 0, 1, 0,
    /* padding, and locations: Register 3, Direct 7 + 16, Indirect 6 - 8, Constant -1, ConstIndex 0 */
    0, 0, 1, 0, 3, 0, 0, 0, 0, 0, 2, 0, 7, 0, 16, 0, 0, 0, 3, 0, 6, 0, 0xf8, 0xff, 0xff, 0xff,
    4, 0, 0, 0, 0xff, 0xff, 0xff, 0xff, 5, 0, 0, 0, 0, 0, 0, 0,
    /* live-outs: register 3 of 8 bytes, register 17 of 16 */
    3, 0, 0, 8, 17, 0, 0, 16,
};

enum question { CHECK, FIND, CONSTANT, FRAME, REGISTER, RECORD, LOCATION, LIVE_OUT };

/* A question and its answer: number, place and the other fields in the order of the struct. */
struct row {
    size_t length;
    enum question question;
    uint64_t asked;
    uint64_t answer[11];
};

#define WHOLE sizeof worked
#define CUT (sizeof worked - 1)
#define MINUS(n) ((uint64_t)0 - (n))

static const struct row rows[] = {
    {WHOLE, CHECK, 0, {0}},
    {31, CHECK, 0, {36}},
    {CUT, CHECK, 0, {38}},
    {WHOLE, FIND, 0x401010, {0, 0, 0, 0}},
    {WHOLE, FIND, 0x402010, {0, 0, 1, 2}},
    {WHOLE, FIND, 0x402030, {41}},
    {WHOLE, FIND, 0x100402010, {41}},
    {CUT, FIND, 0x401010, {38}},
    {WHOLE, CONSTANT, 0, {0, 0, 0xfedcba9876543210}},
    {WHOLE, CONSTANT, 1, {11}},
    {CUT, CONSTANT, 0, {38}},
    {WHOLE, FRAME, 0, {0, 0, 0x401000, 64, 24, 9, 6, 2, 0, 2, 0}},
    {WHOLE, FRAME, 1, {0, 0, 0x402000, 128, 56, 6, 3, 2, 1, 2, 1}},
    {WHOLE, FRAME, 2, {10}},
    {WHOLE, FRAME, MINUS(1), {10}},
    {CUT, FRAME, 0, {38}},
    {WHOLE, REGISTER, 0, {0, 0, 6, MINUS(16), 8, 1}},
    {WHOLE, REGISTER, 1, {0, 0, 3, MINUS(24), 8, 1}},
    {WHOLE, REGISTER, 2, {0, 0, 12, 16, 4, 0}},
    {WHOLE, REGISTER, 3, {11}},
    {CUT, REGISTER, 0, {38}},
    {WHOLE, RECORD, 0, {0, 0, 7, 16, 3, 0, 2, 0, 5, 1}},
    {WHOLE, RECORD, 1, {0, 0, 8, 32, 2, 3, 0, 2, 2, 0}},
    {WHOLE, RECORD, 2, {0, 0, MINUS(1), 16, 1, 4, 1, 1, 255, 1}},
    {WHOLE, RECORD, 3, {10}},
    {WHOLE, RECORD, (uint64_t)1 << 32, {10}},
    {CUT, RECORD, 0, {38}},
    {WHOLE, LOCATION, 0, {0, 0, 0, 3, 1}},
    {WHOLE, LOCATION, 2, {0, 0, MINUS(8), 6, 3}},
    {WHOLE, LOCATION, 4, {0, 0, 0, 0, 5}},
    {WHOLE, LOCATION, 5, {11}},
    {CUT, LOCATION, 0, {38}},
    {WHOLE, LIVE_OUT, 0, {0, 0, 3, 8}},
    {WHOLE, LIVE_OUT, 1, {0, 0, 17, 16}},
    {WHOLE, LIVE_OUT, 2, {11}},
    {CUT, LIVE_OUT, 0, {38}},
};

static void ask_frame(const struct row *row, const uint8_t *bytes, uint64_t *out)
{
    treskibben_flat_frame_answer answer = treskibben_flat_frame(bytes, row->length, row->asked);

    out[0] = answer.number;
    out[1] = answer.place;
    out[2] = answer.address;
    out[3] = answer.function_size;
    out[4] = answer.stack_size;
    out[5] = answer.flags;
    out[6] = answer.base_register;
    out[7] = answer.num_registers;
    out[8] = answer.register_index;
    out[9] = answer.num_records;
    out[10] = answer.record_index;
}

static void ask_register(const struct row *row, const uint8_t *bytes, uint64_t *out)
{
    treskibben_flat_register_answer answer =
        treskibben_flat_frame_register(bytes, row->length, row->asked);

    out[0] = answer.number;
    out[1] = answer.place;
    out[2] = answer.dwarf_register;
    out[3] = (uint64_t)(int64_t)answer.offset;
    out[4] = answer.size;
    out[5] = answer.flags;
}

static void ask_record(const struct row *row, const uint8_t *bytes, uint64_t *out)
{
    treskibben_flat_record_answer answer = treskibben_flat_record(bytes, row->length, row->asked);

    out[0] = answer.number;
    out[1] = answer.place;
    out[2] = answer.id;
    out[3] = answer.offset;
    out[4] = answer.num_locations;
    out[5] = answer.location_index;
    out[6] = answer.num_live_outs;
    out[7] = answer.live_out_index;
    out[8] = answer.call_size;
    out[9] = answer.flags;
}

static void ask_location(const struct row *row, const uint8_t *bytes, uint64_t *out)
{
    treskibben_flat_location_answer answer =
        treskibben_flat_location(bytes, row->length, row->asked);

    out[0] = answer.number;
    out[1] = answer.place;
    out[2] = (uint64_t)(int64_t)answer.offset;
    out[3] = answer.dwarf_register;
    out[4] = answer.kind;
}

static void ask_live_out(const struct row *row, const uint8_t *bytes, uint64_t *out)
{
    treskibben_live_out_answer answer = treskibben_flat_live_out(bytes, row->length, row->asked);

    out[0] = answer.number;
    out[1] = answer.place;
    out[2] = answer.dwarf_register;
    out[3] = answer.size;
}

static void ask_find(const struct row *row, const uint8_t *bytes, uint64_t *out)
{
    treskibben_flat_find_answer answer = treskibben_flat_find(bytes, row->length, row->asked);

    out[0] = answer.number;
    out[1] = answer.place;
    out[2] = answer.frame;
    out[3] = answer.record;
}

/* Asks the row's question, and writes all fields in the order of the struct. */
static void ask(const struct row *row, const uint8_t *bytes, uint64_t *out)
{
    if (row->question == CHECK || row->question == CONSTANT) {
        treskibben_answer answer = row->question == CHECK
                                       ? treskibben_flat_check(bytes, row->length)
                                       : treskibben_flat_constant(bytes, row->length, row->asked);
        out[0] = answer.number;
        out[1] = answer.place;
        out[2] = answer.value;
    } else if (row->question == FIND) {
        ask_find(row, bytes, out);
    } else if (row->question == FRAME) {
        ask_frame(row, bytes, out);
    } else if (row->question == REGISTER) {
        ask_register(row, bytes, out);
    } else if (row->question == RECORD) {
        ask_record(row, bytes, out);
    } else if (row->question == LOCATION) {
        ask_location(row, bytes, out);
    } else {
        ask_live_out(row, bytes, out);
    }
}

/* Asks on a copy of the first bytes, which has no byte to spare and must stay as it is. */
static int passes(size_t number, const struct row *row)
{
    uint64_t answer[11] = {0};
    uint8_t *copy = malloc(row->length);
    int same;
    size_t i;

    if (copy == NULL) {
        fprintf(stderr, "row %zu: no memory\n", number);
        return 0;
    }
    memcpy(copy, worked, row->length);
    ask(row, copy, answer);
    same = memcmp(copy, worked, row->length) == 0;
    free(copy);
    if (same && memcmp(answer, row->answer, sizeof answer) == 0) {
        return 1;
    }
    fprintf(stderr, "row %zu: bytes %s; fields and what is expected:", number,
            same ? "unchanged" : "changed");
    for (i = 0; i < 11; i++) {
        fprintf(stderr, " %" PRIx64 " (%" PRIx64 ")", answer[i], row->answer[i]);
    }
    fprintf(stderr, "\n");
    return 0;
}

int main(void)
{
    size_t count = sizeof rows / sizeof rows[0];
    size_t passed = 0;
    size_t i;

    for (i = 0; i < count; i++) {
        passed += (size_t)passes(i, &rows[i]);
    }
    return tally(passed, count);
}

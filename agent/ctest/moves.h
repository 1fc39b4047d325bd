/* What the tests of the moves share. */
#ifndef MOVES_H
#define MOVES_H

#include "treskibben.h"

#include <inttypes.h>
#include <stdio.h>

/* Puts a slot's eight bytes. */
static void put(uint8_t *bytes, uint64_t word)
{
    size_t i;

    for (i = 0; i < 8; i++) {
        bytes[i] = (uint8_t)(word >> 8 * i);
    }
}

/* What a register holds where nothing else is said. */
static uint64_t filling(size_t number)
{
    return UINT64_C(0xdddddddddddddd00) + number;
}

/* Fills the registers of so many frames: each has a number of its own. */
static void fill_registers(uint64_t *registers, size_t frames)
{
    size_t i;

    for (i = 0; i < TRESKIBBEN_REGISTERS * frames; i++) {
        registers[i] = filling(i % TRESKIBBEN_REGISTERS);
    }
}

/* Puts a frame's two pointers where the machine has them; a number that is no machine has them as AMD64. */
static void put_pointers(uint64_t *registers, uint64_t machine, uint64_t frame_pointer,
                         uint64_t stack_pointer)
{
    registers[machine == TRESKIBBEN_AARCH64 ? 29 : 6] = frame_pointer;
    registers[machine == TRESKIBBEN_AARCH64 ? 31 : 7] = stack_pointer;
}

/* Whether the answer is the expected one, number, place and value, and all that was lent is as it should be;
 * if not, says so. */
static int passed(const char *name, const uint64_t *expected, treskibben_answer answer, int lent)
{
    if (lent && answer.number == expected[0] && answer.place == expected[1] &&
        answer.value == expected[2]) {
        return 1;
    }
    fprintf(stderr, "%s: %" PRIu64 " at %" PRIu64 ", value %" PRIu64 ", what is lent %s\n", name,
            answer.number, answer.place, answer.value, lent ? "right" : "wrong");
    return 0;
}

#endif

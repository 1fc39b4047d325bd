/* Row H of either version with other pairs. */
#ifndef PAIRS_H
#define PAIRS_H

#include "rows.h"

#include <stddef.h>
#include <stdint.h>
#include <string.h>

/* Where row H's first pair stands and the bytes of a location, and the same of version 1. */
enum { PAIRS = 92, LOCATION = 12, PAIRS_1 = 72, LOCATION_1 = 8, LOCATIONS = 4 };

/* The kinds of locations. */
enum { REGISTER = 1, DIRECT = 2, MEMORY = 3, CONSTANT = 4 };

struct location {
    uint8_t kind, size, reg, offset;
};

/* The stack pointer of each machine. */
static const uint8_t stack_pointers[2] = {7, 31};

/* Puts the four locations of row H's two pairs, and gives the section's length. */
static size_t build(uint8_t *section, const struct location *locations, int older)
{
    const size_t length = older ? sizeof row_h_1 : sizeof row_h;
    size_t i;

    memcpy(section, older ? row_h_1 : row_h, length);
    for (i = 0; i < LOCATIONS; i++) {
        uint8_t *at = section + (older ? PAIRS_1 + LOCATION_1 * i : PAIRS + LOCATION * i);

        at[0] = locations[i].kind;
        at[older ? 1 : 2] = locations[i].size;
        at[older ? 2 : 4] = locations[i].reg;
        at[older ? 4 : 8] = locations[i].offset;
    }
    return length;
}

#endif

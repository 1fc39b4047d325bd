/* Row H of the worked table in both versions, whose bytes are written out by hand. */
#ifndef ROWS_H
#define ROWS_H

#include <stdint.h>

static const uint8_t row_h[152] = {
    /* header: version 3, one function, no constants, one record */
    3, 0, 0, 0, 1, 0, 0, 0, 0, 0, 0, 0, 1, 0, 0, 0,
    /* function: address 0x1000, stack size 24, one record */
    0, 0x10, 0, 0, 0, 0, 0, 0, 24, 0, 0, 0, 0, 0, 0, 0, 1, 0, 0, 0, 0, 0, 0, 0,
    /* record: ID 7, offset 0x20, flags, seven locations */
    7, 0, 0, 0, 0, 0, 0, 0, 0x20, 0, 0, 0, 0, 0, 7, 0,
    /* three constants of 0 */
    4, 0, 8, 0, 0, 0, 0, 0, 0, 0, 0, 0,
    4, 0, 8, 0, 0, 0, 0, 0, 0, 0, 0, 0,
    4, 0, 8, 0, 0, 0, 0, 0, 0, 0, 0, 0,
    /* RSP+8 and RSP+8, RSP+8 and RSP+16 */
    3, 0, 8, 0, 7, 0, 0, 0, 8, 0, 0, 0,
    3, 0, 8, 0, 7, 0, 0, 0, 8, 0, 0, 0,
    3, 0, 8, 0, 7, 0, 0, 0, 8, 0, 0, 0,
    3, 0, 8, 0, 7, 0, 0, 0, 16, 0, 0, 0,
    /* padding, zeros, no live-outs, padding */
    0, 0, 0, 0, 0, 0, 0, 0, 0, 0, 0, 0,
};

static const uint8_t row_h_1[112] = {
    /* header: version 1, one function, no constants, one record */
    1, 0, 0, 0, 1, 0, 0, 0, 0, 0, 0, 0, 1, 0, 0, 0,
    /* function: address 0x1000, stack size 24 */
    0, 0x10, 0, 0, 0, 0, 0, 0, 24, 0, 0, 0, 0, 0, 0, 0,
    /* record: ID 7, offset 0x20, flags, seven locations */
    7, 0, 0, 0, 0, 0, 0, 0, 0x20, 0, 0, 0, 0, 0, 7, 0,
    /* three constants of 0 */
    4, 8, 0, 0, 0, 0, 0, 0,
    4, 8, 0, 0, 0, 0, 0, 0,
    4, 8, 0, 0, 0, 0, 0, 0,
    /* RSP+8 and RSP+8, RSP+8 and RSP+16 */
    3, 8, 7, 0, 8, 0, 0, 0,
    3, 8, 7, 0, 8, 0, 0, 0,
    3, 8, 7, 0, 8, 0, 0, 0,
    3, 8, 7, 0, 16, 0, 0, 0,
    /* zeros, no live-outs, padding */
    0, 0, 0, 0, 0, 0, 0, 0,
};

#endif

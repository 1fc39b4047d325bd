/* Calls the library from C on the worked rows A to H, whose bytes are written out by hand, and on rows C
 * to H in version 1, whose letters are small. */
#include "rows.h"
#include "tally.h"
#include "treskibben.h"

#include <inttypes.h>
#include <stdio.h>
#include <stdlib.h>
#include <string.h>

static const uint8_t row_b[15] = {3};
static const uint8_t row_c[16] = {3};
static const uint8_t row_d[16] = {2};
static const uint8_t row_e[17] = {3};
static const uint8_t row_f[16] = {3, 0, 0, 0, 0, 0, 0, 0, 0, 0, 0, 0, 1, 0, 0, 0};
static const uint8_t row_g[16] = {3, 0, 0, 0, 1, 0, 0, 0, 0, 0, 0, 0, 0, 0, 0, 0};
static const uint8_t row_e_1[17] = {1};
static const uint8_t row_f_1[16] = {1, 0, 0, 0, 0, 0, 0, 0, 0, 0, 0, 0, 1, 0, 0, 0};
static const uint8_t row_g_1[16] = {1, 0, 0, 0, 1, 0, 0, 0, 0, 0, 0, 0, 0, 0, 0, 0};

struct row {
    char name;
    const uint8_t *bytes;
    size_t length;
    uint64_t number;
    uint64_t place;
};

static const struct row rows[] = {
    {'A', row_b, 0, 1, 0},
    {'B', row_b, sizeof row_b, 1, 0},
    {'C', row_c, sizeof row_c, 0, 0},
    {'D', row_d, sizeof row_d, 2, 0},
    {'E', row_e, sizeof row_e, 9, 16},
    {'F', row_f, sizeof row_f, 5, 12},
    {'G', row_g, sizeof row_g, 4, 16},
    {'H', row_h, sizeof row_h, 0, 0},
    {'b', row_e_1, 15, 1, 0},
    {'c', row_e_1, 16, 0, 0},
    {'e', row_e_1, 17, 9, 16},
    {'f', row_f_1, sizeof row_f_1, 4, 16},
    {'g', row_g_1, sizeof row_g_1, 4, 16},
    {'h', row_h_1, sizeof row_h_1, 0, 0},
};

/* Checks a copy of the row's bytes, which has no byte to spare and must stay as it is. */
static int passes(const struct row *row)
{
    uint8_t *copy = malloc(row->length + (row->length == 0));
    treskibben_answer answer;
    int same;

    if (copy == NULL) {
        fprintf(stderr, "row %c: no memory\n", row->name);
        return 0;
    }
    memcpy(copy, row->bytes, row->length);
    answer = treskibben_check(copy, row->length);
    same = memcmp(copy, row->bytes, row->length) == 0;
    free(copy);
    if (same && answer.number == row->number && answer.place == row->place && answer.value == 0) {
        return 1;
    }
    fprintf(stderr, "row %c: number %" PRIu64 ", place %" PRIu64 ", value %" PRIu64 ", bytes %s; ",
            row->name, answer.number, answer.place, answer.value, same ? "unchanged" : "changed");
    fprintf(stderr, "expected number %" PRIu64 ", place %" PRIu64 ", value 0, bytes unchanged\n",
            row->number, row->place);
    return 0;
}

int main(void)
{
    size_t count = sizeof rows / sizeof rows[0];
    size_t passed = 0;
    size_t i;

    for (i = 0; i < count; i++) {
        passed += (size_t)passes(&rows[i]);
    }
    return tally(passed, count);
}

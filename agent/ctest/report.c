/*
 * The monthly report from C: what sections of both versions add, refused ones among them; each of the
 * thirteen totals at its end and past it; two reports joined; and that totals go in and come back by value.
 */
#include "rows.h"
#include "tally.h"
#include "treskibben.h"

#include <stdio.h>
#include <stdlib.h>
#include <string.h>

/* The structs lie in memory as those of the library do: C99 has no other static assertion. */
#define SIZE(type, size) typedef char whole_##type[sizeof(treskibben_##type) == (size) ? 1 : -1]
#define FIELD(type, field, at, width)                                                              \
    typedef char type##_##field[offsetof(treskibben_##type, field) == (at) &&                      \
                                        sizeof(((treskibben_##type *)0)->field) == (width)         \
                                    ? 1                                                            \
                                    : -1]

SIZE(totals, 104);
FIELD(totals, sections, 0, 8);
FIELD(totals, refused, 8, 8);
FIELD(totals, functions, 16, 8);
FIELD(totals, records, 24, 8);
FIELD(totals, statepoints, 32, 8);
FIELD(totals, pairs, 40, 8);
FIELD(totals, kinds, 48, 40);
FIELD(totals, stack, 88, 8);
FIELD(totals, unknown, 96, 8);
SIZE(report_answer, 120);
FIELD(report_answer, number, 0, 8);
FIELD(report_answer, place, 8, 8);
FIELD(report_answer, totals, 16, 104);

enum { WORDS = 13 };

/* A function of unknown stack size, a constant, and a record with a location of each kind. */
static const uint8_t each_kind[136] = {
    3, 0, 0, 0, 1, 0, 0, 0, 1, 0, 0, 0, 1, 0, 0, 0,
    0, 0x10, 0, 0, 0, 0, 0, 0, 255, 255, 255, 255, 255, 255, 255, 255, 1, 0, 0, 0, 0, 0, 0, 0,
    9, 0, 0, 0, 0, 0, 0, 0,
    7, 0, 0, 0, 0, 0, 0, 0, 0x20, 0, 0, 0, 0, 0, 5, 0,
    1, 0, 8, 0, 3, 0, 0, 0, 0, 0, 0, 0,
    2, 0, 8, 0, 7, 0, 0, 0, 8, 0, 0, 0,
    3, 0, 8, 0, 7, 0, 0, 0, 8, 0, 0, 0,
    4, 0, 8, 0, 0, 0, 0, 0, 5, 0, 0, 0,
    5, 0, 8, 0, 0, 0, 0, 0, 0, 0, 0, 0,
    0, 0, 0, 0, 0, 0, 0, 0, 0, 0, 0, 0,
};

static const treskibben_totals none = TRESKIBBEN_TOTALS_NONE;
static const treskibben_totals of_nothing = {1, 0, 0, 0, 0, 0, {0, 0, 0, 0, 0}, 0, 0};
static const treskibben_totals of_refused = {1, 1, 0, 0, 0, 0, {0, 0, 0, 0, 0}, 0, 0};
static const treskibben_totals of_h = {1, 0, 1, 1, 1, 2, {0, 0, 4, 3, 0}, 24, 0};
static const treskibben_totals of_kinds = {1, 0, 1, 1, 0, 0, {1, 1, 1, 1, 1}, 0, 1};

static size_t passed, count;

static void row(const char *name, int holds)
{
    count++;
    passed += holds != 0;
    if (!holds)
        printf("wrong: %s\n", name);
}

static int same(treskibben_totals a, treskibben_totals b)
{
    return memcmp(&a, &b, sizeof a) == 0;
}

/* An answer with these fields and no others. */
static int is(treskibben_report_answer a, uint64_t number, uint64_t place, treskibben_totals totals)
{
    return a.number == number && a.place == place && same(a.totals, totals);
}

static treskibben_totals of_words(const uint64_t words[WORDS])
{
    treskibben_totals totals;
    memcpy(&totals, words, sizeof totals);
    return totals;
}

/* Totals added without a limit. */
static treskibben_totals plus(treskibben_totals a, treskibben_totals b)
{
    uint64_t words[WORDS], others[WORDS];
    memcpy(words, &a, sizeof words);
    memcpy(others, &b, sizeof others);
    for (size_t i = 0; i < WORDS; i++)
        words[i] += others[i];
    return of_words(words);
}

/* What single sections add, from nothing. */
static void alone(void)
{
    uint8_t empty[17] = {3}, flat[16] = {2};
    row("row C", is(treskibben_report_add(empty, 16, none), 0, 0, of_nothing));
    empty[0] = 1;
    row("row C in version 1", is(treskibben_report_add(empty, 16, none), 0, 0, of_nothing));
    row("row H", is(treskibben_report_add(row_h, sizeof row_h, none), 0, 0, of_h));
    row("row H in version 1", is(treskibben_report_add(row_h_1, sizeof row_h_1, none), 0, 0, of_h));
    row("each kind", is(treskibben_report_add(each_kind, sizeof each_kind, none), 0, 0, of_kinds));
    row("nothing", is(treskibben_report_add(empty, 0, none), 0, 0, of_refused));
    row("a byte too many", is(treskibben_report_add(empty, 17, none), 0, 0, of_refused));
    row("a byte too few", is(treskibben_report_add(row_h, sizeof row_h - 1, none), 0, 0, of_refused));
    row("a flat section", is(treskibben_report_add(flat, 16, none), 0, 0, of_refused));
}

/* Each total that a section adds to: exactly 2^64 - 1 passes, and one more is 34 at the position. */
static int at_its_end(const uint8_t *section, size_t length, treskibben_totals adds)
{
    uint64_t words[WORDS], added[WORDS];
    int holds = 1;
    memcpy(added, &adds, sizeof added);
    for (size_t i = 0; i < WORDS; i++) {
        if (added[i] == 0)
            continue;
        for (size_t j = 0; j < WORDS; j++)
            words[j] = 1000 * j + 7;
        words[i] = UINT64_MAX - added[i];
        treskibben_totals before = of_words(words);
        treskibben_report_answer a = treskibben_report_add(section, length, before);
        holds = holds && is(a, 0, 0, plus(before, adds));
        words[i]++;
        before = of_words(words);
        a = treskibben_report_add(section, length, before);
        holds = holds && is(a, 34, before.sections, before);
        a = treskibben_report_join(before, adds);
        holds = holds && is(a, 34, 0, before);
        a = treskibben_report_join(adds, before);
        holds = holds && is(a, 34, 0, adds);
    }
    return holds;
}

static void edges(void)
{
    row("ends of row H", at_its_end(row_h, sizeof row_h, of_h));
    row("ends of row H in version 1", at_its_end(row_h_1, sizeof row_h_1, of_h));
    row("ends of each kind", at_its_end(each_kind, sizeof each_kind, of_kinds));
    row("ends of a refused section", at_its_end(row_h, 100, of_refused));
}

/* Stack sizes of one section that pass by themselves, and that just don't. */
static void stacks(void)
{
    uint8_t two[64] = {3, 0, 0, 0, 2};
    treskibben_totals full = {1, 0, 2, 0, 0, 0, {0, 0, 0, 0, 0}, UINT64_MAX, 0};
    two[24 + 7] = two[48 + 7] = 0x80;
    row("2^63 twice is 34", is(treskibben_report_add(two, 64, none), 34, 0, none));
    row("at the position", is(treskibben_report_add(two, 64, of_h), 34, 1, of_h));
    memset(two + 24, 0xFF, 7);
    two[24 + 7] = 0x7F;
    row("2^64 - 1 passes", is(treskibben_report_add(two, 64, none), 0, 0, full));
    memset(two + 48, 0xFF, 8);
    full.stack = (UINT64_C(1) << 63) - 1;
    full.unknown = 1;
    row("an unknown size adds nothing", is(treskibben_report_add(two, 64, none), 0, 0, full));
}

/* A report in both orders, and of two halves. */
static void together(void)
{
    treskibben_report_answer a = treskibben_report_add(row_h, sizeof row_h, none);
    a = treskibben_report_add(each_kind, sizeof each_kind, a.totals);
    a = treskibben_report_add(row_h, 5, a.totals);
    treskibben_totals whole = plus(plus(of_h, of_kinds), of_refused);
    row("three sections", is(a, 0, 0, whole));
    a = treskibben_report_add(row_h, 5, none);
    a = treskibben_report_add(each_kind, sizeof each_kind, a.totals);
    treskibben_totals half = a.totals;
    a = treskibben_report_add(row_h, sizeof row_h, a.totals);
    row("in another order", is(a, 0, 0, whole));
    row("two halves", is(treskibben_report_join(half, of_h), 0, 0, whole));
    row("turned round", is(treskibben_report_join(of_h, half), 0, 0, whole));
    row("nothing joined", is(treskibben_report_join(none, none), 0, 0, none));
}

/* Every number of the totals goes in and comes back, whatever it is. */
static void every_number(void)
{
    uint64_t words[WORDS], state = 1;
    int holds = 1;
    for (int round = 0; round < 1000; round++) {
        for (size_t i = 0; i < WORDS; i++) {
            state = state * UINT64_C(6364136223846793005) + UINT64_C(1442695040888963407);
            words[i] = (state ^ state >> 29) >> 1;
        }
        treskibben_totals before = of_words(words);
        treskibben_report_answer a = treskibben_report_add(row_h, sizeof row_h, before);
        holds = holds && is(a, 0, 0, plus(before, of_h));
        holds = holds && is(treskibben_report_join(before, before), 0, 0, plus(before, before));
        words[round % WORDS] = UINT64_MAX;
        treskibben_totals full = of_words(words);
        holds = holds && is(treskibben_report_join(before, full), 34, 0, before);
        holds = holds && is(treskibben_report_join(full, none), 0, 0, full);
    }
    row("every number goes in and comes back", holds);
}

int main(void)
{
    alone();
    edges();
    stacks();
    together();
    every_number();
    return tally(passed, count);
}

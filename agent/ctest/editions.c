/*
 * Settings by edition from C: the store goes in and comes back by value with all of its 321 numbers, it is
 * filled, retired from and filled again, it is kept in a file, and each refusal is met in its order.
 */
#include "tally.h"
#include "treskibben.h"

#include <inttypes.h>
#include <stdio.h>
#include <stdlib.h>
#include <string.h>

/* The structs lie in memory as those of the library do: C99 has no other static assertion. */
#define SIZE(type, size) typedef char whole_##type[sizeof(treskibben_##type) == (size) ? 1 : -1]
#define FIELD(type, field, at, width)                                                              \
    typedef char type##_##field[offsetof(treskibben_##type, field) == (at) &&                      \
                                        sizeof(((treskibben_##type *)0)->field) == (width)         \
                                    ? 1                                                            \
                                    : -1]

SIZE(settings, 32);
FIELD(settings, most, 0, 8);
FIELD(settings, machine, 8, 8);
FIELD(settings, version_1, 16, 8);
FIELD(settings, version_3, 24, 8);
SIZE(edition, 40);
FIELD(edition, number, 0, 8);
FIELD(edition, settings, 8, 32);
SIZE(editions, 2568);
FIELD(editions, greatest, 0, 8);
FIELD(editions, places, 8, 2560);
SIZE(edition_make_answer, 2592);
FIELD(edition_make_answer, number, 0, 8);
FIELD(edition_make_answer, place, 8, 8);
FIELD(edition_make_answer, edition, 16, 8);
FIELD(edition_make_answer, store, 24, 2568);
SIZE(edition_retire_answer, 2584);
FIELD(edition_retire_answer, number, 0, 8);
FIELD(edition_retire_answer, place, 8, 8);
FIELD(edition_retire_answer, store, 16, 2568);
SIZE(edition_read_answer, 48);
FIELD(edition_read_answer, number, 0, 8);
FIELD(edition_read_answer, place, 8, 8);
FIELD(edition_read_answer, settings, 16, 32);

enum { PLACES = TRESKIBBEN_EDITION_PLACES, WORDS = 321 };
#define LAST UINT64_C(4294967295)

static size_t passed, count;

static void row(const char *name, int holds)
{
    count++;
    passed += holds != 0;
    if (!holds)
        printf("wrong: %s\n", name);
}

static int same(const treskibben_editions *a, const treskibben_editions *b)
{
    return memcmp(a, b, sizeof *a) == 0;
}

static int same_settings(treskibben_settings a, treskibben_settings b)
{
    return memcmp(&a, &b, sizeof a) == 0;
}

/* Right settings, which differ from one edition to the next. */
static treskibben_settings settings_of(uint64_t number)
{
    treskibben_settings own = {1 + number % 256, number % 2, number % 3 != 0, number % 3 != 1};
    return own;
}

static const treskibben_settings right = {256, 0, 1, 1};

/* A call is refused by this number, with all else 0 and the store as it was. */
static int not_made(treskibben_editions store, treskibben_settings settings, uint64_t number)
{
    treskibben_edition_make_answer a = treskibben_edition_make(store, settings);
    return a.number == number && a.place == 0 && a.edition == 0 && same(&a.store, &store);
}

static int unknown(treskibben_editions store, uint64_t edition)
{
    const treskibben_settings none = {0, 0, 0, 0};
    treskibben_edition_retire_answer a = treskibben_edition_retire(store, edition);
    treskibben_edition_read_answer b = treskibben_edition_read(store, edition);
    return a.number == 31 && a.place == 0 && same(&a.store, &store) && b.number == 31 &&
           b.place == 0 && same_settings(b.settings, none);
}

static int has(treskibben_editions store, uint64_t edition, treskibben_settings settings)
{
    treskibben_edition_read_answer a = treskibben_edition_read(store, edition);
    return a.number == 0 && a.place == 0 && same_settings(a.settings, settings);
}

/* The empty store, however it is had. */
static void empty(void)
{
    treskibben_editions zeros, named = TRESKIBBEN_EDITIONS_EMPTY, told = treskibben_editions_empty();
    memset(&zeros, 0, sizeof zeros);
    row("the empty store is zeros", same(&zeros, &named) && same(&zeros, &told));
    row("nothing is in it", unknown(told, 0) && unknown(told, 1) && unknown(told, LAST));
}

/* 64 editions, made one by one: each answer has the store with one place more. */
static treskibben_editions filled(void)
{
    treskibben_editions store = treskibben_editions_empty(), expected = store;
    int holds = 1;
    for (uint64_t number = 1; number <= PLACES; number++) {
        treskibben_edition_make_answer a = treskibben_edition_make(store, settings_of(number));
        expected.greatest = number;
        expected.places[number - 1].number = number;
        expected.places[number - 1].settings = settings_of(number);
        holds = holds && a.number == 0 && a.place == 0 && a.edition == number;
        holds = holds && same(&a.store, &expected);
        store = a.store;
    }
    row("64 are made", holds);
    for (uint64_t number = 1; number <= PLACES; number++)
        holds = holds && has(store, number, settings_of(number));
    row("64 are read", holds);
    row("others are unknown", unknown(store, 0) && unknown(store, PLACES + 1) &&
                                  unknown(store, LAST) && unknown(store, LAST + 1) &&
                                  unknown(store, LAST + 2) && unknown(store, UINT64_MAX));
    return store;
}

/* A full store: 30, and each of its editions retired and its place used again. */
static void full(treskibben_editions store)
{
    int holds = not_made(store, right, 30);
    row("a full store is 30", holds);
    row("51 before 30", not_made(store, (treskibben_settings){257, 0, 1, 1}, 51));
    for (uint64_t number = 1; number <= PLACES; number++) {
        treskibben_edition_retire_answer a = treskibben_edition_retire(store, number);
        treskibben_editions expected = store;
        memset(&expected.places[number - 1], 0, sizeof expected.places[0]);
        holds = holds && a.number == 0 && a.place == 0 && same(&a.store, &expected);
        holds = holds && unknown(a.store, number);
        treskibben_edition_make_answer b = treskibben_edition_make(a.store, right);
        expected.greatest = PLACES + number;
        expected.places[number - 1].number = PLACES + number;
        expected.places[number - 1].settings = right;
        holds = holds && b.number == 0 && b.edition == PLACES + number && same(&b.store, &expected);
        holds = holds && not_made(b.store, right, 30) && unknown(b.store, number);
        store = b.store;
    }
    row("each is retired, and its place used again, but not its number", holds);
}

/* Settings that can't be. */
static void wrong_settings(void)
{
    static const treskibben_settings wrong[] = {
        {0, 0, 1, 1},      {257, 0, 1, 1},          {UINT64_MAX, 0, 1, 1}, {LAST + 2, 0, 1, 1},
        {1, 2, 1, 1},      {1, LAST + 1, 1, 1},     {1, 0, 0, 0},          {1, 0, 2, 1},
        {1, 0, 1, 2},      {1, 0, LAST + 2, 0},     {1, 0, 0, UINT64_MAX}, {0, 2, 0, 0},
    };
    treskibben_editions store = treskibben_editions_empty();
    int holds = 1;
    for (size_t i = 0; i < sizeof wrong / sizeof *wrong; i++)
        holds = holds && not_made(store, wrong[i], 51);
    row("settings that can't be are 51", holds);
    for (uint64_t most = 1; most <= 256; most++)
        holds = holds &&
                treskibben_edition_make(store, (treskibben_settings){most, 1, 0, 1}).number == 0;
    row("every count up to 256 is right", holds);
    store.greatest = LAST;
    row("51 before 32", not_made(store, wrong[0], 51));
}

/* A store with a long past. */
static void last_number(treskibben_editions store)
{
    treskibben_editions late = treskibben_editions_empty();
    late.greatest = LAST - 1;
    treskibben_edition_make_answer a = treskibben_edition_make(late, right);
    row("the last number", a.number == 0 && a.edition == LAST && has(a.store, LAST, right));
    row("none after it", not_made(a.store, right, 32));
    treskibben_edition_retire_answer b = treskibben_edition_retire(a.store, LAST);
    row("none after it is retired", b.number == 0 && not_made(b.store, right, 32));
    store.greatest = LAST;
    row("32 before 30", not_made(store, right, 32));
    store.greatest = UINT64_MAX;
    row("a greatest over the last is 32", not_made(store, right, 32));
}

/* Stores that no calls leave get an answer. */
static void damaged(void)
{
    treskibben_editions store = treskibben_editions_empty();
    store.greatest = 3;
    for (size_t i = 0; i < PLACES; i++)
        store.places[i] = (treskibben_edition){3, settings_of(i)};
    treskibben_edition_retire_answer a = treskibben_edition_retire(store, 3);
    row("the first of several is read", has(store, 3, settings_of(0)));
    row("all of several are retired", a.number == 0 && unknown(a.store, 3) &&
                                          a.store.places[PLACES - 1].number == 0);
    store = treskibben_editions_empty();
    for (size_t i = 0; i < PLACES; i++)
        store.places[i] = (treskibben_edition){LAST + 1, right};
    row("a place with too great a number is unknown", unknown(store, LAST + 1));
    row("and not free", not_made(store, right, 30));
    store.places[5] = (treskibben_edition){5, {257, 0, 1, 1}};
    row("a place with wrong settings is unknown", unknown(store, 5));
    store.places[9] = (treskibben_edition){0, {1, 2, 3, 4}};
    treskibben_edition_make_answer b = treskibben_edition_make(store, right);
    row("a place is free by its number", b.number == 0 && b.store.places[9].number == 1 &&
                                             same_settings(b.store.places[9].settings, right));
}

/* Every number of a store goes in and comes back, whatever it is. */
static void every_number(void)
{
    uint64_t words[WORDS];
    uint64_t state = 1;
    int holds = 1;
    for (int round = 0; round < 1000; round++) {
        for (size_t i = 0; i < WORDS; i++) {
            state = state * UINT64_C(6364136223846793005) + UINT64_C(1442695040888963407);
            words[i] = state ^ state >> 29;
        }
        treskibben_editions store;
        memcpy(&store, words, sizeof store);
        holds = holds && not_made(store, (treskibben_settings){0, 0, 0, 0}, 51);
        holds = holds && unknown(store, store.places[round % PLACES].number);
        /* One of them is an edition, and found by its number among the others. */
        size_t own = (size_t)round % PLACES;
        store.places[own] = (treskibben_edition){1 + (uint64_t)round, settings_of(own)};
        holds = holds && has(store, 1 + (uint64_t)round, settings_of(own));
        treskibben_edition_retire_answer a =
            treskibben_edition_retire(store, 1 + (uint64_t)round);
        memset(&store.places[own], 0, sizeof store.places[own]);
        holds = holds && a.number == 0 && same(&a.store, &store);
    }
    row("every number of a store goes in and comes back", holds);
}

/* A store is kept in a file. */
static void kept(treskibben_editions store)
{
    FILE *file = tmpfile();
    treskibben_editions back;
    memset(&back, 0xA5, sizeof back);
    int holds = file != NULL && fwrite(&store, sizeof store, 1, file) == 1;
    holds = holds && fseek(file, 0, SEEK_SET) == 0 && fread(&back, sizeof back, 1, file) == 1;
    if (file != NULL)
        fclose(file);
    row("a store is kept in a file", holds && same(&store, &back) &&
                                         has(back, PLACES, settings_of(PLACES)));
}

int main(void)
{
    empty();
    treskibben_editions store = filled();
    full(store);
    wrong_settings();
    last_number(store);
    damaged();
    every_number();
    kept(store);
    return tally(passed, count);
}

/*
 * Times two builds of the library in one run, in turn, on the same bytes: the check, a question and the move of a frame on a large
 * section of version 3, and, where both builds take it, of version 1; the moves of a frame of 256 pointers; and the check of sections of other
 * kinds. tools/compare builds it.
 *
 * The functions of the two builds have the prefixes `before_` and `after_`. OLD_FRAME says that the first build's frame has no function
 * number yet, and that it refuses version 1; BEFORE_MACHINE and AFTER_MACHINE that a build is told the frame's machine; BEFORE_REGISTERS
 * and AFTER_REGISTERS that it is lent 32 registers a frame, and reads the frame's pointers from them.
 */
#include <stdint.h>
#include <stdio.h>
#include <stdlib.h>
#include <string.h>
#include <time.h>

typedef struct { uint64_t number, place, value; } answer;
typedef struct { uint64_t number, place, index, function, sharing; } found;
typedef struct { uint64_t address, rbp, rsp, function; } frame_with_pointers;
typedef struct { uint64_t address, function; } frame_of_registers;
#ifdef OLD_FRAME
typedef struct { uint64_t address, rbp, rsp; } before_with_pointers;
#else
typedef frame_with_pointers before_with_pointers;
#endif

enum { REGISTERS = 32, RSP = 7 };

#ifdef BEFORE_MACHINE
#define BEFORE_TYPE uint64_t,
#define BEFORE_AMD64 0,
#else
#define BEFORE_TYPE
#define BEFORE_AMD64
#endif
#ifdef AFTER_MACHINE
#define AFTER_TYPE uint64_t,
#define AFTER_AMD64 0,
#else
#define AFTER_TYPE
#define AFTER_AMD64
#endif

/* A frame, how many numbers of a list are one, and what is lent beside it. */
#define LENT , uint64_t *, size_t
#ifdef BEFORE_REGISTERS
typedef frame_of_registers before_frame;
enum { BEFORE_NUMBERS = 2 };
#define BEFORE_LENT LENT
#define BEFORE_OWN , own, REGISTERS
#define BEFORE_ALL , all, sizeof all / sizeof *all
#else
typedef before_with_pointers before_frame;
enum { BEFORE_NUMBERS = 4 };
#define BEFORE_LENT
#define BEFORE_OWN
#define BEFORE_ALL
#endif
#ifdef AFTER_REGISTERS
typedef frame_of_registers after_frame;
enum { AFTER_NUMBERS = 2 };
#define AFTER_LENT LENT
#define AFTER_OWN , own, REGISTERS
#define AFTER_ALL , all, sizeof all / sizeof *all
#else
typedef frame_with_pointers after_frame;
enum { AFTER_NUMBERS = 4 };
#define AFTER_LENT
#define AFTER_OWN
#define AFTER_ALL
#endif

#define DECLARE(prefix, machine_type, frame_type, lent)                                                             \
    answer prefix##treskibben_check(const uint8_t *, size_t);                                         \
    found prefix##treskibben_find(const uint8_t *, size_t, uint64_t);                                 \
    answer prefix##treskibben_relocate(const uint8_t *, size_t, uint8_t *, size_t, uint64_t, const uint64_t *, size_t, \
                                       const uint64_t *, size_t, machine_type frame_type lent);              \
    answer prefix##treskibben_thread(const uint8_t *, size_t, uint8_t *, size_t, uint64_t, const uint64_t *, size_t,   \
                                     const uint64_t *, size_t, machine_type const uint64_t *, size_t lent);
DECLARE(before_, BEFORE_TYPE, before_frame, BEFORE_LENT)
DECLARE(after_, AFTER_TYPE, after_frame, AFTER_LENT)

enum { LIMIT = 16777216, ROUNDS_MOST = 1001, STACK = 0x7000000 };

static uint8_t bytes[LIMIT];
static uint8_t image[262144];
static size_t length;
static uint64_t last; /* the last record's address, or its offset in version 1 */
static volatile uint64_t sink;

static uint64_t state = 1;
static uint64_t below(uint64_t n) {
    state = state * 6364136223846793005u + 1442695040888963407u;
    return (state >> 33) % n;
}

static size_t put(size_t at, uint64_t value, size_t width) {
    for (size_t i = 0; i < width; i++) bytes[at + i] = (uint8_t)(value >> 8 * i);
    return at + width;
}

static size_t put_location(size_t at, int old, uint8_t kind, uint16_t dwarf_register, uint32_t offset) {
    at = put(at, kind, 1);
    if (!old) at = put(at, 0, 1);
    at = put(at, 8, old ? 1 : 2);
    at = put(at, dwarf_register, 2);
    if (!old) at = put(at, 0, 2);
    return put(at, offset, 4);
}

/* What the records of a section are: of a hundred, those with live-outs and those with a ConstIndex among their locations. */
typedef struct { int old, parity_mixed, empty, live_outs, const_index; } shape;

enum { CONSTANTS = 16 };

/* A statepoint with up to six pairs of slots above RSP, or with any number of slots; or a record with no locations. */
static size_t put_record(size_t at, shape of, uint32_t offset) {
    size_t slots = of.parity_mixed ? below(13) : 2 * below(7), count = of.empty ? 0 : 3 + slots;
    size_t index = (int)below(100) < of.const_index ? below(count) : count;
    size_t live_outs = (int)below(100) < of.live_outs ? 1 + below(6) : 0;
    at = put(at, 7, 8);
    at = put(at, offset, 4);
    at = put(at, 0, 2);
    at = put(at, count, 2);
    for (size_t i = 0; i < count; i++) {
        if (i == index) at = put_location(at, of.old, 5, 0, (uint32_t)below(CONSTANTS));
        else at = i < 3 ? put_location(at, of.old, 4, 0, 0) : put_location(at, of.old, 3, 7, (uint32_t)(8 * below(8)));
    }
    if (!of.old && count % 2 == 1) at = put(at, 0, 4);
    at = put(at, 0, 2);
    at = put(at, live_outs, 2);
    for (size_t i = 0; i < live_outs; i++) at = put(at, i | 8u << 24, 4);
    return live_outs % 2 ? at : put(at, 0, 4);
}

static void build(shape of) {
    const uint64_t functions = 26000, each = of.empty ? 24 : of.old ? 5 : 4; /* below the limit in every shape */
    const int old = of.old;
    size_t stride = old ? 16 : 24, at = 16 + stride * functions + 8 * CONSTANTS;
    uint32_t records = 0;
    memset(bytes, 0, at);
    bytes[0] = old ? 1 : 3;
    put(8, CONSTANTS, 4);
    for (uint64_t i = 0; i < functions; i++) {
        size_t f = 16 + stride * i;
        f = put(f, 0x400000 + 0x400 * i, 8);
        f = put(f, 64, 8);
        if (!old) put(f, each, 8);
        for (uint64_t k = 0; k < each; k++, records++) {
            uint32_t offset = old ? records : (uint32_t)(8 * k);
            last = old ? offset : 0x400000 + 0x400 * i + offset;
            at = put_record(at, of, offset);
        }
    }
    put(4, functions, 4);
    put(12, records, 4);
    length = at;
}

static double now(void) {
    struct timespec t;
    clock_gettime(CLOCK_MONOTONIC, &t);
    return (double)t.tv_sec * 1e3 + (double)t.tv_nsec / 1e6;
}

static void check_before(void) { sink += before_treskibben_check(bytes, length).number; }
static void check_after(void) { sink += after_treskibben_check(bytes, length).number; }
static void find_before(void) { sink += before_treskibben_find(bytes, length, last).index; }
static void find_after(void) { sink += after_treskibben_find(bytes, length, last).index; }
/* The registers of the frame that is moved alone, and a frame of each build at the last record. A build that reads no registers has the
 * stack pointer as the third number of its frame. */
static uint64_t own[REGISTERS];

static before_frame frame_before(void) {
    before_frame f;
    uint64_t numbers[4] = {last, 0, STACK, 0};
    memset(&f, 0, sizeof f);
    if (BEFORE_NUMBERS == 4) memcpy(&f, numbers, sizeof f);
    else f.address = last;
    own[RSP] = STACK;
    return f;
}
static after_frame frame_after(void) {
    after_frame f;
    uint64_t numbers[4] = {last, 0, STACK, 0};
    memset(&f, 0, sizeof f);
    if (AFTER_NUMBERS == 4) memcpy(&f, numbers, sizeof f);
    else f.address = last;
    own[RSP] = STACK;
    return f;
}
static void move_before(void) {
    sink += before_treskibben_relocate(bytes, length, image, sizeof image, STACK, NULL, 0, NULL, 0, BEFORE_AMD64 frame_before()
                                       BEFORE_OWN).number;
}
static void move_after(void) {
    sink += after_treskibben_relocate(bytes, length, image, sizeof image, STACK, NULL, 0, NULL, 0, AFTER_AMD64 frame_after()
                                      AFTER_OWN).number;
}

/* A thread: one frame for each of so many functions, each with its own part of the image; four numbers a frame, or two and 32 registers. */
enum { FRAMES = 4096, APART = 6 };

static uint64_t frames_before[4 * FRAMES], frames_after[4 * FRAMES], all[REGISTERS * FRAMES];

static void put_frame(uint64_t *frames, int numbers, uint64_t i) {
    frames[(uint64_t)numbers * i] = 0x400000 + 0x400 * APART * i;
    if (numbers == 4) frames[4 * i + 2] = STACK + 64 * i;
}
static void build_frames(void) {
    memset(image, 0, sizeof image);
    for (uint64_t i = 0; i < FRAMES; i++) {
        put_frame(frames_before, BEFORE_NUMBERS, i);
        put_frame(frames_after, AFTER_NUMBERS, i);
        all[REGISTERS * i + RSP] = STACK + 64 * i;
    }
}
static answer threaded_before(void) {
    return before_treskibben_thread(bytes, length, image, sizeof image, STACK, NULL, 0, NULL, 0, BEFORE_AMD64 frames_before,
                                    BEFORE_NUMBERS * FRAMES BEFORE_ALL);
}
static answer threaded_after(void) {
    return after_treskibben_thread(bytes, length, image, sizeof image, STACK, NULL, 0, NULL, 0, AFTER_AMD64 frames_after,
                                   AFTER_NUMBERS * FRAMES AFTER_ALL);
}
static void thread_before(void) { sink += threaded_before().number; }
static void thread_after(void) { sink += threaded_after().number; }

/* A frame of 256 pointers: the base slots one after another, then the derived ones; as many pairs, or a single pair of all of them. */
enum { POINTERS = 256, CALLS = 16 };

static uint64_t old_starts[POINTERS], new_starts[POINTERS];

static void build_full(int single) {
    const uint32_t count = single ? 5 : 3 + 2 * POINTERS, size = single ? 8 * POINTERS : 8;
    size_t at = 16 + 24;
    memset(bytes, 0, at);
    bytes[0] = 3;
    put(4, 1, 4);
    put(12, 1, 4);
    put(16, 0x400000, 8);
    put(24, 2 * 8 * POINTERS, 8);
    put(32, 1, 8);
    last = 0x400000;
    at = put(at, 7, 8);
    at = put(at, 0, 6);
    at = put(at, count, 2);
    for (uint32_t i = 0; i < count; i++) {
        size_t size_at = at + 2;
        uint32_t k = i < 3 ? 0 : (i - 3) / 2, slot = (i < 3 || i % 2 ? 0 : 8 * POINTERS) + 8 * k;
        at = i < 3 ? put_location(at, 0, 4, 0, 0) : put_location(at, 0, 3, 7, slot);
        if (i >= 3) put(size_at, size, 2);
    }
    if (count % 2 == 1) at = put(at, 0, 4);
    length = put(at, 0, 8);
    for (uint64_t k = 0; k < POINTERS; k++) {
        old_starts[k] = 0x10000 + 0x100 * k;
        new_starts[k] = 0x90000 + 0x100 * k;
        memcpy(image + 8 * k, &old_starts[k], 8);
    }
}

static void full_before(void) {
    before_frame f = frame_before();
    for (int i = 0; i < CALLS; i++)
        sink += before_treskibben_relocate(bytes, length, image, sizeof image, STACK, old_starts, POINTERS, new_starts, POINTERS,
                                           BEFORE_AMD64 f BEFORE_OWN).number;
}
static void full_after(void) {
    after_frame f = frame_after();
    for (int i = 0; i < CALLS; i++)
        sink += after_treskibben_relocate(bytes, length, image, sizeof image, STACK, old_starts, POINTERS, new_starts, POINTERS,
                                          AFTER_AMD64 f AFTER_OWN).number;
}

static int rising(const void *a, const void *b) {
    double x = *(const double *)a, y = *(const double *)b;
    return x < y ? -1 : x > y;
}

static double time_of(void (*action)(void)) {
    double start = now();
    action();
    return now() - start;
}

/* Medians of both, taken in turn, the first of the two by turns too. */
static void compare(const char *name, int rounds, void (*before)(void), void (*after)(void)) {
    static double a[ROUNDS_MOST], b[ROUNDS_MOST];
    for (int i = 0; i < rounds; i++) {
        if (i % 2) b[i] = time_of(after);
        a[i] = time_of(before);
        if (i % 2 == 0) b[i] = time_of(after);
    }
    qsort(a, (size_t)rounds, sizeof *a, rising);
    qsort(b, (size_t)rounds, sizeof *b, rising);
    printf("%-28s before %7.3f ms, after %7.3f ms, after/before %.3f (fastest: %.3f)\n", name, a[rounds / 2],
           b[rounds / 2], b[rounds / 2] / a[rounds / 2], b[0] / a[0]);
}

/* The moves of a full frame; a build from before request 5 refuses the single pair. */
static void full(int rounds) {
    build_full(0);
    compare("16 moves of 256 pairs", rounds, full_before, full_after);
    double pairs = time_of(full_after), single;
    for (int i = 0; i < rounds; i++) {
        double t = time_of(full_after);
        if (t < pairs) pairs = t;
    }
    build_full(1);
    single = time_of(full_after);
    for (int i = 0; i < rounds; i++) {
        double t = time_of(full_after);
        if (t < single) single = t;
    }
    printf("fastest move after, 256 pointers in one pair of 256 pairs: %.3f\n", single / pairs);
}

/* The check of sections of other kinds. */
static int kinds(int rounds) {
    static const struct { const char *name; shape of; } all[] = {
        {"odd and even", {.parity_mixed = 1}},     {"10% with live-outs", {.live_outs = 10}},
        {"all with live-outs", {.live_outs = 100}}, {"10% with a ConstIndex", {.const_index = 10}},
        {"all with a ConstIndex", {.const_index = 100}}, {"short records", {.empty = 1}},
#ifndef OLD_FRAME
        {"version 1, odd and even", {.old = 1, .parity_mixed = 1}}, {"version 1, all live-outs", {.old = 1, .live_outs = 100}},
        {"version 1, all ConstIndex", {.old = 1, .const_index = 100}}, {"version 1, short", {.old = 1, .empty = 1}},
#endif
    };
    puts("check of other kinds");
    for (size_t i = 0; i < sizeof all / sizeof *all; i++) {
        build(all[i].of);
        if (before_treskibben_check(bytes, length).number || after_treskibben_check(bytes, length).number) return 1;
        compare(all[i].name, rounds, check_before, check_after);
    }
    return 0;
}

int main(int argc, char **argv) {
    int rounds = argc > 1 ? atoi(argv[1]) : 101;
    if (rounds < 1 || rounds > ROUNDS_MOST) return 2;
    build((shape){0});
    if (before_treskibben_check(bytes, length).number || after_treskibben_check(bytes, length).number) return 1;
    printf("section of version 3, %zu bytes, %d rounds\n", length, rounds);
    compare("check", rounds, check_before, check_after);
    compare("question, last record", rounds, find_before, find_after);
    compare("move of the last frame", rounds, move_before, move_after);
#ifndef OLD_FRAME
    build_frames();
    printf("thread of %d frames: answers %d and %d\n", FRAMES, (int)threaded_before().number, (int)threaded_after().number);
    compare("thread of 4,096 frames", rounds, thread_before, thread_after);
#endif
    full(rounds);
    build((shape){0});
    double three = time_of(check_after) / (double)length;
    for (int i = 0; i < rounds; i++) {
        double t = time_of(check_after) / (double)length;
        if (t < three) three = t;
    }
    build((shape){.old = 1});
    if (after_treskibben_check(bytes, length).number) return 1;
    printf("section of version 1, %zu bytes\n", length);
#ifndef OLD_FRAME
    compare("check", rounds, check_before, check_after);
    compare("move of the last frame", rounds, move_before, move_after);
#endif
    double one = time_of(check_after) / (double)length;
    for (int i = 0; i < rounds; i++) {
        double t = time_of(check_after) / (double)length;
        if (t < one) one = t;
    }
    printf("fastest check, version 1 of version 3, a byte: %.3f\n", one / three);
    return kinds(rounds);
}

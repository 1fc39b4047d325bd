/*
 * The check of a section in C, unproved, by someone who wants to win: it answers whether a section of version 3 or 1 is accepted, and
 * names nothing. The words of a record's locations, each less one, are put together bit by bit and tested once; only where that shows
 * something is each looked at. The caller's bytes are read in place, a word at a time.
 */
#include <stddef.h>
#include <stdint.h>
#include <string.h>

static inline uint64_t word(const uint8_t *p) {
    uint64_t v;
    memcpy(&v, p, 8);
    return v;
}

static inline uint32_t half(const uint8_t *p) {
    uint32_t v;
    memcpy(&v, p, 4);
    return v;
}

/* Of a location's first eight bytes, less one: bits that are set where its kind is not 1 to 4, or a zero byte is not zero. */
#define SEEN(old) ((old) ? 0x00000000000000fcu : 0xffff00000000fffcu)
/* The same bits, with those of the kind. */
#define KIND(old) (SEEN(old) | 3)

/* The locations from `p` to `end`, `size` bytes each; an index into the pool is right below `limit`. */
static inline int locations(const uint8_t *p, const uint8_t *end, size_t size, uint32_t limit) {
    const int old = size == 8;
    uint64_t all = 0;
    for (const uint8_t *at = p; at < end; at += size) all |= word(at) - 1;
    if (!(all & SEEN(old))) return 1;
    for (; p < end; p += size) {
        uint64_t v = word(p) - 1;
        if (v & SEEN(old))
            if ((v & KIND(old)) != 4 || half(p + size - 4) >= limit) return 0;
    }
    return 1;
}

/* The live-outs, whose head stands at `p`: where they end, or NULL. */
static const uint8_t *live_outs(const uint8_t *p, const uint8_t *stop) {
    size_t count = half(p) >> 16;
    if (half(p) & 0xffff) return NULL;
    p += 4;
    if ((size_t)(stop - p) < 4 * count + 4 * (count % 2 == 0)) return NULL;
    uint64_t all = 0;
    for (; count > 1; count -= 2, p += 8) all |= word(p);
    if (count ? half(p) & 0x00ff0000u : half(p)) return NULL; /* the last one, or the padding */
    return all & 0x00ff000000ff0000u ? NULL : p + 4;
}

/* `count` records from `p`, of a function at `address`: where they end, or NULL. */
static inline const uint8_t *records(const uint8_t *p, const uint8_t *stop, uint64_t count, uint64_t address, size_t size,
                                     uint32_t limit) {
    for (; count > 0; count--) {
        if (stop - p < 24) return NULL; /* none is shorter */
        uint64_t head = word(p + 8);
        size_t n = head >> 48;
        const uint8_t *pad = p + 16 + size * n, *end = pad + (size == 12 && n % 2 ? 4 : 0);
        if ((size_t)(stop - p) < (size_t)(end - p) + 8) return NULL;
        if (head >> 32 & 0xffff) return NULL;
        if ((uint32_t)head > ~address) return NULL;
        if (!locations(p + 16, pad, size, limit)) return NULL;
        if (end != pad && half(pad)) return NULL;
        if (word(end) == 0) {
            p = end + 8;
        } else if (!(p = live_outs(end, stop))) {
            return NULL;
        }
    }
    return p;
}

static int check_3(const uint8_t *s, size_t functions, const uint8_t *p, const uint8_t *stop, uint64_t total, uint32_t limit) {
    const uint8_t *end = s + 16 + 24 * functions;
    uint64_t left = total;
    for (const uint8_t *f = s + 16; f < end; f += 24) {
        uint64_t count = word(f + 16);
        if (count > left) return 0;
        left -= count;
    }
    if (left) return 0;
    for (const uint8_t *f = s + 16; f < end; f += 24)
        if (!(p = records(p, stop, word(f + 16), word(f), 12, limit))) return 0;
    return p == stop;
}

/* Whether the section is accepted. */
int unproved_check(const uint8_t *s, size_t length) {
    if (length < 16 || length > 16777216) return 0;
    uint32_t version = half(s);
    if (version != 3 && version != 1) return 0;
    size_t functions = half(s + 4), constants = half(s + 8), room = length - 16;
    size_t stride = version == 3 ? 24 : 16;
    if (room / stride < functions) return 0;
    room -= stride * functions;
    if (room / 8 < constants) return 0;
    const uint8_t *p = s + 16 + stride * functions + 8 * constants, *stop = s + length;
    uint32_t total = half(s + 12), limit = constants < 0x80000000u ? (uint32_t)constants : 0x80000000u;
    if (version == 3) return check_3(s, functions, p, stop, total, limit);
    return records(p, stop, total, 0, 8, limit) == stop;
}

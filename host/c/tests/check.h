/* What every C test uses: checks that say where they failed, little-endian words, patterns, the checksum of an info block, layout and sizes. */
#ifndef CHECK_H
#define CHECK_H

#include <stdint.h>
#include <stdio.h>
#include <stdlib.h>
#include <string.h>

#include "btt.h"

static unsigned long checks;

static void failed(const char *file, int line, const char *what)
{
    fprintf(stderr, "%s:%d: %s\n", file, line, what);
    exit(1);
}

#define CHECK(what) ((what) ? (void)checks++ : failed(__FILE__, __LINE__, #what))

/* The number of elements of an array. */
#define COUNT(array) (sizeof(array) / sizeof(array)[0])

static inline void put_bytes(uint8_t *at, unsigned width, uint64_t value)
{
    for (unsigned i = 0; i < width; i++) {
        at[i] = (uint8_t)(value >> 8 * i);
    }
}

static inline uint64_t get_bytes(const uint8_t *at, unsigned width)
{
    uint64_t value = 0;

    for (unsigned i = 0; i < width; i++) {
        value |= (uint64_t)at[i] << 8 * i;
    }
    return value;
}

static inline void put32(uint8_t *at, uint32_t value)
{
    put_bytes(at, 4, value);
}

static inline uint32_t get32(const uint8_t *at)
{
    return (uint32_t)get_bytes(at, 4);
}

/* The layout in which a test opens its arenas, the other one, and numbers that are none. */
static uint32_t layout = BTT_LAYOUT_NEAR;
static const uint32_t layouts[] = {BTT_LAYOUT_NEAR, BTT_LAYOUT_FAR};
static const uint32_t no_layouts[] = {0, 1, 15, 17, 31, 33, 48, 64, 0x10010, 0x20000000, 0xFFFFFFFF};

static inline uint32_t other_layout(void)
{
    return layouts[layout == layouts[0]];
}

/* Whether a byte of a lane's 64, from 0, is in neither half. */
static inline int is_padding(size_t at)
{
    return layout == BTT_LAYOUT_NEAR ? at >= 32 : at % 32 >= 16;
}

/* The byte of a lane's 64 that stands for one of layout 16: there bytes 16 to 31 and bytes 32 to 47 change places in layout 32. */
static inline size_t lane_byte(size_t at)
{
    return layout == BTT_LAYOUT_FAR && at >= 16 && at < 48 ? at ^ 48 : at;
}

/* Bytes of their own for each seed. */
static inline void pattern(uint8_t *at, size_t length, uint32_t seed)
{
    uint32_t x = seed * 2654435761u + 1;

    for (size_t i = 0; i < length; i++) {
        x = x * 1664525u + 1013904223u;
        at[i] = (uint8_t)(x >> 24);
    }
}

static inline int all_bytes(const uint8_t *at, size_t length, uint8_t value)
{
    for (size_t i = 0; i < length; i++) {
        if (at[i] != value) {
            return 0;
        }
    }
    return 1;
}

/* Gives an info block the checksum of its other bytes. */
static inline void seal(uint8_t *block)
{
    uint32_t low = 0, high = 0;

    for (unsigned i = 0; i < 1022; i++) {
        low += get32(block + 4 * i);
        high += low;
    }
    high += 2 * low;
    put32(block + 4088, low);
    put32(block + 4092, high);
}

static inline size_t units(size_t bytes)
{
    return (bytes + 4095) / 4096 * 4096;
}

/* The bytes of a sector with those of a block: every pair that there is. */
static const uint32_t pairs[][2] = {{512, 512}, {520, 576}, {528, 576}, {4096, 4096}, {4104, 4160}};

/* Numbers that are tried as either of the two. */
static const uint32_t tried_sizes[] = {
    0, 1, 64, 511, 512, 513, 519, 520, 521, 528, 532, 575, 576, 577, 640, 1024, 4032, 4095, 4096, 4097, 4104, 4108, 4160, 4224, 0x10200, 0x80000208,
    0xFFFFFFFF,
};

static inline int is_pair(uint32_t size, uint32_t internal)
{
    for (size_t i = 0; i < COUNT(pairs); i++) {
        if (pairs[i][0] == size && pairs[i][1] == internal) {
            return 1;
        }
    }
    return 0;
}

/* The bytes of a block for sectors of that size. */
static inline size_t internal_size(size_t size)
{
    return (size + 63) / 64 * 64;
}

/* The length that making works out. */
static inline size_t arena_length(size_t size, size_t sectors, size_t lanes)
{
    return 4096 + units(internal_size(size) * (sectors + lanes)) + units(4 * sectors) + units(64 * lanes) + 4096;
}

/* Whether the rest of each block, its bytes after those of the sector, is alike in two images of an arena whose data start at 4,096. */
static inline int same_rest(const uint8_t *one, const uint8_t *other, size_t size, size_t blocks)
{
    for (size_t at = 4096 + size; blocks > 0; at += internal_size(size), blocks--) {
        if (memcmp(one + at, other + at, internal_size(size) - size) != 0) {
            return 0;
        }
    }
    return 1;
}

#endif

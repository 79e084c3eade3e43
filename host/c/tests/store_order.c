/*
 * The order and the width of the stores to the arena in the compiled library: a step is one store of 4 bytes, an opening one for each pending
 * lane in rising order, a whole write its data and then five of 4 bytes; nothing else stores, and no refused call does. All of it is watched
 * in both layouts, and writes and mending with blocks that are as long as a sector and with longer ones, and with 1 lane to 256.
 *
 * Asked for a file, the program writes there the address of each instruction of its own that ran while it watched, and which of them stored
 * to the arena, for machine_code.py to look up.
 */
#include "watch.h"

static struct btt_handle handle;
static struct btt_lane table[BTT_MAX_LANES];
static uint32_t mended;
static uint8_t work[512], buffer[BTT_MAX_SECTOR];

/* The table as a call takes it: all of it, or just so many records. */
#define RECORDS table, BTT_MAX_LANES
#define FEW(records) table, (records)

/* Stores that are known are watched first, some of them of the bytes that are there already. */
static void known_stores(void)
{
    static const struct store known[] = {{0, 8, 4}, {0, 16, 8}, {0, 33, 1}, {0, 34, 2}, {0, 62, 16}, {0, 4093, 8}, {0, 80, 1}, {0, 81, 1}};
    const uint8_t *from = buffer;
    uint8_t *to;
    size_t count = 2;

    length = ROOM;
    to = arena + 80;
    pattern(arena, length, 1);
    tracing = 1;
    watch();
    *(volatile uint32_t *)(void *)(arena + 8) = *(const volatile uint32_t *)(void *)(arena + 8);
    *(volatile uint64_t *)(void *)(arena + 16) = ~*(const volatile uint64_t *)(void *)(arena + 16);
    *(volatile uint8_t *)(arena + 33) = 0;
    *(volatile uint16_t *)(void *)(arena + 34) = *(const volatile uint16_t *)(void *)(arena + 34);
    __asm__ volatile("movups %%xmm0, %0" : "=m"(*(uint8_t(*)[16])(arena + 62)));
    __asm__ volatile("movq %1, %0" : "=m"(*(uint8_t(*)[8])(arena + 4093)) : "r"(from));
    __asm__ volatile("rep movsb" : "+S"(from), "+D"(to), "+c"(count) : : "memory");
    unwatch();
    tracing = 0;
    CHECK(made == COUNT(known));
    for (size_t i = 0; i < COUNT(known); i++) {
        CHECK(stores[i].offset == known[i].offset && stores[i].width == known[i].width && own_code(stores[i].code));
    }
    memset(ran, 0, 3 * (size_t)(stored - ran));
}

static void fresh(uint32_t size, uint32_t sectors, uint32_t lanes)
{
    length = arena_length(size, sectors, lanes);
    CHECK(length <= ROOM && sectors + lanes <= sizeof work);
    pattern(arena, length, 2);
    CHECK(btt_make(arena, length, size, sectors, lanes, buffer, 16, buffer + 16, 16) == 0);
    tracing = 0;
    WATCHED(0, btt_open(arena, length, work, sectors + lanes, layout, RECORDS, &handle, &mended));
    CHECK(made == 0 && mended == 0);
}

/* A store of the four bytes of one word, by an instruction of the library. */
static void check_word(const struct store *s, uint64_t offset)
{
    CHECK(s->offset == offset && s->width == 4 && offset % 4 == 0);
    CHECK(own_code(s->code));
    mark(stored_word, s->code);
}

/* The place of store k, from 0, of a write. */
static uint64_t place(const struct btt_lane *r, uint32_t lane, uint32_t k)
{
    uint32_t words = handle.size / 4;

    if (k < words) {
        return handle.data + (uint64_t)r->block * handle.internal + 4 * k;
    }
    return k < words + 4 ? handle.flog + 64 * lane + layout * r->half + 4 * (k - words) : handle.map + 4 * r->sector;
}

/* The first stores of a write by steps: a start stores nothing, a step one word. */
static void watch_steps(uint32_t lane, uint32_t sector, uint32_t count)
{
    struct btt_lane r;

    WATCHED(0, btt_start(arena, length, &handle, RECORDS, lane, sector));
    CHECK(made == 0);
    r = table[lane];
    for (uint32_t k = 0; k < count; k++) {
        tracing = k % 64 == 0 || k >= handle.size / 4;
        WATCHED(0, btt_step(arena, length, &handle, RECORDS, lane, buffer, handle.size));
        CHECK(made == 1);
        check_word(&stores[0], place(&r, lane, k));
    }
}

/* A whole write: first the data, rising without a gap, then the four flog words and the map word, each a store of its own. */
static void watch_write(uint32_t lane, uint32_t sector)
{
    struct btt_lane r = table[lane];
    uint32_t stored_bytes = 0, words = handle.size / 4;
    size_t i = 0;

    r.sector = sector;
    WATCHED(0, btt_write(arena, length, &handle, RECORDS, lane, sector, buffer, handle.size));
    for (; stored_bytes < handle.size; i++) {
        CHECK(i < made && stores[i].offset == place(&r, lane, 0) + stored_bytes);
        stored_bytes += stores[i].width;
    }
    CHECK(stored_bytes == handle.size && made == i + 5);
    for (uint32_t k = 0; k < 5; k++) {
        check_word(&stores[i + k], place(&r, lane, words + k));
    }
}

/* A write by steps, unwatched, that is left when it lacks only its map word. */
static void lack_map_word(uint32_t lane, uint32_t sector)
{
    CHECK(btt_start(arena, length, &handle, RECORDS, lane, sector) == 0);
    for (uint32_t k = 0; k < handle.size / 4 + 4; k++) {
        CHECK(btt_step(arena, length, &handle, RECORDS, lane, buffer, handle.size) == 0);
    }
}

/*
 * Openings of an arena in which lanes lack only their map words: one word for each, in rising order, and none after the first k; of many lanes
 * some k are enough, and no tracing.
 */
static void watch_mending(uint32_t size, uint32_t sectors, uint32_t lanes)
{
    static uint8_t pending[ROOM];
    uint32_t blocks = sectors + lanes;

    fresh(size, sectors, lanes);
    for (uint32_t lane = 0; lane < lanes; lane++) {
        for (uint32_t i = 0; i < lane % 3; i++) {
            CHECK(btt_write(arena, length, &handle, RECORDS, lane, 0, buffer, size) == 0);
        }
        if (lane % 4 != 1) {
            lack_map_word(lane, sectors - 1 - lane);
        }
    }
    memcpy(pending, arena, length);
    for (uint32_t k = 0; k <= lanes + 1; k += lanes > 16 && k < lanes ? 64 : 1) {
        size_t i = 0;

        tracing = k % 2 && lanes <= 16;
        memcpy(arena, pending, length);
        if (k <= lanes) {
            WATCHED(0, btt_cut_open(arena, length, work, blocks, layout, RECORDS, k, &mended));
        } else {
            WATCHED(0, btt_open(arena, length, work, blocks, layout, RECORDS, &handle, &mended));
        }
        CHECK(mended == lanes - (lanes + 2) / 4 && made == (k < mended ? k : mended));
        for (uint32_t lane = 0; i < made; lane++) {
            if (lane % 4 != 1) {
                check_word(&stores[i++], handle.map + 4 * (sectors - 1 - lane));
            }
        }
    }
}

/* A call that must answer so and store nothing, not even the bytes that are there already. */
#define STORES_NOTHING(want, call) do { WATCHED(want, call); CHECK(made == 0); } while (0)

/* Openings of an arena in which a lane is pending; offsets from the flog's start on are those of layout 16. */
static void watch_refused_openings(void)
{
    static const struct {
        size_t at;
        uint32_t value, answer;
    } damage[] = {
        {52, 1, 3}, {56, 520, 3}, {64, 576, 3}, {48, 1, 4}, {40972, 0, 6}, {40972, 4, 6}, {40988, 1, 6}, {41152, 60, 6},
        {36864, 0xC0000040, 7}, {37100, 0x40000040, 7}, {36864, 1, 18}, {36892, 7, 18}, {37100, 0x3FFFFFFF, 18}, {40992, 1, 18},
        {41212, 0x80000000, 18}, {36884, 0xC0000007, 8}, {36888, 0x80000007, 8},
    };

    for (size_t i = 0; i < COUNT(damage); i++) {
        size_t at = damage[i].at;

        fresh(512, 60, 4);
        lack_map_word(1, 7);
        put32(arena + (at < 40960 ? at : at - at % 64 + lane_byte(at % 64)), damage[i].value);
        seal(arena);
        tracing = 1;
        STORES_NOTHING(damage[i].answer, btt_open(arena, length, work, 64, layout, RECORDS, &handle, &mended));
        STORES_NOTHING(damage[i].answer, btt_cut_open(arena, length, work, 64, layout, RECORDS, 4, &mended));
    }
    fresh(512, 60, 4);
    tracing = 1;
    STORES_NOTHING(5, btt_open(arena, length, work, 63, layout, RECORDS, &handle, &mended));
    arena[16] ^= 1;
    STORES_NOTHING(0, btt_open(arena, length, work, 64, layout, RECORDS, &handle, &mended));
    arena[length - 16] ^= 1;
    STORES_NOTHING(2, btt_open(arena, length, work, 64, layout, RECORDS, &handle, &mended));
    STORES_NOTHING(1, btt_open(arena, length - 4, work, 64, layout, RECORDS, &handle, &mended));
}

/* Every call with a table that is too short, with a lane pending in the arena and one in flight. */
static void watch_short_tables(void)
{
    struct btt_lane record;
    uint64_t offset;

    fresh(512, 60, 4);
    lack_map_word(1, 7);
    watch_steps(0, 6, 1);
    tracing = 1;
    for (size_t records = 0; records < 4; records++) {
        STORES_NOTHING(21, btt_read(arena, length, &handle, FEW(records), 7, buffer, 512));
        STORES_NOTHING(21, btt_start(arena, length, &handle, FEW(records), 2, 8));
        STORES_NOTHING(21, btt_step(arena, length, &handle, FEW(records), 0, buffer, 512));
        STORES_NOTHING(21, btt_write(arena, length, &handle, FEW(records), 2, 8, buffer, 512));
        STORES_NOTHING(21, btt_lane_record(arena, length, &handle, FEW(records), 0, &record));
        STORES_NOTHING(21, btt_next_store(arena, length, &handle, FEW(records), 0, &offset));
    }
    for (size_t records = 0; records < 4; records++) {
        STORES_NOTHING(21, btt_cut_open(arena, length, work, 64, layout, FEW(records), 4, &mended));
        STORES_NOTHING(21, btt_open(arena, length, work, 64, layout, FEW(records), &handle, &mended));
    }
}

/* The same told no layout, and the other one, in which the pending lane's half is padding. */
static void watch_refused_layouts(void)
{
    fresh(512, 60, 4);
    lack_map_word(1, 7);
    tracing = 1;
    for (size_t i = 0; i < COUNT(no_layouts); i++) {
        STORES_NOTHING(16, btt_open(arena, length, work, 64, no_layouts[i], RECORDS, &handle, &mended));
        STORES_NOTHING(16, btt_cut_open(arena, length, work, 64, no_layouts[i], RECORDS, 4, &mended));
    }
    STORES_NOTHING(18, btt_open(arena, length, work, 64, other_layout(), RECORDS, &handle, &mended));
    STORES_NOTHING(18, btt_cut_open(arena, length, work, 64, other_layout(), RECORDS, 4, &mended));
}

static void watch_other_calls(void)
{
    struct btt_lane record;
    uint64_t offset, bytes;

    fresh(512, 60, 4);
    watch_steps(0, 7, 2);
    put32(arena + handle.map + 20, 0x80000040);
    put32(arena + handle.map + 24, 6);
    tracing = 1;
    STORES_NOTHING(3, btt_make(arena, length, 512, 3, 4, buffer, 16, buffer + 16, 16));
    STORES_NOTHING(1, btt_make(arena, length, 512, 70, 4, buffer, 16, buffer + 16, 16));
    STORES_NOTHING(10, btt_make(arena, length, 512, 60, 4, buffer, 15, buffer + 16, 16));
    STORES_NOTHING(0, (btt_info_block(arena, length, &offset, &bytes), 0));
    STORES_NOTHING(0, btt_read(arena, length, &handle, RECORDS, 7, buffer, 512));
    STORES_NOTHING(9, btt_read(arena, length, &handle, RECORDS, 60, buffer, 512));
    STORES_NOTHING(18, btt_read(arena, length, &handle, RECORDS, 6, buffer, 512));
    STORES_NOTHING(18, btt_start(arena, length, &handle, RECORDS, 1, 6));
    STORES_NOTHING(0, btt_lane_record(arena, length, &handle, RECORDS, 0, &record));
    STORES_NOTHING(0, btt_next_store(arena, length, &handle, RECORDS, 0, &offset));
    STORES_NOTHING(14, btt_step(arena, length, &handle, RECORDS, 1, buffer, 512));
    STORES_NOTHING(10, btt_step(arena, length, &handle, RECORDS, 0, buffer, 511));
    STORES_NOTHING(11, btt_step(arena, length, &handle, RECORDS, 4, buffer, 512));
    STORES_NOTHING(11, btt_write(arena, length, &handle, RECORDS, 4, 3, buffer, 512));
    STORES_NOTHING(12, btt_write(arena, length, &handle, RECORDS, 0, 3, buffer, 512));
    STORES_NOTHING(9, btt_write(arena, length, &handle, RECORDS, 1, 60, buffer, 512));
    STORES_NOTHING(10, btt_write(arena, length, &handle, RECORDS, 1, 3, buffer, 511));
    STORES_NOTHING(13, btt_write(arena, length, &handle, RECORDS, 1, 7, buffer, 512));
    STORES_NOTHING(7, btt_write(arena, length, &handle, RECORDS, 1, 5, buffer, 512));
    STORES_NOTHING(18, btt_write(arena, length, &handle, RECORDS, 1, 6, buffer, 512));
}

/* A layout that is none, a broken figure and sizes that are no pair, and then a broken record. */
static void watch_forged_handles(void)
{
    struct btt_handle forged[4];

    fresh(512, 60, 4);
    watch_steps(0, 7, 2);
    forged[0] = forged[1] = forged[2] = forged[3] = handle;
    forged[0].layout = 48;
    forged[1].copy = 0;
    forged[2].internal = 576;
    tracing = 1;
    for (size_t i = 0; i < COUNT(forged); i++) {
        table[3].busy = i < 3 ? 0 : 2;
        STORES_NOTHING(16, btt_write(arena, length, &forged[i], RECORDS, 1, 3, buffer, 512));
        STORES_NOTHING(16, btt_step(arena, length, &forged[i], RECORDS, 0, buffer, 512));
    }
}

/*
 * Whole writes on each lane in turn, over all four map states, and writes by steps; in four turns both halves and all sequence numbers
 * occur.
 */
static void watch_writes(uint32_t size, uint32_t sectors, uint32_t lanes, uint32_t turns)
{
    fresh(size, sectors, lanes);
    for (uint32_t i = 0; i < 4 && i < sectors; i++) {
        put32(arena + handle.map + 4 * i, i << 30 | i);
    }
    for (uint32_t i = 0; i < turns * lanes; i++) {
        tracing = i % 5 == 0;
        pattern(buffer, size, i);
        watch_write(i % lanes, i % sectors);
    }
    memset(buffer, 0, size);
    watch_write(0, 0);
    watch_write(0, 0);
    for (uint32_t i = 0; i < (turns + 1) / 2; i++) {
        pattern(buffer, size, i);
        watch_steps(lanes - 1, i, size / 4 + 5);
    }
}

/* A write by steps and a whole one on the last of 256 lanes, some of it traced. */
static void watch_last_lane(void)
{
    fresh(512, 256, 256);
    watch_steps(255, 7, 133);
    tracing = 1;
    watch_write(255, 7);
    CHECK(stores[made - 1].offset == 266268);
}

/* The instructions of this program, by their addresses: those that ran, those that stored to the arena, those that stored a flog or map word. */
static void list_instructions(const char *path)
{
    FILE *file = fopen(path, "w");
    size_t code = (size_t)(stored - ran);

    CHECK(file != NULL);
    for (size_t i = 0; i < code; i++) {
        if (ran[i]) {
            fprintf(file, "%lx%s%s\n", (unsigned long)((uintptr_t)__executable_start + i), stored[i] ? " stored" : "", stored_word[i] ? " word" : "");
        }
    }
    CHECK(fclose(file) == 0);
}

int main(int count, char **words)
{
    set_up();
    known_stores();
    for (size_t i = 0; i < COUNT(layouts); i++) {
        layout = layouts[i];
        watch_writes(512, 60, 4, 4);
        watch_writes(512, 3, 1, 4);
        watch_writes(520, 60, 4, 4);
        watch_writes(4096, 4, 2, 1);
        watch_writes(4104, 4, 2, 1);
        watch_mending(512, 60, 4);
        watch_mending(512, 20, 16);
        watch_mending(512, 256, 256);
        watch_mending(528, 60, 4);
        watch_mending(4096, 5, 2);
        watch_mending(4104, 5, 2);
        watch_refused_openings();
        watch_refused_layouts();
        watch_short_tables();
        watch_other_calls();
        watch_forged_handles();
        watch_last_lane();
    }
    if (count > 1) {
        list_instructions(words[1]);
    }
    printf("store_order: %lu calls watched, %lu stores to the arena, %lu checks\n", calls, all_stores, checks);
    return 0;
}

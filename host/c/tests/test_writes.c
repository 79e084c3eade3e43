/*
 * Writes from C, store by store and whole, for every sector size and in both layouts: each step's one word, reads meanwhile, and a power cut
 * after every store. Case 9 and its twin and case 10 are here with the figures of docs/FORMAT.md, section 14, and with them the other sizes.
 */
#include "lent.h"

struct store {
    uint64_t at;
    uint32_t value;
};

/* Store k, from 0, of the write that a lane has in flight. */
static struct store store_of(uint32_t lane, uint32_t k)
{
    const struct btt_lane *r = &table[lane];
    uint32_t words = handle->size / 4, part = k - words;
    const uint32_t flog[] = {r->sector, r->old, r->block, r->sequence};

    if (k < words) {
        return (struct store){handle->data + (uint64_t)r->block * handle->internal + 4 * k, get32(lent[BUFFER].at + 4 * k)};
    }
    if (part < 4) {
        return (struct store){handle->flog + 64 * lane + layout * r->half + 4 * part, flog[part]};
    }
    return (struct store){handle->map + 4 * r->sector, 0xC0000000 + r->block};
}

/* A step that makes this store, and none but it. */
static void step_stores(uint32_t lane, struct store s)
{
    CALL(0, STEPPED, step(lane));
    CHECK(get32(arena + s.at) == s.value);
    put32(lent[ARENA].copy + (arena - lent[ARENA].pages) + s.at, s.value);
    CHECK(kept(&lent[ARENA]));
}

/* The step that makes store k changes that one word and, of the table, the lane's record. */
static void one_step(uint32_t lane, uint32_t k)
{
    struct store s = store_of(lane, k);
    struct btt_lane r = table[lane], after = r;

    CALL(0, ONLY(OFFSET), next_store(lane));
    CHECK(get_bytes(lent[OFFSET].at, 8) == s.at);
    step_stores(lane, s);
    if (k + 1 < handle->size / 4 + 5) {
        after.made = k + 1;
    } else {
        after = (struct btt_lane){.block = r.old, .half = 1 - r.half, .sequence = r.sequence % 3 + 1};
    }
    CHECK(memcmp(&table[lane], &after, sizeof after) == 0);
}

/* The power is cut: a copy of the arena is opened, and must count so many mended lanes and give these bytes for the sector. */
static void cut_gives(uint32_t sector, uint32_t count, const uint8_t *bytes)
{
    static uint8_t image[65536], room[256], got[BTT_MAX_SECTOR];
    struct btt_lane records[16];
    struct btt_handle opened;
    uint32_t pending;

    CHECK(lent[ARENA].length <= sizeof image && handle->blocks <= sizeof room);
    memcpy(image, arena, lent[ARENA].length);
    CHECK(btt_open(image, lent[ARENA].length, room, sizeof room, layout, records, COUNT(records), &opened, &pending) == 0);
    CHECK(pending == count);
    CHECK(btt_read(image, lent[ARENA].length, &opened, records, COUNT(records), sector, got, handle->size) == 0);
    CHECK(memcmp(got, bytes, handle->size) == 0 && same_rest(image, arena, handle->size, handle->blocks));
    CHECK(btt_open(image, lent[ARENA].length, room, sizeof room, layout, records, COUNT(records), &opened, &pending) == 0);
    CHECK(pending == 0);
}

/* What a read gives now; the sector buffer is left as it was. */
static void content(uint32_t sector, uint8_t *bytes)
{
    CHECK(btt_read(arena, lent[ARENA].length, handle, table, handle->lanes, sector, bytes, handle->size) == 0);
}

/* A write by steps, with a read and a cut after every store; then the same write whole must end the same. */
static void write_both_ways(uint32_t lane, uint32_t sector)
{
    static uint8_t arena_was[65536], arena_then[65536], before[BTT_MAX_SECTOR], now[BTT_MAX_SECTOR];
    struct btt_lane record_was = table[lane], record_then;
    uint32_t stores = handle->size / 4 + 5;
    const uint8_t *bytes = lent[BUFFER].at;

    memcpy(arena_was, arena, lent[ARENA].length);
    content(sector, before);
    CALL(0, ONLY(TABLE), start(lane, sector));
    for (uint32_t k = 0; k <= stores; k++) {
        content(sector, now);
        CHECK(memcmp(now, k == stores ? bytes : before, handle->size) == 0);
        cut_gives(sector, k == stores - 1, k < stores - 1 ? before : bytes);
        if (k < stores) {
            one_step(lane, k);
        }
    }
    CALL(14, NOTHING, step(lane));
    record_then = table[lane];
    memcpy(arena_then, arena, lent[ARENA].length);
    memcpy(arena, arena_was, lent[ARENA].length);
    table[lane] = record_was;
    CALL(0, STEPPED, write_sector(lane, sector));
    CHECK(memcmp(&table[lane], &record_then, sizeof record_then) == 0);
    CHECK(memcmp(arena, arena_then, lent[ARENA].length) == 0);
}

static void test_both_ways(void)
{
    static const uint32_t shapes[][3] = {
        {512, 60, 4}, {512, 1, 1}, {512, 20, 16}, {520, 60, 4}, {520, 1, 1}, {528, 60, 4}, {528, 20, 16}, {4096, 3, 2}, {4104, 3, 2}
    };

    for (size_t i = 0; i < COUNT(shapes); i++) {
        uint32_t sectors = shapes[i][1], lanes = shapes[i][2];

        fresh(shapes[i][0], sectors, lanes);
        for (uint32_t round = 0; round < 5; round++) {
            pattern(lent[BUFFER].at, lent[BUFFER].length, 100 + round);
            write_both_ways((lanes - 1) * (round % 2), sectors - 1 - (sectors - 1) / 2 * (round % 3));
        }
    }
}

/* All lanes in flight at once, a step at a time in turn: a cut there mends just the lanes that lack only their map word. */
static void test_in_turn(void)
{
    static uint8_t before[SIZE];

    fresh(SIZE, 20, 16);
    pattern(lent[BUFFER].at, lent[BUFFER].length, 200);
    for (uint32_t lane = 0; lane < 16; lane++) {
        CALL(0, ONLY(TABLE), start(lane, 19 - lane));
        content(19 - lane, before);
        CHECK(all_bytes(before, SIZE, 0));
    }
    for (uint32_t k = 0; k < LAST; k++) {
        for (uint32_t lane = 0; lane < 16; lane++) {
            cut_gives(19 - lane, k < LAST - 1 ? 0 : lane, before);
            one_step(lane, k);
        }
    }
    for (uint32_t lane = 0; lane < 16; lane++) {
        cut_gives(19 - lane, 16 - lane, lent[BUFFER].at);
        one_step(lane, LAST);
    }
    cut_gives(4, 0, lent[BUFFER].at);
}

/*
 * Lane 0 of a fresh arena writes a sector: the arena's length, the places of the write's first and last data word, its last five stores in
 * layout 16, where the flog words go in layout 32, and how many stores there are. The first row is case 9 and its twin; all places were
 * worked out by hand.
 */
static const struct worked {
    uint32_t size, sectors, lanes, sector;
    size_t length, first_data, last_data;
    struct store last[5];
    uint64_t far[4];
    uint32_t stores;
} worked[] = {
    {512, 60, 4, 7, 49152, 34816, 35324, {{40976, 7}, {40980, 7}, {40984, 60}, {40988, 2}, {36892, 0xC000003C}}, {40992, 40996, 41000, 41004}, 133},
    {520, 60, 4, 7, 53248, 38656, 39172, {{45072, 7}, {45076, 7}, {45080, 60}, {45084, 2}, {40988, 0xC000003C}}, {45088, 45092, 45096, 45100}, 135},
    {528, 60, 4, 7, 53248, 38656, 39180, {{45072, 7}, {45076, 7}, {45080, 60}, {45084, 2}, {40988, 0xC000003C}}, {45088, 45092, 45096, 45100}, 137},
    {4096, 3, 2, 1, 36864, 16384, 20476, {{28688, 1}, {28692, 1}, {28696, 3}, {28700, 2}, {24580, 0xC0000003}}, {28704, 28708, 28712, 28716}, 1029},
    {4104, 3, 2, 1, 40960, 16576, 20676, {{32784, 1}, {32788, 1}, {32792, 3}, {32796, 2}, {28676, 0xC0000003}}, {32800, 32804, 32808, 32812}, 1031},
};

/* Store n, from 1, of such a write. */
static struct store worked_store(const struct worked *w, uint32_t n)
{
    uint32_t words = w->stores - 5;
    struct store s;

    if (n <= words) {
        return (struct store){w->first_data + 4 * (n - 1), get32(lent[BUFFER].at + 4 * (n - 1))};
    }
    s = w->last[n - words - 1];
    if (n < w->stores && layout == BTT_LAYOUT_FAR) {
        s.at = w->far[n - words - 1];
    }
    return s;
}

static void test_worked(void)
{
    static const uint8_t zeroes[BTT_MAX_SECTOR];

    for (const struct worked *w = worked; w < worked + COUNT(worked); w++) {
        fresh(w->size, w->sectors, w->lanes);
        CHECK(lent[ARENA].length == w->length);
        pattern(lent[BUFFER].at, w->size, 9);
        CHECK(worked_store(w, w->stores - 5).at == w->last_data);
        CALL(0, ONLY(TABLE), start(0, w->sector));
        for (uint32_t n = 1; n <= w->stores; n++) {
            step_stores(0, worked_store(w, n));
            cut_gives(w->sector, n == w->stores - 1, n < w->stores - 1 ? zeroes : lent[BUFFER].at);
        }
        CHECK(table[0].busy == 0 && table[0].block == w->sector);
    }
}

static void test_case_10(void)
{
    fresh_case();
    CALL(0, ONLY(BUFFER), read_sector(59));
    CALL(9, NOTHING, read_sector(60));
    CALL(11, NOTHING, start(4, 0));
    CALL(11, NOTHING, step(4));
    CALL(11, NOTHING, write_sector(4, 0));
    CALL(0, ONLY(TABLE), start(0, 0));
    lend(BUFFER, 511);
    CALL(10, NOTHING, read_sector(59));
    CALL(10, NOTHING, step(0));
    CALL(10, NOTHING, write_sector(1, 1));
    lend(WORK, 63);
    CALL(5, ONLY(HANDLE) | ONLY(MENDED), open_arena());
    CALL(5, ONLY(MENDED), cut_open(1));
    lend(WORK, 64);
    CALL(0, OPENED, open_arena());
}

int main(void)
{
    static const test tests[] = {test_both_ways, test_in_turn, test_worked, test_case_10};

    return run("test_writes", tests, COUNT(tests), COUNT(layouts));
}

/*
 * Arenas of 256 lanes, from C, in both layouts: the stores of lane 255 and its cuts, lanes that are not there, all lanes pending at once, two
 * of them with one sector, and 257 lanes, which no arena has.
 */
#include "lent.h"

/* The byte at which the map and the flog of the arena of 256 sectors of 512 bytes and 256 lanes start. */
enum { MANY_MAP = 266240, MANY_FLOG = 270336 };

/* The power is cut: a copy of the arena of 256 lanes is opened, must count so many mended lanes and give such bytes for sector 7. */
static void cut_gives(uint32_t count, uint8_t value)
{
    static uint8_t image[290816], room[512], got[512];
    static struct btt_lane records[256];
    struct btt_handle opened;
    uint32_t pending;

    memcpy(image, arena, sizeof image);
    CHECK(btt_cut_open(image, sizeof image, room, sizeof room, layout, records, 256, 0, &pending) == 0 && pending == count);
    CHECK(btt_open(image, sizeof image, room, sizeof room, layout, records, 256, &opened, &pending) == 0 && pending == count);
    CHECK(btt_read(image, sizeof image, &opened, records, 256, 7, got, sizeof got) == 0 && all_bytes(got, sizeof got, value));
    CHECK(records[255].block == (value == 0 ? 511 : 7));
}

/*
 * Lane 255 of a fresh arena of 256 lanes writes sector 7: stores 1, 129 and 133 stand at these bytes, which were worked out by hand. Cut
 * after 131 stores the sector is old, after 132 new with one lane mended, after 133 new with none.
 */
static void test_lane_255(void)
{
    size_t first_flog = layout == BTT_LAYOUT_NEAR ? 286672 : 286688;

    fresh(512, 256, 256);
    CHECK(lent[ARENA].length == 290816);
    memset(lent[BUFFER].at, 9, SIZE);
    CALL(0, ONLY(TABLE), start(255, 7));
    CALL(13, NOTHING, start(254, 7));
    CALL(13, NOTHING, write_sector(0, 7));
    for (uint32_t n = 1; n <= 133; n++) {
        size_t at = n <= 128 ? 265728 + 4 * (n - 1) : n < 133 ? first_flog + 4 * (n - 129) : 266268;

        cut_gives(n == 133, n < 133 ? 0 : 9);
        CALL(0, ONLY(OFFSET), next_store(255));
        CHECK(get_bytes(lent[OFFSET].at, 8) == at);
        CALL(0, STEPPED, step(255));
        CHECK(kept_but(&lent[ARENA], at, 4));
    }
    cut_gives(0, 9);
    CHECK(get32(arena + first_flog) == 7 && get32(arena + first_flog + 4) == 7 && get32(arena + first_flog + 8) == 511);
    CHECK(get32(arena + first_flog + 12) == 2 && get32(arena + 266268) == 0xC00001FF);
    CALL(14, NOTHING, next_store(255));
    CALL(0, STEPPED, write_sector(255, 7));
    CHECK(get32(arena + 286656 + 12) == 3 && get32(arena + 266268) == 0xC0000007);
}

/* Lanes 256 and up are not there, in any call. */
static void test_no_such_lane(void)
{
    static const uint32_t lanes[] = {256, 257, 511, 512, 65536, 0x80000000, 0xFFFFFFFF};

    fresh(512, 256, 256);
    CALL(0, ONLY(TABLE), start(0, 7));
    for (size_t i = 0; i < COUNT(lanes); i++) {
        CALL(11, NOTHING, start(lanes[i], 8));
        CALL(11, NOTHING, step(lanes[i]));
        CALL(11, NOTHING, write_sector(lanes[i], 8));
        CALL(11, NOTHING, lane_record(lanes[i]));
        CALL(11, NOTHING, next_store(lanes[i]));
    }
}

/* All of 256 lanes lack only their map words: an opening mends all of them, and a cut one the first. */
static void test_all_pending(void)
{
    fresh(512, 256, 256);
    for (uint32_t lane = 0; lane < 256; lane++) {
        table[lane].busy = 1;
        table[lane].sector = table[lane].old = 255 - lane;
        table[lane].made = 128;
        for (int k = 0; k < 4; k++) {
            CALL(0, STEPPED, step(lane));
        }
    }
    CALL(0, ONLY(ARENA) | ONLY(WORK) | ONLY(MENDED), cut_open(200));
    CHECK(mended() == 256 && get32(arena + MANY_MAP + 4 * 56) == 0xC00001C7 && get32(arena + MANY_MAP + 4 * 55) == 0);
    CALL(0, ONLY(ARENA) | OPENED, open_arena());
    CHECK(mended() == 56);
    for (uint32_t lane = 0; lane < 256; lane++) {
        CHECK(get32(arena + MANY_MAP + 4 * (255 - lane)) == 0xC0000100 + lane && table[lane].block == 255 - lane && table[lane].busy == 0);
    }
}

/* Puts a second half into a lane's pair: a write to sector 7, whose block is 7, on the lane's free block; or takes it out again. */
static void put_pending(uint32_t lane, int put)
{
    const uint32_t half[] = {7, 7, 256 + lane, 2};

    for (unsigned i = 0; i < 4; i++) {
        put32(arena + MANY_FLOG + 64 * lane + layout + 4 * i, put ? half[i] : 0);
    }
}

/* One lane that is pending with a sector is mended; two with the same one are 8, whichever they are. */
static void test_one_sector(void)
{
    static const uint32_t lanes[][2] = {{0, 1}, {0, 255}, {15, 16}, {17, 200}, {254, 255}};

    fresh(512, 256, 256);
    for (size_t i = 0; i < COUNT(lanes); i++) {
        put_pending(lanes[i][0], 1);
        CALL(0, ONLY(WORK) | ONLY(MENDED), cut_open(0));
        CHECK(mended() == 1);
        put_pending(lanes[i][1], 1);
        CALL(8, ONLY(WORK) | ONLY(MENDED), cut_open(2));
        CALL(8, UNOPENED, open_arena());
        put_pending(lanes[i][0], 0);
        put_pending(lanes[i][1], 0);
    }
    CALL(0, OPENED, open_arena());
    CHECK(mended() == 0);
}

/* Gives the info block so many sectors and lanes, and a copy that starts 4,096 bytes later, with room for the flog pairs of 257 lanes. */
static void put_figures(uint32_t sectors, uint32_t lanes)
{
    put32(arena + 60, sectors);
    put32(arena + 72, lanes);
    put_bytes(arena + 112, 8, 315392);
    seal(arena);
}

/* An arena that is valid with 256 lanes, and would be with 257, is refused with these: 3 at opening, 16 in a handle. */
static void test_257_lanes(void)
{
    static const uint32_t pair[] = {0, 299, 299, 1};
    static uint8_t image[319488];

    fresh(512, 300, 256);
    memcpy(image, arena, 315392);
    for (unsigned i = 0; i < 4; i++) {
        put32(image + 294912 + 64 * 256 + 4 * i, pair[i]);
    }
    memset(image + 294912 + 64 * 256 + 16, 0, 48);
    lend(ARENA, sizeof image);
    memcpy(arena, image, sizeof image);
    put_figures(299, 257);
    lend_table(257);
    CALL(3, ONLY(HANDLE) | ONLY(MENDED), open_arena());
    CALL(3, ONLY(MENDED), cut_open(0));
    put_figures(300, 256);
    CALL(0, OPENED, open_arena());
    table[256] = table[0];
    CALL(0, ONLY(BUFFER), read_sector(298));
    handle->sectors = 299;
    handle->lanes = 257;
    CALL(16, NOTHING, read_sector(298));
    CALL(16, NOTHING, start(0, 298));
    CALL(16, NOTHING, lane_record(0));
    CALL(3, NOTHING, make(512, 299, 257));
}

int main(void)
{
    static const test tests[] = {test_lane_255, test_no_such_lane, test_all_pending, test_one_sector, test_257_lanes};

    return run("test_lanes", tests, COUNT(tests), COUNT(layouts));
}

/*
 * Making, the info block that counts, opening and cut openings from C, in both layouts: every answer of their rows and the order among them,
 * the empty slice, numbers that are no layout, pairs of sizes that are none, and what each must leave as it was.
 */
#include "lent.h"

static void test_make(void)
{
    static const struct {
        uint32_t size, sectors, lanes;
        size_t length, first, second;
        uint32_t answer;
    } rows[] = {
        {512, 60, 4, 49152, 16, 16, 0}, {512, 1, 1, 20480, 16, 16, 0}, {4096, 1, 1, 24576, 16, 16, 0}, {512, 16, 16, 32768, 16, 16, 0},
        {513, 60, 4, 49152, 16, 16, 3}, {0, 60, 4, 49152, 16, 16, 3}, {512, 3, 4, 24576, 16, 16, 3}, {512, 60, 0, 45056, 16, 16, 3},
        {512, 0, 0, 20480, 16, 16, 3}, {1024, 60, 4, 0, 0, 0, 3}, {512, 256, 257, 290816, 16, 16, 3}, {512, 300, 257, 319488, 16, 16, 3},
        {512, 60, 4, 49151, 16, 16, 1}, {512, 60, 4, 45056, 16, 16, 1}, {512, 60, 4, 53248, 16, 16, 1}, {512, 60, 4, 0, 16, 16, 1},
        {512, 256, 256, 290816, 16, 16, 0}, {512, 0xFFFFFFFF, 256, 49152, 16, 16, 1}, {4096, 60, 4, 49152, 16, 16, 1},
        {512, 60, 4, 45056, 15, 16, 1},
        {512, 60, 4, 49152, 15, 16, 10}, {512, 60, 4, 49152, 16, 17, 10}, {512, 60, 4, 49152, 0, 16, 10}, {512, 60, 4, 49152, 16, 0, 10},
        /* the other sizes, the last length of each being that of blocks which are just as long as a sector */
        {520, 60, 4, 53248, 16, 16, 0}, {520, 1, 1, 20480, 16, 16, 0}, {520, 100, 4, 77824, 16, 16, 0}, {520, 100, 4, 73728, 16, 16, 1},
        {528, 60, 4, 53248, 16, 16, 0}, {528, 1, 1, 20480, 16, 16, 0}, {528, 100, 4, 77824, 16, 16, 0}, {528, 100, 4, 73728, 16, 16, 1},
        {4104, 3, 2, 40960, 16, 16, 0}, {4104, 1, 1, 28672, 16, 16, 0}, {4104, 70, 2, 319488, 16, 16, 0}, {4104, 70, 2, 315392, 16, 16, 1},
        {520, 3, 4, 53248, 16, 16, 3}, {528, 60, 4, 53248, 16, 15, 10}, {4104, 3, 0, 40960, 16, 16, 3}, {4104, 3, 2, 40960, 0, 16, 10},
        {576, 60, 4, 53248, 16, 16, 3}, {576, 60, 4, 0, 0, 0, 3}, {4160, 3, 2, 40960, 16, 16, 3}, {519, 60, 4, 53248, 16, 16, 3},
    };

    fresh_case();
    for (size_t i = 0; i < COUNT(rows); i++) {
        size_t data_end = 4096 + internal_size(rows[i].size) * (rows[i].sectors + (size_t)rows[i].lanes);
        size_t flog = rows[i].length - 4096 - units(64 * (size_t)rows[i].lanes);

        lend(ARENA, rows[i].length);
        lend(FIRST_ID, rows[i].first);
        lend(SECOND_ID, rows[i].second);
        CALL(rows[i].answer, rows[i].answer == 0 ? ONLY(ARENA) : NOTHING, make(rows[i].size, rows[i].sectors, rows[i].lanes));
        if (rows[i].answer == 0) {
            CHECK(memcmp(arena + 4096, was(ARENA) + 4096, data_end - 4096) == 0);
            CHECK(all_bytes(arena + data_end, flog - data_end, 0));
            CHECK(memcmp(arena + 16, lent[FIRST_ID].at, 16) == 0 && memcmp(arena + 32, lent[SECOND_ID].at, 16) == 0);
            CHECK(memcmp(arena, arena + rows[i].length - 4096, 4096) == 0);
            CHECK(memcmp(arena, "BTT_ARENA_INFO\0", 16) == 0);
        }
    }
}

/* Every number but the five is refused, whatever else is wrong. */
static void test_make_sizes(void)
{
    fresh_case();
    for (size_t i = 0; i < COUNT(tried_sizes); i++) {
        int known = is_pair(tried_sizes[i], (uint32_t)internal_size(tried_sizes[i]));

        CALL(known ? 1 : 3, NOTHING, make(tried_sizes[i], SECTORS + 50, LANES));
    }
    lend(FIRST_ID, 15);
    CALL(3, NOTHING, make(576, SECTORS, LANES));
    CALL(3, NOTHING, make(4160, SECTORS, LANES));
}

static void test_info_block(void)
{
    static const size_t lengths[] = {0, 16384, 49153, 16777216 + 4096};

    fresh_case();
    for (int broken = 0; broken < 3; broken++) {
        arena[100] ^= broken == 1;
        arena[COPY + 100] ^= broken == 2;
        CALL(0, ONLY(OFFSET) | ONLY(LENGTH), info_block());
        CHECK(get_bytes(lent[OFFSET].at, 8) == (broken == 1 ? COPY : 0));
        CHECK(get_bytes(lent[LENGTH].at, 8) == (broken == 2 ? 0 : 4096));
    }
    for (size_t i = 0; i < COUNT(lengths); i++) {
        lend(ARENA, lengths[i]);
        CALL(0, ONLY(OFFSET) | ONLY(LENGTH), info_block());
        CHECK(get_bytes(lent[OFFSET].at, 8) == 0 && get_bytes(lent[LENGTH].at, 8) == 0);
    }
}

/* A number that is no layout is refused before anything else, whatever is wrong with the arena or the work buffer, or if nothing is. */
static void refused_layouts(void)
{
    uint32_t told = layout;

    for (size_t i = 0; i < COUNT(no_layouts); i++) {
        layout = no_layouts[i];
        refused_opening(16);
    }
    layout = told;
}

static void test_open_lengths(void)
{
    static const size_t lengths[] = {0, 1, 4096, 16384, 49151, 49153, 16777216 + 4096};
    static const size_t rooms[] = {0, 1, 63};

    fresh_case();
    for (size_t i = 0; i < COUNT(lengths); i++) {
        lend(ARENA, lengths[i]);
        refused_opening(1);
        refused_layouts();
    }
    lend(ARENA, WHOLE);
    refused_opening(2);
    refused_layouts();
    for (size_t i = 0; i < COUNT(rooms); i++) {
        fresh_case();
        lend(WORK, rooms[i]);
        refused_opening(5);
        refused_layouts();
    }
    fresh_case();
    refused_layouts();
}

struct patch {
    size_t at;
    unsigned width;
    uint64_t value;
};

/* Offsets are those of layout 16. */
static const struct {
    uint32_t answer;
    struct patch patch[2];
} damaged[] = {
    {3, {{52, 2, 1}}}, {3, {{54, 2, 1}}}, {3, {{56, 4, 1024}}}, {3, {{56, 4, 4096}}}, {3, {{60, 4, 3}}}, {3, {{60, 4, 61}}}, {3, {{64, 4, 4096}}},
    {3, {{68, 4, 63}}}, {3, {{72, 4, 0}}}, {3, {{72, 4, 5}}}, {3, {{72, 4, 257}}}, {3, {{76, 4, 512}}}, {3, {{80, 8, 49152}}},
    {3, {{88, 8, 0}}}, {3, {{88, 8, 4100}}}, {3, {{88, 8, 8192}}}, {3, {{88, 8, 0xFFFFFFFFFFFFF000}}}, {3, {{96, 8, 32768}}}, {3, {{96, 8, 40960}}}, {3, {{104, 8, 36864}}},
    {3, {{104, 8, 45056}}}, {3, {{112, 8, 40960}}}, {3, {{112, 8, 49152}}}, {3, {{48, 4, 1}, {52, 2, 1}}},
    {4, {{48, 4, 1}}}, {4, {{48, 4, 0x80000000}, {FLOG + 12, 4, 0}}},
    {6, {{FLOG + 12, 4, 0}}}, {6, {{FLOG + 12, 4, 4}}}, {6, {{FLOG + 28, 4, 1}}}, {6, {{FLOG + 28, 4, 4}}}, {6, {{FLOG + 192, 4, SECTORS}}},
    {6, {{FLOG + 196, 4, BLOCKS}}}, {6, {{FLOG + 200, 4, BLOCKS}}}, {6, {{FLOG + 200, 4, BLOCKS}, {MAP, 4, 0xC0000040}}},
    {7, {{MAP, 4, 0xC0000040}}}, {7, {{MAP + 36, 4, 0x80000040}}}, {7, {{MAP + 236, 4, 0x7FFFFFFF}}},
    {7, {{MAP, 4, 0xC0000040}, {MAP + 4, 4, 0xC0000007}}},
    {18, {{MAP + 20, 4, 0x00000005}}}, {18, {{MAP + 20, 4, 0x00000007}}}, {18, {{MAP + 20, 4, 0x3FFFFFFF}}}, {18, {{FLOG + 32, 4, 1}}},
    {8, {{MAP + 20, 4, 0xC0000007}}}, {8, {{MAP + 20, 4, 0x80000007}}}, {8, {{FLOG + 4, 4, 61}}}, {8, {{MAP + 28, 4, 0xC000003C}}},
    {0, {{MAP + 20, 4, 0x40000005}}}, {0, {{MAP + 20, 4, 0x80000005}}}, {0, {{FLOG + 16, 4, 0xFFFFFFFF}}},
    /* a sloppy arena with another fault: 18 comes after 1 to 7 and before 8, wherever the two faults are */
    {3, {{52, 2, 1}, {MAP, 4, 1}}}, {4, {{48, 4, 1}, {FLOG + 63, 1, 1}}}, {6, {{FLOG + 204, 4, 0}, {MAP, 4, 1}}},
    {6, {{FLOG + 204, 4, 4}, {FLOG + 32, 4, 1}}}, {6, {{FLOG + 12, 4, 0}, {FLOG + 255, 1, 1}}}, {7, {{MAP + 236, 4, 0x40000040}, {MAP, 4, 1}}},
    {7, {{MAP, 4, 0xC0000040}, {MAP + 236, 4, 1}}}, {7, {{MAP + 236, 4, 0xC0000040}, {FLOG + 32, 4, 1}}},
    {18, {{MAP + 20, 4, 0xC0000007}, {MAP, 4, 1}}}, {18, {{MAP, 4, 0xC0000007}, {MAP + 236, 4, 59}}}, {18, {{FLOG + 4, 4, 61}, {MAP + 236, 4, 1}}},
    {18, {{MAP + 20, 4, 0x80000007}, {FLOG + 255, 1, 0x80}}}, {18, {{FLOG + 4, 4, 61}, {FLOG + 32, 1, 1}}},
    /* bytes of no part, behind the map, after the last lane and in the info block, are not judged */
    {0, {{MAP + 240, 4, 1}, {FLOG - 1, 1, 0xFF}}}, {0, {{FLOG + 256, 4, 1}, {FLOG + 288, 8, 1}}}, {0, {{FLOG + 319, 1, 0xFF}, {COPY - 1, 1, 1}}},
    {0, {{120, 8, 1}, {4087, 1, 0xFF}}},
};

/*
 * Every pair of the numbers tried, in an arena whose data part has room for the blocks of any: just the five open, and say so in the
 * handle. A sector is then read into a buffer of its own size.
 */
static void test_open_pairs(void)
{
    fresh(4104, 3, 2);
    for (size_t i = 0; i < COUNT(tried_sizes) * COUNT(tried_sizes); i++) {
        uint32_t size = tried_sizes[i / COUNT(tried_sizes)], internal = tried_sizes[i % COUNT(tried_sizes)];

        put32(arena + 56, size);
        put32(arena + 64, internal);
        seal(arena);
        if (!is_pair(size, internal)) {
            refused_opening(3);
            continue;
        }
        CALL(0, OPENED, open_arena());
        CHECK(handle->size == size && handle->internal == internal && handle->blocks == 5);
        lend(BUFFER, size);
        put32(arena + handle->map + 4, 0xC0000003);
        CALL(0, ONLY(BUFFER), read_sector(1));
        CHECK(memcmp(lent[BUFFER].at, arena + 4096 + 3 * internal, size) == 0);
        put32(arena + handle->map + 4, 0);
    }
}

/* It is blocks of the internal size that must fit before the map: here such as are just as long as a sector would. */
static void test_open_rooms(void)
{
    static const uint32_t rows[][3] = {{520, 100, 4}, {528, 100, 4}, {4104, 70, 2}};

    for (size_t i = 0; i < COUNT(rows); i++) {
        fresh(rows[i][0], rows[i][1], rows[i][2]);
        CHECK(8192 + handle->size * handle->blocks <= handle->map);
        put_bytes(arena + 88, 8, 8192);
        seal(arena);
        refused_opening(3);
    }
}

/* The first block has the fault and a fitting checksum, so that the copy, which is faultless, must not count. */
static void test_open_damaged(void)
{
    for (size_t i = 0; i < COUNT(damaged); i++) {
        fresh_case();
        lend(WORK, BLOCKS + 9);
        for (int j = 0; j < 2; j++) {
            put_bytes(arena + placed(damaged[i].patch[j].at), damaged[i].patch[j].width, damaged[i].patch[j].value);
        }
        seal(arena);
        if (damaged[i].answer == 0) {
            CALL(0, OPENED, open_arena());
        } else {
            refused_opening(damaged[i].answer);
        }
        refused_layouts();
    }
}

/*
 * Each byte of each lane changed alone, by the word that it is in: N is of the newer half or a sequence number, o of the rest of the older
 * half, which is not judged, and a point is padding.
 */
static void test_lane_bytes(void)
{
    const char *words = layout == 16 ? "NNNNoooN........" : "NNNN....oooN....";

    fresh_case();
    for (size_t at = 0; at < 64 * LANES; at++) {
        char word = words[at % 64 / 4];

        arena[FLOG + at] ^= 0xFF;
        CHECK((word == '.') == is_padding(at % 64));
        if (word == 'o') {
            CALL(0, ONLY(WORK) | ONLY(MENDED), cut_open(1));
            CALL(0, OPENED, open_arena());
        } else {
            refused_opening(word == '.' ? 18 : 6);
        }
        arena[FLOG + at] ^= 0xFF;
    }
}

/* Each bit of the first and the last map word but its flags, and of each lane's padding; bytes behind the map and the lanes are any. */
static void test_open_sloppy(void)
{
    static const uint32_t sectors[] = {0, SECTORS - 1};

    fresh_case();
    lend(WORK, BLOCKS + 9);
    for (size_t i = 0; i < COUNT(sectors); i++) {
        for (unsigned bit = 0; bit < 30; bit++) {
            put32(map_word(sectors[i]), (uint32_t)1 << bit);
            refused_opening(18);
        }
        put32(map_word(sectors[i]), 0);
    }
    for (size_t at = FLOG; at < FLOG + 64 * LANES; at++) {
        for (unsigned bit = 0; bit < 8 && is_padding(at % 64); bit++) {
            arena[at] = (uint8_t)(1 << bit);
            refused_opening(18);
            arena[at] = 0;
        }
    }
    pattern(map_word(SECTORS), FLOG - MAP - 4 * SECTORS, 13);
    pattern(arena + FLOG + 64 * LANES, COPY - FLOG - 64 * LANES, 14);
    CALL(0, OPENED, open_arena());
    put32(map_word(SECTORS - 1), 1);
    lend(WORK, BLOCKS - 1);
    refused_opening(5);
}

/* A lane that lacks only its map word is not mended where a word, be it that lane's own, or padding is sloppy. */
static void test_sloppy_and_pending(void)
{
    static const struct patch rows[] = {{MAP + 28, 4, 7}, {MAP + 28, 4, 60}, {MAP + 236, 4, 1}, {FLOG + 32, 1, 1}, {FLOG + 192 + 63, 1, 1}};

    fresh_case();
    CALL(0, ONLY(TABLE), start(2, 7));
    for (int k = 0; k < LAST; k++) {
        CALL(0, STEPPED, step(2));
    }
    for (size_t i = 0; i < COUNT(rows); i++) {
        put_bytes(arena + placed(rows[i].at), rows[i].width, rows[i].value);
        refused_opening(18);
        put_bytes(arena + placed(rows[i].at), rows[i].width, 0);
    }
    refused_layouts();
    CALL(0, OPENED | ONLY(ARENA), open_arena());
    CHECK(mended() == 1 && get32(map_word(7)) == 0xC000003E);
}

/*
 * A made arena opens in both layouts. From the first store that is not 0 to a second half on the other one is refused, which for sector 0,
 * whose number and block are 0, is the third of them; an opening there mends nothing.
 */
static void test_other_layout(void)
{
    static const uint32_t rows[][2] = {{7, 129}, {0, 131}};

    for (size_t i = 0; i < COUNT(rows); i++) {
        struct btt_lane records[LANES];
        struct btt_handle opened;

        fresh_case();
        opened = *handle;
        memcpy(records, table, sizeof records);
        opened.layout = layout = other_layout();
        CALL(0, OPENED, open_arena());
        CHECK(memcmp(handle, &opened, sizeof opened) == 0 && memcmp(table, records, sizeof records) == 0);
        opened.layout = layout = other_layout();
        *handle = opened;
        CALL(0, ONLY(TABLE), start(3, rows[i][0]));
        memcpy(records, table, sizeof records);
        for (uint32_t n = 1; n <= LAST + 1; n++) {
            *handle = opened;
            memcpy(table, records, sizeof records);
            CALL(0, STEPPED, step(3));
            memcpy(records, table, sizeof records);
            layout = other_layout();
            if (n >= rows[i][1]) {
                refused_opening(18);
            } else {
                CALL(0, OPENED, open_arena());
            }
            layout = other_layout();
        }
        CALL(0, OPENED, open_arena());
    }
}

static void test_open_gives(void)
{
    fresh_case();
    arena[0] = 'b';
    pattern(lent[HANDLE].at, sizeof *handle, 8);
    lend(WORK, BLOCKS + 1);
    CALL(0, OPENED, open_arena());
    CHECK(handle->length == WHOLE && handle->data == DATA && handle->map == MAP && handle->flog == FLOG && handle->copy == COPY);
    CHECK(handle->size == SIZE && handle->sectors == SECTORS && handle->internal == SIZE && handle->blocks == BLOCKS && handle->lanes == LANES);
    CHECK(handle->layout == layout);
    CHECK(all_bytes(lent[WORK].at, BLOCKS, 0) && lent[WORK].at[BLOCKS] == was(WORK)[BLOCKS]);
    for (uint32_t i = 0; i < LANES; i++) {
        struct btt_lane lane = {.block = SECTORS + i, .half = 1, .sequence = 2};

        CHECK(memcmp(&table[i], &lane, sizeof lane) == 0);
    }
}

/* Lanes 0 and 2 lack only their map words: a cut opening stores the first k of them, and counts both. */
static void test_cut_open(void)
{
    static const uint32_t cuts[] = {0, 1, 2, 3, 0xFFFFFFFF};

    for (size_t i = 0; i < COUNT(cuts); i++) {
        uint32_t left = cuts[i] < 2 ? 2 - cuts[i] : 0;

        fresh_case();
        for (uint32_t lane = 0; lane < 4; lane += 2) {
            CALL(0, ONLY(TABLE), start(lane, 9 - lane));
            for (int k = 0; k < LAST; k++) {
                CALL(0, STEPPED, step(lane));
            }
        }
        CALL(0, ONLY(WORK) | ONLY(MENDED) | (cuts[i] > 0 ? ONLY(ARENA) : NOTHING), cut_open(cuts[i]));
        CHECK(mended() == 2);
        CHECK(get32(map_word(9)) == (cuts[i] > 0 ? 0xC000003C : 0) && get32(map_word(7)) == (cuts[i] > 1 ? 0xC000003E : 0));
        put32(lent[ARENA].copy + MAP + 36, get32(map_word(9)));
        put32(lent[ARENA].copy + MAP + 28, get32(map_word(7)));
        CHECK(kept(&lent[ARENA]));
        CALL(0, OPENED | (left > 0 ? ONLY(ARENA) : NOTHING), open_arena());
        CHECK(mended() == left);
        CHECK(get32(map_word(9)) == 0xC000003C && get32(map_word(7)) == 0xC000003E);
    }
}

int main(void)
{
    static const test tests[] = {test_make, test_make_sizes, test_info_block, test_open_lengths, test_open_pairs, test_open_rooms,
                                 test_open_damaged, test_lane_bytes, test_open_sloppy, test_sloppy_and_pending, test_other_layout,
                                 test_open_gives, test_cut_open};

    return run("test_opening", tests, COUNT(tests), COUNT(layouts));
}

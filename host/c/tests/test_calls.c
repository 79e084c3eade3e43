/*
 * The calls with a handle, from C, in both layouts: every answer of their rows but 21 and their order, each size, and what each must leave.
 * What they do with the table is tried in test_tables.c.
 */
#include "lent.h"

/* The calls again with each of these sector buffers, none of which is a sector long. */
static void with_wrong_buffers(void (*calls)(void))
{
    static const size_t rooms[] = {0, 511, 513, 4096};

    for (size_t i = 0; i < COUNT(rooms); i++) {
        lend(BUFFER, rooms[i]);
        calls();
    }
}

static void wrong_reads(void)
{
    CALL(10, NOTHING, read_sector(3));
    CALL(10, NOTHING, read_sector(5));
    CALL(9, NOTHING, read_sector(60));
}

static void test_read(void)
{
    static const struct {
        uint32_t word, answer;
    } rows[] = {
        /* neither flag, of which only 0 is accepted, bit 30 (Error) alone, bit 31 (Zero) alone */
        {0x00000000, 0}, {0x00000001, 18}, {0x00000005, 18}, {0x00000040, 18}, {0x20000000, 18}, {0x3FFFFFFF, 18}, {0x40000005, 15},
        {0x40000009, 15}, {0x4000003F, 15}, {0x80000005, 0}, {0x80000009, 0}, {0x8000003F, 0}, {0x40000040, 7}, {0x80000040, 7}, {0xC0000040, 7},
        {0x7FFFFFFF, 7}, {0xFFFFFFFF, 7}, {0x80000041, 7},
    };

    fresh_case();
    pattern(arena + DATA + 9 * SIZE, SIZE, 90);
    put32(map_word(3), 0xC0000009);
    CALL(0, ONLY(BUFFER), read_sector(3));
    CHECK(memcmp(lent[BUFFER].at, arena + DATA + 9 * SIZE, SIZE) == 0);
    for (size_t i = 0; i < COUNT(rows); i++) {
        pattern(lent[BUFFER].at, SIZE, 91);
        put32(map_word(5), rows[i].word);
        CALL(rows[i].answer, rows[i].answer == 0 ? ONLY(BUFFER) : NOTHING, read_sector(5));
        CHECK(all_bytes(lent[BUFFER].at, SIZE, 0) == (rows[i].answer == 0));
    }
    CALL(9, NOTHING, read_sector(60));
    CALL(9, NOTHING, read_sector(0xFFFFFFFF));
    with_wrong_buffers(wrong_reads);
}

/* Lane 0 is put in flight with sector 7, whose map word is then bad, as is that of sector 5. */
static void one_in_flight(void)
{
    fresh_case();
    CALL(0, ONLY(TABLE), start(0, 7));
    put32(map_word(7), 0xC0000040);
    put32(map_word(5), 0x40000040);
}

static void test_start(void)
{
    static const struct btt_lane begun = {.busy = 1, .block = 61, .half = 1, .sequence = 2, .sector = 6, .old = 33, .made = 0};

    one_in_flight();
    CALL(11, NOTHING, start(4, 3));
    CALL(11, NOTHING, start(0xFFFFFFFF, 60));
    CALL(12, NOTHING, start(0, 3));
    CALL(12, NOTHING, start(0, 60));
    CALL(9, NOTHING, start(1, 60));
    CALL(9, NOTHING, start(1, 0xFFFFFFFF));
    CALL(13, NOTHING, start(1, 7));
    CALL(7, NOTHING, start(1, 5));
    put32(map_word(6), 0x40000021);
    table[1].sector = 59;
    table[1].old = 63;
    table[1].made = LAST;
    CALL(0, ONLY(TABLE), start(1, 6));
    CHECK(memcmp(&table[1], &begun, sizeof begun) == 0);
    CALL(0, ONLY(TABLE), start(2, 0));
    CALL(13, NOTHING, start(3, 0));
}

static void wrong_steps(void)
{
    CALL(10, NOTHING, step(0));
    CALL(14, NOTHING, step(3));
    CALL(11, NOTHING, step(0xFFFFFFFF));
}

static void test_step(void)
{
    one_in_flight();
    CALL(14, NOTHING, step(1));
    CALL(11, NOTHING, step(4));
    CALL(0, STEPPED, step(0));
    with_wrong_buffers(wrong_steps);
    table[0].made = LAST;
    CALL(10, NOTHING, step(0));
}

static void wrong_writes(void)
{
    CALL(11, NOTHING, write_sector(0xFFFFFFFF, 60));
    CALL(12, NOTHING, write_sector(0, 60));
    CALL(9, NOTHING, write_sector(1, 60));
    CALL(10, NOTHING, write_sector(1, 7));
    CALL(10, NOTHING, write_sector(1, 5));
    CALL(10, NOTHING, write_sector(1, 3));
}

static void test_write(void)
{
    one_in_flight();
    CALL(11, NOTHING, write_sector(4, 3));
    CALL(12, NOTHING, write_sector(0, 3));
    CALL(9, NOTHING, write_sector(1, 60));
    CALL(13, NOTHING, write_sector(1, 7));
    CALL(7, NOTHING, write_sector(1, 5));
    with_wrong_buffers(wrong_writes);
    lend(BUFFER, SIZE);
    CALL(0, STEPPED, write_sector(1, 3));
}

static void test_looks(void)
{
    one_in_flight();
    for (uint32_t lane = 0; lane < LANES; lane++) {
        CALL(0, ONLY(RECORD), lane_record(lane));
        CHECK(memcmp(lent[RECORD].at, &table[lane], sizeof(struct btt_lane)) == 0);
    }
    CALL(11, NOTHING, lane_record(4));
    CALL(11, NOTHING, lane_record(0xFFFFFFFF));
    CALL(0, ONLY(OFFSET), next_store(0));
    CHECK(get_bytes(lent[OFFSET].at, 8) == DATA + 60 * SIZE);
    CALL(14, NOTHING, next_store(1));
    CALL(11, NOTHING, next_store(4));
}

/* Every call with a handle must answer so, whatever else is wrong. */
static void all_with_handle(uint32_t answer)
{
    for (uint32_t far = 0; far < 100; far += 99) {
        CALL(answer, NOTHING, read_sector(3 + far));
        CALL(answer, NOTHING, start(far, 3 + far));
        CALL(answer, NOTHING, start(1 + far, 3));
        CALL(answer, NOTHING, step(far));
        CALL(answer, NOTHING, write_sector(1 + far, 3 + far));
        CALL(answer, NOTHING, lane_record(far));
        CALL(answer, NOTHING, next_store(far));
    }
}

#define FIELD(name) offsetof(struct btt_handle, name), sizeof handle->name

static void test_bad_figures(void)
{
    static const struct {
        size_t at, width;
        uint64_t value;
    } rows[] = {
        {FIELD(length), 45056}, {FIELD(length), 53248}, {FIELD(length), 0}, {FIELD(length), 0x10000C000}, {FIELD(data), 0}, {FIELD(data), 4100},
        {FIELD(data), 8192}, {FIELD(data), 0xFFFFFFFFFFFFF000}, {FIELD(map), 32768}, {FIELD(map), 40960}, {FIELD(map), 36868},
        {FIELD(flog), 36864}, {FIELD(flog), 45056}, {FIELD(flog), 40964}, {FIELD(copy), 49152}, {FIELD(copy), 40960}, {FIELD(size), 4096},
        {FIELD(size), 0}, {FIELD(sectors), 3}, {FIELD(sectors), 61}, {FIELD(sectors), 0xFFFFFFFF}, {FIELD(internal), 4096},
        {FIELD(internal), 0}, {FIELD(blocks), 63}, {FIELD(blocks), 65}, {FIELD(lanes), 0}, {FIELD(lanes), 5}, {FIELD(lanes), 257},
        {FIELD(lanes), 0xFFFFFFFF},
    };
    static const size_t lengths[] = {0, 45056, 53248, 49151};

    for (size_t i = 0; i < COUNT(rows); i++) {
        one_in_flight();
        put_bytes(lent[HANDLE].at + rows[i].at, (unsigned)rows[i].width, rows[i].value);
        all_with_handle(16);
    }
    one_in_flight();
    for (size_t i = 0; i < COUNT(no_layouts); i++) {
        handle->layout = no_layouts[i];
        all_with_handle(16);
    }
    handle->layout = layout;
    for (size_t i = 0; i < COUNT(lengths); i++) {
        lend(ARENA, lengths[i]);
        all_with_handle(16);
    }
    fresh_case();
    memset(handle, 0, sizeof *handle);
    all_with_handle(16);
}

/* A handle's two sizes are judged as a pair, in an arena in which the blocks of any would fit: just the five are answered otherwise. */
static void test_pairs(void)
{
    fresh(4104, 3, 2);
    CALL(0, ONLY(TABLE), start(0, 2));
    for (size_t i = 0; i < COUNT(tried_sizes) * COUNT(tried_sizes); i++) {
        handle->size = tried_sizes[i / COUNT(tried_sizes)];
        handle->internal = tried_sizes[i % COUNT(tried_sizes)];
        if (is_pair(handle->size, handle->internal)) {
            lend(BUFFER, handle->size);
            CALL(0, ONLY(BUFFER), read_sector(0));
            CALL(9, NOTHING, read_sector(3));
            CALL(0, ONLY(OFFSET), next_store(0));
            CHECK(get_bytes(lent[OFFSET].at, 8) == 4096 + 3 * handle->internal);
        } else {
            all_with_handle(16);
        }
    }
}

/* For every size a sector buffer is just so long: one that is as long as a block, or as another sector, is not. */
static void test_buffers(void)
{
    for (size_t i = 0; i < COUNT(pairs); i++) {
        uint32_t size = pairs[i][0];

        fresh(size, 3, 2);
        CALL(0, ONLY(TABLE), start(0, 2));
        for (size_t j = 0; j < COUNT(tried_sizes) && tried_sizes[j] <= 4224; j++) {
            int fits = tried_sizes[j] == size;

            lend(BUFFER, tried_sizes[j]);
            CALL(fits ? 0 : 10, fits ? ONLY(BUFFER) : NOTHING, read_sector(1));
            CALL(fits ? 0 : 10, fits ? STEPPED : NOTHING, step(0));
            CALL(fits ? 0 : 10, fits ? STEPPED : NOTHING, write_sector(1, 1));
        }
    }
}

/*
 * Of a handle the stores made go by the size, and the room for the blocks by the internal size: with the data 4,096 bytes later they do not
 * fit before the map, though blocks that are just as long as a sector of 520, 528 or 4,104 bytes would.
 */
static void test_made_and_room(void)
{
    static const uint32_t stores[] = {133, 135, 137, 1029, 1031};

    for (size_t i = 0; i < COUNT(pairs); i++) {
        fresh(pairs[i][0], i < 3 ? 100 : 70, i < 3 ? 4 : 2);
        table[1].made = stores[i] - 1;
        CALL(0, ONLY(BUFFER), read_sector(0));
        table[1].made = stores[i];
        all_with_handle(16);
        table[1].made = 0;
        handle->data += 4096;
        all_with_handle(16);
    }
}

/* Lane 0 is put in flight with sector 7, whose map word then becomes this one, as does that of sector 5; and no lane's padding is zero. */
static void sloppy_in_flight(uint32_t word)
{
    fresh_case();
    CALL(0, ONLY(TABLE), start(0, 7));
    CALL(0, STEPPED, step(0));
    put32(map_word(5), word);
    put32(map_word(7), word);
    for (size_t at = 0; at < 64 * LANES; at++) {
        arena[FLOG + at] = is_padding(at % 64) ? (uint8_t)(12 + at) : arena[FLOG + at];
    }
}

static void wrong_sloppy(void)
{
    CALL(10, NOTHING, read_sector(5));
    CALL(10, NOTHING, write_sector(3, 5));
}

/* A sloppy map word is 18 in reads, starts and whole writes of its own sector; a step judges no word, and none of them judges padding. */
static void test_sloppy(void)
{
    static const uint32_t words[] = {1, 5, 7, 60, 64, 0x20000000, 0x3FFFFFFF};

    for (size_t i = 0; i < COUNT(words); i++) {
        sloppy_in_flight(words[i]);
        CALL(18, NOTHING, read_sector(5));
        CALL(18, NOTHING, read_sector(7));
        CALL(18, NOTHING, start(1, 5));
        CALL(18, NOTHING, write_sector(1, 5));
        CALL(13, NOTHING, start(1, 7));
        CALL(13, NOTHING, write_sector(1, 7));
        CALL(12, NOTHING, start(0, 5));
        CALL(12, NOTHING, write_sector(0, 5));
        CALL(11, NOTHING, start(4, 5));
        CALL(11, NOTHING, write_sector(4, 5));
        CALL(0, ONLY(BUFFER), read_sector(6));
        CALL(0, STEPPED, write_sector(2, 6));
        CALL(0, ONLY(TABLE), start(1, 4));
        for (int k = 1; k <= LAST; k++) {
            CALL(0, STEPPED, step(0));
            CALL(0, STEPPED, step(1));
        }
        CHECK(get32(map_word(7)) == 0xC000003C);
        CALL(0, ONLY(BUFFER), read_sector(7));
        CALL(18, NOTHING, read_sector(5));
        with_wrong_buffers(wrong_sloppy);
    }
}

/*
 * The other layout in a handle is not found out: every call answers as it did, and the flog words of a write go to the other place. Both
 * halves of lane 1 are written, the second first.
 */
static void test_exchanged_layout(void)
{
    one_in_flight();
    handle->layout = other_layout();
    CALL(0, ONLY(BUFFER), read_sector(3));
    CALL(0, ONLY(RECORD), lane_record(0));
    CALL(13, NOTHING, start(1, 7));
    CALL(7, NOTHING, write_sector(1, 5));
    CALL(14, NOTHING, next_store(2));
    CALL(0, STEPPED, step(0));
    for (uint32_t half = 1; half < 2; half--) {
        size_t at = FLOG + 64 + other_layout() * half;

        CHECK(table[1].half == half);
        CALL(0, ONLY(TABLE), start(1, 3));
        for (int k = 0; k <= LAST; k++) {
            CALL(0, ONLY(OFFSET), next_store(1));
            CHECK(k < LAST - 4 || k == LAST || get_bytes(lent[OFFSET].at, 8) == at + 4 * (size_t)(k - LAST + 4));
            CALL(0, STEPPED, step(1));
        }
        CHECK(get32(arena + at) == 3 && get32(arena + at + 12) == 3 - half);
        CALL(0, STEPPED, write_sector(2, 4 + 2 * half));
        CHECK(get32(arena + at + 64) == 4 + 2 * half && get32(arena + at + 76) == 3 - half);
    }
}

/* Each answer has a text of its own, and no other number has one. */
static void test_texts(void)
{
    for (uint32_t a = 0; a < 30; a++) {
        int known = a <= BTT_BAD_HANDLE || a == BTT_SLOPPY || a == BTT_BAD_RECORD || a == BTT_SHORT_TABLE;

        CHECK((strcmp(btt_answer_text(a), "not an answer") != 0) == known);
        for (uint32_t b = 0; b < a; b++) {
            CHECK(!known || strcmp(btt_answer_text(a), btt_answer_text(b)) != 0);
        }
    }
}

int main(void)
{
    static const test tests[] = {test_read, test_start, test_step, test_write, test_looks, test_bad_figures, test_pairs, test_buffers,
                                 test_made_and_room, test_sloppy, test_exchanged_layout, test_texts};

    return run("test_calls", tests, COUNT(tests), COUNT(layouts));
}

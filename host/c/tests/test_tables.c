/*
 * The table of the lanes, from C, in both layouts: tables that are as long as the lanes, longer, short and none at all in every call, the
 * place of 21 among the answers, the range of each field of each record, what stands past the lanes, and tables of other openings. What a
 * call takes as const it is lent in pages that can only be read.
 */
#include "lent.h"

/* The arena of case 5 with lane 0 in flight to sector 7, after its first store. */
static void one_in_flight(void)
{
    fresh_case();
    CALL(0, ONLY(TABLE), start(0, 7));
    CALL(0, STEPPED, step(0));
}

/* Lends a table of so many records, the first of which are those of the one that was lent before. */
static void keep_records(size_t records)
{
    static struct btt_lane kept_records[BTT_MAX_LANES + 8];
    size_t fit = lent[TABLE].length / sizeof *table;

    CHECK(fit <= COUNT(kept_records));
    if (fit > 0) {
        memcpy(kept_records, table, fit * sizeof *table);
    }
    lend_table(records);
    fit = fit < records ? fit : records;
    if (fit > 0) {
        memcpy(table, kept_records, fit * sizeof *table);
    }
}

/* Every call with a handle must answer so: with nothing else wrong, with a lane, a sector and a buffer that are, and with all of them. */
static void all_with_handle(uint32_t answer)
{
    static const struct {
        uint32_t lane, sector;
        size_t buffer;
    } rows[] = {{0, 7, SIZE}, {1, 8, SIZE}, {4, 8, SIZE}, {1, 60, SIZE}, {0, 8, SIZE - 1}, {0xFFFFFFFF, 0xFFFFFFFF, 0}};

    for (size_t i = 0; i < COUNT(rows); i++) {
        lend(BUFFER, rows[i].buffer);
        CALL(answer, NOTHING, read_sector(rows[i].sector));
        CALL(answer, NOTHING, start(rows[i].lane, rows[i].sector));
        CALL(answer, NOTHING, step(rows[i].lane));
        CALL(answer, NOTHING, write_sector(rows[i].lane, rows[i].sector));
        CALL(answer, NOTHING, lane_record(rows[i].lane));
        CALL(answer, NOTHING, next_store(rows[i].lane));
    }
    lend(BUFFER, SIZE);
}

/* Every call is accepted, on lanes 0, which is in flight, 1 and 2; the looks give what the table has. */
static void all_accepted(void)
{
    CALL(0, ONLY(BUFFER), read_sector(3));
    CALL(0, ONLY(RECORD), lane_record(3));
    CHECK(memcmp(lent[RECORD].at, &table[3], sizeof *table) == 0);
    CALL(0, ONLY(OFFSET), next_store(0));
    CHECK(get_bytes(lent[OFFSET].at, 8) == DATA + 60 * SIZE + 4);
    CALL(0, STEPPED, step(0));
    CALL(0, ONLY(TABLE), start(1, 8));
    CALL(0, STEPPED, write_sector(2, 9));
    CALL(0, ONLY(WORK) | ONLY(MENDED), cut_open(1));
    CALL(0, OPENED, open_arena());
    CHECK(table[0].busy == 0 && table[0].block == 60 && table[1].block == 61 && table[2].block == 9 && table[3].block == 63);
}

/* As many records as there are lanes are enough, more are as good and stay as they were, and fewer, or none, are 21. */
static void test_lengths(void)
{
    static const size_t enough[] = {LANES, LANES + 1, LANES + 7};

    for (size_t records = 0; records < LANES; records++) {
        one_in_flight();
        keep_records(records);
        all_with_handle(21);
    }
    for (size_t i = 0; i < COUNT(enough); i++) {
        one_in_flight();
        keep_records(enough[i]);
        all_accepted();
    }
}

/* The figures of the handle are judged before the table's length, and the records after it. */
static void test_order(void)
{
    one_in_flight();
    table[2].sequence = 4;
    all_with_handle(16);
    for (size_t records = LANES; records-- > 0;) {
        keep_records(records);
        all_with_handle(21);
        handle->copy += 4096;
        all_with_handle(16);
        handle->copy -= 4096;
        handle->lanes = 257;
        all_with_handle(16);
        handle->lanes = LANES;
        handle->layout = 48;
        all_with_handle(16);
        handle->layout = layout;
        memset(handle, 0, sizeof *handle);
        all_with_handle(16);
        fresh_case();
        table[0].busy = 2;
    }
}

/* Arenas with a fault, told for layout 16, and what an opening with a short table answers: the fault's number if it comes before 21. */
static const struct fault {
    size_t at;
    uint32_t value, alone, answer;
} faults[] = {
    {52, 1, 3, 3}, {48, 1, 4, 4}, {FLOG + 12, 0, 6, 21}, {FLOG + 196, BLOCKS, 6, 21}, {MAP, 0xC0000040, 7, 21}, {MAP + 236, 1, 18, 21},
    {FLOG + 32, 1, 18, 21}, {MAP + 20, 0xC0000007, 8, 21}, {FLOG + 4, 61, 8, 21}, {FLOG + 16, 1, 0, 21},
};

/* At an opening a short table is judged after the work buffer and before the lanes. */
static void test_opening_order(void)
{
    uint32_t told = layout;

    for (const struct fault *f = faults; f < faults + COUNT(faults); f++) {
        fresh_case();
        put32(arena + placed(f->at), f->value);
        seal(arena);
        for (size_t records = 0; records <= LANES; records++) {
            uint32_t answer = records < LANES ? f->answer : f->alone;

            lend_table(records);
            lend(WORK, BLOCKS + 9);
            if (answer != 0) {
                refused_opening(answer);
            }
            layout = no_layouts[records];
            refused_opening(16);
            layout = told;
            lend(WORK, BLOCKS - 1);
            refused_opening(f->alone == 3 || f->alone == 4 ? f->alone : 5);
        }
    }
    lend_table(0);
    lend(ARENA, WHOLE);
    refused_opening(2);
    lend(ARENA, 0);
    refused_opening(1);
}

#define WORD(name) offsetof(struct btt_lane, name)

/* The least and the greatest value of each field of a record in the arena of case 5, and in that of 256 lanes, worked out by hand. */
static const struct field {
    size_t at;
    uint32_t least, greatest, of_many;
} fields[] = {
    {WORD(busy), 0, 1, 1}, {WORD(block), 0, 63, 511}, {WORD(half), 0, 1, 1}, {WORD(sequence), 1, 3, 3},
    {WORD(sector), 0, 59, 255}, {WORD(old), 0, 63, 511}, {WORD(made), 0, 132, 132},
};

/* A field at its bounds is in range, and one beyond them is not, in the record of every lane; past the lanes any value will do. */
static void test_bounds(void)
{
    for (uint32_t lane = 0; lane < LANES + 3; lane++) {
        for (const struct field *f = fields; f < fields + COUNT(fields); f++) {
            const uint32_t values[] = {f->least, f->greatest, f->least - 1, f->greatest + 1, 0x80000000, 0xFFFFFFFF};

            for (size_t i = 0; i < COUNT(values); i++) {
                one_in_flight();
                keep_records(LANES + 3);
                put32((uint8_t *)&table[lane] + f->at, values[i]);
                if (lane < LANES && i > 1) {
                    all_with_handle(16);
                } else {
                    CALL(0, ONLY(BUFFER), read_sector(3));
                    CALL(0, ONLY(RECORD), lane_record(3));
                    CALL(11, NOTHING, step(LANES));
                }
            }
        }
    }
}

/* The same in each of 256 records, by one call each. */
static void test_bounds_of_many(void)
{
    fresh(512, 256, 256);
    for (uint32_t lane = 0; lane < 256; lane++) {
        for (const struct field *f = fields; f < fields + COUNT(fields); f++) {
            const uint32_t values[] = {f->least, f->of_many, f->least - 1, f->of_many + 1};
            struct btt_lane was_there = table[lane];

            for (size_t i = 0; i < COUNT(values); i++) {
                put32((uint8_t *)&table[lane] + f->at, values[i]);
                CALL(i > 1 ? 16 : 11, NOTHING, lane_record(256));
            }
            table[lane] = was_there;
        }
    }
}

/*
 * Past the lanes stand records as of writes in flight, to the very sectors that are written, and then rubbish: no call looks at them or
 * changes them, and an opening sets just the records of the lanes.
 */
static void test_past_the_lanes(void)
{
    static const struct btt_lane flight = {.busy = 1, .block = 60, .half = 1, .sequence = 2, .sector = 3, .old = 3, .made = 0};

    one_in_flight();
    keep_records(LANES + 5);
    table[LANES] = flight;
    for (uint32_t lane = 1; lane < 4; lane++) {
        for (int call = 0; call < (lane == 3 ? 1 : LAST + 2); call++) {
            CALL(0, lane == 3 || call > 0 ? STEPPED : ONLY(TABLE), lane == 3 ? write_sector(3, 3) : call > 0 ? step(lane) : start(lane, lane));
        }
        CHECK(table[lane].busy == 0 && table[lane].sequence == 3 && table[lane].half == 0);
    }
    CALL(0, ONLY(BUFFER), read_sector(3));
    CALL(0, ONLY(WORK) | ONLY(MENDED), cut_open(9));
    CALL(0, OPENED, open_arena());
    CHECK(memcmp(&table[LANES], &flight, sizeof flight) == 0);
}

/* An accepted opening of a fresh arena sets the record of each lane to its free block, whatever stood there; a cut one reads none. */
static void test_opening_sets(void)
{
    static const uint32_t shapes[][2] = {{1, 1}, {60, 4}, {48, 48}, {256, 255}, {256, 256}};

    for (size_t i = 0; i < COUNT(shapes); i++) {
        uint32_t sectors = shapes[i][0], lanes = shapes[i][1];

        fresh(512, sectors, lanes);
        for (uint32_t more = 0; more < 3; more++) {
            lend_table(lanes + more);
            CALL(0, ONLY(WORK) | ONLY(MENDED), cut_open(1));
            CALL(0, OPENED, open_arena());
            for (uint32_t lane = 0; lane < lanes; lane++) {
                struct btt_lane fresh_lane = {.block = sectors + lane, .half = 1, .sequence = 2};

                CHECK(memcmp(&table[lane], &fresh_lane, sizeof fresh_lane) == 0);
            }
        }
        lend_table(lanes - 1);
        CALL(21, UNOPENED, open_arena());
        CALL(21, ONLY(WORK) | ONLY(MENDED), cut_open(1));
    }
}

/* A table as an earlier call left it is answered as any other, and so is one of another opening, if its records are in range. */
static void test_other_tables(void)
{
    struct btt_lane earlier[LANES];

    fresh_case();
    memcpy(earlier, table, sizeof earlier);
    CALL(0, STEPPED, write_sector(0, 7));
    CALL(0, STEPPED, write_sector(0, 7));
    CHECK(get32(map_word(7)) == 0xC0000007);
    memcpy(table, earlier, sizeof earlier);
    CALL(0, STEPPED, write_sector(0, 8));
    CHECK(get32(map_word(8)) == 0xC000003C && table[0].block == 8);
    fresh(SIZE, 30, LANES);
    memcpy(earlier, table, sizeof earlier);
    fresh_case();
    memcpy(table, earlier, sizeof earlier);
    CALL(0, STEPPED, write_sector(3, 9));
    CHECK(get32(map_word(9)) == 0xC0000021);
    table[1].block = 64;
    all_with_handle(16);
}

int main(void)
{
    static const test tests[] = {test_lengths, test_order, test_opening_order, test_bounds, test_bounds_of_many, test_past_the_lanes,
                                 test_opening_sets, test_other_tables};

    return run("test_tables", tests, COUNT(tests), COUNT(layouts));
}

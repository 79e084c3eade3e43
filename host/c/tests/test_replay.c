/*
 * Replays of run logs from C: writes in steps, of every sector size, and cut, refused records, every way in which a record can be wrong, buffers
 * that are short, and what a replay must leave as it was. A replay is in layout 16.
 */
#include "lent.h"

/* What a replay that ran may change, and one whose opening was refused with 1 to 5. */
#define REPLAYED (ONLY(ARENA) | ONLY(WORK) | ONLY(ANSWERS) | ONLY(RECORDS) | ONLY(STOPPED))
#define REFUSED (ONLY(RECORDS) | ONLY(STOPPED))

enum { START = 1, STEP = 2, CUT = 3 };

/* The log that is being put together: its bytes, and its records as the calls that they stand for. */
static uint8_t bytes[BTT_MAX_LOG + 64];
static size_t length;
static struct row {
    uint32_t kind, lane, sector;
} rows[BTT_MAX_RECORDS + 1];
static size_t count;

static void empty_log(void)
{
    length = count = 0;
}

static void put_bytes_of(unsigned width, uint32_t value)
{
    put_bytes(bytes + length, width, value);
    length += width;
}

/* Puts so many records of a kind at the log's end; a start's sector is not looked at in the other kinds. */
static void put(uint32_t kind, uint32_t lane, uint32_t sector, int times)
{
    static const uint32_t lengths[] = {0, 10, 6, 4};

    for (; times > 0; times--) {
        rows[count++] = (struct row){kind, lane, sector};
        put_bytes_of(2, lengths[kind]);
        put_bytes_of(2, kind);
        if (kind != CUT) {
            put_bytes_of(2, lane);
        }
        if (kind == START) {
            put_bytes_of(4, sector);
        }
    }
}

static void lend_log(void)
{
    lend(LOG, length);
    if (length > 0) {
        memcpy(lent[LOG].at, bytes, length);
    }
}

/* So many records must have run and given these numbers, the replay having stopped at that offset; later bytes of the answers are kept. */
static void ran(size_t records, const uint8_t *numbers, size_t offset)
{
    size_t fit = records < lent[ANSWERS].length ? records : lent[ANSWERS].length;

    CHECK(get_bytes(lent[RECORDS].at, 8) == records && get_bytes(lent[STOPPED].at, 8) == offset);
    CHECK(memcmp(lent[ANSWERS].at, numbers, fit) == 0);
    CHECK(memcmp(lent[ANSWERS].at + fit, was(ANSWERS) + fit, lent[ANSWERS].length - fit) == 0);
    CHECK(all_bytes(lent[WORK].at, handle->blocks, 0));
}

/* Makes the calls of the log's records on an arena, and gives their numbers. */
static void by_calls(uint8_t *image, uint8_t *numbers)
{
    static uint8_t room[512], buffer[BTT_MAX_SECTOR];
    static struct btt_lane lanes[BTT_MAX_LANES];
    struct btt_handle opened;
    size_t all = lent[ARENA].length;
    uint32_t pending;

    CHECK(btt_open(image, all, room, sizeof room, BTT_LAYOUT_NEAR, lanes, COUNT(lanes), &opened, &pending) == 0);
    for (size_t i = 0; i < count; i++) {
        for (uint32_t k = 0; k < opened.size / 4; k++) {
            put32(buffer + 4 * k, (uint32_t)i + k);
        }
        numbers[i] = (uint8_t)(rows[i].kind == START
                                   ? btt_start(image, all, &opened, lanes, COUNT(lanes), rows[i].lane, rows[i].sector)
                               : rows[i].kind == STEP
                                   ? btt_step(image, all, &opened, lanes, COUNT(lanes), rows[i].lane, buffer, opened.size)
                                   : btt_open(image, all, room, sizeof room, BTT_LAYOUT_NEAR, lanes, COUNT(lanes), &opened, &pending));
    }
}

/* Replays the log, of which what stands in bytes after its records must end it or not, and compares with the calls. */
static void replayed(uint32_t answer, size_t offset)
{
    static uint8_t image[290816], numbers[BTT_MAX_RECORDS];

    CHECK(lent[ARENA].length <= sizeof image);
    memcpy(image, arena, lent[ARENA].length);
    by_calls(image, numbers);
    lend_log();
    CALL(answer, REPLAYED, replay());
    ran(count, numbers, offset);
    CHECK(memcmp(arena, image, lent[ARENA].length) == 0);
}

/* The sector must hold in word k the number of its write's first step and k twice: the steps are the records from that one on. */
static void holds_steps(uint32_t sector, uint32_t first)
{
    CALL(0, OPENED | ONLY(ARENA), open_arena());
    CALL(0, ONLY(BUFFER), read_sector(sector));
    for (uint32_t k = 0; k < handle->size / 4; k++) {
        CHECK(get32(lent[BUFFER].at + 4 * k) == first + 2 * k);
    }
}

static void test_write(void)
{
    static const uint32_t shapes[][3] = {{512, 60, 4}, {512, 1, 1}, {512, 256, 256}, {520, 60, 4}, {528, 1, 1}, {4096, 3, 2}, {4104, 3, 2}};

    for (size_t i = 0; i < COUNT(shapes); i++) {
        fresh(shapes[i][0], shapes[i][1], shapes[i][2]);
        empty_log();
        replayed(0, 0);
        put(START, 0, 0, 1);
        put(STEP, 0, 0, (int)shapes[i][0] / 4 + 5);
        put(STEP, 0, 0, 1);
        replayed(0, 0);
        CHECK(lent[ANSWERS].at[0] == 0 && lent[ANSWERS].at[count - 2] == 0 && lent[ANSWERS].at[count - 1] == 14);
        holds_steps(0, 1);
    }
}

/* A write that is cut after so many stores is the old sector, or the new one if its sequence word was stored. */
static void test_cuts(void)
{
    for (size_t i = 0; i < 8 * COUNT(pairs); i++) {
        uint32_t size = pairs[i / 8][0];
        int words = (int)size / 4;
        const int stores[8] = {0, 1, words - 1, words, words + 1, words + 3, words + 4, words + 5};

        fresh(size, 6, 3);
        empty_log();
        put(STEP, 2, 0, 1);
        put(START, 2, 5, 1);
        put(STEP, 2, 0, stores[i % 8]);
        put(CUT, 0, 0, 1);
        put(STEP, 2, 0, 1);
        replayed(0, 0);
        CHECK(lent[ANSWERS].at[0] == 14 && lent[ANSWERS].at[count - 2] == 0 && lent[ANSWERS].at[count - 1] == 14);
        if (stores[i % 8] >= words + 4) {
            holds_steps(5, 2);
        } else {
            CALL(0, OPENED, open_arena());
            CALL(0, ONLY(BUFFER), read_sector(5));
            CHECK(all_bytes(lent[BUFFER].at, size, 0));
        }
    }
}

/* Two lanes in turn; the opening of a cut finishes one of the two writes, and the log's end leaves the other without its map word. */
static void test_two_lanes(void)
{
    fresh_case();
    empty_log();
    put(START, 0, 7, 1);
    put(START, 3, 8, 1);
    for (int k = 0; k < LAST - 1; k++) {
        put(STEP, 0, 0, 1);
        put(STEP, 3, 0, 1);
    }
    put(STEP, 0, 0, 1);
    put(CUT, 0, 0, 1);
    put(START, 1, 8, 1);
    put(STEP, 1, 0, LAST);
    replayed(0, 0);
    CALL(0, OPENED | ONLY(ARENA), open_arena());
    CHECK(mended() == 1);
    CALL(0, ONLY(BUFFER), read_sector(7));
    for (uint32_t k = 0; k < SIZE / 4; k++) {
        CHECK(get32(lent[BUFFER].at + 4 * k) == 2 + 3 * k);
    }
    holds_steps(8, (uint32_t)count - LAST);
}

static void test_refused_records(void)
{
    static const uint8_t numbers[] = {14, 11, 11, 11, 9, 9, 0, 12, 13, 9, 0, 14, 0};

    fresh_case();
    empty_log();
    put(STEP, 0, 0, 1);
    put(STEP, 4, 0, 1);
    put(START, 4, 60, 1);
    put(START, 65535, 7, 1);
    put(START, 0, 60, 1);
    put(START, 0, 0x10007, 1);
    put(START, 0, 7, 1);
    put(START, 0, 8, 1);
    put(START, 1, 7, 1);
    put(START, 1, 0xFFFFFFFF, 1);
    put(CUT, 0, 0, 1);
    put(STEP, 0, 0, 1);
    put(START, 1, 7, 1);
    replayed(0, 0);
    CHECK(count == sizeof numbers && memcmp(lent[ANSWERS].at, numbers, sizeof numbers) == 0);
}

/* The replay's own table has a record for each of 256 lanes: the opening of a cut finishes a write on the last of them. */
static void test_many_lanes(void)
{
    static const uint8_t numbers[] = {11, 14, 0, 13, 11};

    fresh(512, 256, 256);
    empty_log();
    put(START, 256, 7, 1);
    put(STEP, 255, 0, 1);
    put(START, 255, 7, 1);
    put(START, 254, 7, 1);
    put(STEP, 256, 0, 1);
    put(STEP, 255, 0, LAST);
    put(CUT, 0, 0, 1);
    put(STEP, 255, 0, 1);
    replayed(0, 0);
    CHECK(memcmp(lent[ANSWERS].at, numbers, sizeof numbers) == 0 && lent[ANSWERS].at[count - 1] == 14);
    CHECK(get32(arena + 266268) == 0xC00001FF);
    CHECK(all_bytes(lent[ANSWERS].at + sizeof numbers, LAST + 1, 0));
}

/* A write and a cut; what is put after it begins at a byte that is the answer. */
static size_t write_and_cut(void)
{
    empty_log();
    put(START, 0, 7, 1);
    put(STEP, 0, 0, LAST);
    put(CUT, 0, 0, 1);
    return length;
}

/* Every record cut short, and every wrong length and kind; what ran before stays, and what stands after it does not run. */
static void test_bad_records(void)
{
    static const uint8_t whole[][10] = {{10, 0, 1, 0, 1, 0, 8, 0, 0, 0}, {6, 0, 2, 0, 0, 0}, {4, 0, 3, 0}};
    static const uint16_t headers[][2] = {
        {0, 1}, {1, 1}, {3, 1}, {4, 1}, {5, 1}, {6, 1}, {9, 1}, {11, 1}, {266, 1}, {65535, 1},
        {0, 2}, {1, 2}, {3, 2}, {4, 2}, {5, 2}, {7, 2}, {10, 2}, {262, 2}, {65535, 2},
        {0, 3}, {1, 3}, {3, 3}, {5, 3}, {6, 3}, {10, 3}, {260, 3}, {65535, 3},
        {0, 0}, {4, 0}, {10, 0}, {4, 4}, {6, 4}, {10, 257}, {6, 258}, {4, 259}, {4, 65535}, {65535, 65535},
    };

    for (size_t kind = 0; kind < COUNT(whole); kind++) {
        for (size_t left = 1; left < whole[kind][0]; left++) {
            size_t at = write_and_cut();

            fresh_case();
            memcpy(bytes + at, whole[kind], left);
            length += left;
            replayed(20, at);
        }
    }
    for (size_t i = 0; i < COUNT(headers); i++) {
        size_t at = write_and_cut();

        fresh_case();
        put_bytes_of(2, headers[i][0]);
        put_bytes_of(2, headers[i][1]);
        memcpy(bytes + length, whole[2], 4);
        memcpy(bytes + length + 4, whole[2], 4);
        length += 8;
        replayed(20, at);
    }
    holds_steps(7, 1);
}

/* A buffer for the answers of any length gets the first that fit; all else is as with a long one. */
static void test_short_answers(void)
{
    static const size_t rooms[] = {0, 1, 2, 133, 134, 135, 4096};

    for (size_t i = 0; i < COUNT(rooms); i++) {
        size_t at = write_and_cut();

        fresh_case();
        lend(ANSWERS, rooms[i]);
        replayed(0, 0);
        fresh_case();
        lend(ANSWERS, rooms[i]);
        put_bytes_of(1, 0);
        replayed(20, at);
    }
}

/* A log of 8,192 bytes runs; a longer one is 20 at 0 once the arena is opened, and runs nothing. */
static void test_long_logs(void)
{
    fresh_case();
    empty_log();
    put(CUT, 0, 0, BTT_MAX_RECORDS);
    CHECK(length == BTT_MAX_LOG);
    replayed(0, 0);
    for (unsigned more = 1; more < 5; more++) {
        fresh_case();
        put32(arena + FLOG + 16, 7);
        put32(arena + FLOG + 20, 7);
        put32(arena + FLOG + 24, 60);
        put32(arena + FLOG + 28, 2);
        length = BTT_MAX_LOG + more;
        count = 0;
        replayed(20, 0);
        CHECK(get32(map_word(7)) == 0xC000003C);
    }
}

/* A refused opening: nothing runs, the arena and the answers are kept, and the work buffer is as opening leaves it. */
static void refused(uint32_t answer)
{
    CALL(answer, answer > 5 ? REFUSED | ONLY(WORK) : REFUSED, replay());
    CHECK(get_bytes(lent[RECORDS].at, 8) == 0 && get_bytes(lent[STOPPED].at, 8) == 0);
    CHECK(answer < 6 || all_bytes(lent[WORK].at, BLOCKS, 0));
}

static void test_refused_openings(void)
{
    static const struct {
        size_t at;
        uint32_t value, answer;
    } rows_of[] = {
        {FLOG + 12, 0, 6}, {FLOG + 12, 4, 6}, {MAP, 0x40000040, 7}, {MAP, 1, 18}, {MAP + 28, 7, 18}, {MAP + 236, 0x3FFFFFFF, 18},
        {FLOG + 32, 1, 18}, {FLOG + 252, 0x80000000, 18}, {MAP + 4, 0xC0000002, 8},
    };
    static const size_t logs[] = {BTT_MAX_LOG + 1, 8, 0};

    for (size_t i = 0; i < COUNT(logs); i++) {
        write_and_cut();
        length = logs[i];
        for (size_t row = 0; row < COUNT(rows_of); row++) {
            fresh_case();
            lend_log();
            put32(arena + rows_of[row].at, rows_of[row].value);
            refused(rows_of[row].answer);
        }
        fresh_case();
        lend_log();
        lend(WORK, BLOCKS - 1);
        refused(5);
        arena[COPY + 48] = arena[48] = 1;
        seal(arena);
        refused(4);
        arena[56] = 3;
        seal(arena);
        refused(3);
        arena[0] = 0;
        refused(2);
        lend(ARENA, 0);
        refused(1);
    }
}

/* An arena whose second halves stand at byte 32 is refused once one of them is written, and a replay writes them at byte 16. */
static void test_one_layout(void)
{
    layout = BTT_LAYOUT_FAR;
    fresh_case();
    write_and_cut();
    replayed(0, 0);
    CALL(18, UNOPENED, open_arena());
    fresh_case();
    lend_log();
    CALL(0, STEPPED, write_sector(0, 7));
    refused(18);
    layout = BTT_LAYOUT_NEAR;
}

int main(void)
{
    static const test tests[] = {test_write, test_cuts, test_two_lanes, test_refused_records, test_many_lanes, test_bad_records,
                                 test_short_answers, test_long_logs, test_refused_openings, test_one_layout};

    return run("test_replay", tests, COUNT(tests), 1);
}

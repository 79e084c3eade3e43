/*
 * What the tests of the calls lend: each slice, the handle and each number in pages of its own, with guard bytes around it in them and pages
 * that cannot be touched before and after. What a call takes as const it is lent in pages that can only be read. A call is checked to
 * answer as it must and to change no byte but of the parts that it may, of the table only the records that it may, and never the rest of
 * a block, which is rubbish as it was lent.
 */
#ifndef LENT_H
#define LENT_H

#ifndef _GNU_SOURCE
#define _GNU_SOURCE
#endif
#include <signal.h>
#include <sys/mman.h>
#include <unistd.h>

#include "check.h"

enum part { ARENA, WORK, HANDLE, TABLE, MENDED, BUFFER, RECORD, OFFSET, LENGTH, FIRST_ID, SECOND_ID, LOG, ANSWERS, RECORDS, STOPPED, PARTS };

#define ONLY(part) (1u << (part))
enum { NOTHING = 0, GUARD = 0xA7 };

struct lent {
    uint8_t *at;
    size_t length;
    uint8_t *pages;
    size_t room;
    uint8_t *copy;      /* the pages as they were before the call */
};

static struct lent lent[PARTS];
static const char *calling = "no call", *calling_file = __FILE__;   /* the last call, for a fault in it */
static int calling_line = __LINE__;
static uint32_t answers;    /* the set of the answers given so far */
static int ends_at_page;    /* whether a part ends where its pages end, or begins where they begin */

static uint8_t *arena;
static struct btt_handle *handle;
static struct btt_lane *table;
static uint32_t made_size, made_blocks, made_lanes;     /* of the last arena made: the bytes of a sector, how many blocks and lanes */
static uint32_t first_record, records_set;  /* the records of the table that the last call may change, if it may change it at all */

/* A lent slice as a call takes it, and the table as a call takes it. */
#define START_OF(part) (lent[part].length == 0 && ends_at_page ? NULL : lent[part].at)
#define SLICE(part) START_OF(part), lent[part].length
#define RECORDS_OF_TABLE (struct btt_lane *)(void *)START_OF(TABLE), lent[TABLE].length / sizeof(struct btt_lane)

/* Lends so many bytes as that part, in new pages; an empty slice is a null pointer or points where nothing can be touched. */
static void lend(enum part part, size_t length)
{
    struct lent *x = &lent[part];
    size_t align = part == ARENA || part == TABLE ? 4 : part == HANDLE ? 8 : 1;
    uint8_t *whole;

    if (x->pages != NULL) {
        CHECK(munmap(x->pages - 4096, x->room + 8192) == 0);
        free(x->copy);
    }
    x->length = length;
    x->room = units(length);
    whole = mmap(NULL, x->room + 8192, PROT_NONE, MAP_PRIVATE | MAP_ANONYMOUS, -1, 0);
    CHECK(whole != MAP_FAILED);
    x->pages = whole + 4096;
    CHECK(x->room == 0 || mprotect(x->pages, x->room, PROT_READ | PROT_WRITE) == 0);
    x->copy = malloc(x->room + 1);
    CHECK(x->copy != NULL);
    x->at = x->pages + (ends_at_page ? (x->room - length) / align * align : 0);
    memset(x->pages, GUARD, x->room);
    if (length > 0) {
        pattern(x->at, length, 77 + (uint32_t)part);
    }
    arena = lent[ARENA].at;
    handle = (struct btt_handle *)(void *)lent[HANDLE].at;
    table = (struct btt_lane *)(void *)lent[TABLE].at;
}

/* Lends a table of so many records, all rubbish. */
static inline void lend_table(size_t records)
{
    lend(TABLE, records * sizeof(struct btt_lane));
}

/* Lets the pages of the parts of a set only be read, or be stored to as well. */
static void protect(unsigned parts, int how)
{
    for (int i = 0; i < PARTS; i++) {
        if (parts >> i & 1 && lent[i].room > 0 && mprotect(lent[i].pages, lent[i].room, how) != 0) {
            failed(__FILE__, __LINE__, "pages that were lent cannot be protected");
        }
    }
}

static uint32_t given_back(unsigned parts, uint32_t answer)
{
    protect(parts, PROT_READ | PROT_WRITE);
    return answer;
}

/* Makes a call while the parts of a set, which it takes as const, can only be read. */
#define READING(parts, call) (protect((parts), PROT_READ), given_back((parts), (call)))

static void remember(void)
{
    for (int i = 0; i < PARTS; i++) {
        memcpy(lent[i].copy, lent[i].pages, lent[i].room);
    }
}

/* Whether the pages of a part are as they were, so many bytes of it from one on aside. */
static int kept_but(const struct lent *x, size_t from, size_t bytes)
{
    size_t before = (size_t)(x->at - x->pages) + from, after = before + bytes;

    return memcmp(x->pages, x->copy, before) == 0 && memcmp(x->pages + after, x->copy + after, x->room - after) == 0;
}

/* Whether the pages of a part are as they were. */
static inline int kept(const struct lent *x)
{
    return memcmp(x->pages, x->copy, x->room) == 0;
}

/* Whether they are, the part itself aside, or of the table the records that the last call may change. */
static int kept_around(enum part part)
{
    size_t size = sizeof(struct btt_lane);

    return part == TABLE ? kept_but(&lent[TABLE], first_record * size, records_set * size) : kept_but(&lent[part], 0, lent[part].length);
}

/* The bytes of a part as they were before the last call. */
static inline const uint8_t *was(enum part part)
{
    return lent[part].copy + (lent[part].at - lent[part].pages);
}

static void answered(uint32_t want, uint32_t got, unsigned may, const char *file, int line, const char *call)
{
    static const char *const names[] = {
        "arena", "work buffer", "handle", "table", "mended", "sector buffer", "record", "offset", "length", "first identifier",
        "second identifier", "log", "answers", "records", "stopped"
    };
    char text[200];

    if (got != want) {
        snprintf(text, sizeof text, "%s answered %u, not %u", call, (unsigned)got, (unsigned)want);
        failed(file, line, text);
    }
    for (unsigned i = 0; i < PARTS; i++) {
        if (may >> i & 1 ? !kept_around(i) : !kept(&lent[i])) {
            snprintf(text, sizeof text, "%s changed a byte of or beside the %s", call, names[i]);
            failed(file, line, text);
        }
    }
    if (may & ONLY(ARENA) && !same_rest(arena, was(ARENA), made_size, made_blocks)) {
        snprintf(text, sizeof text, "%s changed the rest of a block", call);
        failed(file, line, text);
    }
    answers |= 1u << want;
    checks++;
}

/* Makes a call that must answer `want` and may change only the parts of the set `may`. */
#define CALL(want, may, call) \
    (remember(), calling = #call, calling_file = __FILE__, calling_line = __LINE__, answered((want), (call), (may), __FILE__, __LINE__, #call))

/* A page was touched that cannot be, or stored to that was lent to be read. */
static void on_touch(int signal)
{
    char text[300];

    (void)signal;
    snprintf(text, sizeof text, "%s:%d: in or after %s a page was touched that was not lent, or not lent to be stored to\n", calling_file,
             calling_line, calling);
    _exit(write(2, text, strlen(text)) < 0 ? 2 : 1);
}

/* What every call that is given a handle only reads: the handle, and in looks the arena and the table. */
#define HELD ONLY(HANDLE)
#define LOOKED (ONLY(ARENA) | ONLY(HANDLE) | ONLY(TABLE))

/* The library's calls over the lent parts. */
static inline uint32_t make(uint32_t size, uint32_t sectors, uint32_t lanes)
{
    uint32_t answer =
        READING(ONLY(FIRST_ID) | ONLY(SECOND_ID), btt_make(SLICE(ARENA), size, sectors, lanes, SLICE(FIRST_ID), SLICE(SECOND_ID)));

    if (answer == 0) {
        made_size = size;
        made_blocks = sectors + lanes;
        made_lanes = lanes;
    }
    return answer;
}

static inline uint32_t info_block(void)
{
    return READING(ONLY(ARENA), (btt_info_block(SLICE(ARENA), (uint64_t *)(void *)lent[OFFSET].at, (uint64_t *)(void *)lent[LENGTH].at), 0));
}

static inline uint32_t open_arena(void)
{
    first_record = 0;
    records_set = made_lanes;
    return btt_open(SLICE(ARENA), SLICE(WORK), layout, RECORDS_OF_TABLE, handle, (uint32_t *)(void *)lent[MENDED].at);
}

static inline uint32_t cut_open(uint32_t k)
{
    return READING(ONLY(TABLE), btt_cut_open(SLICE(ARENA), SLICE(WORK), layout, RECORDS_OF_TABLE, k, (uint32_t *)(void *)lent[MENDED].at));
}

static inline uint32_t read_sector(uint32_t sector)
{
    return READING(LOOKED, btt_read(SLICE(ARENA), handle, RECORDS_OF_TABLE, sector, SLICE(BUFFER)));
}

/* The lane whose record the next call may change. */
static inline void on_lane(uint32_t lane)
{
    first_record = lane;
    records_set = 1;
}

static inline uint32_t start(uint32_t lane, uint32_t sector)
{
    on_lane(lane);
    return READING(HELD | ONLY(ARENA), btt_start(SLICE(ARENA), handle, RECORDS_OF_TABLE, lane, sector));
}

static inline uint32_t step(uint32_t lane)
{
    on_lane(lane);
    return READING(HELD | ONLY(BUFFER), btt_step(SLICE(ARENA), handle, RECORDS_OF_TABLE, lane, SLICE(BUFFER)));
}

static inline uint32_t write_sector(uint32_t lane, uint32_t sector)
{
    on_lane(lane);
    return READING(HELD | ONLY(BUFFER), btt_write(SLICE(ARENA), handle, RECORDS_OF_TABLE, lane, sector, SLICE(BUFFER)));
}

static inline uint32_t lane_record(uint32_t lane)
{
    return READING(LOOKED, btt_lane_record(SLICE(ARENA), handle, RECORDS_OF_TABLE, lane, (struct btt_lane *)(void *)lent[RECORD].at));
}

static inline uint32_t next_store(uint32_t lane)
{
    return READING(LOOKED, btt_next_store(SLICE(ARENA), handle, RECORDS_OF_TABLE, lane, (uint64_t *)(void *)lent[OFFSET].at));
}

static inline uint32_t replay(void)
{
    return READING(ONLY(LOG), btt_replay(SLICE(ARENA), SLICE(WORK), SLICE(LOG), SLICE(ANSWERS), (uint64_t *)(void *)lent[RECORDS].at,
                                         (uint64_t *)(void *)lent[STOPPED].at));
}

static inline uint32_t mended(void)
{
    return get32(lent[MENDED].at);
}

/*
 * Lends everything for an arena of these figures, makes it and opens it. Where parts end at the end of their pages the table has just the
 * records of the lanes, else three more.
 */
static inline void fresh(uint32_t size, uint32_t sectors, uint32_t lanes)
{
    lend(ARENA, arena_length(size, sectors, lanes));
    lend(WORK, sectors + lanes);
    lend(HANDLE, sizeof(struct btt_handle));
    lend_table(lanes + (ends_at_page ? 0 : 3));
    lend(MENDED, 4);
    lend(BUFFER, size);
    lend(RECORD, sizeof(struct btt_lane));
    lend(OFFSET, 8);
    lend(LENGTH, 8);
    lend(FIRST_ID, 16);
    lend(SECOND_ID, 16);
    lend(LOG, 0);
    lend(ANSWERS, BTT_MAX_RECORDS);
    lend(RECORDS, 8);
    lend(STOPPED, 8);
    CALL(0, ONLY(ARENA), make(size, sectors, lanes));
    CALL(0, ONLY(WORK) | ONLY(HANDLE) | ONLY(TABLE) | ONLY(MENDED), open_arena());
    CHECK(mended() == 0 && handle->lanes == lanes && handle->layout == layout);
    CHECK(handle->size == size && handle->internal == internal_size(size));
}

/* The arena of case 5: its figures and where its parts start. */
enum { SIZE = 512, SECTORS = 60, LANES = 4, BLOCKS = 64, DATA = 4096, MAP = 36864, FLOG = 40960, COPY = 45056, WHOLE = 49152 };
enum { LAST = SIZE / 4 + 4 };       /* the stores made of a write that lacks only its map word */

static inline void fresh_case(void)
{
    fresh(SIZE, SECTORS, LANES);
}

static inline uint8_t *map_word(uint32_t sector)
{
    return arena + MAP + 4 * sector;
}

/* A byte offset in that arena that is told for layout 16, in the layout of the test. */
static inline size_t placed(size_t at)
{
    return at >= FLOG && at < FLOG + 64 * LANES ? at - at % 64 + lane_byte(at % 64) : at;
}

/* What an accepted opening, and an accepted step or whole write, may change; a refused opening leaves the table. */
#define OPENED (ONLY(WORK) | ONLY(HANDLE) | ONLY(TABLE) | ONLY(MENDED))
#define UNOPENED (OPENED & ~ONLY(TABLE))
#define STEPPED (ONLY(ARENA) | ONLY(TABLE))

/*
 * Opening and cut openings must all refuse the arena as it stands: handle and count become 0, the work buffer ends as it must, and arena and
 * table stay.
 */
static inline void refused_opening(uint32_t answer)
{
    static const uint32_t cuts[] = {0, 1, 16, 0xFFFFFFFF};
    int untouched = answer < 6 || answer == 16;
    size_t cleared = untouched ? 0 : BLOCKS;
    unsigned work = untouched ? NOTHING : ONLY(WORK);

    for (size_t i = 0; i <= COUNT(cuts); i++) {
        pattern(lent[WORK].at, lent[WORK].length, 5);
        pattern(lent[MENDED].at, 4, 6);
        pattern(lent[HANDLE].at, sizeof *handle, 7);
        if (i < COUNT(cuts)) {
            CALL(answer, ONLY(MENDED) | work, cut_open(cuts[i]));
        } else {
            CALL(answer, UNOPENED & ~(ONLY(WORK) & ~work), open_arena());
            CHECK(all_bytes(lent[HANDLE].at, sizeof *handle, 0));
        }
        CHECK(mended() == 0);
        CHECK(all_bytes(lent[WORK].at, cleared, 0));
        CHECK(memcmp(lent[WORK].at + cleared, was(WORK) + cleared, lent[WORK].length - cleared) == 0);
    }
}

typedef void (*test)(void);

/*
 * Runs the tests in so many of the layouts, with the lent parts at the beginning and at the end of their pages, and says which answers
 * there were.
 */
static int run(const char *name, const test *tests, size_t count, size_t in_layouts)
{
    signal(SIGSEGV, on_touch);
    for (size_t round = 0; round < 2 * in_layouts; round++) {
        ends_at_page = round % 2;
        for (size_t i = 0; i < count; i++) {
            layout = layouts[round / 2];
            tests[i]();
        }
    }
    printf("%s: %lu checks, answers", name, checks);
    for (unsigned answer = 0; answer <= BTT_SHORT_TABLE; answer++) {
        if (answers >> answer & 1) {
            printf(" %u", answer);
        }
    }
    printf("\n");
    return 0;
}

#endif

/*
 * Arenas of 16 MiB, the largest there are, of every sector size, with 16 lanes in one layout and with 256 in the other: every sector written
 * on the lanes in turn, then rounds of writes of which some are cut, with an opening after each round and every sector read. The rest of
 * each block stays as it was before making, and the one record past the lanes as it was put there.
 */
#include "check.h"

enum { ROUNDS = 3, MOST_SECTORS = 32768 };

static uint8_t *arena, *rubbish, work[MOST_SECTORS];     /* the arena, and what its bytes were before it was made */
static struct btt_handle handle;
static struct btt_lane table[BTT_MAX_LANES + 1];
static uint32_t lanes;      /* of the arena; its table has one record more */
static uint32_t version[MOST_SECTORS];      /* the plain row: which write each sector has, 0 for none */
static uint32_t last_version;

static void bytes_of(uint32_t sector, uint32_t number, uint8_t *bytes)
{
    if (number == 0) {
        memset(bytes, 0, handle.size);
    } else {
        pattern(bytes, handle.size, number * 40503u + sector);
    }
}

/* Opens the arena in a layout, lending the table. */
static uint32_t open_in(uint32_t told, uint32_t *mended)
{
    return btt_open(arena, BTT_MAX_ARENA, work, sizeof work, told, table, lanes + 1, &handle, mended);
}

static void open_arena(uint32_t expected)
{
    uint32_t mended;

    memset(table, 0xA5, sizeof table);
    CHECK(open_in(layout, &mended) == 0);
    CHECK(mended == expected && handle.lanes == lanes && handle.internal == internal_size(handle.size));
    CHECK(same_rest(arena, rubbish, handle.size, handle.blocks));
    CHECK(all_bytes((const uint8_t *)&table[lanes], sizeof table[0], 0xA5));
}

static void read_all(void)
{
    static uint8_t bytes[BTT_MAX_SECTOR], expected[BTT_MAX_SECTOR];

    for (uint32_t sector = 0; sector < handle.sectors; sector++) {
        bytes_of(sector, version[sector], expected);
        CHECK(btt_read(arena, BTT_MAX_ARENA, &handle, table, lanes + 1, sector, bytes, handle.size) == 0);
        CHECK(memcmp(bytes, expected, handle.size) == 0);
    }
}

static void write_whole(uint32_t lane, uint32_t sector)
{
    static uint8_t bytes[BTT_MAX_SECTOR];

    version[sector] = ++last_version;
    bytes_of(sector, last_version, bytes);
    CHECK(btt_write(arena, BTT_MAX_ARENA, &handle, table, lanes + 1, lane, sector, bytes, handle.size) == 0);
}

/* All lanes write at once, a step at a time in turn, to sectors spread over the arena; lane i stops after its own number of stores. */
static uint32_t cut_round(uint32_t round)
{
    static uint8_t bytes[BTT_MAX_LANES][BTT_MAX_SECTOR];
    uint32_t stores = handle.size / 4 + 5, limit[BTT_MAX_LANES], sector[BTT_MAX_LANES], pending = 0;

    for (uint32_t lane = 0; lane < lanes; lane++) {
        sector[lane] = (handle.sectors / lanes * lane + 97 * round) % handle.sectors;
        limit[lane] = stores - (lane + round) % 5;
        bytes_of(sector[lane], ++last_version, bytes[lane]);
        CHECK(btt_start(arena, BTT_MAX_ARENA, &handle, table, lanes + 1, lane, sector[lane]) == 0);
        if (limit[lane] >= stores - 1) {
            version[sector[lane]] = last_version;
            pending += limit[lane] == stores - 1;
        }
    }
    for (uint32_t k = 0; k < stores; k++) {
        for (uint32_t lane = 0; lane < lanes; lane++) {
            if (k < limit[lane]) {
                CHECK(btt_step(arena, BTT_MAX_ARENA, &handle, table, lanes + 1, lane, bytes[lane], handle.size) == 0);
            }
        }
    }
    return pending;
}

/* A last map word, or a last byte of the last lane's padding, that is sloppy is refused, and nothing is changed by that. */
static void sloppy_ends(void)
{
    uint8_t *word = arena + handle.map + 4 * (uint64_t)(handle.sectors - 1), *padding = arena + handle.flog + 64 * lanes - 1;
    uint32_t found = get32(word), mended;

    CHECK(*padding == 0);
    put32(word, 1);
    CHECK(open_in(layout, &mended) == 18 && get32(word) == 1);
    put32(word, found);
    *padding = 1;
    CHECK(open_in(layout, &mended) == 18 && *padding == 1);
    *padding = 0;
    CHECK(open_in(other_layout(), &mended) == 18);
    CHECK(btt_open(arena, BTT_MAX_ARENA, work, sizeof work, layout, table, lanes - 1, &handle, &mended) == 21);
    open_arena(0);
}

static void try_size(uint32_t size, uint32_t sectors)
{
    static const uint8_t first_id[16], second_id[16];

    CHECK(arena_length(size, sectors, lanes) == BTT_MAX_ARENA && sectors + lanes <= MOST_SECTORS);
    memset(version, 0, sizeof version);
    memcpy(arena, rubbish, BTT_MAX_ARENA);
    CHECK(btt_make(arena, BTT_MAX_ARENA, size, sectors, lanes, first_id, 16, second_id, 16) == 0);
    open_arena(0);
    read_all();
    for (uint32_t i = 0; i < sectors; i++) {
        write_whole(i % lanes, (uint32_t)((uint64_t)i * 7919 % sectors));
    }
    read_all();
    open_arena(0);
    read_all();
    for (uint32_t round = 0; round < ROUNDS; round++) {
        uint32_t pending = cut_round(round);

        memset(&handle, 0xA5, sizeof handle);
        open_arena(pending);
        read_all();
        for (uint32_t lane = 0; lane < lanes; lane++) {
            write_whole(lane, (round * 1000 + lane * 3) % sectors);
        }
    }
    open_arena(0);
    sloppy_ends();
    read_all();
}

int main(void)
{
    static const uint32_t sectors[][2] = {{32472, 32208}, {28883, 28629}, {28883, 28629}, {4073, 3830}, {4010, 3767}};

    arena = malloc(BTT_MAX_ARENA);
    rubbish = malloc(BTT_MAX_ARENA);
    CHECK(arena != NULL && rubbish != NULL);
    pattern(rubbish, BTT_MAX_ARENA, 3);
    for (size_t i = 0; i < COUNT(layouts) * COUNT(pairs); i++) {
        size_t size = i % COUNT(pairs), many = i % 2;

        layout = layouts[i / COUNT(pairs)];
        lanes = many ? 256 : 16;
        try_size(pairs[size][0], sectors[size][many]);
    }
    free(arena);
    free(rubbish);
    printf("large_arena: 16 MiB, %u writes, %lu checks\n", (unsigned)last_version, checks);
    return 0;
}

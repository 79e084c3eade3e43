/*
 * How a program uses the library: an arena in memory, a sector written whole, sectors written store by store with each store flushed,
 * and power cuts in the middle of a write.
 */
#include <stdio.h>
#include <stdlib.h>
#include <string.h>

#include "btt.h"

enum { SIZE = 512, SECTORS = 60, LANES = 4, ALL_STORES = SIZE / 4 + 5 };

/* An arena, its handle and the table of its lanes, which has room for the lanes of every arena. */
struct disk {
    uint8_t *arena;
    size_t length;
    struct btt_handle handle;
    struct btt_lane table[BTT_MAX_LANES];
};

#if defined(__x86_64__)
#include <emmintrin.h>

/* Flushes the cache lines of these bytes, and lets no later store pass. */
static void persist(void *at, size_t length)
{
    const char *end = (const char *)at + length;
    const char *line = (const char *)at - (uintptr_t)at % 64;

    for (; line < end; line += 64) {
        _mm_clflush(line);
    }
    _mm_sfence();
}
#else
/* A host on another machine puts its own flush here. */
static void persist(void *at, size_t length)
{
    (void)at;
    (void)length;
}
#endif

static void must(const char *what, uint32_t answer)
{
    if (answer != BTT_DONE) {
        fprintf(stderr, "%s: answer %u, %s\n", what, (unsigned)answer, btt_answer_text(answer));
        exit(1);
    }
}

static void *room(size_t length)
{
    void *at = calloc(1, length);

    if (at == NULL) {
        fprintf(stderr, "no memory\n");
        exit(1);
    }
    return at;
}

/* A part of an arena takes whole units of 4,096 bytes. */
static size_t units(size_t bytes)
{
    return (bytes + 4095) / 4096 * 4096;
}

/* The bytes of a block: those of a sector, rounded up to a multiple of 64. */
static size_t internal_size(size_t size)
{
    return (size + 63) / 64 * 64;
}

/* An arena is an info block, the data blocks, the map, the flog and a copy of the info block. */
static size_t arena_length(size_t size, size_t sectors, size_t lanes)
{
    return BTT_INFO_SIZE + units(internal_size(size) * (sectors + lanes)) + units(4 * sectors) + units(64 * lanes) + BTT_INFO_SIZE;
}

static void make(struct disk *d)
{
    static const uint8_t id[BTT_ID_SIZE] = "an example disk", parent[BTT_ID_SIZE] = "its namespace";

    d->length = arena_length(SIZE, SECTORS, LANES);
    d->arena = room(d->length);
    must("make", btt_make(d->arena, d->length, SIZE, SECTORS, LANES, id, sizeof id, parent, sizeof parent));
    persist(d->arena, d->length);
}

/*
 * Opening needs a byte to work in for each block, and the layout of the flog, which the arena does not say: this one's is the usual one.
 * The map words that it mended are flushed before the first write.
 */
static void open_disk(struct disk *d)
{
    uint32_t mended;
    uint8_t *work = room(SECTORS + LANES);

    must("open", btt_open(d->arena, d->length, work, SECTORS + LANES, BTT_LAYOUT_NEAR, d->table, BTT_MAX_LANES, &d->handle, &mended));
    free(work);
    persist(d->arena + d->handle.map, 4 * (size_t)d->handle.sectors);
    printf("opened: %u sectors of %u bytes, %u mended\n", (unsigned)d->handle.sectors, (unsigned)d->handle.size, (unsigned)mended);
}

static void show(const struct disk *d, uint32_t sector)
{
    uint8_t bytes[SIZE];

    must("read", btt_read(d->arena, d->length, &d->handle, d->table, BTT_MAX_LANES, sector, bytes, sizeof bytes));
    printf("sector %u: \"%.*s\"\n", (unsigned)sector, SIZE, (const char *)bytes);
}

/* A whole write flushes nothing: it is for memory that takes stores in their order by itself. */
static void write_whole(struct disk *d, uint32_t lane, uint32_t sector, const char *text)
{
    uint8_t bytes[SIZE] = {0};

    snprintf((char *)bytes, sizeof bytes, "%s", text);
    must("write", btt_write(d->arena, d->length, &d->handle, d->table, BTT_MAX_LANES, lane, sector, bytes, sizeof bytes));
}

/* The first stores of a write, each on the medium before the next: with ALL_STORES the write is done. */
static void write_flushed(struct disk *d, uint32_t lane, uint32_t sector, const char *text, int stores)
{
    uint8_t bytes[SIZE] = {0};
    uint64_t offset;

    snprintf((char *)bytes, sizeof bytes, "%s", text);
    must("start", btt_start(d->arena, d->length, &d->handle, d->table, BTT_MAX_LANES, lane, sector));
    for (; stores > 0; stores--) {
        must("next store", btt_next_store(d->arena, d->length, &d->handle, d->table, BTT_MAX_LANES, lane, &offset));
        must("step", btt_step(d->arena, d->length, &d->handle, d->table, BTT_MAX_LANES, lane, bytes, sizeof bytes));
        persist(d->arena + offset, 4);
    }
}

/* All that a power cut leaves is the arena. */
static void cut_power(struct disk *d)
{
    memset(&d->handle, 0, sizeof d->handle);
    memset(d->table, 0, sizeof d->table);
    printf("power cut\n");
}

int main(void)
{
    static struct disk d;
    uint8_t bytes[SIZE];
    uint32_t answer;

    make(&d);
    open_disk(&d);
    write_whole(&d, 0, 7, "first");
    show(&d, 7);
    write_flushed(&d, 1, 7, "second", ALL_STORES);
    show(&d, 7);

    /* Cut before the write's sequence word is stored: the old sector. */
    write_flushed(&d, 2, 7, "third", ALL_STORES - 2);
    cut_power(&d);
    open_disk(&d);
    show(&d, 7);

    /* Cut after it: the new sector, as opening stores the map word that is missing. */
    write_flushed(&d, 3, 7, "fourth", ALL_STORES - 1);
    cut_power(&d);
    open_disk(&d);
    show(&d, 7);

    answer = btt_read(d.arena, d.length, &d.handle, d.table, BTT_MAX_LANES, SECTORS, bytes, sizeof bytes);
    printf("sector %u: answer %u, %s\n", (unsigned)SECTORS, (unsigned)answer, btt_answer_text(answer));
    free(d.arena);
    return 0;
}

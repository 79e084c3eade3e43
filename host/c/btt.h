/*
 * One arena of a block translation table (BTT) in memory that the caller lends: the C interface of libbtt.a.
 *
 * What the caller keeps, in every call:
 *   - a pointer is valid for the length that is given after it; a null pointer with length 0 is an empty slice;
 *   - the slices, the handle and the numbers that one call is given lie apart: no two of them share a byte;
 *   - the arena's address is a multiple of 4, so that each step is one aligned store, and so is the table's;
 *   - no other thread changes what a call was given until the call is back, and none reads what the call may change.
 * Nothing else is asked: every input is answered, by 0 or by a number of enum btt_answer, and the first that applies in the order
 * that the call's comment gives is the answer. The library keeps nothing between calls and needs only memcpy, memmove and memset.
 *
 * What is remembered of the lanes between calls stands in a table, an array of struct btt_lane that the caller keeps and lends to every
 * call: record n is that of lane n. A table_length counts records, not bytes. A table needs a record for each lane, and may have more;
 * what stands past the lanes is any bytes, and no call looks at it or changes it. BTT_MAX_LANES records serve every arena.
 *
 * What stands in an arena, and when exactly each answer is given, is told in docs/FORMAT.md.
 */
#ifndef BTT_H
#define BTT_H

#include <stddef.h>
#include <stdint.h>

#ifdef __cplusplus
extern "C" {
#endif

/* The answers. */
enum btt_answer {
    BTT_DONE = 0,               /* accepted */
    BTT_WRONG_LENGTH = 1,       /* the arena's length is not allowed, or, in making, not the figure worked out */
    BTT_NO_INFO_BLOCK = 2,      /* neither info block is sound */
    BTT_FORBIDDEN_FIGURE = 3,   /* a figure of the info block is forbidden, flags apart */
    BTT_FLAGS_SET = 4,          /* flags are not 0 */
    BTT_SHORT_WORK_BUFFER = 5,  /* the work buffer is shorter than the number of blocks */
    BTT_LOST_LANE = 6,          /* a lane has no newer half, or one that is out of range */
    BTT_BAD_MAP_WORD = 7,       /* a map word names a block past the last */
    BTT_NOT_VALID = 8,          /* mapped and free blocks are not every block once */
    BTT_NO_SUCH_SECTOR = 9,     /* the sector is not below the number of sectors */
    BTT_WRONG_BUFFER = 10,      /* the sector buffer is not a sector long, or an identifier not 16 bytes */
    BTT_NO_SUCH_LANE = 11,      /* the lane is not below the number of lanes */
    BTT_LANE_BUSY = 12,         /* the lane has a write in flight */
    BTT_SECTOR_BUSY = 13,       /* another lane has that sector in flight */
    BTT_LANE_IDLE = 14,         /* the lane has no write in flight */
    BTT_BAD_SECTOR = 15,        /* the sector read is marked bad: its map word has bit 30 (Error) alone */
    BTT_BAD_HANDLE = 16,        /* the handle breaks a figure or does not match the arena's length, or the record of a lane is out of range;
                                   or a layout, the handle's or the one that an opening is told, is neither 16 nor 32 */
    BTT_SLOPPY = 18,            /* a map word with neither flag is not 0, or the padding of a lane is not */
    BTT_BAD_RECORD = 20,        /* a record of the log is short, has another length than its kind, or an unknown kind; or the log is too long */
    BTT_SHORT_TABLE = 21        /* the table has fewer records than there are lanes */
};

/*
 * Where a lane keeps the second half of its flog pair: so many bytes after the first, within its 64 bytes. The bytes of neither half are
 * padding. Nothing in an arena says its layout. One that is just made opens in both; from the first write to a lane's second half on it
 * opens in one only, and the other is refused with 18, where no answer before that applies.
 */
enum btt_layout {
    BTT_LAYOUT_NEAR = 16,       /* the usual one: the second half follows the first */
    BTT_LAYOUT_FAR = 32         /* 16 bytes of padding stand between them */
};

/*
 * The size of a sector is 512, 520, 528, 4,096 or 4,104 bytes. The block that holds its bytes has the internal size, which is the size
 * rounded up to a multiple of 64: 512, 576, 576, 4,096 or 4,160. No other pair is allowed. Sector buffers and the number of a write's stores
 * go by the size; the places of the blocks and the arena's length go by the internal size. The rest of a block, which is its bytes after
 * those of the sector, is never stored to and never looked at.
 */
enum {
    BTT_MIN_ARENA = 20480,      /* an arena's length is a multiple of 4,096 from here */
    BTT_MAX_ARENA = 16777216,   /* to here */
    BTT_INFO_SIZE = 4096,       /* bytes of an info block: the first and the last of an arena */
    BTT_ID_SIZE = 16,           /* bytes of an identifier */
    BTT_MAX_SECTOR = 4104,      /* bytes of the longest sector: a buffer so long has room for a sector of every arena */
    BTT_MAX_LANES = 256,        /* an arena has 1 lane to so many */
    BTT_LANE_SIZE = 28,         /* bytes of a struct btt_lane */
    BTT_HANDLE_SIZE = 64,       /* bytes of a struct btt_handle */
    BTT_MAX_LOG = 8192,         /* bytes of the longest run log */
    BTT_MAX_RECORDS = 2048      /* the most records that a run log has: an answers buffer of that length always suffices */
};

/*
 * A lane's record, plain data like the handle. An accepted opening sets those of all lanes, and an accepted start, step or whole write
 * changes the one of its own lane; nothing else changes the table, and no refused call does. A record is in range, idle or busy, if each
 * field is in the range that is told here; else every call with a handle is answered with 16.
 */
struct btt_lane {
    uint32_t busy;              /* 1 with a write in flight, else 0 */
    uint32_t block;             /* the free block; of a write in flight, its new block: below the blocks */
    uint32_t half;              /* the half of the lane's flog pair that is written next: 0 or 1 */
    uint32_t sequence;          /* the sequence number that is written next: 1, 2 or 3 */
    uint32_t sector;            /* of a write in flight: its sector, below the sectors, */
    uint32_t old;               /* the block that the map had for it, below the blocks, */
    uint32_t made;              /* and how many of its size / 4 + 5 stores are made, fewer than all */
};

/*
 * What opening gives, and every later call judges anew: plain data, little-endian, with no padding, and no secret. Only an opening writes
 * it. It is the latest handle together with its table as the last call left it. Both may be copied; with an earlier state of the table
 * a call is still answered, but may spoil the arena. A table of another opening is judged by the range of its records only.
 */
struct btt_handle {
    uint64_t length;                        /* the arena's length in bytes */
    uint64_t data, map, flog, copy;         /* the byte offsets at which its parts start */
    uint32_t size;                          /* bytes of a sector: 512, 520, 528, 4,096 or 4,104 */
    uint32_t sectors;
    uint32_t internal;                      /* bytes of a block: the size rounded up to a multiple of 64 */
    uint32_t blocks;                        /* sectors + lanes */
    uint32_t lanes;                         /* 1 to 256 */
    uint32_t layout;                        /* the one that opening was told, 16 or 32; another value is answered with 16 */
};

/* The sizes of the structs and the places of their fields, which are the same for every compiler and in C++. */
#if defined(__cplusplus) && __cplusplus >= 201103L
#define BTT_HOLDS(name, condition) static_assert(condition, #name)
#elif defined(__STDC_VERSION__) && __STDC_VERSION__ >= 201112L
#define BTT_HOLDS(name, condition) _Static_assert(condition, #name)
#else
#define BTT_HOLDS(name, condition) typedef char btt_holds_##name[(condition) ? 1 : -1]
#endif
#define BTT_PLACE(of, field, offset) BTT_HOLDS(of##_##field, offsetof(struct btt_##of, field) == (offset))

BTT_HOLDS(lane_bytes, sizeof(struct btt_lane) == BTT_LANE_SIZE);
BTT_PLACE(lane, busy, 0);
BTT_PLACE(lane, block, 4);
BTT_PLACE(lane, half, 8);
BTT_PLACE(lane, sequence, 12);
BTT_PLACE(lane, sector, 16);
BTT_PLACE(lane, old, 20);
BTT_PLACE(lane, made, 24);
BTT_HOLDS(handle_bytes, sizeof(struct btt_handle) == BTT_HANDLE_SIZE);
BTT_PLACE(handle, length, 0);
BTT_PLACE(handle, data, 8);
BTT_PLACE(handle, map, 16);
BTT_PLACE(handle, flog, 24);
BTT_PLACE(handle, copy, 32);
BTT_PLACE(handle, size, 40);
BTT_PLACE(handle, sectors, 44);
BTT_PLACE(handle, internal, 48);
BTT_PLACE(handle, blocks, 52);
BTT_PLACE(handle, lanes, 56);
BTT_PLACE(handle, layout, 60);

#undef BTT_PLACE
#undef BTT_HOLDS

/*
 * Makes an arena of that many sectors of that size, with so many lanes, 1 to 256 and not more than sectors, in a slice of just the length
 * that this works out: both info blocks and every byte after the data blocks are written, the data blocks are not touched. A cut while
 * making promises nothing.
 * With each part rounded up to a multiple of 4,096 the length is 4,096 + internal size x (sectors + lanes) + 4 x sectors + 64 x lanes +
 * 4,096.
 * Answers 3 (size, sectors and lanes), 1, 10; a refusal changes nothing. Making gives no handle: open the arena.
 */
uint32_t btt_make(uint8_t *arena, size_t arena_length, uint32_t size, uint32_t sectors, uint32_t lanes, const uint8_t *first_id,
                  size_t first_id_length, const uint8_t *second_id, size_t second_id_length);

/*
 * Where the info block that counts is: the byte offset and the length of the first block if it is sound, else of the copy if that is.
 * Both are 0 if neither is sound or the arena's length is not allowed.
 */
void btt_info_block(const uint8_t *arena, size_t arena_length, uint64_t *offset, uint64_t *length);

/*
 * Opens an arena in a layout, BTT_LAYOUT_NEAR or BTT_LAYOUT_FAR, which the handle then carries: all is judged before anything is stored,
 * then each pending lane is mended by one store to the map.
 * The work buffer needs a byte for each block. On 0, 21, 6, 7, 18 and 8 as many of its bytes as there are blocks are 0 afterwards, the rest
 * and on 16 and 1 to 5 all of it is unchanged. *mended is the number of lanes that were pending.
 * The table needs a record for each lane. If the opening is accepted just these are set, each to an idle lane; what the table held before
 * does not matter.
 * Answers 16 (the layout is neither), 1 to 5, 21, 6, 7, 18, 8 in order, 18 over all map words and all lanes; a refusal leaves arena and
 * table, makes *mended 0 and all 64 bytes of *handle zeroes.
 */
uint32_t btt_open(uint8_t *arena, size_t arena_length, uint8_t *work, size_t work_length, uint32_t layout, struct btt_lane *table,
                  size_t table_length, struct btt_handle *handle, uint32_t *mended);

/*
 * An opening that stops after its first k stores, or makes all if there are fewer, as a power cut would stop it. It answers, counts and
 * leaves the work buffer as btt_open does, and gives no handle. Of the table only the length counts: it is answered with 21 where btt_open
 * would be, and neither read nor changed.
 */
uint32_t btt_cut_open(uint8_t *arena, size_t arena_length, uint8_t *work, size_t work_length, uint32_t layout, const struct btt_lane *table,
                      size_t table_length, uint32_t k, uint32_t *mended);

/*
 * The calls below are lent the handle and its table. Each judges the handle's figures first (16), then the table's length (21), then every
 * record of the lanes (16): so 16, 21, 16 begins the answers of all of them. None changes the handle, and none but btt_start, btt_step and
 * btt_write the table.
 */

/*
 * Reads a sector into a buffer of a sector's length, the handle's size: what the last finished write stored, or zeroes where the sector
 * was never written or its map word has bit 31 (Zero) alone; with bit 30 (Error) alone it is bad. Arena and table are not changed.
 * Answers 16, 21, 16, 9, 10, 7 and 18 (of that sector's map word), 15; a refusal leaves the buffer.
 */
uint32_t btt_read(const uint8_t *arena, size_t arena_length, const struct btt_handle *handle, const struct btt_lane *table,
                  size_t table_length, uint32_t sector, uint8_t *buffer, size_t buffer_length);

/*
 * Starts a write to a sector on an idle lane. The arena is not changed; the lane's record in the table remembers the write.
 * Answers 16, 21, 16, 11, 12, 9, 13, 7 and 18 (of that sector's map word); a refusal changes nothing.
 */
uint32_t btt_start(const uint8_t *arena, size_t arena_length, const struct btt_handle *handle, struct btt_lane *table, size_t table_length,
                   uint32_t lane, uint32_t sector);

/*
 * Makes the next store of the lane's write, one aligned word, and counts it in the lane's record. After size / 4 + 5 steps the write is
 * done and the lane idle. Give every step of a write the same sector buffer: a step stores the one word of it whose turn it is, so each
 * word of the sector is from the buffer of its own step. Answers 16, 21, 16, 11, 14, 10; a refusal changes nothing.
 * On a write-back mapping the stores before the sequence word, which is the last but one, need no order among themselves: flush and fence
 * before it, after it and after the map word, and nowhere else (docs/HOSTS.md).
 */
uint32_t btt_step(uint8_t *arena, size_t arena_length, const struct btt_handle *handle, struct btt_lane *table, size_t table_length,
                  uint32_t lane, const uint8_t *buffer, size_t buffer_length);

/*
 * Makes a whole write, a start and all its steps, in one call. It is refused before any store; of the table the lane's record is changed.
 * Nothing can be flushed between its stores, so on a write-back mapping whose caches a power cut loses it does not withstand one.
 * Answers 16, 21, 16, 11, 12, 9, 10, 13, 7 and 18 (of that sector's map word); a refusal changes nothing.
 */
uint32_t btt_write(uint8_t *arena, size_t arena_length, const struct btt_handle *handle, struct btt_lane *table, size_t table_length,
                   uint32_t lane, uint32_t sector, const uint8_t *buffer, size_t buffer_length);

/* A copy of a lane's record, once handle and table are judged. Answers 16, 21, 16, 11; a refusal leaves *out. */
uint32_t btt_lane_record(const uint8_t *arena, size_t arena_length, const struct btt_handle *handle, const struct btt_lane *table,
                         size_t table_length, uint32_t lane, struct btt_lane *out);

/*
 * The byte offset of the one word that the lane's next step will store, so that a host can flush just that line.
 * The table is only read. Answers 16, 21, 16, 11, 14; a refusal leaves *offset.
 */
uint32_t btt_next_store(const uint8_t *arena, size_t arena_length, const struct btt_handle *handle, const struct btt_lane *table,
                        size_t table_length, uint32_t lane, uint64_t *offset);

/*
 * Replays a run log on an arena: opens it and runs the log's records in order, as the calls above would be made. A log is at most 8,192
 * bytes of records, one after another, little-endian: the length of the whole record and its kind (16 bits each), then what the kind has.
 *   kind 1, length 10   a start: lane (16 bits), sector (32 bits)
 *   kind 2, length 6    a step: lane (16 bits); word k of the sector buffer that it lends is k + the record's number
 *   kind 3, length 4    a power cut and a new opening, with the same work buffer
 * Records are numbered from 0, all of them and on across kind 3. A record that is refused has its answer and does not end the replay. One
 * that is short, has another length than its kind, or is of another kind ends it with 20; what ran before stays. A log that is longer ends
 * with 20 at offset 0, after the opening.
 * No layout is told, and no table is lent: every opening is in layout 16, with a table of the library's own that is long enough.
 * The work buffer is as for btt_open. answers gets a byte for each record that ran, its answer; a short buffer gets the first that fit, all
 * else being as with a long one, and bytes past those are unchanged. *records is the number of records that ran, and *stopped the byte
 * offset at which the record begins that ended the replay, 0 if none did.
 * Answers 1 to 7, 18 and 8 of the opening, then 20. If the opening is refused nothing ran: arena and work buffer are as btt_open leaves
 * them, answers is unchanged, and both numbers are 0.
 */
uint32_t btt_replay(uint8_t *arena, size_t arena_length, uint8_t *work, size_t work_length, const uint8_t *log, size_t log_length,
                    uint8_t *answers, size_t answers_length, uint64_t *records, uint64_t *stopped);

/* An answer in words, for messages. */
static inline const char *btt_answer_text(uint32_t answer)
{
    static const char *const text[] = {
        "done",
        "the arena's length is not allowed, or not the one that making works out",
        "neither info block is sound",
        "a figure is forbidden",
        "flags are set",
        "the work buffer is shorter than the number of blocks",
        "a lane has no newer flog half, or one out of range",
        "a map word names a block past the last",
        "mapped and free blocks are not every block once",
        "no such sector",
        "the buffer is not a sector long, or an identifier not 16 bytes",
        "no such lane",
        "the lane has a write in flight",
        "another lane has that sector in flight",
        "the lane has no write in flight",
        "the sector is marked bad",
        "the handle does not fit the arena, or the record of a lane is out of range, or a layout is neither 16 nor 32"
    };

    if (answer == BTT_SLOPPY) {
        return "the arena is sloppy: a map word with neither flag is not 0, or the padding of a lane is not";
    }
    if (answer == BTT_BAD_RECORD) {
        return "a record of the log is short, of another length than its kind's or of no known kind, or the log is longer than 8,192 bytes";
    }
    if (answer == BTT_SHORT_TABLE) {
        return "the table has fewer records than there are lanes";
    }
    return answer < sizeof text / sizeof text[0] ? text[answer] : "not an answer";
}

#ifdef __cplusplus
}
#endif

#endif

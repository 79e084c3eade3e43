"""Sectors of 520, 528 and 4,104 bytes beside those of 512 and 4,096: a block is a sector and, up to a multiple of 64 bytes, a rest.

The numbers and offsets that must come are worked out here by hand, so that a mistake that the model and the library share is found too.
That no call changes the rest of a block is seen to by every Pair; the blocks here hold anything before the first call.
"""
import random
import struct
from typing import NamedTuple

import arenas
import calls
import forged
import logs
import model
from layouts import demand
from pair import Pair
from random_arenas import LAYOUTS, PAIRS

AMPLE = 2**15
# What is tried as a sector size and as an internal size, beside each other: those of the pairs, numbers beside them, and numbers that end as they do.
NUMBERS = (0, 64, 508, 512, 513, 516, 519, 520, 524, 528, 532, 544, 576, 577, 640, 1024, 1040)
NUMBERS += (4092, 4096, 4100, 4104, 4108, 4112, 4128, 4160, 4161, 4224, 4608, 2**16 + 520, 2**16 + 576, 2**31 + 512, 2**32 - 8)
LENGTHS = (0, 511, 512, 516, 519, 520, 521, 527, 528, 529, 575, 576, 577, 4095, 4096, 4100, 4103, 4104, 4105, 4159, 4160, 4161)


class Worked(NamedTuple):
    """A made arena, and where the first write of a lane stores in layout 16: into its free block, its second half and the sector's map word."""

    size: int
    internal: int
    sectors: int
    lanes: int
    map: int
    flog: int
    copy: int
    lane: int
    sector: int
    free: int
    free_at: int
    half_at: int
    word_at: int
    # Where the sector's own block is, into which the lane's next write goes.
    own_at: int
    stores: int


# S 512, E 60, 4 lanes: case 9. 64 blocks end at 4,096 + 64 x 512 = 36,864. Block 60 is at 4,096 + 60 x 512, block 7 at 4,096 + 7 x 512.
# S 520, E 60, 4 lanes: 64 blocks end at 4,096 + 64 x 576 = 40,960, where the map starts. Block 60 is at 4,096 + 60 x 576 = 38,656, block 7 at
#   4,096 + 7 x 576 = 8,128. The second half of lane 0 is at 45,056 + 16, the word of sector 7 at 40,960 + 28. 520 / 4 + 5 = 135.
# S 528, E 20, 3 lanes: 23 blocks end at 4,096 + 23 x 576 = 17,344, so that the map starts at 20,480. Block 22 is at 4,096 + 22 x 576 = 16,768,
#   block 19 at 4,096 + 19 x 576 = 15,040. The second half of lane 2 is at 24,576 + 128 + 16, the word of sector 19 at 20,480 + 76. 528 / 4 + 5 = 137.
# S 4,096, E 3, 2 lanes: 5 blocks end at 24,576. The second half of lane 1 is at 28,672 + 64 + 16, the word of sector 2 at 24,576 + 8.
# S 4,104, E 3, 2 lanes: 5 blocks end at 4,096 + 5 x 4,160 = 24,896, so that the map starts at 28,672. Block 4 is at 4,096 + 4 x 4,160 = 20,736,
#   block 2 at 4,096 + 2 x 4,160 = 12,416. The second half of lane 1 is at 32,768 + 64 + 16, the word of sector 2 at 28,672 + 8.
#   4,104 / 4 + 5 = 1,031.
WORKED = (
    Worked(512, 512, 60, 4, 36864, 40960, 45056, 0, 7, 60, 34816, 40976, 36892, 7680, 133),
    Worked(520, 576, 60, 4, 40960, 45056, 49152, 0, 7, 60, 38656, 45072, 40988, 8128, 135),
    Worked(528, 576, 20, 3, 20480, 24576, 28672, 2, 19, 22, 16768, 24720, 20556, 15040, 137),
    Worked(4096, 4096, 3, 2, 24576, 28672, 32768, 1, 2, 4, 20480, 28752, 24584, 12288, 1029),
    Worked(4104, 4160, 3, 2, 28672, 32768, 36864, 1, 2, 4, 20736, 32848, 28680, 12416, 1031),
)

# Sector size, internal size, sectors and lanes; where the blocks end, and map, flog and copy start; the length by the sector size, if it is another.
# 15 blocks of 576 are 8,640 bytes and end at 12,736; of 520 they would end at 11,896, of 528 at 12,016, both on the page before.
# 65 blocks of 4,160 are 270,400 bytes and end at 274,496; of 4,104 they would end at 270,856, on the page before.
# In 16,777,216 bytes, or 4,096 pages, blocks and map have 4,093 pages: 28,899 blocks of 576 have 4,064 and 28,895 words have 29; 4,026 blocks of
# 4,160 have 4,089 and 4,022 words have 4.
MADE = (
    (520, 576, 1, 1, 5248, 8192, 12288, 16384, None),
    (520, 576, 13, 2, 12736, 16384, 20480, 24576, 24576),
    (520, 576, 60, 4, 40960, 40960, 45056, 49152, None),
    (520, 576, 28895, 4, 16649920, 16650240, 16769024, 16773120, 15159296),
    (528, 576, 1, 1, 5248, 8192, 12288, 16384, None),
    (528, 576, 12, 3, 12736, 16384, 20480, 24576, 24576),
    (528, 576, 60, 4, 40960, 40960, 45056, 49152, None),
    (4104, 4160, 1, 1, 12416, 16384, 20480, 24576, None),
    (4104, 4160, 63, 2, 274496, 278528, 282624, 286720, 286720),
    (4104, 4160, 4022, 4, 16752256, 16752640, 16769024, 16773120, 16551936),
    (512, 512, 60, 4, 36864, 36864, 40960, 45056, None),
    (4096, 4096, 1, 1, 12288, 12288, 16384, 20480, None),
)

# Forbidden figures that keep every rule but one: sizes, sectors, lanes, and the starts. By the internal size the blocks end behind the map's start,
# by the sector size before it. Or the internal size ends as the right one does, with room for such blocks: 5 x 66,112 is 330,560.
FORBIDDEN = (
    (520, 576, 13, 2, 12288, 16384, 20480),
    (528, 576, 12, 3, 12288, 16384, 20480),
    (4104, 4160, 63, 2, 274432, 278528, 282624),
    (512, 2**16 + 512, 3, 2, 335872, 339968, 344064),
    (520, 2**16 + 576, 3, 2, 335872, 339968, 344064),
)

# The stores that a record in flight may have made at most, and numbers that are too many: S/4 + 5, and the same of the internal size.
MOST_MADE = {512: (132, 133), 520: (134, 135, 148, 149), 528: (136, 137, 148, 149), 4096: (1028, 1029), 4104: (1030, 1031, 1044, 1045)}


def made_pair(lib, rng, notes, row):
    """A row's arena, made by both sides on bytes that hold anything."""
    pair = Pair(lib, rng.randbytes(row.copy + 4096), rng, notes)
    demand(pair, pair.make(row.size, row.sectors, row.lanes, bytes(16), bytes(16)) == 0, "the arena is made")
    return pair


def opened_pair(lib, rng, notes, row, layout):
    pair = made_pair(lib, rng, notes, row)
    demand(pair, pair.open(row.sectors + row.lanes, layout) == (0, 0), "a made arena opens")
    return pair


# Making: lengths, and the bytes that it leaves.


def try_making(lib, notes):
    """Each made arena has just this length and these starts, zeroes begin behind the last block's rest, and no block is touched."""
    rng = random.Random(576)
    for size, internal, sectors, lanes, end, map_start, flog, copy, by_sector in MADE:
        lent = bytearray(rng.randbytes(copy + 4096))
        before, pair = bytes(lent), Pair(lib, b"", rng, notes)
        names = bytearray(b"first identifier"), bytearray(b"other identifier")
        demand(pair, lib.make(lent, size, sectors, lanes, *names) == 0, "%d sectors of %d bytes are made" % (sectors, size))
        demand(pair, lent[4096:end] == before[4096:end], "making leaves every block of %d bytes" % internal)
        fields = struct.unpack_from("<IIIII", lent, 56) + struct.unpack_from("<QQQQ", lent, 88)
        due = (size, sectors, internal, sectors + lanes, lanes, 4096, map_start, flog, copy)
        demand(pair, fields == due and lent[:4096] == lent[-4096:], "the info blocks tell both sizes and the starts")
        logged = b"".join(struct.pack("<4I", lane, sectors + lane, sectors + lane, 1) + bytes(48) for lane in range(lanes))
        demand(pair, lent[end:flog] == bytes(flog - end), "zeroes begin behind the last block")
        demand(pair, lent[flog:copy] == logged + bytes(copy - flog - len(logged)), "the flog is that of a made arena")
        for length in {copy, copy + 8192, by_sector or 0}:
            other = bytearray(b"\xA5" * length)
            number = lib.make(other, size, sectors, lanes, *names)
            demand(pair, number == 1 and other == b"\xA5" * length, "a length of %d is answered with 1" % length)


def try_made_sizes(lib, notes):
    """Making with each number as the sector size, in the length that sectors of 4,104 bytes have: 3, or for the other four sizes 1."""
    pair = Pair(lib, arenas.roomy(4104, 4160), random.Random(3), notes)
    for size in NUMBERS:
        due = {512: 1, 520: 1, 528: 1, 4096: 1, 4104: 0}.get(size, 3)
        demand(pair, pair.make(size, 3, 2, bytes(16), bytes(16)) == due, "sectors of %d bytes are made with %d" % (size, due))


# Pairs of sizes in an info block and in a handle.


def try_pairs(lib, notes):
    """Every two numbers as the sizes of an arena with room for them: 3 where they are no pair, with flags and a short work buffer or without."""
    rng = random.Random(4160)
    for size in NUMBERS:
        for internal in NUMBERS:
            due = 0 if (size, internal) in PAIRS else 3
            flags, room = (0, 5) if due == 0 else (rng.randrange(2), rng.choice((0, 5, 5)))
            pair = Pair(lib, arenas.roomy(size, internal, flags=flags), rng, notes)
            what = "sectors of %d bytes in blocks of %d are answered with %d" % (size, internal, due)
            demand(pair, pair.cut_open(room, 16, 1) == (due, 0) and pair.open(room, 16) == (due, 0), what)
            demand(pair, struct.unpack_from("<I4xI", pair.lent_handle, 40) == ((0, 0) if due else (size, internal)), "the handle tells both sizes")


def try_forbidden(lib, notes):
    """An arena with each of those figures is answered with 3, and a handle with 16."""
    rng = random.Random(12736)
    for size, internal, sectors, lanes, map_start, flog, copy in FORBIDDEN:
        figures = model.Figures(size, sectors, internal, sectors + lanes, lanes, 4096, map_start, flog, copy)
        arena = bytearray(copy + 4096)
        arena[:4096] = arena[-4096:] = model.info_block(figures, bytes(16), bytes(16))
        for lane in range(lanes):
            struct.pack_into("<4I", arena, flog + 64 * lane, lane, sectors + lane, sectors + lane, 1)
        pair = Pair(lib, arena, rng, notes)
        demand(pair, pair.open(AMPLE, 16) == (3, 0), "%d sectors of %d bytes in blocks of %d are answered with 3" % (sectors, size, internal))
        pair.hold(calls.Handle(len(arena), figures, 16), [calls.Record(0, sectors + lane, 1, 2) for lane in range(lanes)])
        demand(pair, pair.read(0, size)[0] == 16 and pair.write(0, 0, bytes(size)) == 16, "a handle that tells so is answered with 16")


def try_handles(lib, notes):
    """A handle with every two numbers as its sizes: 16 in each call where they are no pair; one with another pair goes on by its own sizes."""
    # The map words of the three sectors: blocks 1, 0 and 2, all of them data; blocks 3 and 4 are free.
    arena = arenas.put(arenas.roomy(520, 576), 28672, 0xC0000001, 0xC0000000, 0xC0000002)
    pair = Pair(lib, arena, random.Random(16), notes)
    demand(pair, pair.open(5, 16) == (0, 0) and pair.start(1, 2) == 0, "a write starts")
    for size in NUMBERS:
        for internal in NUMBERS:
            try_handle(pair, size, internal)


def try_handle(pair, size, internal):
    """The calls by a copy of the handle with these sizes; where it is refused, the other arguments are right or all wrong."""
    handle = pair.handle.copy()
    handle.figures.size, handle.figures.internal = size, internal
    copy = pair.aside(handle=handle)
    if (size, internal) not in PAIRS:
        for call in calls.ORDER:
            given = pair.rng.choice(((1, 0, size if size < 2**16 else 520), (2, 3, 575)))
            demand(copy, copy.perform(call, *given) == 16, "a %s by %d in %d is answered with 16" % (call, size, internal))
        return
    for sector, block in enumerate((1, 0, 2)):
        number, _, given = copy.read(sector, size)
        at = 4096 + internal * block
        demand(copy, number == 0 and given == pair.lent[at : at + size], "a read gives the %d bytes at %d" % (size, at))
    demand(copy, copy.next_store(1) == (0, 4096 + 4 * internal), "the first data word goes to the start of block 4")
    buffer = pair.rng.randbytes(size)
    demand(copy, copy.step(1, buffer) == 0 and copy.write(0, 0, buffer) == 0, "calls by another pair go on")
    demand(copy, copy.lent[4096 + 3 * internal :][:size] == buffer, "a whole write goes into block 3")


# Buffers and records.


def try_buffers(lib, notes):
    """A sector buffer is as long as a sector: one of the internal size and every other is answered with 10, and a refused read leaves it."""
    rng = random.Random(10)
    for row in WORKED:
        pair, other = opened_pair(lib, rng, notes, row, 16), (row.lane + 1) % row.lanes
        pair.start(row.lane, row.sector)
        for length in LENGTHS:
            due = 0 if length == row.size else 10
            number, before, after = pair.read(0, length)
            demand(pair, number == due and after == (before if due else bytes(length)), "a read into %d bytes is answered with %d" % (length, due))
            step, write = pair.aside().step(row.lane, rng.randbytes(length)), pair.aside().write(other, 0, rng.randbytes(length))
            demand(pair, step == write == due, "a step and a write with %d bytes are answered with %d" % (length, due))


def try_records(lib, notes):
    """A record has made fewer than S/4 + 5 stores, in flight and idle, whatever the internal size is."""
    rng = random.Random(148)
    for row in WORKED:
        pair = opened_pair(lib, rng, notes, row, 32)
        for busy in (0, 1):
            for most, made in enumerate(MOST_MADE[row.size]):
                copy = pair.aside(table=forged.with_record(pair.table, row.lane, busy=busy, sector=row.sector, made=made))
                due = 16 if most else 0
                demand(copy, copy.read(0, row.size)[0] == due and copy.lane_record(0)[0] == due, "%d stores made are answered with %d" % (made, due))
                due = due or (14 if busy == 0 else 0)
                demand(copy, copy.next_store(row.lane) == (due, None if due else row.word_at), "the next store after %d is the map word" % made)
                demand(copy, copy.step(row.lane, rng.randbytes(row.size)) == due, "a step after %d stores is answered with %d" % (made, due))


# The stores of a write.


def stores_of(row, layout, buffer):
    """The places and values of all the stores of the row's write."""
    half = row.half_at + layout - 16
    flog = zip(range(half, half + 16, 4), (row.sector, row.sector, row.free, 2))
    return [*zip(range(row.free_at, row.free_at + row.size, 4), words_of(buffer)), *flog, (row.word_at, 0xC0000000 + row.free)]


def words_of(buffer):
    return struct.unpack("<%dI" % (len(buffer) // 4), buffer)


def try_stores(lib, notes):
    """Each row's write by steps and whole, cut after each telling store; the lane's next write goes into the sector's own block."""
    rng = random.Random(135)
    for row in WORKED:
        for layout in LAYOUTS:
            pair, buffer = opened_pair(lib, rng, notes, row, layout), rng.randbytes(row.size)
            due, stores = bytearray(pair.lent), stores_of(row, layout, buffer)
            demand(pair, len(stores) == row.stores, "a write of %d bytes has %d stores" % (row.size, row.stores))
            whole = pair.aside()
            demand(pair, whole.write(row.lane, row.sector, buffer) == 0 and pair.start(row.lane, row.sector) == 0, "a write is accepted")
            for k, (place, value) in enumerate(stores):
                telling = k < 2 or k >= row.size // 4 - 1
                demand(pair, not telling or pair.next_store(row.lane) == (0, place), "store %d is at %d" % (k + 1, place))
                demand(pair, pair.step(row.lane, buffer) == 0, "%d steps are accepted" % row.stores)
                calls.put(due, place, value)
                demand(pair, pair.lent == due, "store %d is of %d at %d" % (k + 1, value, place))
                if telling:
                    try_cut(pair, row, layout, k + 1, buffer)
            demand(pair, pair.step(row.lane, buffer) == 14, "a step more is answered with 14")
            demand(pair, (pair.lent, pair.lent_table) == (whole.lent, whole.lent_table), "a whole write is its start and steps")
            try_next_write(pair, row)


def try_cut(pair, row, layout, kept, buffer):
    """Opened after this many stores of a made arena: old up to all but two, then new, with one lane mended after all but one."""
    copy = pair.aside()
    copy.drop()
    mended, contents = int(kept == row.stores - 1), buffer if kept >= row.stores - 1 else bytes(row.size)
    for k in (0, 1):
        aside = copy.aside()
        demand(aside, aside.cut_open(AMPLE, layout, k) == (0, mended), "a cut opening counts %d after %d stores" % (mended, kept))
    demand(copy, copy.open(AMPLE, layout) == (0, mended), "after %d stores %d are mended" % (kept, mended))
    demand(copy, copy.read(row.sector, row.size)[::2] == (0, contents), "a cut after %d stores leaves the sector old or new" % kept)
    demand(copy, copy.read(0, row.size)[::2] == (0, bytes(row.size)), "a cut leaves the other sectors")


def try_next_write(pair, row):
    """The lane's next write is in the sector's own block and the first half, and a read gives its bytes."""
    buffer, due, first = pair.rng.randbytes(row.size), bytearray(pair.lent), row.flog + 64 * row.lane
    due[row.own_at : row.own_at + row.size] = buffer
    struct.pack_into("<4I", due, first, row.sector, row.free, row.sector, 3)
    struct.pack_into("<I", due, row.word_at, 0xC0000000 + row.sector)
    demand(pair, pair.write(row.lane, row.sector, buffer) == 0 and pair.lent == due, "the next write is in the block at %d" % row.own_at)
    demand(pair, pair.read(row.sector, row.size)[::2] == (0, buffer) and pair.lent == due, "a read gives the write and stores nothing")


# Run logs and the report.


def try_replays(lib, notes):
    """A log of a start and all steps: word k of the sector is of step record k + 1, so 2 k + 1, and nothing else is stored but flog and map."""
    rng = random.Random(20)
    for row in WORKED:
        pair = made_pair(lib, rng, notes, row)
        lent, due = bytearray(pair.lent), bytearray(pair.lent)
        for place, value in stores_of(row, 16, struct.pack("<%dI" % (row.size // 4), *range(1, row.size // 2, 2))):
            calls.put(due, place, value)
        log = logs.start(row.lane, row.sector) + logs.step(row.lane) * row.stores
        work, answers = bytearray(rng.randbytes(row.sectors + row.lanes)), bytearray(rng.randbytes(row.stores + 1))
        demand(pair, lib.replay(lent, work, bytearray(log), answers) == (0, row.stores + 1, 0), "a write of %d bytes is replayed" % row.size)
        demand(pair, not any(answers) and lent == due, "a replayed write has its %d stores, word by word" % row.stores)


def reports():
    """Each row's arena as bytes, with anything in its blocks, and what the report must say of it."""
    for row in WORKED:
        arena = bytes(arenas.sectors_of(row.size, row.sectors, row.lanes))
        lanes = ["lane %d free %d next 2" % (lane, row.sectors + lane) for lane in range(row.lanes)]
        lines = ["sector bytes %d" % row.size, "sectors %d" % row.sectors, "lanes %d" % row.lanes, "mended 0", *lanes, "opened"]
        yield row.size, arena, "\n".join(lines) + "\n"


def try_all(lib, notes):
    for tried in (try_making, try_made_sizes, try_pairs, try_forbidden, try_handles, try_buffers, try_records, try_stores, try_replays):
        tried(lib, notes)

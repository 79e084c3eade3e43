"""Arenas of up to 256 lanes: made, opened and refused ones, the writes of lane 255 and of others, and all 256 lanes at once.

The lengths, offsets, values and records that must come are worked out here by hand, so that a mistake that the model and the library share is
found too.
"""
import random
import struct

import arenas
import calls
import forged
import library
import logs
import model
from calls import Record
from layouts import demand
from pair import Pair
from random_arenas import LAYOUTS

# Sector size, internal size, sectors and lanes; where map, flog and copy start.
# 16 lanes: 32 blocks of 512 end at 20,480. 17 lanes: 34 end at 21,504, on the page after it. 64 lanes: 128 end at 69,632, and 64 x 64 bytes of
# flog are just a page; of 65 lanes, whose 130 blocks end at 70,656, they are 4,160 bytes and need two.
# 255 lanes: 510 blocks end at 265,216; 256 lanes: 512 end at 266,240, where the map starts in both; the flog has 16,320 and 16,384 bytes, four pages.
# 300 sectors of 520 bytes, 256 lanes: 556 blocks of 576 end at 324,352, and 1,200 bytes of map follow on the page after it.
# 256 sectors of 4,104 bytes, 256 lanes: 512 blocks of 4,160 end at 2,134,016, which is a multiple of 4,096.
MADE = (
    (512, 512, 1, 1, 8192, 12288, 16384),
    (512, 512, 16, 16, 20480, 24576, 28672),
    (512, 512, 17, 17, 24576, 28672, 32768),
    (512, 512, 64, 64, 69632, 73728, 77824),
    (512, 512, 65, 65, 73728, 77824, 86016),
    (512, 512, 255, 255, 266240, 270336, 286720),
    (512, 512, 256, 256, 266240, 270336, 286720),
    (520, 576, 300, 256, 327680, 331776, 348160),
    (4104, 4160, 256, 256, 2134016, 2138112, 2154496),
)

# Sectors and lanes that making answers with 3, in the length that such an arena would have; 257 lanes have 514 blocks, which end at 267,264, so that
# the map starts at 270,336, and 16,448 bytes of flog, five pages; 512 lanes have 1,024 blocks, which end at 528,384. The rest are numbers that
# end as 4 does, in the length that 60 sectors and 4 lanes have, and more lanes than sectors; 3 comes before 1, whatever the length.
REFUSED = ((257, 257, 299008), (512, 512, 569344), (60, 0, 49152), (60, 260, 49152), (60, 65540, 49152), (60, 2**31 + 4, 49152), (255, 256, 290816))
REFUSED += ((260, 260, 49152), (65540, 65540, 49152), (2**31 + 4, 2**31 + 4, 49152), (2**32 - 1, 2**32 - 1, 49152))

# The arena of 256 sectors and 256 lanes: block 511 is at 4,096 + 511 x 512, the pair of lane 255 at 270,336 + 255 x 64, the word of sector 7 at
# 266,240 + 28; block 7, into which the lane's next write goes, is at 4,096 + 7 x 512. In its table lane 255 has the bytes from 255 x 28 on.
MAP, FLOG, LENGTH = 266240, 270336, 290816
FREE_AT, PAIR_AT, WORD_AT, OWN_AT, RECORD_AT = 265728, 286656, 266268, 7680, 7140
HALF_AT = {16: (286672, 286676, 286680, 286684), 32: (286688, 286692, 286696, 286700)}


def widest(lib, rng, notes):
    """The arena of 256 sectors and 256 lanes, made by both sides on bytes that hold anything."""
    pair = Pair(lib, rng.randbytes(LENGTH), rng, notes)
    demand(pair, pair.make(512, 256, 256, bytes(16), bytes(16)) == 0, "256 lanes are made in 290,816 bytes")
    return pair


def first_records(sectors, lanes):
    """The records that opening a made arena sets."""
    return [Record(0, sectors + lane, 1, 2) for lane in range(lanes)]


# Making, and the limit.


def try_made(lib, notes):
    """Each made arena, its flog and its table lane by lane, opened with a table that just suffices, a longer and a shorter one."""
    rng = random.Random(255)
    for size, internal, sectors, lanes, map_start, flog, copy in MADE:
        pair, buffer = Pair(lib, rng.randbytes(copy + 4096), rng, notes), rng.randbytes(size)
        demand(pair, pair.make(size, sectors, lanes, bytes(16), bytes(16)) == 0, "%d lanes are made" % lanes)
        logged = [struct.pack("<4I48x", lane, sectors + lane, sectors + lane, 1) for lane in range(lanes)]
        demand(pair, pair.lent[flog:copy] == b"".join(logged).ljust(copy - flog, b"\0"), "the flog has a half for each of %d lanes" % lanes)
        figures = struct.pack("<5Q6I", copy + 4096, 4096, map_start, flog, copy, size, sectors, internal, sectors + lanes, lanes, 32)
        for records in (lanes - 1, lanes + 3, lanes):
            due = 21 if records < lanes else 0
            demand(pair, pair.open(sectors + lanes, 32, records) == (due, 0), "%d lanes with %d records are answered with %d" % (lanes, records, due))
            demand(pair, pair.lent_handle == (bytes(64) if due else figures), "the handle has 64 bytes and tells the lanes")
            set_records = library.table_from(pair.lent_table)[:lanes]
            demand(pair, due or set_records == first_records(sectors, lanes), "opening sets a record for each of %d lanes" % lanes)
        for lane in {0, lanes // 2, lanes - 1}:
            demand(pair, pair.write(lane, sectors - 1, buffer) == 0 and pair.read(sectors - 1, size)[2] == buffer, "lane %d writes" % lane)
        demand(pair, pair.start(lanes, 0) == 11 and pair.lane_record(lanes)[0] == 11, "lane %d is no lane" % lanes)


def try_refused(lib, notes):
    """Making refuses 257 lanes and others with 3, and leaves every byte."""
    rng = random.Random(3)
    for sectors, lanes, length in REFUSED:
        pair = Pair(lib, before := rng.randbytes(length), rng, notes)
        demand(pair, pair.make(512, sectors, lanes, bytes(16), bytes(16)) == 3, "%d lanes are answered with 3 by making" % lanes)
        demand(pair, pair.lent == before, "a refused making leaves every byte")


def try_limit(lib, notes):
    """An arena that keeps every rule but has 257 lanes is answered with 3, whatever the table, and a handle that tells so with 16."""
    rng, figures = random.Random(257), model.Figures(512, 257, 512, 514, 257, 4096, 270336, 274432, 294912)
    for flags in (0, 1):
        arena = bytearray(299008)
        arena[:4096] = arena[-4096:] = model.info_block(figures, bytes(16), bytes(16), flags=flags)
        for lane in range(257):
            struct.pack_into("<4I", arena, 274432 + 64 * lane, lane, 257 + lane, 257 + lane, 1)
        pair = Pair(lib, arena, rng, notes)
        for records in (0, 16, 256, 257, 300):
            for room in (0, 514):
                due = pair.cut_open(room, 16, 1, records), pair.open(room, 16, records)
                demand(pair, due == ((3, 0), (3, 0)), "257 lanes are answered with 3 beside %d records" % records)
        for records in (0, 1, 256, 257, 300):
            pair.hold(calls.Handle(299008, figures, 16), first_records(257, records))
            numbers = pair.read(0, 512)[0], pair.start(0, 7), pair.write(256, 7, bytes(512)), pair.lane_record(256)[0]
            demand(pair, numbers == (16,) * 4, "a handle of 257 lanes is answered with 16 beside %d records" % records)


def try_more_than_sectors(lib, notes):
    """256 lanes need 256 sectors: one fewer is 3 at an opening and 16 in a handle, all else being allowed."""
    rng, figures = random.Random(511), model.Figures(512, 255, 512, 511, 256, 4096, MAP, FLOG, LENGTH - 4096)
    arena = arenas.lanes_of(256)
    arena[:4096] = arena[-4096:] = model.info_block(figures, bytes(16), bytes(16))
    pair = Pair(lib, arena, rng, notes)
    demand(pair, pair.open(512, 16, 256) == (3, 0), "255 sectors are too few for 256 lanes")
    pair.hold(calls.Handle(LENGTH, figures, 16), [Record(0, 0, 0, 1)] * 256)
    demand(pair, pair.read(0, 512)[0] == 16, "in a handle too")


def try_records(lib, notes):
    """Of 256 lanes with 512 blocks every record is judged, that of lane 255 too, and none past it; lane 256 and those behind it are no lanes."""
    pair = widest(lib, random.Random(512), notes)
    pair.open(512, 16, 256)
    wrong = (("busy", 2), ("block", 512), ("half", 2), ("sequence", 0), ("sequence", 4), ("sector", 256), ("old", 512), ("made", 133))
    right = (("busy", 1), ("block", 511), ("half", 0), ("sequence", 1), ("sequence", 3), ("sector", 255), ("old", 511), ("made", 132))
    for lane in (0, 15, 16, 17, 127, 128, 254, 255, 256, 299):
        for due, rows in ((0 if lane > 255 else 16, wrong), (0, right)):
            for field, value in rows:
                table = forged.with_record(pair.table + [Record()] * 44, lane, **{field: value})
                copy, what = pair.aside(table=table), "%s of %d in record %d is answered with %d" % (field, value, lane, due)
                demand(copy, copy.read(0, 512)[0] == copy.lane_record(3)[0] == copy.start(5, 9) == due, what)
    for lane in (256, 257, 299, 511, 65536, 65791, 2**31, 2**31 + 255, 2**32 - 1):
        copy = pair.aside(table=pair.table + [Record(1, 5, 0, 1)] * 44)
        numbers = copy.start(lane, 9), copy.step(lane, bytes(512)), copy.write(lane, 9, bytes(512))
        demand(copy, numbers + copy.lane_record(lane) + copy.next_store(lane) == (11, 11, 11, 11, None, 11, None), "lane %d of 256 is no lane" % lane)


# The stores of a write.


def try_lane_255(lib, notes):
    """Lane 255 of a fresh arena writes sector 7, store by store: its place, its value, its record, and the cuts that tell."""
    rng = random.Random(133)
    for layout, records in ((16, 256), (32, 260)):
        pair, buffer = widest(lib, rng, notes), rng.randbytes(512)
        demand(pair, pair.open(512, layout, records) == (0, 0), "256 lanes open with %d records" % records)
        due, whole = bytearray(pair.lent), pair.aside()
        demand(pair, whole.write(255, 7, buffer) == 0 and pair.start(255, 7) == 0, "a write is accepted")
        words = struct.unpack("<128I", buffer)
        stores = [*zip(range(FREE_AT, FREE_AT + 512, 4), words), *zip(HALF_AT[layout], (7, 7, 511, 2)), (WORD_AT, 0xC00001FF)]
        for k, (place, value) in enumerate(stores):
            record = struct.unpack_from("<7I", pair.lent_table, RECORD_AT)
            demand(pair, record == (1, 511, 1, 2, 7, 7, k), "the record of lane 255 has %d stores made" % k)
            demand(pair, pair.next_store(255) == (0, place) and pair.step(255, buffer) == 0, "store %d is at %d" % (k + 1, place))
            calls.put(due, place, value)
            demand(pair, pair.lent == due, "store %d is of %d at %d" % (k + 1, value, place))
            if k in (0, 127) or k >= 130:
                try_cut(pair, layout, k + 1, buffer)
        demand(pair, k == 132 and pair.step(255, buffer) == 14, "a write has 133 stores")
        demand(pair, struct.unpack_from("<7I", pair.lent_table, RECORD_AT) == (0, 7, 0, 3, 0, 0, 0), "the record of lane 255 is idle again")
        demand(pair, (pair.lent, pair.lent_table) == (whole.lent, whole.lent_table), "a whole write is its start and steps")
        due[OWN_AT : OWN_AT + 512] = buffer
        struct.pack_into("<4I", due, PAIR_AT, 7, 511, 7, 3)
        calls.put(due, WORD_AT, 0xC0000007)
        demand(pair, pair.write(255, 7, buffer) == 0 and pair.lent == due, "the next write is in block 7 and the first half")


def try_cut(pair, layout, kept, buffer):
    """Opened after this many stores: old up to 131, new with one lane mended after 132, new with none after 133; the other lanes are as they were."""
    copy, new = pair.aside(), kept >= 132
    copy.drop()
    mended = int(kept == 132)
    demand(copy, copy.aside().cut_open(512, layout, 1, 256) == (0, mended), "a cut opening counts %d after %d stores" % (mended, kept))
    demand(copy, copy.cut_open(512, layout, 0, 255) == copy.open(512, layout, 255) == (21, 0), "255 records are too few after a cut")
    demand(copy, copy.open(512, layout, 258) == (0, mended), "after %d stores %d are mended" % (kept, mended))
    due = first_records(256, 255) + [Record(0, 7, 0, 3) if new else Record(0, 511, 1, 2)]
    demand(copy, library.table_from(copy.lent_table)[:256] == due, "after %d stores the lanes are these" % kept)
    demand(copy, copy.read(7, 512)[::2] == (0, buffer if new else bytes(512)), "a cut after %d stores leaves the sector old or new" % kept)
    for sector in (0, 6, 8, 255):
        demand(copy, copy.read(sector, 512)[::2] == (0, bytes(512)), "a cut leaves the other sectors")


def try_some_lanes(lib, notes):
    """Whole writes on several lanes of the same arena: each goes into the lane's own block, half and record."""
    rng = random.Random(17)
    for layout in LAYOUTS:
        pair = widest(lib, rng, notes)
        pair.open(512, layout, 257)
        due, table = bytearray(pair.lent), first_records(256, 256)
        for lane, sector in ((0, 255), (15, 15), (16, 14), (17, 0), (127, 1), (128, 2), (254, 3), (255, 4)):
            buffer, block = rng.randbytes(512), 256 + lane
            due[4096 + 512 * block : 4608 + 512 * block] = buffer
            struct.pack_into("<4I", due, 270336 + 64 * lane + layout, sector, sector, block, 2)
            calls.put(due, 266240 + 4 * sector, 0xC0000000 + block)
            table[lane] = Record(0, sector, 0, 3)
            demand(pair, pair.write(lane, sector, buffer) == 0 and pair.lent == due, "lane %d writes into block %d" % (lane, block))
            demand(pair, library.table_from(pair.lent_table)[:256] == table, "only the record of lane %d changes" % lane)


# All lanes at once.


def try_all_pending(lib, notes):
    """Every one of 256 lanes pending, lane n with sector 255 - n: cut openings mend the first ones, and an opening the rest."""
    rng = random.Random(256)
    for k in (0, 1, 16, 17, 128, 255, 256, 257, 2**32 - 1):
        pair = Pair(lib, arenas.all_pending(256), rng, notes)
        for left in (256, 256 - min(k, 256)):
            demand(pair, pair.cut_open(512, 16, k, 255) == (21, 0), "255 records are too few")
            demand(pair, pair.cut_open(512, 16, k, 256) == (0, left), "%d lanes are counted" % left)
        made = min(2 * k, 256)
        words = struct.unpack_from("<256I", pair.lent, MAP)
        due = [0xC0000000 + 511 - sector if sector >= 256 - made else 0 for sector in range(256)]
        demand(pair, list(words) == due, "the first %d lanes are mended" % made)
        demand(pair, pair.open(512, 16, 256) == (0, 256 - made), "an opening counts the %d lanes left" % (256 - made))
        demand(pair, library.table_from(pair.lent_table) == [Record(0, 255 - lane, 0, 3) for lane in range(256)], "every lane has its record")
        demand(pair, struct.unpack_from("<256I", pair.lent, MAP) == tuple(range(0xC00001FF, 0xC00000FF, -1)), "every sector is mended")


def try_all_in_flight(lib, notes):
    """All 256 lanes in flight, lane n with sector 255 - n: no lane is idle and no sector free; a lane that ends has both again."""
    rng = random.Random(12)
    pair, buffer = widest(lib, rng, notes), rng.randbytes(512)
    pair.open(512, 32, 256)
    for lane in range(256):
        demand(pair, pair.start(lane, 255 - lane) == 0, "lane %d starts" % lane)
    for lane in (0, 16, 17, 254, 255):
        demand(pair, pair.next_store(lane) == (0, 4096 + 512 * (256 + lane)), "the first store of lane %d is in its own block" % lane)
        demand(pair, pair.start(lane, 0) == pair.write(lane, 255, buffer) == 12, "lane %d is busy" % lane)
    for lane, sectors in ((128, (0, 1, 238, 239, 255)), (255, (1, 126, 238, 239, 255))):
        for _ in range(133):
            demand(pair, pair.step(lane, buffer) == 0, "lane %d goes on" % lane)
        demand(pair, library.table_from(pair.lent_table)[lane] == Record(0, 255 - lane, 0, 3), "lane %d has block %d free" % (lane, 255 - lane))
        for sector in sectors:
            numbers = pair.start(lane, sector), pair.write(lane, sector, buffer)
            demand(pair, numbers == (13, 13), "sector %d is in flight on lane %d" % (sector, 255 - sector))
    demand(pair, pair.start(255, 0) == pair.start(128, 127) == 0, "sectors 0 and 127 are free again")
    pair.drop()
    demand(pair, pair.open(512, 32, 256) == (0, 0) and pair.read(0, 512)[2] == pair.read(127, 512)[2] == buffer, "a cut leaves what they wrote")


# Run logs and the report.


def try_replays(lib, notes):
    """A replay has a table of its own: a log on 256 lanes runs, word k of the sector is 2 k + 1, and a short work buffer is 5, never 21."""
    rng, steps = random.Random(20), logs.step(255) * 133
    refused = logs.start(256, 0) + logs.step(256) + logs.start(511, 0) + logs.step(65535)
    others = logs.start(16, 0) + logs.start(17, 1) + logs.start(254, 0) + logs.start(0, 1) + logs.start(0, 256)
    log = bytearray(logs.start(255, 7) + steps + refused + others + logs.cut() + logs.step(255))
    pair = widest(lib, rng, notes)
    due, lent, answers = bytearray(pair.lent), bytearray(pair.lent), bytearray(rng.randbytes(200))
    struct.pack_into("<128I", due, FREE_AT, *range(1, 256, 2))
    for place, value in (*zip(HALF_AT[16], (7, 7, 511, 2)), (WORD_AT, 0xC00001FF)):
        calls.put(due, place, value)
    demand(pair, lib.replay(lent, bytearray(511), log, answers) == (5, 0, 0) and lent == pair.lent, "a replay with 511 bytes to work in is 5")
    demand(pair, lib.replay(lent, bytearray(512), log, answers) == (0, 145, 0), "a log of 145 records runs")
    demand(pair, answers[:145] == bytes(134) + bytes((11, 11, 11, 11, 0, 0, 13, 13, 9, 0, 14)), "each record has its answer")
    demand(pair, lent == due, "the write of lane 255 has its stores, word by word")


def reports():
    """Arenas of more than 16 lanes that the report takes, with what it must say of them."""
    for lanes in (17, 32, 48):
        lines = ["lane %d free %d next 2" % (lane, lanes + lane) for lane in range(lanes)]
        yield bytes(arenas.lanes_of(lanes)), told(lanes, 0, lines)
        lines = ["lane %d free %d next 3" % (lane, lanes - 1 - lane) for lane in range(lanes)]
        yield bytes(arenas.all_pending(lanes)), told(lanes, lanes, lines)


def told(lanes, mended, lines):
    return "sector bytes 512\nsectors %d\nlanes %d\nmended %d\n" % (lanes, lanes, mended) + "\n".join([*lines, "opened\n"])


def try_all(lib, notes):
    for tried in (try_made, try_refused, try_limit, try_more_than_sectors, try_records):
        tried(lib, notes)
    for tried in (try_lane_255, try_some_lanes, try_all_pending, try_all_in_flight, try_replays):
        tried(lib, notes)

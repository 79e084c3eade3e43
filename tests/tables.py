"""The table of lane records that the caller lends: which tables are too short, which records are judged, and what each call leaves of a table.

The numbers, offsets and records that must come are told here from the rules, so that a mistake that the model and the library share is found too.
All of it is on the fresh arena: sectors of 512 bytes, 60 of them, 4 lanes, 64 blocks, map at 36,864, flog at 40,960. That no call changes a record
but its own, one past the lanes or a byte around the table is seen to by every Pair too.
"""
import random

import arenas
import calls
import forged
import library
import model
import sloppy
from calls import Record
from layouts import EVERY_CALL, SECOND_HALF, WORDS, demand
from pair import Pair
from random_arenas import LAYOUTS

# Lengths of tables for four lanes, and those of them that are too short.
LENGTHS = (0, 1, 3, 4, 5, 256, 300)
SHORT = (0, 1, 2, 3)
# Numbers of an opening that come before 21, and those that the work buffer is cleared for.
BEFORE_21, CLEARED = (1, 2, 3, 4), (0, 21, 6, 7, 18, 8)
# The records that opening the fresh arena sets, and the first of them where lane 0's write of sector 7 was pending.
OPENED = [Record(0, 60 + lane, 1, 2) for lane in range(4)]
MENDED = Record(0, 7, 0, 3)

# Fields of the handle that are each not allowed beside the others; a table of three records suffices for three lanes and for none.
BROKEN = (
    *(("length", 53248), ("data", 0), ("map", 32768), ("flog", 36864), ("copy", 49152), ("size", 520), ("sectors", 61), ("internal", 576)),
    *(("blocks", 65), ("lanes", 0), ("lanes", 3), ("lanes", 5), ("lanes", 257), ("lanes", 2**32 - 1), ("layout", 17)),
)

# Each field of a record: values in its range, both ends among them, and values beside it and far from it.
RANGES = {
    "busy": ((0, 1), (2, 3, 255, 256, 2**16, 2**31, 2**32 - 1)),
    "block": ((0, 7, 63), (64, 65, 2**16, 2**30, 2**32 - 1)),
    "half": ((0, 1), (2, 3, 16, 256, 2**32 - 1)),
    "sequence": ((1, 2, 3), (0, 4, 257, 2**31 + 1, 2**32 - 1)),
    "sector": ((0, 7, 59), (60, 63, 2**16, 2**32 - 1)),
    "old": ((0, 7, 63), (64, 65, 2**16, 2**30, 2**32 - 1)),
    "made": ((0, 128, 132), (133, 134, 2**16, 2**32 - 1)),
}


def opened(lib, rng, notes, layout, records=4):
    """The fresh arena, opened with a table of so many records."""
    pair = Pair(lib, arenas.fresh(), rng, notes)
    demand(pair, pair.open(64, layout, records) == (0, 0), "the fresh arena opens with a table of %d records" % records)
    demand(pair, library.table_from(pair.lent_table)[:4] == OPENED, "opening sets a record for each lane")
    return pair


def past(pair, records):
    """The pair's first four records and, up to so many, records past the lanes that hold anything."""
    return pair.table[:4] + library.table_from(forged.rubbish(pair.rng, records))[4:]


# Openings and cut openings.


def rows(layout):
    """The fresh arena with each fault of an opening or none, its number, and the count with room to work."""
    yield 0, 0, arenas.fresh()
    yield 0, 1, arenas.half(arenas.fresh(), 0, 1, 7, 7, 60, 2, layout)
    for number, fault in sloppy.FAULTS:
        yield number, 0, fault(arenas.fresh(), layout)
    for fault in sloppy.SLOPPY:
        yield 18, 0, fault(arenas.fresh(), layout)


def try_openings(lib, notes):
    """Each fault beside work buffers and tables of several lengths: 21 comes after 5 and before 6, 7, 18 and 8."""
    rng = random.Random(21)
    for layout in LAYOUTS:
        for number, mended, arena in rows(layout):
            for room in (0, 63, 64, 70):
                for records in LENGTHS:
                    due = number if number in BEFORE_21 else 5 if room < 64 else 21 if records < 4 else number
                    pair, given = Pair(lib, arena, rng, notes), (due, 0 if due else mended)
                    what = "%d beside %d bytes to work in and %d records is answered with %d" % (number, room, records, due)
                    demand(pair, pair.cut_open(room, layout, 0, records) == given, what + " by a cut opening")
                    demand(pair, pair.open(room, layout, records) == given, what)
                    left_alone(pair, arena, layout, room, records, given)


def left_alone(pair, arena, layout, room, records, given):
    """What the library alone leaves: a refused opening and every cut opening leave the table, an accepted opening sets four records of it."""
    work, table = pair.rng.randbytes(room), forged.rubbish(pair.rng, records)
    lent, due_work = bytearray(arena), bytes(64) + work[64:] if given[0] in CLEARED else work
    for k in (0, 1, 256):
        lent_work, lent_table, copy = bytearray(work), bytearray(table), bytearray(arena)
        demand(pair, pair.lib.cut_open(copy, lent_work, layout, lent_table, k) == given, "a cut opening is answered as an opening is")
        demand(pair, (lent_work, lent_table) == (due_work, table), "a cut opening leaves the table, and of the work buffer what an opening does")
        demand(pair, given[0] == 0 or copy == arena, "a refused cut opening leaves the arena")
    lent_work, lent_table, handle = bytearray(work), bytearray(table), bytearray(pair.rng.randbytes(64))
    demand(pair, pair.lib.open(lent, lent_work, layout, lent_table, handle) == given, "an opening is answered with %d" % given[0])
    demand(pair, lent_work == due_work, "the work buffer ends as the rules say, after %d" % given[0])
    if given[0]:
        demand(pair, (lent, lent_table, handle) == (arena, table, bytes(64)), "a refused opening leaves arena and table, and gives no handle")
    else:
        lanes = [MENDED, *OPENED[1:]] if given[1] else OPENED
        demand(pair, lent_table == library.table_bytes(lanes) + table[112:], "opening sets the records of the lanes and leaves those past them")


def try_null(lib, notes):
    """A null pointer with length 0 is a table without records, in every call."""
    pair = Pair(lib, arenas.fresh(), random.Random(0), notes)
    arena, work, handle = bytearray(arenas.fresh()), bytearray(b"\x5A" * 70), bytearray(b"\x5A" * 64)
    demand(pair, lib.cut_open(arena, work, 16, None, 1) == (21, 0) and work == bytes(64) + b"\x5A" * 6, "a cut opening without a table is 21")
    demand(pair, lib.open(arena, work, 16, None, handle) == (21, 0) and handle == bytes(64), "an opening without a table is 21")
    demand(pair, lib.read(arena, handle, None, 0, bytearray(512)) == 16, "the handle of a refused opening is 16 without a table")
    lib.open(arena, work, 16, bytearray(112), handle)
    buffer, record = bytearray(b"\x5A" * 512), bytearray(b"\x5A" * 28)
    numbers = lib.read(arena, handle, None, 0, buffer), lib.start(arena, handle, None, 0, 7), lib.step(arena, handle, None, 0, buffer)
    numbers += lib.write(arena, handle, None, 0, 7, buffer), lib.lane_record(arena, handle, None, 0, record)
    demand(pair, numbers == (21,) * 5 and lib.next_store(arena, handle, None, 0) == (21, None), "every call without a table is 21")
    demand(pair, arena == arenas.fresh() and buffer == b"\x5A" * 512 and record == b"\x5A" * 28, "and changes nothing")


# The order in every call with a handle.


def try_calls(lib, notes):
    """Every call, with every number of its order due, beside short tables, broken records and broken figures: 16, then 21, then 16."""
    rng = random.Random(16)
    for layout in LAYOUTS:
        pair = opened(lib, rng, notes, layout)
        demand(pair, pair.start(1, 7) == 0, "a write starts")
        pair.put([(arenas.MAP + 4 * sector, word) for sector, word in WORDS.items()])
        for *call, due in EVERY_CALL:
            for records in (4, 5, 256):
                answered(pair, call, due, past(pair, records))
            for records in SHORT:
                answered(pair, call, 21, pair.table[:records])
                answered(pair, call, 21, forged.with_all_records(pair.table[:records], busy=2, sequence=0))
            for lane in range(4):
                answered(pair, call, 16, forged.with_record(past(pair, 6), lane, half=2))
            for name, value in BROKEN:
                for table in (pair.table, pair.table[:3], [], forged.with_all_records(pair.table, sector=60)):
                    answered(pair, call, 16, table, name, value)


def answered(pair, call, due, table, name=None, value=None):
    """A call with this table and through a copy of the handle, of which this field is changed, is answered so; a refusal leaves everything."""
    handle = pair.handle.copy()
    if name is not None:
        setattr(handle if name in ("length", "layout") else handle.figures, name, value)
    copy = pair.aside(handle=handle, table=table)
    what = "a %s with %d records%s" % (call[0], len(table), "" if name is None else " and a handle with %s %d" % (name, value))
    demand(copy, copy.perform(*call) == due, "%s is answered with %d" % (what, due))
    if due:
        kept = copy.lent == pair.lent and copy.lent_table == library.table_bytes(table)
        demand(copy, kept, what + " leaves the arena and the table")


# Records in range and out of it.


def try_records(lib, notes):
    """Each field of a record at the ends of its range and beyond: judged on every lane, idle or in flight, and never past the lanes."""
    rng = random.Random(28)
    pair = opened(lib, rng, notes, 16)
    for field, (right, wrong) in RANGES.items():
        for value in right + wrong:
            due = 16 if value in wrong else 0
            for lane in range(4):
                for busy in (0, 1) if field != "busy" else (value,):
                    table = forged.with_record(past(pair, rng.choice((4, 9))), lane, busy=busy, **{field: value} if field != "busy" else {})
                    what = "%s of %d in record %d is answered with %d" % (field, value, lane, due)
                    judged(pair, table, (0, lane, (lane + 1) % 4), due, what)
            for lane in (4, 5, 8):
                table = forged.with_record(past(pair, 9), lane, **{field: value})
                judged(pair, table, (0, 3), 0, "%s of %d in record %d, past the lanes, is not judged" % (field, value, lane))


def judged(pair, table, lanes, due, what):
    """Reads and looks at these lanes answer so; where that is 16, every other call does too."""
    copy = pair.aside(table=table)
    demand(copy, copy.read(9, 512)[0] == due, what + " by a read")
    for lane in lanes:
        demand(copy, copy.lane_record(lane) == (due, None if due else table[lane]), what + " by a look at lane %d" % lane)
        if due:
            numbers = copy.start(lane, 9), copy.step(lane, bytes(512)), copy.write(lane, 9, bytes(512)), copy.next_store(lane)[0]
            demand(copy, numbers == (16,) * 4, what + " by every call on lane %d" % lane)


def try_past(lib, notes):
    """Records past the lanes are neither lanes nor in flight, whatever the table's length; which records are past them the handle says."""
    pair = opened(lib, random.Random(256), notes, 32)
    for records in (5, 16, 256, 300):
        copy = pair.aside(table=pair.table + [Record(1, 5, 0, 1, 9, 9, 130)] * (records - 4))
        for lane in {4, records - 1, records}:
            numbers = copy.start(lane, 9), copy.step(lane, bytes(512)), copy.write(lane, 9, bytes(512)), copy.next_store(lane)[0]
            demand(copy, numbers == (11,) * 4 and copy.lane_record(lane) == (11, None), "lane %d of 4 is no lane" % lane)
        demand(copy, copy.start(0, 9) == 0 and copy.write(1, 10, bytes(512)) == 0, "a sector that is in flight past the lanes is free")
    fewer = forged.narrowed(pair.handle, pair.table, 60, 3)[0]
    table = forged.with_record([*OPENED[:3], Record()], 3, busy=7)
    table[2] = table[2]._replace(block=62)
    demand(pair, pair.aside(handle=fewer, table=table).start(2, 7) == 0, "with three lanes the fourth record is past them")
    demand(pair, pair.aside(handle=fewer, table=table[:3]).start(2, 7) == 0, "with three lanes three records suffice")
    demand(pair, pair.aside(handle=fewer, table=table[:2]).start(0, 7) == 21, "with three lanes two records do not")
    more = forged.narrowed(pair.handle, pair.table, 59, 5)[0]
    demand(pair, pair.aside(handle=more).start(0, 7) == 21, "with five lanes four records do not suffice")
    demand(pair, pair.aside(handle=more, table=pair.table + [Record(0, 63, 0, 1)]).start(4, 7) == 0, "with five lanes the fifth record is a lane's")
    demand(pair, pair.aside(handle=more, table=pair.table + [Record(0, 64, 0, 1)]).start(0, 7) == 16, "with five lanes the fifth record is judged")


# What the calls leave of a table, by the library alone.


def try_left(lib, notes):
    """An accepted start, step and whole write change their own record to the one told here, and no other call changes a record."""
    rng = random.Random(7)
    pair = opened(lib, rng, notes, 16, 6)
    due, buffer = library.table_from(pair.lent_table), rng.randbytes(512)
    pair.put([(arenas.MAP + 4 * sector, word) for sector, word in WORDS.items()])

    def left(number, expected, what):
        same = pair.lent_table == library.table_bytes(due)
        demand(pair, number == expected and same, "%s is answered with %d and leaves these records" % (what, expected))

    due[2] = Record(1, 62, 1, 2, 7, 7, 0)
    left(pair.start(2, 7), 0, "a start")
    for lane, sector, number in ((4, 9, 11), (2, 9, 12), (0, 60, 9), (0, 7, 13), (0, 20, 7), (0, 21, 18)):
        left(pair.start(lane, sector), number, "a refused start")
        left(pair.write(lane, sector, buffer), number, "a refused write")
    left(pair.read(9, 512)[0], 0, "a read")
    left(pair.lane_record(2)[0], 0, "a look at a record")
    for made in range(1, 133):
        due[2] = Record(1, 62, 1, 2, 7, 7, made)
        left(pair.step(2, buffer), 0, "step %d" % made)
        left(pair.step(2, buffer[1:]), 10, "a step with a short buffer")
        left(pair.next_store(2)[0], 0, "a look at the next store")
    due[2] = Record(0, 7, 0, 3)
    left(pair.step(2, buffer), 0, "the last step")
    left(pair.step(2, buffer), 14, "a step of an idle lane")
    due[3] = Record(0, 62, 0, 3)
    left(pair.write(3, 7, buffer), 0, "a whole write")
    left(lib.cut_open(bytearray(pair.lent), bytearray(64), 16, pair.lent_table, 256)[0], 7, "a refused cut opening that is lent the table")
    left(lib.cut_open(bytearray(arenas.fresh()), bytearray(64), 16, pair.lent_table, 256)[0], 0, "a cut opening that is lent the table")


# Tables that are not the latest.


def try_earlier(lib, notes):
    """With an earlier state of its table a handle is answered by range only: a finished write's block is stored to again."""
    rng = random.Random(9)
    for layout in LAYOUTS:
        pair, buffer = opened(lib, rng, notes, layout), rng.randbytes(512)
        first = list(pair.table)
        demand(pair, pair.start(0, 7) == 0, "a write starts")
        for _ in range(130):
            pair.step(0, buffer)
        middle = list(pair.table)
        for k in range(131, 134):
            demand(pair, pair.step(0, buffer) == 0, "step %d is accepted" % k)
        copy = pair.aside(table=first)
        demand(copy, copy.start(0, 9) == 0 and copy.next_store(0) == (0, 34816), "an earlier table has block 60 free, in which sector 7 is now")
        demand(copy, copy.step(0, bytes(512)) == 0 and copy.read(7, 512)[2] == bytes(4) + buffer[4:], "a write through it spoils sector 7")
        copy = pair.aside(table=middle)
        demand(copy, copy.start(0, 9) == 12 and copy.start(1, 7) == 13, "an earlier table has the write in flight")
        demand(copy, copy.next_store(0) == (0, SECOND_HALF[layout][2]), "and goes on where it was")
        for _ in range(3):
            copy.step(0, buffer)
        demand(copy, (copy.lent, copy.lent_table) == (pair.lent, pair.lent_table), "store 131 and those after it are made again")


def try_other_opening(lib, notes):
    """A table of another opening is judged by range only, by the figures of the handle that it comes with."""
    rng = random.Random(4)
    small, large = opened(lib, rng, notes, 16), Pair(lib, model.made(512, 200, 4), rng, notes)
    demand(large, large.open(204, 16, 4) == (0, 0), "a made arena opens")
    demand(small, small.aside(table=large.table).read(0, 512)[0] == 16, "block 200 is out of the range of 64 blocks")
    copy = large.aside(table=small.table)
    demand(copy, copy.start(3, 199) == 0 and copy.next_store(3) == (0, 36352), "block 63 is in the range of 204 blocks, at 4,096 + 63 x 512")
    pending = Pair(lib, arenas.half(arenas.fresh(), 0, 1, 7, 7, 60, 2), rng, notes)
    demand(pending, pending.open(64, 16, 4) == (0, 1), "a pending lane is mended")
    copy = small.aside(table=pending.table)
    demand(copy, copy.start(0, 9) == 0 and copy.next_store(0) == (0, 7680), "lane 0 has block 7 free there, at 4,096 + 7 x 512")
    demand(copy, copy.lane_record(0)[1] == Record(1, 7, 0, 3, 9, 9, 0), "and the first half is next")
    copy.hold(calls.no_handle())
    demand(copy, copy.read(0, 512)[0] == 16, "no table makes a handle of zeroes allowed")


def try_all(lib, notes):
    for tried in (try_openings, try_null, try_calls, try_records, try_past, try_left, try_earlier, try_other_opening):
        tried(lib, notes)

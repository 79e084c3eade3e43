"""The layout of a lane: its second half stands at byte 16 or 32, as the caller says at opening and the handle carries.

The numbers and offsets that must come are told here from the rules, so that a mistake that the model and the library share is found too.
"""
import random
import struct

import arenas
import calls
import forged
import library
import model
import random_arenas
import sloppy
from pair import Pair
from random_arenas import LAYOUTS, REFUSED_LAYOUTS, other_layout

AMPLE = 2**15
LANE_SIZES = ((512, 5, 3), (520, 6, 6), (512, 80, 16), (528, 40, 33), (4096, 3, 2), (4104, 3, 2))

# What opening of a made arena answers where one byte of a lane is 0x80 or more, by layout: the first and last byte of a run, and the number.
MADE_BYTES = {
    16: ((0, 15, 6), (16, 27, 0), (28, 31, 6), (32, 63, 18)),
    32: ((0, 15, 6), (16, 31, 18), (32, 43, 0), (44, 47, 6), (48, 63, 18)),
}
# The same where the second half has the write of the lane, of which the map word is not stored.
LOGGED_BYTES = {
    16: ((0, 11, 0), (12, 15, 6), (16, 31, 6), (32, 63, 18)),
    32: ((0, 11, 0), (12, 15, 6), (16, 31, 18), (32, 47, 6), (48, 63, 18)),
}

# Case 9 and its twin: where stores 129 to 133 of the first write of lane 0 of the fresh arena go, by layout, and what they store.
SECOND_HALF = {16: (40976, 40980, 40984, 40988), 32: (40992, 40996, 41000, 41004)}
FIRST_HALF = (40960, 40964, 40968, 40972)
CASE_9 = (7, 7, 60, 2, 0xC000003C)
MAP_WORD = 36892


def demand(pair, holds, what):
    if not holds:
        pair.fail("not so: " + what)


def answers(pair, layout, due, mended, what):
    """An opening and a cut opening of copies give this number and count; a refusal gives no handle and leaves the arena."""
    copy = pair.aside()
    demand(copy, copy.cut_open(AMPLE, layout, 0) == (due, mended), "%s is answered with %d in layout %d" % (what, due, layout))
    demand(copy, copy.open(AMPLE, layout) == (due, mended), "%s is answered with %d in layout %d" % (what, due, layout))
    demand(copy, due == 0 or copy.lent == pair.lent and not any(copy.lent_handle), "a refusal leaves the arena and gives no handle, " + what)
    demand(copy, due or told_layout(copy) == layout, "the handle carries the layout")
    return copy


def told_layout(pair):
    """The layout in the bytes of the library's handle."""
    return struct.unpack_from("<I", pair.lent_handle, library.LAYOUT_BYTE)[0]


# Layouts that opening refuses.


def faulty(layout):
    """The fresh arena, sound or with each fault of an opening, as what it shows and its bytes."""
    yield "no fault", arenas.fresh()
    for number, fault in sloppy.FAULTS:
        yield "a fault of number %d" % number, fault(arenas.fresh(), layout)
    for fault in sloppy.SLOPPY:
        yield "a fault of number 18", fault(arenas.fresh(), layout)
    yield "a lane that is pending", arenas.half(arenas.fresh(), 0, 1, 7, 7, 60, 2, layout)
    yield "no byte at all", bytearray()


def try_refused(lib, notes):
    """Each refused layout beside each other fault: 16, no count, no handle, and neither arena nor work buffer is touched."""
    rng = random.Random(9)
    for what, arena in (*faulty(16), *faulty(32)):
        pair = Pair(lib, arena, rng, notes)
        for layout in REFUSED_LAYOUTS:
            room = rng.choice((0, 63, 64, 128))
            demand(pair, pair.open(room, layout) == (16, 0), "layout %d beside %s is answered with 16" % (layout, what))
            demand(pair, pair.cut_open(room, layout, 1) == (16, 0), "layout %d beside %s is answered with 16" % (layout, what))
            demand_untouched(pair, arena, layout, "layout %d beside %s" % (layout, what))


def demand_untouched(pair, arena, layout, what):
    """Calls of the library alone: what was lent is as it was, and the handle is all zeroes."""
    lent, work, handle = bytearray(arena), bytearray(pair.rng.randbytes(70)), bytearray(pair.rng.randbytes(library.HANDLE_BYTES))
    table = bytearray(forged.rubbish(pair.rng, pair.rng.choice((0, 3, 4, 5))))
    before, records = bytes(work), bytes(table)
    demand(pair, pair.lib.open(lent, work, layout, table, handle) == (16, 0), what + " is answered with 16")
    demand(pair, not any(handle), what + " gives no handle")
    for k in (0, 1, 16):
        demand(pair, pair.lib.cut_open(lent, work, layout, table, k) == (16, 0), what + " is answered with 16 by a cut opening")
    demand(pair, work == before and lent == arena and table == records, what + " leaves the work buffer, the arena and the table")


# Each byte of a lane.


def try_each_byte(lib, notes):
    """Each of the 64 bytes of each lane not zero, in each layout: which is judged by 18, which by 6, and which is of an older half."""
    rng, f = random.Random(64), model.made_figures(512, 5, 3)
    for layout in LAYOUTS:
        for lane in range(3):
            made, at = model.made(512, 5, 3), f.flog + 64 * lane
            logged = bytearray(made)
            struct.pack_into("<4I", logged, at + layout, 4, 4, 5 + lane, 2)
            for base, runs, mended in ((made, MADE_BYTES, 0), (logged, LOGGED_BYTES, 1)):
                for first, last, due in runs[layout]:
                    for byte in range(first, last + 1):
                        arena = bytearray(base)
                        arena[at + byte] = 1 if due == 18 and lane == 1 else rng.randint(0x80, 0xFF)
                        answers(Pair(lib, arena, rng, notes), layout, due, 0 if due else mended, "byte %d of a lane" % byte)


# The other layout.


def rows(layout):
    """Arenas by what they show, with the number and the count in this layout, and those in the other one."""
    other = other_layout(layout)

    def half(arena, lane, which, *words):
        return arenas.half(arena, lane, which, *words, layout)

    fresh, mapped = arenas.fresh, arenas.mapped
    yield "the fresh arena", fresh(), (0, 0), (0, 0)
    yield "a first half pending", half(fresh(), 0, 0, 7, 7, 60, 1), (0, 1), (0, 1)
    yield "first halves pending", half(half(fresh(), 3, 0, 0, 0, 63, 3), 1, 0, 59, 59, 61, 2), (0, 2), (0, 2)
    yield "a second half pending", half(fresh(), 0, 1, 7, 7, 60, 2), (0, 1), (18, 0)
    yield "a second half on the last lane", half(fresh(), 3, 1, 0, 0, 63, 2), (0, 1), (18, 0)
    yield "a write finished", mapped(half(fresh(), 0, 1, 7, 7, 60, 2), 7, 0xC000003C), (0, 0), (18, 0)
    yield "an older second half", half(fresh(), 2, 1, 9, 9, 9, 3), (0, 0), (18, 0)
    yield "an older second half with a sequence alone", half(fresh(), 2, 1, 0, 0, 0, 3), (0, 0), (18, 0)
    yield "an unset second half with a block", half(fresh(), 1, 1, 0, 0, 61, 0), (0, 0), (18, 0)
    yield "an unset second half past the last sector", half(fresh(), 1, 1, 2**31, 0, 0, 0), (0, 0), (18, 0)
    yield "both halves finished", mapped(half(half(fresh(), 0, 0, 7, 60, 60, 3), 0, 1, 7, 7, 60, 2), 7, 0xC0000007), (0, 0), (18, 0)
    yield "a first half unset", half(half(fresh(), 1, 0, 0, 0, 0, 0), 1, 1, 7, 7, 61, 1), (0, 1), (6, 0)
    yield "an older first half past the last block", half(half(fresh(), 1, 0, 1, 64, 61, 1), 1, 1, 7, 7, 61, 2), (0, 1), (6, 0)
    yield "an older first half past the last sector", half(half(fresh(), 3, 0, 60, 1, 1, 3), 3, 1, 7, 7, 63, 1), (0, 1), (6, 0)
    yield "a second half past the last block", half(fresh(), 0, 1, 7, 7, 64, 2), (6, 0), (18, 0)
    yield "two halves of one sequence", half(fresh(), 0, 1, 7, 7, 60, 1), (6, 0), (18, 0)
    yield "a second half beside a bad word", mapped(half(fresh(), 0, 1, 7, 7, 60, 2), 59, 0x40000040), (7, 0), (7, 0)
    yield "a lost lane beside a second half", half(half(fresh(), 3, 0, 3, 63, 63, 0), 0, 1, 7, 7, 60, 2), (6, 0), (6, 0)
    yield "a second half beside a sloppy word", mapped(half(fresh(), 0, 1, 7, 7, 60, 2), 8, 8), (18, 0), (18, 0)
    yield "a second half that is not valid", half(fresh(), 0, 1, 7, 61, 61, 2), (8, 0), (18, 0)
    yield "two second halves of one sector", half(half(fresh(), 0, 1, 7, 7, 60, 2), 1, 1, 7, 7, 61, 2), (8, 0), (18, 0)
    mixed = arenas.half(half(fresh(), 0, 1, 7, 7, 60, 2), 1, 1, 8, 8, 61, 2, other)
    yield "a second half of each layout", mixed, (18, 0), (18, 0)
    twice = arenas.half(half(fresh(), 0, 1, 7, 7, 60, 2), 0, 1, 7, 7, 60, 2, other)
    yield "a second half at both places", twice, (18, 0), (18, 0)
    yield "the last 16 bytes of a lane", arenas.padded(fresh(), 0, 48, 1), (18, 0), (18, 0)


def try_other_layout(lib, notes):
    """Each of those arenas opened in its own layout and in the other one."""
    rng = random.Random(32)
    for layout in LAYOUTS:
        for what, arena, own, others in rows(layout):
            pair = Pair(lib, arena, rng, notes)
            answers(pair, layout, *own, what)
            answers(pair, other_layout(layout), *others, what)


def try_both_until(lib, notes):
    """A made arena opens in both layouts until a word of a second half that is not zero is stored, then in its own alone."""
    rng = random.Random(132)
    for layout in LAYOUTS:
        for lane, sector, alike in ((0, 7, 128), (3, 59, 128), (1, 0, 130)):
            pair, buffer = Pair(lib, arenas.fresh(), rng, notes), rng.randbytes(512)
            demand(pair, pair.open(64, layout) == (0, 0) and pair.start(lane, sector) == 0, "a write starts")
            for k in range(134):
                if k in (0, 1, 127) or k >= 128:
                    answers(pair, layout, 0, 1 if k == 132 else 0, "%d stores" % k)
                    answers(pair, other_layout(layout), 0 if k <= alike else 18, 0, "%d stores" % k)
                demand(pair, k == 133 or pair.step(lane, buffer) == 0, "a step is accepted")
            copy = answers(pair, layout, 0, 0, "a finished write")
            demand(copy, copy.read(sector, 512)[2] == buffer, "a read gives the write")


def try_lanes(lib, notes):
    """The same with whole writes of any one lane of several, then of all the others, and of two of them again."""
    rng = random.Random(16)
    for sizes in LANE_SIZES:
        size, sectors, lanes = sizes
        for layout in LAYOUTS:
            for first in sorted({0, lanes // 2, lanes - 1}):
                pair = Pair(lib, random_arenas.made(rng, *sizes), rng, notes)
                answers(pair, other_layout(layout), 0, 0, "a made arena")
                pair.open(AMPLE, layout)
                order = [first, *(lane for lane in range(lanes) if lane != first)]
                for lane in order + order[:2]:
                    demand(pair, pair.write(lane, rng.randrange(sectors), rng.randbytes(size)) == 0, "a write is accepted")
                    if lane in (first, order[-1]):
                        answers(pair, layout, 0, 0, "writes of several lanes")
                        answers(pair, other_layout(layout), 18, 0, "writes of several lanes")


# The layout in the handle.


# Map words of the fresh arena that a call at their sector refuses, by sector.
WORDS = {20: 0xC0000040, 21: 0x00000005, 22: 0x40000016}

# Calls as lane, sector and buffer length, lane 1 writing sector 7, with the number of each: accepted, and every number of its order after 16.
EVERY_CALL = (
    *(("read", 0, *row) for row in ((5, 512, 0), (60, 512, 9), (5, 511, 10), (20, 512, 7), (21, 512, 18), (22, 512, 15))),
    *(("start", *row) for row in ((0, 5, 0, 0), (4, 5, 0, 11), (1, 5, 0, 12), (0, 60, 0, 9), (0, 7, 0, 13), (0, 20, 0, 7), (0, 21, 0, 18))),
    *(("write", *row) for row in ((0, 5, 512, 0), (4, 5, 512, 11), (1, 5, 512, 12), (0, 60, 512, 9), (0, 5, 511, 10))),
    *(("write", *row) for row in ((0, 7, 512, 13), (0, 20, 512, 7), (0, 21, 512, 18))),
    *(("step", *row) for row in ((1, 0, 512, 0), (4, 0, 512, 11), (0, 0, 512, 14), (1, 0, 511, 10))),
    *(("lane_record", *row) for row in ((1, 0, 0, 0), (0, 0, 0, 0), (4, 0, 0, 11))),
    *(("next_store", *row) for row in ((1, 0, 0, 0), (4, 0, 0, 11), (0, 0, 0, 14))),
)


def try_handles(lib, notes):
    """A handle with a refused layout is answered with 16 in every call, whatever else is wrong, and nothing changes."""
    rng = random.Random(60)
    for layout in LAYOUTS:
        for steps in (None, 0, 129):
            pair = Pair(lib, arenas.half(arenas.fresh(), 2, 1, 9, 9, 62, 2, layout), rng, notes)
            demand(pair, pair.open(64, layout) == (0, 1), "a pending lane is mended")
            demand(pair, steps is None or pair.start(1, 7) == 0, "a write starts")
            for _ in range(steps or 0):
                pair.step(1, bytes(512))
            first_next = pair.aside(table=forged.with_all_records(pair.table, half=0))
            for wrong in REFUSED_LAYOUTS:
                try_refused_handle(pair, wrong)
                try_refused_handle(first_next, wrong)
            if steps is not None:
                try_exchanged(pair, layout, steps)


def try_refused_handle(pair, wrong):
    """Every call through a copy of the handle with that layout; with a write in flight, the handle itself gives each call its own number."""
    handle = pair.handle.copy()
    handle.layout = wrong
    copy = pair.aside(handle=handle)
    copy.put([(arenas.MAP + 4 * sector, word) for sector, word in WORDS.items()])
    kept = bytes(copy.lent), bytes(copy.lent_handle), bytes(copy.lent_table)
    for name, lane, sector, length, due in EVERY_CALL:
        if wrong == 0 and pair.table[1].busy:
            live = pair.aside(copy.arena)
            demand(live, live.perform(name, lane, sector, length) == due, "a %s is answered with %d" % (name, due))
        demand(copy, copy.perform(name, lane, sector, length) == 16, "a %s by a handle with layout %d is answered with 16" % (name, wrong))
    _, before, after = copy.read(5, 512)
    demand(copy, before == after, "a refused read leaves the buffer")
    demand(copy, copy.lane_record(0) == copy.next_store(1) == (16, None), "a refusal leaves the record and the offset")
    demand(copy, (copy.lent, copy.lent_handle, copy.lent_table) == kept, "a refused call leaves the arena, the handle and the table")


def try_exchanged(pair, layout, made):
    """The other layout in a handle is not found out: every call goes on, and the flog words go where that layout has them."""
    handle, other = pair.handle.copy(), other_layout(layout)
    handle.layout = other
    copy = pair.aside(handle=handle)
    demand(copy, copy.read(9, 512)[0] == 0 and copy.read(60, 512)[0] == 9, "reads go on")
    demand(copy, copy.lane_record(1)[0] == 0 and copy.start(0, 7) == 13 and copy.start(4, 7) == 11, "calls go on")
    flog = [at + 64 for at in SECOND_HALF[other]]
    for k in range(made, 133):
        due = (flog + [MAP_WORD])[k - 128] if k >= 128 else 4096 + 512 * 61 + 4 * k
        demand(copy, copy.next_store(1) == (0, due), "the next store is told by the handle's layout")
        demand(copy, one_store(copy, lambda: copy.step(1, b"\xA5" * 512)) == due, "a step stores by the handle's layout")
    demand(copy, told_layout(copy) == other, "calls keep the handle's layout")
    for either in LAYOUTS:
        answers(copy, either, 18, 0, "an arena with second halves at both places")


def one_store(pair, call):
    """Where the one word is that a call stores in the library's arena, or None."""
    before = struct.unpack("<%dI" % (len(pair.lent) // 4), pair.lent)
    call()
    after = struct.unpack("<%dI" % (len(pair.lent) // 4), pair.lent)
    changed = [4 * word for word, both in enumerate(zip(before, after)) if both[0] != both[1]]
    return changed[0] if len(changed) == 1 else None


# The stores of a write.


def try_stores(lib, notes):
    """Case 9 and its twin: lane 0's first write goes to the second half, the next to the first half, the third to the second again."""
    rng = random.Random(133)
    for layout in LAYOUTS:
        pair = Pair(lib, arenas.fresh(), rng, notes)
        demand(pair, pair.open(64, layout) == (0, 0), "the fresh arena opens")
        second = SECOND_HALF[layout]
        try_write(pair, 60, second + (MAP_WORD,), CASE_9)
        try_write(pair, 7, FIRST_HALF + (MAP_WORD,), (7, 60, 7, 3, 0xC0000007))
        try_write(pair, 60, second + (MAP_WORD,), (7, 7, 60, 1, 0xC000003C))
        demand(pair, told_layout(pair) == layout, "calls keep the handle's layout")
        answers(pair, layout, 0, 0, "three writes")
        answers(pair, other_layout(layout), 18, 0, "three writes")


def try_write(pair, block, places, values):
    """A write of lane 0 to sector 7 by steps, its last five stores at these places with these values; a whole write stores alike."""
    buffer = pair.rng.randbytes(512)
    whole = pair.aside()
    demand(whole, whole.write(0, 7, buffer) == 0 and pair.start(0, 7) == 0, "a write is accepted")
    for k in range(128):
        demand(pair, pair.next_store(0) == (0, 4096 + 512 * block + 4 * k), "the data words go into the new block")
        pair.step(0, buffer)
    for k, (place, value) in enumerate(zip(places, values, strict=True), 129):
        demand(pair, pair.next_store(0) == (0, place), "store %d is at %d" % (k, place))
        calls.put(before := bytearray(pair.lent), place, value)
        pair.step(0, buffer)
        demand(pair, pair.lent == before, "store %d is of %d at %d" % (k, value, place))
    demand(pair, (pair.lent, pair.lent_table) == (whole.lent, whole.lent_table), "a whole write is its start and steps")


def try_all(lib, notes):
    for tried in (try_refused, try_each_byte, try_other_layout, try_both_until, try_lanes, try_handles, try_stores):
        tried(lib, notes)


def in_layout_16():
    """Arenas of both layouts as the programs must answer them, which open in layout 16: what each shows, its bytes, the number and the count."""
    for what, arena, own, _ in rows(16):
        yield what, bytes(arena), *own
    for what, arena, _, others in rows(32):
        yield what + " in layout 32", bytes(arena), *others

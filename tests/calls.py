"""The model of the running calls: read, start, step, whole write and what a host may ask of a lane, from the rules' own words.

It shares no code with the library. Each call gives the answer's number and changes arena, table or buffer in place; none changes the handle.
"""
import struct
from dataclasses import dataclass, replace

import model

# The flags of a map word: Zero alone reads as zeroes, Error alone is a bad sector, both are data.
ZERO, ERROR = 1 << 31, 1 << 30
DATA_WORD = ZERO | ERROR

# What each call judges, in its order; 16 judges the figures of the handle and -16 the records of the table, and both are answered with 16.
ORDER = {
    "read": (16, 21, -16, 9, 10, 7, 18, 15),
    "start": (16, 21, -16, 11, 12, 9, 13, 7, 18),
    "write": (16, 21, -16, 11, 12, 9, 10, 13, 7, 18),
    "step": (16, 21, -16, 11, 14, 10),
    "lane_record": (16, 21, -16, 11),
    "next_store": (16, 21, -16, 11, 14),
}

Record = model.Record


@dataclass
class Handle:
    """What opening gives beside the table's records: the slice's length, the figures, and the layout that it was told."""

    length: int
    figures: model.Figures
    layout: int = 0

    def copy(self):
        return Handle(self.length, replace(self.figures), self.layout)


def no_handle():
    """The handle of a refused opening: all zeroes."""
    return Handle(0, model.Figures(0, 0, 0, 0, 0, 0, 0, 0, 0))


def handle_of(opened, length):
    """The handle that this opening of a slice of that length gives."""
    if opened.number:
        return no_handle()
    return Handle(length, replace(opened.figures), opened.layout)


def refusal(call, arena, handle, table, lane=0, sector=0, length=0):
    """The first number of the call's order that applies, or 0; length is the sector buffer's."""
    for number in ORDER[call]:
        if applies(number, arena, handle, table, lane, sector, length):
            return abs(number)
    return 0


def applies(number, arena, handle, table, lane, sector, length):
    """Whether this row of the table of answers applies."""
    f = handle.figures
    if number == 16:
        return bad_handle(handle, len(arena))
    if number == 21:
        return len(table) < f.lanes
    if number == -16:
        return any(bad_record(f, record) for record in table[: f.lanes])
    if number == 9:
        return sector >= f.sectors
    if number == 10:
        return length != f.size
    if number == 11:
        return lane >= f.lanes
    if number == 12:
        return table[lane].busy
    if number == 13:
        return any(record.busy and record.sector == sector for record in others(f, table, lane))
    if number == 14:
        return not table[lane].busy
    word = map_word(arena, f, sector)
    if number == 7:
        return word >> 30 != 0 and word & 0x3FFFFFFF >= f.blocks
    if number == 18:
        return model.sloppy_word(word)
    return word & DATA_WORD == ERROR


def others(f, table, lane):
    """The records of all the lanes but this one."""
    return [record for other, record in enumerate(table[: f.lanes]) if other != lane]


def bad_handle(handle, length):
    """Whether a figure of the handle or its layout is out of range, or the slice has another length."""
    f = handle.figures
    if not model.layout_allowed(handle.layout):
        return True
    return handle.length != length or not model.length_allowed(length) or not model.figures_allowed(f, length)


def bad_record(f, record):
    busy, block, half, sequence, sector, old, made = record
    return (
        block >= f.blocks
        or old >= f.blocks
        or half > 1
        or not 1 <= sequence <= 3
        or sector >= f.sectors
        or made >= f.size // 4 + 5
        or busy > 1
    )


def map_word(arena, f, sector):
    return struct.unpack_from("<I", arena, f.map + 4 * sector)[0]


def put(arena, offset, value):
    """Makes one 4-byte store."""
    struct.pack_into("<I", arena, offset, value)


def read(arena, handle, table, sector, buffer):
    """Fills the buffer with the block's bytes or with zeroes."""
    number = refusal("read", arena, handle, table, 0, sector, len(buffer))
    if number == 0:
        f = handle.figures
        word = map_word(arena, f, sector)
        place = f.data + f.internal * model.block_of(sector, word)
        buffer[:] = arena[place : place + f.size] if word & DATA_WORD == DATA_WORD else bytes(f.size)
    return number


def started(arena, f, record, sector):
    """The record of an idle lane once a write to that sector has started on it."""
    old = model.block_of(sector, map_word(arena, f, sector))
    return Record(1, record.block, record.half, record.sequence, sector, old, 0)


def start(arena, handle, table, lane, sector):
    """Changes the lane's record and stores nothing."""
    number = refusal("start", arena, handle, table, lane, sector)
    if number == 0:
        table[lane] = started(arena, handle.figures, table[lane], sector)
    return number


def store(f, layout, lane, record, buffer):
    """The (offset, value) of the one store that the next step of a write in flight makes."""
    k, words = record.made, f.size // 4
    if k < words:
        return f.data + f.internal * record.block + 4 * k, int.from_bytes(buffer[4 * k : 4 * k + 4], "little")
    if k < words + 4:
        part = k - words
        return model.half_start(f, layout, lane, record.half) + 4 * part, (record.sector, record.old, record.block, record.sequence)[part]
    return f.map + 4 * record.sector, DATA_WORD + record.block


def stepped(f, record):
    """The record after one more store: after the last the lane is idle and its old block is free."""
    busy, block, half, sequence, sector, old, made = record
    if made + 1 < f.size // 4 + 5:
        return Record(busy, block, half, sequence, sector, old, made + 1)
    return Record(0, old, 1 - half, model.successor(sequence), 0, 0, 0)


def step(arena, handle, table, lane, buffer):
    """Makes exactly one store."""
    number = refusal("step", arena, handle, table, lane, 0, len(buffer))
    if number == 0:
        f, record = handle.figures, table[lane]
        put(arena, *store(f, handle.layout, lane, record, buffer))
        table[lane] = stepped(f, record)
    return number


def whole(arena, handle, table, lane, sector, buffer):
    """The list of (offset, value) that a whole write stores, and the lane's record after it; nothing is changed."""
    f = handle.figures
    record, stores = started(arena, f, table[lane], sector), []
    while record.busy:
        stores.append(store(f, handle.layout, lane, record, buffer))
        record = stepped(f, record)
    return stores, record


def write(arena, handle, table, lane, sector, buffer):
    """A start and all steps in one call, refused before any store."""
    number = refusal("write", arena, handle, table, lane, sector, len(buffer))
    if number == 0:
        stores, table[lane] = whole(arena, handle, table, lane, sector, buffer)
        for offset, value in stores:
            put(arena, offset, value)
    return number


def lane_record(arena, handle, table, lane, record):
    """Copies a lane's record into the seven words of a list."""
    number = refusal("lane_record", arena, handle, table, lane)
    if number == 0:
        record[:] = table[lane]
    return number


def next_store(arena, handle, table, lane):
    """The number, and with 0 the byte offset of the store that the lane's next step makes."""
    number = refusal("next_store", arena, handle, table, lane)
    if number:
        return number, None
    f = handle.figures
    return 0, store(f, handle.layout, lane, table[lane], bytes(f.size))[0]

"""Arenas of the Linux driver, which have 256 lanes and 16 MiB: two that it made and wrote, and fresh ones as it makes them in all five sector sizes.

The library opens them, reads every sector and writes some; what must come is told by the driver's own writes, by the digests of what it read back,
and by places worked out by hand. After each store that tells, every byte of the arena and every sector is compared.
Run as a program it tries the library.
"""
import hashlib
import lzma
import pathlib
import random
import struct
import sys
import time
from typing import NamedTuple

import library
import model
from pair import Difference, first_difference

HERE = pathlib.Path(__file__).resolve().parent / "linux"
LENGTH, LANES, FLOG, COPY = 16777216, 256, 16756736, 16773120


class Worked(NamedTuple):
    """The figures that the driver works out for 16 MiB: the flog is just before the copy, the map just before the flog, the data begin at 4,096."""

    size: int
    internal: int
    sectors: int
    blocks: int
    map: int


# The driver leaves 16,748,544 bytes to blocks and map words: 16,777,216 less the info blocks, 16,384 bytes of flog and a page. By 512 + 4 these are
# 32,458 blocks, by 576 + 4 they are 28,876, by 4,096 + 4 they are 4,085, by 4,160 + 4 they are 4,022; 256 fewer are sectors. Their words have 32, 28
# and, in the last two, 4 pages.
ROWS = (
    Worked(512, 512, 32202, 32458, 16625664),
    Worked(520, 576, 28620, 28876, 16642048),
    Worked(528, 576, 28620, 28876, 16642048),
    Worked(4096, 4096, 3829, 4085, 16740352),
    Worked(4104, 4160, 3766, 4022, 16740352),
)
# The digests of what the driver read back, the first 512 bytes of each sector in order.
DIGESTS = {512: "cd3e341c356e532c6b3b4a3fb34af711", 520: "7955d54cb2c8d532a7e31a3977d6cf66"}
# Lane 0 has made all of the driver's writes: its halves of sequence 1 and 3 name the free block 47 in the newer one, which is the first.
WRITTEN_LANE = (0, 47, 1, 2, 0, 0, 0)


def demand(holds, what):
    if not holds:
        raise Difference("not so: " + what)


def same(what, ours, theirs):
    if ours != theirs:
        raise Difference("%s: another byte at %d" % (what, first_difference(ours, theirs)))


def kept(size):
    """The kept arena of that sector size."""
    return lzma.decompress((HERE / ("linux-6.1-%d.arena.xz" % size)).read_bytes())


def fresh(row, rng):
    """An arena as the driver makes it: zeroes as map words, a first half for each lane, and here anything in the blocks."""
    figures = model.Figures(row.size, row.sectors, row.internal, row.blocks, LANES, 4096, row.map, FLOG, COPY)
    arena = bytearray(4096) + rng.randbytes(row.blocks * row.internal)
    arena += bytes(LENGTH - len(arena))
    arena[:4096] = arena[COPY:] = model.info_block(figures, rng.randbytes(16), rng.randbytes(16))
    for lane in range(LANES):
        struct.pack_into("<4I", arena, FLOG + 64 * lane, lane, row.sectors + lane, row.sectors + lane, 1)
    return bytes(arena)


class Opened:
    """A copy of an arena that the library has opened, with a table that just suffices."""

    def __init__(self, lib, image, row, layout=16, mended=0):
        self.lib, self.row, self.arena = lib, row, bytearray(image)
        self.handle, self.table = bytearray(b"\x5A" * 64), bytearray(b"\x5A" * 28 * LANES)
        answer = lib.open(self.arena, bytearray(row.blocks), layout, self.table, self.handle)
        demand(answer == (0, mended), "sectors of %d bytes open in layout %d and %d are mended, not %s" % (row.size, layout, mended, answer))
        starts, figures = (LENGTH, 4096, row.map, FLOG, COPY), (row.size, row.sectors, row.internal, row.blocks, LANES, layout)
        demand(self.handle == struct.pack("<5Q6I", *starts, *figures), "the handle tells the driver's figures")

    def record(self, lane):
        return struct.unpack_from("<7I", self.table, 28 * lane)

    def call(self, name, *arguments):
        return getattr(self.lib, name)(self.arena, self.handle, self.table, *arguments)

    def sectors(self):
        """The bytes of all sectors, one after another."""
        numbers, contents = self.lib.read_all(self.arena, self.handle, self.table, self.row.size, self.row.sectors)
        demand(numbers == {0}, "every sector of %d bytes is read" % self.row.size)
        return contents


# Openings that are refused.


def try_refused(lib, image, row, layout_32):
    """Openings with too little lent and in other layouts, the number in layout 32 being told: each leaves arena and table as they were."""
    for room, layout, records, due in (
        (row.blocks, 17, 256, 16),
        (row.blocks - 1, 16, 0, 5),
        (row.blocks, 16, 255, 21),
        (row.blocks, 32, 16, 21),
        (row.blocks, 32, 256, layout_32),
    ):
        arena, work, table = bytearray(image), bytearray(b"\x5A" * (room + 9)), bytearray(b"\x5A" * 28 * records)
        view = memoryview(work)[:room]
        demand(lib.cut_open(arena, view, layout, table, 1) == (due, 0), "%d bytes, layout %d, %d records: %d" % (room, layout, records, due))
        cleared = 0 if due in (16, 5) else row.blocks
        demand(work == bytes(cleared) + b"\x5A" * (room + 9 - cleared), "the work buffer is cleared up to the blocks, or not at all")
        demand(arena == image and not table.strip(b"\x5A"), "a cut opening leaves the arena and the table")
        handle = bytearray(b"\x5A" * 64)
        if due:
            demand(lib.open(arena, view, layout, table, handle) == (due, 0) and not any(handle), "an opening is refused with %d too" % due)
            demand(arena == image and not table.strip(b"\x5A"), "a refused opening leaves the arena and the table")


# Writes.


def stores_of(row, lane, record, sector, old, buffer):
    """The places and values of a write's stores in layout 16, by the lane's record."""
    _, free, half, sequence, *_ = record
    block, pair = 4096 + row.internal * free, FLOG + 64 * lane + 16 * half
    words = struct.unpack("<%dI" % (row.size // 4), buffer)
    flog = zip(range(pair, pair + 16, 4), (sector, old, free, sequence))
    return [*zip(range(block, block + row.size, 4), words), *flog, (row.map + 4 * sector, 0xC0000000 + free)]


def old_block(row, arena, sector):
    word = struct.unpack_from("<I", arena, row.map + 4 * sector)[0]
    return word & 0x3FFFFFFF if word else sector


def try_write(opened, contents, lane, sector, buffer):
    """A write by steps, cut after the data, after the third word of the half, after the sequence word and at its end; contents has all sectors."""
    row, words, due = opened.row, opened.row.size // 4, bytearray(opened.arena)
    stores = stores_of(row, lane, opened.record(lane), sector, old_block(row, due, sector), buffer)
    demand(opened.call("start", lane, sector) == 0 and opened.arena == due, "a start is accepted and stores nothing")
    for k, (place, value) in enumerate(stores, 1):
        if k in (1, words, words + 1, words + 4, words + 5):
            demand(opened.call("next_store", lane) == (0, place), "store %d of lane %d is at %d" % (k, lane, place))
        demand(opened.call("step", lane, buffer) == 0, "step %d of lane %d is accepted" % (k, lane))
        struct.pack_into("<I", due, place, value)
        if k == words + 4:
            contents[row.size * sector : row.size * (sector + 1)] = buffer
        if k in (words, words + 3, words + 4, words + 5):
            same("%d stores of lane %d" % (k, lane), due, opened.arena)
            try_cut(opened, contents, int(k == words + 4), stores[-1])
    demand(k == words + 5 and opened.call("step", lane, buffer) == 14, "a write has %d stores" % (words + 5))


def try_cut(opened, contents, mended, last):
    """A cut there: cut openings count the pending lane, an opening mends it by the last store, and every sector is old or new as it must be."""
    lib, row, arena, table = opened.lib, opened.row, bytearray(opened.arena), bytearray(28 * LANES)
    for k, count in ((0, mended), (1, mended), (1, 0)):
        demand(lib.cut_open(arena, bytearray(row.blocks), 16, table, k) == (0, count), "a cut opening counts %d" % count)
    demand(not any(table), "a cut opening leaves the table")
    after, due = Opened(lib, opened.arena, row, mended=mended), bytearray(opened.arena)
    if mended:
        struct.pack_into("<I", due, *last)
    same("an opening after a cut", due, after.arena)
    same("cut openings after a cut", due, arena)
    same("the sectors after a cut", contents, after.sectors())


def try_writes(lib, image, row, contents, rng):
    """Writes of lanes 0, 7 and 255, by steps and whole, on sectors that were written before, never were, the last one, and one again."""
    opened, last = Opened(lib, image, row), row.sectors - 1
    for lane in (7, 255):
        due = row.sectors + lane
        demand(opened.record(lane) == (0, due, 1, 2, 0, 0, 0), "block %d is free in lane %d" % (due, lane))
    for lane, sector in ((255, last), (0, 33), (7, 60)):
        try_write(opened, contents, lane, sector, bytearray(rng.randbytes(row.size)))
    for lane, sector in ((7, 33), (255, 0), (0, last), (255, last), (0, 60)):
        due, buffer = bytearray(opened.arena), rng.randbytes(row.size)
        for place, value in stores_of(row, lane, opened.record(lane), sector, old_block(row, due, sector), buffer):
            struct.pack_into("<I", due, place, value)
        demand(opened.call("write", lane, sector, bytearray(buffer)) == 0, "a whole write of lane %d is accepted" % lane)
        same("a whole write of lane %d" % lane, due, opened.arena)
        contents[row.size * sector : row.size * (sector + 1)] = buffer
    same("the sectors after all writes", contents, opened.sectors())
    demand(opened.call("start", 256, 0) == 11 and opened.call("start", 0, row.sectors) == 9, "lane 256 and sector %d are not there" % row.sectors)
    same("the sectors after opening again", contents, Opened(lib, opened.arena, row).sectors())
    try_refused(lib, bytes(opened.arena), row, 18)


# The arenas.


def driver_writes(row):
    """What the driver's 60 writes leave: write i is of bytes i + 1, to sector i x 37 mod 50."""
    contents = bytearray(512 * row.sectors)
    for i in range(60):
        sector = i * 37 % 50
        contents[512 * sector : 512 * (sector + 1)] = bytes([i + 1]) * 512
    return contents


def try_kept(lib, row):
    """A kept arena: it opens in layout 16 alone, its sectors are those that the driver read back, and it is written."""
    image = kept(row.size)
    demand(len(image) == LENGTH and image[:4096] == image[COPY:], "the arena has 16 MiB and two equal info blocks")
    try_refused(lib, image, row, 18)
    opened = Opened(lib, image, row)
    demand(opened.record(0) == WRITTEN_LANE and opened.arena == image, "lane 0 is as the driver left it, and nothing is mended")
    contents = bytearray(opened.sectors())
    told = b"".join(contents[at : at + 512] for at in range(0, len(contents), row.size))
    demand(hashlib.md5(told).hexdigest() == DIGESTS[row.size], "the sectors have the digest of what the driver read back")
    same("the driver's writes", driver_writes(row), told)
    try_writes(lib, image, row, contents, random.Random(row.size))


def try_fresh(lib, row):
    """A fresh arena as the driver makes it: it opens in both layouts, every sector is zeroes, and it is written."""
    rng = random.Random(row.size + 1)
    image = fresh(row, rng)
    try_refused(lib, image, row, 0)
    opened = Opened(lib, image, row, 32)
    demand(opened.record(0) == (0, row.sectors, 1, 2, 0, 0, 0) and opened.arena == image, "a fresh lane has its own block, and nothing is mended")
    same("fresh sectors", bytes(row.size * row.sectors), opened.sectors())
    try_writes(lib, image, row, bytearray(row.size * row.sectors), rng)


def run(lib):
    """Tries the kept arenas and the fresh ones; gives how many were tried, and the fault that ended it, if one did."""
    count = 0
    try:
        for row in ROWS:
            if row.size in DIGESTS:
                try_kept(lib, row)
                count += 1
            try_fresh(lib, row)
            count += 1
    except Difference as fault:
        return count, "sectors of %d bytes: %s" % (row.size, fault)
    return count, None


def main():
    began = time.process_time()
    count, fault = run(library.built())
    print("%d arenas, fault: %s, %.1f s" % (count, fault, time.process_time() - began))
    return 1 if fault else 0


if __name__ == "__main__":
    sys.exit(main())

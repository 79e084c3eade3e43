"""A module behind a write-back cache: writes by steps with the flushes and fences that docs/HOSTS.md asks for, cut at any moment.

The cache is simulated: a store changes what a program sees, and reaches the medium when its line is flushed or when the cache likes; a cut keeps
any set of the words that have not. Lanes and sectors are used again and again, which goes beyond the lists of demand 3. Each flush left out must
lead to a fault, or this would find none.
"""
import random
import struct

import book
import library

SIZE, SECTORS, LANES, LENGTH, LAYOUT = 512, 5, 2, 20480, 32
WORDS = SIZE // 4
HISTORIES = 100
# The flushes of docs/HOSTS.md: of data and three words, of the sequence word, and of the map word before its lane or its sector is used again.
FLUSHES = "data", "sequence", "map before lane", "map before sector"


class Fault(Exception):
    """The medium does not open, or a sector is neither old nor new."""


class Module:
    """What a program sees of an arena, what the medium has, and the words that are on their way."""

    def __init__(self, lib, seed, left_out):
        self.lib, self.rng, self.left_out = lib, random.Random(seed), left_out
        self.seen, self.dirty = bytearray(LENGTH), set()
        assert lib.make(self.seen, SIZE, SECTORS, LANES, bytearray(16), bytearray(16)) == 0
        self.medium = bytearray(self.seen)
        self.table, self.handle = bytearray(LANES * library.RECORD_BYTES), bytearray(library.HANDLE_BYTES)
        # What each sector may hold after a cut; the writes in flight and, by the offset of their map words, those not flushed since.
        self.contents = [{bytes(SIZE)} for _ in range(SECTORS)]
        self.flying, self.mapped = {}, {}

    def reach(self, offsets):
        """These words are on the medium."""
        for offset in offsets & self.dirty:
            self.medium[offset : offset + 4] = self.seen[offset : offset + 4]
        self.dirty -= offsets

    def flush(self, name, start, length):
        """Flushes and fences, unless this one is left out."""
        if name != self.left_out:
            self.reach(set(range(start, start + length, 4)))

    def open(self):
        """Opens what the medium has; a cut may have come before."""
        self.seen, self.dirty = bytearray(self.medium), set()
        number, _ = self.lib.open(self.seen, bytearray(SECTORS + LANES), LAYOUT, self.table, self.handle)
        if number:
            raise Fault("the medium is answered with %d" % number)
        self.medium = bytearray(self.seen)
        self.figures = library.handle_from(self.handle).figures
        free = [record.block for record in library.table_from(self.table)]
        if not book.each_block_once(self.seen, self.figures, free):
            raise Fault("mapped and free blocks are not every block once")
        for sector, allowed in enumerate(self.contents):
            buffer = bytearray(SIZE)
            if self.lib.read(self.seen, self.handle, self.table, sector, buffer) or bytes(buffer) not in allowed:
                raise Fault("sector %d is neither old nor new" % sector)
            self.contents[sector] = {bytes(buffer)}
        self.flying, self.mapped = {}, {}

    def cut(self):
        """Keeps any set of the words that are on their way, often nearly all or nearly none."""
        part = self.rng.choice((0.1, 0.5, 0.9))
        self.reach({offset for offset in self.dirty if self.rng.random() < part})

    def start(self, lane):
        sector = self.rng.randrange(SECTORS)
        if sector not in (write.sector for write in self.flying.values()):
            assert self.lib.start(self.seen, self.handle, self.table, lane, sector) == 0
            self.flying[lane] = book.Write(lane, sector, SIZE)
            self.flying[lane].contents[:] = self.rng.randbytes(SIZE)

    def step(self, lane):
        """One step; before a sequence word the map words of the last writes on its lane and to its sector are flushed."""
        write = self.flying[lane]
        if write.tally == WORDS + 3:
            for offset, before in list(self.mapped.items()):
                for name, same in (("map before lane", before.lane == lane), ("map before sector", before.sector == write.sector)):
                    if same:
                        self.flush(name, offset, 4)
        number, offset = self.lib.next_store(self.seen, self.handle, self.table, lane)
        number |= self.lib.step(self.seen, self.handle, self.table, lane, write.contents)
        assert number == 0
        write.tally += 1
        self.dirty.add(offset)
        if write.tally == WORDS + 4:
            self.contents[write.sector].add(bytes(write.contents))
        return offset

    def stepped(self, lane, offset):
        """What comes after a step: the flushes of data and sequence word, and what the sector may hold from then on."""
        write, flog = self.flying[lane], self.figures.flog + 64 * lane
        if write.tally == WORDS + 3:
            block = struct.unpack_from("<I", self.seen, offset)[0]
            self.flush("data", book.block_at(self.figures, block), SIZE)
            self.flush("data", flog, 64)
        elif write.tally == WORDS + 4:
            self.flush("sequence", flog, 64)
            self.contents[write.sector] = {bytes(write.contents)}
        elif write.tally == WORDS + 5:
            self.mapped[offset] = self.flying.pop(lane)

    def moments(self):
        """Writes on all lanes, by bursts of steps, for ever; the power may be cut before and after what follows a step."""
        while True:
            lane = self.rng.randrange(LANES)
            if lane not in self.flying:
                self.start(lane)
            for _ in range(self.rng.choice((1, 2, WORDS))):
                if lane in self.flying:
                    offset = self.step(lane)
                    yield
                    self.stepped(lane, offset)
                    yield

    def run(self):
        """Some writes, cut and opened again, several times over; the cache lets a word go now and then."""
        for _ in range(6):
            self.open()
            for _ in zip(range(self.rng.randrange(12 * WORDS)), self.moments()):
                if self.dirty and self.rng.random() < 0.01:
                    self.reach({self.rng.choice(sorted(self.dirty))})
            self.cut()
        self.open()


def first_fault(lib, left_out=None):
    """The first history that goes wrong and its fault, if one does."""
    for seed in range(HISTORIES):
        try:
            Module(lib, seed, left_out).run()
        except Fault as fault:
            return seed, str(fault)
    return None


def run(lib):
    """What is wrong, as lines: a fault with all flushes made, or none with one left out."""
    wrong, fault = [], first_fault(lib)
    if fault:
        wrong.append("history %d of a write-back cache: %s" % fault)
    return wrong + ["a write-back cache: no fault without the flush of " + name for name in FLUSHES if first_fault(lib, name) is None]


if __name__ == "__main__":
    built = library.built()
    print(first_fault(built), {name: first_fault(built, name) for name in FLUSHES})

"""What the rules promise of a history, told without the calls: the plain row of sectors and the plain book of a list.

Nothing here uses the model of the calls, so a mistake that the model and the library share is found too.
"""
import operator
import struct

# The bytes of a block by those of a sector, each pair told and not rounded.
BLOCK_BYTES = {512: 512, 520: 576, 528: 576, 4096: 4096, 4104: 4160}


class Write:
    """A write that was started: its bytes as its steps lent them, and its tally of stores."""

    def __init__(self, lane, sector, size):
        self.lane, self.sector, self.tally = lane, sector, 0
        self.contents = bytearray(size)


def reading(arena, f, sector):
    """The number that a read of the sector answers, and the bytes it gives if that is 0."""
    word = struct.unpack_from("<I", arena, f.map + 4 * sector)[0]
    zero, error = word >> 31 & 1, word >> 30 & 1
    if 0 < word < 2**30:
        return 18, None
    if error and not zero:
        return 15, None
    if not error:
        return 0, bytes(f.size)
    place = block_at(f, word & 0x3FFFFFFF)
    return 0, bytes(arena[place : place + f.size])


def block_at(f, block):
    return f.data + BLOCK_BYTES[f.size] * block


def rests(f, length):
    """Takes out of an arena of that length the bytes of each block behind those of a sector, which no call may change."""
    block = BLOCK_BYTES.get(f.size, f.size)
    ends = range(f.data + block, min(f.data + block * f.blocks, length) + 1, block) if block > f.size else ()
    places = [slice(end - block + f.size, end) for end in ends]
    return operator.itemgetter(*places) if places else lambda arena: ()


def nothing_sloppy(arena, f, layout):
    """Whether every map word below 2^30 is zero, and so is every byte of a lane that is in neither of its halves."""
    words = struct.unpack_from("<%dI" % f.sectors, arena, f.map)
    rests = [[arena[lane + byte] for byte in range(64) if byte >= 16 and byte - layout not in range(16)] for lane in lanes_at(f)]
    return not any(0 < word < 2**30 for word in words) and not any(map(any, rests))


def lanes_at(f):
    return range(f.flog, f.flog + 64 * f.lanes, 64)


def mapped_blocks(arena, f):
    words = struct.unpack_from("<%dI" % f.sectors, arena, f.map)
    return [word & 0x3FFFFFFF if word & 0xC0000000 else sector for sector, word in enumerate(words)]


def each_block_once(arena, f, free):
    return sorted(mapped_blocks(arena, f) + free) == list(range(f.blocks))


class Row:
    """The plain row of sectors: what a read of each gives, and the writes in flight by lane."""

    def __init__(self, arena, f):
        self.words, self.size = f.size // 4, f.size
        self.sectors = [reading(arena, f, sector) for sector in range(f.sectors)]
        self.flying = {}

    def start(self, lane, sector):
        self.flying[lane] = Write(lane, sector, self.size)
        return self.flying[lane]

    def step(self, lane, buffer):
        """Counts a store; the last one makes the sector new for readers."""
        write, k = self.flying[lane], 4 * self.flying[lane].tally
        if k < self.size:
            write.contents[k : k + 4] = buffer[k : k + 4]
        write.tally += 1
        if write.tally == self.words + 5:
            self.finish(lane)

    def whole(self, lane, buffer, kept):
        """Counts the first stores, or all, of a whole write just started."""
        write = self.flying[lane]
        write.contents[:], write.tally = buffer, kept
        if kept == self.words + 5:
            self.finish(lane)

    def finish(self, lane):
        write = self.flying.pop(lane)
        self.sectors[write.sector] = 0, bytes(write.contents)

    def cut(self):
        """Loses the writes in flight whose sequence word was not stored, makes the others new, and counts those."""
        pending = [lane for lane, write in self.flying.items() if write.tally == self.words + 4]
        for lane in pending:
            self.finish(lane)
        self.flying.clear()
        return len(pending)


class Book:
    """The plain book of a list: the arena it begins with, all lanes idle, and the writes started since."""

    def __init__(self, arena, f, layout):
        self.first, self.f, self.layout = bytes(arena), f, layout
        self.full = f.size // 4 + 5
        self.writes = []
        self.next = [self.next_of(lane) for lane in range(f.lanes)]

    def next_of(self, lane):
        """The lane's free block, next half and next sequence, read as in opening."""
        at = self.f.flog + 64 * lane
        words = struct.unpack_from("<4I", self.first, at) + struct.unpack_from("<4I", self.first, at + self.layout)
        turns = {(1, 0): 0, (2, 0): 0, (3, 0): 0, (0, 1): 1, (0, 2): 1, (0, 3): 1}
        turns.update({(2, 1): 0, (3, 2): 0, (1, 3): 0, (1, 2): 1, (2, 3): 1, (3, 1): 1})
        newer = turns[words[3], words[7]]
        return words[4 * newer + 1], 1 - newer, {1: 2, 2: 3, 3: 1}[words[4 * newer + 3]]

    def fits(self, lane, sector):
        """Whether a write there keeps the list's writes on different lanes and sectors."""
        return all(write.lane != lane and write.sector != sector for write in self.writes)

    def in_flight(self, lane):
        return any(write.lane == lane and write.tally < self.full for write in self.writes)

    def answer(self, call, lane, sector, length):
        """The number that the table gives a call of the list, by tallies alone."""
        if lane >= self.f.lanes:
            return 11
        if call in ("step", "next_store"):
            return 14 if not self.in_flight(lane) else 10 if call == "step" and length != self.f.size else 0
        if call == "lane_record":
            return 0
        if self.in_flight(lane):
            return 12
        if sector >= self.f.sectors:
            return 9
        if call == "write" and length != self.f.size:
            return 10
        return 13 if any(write.sector == sector and write.tally < self.full for write in self.writes) else 0

    def old_block(self, sector):
        word = struct.unpack_from("<I", self.first, self.f.map + 4 * sector)[0]
        return word & 0x3FFFFFFF if word & 0xC0000000 else sector

    def stores(self, write):
        """All the stores of a write, worked out from its bytes and the first arena."""
        f = self.f
        free, half, sequence = self.next[write.lane]
        block, pair = block_at(f, free), f.flog + 64 * write.lane + (self.layout if half else 0)
        stores = [(block + 4 * k, word) for k, (word,) in enumerate(struct.iter_unpack("<I", write.contents))]
        stores += zip(range(pair, pair + 16, 4), (write.sector, self.old_block(write.sector), free, sequence))
        return stores + [(f.map + 4 * write.sector, 0xC0000000 | free)]

    def next_offset(self, lane):
        """Where the next step of the lane's write in flight stores."""
        write = next(write for write in self.writes if write.lane == lane and write.tally < self.full)
        return self.stores(write)[write.tally][0]

    def arena(self, rng):
        """The first arena with each write's first stores put in, in any order."""
        kept = [store for write in self.writes for store in self.stores(write)[: write.tally]]
        assert len({offset for offset, _ in kept}) == len(kept)
        rng.shuffle(kept)
        arena = bytearray(self.first)
        for offset, value in kept:
            struct.pack_into("<I", arena, offset, value)
        return arena

    def pending(self):
        return [write for write in self.writes if write.tally == self.full - 1]

    def mended(self, arena):
        """The arena that an opening must leave: just the map word of each pending write is stored."""
        arena = bytearray(arena)
        for write in self.pending():
            struct.pack_into("<I", arena, *self.stores(write)[-1])
        return arena

    def lanes_after_opening(self):
        """Free block, next half and next sequence of every lane after a cut and an opening."""
        lanes = list(self.next)
        for write in self.writes:
            if write.tally >= self.full - 1:
                _, half, sequence = self.next[write.lane]
                lanes[write.lane] = self.old_block(write.sector), 1 - half, {1: 2, 2: 3, 3: 1}[sequence]
        return lanes

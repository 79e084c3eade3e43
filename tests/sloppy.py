"""Rule 18: arenas that are sloppy, alone or beside another fault, and what no rule judges; maps that become sloppy under a live handle.

The numbers that must come are told here from the rules, so that a mistake that the model and the library share is found too.
"""
import random
import struct
from dataclasses import replace

import arenas
import book
import calls
import forged
import library
import model
import random_arenas
from pair import Pair

AMPLE = 2**15
SIZES = ((512, 5, 3), (520, 20, 4), (512, 50, 40), (528, 8, 6), (4104, 4, 3))
# What opening judges after the work buffer's length.
AFTER_5 = (0, 6, 7, 18, 8)

# What makes the fresh arena sloppy in a layout: a word or padding, at both ends, or both at once.
SLOPPY = (
    lambda arena, layout: arenas.mapped(arena, 0, 1),
    lambda arena, layout: arenas.mapped(arena, 59, 0x3FFFFFFF),
    lambda arena, layout: arenas.padded(arena, 0, {16: 32, 32: 16}[layout], 1),
    lambda arena, layout: arenas.padded(arena, 3, 63, 0x80),
    lambda arena, layout: arenas.padded(arenas.mapped(arena, 7, 5), 1, {16: 47, 32: 31}[layout], 0xFF),
)

# Other faults of the fresh arena in a layout, with their numbers.
FAULTS = (
    (1, lambda arena, layout: arena[:-1]),
    (2, lambda arena, layout: arenas.damaged(arena, 20, arenas.COPY + 20)),
    (3, lambda arena, layout: arenas.with_blocks(arena, version=(1, 1))),
    (3, lambda arena, layout: arena[:-4096]),
    (4, lambda arena, layout: arenas.with_blocks(arena, flags=1)),
    (6, lambda arena, layout: arenas.half(arena, 0, 0, 0, 60, 60, 0, layout)),
    (6, lambda arena, layout: arenas.half(arena, 3, 1, 0, 0, 0, 4, layout)),
    (6, lambda arena, layout: arenas.half(arena, 3, 1, 60, 7, 63, 2, layout)),
    (6, lambda arena, layout: arenas.half(arena, 1, 1, 7, 64, 61, 2, layout)),
    (6, lambda arena, layout: arenas.half(arena, 1, 1, 7, 7, 64, 2, layout)),
    (7, lambda arena, layout: arenas.mapped(arena, 1, 0x40000040)),
    (7, lambda arena, layout: arenas.mapped(arena, 30, 0xBFFFFFFF)),
    (7, lambda arena, layout: arenas.mapped(arena, 58, 0xC0000040)),
    (8, lambda arena, layout: arenas.mapped(arena, 5, 0xC0000006)),
    (8, lambda arena, layout: arenas.half(arena, 0, 1, 7, 61, 61, 2, layout)),
    (8, lambda arena, layout: arenas.half(arenas.half(arena, 0, 1, 7, 7, 60, 2, layout), 1, 1, 7, 7, 61, 2, layout)),
)


# Arenas, each as what it shows, the number that its opening must answer, its bytes and its figures.


def made(rng, layout):
    """A made arena, whose map words are all zero."""
    sizes = rng.choice(SIZES)
    return random_arenas.made(rng, *sizes), model.made_figures(*sizes)


def valid(rng, layout):
    return random_arenas.valid(rng, layout, SIZES)


def gapped(rng, size, sectors, lanes):
    """Figures with a gap before every part."""
    f = model.made_figures(size, sectors, lanes)
    return replace(f, data=f.data + 4096, map=f.map + 8192, flog=f.flog + 12288, copy=f.copy + 16384)


def with_padding(rng, layout):
    """Each byte of padding not zero, alone, on the first, a middle and the last lane."""
    for offset in random_arenas.PADDING[layout]:
        for place in ("the first", "a middle", "the last"):
            arena, f = rng.choice((made, valid))(rng, layout)
            lane = {"the first": 0, "a middle": f.lanes // 2, "the last": f.lanes - 1}[place]
            arena[f.flog + 64 * lane + offset] = rng.randint(1, 255)
            yield "byte %d of %s lane" % (offset, place), 18, arena, f


def with_word(rng, layout):
    """Sloppy words in the first, the last and any sector, each low bit alone, a sector's own number, and a sector whose write is pending."""
    for word in (1, 5, 0x3FFFFFFF, rng.randrange(1, 2**30)):
        for place in ("the first", "any", "the last"):
            for base in (made, valid):
                arena, f = base(rng, layout)
                sector = {"the first": 0, "any": rng.randrange(f.sectors), "the last": f.sectors - 1}[place]
                yield "word %#x of %s sector" % (word, place), 18, put(arena, f, sector, word), f
    for bit in range(30):
        arena, f = made(rng, layout)
        yield "bit %d of a word" % bit, 18, put(arena, f, rng.randrange(f.sectors), 1 << bit), f
    for place in (1, 0, -1):
        arena, f = made(rng, layout)
        sector = place % f.sectors or rng.randrange(1, f.sectors)
        yield "a sector's own number", 18, put(arena, f, sector, sector), f
    for word in (1, 0x3FFFFFFF):
        arena, f = made(rng, layout)
        lane, sector = rng.randrange(f.lanes), rng.randrange(f.sectors)
        struct.pack_into("<4I", arena, f.flog + 64 * lane + layout, sector, sector, f.sectors + lane, 2)
        yield "the sector of a pending lane", 18, put(arena, f, sector, word), f


def put(arena, f, sector, word):
    calls.put(arena, f.map + 4 * sector, word)
    return arena


def unjudged(rng, layout):
    """Anything in one part that no rule judges and zeroes in the others, anything in all, and unnamed info bytes: all of these open."""
    for sizes in SIZES:
        for chosen in ("before the data", "behind a sector", "behind the data", "behind the map", "behind the flog", "everywhere"):
            arena, f = random_arenas.valid(rng, layout, (sizes,), gapped)
            for part, start, end in parts(f):
                # Every word of these bytes would be sloppy in a map.
                arena[start:end] = bytes(rng.choices(range(1, 64), k=end - start)) if chosen in (part, "everywhere") else bytes(end - start)
            yield "anything " + chosen, 0, arena, f
        arena, f = random_arenas.valid(rng, layout, (sizes,))
        arena[:4096] = arena[-4096:] = model.info_block(f, rng.randbytes(16), rng.randbytes(16), unnamed=rng.randbytes(3968))
        yield "anything in unnamed info bytes", 0, arena, f


def parts(f):
    """The bytes between the parts of an arena, and those of each block behind its sector."""
    yield "before the data", 4096, f.data
    yield from (("behind a sector", at + f.size, at + f.internal) for at in range(f.data, f.data + f.blocks * f.internal, f.internal))
    yield "behind the data", f.data + f.blocks * f.internal, f.map
    yield "behind the map", f.map + 4 * f.sectors, f.flog
    yield "behind the flog", f.flog + 64 * f.lanes, f.copy


def two_faults(layout):
    """The fresh arena with each other fault and sloppy in each way: 8 alone gives way to 18."""
    for number, fault in FAULTS:
        for sloppy in SLOPPY:
            yield "18 beside %d" % number, 18 if number == 8 else number, fault(sloppy(arenas.fresh(), layout), layout), arenas.FIGURES


def all_arenas(layout, seed=18):
    rng = random.Random(seed)
    for rows in (with_padding(rng, layout), with_word(rng, layout), unjudged(rng, layout), two_faults(layout)):
        yield from rows


def try_openings(lib, notes):
    """Opens each arena, with a work buffer of I bytes and a shorter one, after cut openings; a refusal leaves the arena."""
    rng = random.Random(1)
    for layout in random_arenas.LAYOUTS:
        for what, number, arena, f in all_arenas(layout):
            pair = Pair(lib, arena, rng, notes)
            for room, k in ((f.blocks - 1, 1), (f.blocks, 0), (f.blocks + 3, 1)):
                demand(pair, what, pair.cut_open(room, layout, k)[0], 5 if room < f.blocks and number in AFTER_5 else number)
            for room in (f.blocks - 1, f.blocks):
                demand(pair, what, pair.open(room, layout)[0], 5 if room < f.blocks and number in AFTER_5 else number)
            check_left(pair, what, number, arena, f, layout)


def check_left(pair, what, number, arena, f, layout):
    """What an opening leaves, told without the model: a work buffer cleared up to I or untouched; after a refusal the arena, and no handle."""
    lent, work, handle = bytearray(arena), bytearray(pair.rng.randbytes(f.blocks + 3)), bytearray(pair.rng.randbytes(library.HANDLE_BYTES))
    due = bytes(f.blocks) + work[f.blocks :] if number in AFTER_5 else bytes(work)
    table = forged.rubbish(pair.rng, f.lanes + 2)
    demand(pair, what, pair.lib.open(lent, work, layout, lent_table := bytearray(table), handle)[0], number)
    if work != due:
        pair.fail("not so: the work buffer ends as the rules say, " + what)
    if number and (lent != arena or any(handle) or lent_table != table):
        pair.fail("not so: a refusal leaves the arena and the table and gives no handle, " + what)


def demand(pair, what, number, due):
    if number != due:
        pair.fail("not so: %s is answered with %d" % (what, due))


def demand_kept(pair, arena, handle, table):
    if (pair.lent, pair.lent_handle, pair.lent_table) != (arena, handle, table):
        pair.fail("not so: a refused call leaves the arena, the handle and the table")


# Calls on one sector whose word is sloppy and that have another fault too.


def try_orders(lib, notes):
    """Every number before 18 in a call's order, by a live handle and by forged ones; a step judges no word."""
    rng = random.Random(2)
    for sizes, layout in zip(SIZES, (16, 32, 16, 32, 16), strict=True):
        pair = Pair(lib, random_arenas.made(rng, *sizes), rng, notes)
        pair.open(AMPLE, layout)
        f = pair.handle.figures
        for lane, sector in ((0, f.sectors - 1), (f.lanes - 1, f.lanes)):
            for number, handle, table in forged.refusing(pair.handle, pair.table, lane, sector):
                copy = pair.aside(handle=handle, table=table)
                copy.put([(f.map + 4 * sector, random_arenas.a_sloppy_word(rng))])
                demand(copy, "a whole write by a forged handle", copy.write(lane, sector, rng.randbytes(f.size)), number)
                demand(copy, "a start by a forged handle", copy.start(lane, sector), number)
                demand(copy, "a read by a forged handle", copy.read(sector, f.size)[0], number if number in (16, 21, 9) else 18)
        pair.start(1, 1)
        pair.put([(f.map + 4 * sector, random_arenas.a_sloppy_word(rng)) for sector in (0, 1, f.sectors)])
        for name, lane, sector, length, number in order_rows(f):
            copy = pair.aside()
            demand(copy, name, copy.perform(name, lane, sector, length), number)
            if number:
                demand_kept(copy, pair.lent, pair.lent_handle, pair.lent_table)
    try_other_map(lib, rng, notes)


def try_other_map(lib, rng, notes):
    """A forged handle with another start of the map, all its figures allowed: the word that lies there is judged."""
    pair = Pair(lib, random_arenas.valid(rng, 32, SIZES, gapped)[0], rng, notes)
    pair.open(AMPLE, 32)
    f, handle = pair.handle.figures, pair.handle.copy()
    handle.figures.map = f.map - 4096
    for sector in (0, f.sectors - 1):
        for here, there, number in ((random_arenas.a_sloppy_word(rng), 0, 0), (0, random_arenas.a_sloppy_word(rng), 18)):
            pair.put([(f.map + 4 * sector, here), (handle.figures.map + 4 * sector, there)])
            for name in ("read", "start", "write"):
                demand(pair, "a %s by another map" % name, pair.aside(handle=handle).perform(name, 0, sector, f.size), number)


def order_rows(f):
    """Calls and their numbers where lane 1 writes sector 1 and the other lanes are idle, the words of sectors 0, 1 and E being sloppy."""
    end, size = f.sectors, f.size
    yield from (("read", 0, end, size, 9), ("read", 0, end, 0, 9), ("read", 0, 0, size - 1, 10), ("read", 0, 1, size + 1, 10))
    yield from (("read", 0, 0, size, 18), ("read", 0, 1, size, 18), ("read", 0, 2, size, 0), ("read", 0, end - 1, size, 0))
    for name in ("start", "write"):
        yield from ((name, f.lanes, 0, size, 11), (name, 1, 0, size, 12), (name, 1, 1, size, 12), (name, 0, end, size, 9))
        yield from ((name, 0, 1, size, 13), (name, 0, 0, size, 18), (name, 2, 0, size, 18), (name, 0, 2, size, 0))
    yield from (("write", 0, 0, size - 1, 10), ("write", 0, 1, size + 1, 10), ("write", 0, end, 0, 9))
    yield from (("step", f.lanes, 0, size, 11), ("step", 0, 0, size, 14), ("step", 1, 0, size - 1, 10), ("step", 1, 0, size, 0))


class Live:
    """An arena that another hand makes sloppy under a live handle: the row of sectors, and the words that stood where it is sloppy now."""

    def __init__(self, lib, seed, notes):
        self.rng = rng = random.Random(seed)
        sizes, self.layout = (random_arenas.small_sizes(rng),), rng.choice(random_arenas.LAYOUTS)
        arena = random_arenas.made(rng, *sizes[0])
        if rng.random() < 0.5:
            arena = random_arenas.aged(rng, *random_arenas.valid(rng, self.layout, sizes), self.layout)
        self.pair = Pair(lib, arena, rng, notes)
        self.demand("a valid arena", self.pair.open(AMPLE, self.layout)[0], 0)
        self.f, self.row = self.pair.handle.figures, book.Row(self.pair.arena, self.pair.handle.figures)
        self.sectors, self.padding = {}, {}

    def demand(self, what, number, due):
        demand(self.pair, what, number, due)

    def run(self):
        """Some writes begin, the arena is made sloppy, calls go on, some writes are finished; then a cut and an opening."""
        rng = self.rng
        for lane in rng.sample(range(self.f.lanes), min(self.f.lanes, rng.choice((0, 1, 1, 2, 3)))):
            taken = {write.sector for write in self.row.flying.values()}
            self.call("start", lane, rng.choice([sector for sector in range(self.f.sectors) if sector not in taken]), 0)
            self.steps(lane, rng.choice((0, 1, self.row.words, self.row.words + 3, self.row.words + 4)))
        for _ in range(rng.choice((1, 1, 2, 3))):
            self.spoil()
        for _ in range(rng.choice((3, 6, 12))):
            self.any_call()
        for lane, write in list(self.row.flying.items()):
            if rng.random() < 0.5:
                self.steps(lane, self.row.words + 5)
                self.call("read", 0, write.sector, self.f.size)
        for _ in range(rng.choice((0, 3))):
            self.any_call()
        self.cut()

    def spoil(self):
        """Makes a word sloppy, most often of a sector in flight, or padding."""
        rng, f = self.rng, self.f
        if rng.random() < 0.3:
            place = at = f.flog + 64 * rng.randrange(f.lanes) + rng.choice(random_arenas.PADDING[self.layout]) // 4 * 4
            value, kept = 1 << rng.randrange(32), self.padding
        else:
            flying = [write.sector for write in self.row.flying.values()]
            place = rng.choice(flying) if flying and rng.random() < 0.7 else rng.randrange(f.sectors)
            at, value, kept = f.map + 4 * place, random_arenas.a_sloppy_word(rng), self.sectors
        kept.setdefault(place, (at, struct.unpack_from("<I", self.pair.arena, at)[0]))
        self.pair.put([(at, value)])

    def due(self, name, lane, sector, length):
        """The number that the rules give, told from the writes in flight and the sectors that are sloppy."""
        flying, reads = self.row.flying, name == "read"
        if not reads and lane >= self.f.lanes:
            return 11
        if name in ("step", "next_store"):
            return 14 if lane not in flying else 10 if name == "step" and length != self.f.size else 0
        if name == "lane_record":
            return 0
        if not reads and lane in flying:
            return 12
        if sector >= self.f.sectors:
            return 9
        if name != "start" and length != self.f.size:
            return 10
        if not reads and any(write.sector == sector for write in flying.values()):
            return 13
        return 18 if sector in self.sectors else self.row.sectors[sector][0] if reads else 0

    def call(self, name, lane, sector, length):
        """One call, its number as due, and the row after it; a read gives what the row has."""
        due, buffer = self.due(name, lane, sector, length), self.rng.randbytes(length)
        if name == "read":
            number, before, after = self.pair.read(sector, length)
            self.demand("a read", number, due)
            if after != (before if number else self.row.sectors[sector][1]):
                self.pair.fail("not so: a read gives the last finished write")
            return
        kept = (bytes(self.pair.lent), bytes(self.pair.lent_handle), bytes(self.pair.lent_table)) if due else ()
        self.demand("a " + name, self.pair.perform(name, lane, sector, buffer), due)
        if due:
            demand_kept(self.pair, *kept)
        elif name == "step":
            sector = self.row.flying[lane].sector
            self.row.step(lane, buffer)
        elif name in ("start", "write"):
            self.row.start(lane, sector)
            if name == "write":
                self.row.whole(lane, buffer, self.row.words + 5)
        if due == 0 and name in ("step", "write") and lane not in self.row.flying:
            self.sectors.pop(sector, None)

    def steps(self, lane, aim):
        """Steps of a write in flight up to this tally."""
        while lane in self.row.flying and self.row.flying[lane].tally < aim:
            self.call("step", lane, 0, self.f.size)

    def any_call(self):
        """Any call, most often at a sector that is sloppy."""
        self.call(*forged.a_call(self.rng, self.pair.handle, self.pair.table, self.rng.choice([*self.sectors, None])))

    def cut(self):
        """The power cut: the arena is refused while it is sloppy, opens once the words that stood there are back, and reads as the row does."""
        stood, pair = [*self.sectors.values(), *self.padding.values()], self.pair
        pair.drop()
        if stood:
            self.demand("a cut opening of a sloppy arena", pair.cut_open(AMPLE, self.layout, 1)[0], 18)
            self.demand("an opening of a sloppy arena", pair.open(AMPLE, self.layout)[0], 18)
            self.demand("a read by the handle of a refused opening", pair.read(0, self.f.size)[0], 16)
            pair.put(stood)
        number, mended = pair.open(AMPLE, self.layout)
        self.demand("an arena that is sloppy no more", number, 0)
        self.demand("the count of lanes pending", mended, self.row.cut())
        if book.Row(pair.arena, self.f).sectors != self.row.sectors:
            pair.fail("not so: the sectors are those of the row")

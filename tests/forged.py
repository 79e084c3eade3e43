"""Forged handles and tables, and random calls: what a history gives the library beside the latest handle, its table, and calls that are accepted.

A kind of forging changes a copy of a handle, f being its figures, and of its table in place.
"""
import calls
import library
import model
import random_arenas

TOP32, TOP64 = 2**32, 2**64
SIZES = ("size", "sectors", "internal", "blocks", "lanes")
STARTS = ("data", "map", "flog", "copy")
CALLS = ("read", "start", "step", "step", "write", "lane_record", "next_store")


def near(rng, value, top):
    """A number near a figure, or one of those that sums go wrong with."""
    steps = (value + 1, value - 1, value + 4096, value - 4096, value + 4, value * 8, value // 8, 2 * value)
    return rng.choice(steps + (0, 1, 17, 256, 257, 512, 520, 576, 4096, 4160, top - 1, top - 4096, top // 2)) % top


def one_size(rng, handle, f, table):
    name = rng.choice(SIZES)
    setattr(f, name, near(rng, getattr(f, name), TOP32))


def one_start(rng, handle, f, table):
    name = rng.choice(STARTS)
    setattr(f, name, near(rng, getattr(f, name), TOP64))


def odd_start(rng, handle, f, table):
    """A start that is no multiple of 4,096 but keeps every other rule, where there is room for it."""
    name, before = rng.choice((("data", 4096), ("map", f.data + f.blocks * f.internal), ("flog", f.map + 4 * f.sectors)))
    end = {"data": f.map - f.blocks * f.internal, "map": f.flog - 4 * f.sectors, "flog": f.copy - 64 * f.lanes}[name]
    setattr(f, name, max(before, end - rng.choice((0, 4, 1, 512))))


def low_data(rng, handle, f, table):
    f.data = 0


def other_length(rng, handle, f, table):
    handle.length = near(rng, handle.length, TOP64)


def other_slice(rng, handle, f, table):
    """Allowed figures of an arena that is one block longer or shorter than the slice."""
    change = rng.choice((4096, -4096))
    f.copy += change
    handle.length += rng.choice((0, change))


def early_copy(rng, handle, f, table):
    """A copy that starts where the flog may end, but not in the last 4,096 bytes; often the parts before it move too."""
    gap = rng.choice((4096, 8192))
    for name in rng.choice((("copy",), ("copy", "flog"), ("copy", "flog", "map"))):
        setattr(f, name, getattr(f, name) - gap)


def fewer_sectors(rng, handle, f, table):
    """Other figures, all allowed."""
    fewer = rng.randint(0, f.sectors - min(f.lanes, f.sectors))
    f.sectors, f.blocks = f.sectors - fewer, f.blocks - fewer


def fewer_lanes(rng, handle, f, table):
    """Fewer lanes, so that records of lanes in use lie past them; the blocks match or not."""
    fewer = rng.randint(0, f.lanes - 1)
    f.lanes -= fewer
    f.blocks -= rng.choice((fewer, fewer, 0))


def more_lanes(rng, handle, f, table):
    """More lanes, whose records are sound or are what lies past the lanes; the table is most often long enough for them."""
    more = rng.choice((1, 2, 16, 256 - f.lanes, 257 - f.lanes)) if f.lanes < 256 else 1
    records = [calls.Record(0, 0, 0, 1)] * more
    if rng.random() < 0.7:
        table[f.lanes : f.lanes + more] = records
    elif rng.random() < 0.5:
        table += records
    f.lanes += more
    kept = rng.choice(("blocks", "sectors"))
    if kept == "blocks" and f.sectors > more:
        f.sectors -= more
    else:
        f.blocks += more


def too_few_sectors(rng, handle, f, table):
    """Fewer sectors than lanes, all else as allowed."""
    f.sectors = max(f.lanes - rng.choice((0, 1, 1)), 0)
    f.blocks = f.sectors + f.lanes


def other_size(rng, handle, f, table):
    """Another sector size and internal size, a pair that is allowed or not, most often with few enough sectors to fit and records in range."""
    f.size, f.internal = random_arenas.a_pair(rng)
    if rng.random() < 0.8:
        f.sectors = max(f.lanes, min(f.sectors, (f.map - f.data) // max(f.internal, 1) - f.lanes), 1)
        f.blocks = f.sectors + f.lanes
        ranges = {"block": f.blocks, "sector": f.sectors, "old": f.blocks, "made": f.size // 4 + 5}
        table[:] = [record._replace(**{name: getattr(record, name) % end for name, end in ranges.items()}) for record in table]


def overlapping(rng, handle, f, table):
    """A part that ends just past the next start."""
    which = rng.choice(("data", "map", "flog"))
    if which == "data":
        f.data = f.map - f.blocks * f.internal // 4096 * 4096
    elif which == "map":
        f.flog = f.map
    else:
        f.flog = f.copy


def wrapping(rng, handle, f, table):
    """Starts whose sums would wrap in 64 bits to something allowed."""
    if rng.random() < 0.5:
        f.data = TOP64 - 4096 * rng.randint(1, max(1, f.blocks * f.internal // 4096))
    else:
        f.map, f.sectors = TOP64 - 4096, rng.choice((1024, 1100))
        f.blocks = f.sectors + f.lanes


def edges(rng, f):
    """Values of each field of a record: at the ends of its range, beside them, and within."""
    full = f.size // 4 + 5
    return {
        "busy": (0, 1, 2, 3, 256, 2**16, 2**31, TOP32 - 1),
        "block": (0, f.blocks - 1, f.blocks, rng.randrange(f.blocks)),
        "half": (0, 1, 2, TOP32 - 1),
        "sequence": (0, 1, 2, 3, 4, TOP32 - 1),
        "sector": (0, f.sectors - 1, f.sectors, rng.randrange(f.sectors)),
        "old": (0, f.blocks - 1, f.blocks, rng.randrange(f.blocks)),
        "made": (0, 1, full - 7, full - 6, full - 5, full - 3, full - 2, full - 1, full, full + (f.internal - f.size) // 4 - 1, TOP32 - 1),
    }


def one_record(rng, handle, f, table):
    """One field of one record, below or past the lanes, at an edge of its range or beyond."""
    field, lane = rng.choice(calls.Record._fields), rng.randrange(min(f.lanes, len(table)) if rng.random() < 0.8 else len(table))
    value = rng.choice(edges(rng, f)[field] + (rng.getrandbits(32),) * (rng.random() < 0.1))
    table[lane] = table[lane]._replace(**{field: value})


def sound_record(rng, handle, f, table):
    """A whole record in range, idle or busy, near an edge of its write."""
    words = f.size // 4
    made = rng.choice((0, words - 1, words, words + 1, words + 2, words + 3, words + 4, rng.randrange(words)))
    block, old, sector = rng.randrange(f.blocks), rng.randrange(f.blocks), rng.randrange(f.sectors)
    table[rng.randrange(min(f.lanes, len(table)))] = calls.Record(rng.randrange(2), block, rng.randrange(2), rng.randint(1, 3), sector, old, made)


def past_the_lanes(rng, handle, f, table):
    """Some records past the lanes, with anything in them and often busy."""
    del table[f.lanes :]
    for _ in range(rng.choice((1, 4, 16))):
        sector = rng.choice((rng.randrange(f.sectors), rng.getrandbits(32)))
        table.append(calls.Record(rng.choice((0, 1, 1, 2)), *(rng.getrandbits(32) for _ in range(3)), sector, rng.getrandbits(32), 0))


def short_table(rng, handle, f, table):
    """A table that is shorter than the lanes, by one record or by any number, or empty."""
    lanes = max(1, f.lanes)
    del table[rng.choice((lanes - 1, lanes - 1, rng.randrange(lanes), 0)) :]


def just_the_lanes(rng, handle, f, table):
    del table[f.lanes :]


def refused_layout(rng, handle, f, table):
    handle.layout = random_arenas.a_refused_layout(rng)


def exchanged_layout(rng, handle, f, table):
    """The other layout, which is not found out: the calls go on with its distance."""
    handle.layout = random_arenas.other_layout(handle.layout)


# Of two, the one that stands later here is made first: records are changed while the figures are the latest, and a table is made short last.
KINDS = (short_table,) * 3 + (just_the_lanes, exchanged_layout, exchanged_layout, refused_layout, refused_layout)
KINDS += (one_size, one_start, odd_start, low_data, other_length, other_slice, early_copy, fewer_sectors, fewer_lanes, more_lanes)
KINDS += (too_few_sectors, other_size, overlapping, wrapping) + (one_record,) * 6 + (sound_record,) * 3 + (past_the_lanes,) * 2


def forge(rng, handle, table):
    """A copy of an allowed handle and of its table with one thing changed, or two."""
    forged, records = handle.copy(), list(table)
    kinds = rng.sample(KINDS, 2) if rng.random() < 0.25 else [rng.choice(KINDS)]
    for kind in sorted(kinds, key=KINDS.index, reverse=True):
        kind(rng, forged, forged.figures, records)
    for names, top in ((SIZES, TOP32), (STARTS, TOP64)):
        for name in names:
            setattr(forged.figures, name, getattr(forged.figures, name) % top)
    forged.length %= TOP64
    return forged, records


def rubbish(rng, records):
    """The bytes of a table of so many records that holds anything, or records that look as if each were in flight."""
    record = library.RECORD_FORM.pack(1, rng.randrange(4), rng.randrange(2), rng.randint(1, 3), rng.randrange(4), rng.randrange(4), 0)
    return rng.choice((rng.randbytes(library.RECORD_BYTES * records), rng.choice((record, b"\xFF" * library.RECORD_BYTES)) * records))


def narrowed(handle, table, sectors, lanes):
    """A copy of an allowed handle and its table with fewer sectors or lanes, all its figures and records allowed."""
    copy = handle.copy()
    copy.figures.sectors, copy.figures.lanes, copy.figures.blocks = sectors, lanes, sectors + lanes
    return copy, [record._replace(block=record.block % copy.figures.blocks) for record in table]


def with_record(table, lane, **fields):
    """A copy of a table with fields of one record changed."""
    return [record._replace(**fields) if other == lane else record for other, record in enumerate(table)]


def with_all_records(table, **fields):
    """A copy of a table with fields of every record changed."""
    return [record._replace(**fields) for record in table]


def refusing(handle, table, lane, sector):
    """Forged handles and tables, all lanes idle, with the number by which each refuses a whole write there before a map word is judged."""
    f, last = handle.figures, handle.figures.lanes - 1
    for layout in (0, 48):
        forged = handle.copy()
        forged.layout = layout
        yield 16, forged, table
    yield 21, handle, table[:last]
    yield 21, handle, []
    yield 16, handle, with_record(table, last, half=2)
    yield 16, handle, with_record(table, last, sequence=0)
    yield 16, handle, with_record(table, lane, block=f.blocks)
    for name in ("size", "blocks", "copy"):
        forged = handle.copy()
        setattr(forged.figures, name, getattr(f, name) + 4)
        yield 16, forged, table
    if lane > 0:
        yield 11, *narrowed(handle, table, f.sectors, lane)
    yield 12, handle, with_record(table, lane, busy=1, sector=sector)
    if sector >= f.lanes:
        yield 9, *narrowed(handle, table, sector, f.lanes)
    yield 13, handle, with_record(table, (lane + 1) % f.lanes, busy=1, sector=sector, made=f.size // 4 + 4)


def a_word(rng, f):
    """A map word as another hand may leave it: any flags, low bits at an edge of the blocks, within or past them, or a sloppy word."""
    block = rng.randrange(f.blocks)
    low = rng.choice((0, f.blocks - 1, f.blocks, 2**30 - 1, block, random_arenas.past_the_last(rng, f, block)))
    return rng.choice((rng.randrange(4) << 30 | low,) * 3 + (random_arenas.a_sloppy_word(rng),))


def a_lane(rng, handle):
    """A lane number: most often one of the lanes, else one past them."""
    lanes = handle.figures.lanes
    if rng.random() < 0.75:
        last = max(1, min(lanes, model.MAX_LANES)) - 1
        return rng.choice((rng.randint(0, last), rng.randint(0, last), last))
    return rng.choice((lanes, lanes + 1, 15, 16, 255, 256, 2**16 + lanes - 1, 2**31, TOP32 - 1)) % TOP32


def a_sector(rng, handle, table, focus=None):
    """A sector number: any, the one looked at, one in flight, or one past the last."""
    chance, sectors = rng.random(), handle.figures.sectors
    if focus is not None and chance < 0.6:
        return focus
    flying = [record.sector for record in table if record.busy]
    if chance < 0.7 and flying:
        return rng.choice(flying)
    if chance < 0.9:
        return rng.choice((0, rng.randrange(max(1, sectors))))
    return rng.choice((sectors, sectors + 1, 2**30, TOP32 - 1)) % TOP32


def a_length(rng, handle):
    """A sector buffer's length: most often right."""
    size, internal = next((pair for pair in random_arenas.PAIRS if pair[0] == handle.figures.size), (512, 512))
    return size if rng.random() < 0.7 else rng.choice((size - 1, size + 1, 0, internal, internal, 512, 513, 520, 528, 4095, 4096, 4104))


def a_call(rng, handle, table, focus=None):
    """The name of a call and its lane, sector and buffer length, any of them perhaps wrong."""
    return rng.choice(CALLS), a_lane(rng, handle), a_sector(rng, handle, table, focus), a_length(rng, handle)

"""Random run logs, well formed and damaged, and the arenas that they are replayed on."""
import logs
import model
import random_arenas
import runlog

KINDS = (0, 1, 1, 2, 2, 3, 4, 255, 256, 257, 258, 259, 65535)
LENGTHS = (0, 1, 3, 4, 4, 5, 6, 6, 8, 10, 10, 12, 260, 262, 266, 65535)


def an_arena(rng):
    """An arena that opens, with lanes pending or not, and seldom a damaged or a sloppy one, or one of the other layout."""
    sizes, chance = random_arenas.small_sizes(rng), rng.random()
    if chance < 0.05:
        return random_arenas.damaged(rng, 16)
    layout = 32 if chance > 0.97 else 16
    arena, f = random_arenas.valid(rng, layout, (sizes,))
    arena = random_arenas.aged(rng, arena, f, layout)
    if chance < 0.08:
        return random_arenas.sloppy(rng, arena, f, layout), f
    return (random_arenas.one_sound_block(rng, arena) if rng.random() < 0.1 else arena), f


def a_lane(rng, f):
    """A lane, seldom one that is not there."""
    if rng.random() < 0.04:
        return rng.choice((f.lanes, 16, 255, 256, 257, 65535, f.lanes - 1 + 256)) % 65536
    lanes = min(f.lanes, model.MAX_LANES) or 1
    return rng.choice((rng.randrange(lanes), rng.randrange(min(lanes, 4)), lanes - 1))


def a_sector(rng, f):
    """A sector, seldom one that is not there; few are used, so that lanes meet."""
    if rng.random() < 0.05:
        return rng.choice((f.sectors, f.sectors + 65536, 65536, 2**24, 2**31, 2**32 - 1)) % 2**32
    return rng.randrange(min(f.sectors, 6) or 1) if rng.random() < 0.6 else rng.randrange(f.sectors or 1)


def a_burst(rng, f):
    """How many steps are made in turn: any, or just as many as bring a write to a place where a cut makes a difference."""
    words = f.size // 4 if f.size in model.SECTOR_SIZES else 128
    ends = (words, words + 3, words + 4, words + 4, words + 5, words + 5, words + 5)
    return rng.choice((1, 1, 2, 3, 30, rng.randrange(1, words)) + ends)


def some_records(rng, f):
    """The records of a start and a burst of its steps, of other steps, or of a cut."""
    chance, lane = rng.random(), a_lane(rng, f)
    if chance < 0.45:
        return [logs.start(lane, a_sector(rng, f))] + [logs.step(lane)] * a_burst(rng, f)
    if chance < 0.6:
        return [logs.start(lane, a_sector(rng, f))]
    if chance < 0.75:
        return [logs.step(lane)] * a_burst(rng, f)
    if chance < 0.9:
        return [logs.step(a_lane(rng, f)) for _ in range(rng.choice((1, 2, 5, 40)))]
    return [logs.cut()]


def well_formed(rng, f):
    """Whole records, of at most 8,192 bytes."""
    rows, limit = [], rng.choice((0, 40, 900, 900, 2500, 2500, 5000, runlog.LOG_LIMIT))
    while sum(map(len, rows)) < limit:
        rows += some_records(rng, f)
    while sum(map(len, rows)) > runlog.LOG_LIMIT:
        rows.pop()
    return rows


def damaged(rng, rows):
    """The rows with one thing wrong, as bytes."""
    at, chance = rng.randrange(len(rows) + 1), rng.random()
    before, after = b"".join(rows[:at]), b"".join(rows[at:])
    if chance < 0.2:
        return (before + after)[: rng.randrange(len(before + after) + 1)]
    if chance < 0.5:
        return before + logs.header(rng.choice(LENGTHS), rng.choice(KINDS)) + rng.randbytes(rng.choice((0, 2, 6))) + after
    if chance < 0.6:
        return before + rng.randbytes(rng.randrange(1, 30)) + after
    if chance < 0.7:
        return before + after + bytes(rng.randrange(1, 40))
    if chance < 0.8:
        return before + after + logs.cut() * (runlog.LOG_LIMIT // 4)
    log = bytearray(before + after + logs.cut())
    log[rng.randrange(len(log))] ^= 1 << rng.randrange(8)
    return bytes(log)


def a_log(rng, f):
    rows = well_formed(rng, f)
    return damaged(rng, rows) if rng.random() < 0.4 else b"".join(rows)

"""Random arenas, valid, damaged and sloppy: what the report is compared with the model on beside the named ones, and what histories begin with."""
import random
import struct

import book
import model

# Sector size, sectors and lanes; all of these arenas are short enough for the report.
SIZES = ((512, 1, 1), (512, 3, 2), (512, 20, 4), (512, 60, 4), (512, 80, 16), (4096, 3, 2))
SIZES += ((520, 1, 1), (520, 13, 2), (520, 60, 4), (528, 3, 2), (528, 20, 4), (528, 60, 16), (4104, 1, 1), (4104, 3, 2))
SIZES += ((512, 48, 48), (512, 20, 17), (520, 40, 33))
# Sectors and lanes of the arenas that histories begin with.
SMALL = ((1, 1), (2, 1), (3, 2), (5, 3), (6, 6), (20, 4))
WIDE = ((60, 4), (30, 16), (80, 16))
FEW = ((1, 1), (3, 2), (5, 3))
MANY = ((17, 17), (40, 17), (64, 64), (255, 255), (256, 256), (270, 256))
# The pairs of sector size and internal size that are allowed, and numbers that a pair may be wrong by.
PAIRS = tuple(book.BLOCK_BYTES.items())
PAIR_NUMBERS = (0, 256, 512, 516, 520, 524, 528, 544, 576, 640, 1024, 4096, 4100, 4104, 4112, 4160, 4224, 4608, 8192)
# The layouts, and in each the bytes of a lane's 64 that are in neither half.
LAYOUTS = (16, 32)
PADDING = {16: tuple(range(32, 64)), 32: (*range(16, 32), *range(48, 64))}
# Layouts that are refused: beside those allowed, their sum and doubles, and numbers that end as they do.
REFUSED_LAYOUTS = (0, 1, 8, 15, 17, 24, 31, 33, 47, 48, 49, 64, 256, 4096, 2**31, 2**32 - 16, 2**32 - 1)
REFUSED_LAYOUTS += (16 + 2**8, 16 + 2**16, 32 + 2**16, 32 + 2**31)


def small_sizes(rng):
    """Sector size, sectors and lanes of an arena that a history begins with: S is 4,096 or 4,104 in one of twelve, and some have 17 to 256 lanes."""
    chance = rng.random()
    if chance < 0.08:
        return rng.choice((4096, 4104)), *rng.choice(FEW)
    return rng.choice((512, 520, 528)), *rng.choice(WIDE if chance < 0.33 else MANY if chance < 0.36 else SMALL)


def a_pair(rng):
    """A sector size and an internal size: a pair that is allowed, one number for both, the numbers of two pairs, or any two."""
    number, (size, _), (_, internal) = rng.choice(PAIR_NUMBERS), rng.choice(PAIRS), rng.choice(PAIRS)
    return rng.choice((rng.choice(PAIRS), (number, number), (size, internal), (rng.choice(PAIR_NUMBERS), number)))


def spread(rng, size, sectors, lanes):
    """Figures that are allowed, with a gap before some parts."""
    f = model.made_figures(size, sectors, lanes)
    gap = 0
    for name in ("data", "map", "flog", "copy"):
        gap += rng.choice((0, 0, 0, 4096))
        setattr(f, name, getattr(f, name) + gap)
    return f


def made(rng, size, sectors, lanes):
    """A made arena with anything in its blocks, behind the sectors too."""
    arena = bytearray(rng.randbytes(model.made_figures(size, sectors, lanes).copy + 4096))
    assert model.make(arena, size, sectors, lanes, rng.randbytes(16), rng.randbytes(16)) == 0
    return arena


def other_layout(layout):
    return 16 if layout == 32 else 32


def a_refused_layout(rng):
    return rng.choice(REFUSED_LAYOUTS + (2 * rng.randrange(32, 2**31), 16 << rng.randrange(2, 28)))


def valid(rng, layout, sizes=SIZES, lie=spread):
    """An arena with every block mapped or free once, sectors in all four states, some lanes pending, and anything in what no rule judges."""
    size, sectors, lanes = rng.choice(sizes)
    f = lie(rng, size, sectors, lanes)
    arena = bytearray(rng.randbytes(f.copy + 4096))
    block = model.info_block(f, rng.randbytes(16), rng.randbytes(16), unnamed=rng.randbytes(rng.choice((0, 3968))))
    arena[:4096] = arena[-4096:] = block
    blocks, moved = list(range(f.blocks)), rng.sample(range(f.blocks), rng.choice((f.blocks, f.blocks // 2)))
    for place, moving in zip(moved, rng.sample(moved, len(moved))):
        blocks[place] = moving
    mapped, free = blocks[:sectors], blocks[sectors:]
    targets = rng.sample(range(sectors), lanes)
    for lane in range(lanes):
        old = mapped[targets[lane]] if rng.random() < 0.4 else free[lane]
        logged(rng, arena, f.flog + 64 * lane, layout, (targets[lane], old, free[lane]))
    for sector in range(sectors):
        flags = rng.choice((1, 2, 3, 3))
        word = flags << 30 | mapped[sector]
        if mapped[sector] == sector and rng.random() < 0.5:
            word = 0
        struct.pack_into("<I", arena, f.map + 4 * sector, word)
    return arena, f


def logged(rng, arena, lane, layout, write):
    """Makes one half of the lane at that byte the newer one, with this sector, old and new; of the other only the sequence is put."""
    half, sequence = rng.randrange(2), rng.randint(1, 3)
    older = rng.choice((0, (sequence + 1) % 3 + 1))
    struct.pack_into("<I", arena, lane + layout * (1 - half) + 12, older)
    struct.pack_into("<IIII", arena, lane + layout * half, *write, sequence)
    for byte in PADDING[layout]:
        arena[lane + byte] = 0


def aged(rng, arena, f, layout):
    """A valid arena whose lanes that are not pending name any sector and any new block, as old writes leave them."""
    for lane in range(f.flog, f.flog + 64 * f.lanes, 64):
        first, second = [struct.unpack_from("<4I", arena, lane + layout * half) for half in (0, 1)]
        half = model.newer_half(first[3], second[3])
        _, old, new, _ = second if half else first
        if old == new and rng.random() < 0.5:
            struct.pack_into("<I", arena, lane + layout * half, rng.randrange(f.sectors))
            struct.pack_into("<I", arena, lane + layout * half + 8, rng.randrange(f.blocks))
    return arena


def one_sound_block(rng, arena):
    """An arena with one of its info blocks spoilt."""
    arena[rng.choice((0, len(arena) - 4096)) + rng.randrange(4096)] ^= 1 << rng.randrange(8)
    return arena


def a_sloppy_word(rng):
    """A map word with flags 00 whose low bits are not zero."""
    return rng.choice((1, 5, 2**30 - 1, 1 << rng.randrange(30), rng.randrange(1, 2**30)))


def sloppy(rng, arena, f, layout):
    """An arena with one sloppy map word, or one byte of the padding of a lane that is not zero."""
    if rng.random() < 0.5:
        struct.pack_into("<I", arena, f.map + 4 * rng.randrange(f.sectors), a_sloppy_word(rng))
    else:
        arena[f.flog + 64 * rng.randrange(f.lanes) + rng.choice(PADDING[layout])] = rng.randint(1, 255)
    return arena


def past_the_last(rng, f, block):
    """A number past the last block that ends as `block` does, as 0x20000005 and 0x10005 end as 5."""
    return block | 1 << rng.choice((29, 16, rng.randrange(f.blocks.bit_length(), 30)))


def damaged(rng, layout):
    """A valid arena with one or two things changed: a word of the flog, of the map or of an info block, padding, or the length."""
    arena, f = valid(rng, layout)
    for _ in range(rng.randint(1, 2)):
        place = rng.choice(("flog", "map", "sloppy", "info", "figure", "length"))
        if place == "flog":
            at = f.flog + 64 * rng.randrange(f.lanes) + layout * rng.randrange(2) + 4 * rng.randrange(4)
            struct.pack_into("<I", arena, at, rng.choice((0, 1, 2, 3, 4, f.blocks - 1, f.blocks, rng.getrandbits(32))))
        elif place == "map":
            sector = rng.randrange(f.sectors)
            at = f.map + 4 * sector
            block = model.block_of(sector, *struct.unpack_from("<I", arena, at))
            low = rng.choice((0, rng.randrange(f.blocks), f.blocks, past_the_last(rng, f, block)))
            struct.pack_into("<I", arena, at, rng.randrange(4) << 30 | low)
        elif place == "sloppy":
            sloppy(rng, arena, f, layout)
        elif place == "info":
            arena[rng.choice((0, len(arena) - 4096)) + rng.randrange(4096)] ^= 1 << rng.randrange(8)
        elif place == "figure":
            figures = dict(f.__dict__)
            name = rng.choice(list(figures))
            figures[name] = rng.choice((0, 1, figures[name], figures[name] + 1, figures[name] + 4096, 2**32 - 1)) % 2**32
            if name in ("size", "internal"):
                figures["size"], figures["internal"] = a_pair(rng)
            header = rng.choice(({}, {"flags": 1}, {"version": (2, 1)}, {"next_arena": 4096}, {"info_size": 4095}))
            block = model.info_block(model.Figures(**figures), bytes(16), bytes(16), **header)
            arena[:4096] = block
            if rng.random() < 0.5:
                arena[-4096:] = block
        else:
            del arena[len(arena) - rng.choice((1, 512, 4096)) :]
    return arena, f


def random_arenas(count, seed=2):
    """Random arenas for the report, most of them in the layout that it opens."""
    rng = random.Random(seed)
    for _ in range(count):
        yield bytes((valid if rng.random() < 0.4 else damaged)(rng, rng.choice((16, 16, 16, 32)))[0])

"""The arenas that the report is run on, by name, each built by the model.

Run as a program it writes every arena and the model's report of it to tests/arenas/.
"""
import pathlib
import struct

import model

HERE = pathlib.Path(__file__).resolve().parent / "arenas"


def fresh():
    return model.made(512, 60, 4, bytes(range(16)), bytes(range(16, 32)))


def put(arena, offset, *words):
    struct.pack_into("<%dI" % len(words), arena, offset, *words)
    return arena


FIGURES = model.made_figures(512, 60, 4)
MAP, FLOG, COPY = FIGURES.map, FIGURES.flog, FIGURES.copy
# Allowed figures that making does not work out, with a gap before every part.
LOOSE = model.Figures(512, 10, 512, 12, 2, 8192, 20480, 28672, 36864)
# The figures of the arena with 48 lanes.
MOST_LANES = model.made_figures(512, 48, 48)


def sectors_of(size, sectors=52, lanes=4):
    """A made arena with anything in its blocks, behind the sectors too; with 52 sectors of 520 or 528 bytes its parts start as those of fresh."""
    arena = bytearray(b"\xA5" * (model.made_figures(size, sectors, lanes).copy + 4096))
    assert model.make(arena, size, sectors, lanes, bytes(range(16)), bytes(range(16, 32))) == 0
    return arena


def lanes_of(lanes):
    """A made arena with as many sectors as lanes; 32 lanes are the most that 49,152 bytes hold, 48 the most that 65,536 bytes do."""
    return model.made(512, lanes, lanes, bytes(range(16)), bytes(range(16, 32)))


def all_pending(lanes):
    """The same, with a write pending on every lane; the last lane writes the first sector."""
    arena, flog = lanes_of(lanes), model.made_figures(512, lanes, lanes).flog
    for lane, sector in enumerate(reversed(range(lanes))):
        put(arena, flog + 64 * lane + 16, sector, sector, lanes + lane, 2)
    return arena


def roomy(size, internal, **header):
    """Three sectors and two lanes with room for blocks of 4,160 bytes, so that only the pair of sizes can be forbidden."""
    return with_blocks(sectors_of(4104, 3, 2), model.made_figures(4104, 3, 2), size=size, internal=internal, **header)


def with_blocks(arena, figures=FIGURES, **changes):
    """Both info blocks anew, with some of these figures or header fields changed."""
    header = {k: changes.pop(k) for k in ("flags", "version", "info_size", "next_arena") if k in changes}
    block = model.info_block(model.Figures(**{**figures.__dict__, **changes}), bytes(16), bytes(16), **header)
    arena[:4096] = arena[-4096:] = block
    return arena


def half(arena, lane, which, sector, old, new, sequence, layout=16):
    return put(arena, FLOG + 64 * lane + (layout if which else 0), sector, old, new, sequence)


def mapped(arena, sector, word):
    return put(arena, MAP + 4 * sector, word)


def padded(arena, lane, offset, value):
    """One byte of a lane changed."""
    arena[FLOG + 64 * lane + offset] = value
    return arena


def damaged(arena, *offsets):
    for offset in offsets:
        arena[offset] ^= 1
    return arena


def loose():
    """Gaps before every part, with anything in them."""
    f, arena = LOOSE, bytearray(b"\xA5" * (LOOSE.copy + 4096))
    arena[f.map : f.map + 40] = bytes(40)
    for lane in range(2):
        arena[f.flog + 64 * lane : f.flog + 64 * lane + 64] = bytes(64)
        put(arena, f.flog + 64 * lane, lane, 10 + lane, 10 + lane, 3)
    arena[:4096] = arena[-4096:] = model.info_block(f, b"first identifier", b"other identifier")
    return arena


def all_states():
    """Bad, zeroed and mapped words beside words that are zero."""
    arena = fresh()
    for sector, word in ((5, 0x40000005), (6, 0x80000006), (8, 0xC0000009), (9, 0xC0000008)):
        mapped(arena, sector, word)
    return arena


def unjudged():
    """Anything in all that no rule judges: unnamed info bytes, gaps, data blocks, older halves, and what lies behind the map and the flog."""
    f, arena = LOOSE, loose()
    for start, end in ((4096, f.map), (f.map + 40, f.flog), (f.flog + 128, f.copy)):
        arena[start:end] = b"\x01" * (end - start)
    for lane in range(2):
        put(arena, f.flog + 64 * lane + 16, 0xFFFFFFFF, 0x01010101, 0xFFFFFFFF, 0)
    arena[:4096] = arena[-4096:] = model.info_block(f, b"\xFF" * 16, b"\xFF" * 16, unnamed=b"\x01" * 3968)
    return arena


ARENAS = {
    "fresh": fresh,
    "smallest": lambda: model.made(512, 1, 1),
    "large-sectors": lambda: model.made(4096, 1, 1),
    "widest": lambda: model.made(512, 80, 16),
    "seventeen-lanes": lambda: lanes_of(17),
    "thirty-two-lanes": lambda: lanes_of(32),
    "forty-eight-lanes": lambda: lanes_of(48),
    "forty-eight-pending": lambda: all_pending(48),
    "sectors-of-520": lambda: sectors_of(520),
    "sectors-of-528": lambda: sectors_of(528),
    "sectors-of-4104": lambda: sectors_of(4104, 3, 2),
    "loose-528": lambda: roomy(528, 576),
    "loose-layout": loose,
    "all-map-states": all_states,
    "pending": lambda: half(fresh(), 0, 1, 7, 7, 60, 2),
    "pending-bad-sector": lambda: mapped(half(fresh(), 0, 1, 7, 7, 60, 2), 7, 0x40000007),
    "pending-520": lambda: half(sectors_of(520), 0, 1, 7, 7, 52, 2),
    "two-pending": lambda: half(half(fresh(), 0, 1, 7, 7, 60, 2), 3, 1, 2, 2, 63, 2),
    "finished": lambda: mapped(half(fresh(), 0, 1, 7, 7, 60, 2), 7, 0xC000003C),
    "finished-528": lambda: mapped(half(sectors_of(528), 0, 1, 7, 7, 52, 2), 7, 0xC0000034),
    "one-sector-twice": lambda: mapped(half(half(fresh(), 0, 1, 7, 7, 60, 2), 1, 1, 7, 60, 61, 2), 7, 0xC000003D),
    "wrapped-sequence": lambda: half(half(fresh(), 0, 0, 0, 60, 60, 3), 0, 1, 7, 60, 60, 1),
    "copy-counts": lambda: damaged(fresh(), 20),
    "copy-is-garbage": lambda: damaged(fresh(), COPY, COPY + 100),
    "unjudged-is-garbage": unjudged,
    "empty": lambda: bytearray(),
    "refused-1-odd": lambda: fresh()[:-1],
    "refused-1-short": lambda: bytearray(16384),
    "refused-1-oversize": lambda: fresh() + bytes(16385),
    "refused-1-longer-arena": lambda: model.made(512, 90, 16),
    "refused-2": lambda: damaged(fresh(), 20, COPY + 20),
    "refused-3-size": lambda: with_blocks(fresh(), size=520),
    "refused-3-size-576": lambda: roomy(576, 576),
    "refused-3-size-4160": lambda: roomy(4160, 4160),
    "refused-3-512-in-576": lambda: roomy(512, 576),
    "refused-3-520-in-520": lambda: roomy(520, 520),
    "refused-3-520-in-4160": lambda: roomy(520, 4160),
    "refused-3-4096-in-4160": lambda: roomy(4096, 4160),
    "refused-3-4104-in-4104": lambda: roomy(4104, 4104),
    "refused-3-end-of-data-520": lambda: with_blocks(sectors_of(520, 13, 2), model.made_figures(520, 13, 2), map=12288),
    "refused-3-version": lambda: with_blocks(fresh(), version=(1, 1)),
    "refused-3-not-passed-over": lambda: with_blocks(fresh(), lanes=257)[:-4096] + fresh()[-4096:],
    "refused-3-257-lanes": lambda: with_blocks(fresh(), lanes=257, blocks=317),
    "refused-3-fewer-sectors-than-lanes": lambda: with_blocks(lanes_of(48), MOST_LANES, sectors=47, blocks=95),
    "refused-3-before-4": lambda: with_blocks(fresh(), sectors=61, flags=1),
    "refused-3-data-wraps": lambda: with_blocks(fresh(), data=2**64 - 4096),
    "refused-3-map-wraps": lambda: with_blocks(fresh(), sectors=1100, blocks=1104, map=2**64 - 4096),
    "refused-4": lambda: with_blocks(fresh(), flags=1),
    "refused-6-no-newer": lambda: half(fresh(), 2, 1, 0, 0, 0, 1),
    "refused-6-older-sequence": lambda: half(fresh(), 2, 1, 0, 0, 0, 4),
    "refused-6-sector": lambda: half(fresh(), 1, 1, 60, 7, 61, 2),
    "refused-6-old": lambda: half(fresh(), 1, 1, 7, 64, 61, 2),
    "refused-6-new": lambda: half(fresh(), 1, 1, 7, 61, 64, 2),
    "refused-6-last-of-48": lambda: put(lanes_of(48), MOST_LANES.flog + 64 * 47 + 16, 0, 0, 0, 1),
    "refused-6-before-7": lambda: mapped(half(fresh(), 3, 1, 7, 61, 64, 2), 0, 0xC0000040),
    "refused-6-before-18": lambda: mapped(padded(half(fresh(), 3, 1, 7, 61, 64, 2), 0, 32, 1), 0, 1),
    "refused-7": lambda: mapped(fresh(), 59, 0x40000040),
    "refused-7-high-bits": lambda: mapped(fresh(), 5, 0xE0000005),
    "refused-7-before-18": lambda: mapped(mapped(padded(fresh(), 0, 32, 1), 0, 1), 59, 0x40000040),
    "refused-18-word": lambda: mapped(fresh(), 7, 0x00000005),
    "refused-18-own-number": lambda: mapped(fresh(), 7, 0x00000007),
    "refused-18-high-bit": lambda: mapped(fresh(), 59, 0x20000000),
    "refused-18-pending": lambda: mapped(half(fresh(), 0, 1, 7, 7, 60, 2), 7, 0x00000007),
    "refused-18-padding": lambda: padded(fresh(), 3, 63, 0x80),
    "refused-18-padding-first-byte": lambda: padded(fresh(), 0, 32, 0x01),
    "refused-18-last-of-48": lambda: put(lanes_of(48), MOST_LANES.flog + 64 * 47 + 60, 1),
    "refused-18-before-8": lambda: mapped(mapped(fresh(), 5, 0xC0000006), 59, 0x00000001),
    "refused-18-padding-before-8": lambda: padded(mapped(fresh(), 5, 0xC0000006), 3, 63, 0x80),
    "refused-18-layout-32": lambda: mapped(half(fresh(), 0, 1, 7, 7, 60, 2, 32), 7, 0xC000003C),
    "refused-18-layout-32-pending": lambda: half(fresh(), 0, 1, 7, 7, 60, 2, 32),
    "refused-18-layout-32-older-half": lambda: half(fresh(), 3, 1, 0, 0, 0, 3, 32),
    "refused-6-layout-32": lambda: half(half(fresh(), 2, 0, 7, 7, 62, 0), 2, 1, 7, 7, 62, 1, 32),
    "refused-7-layout-32": lambda: mapped(half(fresh(), 1, 1, 7, 7, 61, 2, 32), 59, 0xC0000040),
    "refused-8-mapped-twice": lambda: mapped(fresh(), 5, 0xC0000006),
    "refused-8-free-twice": lambda: half(fresh(), 0, 1, 7, 61, 61, 2),
    "refused-8-pending-twice": lambda: half(half(fresh(), 0, 1, 7, 7, 60, 2), 1, 1, 7, 7, 61, 2),
}


def all_arenas():
    return {name: bytes(build()) for name, build in ARENAS.items()}


if __name__ == "__main__":
    HERE.mkdir(exist_ok=True)
    for name, arena in all_arenas().items():
        (HERE / (name + ".img")).write_bytes(arena)
        (HERE / (name + ".txt")).write_text(model.report(arena))

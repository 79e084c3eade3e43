"""An independent model of the arena format: checksums, making, opening and the report.

It is written from the rules alone and shares no code with the library; tests compare the two byte by byte.
Arenas are bytearrays, tables are lists of records; refusals are their numbers.
"""
import functools
import struct
from dataclasses import dataclass, field
from typing import NamedTuple

SIGNATURE = b"BTT_ARENA_INFO\0\0"
BLOCK = 4096
MAX_LANES = 256
REPORT_LIMIT = 65536
# The bytes of a sector that are allowed.
SECTOR_SIZES = (512, 520, 528, 4096, 4104)
# The layout in which the programs and the replay open.
PROGRAM_LAYOUT = 16


def fletcher64(words):
    low = high = 0
    for word in words:
        low = (low + word) & 0xFFFFFFFF
        high = (high + low) & 0xFFFFFFFF
    return high << 32 | low


@functools.lru_cache(maxsize=64)
def checksum(block):
    """The checksum of an info block, its own field counted as zero."""
    words = list(struct.unpack("<1024I", block))
    words[1022] = words[1023] = 0
    return fletcher64(words)


def sound(block):
    if len(block) != BLOCK or block[:16] != SIGNATURE:
        return False
    return struct.unpack_from("<Q", block, 4088)[0] == checksum(block)


@dataclass
class Figures:
    size: int
    sectors: int
    internal: int
    blocks: int
    lanes: int
    data: int
    map: int
    flog: int
    copy: int


def length_allowed(n):
    return n % 4096 == 0 and 20480 <= n <= 16777216


def layout_allowed(layout):
    """Whether the second half of a lane may stand at this byte of the lane."""
    return layout in (16, 32)


def internal_size(size):
    """The bytes of a block: those of a sector, rounded up to a multiple of 64."""
    return (size + 63) // 64 * 64


def sizes_allowed(size, sectors, lanes):
    return size in SECTOR_SIZES and 1 <= lanes <= MAX_LANES and sectors >= lanes


def figures_allowed(f, n):
    starts = (f.data, f.map, f.flog, f.copy)
    return (
        sizes_allowed(f.size, f.sectors, f.lanes)
        and f.internal == internal_size(f.size)
        and f.blocks == f.sectors + f.lanes
        and all(start % 4096 == 0 for start in starts)
        and f.data >= 4096
        and f.data + f.blocks * f.internal <= f.map
        and f.map + 4 * f.sectors <= f.flog
        and f.flog + 64 * f.lanes <= f.copy
        and f.copy == n - 4096
    )


def made_figures(size, sectors, lanes):
    def after(end):
        return (end + 4095) // 4096 * 4096

    blocks, internal = sectors + lanes, internal_size(size)
    map_start = after(4096 + blocks * internal)
    flog = after(map_start + 4 * sectors)
    copy = after(flog + 64 * lanes)
    return Figures(size, sectors, internal, blocks, lanes, 4096, map_start, flog, copy)


def info_block(f, first, second, flags=0, version=(2, 0), info_size=4096, next_arena=0, unnamed=b""):
    block = bytearray(BLOCK)
    block[0:16] = SIGNATURE
    block[16:32] = first
    block[32:48] = second
    struct.pack_into("<IHHIIIIII", block, 48, flags, *version, f.size, f.sectors, f.internal, f.blocks, f.lanes, info_size)
    struct.pack_into("<QQQQQ", block, 80, next_arena, f.data, f.map, f.flog, f.copy)
    block[120 : 120 + len(unnamed)] = unnamed
    struct.pack_into("<Q", block, 4088, checksum(bytes(block)))
    return bytes(block)


def make(arena, size, sectors, lanes, first, second):
    """Makes an arena in place and returns the answer's number."""
    if not sizes_allowed(size, sectors, lanes):
        return 3
    f = made_figures(size, sectors, lanes)
    if not length_allowed(len(arena)) or len(arena) != f.copy + 4096:
        return 1
    if len(first) != 16 or len(second) != 16:
        return 10
    block = info_block(f, first, second)
    end = f.data + f.blocks * f.internal
    arena[0:4096] = block
    arena[end:] = bytes(len(arena) - end)
    for lane in range(lanes):
        struct.pack_into("<IIII", arena, f.flog + 64 * lane, lane, sectors + lane, sectors + lane, 1)
    arena[f.copy :] = block
    return 0


def made(size, sectors, lanes, first=bytes(16), second=bytes(16)):
    arena = bytearray(made_figures(size, sectors, lanes).copy + 4096)
    assert make(arena, size, sectors, lanes, first, second) == 0
    return arena


def decode(block):
    size, sectors, internal, blocks, lanes, info_size = struct.unpack_from("<IIIIII", block, 56)
    next_arena, data, map_start, flog, copy = struct.unpack_from("<QQQQQ", block, 80)
    flags, major, minor = struct.unpack_from("<IHH", block, 48)
    return Figures(size, sectors, internal, blocks, lanes, data, map_start, flog, copy), flags, (major, minor), info_size, next_arena


def counting_block(arena):
    """The info block that counts, or None."""
    for block in (bytes(arena[:4096]), bytes(arena[-4096:])):
        if sound(block):
            return block
    return None


def successor(sequence):
    return sequence % 3 + 1


def newer_half(first, second):
    """0 or 1, or None where there is none."""
    if first in (1, 2, 3) and second == 0:
        return 0
    if second in (1, 2, 3) and first == 0:
        return 1
    if first in (1, 2, 3) and second in (1, 2, 3) and first != second:
        return 0 if first == successor(second) else 1
    return None


def block_of(sector, word):
    return sector if word >> 30 == 0 else word & 0x3FFFFFFF


def sloppy_word(word):
    """Whether a map word has flags 00 and low bits that are not zero."""
    return word >> 30 == 0 and word & 0x3FFFFFFF != 0


def half_start(f, layout, lane, half):
    """Where a half of a lane begins, the layout being the distance between the two."""
    return f.flog + 64 * lane + layout * half


def padding(arena, f, layout, lane):
    """The bytes of a lane's 64 that are in neither half: those between the halves and those behind them."""
    first, second = half_start(f, layout, lane, 0), half_start(f, layout, lane, 1)
    return arena[first + 16 : second] + arena[second + 16 : first + 64]


def sloppy(arena, f, layout, words):
    """Whether one of these map words is sloppy, or a byte of the padding of a lane is not zero."""
    return any(sloppy_word(word) for word in words) or any(any(padding(arena, f, layout, lane)) for lane in range(f.lanes))


class Record(NamedTuple):
    """A lane's record in a table; block is an idle lane's free block, and the new block of a write in flight."""

    busy: int = 0
    block: int = 0
    half: int = 0
    sequence: int = 0
    sector: int = 0
    old: int = 0
    made: int = 0


@dataclass
class Opened:
    """What an opening answers and counts; if it is accepted, the record of each lane and the stores as (offset, value)."""

    number: int
    mended: int = 0
    figures: Figures = None
    layout: int = 0
    lanes: list = field(default_factory=list)
    stores: list = field(default_factory=list)


def newer_halves(arena, f, layout):
    """Each lane's newer half as (half, sector, old, new, sequence), or None where a lane has none that is in range."""
    halves = []
    for lane in range(f.lanes):
        pair = [struct.unpack_from("<4I", arena, half_start(f, layout, lane, half)) for half in (0, 1)]
        half = newer_half(pair[0][3], pair[1][3])
        if half is None:
            return None
        sector, old, new, sequence = pair[half]
        if sector >= f.sectors or old >= f.blocks or new >= f.blocks:
            return None
        halves.append((half, sector, old, new, sequence))
    return halves


def judge(arena, room, layout, records):
    """Judges an arena in a layout, lent so many bytes to work in and a table of so many records, and stores nothing."""
    if not layout_allowed(layout):
        return Opened(16)
    if not length_allowed(len(arena)):
        return Opened(1)
    block = counting_block(arena)
    if block is None:
        return Opened(2)
    f, flags, version, info_size, next_arena = decode(block)
    if version != (2, 0) or info_size != 4096 or next_arena != 0 or not figures_allowed(f, len(arena)):
        return Opened(3)
    if flags != 0:
        return Opened(4)
    if room < f.blocks:
        return Opened(5)
    if records < f.lanes:
        return Opened(21)
    halves = newer_halves(arena, f, layout)
    if halves is None:
        return Opened(6)
    words = list(struct.unpack_from("<%dI" % f.sectors, arena, f.map))
    if any(word >> 30 != 0 and word & 0x3FFFFFFF >= f.blocks for word in words):
        return Opened(7)
    if sloppy(arena, f, layout, words):
        return Opened(18)
    pending = [lane for lane, h in enumerate(halves) if block_of(h[1], words[h[1]]) == h[2]]
    mended = list(words)
    for lane in pending:
        mended[halves[lane][1]] = 0xC0000000 + halves[lane][3]
    owned = [block_of(s, w) for s, w in enumerate(mended)] + [h[2] for h in halves]
    if len({halves[lane][1] for lane in pending}) != len(pending) or sorted(owned) != list(range(f.blocks)):
        return Opened(8)
    lanes = [Record(0, old, 1 - half, successor(sequence)) for half, _, old, _, sequence in halves]
    stores = [(f.map + 4 * halves[lane][1], 0xC0000000 + halves[lane][3]) for lane in pending]
    return Opened(0, len(pending), f, layout, lanes, stores)


def cut_open(arena, work, layout, table, k):
    """Opens in place, making at most k stores; work is cleared as the rules say, and the table is only measured."""
    opened = judge(arena, len(work), layout, len(table))
    if opened.number in (0, 21, 6, 7, 18, 8):
        blocks = decode(counting_block(arena))[0].blocks
        work[:blocks] = bytes(blocks)
    for offset, value in opened.stores[:k]:
        struct.pack_into("<I", arena, offset, value)
    return opened


def open_arena(arena, work, layout, table):
    """Opens in place; an accepted opening sets the records of the lanes and leaves those past them."""
    opened = cut_open(arena, work, layout, table, MAX_LANES)
    table[: len(opened.lanes)] = opened.lanes
    return opened


def report(data):
    """The report on the bytes of an arena."""
    if len(data) > REPORT_LIMIT:
        return "refused 1\n"
    opened = open_arena(bytearray(data), bytearray(128), PROGRAM_LAYOUT, [Record()] * MAX_LANES)
    if opened.number:
        return "refused %d\n" % opened.number
    f = opened.figures
    lines = ["sector bytes %d" % f.size, "sectors %d" % f.sectors, "lanes %d" % f.lanes, "mended %d" % opened.mended]
    lines += ["lane %d free %d next %d" % (i, lane.block, lane.sequence) for i, lane in enumerate(opened.lanes)]
    return "\n".join(lines + ["opened"]) + "\n"

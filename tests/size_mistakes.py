"""Mistakes of the sizes for mistakes.py: edits of the model's text, each the text that a mistake takes the place of and the text it has instead."""

ALLOWED_SIZES = "SECTOR_SIZES = (512, 520, 528, 4096, 4104)"
SIZE_JUDGED = "return size in SECTOR_SIZES and"
ROUNDED = "return (size + 63) // 64 * 64"
PAIR_JUDGED = "and f.internal == internal_size(f.size)"
DATA_END = "and f.data + f.blocks * f.internal <= f.map"
MAP_START = "map_start = after(4096 + blocks * internal)"
MADE = "return Figures(size, sectors, internal, blocks, lanes, 4096, map_start, flog, copy)"
ZEROED_FROM = "    end = f.data + f.blocks * f.internal\n"
COPY_MADE = "    arena[f.copy :] = block\n"
STORED = "    for offset, value in opened.stores[:k]:\n"
FOUND = "    opened = judge(arena, len(work), layout, len(table))\n"
FIGURES = "    f = opened.figures\n"
GIVEN = "return Opened(0, len(pending), f, layout, lanes, stores)"


def zeroed(blocks, indent, f="f"):
    """A line that zeroes the rest of each of these blocks."""
    rest = "bytes({0}.internal - {0}.size)".format(f)
    place = "slice({0}.data + {0}.internal * b + {0}.size, {0}.data + {0}.internal * (b + 1))".format(f)
    return "%sfor b in %s:\n%s    arena[%s] = %s\n" % (indent, blocks, indent, place, rest)


def pair_judged(condition):
    return PAIR_JUDGED.replace("f.internal == internal_size(f.size)", condition)


# Mistakes of figures, making and opening, by name.
MODEL_MISTAKES = {
    "size: any multiple of 8 up to 576 passes": (SIZE_JUDGED, "return (size % 8 == 0 and 512 <= size <= 576 or size in SECTOR_SIZES) and"),
    "size: any multiple of 4 passes": (SIZE_JUDGED, "return size % 4 == 0 and 512 <= size <= 4104 and"),
    "size: an internal size passes as a sector size": (SIZE_JUDGED, "return (size in SECTOR_SIZES or size in (576, 4160)) and"),
    "size: the low 16 bits judged": (SIZE_JUDGED, "return size & 0xFFFF in SECTOR_SIZES and"),
    "size: the low 31 bits judged": (SIZE_JUDGED, "return size & 0x7FFFFFFF in SECTOR_SIZES and"),
    "size: rounded to 8": (ROUNDED, "return (size + 7) // 8 * 8"),
    "size: rounded to 16": (ROUNDED, "return (size + 15) // 16 * 16"),
    "size: rounded to 32": (ROUNDED, "return (size + 31) // 32 * 32"),
    "size: rounded to 128": (ROUNDED, "return (size + 127) // 128 * 128"),
    "size: rounded to 512": (ROUNDED, "return (size + 511) // 512 * 512"),
    "size: rounded to 4,096": (ROUNDED, "return size if size == 512 else (size + 4095) // 4096 * 4096"),
    "size: rounded down": (ROUNDED, "return size // 64 * 64"),
    "size: rounded to the nearest": (ROUNDED, "return (size + 32) // 64 * 64"),
    "size: a multiple of 64 rounded too": (ROUNDED, "return (size + 64) // 64 * 64"),
    "size: 4,104 rounded to 4,608": (ROUNDED, "return 4608 if size == 4104 else (size + 63) // 64 * 64"),
    "size: 528 rounded to 640": (ROUNDED, "return 640 if size == 528 else (size + 63) // 64 * 64"),
    "size: the pair not judged": (PAIR_JUDGED, ""),
    "size: one size for both passes": (PAIR_JUDGED, pair_judged("f.internal in (f.size, internal_size(f.size))")),
    "size: 520 with 520 passes": (PAIR_JUDGED, pair_judged("(f.internal == internal_size(f.size) or f.size == f.internal == 520)")),
    "size: any greater internal size passes": (PAIR_JUDGED, pair_judged("f.internal >= internal_size(f.size)")),
    "size: any smaller internal size passes": (PAIR_JUDGED, pair_judged("f.internal <= internal_size(f.size)")),
    "size: any multiple of 64 that is enough passes": (PAIR_JUDGED, pair_judged("f.internal % 64 == 0 and f.internal >= f.size")),
    "size: the internal size of any pair passes": (PAIR_JUDGED, pair_judged("f.internal in (512, 576, 4096, 4160)")),
    "size: 512 with 576 passes": (PAIR_JUDGED, pair_judged("f.internal in (internal_size(f.size), internal_size(f.size + 8))")),
    "size: the internal size's low 16 bits judged": (PAIR_JUDGED, pair_judged("f.internal & 0xFFFF == internal_size(f.size)")),
    "size: the end of the data by the sector size": (DATA_END, DATA_END.replace("internal", "size")),
    "size: the end of the data without the last block": (DATA_END, DATA_END.replace("<= f.map", "- f.internal <= f.map")),
    "size: the map placed by the sector size": (MAP_START, MAP_START.replace("internal", "size")),
    "size: made with the sector size for both": (MADE, MADE.replace("internal", "size")),
    "size: the sizes exchanged": (MADE, MADE.replace("size, sectors, internal", "internal, sectors, size")),
    "size: making zeroes from the sectors' end": (ZEROED_FROM, ZEROED_FROM.replace("internal", "size")),
    "size: making zeroes the last block's rest": (ZEROED_FROM, ZEROED_FROM.replace("internal", "internal - f.internal + f.size")),
    "size: making zeroes each rest": (COPY_MADE, COPY_MADE + zeroed("range(f.blocks)", "    ")),
    "size: making zeroes the first rest": (COPY_MADE, COPY_MADE + zeroed("[0]", "    ")),
    "size: opening zeroes each rest": (FOUND, FOUND + FIGURES + zeroed("range(f.blocks if f else 0)", "    ")),
    "size: opening zeroes the rests of free blocks": (FOUND, FOUND + FIGURES + zeroed("[lane.block for lane in opened.lanes]", "    ")),
    "size: mending zeroes the new block's rest": (STORED, STORED + zeroed("[value & 0x3FFFFFFF]", "        ", "opened.figures")),
    "size: the handle has the sector size for both": (GIVEN, "f.internal = f.size\n    " + GIVEN),
    "size: the handle has the internal size for both": (GIVEN, "f.size = f.internal\n    " + GIVEN),
}
MODEL_MISTAKES.update(("size: %d refused" % size, (SIZE_JUDGED, SIZE_JUDGED + " size != %d and" % size)) for size in (512, 520, 528, 4096, 4104))
MODEL_MISTAKES.update(
    ("size: sectors of %d pass" % size, (ALLOWED_SIZES, ALLOWED_SIZES.replace(")", ", %d)" % size)))
    for size in (0, 64, 508, 513, 516, 524, 532, 544, 576, 640, 1024, 1040, 4092, 4100, 4108, 4112, 4160, 4224, 4608)
)

PLACED = "return f.data + f.internal * record.block + 4 * k,"
REST = " + f.internal - f.size "
READ_FROM = "place = f.data + f.internal * model.block_of(sector, word)"
READ = "buffer[:] = arena[place : place + f.size] if word & DATA_WORD == DATA_WORD else bytes(f.size)\n"
WORDS = "k, words = record.made, f.size // 4"
FULL = "if made + 1 < f.size // 4 + 5:"
MOST_MADE = "or made >= f.size // 4 + 5"
LENGTH = "return length != f.size"
STEP_JUDGED = 'refusal("step", arena, handle, table, lane, 0, len(buffer))'
STARTED = "        table[lane] = started("
STEPPED = "        table[lane] = stepped(f, record)\n"
WRITTEN = "        for offset, value in stores:\n            put(arena, offset, value)\n"
NEXT = "    f = handle.figures\n    return 0, store("
JUDGED = "not model.figures_allowed(f, length)"
BY_INTERNAL = "{512: 512, 576: 520, 4096: 4096, 4160: 4104}.get(f.internal, 0)"


def counted(size):
    """Edits by which a write stores the words of that size."""
    return WORDS, WORDS.replace("f.size", size), FULL, FULL.replace("f.size", size), MOST_MADE, MOST_MADE.replace("f.size", size)


def step_zeroes(condition, block):
    """A step that zeroes the rest of a block too where this holds."""
    return STEPPED, STEPPED + "        if %s:\n" % condition + zeroed("[%s]" % block, "            ")


# Mistakes of the calls, by name.
CALL_MISTAKES = {
    "size: data placed by the sector size": (PLACED, PLACED.replace("internal", "size"), READ_FROM, READ_FROM.replace("internal", "size")),
    "size: stores placed by the sector size": (PLACED, PLACED.replace("internal", "size")),
    "size: reads placed by the sector size": (READ_FROM, READ_FROM.replace("internal", "size")),
    "size: a block's rest is before its sector": (PLACED, PLACED.replace("+ 4", REST + "+ 4"), READ_FROM, READ_FROM + REST),
    "size: the next store told by the sector size": (NEXT, NEXT.replace("handle.figures", "replace(handle.figures, internal=handle.figures.size)")),
    "size: a write stores the whole block": counted("f.internal"),
    "size: a write stores up to a multiple of 16": counted("(f.size + 15 & ~15)"),
    "size: a write stores up to a multiple of 512": counted("(f.size & ~511)"),
    "size: a write of 528 has the stores of 520": counted("(520 if f.size == 528 else f.size)"),
    "size: internal/4 + 5 steps": (FULL, FULL.replace("size", "internal")),
    "size: 133 steps below 4,096": (FULL, "if made + 1 < (f.size if f.size >= 4096 else 512) // 4 + 5:"),
    "size: made judged by internal/4 + 5": (MOST_MADE, MOST_MADE.replace("size", "internal")),
    "size: made judged by 133 below 4,096": (MOST_MADE, "or made >= (f.size if f.size >= 4096 else 512) // 4 + 5"),
    "size: made judged by 1,029": (MOST_MADE, "or made >= 1029"),
    "size: a buffer of the internal size": (LENGTH, LENGTH.replace("size", "internal")),
    "size: a buffer of either size": (LENGTH, "return length not in (f.size, f.internal)"),
    "size: a buffer up to the internal size": (LENGTH, "return not f.size <= length <= f.internal"),
    "size: a buffer of 512 bytes will do": (LENGTH, "return length != f.size and length != f.size & ~511"),
    "size: a step with the internal size": (STEP_JUDGED, STEP_JUDGED.replace("buffer)", "buffer) - handle.figures.internal + handle.figures.size")),
    "size: a read gives the whole block": (READ, READ.replace("f.size] if", "f.internal] if")),
    "size: a read gives whole blocks of zeroes": (READ, READ.replace("bytes(f.size)", "bytes(f.internal)")),
    "size: a read gives 512 bytes": (READ, READ + "        buffer[f.size & ~511 :] = bytes(f.size & 511)\n"),
    "size: a read of zeroes leaves what is past 512": (READ, READ.replace("bytes(f.size)", "bytes(f.size & ~511) + buffer[f.size & ~511 :]")),
    "size: a read zeroes the rest": (READ, READ + zeroed("[model.block_of(sector, word)]", "        ")),
    "size: a start zeroes the rest": (STARTED, zeroed("[table[lane].block]", "        ", "handle.figures") + STARTED),
    "size: a first step zeroes the rest": step_zeroes("record.made == 0", "record.block"),
    "size: the last data step zeroes the rest": step_zeroes("record.made == f.size // 4 - 1", "record.block"),
    "size: the last step zeroes the rest": step_zeroes("record.made == f.size // 4 + 4", "record.block"),
    "size: the last step zeroes the old block's rest": step_zeroes("record.made == f.size // 4 + 4", "record.old"),
    "size: a whole write zeroes the rest": (WRITTEN, WRITTEN + zeroed("[stores[-1][1] & 0x3FFFFFFF]", "        ", "handle.figures")),
    "size: a whole write zeroes the old block's rest": (WRITTEN, WRITTEN + zeroed("[table[lane].block]", "        ", "handle.figures")),
    "size: the handle's internal size not judged": (JUDGED, JUDGED.replace("(f", "(replace(f, internal=model.internal_size(f.size))")),
    "size: the handle's sector size not judged": (JUDGED, JUDGED.replace("(f", "(replace(f, size=%s)" % BY_INTERNAL)),
}

LENT = "    return calls.step(arena, handle, table, lane, lent(index, handle.figures.size)), handle\n"
WORDS_LENT, SIZE = "lent(index, handle.figures.size)", "handle.figures.size"

# Mistakes of the replay, by name.
REPLAY_MISTAKES = {
    "size: a replay lends the internal size": (LENT, LENT.replace("figures.size", "figures.internal")),
    "size: a replay lends 512 or 4,096 bytes": (LENT, LENT.replace("handle.figures.size", "512 if handle.figures.size < 4096 else 4096")),
    "size: a replay's sector is zeroes past 512": (LENT, LENT.replace(WORDS_LENT, "lent(index, %s & ~511) + bytes(%s & 511)" % (SIZE, SIZE))),
    "size: a replay counts words with the rest": (LENT, LENT.replace("index,", "index + (handle.figures.internal - %s) // 4," % SIZE)),
}

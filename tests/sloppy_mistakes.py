"""Mistakes of rule 18 for mistakes.py: edits of the model's text, each the text that a mistake takes the place of and the text it has instead."""
import calls
import random_arenas

JUDGED = "    if sloppy(arena, f, layout, words):\n        return Opened(18)\n"
BLOCKS_JUDGED = "    if any(word >> 30 != 0 and word & 0x3FFFFFFF >= f.blocks for word in words):\n        return Opened(7)\n"
WORDS = '    words = list(struct.unpack_from("<%dI" % f.sectors, arena, f.map))\n'
LOST = "        return Opened(8)\n"
HALVES = "    halves = newer_halves(arena, f, layout)\n"
LOST_LANE = "    if halves is None:\n        return Opened(6)\n"
LANE_READ = "        halves.append((half, sector, old, new, sequence))\n"
ROOM = "    if room < f.blocks:\n"
FLAGS = "    if flags != 0:\n"
LOW_BITS = "return word >> 30 == 0 and word & 0x3FFFFFFF != 0"
ANY_WORD = "any(sloppy_word(word) for word in words)"
ANY_PADDING = "any(any(padding(arena, f, layout, lane)) for lane in range(f.lanes))"
PADDING = "return arena[first + 16 : second] + arena[second + 16 : first + 64]"
OWNED = "    owned = ["
COPY_MADE = "    arena[f.copy :] = block\n"
WORD_BY_WORD = """    for word in words:
        if word >> 30 != 0 and word & 0x3FFFFFFF >= f.blocks:
            return Opened(7)
        if sloppy_word(word):
            return Opened(18)
"""


def left_out(byte, layout):
    """A return of the padding in which one byte of it passes in one layout."""
    rest = "byte >= 16 and not 0 <= byte - layout < 16 and (byte, layout) != (%d, %d)" % (byte, layout)
    return "return [value for byte, value in enumerate(arena[first : first + 64]) if %s]" % rest


def refused(condition):
    return "    if %s:\n        return Opened(18)\n" % condition


# Mistakes of opening and making, by name.
MODEL_MISTAKES = {
    "18: judged after 8": (JUDGED, "", LOST, LOST + JUDGED),
    "18: words judged after 8": (JUDGED, refused(ANY_PADDING), LOST, LOST + refused(ANY_WORD)),
    "18: padding judged after 8": (JUDGED, refused(ANY_WORD), LOST, LOST + refused(ANY_PADDING)),
    "18: judged before 7": (JUDGED, "", BLOCKS_JUDGED, JUDGED + BLOCKS_JUDGED),
    "18: words judged before 7": (BLOCKS_JUDGED, refused(ANY_WORD) + BLOCKS_JUDGED),
    "18: padding judged before 7": (BLOCKS_JUDGED, refused(ANY_PADDING) + BLOCKS_JUDGED),
    "18: judged with 7, word by word": (BLOCKS_JUDGED, WORD_BY_WORD),
    "18: judged before 6": (HALVES, WORDS + JUDGED + HALVES),
    "18: words judged before 6": (HALVES, WORDS + refused(ANY_WORD) + HALVES),
    "18: padding judged before 6": (HALVES, refused(ANY_PADDING) + HALVES),
    "18: padding judged with 6, lane by lane": (
        LANE_READ, LANE_READ + "        if any(padding(arena, f, layout, lane)):\n            return 18\n",
        LOST_LANE, "    if halves in (None, 18):\n        return Opened(halves or 6)\n",
    ),
    "18: judged before 5": (ROOM, WORDS + JUDGED + ROOM),
    "18: judged before 4": (FLAGS, WORDS + JUDGED + FLAGS),
    "18: low bits ignored": (LOW_BITS, "return False"),
    "18: bit 29 ignored": (LOW_BITS, LOW_BITS.replace("0x3", "0x1")),
    "18: 16 low bits judged": (LOW_BITS, LOW_BITS.replace("0x3FFF", "0x")),
    "18: bit 0 ignored": (LOW_BITS, LOW_BITS.replace("FFF !", "FFE !")),
    "18: words with any flags judged": (LOW_BITS, LOW_BITS.replace("word >> 30 == 0 and ", "")),
    "18: words with flags 01 judged": (LOW_BITS, LOW_BITS.replace(">> 30", ">> 31")),
    "18: words with flags 10 judged": (LOW_BITS, LOW_BITS.replace("word >> 30", "word >> 30 & 1")),
    "18: the first sector's word left out": (ANY_WORD, ANY_WORD.replace("words", "words[1:]")),
    "18: the last sector's word left out": (ANY_WORD, ANY_WORD.replace("words", "words[:-1]")),
    "18: a sector's own number passes": (ANY_WORD, "any(sloppy_word(word) and word != sector for sector, word in enumerate(words))"),
    "18: low bits below I pass": (ANY_WORD, "any(sloppy_word(word) and word >= f.blocks for word in words)"),
    "18: low bits from I on pass": (ANY_WORD, "any(sloppy_word(word) and word < f.blocks for word in words)"),
    "18: the mended map judged": (JUDGED, "", OWNED, JUDGED.replace("words", "mended") + OWNED),
    "18: padding ignored": (ANY_PADDING, "False"),
    "18: padding of the first lane left out": (ANY_PADDING, ANY_PADDING.replace("range(", "range(1, ")),
    "18: padding of the last lane left out": (ANY_PADDING, ANY_PADDING.replace("f.lanes", "f.lanes - 1")),
    "18: padding of lanes between left out": (ANY_PADDING, ANY_PADDING.replace("range(f.lanes)", "{0, f.lanes - 1}")),
    "18: padding from the second word behind the halves": (PADDING, PADDING.replace("second + 16", "second + 20")),
    "18: padding to byte 59": (PADDING, PADDING.replace("64", "60")),
    "18: even bytes of padding pass": (PADDING, "return [byte & 1 for byte in arena[first + 16 : second] + arena[second + 16 : first + 64]]"),
    "18: the second half judged as padding": (PADDING, PADDING.replace("second + 16", "second")),
    "18: the second half's sequence judged as padding": (PADDING, PADDING.replace("second + 16", "second + 12")),
    "18: the first half's sequence judged as padding": (PADDING, PADDING.replace("first + 16", "first + 12")),
    "18: 64 bytes after the last lane judged": (ANY_PADDING, ANY_PADDING.replace("f.lanes", "f.lanes + 1")),
    "18: the byte after each lane judged": (PADDING, PADDING.replace("64", "65")),
    "18: the rest of the flog's page judged": (JUDGED, JUDGED + refused("any(arena[f.flog + 64 * f.lanes : f.copy])")),
    "18: bytes behind the map judged": (JUDGED, JUDGED + refused("any(arena[f.map + 4 * f.sectors : f.flog])")),
    "18: bytes behind the data judged": (JUDGED, JUDGED + refused("any(arena[f.data + f.blocks * f.internal : f.map])")),
    "18: bytes before the data judged": (JUDGED, JUDGED + refused("any(arena[4096 : f.data])")),
    "18: unnamed info bytes judged": (JUDGED, JUDGED + refused("any(block[120:4088])")),
    "18: the work buffer is kept": ("if opened.number in (0, 21, 6, 7, 18, 8):", "if opened.number in (0, 21, 6, 7, 8):"),
    "18: answered with 7": (JUDGED, JUDGED.replace("18", "7")),
    "18: making leaves a lane's padding": (
        "    end = f.data + f.blocks * f.internal\n", "    end, kept = f.data + f.blocks * f.internal, arena[f.flog + 32 : f.flog + 64]\n",
        COPY_MADE, COPY_MADE + "    arena[f.flog + 32 : f.flog + 64] = kept\n",
    ),
}
MODEL_MISTAKES.update(
    ("18: padding byte %d left out in layout %d" % (byte, layout), (PADDING, left_out(byte, layout)))
    for layout, padding in random_arenas.PADDING.items()
    for byte in padding
)

WORD_JUDGED = "return model.sloppy_word(word)"
READ = 'number = refusal("read", arena, handle, table, 0, sector, len(buffer))\n'
START = 'number = refusal("start", arena, handle, table, lane, sector)\n    if number == 0:'
WRITE = 'number = refusal("write", arena, handle, table, lane, sector, len(buffer))\n    if number == 0:'
STEP = 'number = refusal("step", arena, handle, table, lane, 0, len(buffer))'
STEP_ORDER = '"step": %s' % (calls.ORDER["step"],)
STEP_JUDGES = STEP_ORDER, STEP_ORDER.replace(")", ", 18)"), STEP, STEP.replace("lane, 0", "lane, sum(r.sector for r in table[lane : lane + 1])")
BEFORE_LAST = "\n    if number == 18 and table[lane].made < handle.figures.size // 4 + 4:\n        number = 0"

# Mistakes of the calls, by name.
CALL_MISTAKES = {
    "18: a step judges its word": STEP_JUDGES,
    "18: a step judges its word at the last store": (*STEP_JUDGES[:3], STEP_JUDGES[3] + BEFORE_LAST),
    "18: calls judge the padding too": (WORD_JUDGED, WORD_JUDGED + " or any(any(model.padding(arena, f, handle.layout, n)) for n in range(f.lanes))"),
    "18: calls judge every word": (WORD_JUDGED, "return any(model.sloppy_word(map_word(arena, f, n)) for n in range(f.sectors))"),
    "18: calls judge the first sector's word": (WORD_JUDGED, "return model.sloppy_word(map_word(arena, f, 0))"),
    "18: calls let a sector's own number pass": (WORD_JUDGED, WORD_JUDGED + " and word != sector"),
    "18: a refused read gives zeroes": (READ, READ + "    if number == 18:\n        buffer[:] = bytes(len(buffer))\n"),
    "18: a refused start starts": (START, START.replace("== 0", "in (0, 18)")),
    "18: a refused write stores": (WRITE, WRITE.replace("== 0", "in (0, 18)")),
}


def orders():
    """Each call's order without 18, and with 18 before each number that it comes after; for one word 7, 18 and 15 shut each other out."""
    for call, order in calls.ORDER.items():
        if 18 not in order:
            continue
        rest = tuple(number for number in order if number != 18)
        wrong = {"18: not judged by a %s" % call: rest}
        for at, number in enumerate(order[: order.index(7)]):
            wrong["18: before %d at a %s" % (number, call)] = rest[:at] + (18,) + rest[at:]
        for name, given in wrong.items():
            yield name, ('"%s": %s' % (call, order), '"%s": %s' % (call, given))


CALL_MISTAKES.update(orders())

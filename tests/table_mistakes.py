"""Mistakes of the table and of the number of lanes for mistakes.py: edits of the model's text, each the text that a mistake takes the place of and
the text it has instead."""
import calls

SHORT = "    if records < f.lanes:\n        return Opened(21)\n"
ROOM = "    if room < f.blocks:\n"
FLAGS = "    if flags != 0:\n"
FIGURES = "    if version != (2, 0) or"
LIMIT = "1 <= lanes <= MAX_LANES"
MADE = "    if not sizes_allowed(size, sectors, lanes):\n        return 3\n"
ALLOWED = "not figures_allowed(f, len(arena)):"
FOUND = "    opened = judge(arena, len(work), layout, len(table))\n"
CLEARED = "    if opened.number in (0, 21, 6, 7, 18, 8):\n"
BLOCKS = "        blocks = decode(counting_block(arena))[0].blocks\n"
OPENED = "    opened = cut_open(arena, work, layout, table, MAX_LANES)\n"
SET = "    table[: len(opened.lanes)] = opened.lanes\n"
ZEROED = "table[:] = [Record()] * len(table)\n"


def short(condition):
    return SHORT.replace("records < f.lanes", condition)


def also(line):
    """An accepted opening that does one thing more with its table, n being the number of lanes."""
    return SET, SET + "    n = len(opened.lanes)\n    if n:\n        %s\n" % line


def set_to(records):
    """An opening that sets the records of the lanes to these."""
    return SET, SET.replace("= opened.lanes", "= " + records)


def upon(numbers, line):
    """An opening that does one thing more with its table where it is refused with one of these numbers."""
    return SET, "    if opened.number in %s:\n        %s" % (numbers, line) + SET


def cut(condition, line):
    """A cut opening that does one thing with its table where this holds; k is 256 in an opening."""
    return FOUND, FOUND + "    if k != MAX_LANES and %s:\n        %s\n" % (condition, line)


# Mistakes of making and opening, by name.
MODEL_MISTAKES = {
    "table: not judged at opening": (SHORT, ""),
    "table: judged before 5": (SHORT, "", ROOM, SHORT + ROOM),
    "table: judged before 4": (SHORT, "", FLAGS, SHORT + FLAGS),
    "table: judged before 3": (SHORT, "", FIGURES, SHORT + FIGURES),
    "table: one record fewer will do": (SHORT, short("records < f.lanes - 1")),
    "table: one record more is asked": (SHORT, short("records <= f.lanes")),
    "table: any but an empty one will do": (SHORT, short("records == 0")),
    "table: its bytes are counted": (SHORT, short("28 * records < f.lanes")),
    "table: its length is taken for bytes": (SHORT, short("records // 28 < f.lanes")),
    "table: 16 records suffice": (SHORT, short("records < min(f.lanes, 16)")),
    "table: 255 records suffice": (SHORT, short("records < min(f.lanes, 255)")),
    "table: 256 records are asked": (SHORT, short("records < MAX_LANES")),
    "table: a record for each sector is asked": (SHORT, short("records < f.sectors")),
    "table: a longer one is refused": (SHORT, short("records != f.lanes")),
    "table: more than 256 records are refused": (SHORT, short("not f.lanes <= records <= MAX_LANES")),
    "table: its length is counted in 8 bits": (SHORT, short("records % 256 < f.lanes % 256")),
    "table: a short one is answered with 5": (SHORT, SHORT.replace("21", "5")),
    "table: a short one is answered with 3": (SHORT, SHORT.replace("21", "3")),
    "table: a short one is answered with 16": (SHORT, SHORT.replace("21", "16")),
    "table: a short one has a count": (SHORT, SHORT.replace("21", "21, 1")),
    "table: the work buffer is kept on 21": (CLEARED, CLEARED.replace("21, ", "")),
    "table: a byte for each lane is cleared on 21": (BLOCKS, BLOCKS + "        blocks = blocks if opened.number != 21 else min(blocks, 4)\n"),
    "table: the whole work buffer is cleared on 21": (BLOCKS, BLOCKS + "        blocks = blocks if opened.number != 21 else len(work)\n"),
    "table: cut openings do not judge it": (FOUND, FOUND.replace("len(table)", "len(table) if k == MAX_LANES else MAX_LANES")),
    "table: cut openings with no store do not judge it": (FOUND, FOUND.replace("len(table)", "len(table) if k else MAX_LANES")),
    "table: openings do not judge it": (FOUND, FOUND.replace("len(table)", "MAX_LANES if k == MAX_LANES else len(table)")),
    "table: all records past the lanes cleared": also("table[n:] = [Record()] * (len(table) - n)"),
    "table: the record past the last lane cleared": also("table[n : n + 1] = [Record()] * len(table[n : n + 1])"),
    "table: the last record cleared": also("table[-1] = table[-1] if len(table) == n else Record()"),
    "table: records past the lanes made idle": also("table[n:] = [record._replace(busy=0) for record in table[n:]]"),
    "table: 16 records cleared at least": also("table[n:16] = [Record()] * len(table[n:16])"),
    "table: a record set past the lanes": also("table[n : n + 1] = [table[0]] * len(table[n : n + 1])"),
    "table: a cut opening fills it": cut("True", SET.strip()),
    "table: a cut opening with no store fills it": cut("k == 0", SET.strip()),
    "table: a cut opening with all stores fills it": cut("k >= opened.mended > 0", SET.strip()),
    "table: a cut opening zeroes it": cut("opened.number == 0", ZEROED.strip()),
    "table: a refused cut opening zeroes it": cut("opened.number", ZEROED.strip()),
    "table: a cut opening clears what is past the lanes": cut("opened.lanes", "n = len(opened.lanes); table[n:] = [Record()] * len(table[n:])"),
    "table: a refused opening zeroes it": upon("range(1, 22)", ZEROED),
    "table: a refused opening sets its first record": upon("range(1, 22)", "table[:1] = [Record(0, 0, 0, 1)] * len(table[:1])\n"),
    "table: opening sets the first record only": set_to("opened.lanes[:1] + table[1 : len(opened.lanes)]"),
    "table: opening leaves the first record": set_to("table[:1] * bool(opened.lanes) + opened.lanes[1:]"),
    "table: opening leaves the last record": set_to("opened.lanes[:-1] + table[len(opened.lanes) - 1 : len(opened.lanes)] * bool(opened.lanes)"),
    "table: opening sets 16 records at most": set_to("opened.lanes[:16] + table[16 : len(opened.lanes)]"),
    "table: opening sets 255 records at most": set_to("opened.lanes[:255] + table[255 : len(opened.lanes)]"),
    "table: opening sets the records in falling order": set_to("opened.lanes[::-1]"),
    "table: opening keeps busy": set_to("[new._replace(busy=old.busy) for old, new in zip(table, opened.lanes)]"),
    "table: opening keeps sector and old": set_to("[new._replace(sector=old.sector, old=old.old) for old, new in zip(table, opened.lanes)]"),
    "table: opening keeps the stores made": set_to("[new._replace(made=old.made) for old, new in zip(table, opened.lanes)]"),
    "table: opening mends 16 lanes at most": (OPENED, OPENED.replace("MAX_LANES", "16")),
    "table: opening mends 255 lanes at most": (OPENED, OPENED.replace("MAX_LANES", "255")),
    "lanes: the low 8 bits judged": (LIMIT, "1 <= lanes & 0xFF"),
    "lanes: the low 16 bits judged": (LIMIT, "1 <= lanes & 0xFFFF <= MAX_LANES"),
    "lanes: the low 31 bits judged": (LIMIT, "1 <= lanes & 0x7FFFFFFF <= MAX_LANES"),
    "lanes: 257 are made": (MADE, MADE.replace("lanes)", "lanes - (lanes == 257))")),
    "lanes: 256 are not made": (MADE, MADE.replace("not", "lanes == 256 or not")),
    "lanes: 257 are opened": (ALLOWED, "f.lanes != 257 and " + ALLOWED),
    "lanes: 256 are not opened": (ALLOWED, "f.lanes == 256 or " + ALLOWED),
}
MODEL_MISTAKES.update(
    ("table: judged after %d" % number, (SHORT, "", "        return Opened(%d)\n" % number, "        return Opened(%d)\n" % number + SHORT))
    for number in (6, 7, 18, 8)
)
MODEL_MISTAKES.update(("table: an opening refused with %d zeroes it" % number, upon((number,), ZEROED)) for number in (*range(1, 9), 16, 18, 21))
MODEL_MISTAKES.update(
    ("lanes: the limit is %d" % limit, (LIMIT, "1 <= lanes <= %d" % limit)) for limit in (15, 16, 17, 48, 64, 255, 257, 258, 512, 2**16)
)

JUDGED = "return len(table) < f.lanes"
RECORDS = "any(bad_record(f, record) for record in table[: f.lanes])"
ANSWERED = "            return abs(number)\n"
OTHERS = "enumerate(table[: f.lanes]) if"
NO_SUCH_LANE = "return lane >= f.lanes"
BUSY = "or busy > 1"
STARTED = "        table[lane] = started(arena, handle.figures, table[lane], sector)\n"
STEPPED = "        table[lane] = stepped(f, record)\n"
WRITTEN = "        stores, table[lane] = whole(arena, handle, table, lane, sector, buffer)\n"
START = '    number = refusal("start", arena, handle, table, lane, sector)\n    if number == 0:\n'
STEP = '    number = refusal("step", arena, handle, table, lane, 0, len(buffer))\n'
WRITE = '    number = refusal("write", arena, handle, table, lane, sector, len(buffer))\n'
READ = '    number = refusal("read", arena, handle, table, 0, sector, len(buffer))\n'
LOOK = '    number = refusal("lane_record", arena, handle, table, lane)\n'
NEXT = '    number = refusal("next_store", arena, handle, table, lane)\n'
PAST = "table[handle.figures.lanes :] = [Record()] * len(table[handle.figures.lanes :])"
OTHER = "table[lane - 1] = table[lane - 1]._replace(%s) if lane else table[0]"


# A call that does not judge the table's length first must bear a lane without a record: it answers 11 where it would be accepted.
BEARS_SHORT = (
    "return table[lane].busy", "return any(record.busy for record in table[lane : lane + 1])",
    "return not table[lane].busy", "return not any(record.busy for record in table[lane : lane + 1])",
    ANSWERED + "    return 0\n", ANSWERED + "    return 0 if lane < len(table) or call == 'read' else 11\n",
)


def narrow(mask):
    """Calls that take only these bits of their lane."""
    return tuple(text for judged in (START, STEP, WRITE, LOOK, NEXT) for text in (judged, "    lane &= %d\n" % mask + judged))


def records(those):
    return RECORDS, RECORDS.replace("table[: f.lanes]", those)


def then(text, line, indent="        "):
    """A call that does one thing more where it is accepted."""
    return text, text + "%s%s\n" % (indent, line)


def own(fields):
    """A line that changes these fields of the record of the call's lane, r, if the table has it."""
    return "table[lane : lane + 1] = [r._replace(%s) for r in table[lane : lane + 1]]" % fields


def refused(text, line, numbers=""):
    """A call that does one thing with its table where it is refused."""
    judged, accepted, rest = text.partition("    if number == 0:\n")
    return text, judged + "    if number%s and table:\n        %s\n" % (numbers, line) + accepted + rest


# Mistakes of the calls, by name.
CALL_MISTAKES = {
    "table: one record fewer will do in a call": (JUDGED, JUDGED + " - 1"),
    "table: one record more is asked in a call": (JUDGED, "return len(table) <= f.lanes"),
    "table: any but an empty one will do in a call": (JUDGED, "return not table"),
    "table: its bytes are counted in a call": (JUDGED, "return 28 * len(table) < f.lanes"),
    "table: its length is taken for bytes in a call": (JUDGED, "return len(table) // 28 < f.lanes"),
    "table: a record for the call's lane is enough": (JUDGED, "return len(table) <= lane"),
    "table: 16 records suffice in a call": (JUDGED, "return len(table) < min(f.lanes, 16)"),
    "table: 256 records are asked in a call": (JUDGED, "return len(table) < 256"),
    "table: a longer one is refused in a call": (JUDGED, "return len(table) != f.lanes"),
    "table: its length is counted in 8 bits in a call": (JUDGED, "return len(table) % 256 < f.lanes % 256"),
    "table: a short one is answered with 16 in a call": (ANSWERED, ANSWERED.replace("abs(number)", "16 if number == 21 else abs(number)")),
    "table: a broken record is answered with 21": (ANSWERED, ANSWERED.replace("abs(number)", "21 if number == -16 else number")),
    "table: the record past the last lane is judged": records("table[: f.lanes + 1]"),
    "table: the last record is judged": records("table[: f.lanes] + table[-1:]"),
    "table: the first record is not judged": records("table[1 : f.lanes]"),
    "table: the last lane's record is not judged": records("table[: f.lanes - 1]"),
    "table: only 16 records are judged": records("table[: min(f.lanes, 16)]"),
    "table: only 255 records are judged": records("table[: min(f.lanes, 255)]"),
    "table: only the call's own record is judged": records("table[lane : lane + 1]"),
    "table: records of other lanes are judged only": records("table[:lane] + table[lane + 1 : f.lanes]"),
    "busy: 2 is taken as busy": (BUSY, "or busy > 2"),
    "busy: 3 is taken as busy": (BUSY, "or busy not in (0, 1, 3)"),
    "busy: 2^32 - 1 is taken as busy": (BUSY, "or 1 < busy < 2**32 - 1"),
    "busy: the low byte is judged": (BUSY, "or busy & 0xFF > 1"),
    "busy: the low 16 bits are judged": (BUSY, "or busy & 0xFFFF > 1"),
    "busy: the low 31 bits are judged": (BUSY, "or busy & 0x7FFFFFFF > 1"),
    "busy: 1 is refused": (BUSY, "or busy > 0"),
    "record: the low 16 bits of block are judged": ("block >= f.blocks\n", "block & 0xFFFF >= f.blocks\n"),
    "record: block may be I": ("block >= f.blocks\n", "block > f.blocks\n"),
    "record: block is below the sectors": ("block >= f.blocks\n", "block >= f.sectors\n"),
    "record: the low 16 bits of old are judged": ("or old >= f.blocks", "or old & 0xFFFF >= f.blocks"),
    "record: old may be I": ("or old >= f.blocks", "or old > f.blocks"),
    "record: old is below the sectors": ("or old >= f.blocks", "or old >= f.sectors"),
    "record: the low byte of half is judged": ("or half > 1", "or half & 0xFF > 1"),
    "record: half may be the layout": ("or half > 1", "or half not in (0, 1, 16, 32)"),
    "record: the low byte of sequence is judged": ("not 1 <= sequence <= 3", "not 1 <= sequence & 0xFF <= 3"),
    "record: sequence may be 4": ("1 <= sequence <= 3", "1 <= sequence <= 4"),
    "record: sector may be E": ("or sector >= f.sectors", "or sector > f.sectors"),
    "record: sector is below the blocks": ("or sector >= f.sectors", "or sector >= f.blocks"),
    "record: the low 16 bits of sector are judged": ("or sector >= f.sectors", "or sector & 0xFFFF >= f.sectors"),
    "record: the low 16 bits of made are judged": ("or made >= f.size // 4 + 5", "or made & 0xFFFF >= f.size // 4 + 5"),
    "lanes: counted by the table": (NO_SUCH_LANE, "return lane >= len(table)"),
    "lanes: 16 at most in a call": (NO_SUCH_LANE, "return lane >= min(f.lanes, 16)"),
    "lanes: 255 at most in a call": (NO_SUCH_LANE, "return lane >= min(f.lanes, 255)"),
    "lanes: the low 8 bits of a lane count": narrow(0xFF),
    "lanes: the low 16 bits of a lane count": narrow(0xFFFF),
    "lanes: the low 31 bits of a lane count": narrow(0x7FFFFFFF),
    "lanes: 13 looks at 16 lanes": (OTHERS, OTHERS.replace("f.lanes", "min(f.lanes, 16)")),
    "lanes: 13 passes over the last lane": (OTHERS, OTHERS.replace("f.lanes", "f.lanes - 1")),
    "lanes: 13 passes over the first lane": (OTHERS, OTHERS.replace(" if", " if other and")),
    "lanes: 13 looks at the record past the lanes": (OTHERS, OTHERS.replace("f.lanes", "f.lanes + 1")),
    "table: a start changes the lane before it": then(STARTED, OTHER % "busy=0"),
    "table: a start sets the last record too": then(STARTED, "table[-1] = table[lane]"),
    "table: a start clears what is past the lanes": then(STARTED, PAST),
    "table: a step changes the lane before it": then(STEPPED, OTHER % "made=0"),
    "table: a step clears what is past the lanes": then(STEPPED, PAST),
    "table: a last step clears what is past the lanes": then(STEPPED, "%s if not table[lane].busy else table[handle.figures.lanes :]" % PAST),
    "table: a last step makes every lane idle": then(STEPPED, "table[:] = [r._replace(busy=0) for r in table] if not table[lane].busy else table"),
    "table: a write changes the lane before it": then(WRITTEN, OTHER % "half=0"),
    "table: a write clears what is past the lanes": then(WRITTEN, PAST),
    "table: a write clears the first record's sector": then(WRITTEN, "table[0] = table[0]._replace(sector=0)"),
    "table: a read clears what is past the lanes": then(READ, PAST, "    "),
    "table: a read clears the stores made": then(READ, "table[:] = [r._replace(made=0) for r in table] if number == 0 else table", "    "),
    "table: a look makes the lane idle": then(LOOK, own("busy=0"), "    "),
    "table: a look clears what is past the lanes": then(LOOK, PAST, "    "),
    "table: a look at the next store counts it": then(NEXT, own("made=r.made ^ 1"), "    "),
    "table: a refused start makes its lane idle": refused(START, own("busy=0")),
    "table: a refused start leaves its sector": refused(START, own("sector=sector"), " == 13"),
    "table: a refused step counts": refused(STEP, own("made=r.made ^ 1"), " == 10"),
    "table: a refused write leaves the lane in flight": refused(WRITE, own("busy=1, sector=sector"), " == 13"),
    "table: a refused write clears what is past the lanes": refused(WRITE, PAST),
    "table: a short one is cleared by a start": refused(START, "table[:] = [Record()] * len(table)", " == 21"),
    "table: a short one is cleared by a write": refused(WRITE, "table[:] = [Record()] * len(table)", " == 21"),
    "table: a start puts its length into the handle": then(STARTED, "handle.figures.lanes = len(table)"),
    "table: a step puts the sectors left into the handle": then(STEPPED, "handle.figures.copy += 1"),
}
CALL_MISTAKES.update(
    ("table: a start refused with %d starts" % number, (START, START.replace("== 0", "in (0, %d)" % number))) for number in (7, 12, 13)
)


def orders():
    """Each call's order without 21, without the records, and with each of the two after every number that it comes before."""
    for call, order in calls.ORDER.items():
        for moved, name, bears in ((21, "table: 21", BEARS_SHORT), (-16, "record: 16", ())):
            rest, at = tuple(number for number in order if number != moved), order.index(moved)
            yield "%s not judged by a %s" % (name, call), ('"%s": %s' % (call, order), '"%s": %s' % (call, rest), *bears)
            for place in range(at + 1, len(rest) + 1):
                if (moved, rest[place - 1]) != (21, -16):
                    wrong = rest[:place] + (moved,) + rest[place:]
                    yield "%s after %d by a %s" % (name, rest[place - 1], call), ('"%s": %s' % (call, order), '"%s": %s' % (call, wrong), *bears)


CALL_MISTAKES.update(orders())

TABLE = "    table = [calls.Record()] * model.MAX_LANES\n"
CUT_OPENED = "    if kind == CUT:\n        return opened(arena, work, table)\n"

# Mistakes of the replay, by name.
REPLAY_MISTAKES = {
    "table: a replay has 16 records": (TABLE, TABLE.replace("model.MAX_LANES", "16")),
    "table: a replay has 32 records": (TABLE, TABLE.replace("model.MAX_LANES", "32")),
    "table: a replay has 255 records": (TABLE, TABLE.replace("model.MAX_LANES", "255")),
    "table: a replay's cut keeps the table": (CUT_OPENED, CUT_OPENED.replace("work, table", "work, list(table)")),
    "table: a replay's cut has four records": (CUT_OPENED, CUT_OPENED.replace("work, table", "work, table[:4]")),
}

"""Mistakes of the layout for mistakes.py: edits of the model's text, each the text that a mistake takes the place of and the text it has instead."""
import calls

ALLOWED = "return layout in (16, 32)"
JUDGED = "    if not layout_allowed(layout):\n        return Opened(16)\n"
HALF_START = "return f.flog + 64 * lane + layout * half"
FOUND_LANE = "arena, half_start(f, layout, lane, half)) for half in (0, 1)]"
NEWER = "newer_half(pair[0][3], pair[1][3])"
NEWER_WORDS = "sector, old, new, sequence = pair[half]"
HALF_BY_16 = 'struct.unpack_from("<4I", arena, half_start(f, 16, lane, half))'
HALVES = "    first, second = half_start(f, layout, lane, 0), half_start(f, layout, lane, 1)\n"
PADDING = "return arena[first + 16 : second] + arena[second + 16 : first + 64]"
FOUND = "    opened = judge(arena, len(work), layout, len(table))\n"
OPENED = "    opened = cut_open(arena, work, layout, table, MAX_LANES)\n"
GIVEN = "return Opened(0, len(pending), f, layout, lanes, stores)"
COPY_MADE = "    arena[f.copy :] = block\n"


def only_in(condition):
    """An opening that takes the layout for 16 unless this holds."""
    return FOUND.replace("layout", "layout if %s else 16" % condition)


def upon(number, line):
    """An opening that does one thing more where it is refused with that number."""
    return FOUND + "    if opened.number == %d:\n        %s\n" % (number, line)


# Mistakes of opening and making, by name.
MODEL_MISTAKES = {
    "layout: not judged at opening": (JUDGED, ""),
    "layout: 32 refused": (ALLOWED, "return layout == 16"),
    "layout: 16 refused": (ALLOWED, "return layout == 32"),
    "layout: any from 16 to 32 passes": (ALLOWED, "return 16 <= layout <= 32"),
    "layout: any multiple of 16 below 64 passes": (ALLOWED, "return layout in (16, 32, 48)"),
    "layout: any power of two from 16 passes": (ALLOWED, "return layout >= 16 and layout & layout - 1 == 0"),
    "layout: any with no bit but two passes": (ALLOWED, "return layout & ~48 == 0"),
    "layout: the low 8 bits judged": (ALLOWED, "return layout & 0xFF in (16, 32)"),
    "layout: the low 16 bits judged": (ALLOWED, "return layout & 0xFFFF in (16, 32)"),
    "layout: the low 31 bits judged": (ALLOWED, "return layout & 0x7FFFFFFF in (16, 32)"),
    "layout: judged as a signed number": (ALLOWED, "return layout in (16, 32, 2**32 - 16, 2**32 - 32)"),
    "layout: a refused one is taken for 16": (JUDGED, "    layout = layout if layout_allowed(layout) else 16\n"),
    "layout: a refused one is answered with 3": (JUDGED, JUDGED.replace("16)", "3)")),
    "layout: a refused one has a count": (JUDGED, JUDGED.replace("16)", "16, 1)")),
    "layout: a refused one clears the work buffer": (FOUND, upon(16, "work[:] = bytes(len(work))")),
    "layout: a refused one clears a byte of work": (FOUND, upon(16, "work[:1] = bytes(min(1, len(work)))")),
    "layout: a refused one mends": (FOUND, upon(16, "opened.stores = judge(arena, len(work), 16, len(table)).stores")),
    "layout: the other is tried on 18": (FOUND, upon(18, "opened = judge(arena, len(work), 48 - layout, len(table))")),
    "layout: the other is tried on 6": (FOUND, upon(6, "opened = judge(arena, len(work), 48 - layout, len(table))")),
    "layout: cut openings take 16": (FOUND, only_in("k == MAX_LANES")),
    "layout: cut openings do not judge it": (FOUND, only_in("k == MAX_LANES or layout_allowed(layout)")),
    "layout: cut openings with no store do not judge it": (FOUND, only_in("k or layout_allowed(layout)")),
    "layout: openings take 16": (OPENED, OPENED.replace("layout", "16")),
    "layout: openings take 16 for 32": (OPENED, OPENED.replace("layout", "16 if layout == 32 else layout")),
    "layout: openings exchange them": (OPENED, OPENED.replace("layout", "{16: 32, 32: 16}.get(layout, layout)")),
    "layout: the handle always has 16": (GIVEN, GIVEN.replace("layout", "16")),
    "layout: the handle always has 32": (GIVEN, GIVEN.replace("layout", "32")),
    "layout: the handle has the other": (GIVEN, GIVEN.replace("layout", "48 - layout")),
    "layout: the handle has 0": (GIVEN, GIVEN.replace("layout", "0")),
    "layout: lanes found by 16 always": (FOUND_LANE, FOUND_LANE.replace("layout", "16")),
    "layout: lanes found by 32 always": (FOUND_LANE, FOUND_LANE.replace("layout", "32")),
    "layout: lanes found by the other": (FOUND_LANE, FOUND_LANE.replace("layout", "48 - layout")),
    "layout: the first lane found by 16": (FOUND_LANE, FOUND_LANE.replace("layout", "layout if lane else 16")),
    "layout: all lanes but the first found by 16": (FOUND_LANE, FOUND_LANE.replace("layout", "16 if lane else layout")),
    "layout: the newer half judged by 16": (NEWER, 'newer_half(pair[0][3], *struct.unpack_from("<I", arena, half_start(f, 16, lane, 1) + 12))'),
    "layout: the newer half's words found by 16": (NEWER_WORDS, NEWER_WORDS.replace("pair[half]", HALF_BY_16)),
    "layout: the two halves exchanged": (HALF_START, HALF_START.replace("half", "(1 - half)")),
    "layout: both halves moved": (HALF_START, HALF_START.replace("layout * half", "layout - 16 + 16 * half")),
    "layout: lanes are two layouts long": (HALF_START, HALF_START.replace("64", "2 * layout")),
    "layout: lanes are four layouts long": (HALF_START, HALF_START.replace("64", "4 * layout")),
    "layout: padding by 16 always": (HALVES, HALVES.replace("layout", "16")),
    "layout: padding by 32 always": (HALVES, HALVES.replace("layout", "32")),
    "layout: padding by the other": (HALVES, HALVES.replace("layout", "(48 - layout)")),
    "layout: the first lane's padding by 16": (HALVES, HALVES.replace("layout", "(layout if lane else 16)")),
    "layout: the bytes between the halves pass": (PADDING, "return arena[second + 16 : first + 64]"),
    "layout: the bytes behind the halves pass": (PADDING, "return arena[first + 16 : second]"),
    "layout: the bytes behind the halves pass in 32": (PADDING, "return arena[first + 16 : second] + arena[second + layout : first + 64]"),
    "layout: only bytes 48 to 63 are padding": (PADDING, "return arena[first + 48 : first + 64]"),
    "layout: only bytes that are padding in 16": (PADDING, "return arena[max(first + 32, second + 16) : first + 64]"),
    "layout: the bytes 16 to 63 are padding": (PADDING, "return arena[first + 16 : first + 64]"),
    "layout: making puts the first half at 32 too": (COPY_MADE, COPY_MADE + "    arena[f.flog + 32 : f.flog + 48] = arena[f.flog : f.flog + 16]\n"),
    "layout: making puts 16 into the padding": (COPY_MADE, COPY_MADE + "    arena[f.flog + 48] = 16\n"),
}
MODEL_MISTAKES.update(
    ("layout: judged after %d" % number, (JUDGED, "", "        return Opened(%d)\n" % number, "        return Opened(%d)\n" % number + JUDGED))
    for number in (1, 2, 3, 4, 5, 21, 6, 7, 18, 8)
)
MODEL_MISTAKES.update(
    ("layout: %d passes" % layout, (ALLOWED, "return layout in (16, 32, %d)" % layout)) for layout in (0, 1, 8, 15, 17, 24, 31, 33, 48, 64, 2**32 - 1)
)

STORED = "model.half_start(f, layout, lane, record.half) + 4 * part"
STEPPED = "        put(arena, *store(f, handle.layout, lane, record, buffer))\n"
WHOLE = "stores.append(store(f, handle.layout, lane, record, buffer))"
NEXT = "return 0, store(f, handle.layout, lane, table[lane]"
HANDLE_JUDGED = "    if not model.layout_allowed(handle.layout):\n        return True\n"
JUDGED_BY_CALLS = "return bad_handle(handle, len(arena))"
STARTED = "        table[lane] = started("
WRITTEN = "        stores, table[lane] = whole("
REFUSED_HANDLE = "        return no_handle()\n"
NUMBERS = "    for number in ORDER[call]:\n"
APPLIES = "        if applies(number, arena, handle, table, lane, sector, length):\n            return abs(number)\n"


def stored(layout):
    return STORED.replace("layout", layout)


def unless(condition):
    """A judging of the handle's layout that is left out where this holds."""
    return HANDLE_JUDGED.replace("if not", "if not (%s) and not" % condition)


def judged_where(condition):
    """A judging of the handle's layout in which it is taken for 16 where this does not hold."""
    return JUDGED_BY_CALLS.replace("(handle,", "(handle if %s else replace(handle, layout=16)," % condition)


def upon_16(field):
    """The handle of a refused opening with one field set where the number is 16."""
    return "        return replace(no_handle(), %s) if opened.number == 16 else no_handle()\n" % field


# Mistakes of the calls, by name.
CALL_MISTAKES = {
    "layout: stores by 16 always": (STORED, stored("16")),
    "layout: stores by 32 always": (STORED, stored("32")),
    "layout: stores by the other": (STORED, stored("48 - layout")),
    "layout: the sequence word stored by 16": (STORED, stored("layout if part < 3 else 16")),
    "layout: the sector word stored by 16": (STORED, stored("layout if part else 16")),
    "layout: the sector and old words stored by 32": (STORED, stored("layout if part > 1 else 32")),
    "layout: the first lane's stores by 16": (STORED, stored("layout if lane else 16")),
    "layout: the other lanes' stores by 16": (STORED, stored("16 if lane else layout")),
    "layout: every write stored in the second half": (STORED, STORED.replace("record.half", "1")),
    "layout: the first half stored at the layout less 16": (STORED, STORED.replace("+ 4", "+ (layout - 16) * (1 - record.half) + 4")),
    "layout: steps store by 16": (STEPPED, STEPPED.replace("handle.layout", "16")),
    "layout: steps store by 32": (STEPPED, STEPPED.replace("handle.layout", "32")),
    "layout: steps store at both places": (STEPPED, STEPPED + STEPPED.replace("handle.layout", "48 - handle.layout")),
    "layout: whole writes store by 16": (WHOLE, WHOLE.replace("handle.layout", "16")),
    "layout: whole writes store by 32": (WHOLE, WHOLE.replace("handle.layout", "32")),
    "layout: the next store told by 16": (NEXT, NEXT.replace("handle.layout", "16")),
    "layout: the next store told by 32": (NEXT, NEXT.replace("handle.layout", "32")),
    "layout: the handle's not judged": (HANDLE_JUDGED, ""),
    "layout: a handle with 32 refused": (HANDLE_JUDGED, "    if handle.layout != 16:\n        return True\n"),
    "layout: a handle with 16 refused": (HANDLE_JUDGED, "    if handle.layout != 32:\n        return True\n"),
    "layout: the handle's low 8 bits judged": (HANDLE_JUDGED, HANDLE_JUDGED.replace("handle.layout", "handle.layout & 0xFF")),
    "layout: the handle's low 16 bits judged": (HANDLE_JUDGED, HANDLE_JUDGED.replace("handle.layout", "handle.layout & 0xFFFF")),
    "layout: a handle's judged with a lane busy only": (JUDGED_BY_CALLS, judged_where("any(record.busy for record in table[: f.lanes])")),
    "layout: a handle's judged with lanes idle only": (JUDGED_BY_CALLS, judged_where("not any(record.busy for record in table[: f.lanes])")),
    "layout: a handle's judged with a second half next only": (JUDGED_BY_CALLS, judged_where("any(record.half for record in table[: f.lanes])")),
    "layout: a handle's judged with a first half next only": (JUDGED_BY_CALLS, judged_where("not all(record.half for record in table[: f.lanes])")),
    "layout: a start puts 16 into the handle": (STARTED, "        handle.layout = 16\n" + STARTED),
    "layout: a step puts 16 into the handle": (STEPPED, STEPPED + "        handle.layout = 16\n"),
    "layout: a last step puts 32 into the handle": (STEPPED, STEPPED + "        handle.layout = handle.layout if stepped(f, record).busy else 32\n"),
    "layout: a write clears it in the handle": (WRITTEN, "        handle.layout = 16\n" + WRITTEN),
    "layout: a refusal changes it": (APPLIES, APPLIES.replace("return", "handle.layout = 16\n            return")),
    "layout: a refusal changes a layout of 0": (APPLIES, APPLIES.replace("return", "handle.layout = handle.layout or 16\n            return")),
    "layout: a refused opening leaves 16 in the handle": (REFUSED_HANDLE, "        return replace(no_handle(), layout=16)\n"),
    "layout: a refused one leaves 16 in the handle": (REFUSED_HANDLE, upon_16("layout=16")),
    "layout: a refused one leaves the length in the handle": (REFUSED_HANDLE, upon_16("length=length")),
}
CALL_MISTAKES.update(
    ("layout: a handle with %d passes" % layout, (HANDLE_JUDGED, unless("handle.layout == %d" % layout)))
    for layout in (0, 1, 15, 17, 31, 33, 48, 64, 16 + 2**16, 2**32 - 1)
)


def late_judging():
    """The handle's layout not judged in one of the calls, and judged there after another number of its order."""
    for call, order in calls.ORDER.items():
        taken = "    given, handle = handle, replace(handle, layout=16) if call == '%s' else handle\n" % call
        yield "layout: not judged by a %s" % call, (NUMBERS, taken + NUMBERS)
        for number in order[1:]:
            late = "        if call == '%s' and number == %d and not model.layout_allowed(given.layout):\n            return 16\n" % (call, number)
            yield "layout: judged after %d by a %s" % (number, call), (NUMBERS, taken + NUMBERS, APPLIES, APPLIES + late)


CALL_MISTAKES.update(late_judging())

FOUND_BY_REPLAY = "    found = model.open_arena(arena, work, model.PROGRAM_LAYOUT, table)\n"
HANDLE_OF_REPLAY = "    return found.number, calls.handle_of(found, len(arena))\n"
CUT_OPENED = "    if kind == CUT:\n        return opened(arena, work, table)\n"
IN_32 = FOUND_BY_REPLAY.replace("model.PROGRAM_LAYOUT", "32")

# Mistakes of the replay, by name.
REPLAY_MISTAKES = {
    "layout: a replay opens in 32": (FOUND_BY_REPLAY, IN_32),
    "layout: a replay opens in 32 where 16 is refused": (FOUND_BY_REPLAY, FOUND_BY_REPLAY + "    if found.number == 18:\n    " + IN_32),
    "layout: a replay's cut opens in 32": (CUT_OPENED, "    if kind == CUT:\n    " + IN_32 + "    " + HANDLE_OF_REPLAY),
    "layout: a replay's handle has 32": (HANDLE_OF_REPLAY, "    found.layout = 32\n" + HANDLE_OF_REPLAY),
}

"""The model with one deliberate mistake, in the place of a library, to see that the histories, the runs and the logs find it.

A mistake is an edit of the model's text. Run as a program it says how many histories each takes, and fails if one is not found.
The mistakes of PROMISED, those of rule 18, of the layout, of the sizes, of the table and most of the replay are put into both sides too, where only
the promises of the rules can find them.
"""
import contextlib
import pathlib
import sys
import time
import types

import calls
import checksums
import histories
import layout_mistakes
import library
import model
import replay
import size_mistakes
import sloppy_mistakes
import table_mistakes

HERE = pathlib.Path(__file__).resolve().parent
LIMIT = 600
LOG_LIMIT = 150

TALLY = "k, words = record.made, f.size // 4"
DATA = "record.block + 4 * k, int.from_bytes(buffer[4 * k : 4 * k + 4]"
LAST = "Record(0, old, 1 - half, model.successor(sequence), 0, 0, 0)"
OLD = "old = model.block_of(sector, map_word(arena, f, sector))"
START = "        table[lane] = started("
STEP = "        table[lane] = stepped(f, record)\n"
SECOND_STORE = "        put(arena, *store(f, handle.layout, lane, stepped(f, record), buffer))\n"
STEP_RECORD = "        f, record = handle.figures, table[lane]\n"
FIELDS = "    busy, block, half, sequence, sector, old, made = record\n    return (\n"
IDLE_FIELDS = "    sector, old, made = (sector, old, made) if busy else (0, 0, 0)\n"
WRITE = "        stores, table[lane] = whole(arena, handle, table, lane, sector, buffer)\n"
NEWER = "        sector, old, new, sequence = pair[half]\n"
HALF_WRITTEN = "        if pair[1 - half][2] == old and pair[1 - half][0] != 0 and pair[1 - half][1] == 0:\n            return None\n"
READ = 'number = refusal("read", arena, handle, table, 0, sector, len(buffer))\n'
LANES_JUDGED = "any(bad_record(f, record) for record in table[: f.lanes])"
STEP_ORDER = '"step": %s' % (calls.ORDER["step"],)

# A mistake's name, the text that it takes the place of, and the text it has instead.
CALL_MISTAKES = {
    "sequence before new": ("part = k - words", "part = (0, 1, 3, 2)[k - words]"),
    "map word before the flog": (TALLY, "words = f.size // 4; k = min(record.made, words + (record.made - words - 1) % 5)"),
    "flog before the data": (TALLY, "words = f.size // 4; k = (record.made + words) % (words + 4) if record.made < words + 4 else words + 4"),
    "data words in falling order": (TALLY, TALLY + "; k = words - 1 - k if k < words else k"),
    "data into the old block": (DATA, DATA.replace("block", "old")),
    "the newer half is overwritten": ("lane, record.half) + 4 * part", "lane, 1 - record.half) + 4 * part"),
    "a lane's pair is 32 bytes": ("lane, record.half) + 4 * part", "lane, record.half) - 32 * lane + 4 * part"),
    "map word without its flags": ("DATA_WORD + record.block", "record.block"),
    "map word of the old block": ("DATA_WORD + record.block", "DATA_WORD + record.old"),
    "two stores in a step": (STEP, STEP + "        if record.made == 1:\n    " + SECOND_STORE),
    "old is not handed back": (LAST, LAST.replace("old", "block")),
    "half does not move on": (LAST, LAST.replace("1 - half", "half")),
    "sequence does not move on": (LAST, LAST.replace("model.successor(sequence)", "sequence")),
    "4 after 3": (LAST, LAST.replace("model.successor(sequence)", "sequence + 1")),
    "last step leaves the sector": (LAST, LAST.replace("0, 0, 0)", "sector, 0, 0)")),
    "last step leaves old": (LAST, LAST.replace("0, 0, 0)", "0, old, 0)")),
    "last step leaves the stores made": (LAST, LAST.replace("0, 0, 0)", "0, 0, made)")),
    "one store too few": ("if made + 1 < f.size // 4 + 5", "if made + 1 < f.size // 4 + 4"),
    "start keeps the stores made": ("sector, old, 0)\n\n\ndef start", "sector, old, record.made)\n\n\ndef start"),
    "start takes low bits of flags 00": (OLD, "old = map_word(arena, f, sector) & 0x3FFFFFFF"),
    "start stores": (START, "        put(arena, handle.figures.flog, 0)\n" + START),
    "map read again at a step": (STEP_RECORD, STEP_RECORD + "        record = started(arena, f, record, record.sector)._replace(made=record.made)\n"),
    "7 judged at a step": (STEP_ORDER, STEP_ORDER.replace(")", ", 7)")),
    "any buffer at the last steps": ("return length != f.size", "return length != f.size and table[lane].made < f.size // 4"),
    "a longer buffer will do": ("return length != f.size", "return length < f.size"),
    "a refused write stores": (WRITE, WRITE + "    if number == 13:\n        put(arena, handle.figures.data, 0)\n    if number == 0:\n"),
    "a bad sector is read as zeroes": (READ, READ + "    if number == 15:\n        buffer[:] = bytes(len(buffer))\n"),
    "a zeroed sector shows its block": ("if word & DATA_WORD == DATA_WORD else", "if word & ZERO else"),
    "a zeroed sector is bad": ("word & DATA_WORD == ERROR", "word & DATA_WORD in (ZERO, ERROR)"),
    "the flags exchanged": ("word & DATA_WORD == ERROR", "word & DATA_WORD == ZERO"),
    "7 judges flags 00": ("return word >> 30 != 0 and", "return"),
    "7 lets the block I pass": ("word & 0x3FFFFFFF >= f.blocks", "word & 0x3FFFFFFF > f.blocks"),
    "7 judges 29 bits": ("word & 0x3FFFFFFF >= f.blocks", "word & 0x1FFFFFFF >= f.blocks"),
    "7 judges 16 bits": ("word & 0x3FFFFFFF >= f.blocks", "word & 0xFFFF >= f.blocks"),
    "9 lets the sector E pass": ("return sector >= f.sectors", "return sector > f.sectors"),
    "11 lets a lane past the last pass": ("return lane >= f.lanes", "return lane > f.lanes or lane >= len(table)"),
    "13 on idle records": ("any(record.busy and record.sector == sector", "any(record.sector == sector"),
    "13 on records past the lanes": ("enumerate(table[: f.lanes]) if", "enumerate(table) if"),
    "13 not judged": ("any(record.busy and record.sector == sector", "any(False"),
    "16 judges busy records only": (LANES_JUDGED, LANES_JUDGED.replace("any(bad", "any(record.busy and bad")),
    "16 judges the first record only": (LANES_JUDGED, LANES_JUDGED.replace("table[: f.lanes]", "table[:1]")),
    "16 judges records past the lanes": (LANES_JUDGED, LANES_JUDGED.replace("table[: f.lanes]", "table")),
    "16 without the slice's length": ("handle.length != length or", "False or"),
    "16 without the allowed length": ("not model.length_allowed(length) or", "False or"),
    "16 without the record's block": ("block >= f.blocks\n", "False\n"),
    "16 without the record's old": ("or old >= f.blocks", ""),
    "16 without the record's half": ("or half > 1", ""),
    "16 without the record's sequence": ("or not 1 <= sequence <= 3", ""),
    "16 lets sequence 0 pass": ("1 <= sequence <= 3", "sequence <= 3"),
    "16 without the record's sector": ("or sector >= f.sectors", ""),
    "16 without the record's stores made": ("or made >= f.size // 4 + 5", ""),
    "16 lets S/4 + 5 stores pass": ("or made >= f.size // 4 + 5", "or made > f.size // 4 + 5"),
    "16 without the record's busy word": ("or busy > 1", ""),
    "16 passes over fields of idle records": (FIELDS, FIELDS.replace("    return", IDLE_FIELDS + "    return")),
}

STARTS_MULTIPLES = "and all(start % 4096 == 0 for start in starts)"
FREE = ("Record(0, old, 1 - half", "Record(0, old if block_of(at, mended[at]) == new else new, 1 - half")
STORES = "    for offset, value in opened.stores[:k]:"
SIZES_JUDGED = "    if not sizes_allowed(size, sectors, lanes):\n        return 3\n"
LENGTH_JUDGED = "    if len(arena) != made_figures(size, sectors, lanes).copy + 4096:\n        return 1\n"
LANES_FOUND = "    halves = newer_halves(arena, f, layout)\n"
MAP_JUDGED = "    if any(w >> 30 and w & 0x3FFFFFFF >= f.blocks for w in struct.unpack_from('<%dI' % f.sectors, arena, f.map)):\n"

# The same, of figures, making and opening.
MODEL_MISTAKES = {
    "figures without the internal size": ("and f.internal == internal_size(f.size)", ""),
    "figures without the sector size": ("return size in SECTOR_SIZES and", "return size % 4 == 0 and"),
    "figures without the blocks": ("and f.blocks == f.sectors + f.lanes", ""),
    "figures without sectors at least lanes": ("and sectors >= lanes", ""),
    "figures with more lanes": ("1 <= lanes <= MAX_LANES", "1 <= lanes"),
    "figures with no lanes": ("1 <= lanes <= MAX_LANES", "lanes <= MAX_LANES"),
    "figures with starts anywhere": (STARTS_MULTIPLES, ""),
    "figures with the data start anywhere": (STARTS_MULTIPLES, STARTS_MULTIPLES.replace("starts)", "starts[1:])")),
    "figures with the map start anywhere": (STARTS_MULTIPLES, STARTS_MULTIPLES.replace("starts)", "starts if start != f.map)")),
    "figures with the flog start anywhere": (STARTS_MULTIPLES, STARTS_MULTIPLES.replace("starts)", "starts if start != f.flog)")),
    "figures with data at 0": ("and f.data >= 4096", ""),
    "figures without the end of the data": ("and f.data + f.blocks * f.internal <= f.map", ""),
    "figures without the end of the map": ("and f.map + 4 * f.sectors <= f.flog", ""),
    "figures without the end of the flog": ("and f.flog + 64 * f.lanes <= f.copy", ""),
    "figures with a copy before the end": ("and f.copy == n - 4096", ""),
    "sums of the data wrap": ("f.data + f.blocks * f.internal <= f.map", "(f.data + f.blocks * f.internal) % 2**64 <= f.map"),
    "sums of the map wrap": ("f.map + 4 * f.sectors <= f.flog", "(f.map + 4 * f.sectors) % 2**64 <= f.flog"),
    "a next half without its old is lost": (NEWER, NEWER + HALF_WRITTEN),
    "the larger sequence is newer": ("return 0 if first == successor(second) else 1", "return 0 if first > second else 1"),
    "an older sequence of 4 passes": ("if first in (1, 2, 3) and second == 0:", "if first in (1, 2, 3) and second in (0, 4):"),
    "pending if the map lacks new": ("if block_of(h[1], words[h[1]]) == h[2]]", "if block_of(h[1], words[h[1]]) != h[3]]"),
    "new is free where the map lacks it": (*FREE, "half, _, old, _, seq", "half, at, old, new, seq"),
    "opening leaves the lane's old": ("successor(sequence)) for", "successor(sequence), 0, old) for"),
    "count of stores made": (STORES, "    opened.mended = min(k, opened.mended)\n" + STORES),
    "count of all lanes": ("return Opened(0, len(pending), f", "return Opened(0, f.lanes, f"),
    "mended in falling order": (STORES, STORES.replace("[:k]", "[::-1][:k]")),
    "cut opening makes one store at least": (STORES, STORES.replace("[:k]", "[: k or 1]")),
    "cut opening makes all stores": (STORES, STORES.replace("[:k]", "")),
    "mended to a zeroed sector": ("0xC0000000 + halves[lane][3]) for lane in pending]", "0x80000000 + halves[lane][3]) for lane in pending]"),
    "the work buffer is kept on 6": ("if opened.number in (0, 21, 6, 7, 18, 8):", "if opened.number in (0, 21, 7, 18, 8):"),
    "the work buffer is kept on 8": ("if opened.number in (0, 21, 6, 7, 18, 8):", "if opened.number in (0, 21, 6, 7, 18):"),
    "the whole work buffer is cleared": ("work[:blocks] = bytes(blocks)", "work[:] = bytes(len(work))"),
    "opening: 7 judges 29 bits": ("word & 0x3FFFFFFF >= f.blocks for", "word & 0x1FFFFFFF >= f.blocks for"),
    "a work buffer of I - 1 will do": ("if room < f.blocks:", "if room < f.blocks - 1:"),
    "opening: 7 before 6": (LANES_FOUND, MAP_JUDGED + "        return Opened(7)\n" + LANES_FOUND),
    "opening: 4 before 3": ("    if version != (2, 0) or", "    if flags != 0:\n        return Opened(4)\n    if version != (2, 0) or"),
    "a forbidden first block is passed over": ("if sound(block):", "if sound(block) and figures_allowed(decode(block)[0], len(arena)):"),
    "making touches the data": ("    arena[0:4096] = block\n", "    arena[0:4096] = block\n    arena[4096:4100] = bytes(4)\n"),
    "making leaves the padding": ("    end = f.data + f.blocks * f.internal\n", "    end = f.map\n"),
    "making: 1 before 3": (SIZES_JUDGED, LENGTH_JUDGED + SIZES_JUDGED),
}

# The same, of the checksum: the runs of words and the info blocks of checksums.py find them.
CHECKSUM_MISTAKES = {
    "a rest of fewer than eight words is left out": ("for word in words:", "for word in words[: len(words) // 8 * 8]:"),
    "the first word is left out": ("for word in words:", "for word in words[1:]:"),
    "high gets the low before the word": ("high = (high + low)", "high = (high + low - word)"),
    "high is brought below 2^31": ("high = (high + low) & 0xFFFFFFFF", "high = (high + low) & 0x7FFFFFFF"),
    "low and high are exchanged": ("return high << 32 | low", "return low << 32 | high"),
    "the checksum field counts": ("words[1022] = words[1023] = 0", "pass"),
    "half of the checksum field counts": ("words[1022] = words[1023] = 0", "words[1022] = 0"),
    "a block of 1,022 words": ("return fletcher64(words)", "return fletcher64(words[:1022])"),
}

RUN = "        answer, handle = ran(arena, work, handle, table, len(replayed.answers), *found)\n"
BEGUN = "    replayed, at = Replayed(first), 0\n"
RAN = "        replayed.answers.append(answer)\n"
OPENED = "    first, handle = opened(arena, work, table)\n"
LONG = "    if len(log) > LOG_LIMIT:\n"
STOPPED = "            replayed.stopped = at\n"
LENT = "    return calls.step(arena, handle, table, lane, lent(index, handle.figures.size)), handle\n"
BEGINS = "    if not any(record.made for record in table[lane : lane + 1]):\n"
FIRST_LENT = "    begun = handle.__dict__.setdefault('begun', {})\n" + BEGINS + "        begun[lane] = index\n"
WRONG = "    if LENGTHS.get(kind) != length or len(log) - at < length:\n"
FIT = "    answers[:fit] = bytes(replayed.answers[:fit])\n"
CUT_OPENED = "    if kind == CUT:\n        return opened(arena, work, table)\n"

# The same, of the replay: the kept logs and the random ones find them.
REPLAY_MISTAKES = {
    "index counted over steps only": (
        BEGUN, BEGUN + "    steps = 0\n", RUN, RUN.replace("len(replayed.answers)", "steps") + "        steps += found[0] == STEP\n"
    ),
    "index counted over accepted records": (RUN, RUN.replace("len(replayed.answers)", "replayed.answers.count(0)")),
    "index from 1": (RUN, RUN.replace("len(replayed.answers)", "len(replayed.answers) + 1")),
    "index restarted at a cut": (
        BEGUN, BEGUN + "    index = 0\n", RUN, RUN.replace("len(replayed.answers)", "index") + "        index = 0 if found[0] == CUT else index + 1\n"
    ),
    "index is the record's offset": (RUN, RUN.replace("len(replayed.answers)", "at")),
    "the word taken from the first step's buffer": (LENT, FIRST_LENT + LENT.replace("index", "begun.get(lane, index)")),
    "every word is the index": ("*range(index, index + size // 4))", "*[index] * (size // 4))"),
    "a refused record ends the replay": (RAN, RAN + "        if answer:\n            break\n"),
    "20 at the record's end": (STOPPED, STOPPED.replace("= at", "= at + int.from_bytes(log[at : at + 2], 'little')")),
    "20 at the end of the record's header": (STOPPED, STOPPED.replace("= at", "= min(len(log), at + 4)")),
    "the record that ends the replay has an answer": (STOPPED, STOPPED + "            replayed.answers.append(20)\n"),
    "a longer log judged before the opening": (OPENED, LONG + "        return Replayed(0, [], 0)\n" + OPENED),
    "a longer log is run up to 8,192 bytes": (LONG + "        replayed.stopped = 0\n        return replayed\n", "    log = log[:LOG_LIMIT]\n"),
    "8,192 bytes are too long": (LONG, LONG.replace(">", ">=")),
    "a rest below 4 bytes is passed over": ("    while at < len(log):\n", "    while at + 4 <= len(log):\n"),
    "zero bytes end the log": ("    while at < len(log):\n", "    while at < len(log) and any(log[at:]):\n"),
    "a short record runs": (WRONG, "    log = bytes(log) + bytes(10)\n    if LENGTHS.get(kind) != length:\n"),
    "a record's length is not judged": (WRONG, WRONG.replace("LENGTHS.get(kind) != length", "kind not in LENGTHS")),
    "a longer record than its kind's will do": (WRONG, WRONG.replace("!= length", "is None or LENGTHS[kind] > length")),
    "the length read as a byte": (WRONG, "    length &= 255\n" + WRONG),
    "the kind read as a byte": (WRONG, "    kind &= 255\n" + WRONG),
    "the lane read as a byte": ("    return kind, lane, sector\n", "    return kind, lane & 255, sector\n"),
    "the sector read as two bytes": ("    return kind, lane, sector\n", "    return kind, lane, sector & 65535\n"),
    "an unknown kind is a cut": (WRONG, "    kind = kind if kind in LENGTHS else CUT\n" + WRONG),
    "a cut does not open": (CUT_OPENED, CUT_OPENED.replace("opened(arena, work, table)", "0, handle")),
    "a cut does not mend": (CUT_OPENED, CUT_OPENED.replace("arena", "bytearray(arena)")),
    "what ran before does not stay": (OPENED, OPENED + "    kept = bytes(arena)\n", STOPPED, STOPPED + "            arena[:] = kept\n"),
    "answers past a short buffer": (FIT, "    answers[: len(replayed.answers)] = bytes(replayed.answers)\n"),
    "a short buffer gets no answer": (FIT, "    if fit == len(replayed.answers):\n    " + FIT),
    "a short buffer gets the last answers": (FIT, FIT.replace("answers[:fit])", "answers[len(replayed.answers) - fit :])")),
    "the rest of the answers is cleared": (FIT, FIT + "    answers[fit:] = bytes(len(answers) - fit)\n"),
}

REPLAYED = {**REPLAY_MISTAKES, **layout_mistakes.REPLAY_MISTAKES, **size_mistakes.REPLAY_MISTAKES, **table_mistakes.REPLAY_MISTAKES}

# Mistakes that the promises find with no library to compare with.
PROMISED = """sequence before new, map word before the flog, flog before the data, data words in falling order, data into the old block,
the newer half is overwritten, a lane's pair is 32 bytes, map word without its flags, map word of the old block, two stores in a step,
old is not handed back, half does not move on, sequence does not move on, 4 after 3, one store too few, start takes low bits of flags 00,
start stores, any buffer at the last steps, a longer buffer will do, a refused write stores, a bad sector is read as zeroes,
a zeroed sector shows its block, a zeroed sector is bad, the flags exchanged, 9 lets the sector E pass,
11 lets a lane past the last pass, 13 on idle records, 13 not judged,
the larger sequence is newer, a next half without its old is lost, new is free where the map lacks it, count of stores made, count of all lanes, cut opening makes one store at least,
cut opening makes all stores, mended to a zeroed sector, step: 10 before 14, start: 9 before 12, write: 10 before 9,
write: 13 before 10""".replace("\n", " ").split(", ")

# The mistakes of the replay that only a comparison finds; the kept outputs, which are not taken from the model, and the promise find the others.
ONLY_COMPARED = (
    "answers past a short buffer", "a short buffer gets no answer", "a short buffer gets the last answers", "the rest of the answers is cleared",
)

# 13 never meets 9: a write in flight to a sector past the last is 16; for one word 7, 18 and 15 shut each other out.
SAME = {("start", 9, 13), ("read", 7, 18), ("read", 18, 15), ("start", 7, 18), ("write", 7, 18)}
# Where 12 or 14 comes before 11 it must bear any lane.
ANY_LANE = ("return table[lane].busy", "return lane < len(table) and table[lane].busy")
ANY_LANE += ("return not table[lane].busy", "return lane >= len(table) or not table[lane].busy")


def swapped_orders():
    """Each call's order with two neighbours exchanged, where that makes a difference."""
    edits = {}
    for call, order in calls.ORDER.items():
        for i, (first, second) in enumerate(zip(order, order[1:])):
            if (call, first, second) not in SAME:
                wrong = order[:i] + (second, first) + order[i + 2 :]
                edit = '"%s": %s' % (call, order), '"%s": %s' % (call, wrong)
                edits["%s: %d before %d" % (call, second, first)] = edit + ANY_LANE
    return edits


def edited(name, *edit):
    """The module of that name with an edit of its text: old and new in turn."""
    text = (HERE / (name + ".py")).read_text()
    for old, new in zip(edit[::2], edit[1::2], strict=True):
        if text.count(old) != 1 or old == new:
            raise SystemExit("mistakes: %r occurs %d times in %s.py" % (old, text.count(old), name))
        text = text.replace(old, new)
    module = types.ModuleType(name)
    exec(compile(text, name + ".py", "exec"), module.__dict__)
    return module


def mistaken_library(name, edit):
    """The model behind the library's interface, with that edit of one of its modules."""
    if name == "calls":
        return library.ModelLibrary(edited("calls", *edit), model)
    wrong, running = edited("model", *edit), edited("calls")
    running.model = wrong
    return library.ModelLibrary(running, wrong)


@contextlib.contextmanager
def on_both_sides(name, edit):
    """Puts the edit into the module that the model and its own library use."""
    module = sys.modules[name]
    kept = dict(module.__dict__)
    module.__dict__.update(edited(name, *edit).__dict__)
    try:
        yield library.ModelLibrary()
    finally:
        module.__dict__.update(kept)


def histories_needed(lib):
    """How many histories it takes to find a fault, and the fault; a crash is one too."""
    try:
        _, last, fault = histories.run(lib, LIMIT)
    except Exception as crash:
        return "crash", repr(crash)
    return (last, fault) if fault else (None, "not found")


def checksums_needed(mistaken):
    """How many runs and blocks it takes until that model's checksum is another, and what it is of."""
    for number, run in enumerate([*checksums.runs(), *checksums.changed_blocks()], 1):
        if checksums.text(run, mistaken) != checksums.text(run):
            return number, "a run of %d bytes" % len(run)
    return None, "not found"


def tried_checksums(names):
    """Tries every mistake in the checksum, or those of these names, and says which are not found."""
    missed = []
    for name in names:
        began = time.process_time()
        needed, fault = checksums_needed(edited("model", *CHECKSUM_MISTAKES[name]))
        missed += [name] if needed is None else []
        print("%-48s %5s %6.1f s  %s" % (name, needed, time.process_time() - began, fault), flush=True)
    return missed


def replays_needed(lib):
    """How many random logs it takes, after the kept ones, to find a fault, and the fault; a crash is one too."""
    try:
        _, last, fault = replay.run(lib, LOG_LIMIT)
    except Exception as crash:
        return "crash", repr(crash)
    return (last, fault) if fault else (None, "not found")


def tried_replays(names):
    """Tries these mistakes of the replay in the place of the library, and on both sides too; says which are not found."""
    missed = ["no such mistake: " + name for name in set(ONLY_COMPARED) - set(REPLAY_MISTAKES)]
    for name in names:
        began, edit = time.process_time(), REPLAYED[name]
        needed, fault = replays_needed(library.ModelLibrary(runlog_module=edited("runlog", *edit)))
        alone = "-"
        if name not in ONLY_COMPARED:
            with on_both_sides("runlog", edit) as lib:
                alone, fault = replays_needed(lib)
        missed += [name] if None in (needed, alone) else []
        print("%-48s %5s %5s %6.1f s  %s" % (name, needed, alone, time.process_time() - began, fault), flush=True)
    return missed


def main(words):
    """Tries every mistake, or those whose names have one of these words."""
    of_calls, of_model = {**CALL_MISTAKES, **swapped_orders()}, dict(MODEL_MISTAKES)
    for others in (sloppy_mistakes, layout_mistakes, size_mistakes, table_mistakes):
        of_calls.update(others.CALL_MISTAKES)
        of_model.update(others.MODEL_MISTAKES)
    edits = [("calls", name, edit) for name, edit in of_calls.items()] + [("model", name, edit) for name, edit in of_model.items()]
    missed = ["no such mistake: " + name for name in set(PROMISED) - {name for _, name, _ in edits}]
    for module, name, edit in edits:
        if words and not any(word in name for word in words):
            continue
        began = time.process_time()
        needed, fault = histories_needed(mistaken_library(module, edit))
        alone = "-"
        if name in PROMISED or name.startswith(("18: ", "layout: ", "size: ", "table: ", "lanes: ", "busy: ", "record: ")):
            with on_both_sides(module, edit) as lib:
                alone, fault = histories_needed(lib)
        missed += [name] if None in (needed, alone) else []
        print("%-48s %5s %5s %6.1f s  %s" % (name, needed, alone, time.process_time() - began, fault.split(", after")[0]), flush=True)
    missed += tried_checksums([name for name in CHECKSUM_MISTAKES if not words or any(word in name for word in words)])
    missed += tried_replays([name for name in REPLAYED if not words or any(word in name for word in words)])
    count = len(edits) + len(CHECKSUM_MISTAKES) + len(REPLAYED)
    print("mistakes: %d, not found: %s" % (count, ", ".join(missed) or "none"))
    return 1 if missed else 0


if __name__ == "__main__":
    sys.exit(main(sys.argv[1:]))

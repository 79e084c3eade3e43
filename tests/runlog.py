"""The model of the replay of a run log, from the wish's own words: its records, and what running them on an arena answers and leaves.

It has a decoder of its own and runs the records by the model of the calls; it shares no code with the library.
"""
import struct
from dataclasses import dataclass, field

import calls
import model

LOG_LIMIT = 8192
ARENA_LIMIT = 49152
BAD_RECORD = 20
START, STEP, CUT = 1, 2, 3
# The length of a whole record of each kind.
LENGTHS = {START: 10, STEP: 6, CUT: 4}


@dataclass
class Replayed:
    """The first opening's number, the answer of each record run, and the offset of the record that ended the replay, if one did."""

    first: int
    answers: list = field(default_factory=list)
    stopped: int = None

    @property
    def number(self):
        """What the library's call returns."""
        return self.first or (0 if self.stopped is None else BAD_RECORD)


def record(log, at):
    """The record that begins at that byte as (kind, lane, sector), or None where there is none that is whole and of a known kind."""
    if len(log) - at < 4:
        return None
    length, kind = struct.unpack_from("<HH", log, at)
    if LENGTHS.get(kind) != length or len(log) - at < length:
        return None
    lane = struct.unpack_from("<H", log, at + 4)[0] if kind != CUT else 0
    sector = struct.unpack_from("<I", log, at + 6)[0] if kind == START else 0
    return kind, lane, sector


def lent(index, size):
    """The sector buffer that the step of this record lends: word k is the record's index plus k."""
    return struct.pack("<%dI" % (size // 4), *range(index, index + size // 4))


def opened(arena, work, table):
    """Opens in layout 16 with the lent work buffer and the replay's own table; gives the number and the handle."""
    found = model.open_arena(arena, work, model.PROGRAM_LAYOUT, table)
    return found.number, calls.handle_of(found, len(arena))


def ran(arena, work, handle, table, index, kind, lane, sector):
    """Runs one record; gives its answer and the handle after it."""
    if kind == CUT:
        return opened(arena, work, table)
    if kind == START:
        return calls.start(arena, handle, table, lane, sector), handle
    return calls.step(arena, handle, table, lane, lent(index, handle.figures.size)), handle


def replay(arena, work, log):
    """Opens the arena and runs the log's records on it, in place; the table is the replay's own and suffices for every arena."""
    table = [calls.Record()] * model.MAX_LANES
    first, handle = opened(arena, work, table)
    replayed, at = Replayed(first), 0
    if first:
        return replayed
    if len(log) > LOG_LIMIT:
        replayed.stopped = 0
        return replayed
    while at < len(log):
        found = record(log, at)
        if found is None:
            replayed.stopped = at
            break
        answer, handle = ran(arena, work, handle, table, len(replayed.answers), *found)
        replayed.answers.append(answer)
        at += LENGTHS[found[0]]
    return replayed


def put_answers(replayed, answers):
    """Puts a byte for each record run into a lent buffer, as many as fit."""
    fit = min(len(answers), len(replayed.answers))
    answers[:fit] = bytes(replayed.answers[:fit])


def lines(replayed):
    """What is written of a replay."""
    if replayed.first:
        return ["refused %d" % replayed.first]
    told = ["%d refused %d" % (n, answer) if answer else "%d ok" % n for n, answer in enumerate(replayed.answers)]
    return told + ([] if replayed.stopped is None else ["stopped %d at %d" % (BAD_RECORD, replayed.stopped)])


def text(image, log):
    """What the program writes of these files; it lends a work buffer that suffices for every arena that it takes."""
    if len(image) > ARENA_LIMIT:
        return "refused 1\n"
    return "".join(line + "\n" for line in lines(replay(bytearray(image), bytearray(ARENA_LIMIT), log)))

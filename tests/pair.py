"""One arena, its latest handle and table, held twice: each call is made by the model and by the library, and all that was lent is compared."""
import collections
from dataclasses import replace

import book
import calls
import forged
import library
import model
from library import RECORD_BYTES, RECORD_FORM

NO_RECORDS = range(0)


class Difference(Exception):
    """The library's outcome is not the model's, or the model's is not what the rules promise."""


class Notes:
    """The last calls made, how often each call gave each number, and, by sector size, how far past its data words a write was at a power cut.

    Of histories also how often an arena of so many lanes was opened, how often a write of each lane was cut, and how often a cut left stores
    out of order, by the number of writes of which it may have.
    """

    def __init__(self):
        self.log, self.seen, self.cuts = collections.deque(maxlen=8), collections.Counter(), collections.Counter()
        self.lanes, self.lanes_cut, self.scattered = collections.Counter(), collections.Counter(), collections.Counter()

    def unseen(self):
        """The numbers that no call of a kind gave, of those it can give, the places where no write was cut, and the lanes that were never there."""
        wanted = {name: (0, *sorted(set(map(abs, order)))) for name, order in calls.ORDER.items()}
        wanted.update(make=(0, 1, 3, 10), open=(*range(9), 16, 18, 21), cut_open=(*range(9), 16, 18, 21))
        missing = ["%s %d" % (name, number) for name, numbers in wanted.items() for number in numbers if not self.seen[name, number]]
        places = [(size, place) for size in book.BLOCK_BYTES for place in range(5)]
        missing += ["cut of %d bytes, %d words after the data" % place for place in places if not self.cuts[place]]
        missing += ["a cut out of order of %d writes" % writes for writes in (1, 2, 3) if not self.scattered[writes]]
        missing += ["an arena of %d lanes" % lanes for lanes in (1, 16, 17, 64, 255, 256) if not self.lanes[lanes]]
        return missing + ["a cut of lane %d" % lane for lane in (0, 15, 16, 63, 254, 255) if not self.lanes_cut[lane]]


class Pair:
    """The model's arena, handle and table, and the library's, which must stay equal to them."""

    def __init__(self, lib, arena, rng, notes):
        self.lib, self.rng, self.notes = lib, rng, notes
        self.arena, self.lent = bytearray(arena), bytearray(arena)
        self.watched = None
        self.watch(figures_of(self.lent))
        self.hold(calls.no_handle(), [])

    def hold(self, handle, table=None):
        """Makes this the handle of both sides, with this table or the one that they have."""
        self.handle, self.lent_handle = handle, bytearray(library.handle_bytes(handle))
        self.stood_handle = bytes(self.lent_handle)
        if table is not None:
            self.hold_table(library.table_bytes(table))
        self.watch(handle.figures)

    def hold_table(self, data):
        """Makes these bytes the table of both sides."""
        self.table, self.lent_table, self.stood_table = library.table_from(data), bytearray(data), bytes(data)

    def lend_table(self):
        """The library's table as a call is lent it; one without records is a null pointer or not."""
        return self.lent_table or self.rng.choice((None, self.lent_table))

    def watch(self, f):
        """From here on calls must leave the rest of every block by these figures; with no allowed sector size, by the last ones still."""
        if self.watched is None or f != self.watched and f.size in book.BLOCK_BYTES:
            self.watched, self.take = replace(f), book.rests(f, len(self.lent))
            self.rests = self.take(self.lent)

    def aside(self, arena=None, handle=None, table=None):
        """A pair of its own on a copy, where a call may be given what is not the latest."""
        self.notes.log.append(("aside",))
        copy = Pair(self.lib, self.arena if arena is None else arena, self.rng, self.notes)
        copy.hold((handle or self.handle).copy(), self.table if table is None else table)
        return copy

    def fail(self, what):
        raise Difference("%s, after %s" % (what, "; ".join(" ".join(map(str, call)) for call in self.notes.log)))

    def compare(self, call, expected, got, *buffers, own=NO_RECORDS):
        """Compares the answers (number, mended count), the arenas, the handles, the tables and each (expected, got) pair of buffers.

        Of the library's table only the call's own records may have changed, and they only if the number is 0.
        """
        self.notes.log.append(call)
        self.notes.seen[call[0], expected[0]] += 1
        if expected != got:
            self.fail("answer %s, not %s" % (got, expected))
        if self.take(self.lent) != self.rests:
            self.fail("not so: no call changes the rest of a block")
        if self.arena != self.lent:
            self.fail("the arena differs first at byte %d" % first_difference(self.arena, self.lent))
        self.compare_held(call, NO_RECORDS if got[0] else own)
        for ours, theirs in buffers:
            if ours != theirs:
                self.fail("a lent buffer differs first at byte %d" % first_difference(ours, theirs))

    def compare_held(self, call, own):
        """Compares the handles and the tables, and the library's with what they were before the call."""
        if call[0] != "open" and self.lent_handle != self.stood_handle:
            self.fail("not so: no call but opening changes the handle")
        start, end, stood, table = RECORD_BYTES * own.start, RECORD_BYTES * own.stop, self.stood_table, self.lent_table
        if table[:start] != stood[:start] or table[end:] != stood[end:]:
            self.fail("not so: a call changes no record but its own, from byte %d on" % first_difference(stood, table))
        ours, table = library.handle_bytes(self.handle), library.table_bytes(self.table)
        if ours != self.lent_handle:
            self.fail("the handle differs first at byte %d" % first_difference(ours, self.lent_handle))
        if table != self.lent_table:
            self.fail("the table differs first at byte %d" % first_difference(table, self.lent_table))
        self.stood_handle, self.stood_table = ours, table

    def make(self, size, sectors, lanes, first, second):
        names = bytearray(first), bytearray(second)
        self.watch(model.Figures(size, sectors, 0, sectors + lanes, lanes, 4096, 0, 0, 0))
        number = model.make(self.arena, size, sectors, lanes, first, second)
        got = self.lib.make(self.lent, size, sectors, lanes, *names)
        self.compare(("make", size, sectors, lanes, len(first), len(second)), (number,), (got,), (first, names[0]), (second, names[1]))
        return number

    def some_records(self):
        """The length of a table that suffices for the lanes of the info block that counts, and is often longer."""
        return min(figures_of(self.lent).lanes, model.MAX_LANES + 1) + self.rng.choice((0, 0, 1, 5))

    def open(self, room, layout, records=None):
        """Opens in that layout with a work buffer of that length and a table of so many records that holds anything.

        Where no number of records is told the table suffices. Gives the number and the mended count.
        """
        self.watch(figures_of(self.lent))
        work, records = self.rng.randbytes(room), self.some_records() if records is None else records
        ours, theirs = bytearray(work), bytearray(work)
        self.hold_table(forged.rubbish(self.rng, records))
        opened = model.open_arena(self.arena, ours, layout, self.table)
        self.handle, self.lent_handle = calls.handle_of(opened, len(self.arena)), bytearray(self.rng.randbytes(library.HANDLE_BYTES))
        got = self.lib.open(self.lent, theirs, layout, self.lend_table(), self.lent_handle)
        lanes = range(self.handle.figures.lanes)
        self.compare(("open", room, layout, records), (opened.number, opened.mended), got, (ours, theirs), own=lanes)
        return opened.number, opened.mended

    def cut_open(self, room, layout, k, records=None):
        """As open, but with at most k stores, and no handle; the table is one of its own, and stays as it is."""
        self.watch(figures_of(self.lent))
        work, records = self.rng.randbytes(room), self.some_records() if records is None else records
        ours, theirs, table = bytearray(work), bytearray(work), forged.rubbish(self.rng, records)
        lent = bytearray(table)
        opened = model.cut_open(self.arena, ours, layout, library.table_from(table), k)
        got = self.lib.cut_open(self.lent, theirs, layout, lent or self.rng.choice((None, lent)), k)
        if lent != table:
            self.fail("not so: a cut opening leaves the table")
        self.compare(("cut_open", room, layout, k, records), (opened.number, opened.mended), got, (ours, theirs))
        return opened.number, opened.mended

    def read(self, sector, length):
        """Reads into a buffer of that length; gives the number and the buffer before and after."""
        before = self.rng.randbytes(length)
        ours, theirs = bytearray(before), bytearray(before)
        number = calls.read(self.arena, self.handle, self.table, sector, ours)
        got = self.lib.read(self.lent, self.lent_handle, self.lend_table(), sector, theirs)
        self.compare(("read", sector, length), (number,), (got,), (ours, theirs))
        return number, before, ours

    def start(self, lane, sector):
        number = calls.start(self.arena, self.handle, self.table, lane, sector)
        got = self.lib.start(self.lent, self.lent_handle, self.lend_table(), lane, sector)
        self.compare(("start", lane, sector), (number,), (got,), own=range(lane, lane + 1))
        return number

    def step(self, lane, buffer):
        theirs = bytearray(buffer)
        number = calls.step(self.arena, self.handle, self.table, lane, buffer)
        got = self.lib.step(self.lent, self.lent_handle, self.lend_table(), lane, theirs)
        self.compare(("step", lane, len(buffer)), (number,), (got,), (buffer, theirs), own=range(lane, lane + 1))
        return number

    def write(self, lane, sector, buffer):
        theirs = bytearray(buffer)
        number = calls.write(self.arena, self.handle, self.table, lane, sector, buffer)
        got = self.lib.write(self.lent, self.lent_handle, self.lend_table(), lane, sector, theirs)
        self.compare(("write", lane, sector, len(buffer)), (number,), (got,), (buffer, theirs), own=range(lane, lane + 1))
        return number

    def lane_record(self, lane):
        """Asks for a lane's record; gives the number and the record, None if what was lent is as it was."""
        before = self.rng.randbytes(RECORD_BYTES)
        words, theirs = list(RECORD_FORM.unpack(before)), bytearray(before)
        number = calls.lane_record(self.arena, self.handle, self.table, lane, words)
        got = self.lib.lane_record(self.lent, self.lent_handle, self.lend_table(), lane, theirs)
        self.compare(("lane_record", lane), (number,), (got,), (RECORD_FORM.pack(*words), theirs))
        return number, None if theirs == before else calls.Record(*words)

    def next_store(self, lane):
        """Asks where the lane's next step stores; gives the number and the offset, None if that was left."""
        expected = calls.next_store(self.arena, self.handle, self.table, lane)
        self.compare(("next_store", lane), expected, self.lib.next_store(self.lent, self.lent_handle, self.lend_table(), lane))
        return expected

    def perform(self, name, lane, sector, lent):
        """The call of that name, with these bytes or random ones of that length; gives its number."""
        buffer = self.rng.randbytes(lent) if isinstance(lent, int) else lent
        if name == "read":
            return self.read(sector, len(buffer))[0]
        if name == "start":
            return self.start(lane, sector)
        if name in ("lane_record", "next_store"):
            return getattr(self, name)(lane)[0]
        return self.step(lane, buffer) if name == "step" else self.write(lane, sector, buffer)

    def put(self, stores):
        """Makes stores in both arenas without a call, as a cut whole write or a foreign hand leaves them."""
        for offset, value in stores:
            calls.put(self.arena, offset, value)
            calls.put(self.lent, offset, value)
        self.rests = self.take(self.lent)

    def drop(self):
        """Loses the handle and the table."""
        self.notes.log.append(("cut",))
        self.hold(calls.no_handle(), [])


def figures_of(arena):
    """The figures of the info block that counts, all zero where none does."""
    block = model.counting_block(arena)
    return model.decode(block)[0] if block else calls.no_handle().figures


def first_difference(ours, theirs):
    """The first byte that differs, or the end of the shorter."""
    return next((i for i, (a, b) in enumerate(zip(ours, theirs)) if a != b), min(len(ours), len(theirs)))

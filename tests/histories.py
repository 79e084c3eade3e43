"""Random histories of calls, each call made by the model and by a library and compared, with the promises of the rules checked at every cut.

A history begins with a made, a random valid or a damaged arena, and goes on with calls through the latest handle and its table, power cuts and
openings, which are lent tables of any length. Beside every fourth runs one of sloppy.py, on an arena that another hand makes sloppy.
Run as a program, with a first seed and a number of histories, it tries the library.
"""
import collections
import random
import sys
import time

import arenas
import asides
import book
import calls
import forged
import layouts
import library
import many_lanes
import model
import random_arenas
import scattered
import sizes
import sloppy
import tables
from pair import Difference, Notes, Pair

AMPLE = 2**15


class History:
    """One history: the pair, the row of sectors, and the book of the list while its premise holds."""

    def __init__(self, lib, seed, notes):
        self.lib, self.rng, self.notes = lib, random.Random(seed), notes
        self.careful, self.must_open = self.rng.random() < 0.8, True
        self.layout = self.rng.choice(random_arenas.LAYOUTS)
        self.pair = self.row = self.book = self.first_table = self.after_list = None
        # The bytes that each lane's write lends, and some tables of this history.
        self.bytes, self.tables = {}, collections.deque(maxlen=8)

    def run(self):
        """Runs to the end, or raises Difference."""
        self.begin()
        for _ in range(self.rng.choice((1, 1, 2, 3))):
            if not self.open():
                return self.after_refusal()
            self.work()
            self.cut()
        return self.open()

    def demand(self, holds, what):
        if not holds:
            self.pair.fail("not so: " + what)

    # The starting arena.

    def begin(self):
        rng = self.rng
        chance, sizes = rng.random(), random_arenas.small_sizes(rng)
        if chance < 0.4:
            return self.make(*sizes)
        if chance < 0.9:
            arena = random_arenas.aged(rng, *random_arenas.valid(rng, self.layout, (sizes,)), self.layout)
            arena = random_arenas.one_sound_block(rng, arena) if rng.random() < 0.3 else arena
        else:
            arena, self.must_open = random_arenas.damaged(rng, self.layout)[0], False
        self.pair = Pair(self.lib, arena, rng, self.notes)

    def make(self, size, sectors, lanes):
        """A made arena, its sectors all zeroes, after some calls of making with anything wrong."""
        rng, f = self.rng, model.made_figures(size, sectors, lanes)
        self.pair = Pair(self.lib, rng.randbytes(f.copy + 4096), rng, self.notes)
        for _ in range(rng.choice((0, 0, 1, 3))):
            wrong = [size, sectors, lanes, 16, 16]
            for place in rng.sample(range(5), rng.choice((1, 1, 2))):
                wrong[place] = rng.choice((0, 1, 15, 17, 256, 257, 512, wrong[place] + 1, 4096) + (520, 576, 4160, 2**32 - 1) * (place < 3))
            self.pair.make(*wrong[:3], rng.randbytes(wrong[3]), rng.randbytes(wrong[4]))
        self.pair.make(size, sectors, lanes, rng.randbytes(16), rng.randbytes(16))
        self.row = book.Row(self.pair.arena, f)
        passes = all(book.nothing_sloppy(self.pair.arena, f, layout) for layout in random_arenas.LAYOUTS)
        self.demand(passes, "a made arena passes 18 in both layouts")
        self.demand(self.row.sectors == [(0, bytes(size))] * sectors, "the sectors of a made arena are zeroes")

    # Openings, and what must hold after them.

    def open(self):
        """Any cut openings and refused ones, then one with room in the layout that the handle had; whether the arena was accepted."""
        rng, pair = self.rng, self.pair
        plain, table = bytearray(pair.arena), [calls.Record()] * model.MAX_LANES
        expected = model.open_arena(plain, bytearray(AMPLE), self.layout, table)
        left = self.pending(expected.mended)
        for _ in range(rng.choice((0, 0, 1, 2, 4))):
            k, given, before = rng.choice((0, 0, 1, 1, 2, 3, 15, 16, 255, 2**32 - 1)), self.lent(expected, self.some_layout()), bytes(pair.lent)
            number, count = pair.cut_open(*given[:2], k, given[2])
            self.demand(number != 0 or count == left, "a cut opening counts the lanes pending as found")
            self.judged(expected, number, given, before)
            left -= min(k, left) if number == 0 else 0
        number = 5
        while number in (5, 16, 21):
            layout, before = rng.choice((self.layout, self.layout, random_arenas.a_refused_layout(rng))), bytes(pair.lent)
            given = self.lent(expected, layout)
            number, count = pair.open(*given)
            self.judged(expected, number, given, before)
        self.demand(number == expected.number, "the answer is the same after cut openings")
        self.demand(number == 0 or not self.must_open, "given room to work, the arena opens, and no history leads to 18")
        if number:
            return False
        self.demand(count == left, "opening counts the lanes pending as found")
        self.demand(pair.arena == plain, "the arena ends as without cut openings")
        lanes = expected.figures.lanes
        self.demand(pair.handle == calls.handle_of(expected, len(plain)), "the handle is as without cut openings")
        self.demand(pair.table[:lanes] == table[:lanes], "the lanes end as without cut openings")
        self.opened()
        return True

    def some_layout(self):
        """Most often the layout that the handle had, else one that is refused, or the other, which is refused or makes no difference."""
        others = (random_arenas.other_layout(self.layout),) if self.must_open else ()
        return self.rng.choice((self.layout,) * 4 + (random_arenas.a_refused_layout(self.rng),) + others)

    def lent(self, expected, layout):
        """The length of a work buffer, a layout, and the records of a table, each enough or not for what the opening finds."""
        rng, f = self.rng, expected.figures
        blocks, lanes = (f.blocks, f.lanes) if f else (64, 16)
        room = rng.choice((blocks, blocks, blocks + 1, blocks + 40, blocks - 1, 0))
        return room, layout, rng.choice((lanes, lanes, lanes + 1, lanes + 2, lanes + 40, lanes - 1, rng.randrange(lanes), 0))

    def judged(self, expected, number, given, before):
        """What an opening is lent is judged in the order 16, 5, 21, and a refusal changes nothing."""
        room, layout, records = given
        self.demand((number == 16) == (layout not in random_arenas.LAYOUTS), "16 is the answer to a layout that is not allowed")
        if number != 16 and expected.number == 0:
            short = 5 if room < expected.figures.blocks else 21 if records < expected.figures.lanes else 0
            self.demand(number == short or short == 0 and number not in (5, 21), "5 is answered to a short work buffer, then 21 to a short table")
        self.demand(number == 0 or self.pair.lent == before, "a refused opening changes nothing")

    def pending(self, found):
        """How many lanes are pending: after a cut by the tallies, else as found."""
        if self.row is None:
            return found
        count = self.row.cut()
        self.demand(count == found, "a lane is pending exactly if its write's last store was the sequence word")
        return count

    def opened(self):
        """Checks the promises on the arena just opened, and begins a new list."""
        pair, f = self.pair, self.pair.handle.figures
        lanes = [(record.block, record.half, record.sequence) for record in pair.table[: f.lanes]]
        self.demand(pair.handle.layout == self.layout, "the handle carries the layout")
        self.demand(book.nothing_sloppy(pair.arena, f, self.layout), "an opened arena passes 18")
        self.demand(book.each_block_once(pair.arena, f, [lane[0] for lane in lanes]), "mapped and free blocks are every block once")
        row = book.Row(pair.arena, f)
        if self.row is not None:
            self.demand(row.sectors == self.row.sectors, "a sector is new exactly if its write's sequence word was stored, else as before")
        if self.book is not None:
            self.demand(pair.arena == self.book.mended(self.after_list), "opening stores just the map word of each pending write")
            self.demand(lanes == self.book.lanes_after_opening(), "the lanes are those that the book gives")
        self.row, self.must_open = row, True
        self.notes.lanes[f.lanes] += 1
        self.begin_list()
        for sector in self.rng.sample(range(f.sectors), min(f.sectors, 2)):
            self.call("read", 0, sector, f.size)

    def after_refusal(self):
        """Calls with the handle of a refused opening: all answer 16."""
        for _ in range(3):
            number = self.pair.perform(*forged.a_call(self.rng, self.pair.handle, self.pair.table))
            self.demand(number == 16, "the handle of a refused opening is refused")

    # Power cuts.

    def cut(self):
        """The power cut: perhaps inside a whole write, of which some stores are kept."""
        if self.rng.random() < 0.4:
            self.cut_write()
        for write in self.row.flying.values():
            self.notes.cuts[self.row.size, max(0, write.tally - self.row.words)] += 1
            self.notes.lanes_cut[write.lane] += 1
        self.demand(book.nothing_sloppy(self.pair.arena, self.pair.handle.figures, self.layout), "calls leave an arena that passes 18")
        self.end_list()
        self.pair.drop()

    def begin_list(self):
        """Begins a list, all lanes being idle."""
        self.book, self.first_table = book.Book(self.pair.arena, self.pair.handle.figures, self.layout), list(self.pair.table)
        self.tables.append(self.first_table)

    def end_list(self):
        """Checks the arena after the list; with all writes finished they are made one after another too, in any order."""
        if self.book is None:
            return
        self.after_list = self.book.arena(self.rng)
        self.demand(self.pair.arena == self.after_list, "the arena is the first one with each write's first stores put in")
        writes = self.book.writes
        if writes:
            scattered.try_cut(self.rng, self.pair, self.book, AMPLE)
        if len(writes) > 1 and not self.row.flying:
            alone = self.pair.aside(self.book.first, table=self.first_table)
            for write in self.rng.sample(writes, len(writes)):
                alone.write(write.lane, write.sector, bytes(write.contents))
            self.demand(alone.arena == self.pair.arena and alone.table == self.pair.table, "finished writes are as if made one after another")

    def cut_write(self):
        """A whole write of which the cut keeps the first stores only; the library makes it whole on a copy."""
        rng, pair = self.rng, self.pair
        place = self.room_for_a_write()
        if place is not None:
            buffer, words = rng.randbytes(self.row.size), self.row.words
            kept = rng.choice((0, rng.randrange(words), words, words + 1, words + 2, words + 3, words + 3, words + 4, words + 4))
            pair.aside().write(*place, buffer)
            pair.put(calls.whole(pair.arena, pair.handle, pair.table, *place, buffer)[0][:kept])
            self.note_start(*place)
            self.row.whole(place[0], buffer, kept)

    # Calls through the latest handle.

    def call(self, name, lane, sector, lent):
        """A call with this buffer, or one of that length, answered as the book says and noted in the row and the book."""
        pair, length = self.pair, lent if isinstance(lent, int) else len(lent)
        if name == "read":
            return self.read(sector, length)
        buffer = self.rng.randbytes(length) if isinstance(lent, int) else lent
        by_table = self.book and self.book.answer(name, lane, sector, length)
        number = pair.perform(name, lane, sector, buffer)
        self.demand(by_table is None or number == by_table, "the book answers as the call does")
        self.demand(number != 18, "no history leads to 18")
        if self.rng.random() < 0.01:
            self.tables.append(list(pair.table))
        if number == 0 and name == "step":
            self.row.step(lane, buffer)
        elif number == 0 and name == "next_store" and self.book is not None:
            self.demand(pair.next_store(lane)[1] == self.book.next_offset(lane), "the next store is the one that the book gives")
        elif number == 0 and name in ("start", "write"):
            self.note_start(lane, sector)
            if name == "write":
                self.row.whole(lane, buffer, self.row.words + 5)
        return number

    def read(self, sector, length):
        """A read gives what the row of sectors has, or leaves its buffer."""
        number, before, after = self.pair.read(sector, length)
        self.demand(number != 18, "no history leads to 18")
        if length == self.row.size and sector < len(self.row.sectors):
            expected, contents = self.row.sectors[sector]
            self.demand(number == expected and after == (before if number else contents), "a read gives the last finished write")
        else:
            self.demand(number in (9, 10) and after == before, "a refused read leaves its buffer")
        return number

    def note_start(self, lane, sector):
        write = self.row.start(lane, sector)
        self.bytes[lane] = self.rng.randbytes(self.row.size)
        if self.book is not None:
            self.book.writes.append(write)

    def keeps_list(self, lane, sector):
        """Whether a write may start there: a new list begins where it can, and only a careless history gives up the premise."""
        if self.book is not None and self.book.fits(lane, sector) and self.rng.random() < 0.95:
            return True
        if not self.row.flying:
            self.end_list()
            self.begin_list()
        elif self.book is not None and not self.book.fits(lane, sector):
            if self.careful:
                return False
            self.book = None
        return True

    def room_for_a_write(self):
        """An idle lane and a sector that is not in flight, if such are found."""
        lanes = [lane for lane in range(self.pair.handle.figures.lanes) if lane not in self.row.flying]
        taken = {write.sector for write in self.row.flying.values()}
        for _ in range(4 if lanes else 0):
            lane, sector = self.rng.choice((self.rng.choice(lanes), lanes[-1])), self.rng.randrange(len(self.row.sectors))
            if sector not in taken and self.keeps_list(lane, sector):
                return lane, sector
        return None

    def work(self):
        """Some writes, each stepped to a tally of its own, in bursts and mixed with all other calls."""
        rng, words = self.rng, self.row.words
        many = () if self.pair.handle.figures.lanes > 16 else (16,)
        wanted, aims = rng.choice((0, 1, 1, 2, 2, 3, 5) * 6 + many if words < 1024 else (0, 1, 1)), {}
        while wanted or any(self.tally(lane) < aim for lane, aim in aims.items()):
            if wanted and rng.random() < 0.5:
                wanted -= 1
                place = self.room_for_a_write()
                if place and self.call("start", *place, 0) == 0:
                    early = (0, 1, rng.randrange(words), words - 1, words, words + 1, words + 2)
                    aims[place[0]] = rng.choice(early + (words + 3, words + 4, words + 5, words + 5, words + 5))
            short = [lane for lane, aim in aims.items() if self.tally(lane) < aim]
            if short:
                self.burst(rng.choice(short), aims)
            for _ in range(rng.choice((0, 1, 2, 4))):
                self.other()

    def tally(self, lane):
        """The tally of the lane's write, above every aim once it is finished."""
        return self.row.flying[lane].tally if lane in self.row.flying else 2**32

    def burst(self, lane, aims):
        """Some steps of one lane, seldom with other bytes than before."""
        for _ in range(self.rng.choice((1, 1, 2, 30, 200, 1100))):
            if self.tally(lane) >= aims[lane]:
                break
            if not self.careful and self.rng.random() < 0.02:
                self.bytes[lane] = self.rng.randbytes(self.row.size)
            self.call("step", lane, 0, self.bytes[lane])

    def other(self):
        """A read, a whole write, any call at all, or calls on a copy."""
        rng, chance = self.rng, self.rng.random()
        if chance < 0.2:
            self.call("read", 0, rng.randrange(len(self.row.sectors)), self.row.size)
        elif chance < 0.35:
            place = self.room_for_a_write()
            if place:
                self.call("write", *place, self.row.size)
        elif chance < 0.7:
            self.any_call()
        else:
            asides.try_aside(rng, self.pair, self.tables)

    def any_call(self):
        """A call with any lane, sector and buffer length; one that would break the list is left out."""
        pair = self.pair
        name, lane, sector, length = forged.a_call(self.rng, pair.handle, pair.table)
        if name == "read" or self.book is None:
            accepted = calls.refusal(name, pair.arena, pair.handle, pair.table, lane, sector, length) == 0
        else:
            accepted = self.book.answer(name, lane, sector, length) == 0
        if not accepted or name not in ("start", "write") or self.keeps_list(lane, sector):
            self.call(name, lane, sector, self.bytes[lane] if accepted and name == "step" else length)


def named(lib, notes):
    """The arenas that the report is run on, opened with and without room and by cut openings."""
    for arena in arenas.all_arenas().values():
        pair = Pair(lib, arena, random.Random(len(arena)), notes)
        for room, layout, k in ((128, 32, 0), (128, 16, 0), (63, 16, 1), (128, 16, 1), (64, 16, 16), (64, 32, 16)):
            pair.cut_open(room, layout, k)
            pair.cut_open(room, layout, k, 3)
        pair = Pair(lib, arena, random.Random(len(arena)), notes)
        for room, layout in ((0, 16), (63, 16), (64, 32), (64, 16), (128, 16), (128, 32)):
            pair.open(room, layout, 0)
            pair.open(room, layout)


def longest(lib, notes):
    """A handle that fits a slice of the greatest length is accepted, and one of a slice that is a block longer is not."""
    for length, number in ((16777216, 0), (16777216 + 4096, 16)):
        pair = Pair(lib, bytes(length), random.Random(length), notes)
        figures = model.Figures(520, 1, 576, 2, 1, 4096, 8192, 12288, length - 4096)
        pair.hold(calls.Handle(length, figures, 32), [calls.Record(0, 1, 0, 1)])
        if pair.start(0, 0) != number:
            pair.fail("not so: the start answers %d" % number)


def run(lib, count, first=1):
    """Runs the fixed arenas and then histories from that seed on, to the first fault; gives the notes, the last seed and the fault."""
    notes, seed = Notes(), 0
    try:
        named(lib, notes)
        longest(lib, notes)
        tables.try_all(lib, notes)
        many_lanes.try_all(lib, notes)
        layouts.try_all(lib, notes)
        sizes.try_all(lib, notes)
        sloppy.try_openings(lib, notes)
        sloppy.try_orders(lib, notes)
        for seed in range(first, first + count):
            notes.log.clear()
            History(lib, seed, notes).run()
            if seed % 4 == 0:
                sloppy.Live(lib, seed, notes).run()
    except Difference as fault:
        return notes, seed, str(fault)
    return notes, seed, None


def main(first=1, count=500):
    began = time.process_time()
    notes, last, fault = run(library.built(), count, first)
    print(dict(sorted(notes.seen.items())), "cuts", dict(sorted(notes.cuts.items())), "out of order", dict(sorted(notes.scattered.items())))
    print("%d calls to history %d, fault: %s, never seen: %s" % (sum(notes.seen.values()), last, fault, notes.unseen()))
    print("%.1f s" % (time.process_time() - began))
    return 1 if fault else 0


if __name__ == "__main__":
    sys.exit(main(*[int(word) for word in sys.argv[1:]]))

"""Case 9 in both layouts and case 10, made through a library as C calls it: the lines must be the model's, and the paper's be among them."""
import struct

import library
import model

CONTENTS = bytes((7 * j + 3) % 256 for j in range(512))
SECTOR = 7

# What the paper itself gives of case 9 and its twin, whose words of the half have other places, and of case 10; 3221225532 is 0xC000003C.
PAPER_9 = (
    "store 1 at 34816",
    "store 128 at 35324",
    "store 129 at %d value 7",
    "store 130 at %d value 7",
    "store 131 at %d value 60",
    "store 132 at %d value 2",
    "store 133 at 36892 value 3221225532",
    "cut after 131: number 0 mended 0 reads old",
    "cut after 132: number 0 mended 1 reads new",
    "cut after 133: number 0 mended 0 reads new",
)
HALVES = {16: (40976, 40980, 40984, 40988), 32: (40992, 40996, 41000, 41004)}
PAPER_10 = (
    "read 59: 0",
    "read 60: 9",
    "start on lane 4: 11",
    "step on lane 4: 11",
    "write on lane 4: 11",
    "read into 511: 10",
    "step with 511: 10",
    "write with 511: 10",
    "open with 63: 5",
    "open with 64: 0",
)


class Run:
    """One arena, its latest handle and its table of four records, with which this library makes the calls."""

    def __init__(self, lib, arena, layout):
        self.lib, self.arena, self.layout = lib, bytearray(arena), layout
        self.handle, self.table = bytearray(library.HANDLE_BYTES), bytearray(4 * library.RECORD_BYTES)

    def open(self, work=64):
        """The number and the mended count of an opening with a work buffer of that length."""
        return self.lib.open(self.arena, bytearray(work), self.layout, self.table, self.handle)

    def call(self, name, *arguments):
        """The number of a call with the latest handle."""
        return getattr(self.lib, name)(self.arena, self.handle, self.table, *arguments)

    def reads(self):
        """Whether sector 7 is as in the fresh arena or as written."""
        buffer = bytearray(512)
        number = self.call("read", SECTOR, buffer)
        return {bytes(512): "old", CONTENTS: "new"}.get(bytes(buffer), "torn") if number == 0 else "refused %d" % number


def fresh(lib, layout):
    """The fresh arena of 49,152 bytes, opened in that layout."""
    run = Run(lib, model.made(512, 60, 4), layout)
    assert run.open() == (0, 0)
    return run


def stores(before, after):
    """The words that differ, with their new values."""
    places = [at for at in range(0, len(after), 4) if before[at : at + 4] != after[at : at + 4]]
    return ["at %d value %d" % (at, struct.unpack_from("<I", after, at)[0]) for at in places]


def case_9(lib, layout):
    """Lane 0 of a fresh arena writes sector 7, store by store, and the three cuts, each opened in the layout that the handle had."""
    run = fresh(lib, layout)
    lines, cuts = ["start: %d" % run.call("start", 0, SECTOR)], []
    for k in range(1, 134):
        before = bytes(run.arena)
        number = run.call("step", 0, bytearray(CONTENTS))
        lines.append("store %d %s" % (k, " and ".join(stores(before, run.arena))) if number == 0 else "step %d: %d" % (k, number))
        if k >= 131:
            left = Run(lib, run.arena, layout)
            cuts.append("cut after %d: number %d mended %d" % (k, *left.open()))
            cuts[-1] += " reads " + left.reads()
    return lines + cuts


def case_10(lib):
    """The first sector, lane, buffer length and work buffer that are refused."""
    run, started = fresh(lib, 16), fresh(lib, 16)
    short, contents = bytearray(511), bytearray(CONTENTS)
    answers = [
        ("read 59", run.call("read", 59, bytearray(512))),
        ("read 60", run.call("read", 60, bytearray(512))),
        ("start on lane 4", run.call("start", 4, SECTOR)),
        ("step on lane 4", run.call("step", 4, contents)),
        ("write on lane 4", run.call("write", 4, SECTOR, contents)),
        ("read into 511", run.call("read", SECTOR, short)),
        ("start", started.call("start", 0, SECTOR)),
        ("step with 511", started.call("step", 0, short)),
        ("write with 511", run.call("write", 0, SECTOR, short)),
        ("open with 63", run.open(63)[0]),
        ("open with 64", run.open(64)[0]),
    ]
    return ["%s: %d" % answer for answer in answers]


def cases(lib):
    """Each case as its heading, its lines by this library, and the paper's lines of it."""
    for layout, places in HALVES.items():
        yield "case 9 in layout %d" % layout, case_9(lib, layout), ("\n".join(PAPER_9) % places).splitlines()
    yield "case 10", case_10(lib), PAPER_10


def check(lib):
    """What of the cases is not as the model has it or not as the paper does, as lines: a line of the paper stands there, or begins a value's."""
    wrong = []
    for (heading, lines, paper), (_, ours, _) in zip(cases(lib), cases(library.ModelLibrary()), strict=True):
        wrong += ["%s: the model has %r" % (heading, line) for line, other in zip(ours, lines, strict=True) if line != other]
        told = [line for line in paper if line not in lines and not any(other.startswith(line + " value ") for other in lines)]
        wrong += ["%s: the paper has %r" % (heading, line) for line in told]
    return wrong

"""The library behind its C declarations, by ctypes, and the bytes of a handle and of a table.

Every call takes bytearrays and changes them in place; LIBRARY_CALLS is the only place that says what each C function takes.
A table that is None is lent as a null pointer with length 0.
"""
import ctypes
import functools
import itertools
import pathlib
import struct
import subprocess

import calls
import model
import runlog

TOP = pathlib.Path(__file__).resolve().parent.parent
CRATES = TOP / "crates"
ARCHIVE = CRATES / "btt" / "out" / "libbtt.a"
SHARED = TOP / "target" / "libbtt.so"

# What a parameter is in C: bytes are a pointer and a length, a table a pointer and the number of its records, a handle or a record a pointer,
# a word a u32, a count a pointer to a number.
BYTES, TABLE, HANDLE, RECORD, WORD, COUNT = "bytes", "table", "handle", "record", "word", "count"
LIBRARY_CALLS = {
    "btt_info_block": (BYTES, COUNT, COUNT),
    "btt_make": (BYTES, WORD, WORD, WORD, BYTES, BYTES),
    "btt_open": (BYTES, BYTES, WORD, TABLE, HANDLE, COUNT),
    "btt_cut_open": (BYTES, BYTES, WORD, TABLE, WORD, COUNT),
    "btt_read": (BYTES, HANDLE, TABLE, WORD, BYTES),
    "btt_start": (BYTES, HANDLE, TABLE, WORD, WORD),
    "btt_step": (BYTES, HANDLE, TABLE, WORD, BYTES),
    "btt_write": (BYTES, HANDLE, TABLE, WORD, WORD, BYTES),
    "btt_lane_record": (BYTES, HANDLE, TABLE, WORD, RECORD),
    "btt_next_store": (BYTES, HANDLE, TABLE, WORD, COUNT),
    "btt_replay": (BYTES, BYTES, BYTES, BYTES, COUNT, COUNT),
}

# Length and the four starts; sector size, sectors, internal size, blocks, lanes and the layout.
HANDLE_FORM = struct.Struct("<5Q6I")
HANDLE_BYTES = HANDLE_FORM.size
# Where the layout stands in a handle.
LAYOUT_BYTE = 60
RECORD_FORM = struct.Struct("<7I")
RECORD_BYTES = RECORD_FORM.size

# What a number that a call may leave is before the call; it is no offset of an arena.
UNSET = 0xA5A5A5A5A5A5A5A5
# Bytes after a lent buffer, which no call may change.
GUARD = b"\xA7" * 64
# Bytes before a handle, a record or a table; a table's address is a multiple of 4 and of no greater power of two.
BEFORE = {HANDLE: b"\xA9" * 64, RECORD: b"\xA9" * 60, TABLE: b"\xA9" * 60}


def handle_bytes(handle):
    """The 64 bytes of a handle of the model."""
    f = handle.figures
    return HANDLE_FORM.pack(handle.length, f.data, f.map, f.flog, f.copy, f.size, f.sectors, f.internal, f.blocks, f.lanes, handle.layout)


def handle_from(data):
    """The handle of the model that these 64 bytes are."""
    length, data_start, map_start, flog, copy, size, sectors, internal, blocks, lanes, layout = HANDLE_FORM.unpack(data)
    return calls.Handle(length, model.Figures(size, sectors, internal, blocks, lanes, data_start, map_start, flog, copy), layout)


def table_bytes(table):
    """The bytes of a list of records."""
    return struct.pack("<%dI" % (7 * len(table)), *itertools.chain.from_iterable(table))


def wrapped(table):
    """The records with each word brought below 2^32, as a mistaken model may leave one that is not."""
    return [calls.Record(*(word % 2**32 for word in record)) for record in table]


def table_from(data):
    """The list of records that these bytes are; None is a table without any."""
    return [calls.Record(*words) for words in RECORD_FORM.iter_unpack(data or b"")]


def must(*command, folder=TOP):
    """Runs a command in a folder, with no input; it has to end with 0."""
    done = subprocess.run([str(word) for word in command], cwd=folder, stdin=subprocess.DEVNULL, capture_output=True, text=True)
    if done.returncode:
        raise SystemExit("tests: %s failed\n%s%s" % (" ".join(str(word) for word in command[:3]), done.stdout, done.stderr))


def made(path, *command):
    """A file that is built in the folder out/ of a crate, made anew by a command if it is missing or older than a source."""
    sources = CRATES.glob("*/src/**/*.rt")
    if not path.exists() or any(source.stat().st_mtime > path.stat().st_mtime for source in sources):
        must(*command, folder=path.parent.parent)
    return path


def archive():
    """The crate's static library."""
    return made(ARCHIVE, "rt", "lib")


@functools.cache
def program(name):
    """The program of a crate."""
    return made(CRATES / name / "out" / name, "rt", "run")


def built():
    """The library, its shared object made anew from the static library."""
    SHARED.parent.mkdir(exist_ok=True)
    must("gcc", "-shared", "-o", SHARED, "-Wl,--whole-archive", archive(), "-Wl,--no-whole-archive")
    return Library(SHARED)


def c_types(kinds):
    """The C types of parameters of these kinds."""
    pointer, length = [ctypes.c_void_p], [ctypes.c_size_t]
    forms = {BYTES: pointer + length, TABLE: pointer + length, HANDLE: pointer, RECORD: pointer, WORD: [ctypes.c_uint32], COUNT: pointer}
    return [c_type for kind in kinds for c_type in forms[kind]]


def address(data):
    """A C array that lies on the bytes of a bytearray."""
    return (ctypes.c_uint8 * len(data)).from_buffer(data)


class Library:
    """The library's calls, each giving its number, and the mended count where there is one."""

    def __init__(self, path):
        shared = ctypes.CDLL(str(path))
        self.functions = {}
        for name, kinds in LIBRARY_CALLS.items():
            function = getattr(shared, name)
            function.argtypes, function.restype = c_types(kinds), ctypes.c_uint32
            self.functions[name] = (function, kinds)

    def call(self, name, *arguments):
        """Calls the C function, lending each bytearray by pointer and length, and handles, records and tables between guard bytes."""
        function, kinds = self.functions[name]
        given, rooms = [], []
        for kind, argument in zip(kinds, arguments, strict=True):
            if kind is WORD:
                given.append(argument)
            elif kind is COUNT:
                given.append(ctypes.byref(argument))
            elif kind is BYTES:
                given += [address(argument), len(argument)]
            elif argument is None:
                given += [None, 0]
            else:
                room = bytearray(BEFORE[kind] + argument + GUARD)
                rooms.append((argument, room, BEFORE[kind]))
                given.append((ctypes.c_uint8 * len(argument)).from_buffer(room, len(BEFORE[kind])))
                given += [len(argument) // RECORD_BYTES] if kind is TABLE else []
        number = function(*given)
        for argument, room, before in rooms:
            argument[:] = room.removeprefix(before).removesuffix(GUARD)
        return number

    def make(self, arena, size, sectors, lanes, first, second):
        return self.call("btt_make", arena, size, sectors, lanes, first, second)

    def info_block(self, arena):
        """Where the info block that counts begins, and its length."""
        offset, length = ctypes.c_uint64(0xA5A5A5A5), ctypes.c_uint64(0xA5A5A5A5)
        self.call("btt_info_block", arena, offset, length)
        return offset.value, length.value

    def open(self, arena, work, layout, table, handle):
        mended = ctypes.c_uint32(0xA5A5A5A5)
        return self.call("btt_open", arena, work, layout, table, handle, mended), mended.value

    def cut_open(self, arena, work, layout, table, k):
        mended = ctypes.c_uint32(0xA5A5A5A5)
        return self.call("btt_cut_open", arena, work, layout, table, k, mended), mended.value

    def read(self, arena, handle, table, sector, buffer):
        """The number; what is read past the buffer's end, as a block's rest would be, makes the buffer longer."""
        room = buffer + GUARD
        number = self.call("btt_read", arena, handle, table, sector, memoryview(room)[: len(buffer)])
        buffer[:] = room.removesuffix(GUARD)
        return number

    def read_all(self, arena, handle, table, size, sectors):
        """The numbers that the reads of all these sectors give, and their bytes one after another, each lent its own part of one buffer."""
        function, _ = self.functions["btt_read"]
        lent, buffer = [address(arena), len(arena), address(handle), address(table), len(table) // RECORD_BYTES], bytearray(size * sectors)
        first = ctypes.addressof(address(buffer))
        numbers = {function(*lent, sector, first + size * sector, size) for sector in range(sectors)}
        return numbers, buffer

    def start(self, arena, handle, table, lane, sector):
        return self.call("btt_start", arena, handle, table, lane, sector)

    def step(self, arena, handle, table, lane, buffer):
        return self.call("btt_step", arena, handle, table, lane, buffer)

    def write(self, arena, handle, table, lane, sector, buffer):
        return self.call("btt_write", arena, handle, table, lane, sector, buffer)

    def lane_record(self, arena, handle, table, lane, record):
        return self.call("btt_lane_record", arena, handle, table, lane, record)

    def next_store(self, arena, handle, table, lane):
        """The number, and the offset, None if it was left."""
        offset = ctypes.c_uint64(UNSET)
        number = self.call("btt_next_store", arena, handle, table, lane, offset)
        return number, None if offset.value == UNSET else offset.value

    def replay(self, arena, work, log, answers):
        """The number, how many records ran, and the offset; an answer past the buffer's end makes the buffer longer."""
        records, stopped = ctypes.c_uint64(0xA5A5A5A5), ctypes.c_uint64(0xA5A5A5A5)
        room = answers + GUARD
        number = self.call("btt_replay", arena, work, log, memoryview(room)[: len(answers)], records, stopped)
        answers[:] = room.removesuffix(GUARD)
        return number, records.value, stopped.value


class ModelLibrary:
    """The model behind the library's interface, so that the histories can be tried on mistakes of the model."""

    def __init__(self, calls_module=calls, model_module=model, runlog_module=runlog):
        self.calls, self.model, self.runlog = calls_module, model_module, runlog_module

    def make(self, arena, size, sectors, lanes, first, second):
        return self.model.make(arena, size, sectors, lanes, first, second)

    def open(self, arena, work, layout, table, handle):
        opened = with_table(table, lambda records: self.model.open_arena(arena, work, layout, records))
        handle[:] = handle_bytes(self.calls.handle_of(opened, len(arena)))
        return opened.number, opened.mended

    def cut_open(self, arena, work, layout, table, k):
        opened = with_table(table, lambda records: self.model.cut_open(arena, work, layout, records, k))
        return opened.number, opened.mended

    def through(self, call, arena, handle, table, *arguments):
        """Makes a call that may change the bytes of the handle and of the table."""
        decoded = handle_from(handle)
        answer = with_table(table, lambda records: call(arena, decoded, records, *arguments))
        handle[:] = handle_bytes(decoded)
        return answer

    def read(self, *given):
        return self.through(self.calls.read, *given)

    def read_all(self, arena, handle, table, size, sectors):
        """As the library's."""
        rows, numbers = [bytearray(size) for _ in range(sectors)], set()
        for sector, row in enumerate(rows):
            numbers.add(self.read(arena, handle, table, sector, row))
        return numbers, b"".join(rows)

    def start(self, *given):
        return self.through(self.calls.start, *given)

    def step(self, *given):
        return self.through(self.calls.step, *given)

    def write(self, *given):
        return self.through(self.calls.write, *given)

    def lane_record(self, arena, handle, table, lane, record):
        words = list(RECORD_FORM.unpack(record))
        number = self.through(self.calls.lane_record, arena, handle, table, lane, words)
        record[:] = RECORD_FORM.pack(*words)
        return number

    def next_store(self, *given):
        return self.through(self.calls.next_store, *given)

    def replay(self, arena, work, log, answers):
        replayed = self.runlog.replay(arena, work, log)
        self.runlog.put_answers(replayed, answers)
        return replayed.number, len(replayed.answers), replayed.stopped or 0


def with_table(table, call):
    """What a call gives that is lent these bytes as a list of records; they are put back after it."""
    records = table_from(table)
    answer = call(records)
    if table is not None:
        table[:] = table_bytes(wrapped(records))
    return answer

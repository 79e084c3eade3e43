"""Replays of run logs: the library's and the program's against the model's, and the promise of a replayed sector, word by word.

The kept logs and random ones are replayed by the library and by the model, and every answer, count and offset and every byte of arena,
work buffer and answers is compared. Run as a program, with a first seed and a number of random logs, it tries the library.
"""
import collections
import pathlib
import random
import struct
import subprocess
import sys
import tempfile
import time

import arenas
import book
import library
import logs
import model
import random_arenas
import random_logs
import runlog
from pair import Difference, figures_of, first_difference

TOP = pathlib.Path(__file__).resolve().parent.parent
AMPLE = 2**15
CRATE = TOP / "crates" / "replay"
BY_PROGRAM = 60
# The kept logs that are replayed on every arena of tests/arenas.
EVERYWHERE = ("a cut after the sequence word, 132 stores", "8193 bytes", "what ran before a bad record stays")
# What a record of each kind can answer: a cut's opening is never refused, and a start meets neither a bad map word nor a sloppy one.
ANSWERS = {runlog.START: (0, 9, 11, 12, 13), runlog.STEP: (0, 11, 14), runlog.CUT: (0,)}


class Notes:
    """How often a record of each kind gave each answer, how each replay ended, and, by sector size, how far past its data a write was at a cut."""

    def __init__(self):
        self.seen, self.ends, self.cuts = collections.Counter(), collections.Counter(), collections.Counter()


def same(what, ours, theirs):
    """Bytes that were lent must be the model's."""
    if ours != theirs:
        at = "length" if len(ours) != len(theirs) else "byte %d" % first_difference(ours, theirs)
        raise Difference("%s: another %s" % (what, at))


def compared(lib, image, log, work, answers):
    """One replay by the library and by the model with these buffers; gives the model's and its arena after it."""
    ours, theirs = [[bytearray(part) for part in (image, work, log, answers)] for _ in range(2)]
    replayed = runlog.replay(*ours[:3])
    runlog.put_answers(replayed, ours[3])
    got = lib.replay(*theirs)
    expected = replayed.number, len(replayed.answers), replayed.stopped or 0
    if got != expected:
        raise Difference("number, records run and offset are %s, not %s" % (got, expected))
    rests = book.rests(figures_of(image), len(image))
    if rests(theirs[0]) != rests(image):
        raise Difference("not so: a replay leaves the rest of every block")
    for what, *both in zip(("the arena", "the work buffer", "the log", "the answers"), ours, theirs):
        same(what, *both)
    return replayed, ours[0]


def records_run(log, count):
    """The (kind, lane, sector) of the first records of a log that ran, without the model's decoder."""
    rows, at = [], 0
    for _ in range(count):
        length = log[at] + 256 * log[at + 1]
        lane, sector = int.from_bytes(log[at + 4 : at + 6], "little"), int.from_bytes(log[at + 6 : at + 10], "little")
        rows.append((log[at + 2], lane, sector))
        at += length
    return rows


def last_writes(rows, answers, words, notes):
    """By sector the indices of the step records of its last finished write, from the log and its answers alone, the arena opened again."""
    flying, finished = {}, {}
    for index, ((kind, lane, sector), answer) in enumerate(zip(rows + [(runlog.CUT, 0, 0)], answers + [0])):
        if answer:
            continue
        if kind == runlog.START:
            flying[lane] = sector, []
        elif kind == runlog.STEP:
            flying[lane][1].append(index)
            if len(flying[lane][1]) == words + 5:
                finished.update([flying.pop(lane)])
        else:
            notes.cuts.update((4 * words, max(0, len(steps) - words)) for _, steps in flying.values())
            finished.update(write for write in flying.values() if len(write[1]) == words + 4)
            flying.clear()
    return finished


def sectors(lib, image):
    """What the library reads of each sector once it has opened the arena: number and bytes."""
    arena, handle, table = bytearray(image), bytearray(library.HANDLE_BYTES), bytearray(library.RECORD_BYTES * model.MAX_LANES)
    number, _ = lib.open(arena, bytearray(AMPLE), model.PROGRAM_LAYOUT, table, handle)
    if number:
        raise Difference("the arena is refused with %d" % number)
    f, row = library.handle_from(handle).figures, []
    for sector in range(f.sectors):
        buffer = bytearray(f.size)
        row.append((lib.read(arena, handle, table, sector, buffer), bytes(buffer)))
    return row


def check_words(lib, image, arena, log, replayed, notes):
    """Word k of a sector last written in the replay is k plus the index of the step that stored it; every other sector is as before."""
    before, after = sectors(lib, image), sectors(lib, arena)
    words = len(before[0][1]) // 4
    finished = last_writes(records_run(log, len(replayed.answers)), replayed.answers, words, notes)
    for sector, (old, new) in enumerate(zip(before, after)):
        if sector in finished:
            promised = 0, struct.pack("<%dI" % words, *[k + index for k, index in enumerate(finished[sector][:words])])
            if new != promised:
                raise Difference("not so: each word of sector %d is of the step that stored it" % sector)
        elif new != old:
            raise Difference("not so: sector %d, of which no write was finished, is as before" % sector)


def note(notes, log, replayed):
    """Counts what a replay answered and how it ended."""
    notes.ends[replayed.first or ("end" if replayed.stopped is None else "long" if len(log) > runlog.LOG_LIMIT else "stopped")] += 1
    for (kind, _, _), answer in zip(records_run(log, len(replayed.answers)), replayed.answers):
        notes.seen[kind, answer] += 1


def room_needed(image):
    """The least work buffer that 5 allows; of an arena that is refused before 5 any."""
    if model.judge(image, 0, model.PROGRAM_LAYOUT, model.MAX_LANES).number != 5:
        return 64
    return model.decode(model.counting_block(image))[0].blocks


def tried(lib, image, log, rng, notes):
    """A log replayed with ample buffers, then with others: short, exact and long ones; gives the ample replay."""
    replayed, arena = compared(lib, image, log, rng.randbytes(AMPLE), rng.randbytes(2048))
    if 21 in (replayed.first, *replayed.answers):
        raise Difference("not so: the replay's own table suffices for every arena")
    note(notes, log, replayed)
    if replayed.first == 0:
        check_words(lib, image, arena, log, replayed, notes)
    blocks, ran = room_needed(image), len(replayed.answers)
    for room, length in ((blocks, ran), (blocks - 1, ran), (blocks, rng.choice((0, 1, ran // 2, max(0, ran - 1), ran + 1)))):
        other, other_arena = compared(lib, image, log, rng.randbytes(room), rng.randbytes(length))
        if room >= blocks and (other, other_arena) != (replayed, arena):
            raise Difference("not so: a replay does not depend on the lengths of its buffers")
        notes.ends[5] += other.first == 5
    return replayed


def try_kept(lib, notes):
    """The kept logs on their arenas, and a few of them on all arenas."""
    built, rng = arenas.all_arenas(), random.Random(1)
    for name, kept in logs.kept_logs().items():
        if runlog.text(built[kept.arena], kept.log) != kept.output:
            raise Difference("%s: not so: the model gives the kept output" % name)
        images = built.values() if name in EVERYWHERE else [built[kept.arena]]
        for image in images:
            try:
                tried(lib, image, kept.log, rng, notes)
            except Difference as fault:
                raise Difference("%s: %s" % (name, fault)) from fault


def try_widest(lib, notes):
    """Logs on the arena of 256 lanes: the last lane, some before it, all of them started, and lanes that are not there."""
    image, rng = bytes(arenas.lanes_of(256)), random.Random(256)
    write = logs.start(255, 7) + logs.step(255) * 132
    started = b"".join(logs.start(lane, 255 - lane) + logs.step(lane) for lane in range(256))
    for log in (write, write + logs.cut(), write + logs.step(255), started + logs.cut() + logs.start(254, 0), logs.start(256, 0) + write):
        tried(lib, image, log, rng, notes)
    tried(lib, bytes(arenas.all_pending(256)), write + logs.cut(), rng, notes)


def run(lib, count, first=1):
    """The kept logs, then random ones from that seed on, to the first fault; gives the notes, the last seed and the fault."""
    notes, seed = Notes(), 0
    try:
        try_kept(lib, notes)
        try_widest(lib, notes)
        for seed in range(first, first + count):
            rng = random.Random(seed)
            image, f = random_logs.an_arena(rng)
            tried(lib, image, random_logs.a_log(rng, f), rng, notes)
    except Difference as fault:
        return notes, seed, str(fault)
    return notes, seed, None


def unseen(notes):
    """What never came: an answer of a kind of record, an end, a write cut at a place that matters."""
    missing = ["kind %d %d" % (kind, answer) for kind, answers in ANSWERS.items() for answer in answers if not notes.seen[kind, answer]]
    missing += ["end %s" % end for end in (*range(1, 9), 18, "end", "long", "stopped") if not notes.ends[end]]
    places = [(size, place) for size, _ in random_arenas.PAIRS for place in (0, 3, 4)]
    return missing + ["cut of %d bytes, %d words after the data" % place for place in places if not notes.cuts[place]]


def written(image, log):
    """What the program writes of these files, None being one that is not there; it must change neither and make no other."""
    files = {name: data for name, data in (("arena.img", image), ("steps.log", log)) if data is not None}
    with tempfile.TemporaryDirectory() as folder:
        for name, data in files.items():
            (pathlib.Path(folder) / name).write_bytes(data)
        done = subprocess.run([library.program("replay")], cwd=folder, capture_output=True, timeout=60)
        left = {path.name: path.read_bytes() for path in pathlib.Path(folder).iterdir()}
    if left != files:
        return "the files are not as they were"
    if done.returncode or done.stderr:
        return "it ended with %d and said %r" % (done.returncode, done.stderr)
    return done.stdout.decode()


def program_runs():
    """What the program is run on, by name: the files, None being one that is not there, and what it must write."""
    built, fresh = arenas.all_arenas(), bytes(arenas.fresh())
    for name, kept in logs.kept_logs().items():
        yield name, built[kept.arena], kept.log, kept.output
    log = logs.start(0, 7) + logs.step(0)
    yield "no file", None, None, "refused 1\n"
    yield "no arena", None, log, "refused 1\n"
    yield "no log", fresh, None, ""
    yield "an empty log", fresh, b"", ""
    yield "an arena of 49,152 bytes", fresh, log, "0 ok\n1 ok\n"
    yield "an arena of 49,153 bytes", fresh + b"\0", log, "refused 1\n"
    yield "an arena of 53,248 bytes", bytes(model.made(512, 68, 4)), log, "refused 1\n"
    yield "an arena of 16 MiB", bytes(model.made(4096, 4085, 4)), log, "refused 1\n"
    for seed in range(BY_PROGRAM):
        rng = random.Random(seed)
        image, f = random_logs.an_arena(rng)
        log = random_logs.a_log(rng, f)
        yield "random log %d" % seed, bytes(image), log, runlog.text(image, log)


def check_stored():
    """What is wrong with the text that the program's own crate stores for the files in its data folder, as lines."""
    image, log = [path.read_bytes() if path.exists() else b"" for path in (CRATE / "data" / "arena.img", CRATE / "data" / "steps.log")]
    return [] if (CRATE / "stdout").read_text() == runlog.text(image, log) else ["replay: the stored text is not the model's"]


def check_program():
    """What is wrong with what the program writes, as lines, and how often it was run."""
    wrong, count = [], 0
    for name, image, log, expected in program_runs():
        count += 1
        found = written(image, log)
        if found != expected:
            wrong.append("replay: %s: the program wrote %r, not %r" % (name, found[-200:], expected[-200:]))
    return wrong, count


def main(first=1, count=500):
    began = time.process_time()
    notes, last, fault = run(library.built(), count, first)
    print(dict(sorted(notes.seen.items())), "ends", dict(notes.ends), "cuts", dict(sorted(notes.cuts.items())))
    print("to random log %d, fault: %s, never seen: %s, %.1f s" % (last, fault, unseen(notes), time.process_time() - began))
    return 1 if fault else 0


if __name__ == "__main__":
    sys.exit(main(*[int(word) for word in sys.argv[1:]]))

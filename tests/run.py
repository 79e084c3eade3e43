"""Compares what the programs and the library do with the model.

The report is run on every arena of tests/arenas, on random ones and on those of sloppy.py, layouts.py, sizes.py and many_lanes.py; what `cases`
and `replay` must write (rt runs them) has to be what the model works out; the library makes the calls of cases 9 and 10 with the paper's stores and
answers; the checksums of random runs of words and of changed info blocks are the model's; the library goes through random histories of calls, call
by call beside the model, and through writes behind a write-back cache; it reads and writes the arenas of the Linux driver; the kept run logs of tests/logs and random ones are replayed by the
library and the program.
"""
import collections
import pathlib
import subprocess
import sys
import time

import arenas
import cases
import checksums
import histories
import layouts
import library
import linux
import many_lanes
import model
import random_arenas
import replay
import running_cases
import sizes
import sloppy
import write_back

TOP = pathlib.Path(__file__).resolve().parent.parent
RANDOM = 600
HISTORIES = 3000
LOGS = 400


def check_arena(name, arena):
    """What is wrong with the report on one arena, or nothing."""
    stored = arenas.HERE / (name + ".img")
    expected = (arenas.HERE / (name + ".txt")).read_bytes()
    if stored.read_bytes() != arena:
        return "the stored arena is not the one that the model builds"
    if model.report(arena).encode() != expected:
        return "the stored report is not the model's"
    return check_report(arena)


def check_report(arena):
    """What is wrong with the program's report on these bytes, or nothing."""
    got = subprocess.run([library.program("report")], input=arena, capture_output=True, timeout=60).stdout
    expected = model.report(arena).encode()
    if got != expected:
        return "the report is %r, not %r" % (got, expected)
    return None


def answer_of(arena):
    """The number that the model answers for these bytes."""
    return model.judge(bytearray(arena), 128, model.PROGRAM_LAYOUT, model.MAX_LANES).number if len(arena) <= model.REPORT_LIMIT else 1


def check_sloppy():
    """What is wrong with the reports on the arenas of sloppy.py, as lines."""
    wrong, answers = [], collections.Counter()
    for what, number, arena, _ in sloppy.all_arenas(model.PROGRAM_LAYOUT):
        due = number if len(arena) <= model.REPORT_LIMIT else 1
        fault = check_report(bytes(arena)) or (None if answer_of(arena) == due else "the model answers %d, not %d" % (answer_of(arena), due))
        answers[due] += 1
        if fault:
            wrong.append("%s: %s" % (what, fault))
    print("tests: %d sloppy arenas and those beside them, answers %s" % (sum(answers.values()), dict(sorted(answers.items()))))
    return wrong


def check_layouts():
    """What is wrong with the reports on the arenas of layouts.py, and with replays of an empty log on them, as lines."""
    wrong, count = [], 0
    for what, arena, number, mended in layouts.in_layout_16():
        told, count = model.report(arena), count + 1
        if not told.startswith("refused %d\n" % number if number else "sector bytes 512\nsectors 60\nlanes 4\nmended %d\n" % mended):
            wrong.append("%s: the model's report is %r" % (what, told))
        fault = check_report(arena)
        if fault is None and replay.written(arena, b"") != ("refused %d\n" % number if number else ""):
            fault = "the replay is not refused with %d" % number
        wrong += ["%s: %s" % (what, fault)] if fault else []
    print("tests: %d reports and replays of arenas of both layouts" % count)
    return wrong


def check_sizes():
    """What is wrong with the reports on the arenas of sizes.py, which tell the sector size, as lines."""
    wrong = []
    for size, arena, told in sizes.reports():
        fault = check_report(arena) or (None if model.report(arena) == told else "the model's report is not %r" % told)
        wrong += ["sectors of %d bytes: %s" % (size, fault)] if fault else []
    return wrong


def check_lanes():
    """What is wrong with the reports on the arenas of many_lanes.py, which have up to 48 lanes, as lines."""
    wrong = []
    for arena, told in many_lanes.reports():
        fault = check_report(arena) or (None if model.report(arena) == told else "the model's report is not %r" % told)
        wrong += ["%s: %s" % (told.splitlines()[2], fault)] if fault else []
    return wrong


def check_checksums(lib):
    """What is wrong with the checksums of the program and of the library, as lines."""
    began = time.process_time()
    wrong, tried = checksums.check_program()
    wrong += checksums.check_every_bit(lib)
    print("tests: %d checksums by the program, every bit of an info block changed, %.0f s" % (tried, time.process_time() - began))
    return wrong


def check_histories(lib):
    """What is wrong with the library's calls, as lines."""
    began = time.process_time()
    notes, last, fault = histories.run(lib, HISTORIES)
    counts = sum(notes.seen.values()), sum(notes.cuts.values()), time.process_time() - began
    print("tests: %d histories, %d calls, %d writes cut, %.0f s" % (last, *counts))
    return ["history %d: %s" % (last, fault)] if fault else ["histories: never seen: " + line for line in notes.unseen()]


def check_write_back(lib):
    """What is wrong with writes behind a write-back cache, as lines."""
    began = time.process_time()
    wrong = write_back.run(lib)
    print("tests: %d histories of a write-back cache, and some with a flush left out, %.0f s" % (write_back.HISTORIES, time.process_time() - began))
    return wrong


def check_linux(lib):
    """What is wrong with the library's calls on the arenas of the Linux driver, as lines."""
    began = time.process_time()
    count, fault = linux.run(lib)
    print("tests: %d arenas of the Linux driver, %.0f s" % (count, time.process_time() - began))
    return ["linux: " + fault] if fault else []


def check_replays(lib):
    """What is wrong with the replays of the library and of the program, as lines."""
    began = time.process_time()
    notes, last, fault = replay.run(lib, LOGS)
    wrong, count = replay.check_program()
    wrong += replay.check_stored()
    took = time.process_time() - began
    print("tests: %d random logs, %d records, %d replays by the program, %.0f s" % (last, sum(notes.seen.values()), count, took))
    wrong += ["random log %d: %s" % (last, fault)] if fault else ["replays: never seen: " + line for line in replay.unseen(notes)]
    return wrong


def main():
    built = arenas.all_arenas()
    stray = {p.stem for p in arenas.HERE.iterdir()} - set(built)
    wrong = ["%s: no such arena" % name for name in sorted(stray)]
    for name, arena in built.items():
        fault = check_arena(name, arena)
        if fault:
            wrong.append("%s: %s" % (name, fault))
    answers = collections.Counter()
    for number, arena in enumerate(random_arenas.random_arenas(RANDOM)):
        fault = check_report(arena)
        answers[answer_of(arena)] += 1
        if fault:
            wrong.append("random arena %d: %s" % (number, fault))
    if (cases.CASES / "stdout").read_text() != cases.text():
        wrong.append("cases: the stored text is not the model's")
    lib = library.built()
    wrong += check_sloppy() + check_layouts() + check_sizes() + check_lanes() + running_cases.check(lib) + check_checksums(lib)
    wrong += check_histories(lib) + check_write_back(lib) + check_linux(lib) + check_replays(lib)
    for line in wrong:
        print("tests: " + line)
    print("tests: %d named and %d random arenas, answers %s, %d faults" % (len(built), RANDOM, dict(sorted(answers.items())), len(wrong)))
    return 1 if wrong else 0


if __name__ == "__main__":
    sys.exit(main())

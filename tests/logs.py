"""The kept run logs of tests/logs: texts that tell each record of a log, the arena it is replayed on, and what the program must write.

A text has one log after another; a line that begins with # and an empty line say nothing. A log's lines are

    log NAME                    begins it
    on ARENA                    replayed on this arena of arenas.py; on the arena `fresh` where there is no such line
    start LANE SECTOR           a record of kind 1
    step LANE                   a record of kind 2
    cut                         a record of kind 3
    header LENGTH KIND          the first four bytes of a record, the numbers being any
    bytes HH HH ..              bytes as they are
    output                      the lines after this one are what the program must write

A line of a log may end with `times N`. A line of the output may begin with `A to B` and stands for a line for each number from A to B.
Run as a program, with a log's name, it writes that log's bytes to standard output.
"""
import pathlib
import struct
import sys
from typing import NamedTuple

HERE = pathlib.Path(__file__).resolve().parent / "logs"


class Kept(NamedTuple):
    """A kept log: its name, the name of its arena, its bytes, and what the program must write."""

    name: str
    arena: str
    log: bytes
    output: str


def start(lane, sector):
    return struct.pack("<HHHI", 10, 1, lane, sector)


def step(lane):
    return struct.pack("<HHH", 6, 2, lane)


def cut():
    return struct.pack("<HH", 4, 3)


def header(length, kind):
    return struct.pack("<HH", length, kind)


VERBS = {"start": start, "step": step, "cut": cut, "header": header}


def bytes_of(line):
    """The bytes that a line of a log stands for."""
    words, times = line.split(), 1
    if words[-2:-1] == ["times"]:
        words, times = words[:-2], int(words[-1])
    if words[0] == "bytes":
        return bytes.fromhex("".join(words[1:])) * times
    return VERBS[words[0]](*[int(word) for word in words[1:]]) * times


def output_of(line):
    """The lines that a line of an output stands for."""
    words = line.split()
    if words[1:2] != ["to"]:
        return line + "\n"
    return "".join("%d %s\n" % (n, " ".join(words[3:])) for n in range(int(words[0]), int(words[2]) + 1))


def kept_of(lines):
    """The log that these lines tell, the first of which names it."""
    name, arena, log = lines[0].split(" ", 1)[1], "fresh", bytearray()
    told = lines.index("output")
    for line in lines[1:told]:
        if line.startswith("on "):
            arena = line.split(" ", 1)[1]
        else:
            log += bytes_of(line)
    return Kept(name, arena, bytes(log), "".join(output_of(line) for line in lines[told + 1 :]))


def kept_logs():
    """All the kept logs, by name."""
    logs = {}
    for path in sorted(HERE.glob("*.txt")):
        lines = [line for line in path.read_text().splitlines() if line and not line.startswith("#")]
        begins = [at for at, line in enumerate(lines) if line.startswith("log ")]
        for at, end in zip(begins, begins[1:] + [len(lines)]):
            kept = kept_of(lines[at:end])
            if kept.name in logs:
                raise SystemExit("tests: two logs have the name %r" % kept.name)
            logs[kept.name] = kept
    return logs


if __name__ == "__main__":
    sys.stdout.buffer.write(kept_logs()[" ".join(sys.argv[1:])].log)

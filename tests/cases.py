"""What the program `cases` writes, worked out by the model.

Run as a program it writes the text to crates/cases/stdout.
"""
import pathlib
import struct

import model

CASES = pathlib.Path(__file__).resolve().parent.parent / "crates" / "cases"


def made_lines(size, sectors, lanes):
    figures = model.made_figures(size, sectors, lanes)
    arena = bytearray(b"\xA5" * (figures.copy + 4096))
    answer = model.make(arena, size, sectors, lanes, b"first identifier", b"other identifier")
    words = struct.unpack("<%dI" % (len(arena) // 4), arena)
    return [
        "made %d %d %d length %d answer %d" % (size, sectors, lanes, len(arena), answer),
        "info block %016x" % model.checksum(bytes(arena[:4096])),
        "whole arena %016x" % model.fletcher64(words),
    ]


def file_lines(name):
    block = (CASES / "data" / name).read_bytes()
    return ["%s %016x" % (name, model.checksum(block)), "sound" if model.sound(block) else "unsound"]


def text():
    lines = []
    for wanted in ((512, 60, 4), (512, 1, 1), (4096, 1, 1), (512, 256, 256)):
        lines += made_lines(*wanted)
    for name in ("linux-6.1-512.info", "linux-6.1-520.info", "pmdk-1.12-512.info"):
        lines += file_lines(name)
    return "\n".join(lines) + "\n"


if __name__ == "__main__":
    (CASES / "stdout").write_text(text())

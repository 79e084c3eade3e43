"""Builds the C example and the C tests over the library and runs them: one line for each part, and a non-zero end if one fails.

The library is built by `rt lib` in crates/btt where it is not there or older than a source; the rest takes some seconds.
"""
import pathlib
import subprocess
import sys
import time

import machine_code

TOP = pathlib.Path(__file__).resolve().parents[3]
sys.path.insert(0, str(TOP / "tests"))
import library  # noqa: E402
OUT = TOP / "target" / "host-c"
LISTING = OUT / "instructions.txt"
LIMIT = 120
ANSWERS = set(range(17)) | {18, 20, 21}

EXAMPLE = """\
opened: 60 sectors of 512 bytes, 0 mended
sector 7: "first"
sector 7: "second"
power cut
opened: 60 sectors of 512 bytes, 0 mended
sector 7: "second"
power cut
opened: 60 sectors of 512 bytes, 1 mended
sector 7: "fourth"
sector 60: answer 9, no such sector
"""


class Failed(Exception):
    """A part that failed, with what it said."""


def run(*command, limit=LIMIT):
    """What a command writes; it must end with 0."""
    try:
        done = subprocess.run([str(word) for word in command], cwd=TOP, capture_output=True, text=True, timeout=limit)
    except subprocess.TimeoutExpired as late:
        raise Failed("no end after %d s" % limit) from late
    if done.returncode:
        raise Failed("ended with %d\n%s%s" % (done.returncode, done.stdout, done.stderr))
    return done.stdout


def archive():
    """The library's archive, made anew if it is missing or older than a source."""
    return str(library.archive().relative_to(TOP))


def build():
    run("make", "-C", "host/c", "--no-print-directory", "all")
    run(OUT / "from_cplusplus")
    return "the header as C99, C11, C++98 and C++17, the example and the tests, without a warning"


def example():
    written = run(OUT / "example")
    if written != EXAMPLE:
        raise Failed("it wrote\n" + written)
    return "as expected"


def calls():
    """The tests of the calls; together they must have met every answer."""
    lines = [run(OUT / name).strip() for name in ("test_opening", "test_calls", "test_tables", "test_lanes", "test_writes", "test_replay")]
    met = {int(word) for line in lines for word in line.split("answers")[1].split()}
    if met != ANSWERS:
        raise Failed("the answers met are %s" % sorted(met))
    return "; ".join(line.split(",")[0] for line in lines) + "; all %d answers met" % len(ANSWERS)


def large():
    return run(OUT / "large_arena").strip().split(": ", 1)[1]


def stores():
    return run(OUT / "store_order", LISTING).strip().split(": ", 1)[1]


def code():
    wrong, words = machine_code.check(OUT / "store_order", LISTING)
    if wrong:
        raise Failed("\n".join(wrong))
    return "words of the arena are stored by " + "; ".join(words)


def main():
    parts = {
        "library": archive, "build": build, "example": example, "calls": calls, "large arena": large, "store order": stores, "machine code": code,
    }
    for name, part in parts.items():
        began = time.monotonic()
        try:
            said = part()
        except (Failed, subprocess.CalledProcessError, OSError) as fault:
            print("host: %s: failed: %s" % (name, fault))
            return 1
        print("host: %s: %s (%.1f s)" % (name, said, time.monotonic() - began))
    return 0


if __name__ == "__main__":
    sys.exit(main())

"""The checksum against the model's: runs of words by the program `checksum`, and info blocks of which one bit is changed."""
import pathlib
import random
import struct
import subprocess

import library
import model

TOP = pathlib.Path(__file__).resolve().parent.parent
BLOCKS = TOP / "crates" / "cases" / "data"
LIMIT = 65536
RANDOM_RUNS = 400
RANDOM_BITS = 60
LONGEST = 3000


def runs(seed=4):
    """Runs as bytes: every short length, random ones up to 3,000 words, the extremes, and what is refused."""
    rng = random.Random(seed)
    lengths = list(range(41)) + [rng.randrange(LONGEST + 1) for _ in range(RANDOM_RUNS)] + [LONGEST, 1022, 1024]
    yield from (rng.randbytes(4 * words) for words in lengths)
    yield from (b"\xFF" * (4 * words) for words in (1, 2, 7, 8, 9, LONGEST, LIMIT // 4))
    yield from (rng.randbytes(length) for length in (1, 2, 3, 35, LIMIT - 1, LIMIT + 1, LIMIT + 4))


def sound_blocks():
    """Sound info blocks: a made one, and one that another driver wrote."""
    made = bytes(model.made(512, 60, 4, b"first identifier", b"other identifier")[:4096])
    return [made, (BLOCKS / "linux-6.1-512.info").read_bytes()]


def changed(block, bit):
    """The block with one bit changed."""
    wrong = bytearray(block)
    wrong[bit // 8] ^= 1 << bit % 8
    return bytes(wrong)


def changed_blocks(seed=5):
    """Each sound block, and with one bit changed: every bit of the checksum field and of the bytes beside it, and random ones."""
    rng = random.Random(seed)
    for block in sound_blocks():
        yield block
        bits = list(range(8 * 4080, 8 * 4096)) + [rng.randrange(8 * 4096) for _ in range(RANDOM_BITS)]
        yield from (changed(block, bit) for bit in bits)


def text(run, by=model):
    """What the program writes of a run, worked out by a model."""
    if len(run) > LIMIT or len(run) % 4:
        return "refused 1\n"
    lines = "%016x\n" % by.fletcher64(struct.unpack("<%dI" % (len(run) // 4), run))
    if len(run) == model.BLOCK:
        lines += "%016x %s\n" % (by.checksum(run), "sound" if by.sound(run) else "unsound")
    return lines


def written(run):
    """What the program writes of a run."""
    return subprocess.run([library.program("checksum")], input=run, capture_output=True, timeout=60).stdout.decode()


def check_program():
    """What is wrong with what the program writes, as lines, and how many runs were tried."""
    tried = [*runs(), *changed_blocks()]
    wrong = [(number, run) for number, run in enumerate(tried) if written(run) != text(run)]
    return ["checksum: run %d, of %d bytes, is not the model's" % (number, len(run)) for number, run in wrong], len(tried)


def check_every_bit(lib):
    """What is wrong with the info block that counts where one bit of the first block is changed, for every bit, as lines."""
    arena = model.made(512, 1, 1, b"first identifier", b"other identifier")
    first = bytes(arena[:4096])
    wrong = []
    for bit in range(8 * 4096):
        arena[:4096] = changed(first, bit)
        offset, length = lib.info_block(arena)
        if bytes(arena[offset : offset + length]) != model.counting_block(arena):
            wrong.append("info block: bit %d of the first changed, at %d for %d bytes" % (bit, offset, length))
    return wrong

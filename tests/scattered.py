"""Power cuts that keep stores out of order: of each write any set of the stores before its sequence word, and no write waits for another.

Nothing here uses the model of the calls: what must come is worked out from the book of the list.
"""
import struct

import book


def cut(rng, listed):
    """A cut of a list: the arena that it leaves, and the book of what each write has come to."""
    left, kept, arena = book.Book(listed.first, listed.f, listed.layout), [], bytearray(listed.first)
    before_sequence = listed.full - 2
    for write in listed.writes:
        less = book.Write(write.lane, write.sector, listed.f.size)
        less.contents[:] = write.contents
        less.tally = rng.choice((write.tally, write.tally, write.tally, rng.randint(0, write.tally)))
        left.writes.append(less)
        stores = left.stores(less)
        if less.tally > before_sequence:
            kept += stores[: less.tally]
        elif less.tally > 0:
            kept += rng.sample(stores[:before_sequence], rng.choice((1, 3, before_sequence // 2, before_sequence - 1)))
            kept += rng.sample(stores[before_sequence - 3 : before_sequence], rng.randrange(3))
    for offset, value in rng.sample(kept, len(kept)):
        struct.pack_into("<I", arena, offset, value)
    return arena, left


def try_cut(rng, pair, listed, room):
    """Opens what such a cut leaves, on a copy: all is as if each write's first stores were kept."""
    arena, left = cut(rng, listed)
    copy, f = pair.aside(arena), listed.f
    copy.drop()
    number, count = copy.open(room, listed.layout)
    lanes = [(record.block, record.half, record.sequence) for record in copy.table[: f.lanes]]
    row = book.Row(listed.first, f)
    for write in left.writes:
        if write.tally >= left.full - 1:
            row.sectors[write.sector] = 0, bytes(write.contents)
    for holds, what in (
        (number == 0 and count == len(left.pending()), "it opens and mends the lanes of which the sequence word is the last store"),
        (copy.arena == left.mended(arena), "it stores just their map words"),
        (lanes == left.lanes_after_opening(), "the lanes are those that the book gives"),
        (book.Row(copy.arena, f).sectors == row.sectors, "a sector is new exactly if its write's sequence word is stored, else as before"),
        (book.each_block_once(copy.arena, f, [lane[0] for lane in lanes]), "mapped and free blocks are every block once"),
    ):
        if not holds:
            copy.fail("not so of a cut out of order: " + what)
    pair.notes.scattered[sum(0 < write.tally < left.full - 1 for write in left.writes)] += 1

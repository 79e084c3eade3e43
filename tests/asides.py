"""Calls on a copy of a history's arena that are given what is not the latest.

These are forged handles and tables, earlier states of the table, tables of other openings, slices of another length, and map words or padding that
another hand changed. Each call is compared with the model's; the arena, the handle and the table of the history stay as they are.
"""
import forged
import model
import random_arenas


def try_aside(rng, pair, earlier):
    """Some calls on a copy; earlier are tables that the latest handle or one before it had."""
    chance, f, focus = rng.random(), pair.handle.figures, None
    if chance < 0.55:
        handle, table = forged.forge(rng, pair.handle, pair.table)
        copy = pair.aside(handle=handle, table=table)
    elif chance < 0.65:
        return try_earlier(rng, pair, earlier)
    elif chance < 0.69:
        copy = pair.aside(table=another_opening(rng))
    elif chance < 0.92:
        copy = pair.aside()
    else:
        copy = pair.aside(arena=rng.choice((pair.arena + bytes(4096), pair.arena[:-4096], pair.arena[:-1], b"")))
        copy.handle.length = rng.choice((copy.handle.length, len(copy.arena)))
        copy.hold(copy.handle)
    if chance < 0.12 or 0.69 <= chance < 0.92:
        focus = forged.a_sector(rng, pair.handle, pair.table) % f.sectors
        copy.put([(f.map + 4 * focus, forged.a_word(rng, f))])
        copy.put([(f.flog + 64 * rng.randrange(f.lanes) + rng.randrange(16, 64, 4), rng.getrandbits(32))] * rng.randrange(2))
    some_calls(rng, copy, focus)


def some_calls(rng, copy, focus=None):
    """Any calls, and then steps of lanes that are in flight; gives their numbers."""
    numbers = [copy.perform(*forged.a_call(rng, copy.handle, copy.table, focus)) for _ in range(rng.choice((1, 2, 4)))]
    busy = [lane for lane, record in enumerate(copy.table) if record.busy]
    for _ in range(rng.choice((1, 6, 6, 12)) if busy else 0):
        lane = busy[0] if rng.random() < 0.8 else rng.choice(busy)
        numbers.append(copy.perform("step", lane, 0, forged.a_length(rng, copy.handle)))
    return numbers


def try_earlier(rng, pair, earlier):
    """An earlier table of the same lanes makes the handle another than the latest, but it is in range: neither 16 nor 21 is answered."""
    lanes = pair.handle.figures.lanes
    table = rng.choice(earlier)[:lanes] + pair.table[lanes:]
    numbers = some_calls(rng, pair.aside(table=table))
    if 16 in numbers or 21 in numbers:
        pair.fail("not so: a table that is in range is answered as any other")


def another_opening(rng):
    """The table of an opening of another arena."""
    layout = rng.choice(random_arenas.LAYOUTS)
    arena, f = random_arenas.valid(rng, layout)
    table = [model.Record(1, 0, 0, 1)] * (f.lanes + rng.choice((0, 1, 12)))
    model.open_arena(arena, bytearray(f.blocks), layout, table)
    return table

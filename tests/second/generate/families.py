"""The families of schedules. Each is given a random source and counts its own. Some
can begin with a loaded table in place of a new one: `begin` makes the schedule."""

import random

from exports import (GARBAGE, LINE, NONE, defect, defects, from_run, random_edges, roomy,
                     sound)
from malformed import (BAD_FIRST, FIRST, GOOD, LITTLE, MALFORMED, SIZES_0, SIZES_1, long_line,
                       of_length)
from mangled import WAYS
from schedule import Schedule
from sim import APPEND, LEFT_READ, PHASES, RIGHT_READ, SIDES


def of_size(rng, low, high, slots=64, budget=300000, stop=0.3):
    m = rng.randint(low, high)
    return Schedule(rng, m, rng.randint(1, min(slots, m - 2)), budget, stop)


def loaded(rng, low, high, slots=64, budget=300000, stop=0.3):
    s = of_size(rng, low, high, slots, budget, stop)
    s.load((from_run if rng.random() < 0.15 else sound)(rng, s.m, s.r))
    return s


def mixed(rng, index, begin=of_size):
    """Steps of all kinds. On the smallest tables single collector steps between;
    now and then some thousand lines."""
    low, high = ((3, 12), (3, 5), (13, 300), (3, 12), (3, 5), (6, 40))[index % 6]
    s = begin(rng, low, high, rng.choice((1, 2, 3, 64)))
    s.repeat(20, 4000 if index % 12 == 5 else 300, lambda: s.choose(
        s.budget > 100, s.sound, high == 5, lambda: s.collect(1), 0.01, s.look))
    return s


def large(rng, index):
    m = rng.choice((4096, 4095, 2048, rng.randint(300, 4096)))
    s = Schedule(rng, m, rng.choice((1, 2, 63, 64)), 100000, 0.1)
    for _ in range(rng.randint(40, 150)):
        s.pay()
        # Takes at the same place: each loses the node before.
        s.choose(40, s.take, 10, lambda: s.collect(1, 9000), 5, s.cycle, 30, s.sound,
                 10, lambda: s.repeat(1, 40, lambda: s.take((0, ""))))
    s.budget = 10 ** 6
    s.cycle(2)
    s.repeat(1, 10, s.take)
    s.cycle()
    return s


def heavy(rng, index):
    """Counts of 1000000 on big tables."""
    m = (4096, 66, 3000, 3, 4095, 5)[index % 6]
    s = Schedule(rng, m, min(64, m - 2), 2100000, 0.1)
    s.repeat(20, 60, s.take)
    s.collect(1000000)
    s.cut((s.slot(), ""))
    s.collect(1, 50000)
    s.shade()
    s.lines.append(b"op=collect count=1000001")
    s.collect(rng.choice((999999, 1000000, 100000)))
    s.repeat(5, 20, s.take)
    return s


def deep(rng, index):
    """Chains of 12 and more turns; names of 0 to 60 letters."""
    s = Schedule(rng, rng.choice((16, 20, 40, 200, 4096)), rng.randint(1, 2), 60000, 0.02)
    slot, turns = s.slot(), ""
    for _ in range(rng.randint(9, 13)):
        side = s.side()
        s.take((slot, turns[:12]), side)
        turns += SIDES[side]
        s.maybe(0.3, s.collect, 1, 40)
    for n in [*range(15), 16, 17, 32, 33, rng.randint(15, 56)]:
        place = slot, (turns + s.turns(60, 60))[:n]
        s.choose(4, lambda: s.look(place), 2, lambda: s.take(place),
                 4, lambda: s.link((slot, turns[:rng.randint(0, 4)]), place))
        s.maybe(0.7, s.pay)
    s.pay()
    # A ring from deep down to the slot: every name is then a node.
    s.link((slot, turns[:rng.randint(1, 12)]), (slot, ""))
    s.shade()
    for _ in range(rng.randint(10, 60)):
        place = slot, s.turns(8, 12) if rng.random() < 0.8 else s.turns(13, 18)
        s.choose(3, lambda: s.look(place), 1, s.look, 1, lambda: s.link(None, place),
                 1, lambda: s.link(place), 1, s.take, 2, s.pay, 1, s.collect)
    return s


def owed(rng, index, begin=of_size):
    """A shade that stays owed over whole cycles."""
    s = begin(rng, 4, 24, 3)
    for _ in range(rng.randint(3, 9)):
        s.repeat(0, 4, s.take)
        s.link()
        s.repeat(1, 6, lambda: s.choose(
            7, lambda: s.cycle(rng.randint(1, 3)), 6, s.collect, 2, s.link, 2, s.take,
            2, lambda: s.until(rng.choice(PHASES)), 1, s.look))
        s.maybe(0.3, s.until, APPEND, rng.randrange(s.m))
        s.repeat(1, 2, s.shade)
        s.cut()
        s.collect()
        s.shade()
    return s


def garbage(rng, index, begin=of_size):
    """Build, till the list is empty or not, cut, collect, build again."""
    s = begin(rng, 3, rng.choice((5, 12, 60, 200)), 4, stop=0.2)
    for _ in range(rng.randint(2, 6)):
        if rng.random() < 0.5:
            while s.take() and len(s.lines) < 300:
                s.maybe(0.1, s.collect, 1, 12)
        else:
            s.repeat(2, 15, lambda: s.choose(8, s.take, 2, lambda: (s.link(), s.shade())))
        for _ in range(rng.randint(1, 4)):
            s.cut((s.slot(), s.turns(0, 1)))
            s.pay()
            s.maybe(0.3, s.collect)
        if rng.random() < 0.3:
            # Take as soon as the first node is appended
            s.repeat(4, 12, lambda: (s.until(APPEND), s.take(), s.collect(1, s.m), s.take()))
        else:
            s.repeat(1, 3, lambda: s.choose(7, s.cycle, 3, s.collect))
        s.look()
    s.repeat(0, 20, s.take)
    return s


def late(rng, index, begin=of_size):
    """Link to a white node and a shade that comes late, at all positions. With a
    chain that falls in node numbers a cycle comes near B."""
    s = begin(rng, 5, rng.choice((16, 16, 16, 60)), 3)

    def wait():
        s.collect(rng.choice((1, 2, rng.randint(1, s.m), rng.randint(1, 6 * s.m))))

    s.maybe(0.7, s.build_falling, s.slot(), rng.randint(1, max(1, s.m - s.r - 2)))
    s.repeat(0, s.m // 2, s.take)
    for _ in range(rng.randint(6, 25)):
        s.choose(3, s.cycle, 2, lambda: s.cycle(2), 2, s.look,
                 1, lambda: s.until(rng.choice(PHASES)),
                 2, lambda: s.until(APPEND, rng.randrange(s.m)))
        s.maybe(0.6, s.collect, 0, 2 * s.m)
        found = s.places()
        white = [n for n in found if s.sim.col[n] == 0] or list(found)
        # mostly one that hangs below a higher node, where the time of the shade shows
        low = [n for n in white for q in found if found[q][0] == found[n][1] and q > n]
        s.link(None, found[rng.choice(low if low and rng.random() < 0.7 else white)][0])
        s.repeat(1, 4, wait)
        s.shade()
        s.repeat(0, 3, wait)
        s.maybe(0.4, s.take)
    return s


def hazard(rng, index, begin=of_size):
    """The edge to a white node is moved to a black one, or to the other side, and
    the old edge cut, with few collector steps between."""
    s = begin(rng, 4, rng.choice((8, 20)), 3, stop=0.15)
    s.maybe(0.4, s.build_falling, s.slot(), rng.randint(1, max(1, s.m - s.r - 2)))
    s.repeat(2, s.m, s.take)
    s.maybe(0.7, s.cycle, 2)
    for _ in range(rng.randint(10, 80)):
        found = s.places()
        black = [n for n in found if s.sim.col[n] == 2]
        white = [n for n in found if s.sim.col[n] == 0 and found[n][1]]
        if not white or not black and rng.random() < 0.7:
            s.choose(1, s.take, 4, lambda: s.collect(1, 3), s.sim.tag == APPEND, s.cycle)
            continue
        place, parent, side = found[rng.choice(white)]
        ways = (parent, place, 1 - side), (found[rng.choice(black or [2])][0], place)
        s.link(*rng.choice(ways))
        s.collect(0, 2)
        s.shade()
        s.collect(0, rng.choice((1, 5)))
        s.cut(parent, side)
        s.collect(0, 2)
        s.shade()
        s.maybe(0.5, s.cycle)
        for place, _, _ in list(s.places().values())[:4]:
            s.look(place)
    s.cycle(2)
    s.repeat(1, s.m, s.take)
    return s


def stale(rng, index, begin=of_size):
    """The edge that the collector has just read is moved before the number is shaded. Then
    the cycle is ended, and all that is free is taken: a number that was lost shows."""
    s = begin(rng, 4, rng.choice((6, 10, 20)), 3, stop=0.15)
    s.maybe(0.3, s.build_falling, s.slot(), rng.randint(1, max(1, s.m - s.r - 2)))
    for _ in range(rng.randint(3, 12)):
        s.repeat(1, s.m // 2, s.take)
        s.maybe(0.8, s.cycle, rng.randint(1, 2))
        # Mostly a number other than NIL, at a node that has a place.
        for _ in range(rng.randint(1, 12)):
            s.until(rng.choice((LEFT_READ, RIGHT_READ)))
            place = s.places().get(s.sim.i)
            if place and s.sim.tag in (LEFT_READ, RIGHT_READ) and s.sim.read:
                side = s.sim.tag == RIGHT_READ
                s.choose(5, lambda: s.cut(place[0], side), 2, lambda: s.take(place[0], side),
                         2, lambda: s.link(place[0], None, side))
                s.maybe(0.5, s.pay)
                break
        s.collect(0, rng.choice((1, 2, 3)))
        s.pay()
        s.cycle()
        s.maybe(0.7, s.repeat, s.m, s.m, lambda: s.take((0, ""), 0))
        s.maybe(0.3, s.cycle)
        s.look()
    return s


def refusals(rng, index, begin=of_size):
    s = begin(rng, 3, 12, rng.choice((1, 2, 3, 64)))
    big = [n for n in (s.r, s.r + 1, 63, 64, 65, 255, 256, 65535, 65536, 65536 + s.r - 1, 131072,
                       1000000, 9999999) if n >= s.r]
    for _ in range(rng.randint(30, 200)):
        far = rng.choice(big), s.turns(0, 14)
        many = s.slot(), s.turns(11, 15)
        s.choose(8, lambda: s.look(far), 8, lambda: s.take(far), 6, lambda: s.link(far),
                 6, lambda: s.link(None, far), 4, lambda: s.link(many, far), 15, s.shade, 6, s.take,
                 4, lambda: s.look(many), 4, lambda: s.take(many), 4, lambda: s.link(None, many),
                 6, lambda: s.link(s.nil()), 4, lambda: s.take(s.nil()), 10, s.link, 6, s.sound,
                 4, lambda: s.collect(0, 3), 4, lambda: s.lines.append(rng.choice(MALFORMED)))
    return s


def bad_lines(rng, index):
    """A stretch of the list, so that some seeds together meet all."""
    s = of_size(rng, 3, 12, 3)
    for j in range(80 * index, 80 * index + 80):
        s.lines.append(MALFORMED[j % len(MALFORMED)])
        s.maybe(0.15, s.lines.append, long_line(rng))
        s.maybe(0.15, s.lines.append, of_length(rng, rng.choice((79, 80))))
        s.maybe(0.4, s.sound)
        s.maybe(0.1, s.lines.append, rng.choice((s.lines[0], b"", b"op=collect count=0")))
    text = s.text()
    return text if index % 2 else text[:rng.randint(-40, -1)]


def first(rng, index):
    """First lines that fail, little inputs, and the sizes at the limits that pass."""
    turn, way = divmod(index, 7)
    if way == 0:
        return LITTLE[turn % len(LITTLE)]
    if way == 1:
        s = Schedule(rng, *SIZES_0[turn % len(SIZES_0)])
        s.repeat(0, 6, s.take)
        s.collect(rng.choice((0, 1, 2, s.r + 2, 6 * s.m)))
        s.cycle()
        s.take((0, ""), 0)
        return s
    line = (BAD_FIRST[(3 * turn + way) % len(BAD_FIRST)] if way < 5
            else b"nodes=%d slots=%d" % SIZES_1[(2 * turn + way) % len(SIZES_1)])
    more = [rng.choice((*GOOD, FIRST)) for _ in range(rng.choice((0, 0, 1, 20)))]
    return b"\n".join([line, *more]) + rng.choice((b"", b"\n"))


def mutated(rng, index):
    """A sound schedule with bytes changed, mostly behind its first line."""
    text = bytearray(rng.choice((mixed, hazard, refusals, garbage))(rng, index).text())
    keep = text.index(b"\n") + 1 if rng.random() < 0.9 else 0
    for _ in range(rng.randint(1, 40)):
        j, a = rng.randint(keep, len(text)), rng.randint(keep, len(text))
        new = (b"", bytes([rng.randrange(256)]), bytes([rng.choice(b" \n\rLR0=-")]),
               text[a:a + rng.randint(1, 40)])
        text[j:j + rng.choice((0, 0, 1, 1, rng.randint(1, 30)))] = rng.choice(new)
    return bytes(text)


def exported(rng, index):
    """Steps of all kinds on a table that was loaded."""
    family = (mixed, late, hazard, garbage, stale, owed, refusals, garbage)[index % 8]
    return family(rng, index, loaded)


def whole(rng, index):
    """A sound export with each kind of garbage in turn, and few steps or none: looks
    at all that the slots have, a cycle, and takes till the list is empty."""
    if index % 3 == 2:
        x = roomy(rng)
        x.make(rng.choice(NONE)(rng, x, LINE))
    else:
        m = rng.choice((3, 4, 5, rng.randint(6, 20), rng.randint(6, 20), 66))
        r = rng.choice((1, m - 2, rng.randint(1, m - 2)))
        x = sound(rng, m, min(r, 64), GARBAGE[index % len(GARBAGE)])
    s = Schedule(rng, x.m, x.r)
    s.load(x)
    if index % 4 == 3:
        return s
    for place, _, _ in list(s.places().values())[:20]:
        s.look(place)
    s.maybe(0.5, s.repeat, 1, 4, s.take)
    s.cycle()
    while s.take((0, "")):
        pass
    return s


def ended(rng, x):
    """An export that is mostly refused, and steps, which are then not done."""
    s = Schedule(rng, x.m, x.r)
    s.repeat(0, 6, s.sound)
    s.lines[1:1] = x.lines()
    return s


def broken(rng, index):
    return ended(rng, defect(rng, index, LINE))


def broken_twice(rng, index):
    return ended(rng, defects(rng, index, LINE))


def any_edges(rng, index):
    return ended(rng, random_edges(rng, LINE))


def mangled(rng, index):
    m = rng.choice((3, 4, rng.randint(5, 12), rng.randint(5, 12), rng.randint(5, 60)))
    x = sound(rng, m, rng.randint(1, min(3, m - 2)))
    s = Schedule(rng, x.m, x.r)
    s.load(x)
    lines, more = WAYS[index % len(WAYS)](rng, s.lines[0], x.lines())
    del s.lines[:]
    if more:
        s.repeat(0, 6, s.sound)
    s.lines[:0] = lines
    return s


def large_export(rng, index):
    """M = 4,096 every other time: sound, with one defect, or cut."""
    m = 4096 if index % 2 == 0 else rng.choice((4095, rng.randint(300, 2000)))
    x = sound(rng, m, rng.choice((1, 64)), None, rng.choice(((0.4, 0.3), (1, 0), (0, 0.5))))
    s = Schedule(rng, m, x.r, 40000, 0.1)
    s.load(x)
    way = index // 2 % 3
    if way == 1:
        side, node = rng.randrange(2), rng.choice((m - 1, x.last(), rng.randrange(m)))
        edge = rng.choice((m, 1, x.last(), rng.randrange(2, m)))
        s.lines[1:] = (x.make([(side, node, edge)]), x.lines())[1]
    elif way == 2:
        s.lines.pop(rng.choice((-1, rng.randint(1, m))))
    s.repeat(5, 20, lambda: s.choose(4, s.take, 1, lambda: s.collect(1, 6000), 4, s.sound))
    return s


FAMILIES = [
    bad_lines, mixed, exported, first, late, broken, owed, hazard, stale, mangled, garbage,
    refusals, exported, first, mixed, whole, first, late, broken, first, mutated, mangled, deep,
    exported, bad_lines, first, any_edges, owed, garbage, broken, stale, mixed, exported, first,
    late, mangled, large, first, broken_twice, bad_lines, hazard, whole, first, refusals, exported,
    mixed, garbage, broken, late, first, mangled, deep, mutated, exported, hazard, first, broken,
    mixed, bad_lines, mangled, owed, first, large_export, late, first, exported, hazard, broken,
    heavy, first, mangled, garbage, late, any_edges, broken_twice,
]


def schedule(seed):
    """The schedule of a seed, as bytes. Neighbouring seeds meet all families."""
    turn, place = divmod(seed, len(FAMILIES))
    family = FAMILIES[place]
    index = turn * FAMILIES.count(family) + FAMILIES[:place].count(family)
    made = family(random.Random(seed), index)
    return made if isinstance(made, bytes) else made.text()

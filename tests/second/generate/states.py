"""Lines for `model --state` and the other modes. A family is given a random source and a sound
table with its record, may change these, and answers a step: kind, slot, count, word, side, toslot,
tocount, toword. Some are invented, or damaged: every call answers, whatever it is given
[Calls 1]."""

import random

import exports
import families
import graphs
from aimed import aimed, stale
from schedule import Schedule
from sim import (APPEND, BLACK, COLLECT, LEFT, LEFT_READ, LINK, LOOK, PHASES, RIGHT, RIGHT_READ,
                 ROOTS, SCAN, SHADE, TAKE, Sim, bad_colour, bad_edge, make)

U32 = 4294967295


def beyond(rng, value):
    """A number whose lower 8 or 16 bits are the value's, or a large one."""
    return rng.choice((value + 256, value + 65536, value + 65536 * rng.randrange(1, 65535),
                       2 ** 31 + value, 65535, U32, U32 - rng.randrange(9)))


def place(rng, sim):
    slot, turns = sim.node_place(rng)[0] if rng.random() < 0.85 else sim.nil_place(rng)
    return slot, len(turns), sum(1 << j for j, turn in enumerate(turns) if turn == "R")


def plain(rng, sim, kind=None):
    """A step on the table as it is; fields that it has no use for hold anything."""
    if kind is None:
        kind = rng.choice((TAKE, TAKE, LINK, LINK, SHADE, COLLECT, COLLECT, LOOK))
    step = [kind] + rng.choices((0, 1, 2, 13, 200, 255, 65535, 65536, U32), k=7)
    if kind in (TAKE, LINK, LOOK):
        step[1:4] = place(rng, sim)
    if kind in (TAKE, LINK):
        step[4] = rng.randrange(2)
    if kind == LINK:
        step[5:8] = place(rng, sim)
    return step


def fit(rng, sim):
    """Last and the count of free nodes made to go together; half of the counts are left
    as they are, if they may."""
    top = max(sim.m - sim.r - 2, 1)
    if sim.last == 1:
        sim.free = 0
    elif not 1 <= sim.free <= top or rng.random() < 0.5:
        sim.free = rng.choice((1, 2, top, rng.randint(1, top)))


def collecting(rng, sim):
    """Every phase at every position and its limits, over any good values."""
    m, b, sim.tag = sim.m, sim.bound(), rng.choice(PHASES)
    top = sim.r + 1 if sim.tag == ROOTS else m - 1
    sim.i = rng.choice((0, top, rng.randint(0, top)))
    sim.k = rng.choice((1, 2, m, rng.randint(1, m)))
    sim.e[0][sim.i], sim.e[1][sim.i], sim.read = rng.choices((0, *range(2, m)), k=3)
    sim.col[:] = rng.choices(range(3), k=m)
    sim.last = rng.choice((sim.last, 1, *range(sim.r + 2, m)))
    sim.black, sim.lastblack = rng.choice((0, m, rng.randint(0, m))), rng.randint(0, m)
    sim.steps, sim.lastc = rng.choice((0, b - 2, b - 1, rng.randrange(b))), rng.randint(0, b)
    sim.cycles = rng.choice((0, 65535, U32 - 1, U32, U32, rng.randrange(U32)))
    fit(rng, sim)
    return plain(rng, sim, COLLECT)


def collecting_bad(rng, sim):
    """Bad values where the phase reads them, and where it does not."""
    step = collecting(rng, sim)
    v, (left, right), col, i = vars(sim), sim.e, sim.col, sim.i
    edge, colour, root = bad_edge(rng, sim.m), bad_colour(rng), rng.randrange(sim.r + 2)
    ways = [[(col, i, colour)]]
    if sim.tag in (LEFT, RIGHT, LEFT_READ, RIGHT_READ):
        near, far = sim.e if sim.tag in (LEFT, LEFT_READ) else sim.e[::-1]
        n = rng.choice([n for n in range(sim.m) if n != 1])
        ways += [[(near, i, edge)], [(near, i, n), (col, n, colour)], [(far, i, edge)],
                 [(v, "read", n), (col, n, colour)]]
    if sim.tag in (BLACK, APPEND):
        ways += [[(left, i, edge), (right, i, edge), (left, sim.last, edge)]]
    if sim.tag == APPEND:
        ways += [[(col, i, 1)], [(v, "i", root), (col, root, 0)]]
        if sim.r + 2 < sim.m:
            free = rng.randrange(sim.r + 2, sim.m)
            ways += [[(v, "i", free), (v, "last", free), (col, free, rng.choice((0, 0, 2)))]]
    make(rng.choice(ways))
    fit(rng, sim)
    return step


def damaged(rng, sim):
    """Any edges, some bad values anywhere; walks of any turns; anything owed."""
    step = plain(rng, sim)
    sim.owed = rng.choice((None, None, 0, rng.randrange(2, sim.m)))
    for n in range(2, sim.m):
        for edges in sim.e:
            edges[n] = rng.choice((edges[n], edges[n], 0, rng.randrange(2, sim.m)))
    for at in (1, 5):
        if step[0] in (TAKE, LINK, LOOK) and rng.random() < 0.6:
            step[at:at + 3] = rng.randrange(sim.r), 12, rng.randrange(4096)
    for _ in range(rng.randint(0, 4)):
        n, which = rng.choice((2, 3, sim.owed or 0, rng.randrange(sim.m))), rng.randrange(3)
        (*sim.e, sim.col)[which][n] = bad_colour(rng) if which == 2 else bad_edge(rng, sim.m)
    return step


def taking(rng, sim):
    """Take: a bad chain, the source is f or g, g is f, the last one, none."""
    m, r, (left, right), col, v = sim.m, sim.r, sim.e, sim.col, vars(sim)
    f, g = rng.sample(range(r + 2, m), 2)
    slot, side = rng.randrange(r), rng.randrange(2)
    colour, edge = bad_colour(rng), bad_edge(rng, sim.m)
    chain = rng.choice((1, 2, r + 1, r + 2, m - 1, m, m + 1, 65535))
    step, n = [TAKE, slot, 0, 0, rng.randrange(2), 0, 0, 0], slot + 2
    at_f, at_g = [[(sim.e[side], n, node), (step, 2, 1), (step, 3, side)] for node in (f, g)]
    make([(left, 1, f), (left, f, g), (col, f, rng.randrange(3)), (col, g, rng.randrange(3)),
          (v, "owed", None), (v, "last", rng.choice((sim.last, 1, f, g)))])
    make(rng.choice((
        [], at_f, at_g, [(left, f, f)], at_f + [(left, f, f)], [(left, f, 0)],
        at_f + [(left, f, 0)], [(left, 1, 0), (col, 0, 255)], [(left, 1, chain)],
        [(left, f, chain)], [(left, f, chain), (col, f, colour), (col, g, colour)],
        [(col, f, colour)], [(col, g, colour)], [(col, f, colour), (col, g, colour)],
        [(right, 1, edge), (right, f, edge), (col, 0, colour), (col, 1, colour), (left, n, edge)],
        [(right, f, rng.choice((0, f, g, n))), (right, g, rng.choice((0, f, g, n))),
         (right, n, rng.choice((f, g))), (step, 2, 2), (step, 3, rng.randrange(4))])))
    fit(rng, sim)
    return step


def sizes(rng, sim):
    m, v, step = sim.m, vars(sim), plain(rng, sim)
    n = rng.choice((0, 1, 2, m - 1, m + 1, 2 * m))
    left, right = [(sim.e, side, (sim.e[side] * 2)[:n]) for side in (0, 1)]
    col = (v, "col", (sim.col * 2)[:n])
    make(rng.choice((
        [left], [right], [col], [left, right, col], [left, right, col, (v, "m", n)],
        [(v, "m", rng.choice((0, 1, 2, m - 1, m + 1, 4096, 4097, 65535)))],
        [(v, "r", rng.choice((0, m - 2, m - 1, m, 64, 65, 255, 65535))), (v, "last", 1),
         (v, "free", 0)])))
    return step


def records(rng, sim):
    """The record at each limit of code 2 and one beyond."""
    m, r, b = sim.m, sim.r, sim.bound()
    field, values = rng.choice((
        ("i", (0, r, r + 1, r + 2, m - 1, m, m + 1, 65535)), ("k", (0, 1, m - 1, m, m + 1, 65535)),
        ("owed", (0, 1, 2, r + 1, m - 1, m, 65535)), ("black", (m - 1, m, m + 1, 65535)),
        ("last", (0, 1, 2, r + 1, r + 2, m - 1, m, m + 1, 65535)), ("lastblack", (m, m + 1, 65535)),
        ("steps", (b - 2, b - 1, b, b + 1, U32)), ("lastc", (b - 1, b, b + 1, U32))))
    step = plain(rng, sim, rng.choice((None, None, COLLECT, SHADE, 5)))
    if field in "ik":
        sim.tag, sim.k = SCAN if field == "k" else rng.choice(PHASES), rng.randint(1, m)
    setattr(sim, field, rng.choice(values))
    if field == "last" and rng.random() < 0.7:
        fit(rng, sim)
    return step


def reads(rng, sim):
    """The second halves at each limit of i and of the number read, and one beyond."""
    m, r = sim.m, sim.r
    sim.tag = rng.choice((LEFT_READ, RIGHT_READ))
    sim.i, sim.read = rng.choice((0, 1, r + 1, m - 1)), rng.choice((0, 2, r + 1, m - 1))
    make([rng.choice(((vars(sim), "i", rng.choice((m - 1, m, m, m + 1, 65535))),
                      (vars(sim), "read", rng.choice((0, 1, 1, m - 1, m, m, m + 1, 65535))),
                      (vars(sim), "read", sim.i * (sim.i != 1))))])
    return plain(rng, sim, rng.choice((None, None, COLLECT, COLLECT, 5)))


def counts(rng, sim):
    """The counts of steps near B, and near what B would be with fewer or more steps for an
    edge."""
    b = sim.bound() + sim.m * rng.choice((0, 0, 0, 0, 1, -1, -2))
    make([(vars(sim), rng.choice(("steps", "lastc")), b + rng.choice((-2, -1, 0, 0, 1, 1, 2)))])
    return plain(rng, sim, rng.choice((None, COLLECT)))


def pairs(rng, sim):
    """Last and the count of free nodes: good pairs at the limits, and every wrong one."""
    m, r = sim.m, sim.r
    top, place = m - r - 2, rng.choice((sim.last, m - 1, rng.randint(min(r + 2, m - 1), m - 1)))
    some, below = rng.randint(0, top), max(1, top - 1)
    sim.last, sim.free = rng.choice((
        (1, 0), (1, 1), (1, top), (1, some), (1, top + 1), (1, 65535), (place, 0), (place, 0),
        (place, 1), (place, some), (place, below), (place, top), (place, top), (place, top + 1),
        (place, top + 1), (place, rng.choice((m, 65535))), (rng.choice((0, r + 1, m)), some)))
    return plain(rng, sim, rng.choice((None, None, None, 5)))


def limits(rng, sim):
    """Numbers of a step at their limits, and beyond."""
    step = plain(rng, sim, rng.choice((TAKE, LINK, LINK, LOOK)))
    at = rng.choice((1, 5)) if step[0] == LINK else 1
    count = step[at + 1]
    make(rng.choice((
        [(step, at, rng.choice((sim.r - 1, sim.r, sim.r + 1, 64, 255)))],
        [(step, at + 1, rng.choice((12, 13, 16, 17, 31, 32, 63, 64, 65, 255)))],
        [(step, at + 2, rng.choice((1 << count, (1 << count) - 1, 4096, 65535)))],
        [(step, at + 1, 12), (step, at + 2, rng.choice((0, 4095, 4096, 8192, 32768)))],
        [(step, at + 1, rng.randrange(2)), (step, at + 2, rng.randrange(4))],
        [(step, 0, rng.choice((5, 255)))], [(step, 4, rng.choice((2, 3, 255)))],
        *[[(step, j, beyond(rng, step[j]))] for j in range(8)])))
    return step


def order(rng, sim):
    """Two or three faults at once: the first in the order told is answered."""
    m, r, v, left, col, edge = sim.m, sim.r, vars(sim), sim.e[0], sim.col, bad_edge(rng, sim.m)
    a, b, c, f, g = rng.sample(range(r + 2, m), 5)
    s, w, t, u = rng.randrange(r), rng.randrange(4), rng.randrange(r), rng.randrange(4)
    step = [rng.choice((TAKE, LINK)), s, 2, w, rng.randrange(2), t, 2, u]
    first, then, to, far = sim.e[w & 1], sim.e[w >> 1], sim.e[u & 1], sim.e[u >> 1]
    sim.owed = None
    make([(to, t + 2, c), (first, s + 2, a), (then, a, b), (left, 1, f), (left, f, g)])
    faults = [(sim.e, 0, left + [0]), (v, "m", m + 1), (v, "last", 0), (v, "lastblack", m + 1),
              (v, "i", 65535), (v, "owed", rng.choice((0, 2, m - 1))), (step, 0, 5), (step, 4, 2),
              (step, 1, r), (step, 2, 13), (step, 3, 4), (first, s + 2, edge), (then, a, edge),
              (first, s + 2, 0), (v, "free", m), (v, "free", 0 if sim.free else 1)]
    if step[0] == LINK:
        faults += [(step, 5, r), (step, 6, 13), (step, 7, 4), (to, t + 2, edge), (far, c, edge)]
    else:
        faults += [(left, 1, r + 1), (left, 1, 0), (left, f, m), (col, f, 3), (col, g, 3)]
    make(rng.sample(faults, rng.randint(2, 3)))
    return step


def colouring(rng, sim):
    """Take, Shade and Append over every colour; of Take g is another node, none, or f."""
    m, left, v, way = sim.m, sim.e[0], vars(sim), rng.randrange(4)
    f, g = rng.sample(range(sim.r + 2, m), 2)
    sim.col[:] = rng.choices(range(3), k=m)
    if way == 0:
        sim.owed = rng.choice((0, *range(2, m)))
        return plain(rng, sim, SHADE)
    if way == 1:
        make([(v, "tag", APPEND), (v, "i", f), (v, "last", g), (sim.col, f, rng.choice((0, 2)))])
        fit(rng, sim)
        return plain(rng, sim, COLLECT)
    make([(v, "owed", None), (left, 1, f), (left, f, rng.choice((g, g, 0, f))), (v, "last", g)])
    fit(rng, sim)
    return [TAKE, rng.randrange(sim.r), 0, 0, rng.randrange(2), 0, 0, 0]


# The family, its lines for a seed, and the least and largest M.
STATES = ((plain, 50, 3, 24), (collecting, 80, 3, 24), (collecting_bad, 60, 3, 16),
          (damaged, 120, 4, 16), (taking, 70, 7, 14), (sizes, 30, 3, 24), (records, 60, 3, 24),
          (limits, 70, 3, 12), (order, 80, 10, 14), (colouring, 60, 7, 14),
          (pairs, 60, 3, 12), (reads, 40, 3, 16), (counts, 30, 3, 16), (stale, 60, 7, 14),
          (aimed, 240, 7, 14))
LARGE = (sizes, 1, 4096, 4096), (records, 1, 4096, 4096), (pairs, 1, 4096, 4096)


def sound(rng, low, high):
    m = rng.randint(low, rng.choice((low, high, high)))
    s = Schedule(rng, m, rng.randint(1, min(m - 2, rng.choice((1, 2, 3 if low > 3 else 64)))), 3000)
    s.repeat(0, 20, s.sound)
    s.maybe(0.5, s.pay)
    s.sim.collect_many(rng.randrange(min(8 * m, 6000)))
    return s.sim


def numbers(sim):
    owed = (0, 0) if sim.owed is None else (1, sim.owed)
    out = [sim.m, sim.r, sim.tag, sim.i, sim.k if sim.tag == SCAN else 0, *owed, sim.last,
           sim.steps, sim.cycles, sim.lastc, sim.black, sim.lastblack, sim.free,
           sim.read if sim.tag in (LEFT_READ, RIGHT_READ) else 0]
    for array in (*sim.e, sim.col):
        out += [len(array), *array]
    return out


def state_lines(seed):
    rng = random.Random(seed)
    for family, count, low, high in STATES + LARGE:
        for _ in range(count):
            sim = sound(rng, low, high)
            step = family(rng, sim)
            yield numbers(sim) + step


def moved(rng, sim):
    """A run in which the edge moves between the two halves of a slot's Left or Right, or does
    not, and the number read is shaded."""
    side, slot, sim.owed = rng.randrange(2), rng.randrange(sim.r), None
    sim.tag, sim.i = (LEFT, RIGHT)[side], slot + 2
    sim.e[side][sim.i] = rng.choice((0, slot + 2, *range(2, sim.m)))
    sim.col[:] = rng.choices((0, 0, 1, 2), k=sim.m)
    to = rng.choice(([slot, 1, 1 - side], [rng.randrange(sim.r), 1, rng.randrange(2)],
                     [rng.randrange(sim.r), 0, 0]))
    link, paid = [LINK, slot, 0, 0, side, *to], [SHADE] * 8
    one, take = [COLLECT] * 8, [TAKE, slot, 0, 0, side, 0, 0, 0]
    return [one, *rng.choice(([link, paid], [link, one, paid], [take], [link, paid, take], [])),
            *[one] * rng.randint(1, 6)]


def run_lines(seed):
    rng = random.Random(seed)
    for _ in range(30):
        sim = sound(rng, 4, 14)
        steps = moved(rng, sim)
        yield numbers(sim) + [len(steps)] + [number for step in steps for number in step]
    for _ in range(180):
        family, _, low, high = rng.choice((STATES[0], STATES[-1], *rng.choices(STATES, k=2)))
        sim = sound(rng, low, high)
        steps = [[LOOK, rng.randrange(sim.r), 0, 0, 0, 0, 0, 0]] * rng.choice((0, 0, 1, 3))
        steps += [family(rng, sim)] if family is not plain or rng.random() < 0.5 else []
        for _ in range(rng.choice((0, 0, 1, 2, rng.randint(3, 50)))):
            kind = rng.choice((TAKE, LINK, COLLECT, COLLECT, COLLECT, LOOK))
            steps.append([kind, 0, 0, 0, rng.randrange(2), 0, 1, rng.randrange(2)])
            if kind == LINK and rng.random() < 0.9:
                steps += [[COLLECT] * 8] * rng.randrange(3) + [[SHADE] * 8]
        yield numbers(sim) + [len(steps)] + [number for step in steps for number in step]
    # One that changes some hundred colours.
    sim, count = sound(rng, 200, 300), rng.randint(1000, 2000)
    yield numbers(sim) + [count] + [COLLECT] * 8 * count


def fresh_lines(seed):
    rng = random.Random(seed)
    for j in range(80):
        m = rng.choice((*range(6), rng.randint(3, 80), 64, 65, 66, 67, rng.randint(259, 500)))
        m = m if j else 4095 + seed % 3
        r = max(0, rng.choice((0, 1, 2, m - 3, m - 2, m - 1, m, 63, 64, 65, rng.randint(1, 64))))
        line, odd = [m, r], rng.randrange(9)
        for j, top in enumerate((65536, 65536, 256)):
            n = rng.choice((0, m + 1, max(0, m - 1), 2 * m)) if odd == j else m
            line += [n, *rng.choices(range(top), k=n)]
        yield line


def lent(rng, j):
    """What is lent to Load, as an export: sound, of any edges, with a defect or more."""
    m = rng.choice((3, 4, 5, rng.randint(3, 24)))
    r = rng.choice((1, m - 2, rng.randint(1, m - 2)))
    if j % 6 == 0:
        return exports.sound(rng, m, r, exports.GARBAGE[j // 6 % 7])
    if j % 6 == 1:
        return exports.random_edges(rng, exports.LIST)
    if j % 6 == 2:
        return exports.defects(rng, j // 6, exports.LIST)
    if j % 6 == 4 or j % 18 == 3:
        x = exports.roomy(rng)
        way = exports.bad_sides if j % 6 == 4 else rng.choice(exports.NONE)
        x.make(way(rng, x, exports.LIST))
        return x
    if j % 18 == 9:
        return exports.from_run(rng, m, r)
    return exports.defect(rng, rng.randrange(3000), exports.LIST)


def sized(rng, line, arrays):
    """One length that is not M, or sizes that are out of range or do not belong to
    these lengths."""
    m, r = line
    n, which = rng.choice((0, 1, m - 1, m + 1, 2 * m, 2 * m)), rng.randrange(10)
    if which == 5:
        line[0] = rng.choice((0, 1, 2, m - 1, m + 1, 4096, 4097, 65535))
    elif which == 6:
        line[1] = rng.choice((0, m - 1, m, m + 1, 64, 65, 255, 65535))
    elif which == 9:
        line[0] = n
    others = {7: (0, 1), 8: (2, 3, 4), 9: range(5)}.get(which, [which] if which < 5 else [])
    for array in others:
        arrays[array] = (arrays[array] * 2)[:n]


def load_lines(seed):
    rng = random.Random(seed)
    for j in range(180 + (seed % 4 == 0)):
        if j < 180:
            x = lent(rng, j)
        else:
            x = exports.sound(rng, 4096 + (seed % 12 == 4), rng.choice((1, 63, 64, 65)))
        top = rng.choice((65536, x.m, 2)), rng.choice((256, 3))
        arrays = [*x.e, *(rng.choices(range(top[which > 1]), k=x.m) for which in range(3))]
        line = [x.m, x.r]
        if j % 12 in (5, 6):
            sized(rng, line, arrays)
        yield line + [number for array in arrays for number in (len(array), *array)]


def asked(rng, x):
    """An export as a table in any phase, with any good record and any colours."""
    sim = Sim(x.m, x.r)
    sim.load(x.e, x.last(), len(x.free))
    m, b = sim.m, sim.bound()
    sim.tag, sim.i, sim.k = rng.choice(PHASES), rng.randrange(sim.r + 2), rng.randint(1, m)
    sim.read = rng.choice((0, rng.randrange(2, m)))
    sim.owed = rng.choice((None, 0, rng.randrange(2, m)))
    sim.black, sim.lastblack = rng.randint(0, m), rng.randint(0, m)
    sim.steps, sim.cycles, sim.lastc = rng.randrange(b), rng.randint(0, U32), rng.randint(0, b)
    sim.col[:] = rng.choices(range(rng.choice((1, 3, 3, 256))), k=m)
    return sim


def inuse_lines(seed):
    rng = random.Random(seed)
    for j in range(162):
        if j % 9 == 0:
            sim = sound(rng, 3, 24)
        else:
            sim = asked(rng, (graphs.table if j < 160 else graphs.large)(rng, j))
        if j % 3 == 1:
            rng.choice((sizes, records, records, pairs, reads, counts))(rng, sim)
        yield numbers(sim)


def free_lines(seed):
    """As above, and most of them are about the record."""
    rng = random.Random(seed)
    for j in range(122):
        if j % 3 == 0:
            sim = sound(rng, 3, 24)
        else:
            sim = asked(rng, (graphs.table if j < 120 else graphs.large)(rng, j))
        if j % 4:
            rng.choice((pairs, pairs, pairs, records, sizes, reads, counts))(rng, sim)
        yield numbers(sim)


MODES = {"": families.schedule, "--state": state_lines, "--run": run_lines, "--fresh": fresh_lines,
         "--load": load_lines, "--inuse": inuse_lines, "--free": free_lines}


def text_of(mode, seed):
    """The input of a seed, as bytes; a schedule if the mode is empty."""
    made = MODES[mode](seed)
    return made if mode == "" else "".join(" ".join(map(str, n)) + "\n" for n in made).encode()

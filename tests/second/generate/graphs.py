"""Tables for `--inuse`, as exports: what slots reach and what they do not. A damage is
given a random source and a table that is roomy, and answers changes, as the defects of
exports do; the edges are of 16 bits."""

from exports import Export, from_run, good, roomy, sound
from sim import bad_edge


def size(rng):
    """M and R, M from the least possible on."""
    r = rng.choice((1, 1, 2, 3, rng.randint(1, 64)))
    return r + 2 + rng.choice((0, 1, 2, rng.randint(3, 20), rng.randint(3, 20))), r


def split(rng, m, r, used):
    """A table with so many nodes for the slots' graphs, and the others free."""
    x = Export(m, r)
    nodes = rng.sample(range(r + 2, m), m - r - 2)
    x.graph, x.free = nodes[:used], sorted(nodes[used:])
    x.chain()
    return x


# Sound tables.

def fresh(rng):
    return split(rng, *size(rng), 0)


def all_in_use(rng):
    return sound(rng, *size(rng), None, (0, 0))


def only_slots(rng):
    """No slot has a node, but slots may have edges to each other."""
    return sound(rng, *size(rng), None, rng.choice(((1, 0), (0, 1), (0.5, 1))))


def any_share(rng):
    return sound(rng, *size(rng))


def after_run(rng):
    return from_run(rng, *size(rng))


def linked(rng, m, r, used):
    """A chain or ring that a slot has, by one side; the other edges are 0, or go back
    along it, or all to one node."""
    x = split(rng, m, r, used)
    side, nodes = rng.randrange(2), [rng.choice(x.slots()), *x.graph]
    shared, way = rng.choice(nodes), rng.randrange(3)
    for before, node in zip(nodes, [*x.graph, rng.choice((0, shared, *nodes[:2]))]):
        x.e[side][before] = node
    for n, node in enumerate(nodes):
        x.e[1 - side][node] = (0, nodes[rng.randint(0, n)], shared)[way]
    return x


def one_line(rng):
    m, r = size(rng)
    return linked(rng, m, r, rng.randint(0, m - r - 2))


# Damages.

def bad_at(nodes):
    """Bad edges at some of those nodes, on one side or on both."""
    def bad_edges(rng, x):
        some = nodes(x)
        some = rng.sample(some, min(len(some), rng.choice((1, 1, 2, 3, len(some)))))
        return [(side, node, bad_edge(rng, x.m)) for node in some
                for side in rng.choice(((0,), (1,), (0, 1)))]
    return bad_edges


def behind(rng, x):
    """A slot has a node with one bad edge; the other one goes to a second node, which
    has bad edges too."""
    a, b = rng.sample(x.garbage, 2)
    side = rng.randrange(2)
    return [(rng.randrange(2), rng.choice(x.slots()), a), (side, a, b),
            (1 - side, a, bad_edge(rng, x.m))] + bad_at(lambda x: [b])(rng, x)


def cut_off(rng, x):
    """The bad edge was the only one to a second node, which has bad edges too."""
    a, b = rng.sample(x.garbage, 2)
    side = rng.randrange(2)
    return [(rng.randrange(2), rng.choice(x.slots()), a), (side, a, rng.choice((0, a))),
            (1 - side, a, bad_edge(rng, x.m))] + bad_at(lambda x: [b])(rng, x)


def nil_edges(rng, x):
    """Edges of NIL: good ones, or bad."""
    return [(side, 0, rng.choice((0, good(rng, x), *x.garbage, bad_edge(rng, x.m))))
            for side in (0, 1)]


def free_edges(rng, x):
    """Edges of FREE, to anything."""
    return [(side, 1, rng.choice((0, good(rng, x), *x.graph, bad_edge(rng, x.m))))
            for side in (0, 1)]


def reach_free(rng, x):
    """A slot, or a node of its graph, reaches free nodes."""
    return [(rng.randrange(2), rng.choice(x.slots() + x.graph), rng.choice(x.free))]


def reach_garbage(rng, x):
    """So it is none."""
    return [(rng.randrange(2), rng.choice(x.slots() + x.graph), rng.choice(x.garbage))]


DAMAGES = [bad_at(lambda x: x.slots() + x.graph), bad_at(lambda x: x.garbage + x.free), behind,
           nil_edges, cut_off, bad_at(lambda x: x.slots()), free_edges, reach_free, behind,
           bad_at(lambda x: range(x.m)), bad_at(lambda x: x.graph), bad_at(lambda x: [0, 1]),
           behind, reach_garbage, bad_at(lambda x: x.free)]
SOUND = [fresh, all_in_use, any_share, one_line, only_slots, after_run, any_share, one_line]


def any_edges(rng):
    """Any edges on a small table, more or less of them 0; some bad, or none."""
    r = rng.randint(1, 2)
    x = Export(rng.randint(r + 2, 9), r)
    worst, empty = rng.choice((0, 0.1, 0.3)), rng.choice((0.2, 0.5, 0.8))
    x.make([(side, node, bad_edge(rng, x.m) if rng.random() < worst else good(rng, x))
            for node in range(x.m) for side in (0, 1) if rng.random() >= empty])
    return x


def table(rng, index):
    """Sound ones, those with one damage and with two, and any edges take turns, and the
    kinds of each."""
    turn, way = divmod(index, 4)
    if way == 0:
        return SOUND[turn % len(SOUND)](rng)
    if way == 1:
        return any_edges(rng)
    x = roomy(rng)
    x.make(DAMAGES[turn % len(DAMAGES)](rng, x))
    if way == 2:
        x.make(rng.choice(DAMAGES)(rng, x))
    return x


def large(rng, index):
    """Tables of up to 4,096 nodes, most of them in one line or in none; every other one
    has a bad edge somewhere."""
    m = rng.choice((4096, 4096, 4095, rng.randint(300, 4095)))
    r = rng.choice((1, 2, 63, 64))
    x = linked(rng, m, r, rng.choice((0, m - r - 2, rng.randint(0, m - r - 2))))
    if index % 2:
        x.make([(rng.randrange(2), rng.choice((rng.randrange(m), m - 1)), bad_edge(rng, m))])
    return x

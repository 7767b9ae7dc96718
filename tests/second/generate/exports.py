"""Exports of the old editor: sound ones with every kind of garbage, and what one
change or two make of them. A change is a side, a node and the new edge. `wide` is
the largest edge that can be written: 7 digits in a line, 32 bits in a list."""

from schedule import Schedule

LINE, LIST = 9999999, 4294967295


class Export:
    """The edges by their side; the free nodes in the chain's order, the nodes that
    hang from slots, and the others."""

    def __init__(self, m, r):
        self.m, self.r = m, r
        self.e = [[0] * m, [0] * m]
        self.free, self.graph, self.garbage = [], [], []

    def slots(self):
        return list(range(2, self.r + 2))

    def last(self):
        return self.free[-1] if self.free else 1

    def chain(self):
        for before, node in zip([1, *self.free], [*self.free, 0]):
            self.e[0][before] = node

    def make(self, changes):
        for side, node, edge in changes:
            self.e[side][node] = edge

    def lines(self):
        return [b"node=%d left=%d right=%d" % line for line in zip(range(self.m), *self.e)]


# The kinds of garbage, by what its edges may be.

def rings(rng, x):
    """Rings of some nodes; the other edge is 0, or goes along a ring too."""
    nodes = x.garbage[:]
    while nodes:
        n = rng.choice((1, 2, 3, len(nodes)))
        ring, nodes = nodes[:n], nodes[n:]
        side = rng.randrange(2)
        for before, node in zip(ring[-1:] + ring, ring):
            x.make([(side, before, node), (1 - side, node, rng.choice((0, before)))])


def self_loops(rng, x):
    for node in x.garbage:
        x.make([(0, node, node), (1, node, rng.choice((0, node)))])


def into(rng, x, targets):
    for node in x.garbage:
        x.make([(side, node, rng.choice(targets or [0])) for side in (0, 1)])


def into_free(rng, x):
    into(rng, x, x.free)


def into_end(rng, x):
    """Garbage that looks as a free chain does, and leads into the free list."""
    for before, node in zip(x.garbage, [*x.garbage[1:], *rng.choice((x.free[:1], x.free[-1:]))]):
        x.e[0][before] = node


def into_graph(rng, x):
    into(rng, x, x.slots() + x.graph)


def nothing(rng, x):
    into(rng, x, [0])


def anything(rng, x):
    into(rng, x, [0] + list(range(2, x.m)))


GARBAGE = (rings, into_free, anything, self_loops, into_end, into_graph, nothing)


def hang(rng, x):
    """The slots' graphs: each node hangs from a slot or a node before it; of the
    other edges some go back, to slots, or to the node itself."""
    deep = rng.random()
    places = [(side, slot) for slot in x.slots() for side in (0, 1)]
    rng.shuffle(places)
    for node in x.graph:
        at = -1 if rng.random() < deep else rng.randrange(len(places))
        side, parent = places.pop(at)
        x.e[side][parent] = node
        places += rng.sample([(0, node), (1, node)], 2)
    some = rng.random()
    for side, node in places:
        if rng.random() < some:
            x.e[side][node] = rng.choice([*x.slots(), *x.graph, node])


def sound(rng, m, r, kind=None, share=None):
    """`share`: how many of the nodes are free, and how many garbage."""
    x = Export(m, r)
    nodes = rng.sample(range(r + 2, m), m - r - 2)
    free, garbage = share or rng.choice((
        (0.4, 0.3), (0.4, 0.3), (0.4, 0.4), (0.3, 0.6), (0.3, 0.6), (0.1, 0.2), (0, 0.5), (0, 1),
        (0, 0), (1, 0), (0.7, 0)))
    free, garbage = (round(part * len(nodes)) for part in (free, garbage))
    x.free, x.garbage, x.graph = nodes[:free], nodes[free:][:garbage], nodes[free:][garbage:]
    order = rng.randrange(6)
    if order < 2:
        x.free.sort(reverse=order == 1)
    x.chain()
    hang(rng, x)
    (kind or rng.choice(GARBAGE))(rng, x)
    return x


def from_run(rng, m, r):
    """The table that some steps leave."""
    s = Schedule(rng, m, r, 2000)
    s.repeat(0, 60, s.sound)
    x = Export(m, r)
    x.e = [edges[:] for edges in s.sim.e]
    node = 1
    while x.e[0][node]:
        node = x.e[0][node]
        x.free.append(node)
    seen = x.slots()
    for node in seen:
        seen += {x.e[0][node], x.e[1][node]} - {0, *seen}
    x.graph = seen[r:]
    x.garbage = [n for n in range(r + 2, m) if n not in seen and n not in x.free]
    return x


def roomy(rng, high=24):
    """A sound one that has at least four free nodes, and some of each other kind."""
    r = rng.randint(1, 4)
    m = r + 2 + rng.randint(10, high)
    return sound(rng, m, r, None, (rng.choice((0.4, 0.5)), 0.25))


# The defects. Each is given a random source, an export that is roomy and the
# largest edge, and answers changes.

def bad(rng, x, wide, edge=0):
    """A bad edge; some of them would be the edge, or a good one, if cut to 16 bits."""
    high = (wide - x.m) // 65536
    cut = 65536 * rng.choice((1, 1, 2, rng.randint(1, high)))
    return rng.choice((1, x.m, rng.choice((x.m + 1, 4096, 32768, 65535)),
                       rng.choice((65536, 65537, wide, wide - 1)), cut + edge,
                       cut + rng.randrange(x.m)))


def good(rng, x):
    return rng.randrange(2, x.m)


def bad_in(nodes):
    """Code 11: a bad edge of one of those nodes."""
    def bad_edge(rng, x, wide):
        side, node = rng.randrange(2), rng.choice(nodes(x))
        return [(side, node, bad(rng, x, wide, x.e[side][node]))]
    return bad_edge


def bad_sides(rng, x, wide):
    """NIL, FREE, a slot's node or another, each as often; one of its edges, or both. NIL's
    may be good ones."""
    node = rng.choice((0, 1, rng.choice(x.slots()), rng.randrange(x.r + 2, x.m)))
    return [(side, node, bad(rng, x, wide) if node or rng.random() < 0.8 else good(rng, x))
            for side in rng.choice(((0,), (1,), (0, 1)))]


def bad_twice(rng, x, wide):
    return [(rng.randrange(2), node, bad(rng, x, wide)) for node in rng.sample(range(x.m), 2)]


def nil_set(side):
    def nil_edge(rng, x, wide):
        return [(side, 0, good(rng, x))]
    return nil_edge


def nil_and_later(rng, x, wide):
    return nil_set(rng.randrange(2))(rng, x, wide) + bad_twice(rng, x, wide)


def nil_wide(rng, x, wide):
    """Cut to 16 bits it would be 0."""
    return [(rng.randrange(2), 0, 65536 * rng.randint(1, wide // 65536))]


def all_wide(rng, x, wide):
    """A sound export if every edge were cut to 16 bits."""
    return [(side, node, x.e[side][node] + 65536) for side in (0, 1)
            for node in rng.sample(range(x.m), rng.choice((1, x.m)))]


def right_of(place):
    """Code 12: a right edge in the chain, at FREE (0), the first free node (1), a
    later one (2) or the last (-1)."""
    def right_set(rng, x, wide):
        chain = [1, *x.free]
        node = chain[place] if place != 2 else rng.choice(chain[2:])
        return [(1, node, rng.choice((good(rng, x), *x.slots(), *x.free, *x.garbage)))]
    return right_set


def to_slot(place):
    def left_to_slot(rng, x, wide):
        chain = [1, *x.free]
        node = chain[place] if place != 2 else rng.choice(chain[2:])
        return [(0, node, rng.choice((2, x.r + 1)))]
    return left_to_slot


def self_loop(place):
    def loop_of_one(rng, x, wide):
        node = x.free[place] if place != 1 else rng.choice(x.free[1:])
        return [(0, node, node)]
    return loop_of_one


def back(rng, x, wide):
    """To a node before it, from the end or from elsewhere."""
    at = rng.choice((len(x.free) - 1, rng.randrange(1, len(x.free))))
    return [(0, x.free[at], rng.choice((x.free[0], rng.choice(x.free[:at]))))]


def into_set_garbage(rng, x, wide):
    """The chain goes on through a node that has a right edge."""
    node = rng.choice(x.garbage)
    return [(0, rng.choice((1, *x.free)), node), (1, node, good(rng, x))]


def chain_twice(rng, x, wide):
    """Two defects in the chain, the one that comes first at the higher node."""
    a, b = sorted(rng.sample(range(len(x.free)), 2))
    if x.free[a] < x.free[b]:
        x.free[a], x.free[b] = x.free[b], x.free[a]
        x.chain()
    first = rng.choice(((1, x.free[a], good(rng, x)), (0, x.free[a], 2)))
    return [first, (1, x.free[b], good(rng, x))]


def free_twice(rng, x, wide):
    """FREE's right edge and a later defect."""
    return right_of(0)(rng, x, wide) + rng.choice((chain_twice, back, right_of(1)))(rng, x, wide)


def reach(place, whose):
    """Code 13: a slot, or a node of its graph, has an edge to a free node: the first
    one, a later one or the last."""
    def edge_to_free(rng, x, wide):
        node = x.free[place] if place != 1 else rng.choice(x.free[1:])
        return [(rng.randrange(2), rng.choice(whose(x)), node)]
    return edge_to_free


def reach_lower(rng, x, wide):
    """The free node that the edge goes to is not the lowest one behind it."""
    x.free.sort(reverse=True)
    x.chain()
    return [(rng.randrange(2), rng.choice(x.slots() + x.graph), rng.choice(x.free[:-1]))]


def reach_higher(rng, x, wide):
    """The lowest one behind it comes first; the lowest of all is not reached."""
    x.free.sort()
    x.chain()
    return [(rng.randrange(2), rng.choice(x.slots()), rng.choice(x.free[1:-1]))]


def reach_two(rng, x, wide):
    a, b = rng.sample(x.free, 2)
    slot = rng.choice(x.slots())
    return [(0, slot, a), (1, slot, b)]


def reach_through(rng, x, wide):
    """Through garbage, which is then none."""
    a, b = rng.sample(x.garbage, 2)
    slot = rng.choice(x.slots())
    return [(rng.randrange(2), slot, a), (rng.randrange(2), a, b),
            (rng.randrange(2), b, rng.choice(x.free))]


def chain_into_graph(rng, x, wide):
    """The chain's end goes on to a node that a slot has."""
    slot, node = rng.choice(x.slots()), rng.choice(x.graph)
    return [(1, slot, node), (0, x.free[-1], node), (0, node, 0), (1, node, 0)]


def longer(rng, x, wide):
    """No defect: the chain goes on through what was garbage."""
    some = rng.sample(x.garbage, rng.randint(1, len(x.garbage)))
    x.free += some
    x.garbage = [node for node in x.garbage if node not in some]
    x.chain()
    return [(1, node, 0) for node in some]


def shorter(rng, x, wide):
    """No defect: the chain ends sooner, and its other nodes are garbage."""
    at = rng.randrange(len(x.free))
    x.free, x.garbage = x.free[:at], x.garbage + x.free[at:]
    return [(0, x.last(), 0)]


def roots(x):
    return x.slots()


BAD_EDGES = [bad_in(lambda x: range(x.m)), nil_set(0), nil_set(1), bad_in(lambda x: [1]),
             nil_wide, all_wide, bad_in(roots), bad_in(lambda x: x.free), bad_twice,
             bad_in(lambda x: x.garbage), bad_in(lambda x: x.graph), nil_and_later,
             bad_in(lambda x: [x.m - 1]), bad_sides]
BAD_CHAINS = [right_of(0), to_slot(0), self_loop(0), back, to_slot(-1), right_of(2), chain_twice,
              self_loop(-1), right_of(1), to_slot(2), into_set_garbage, to_slot(1), self_loop(1),
              right_of(-1), free_twice]
REACHED = [reach(0, roots), reach_lower, reach_through, reach(-1, lambda x: x.graph),
           reach_two, chain_into_graph, reach(1, roots), reach_higher, reach(0, lambda x: x.graph),
           reach(1, lambda x: x.graph)]
NONE = [longer, shorter]
CODES = BAD_EDGES, BAD_CHAINS, REACHED


def defect(rng, index, wide):
    """One defect; the codes take turns, and the defects of each."""
    turn, code = divmod(index, 3)
    x = roomy(rng)
    x.make(CODES[code][turn % len(CODES[code])](rng, x, wide))
    return x


def defects(rng, index, wide):
    """Two or three at once, of different codes: the order of the codes shows. The
    pairs take turns."""
    x = roomy(rng)
    for code in ((1, 2), (0, 1), (0, 2), (0, 1, 2))[index % 4]:
        x.make(rng.choice(CODES[code])(rng, x, wide))
    return x


def random_edges(rng, wide):
    """Any edges on a small table, more or less of them 0; seldom a bad one."""
    r = rng.randint(1, 2)
    x = Export(rng.randint(r + 2, rng.choice((5, 9))), r)
    worst, empty = rng.choice((0, 0, 0.05)), rng.choice((0.2, 0.5, 0.8))
    for n in range(x.m):
        for side in (0, 1):
            nil = n == 0 and rng.random() < 0.95 or side == 1 and n == 1 and rng.random() < 0.9
            if not nil and rng.random() >= empty:
                x.e[side][n] = good(rng, x) if rng.random() >= worst else bad(rng, x, wide)
    return x

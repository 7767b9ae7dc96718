"""States with one value bad that the step reads, each in each way, and often more that it
does not read, or reads later. A family, as those in states.py."""

from sim import (APPEND, COLLECT, LEFT, LEFT_READ, LINK, LOOK, RIGHT, RIGHT_READ, ROOTS, SCAN,
                 SHADE, TAKE, bad_colour, make)


def edge(rng, sim):
    """1, M, or more."""
    return rng.choice((1, sim.m, rng.choice((sim.m + 1, 4096, 4097, 32768, 65534, 65535))))


def chain_edge(rng, sim):
    """What Take alone calls bad too."""
    return rng.choice((edge(rng, sim), 2, rng.randint(2, sim.r + 1), sim.r + 1))


def colour(rng):
    return rng.choice((3, bad_colour(rng)))


def any_node(rng, sim):
    """NIL, FREE, a slot's node or another: each as often."""
    return rng.choice((0, 1, rng.randint(2, sim.r + 1), rng.randrange(sim.r + 2, sim.m)))


def walk(rng, sim, turns):
    """A place and the nodes passed; the walk reads the edges of all of them, and goes
    on to the last one's."""
    slot = rng.randrange(sim.r)
    nodes = [slot + 2] + rng.choices(range(2, sim.m), k=turns)
    sides = rng.choices((0, 1), k=turns + 1)
    for before, side, node in zip(nodes, sides, nodes[1:]):
        sim.e[side][before] = node
    return [slot, turns + 1, sum(side << j for j, side in enumerate(sides))], nodes[-1], sides[-1]


def spoiled_walk(rng, sim):
    """A place whose walk meets a bad edge: at its first turn, its last or between. The
    edge of the other side is bad now and then."""
    turns = rng.choice((0, 0, 1, 2, 11))
    place, node, side = walk(rng, sim, turns)
    sim.e[side][node] = edge(rng, sim)
    if rng.random() < 0.3:
        sim.e[1 - side][node] = edge(rng, sim)
    more = rng.choice((0, rng.randint(0, 11 - turns)))
    place[1:] = place[1] + more, place[2] | rng.randrange(1 << more) << place[1]
    return place


def looking(rng, sim):
    return [LOOK, *spoiled_walk(rng, sim), 0, 0, 0, 0]


def linking(rng, sim):
    """The source's walk, the target's, or both."""
    sim.owed, which = None, rng.randrange(3)
    source = [rng.randrange(sim.r), 0, 0] if which == 1 else spoiled_walk(rng, sim)
    target = [rng.randrange(sim.r), 0, 0] if which == 0 else spoiled_walk(rng, sim)
    return [LINK, *source, rng.randrange(2), *target]


def taking(rng, sim):
    """The walk; FREE's edge, and the colour of the node that it goes to; f's edge, with
    its colour or with that of the node that it goes to; the colours of f, of g, of both."""
    sim.owed, left, col = None, sim.e[0], sim.col
    if rng.random() < 0.25:
        return [TAKE, *spoiled_walk(rng, sim), rng.randrange(2), 0, 0, 0]
    f, g = rng.sample(range(sim.r + 2, sim.m), 2)
    chain = chain_edge(rng, sim)
    spoil = [(col, chain, colour(rng))] if chain < sim.m else [(col, 1, colour(rng))]
    make([(left, 1, f), (left, f, rng.choice((0, g, g))), (sim.e[0], 2, 0)])
    make(rng.choice((
        [(left, 1, chain)], [(left, 1, chain)] + spoil, [(left, f, chain)],
        [(left, f, chain)] + spoil, [(left, f, chain), (col, f, colour(rng))],
        [(col, f, colour(rng))], [(left, f, g), (col, g, colour(rng))],
        [(left, f, g), (col, f, colour(rng)), (col, g, colour(rng))],
        [(left, f, f), (col, f, colour(rng))])))
    return [TAKE, rng.randrange(sim.r), 0, 0, rng.randrange(2), 0, 0, 0]


def shading(rng, sim):
    sim.owed = any_node(rng, sim)
    sim.owed *= sim.owed != 1
    sim.col[sim.owed] = colour(rng)
    return [SHADE] * 8


def of_colour(rng, sim):
    """Roots and Scan: the colour; the node's edges now and then."""
    sim.tag, sim.i = rng.choice((ROOTS, SCAN)), any_node(rng, sim)
    if sim.tag == ROOTS:
        sim.i = rng.choice((0, 1, rng.randint(2, sim.r + 1)))
    sim.k = rng.choice((1, sim.m, rng.randint(1, sim.m)))
    sim.col[sim.i] = colour(rng)
    make([(edges, sim.i, edge(rng, sim)) for edges in sim.e if rng.random() < 0.2])


def successor(rng, sim):
    """NIL, i itself, a slot's node or any other; not FREE."""
    node = rng.choice((0, sim.i, rng.randint(2, sim.r + 1), rng.randrange(2, sim.m)))
    return node * (node != 1)


def of_edges(rng, sim):
    """Left and Right: the edge; seldom the colour of the node that it goes to, which they
    do not read. What is bad beside it is i's colour, its other edge, or FREE's colour."""
    sim.tag, sim.i = rng.choice((LEFT, RIGHT)), any_node(rng, sim)
    near, far = sim.e if sim.tag == LEFT else sim.e[::-1]
    node, bad = successor(rng, sim), [(near, sim.i, edge(rng, sim))]
    make(rng.choice((bad, bad, bad, [(near, sim.i, node), (sim.col, node, colour(rng))])))
    beside = [(sim.col, sim.i, colour(rng)), (far, sim.i, edge(rng, sim)), (sim.col, 1, 255)]
    make([change for change in beside if rng.random() < 0.2])


def of_numbers(rng, sim):
    """The second halves: the colour of the number read. The edge is as it was, has moved,
    or is bad, and the colour of the node that it goes to is bad now and then."""
    sim.tag, sim.i = rng.choice((LEFT_READ, RIGHT_READ)), any_node(rng, sim)
    edges, now = sim.e[sim.tag == RIGHT_READ], successor(rng, sim)
    sim.read = successor(rng, sim)
    make([(sim.col, now, rng.choice((0, 1, 2, colour(rng)))), (sim.col, sim.read, colour(rng)),
          (edges, sim.i, rng.choice((sim.read, now, now, edge(rng, sim))))])
    make([(sim.col, sim.i, colour(rng))] if rng.random() < 0.2 else [])


def of_append(rng, sim):
    """A colour above 2, gray or white at each kind of node; last is it, 1 or another."""
    sim.tag, sim.i = APPEND, any_node(rng, sim)
    others = [node for node in range(sim.r + 2, sim.m) if node != sim.i]
    sim.last = rng.choice((1, rng.choice(others), rng.choice(others)))
    if sim.i > sim.r + 1 and rng.random() < 0.7:
        sim.last = sim.i
    sim.col[sim.i] = rng.choice((0, 0, 1, colour(rng)))
    sim.free = 0 if sim.last == 1 else rng.randint(1, sim.m - sim.r - 2)
    make([(edges, sim.i, edge(rng, sim)) for edges in sim.e if rng.random() < 0.2])


def collecting(rng, sim):
    rng.choice((of_colour, of_edges, of_edges, of_numbers, of_append, of_append))(rng, sim)
    return [COLLECT] * 8


def aimed(rng, sim):
    way = rng.choice((looking, linking, linking, taking, taking, taking, shading, collecting,
                      collecting, collecting, collecting))
    return way(rng, sim)


def stale(rng, sim):
    """The second halves, and nothing that they read is bad. The number read is NIL, i, a slot's
    node or any other, garbage too, of each colour; the edge is as it was, has moved, or is bad,
    and so may be the colour of the node that it goes to."""
    sim.tag, sim.i = rng.choice((LEFT_READ, RIGHT_READ)), any_node(rng, sim)
    edges, now = sim.e[sim.tag == RIGHT_READ], successor(rng, sim)
    sim.read = rng.choice((successor(rng, sim), rng.randrange(sim.r + 2, sim.m)))
    sim.owed = rng.choice((None, None, now, sim.read))
    edges[sim.i] = rng.choice((sim.read, now, now, 0, edge(rng, sim)))
    sim.col[:] = rng.choices(range(3), k=sim.m)
    make(rng.choice(([], [], [(sim.col, now, colour(rng))], [(sim.col, sim.i, colour(rng))])))
    if sim.col[sim.read] > 2:
        sim.col[sim.read] = rng.randrange(3)
    return [COLLECT] * 8

"""Schedules for measuring the program: mixed steps at M = 4,096 and R = 64, from a fixed seed, so
always the same bytes. Most lines are done, some are refused, and one in a hundred is unreadable.
The places are of nodes that the table has, known by a simulation."""
import os
import random
import sys

sys.dont_write_bytecode = True
HERE = os.path.dirname(os.path.abspath(__file__))
sys.path.insert(0, os.path.join(HERE, "..", "tests", "second", "generate"))

from schedule import Schedule

NODES, SLOTS, SEED = 4096, 64, 1978
UNREADABLE = [
    b"",
    b"op=shade ",
    b"op=look slot=00 turns=L",
    b"op=collect count=1000001",
    b"op=take slot=0 turns=- side=l",
    b"op=look slot=1 turns=" + b"LR" * 40,
]


def line(s, collects):
    """One line more: `collects` is the weight of collector steps among the others."""
    rng, sim = s.rng, s.sim
    few = (collects, lambda: s.collect(1, 50))
    unreadable = (1, lambda: s.lines.append(rng.choice(UNREADABLE)))
    if sim.owed is not None and rng.random() < 0.9:
        s.choose(60, s.shade, 20, s.look, *few, *unreadable)
    else:
        # a list that is empty still meets a take now and then
        takes = 25 if sim.e[0][1] else 3
        bad_slot = (2, lambda: s.look((SLOTS, "")))
        s.choose(takes, s.take, 25, s.link, 25, s.look, 3, s.shade, *bad_slot, *few, *unreadable)


def mixture(count, collects=25):
    """The first line, and `count` lines after it."""
    s = Schedule(random.Random(SEED), NODES, SLOTS, 10 ** 9)
    while len(s.lines) <= count:
        line(s, collects)
    return s.lines[0] + b"\n", b"\n".join(s.lines[1:]) + b"\n"

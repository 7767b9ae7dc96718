"""Writes the schedules that the test of the page needs, each into a file of DIR.

    python3 tests/browser/schedules.py DIR"""

import os
import random
import sys

sys.dont_write_bytecode = True
HERE = os.path.dirname(os.path.abspath(__file__))
sys.path.insert(0, os.path.join(HERE, "..", "second", "generate"))

from schedule import Schedule
from states import text_of

SEEDS = 40


def lines(count, nodes, slots, seed):
    """So many lines, of all kinds."""
    s = Schedule(random.Random(seed), nodes, slots, 10 ** 7, 0.2)
    while len(s.lines) < count:
        s.sound()
    return b"\n".join(s.lines[:count]) + b"\n"


def large():
    """A table of 4,096 nodes with nodes in use, free nodes and garbage."""
    s = Schedule(random.Random(4), 4096, 64, 10 ** 7, 0.1)
    for slot in range(64):
        s.take((slot, ""), 0)
        s.take((slot, ""), 1)
    for _ in range(700):
        s.pay()
        s.choose(60, s.take, 8, s.link, 4, s.cut, 5, lambda: s.collect(1, 9000))
    s.pay()
    s.collect(300000)
    return b"\n".join(s.lines) + b"\n"


def long():
    """Twenty million collector steps."""
    return b"nodes=4096 slots=64\nop=take slot=0 turns=- side=L\n" + \
        b"op=collect count=1000000\n" * 20 + b"op=look slot=0 turns=L\n"


BROKEN = {
    "carriage": b"nodes=4 slots=1\r\nop=take slot=0 turns=- side=L\r\n",
    "empty": b"",
    "words": b"this is no schedule\n\nat all",
    "bytes": bytes(range(256)) * 3,
    "short": b"nodes=4 slots=1\nnode=0 left=0 right=0\nnode=1 left=3 right=0\n",
    "later": b"nodes=4 slots=1\nop=take slot=0 turns=- side=L\nop=tke slot=0\n"
             b"op=look slot=0 turns=L\n" + b"x" * 20000 + b"\nop=look slot=0 turns=L",
}


EDGE = b"nodes=4 slots=1\nnode=0 left=0 right=0\nnode=1 left=0 right=0\n" \
       b"node=2 left=3 right=4\nnode=3 left=0 right=0\nop=shade\n"


def main(folder):
    texts = {"random": lines(1000, 24, 3, 1), "graph": lines(200, 64, 5, 2), "large": large(),
             "long": long(), "edge": EDGE, **{"broken-" + n: t for n, t in BROKEN.items()}}
    texts.update({"seed-%d" % seed: text_of("", seed) for seed in range(SEEDS)})
    listing = open(os.path.join(HERE, "..", "..", "examples", "listing.txt"), "rb").read()
    texts["edited"] = listing.replace(b"count=80", b"count=43")
    for name, text in texts.items():
        with open(os.path.join(folder, name + ".txt"), "wb") as file:
            file.write(text)


if __name__ == "__main__":
    main(*sys.argv[1:])

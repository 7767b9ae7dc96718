"""Writes the schedule of ./bench page: a table of 4,096 nodes, of which 800 are in use and 736 are
garbage when the collector begins, and then 10,000,000 collector steps, in ten lines.

    python3 benches/page.py OUT"""

import sys


def lines():
    yield "nodes=4096 slots=64"
    for slot in range(64):
        turns = ""
        for _ in range(12):
            for side in "LR":
                yield "op=take slot=%d turns=%s side=%s" % (slot, turns or "-", side)
            turns += "L"
    for slot in range(0, 64, 2):
        yield "op=link slot=%d turns=- side=L toslot=%d toturns=-" % (slot, slot)
        yield "op=shade"
    for _ in range(10):
        yield "op=collect count=1000000"


if __name__ == "__main__":
    with open(sys.argv[1], "w", encoding="ascii") as file:
        file.write("\n".join(lines()) + "\n")

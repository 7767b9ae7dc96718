"""A schedule being written, beside its simulation. A place that is not told is one
of a node; a side that is not told is either."""

from sim import SIDES, Sim


class Schedule:
    def __init__(self, rng, m, r, budget=300000, stop=0.3):
        """`budget`: the collector steps at most; `stop`: how soon places end."""
        self.rng, self.m, self.r, self.budget, self.stop = rng, m, r, budget, stop
        self.sim = Sim(m, r)
        self.lines = [b"nodes=%d slots=%d" % (m, r)]

    def load(self, export):
        """An export, directly after the first line; the simulation goes on from it."""
        self.lines += export.lines()
        self.sim.load(export.e, export.last(), len(export.free))

    def text(self):
        end = b"\n" if self.rng.random() < 0.8 or self.lines[-1] == b"" else b""
        return b"\n".join(self.lines) + end

    def take(self, place=None, side=None):
        place, side = place or self.node(), self.side(side)
        self.put("op=take slot=%d turns=%s side=%s", place, SIDES[side])
        return self.sim.take(place, side)

    def link(self, place=None, target=None, side=None):
        place, target, side = place or self.node(), target or self.node(), self.side(side)
        self.put("op=link slot=%d turns=%s side=%s toslot=%d toturns=%s",
                 place, SIDES[side], target)
        self.sim.link(place, target, side)

    def cut(self, place=None, side=None):
        self.link(place, self.nil(), side)

    def shade(self):
        self.put("op=shade")
        self.sim.shade()

    def pay(self):
        if self.sim.owed is not None:
            self.shade()

    def look(self, place=None):
        self.put("op=look slot=%d turns=%s", place or self.node())

    def collected(self, count):
        self.budget -= count
        self.put("op=collect count=%d" % count)

    def collect(self, low=None, high=None):
        """So many steps, or between two numbers, or some."""
        if low is None:
            tops = 4, 2 * self.m, 8 * self.m, 30 * self.m
            low, high = 1, self.rng.choices(tops, (45, 30, 20, 5))[0]
        count = self.rng.randint(low, low if high is None else high)
        self.collected(self.sim.collect_many(min(count, max(self.budget, 1))))

    def cycle(self, n=1):
        """To the end of the n-th cycle from here, by one line."""
        self.collected(self.sim.collect_many(min(1000000, max(self.budget, 1)), n))

    def until(self, tag, i=None):
        """To the phase `tag` (at i, if told), by one line."""
        limit, count = min(15 * self.m + 60, max(self.budget, 1)), 0
        while count < limit:
            self.sim.collect()
            count += 1
            if self.sim.tag == tag and i in (None, self.sim.i):
                break
        self.collected(count)

    def put(self, text, place=(), side="", target=()):
        values = ["-" if value == "" else value for value in (*place, *side, *target)]
        self.lines.append((text % tuple(values)).encode())

    def repeat(self, low, high, action):
        for _ in range(self.rng.randint(low, high)):
            action()

    def maybe(self, chance, action, *values):
        if self.rng.random() < chance:
            action(*values)

    def choose(self, *options):
        """Calls one of the functions; before each stands its weight."""
        self.rng.choices(options[1::2], options[::2])[0]()

    def side(self, side=None):
        return self.rng.randrange(2) if side is None else side

    def node(self, stop=None):
        return self.sim.node_place(self.rng, self.stop if stop is None else stop)[0]

    def nil(self):
        return self.sim.nil_place(self.rng)

    def slot(self):
        return self.rng.randrange(self.r)

    def turns(self, low, high):
        return "".join(self.rng.choices(SIDES, k=self.rng.randint(low, high)))

    def sound(self):
        """One step, mostly one that is done."""
        if self.sim.owed is not None and self.rng.random() < 0.8:
            self.choose(55, self.shade, 25, self.collect, 12, self.look,
                        20, lambda: self.collect(1, 6))
        else:
            self.choose(30, self.collect, 7, self.look, 6, lambda: self.look(self.nil()),
                        28, self.take, 18, self.link, 9, self.cut, 3, lambda: self.take(self.nil()))

    def build_falling(self, slot, n):
        """n nodes in a chain of left edges, the latest (and highest) in front; the
        slot's right edge is cleared at the end."""
        for _ in range(n):
            self.take((slot, ""), 1)                    # the new node on the right
            self.link((slot, "R"), (slot, "L"), 0)      # its left edge: the chain
            self.shade()
            self.link((slot, ""), (slot, "R"), 0)       # the chain begins with it
            self.shade()
        self.cut((slot, ""), 1)
        self.pay()

    def places(self):
        """Every reachable node but NIL, with a shortest place of at most 12 turns,
        its parent's place and the side on which it hangs there."""
        found = {s + 2: ((s, ""), None, None) for s in range(self.r)}
        queue = list(found)
        for n in queue:
            slot, turns = found[n][0]
            for side in (0, 1):
                child = self.sim.e[side][n]
                if child and child not in found and len(turns) < 12:
                    found[child] = ((slot, turns + SIDES[side]), (slot, turns), side)
                    queue.append(child)
        return found

"""A small simulation of sound tables, by which the generator knows which places
exist and where the collector stands. A place is a slot and its turns."""

# LEFT and RIGHT read an edge, the last two shade the number read.
ROOTS, SCAN, LEFT, RIGHT, BLACK, APPEND, LEFT_READ, RIGHT_READ = PHASES = range(8)
TAKE, LINK, SHADE, COLLECT, LOOK = range(5)
SIDES = "LR"


def bad_colour(rng):
    return rng.choice((3, 4, 127, 128, 254, 255))


def bad_edge(rng, m):
    """Of a table of m nodes."""
    return rng.choice((1, m, m + 1, 4096, 4097, 32768, 65534, 65535))


def make(changes):
    """Each change: a list or dictionary, where in it, and the new value."""
    for holder, at, value in changes:
        holder[at] = value


class Sim:
    def __init__(self, m, r):
        self.m, self.r = m, r
        self.e = [[0] * m, [0] * m]
        self.col = bytearray(m)
        self.tag, self.i, self.k, self.read = ROOTS, 0, 0, 0
        self.owed, self.last = None, 1
        for n in range(r + 2, m):
            self.e[0][self.last] = n
            self.last = n
        self.steps = self.cycles = self.lastc = self.black = self.lastblack = 0
        self.free = m - r - 2

    def load(self, edges, last, free):
        """A sound export, loaded into a new table."""
        self.e, self.last, self.free = [side[:] for side in edges], last, free

    def bound(self):
        return self.m * self.m + 7 * self.m + self.r + 2

    def tint(self, n):
        self.col[n] = self.col[n] or 1

    def walk(self, place):
        """The node, or None if the place is none."""
        slot, turns = place
        if slot >= self.r or len(turns) > 12:
            return None
        n = slot + 2
        for turn in turns:
            n = self.e[turn == "R"][n]
        return n

    def take(self, place, side):
        """Answers whether it was done."""
        source, f = self.walk(place), self.e[0][1]
        if not source or not f or self.owed is not None:
            return False
        g = self.e[0][f]
        self.e[side][source] = f
        self.e[0][1] = g
        self.e[0][f] = 0
        self.free -= 1
        self.tint(f)
        if g:
            self.tint(g)
        else:
            self.last = 1
        return True

    def link(self, place, target, side):
        source, node = self.walk(place), self.walk(target)
        if source and node is not None and self.owed is None:
            self.e[side][source] = self.owed = node

    def shade(self):
        if self.owed is not None:
            self.tint(self.owed)
        self.owed = None

    def collect(self):
        tag, i, m = self.tag, self.i, self.m
        self.steps += 1
        if tag == ROOTS:
            self.tint(i)
            self.i += 1
            if self.i == self.r + 2:
                self.tag, self.i, self.k = SCAN, 0, m
        elif tag == SCAN:
            if self.col[i] == 1:
                self.tag = LEFT
            elif self.k == 1:
                self.tag, self.i, self.k, self.lastblack = APPEND, 0, 0, self.black
            else:
                self.i, self.k = (i + 1) % m, self.k - 1
        elif tag == LEFT or tag == RIGHT:
            self.read = self.e[tag - LEFT][i]
            self.tag = LEFT_READ if tag == LEFT else RIGHT_READ
        elif tag == LEFT_READ or tag == RIGHT_READ:
            self.tint(self.read)
            self.tag = RIGHT if tag == LEFT_READ else BLACK
        elif tag == BLACK:
            self.col[i] = 2
            self.black += 1
            self.tag, self.i, self.k = SCAN, (i + 1) % m, m
        else:
            if self.col[i] == 0:
                self.e[0][i] = self.e[1][i] = 0
                self.e[0][self.last] = i
                self.last = i
                self.free += 1
            self.col[i] = 0
            self.i += 1
            if self.i == m:
                self.lastc, self.cycles = self.steps, self.cycles + 1
                self.tag = self.i = self.steps = self.black = 0

    def collect_many(self, count, cycles=0):
        """So many steps, or fewer if so many cycles are then complete; answers how
        many. Nodes that are not gray are passed at once, and cycles that change nothing."""
        left, goal, before = count, self.cycles + cycles if cycles else -1, None
        while left and self.cycles != goal:
            n, end = 0, min(self.i + min(left, self.k - 1), self.m)
            if self.tag == SCAN and end > self.i and self.col[self.i] != 1:
                gray = self.col.find(1, self.i, end)
                n = (end if gray < 0 else gray) - self.i
                self.i, self.k, self.steps = (self.i + n) % self.m, self.k - n, self.steps + n
            elif self.tag == ROOTS and self.i == 0 and goal < 0:
                now = self.e[0][:], self.e[1][:], self.col[:]
                same = left // self.lastc if now == before else 0
                n, before, self.cycles = same * self.lastc, now, self.cycles + same
            if n == 0:
                self.collect()
            left -= n or 1
        return count - left

    def node_place(self, rng, stop=0.3, deepest=12):
        """A place that names a node other than NIL, by good edges, and that node."""
        slot = rng.randrange(self.r)
        n, turns = slot + 2, ""
        while len(turns) < deepest and rng.random() > stop:
            sides = [s for s in (0, 1) if 2 <= self.e[s][n] < self.m]
            if not sides:
                break
            s = rng.choice(sides)
            n, turns = self.e[s][n], turns + SIDES[s]
        return (slot, turns), n

    def nil_place(self, rng):
        """A place that names NIL, or any place if none was found."""
        for _ in range(20):
            (slot, turns), n = self.node_place(rng, deepest=11)
            sides = [s for s in (0, 1) if self.e[s][n] == 0]
            if sides:
                turns += SIDES[rng.choice(sides)]
                while len(turns) < 12 and rng.random() < 0.2:
                    turns += rng.choice(SIDES)
                return slot, turns
        return self.node_place(rng, 0)[0]

"""Exports that are cut, out of turn or not of the form. Each way is given a random
source, the first line and the export's lines, and answers the lines to be written
and whether steps follow. Few of them are sound by chance."""

from malformed import GOOD, export_variants, long_export_line


def later(rng, lines):
    """The place of a line; the first and the last one now and then."""
    return rng.choice((0, len(lines) - 1, rng.randrange(len(lines))))


def put(lines, at, *new):
    return lines[:at] + list(new) + lines[at + 1:]


def one_short(rng, first, lines):
    return [first] + lines[:-1], False


def swapped(rng, first, lines):
    a, b = rng.sample(range(len(lines)), 2)
    return [first] + put(put(lines, a, lines[b]), b, lines[a]), True


def changed(rng, first, lines):
    at = later(rng, lines)
    return [first] + put(lines, at, rng.choice(export_variants(lines[at]))), True


def one_left_out(rng, first, lines):
    """The lines behind it are out of turn, or the step that follows takes its place."""
    at = later(rng, lines)
    return [first] + lines[:at] + lines[at + 1:], True


def field(rng, lines, make):
    """One number of one line, made into another text."""
    at = later(rng, lines)
    pieces = lines[at].split(b" ")
    which = rng.randrange(3)
    key, value = pieces[which].split(b"=")
    return put(lines, at, b" ".join(put(pieces, which, key + b"=" + make(value))))


def leading_zero(rng, first, lines):
    return [first] + field(rng, lines, lambda value: b"0" * rng.choice((1, 1, 2)) + value), True


def renumbered(rng, first, lines):
    """N goes wrong at one line, or from it on."""
    at, by = later(rng, lines), rng.choice((1, 1, 2, 65536, len(lines)))
    wrong = [b"node=%d " % (n + by) + line.partition(b" ")[2] for n, line in enumerate(lines)]
    return [first] + rng.choice((put(lines, at, wrong[at]), lines[:at] + wrong[at:])), True


def falling(rng, first, lines):
    return [first] + lines[::-1], True


def cut(rng, first, lines):
    return [first] + lines[:rng.randint(1, len(lines) - 1)], rng.random() < 0.5


def doubled(rng, first, lines):
    at = later(rng, lines)
    return [first] + put(lines, at, lines[at], lines[at]), True


def eight_digits(rng, first, lines):
    digits = rng.choice((b"10000000", b"00000000", b"99999999", b"12345678"))
    return [first] + field(rng, lines, lambda value: digits), True


def carriage_returns(rng, first, lines):
    at, ended = later(rng, lines), [line + b"\r" for line in lines]
    return rng.choice(([first] + ended, [first + b"\r"] + ended, [first] + lines[:at] + ended[at:],
                       [first] + put(lines, at, ended[at]))), True


def long(rng, first, lines):
    at = later(rng, lines)
    return [first] + put(lines, at, long_export_line(rng, lines[at])), True


def too_many(rng, first, lines):
    """One more line, or the whole export again: 10 and skipped."""
    more = b"node=%d left=0 right=0" % len(lines)
    return [first] + lines + rng.choice(([more], lines, [lines[0]], [lines[-1]])), True


def too_late(rng, first, lines):
    """The export does not come directly after the first line: 10 and skipped."""
    return [first, rng.choice((b"", b"op=shade", b" " + lines[0], b"node", b"nodes=", first,
                               b"NODE=0 left=0 right=0", b"left=0 right=0"))] + lines, True


def cut_bytes(rng, first, lines):
    """The input ends in a line of the export, and be it behind its last digit."""
    text = b"\n".join(lines)
    at = rng.choice((len(text), len(text) - 1, len(text) - rng.randint(1, 9),
                     rng.randint(1, len(text))))
    return [first] + text[:at].split(b"\n"), False


def other_size(rng, first, lines):
    """The first line tells one node more or less than the export has."""
    m, slots = len(lines) + rng.choice((1, -1)), first.partition(b" ")[2]
    return [b"nodes=%d " % m + slots] + lines, True


def between(rng, first, lines):
    """Another line stands between two of the export."""
    at = rng.randint(1, len(lines))
    other = rng.choice((b"", b"", b" ", first, b"#", *GOOD, b"node="))
    return [first] + lines[:at] + [other] + lines[at:], True


def first_refused(rng, first, lines):
    return [rng.choice((b"nodes=2 slots=1", b"nodes=4097 slots=1", b"nodes=5 slots=0", b"",
                        first + b" ", first[1:]))] + lines, True


def bad_then_mangled(rng, first, lines):
    """A bad edge, and then a line that cannot be read: 10 all the same."""
    lines = put(lines, 0, b"node=0 left=%d right=1" % rng.choice((2, 1, len(lines), 9999999)))
    way = rng.choice((one_short, swapped, leading_zero, eight_digits, doubled))
    text, more = way(rng, first, [lines[0]] + lines[1:])
    return text, more


def sprinkled(rng, first, lines):
    """Some bytes of the export changed."""
    text = bytearray(b"\n".join(lines))
    for _ in range(rng.randint(1, 3)):
        at = rng.randrange(len(text))
        new = (b"", bytes([rng.randrange(256)]), bytes([rng.choice(b"0123456789 \n=")]))
        text[at:at + rng.choice((0, 1, 1))] = rng.choice(new)
    return [first] + bytes(text).split(b"\n"), True


WAYS = [one_short, swapped, changed, one_left_out, leading_zero, renumbered, too_many, too_late,
        cut, falling, carriage_returns, eight_digits, long, cut_bytes, bad_then_mangled, changed,
        doubled, other_size, between, sprinkled, first_refused, changed, changed, sprinkled]

"""Lines that are not of the form, and lines at the limits of it."""

import random

GOOD = (
    b"op=take slot=0 turns=- side=L",
    b"op=link slot=0 turns=L side=R toslot=0 toturns=R",
    b"op=shade",
    b"op=collect count=7",
    b"op=look slot=0 turns=LR",
)
FIRST = b"nodes=5 slots=1"

# What is put for a value, by the kind of the value.
OPS = b"|Shade|SHADE|shades|shad|s|fresh|nop|0|2|4|\xc5\xbfhade|take|link|shade|collect|look"
NUMBERS = (b"| |-|-0|-1|+0|+1|00|01|0000000|0000001|00000000|00000001|01000000|000000000000001"
           b"|1000000|1000001|1000010|2000000|9999999|10000000|12345678|99999999"
           b"|65536|4294967296|4294967297|18446744073709551616|18446744073709551617"
           b"|1e3|1_0|1,0|0x1|1.0|1.|a|1a|a1|1 1|/|:|1:|L|\xb2|\xef\xbc\x91")
TURNS = (b"|--|-L|L-|l|rl|Lr|LXR|0|1|L R|L,R|?|L\0|LRLRLRLRLRLRS|LLLLLLLLLLLLL-"
         b"|LLLLLLLLLLLL|RRRRRRRRRRRRR|" + b"L" * 38 + b"|" + b"R" * 37 + b"\0")
SIDES = b"|l|r|0|1|2|LR|RL|LL|-|M|left| L|B|L,"
KINDS = {b"op": OPS, b"turns": TURNS, b"toturns": TURNS, b"side": SIDES}

WHOLE = (b"| |  |\t|\r|\0|=|-|0|op|shade|kind=2|# op=shade|#|\xff|\xff\xfe\xfd|op:shade"
         b"|op=shade;op=shade|'op=shade'|op=shade\\n|op=shade\x0b|op=shade\x0c"
         b"|op=shade\x1a|op=shade\x7f"
         b"|op=shade\xc2\xa0|nodes=5 slots=1|nodes=3 slots=1|nodes=4096 slots=64|nodes=0 slots=0"
         b"|node=0 left=0 right=0|node=|node=1|node=5 left=0 right=0|node=0"
         b"|op=take 0 - L|op=collect 1|op=take slot=0 turns=- side=L toslot=0 toturns=-"
         b"|op=link slot=0 turns=- side=L slot=0 turns=-|op=take toslot=0 toturns=- side=L"
         b"|op=link slot=99 turns=- side=Q toslot=0 toturns=-|op=look slot=99 turns=?"
         b"|op=link slot=99 turns=LLLLLLLLLLLLL side=L toslot=0 toturns=Z").split(b"|")

# Sizes at the limits: the first that pass, the others not.
SIZES_0 = [(3, 1), (4, 1), (4, 2), (66, 64), (4096, 64), (4096, 1), (67, 64), (65, 63), (10, 8)]
SIZES_1 = [(2, 1), (0, 0), (0, 1), (1, 1), (3, 0), (5, 0), (3, 2), (3, 3), (4, 3), (4097, 1),
           (4096, 65), (65, 64), (66, 65), (10, 9), (9999999, 9999999), (5, 9999999), (65536, 1),
           (65541, 1), (65541, 65537), (5, 256), (5, 257), (5, 65537), (100, 65), (8192, 64)]


def variants(line):
    """What one change makes of a good line."""
    parts = line.split(b" ")
    for j, part in enumerate(parts):
        before, after = parts[:j], parts[j + 1:]
        key, value = part.split(b"=")
        pieces = [key + b"=" + bad for bad in KINDS.get(key, NUMBERS).split(b"|")]
        pieces += [key, b"=" + value, value + b"=" + key, key + value, key + b"==" + value,
                   key + b" =" + value, key.upper() + b"=" + value, key.title() + b"=" + value,
                   key[:-1] + b"=" + value, key + b"s=" + value, part + b"=", part + b" " + part]
        for piece in pieces:
            yield b" ".join(before + [piece] + after)
        yield b" ".join(before + after)
        if after:
            yield b" ".join(before + [after[0], part] + after[1:])
            for gap in (b"", b"  ", b"\t", b"\r", b"\0", b","):
                yield b" ".join(before + [part + gap + after[0]] + after[1:])
    for more in (b" ", b"\t", b"\r", b"\0", b"=", b"x", b" x", b"\xef\xbb\xbf", b" op=shade"):
        yield line + more
        yield more + line
    yield line.upper()


def mixed(lines):
    """Each once, in an order that is always the same."""
    return random.Random(1).sample(lines := sorted(set(lines)), len(lines))


MALFORMED = mixed(WHOLE + [bad for line in GOOD for bad in variants(line)])
BAD_FIRST = mixed([*variants(FIRST), b"", b"5 1", b"op=shade", b"\0" * 70000, FIRST + b" " * 65,
                   FIRST + b" " * 66, FIRST + b"x" * 5000, b"n" * 80, b"n" * 81,
                   b"nodes=" + b"0" * 74 + b"5 slots=1", b"nodes=5 slots=" + b"1" * 66])


LITTLE = [b"", b"\n", b"\r", b"\r\n", b"\n" + FIRST] + [FIRST + more for more in (
    b"\n\n\n\nop=shade", b"", b"\n", b"\n\n", b"\r\nop=shade\r\n", b"\nop=shade\r\n", b"\n\0")]


def of_length(rng, n):
    """A line of n bytes: of the form but for its length, or not at all."""
    front, back = rng.choice((
        (b"op=look slot=0 turns=", b""), (b"op=look slot=9999999 turns=", b""),
        (b"op=take slot=0 turns=", b" side=R"), (b"op=collect count=", b"1"), (b"op=shade", b""),
        (b"op=link slot=0 turns=L side=R toslot=0 toturns=", b""), (b"", b""), (b"\xff", b"\r")))
    fill = {b"op=shade": b" ", b"op=collect count=": b"0"}.get(front, rng.choice((b"L", b"R")))
    return front + fill * (n - len(front) - len(back)) + back


def long_line(rng):
    n = rng.choice((81, 81, 81, 82, 160, 255, 256, 257, 1000, 4095, 4096, 4097, 8192))
    return of_length(rng, n if rng.random() < 0.97 else 65536 + rng.randrange(3))


def export_variants(line):
    """What one change makes of a line of an export; not all of it is malformed."""
    return mixed(variants(line))


def long_export_line(rng, line):
    """A line of the export made longer than a line may be, or just as long."""
    front, _, back = line.partition(b" ")
    fill = rng.choice((b" ", b"0", b"\0", b"x"))
    n = rng.choice((79, 80, 81, 81, 82, 160, 256, 257, 4096, 70000)) - len(line)
    return rng.choice((front + fill * n + b" " + back[1:], line + fill * n))

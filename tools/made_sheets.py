"""For tools/pictures_test: sheets made from a seed, and the sample sheets in other poses.

Each is a sheet text, lengths in metres. Sizes and poses come from python's random numbers of the seed, so that the
same seed gives the same sheets; the sine and cosine of every coordinate are those of its value. Outlines come from the
functions of bench/sheets.py, which close them bit for bit.
"""
import math
import random
import re
import sys
from pathlib import Path

ROOT = Path(__file__).resolve().parent.parent
sys.path.insert(1, str(ROOT / 'bench'))
from sheets import SOLID, bits, chain, floats, nosed, rectangle, rounded, sheet, turn, wheel

SAMPLES = ('key', 'levers', 'pin', 'punching', 'worked')


def slide(parent, coordinate, x, y, axis):
    return f'J,P,{parent},{coordinate},' + floats(x, y, math.cos(axis), math.sin(axis))


def hinge(parent, coordinate, x, y):
    return f'J,R,{parent},{coordinate},' + floats(x, y)


def nose_over_block(of):
    """A bar with a round nose, hinged on a slide that stands askew, over a block with round corners."""
    r, long, at = of.uniform(0.003, 0.008), of.uniform(0.05, 0.12), of.uniform(-0.02, 0.02)
    bodies = [slide(0, 0, 0.0, 0.02, of.uniform(0.0, math.pi)), hinge(1, 1, at, 0.0)]
    parts = [(2, 'S', SOLID, nosed(-0.02, 0.0, long, r)),
             (0, 'L', SOLID, rounded(long - 0.06, -0.03, 0.05, of.uniform(0.02, 0.04), of.uniform(0.001, 0.008)))]
    pairs = [('F', [('A', 0, 0, 3), ('B', 1, 3, 6)]), ('F', [('A', 0, 0, 4), ('B', 1, 1, 8)])]
    return sheet(2, bodies, parts, pairs, 0.03, [turn(of.uniform(-0.01, 0.01)), turn(of.uniform(-0.3, 0.1))])


def two_levers(of):
    """A wheel of flats on a lever that hangs on another lever, and a block that its corners meet."""
    n, r = of.randint(5, 9), of.uniform(0.01, 0.02)
    bodies = [hinge(0, 0, 0.0, 0.0), hinge(1, 1, of.uniform(0.04, 0.08), of.uniform(-0.01, 0.01))]
    parts = [(2, 'S', SOLID, chain(wheel(of.uniform(0.02, 0.05), 0.0, r, n))),
             (1, 'S', SOLID, nosed(-0.01, 0.0, 0.02, 0.004)),
             (0, 'S', SOLID, rounded(0.03, -0.06, 0.09, of.uniform(0.035, 0.05), of.uniform(0.002, 0.01)))]
    pairs = [('F', [('A', 0, 0, n), ('B', 2, 3, 6)]), ('F', [('A', 1, 0, 4), ('B', 2, 2, 7)])]
    return sheet(2, bodies, parts, pairs, 0.02, [turn(of.uniform(-0.4, 0.3)), turn(of.uniform(-3.0, 3.0))])


def turned_profile(r, h, hole):
    """The profile of a washer with a hole, or of a disc where that is 0."""
    return chain([(hole, 0.0), (r, 0.0), (r, h), (hole, h)])


def on_punching(of):
    """A key that lifts and tips over a washer, which itself stands on a lever: its centre and its edges."""
    r, h, axis = of.uniform(0.006, 0.012), of.uniform(0.003, 0.006), of.uniform(-0.03, 0.03)
    bodies = [slide(0, 0, 0.0, 0.01, math.pi / 2), hinge(1, 1, of.uniform(-0.04, 0.04), 0.0), hinge(0, 2, axis, 0.0)]
    hole = of.choice([0.0, 0.002])
    parts = [(2, 'S', SOLID, rectangle(-0.1, 0.0, 0.2, 0.02)),
             (3, 'L', 'R,' + bits(of.uniform(-0.01, 0.01)), turned_profile(r, h, hole)),
             (3, 'L', SOLID, rounded(0.02, 0.0, 0.03, h, 0.001))]
    pairs = [('C', [('A', 0, 0, 1), ('B', 1, 2, 4)]), ('F', [('A', 0, 0, 1), ('B', 1, 1, 5)]),
             ('C', [('A', 0, 0, 1), ('B', 2, 3, 6)])]
    entries = [turn(of.uniform(-0.006, 0.004)), turn(of.uniform(-0.08, 0.08)), turn(of.uniform(-0.1, 0.1))]
    return sheet(3, bodies, parts, pairs, 0.02, entries)


def pin_in_mortise(of):
    """A pin with a round tip in a mortise of a key, which tips about it."""
    wide, deep, r = of.uniform(0.008, 0.014), of.uniform(0.012, 0.018), of.uniform(0.0015, 0.003)
    a, b = 0.08 - wide / 2, 0.08 + wide / 2
    stick = chain([(-0.1, 0.0), (a, 0.0), (b, 0.0), (0.12, 0.0), (0.12, 0.024), (-0.1, 0.024)])
    pin = ['A,' + floats(0.08, 0.012, r, 1.0, 0.0, -1.0, 0.0), *chain([(0.08 - r, 0.012), (0.08 - r, -0.02),
                                                                      (0.08 + r, -0.02), (0.08 + r, 0.012)])[:3]]
    bodies = [hinge(0, 0, 0.0, of.uniform(-0.002, 0.004))]
    parts = [(1, 'S', SOLID, stick), (1, 'C', SOLID, chain([(a, 0.0), (b, 0.0), (b, deep), (a, deep)])),
             (0, 'S', SOLID, pin)]
    pairs = [('F', [('A', 0, 0, 1), ('A', 1, 1, 4), ('A', 0, 2, 3), ('B', 2, 0, 4)]),
             ('F', [('A', 1, 2, 3), ('B', 2, 0, 1)])]
    return sheet(1, bodies, parts, pairs, 0.02, [turn(of.uniform(-0.06, 0.04))])


def moved_sample(of):
    """A sample sheet in a pose near its own."""
    text = (ROOT / 'sheets' / f'{of.choice(SAMPLES)}.sheet').read_text()
    def other(found):
        return 'T,' + floats(*turn(value_of(found.group(1)) + of.uniform(-0.004, 0.004)))
    return re.sub('^T,([0-9a-f]{16}),.*$', other, text, flags=re.M).encode()


def value_of(field):
    """The double of sixteen digits."""
    return float(memoryview(bytes.fromhex(field)[::-1]).cast('d')[0])


FORMS = (nose_over_block, two_levers, on_punching, pin_in_mortise, moved_sample)


def made(count, seed):
    """So many sheets by their names, the forms in turn."""
    for i in range(count):
        form = FORMS[i % len(FORMS)]
        yield f'{form.__name__} {i}', form(random.Random(f'{seed} {i}'))

"""The sheets of bench/run, made from numbers: lengths in metres, every outline closed bit for bit."""
import math
import struct


def bits(x):
    return struct.pack('>d', x).hex()


def floats(*xs):
    return ','.join(bits(x) for x in xs)


def line(a, b):
    return 'L,' + floats(*a, *b)


def chain(points):
    """The closed outline through the points, of lines."""
    return [line(a, b) for a, b in zip(points, points[1:] + points[:1])]


def rectangle(x, y, w, h):
    return chain([(x, y), (x + w, y), (x + w, y + h), (x, y + h)])


def rounded(x, y, w, h, r):
    """A rectangle whose four corners are quarter arcs."""
    corners = [((x + w - r, y + r), (0.0, -1.0), (1.0, 0.0)), ((x + w - r, y + h - r), (1.0, 0.0), (0.0, 1.0)),
               ((x + r, y + h - r), (0.0, 1.0), (-1.0, 0.0)), ((x + r, y + r), (-1.0, 0.0), (0.0, -1.0))]

    def at(c, d):
        return (c[0] + r * d[0], c[1] + r * d[1])

    segs = []
    for k, (c, start, end) in enumerate(corners):
        before = corners[k - 1]
        segs.append(line(at(before[0], before[2]), at(c, start)))
        segs.append('A,' + floats(*c, r, *start, *end))
    return segs


def wheel(x, y, r, n):
    """n points on a circle, counter-clockwise, the first at the bottom."""
    return [(x + r * math.sin(2 * math.pi * k / n), y - r * math.cos(2 * math.pi * k / n)) for k in range(n)]


def disc_profile(n, r, h):
    """The outline of a turned part of n segments: from its axis at 0 along the bottom, up a scalloped rim with arcs, back along the top; the last segment lies on the axis."""
    segs = [line((0.0, 0.0), (r, 0.0))]
    count = n - 3
    step = h / count
    for k in range(count):
        low, high = (r, k * step), (r, (k + 1) * step if k + 1 < count else h)
        if k % 2 == 0 and k + 1 < count:
            c, radius = (r, low[1] + step / 2), step / 2
            start, end = (0.0, -1.0), (0.0, 1.0)
            a = (c[0] + radius * start[0], c[1] + radius * start[1])
            b = (c[0] + radius * end[0], c[1] + radius * end[1])
            fixed = (a, b)
            segs.append(('arc', c, radius, start, end, fixed))
        else:
            segs.append(('line', low, high))
    out, at = [segs[0]], (r, 0.0)
    for s in segs[1:]:
        if s[0] == 'arc':
            _, c, radius, start, end, (a, b) = s
            if a != at:
                out[-1] = out[-1] if out[-1].startswith('A') else line(unline(out[-1]), a)
            out.append('A,' + floats(*c, radius, *start, *end))
            at = b
        else:
            out.append(line(at, s[2]))
            at = s[2]
    out.append(line(at, (0.0, h)))
    out.append(line((0.0, h), (0.0, 0.0)))
    return out


def unline(text):
    fields = text.split(',')
    return tuple(struct.unpack('>d', bytes.fromhex(f))[0] for f in fields[1:3])


def sheet(coords, bodies, parts, pairs, margin, entries):
    """parts: (body, role, sweep text, outline); pairs: (geometry, [(side, part, first, past)])."""
    out = [f'M,{coords}', *bodies]
    for body, role, sweep, outline in parts:
        out.append(f'P,{body},{role},{sweep}')
        out += outline
    for geometry, sides in pairs:
        out.append(f'K,{geometry}')
        out += [f'S,{side},{part},{first},{past}' for side, part, first, past in sides]
    out.append('G,' + bits(margin))
    out += ['T,' + floats(*e) for e in entries]
    return ('\n'.join(out) + '\n').encode()


SOLID = 'E,' + floats(0.02, 0.0)


def turn(angle):
    return (angle, math.sin(angle), math.cos(angle))


def key():
    """A key on its balance pin, over back rail cloth and front punching, a front pin in its mortise."""
    stick = chain([(-0.25, 0.0), (0.10, 0.0), (0.13, 0.0), (0.20, 0.0), (0.20, 0.02), (-0.25, 0.025)])
    mortise = rectangle(0.149, -0.001, 0.007, 0.018)
    pin = chain([(0.150, -0.03), (0.155, -0.03), (0.155, 0.010), (0.154, 0.013), (0.151, 0.013), (0.150, 0.010)])
    cloth = rounded(-0.235, -0.008, 0.04, 0.0078, 0.001)
    bodies = ['J,R,0,0,' + floats(0.0, -0.002)]
    parts = [(1, 'S', SOLID, stick), (1, 'C', SOLID, mortise), (0, 'S', SOLID, pin), (0, 'L', SOLID, cloth),
             (0, 'S', 'R,' + bits(0.115), disc_profile(8, 0.011, 0.004)), (0, 'S', SOLID, rectangle(-0.02, -0.03, 0.04, 0.028))]
    pairs = [('F', [('A', 0, 0, 1), ('B', 3, 3, 6)]), ('F', [('A', 1, 0, 4), ('B', 2, 1, 5)]),
             ('C', [('A', 0, 0, 3), ('B', 4, 0, 1)]), ('F', [('A', 0, 0, 2), ('B', 5, 1, 4)])]
    return sheet(1, bodies, parts, pairs, 0.01, [turn(0.004)])


def levers(pairs):
    """As many levers as pairs, at most fifteen of them hinged bodies, over blocks with rounded corners."""
    bodies, parts, named, entries = [], [], [], []
    for k in range(pairs):
        body = k % 15 + 1
        if body > len(bodies):
            bodies.append(f'J,R,0,{len(bodies)},' + floats(0.0, 0.1 * k))
            entries.append(turn(0.001 * (k + 1)))
        y = 0.1 * k if k < 15 else 0.0
        parts.append((body, 'S', SOLID, chain([(0.0, y - 0.01), (0.2, y - 0.01), (0.21, y), (0.2, y + 0.01), (0.0, y + 0.01)])))
        parts.append((0, 'S', SOLID, rounded(0.12, y - 0.0305, 0.06, 0.0204, 0.004)))
        named.append(('F', [('A', 2 * k, 0, 1), ('B', 2 * k + 1, 3, 6)]))
    return sheet(len(bodies), bodies, parts, named, 0.01, entries)


def outlines(n):
    """A turned part and a block, n segments each, over one another; twelve segments a side, or as many as there are."""
    few = min(n, 12)
    bodies = ['J,P,0,0,' + floats(0.0, 0.0, 0.0, 1.0)]
    parts = [(0, 'S', SOLID, chain(wheel(0.0, 0.0, 0.03, n))), (1, 'S', 'R,' + bits(0.0), disc_profile(n, 0.012, 0.03))]
    first = n // 2 - few // 2
    pairs = [('F', [('A', 1, 0, few), ('B', 0, first, first + few)])]
    return sheet(1, bodies, parts, pairs, 0.05, [(0.0285, 0.0, 1.0)])


def nosed(x, y, length, r):
    """A bar along x whose right end is a half circle of radius r: its underside, its nose, its top, its left end. (x, y) is the middle of the left end, the nose's centre a length from it."""
    low, high = (x + length, y - r), (x + length, y + r)
    return [line((x, y - r), low), 'A,' + floats(x + length, y, r, 0.0, -1.0, 0.0, 1.0), line(high, (x, y + r)), line((x, y + r), (x, y - r))]


def chained():
    """Five bars, each hinged on the one below it and the lowest on a slide, between a bed and a stop: pairs with a gap, and one that is a tenth of a millimetre deep."""
    bodies = ['J,P,0,0,' + floats(0.0, 0.0, 1.0, 0.0)] + [f'J,R,{k},{k},' + floats(0.02, 0.0125) for k in range(1, 5)]
    parts = [(k, 'S', SOLID, nosed(-0.01, 0.0, 0.09 + 0.002 * k, 0.005)) for k in range(1, 6)]
    parts += [(0, 'S', SOLID, nosed(-0.02, -0.0102, 0.10, 0.005)), (0, 'S', SOLID, nosed(0.10, 0.056, 0.06, 0.004))]
    facing = [(1, 0), (2, 1), (3, 2), (4, 3), (0, 5), (4, 6)]
    pairs = [('F', [('A', a, 0, 4), ('B', b, 0, 4)]) for a, b in facing]
    return sheet(5, bodies, parts, pairs, 0.01, [turn(q) for q in (0.003, -0.02, -0.0405, 0.004, 0.006)])


def small_pairs():
    """Sixteen pairs, the most there are, each of a bar on a hinge and a block below its nose. The fifteen hinges stand in a row; the last bar is on the first of them, above the others."""
    bodies = [f'J,R,0,{k},' + floats(0.05 * k, 0.0) for k in range(15)]
    parts, pairs = [], []
    for k in range(16):
        hinge, height = k % 15, 0.02 * (k // 15)
        parts.append((hinge + 1, 'S', SOLID, nosed(0.0, height, 0.03, 0.002)))
        parts.append((0, 'S', SOLID, rectangle(0.05 * hinge + 0.02, height - 0.0062, 0.02, 0.004)))
        pairs.append(('F', [('A', 2 * k, 0, 2), ('B', 2 * k + 1, 1, 3)]))
    return sheet(15, bodies, parts, pairs, 0.01, [turn(0.002 * k - 0.012) for k in range(15)])


def sunk():
    """Two wheels sunk deep into one another, with a hole in each, eight segments a side: most corners read deep."""
    bodies = ['J,R,0,0,' + floats(0.0, 0.0)]
    parts = [(0, 'S', SOLID, chain(wheel(0.0, 0.0, 0.05, 24))), (0, 'C', SOLID, chain(wheel(0.0, 0.0, 0.01, 8))),
             (1, 'S', SOLID, chain(wheel(0.03, 0.012, 0.05, 24))), (1, 'C', SOLID, chain(wheel(0.03, 0.012, 0.01, 8)))]
    pairs = [('F', [('A', 2, 14, 22), ('B', 0, 2, 10)])]
    return sheet(1, bodies, parts, pairs, math.inf, [turn(0.3)])

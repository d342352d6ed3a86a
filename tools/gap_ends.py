"""For tools/pictures_test: the ends of the gaps in a picture of tools/draw, held to the pieces that it draws.

What is measured is taken from the numbers of the picture: the stroke of each gap, the outlines of the parts and the
axes of revolved ones. The listing says which pieces a row is between, the panel's view which stroke is which row's,
and the placed sheet which stretch of an outline is which segment.

How far an end may stand off. A number of the picture has two decimals and so is off by at most STEP, half of the last
one; a point by at most POINT, STEP in both ways. The end of a gap and a corner are such points, and so are the ends of
a line: each place on the line is off by no more than the farther of them. A centre is a corner, or the middle of two
points. So end and piece are at most two POINT apart, 0.0142 of the picture's units. An arc is drawn through three such
points with a radius off by STEP: arc_slack has what that makes, and with the end's own POINT it is below 0.0435 for
arcs of at most a half turn. In the sheet's lengths it is that by the view's scale.
"""
import math
import re
from collections import Counter, namedtuple

STEP = 0.005
POINT = STEP * math.sqrt(2)
DUST = 1e-6                        # what the arithmetic here and in tools/draw may add

NUMBER = '(-?[0-9.]+)'
STROKE = re.compile(r'<path d="([^"]*)" stroke="#[0-9a-f]{6}" stroke-width="1\.1" fill="none"/>')
OUTLINE = re.compile('<path d="([^"]*)" fill="[^"]*" fill-opacity="0.85"')
AXIS = re.compile('<path d="([^"]*)" [^>]*stroke-dasharray="9 2 2 2"/>')
ASIDE = re.compile('<(mask|clipPath) .*?</\\1>', re.S)
STEPS = re.compile(f'([MLA])(?:{NUMBER} {NUMBER} 0 0 0 )?{NUMBER} {NUMBER}')

Stroke = namedtuple('Stroke', 'middle on_a on_b')
Bow = namedtuple('Bow', 'a b r')
Panel = namedtuple('Panel', 'view strokes outlines axes')
Found = namedtuple('Found', 'rows letters said')


# ---- A picture and its panels ----

def recorded(draw, make):
    """A picture, and each panel of it with its view."""
    kept, panel = [], draw.panel
    def keep(view, content, *more):
        kept.append((view, content))
        return panel(view, content, *more)
    draw.panel = keep
    try:
        return make(), kept
    finally:
        draw.panel = panel


def points(text):
    """The points of a path, y up."""
    return [(float(x), -float(y)) for _, _, _, x, y in STEPS.findall(text)]


def stretches(draw, segs, text):
    """The drawn stretch of each segment of an outline: a line as its two ends, an arc as its two halves."""
    steps, out, end, at = iter(STEPS.findall(text)), [], None, None
    def step():
        _, r, _, x, y = next(steps)
        return (float(x), -float(y)), float(r or 0)
    for seg in segs:
        if end != draw.start_of(seg):
            at, _ = step()
        bows = []
        for _ in range(1 if isinstance(seg, draw.Line) else 2 if draw.sweep_of(seg) else 0):
            to, r = step()
            bows.append(Bow(at, to, r))
            at = to
        out.append(bows or [Bow(at, at, 0.0)])
        end = draw.end_of(seg)
    return out


def paired(parts, texts):
    """What is drawn of each part, in the order of drawing."""
    if len(parts) != len(texts):
        raise ValueError(f'{len(texts)} outlines or axes are drawn, not {len(parts)}')
    return dict(zip(parts, texts))


def read_panel(draw, scene, view, content):
    """The strokes, outlines and axes of a panel, from its text."""
    strokes = []
    for text in STROKE.findall(content):
        middle, on_a, _, _, _, on_b, _, _ = points(text)
        strokes.append(Stroke(middle, on_a, on_b))
    plain = ASIDE.sub('', content)
    order = sorted(scene.drawn, key=lambda i: draw.painted(scene, i))
    found = paired(order, OUTLINE.findall(plain))
    turned = [i for i in scene.drawn if scene.sheet.parts[i].sweep == 'R']
    axes = paired(turned, [points(text) for text in AXIS.findall(plain)])
    return Panel(view, strokes, {i: stretches(draw, scene.segments[i], found[i]) for i in order}, axes)


# ---- How far a point stands from a piece, and how far it may ----

def apart(p, q):
    return math.hypot(p[0] - q[0], p[1] - q[1])


def cross(u, v):
    return u[0] * v[1] - u[1] * v[0]


def less(p, q):
    return p[0] - q[0], p[1] - q[1]


def to_line(p, a, b):
    """How far a point stands from a line between two ends."""
    long, (u, v) = apart(a, b), less(b, a)
    if long == 0:
        return apart(p, a)
    along = min(max(((p[0] - a[0]) * u + (p[1] - a[1]) * v) / long ** 2, 0.0), 1.0)
    return apart(p, (a[0] + along * u, a[1] + along * v))


def rise(bow):
    """Half the chord of a drawn arc, and how far its centre stands from the chord."""
    half = apart(bow.a, bow.b) / 2
    return half, math.sqrt(max(bow.r ** 2 - half ** 2, 0.0))


def to_bow(p, bow):
    """How far a point stands from an arc of at most a half turn, drawn from a to b counter-clockwise."""
    half, up = rise(bow)
    if bow.r == 0 or half == 0:
        return to_line(p, bow.a, bow.b)
    (u, v), middle = less(bow.b, bow.a), ((bow.a[0] + bow.b[0]) / 2, (bow.a[1] + bow.b[1]) / 2)
    centre = middle[0] - v / (2 * half) * up, middle[1] + u / (2 * half) * up
    way = less(p, centre)
    if cross(less(bow.a, centre), way) >= 0 and cross(way, less(bow.b, centre)) >= 0:
        return abs(math.hypot(*way) - max(bow.r, half))
    return min(apart(p, bow.a), apart(p, bow.b))


def arc_slack(bow):
    """How far the points of a drawn arc may be off. Its ends move the middle of the chord by POINT, turn the chord,
    which moves the arc by at most POINT times sine plus cosine of half its angle, and change half the chord by POINT,
    which moves the centre by POINT times the tangent of that half angle; STEP in the radius moves the arc by STEP, and
    the centre by STEP over the cosine."""
    half, up = rise(bow)
    up = max(up, bow.r / 20, STEP)
    return POINT * (1 + math.sqrt(2) + half / up) + STEP * (1 + bow.r / up)


def to_stretch(p, bows):
    """How far a point stands from a drawn segment, less what it may."""
    def over(bow):
        return to_bow(p, bow) - POINT - (arc_slack(bow) if bow.r else POINT)
    return min(map(over, bows))


def centre_of(scene, panel, pair):
    """The centre of a pair's side B as it is drawn: the first corner of its first range on the axis, or the middle."""
    ranges = [r for r in scene.sheet.pairs[pair].ranges if r.side == 'B']
    first, last = ranges[0], ranges[-1]
    drawn = panel.outlines[first.part]
    if first.part in panel.axes:
        a, b = panel.axes[first.part]
        for i in range(first.first + 1, first.past):
            if to_line(drawn[i][0].a, a, b) <= 2 * POINT + DUST:
                return drawn[i][0].a
    start, end = drawn[first.first][0].a, panel.outlines[last.part][last.past - 1][-1].b
    return (start[0] + end[0]) / 2, (start[1] + end[1]) / 2


def off_piece(draw, scene, panel, row, piece, end):
    """How much farther than it may the end of a gap stands from the drawn piece; none above zero where it is on it."""
    letter, part, seg = piece
    if letter == 'C':
        return apart(end, centre_of(scene, panel, row.pair)) - 2 * POINT
    drawn = panel.outlines[int(part)][int(seg)]
    if letter == 'V':
        return apart(end, drawn[0].a) - 2 * POINT
    is_line = isinstance(scene.segments[int(part)][int(seg)], draw.Line)
    return to_stretch(end, drawn) if is_line == (letter == 'S') else math.inf


# ---- All rows of a picture ----

def expected(draw, listing, view):
    """The rows that have a stroke in a panel."""
    pair = None if view.name == 'main' else int(view.name.removeprefix('pair'))
    for row in listing.rows:
        if pair not in (None, row.pair) or not draw.can_draw(row):
            continue
        size = abs(row.gap) * view.scale
        seen = size >= 14 if pair is None else draw.holds(view.box, draw.pixel(view, row.point))
        if seen and size / 2 <= 4000:
            yield row


def row_fault(draw, scene, panel, row):
    """How far the ends of a row's stroke are off, the best of the strokes at its point; None where there is none."""
    at = draw.spot(panel.view, row.point)
    middle = points(f'M{at}')[0]
    return min((max(off_piece(draw, scene, panel, row, row.a, stroke.on_a),
                    off_piece(draw, scene, panel, row, row.b, stroke.on_b))
                for stroke in panel.strokes if stroke.middle == middle), default=None)


def look(draw, scene, listing, picture, panels):
    """Of a picture: how many rows have their gap in it, how often each letter of a piece is among them, and in words
    what is wrong."""
    seen, said = {}, []
    for view, content in panels:
        if content.replace('><', '>\n<') not in picture:
            said.append(f'{view.name}: not in the picture')
        panel, rows = read_panel(draw, scene, view, content), list(expected(draw, listing, view))
        if len(rows) != len(panel.strokes):
            said.append(f'{view.name}: {len(panel.strokes)} gaps are drawn, not {len(rows)}')
        for row in rows:
            off = row_fault(draw, scene, panel, row)
            if off is None or not off <= DUST:
                said.append(f'{view.name}: {row.a} and {row.b}, gap {row.gap}: off by {off}')
            seen[id(row)] = row
    return Found(len(seen), Counter(piece[0] for row in seen.values() for piece in (row.a, row.b)), said)

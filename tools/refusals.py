"""The refusals in words, for tools/explain and tools/draw; tools/pictures_test holds the table of docs/FORMAT.md to them."""
from collections import namedtuple

Refusal = namedtuple('Refusal', 'refused place')

# By number: what is refused, and what the place of an X line names; '' where it names nothing and is 0.
REFUSALS = {
    1: Refusal('a text of more than 65,536 bytes', ''),
    2: Refusal('a line that is malformed or out of order', 'line'),
    3: Refusal('a count past its limit (docs/FORMAT.md has them)', ''),
    4: Refusal('a body whose parent is not below it, or whose coordinate is not there', 'body'),
    5: Refusal('a slide axis or arc direction without length or of no finite one, '
               'a revolved axis that is no number', ''),
    6: Refusal('a part on no body', 'part'),
    7: Refusal('an outline that is not closed bit for bit, or not finite', 'part'),
    8: Refusal('a side without range, or with one that names no part, is empty or passes the silhouette', 'pair'),
    9: Refusal('a side on two bodies', 'pair'),
    10: Refusal('both sides on one body', 'pair'),
    11: Refusal('a pose that has not one entry a coordinate', ''),
    12: Refusal('something that a call names and that is not there; a text cannot meet it', ''),
    13: Refusal('more rows than are lent: readings lends 256', ''),
}


def in_words(number, place, names):
    """A refusal in words: its number, the place where it names one, with the name that it has, and what is refused."""
    if number not in REFUSALS:
        return f'refusal {number}, place {place}: not one of the list'
    found = REFUSALS[number]
    given = {'body': names.bodies, 'part': names.parts, 'pair': names.pairs}.get(found.place, [])
    name = f' ({given[place]})' if place < len(given) and given[place] else ''
    where = f', {found.place} {place}{name}' if found.place else ''
    return f'refusal {number}{where}: {found.refused}'

"""picture: draws the front of a list, as an SVG file.

usage: tools/picture LIST [IN] OUT.svg

LIST is the list, IN its instance, whose comments name the objectives (tools/plan says how) and whose statements say which
are maximised; without it all are taken as minimised. One cost is a line, two are a staircase, three are drawn in pairs, four and more
as parallel axes. The same list gives the same bytes, and all is black on white. OUT is written whole or not at all.
Ends with 64 where the words are wrong, 65 where a file isn't what it should be, 74 where one can't be read or written.
"""
from typing import List, Sequence, Tuple
from xml.sax.saxutils import escape, quoteattr

from .commands import run_command, usage
from .dominance import senses_of
from .files import printable, write_text
from .instances import Costs, Names, name_of_objective, read_named
from .lists import fits, read_list, title_of

SIDE, LEFT, TOP, GAP = 320, 80, 56, 100
# The most entries that are shown with their numbers.
LABELLED = 40

# An entry's number and its costs.
Numbered = Tuple[int, Costs]
Place = Tuple[float, float]


class Axis:
    """A cost along a line of the picture: from the least value to the greatest, both on it.

    >>> Axis('pay', [3, 5], 0.0, 100.0).at(4)
    50.0
    """

    def __init__(self, name: str, values: Sequence[int], first: float, last: float) -> None:
        self.name, self.first, self.last = name, first, last
        self.least, self.greatest = min(values), max(values)
        self.ticks = sorted({self.least, self.greatest} | {
            self.least + (self.greatest - self.least) * part // 4 for part in (1, 2, 3)})

    def at(self, value: int) -> float:
        """The place of a value."""
        if self.least == self.greatest:
            return (self.first + self.last) / 2
        return self.first + (self.last - self.first) * (value - self.least) / (self.greatest - self.least)


def _line(x1: float, y1: float, x2: float, y2: float, style: str = '') -> str:
    return '<line x1="%.1f" y1="%.1f" x2="%.1f" y2="%.1f" stroke="black"%s/>' % (x1, y1, x2, y2, style)


def _text(x: float, y: float, words: str, style: str = 'text-anchor="middle"') -> str:
    return '<text x="%.1f" y="%.1f" %s>%s</text>' % (x, y, style, escape(printable(words)))


def _point(x: float, y: float, number: int, costs: Costs) -> str:
    shown = ' '.join(str(cost) for cost in costs)
    return '<circle cx="%.1f" cy="%.1f" r="4" data-entry="%d" data-costs=%s><title>%d: %s</title></circle>' % (
        x, y, number, quoteattr(shown), number, shown)


def _labelled(x: float, y: float, entry: Numbered, count: int) -> List[str]:
    """A point, and beside it the number of its entry, where there is room."""
    number, costs = entry
    label = [_text(x + 7, y - 6, str(number), 'font-size="11"')] if count <= LABELLED else []
    return [_point(x, y, number, costs)] + label


def _across(axis: Axis, y: float) -> List[str]:
    """An axis from left to right, with its name under it."""
    parts = [_line(axis.first, y, axis.last, y), _text((axis.first + axis.last) / 2, y + 44, axis.name)]
    for value in axis.ticks:
        parts += [_line(axis.at(value), y, axis.at(value), y + 5), _text(axis.at(value), y + 20, str(value))]
    return parts


def _upwards(axis: Axis, x: float, name_at: float) -> List[str]:
    """An axis from below upwards, with its name over it."""
    parts = [_line(x, axis.first, x, axis.last), _text(name_at, axis.last - 18, axis.name)]
    for value in axis.ticks:
        parts += [_line(x - 5, axis.at(value), x, axis.at(value)),
                  _text(x - 9, axis.at(value) + 4, str(value), 'text-anchor="end"')]
    return parts


def _panel(entries: Sequence[Numbered], names: Sequence[str], senses: Sequence[str], one: int, two: int, left: float) -> List[str]:
    """Two of the costs against each other; where there are no others the staircase, behind which nothing is better."""
    values = [[costs[k] for _, costs in entries] for k in (one, two)]
    x = Axis(names[one], values[0], left + 16, left + SIDE - 16)
    y = Axis(names[two], values[1], TOP + SIDE - 16, TOP + 16)
    parts = _across(x, TOP + SIDE) + _upwards(y, left, left + SIDE / 2)
    if len(names) == 2:
        for before, after in zip(entries, entries[1:]):
            ends = [(x.at(costs[one]), y.at(costs[two])) for _, costs in (before, after)]
            # What a point is as good as begins at it and goes to the right, or, of a maximised cost, to the left.
            bend = (ends[1][0], ends[0][1]) if senses[one] == 'min' else (ends[0][0], ends[1][1])
            parts += [_line(*a, *b, ' stroke-dasharray="3 3"') for a, b in ((ends[0], bend), (bend, ends[1]))]
    for entry in entries:
        parts += _labelled(x.at(entry[1][one]), y.at(entry[1][two]), entry, len(entries))
    return parts


def _parallel(entries: Sequence[Numbered], names: Sequence[str]) -> List[str]:
    """An axis for each cost, and a line through them for each entry."""
    axes = [Axis(name, [costs[k] for _, costs in entries], TOP + SIDE - 16, TOP + 16) for k, name in enumerate(names)]
    places = [LEFT + k * (SIDE - 120) for k in range(len(names))]
    parts = []  # type: List[str]
    for k, (axis, x) in enumerate(zip(axes, places)):
        parts += _upwards(axis, x, x)
        if k % 2:
            parts[-2 * len(axis.ticks) - 1] = _text(x, axis.last - 34, axis.name)
    for number, costs in entries:
        ends = [(x, axis.at(cost)) for axis, x, cost in zip(axes, places, costs)]  # type: List[Place]
        parts += [_line(*a, *b, ' stroke-opacity="0.5"') for a, b in zip(ends, ends[1:])]
        parts += [_point(x, y, number, costs) for x, y in ends]
    return parts


def _drawing(entries: Sequence[Numbered], names: Sequence[str], senses: Sequence[str]) -> Tuple[List[str], float]:
    """What is drawn, and how wide it is."""
    if not entries:
        return [_text(LEFT + SIDE / 2, TOP + SIDE / 2, 'no plan')], 1
    if not names:
        return [_text(LEFT + SIDE / 2, TOP + SIDE / 2, 'a plan without costs')], 1
    if len(names) == 1:
        axis = Axis(names[0], [costs[0] for _, costs in entries], LEFT, LEFT + SIDE)
        points = [part for entry in entries for part in _labelled(axis.at(entry[1][0]), TOP + SIDE / 2, entry, len(entries))]
        return _across(axis, TOP + SIDE / 2) + points, 1
    if len(names) > 3:
        return _parallel(entries, names), (len(names) * (SIDE - 120)) / (SIDE + GAP) + 0.3
    pairs = [(0, 1)] if len(names) == 2 else [(0, 1), (0, 2), (1, 2)]
    parts = [part for k, (one, two) in enumerate(pairs) for part in _panel(entries, names, senses, one, two, LEFT + k * (SIDE + GAP))]
    return parts, len(pairs)


def svg_of(title: str, entries: Sequence[Numbered], names: Sequence[str], senses: Sequence[str]) -> str:
    """The picture of some entries of a list, in its order.

    >>> svg_of('1 best compromise', [(1, (3,))], ['pay'], ['min']).count('<circle')
    1
    """
    parts, panels = _drawing(entries, names, senses)
    size = (LEFT + panels * (SIDE + GAP), TOP + SIDE + 70)
    head = ('<svg xmlns="http://www.w3.org/2000/svg" width="%d" height="%d" viewBox="0 0 %d %d" '
            'font-family="sans-serif" font-size="13">' % (size * 2))
    frame = ['<rect width="100%" height="100%" fill="white"/>', _text(8, 18, title, 'font-weight="bold"')]
    return '\n'.join([head] + frame + parts + ['</svg>']) + '\n'


def axis_names(objectives: Sequence[str], senses: Sequence[str]) -> List[str]:
    """The objectives' names, which say where larger is better.

    >>> axis_names(['pay', 'joy'], ['min', 'max'])
    ['pay', 'joy (larger is better)']
    """
    return [name + (' (larger is better)' if sense == 'max' else '') for name, sense in zip(objectives, senses)]


def _body(arguments: List[str]) -> int:
    if len(arguments) not in (2, 3) or not arguments[-1].endswith('.svg'):
        return usage(str(__doc__))
    listing, names, instance = read_list(arguments[0]), Names({}, {}), None
    if len(arguments) == 3:
        instance, names = read_named(arguments[1])
        fits(arguments[0], listing, instance)
    count = len(listing.entries[0].costs) if listing.entries else 0
    senses = senses_of(instance, count)
    objectives = axis_names([name_of_objective(names, k) for k in range(1, count + 1)], senses)
    entries = [(number, entry.costs) for number, entry in enumerate(listing.entries, 1)]
    write_text(arguments[-1], svg_of(title_of(listing.complete, len(entries)), entries, objectives, senses))
    return 0


def main(arguments: List[str]) -> int:
    """Runs the command."""
    return run_command(str(__doc__), _body, arguments)

"""Options whose names are pairs, as ("Ann", "Mon") or `Ann Mon`, by rows and columns."""
from collections import Counter
from typing import Dict, List, NamedTuple, Optional, Sequence, Tuple

from ..files import printable
from ..names import Name

# A grid of more cells isn't read any more: a list is.
MOST_CELLS = 20000

# The parts of a name, where it has several.
Parts = Tuple[str, ...]


class Grid(NamedTuple):
    """The heads of rows and columns, and of each option its row, its column, from 0, and what else its name says; None where it isn't in the
    grid.

    >>> Grid(['Ann'], ['Mon'], [(0, 0, 'early'), None]).places[0]
    (0, 0, 'early')
    """

    rows: List[str]
    columns: List[str]
    places: List[Optional[Tuple[int, int, str]]]


def grid_of(names: Sequence[Name]) -> Optional[Grid]:
    """The grid of some options, where their names are pairs and more than half of its cells have one; else None. Words behind the first
    two are what a cell says.

    >>> grid_of(['Ann Mon', 'Ann Tue', 'Ben Mon', 'open']) == Grid(['Ann', 'Ben'], ['Mon', 'Tue'], [(0, 0, ''), (0, 1, ''), (1, 0, ''), None])
    True
    >>> grid_of(['steel frame', 'hub motor', 'rim brakes']) is None
    True
    """
    parts = _paired([_parts_of(name) for name in names])
    rows, columns = [list(dict.fromkeys(pair[at] for pair in parts if pair)) for at in (0, 1)]
    cells = {pair[:2] for pair in parts if pair}
    size = len(rows) * len(columns)
    if min(len(rows), len(columns)) < 2 or size > MOST_CELLS or 2 * len(cells) <= size:
        return None
    row_of, column_of = [{head: at for at, head in enumerate(heads)} for heads in (rows, columns)]
    return Grid(rows, columns, [(row_of[pair[0]], column_of[pair[1]], ' '.join(pair[2:])) if pair else None for pair in parts])


def _parts_of(name: Name) -> Optional[Parts]:
    """The parts of a tuple; of a text those around its one comma, as in `Ann, week 1 Mon`, or its two or three words."""
    if isinstance(name, tuple):
        return tuple(printable(str(part)) for part in name) if len(name) > 1 else None
    pieces = printable(name).split(', ')
    words = pieces if len(pieces) == 2 else printable(name).split(' ')
    return tuple(words) if len(words) in (2, 3) else None


def _paired(parts: Sequence[Optional[Parts]]) -> List[Optional[Parts]]:
    """The parts of those that have as many as most have, and that share their row or their column with another."""
    lengths = Counter(len(pair) for pair in parts if pair)
    usual = max(lengths, key=lambda length: (lengths[length], -length)) if lengths else 0
    alike = [pair if pair and len(pair) == usual else None for pair in parts]
    shared = [Counter(pair[at] for pair in alike if pair) for at in (0, 1)]  # type: List[Dict[str, int]]
    return [pair if pair and max(shared[at][pair[at]] for at in (0, 1)) > 1 else None for pair in alike]

"""Reads and writes lists, and reads the text of models. docs/FORMATS.md has the formats."""
import re
from typing import List, NamedTuple, Optional, Sequence

from .errors import Malformed
from .files import Line, is_whole, read_lines, whole_of
from .instances import Costs, Instance


class Entry(NamedTuple):
    """A cost vector, and the literals of a model of these costs in the order of their variables.

    >>> Entry((3, 1), [1, -2]).costs
    (3, 1)
    """

    costs: Costs
    model: List[int]


class Listing(NamedTuple):
    """A list: whether it claims to be the front, and its entries.

    >>> Listing(True, []).complete
    True
    """

    complete: bool
    entries: List[Entry]


class Choice(NamedTuple):
    """The models of an entry, and whether they are all.

    >>> Choice(True, [[1, -2]]).all
    True
    """

    all: bool
    models: List[List[int]]


def read_list(path: str) -> Listing:
    """A list, whole. `Malformed` names the first wrong line.

    >>> with open('a.list', 'w') as out:
    ...     _ = out.write('s COMPLETE 1\\no 3 1\\nv 1 -2 0\\n')
    >>> read_list('a.list')
    Listing(complete=True, entries=[Entry(costs=(3, 1), model=[1, -2])])
    """
    lines = read_lines(path)
    head = re.fullmatch(r's (COMPLETE|INCOMPLETE) ([0-9]{1,19})', lines[0].text) if lines else None
    if not head:
        raise Malformed(path, 1, 'this is no list: its first line is `s COMPLETE n` or `s INCOMPLETE n`')
    entries = []  # type: List[Entry]
    for at in range(int(head.group(2))):
        places = [lines[k] if k < len(lines) else Line(len(lines) + 1, '') for k in (2 * at + 1, 2 * at + 2)]
        costs, model = [_numbers_of(path, line, first) for line, first in zip(places, 'ov')]
        if model[-1:] != [0] or not _are_in_order(model[:-1]):
            raise Malformed(path, places[1].number, 'a model is the literals 1 or -1, 2 or -2, .. in order, and 0')
        if entries and (len(entries[0].costs), len(entries[0].model)) != (len(costs), len(model) - 1):
            raise Malformed(path, places[0].number, 'this entry has another number of costs or variables than the first')
        entries.append(Entry(tuple(costs), model[:-1]))
    if len(lines) > 2 * len(entries) + 1:
        raise Malformed(path, 2 * len(entries) + 2, 'more follows than the %d entries' % len(entries))
    return Listing(head.group(1) == 'COMPLETE', entries)


def text_of(listing: Listing) -> str:
    """The text of a list.

    >>> text_of(Listing(False, [Entry((3, 1), [1, -2])]))
    's INCOMPLETE 1\\no 3 1\\nv 1 -2 0\\n'
    """
    lines = ['s %s %d' % ('COMPLETE' if listing.complete else 'INCOMPLETE', len(listing.entries))]
    for entry in listing.entries:
        lines += [' '.join(['o'] + [str(cost) for cost in entry.costs]), ' '.join(['v'] + [str(literal) for literal in entry.model] + ['0'])]
    return '\n'.join(lines) + '\n'


def title_of(complete: bool, listed: int, shown: Optional[int] = None) -> str:
    """What a list is, in words: how many plans it has, of which so many are shown, and whether one may be missing.

    >>> title_of(True, 12), title_of(True, 12, 3), title_of(True, 0)
    ('12 best compromises', '3 of 12 best compromises', 'no plan keeps to all constraints')
    >>> title_of(False, 1)
    'INCOMPLETE: 1 so far; a better plan may be missing'
    """
    part = '' if shown is None or shown == listed else '%d of ' % shown
    if not complete:
        return 'INCOMPLETE: %s%d so far; a better plan may be missing' % (part, listed)
    if not listed:
        return 'no plan keeps to all constraints'
    return '%s%d best compromise%s' % (part, listed, '' if listed == 1 else 's')


def read_models(path: str, variables: int) -> List[Choice]:
    """The models of a list's entries, whole, of so many variables. `Malformed` names the first wrong line.

    >>> with open('a.models', 'w') as out:
    ...     _ = out.write('s MODELS 1\\ne ALL 1\\nv 1 -2 0\\n')
    >>> read_models('a.models', 2)
    [Choice(all=True, models=[[1, -2]])]
    """
    lines = read_lines(path)
    head = re.fullmatch(r's MODELS ([0-9]{1,19})', lines[0].text) if lines else None
    if not head:
        raise Malformed(path, 1, 'this is no text of models: its first line is `s MODELS n`')
    choices, at = [], 1  # type: List[Choice], int
    for _ in range(int(head.group(1))):
        line = lines[at] if at < len(lines) else Line(at + 1, '')
        kind = re.fullmatch(r'e (ALL|FIRST) ([0-9]{1,19})', line.text)
        if not kind:
            raise Malformed(path, line.number, "an entry's first line is `e ALL m` or `e FIRST m`")
        models = []
        for k in range(at + 1, at + 1 + int(kind.group(2))):
            line = lines[k] if k < len(lines) else Line(k + 1, '')
            model = _numbers_of(path, line, 'v')
            if model[-1:] != [0] or len(model) != variables + 1 or not _are_in_order(model[:-1]):
                raise Malformed(path, line.number, 'a model is the literals 1 or -1, 2 or -2, .. of all variables in order, and 0')
            models.append(model[:-1])
        choices.append(Choice(kind.group(1) == 'ALL', models))
        at += 1 + len(models)
    if len(lines) > at:
        raise Malformed(path, at + 1, 'more follows than the %d entries' % len(choices))
    return choices


def fits(path: str, listing: Listing, instance: Instance) -> None:
    """Raises `Malformed` where a list is that of another instance.

    >>> fits('a.list', Listing(True, [Entry((3,), [1])]), Instance(2, [], []))
    Traceback (most recent call last):
    ...
    scuttle.errors.Malformed: a.list:2: an entry has 1 variables and 1 costs, and the instance has 2 and 0
    """
    for entry in listing.entries[:1]:
        if (len(entry.model), len(entry.costs)) != (instance.variables, len(instance.objectives)):
            raise Malformed(path, 2, 'an entry has %d variables and %d costs, and the instance has %d and %d' % (
                len(entry.model), len(entry.costs), instance.variables, len(instance.objectives)))


def _are_in_order(literals: Sequence[int]) -> bool:
    return all(abs(literal) == at for at, literal in enumerate(literals, 1))


def _numbers_of(path: str, line: Line, first: str) -> List[int]:
    """The numbers of a line that begins with this word."""
    words = line.text.split(' ')
    if words[0] != first or not all(is_whole(word) for word in words[1:]):
        raise Malformed(path, line.number, 'here stands no `%s` line of an entry' % first)
    return [whole_of(path, line.number, word) for word in words[1:]]

"""from-csv: makes an instance from a table of options.

usage: tools/from-csv TABLE.csv OUT.opb

TABLE has a row for each option and, in its first row, the names of the columns. `option` is the option's name; these
may be left out: `group`, the group that it belongs to; `choose`, how many options of the group are taken, as `2`,
`0-1` or `2-` in any one of its rows (exactly 1, where no row says it); `needs` and `excludes`, the names of other
options, with `;` between them. These five words may be written large or small. A column `budget capex` is an amount of
which the options that are taken use up no more than stands in this column in a row whose option is `within`. Every
other column with numbers is a cost, summed over the options that are taken and to be made small, or large where the
column's name begins with `max `, as `max profit`; a cell may be empty, negative, or have decimals. A column without
numbers is a note, and left out. An option without a group may be taken or not.
Cells are parted by commas, by `;` or by tabs, as the first row has it; by `;` or tabs numbers may be `1,5`. The text
is UTF-8, UTF-16 with its mark, or Windows-1252. On standard error stands which columns became costs and which are left out.
OUT names variables and objectives by its comments, so that tools/plan and tools/picture show the table's words. tools/page shows options
as a grid where their names are two or three words, as `Ann Mon early`, or have one comma, as `Ann, week 1 Mon`; other names are a list. OUT
is written whole or not at all.
Ends with 64 where the words are wrong, 65 where the table isn't as it should be, 74 where a file can't be read or written.
"""
import csv
import io
import re
import sys
from typing import Any, Dict, Iterable, List, NamedTuple, Optional, Sequence, Tuple

from .commands import run_command, usage
from .errors import BadName, Malformed
from .files import MOST_DIGITS, printable, write_text
from .kinds import mind_ending, mind_packed
from .names import text_of_name

EXPONENT = re.compile(r'[-+]?[0-9]+(?:[.,][0-9]*)?[eE][-+]?[0-9]+')
WORDS = ('option', 'group', 'choose', 'needs', 'excludes')
# The option of the row that has the limits of budgets.
WITHIN = 'within'

Record = Dict[str, str]
# Least and greatest number of a group's options that are taken; there may be no greatest.
Bounds = Tuple[int, Optional[int]]


class _Weights(NamedTuple):
    """The numbers of a column, each times ten to the power of `places`, by the records' order; an empty cell is 0.

    >>> _Weights([205, 750], 1).places
    1
    """

    numbers: List[int]
    places: int


def _decoded(path: str, data: bytes) -> str:
    """The text of a table's bytes.

    >>> _decoded('a.csv', b'\\xef\\xbb\\xbfoption'), _decoded('a.csv', b'caf\\xe9')
    ('option', 'café')
    """
    is_wide = data.startswith((b'\xff\xfe', b'\xfe\xff'))
    for encoding in ('utf-16',) if is_wide else ('utf-8-sig', 'cp1252'):
        try:
            return data.decode(encoding)
        except UnicodeDecodeError as fault:
            line = data[:fault.start].count(b'\n') + 1
    raise Malformed(path, line, 'these bytes are no text: save the table as CSV in UTF-8')


def _delimiter_of(head: str) -> str:
    """What stands between the cells: the first of `;`, a tab and a comma that the first row has outside of quotes.

    >>> _delimiter_of('"option;s",price'), _delimiter_of('option;price')
    (',', ';')
    """
    bare = re.sub('"[^"]*"', '', head)
    return ';' if ';' in bare else '\t' if '\t' in bare else ','


class _Table:
    """The rows of a table, each with its line's number, its columns, and the row of limits."""

    def __init__(self, path: str) -> None:
        self.path = path
        with open(path, 'rb') as file:
            data = file.read()
        mind_packed(path, data)
        mind_ending(path, 'from-csv')
        text = _decoded(path, data)
        self.delimiter = _delimiter_of(text.split('\n', 1)[0])
        self.rows = []  # type: List[Tuple[int, Record]]
        self.columns = []  # type: List[str]
        self._read(csv.reader(io.StringIO(text, newline=''), delimiter=self.delimiter, skipinitialspace=True))
        if 'option' not in self.columns or len(set(self.columns)) < len(self.columns) or '' in self.columns:
            raise self.wrong(1, 'the first row names the columns, each once, among them `option`')
        self.within = self._limits()
        self.variables = self._variables()

    def _read(self, reader: Any) -> None:
        try:
            for cells in reader:
                cells = [' '.join(cell.split()) for cell in cells]
                if not self.columns:
                    self.columns = [cell.lower() if cell.lower() in WORDS else cell for cell in cells]
                elif len(cells) > len(self.columns):
                    raise self.wrong(reader.line_num, 'it has more cells than the first row')
                elif any(cells):
                    self.rows.append((reader.line_num, dict(zip(self.columns, cells + [''] * len(self.columns)))))
        except csv.Error as fault:
            raise self.wrong(reader.line_num, 'this is no row of a table: %s' % fault) from None

    def wrong(self, number: int, what: str) -> Malformed:
        """The error of a line."""
        return Malformed(self.path, number, what)

    def _limits(self) -> Optional[Tuple[int, Record]]:
        """Takes the row of limits out of the others, where there are budgets."""
        if not any(_is_budget(column) for column in self.columns):
            return None
        found = [row for row in self.rows if row[1]['option'].lower() == WITHIN]
        if len(found) != 1:
            raise self.wrong(found[1][0] if found else 1, 'a table with budgets has one row whose option is `within`, with their limits')
        self.rows.remove(found[0])
        for column, cell in found[0][1].items():
            if column != 'option' and bool(cell) != _is_budget(column):
                raise self.wrong(found[0][0], 'the row `within` has a limit for each budget and nothing else: see the column %s' % column)
        return found[0]

    def _variables(self) -> Dict[str, int]:
        variables = {}  # type: Dict[str, int]
        for number, row in self.rows:
            name = row['option']
            try:
                text_of_name(name)
            except BadName as fault:
                raise self.wrong(number, 'an option has a name of its own: %s' % fault) from None
            if name in variables:
                raise self.wrong(number, 'an option has a name of its own, and this one is there already: %s' % name)
            variables[name] = len(variables) + 1
        return variables

    def others(self, number: int, row: Record, column: str) -> List[int]:
        """The variables of the options that a cell names."""
        names = [' '.join(name.split()) for name in row.get(column, '').split(';') if name.strip()]
        for name in names:
            if name not in self.variables:
                raise self.wrong(number, "there is no option '%s'" % name)
            if name == row['option']:
                raise self.wrong(number, "the option '%s' %s itself" % (name, column))
        return [self.variables[name] for name in names]


def _is_budget(column: str) -> bool:
    """Whether a column is one of amounts that have a limit.

    >>> _is_budget('Budget capex'), _is_budget('budget')
    (True, False)
    """
    return re.match(r'budget \S', column, re.IGNORECASE) is not None


def _parts_of(cell: str, is_comma: bool) -> Optional[Tuple[int, str, str]]:
    """The sign, the digits and the decimals of a number, or None.

    >>> _parts_of('-9.25', False), _parts_of('1,5', True), _parts_of('²', False)
    ((-1, '9', '25'), (1, '1', '5'), None)
    """
    digits = re.fullmatch(r'([-+]?)([0-9]*)(?:%s([0-9]*))?' % ('[.,]' if is_comma else '[.]'), cell)
    if not digits or not (digits.group(2) or digits.group(3)):
        return None
    return -1 if digits.group(1) == '-' else 1, digits.group(2) or '0', (digits.group(3) or '').rstrip('0')


def _weights_of(table: _Table, column: str, rows: Sequence[Tuple[int, Record]]) -> _Weights:
    """The numbers of a column, made whole."""
    is_comma, mark, found = table.delimiter != ',', '', []
    for line, row in rows:
        cell, parts = row[column], _parts_of(row[column] or '0', is_comma)
        own = ',' if ',' in cell else '.' if '.' in cell else mark
        if parts is None or (mark and own != mark):
            what = "'%s' in the column %s " % (cell[:MOST_DIGITS], column)
            raise table.wrong(line, what + ('is no number' if parts is None else 'has another decimal mark than a row before'))
        if len(parts[1].lstrip('0')) + len(parts[2]) > MOST_DIGITS:
            raise table.wrong(line, 'a number in the column %s has too many digits' % column)
        mark = own
        found.append(parts)
    places = max((len(decimals) for _, _, decimals in found), default=0)
    return _Weights([sign * int(whole + decimals.ljust(places, '0')) for sign, whole, decimals in found], places)


class _Cost(NamedTuple):
    """An objective: its sense, its name with the unit that its numbers are in, and their sum's text.

    >>> _Cost('min', 'price, in 0.01', '+2450 x1').name
    'price, in 0.01'
    """

    sense: str
    name: str
    terms: str


def _objective_of(table: _Table, column: str) -> _Cost:
    """The objective of a column, scaled where it has decimals."""
    weights = _weights_of(table, column, table.rows)
    marked = re.fullmatch(r'(min|max) (.*)', column, re.IGNORECASE)
    sense, name = (marked.group(1).lower(), marked.group(2)) if marked else ('min', column)
    name += '' if weights.places == 0 else ', in 0.%s1' % ('0' * (weights.places - 1))
    return _Cost(sense, name, _sum_of(zip(weights.numbers, range(1, len(weights.numbers) + 1))))


def _is_note(table: _Table, column: str) -> bool:
    """Whether a column has no number; one that says `min` or `max` is a cost in any case."""
    if re.match(r'(min|max)\b', column, re.IGNORECASE):
        return False
    cells = [row[column] for _, row in table.rows if row[column]]
    # Numbers with an exponent can't be taken: that is told, and no cost left out.
    return not any(_parts_of(cell, True) for cell in cells) and not (cells and all(EXPONENT.fullmatch(cell) for cell in cells))


def _groups_of(table: _Table) -> List[Tuple[str, List[int], Bounds]]:
    """For each group its variables, and the least and the greatest number that is taken."""
    groups = {}  # type: Dict[str, Tuple[List[int], List[Tuple[int, Bounds]]]]
    for line, row in table.rows:
        name, choose = row.get('group', ''), row.get('choose', '').replace(' ', '')
        if not name and choose:
            raise table.wrong(line, 'it says how many are chosen, of no group')
        if not name:
            continue
        members, said = groups.setdefault(name, ([], []))
        members.append(table.variables[row['option']])
        if choose:
            said.append((line, _bounds_of(table, line, choose)))
        if len({bounds for _, bounds in said}) > 1:
            raise table.wrong(line, 'the group %s says twice how many are chosen' % name)
    for name, (members, said) in groups.items():
        for line, (least, greatest) in said:
            if least > len(members) or (greatest is not None and greatest < least):
                raise table.wrong(line, 'of the group %s, which has %d, so many can\'t be chosen' % (name, len(members)))
    return [(name, members, said[0][1] if said else (1, 1)) for name, (members, said) in groups.items()]


def _bounds_of(table: _Table, line: int, choose: str) -> Bounds:
    """The bounds that a cell says."""
    bounds = re.fullmatch(r'([0-9]{1,9})(-?)([0-9]{0,9})', choose)
    if not bounds:
        raise table.wrong(line, "'%s' isn't how many are chosen: `2`, `0-1` or `2-`" % choose)
    least = int(bounds.group(1))
    return least, int(bounds.group(3)) if bounds.group(3) else (None if bounds.group(2) else least)


def _sum_of(terms: Iterable[Tuple[int, int]]) -> str:
    """The text of a sum.

    >>> _sum_of([(1, 1), (-2, 3)])
    '+1 x1 -2 x3'
    """
    return ' '.join('%+d x%d' % term for term in terms)


def _rows_of(table: _Table) -> List[str]:
    """The constraints, each with a comment."""
    lines = []  # type: List[str]
    for name, members, (least, greatest) in _groups_of(table):
        ones = _sum_of((1, member) for member in members)
        lines.append('* group %s' % name)
        if least == greatest:
            lines.append('%s = %d ;' % (ones, least))
        else:
            lines += ['%s >= %d ;' % (ones, least)] * (least > 0)
            lines += ['%s <= %d ;' % (ones, greatest)] if greatest is not None else []
    for column in table.columns:
        if _is_budget(column) and table.within:
            weights = _weights_of(table, column, table.rows + [table.within])
            terms = _sum_of(zip(weights.numbers, range(1, len(table.rows) + 1)))
            lines += ['* %s' % column, '%s <= %d ;' % (terms, weights.numbers[-1])]
    for number, row in table.rows:
        own = table.variables[row['option']]
        lines += ['%s >= 0 ;' % _sum_of([(-1, own), (1, other)]) for other in table.others(number, row, 'needs')]
        lines += ['%s <= 1 ;' % _sum_of([(1, own), (1, other)]) for other in table.others(number, row, 'excludes')]
    return lines


def _columns(table: _Table) -> Tuple[List[_Cost], List[str]]:
    """The objectives, and the columns that are left out."""
    columns = [column for column in table.columns if column not in WORDS and not _is_budget(column)]
    notes = [column for column in columns if _is_note(table, column)]
    costs = [_objective_of(table, column) for column in columns if column not in notes]
    for cost in costs:
        try:
            text_of_name(cost.name)
        except BadName as fault:
            raise table.wrong(1, str(fault)) from None
    if len({cost.name for cost in costs}) < len(costs):
        raise table.wrong(1, 'two costs have one name')
    return costs, notes


def _body(arguments: List[str]) -> int:
    if len(arguments) != 2 or not arguments[1].endswith(('.opb', '.mopb')):
        return usage(str(__doc__))
    table = _Table(arguments[0])
    costs, notes = _columns(table)
    lines = ['* x%d %s' % (number, name) for name, number in table.variables.items()]
    lines += ['* %s %d %s' % (cost.sense, number, cost.name) for number, cost in enumerate(costs, 1)]
    lines += [' '.join(('%s: %s ;' % (cost.sense, cost.terms)).split()) for cost in costs]
    lines += _rows_of(table)
    write_text(arguments[1], '\n'.join(lines) + '\n')
    print('from-csv: costs: %s' % (printable('; '.join('%s %s' % (cost.sense, cost.name) for cost in costs)) or 'none'), file=sys.stderr)
    if notes:
        print('from-csv: left out, for there is no number in them: %s' % printable('; '.join(notes)), file=sys.stderr)
    return 0


def main(arguments: List[str]) -> int:
    """Runs the command."""
    return run_command(str(__doc__), _body, arguments)

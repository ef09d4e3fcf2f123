"""from-mps: makes an instance from models in the MPS format, fixed or free, as cbc, glpsol and others write it.

usage: tools/from-mps IN.mps [MORE.mps ..] OUT.opb

Each `N` row of a file is an objective, to be made small, or large where `OBJSENSE`, or PuLP's comment `*SENSE:Maximize`, says it; glpsol
writes neither, so look at what is said on standard error. Several files have the same other rows, and OUT
has the objectives of all. All variables are 0 or 1, as tools/from-lp has it; a whole variable without an upper bound is refused, because
programs differ in what it means, and so is a right side of an objective. Names have no blanks.
Ends with 64 where the words are wrong, 65 where a file can't be taken, 74 where one can't be read or written.
"""
import re
from fractions import Fraction
from typing import Dict, List, Optional, Sequence, Tuple

from .commands import run_command, usage
from .errors import Malformed
from .files import MOST_DIGITS, read_lines
from .kinds import mind_ending
from .linear import Expression, Goal, Limit, Program, Weights, write_instance

RELATIONS = {'G': '>=', 'L': '<=', 'E': '='}
# Kinds of bounds that have a number, and those that have none.
VALUED, BARE = ('UP', 'LO', 'FX', 'UI', 'LI'), ('BV', 'FR', 'MI', 'PL')


class _Reader:
    """Reads the sections of a file, line by line."""

    def __init__(self, path: str) -> None:
        self.program, self.line, self.sense, self.is_whole = Program(path), 0, 'min', False
        self.kinds = {}  # type: Dict[str, Tuple[str, int]]
        self.weights = {}  # type: Dict[str, Weights]
        self.right = {}  # type: Dict[str, Fraction]
        self.ranges = {}  # type: Dict[str, Fraction]

    def wrong(self, what: str) -> Malformed:
        return self.program.wrong(self.line, what)

    def number(self, word: str) -> Fraction:
        try:
            if len(word) > MOST_DIGITS or word.lower().strip('+-') in ('inf', 'infinity', 'nan'):
                raise ValueError
            mantissa, _, exponent = word.lower().replace('d', 'e').partition('e')
            if exponent and abs(int(exponent)) > MOST_DIGITS:
                raise ValueError
            return Fraction(mantissa) * Fraction(10) ** int(exponent or 0)
        except ValueError:
            raise self.wrong("'%s' is no number that can be taken" % word[:MOST_DIGITS]) from None

    def pairs(self, words: Sequence[str]) -> List[Tuple[str, Fraction]]:
        """The row names and numbers of a line, of which the row has to be there."""
        if len(words) % 2 or not words:
            raise self.wrong('here stand names of rows, each with a number')
        for name in words[::2]:
            if name not in self.kinds:
                raise self.wrong('there is no row %s' % name)
        return [(name, self.number(word)) for name, word in zip(words[::2], words[1::2])]

    def rows(self, words: List[str]) -> None:
        if len(words) != 2 or words[0].upper() not in ('N', 'G', 'L', 'E') or words[1] in self.kinds:
            raise self.wrong('here stands N, G, L or E and the name of a new row')
        self.kinds[words[1]] = words[0].upper(), self.line
        self.weights[words[1]] = {}

    def columns(self, words: List[str]) -> None:
        if len(words) == 3 and words[1].strip("'").upper() == 'MARKER':
            self.is_whole = words[2].strip("'").upper() == 'INTORG'
            return
        name = words[0]
        self.program.variables.setdefault(name, self.line)
        if self.is_whole:
            self.program.whole.add(name)
        for row, weight in self.pairs(words[1:]):
            if name in self.weights[row]:
                raise self.wrong('the column %s has two numbers in the row %s' % (name, row))
            self.weights[row][name] = weight

    def rhs(self, words: List[str]) -> None:
        self.right.update(self.pairs(words[len(words) % 2:]))

    def range(self, words: List[str]) -> None:
        self.ranges.update(self.pairs(words[len(words) % 2:]))

    def bounds(self, words: List[str]) -> None:
        kind = words[0].upper()
        if kind not in VALUED + BARE:
            raise self.wrong('a bound `%s` can\'t be taken' % words[0])
        rest = words[1:]
        if len(rest) > (2 if kind in VALUED else 1):
            rest = rest[1:]
        if not rest or rest[0] not in self.program.variables or (kind in VALUED and len(rest) != 2):
            raise self.wrong('here stands the bound of a column')
        name, value = rest[0], self.number(rest[1]) if kind in VALUED else None
        self._bound(kind, name, value)

    def _bound(self, kind: str, name: str, value: Optional[Fraction]) -> None:
        program = self.program
        if kind == 'BV':
            program.make_binary(name, self.line)
        if kind in ('UP', 'UI', 'FX', 'FR', 'PL'):
            program.upper[name] = value
        if kind in ('LO', 'LI', 'FX', 'FR', 'MI'):
            program.lower[name] = value
        if kind in ('UI', 'LI'):
            program.whole.add(name)

    def finish(self) -> Program:
        """Objectives and rows, once all is read."""
        zero = Fraction(0)
        for name, (kind, line) in self.kinds.items():
            right, width = self.right.get(name, zero), self.ranges.get(name)
            if kind == 'N':
                if right:
                    raise self.program.wrong(line, 'the objective %s has a right side, which some programs add and others subtract: leave it out, '
                                             'or let a variable that is fixed to 1 have it' % name)
                self.program.goals.append(Goal(name, self.sense, Expression(self.weights[name], zero), line))
                continue
            sides = [(RELATIONS[kind], right)]
            if width is not None:
                low = right if kind == 'G' or (kind == 'E' and width >= 0) else right - abs(width)
                sides = [('>=', low), ('<=', low + abs(width))]
            self.program.limits += [Limit(name, self.weights[name], relation, bound, line) for relation, bound in sides]
        return self.program


def read_mps(path: str) -> Program:
    """What a file says. `Malformed` names the first line that can't be taken.

    >>> with open('a.mps', 'w') as out:
    ...     _ = out.write('NAME a\\nROWS\\n N pay\\n G c1\\nCOLUMNS\\n a pay 3 c1 1\\nRHS\\n r c1 1\\nBOUNDS\\n BV b a\\nENDATA\\n')
    >>> read_mps('a.mps').limits[0].bound
    Fraction(1, 1)
    """
    reader, section = _Reader(path), ''
    lines = read_lines(path)
    mind_ending(path, 'from-mps')
    for reader.line, text in lines:
        words = text.split()
        if re.match(r'\*SENSE:\s*Max', text):
            reader.sense = 'max'
        if not words or text.startswith('*'):
            continue
        if not text[0].isspace():
            section = words[0].upper()
            if section == 'ENDATA':
                return reader.finish()
            if section not in ('NAME', 'ROWS', 'COLUMNS', 'RHS', 'RANGES', 'BOUNDS', 'OBJSENSE', 'OBJNAME'):
                raise reader.wrong('a section %s can\'t be taken' % words[0][:MOST_DIGITS])
            words = words[1:] if section == 'OBJSENSE' else []
        if words and section == 'OBJSENSE':
            reader.sense = 'max' if words[0].upper().startswith('MAX') else 'min'
        elif words and section in ('NAME', ''):
            raise reader.wrong('here begins a section')
        elif words and section != 'OBJNAME':
            steps = {'ROWS': reader.rows, 'COLUMNS': reader.columns, 'RHS': reader.rhs, 'RANGES': reader.range, 'BOUNDS': reader.bounds}
            steps[section](words)
    raise reader.wrong('the file ends without ENDATA')


def _body(arguments: List[str]) -> int:
    if len(arguments) < 2 or not arguments[-1].endswith(('.opb', '.mopb')) or any(word.startswith('--') for word in arguments):
        return usage(str(__doc__))
    return write_instance('from-mps', arguments[-1], [read_mps(path) for path in arguments[:-1]])


def main(arguments: List[str]) -> int:
    """Runs the command."""
    return run_command(str(__doc__), _body, arguments)

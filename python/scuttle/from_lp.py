"""from-lp: makes an instance from models in the LP format of CPLEX, as PuLP, Pyomo, cbc and glpsol write it.

usage: tools/from-lp IN.lp [MORE.lp ..] OUT.opb

Each file has one objective, or several named ones after `Minimize multi-objectives`. Several files have the same rows, and
OUT has the objectives of all. All variables are 0 or 1: binary, or whole with such bounds; one with a single value may be anything.
Coefficients with decimals are made whole by a power of ten, row by row; that of an objective stands in its name, as
`pay, in 0.01`. What can't be taken is refused with its line: continuous variables and wider ones, products and squares, special
ordered sets, indicator and semi-continuous rows. OUT names variables and objectives by its comments.
Ends with 64 where the words are wrong, 65 where a file can't be taken, 74 where one can't be read or written.
"""
import re
from fractions import Fraction
from typing import List, NamedTuple, Optional, Tuple

from .commands import run_command, usage
from .errors import Malformed
from .files import MOST_DIGITS, Line, read_lines
from .kinds import mind_ending
from .linear import Expression, Goal, Limit, Program, Weights, write_instance

# A section by the words that begin it, in small letters.
SECTIONS = [('min', r'min(imi[sz]e|imum)?'), ('max', r'max(imi[sz]e|imum)?'), ('rows', r'subject\s+to|such\s+that|s\.\s*t\.|st'),
            ('bounds', r'bounds?'), ('whole', r'gen(erals?)?|int(egers?)?'), ('binary', r'bin(ary|aries)?'), ('end', r'end'),
            ('left', r'semi(s|-continuous)?|sos[12]?|lazy constraints|user cuts|(gen(eral)?) constraints|pwlobj')]
TOKEN = re.compile(r'\s*(?:(<=|=<|<|>=|=>|>|=)|([0-9]+\.?[0-9]*(?:[eE][-+]?[0-9]+)?|\.[0-9]+(?:[eE][-+]?[0-9]+)?)|([-+:*/^\[\]])'
                   r'|([^\s0-9<>=:+\-*/^\[\].\\][^\s<>=:+\-*/^\\]*))')
RELATIONS = {'<': '<=', '=<': '<=', '<=': '<=', '>': '>=', '=>': '>=', '>=': '>=', '=': '='}
TURNED = {'<=': '>=', '>=': '<=', '=': '='}
# The largest exponent that is read as a number: more is no coefficient, and would take its digits in memory.
MOST_EXPONENT = 40


class _Token(NamedTuple):
    """A piece of the text: its kind (`relation`, `number`, `mark` or `name`), itself, and its line.

    >>> _Token('mark', '+', 1).kind
    'mark'
    """

    kind: str
    text: str
    line: int


def _sections_of(path: str, lines: List[Line]) -> List[Tuple[str, int, List[_Token]]]:
    """The sections of a file: its kind, its line, and its tokens."""
    found = []  # type: List[Tuple[str, int, List[_Token]]]
    for number, text in lines:
        text = text.split('\\', 1)[0].strip()
        kind, rest = _heading(text)
        if kind in ('min', 'max') and found or kind == 'rows' and [begun for begun, _, _ in found] not in (['min'], ['max']):
            # Such a word begins a section only where that may stand; here it is a name.
            kind = None
        if kind == 'left':
            raise Malformed(path, number, 'a section `%s` can\'t be taken' % text)
        if kind:
            found.append((kind, number, []))
            text = rest
        if text and (not found or found[-1][0] == 'end'):
            raise Malformed(path, number, 'a model begins with Minimize or Maximize, and ends with End')
        if text:
            found[-1][2].extend(_tokens(path, number, text))
    return found


def _heading(text: str) -> Tuple[Optional[str], str]:
    """The section that a line begins, and the rest of the line."""
    for kind, words in SECTIONS:
        # Of rows and objectives the first may stand on the same line; a name like `min_load` or `end:` is no heading.
        begun = re.match(r'(%s)(?=$|\s)(?!\s*[:<>=])\s*' % words, text, re.IGNORECASE)
        if begun and (kind in ('min', 'max', 'rows') or begun.end() == len(text)):
            return kind, text[begun.end():]
    return None, text


def _tokens(path: str, number: int, text: str) -> List[_Token]:
    found, at = [], 0
    while at < len(text):
        piece = TOKEN.match(text, at)
        if not piece or piece.end() == at:
            raise Malformed(path, number, "'%s' is nothing that can stand here" % text[at:at + MOST_DIGITS].strip())
        kind = ('relation', 'number', 'mark', 'name')[(piece.lastindex or 1) - 1]
        found.append(_Token(kind, piece.group(piece.lastindex or 1), number))
        at = piece.end()
    return found


class _Reader:
    """Reads the tokens of a section from the left."""

    def __init__(self, program: Program, line: int, tokens: List[_Token]) -> None:
        self.program, self.tokens, self.at, self.line = program, tokens, 0, line

    def peek(self, ahead: int = 0) -> _Token:
        """A token that comes; at the end one of no kind."""
        at = self.at + ahead
        return self.tokens[at] if at < len(self.tokens) else _Token('', 'the end of the section', self.tokens[-1].line if self.tokens else self.line)

    def take(self) -> _Token:
        """The next token."""
        token = self.peek()
        self.at += 1
        return token

    def wrong(self, what: str) -> Malformed:
        """The error at the next token."""
        return self.program.wrong(self.peek().line, '%s, and not `%s`' % (what, self.peek().text[:MOST_DIGITS]))

    def label(self) -> Optional[str]:
        """A name and a colon, where they come."""
        if self.peek().kind in ('name', 'number') and self.peek(1).text == ':':
            name = self.take().text
            self.take()
            return name
        return None

    def number(self) -> Optional[Fraction]:
        """A number with its sign; None stands for an infinite one."""
        sign = 1
        while self.peek().text in ('+', '-') and self.peek().kind == 'mark':
            sign *= -1 if self.take().text == '-' else 1
        token = self.peek()
        if token.kind == 'name' and token.text.lower() in ('inf', 'infinity'):
            self.take()
            return None
        if token.kind != 'number':
            raise self.wrong('here stands a number')
        return sign * self._value(self.take())

    def _value(self, token: _Token) -> Fraction:
        exponent = re.search('[eE]([-+]?[0-9]+)', token.text)
        if len(token.text) > MOST_DIGITS or exponent and abs(int(exponent.group(1))) > MOST_EXPONENT:
            raise self.program.wrong(token.line, 'the number %s is too large or too long' % token.text[:MOST_DIGITS])
        return Fraction(token.text)

    def expression(self) -> Expression:
        """Terms, as long as they come."""
        weights, constant, is_first = {}, Fraction(0), True  # type: Weights, Fraction, bool
        while is_first or self.peek().text in ('+', '-'):
            sign = Fraction(1)
            while self.peek().text in ('+', '-'):
                sign *= -1 if self.take().text == '-' else 1
            weight = self._value(self.take()) if self.peek().kind == 'number' else None
            if self.peek().kind == 'name' and self.peek(1).text != ':':
                name = self.take().text
                weights[name] = weights.get(name, Fraction(0)) + sign * (Fraction(1) if weight is None else weight)
            elif weight is not None:
                constant += sign * weight
            elif not is_first or self.peek().text == '[':
                raise self.wrong('here stands a variable or a number; products and squares can\'t be taken')
            is_first = False
        if self.peek().text in ('*', '/', '^', '[', ']'):
            raise self.wrong('a sum has weighted variables; products and squares can\'t be taken')
        self.program.meet(weights, self.peek().line)
        return Expression(weights, constant)

    def relation(self) -> Optional[str]:
        """A relation, where it comes."""
        return RELATIONS[self.take().text] if self.peek().kind == 'relation' else None


def _read_goals(reader: _Reader, sense: str, stem: str) -> None:
    """The objective of the section, or the several named ones."""
    program = reader.program
    several = reader.peek().text.lower() == 'multi' and reader.peek(1).text == '-'
    reader.at += 3 if several else 0
    while True:
        line, name = reader.peek().line, reader.label()
        # What orders several objectives is left: none comes before another here.
        while several and reader.peek().kind == 'name' and reader.peek(1).text == '=':
            reader.at += 2
            reader.number()
        program.goals.append(Goal(name or stem, sense, reader.expression(), line))
        if not several or not reader.peek().kind:
            break
    if reader.peek().kind:
        raise reader.wrong('an objective ends here')


def _read_row(reader: _Reader, count: int) -> None:
    """One row, which may have a bound on either side."""
    program, line = reader.program, reader.peek().line
    name = reader.label() or 'R%d' % count
    left = reader.expression()
    relation = reader.relation()
    if relation is None:
        raise reader.wrong('here stands <=, >= or =')
    sides = []  # type: List[Tuple[str, Optional[Fraction]]]
    if not left.weights:
        sides.append((TURNED[relation], left.constant))
        left, relation = reader.expression(), reader.relation()
    if relation is not None:
        sides.append((relation, reader.number()))
    if reader.peek().text in ('-', '[') and reader.peek(1).text == '>':
        raise reader.wrong('an indicator row can\'t be taken')
    for relation, bound in sides:
        if bound is not None:
            program.limits.append(Limit(name, left.weights, relation, bound - left.constant, line))


def _read_bound(reader: _Reader) -> None:
    """One line of bounds: `0 <= x <= 1`, `x <= 1`, `x = 1`, `x free`."""
    program = reader.program
    sides = []  # type: List[Tuple[str, Optional[Fraction]]]
    if reader.peek().kind != 'name' or reader.peek().text.lower() in ('inf', 'infinity'):
        bound, relation = reader.number(), reader.relation()
        if relation is None:
            raise reader.wrong('here stands <=, >= or =')
        sides.append((TURNED[relation], bound))
    if reader.peek().kind != 'name':
        raise reader.wrong('here stands a variable')
    token = reader.take()
    program.variables.setdefault(token.text, token.line)
    if reader.peek().text.lower() == 'free':
        reader.take()
        program.lower[token.text] = program.upper[token.text] = None
        return
    relation = reader.relation()
    if relation is not None:
        sides.append((relation, reader.number()))
    for relation, bound in sides:
        if relation in ('<=', '='):
            program.upper[token.text] = bound
        if relation in ('>=', '='):
            program.lower[token.text] = bound


def read_lp(path: str) -> Program:
    """What a file says. `Malformed` names the first line that can't be taken.

    >>> with open('a.lp', 'w') as out:
    ...     _ = out.write('Minimize\\n pay: 3 a + 2.5 b\\nSubject To\\n c1: a + b >= 1\\nBinary\\n a b\\nEnd\\n')
    >>> read_lp('a.lp').goals[0].sum.weights['b']
    Fraction(5, 2)
    """
    program = Program(path)
    stem = re.sub(r'\.lp$', '', path.replace('\\', '/').split('/')[-1])
    lines = read_lines(path)
    mind_ending(path, 'from-lp')
    sections = _sections_of(path, lines)
    if not sections or sections[0][0] not in ('min', 'max'):
        raise Malformed(path, sections[0][1] if sections else 1, 'a model begins with Minimize or Maximize')
    for kind, line, tokens in sections:
        reader = _Reader(program, line, tokens)
        if kind in ('min', 'max'):
            _read_goals(reader, kind, stem)
        while reader.peek().kind and kind == 'rows':
            _read_row(reader, len(program.limits) + 1)
        while reader.peek().kind and kind == 'bounds':
            _read_bound(reader)
        while reader.peek().kind and kind in ('whole', 'binary'):
            _read_kind(reader, kind)
    for line, text in lines:
        # So glpsol says the number besides, for which the format has no place.
        said = re.match(r'\\\* constant term = (\S+) \*\\', text)
        if said:
            number = _Reader(program, line, _tokens(path, line, said.group(1))).number()
            goal = program.goals[0]
            program.goals[0] = goal._replace(sum=goal.sum._replace(constant=goal.sum.constant + (number or 0)))
    return program


def _read_kind(reader: _Reader, kind: str) -> None:
    """One variable that is whole, or 0 or 1."""
    token = reader.take()
    if token.kind != 'name':
        raise reader.program.wrong(token.line, 'here stand names of variables, and not `%s`' % token.text)
    if kind == 'binary':
        low, high = reader.program.bounds(token.text)
        reader.program.make_binary(token.text, token.line)
        # A bound that leaves one value stays.
        if low is not None and low == high:
            reader.program.lower[token.text] = reader.program.upper[token.text] = low
    else:
        reader.program.variables.setdefault(token.text, token.line)
        reader.program.whole.add(token.text)


def _body(arguments: List[str]) -> int:
    if len(arguments) < 2 or not arguments[-1].endswith(('.opb', '.mopb')) or any(word.startswith('--') for word in arguments):
        return usage(str(__doc__))
    return write_instance('from-lp', arguments[-1], [read_lp(path) for path in arguments[:-1]])


def main(arguments: List[str]) -> int:
    """Runs the command."""
    return run_command(str(__doc__), _body, arguments)

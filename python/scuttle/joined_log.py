"""The logs of parts, line by line, as one log of the whole problem.

Each test of the split becomes a variable by a `def` line; a condition of a part is then a literal. Of a part's line C the joined log has C or
the part's conditions denied, and this is why each line stays legal: where the conditions hold, nothing is left of the two lines of their
`def` but the part's own rows, and by induction nothing of any line but the part's. New literals never cancel, since no line of a part has
their variables; a `rup` goal gets them with its degree as coefficient, so that its negation makes the conditions hold at once; a cut
gets them, so that its literals' being false does.
"""
import re
from typing import Dict, IO, Iterable, List, NamedTuple, Optional, Sequence, Set, Tuple

from .errors import Malformed
from .parts import Condition, Node, Source, Split, Test, narrowed

HEAD = re.compile(r'scuttle proof version (?:1|2 rows (0|[1-9][0-9]*))')
# Ids of one piece of a `del` line in version 2.
PIECE = 1024
HARDENED = 'a line by --harden: its reason needs the rows of the part to be those of the problem, so solve the part without --harden'
# The line of a constraint that is taken for itself, against its negation.
OPEN = '~ +'
# At least as often as a sum in a log has a condition denied.
OFTEN = str(2 ** 80)


class Span(NamedTuple):
    """Which lines of the joined log come from a part's log, whose line 2 is the first of them: the numbers of the first and of the line
    after the last, and the part's name.

    >>> Span(3, 13, 'part-1').first
    3
    """

    first: int
    end: int
    name: str


class JoinedLog:
    """A log that is being written, in either version of the text: the next line's number, id and variable."""

    def __init__(self, out: 'IO[str]', split: Split, version: int) -> None:
        self.out, self.split, self.version = out, split, version
        source = split.source
        self.line, self.next_id, self.variables = 1, source.rows + 1, source.variables
        self.spans = []  # type: List[Span]
        self.defined = {}  # type: Dict[Test, Tuple[int, int]]
        # What is shown of the conditions so far: ids with their clauses.
        self.clauses = []  # type: List[Tuple[int, List[int]]]
        self.put('scuttle proof version %s' % ('1' if version == 1 else '2 rows %d' % source.rows), 0)
        for test in split.tests():
            self._define(test, source)

    def put(self, text: str, made: int) -> None:
        """Writes a line that makes so many ids."""
        self.out.write(text + '\n')
        self.line, self.next_id = self.line + 1, self.next_id + made

    def spell(self, number: int) -> str:
        """An id as this version spells it."""
        return str(number) if self.version == 1 or number <= self.split.source.rows else str(number - self.next_id)

    def spell_rising(self, ids: Sequence[int]) -> str:
        """Rising ids of lines, as a `del` line has them."""
        if self.version == 1:
            return ' '.join(map(str, ids))
        words = []
        for first, last in pieces_of(ids):
            words += ['%d..%d' % (first - self.next_id, last - self.next_id)] if last > first + 1 else \
                [str(number - self.next_id) for number in range(first, last + 1)]
        return ' '.join(words)

    def _define(self, test: Test, source: Source) -> None:
        self.variables += 1
        # The first of the two lines is the row of a part above, or at, the bound, and the second that of one below it.
        self.defined[test] = self.variables, self.next_id
        terms = sorted(source.terms(test), key=lambda term: abs(term[1]))
        words = ['%d %sx%d' % (weight, '~' if literal < 0 else '', abs(literal)) for weight, literal in terms]
        self.put(' '.join(['def x%d :' % self.variables] + words + ['>=', str(test.bound)]), 2)

    def row_id(self, condition: Condition) -> int:
        """The line that stands for a part's row."""
        return self.defined[condition.test][1] + (not condition.reached)

    def moved_by(self, images: Dict[str, str]) -> 'Tuple[Dict[int, str], List[int], List[int]]':
        """What an exchange moves of the split: the variable of each test of a moved variable, with what it becomes, so that nothing is left of
        the two lines of that test; the lines of each test of a cost that it touches, which stay as they are; and the clauses in which such
        variables stand."""
        moved, lines = {}, []  # type: Dict[int, str], List[int]
        for test in self.split.tests():
            touched = [literal for _, literal in self.split.source.terms(test) if 'x%d' % abs(literal) in images]
            variable, first = self.defined[test]
            if touched and test.kind == 'variable':
                moved[variable] = images['x%d' % test.number]
            elif touched:
                lines += [first, first + 1]
        return moved, lines, [number for number, clause in self.clauses if any(abs(literal) in moved for literal in clause)]

    def denied(self, path: Iterable[Condition]) -> List[int]:
        """The literals that are false where the conditions hold, by rising variables."""
        literals = [self.defined[c.test][0] * (-1 if c.reached else 1) for c in path]
        return sorted(literals, key=abs)

    def add_clause(self, path: Sequence[Condition], hints: Sequence[int]) -> int:
        """The clause that not all of the conditions hold: its id."""
        words = ['1 ' + spelled(literal) for literal in self.denied(path)]
        self.put(' '.join(['rup'] + words + ['>= 1 :'] + [self.spell(hint) for hint in hints]), 1)
        return self._shown(path)

    def _shown(self, path: Iterable[Condition]) -> int:
        """The id of the last line, whose clause says that the conditions don't hold."""
        self.clauses.append((self.next_id - 1, self.denied(path)))
        return self.next_id - 1

    def add_node(self, node: Node, path: Tuple[Condition, ...] = ()) -> int:
        """Shows that no solution is left where the conditions hold: by the part's own log, by a known model, or by what all problems show that
        it is cut into. The id of the clause that says so."""
        if node.model is not None:
            return self._add_model(node.model, path)
        if node.name is not None and self.split.proves(node):
            return self._add_part(node.name, path)
        hints = [self.add_node(child, narrowed(path + conditions)) for conditions, child in node.children]
        return self.add_clause(path, hints)

    def _add_model(self, model: str, path: Tuple[Condition, ...]) -> int:
        """Logs a model: where its own costs are reached, nothing is better. The line that says so of a cost is the first one of its test;
        that a cost is at least 0 needs none."""
        words = [spelled(k if digit == '1' else -k) for k, digit in enumerate(model, 1)]
        reached = {c.test.number: self.spell(self.row_id(c)) for c in path if c.reached and c.test.kind == 'cost'}
        ids = [reached.get(k, '0') for k in range(1, len(self.split.source.costs) + 1)]
        self.put(' '.join(['sol'] + words + [':'] + [spelled(literal) for literal in self.denied(path)] + [':'] + ids), 1)
        return self._shown(path)

    def _add_part(self, name: str, path: Tuple[Condition, ...]) -> int:
        part = PartLog(self, self.split.path(name, '.log'), path)
        first, begin = self.line, self.next_id
        end = part.copy()
        self.spans.append(Span(first, self.line, name))
        clause = self.add_clause(path, [end])
        # What the part derived serves nobody else, and `check` has to hold only what is live.
        left = [number for number in range(begin, clause) if number not in part.deleted]
        if left:
            self.put('del ' + self.spell_rising(left), 0)
        return clause


class PartLog:
    """A part's log on its way into the joined one. What a part numbers after its own rows and variables is moved by a constant."""

    def __init__(self, out: JoinedLog, path: str, conditions: Sequence[Condition]) -> None:
        self.out, self.path = out, path
        source = out.split.source
        self.common, self.variables = source.rows, source.variables
        self.own = [out.row_id(condition) for condition in conditions]
        self.denied = out.denied(conditions)
        self.next_id = self.common + len(self.own) + 1
        self.move_id, self.move_variable = out.next_id - self.next_id, out.variables - source.variables
        self.version = 1
        self.deleted = set()  # type: Set[int]
        self.words = _Moved(self.variables, self.move_variable)
        self.model = [spelled(k) for k in range(1, self.variables + 1)]

    def copy(self) -> int:
        """Writes its lines: the id, in the joined log, of the contradiction that it ends with. `Malformed` names the first line that is none
        of this part's log."""
        end = None
        with open(self.path, encoding='ascii', errors='replace', newline='\n') as file:
            for number, text in enumerate(file, 1):
                if not text.endswith('\n'):
                    raise Malformed(self.path, number, 'the log is torn: this line has no end')
                if number == 1:
                    self._read_head(text[:-1])
                    continue
                if end is not None:
                    raise Malformed(self.path, number, 'more follows than the end')
                try:
                    end = self._copy_line(text[:-1].split(' '))
                except (ValueError, IndexError):
                    raise Malformed(self.path, number, 'this is no line of a log of this part') from None
                except _Hardened:
                    raise Malformed(self.path, number, HARDENED) from None
        if end is None:
            raise Malformed(self.path, 1, 'the log is torn: it has no end')
        return end

    def _read_head(self, text: str) -> None:
        found = HEAD.fullmatch(text)
        if not found:
            raise Malformed(self.path, 1, 'this is no log: the first line of one begins with `scuttle proof version`')
        if found.group(1) is not None:
            self.version = 2
            if int(found.group(1)) != self.next_id - 1:
                raise Malformed(self.path, 1, 'this log is of another problem: it has %s rows, and the part %d' % (
                    found.group(1), self.next_id - 1))

    def _copy_line(self, words: List[str]) -> Optional[int]:
        """Writes a line; what `end` names."""
        kind = words[0]
        if kind in ('rup', 'learn'):
            at = words.index(':')
            self._put(' '.join([kind] + self._weakened(words[1:at]) + [':'] + self._hints(words[at + 1:])), 1)
        elif kind == 'pol':
            self._put(' '.join(['pol'] + self._tokens(words[1:])), 1)
        elif kind == 'def':
            self._put(' '.join(['def'] + self._literals(words[1:])), 2)
            self.out.variables += 1
        elif kind == 'sol':
            self._copy_solution(words)
        elif kind in ('del', 'reduce'):
            ids = [number for word in words[1:] for number in self._ids_of(word)]
            self.deleted.update(ids)
            self._put(kind + ' ' + self.out.spell_rising(ids), 0)
        elif kind == 'end':
            return self._moved(self._number(words[1]))
        elif kind == 'red':
            self._copy_exchange(words)
        elif kind == 'dom':
            raise _Hardened
        else:
            raise ValueError(kind)
        return None

    def _put(self, text: str, made: int) -> None:
        self.out.put(text, made)
        self.next_id += made

    def _copy_solution(self, words: List[str]) -> None:
        first = words.index(':')
        second = words.index(':', first + 1)
        model = words[1:first]
        if [word.lstrip('~') for word in model] != self.model:
            raise ValueError('a model of another problem')
        cut = [(int(word.lstrip('~x')), word) for word in self._literals(words[first + 1:second])]
        cut += [(abs(literal), spelled(literal)) for literal in self.denied]
        ids = [self.id_of(word) for word in words[second + 1:]]
        self._put(' '.join(['sol'] + model + [':'] + [word for _, word in sorted(cut)] + [':'] + ids), 1)

    def _copy_exchange(self, words: List[str]) -> None:
        """A line that puts in order what is alike. What is exchanged costs the same, so that the lines of each test of a cost stay as they are.
        If another part fixes a variable that is exchanged, its test is of the other variable then. A clause about that test holds by
        what this part and that one differ in."""
        sections = [[]]  # type: List[List[str]]
        for word in words[1:]:
            if word == ':':
                sections.append([])
            else:
                sections[-1].append(word)
        goal, witness, proofs = sections[0], sections[1], sections[2:]
        if not witness:
            self._copy_refutation(goal, proofs)
            return
        images = dict(zip(witness[::2], witness[1::2]))
        if set(images) != set(images.values()):
            raise _Hardened
        shown = {}  # type: Dict[int, str]
        for name, kind, *rest in proofs[:-1]:
            tokens = self._tokens(rest) if kind == 'pol' else self._hints(rest)
            number = self._moved(self._number(name))
            shown[number] = ' '.join([self.out.spell(number), kind] + tokens)
        moved, lines, clauses = self.out.moved_by(images)
        for number in lines:
            shown.setdefault(number, '%s pol %s %s' % (self.out.spell(number), self.out.spell(number), OPEN))
        for number in clauses:
            shown[number] = '%s rup ! ~' % self.out.spell(number)
        witness = witness + [word for variable in sorted(moved) for word in ('x%d' % variable, moved[variable])]
        name, kind, *rest = proofs[-1]
        if name != 'c' or kind != 'rup':
            raise _Hardened
        text = [shown[number] for number in sorted(shown)] + [' '.join(['c', 'rup'] + self._hints(rest))]
        self._put(' : '.join([' '.join(['red'] + self._weakened(goal)), ' '.join(witness)] + text), 1)

    def _copy_refutation(self, goal: List[str], proofs: List[List[str]]) -> None:
        """A line that follows since lines contradict its negation. Let it be S >= D. Weakened it is S + D n >= D, where n counts the conditions
        that don't hold.

        The negation of that, weakened by the conditions' variables, is the negation of S >= D. So each constraint that the tokens make is that of
        the part, of the same degree, with conditions denied besides: sums, multiples, division, saturation and weakening by the
        part's variables keep this. What is left denied at the end is cancelled.
        """
        (name, kind, *rest), = proofs
        if name != 'c':
            raise ValueError('a goal that an empty witness does not have')
        proof = self._hints(rest) if kind == 'rup' else self._own_negation(self._tokens(rest)) + self._all_hold(goal)
        self._put('%s : : %s' % (' '.join(['red'] + self._weakened(goal)), ' '.join(['c', kind] + proof)), 1)

    def _own_negation(self, tokens: List[str]) -> List[str]:
        """The tokens with the negation of the part's own goal in place of that of the weakened one."""
        weaken = [word for literal in self.denied for word in ('x%d' % abs(literal), 'w')]
        return [word for token in tokens for word in ([token] + weaken if token in '~!' else [token])]

    def _all_hold(self, goal: List[str]) -> List[str]:
        """Adds that all conditions hold, as often as any sum in a log has one of them denied. The negation of S + D n >= D says so: at degree 1
        that S and n are 0, as it is; at any other if it is weakened by the variables of S, which leaves D n < D, and divided by D."""
        if not self.denied:
            return []
        own = [word for literal in self._literals(goal[1:-2:2]) for word in (literal.lstrip('~'), 'w')]
        return ['!'] + (own + [goal[-1], 'd'] if goal[-1] != '1' else []) + [OFTEN, '*', '+']

    def _hints(self, words: Iterable[str]) -> List[str]:
        return [word if word in '~!' else self.id_of(word) for word in words]

    def _literals(self, words: Iterable[str]) -> List[str]:
        """Words of which the literals are moved."""
        moved = self.words
        return [moved[word] if 'x' in word else word for word in words]

    def _weakened(self, words: Sequence[str]) -> List[str]:
        """The constraint or the conditions denied."""
        degree = int(words[-1])
        if words[-2] != '>=' or degree < 0:
            raise ValueError('no constraint')
        left = self._literals(words[:-2])
        if not degree or not self.denied:
            return left + ['>=', words[-1]]
        # Variables of the split stand between those of the problem and those that the part defines.
        at = len(left)
        while at and int(left[at - 1].lstrip('~x')) > self.variables:
            at -= 2
        new = [word for literal in self.denied for word in (words[-1], spelled(literal))]
        return left[:at] + new + left[at:] + ['>=', words[-1]]

    def _tokens(self, words: Sequence[str]) -> List[str]:
        """Tokens of `pol`: a number is a factor exactly where `*` or `d` follows it."""
        tokens = []
        for word, after in zip(words, list(words[1:]) + ['']):
            if 'x' in word:
                tokens.append(self.words[word])
            elif word in ('+', '*', 'd', 's', 'w', '~', '!') or after in ('*', 'd'):
                tokens.append(word)
            else:
                tokens.append(self.id_of(word))
        return tokens

    def id_of(self, word: str) -> str:
        """An id of the part as the joined log spells it."""
        return self.out.spell(self._moved(self._number(word)))

    def _number(self, word: str) -> int:
        """The part's own number of a line that is there already; `ValueError` where it names none."""
        number = int(word)
        if self.version == 2 and word.startswith('-'):
            number += self.next_id
        if not 0 <= number < self.next_id:
            raise ValueError(word)
        return number

    def _moved(self, number: int) -> int:
        if number <= self.common:
            return number
        at = number - self.common - 1
        return self.own[at] if at < len(self.own) else number + self.move_id

    def _ids_of(self, word: str) -> Iterable[int]:
        first, _, last = word.partition('..')
        begin, end = self._number(first), self._number(last or first)
        if begin <= self.common + len(self.own):
            raise ValueError('a row is deleted')
        return range(begin + self.move_id, end + self.move_id + 1)


class _Hardened(Exception):
    """A line that a joined log can't have."""


class _Moved(Dict[str, str]):
    """The literals of a part, as they are spelled in the joined log; each is worked out once."""

    def __init__(self, variables: int, move: int) -> None:
        super().__init__()
        self._variables, self._move = variables, move

    def __missing__(self, word: str) -> str:
        sign, x, digits = word.partition('x')
        if x != 'x' or sign not in ('', '~') or not digits.isdigit():
            raise ValueError(word)
        variable = int(digits)
        self[word] = '%sx%d' % (sign, variable if variable <= self._variables else variable + self._move)
        return self[word]


def spelled(literal: int) -> str:
    """A literal as logs have it.

    >>> spelled(-3)
    '~x3'
    """
    return '%sx%d' % ('~' if literal < 0 else '', abs(literal))


def pieces_of(ids: Sequence[int]) -> List[Tuple[int, int]]:
    """Rising ids as runs of at most so many, first and last, each as long as it can be.

    >>> pieces_of([3, 4, 5, 7])
    [(3, 5), (7, 7)]
    """
    pieces = []  # type: List[Tuple[int, int]]
    for number in ids:
        if pieces and number == pieces[-1][1] + 1 and number - pieces[-1][0] < PIECE:
            pieces[-1] = pieces[-1][0], number
        else:
            pieces.append((number, number))
    return pieces

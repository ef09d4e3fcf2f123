"""A model: options, what has to hold of them, and what is to be small or large; written as an instance, and solved."""
import re
from typing import TYPE_CHECKING, Any, Callable, Dict, Iterable, List, NamedTuple, Optional, Sequence, Set, Tuple, TypeVar, Union, overload

from . import refusals, solving
from .conflicts import conflict_of
from .errors import BadName, Failed, ModelError, UnknownName
from .files import write_text
from .front import Front, Labels, Plan, Source
from .names import Name, Part, name_of, near, text_of_name
from .places import caller_place
from .sums import (AnyOption, Option, Row, Sum, at_least, at_most, bounds_of, exactly, if_then, in_words, no, option_of, options_of, sum_of,
                   total, whole)

if TYPE_CHECKING:
    from .pool import Workers

# Up to this many units a helping number is a ladder of units, which the search orders; beyond, each helping option is worth twice the one before.
MOST_UNITS = 64
# How long a small set of rows that can't hold together is looked for, where there is no plan. Seconds.
CONFLICT_SECONDS = 3.0
# How much of a row without a note names it.
MOST_SHOWN = 60

A = TypeVar('A', bound=Part)
B = TypeVar('B', bound=Part)
C = TypeVar('C', bound=Part)
D = TypeVar('D', bound=Part)

# What may be added: a row, several, or the truth of a comparison of plain numbers, as of sums over nothing.
Addable = Union[Row, bool, Iterable[Any]]


class Written(NamedTuple):
    """A row as it is written, and what it was said to be for.

    >>> Written('+1 x1 >= 1 ;', 'somebody works').text
    '+1 x1 >= 1 ;'
    """

    text: str
    note: str


class Model:
    """Options, what has to hold of them, and what they cost.

    >>> m = Model()
    >>> ann, ben = m.option('Ann', 'Mon'), m.option('Ben', 'Mon')
    >>> m.add(ann + ben >= 1)
    >>> m.minimise('pay', 24 * ann + 20 * ben)
    >>> m.maximise('wishes', no(ben) + ann)
    >>> for plan in m.solve():
    ...     print(plan.costs, plan.taken)
    {'pay': 20, 'wishes': 0} [('Ben', 'Mon')]
    {'pay': 24, 'wishes': 2} [('Ann', 'Mon')]
    """

    def __init__(self, strict: bool = True) -> None:
        """A model whose options are made by `option` and `options`. A name that is used in a row or a cost and that none of them has made, before
        or after, is refused once the model is written or solved; where it isn't strict, every new name makes an option.
        """
        self.strict = strict
        self.numbers = {}  # type: Dict[str, int]
        self.rows = []  # type: List[Written]
        self._names = []  # type: List[Name]
        self._found = {}  # type: Dict[Name, int]
        self._helping = set()  # type: Set[int]
        self._objectives = {}  # type: Dict[str, Tuple[str, List[Tuple[int, int]], List[int]]]
        self._known = set()  # type: Set[str]
        # Where a name was met first that no option has had so far.
        self._met = {}  # type: Dict[int, str]

    # Options.

    def option(self, *name: Part) -> Option:
        """An option by its name; several words or numbers are a tuple. The same name gives the same option.

        >>> m = Model()
        >>> m.option('Ann', 3), m.option('shop')
        (Ann 3, shop)
        """
        kept = name_of(name)
        given = kept[0] if len(kept) == 1 and isinstance(kept[0], str) else kept  # type: Name
        made = Option(given, model=self)
        number = self._number_of(given, is_made=True)
        if number in self._helping:
            raise BadName('a helping option has this name: %s' % ascii(given))
        return made

    @overload
    def options(self, first: Iterable[A], /) -> Dict[Tuple[A], Option]: ...

    @overload
    def options(self, first: Iterable[A], second: Iterable[B], /) -> Dict[Tuple[A, B], Option]: ...

    @overload
    def options(self, first: Iterable[A], second: Iterable[B], third: Iterable[C], /) -> Dict[Tuple[A, B, C], Option]: ...

    @overload
    def options(self, first: Iterable[A], second: Iterable[B], third: Iterable[C], fourth: Iterable[D],
                /) -> Dict[Tuple[A, B, C, D], Option]: ...

    @overload
    def options(self, first: Iterable[Part], second: Iterable[Part], third: Iterable[Part], fourth: Iterable[Part], fifth: Iterable[Part],
                /, *more: Iterable[Part]) -> Dict[Tuple[Any, ...], Option]: ...

    def options(self, *groups: Iterable[Any]) -> Dict[Any, Option]:
        """An option for each combination, by its tuple.

        >>> Model().options(['Ann', 'Ben'], ['Mon'])
        {('Ann', 'Mon'): Ann Mon, ('Ben', 'Mon'): Ben Mon}
        """
        keys = [()]  # type: List[Tuple[Any, ...]]
        for group in groups:
            parts = list(group)
            keys = [key + (part,) for key in keys for part in parts]
        return {key: self.option(*key) for key in keys}

    def _number_of(self, name: Name, is_made: bool = False) -> int:
        """The number of an option, which is there from its first use on; where that is before it is made, it is noted."""
        found = self._found.get(name)
        if found is None:
            found = self._found[name] = self._new_number(name, is_made)
        if is_made:
            self._met.pop(found, None)
        return found

    def _new_number(self, name: Name, is_made: bool) -> int:
        """The number of an option whose name wasn't met in this form."""
        text = text_of_name(name)
        number = self.numbers.get(text)
        if number is None:
            number = self.numbers[text] = len(self._names) + 1
            self._names.append(name)
            if not is_made:
                self._met[number] = caller_place()
        known = self._names[number - 1]
        if isinstance(name, tuple) and known != name:
            if isinstance(known, tuple):
                raise BadName('two options would have one name in the file: %s and %s' % (ascii(known), ascii(name)))
            self._names[number - 1] = name
        return number

    def _terms_of(self, given: Sum) -> Tuple[List[Tuple[int, int]], int]:
        """The terms of a sum by literals, less than 0 where negated, and the number besides."""
        if given.model is not None and given.model is not self:
            raise ModelError('this is an option of another model: %r' % given)
        terms, constant = given.terms()
        found = {}  # type: Dict[int, int]
        for (name, negated), weight in terms.items():
            number = self._number_of(name)
            literal = -number if negated else number
            found[literal] = found.get(literal, 0) + weight
        return [(weight, literal) for literal, weight in found.items() if weight], constant

    # Rows.

    def add(self, *rows: Addable, note: str = '') -> None:
        """Rows that have to hold, or lists of them. The note is a comment before the first, and names them where no plan exists.

        >>> m = Model(); a, b = m.option('a'), m.option('b')
        >>> m.add(exactly(1, a, b), note='one of both')
        >>> print(m.text(), end='')
        * x1 a
        * x2 b
        * row 1: one of both
        +1 x1 +1 x2 = 1 ;
        """
        for row in rows:
            if isinstance(row, Row):
                # What is refused here has been added, and is told of once.
                row.use()
        said = text_of_name(note) if note else ''
        for row in rows:
            if isinstance(row, bool):
                row = Row(total([]) + int(row) - 1, '>=')
            if isinstance(row, Row):
                self._add_row(row, said)
            elif isinstance(row, (Sum, str)) or not hasattr(row, '__iter__'):
                raise ModelError('a row is a comparison, as `a + b >= 1`, and this is none: %r' % (row,))
            else:
                self.add(*row, note=note)

    def __iadd__(self, rows: Addable) -> 'Model':
        self.add(rows)
        return self

    def _add_row(self, row: Row, note: str) -> None:
        terms, constant = self._terms_of(row.use().sum)
        self._mind_helping(terms, {'>=': 1, '<=': -1, '=': 0}[row.relation])
        self.rows.append(Written(' '.join([_written(terms), row.relation, '%d ;' % -constant]).strip(), note))

    def _mind_helping(self, terms: List[Tuple[int, int]], wanted: int) -> None:
        """A helping number is at least what it stands for. Where something would be satisfied by raising it, it would say nothing."""
        for weight, literal in terms:
            raised = weight if literal > 0 else -weight
            if abs(literal) in self._helping and (wanted == 0 or raised * wanted > 0):
                raise ModelError('`%s` is known from below: it may be made small, or be at most something, and nothing else' %
                                 text_of_name(self._names[abs(literal) - 1]))

    def at_least(self, count: int, *options: Any) -> None:
        """At least so many of these are taken; the short form of `add(at_least(..))`.

        >>> m = Model(); m.at_least(1, 'a', 'b'); m.rows[0].text
        '+1 x1 +1 x2 >= 1 ;'
        """
        self.add(at_least(count, *options))

    def at_most(self, count: int, *options: Any) -> None:
        """At most so many of these are taken.

        >>> m = Model(); m.at_most(1, 'a', 'b'); m.rows[0].text
        '+1 x1 +1 x2 <= 1 ;'
        """
        self.add(at_most(count, *options))

    def exactly(self, count: int, *options: Any) -> None:
        """Exactly so many of these are taken.

        >>> m = Model(); m.exactly(1, 'a', 'b'); m.rows[0].text
        '+1 x1 +1 x2 = 1 ;'
        """
        self.add(exactly(count, *options))

    def implies(self, option: AnyOption, *others: Any) -> None:
        """If the option is taken, each of the others is.

        >>> m = Model(); m.implies('a', 'b'); m.rows[0].text
        '+1 ~x1 +1 x2 >= 1 ;'
        """
        self.add(*[at_least(1, no(option), other) for other in others])

    def row(self, weighted: Iterable[Tuple[Any, AnyOption]], relation: str, bound: int) -> None:
        """The sum of (weight, option) pairs stands so to the bound: `>=`, `<=` or `=`.

        >>> m = Model(); m.row([(3, 'a'), (2, no('b'))], '<=', 4); m.rows[0].text
        '+3 x1 +2 ~x2 <= 4 ;'
        """
        if relation not in ('>=', '<=', '='):
            raise ModelError('a relation is >=, <= or =')
        self.add(Row(total(whole(weight) * option_of(option) for weight, option in weighted) - whole(bound), relation))

    # What is to be small or large.

    def minimise(self, objective: str, *sums: Any) -> None:
        """The sums are to be small together. Further calls with the same name add to it.

        >>> m = Model(); m.minimise('pay', 24 * m.option('Ann')); print(m.text(), end='')
        * x1 Ann
        * min 1 pay
        min: +24 x1 ;
        """
        self._objective(objective, 'min', sums)

    def maximise(self, objective: str, *sums: Any) -> None:
        """The sums are to be large together.

        >>> m = Model(); m.maximise('profit', 7 * m.option('shop') - 2); print(m.text(), end='')
        * x1 shop
        * max 1 profit
        max: +7 x1 -2 x1 -2 ~x1 ;
        """
        self._objective(objective, 'max', sums)

    def cost(self, objective: str, weight: Any, *options: Any) -> None:
        """Each of the options that is taken adds the weight to the objective, which is made small.

        >>> m = Model(strict=False); m.cost('pay', 24, 'Ann', no('Ben')); m.text().split('\\n')[3]
        'min: +24 x1 +24 ~x2 ;'
        """
        self._objective(objective, 'min', [whole(weight) * option for option in options_of(options)])

    def gain(self, objective: str, weight: Any, *options: Any) -> None:
        """Each of the options that is taken adds the weight to the objective, which is made large.

        >>> m = Model(strict=False); m.gain('profit', 7, 'shop'); m.text().split('\\n')[2]
        'max: +7 x1 ;'
        """
        self._objective(objective, 'max', [whole(weight) * option for option in options_of(options)])

    def _objective(self, objective: str, sense: str, sums: Iterable[Any]) -> None:
        if not isinstance(objective, str):
            raise ModelError('a cost has a name, which comes first, as in minimise("pay", 3 * ann), and this is a %s: %r' % (
                type(objective).__name__, objective))
        name = text_of_name(objective)
        if self._objectives.get(name, (sense,))[0] != sense:
            raise ModelError('an objective is made small or large, and not both: %s' % ascii(objective))
        terms, constant = self._terms_of(total(sum_of(given) for given in sums))
        self._mind_helping(terms, -1 if sense == 'min' else 1)
        _, known, constants = self._objectives.setdefault(name, (sense, [], []))
        known += terms
        constants.append(constant)

    # Helping options.

    def excess(self, of: Any, over: int, name: str = '') -> Sum:
        """By how much a sum is over a number, at least 0, as a sum of helping options. It may be made small, or be at most something.

        >>> m = Model(); a, b = m.option('a'), m.option('b')
        >>> m.minimise('overtime', 10 * m.excess(a + b, over=1)); m.rows[0].text
        '+1 x1 +1 x2 -1 x3 <= 1 ;'
        """
        above = sum_of(of) - whole(over)
        said = text_of_name(name or 'excess %d' % (1 + sum(word.startswith('excess ') for word in self._known)))
        steps = self._steps(max(0, bounds_of(above)[1]), said)
        self._add_row(Row(above - steps, '<='), said)
        self._helping |= self._numbers_in(steps)
        return steps

    def shortfall(self, of: Any, under: int, name: str = '') -> Sum:
        """By how much a sum is under a number, at least 0. It may be made small, or be at most something.

        >>> m = Model(); m.minimise('missing', m.shortfall(m.option('a') + m.option('b'), under=1)); m.rows[0].text
        '-1 x1 -1 x2 -1 x3 <= -1 ;'
        """
        said = name or 'shortfall %d' % (1 + sum(word.startswith('shortfall ') for word in self._known))
        return self.excess(-sum_of(of), -whole(under), said)

    def maximum(self, of: Sequence[Any], name: str = '', up_to: Optional[int] = None) -> Sum:
        """The greatest of some sums, as one sum. It may be made small, or be at most something. With `up_to` none may be greater.

        >>> m = Model(); a, b, c = m.option('a'), m.option('b'), m.option('c')
        >>> m.minimise('heaviest load', m.maximum([a + b, c])); [row.text for row in m.rows]
        ['+1 x1 +1 x2 -1 x4 -1 x5 <= 0 ;', '+1 x3 -1 x4 -1 x5 <= 0 ;', '+1 x4 -1 x5 >= 0 ;']
        """
        sums = [sum_of(given) for given in of]
        if not sums:
            raise ModelError('there is no greatest of no sums')
        said = text_of_name(name or 'maximum %d' % (1 + sum(word.startswith('maximum ') for word in self._known)))
        bounds = [bounds_of(given) for given in sums]
        least, greatest = max(low for low, _ in bounds), max(high for _, high in bounds)
        greatest = greatest if up_to is None else max(least, min(greatest, whole(up_to)))
        steps = self._steps(greatest - least, said) + least
        for given in sums:
            self._add_row(Row(given - steps, '<='), said)
        numbers = sorted(self._numbers_in(steps))
        if greatest - least <= MOST_UNITS:
            # The ladder is filled from below, so that the search tries no load in several ways.
            for low, high in zip(numbers, numbers[1:]):
                self._add_row(Row(self._option_at(low) - self._option_at(high), '>='), said)
        self._helping |= set(numbers)
        if up_to is not None and whole(up_to) < least:
            self.add(False, note=said)
        return steps

    def _steps(self, most: int, said: str) -> Sum:
        """A sum of new helping options that can be each number from 0 to the most."""
        if said in self._known:
            raise BadName('two helping numbers would have one name: %s' % ascii(said))
        self._known.add(said)
        weights, left = [], most  # type: List[int], int
        while left > 0:
            weights.append(1 if most <= MOST_UNITS else min(left, 2 ** len(weights)))
            left -= weights[-1]
        names = ['%s, step %d' % (said, k) for k in range(1, len(weights) + 1)]
        if any(name in self.numbers for name in names):
            raise BadName('a helping option would have the name of an option: %s' % ascii(names[0]))
        return total(weight * self.option(name) for weight, name in zip(weights, names))

    def _numbers_in(self, given: Sum) -> Set[int]:
        return {self.numbers[text_of_name(name)] for name, _ in given.terms()[0]}

    def _option_at(self, number: int) -> Option:
        return Option(self._names[number - 1], model=self)

    # The instance.

    def text(self) -> str:
        """The instance, in the format of linear statements. The same calls give the same text. `UnknownName` where a name is used that no option
        has, unless the model isn't strict.

        >>> Model().text()
        ''
        """
        self._mind_unknown()
        if not self._names and any(sum(constants) for _, _, constants in self._objectives.values()):
            # A number that no option changes wants an option to be written with.
            self._helping.add(self._number_of('constant', is_made=True))
        names = [text_of_name(name) for name in self._names]
        lines = ['* x%d %s' % (number, name) for number, name in enumerate(names, 1)]
        lines += ['* %s %d %s' % (sense, k, name) for k, (name, (sense, _, _)) in enumerate(self._objectives.items(), 1)]
        lines += [self._objective_text(*objective) for objective in self._objectives.values()]
        before = ''
        for number, row in enumerate(self.rows, 1):
            if row.note and row.note != before:
                lines.append('* row %d: %s' % (number, row.note))
            before = row.note
            lines.append(row.text)
        last = 'x%d' % len(names)
        if names and not any(re.search(r'%s\b' % last, line) for line in lines if not line.startswith('*')):
            # The number of variables is the largest that occurs.
            lines.append('+1 %s >= 0 ;' % last)
        return ''.join(line + '\n' for line in lines)

    def _mind_unknown(self) -> None:
        """Refuses the first name that no option has."""
        if self.strict and self._met:
            number, place = next(iter(self._met.items()))
            text = text_of_name(self._names[number - 1])
            meant = near(text, [known for known, k in self.numbers.items() if k not in self._met and k not in self._helping])
            raise UnknownName('no option(..) or options(..) has made %s%s%s Model(strict=False) makes an option of every new name' % (
                ascii(text), ' (%s)' % place if place else '', ': is %s meant?' % ascii(meant) if meant else '.'))

    def _objective_text(self, sense: str, terms: List[Tuple[int, int]], constants: List[int]) -> str:
        constant = sum(constants)
        # Of an option and its opposite exactly one counts, so that this is the number that it should be.
        both = [(constant, 1), (constant, -1)] if constant else []
        return ' '.join(('%s: %s ;' % (sense, _written(terms + both))).split())

    def write(self, path: str) -> None:
        """Writes the instance, whole or not at all; an `OSError` names the file.

        >>> Model().write('empty.opb')
        """
        write_text(path, self.text())

    def labels(self) -> Labels:
        """The names of objectives and options, as a front of this model has them.

        >>> m = Model(); m.minimise('pay', m.option('Ann')); m.labels().objectives
        ['pay']
        """
        return Labels(list(self._objectives), [sense for sense, _, _ in self._objectives.values()], list(self._names),
                      frozenset(self._helping))

    def conflict(self, seconds: float = CONFLICT_SECONDS, program: Optional[str] = None) -> List[str]:
        """A small set of rows that can't hold together, in words; empty where none was found in this time.

        >>> m = Model(); a = m.option('a'); m.add(a >= 1, note='we want a'); m.add(m.option('b') >= 0, a <= 0)
        >>> m.conflict(seconds=60)
        ['a >= 1 (we want a)', 'a <= 0']
        """
        self._mind_unknown()
        kept = conflict_of([row.text for row in self.rows], seconds, program)
        return [self._row_in_words(self.rows[at]) for at in kept]

    def _row_in_words(self, row: Written) -> str:
        terms = {(self._names[int(number) - 1], sign == '~'): int(weight)
                 for weight, sign, number in re.findall(r'([-+][0-9]+) (~?)x([0-9]+)', row.text)}
        relation, bound = row.text.split()[-3:-1]
        return '%s %s %s%s' % (in_words(terms, 0), relation, bound, ' (%s)' % row.note if row.note else '')

    def solve(self, seconds: Optional[float] = None, learn: Optional[int] = None, search: Optional[str] = None, harden: bool = False,
              boost: bool = False, on_plan: Optional[Callable[[Plan], object]] = None, log_version: int = 1,
              turns: Optional[str] = None, program: Optional[str] = None, folder: Optional[str] = None, jobs: Optional[int] = None,
              executor: 'Optional[Workers]' = None) -> Front:
        """The front, with its list and log checked. See `solving.Settings` for the options of the search.

        After so many seconds, after so many learned clauses, or with Ctrl-C it is the models so far, with `complete` False; the check after a
        search that has ended takes its own time besides. `on_plan` is called with each plan that the search finds, as it finds it. In the
        folder, where one is given, stay `model.opb`, `model.list` and `model.log`. Raises `UnknownName` (see `Model`), `Failed`, with the note
        of the row or the name of the cost that is refused, `NoProgram`, and `OSError` where the folder can't be written.

        With `jobs` it is solved in parts, so many at a time, and with an executor of `concurrent.futures`, or a client of Dask, by its
        workers, which want this package and no shared folder: `check` judges the one log that the parts' logs make. Without `harden`, `learn`
        and `on_plan` then.

        >>> m = Model(); m.add(m.option('a') + m.option('b') >= 1)
        >>> front = m.solve(seconds=60)
        >>> front.complete, front.accepted, len(front)
        (True, True, 1)
        """
        settings = solving.Settings(seconds, learn, search, turns, harden, boost, log_version, jobs, executor)
        source = Source('model.opb', self.text(), program)
        try:
            front = solving.solve(source, self.labels(), settings, on_plan, folder)
        except Failed as fault:
            rows = ['`%s`' % (row.note or self._row_in_words(row)[:MOST_SHOWN]) for row in self.rows]
            raise refusals.named(fault, source.text, ['`%s`' % name for name in self._objectives], rows) from None
        if front.complete and not front.plans:
            front.conflict = self.conflict(program=program)
        return front


def _written(terms: List[Tuple[int, int]]) -> str:
    return ' '.join('%+d %sx%d' % (weight, '~' if literal < 0 else '', abs(literal)) for weight, literal in terms)

"""Options, sums of them, and the rows that say how sums stand to numbers.

Operators make them: `3*a + b - c <= 2`, `sum(xs) >= 2`, `a.implies(b)`, `no(a)`. A row counts once it is added to a model.
"""
import operator
import sys
import warnings
from decimal import Decimal
from numbers import Rational
from typing import Any, Dict, Iterable, List, Optional, Tuple, Union

from .errors import BadName, ModelError, NotAdded, NotWhole
from .names import Name, name_of, part_of, text_of_name

# An option's name, and whether its opposite is meant.
Literal = Tuple[Name, bool]


def whole(number: Any) -> int:
    """A whole number; `NotWhole` for a float, a fraction and what is no number.

    >>> whole(3), whole(Decimal('24.0'))
    (3, 24)
    """
    try:
        return int(operator.index(number))
    except TypeError:
        pass
    if isinstance(number, Decimal) and number.is_finite() and number == number.to_integral_value():
        return int(number)
    if isinstance(number, Rational) and number.denominator == 1:
        return int(number)
    raise NotWhole('%r is a %s, and numbers of a model are whole: multiply it and all that it is compared or added with by 10, 100, .. '
                   'and use int(round(..)), or write whole numbers of a smaller unit' % (number, type(number).__name__))


class Sum:
    """A sum of weighted options and a number. It is kept as it was written, so that a long `sum(xs)` takes no longer than its length.

    >>> a, b = Option('a'), Option('b')
    >>> 3 * a + b - 2 <= 4
    3 a + b <= 6
    """

    __slots__ = ('model', '_pieces', '_constant')
    __hash__ = None  # type: ignore[assignment]
    # Numbers of numpy leave it to a sum what they are times a sum.
    __array_ufunc__ = None

    def __init__(self, model: Optional[object], pieces: 'Tuple[Tuple[int, Sum], ...]', constant: int) -> None:
        self.model, self._pieces, self._constant = model, pieces, constant

    def terms(self) -> Tuple[Dict[Literal, int], int]:
        """The weight of each literal, in the order in which they were written, and the number besides.

        >>> (Option('a') - Option('a') + Option('b') + 1).terms()
        ({('b', False): 1}, 1)
        """
        found, constant, waiting = {}, 0, [(1, self)]  # type: Dict[Literal, int], int, List[Tuple[int, Sum]]
        while waiting:
            factor, piece = waiting.pop()
            constant += factor * piece._constant
            if isinstance(piece, Option):
                found[piece.literal] = found.get(piece.literal, 0) + factor
            else:
                waiting.extend((factor * times, inner) for times, inner in reversed(piece._pieces))
        return {literal: weight for literal, weight in found.items() if weight}, constant

    def __add__(self, other: Any) -> 'Sum':
        added = sum_of(other)
        return Sum(_one_model(self, added), ((1, self), (1, added)), 0)

    def __radd__(self, other: Any) -> 'Sum':
        # The sum over an empty beginning is the number 0.
        return self if type(other) is int and other == 0 else sum_of(other) + self

    def __sub__(self, other: Any) -> 'Sum':
        return self + -sum_of(other)

    def __rsub__(self, other: Any) -> 'Sum':
        return sum_of(other) + -self

    def __neg__(self) -> 'Sum':
        return Sum(self.model, ((-1, self),), 0)

    def __mul__(self, factor: Any) -> 'Sum':
        if isinstance(factor, Sum):
            raise ModelError('a product of options is no sum: an option that stands for both at once says it by rows')
        return Sum(self.model, ((whole(factor), self),), 0)

    __rmul__ = __mul__

    def __le__(self, other: Any) -> 'Row':
        return Row(self - other, '<=')

    def __ge__(self, other: Any) -> 'Row':
        return Row(self - other, '>=')

    def __lt__(self, other: Any) -> 'Row':
        return Row(self - other + 1, '<=')

    def __gt__(self, other: Any) -> 'Row':
        return Row(self - other - 1, '>=')

    def __eq__(self, other: Any) -> 'Row':  # type: ignore[override]
        if isinstance(self, Option) and isinstance(other, Option):
            return Row(self - other, '=', self._key() == other._key())
        if not _is_addend(other):
            return NotImplemented
        return Row(self - other, '=')

    def __ne__(self, other: Any) -> 'Row':  # type: ignore[override]
        if isinstance(self, Option) and isinstance(other, Option):
            return Row(self + other - 1, '=', self._key() != other._key())
        if not _is_addend(other):
            return NotImplemented
        raise ModelError("`!=` between sums isn't one row: use `<` or `>`, with an option that says which")

    def __bool__(self) -> bool:
        raise ModelError('what a sum or an option is worth is known once the model is solved: `and`, `or`, `not`, `if` can\'t ask it '
                         '(say `no(a)`, `a + b >= 1`, `a.implies(b)`)')

    def __repr__(self) -> str:
        return in_words(*self.terms())


class Option(Sum):
    """An option, or its opposite. Two are one where their names are the same.

    >>> Option(('Ann', 'Mon')), no('Ben')
    (Ann Mon, no(Ben))
    """

    __slots__ = ('name', 'negated')

    def __init__(self, name: Name, negated: bool = False, model: Optional[object] = None) -> None:
        super().__init__(model, (), 0)
        text_of_name(name)
        self.name, self.negated = name_of(name), negated

    @property
    def literal(self) -> Literal:
        """The name, and whether the opposite is meant."""
        return self.name, self.negated

    def _key(self) -> Tuple[str, bool, int]:
        """What tells options apart."""
        return text_of_name(self.name), self.negated, id(self.model)

    def __hash__(self) -> int:  # type: ignore[override]
        return hash(self._key())

    def __invert__(self) -> 'Option':
        return Option(self.name, not self.negated, self.model)

    def implies(self, *others: 'Union[Option, Name, Row]') -> 'List[Row]':
        """If this is taken, each of the others is, or each of the rows holds.

        >>> Option('a').implies(Option('b'), Option('c') + Option('d') <= 1)
        [no(a) + b >= 1, no(a) - c - d >= -1]
        """
        rows = []  # type: List[Row]
        for other in others:
            rows += if_then(self, other) if isinstance(other, Row) else [Row(no(self) + option_of(other) - 1, '>=')]
        return rows

    def iff(self, other: 'Union[Option, Name]') -> 'Row':
        """Both are taken, or neither is.

        >>> Option('a').iff('b')
        a - b = 0
        """
        return Row(self - option_of(other), '=')


class Row:
    """How a sum stands to a number: something that has to hold. It has no truth value, so `1 <= s <= 2` has to be two rows. One that goes
    without having been added to a model is warned of.

    >>> Option('a') + Option('b') >= 1
    a + b >= 1
    """

    __slots__ = ('sum', 'relation', 'truth', 'is_used')

    def __init__(self, total: Sum, relation: str, truth: Optional[bool] = None) -> None:
        self.sum, self.relation, self.truth, self.is_used = total, relation, truth, False

    def use(self) -> 'Row':
        """Notes that it was added to a model, or has become a part of other rows."""
        self.is_used = True
        return self

    def __del__(self) -> None:
        # What wasn't made whole is refused by then, and while Python ends nothing can be said.
        if not getattr(self, 'is_used', True) and not sys.is_finalizing():
            warnings.warn('the row `%r` was made and never added: m.add(..) adds it' % self, NotAdded, stacklevel=2)

    def __bool__(self) -> bool:
        self.is_used = True
        # Of two options `==` is asked by `in` and by dictionaries.
        if self.truth is None:
            raise ModelError('a row holds or not once the model is solved: `1 <= s <= 2`, `and`, `or` are to be rows of their own')
        return self.truth

    def __repr__(self) -> str:
        terms, constant = self.sum.terms()
        return '%s %s %d' % (in_words(terms, 0), self.relation, -constant)


# What stands where an option is asked for.
AnyOption = Union[Option, Name]


def in_words(terms: Dict[Literal, int], constant: int) -> str:
    """A sum as it would be written.

    >>> in_words({('a', False): 3, ('b', True): -1}, 2)
    '3 a - no(b) + 2'
    """
    pieces = [(weight, 'no(%s)' % text_of_name(name) if negated else text_of_name(name)) for (name, negated), weight in terms.items()]
    words = ['%s %s%s' % ('-' if weight < 0 else '+', '' if abs(weight) == 1 else '%d ' % abs(weight), name) for weight, name in pieces]
    words += ['%s %d' % ('-' if constant < 0 else '+', abs(constant))] if constant or not words else []
    text = ' '.join(words)
    return text[2:] if text.startswith('+ ') else '-' + text[2:]


def option_of(thing: Any) -> Option:
    """The option that is given, or the one of this name.

    >>> option_of('a')
    a
    """
    return thing if isinstance(thing, Option) else Option(thing)


def sum_of(thing: Any) -> Sum:
    """The sum that something stands for: a sum, an option, or a whole number. A name alone isn't one, so that none is added by mistake.

    >>> sum_of(3) + Option('a')
    a + 3
    """
    if isinstance(thing, Sum):
        return thing
    if isinstance(thing, (str, tuple)):
        raise ModelError('%s is a name: Option(..) or a model\'s option(..) makes an option of it' % ascii(thing))
    return Sum(None, (), whole(thing))


def _is_addend(thing: Any) -> bool:
    """Whether a sum can be compared with this; what is no number at all, as None, is just different."""
    return isinstance(thing, (Sum, int, float, Decimal, Rational)) or hasattr(thing, '__index__')


def _one_model(a: Sum, b: Sum) -> Optional[object]:
    if a.model is not None and b.model is not None and a.model is not b.model:
        raise ModelError('these are options of two models')
    return b.model if a.model is None else a.model


def no(option: AnyOption) -> Option:
    """The opposite of an option.

    >>> no('a'), no(no('a'))
    (no(a), a)
    """
    return ~option_of(option)


def options_of(options: Iterable[Any]) -> List[Option]:
    """The options of some words: each is an option, a name, or several of these. One tuple of words alone could be either, and is refused.

    >>> options_of(['a', ['b', no('c')]])
    [a, b, no(c)]
    """
    given = list(options)
    if len(given) == 1 and _is_name(given[0]) and isinstance(given[0], tuple) and len(given[0]) > 1:
        raise ModelError('%s is one name or several: several stand in a list, [..]' % ascii(given[0]))
    found = []  # type: List[Option]
    for thing in given:
        found += [option_of(thing)] if isinstance(thing, Option) or _is_name(thing) else [option_of(inner) for inner in thing]
    return found


def _is_name(thing: Any) -> bool:
    """Whether something is a name, and not several: a word, or a tuple of what names are made of."""
    if not isinstance(thing, (str, tuple)):
        return _is_part(thing)
    return isinstance(thing, str) or all(_is_part(part) for part in thing)


def _is_part(thing: Any) -> bool:
    try:
        part_of(thing)
    except BadName:
        return False
    return True


def total(options: Iterable[Sum]) -> Sum:
    """The sum over options, as `sum` gives it, which of none is a sum too.

    >>> total([]) >= 1
    0 >= 1
    """
    return sum(options, Sum(None, (), 0))


def at_most(count: int, *options: Any) -> Row:
    """At most so many of the options are taken.

    >>> at_most(1, ['a', 'b'])
    a + b <= 1
    """
    return Row(total(options_of(options)) - whole(count), '<=')


def at_least(count: int, *options: Any) -> Row:
    """At least so many of the options are taken.

    >>> at_least(1, 'a', no('b'))
    a + no(b) >= 1
    """
    return Row(total(options_of(options)) - whole(count), '>=')


def exactly(count: int, *options: Any) -> Row:
    """Exactly so many of the options are taken.

    >>> exactly(1, ['a', 'b'])
    a + b = 1
    """
    return Row(total(options_of(options)) - whole(count), '=')


def if_then(option: AnyOption, *rows: 'Union[Row, List[Row]]') -> List[Row]:
    """If the option is taken, the rows hold.

    >>> if_then('open', Option('a') + Option('b') >= 2)
    [2 no(open) + a + b >= 2]
    """
    found = []  # type: List[Row]
    for row in rows:
        if isinstance(row, list):
            found += if_then(option, *row)
            continue
        row.use()
        signs = {'>=': (1,), '<=': (-1,), '=': (1, -1)}[row.relation]
        for sign in signs:
            least = bounds_of(row.sum * sign)[0]
            # If the option isn't taken, the sum gets what it may lack.
            found += [Row(max(0, -least) * no(option) + row.sum * sign, '>=')]
    return found


def bounds_of(given: Sum) -> Tuple[int, int]:
    """The least and the greatest number that a sum can be.

    >>> bounds_of(3 * Option('a') - Option('b') + 1)
    (0, 4)
    """
    terms, constant = given.terms()
    least, greatest = constant, constant
    for (name, negated), weight in terms.items():
        # Of an option and its opposite exactly one counts.
        other = terms.get((name, not negated), 0)
        if other and negated:
            continue
        least, greatest = least + min(weight, other), greatest + max(weight, other)
    return least, greatest

"""Linear programs over 0-1 variables as other programs write them, and the instance that they are: shared by the readers of LP and MPS."""
import sys
from fractions import Fraction
from typing import Dict, List, NamedTuple, Optional, Sequence, Set, Tuple

from .errors import BadName, Malformed
from .files import printable, write_text
from .names import text_of_name

# The largest sum of magnitudes of a row or an objective: docs/FORMATS.md.
LARGEST = 2 ** 63 - 1

Weights = Dict[str, Fraction]


class Expression(NamedTuple):
    """A sum of weighted variables, and a number.

    >>> Expression({'x': Fraction(3)}, Fraction(0)).constant
    Fraction(0, 1)
    """

    weights: Weights
    constant: Fraction


class Goal(NamedTuple):
    """An objective: its name, `min` or `max`, its sum, and its line.

    >>> Goal('pay', 'min', Expression({}, Fraction(0)), 1).sense
    'min'
    """

    name: str
    sense: str
    sum: Expression
    line: int


class Limit(NamedTuple):
    """A row: its name, its weights, `>=`, `<=` or `=`, its bound, and its line.

    >>> Limit('c1', {}, '>=', Fraction(1), 4).relation
    '>='
    """

    name: str
    weights: Weights
    relation: str
    bound: Fraction
    line: int


class Program:
    """What a file says: objectives, rows, the bounds of variables and which are whole; variables in the order in which they come.

    >>> Program('a.lp').goals
    []
    """

    def __init__(self, path: str) -> None:
        self.path = path
        self.goals = []  # type: List[Goal]
        self.limits = []  # type: List[Limit]
        # None stands for no bound.
        self.lower = {}  # type: Dict[str, Optional[Fraction]]
        self.upper = {}  # type: Dict[str, Optional[Fraction]]
        self.whole = set()  # type: Set[str]
        # Each variable, and the line where it comes first.
        self.variables = {}  # type: Dict[str, int]

    def wrong(self, line: int, what: str) -> Malformed:
        """The error of a line."""
        return Malformed(self.path, line, what)

    def meet(self, weights: Weights, line: int) -> None:
        """Takes note of the variables of a sum."""
        for name in weights:
            self.variables.setdefault(name, line)

    def make_binary(self, name: str, line: int) -> None:
        """Says that a variable is 0 or 1."""
        self.variables.setdefault(name, line)
        self.whole.add(name)
        self.lower[name], self.upper[name] = Fraction(0), Fraction(1)

    def bounds(self, name: str) -> Tuple[Optional[Fraction], Optional[Fraction]]:
        """The bounds of a variable: 0 and none, where nothing is said."""
        return self.lower.get(name, Fraction(0)), self.upper.get(name)


def fixed_of(program: Program) -> Weights:
    """The variables that have one value, with it; `Malformed` where another isn't 0 or 1."""
    fixed = {}
    for name, line in program.variables.items():
        low, high = program.bounds(name)
        if low is not None and low == high:
            fixed[name] = low
        elif name not in program.whole:
            raise program.wrong(line, 'the variable %s is continuous, and only variables of 0 and 1 can be taken' % name)
        elif low is None or high is None or low <= -1 or high >= 2:
            words = [' '.join(text) for text in (('from', str(low)), ('to', str(high))) if text[1] != 'None']
            raise program.wrong(line, 'the variable %s is a whole number %s, and only variables of 0 and 1 can be taken' % (
                name, ' '.join(words) or 'without bounds'))
        elif low > 0 or high < 1:
            # Of 0 and 1 one is left.
            fixed[name] = Fraction(1 if low > 0 else 0)
    return fixed


def without_slacks(program: Program) -> Program:
    """The same without the continuous variables that only say how far a row's sum may be from its bound, as glpsol writes rows of two bounds.

    >>> program = Program('a.lp')
    >>> program.limits = [Limit('c1', {'a': Fraction(1), 's': Fraction(-1)}, '=', Fraction(0), 3)]
    >>> program.make_binary('a', 3); program.meet({'s': Fraction(1)}, 3); program.upper['s'] = Fraction(1)
    >>> [(limit.relation, int(limit.bound)) for limit in without_slacks(program).limits]
    [('>=', 0), ('<=', 1)]
    """
    places = {}  # type: Dict[str, List[int]]
    for at, limit in enumerate(program.limits):
        for name in limit.weights:
            places.setdefault(name, []).append(at)
    in_goals = {name for goal in program.goals for name in goal.sum.weights}
    slacks = {}  # type: Dict[int, str]
    for name, rows in places.items():
        low, high = program.bounds(name)
        if name not in program.whole and name not in in_goals and low != high and len(rows) == 1 \
                and program.limits[rows[0]].relation == '=' and program.limits[rows[0]].weights[name] and rows[0] not in slacks:
            slacks[rows[0]] = name
    left = Program(program.path)
    left.goals, left.whole, left.lower, left.upper = program.goals, program.whole, program.lower, program.upper
    left.variables = {name: line for name, line in program.variables.items() if name not in set(slacks.values())}
    for at, limit in enumerate(program.limits):
        left.limits += _both_sides(program, limit, slacks[at]) if at in slacks else [limit]
    return left


def _both_sides(program: Program, limit: Limit, slack: str) -> List[Limit]:
    """The bounds that a row has by a variable of its own: the sum is its bound less that variable's part."""
    weights = {name: weight for name, weight in limit.weights.items() if name != slack}
    ends = [None if end is None else limit.bound - limit.weights[slack] * end for end in program.bounds(slack)]
    low, high = ends if limit.weights[slack] < 0 else ends[::-1]
    sides = [] if low is None else [limit._replace(weights=weights, relation='>=', bound=low)]
    return sides + ([] if high is None else [limit._replace(weights=weights, relation='<=', bound=high)])


def places_of(program: Program, numbers: Sequence[Fraction], line: int) -> int:
    """The power of ten by which all numbers become whole; `Malformed` where they are none of 63 bits then.

    >>> places_of(Program('a.lp'), [Fraction('0.25'), Fraction(3)], 1)
    2
    """
    places = 0
    while any((number * 10 ** places).denominator != 1 for number in numbers):
        places += 1
        if sum(abs(number) for number in numbers) * 10 ** places > LARGEST:
            raise program.wrong(line, 'these numbers have too many decimals to be made whole: round them')
    if sum(abs(number) for number in numbers) * 10 ** places > LARGEST:
        raise program.wrong(line, 'these numbers are too large')
    return places


def _bare(weights: Weights, fixed: Weights) -> Expression:
    """A sum without the variables that have one value."""
    constant = sum((weight * fixed[name] for name, weight in weights.items() if name in fixed), Fraction(0))
    return Expression({name: weight for name, weight in weights.items() if name not in fixed and weight}, constant)


def _written(weights: Weights, places: int, numbers: Dict[str, int]) -> str:
    return ' '.join('%+d x%d' % (int(weight * 10 ** places), numbers[name]) for name, weight in weights.items())


def write_instance(command: str, path: str, programs: Sequence[Program]) -> int:
    """Writes the instance of some programs, and says on standard error which costs it has: formats and programs differ in how they say it."""
    text = instance_text(programs)
    write_text(path, text)
    costs = [line.split(' ', 3) for line in text.split('\n') if line.startswith(('* min ', '* max '))]
    print('%s: costs: %s' % (command, printable('; '.join('%s %s' % (sense, name) for _, sense, _, name in costs)) or 'none'), file=sys.stderr)
    return 0


def instance_text(programs: Sequence[Program]) -> str:
    """The instance that some programs of the same rows are together: an objective for each of theirs. `Malformed` names what can't be taken.

    Decimals are made whole, by a power of ten for each row and each objective, which the objective's name says.
    """
    programs = [without_slacks(program) for program in programs]
    fixed = [fixed_of(program) for program in programs]
    numbers = {}  # type: Dict[str, int]
    for program, values in zip(programs, fixed):
        for name in program.variables:
            if name not in values:
                numbers.setdefault(name, len(numbers) + 1)
    _have_same_rows(programs, fixed, numbers)
    lines = ['* x%d %s' % (number, _checked(programs[0], name)) for name, number in numbers.items()]
    goals, taken = [], set()  # type: List[str], Set[str]
    for program, values in zip(programs, fixed):
        for goal in program.goals:
            name, text = _goal_text(program, goal, values, numbers)
            if name in taken:
                raise program.wrong(goal.line, 'two objectives have one name: %s' % name)
            taken.add(name)
            lines.append('* %s %d %s' % (goal.sense, len(goals) + 1, name))
            goals.append(text)
    lines += goals
    for limit in programs[0].limits:
        lines += _row_lines(programs[0], limit, fixed[0], numbers)
    return '\n'.join(lines + _last_row(lines, len(numbers))) + '\n'


def _have_same_rows(programs: Sequence[Program], fixed: Sequence[Weights], numbers: Dict[str, int]) -> None:
    """Refuses a file whose rows aren't those of the first, or in which a variable has one value that may have two in another."""
    rows = []
    for program, values in zip(programs, fixed):
        for name, line in program.variables.items():
            if name in values and name in numbers:
                raise program.wrong(line, 'the variable %s has one value here, and not in another file' % name)
        bare = [(_bare(limit.weights, values), limit) for limit in program.limits]
        rows.append([(sorted(each.weights.items()), limit.relation, limit.bound - each.constant) for each, limit in bare])
        if rows[-1] != rows[0]:
            raise program.wrong(1, 'its rows aren\'t those of %s' % programs[0].path)


def _row_lines(program: Program, limit: Limit, fixed: Weights, numbers: Dict[str, int]) -> List[str]:
    """A row and a comment with its name."""
    bare = _bare(limit.weights, fixed)
    bound = limit.bound - bare.constant
    places = places_of(program, list(bare.weights.values()) + [bound], limit.line)
    row = '%s %s %d ;' % (_written(bare.weights, places, numbers), limit.relation, int(bound * 10 ** places))
    return ['* row %s%s' % (_checked(program, limit.name), ', times 1%s' % ('0' * places) if places else ''), row.strip()]


def _last_row(lines: Sequence[str], count: int) -> List[str]:
    """A row that always holds, where the last variable stands in no other: the number of variables is the largest that occurs."""
    last = ' x%d ' % count
    return [] if not count or any(last in ' ' + line for line in lines if not line.startswith('*')) else ['+1%s>= 0 ;' % last]


def _goal_text(program: Program, goal: Goal, fixed: Weights, numbers: Dict[str, int]) -> Tuple[str, str]:
    """The name and the text of an objective. A number besides is written as a variable and its opposite, of which one counts."""
    bare = _bare(goal.sum.weights, fixed)
    constant = goal.sum.constant + bare.constant
    places = places_of(program, list(bare.weights.values()) + [constant, constant], goal.line)
    name = _checked(program, goal.name) + ('' if places == 0 else ', in 0.%s1' % ('0' * (places - 1)))
    if constant and not numbers:
        raise program.wrong(goal.line, 'the objective %s is a number, and there is no variable' % goal.name)
    both = '%+d x1 %+d ~x1' % (2 * (int(constant * 10 ** places),)) if constant else ''
    return name, ' '.join(('%s: %s %s ;' % (goal.sense, _written(bare.weights, places, numbers), both)).split())


def _checked(program: Program, name: str) -> str:
    try:
        return text_of_name(name)
    except BadName as fault:
        raise program.wrong(program.variables.get(name, 1), str(fault)) from None

"""Reads instances: files of clauses (`.mcnf`) and of linear statements (`.opb`, `.mopb`), and the names in their comments.

It is no judge of an instance: the program is. docs/FORMATS.md has the formats.
"""
import re
from typing import Dict, Iterable, Iterator, List, NamedTuple, Sequence, Tuple

from .errors import Malformed
from .files import Line, is_whole, read_lines, whole_of
from .kinds import mind_ending

# A coefficient and a literal, which is a variable, or less than 0 where it is negated.
Term = Tuple[int, int]
# A weight and a clause: the weight counts where no literal of the clause is true.
Soft = Tuple[int, List[int]]
Model = Sequence[int]
Costs = Tuple[int, ...]


class Objective(NamedTuple):
    """A sum of weights; each counts where its literal is true, or, of a soft clause, where none of its literals is.

    Its sense is `min` or `max`: small or large sums are better.

    >>> Objective('min', [(3, 1), (5, -2)], [])
    Objective(sense='min', terms=[(3, 1), (5, -2)], softs=[])
    """

    sense: str
    terms: List[Term]
    softs: List[Soft]


class Row(NamedTuple):
    """A constraint: the sum of the terms stands so to the bound, by `>=`, `<=` or `=`; and the line where it begins.

    >>> Row([(1, 1), (1, 2)], '>=', 1, 6).bound
    1
    """

    terms: List[Term]
    relation: str
    bound: int
    line: int


class Instance(NamedTuple):
    """The number of variables, the objectives, and the rows.

    >>> Instance(0, [], []).variables
    0
    """

    variables: int
    objectives: List[Objective]
    rows: List[Row]


class Names(NamedTuple):
    """Names by number, from 1; a number that has none isn't there.

    >>> name_of_variable(Names({1: 'shop'}, {}), 2)
    'x2'
    """

    variables: Dict[int, str]
    objectives: Dict[int, str]


def is_clauses(path: str) -> bool:
    """Whether a file of this name holds clauses.

    >>> is_clauses('a.mcnf'), is_clauses('a.opb')
    (True, False)
    """
    return path.endswith('.mcnf')


def read_named(path: str) -> Tuple[Instance, Names]:
    """An instance with its names, by one reading, so that the file may be a pipe. `Malformed` names the first wrong line.

    >>> with open('a.opb', 'w') as out:
    ...     _ = out.write('* x1 shop\\nmin: 3 x1 ;\\nx1 >= 1 ;\\n')
    >>> instance, names = read_named('a.opb')
    >>> instance.rows, names.variables
    ([Row(terms=[(1, 1)], relation='>=', bound=1, line=3)], {1: 'shop'})
    """
    lines = read_lines(path)
    return instance_of(path, lines), names_of(path, lines)


def read_instance(path: str) -> Instance:
    """An instance without its names.

    >>> with open('a.mcnf', 'w') as out:
    ...     _ = out.write('h 1 2 0\\no1 3 -1 0\\n')
    >>> read_instance('a.mcnf').objectives
    [Objective(sense='min', terms=[], softs=[(3, [-1])])]
    """
    return instance_of(path, read_lines(path))


def read_names(path: str) -> Names:
    """The names of variables and objectives: a comment of its own line `x5 fibre Cob-Dun`, `min 1 cost` or `max 2 profit`.

    >>> with open('a.opb', 'w') as out:
    ...     _ = out.write('* max 1 profit\\nmax: 3 x1 ;\\n')
    >>> read_names('a.opb').objectives
    {1: 'profit'}
    """
    return names_of(path, read_lines(path))


def instance_of(path: str, lines: Sequence[Line]) -> Instance:
    """The instance that the lines of a file hold, whose name says the format. `Malformed` where it names another tool's.

    >>> instance_of('a.opb', [Line(1, 'min: 3 x1 ;')]).objectives[0].terms
    [(3, 1)]
    """
    mind_ending(path)
    return _instance_of_clauses(path, lines) if is_clauses(path) else _instance_of_statements(path, lines)


def names_of(path: str, lines: Sequence[Line]) -> Names:
    """The names that the lines of a file give; of two the first counts.

    >>> names_of('a.opb', [Line(1, '* x1 shop'), Line(2, '* x1 stall')]).variables
    {1: 'shop'}
    """
    names = Names({}, {})
    mark = re.compile(r'\s*c\s+(.*)' if is_clauses(path) else r'\s*\*\s*(.*)')
    for line in lines:
        comment = mark.fullmatch(line.text)
        named = comment and re.fullmatch(r'(x|min |max )\s*0*([1-9][0-9]{0,18})\s+(\S.*)', comment.group(1).rstrip())
        if named:
            group = names.variables if named.group(1) == 'x' else names.objectives
            group.setdefault(int(named.group(2)), named.group(3))
    return names


def name_of_variable(names: Names, number: int) -> str:
    """A variable's name, or `x` and its number.

    >>> name_of_variable(Names({}, {}), 7)
    'x7'
    """
    return names.variables.get(number, 'x%d' % number)


def name_of_objective(names: Names, number: int) -> str:
    """An objective's name, or `cost` and its number.

    >>> name_of_objective(Names({}, {}), 2)
    'cost 2'
    """
    return names.objectives.get(number, 'cost %d' % number)


def _instance_of_clauses(path: str, lines: Sequence[Line]) -> Instance:
    variables, softs, rows = 0, {}, []  # type: int, Dict[int, List[Soft]], List[Row]
    for number, text in lines:
        words = text.split()
        if not words or words[0].startswith('c'):
            continue
        first = 2 if words[0].startswith('o') else 1
        if not re.fullmatch(r'h|o[0-9]+', words[0]) or not all(is_whole(word) for word in words[1:]) \
                or words[first:].count('0') != 1 or words[-1] != '0':
            raise Malformed(path, number, 'this is no line of hard and soft clauses')
        literals = [whole_of(path, number, word) for word in words[first:-1]]
        variables = max([variables] + [abs(literal) for literal in literals])
        if first == 2:
            objective = whole_of(path, number, words[0][1:])
            softs.setdefault(objective, []).append((whole_of(path, number, words[1]), literals))
        else:
            # A literal that is written twice counts once in a clause.
            rows.append(Row([(1, literal) for literal in dict.fromkeys(literals)], '>=', 1, number))
    return Instance(variables, [Objective('min', [], softs.get(k, [])) for k in range(1, max(softs, default=0) + 1)], rows)


def _statements(path: str, lines: Iterable[Line]) -> Iterator[Tuple[int, List[str]]]:
    """The tokens of each statement, with the line where it begins."""
    words, begun = [], 0  # type: List[str], int
    for number, text in lines:
        if text.lstrip(' \t\r').startswith('*'):
            continue
        for word in re.findall(r'min:|max:|>=|<=|~?x[0-9]+|[0-9]+|[^\s0-9]', text):
            if not words:
                begun = number
            if word != ';':
                words.append(word)
                continue
            yield begun, words
            words = []
    if words:
        raise Malformed(path, begun, 'this statement has no end')


def _instance_of_statements(path: str, lines: Sequence[Line]) -> Instance:
    variables, objectives, rows = 0, [], []  # type: int, List[Objective], List[Row]
    for number, words in _statements(path, lines):
        if words[:1] in (['min:'], ['max:']):
            terms = _terms_of(path, number, words[1:], 'an objective')
            objectives.append(Objective(words[0][:3], terms, []))
        else:
            rows.append(_row_of(path, number, words))
            terms = rows[-1].terms
        variables = max([variables] + [abs(literal) for _, literal in terms])
    return Instance(variables, objectives, rows)


def _row_of(path: str, number: int, words: List[str]) -> Row:
    places = [at for at, word in enumerate(words) if word in ('>=', '<=', '=')]
    bound = ''.join(words[places[0] + 1:]).replace('+', '', 1) if places else ''
    if len(places) != 1 or not is_whole(bound):
        raise Malformed(path, number, 'this is no sum, `>=`, `<=` or `=`, and a bound')
    return Row(_terms_of(path, number, words[:places[0]], 'a constraint'), words[places[0]], whole_of(path, number, bound), number)


def _terms_of(path: str, number: int, words: Iterable[str], where: str) -> List[Term]:
    """Terms, as coefficients with literals."""
    terms, sign, size = [], 1, 1  # type: List[Term], int, int
    for word in words:
        if word in '+-':
            sign = 1 if word == '+' else -1
        elif is_whole(word):
            size = whole_of(path, number, word)
        elif word.startswith(('x', '~x')) and len(word) > 1:
            variable = whole_of(path, number, word.lstrip('~x'))
            terms.append((sign * size, -variable if word.startswith('~') else variable))
            sign, size = 1, 1
        else:
            raise Malformed(path, number, "'%s' stands in %s" % (word, where))
    return terms


def sum_at(terms: Iterable[Term], model: Model) -> int:
    """A sum at a model, which is its literals in the order of their variables.

    >>> sum_at([(3, 1), (5, -2)], [1, -2])
    8
    """
    return sum(weight for weight, literal in terms if model[abs(literal) - 1] == literal)


def costs_of(instance: Instance, model: Model) -> Costs:
    """The costs of a model.

    >>> costs_of(Instance(2, [Objective('min', [(3, 1), (5, -2)], [])], []), [1, -2])
    (8,)
    """
    def is_missed(clause: List[int]) -> bool:
        return not any(model[abs(literal) - 1] == literal for literal in clause)
    return tuple(sum_at(o.terms, model) + sum(weight for weight, clause in o.softs if is_missed(clause)) for o in instance.objectives)


def keeps_to(row: Row, model: Model) -> bool:
    """Whether a model satisfies a row.

    >>> keeps_to(Row([(1, 1), (1, 2)], '<=', 1, 1), [1, 2])
    False
    """
    value = sum_at(row.terms, model)
    return value >= row.bound if row.relation == '>=' else value <= row.bound if row.relation == '<=' else value == row.bound

"""to-wcnf: writes an instance as weighted clauses, one file for each cost, for programs for MaxSAT.

usage: tools/to-wcnf IN BASE

BASE.1.wcnf has the hard clauses of IN and the soft ones of its first objective, BASE.2.wcnf those of the second, and so on. A hard clause
begins with `h`, a soft one with its weight, as programs read it since 2022. A comment says how a cost comes from the weight that is
missed: less a number, or, of a maximised one, a number less it. Rows that count are written as clauses where these are
at most 10,000; a row with different weights that isn't a clause is refused: it wants an encoding, whose choice is its reader's.
Ends with 64 where the words are wrong, 65 where IN can't be taken, 74 where a file can't be read or written.
"""
from itertools import combinations
from math import factorial
from typing import Dict, List, Tuple

from .commands import run_command, usage
from .errors import CannotTake
from .files import write_text
from .instances import Instance, Names, Objective, Row, Term, name_of_objective, read_named

# The most clauses of one row.
MOST_CLAUSES = 10000


def positive(terms: List[Term], bound: int) -> Tuple[List[Term], int]:
    """A sum that is at least a bound, with positive weights and each variable once.

    >>> positive([(1, 1), (-2, 2)], 0)
    ([(1, 1), (2, -2)], 2)
    """
    weights = {}  # type: Dict[int, int]
    for weight, literal in terms:
        weights[abs(literal)] = weights.get(abs(literal), 0) + (weight if literal > 0 else -weight)
        bound -= weight if literal < 0 else 0
    found = [(abs(weight), variable if weight > 0 else -variable) for variable, weight in weights.items() if weight]
    return found, bound - sum(weight for weight in weights.values() if weight < 0)


def clauses_of(path: str, row: Row) -> List[Tuple[int, ...]]:
    """The clauses of a row; `CannotTake` where it has none of its own.

    >>> clauses_of('a.opb', Row([(1, 1), (1, 2), (1, 3)], '<=', 1, 1))
    [(-1, -2), (-1, -3), (-2, -3)]
    """
    found = []  # type: List[Tuple[int, ...]]
    for sign in {'>=': (1,), '<=': (-1,), '=': (1, -1)}[row.relation]:
        terms, bound = positive([(sign * weight, literal) for weight, literal in row.terms], sign * row.bound)
        literals = [literal for _, literal in terms]
        if bound <= 0:
            continue
        if all(weight >= bound for weight, _ in terms):
            found.append(tuple(literals))
            continue
        weight = terms[0][0]
        if any(other != weight for other, _ in terms):
            raise CannotTake(path, 'the row of line %d counts with different weights, and is no clause' % row.line)
        # Of so many literals one has to be true, for else too few are left.
        size = len(literals) - -(-bound // weight) + 1
        if size > 0 and factorial(len(literals)) // factorial(size) // factorial(len(literals) - size) > MOST_CLAUSES:
            raise CannotTake(path, 'the row of line %d would be more than %d clauses' % (row.line, MOST_CLAUSES))
        found += combinations(literals, size) if size > 0 else [()]
    return found


def _wcnf_text(path: str, instance: Instance, names: Names, k: int) -> str:
    """The file of the k-th objective, from 1."""
    objective = instance.objectives[k - 1] if instance.objectives else Objective('min', [], [])
    sign = 1 if objective.sense == 'min' else -1
    # A weight is missed where the opposite of its literal is false.
    softs = [(sign * weight, -literal) for weight, literal in objective.terms]
    offset = sum(weight for weight, _ in softs if weight < 0)
    lines = ['c x%d %s' % pair for pair in sorted(names.variables.items())]
    lines.append('c %s %d %s' % (objective.sense, k, name_of_objective(names, k)))
    lines.append('c the cost is what is missed %+d' % offset if sign == 1 else 'c the cost is %d less what is missed' % -offset)
    for row in instance.rows:
        lines += [' '.join(['h'] + [str(literal) for literal in clause] + ['0']) for clause in clauses_of(path, row)]
    lines += ['%d %d 0' % (abs(weight), literal if weight > 0 else -literal) for weight, literal in softs if weight]
    lines += [' '.join([str(weight)] + [str(literal) for literal in clause] + ['0']) for weight, clause in objective.softs if weight]
    return '\n'.join(lines) + '\n'


def _body(arguments: List[str]) -> int:
    if len(arguments) != 2 or any(word.startswith('--') for word in arguments):
        return usage(str(__doc__))
    instance, names = read_named(arguments[0])
    texts = [_wcnf_text(arguments[0], instance, names, k) for k in range(1, max(1, len(instance.objectives)) + 1)]
    for k, text in enumerate(texts, 1):
        write_text('%s.%d.wcnf' % (arguments[1], k), text)
    return 0


def main(arguments: List[str]) -> int:
    """Runs the command."""
    return run_command(str(__doc__), _body, arguments)

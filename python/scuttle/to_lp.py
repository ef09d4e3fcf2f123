"""to-lp: writes an instance as models in the LP format of CPLEX, one for each cost, for glpsol, cbc, HiGHS and others.

usage: tools/to-lp IN BASE

BASE.1.lp has the first objective of IN and all rows, BASE.2.lp the second, and so on; without an objective there is BASE.1.lp, which
minimises 0. Variables are called x1, x2, ..; comments say their names. A negated literal is 1 - x; what that adds to an
objective stands at a variable `constant`, which is 1. Of a soft clause the variable `missed_J_K` says that it is false.
Ends with 64 where the words are wrong, 65 where IN isn't what it should be, 74 where a file can't be read or written.
"""
from typing import Dict, Iterable, List, Tuple

from .commands import run_command, usage
from .files import printable, write_text
from .instances import Instance, Names, Objective, Term, name_of_objective, read_named

# Readers of the format take no longer lines than 255 letters.
TERMS_A_LINE = 8


def _sum(terms: Iterable[Tuple[int, str]]) -> str:
    """A sum over lines."""
    words = ['%s %d %s' % ('-' if weight < 0 else '+', abs(weight), name) for weight, name in terms]
    return '\n   '.join(' '.join(words[at:at + TERMS_A_LINE]) for at in range(0, len(words), TERMS_A_LINE)) or '0 x1'


def _plain(terms: Iterable[Term]) -> Tuple[List[Tuple[int, str]], int]:
    """A sum over variables alone, and the number that negated literals add. Each variable comes once.

    >>> _plain([(3, 1), (5, -2), (1, 1)])
    ([(4, 'x1'), (-5, 'x2')], 5)
    """
    found, constant = {}, 0  # type: Dict[int, int], int
    for weight, literal in terms:
        found[abs(literal)] = found.get(abs(literal), 0) + (weight if literal > 0 else -weight)
        constant += weight if literal < 0 else 0
    return [(weight, 'x%d' % variable) for variable, weight in found.items() if weight], constant


def _objective(k: int, objective: Objective) -> Tuple[List[Tuple[int, str]], int, List[str]]:
    """The terms of an objective, the number besides, and the rows that say which soft clauses are missed."""
    terms, constant = _plain(objective.terms)
    rows = []
    for at, (weight, clause) in enumerate(objective.softs, 1):
        missed = 'missed_%d_%d' % (k, at)
        terms.append((weight, missed))
        ones, negated = _plain((1, literal) for literal in dict.fromkeys(clause))
        rows.append(' s%d: %s >= %d' % (at, _sum(ones + [(1, missed)]), 1 - negated))
    return terms, constant, rows


def lp_text(instance: Instance, names: Names, k: int) -> str:
    """The model of the k-th objective, from 1.

    >>> from scuttle.instances import Row
    >>> print(lp_text(Instance(1, [Objective('max', [(3, 1)], [])], [Row([(1, -1)], '>=', 0, 1)]), Names({1: 'shop'}, {}), 1), end='')
    \\* x1: shop *\\
    Maximize
     cost_1: + 3 x1
    Subject To
     r1: - 1 x1 >= -1
    Binary
     x1
    End
    """
    objective = instance.objectives[k - 1] if instance.objectives else Objective('min', [], [])
    terms, constant, softs = _objective(k, objective)
    rows = []
    for at, row in enumerate(instance.rows, 1):
        ones, negated = _plain(row.terms)
        rows.append(' r%d: %s %s %d' % (at, _sum(ones), row.relation, row.bound - negated))
    comments = ['\\* x%d: %s *\\' % (number, printable(name)) for number, name in names.variables.items()]
    comments += ['\\* %s: %s *\\' % (objective.sense, printable(name_of_objective(names, k)))] if k in names.objectives else []
    variables = ['x%d' % number for number in range(1, instance.variables + 1)] + ['missed_%d_%d' % (k, at) for at in range(1, len(softs) + 1)]
    lines = comments + ['Maximize' if objective.sense == 'max' else 'Minimize']
    lines += [' cost_%d: %s' % (k, _sum(terms + [(constant, 'constant')] if constant else terms)), 'Subject To']
    lines += rows + softs or [' r1: 0 x1 >= 0']
    lines += ['Bounds', ' constant = 1'] if constant else []
    return '\n'.join(lines + ['Binary'] + [' ' + name for name in variables or ['x1']] + ['End']) + '\n'


def _body(arguments: List[str]) -> int:
    if len(arguments) != 2 or any(word.startswith('--') for word in arguments):
        return usage(str(__doc__))
    instance, names = read_named(arguments[0])
    for k in range(1, max(1, len(instance.objectives)) + 1):
        write_text('%s.%d.lp' % (arguments[1], k), lp_text(instance, names, k))
    return 0


def main(arguments: List[str]) -> int:
    """Runs the command."""
    return run_command(str(__doc__), _body, arguments)
